/*
 * A program for 32-bit x86 that passes arguments in registers, as Linux's kernel and SeaBIOS do: it and u16550.c are built with -mregparm=3.
 * It has neither an operating system's library nor a compiler's. Ends with status 0 if every call got what it was given, and with the line of
 * the first one that did not.
 */
#include "u16550.h"

static void end(int status)
{
    __asm__ volatile("int $0x80" : : "a"(1), "b"(status));
    for (;;)
        ;
}

/* What a compiler calls: this program's, with arguments in registers too. */
void *memcpy(void *to, const void *from, size_t count);
void *memset(void *to, int value, size_t count);

void *memcpy(void *to, const void *from, size_t count)
{
    volatile char *at = to;
    const char *next = from;
    while (count--)
        *at++ = *next++;
    return to;
}

void *memset(void *to, int value, size_t count)
{
    volatile char *at = to;
    while (count--)
        *at++ = (char)value;
    return to;
}

#define IS(expression, wanted) ((expression) == (wanted) ? (void)0 : end(__LINE__ & 127))
#define OK(expression) IS(expression, U16550_OK)

/* ---- a chip of which the registers keep what is written, and which echoes */

struct chip {
    uint8_t registers[8], dll, dlm, byte, has_byte;
    unsigned sent;
};

enum { BASE = 0x2f8, DLAB = 0x80 };

static uint8_t read_register(void *context, uintptr_t address)
{
    struct chip *chip = context;
    switch (address - BASE) {
    case 0:
        chip->has_byte = 0;
        return chip->registers[3] & DLAB ? chip->dll : chip->byte;
    case 1:
        return chip->registers[3] & DLAB ? chip->dlm : chip->registers[1];
    case 5:
        return U16550_LSR_THR_EMPTY | U16550_LSR_TRANSMITTER_EMPTY | chip->has_byte;
    default:
        return chip->registers[(address - BASE) & 7];
    }
}

static void write_register(void *context, uintptr_t address, uint8_t value)
{
    struct chip *chip = context;
    if (address - BASE == 0 && !(chip->registers[3] & DLAB)) {
        chip->byte = value;
        chip->has_byte = 1;
        chip->sent++;
    } else if (address - BASE <= 1 && chip->registers[3] & DLAB) {
        *(address == BASE ? &chip->dll : &chip->dlm) = value;
    } else {
        chip->registers[(address - BASE) & 7] = value;
    }
}

static struct chip chip;
static struct u16550 uart;
static uint8_t rings[64];

static void begin(void)
{
    static const uint8_t bytes[] = { 'a', 'b', 'c' };
    const struct u16550_io io = { &chip, read_register, write_register };
    struct u16550_config config;
    uint64_t limit;
    uint8_t dll, dlm, byte;
    size_t count;

    OK(u16550_new_port(&uart, &io, BASE));
    IS(u16550_new_port(&uart, &io, 0xfff9), U16550_BAD_BASE);
    OK(u16550_default_config(&config));
    config.fifo_trigger_level = 0;
    OK(u16550_init(&uart, &config));
    OK(u16550_dll_dlm(&uart, &dll, &dlm));
    IS(dll, 12);
    IS(dlm, 0);
    /* Four arguments, of which the last is on the stack either way; and one of eight bytes. */
    OK(u16550_send_bytes_exact(&uart, bytes, sizeof bytes, &count));
    IS(count, sizeof bytes);
    IS(chip.sent, sizeof bytes);
    OK(u16550_try_receive_byte(&uart, &byte));
    IS(byte, 'c');
    OK(u16550_set_spin_limit(&uart, 0x100000002));
    OK(u16550_spin_limit(&uart, &limit));
    IS(limit, 0x100000002);
    OK(u16550_ring_new(&uart, rings, sizeof rings, 32, 32));
    OK(u16550_ring_queue(&uart, bytes, sizeof bytes, &count));
    IS(count, sizeof bytes);
    IS(u16550_text(U16550_NULL_POINTER)[0] != 0, 1);
    end(0);
}

/* Linux begins here, with nothing to return to. It aligns the stack, but pushes no return address. */
void _start(void);
__attribute__((force_align_arg_pointer)) void _start(void)
{
    begin();
}
