/*
 * All calls of a console at random over a device that is partly at random, and a hash of all that they do: each access, each result, and
 * what is kept. The same program runs over u16550.c, whose driver has the values that a console has for ever (OVER_DRIVER), and over
 * u16550_console.c, and prints the same.
 */
#if defined(OVER_DRIVER)
#include "u16550.h"
#else
#include "u16550_console.h"
#endif

#include "choices.h"
#include "console_config.h"

/* ---- the device */

enum { DATA, IER, ISR, LCR, MCR, LSR, MSR, SPR, FCR = ISR, DLAB = 0x80, LOOP_BACK = 0x10, FIFO = 16 };

/* What a device is: at random, a chip, a chip of which one read of 40 or of 8 is at random, one that never runs out of data, and one that
   shows an empty LSR after some time. */
enum kind { ANY, CHIP, LIES_SELDOM, LIES_OFTEN, ENDLESS, STOPS, KINDS };

static struct device {
    enum kind kind;
    uint8_t registers[8], latch[2], queue[FIFO], count, is_on;
    uint32_t polls_left;
} chip;

static uint8_t likely(void)
{
    static const uint8_t bytes[11] = { 0, 0xff, 0x20, 0x60, 0x61, 0x21, 0xc1, 0x10, 0x80, 0x42, 0x73 };
    return below(2) ? any_byte() : bytes[below(11)];
}

static uint8_t taken(void)
{
    uint8_t byte = chip.queue[0];
    if (chip.count == 0)
        return 0;
    chip.count--;
    for (uint8_t i = 0; i < chip.count; i++)
        chip.queue[i] = chip.queue[i + 1];
    return byte;
}

static void arrive(uint8_t byte)
{
    if (chip.count < (chip.is_on ? FIFO : 1))
        chip.queue[chip.count++] = byte;
}

/* Mostly empty; now and then a byte arrives from the line, or an error. */
static uint8_t line_status(void)
{
    uint8_t room = (uint8_t)(below(6) ? 0x60 : below(2) ? 0x20 : 0);
    if (!(chip.registers[MCR] & LOOP_BACK) && below(8) == 0)
        arrive(any_byte());
    return (uint8_t)(room | (chip.count > 0) | (below(8) ? 0 : below(32) & 0x1e));
}

static uint8_t modem_status(void)
{
    uint8_t mcr = chip.registers[MCR];
    if (mcr & LOOP_BACK)
        return (uint8_t)((mcr & 0x0c) << 4 | (mcr & 1) << 5 | (mcr & 2) << 3);
    return (uint8_t)(below(4) ? 0xb0 : any_byte());
}

static uint8_t working(unsigned offset)
{
    if ((chip.registers[LCR] & DLAB) && offset < 2)
        return chip.latch[offset];
    switch (offset) {
    case DATA:
        return taken();
    case ISR:
        return chip.is_on ? 0xc1 : 1;
    case LSR:
        return line_status();
    case MSR:
        return modem_status();
    default:
        return chip.registers[offset];
    }
}

static uint8_t answer(unsigned offset)
{
    if (chip.kind == ANY || (chip.kind == LIES_SELDOM && below(40) == 0) || (chip.kind == LIES_OFTEN && below(8) == 0))
        return likely();
    if (chip.kind == ENDLESS && offset == LSR)
        return 0x61;
    if (chip.kind == STOPS && offset == LSR) {
        if (chip.polls_left == 0)
            return 0;
        chip.polls_left--;
    }
    return working(offset);
}

uint8_t read_of_console(unsigned offset)
{
    uint8_t value = answer(offset & 7);
    note(0x10000u + offset * 256 + value);
    return value;
}

void write_of_console(unsigned offset, uint8_t value)
{
    note(0x20000000u + offset * 256 + value);
    if ((chip.registers[LCR] & DLAB) && offset < 2) {
        chip.latch[offset] = value;
    } else if (offset == DATA) {
        if (chip.registers[MCR] & LOOP_BACK)
            arrive(value);
    } else if (offset == FCR) {
        chip.is_on = value & 1;
        if (value & 2)
            chip.count = 0;
    } else {
        chip.registers[offset & 7] = value;
    }
}

static void begin_device(void)
{
    static struct device none;
    chip = none;
    chip.kind = (enum kind)below(KINDS);
    chip.polls_left = below(60);
    chip.registers[LCR] = (uint8_t)(below(8) ? 3 : any_byte());
    chip.registers[MCR] = (uint8_t)(below(8) ? 0x0b : any_byte() & 0x1f);
    chip.latch[0] = (uint8_t)(below(4) ? 12 : 0);
    chip.latch[1] = (uint8_t)(below(4) ? 0 : any_byte());
    chip.is_on = (uint8_t)below(2);
}

/* ---- the calls, over the one and over the other */

#if defined(OVER_DRIVER)
static struct u16550 uart;
static struct u16550_config config;

static uint8_t read_register(void *context, uintptr_t offset)
{
    (void)context;
    return read_of_console((unsigned)offset);
}

static void write_register(void *context, uintptr_t offset, uint8_t value)
{
    (void)context;
    write_of_console((unsigned)offset, value);
}

static void begin_console(uint8_t fifo_enabled, uint8_t saved_lsr)
{
    static const struct u16550_io io = { NULL, read_register, write_register };
    static struct u16550 none;
    struct u16550_state state;
    uart = none;
    note((uint64_t)(uint32_t)u16550_default_config(&config));
    config.frequency = U16550_CONSOLE_FREQUENCY;
    config.baud_rate = U16550_CONSOLE_BAUD_RATE;
    state.spin_limit = U16550_CONSOLE_POLLS;
    state.config = config;
    state.fifo_enabled = fifo_enabled;
    state.saved_lsr = saved_lsr;
    state.saved_msr = 0;
    state.fifo_size = FIFO;
    note((uint64_t)(uint32_t)u16550_from_state(&uart, &io, &state));
}

static int init(void)
{
    return u16550_init(&uart, &config);
}

static int attach(void)
{
    uint8_t dll, dlm;
    return u16550_attach(&uart, &dll, &dlm);
}

static int test_loopback(void)
{
    return u16550_test_loopback(&uart, NULL);
}

static int put(uint8_t byte)
{
    return u16550_send_bytes_exact(&uart, &byte, 1, NULL);
}

static int try_put(uint8_t byte)
{
    return u16550_try_send_byte(&uart, byte);
}

static int get(void)
{
    uint8_t byte = 0;
    return u16550_try_receive_byte(&uart, &byte) == U16550_OK ? byte : -1;
}

static size_t send(const uint8_t *bytes, size_t len)
{
    size_t done = 0;
    return u16550_send_bytes_exact(&uart, bytes, len, &done) == U16550_OK ? len : done;
}

static int write_text(const char *text, size_t len)
{
    return u16550_write_raw_text(&uart, text, len, NULL);
}

static int emergency(void)
{
    return u16550_emergency(&uart);
}

static uint8_t line_errors(void)
{
    uint8_t lsr = 0;
    note((uint64_t)(uint32_t)u16550_lsr(&uart, &lsr));
    return lsr;
}

static void note_kept(void)
{
    struct u16550_state state;
    note((uint64_t)(uint32_t)u16550_get_state(&uart, &state));
    note(state.fifo_enabled * UINT64_C(256) + state.saved_lsr);
}
#else
static struct u16550_console uart;

static void begin_console(uint8_t fifo_enabled, uint8_t saved_lsr)
{
    uart.fifo_enabled = fifo_enabled;
    uart.saved_lsr = saved_lsr;
    note(U16550_CONSOLE_OK);
    note(U16550_CONSOLE_OK);
}

static int init(void)
{
    return u16550_console_init(&uart);
}

static int attach(void)
{
    return u16550_console_attach(&uart);
}

static int test_loopback(void)
{
    return u16550_console_test_loopback(&uart);
}

static int put(uint8_t byte)
{
    return u16550_console_put(&uart, byte);
}

static int try_put(uint8_t byte)
{
    return u16550_console_try_put(&uart, byte);
}

static int get(void)
{
    return u16550_console_get(&uart);
}

static size_t send(const uint8_t *bytes, size_t len)
{
    return u16550_console_send(&uart, bytes, len);
}

static int write_text(const char *text, size_t len)
{
    return u16550_console_write_text(&uart, text, len);
}

static int emergency(void)
{
    return u16550_console_emergency(&uart);
}

static uint8_t line_errors(void)
{
    uint8_t lsr = u16550_console_lsr(&uart);
    note(U16550_CONSOLE_OK);
    return lsr;
}

static void note_kept(void)
{
    note(U16550_CONSOLE_OK);
    note(uart.fifo_enabled * UINT64_C(256) + uart.saved_lsr);
}
#endif

/* ---- calls at random */

enum { INIT, ATTACH, TEST_LOOPBACK, PUT, TRY_PUT, GET, SEND, WRITE_TEXT, EMERGENCY, LINE_ERRORS, CALLS_OF_CONSOLE };
enum { ROOM = 48, MOST_OF_ONE = 16 };

static uint8_t bytes[ROOM];
/* How often each call was made, and how often it returned 0, or all. */
static uint32_t times[CALLS_OF_CONSOLE][2];

/* Bytes of which half can be printed, and some are expanded in a text. */
static void fill(size_t len)
{
    static const uint8_t expanded[5] = { '\n', '\b', 0x7f, '\r', 0xff };
    for (size_t i = 0; i < len; i++)
        bytes[i] = below(4) == 0 ? expanded[below(5)] : below(2) ? (uint8_t)(32 + below(95)) : any_byte();
}

static int made(uint32_t which, size_t len)
{
    switch (which) {
    case INIT:
        return init();
    case ATTACH:
        return attach();
    case TEST_LOOPBACK:
        return test_loopback();
    case PUT:
        return put(bytes[0]);
    case TRY_PUT:
        return try_put(bytes[0]);
    case GET:
        return get();
    case SEND: {
        size_t sent = send(bytes, len);
        note(sent);
        return sent != len;
    }
    case WRITE_TEXT:
        return write_text((const char *)bytes, len);
    case EMERGENCY:
        return emergency();
    default:
        return line_errors();
    }
}

static void call(void)
{
    uint32_t which = below(CALLS_OF_CONSOLE);
    size_t len = below(ROOM);
    int result;
    fill(ROOM);
    note(0xabc0000u + which);
    result = made(which, len);
    note((uint64_t)(uint32_t)result);
    note_kept();
    times[which][which == GET ? result < 0 : result != 0]++;
}

/* Makes so many calls. Prints the hash after each thousand, and in the end how many calls never succeeded or never failed. */
static void compare(uint64_t seed, uint32_t total)
{
    uint32_t never = 0;
    choices = seed;
    hash = 1;
    for (uint32_t done = 0; done < total; done++) {
        if (done % MOST_OF_ONE == 0) {
            uint8_t fifo_enabled = (uint8_t)below(2), saved_lsr = (uint8_t)(below(32) & 0x1e);
            begin_device();
            begin_console(fifo_enabled, saved_lsr);
        }
        call();
        if (done % 1000 == 999 || done + 1 == total) {
            print_number(done + 1, 10, " calls: ");
            print_number(hash, 16, "\n");
        }
    }
    for (uint32_t which = 0; which < CALLS_OF_CONSOLE; which++)
        never += (times[which][0] == 0) + (times[which][1] == 0);
    print_number(never, 10, " kinds of calls were never made\n");
}
