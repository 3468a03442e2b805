/* A PC with 64 or 32 bits: COM1 at I/O ports, and the 8259, which detects edges. */
#include "board.h"

enum { COM1 = 0x3f8, COM1_LINE = 4 };
enum { PRIMARY = 0x20, SECONDARY = 0xa0, END_OF_INTERRUPT = 0x20, FIRST_VECTOR = 0x20 };
enum { CODE_SEGMENT = 8, INTERRUPT_GATE = 0x8e, VECTORS = 256 };

struct interrupt_frame;

/* What the processor has of a vector. */
struct gate {
    uint16_t low;
    uint16_t segment;
    uint8_t stack;
    uint8_t type;
    uint16_t middle;
#if defined(__x86_64__)
    uint32_t high;
    uint32_t reserved;
#endif
};

struct __attribute__((packed)) table_pointer {
    uint16_t limit;
    uintptr_t base;
};

static struct gate table[VECTORS];

const uint32_t board_frequency = 1843200;

static uint8_t read_port(void *context, uintptr_t port)
{
    uint8_t value;
    (void)context;
    __asm__ volatile("inb %w1, %0" : "=a"(value) : "Nd"(port));
    return value;
}

static void write_port(void *context, uintptr_t port, uint8_t value)
{
    (void)context;
    __asm__ volatile("outb %0, %w1" : : "a"(value), "Nd"(port));
}

int board_new(struct u16550 *uart)
{
    struct u16550_io ports = { NULL, read_port, write_port };
    return u16550_new_port(uart, &ports, COM1);
}

/* The entry of COM1's interrupt. */
__attribute__((interrupt)) static void enter(struct interrupt_frame *frame)
{
    (void)frame;
    console_interrupt();
    write_port(NULL, PRIMARY, END_OF_INTERRUPT);
}

static void set_up_controller(uintptr_t controller, uint8_t vector, uint8_t connection, uint8_t mask)
{
    write_port(NULL, controller, 0x11); /* edges, two controllers */
    write_port(NULL, controller + 1, vector);
    write_port(NULL, controller + 1, connection);
    write_port(NULL, controller + 1, 1);
    write_port(NULL, controller + 1, mask);
}

void board_set_up_interrupts(void)
{
    struct table_pointer pointer = { sizeof table - 1, (uintptr_t)table };
    struct gate *gate = &table[FIRST_VECTOR + COM1_LINE];
    uintptr_t entry = (uintptr_t)enter;
    gate->low = (uint16_t)entry;
    gate->segment = CODE_SEGMENT;
    gate->type = INTERRUPT_GATE;
    gate->middle = (uint16_t)(entry >> 16);
#if defined(__x86_64__)
    gate->high = (uint32_t)(entry >> 32);
#endif
    __asm__ volatile("lidt %0" : : "m"(pointer));
    set_up_controller(PRIMARY, FIRST_VECTOR, 1 << 2, (uint8_t)~(1 << COM1_LINE));
    set_up_controller(SECONDARY, FIRST_VECTOR + 8, 2, 0xff);
}

void board_interrupts_on(void)
{
    /* The instruction behind sti is not interrupted. */
    __asm__ volatile("sti; nop" : : : "memory");
}

void board_interrupts_off(void)
{
    __asm__ volatile("cli" : : : "memory");
}
