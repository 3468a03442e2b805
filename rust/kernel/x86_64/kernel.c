/*
 * A kernel for a PC whose console is the driver in C on COM1: a banner, an echo by polling, an echo by interrupts with rings.
 * Then it ends the machine. It is the kernel of kernel.rs, in C.
 */
#include <stddef.h>
#include <stdint.h>

#include "u16550.h"

/* How the machine ends, as the emulator's port for it gets it. The emulator's status is twice this and one. */
enum end {
    DONE = 0x10, NO_CONSOLE = 0x20, NO_RINGS = 0x21, NOT_SENT = 0x22, NO_INTERRUPTS = 0x23, STUCK = 0x24, NOBODY_TYPES = 0x26
};

enum {
    COM1 = 0x3f8, COM1_LINE = 4, ISR = 2,
    EXIT_PORT = 0xf4, PRIMARY = 0x20, SECONDARY = 0xa0, END_OF_INTERRUPT = 0x20,
    VECTORS = 256, FIRST_VECTOR = 0x20, CODE_SEGMENT = 8, INTERRUPT_GATE = 0x8e,
    TYPED = 10000, RING_SIZE = 256,
    LINE_ERRORS = U16550_LSR_OVERRUN_ERROR | U16550_LSR_PARITY_ERROR | U16550_LSR_FRAMING_ERROR
                | U16550_LSR_BREAK_INTERRUPT | U16550_LSR_FIFO_DATA_ERROR
};

/* How many polls in a row a wait makes: more than a quarter of an hour, for somebody who types. */
enum { PATIENCE = 1000000000 };

/* How many interrupts one run of the handler serves, and how many runs in a row may leave some unserved before the chip is stuck. */
enum { MOST_SERVED = 4 * U16550_MAX_INTERRUPTS, MOST_RUNS = 100 };

static struct u16550 console;
static uint8_t ring_memory[2 * RING_SIZE];
static volatile uint32_t interrupts;
static volatile int why_stuck;

/* ---- the machine */

static uint8_t read_port(uint16_t port)
{
    uint8_t value;
    __asm__ volatile("inb %1, %0" : "=a"(value) : "Nd"(port));
    return value;
}

static void write_port(uint16_t port, uint8_t value)
{
    __asm__ volatile("outb %0, %1" : : "a"(value), "Nd"(port));
}

_Noreturn static void end(enum end how)
{
    write_port(EXIT_PORT, (uint8_t)how);
    for (;;)
        __asm__ volatile("cli; hlt");
}

extern void interrupt_entry(void), fault_entry(void);

static void set_gate(uint64_t gate[2], void (*entry)(void))
{
    uint64_t at = (uintptr_t)entry;
    gate[0] = (at & 0xffff) | CODE_SEGMENT << 16 | (uint64_t)INTERRUPT_GATE << 40 | (at >> 16 & 0xffff) << 48;
    gate[1] = at >> 32;
}

static void set_up_controller(uint16_t controller, uint8_t vector, uint8_t connection, uint8_t mask)
{
    write_port(controller, 0x11); /* edges, two controllers */
    write_port(controller + 1, vector);
    write_port(controller + 1, connection);
    write_port(controller + 1, 1);
    write_port(controller + 1, mask);
}

/* Lets COM1's interrupt in, as soon as interrupts are on, and no other. */
static void set_up_interrupts(void)
{
    static uint64_t table[VECTORS][2];
    struct __attribute__((packed)) {
        uint16_t limit;
        uint64_t base;
    } pointer = { sizeof table - 1, (uintptr_t)table };
    for (int vector = 0; vector < VECTORS; vector++)
        set_gate(table[vector], fault_entry);
    set_gate(table[FIRST_VECTOR + COM1_LINE], interrupt_entry);
    __asm__ volatile("lidt %0" : : "m"(pointer));
    set_up_controller(PRIMARY, FIRST_VECTOR, 1 << 2, (uint8_t)~(1 << COM1_LINE));
    set_up_controller(SECONDARY, FIRST_VECTOR + 8, 2, 0xff);
}

/* ---- the console */

/* What ISR of a broken chip always shows while interrupts serve it. 0, which no chip with its FIFO on shows, stands for a sound one. */
#ifndef SHOWN_ISR
#define SHOWN_ISR 0
#endif

static uint8_t is_served;

static uint8_t port_read(void *context, uintptr_t port)
{
    (void)context;
    uint8_t value = read_port((uint16_t)port);
    return SHOWN_ISR != 0 && is_served && port == COM1 + ISR ? SHOWN_ISR : value;
}

static void port_write(void *context, uintptr_t port, uint8_t value)
{
    (void)context;
    write_port((uint16_t)port, value);
}

/* Ends the machine unless a call of the library succeeded. */
static void must(int status, enum end otherwise)
{
    if (status != U16550_OK)
        end(otherwise);
}

static void say(const char *line, size_t len)
{
    must(u16550_write_text(&console, line, len, NULL), NOT_SENT);
    must(u16550_flush(&console), NOT_SENT);
}

#define SAY(line) say(line, sizeof line - 1)

static size_t length_of(const char *text)
{
    size_t len = 0;
    while (text[len] != 0)
        len++;
    return len;
}

static void start(void)
{
    struct u16550_io ports = { NULL, port_read, port_write };
    struct u16550_config config;
    must(u16550_new_port(&console, &ports, COM1), NO_CONSOLE);
    must(u16550_default_config(&config), NO_CONSOLE);
    config.baud_rate = 115200;
    must(u16550_init(&console, &config), NO_CONSOLE);
    must(u16550_test_loopback(&console, NULL), NO_CONSOLE);
    must(u16550_set_spin_limit(&console, PATIENCE), NO_CONSOLE);
}

/* Sends back what is received, by polling. */
static void echo_by_polling(void)
{
    uint8_t slots[64];
    for (size_t left = TYPED, count; left > 0; left -= count) {
        must(u16550_read(&console, slots, left < sizeof slots ? left : sizeof slots, &count), NOBODY_TYPES);
        must(u16550_send_bytes_exact(&console, slots, count, NULL), NOT_SENT);
    }
}

/* The handler of COM1's interrupt. */
void handle_interrupt(void)
{
    struct u16550_handled handled;
    uint8_t scratch;
    int status;
    interrupts++;
    /* Interrupts are off during all other calls, so none is in the middle, and the controller keeps the edges meanwhile. */
    status = u16550_ring_try_handle(&console, MOST_SERVED, MOST_RUNS, &handled);
    if (status == U16550_RING_STUCK_UNKNOWN || status == U16550_RING_STUCK_PENDING)
        why_stuck = status;
    else
        must(status, NO_RINGS);
    /* A read of the chip is answered when all writes before it have arrived, so the controller sees the line that they have made. */
    must(u16550_spr(&console, &scratch), NO_CONSOLE);
    write_port(PRIMARY, END_OF_INTERRUPT);
}

/* Moves bytes from the receive ring to the transmit ring, as many as that has room for, and returns how many. */
static size_t echo_some(void)
{
    uint8_t slots[64];
    size_t waiting, room, count;
    must(u16550_ring_transmit_len(&console, &waiting), NO_RINGS);
    room = RING_SIZE - waiting < sizeof slots ? RING_SIZE - waiting : sizeof slots;
    must(u16550_ring_take(&console, slots, room, &count), NO_RINGS);
    must(u16550_ring_queue(&console, slots, count, &count), NO_RINGS);
    return count;
}

/* Says why the chip is stuck, and ends the machine. */
static void say_stuck(void)
{
    const char *why = u16550_text(why_stuck);
    must(u16550_ring_end(&console), NO_RINGS);
    SAY("\nCOM1 is stuck: ");
    say(why, length_of(why));
    SAY("\n");
    end(STUCK);
}

/* Sends back what is received, by interrupts. Returns the line errors. */
static uint8_t echo_by_interrupts(void)
{
    size_t done = 0, waiting = 1;
    uint8_t line, errors = 0;
    must(u16550_ring_new(&console, ring_memory, sizeof ring_memory, RING_SIZE, RING_SIZE), NO_RINGS);
    set_up_interrupts();
    is_served = 1;
    must(u16550_enable_interrupts(&console, U16550_IER_DATA_READY | U16550_IER_RECEIVER_LINE_STATUS), NO_CONSOLE);
    while (done < TYPED || waiting > 0) {
        size_t count = echo_some();
        done += count;
        if (why_stuck != U16550_OK)
            say_stuck();
        must(u16550_ring_take_line(&console, &line), NO_RINGS);
        errors |= line & LINE_ERRORS;
        must(u16550_ring_transmit_len(&console, &waiting), NO_RINGS);
        if (count > 0)
            __asm__ volatile("sti; nop; cli" : : : "memory");
        else if (done < TYPED || waiting > 0) /* one step: no interrupt comes between the look and the sleep */
            __asm__ volatile("sti; hlt; cli" : : : "memory");
    }
    must(u16550_ring_end(&console), NO_RINGS);
    return errors;
}

void kernel_main(void)
{
    static const char digits[] = "0123456789abcdef";
    char last[] = "\n10000 bytes by interrupts, errors 00\n";
    uint8_t errors;
    start();
    SAY("console on COM1: loopback ok\n");
    echo_by_polling();
    SAY("\n10000 bytes by polling\n");
    errors = echo_by_interrupts();
    if (interrupts == 0)
        end(NO_INTERRUPTS);
    last[sizeof last - 4] = digits[errors >> 4];
    last[sizeof last - 3] = digits[errors & 15];
    SAY(last);
    end(DONE);
}
