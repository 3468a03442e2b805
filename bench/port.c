/*
 * port.c - calls the chip and the port of uart_port.c, for tools/c/measure --speed to count.
 *
 * usage: port BODY COUNT
 *
 * Makes COUNT rounds of a body: sixteen calls of one kind, and whatever makes the next round like the first.
 */
#include <stdio.h>
#include <stdlib.h>
#include <string.h>

#include "uart_port.h"

enum { ALL_INTERRUPTS = 0x0f, EACH = 16 };

static struct uart_chip chip;

/* A port of a monitor, and what its monitor has to do. */
static struct uart_port port;
static struct uart_todo todo;

/* What was read, so that no call can be left out. It is also what is written. */
static unsigned digest;

static void lsr(void)
{
    for (int i = 0; i < EACH; i++)
        digest += uart_chip_read(&chip, UART_OFFSET_LSR);
}

/* With as many characters waiting as the FIFO holds. */
static void lsr_full(void)
{
    for (int i = 0; i < EACH; i++)
        uart_chip_arrive(&chip, (uint8_t)digest, 0);
    lsr();
}

static void data_write(void)
{
    uint8_t wire[UART_WIRE_ROOM];

    for (int i = 0; i < EACH; i++)
        uart_chip_write(&chip, UART_OFFSET_DATA, (uint8_t)digest++);
    uart_chip_ticks(&chip, EACH + 1);
    digest += (unsigned)uart_chip_take_wire(&chip, wire, sizeof wire);
}

static void scratch_write(void)
{
    for (int i = 0; i < EACH; i++)
        uart_chip_write(&chip, UART_OFFSET_SPR, (uint8_t)digest++);
}

/* A tick with nothing to send. */
static void tick(void)
{
    for (int i = 0; i < EACH; i++)
        uart_chip_ticks(&chip, 1);
}

/* One tick brings the byte to the shift register, and one sends it. */
static void byte_out(void)
{
    uint8_t byte = 0;

    for (int i = 0; i < EACH; i++) {
        uart_chip_write(&chip, UART_OFFSET_DATA, (uint8_t)digest++);
        uart_chip_ticks(&chip, 2);
        digest += (unsigned)uart_chip_take_wire(&chip, &byte, 1) + byte;
    }
}

static void byte_in_and_read(void)
{
    for (int i = 0; i < EACH; i++) {
        uart_chip_arrive(&chip, (uint8_t)digest, 0);
        digest += uart_chip_read(&chip, UART_OFFSET_DATA);
    }
}

static void interrupt(void)
{
    for (int i = 0; i < EACH; i++)
        digest += uart_chip_is_interrupting(&chip);
}

/* With all of them enabled and none pending: the read withdraws that THR is empty. */
static void interrupt_enabled(void)
{
    uart_chip_write(&chip, UART_OFFSET_IER, ALL_INTERRUPTS);
    digest += uart_chip_read(&chip, UART_OFFSET_ISR);
    interrupt();
}

static void port_lsr(void)
{
    for (int i = 0; i < EACH; i++)
        digest += uart_port_read(&port, UART_OFFSET_LSR, &todo);
}

/* Each byte is taken before the next is written. */
static void port_data_write(void)
{
    for (int i = 0; i < EACH; i++) {
        uart_port_write(&port, UART_OFFSET_DATA, (uint8_t)digest++, &todo);
        digest += *uart_port_output(&port);
        uart_port_take_output(&port, todo.ready, &todo);
    }
}

static void port_byte_in_and_read(void)
{
    for (int i = 0; i < EACH; i++) {
        uint8_t byte = (uint8_t)digest;

        digest += (unsigned)uart_port_receive(&port, &byte, 1, &todo);
        digest += uart_port_read(&port, UART_OFFSET_DATA, &todo);
    }
}

/* With all interrupts enabled: the line goes up and down. */
static void port_byte_in_and_read_enabled(void)
{
    uart_port_write(&port, UART_OFFSET_IER, ALL_INTERRUPTS, &todo);
    digest += uart_port_read(&port, UART_OFFSET_ISR, &todo);
    port_byte_in_and_read();
}

static const struct {
    const char *name;
    void (*make)(void);
} BODIES[] = {
    { "lsr", lsr },
    { "lsr-full", lsr_full },
    { "data-write", data_write },
    { "scratch-write", scratch_write },
    { "tick", tick },
    { "byte-out", byte_out },
    { "byte-in-and-read", byte_in_and_read },
    { "interrupt", interrupt },
    { "interrupt-enabled", interrupt_enabled },
    { "port-lsr", port_lsr },
    { "port-data-write", port_data_write },
    { "port-byte-in-and-read", port_byte_in_and_read },
    { "port-byte-in-and-read-enabled", port_byte_in_and_read_enabled },
};

int main(int count, char **arguments)
{
    if (count != 3 || uart_chip_new(&chip, UART_16550A, 1, UART_WIRE_ROOM, UART_WHOLE_BYTES) != UART_OK)
        return 1;
    uart_chip_write(&chip, UART_OFFSET_FCR, UART_FCR_FIFO_ENABLE);
    uart_port_new(&port, UART_16550A);
    uart_port_write(&port, UART_OFFSET_FCR, UART_FCR_FIFO_ENABLE, &todo);
    for (size_t i = 0; i < sizeof BODIES / sizeof BODIES[0]; i++) {
        if (strcmp(BODIES[i].name, arguments[1]))
            continue;
        for (long rounds = strtol(arguments[2], NULL, 10); rounds > 0; rounds--)
            BODIES[i].make();
    }
    printf("%u\n", digest);
    return 0;
}
