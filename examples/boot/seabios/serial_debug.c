/* SPDX-License-Identifier: MIT OR Apache-2.0 */
/*
 * The debug port of SeaBIOS over u16550_console.c: what stands in src/hw/serialio.c in the place of its own functions for a 16550.
 *
 * SeaBIOS compiles it for 16 bits and for 32, and prints before it has variables. So a console is on the stack, two bytes, made anew for each
 * character: FIFOs that are taken to be off cost nothing where one character is sent.
 */
#include "u16550_types.h"

#define U16550_CONSOLE_POLLS 100000
#define U16550_CONSOLE_READ(offset) inb((u16)(CONFIG_DEBUG_SERIAL_PORT + (offset)))
#define U16550_CONSOLE_WRITE(offset, value) outb(value, (u16)(CONFIG_DEBUG_SERIAL_PORT + (offset)))
#include "u16550_console.c"

// Setup the debug serial port for output.
void
serial_debug_preinit(void)
{
    struct u16550_console console = { 0, 0 };
    int status;
    if (!CONFIG_DEBUG_SERIAL)
        return;
    status = u16550_console_init(&console);
    if (status)
        dprintf(1, "The serial port is not set up: %d\n", status);
}

void
serial_debug_putc(char c)
{
    struct u16550_console console = { 0, 0 };
    if (!CONFIG_DEBUG_SERIAL)
        return;
    if (c == '\n')
        u16550_console_put(&console, '\r');
    u16550_console_put(&console, (u8)c);
}

// Make sure all serial port writes have been completely sent.
void
serial_debug_flush(void)
{
    struct u16550_console console = { 0, 0 };
    u32 polls;
    if (!CONFIG_DEBUG_SERIAL)
        return;
    for (polls = 0; polls < U16550_CONSOLE_POLLS; polls++)
        if (u16550_console_lsr(&console) & U16550_LSR_TRANSMITTER_EMPTY)
            return;
}
