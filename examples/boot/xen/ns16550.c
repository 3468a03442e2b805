/* SPDX-License-Identifier: MIT OR GPL-2.0-or-later */
/*
 * Xen's console at a PC's COM1, 115,200 baud, over u16550_console.c: in place of drivers/char/ns16550.c.
 *
 * A character goes out at once, after a wait that ends if the chip is gone. A timer looks for what comes, a hundred times in a second: a
 * chip's 16 characters last for 1.4 milliseconds, so this is for somebody who types.
 */
#include <xen/init.h>
#include <xen/iocap.h>
#include <xen/sched.h>
#include <xen/serial.h>
#include <xen/timer.h>
#include <asm/io.h>

#define COM1 0x3f8
#define PERIOD MILLISECS(10)

/* Xen has no stdint.h. */
#define U16550_HAS_TYPES
#define U16550_CONSOLE_READ(offset) inb(COM1 + (offset))
#define U16550_CONSOLE_WRITE(offset, value) outb(value, COM1 + (offset))
/* Its declarations stand where they have a value. */
#pragma GCC diagnostic ignored "-Wdeclaration-after-statement"
#include "u16550_console.c"

static struct u16550_console console;
static struct timer timer;

static void cf_check set_up(struct serial_port *port)
{
    u16550_console_init(&console);
}

/* Xen has the port's tx_lock here. */
static void cf_check put(struct serial_port *port, char character)
{
    u16550_console_put(&console, character);
}

/* Xen has the port's rx_lock here, and a console is one processor's at a time. A panic frees both locks. */
static int cf_check get(struct serial_port *port, char *character)
{
    unsigned long flags;
    int byte;

    spin_lock_irqsave(&port->tx_lock, flags);
    byte = u16550_console_get(&console);
    spin_unlock_irqrestore(&port->tx_lock, flags);
    if ( byte < 0 )
        return 0;
    *character = byte;
    return 1;
}

static void cf_check look(void *port)
{
    unsigned int i;

    for ( i = 0; i < 16; i++ )
        serial_rx_interrupt(port, guest_cpu_user_regs());
    set_timer(&timer, NOW() + PERIOD);
}

static void __init cf_check begin_to_look(struct serial_port *port)
{
    init_timer(&timer, look, port, 0);
    set_timer(&timer, NOW() + PERIOD);
}

static void cf_check suspend(struct serial_port *port)
{
    stop_timer(&timer);
}

static void cf_check resume(struct serial_port *port)
{
    set_up(port);
    set_timer(&timer, NOW() + PERIOD);
}

/* The first domain may use all ports but those of its own host's console. */
static void __init cf_check keep_from_domains(struct serial_port *port)
{
    if ( ioports_deny_access(hardware_domain, COM1, COM1 + 7) )
        BUG();
}

static struct uart_driver driver = {
    .init_preirq = set_up,
    .init_postirq = begin_to_look,
    .endboot = keep_from_domains,
    .suspend = suspend,
    .resume = resume,
    .putc = put,
    .getc = get,
};

void __init ns16550_init(int index, struct ns16550_defaults *defaults)
{
    if ( defaults->io_base == COM1 )
        serial_register_uart(index, &driver, NULL);
}
