// SPDX-License-Identifier: MIT OR GPL-2.0-only
/*
 * A console before there are drivers, where this one is built into the kernel:
 * earlycon=u16550,io,0x3f8 at a PC, or u16550,mmio,0x10000000. With a speed behind that, as in
 * 0x3f8,115200, the chip is set up, and else it stays as firmware has left it. The kernel ends it
 * when another console comes.
 */
#include <linux/console.h>
#include <linux/errno.h>
#include <linux/init.h>
#include <linux/io.h>
#include <linux/serial_core.h>

#define U16550_HAS_TYPES		/* linux/types.h */
#include "u16550.h"

static struct u16550 uart;

/* Like the others, these are for the library. Its waits end after its own spin limit. */
static uint8_t read_early(void *context, uintptr_t offset)
{
	struct uart_port *port = context;

	return port->iotype == UPIO_PORT ? inb(port->iobase + offset) :
					   readb(port->membase + (offset << port->regshift));
}

static void write_early(void *context, uintptr_t offset, uint8_t value)
{
	struct uart_port *port = context;

	if (port->iotype == UPIO_PORT)
		outb(value, port->iobase + offset);
	else
		writeb(value, port->membase + (offset << port->regshift));
}

static void put_early(struct uart_port *port, unsigned char character)
{
	u16550_send_bytes_exact(&uart, &character, 1, NULL);
}

static void write_text_early(struct console *console, const char *text, unsigned int len)
{
	struct earlycon_device *device = console->data;

	uart_console_write(&device->port, text, len, put_early);
}

/* What firmware has set up is taken over as in a panic: nobody knows in which state that is. */
static int __init set_up_early(struct earlycon_device *device)
{
	struct u16550_setup setup = { 1, U16550_WAIT_NEVER, U16550_MCR_DTR | U16550_MCR_RTS };
	struct u16550_config config;
	int status;

	if (!device->baud)
		return u16550_emergency(&uart);
	status = u16550_default_config(&config);
	config.frequency = device->port.uartclk;
	config.baud_rate = device->baud;
	config.interrupts = 0;
	return status == U16550_OK ? u16550_init_with(&uart, &config, &setup) : status;
}

static int __init begin_early(struct earlycon_device *device, const char *options)
{
	struct u16550_io io = { &device->port, read_early, write_early };

	if (device->port.iotype != UPIO_PORT && device->port.iotype != UPIO_MEM)
		return -EINVAL;
	if (u16550_new(&uart, &io) != U16550_OK || set_up_early(device) != U16550_OK)
		return -ENODEV;
	device->con->write = write_text_early;
	return 0;
}

EARLYCON_DECLARE(u16550, begin_early);
