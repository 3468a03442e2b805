// SPDX-License-Identifier: MIT OR GPL-2.0-only
/*
 * Runs the early console as the kernel does, but later: a kernel that is built has no such console
 * any more. It writes a text to the chip at port=, which it sets up if baud= is not 0.
 */
#include <linux/module.h>

#include "early.c"

static unsigned int baud, port = 0x2f8;
module_param(baud, uint, 0444);
module_param(port, uint, 0444);

static int __init begin(void)
{
	static const char text[] = "an early text\n";
	static struct console console;
	static struct earlycon_device device;
	int error;

	device.con = &console;
	device.baud = baud;
	device.port.iotype = UPIO_PORT;
	device.port.iobase = port;
	device.port.uartclk = 1843200;
	console.data = &device;
	error = begin_early(&device, NULL);
	if (!error)
		console.write(&console, text, sizeof(text) - 1);
	return error;
}

static void __exit end(void)
{
}

module_init(begin);
module_exit(end);
MODULE_LICENSE("Dual MIT/GPL");
MODULE_DESCRIPTION("the early console of u16550_tty, for its tests");
