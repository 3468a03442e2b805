/* SPDX-License-Identifier: MIT OR GPL-2.0-only */
/*
 * coreboot's console at a port of a PC over u16550_console.c: in place of src/drivers/uart/uart8250io.c.
 *
 * Each stage of coreboot is a program with this in it. There is one port, whatever its index.
 */
#include <arch/io.h>
#include <boot/coreboot_tables.h>
#include <console/uart.h>

/* 0x3f8, 0x2f8, 0x3e8, 0x2e8 */
#define BASE (0x3f8 - (CONFIG_UART_FOR_CONSOLE & 1) * 0x100 - (CONFIG_UART_FOR_CONSOLE >> 1) * 0x10)
#define CHARACTER_POLLS 50000 /* some 50 milliseconds, as an access to a port takes one microsecond */
#define FIFO_POLLS (16 * CHARACTER_POLLS)

#define U16550_CONSOLE_BAUD_RATE CONFIG_TTYS0_BAUD
#define U16550_CONSOLE_POLLS FIFO_POLLS
#define U16550_CONSOLE_READ(offset) inb(BASE + (offset))
#define U16550_CONSOLE_WRITE(offset, value) outb(value, BASE + (offset))
#include "u16550_console.c"

static struct u16550_console console;

uintptr_t uart_platform_base(unsigned int idx)
{
	return BASE;
}

void uart_tx_flush(unsigned int idx)
{
	for (int poll = 0; poll < FIFO_POLLS; poll++)
		if (u16550_console_lsr(&console) & U16550_LSR_TRANSMITTER_EMPTY)
			return;
}

void uart_init(unsigned int idx)
{
	/* The stage before may have characters on their way, which another divisor or frame would break. */
	uart_tx_flush(idx);
	if (CONFIG(DRIVERS_UART_8250IO_SKIP_INIT))
		u16550_console_attach(&console);
	else
		u16550_console_init(&console);
}

void uart_tx_byte(unsigned int idx, unsigned char data)
{
	u16550_console_put(&console, data);
}

unsigned char uart_rx_byte(unsigned int idx)
{
	for (int poll = 0; poll < CHARACTER_POLLS; poll++) {
		int byte = u16550_console_get(&console);
		if (byte >= 0)
			return byte;
	}
	return 0;
}

void uart_fill_lb(void *data)
{
	struct lb_serial serial = {
		.type = LB_SERIAL_TYPE_IO_MAPPED,
		.baseaddr = BASE,
		.baud = CONFIG_TTYS0_BAUD,
		.regwidth = 1,
		.input_hertz = uart_platform_refclk(),
		.uart_pci_addr = CONFIG_UART_PCI_ADDR,
	};

	lb_add_serial(&serial, data);
	lb_add_console(LB_TAG_CONSOLE_SERIAL8250, data);
}
