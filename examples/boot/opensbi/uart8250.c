/* SPDX-License-Identifier: MIT OR Apache-2.0 */
/*
 * OpenSBI's console over u16550.c, for registers in memory: in place of lib/utils/serial/uart8250.c.
 *
 * OpenSBI asks for input without a lock, while another hart may print. A driver is one hart's at a time, so there is a lock here.
 */
#include <sbi/riscv_locks.h>
#include <sbi/sbi_console.h>
#include <sbi/sbi_domain.h>
#include <sbi/sbi_error.h>
#include <sbi_utils/serial/uart8250.h>
#include "u16550.c"

#define PER_MILLE 30 /* so much a baud rate may be off, where the clock is no multiple of it */

static struct u16550 uart;
static spinlock_t lock = SPIN_LOCK_INITIALIZER;

/* Waits for room in the chip. If the spin limit ends the wait, the chip is gone, and so is the character: no hart hangs there. */
static void put(char character)
{
	spin_lock(&lock);
	u16550_send_bytes_exact(&uart, (uint8_t *)&character, 1, NULL);
	spin_unlock(&lock);
}

static int get(void)
{
	uint8_t byte;
	int status;

	spin_lock(&lock);
	status = u16550_try_receive_byte(&uart, &byte);
	spin_unlock(&lock);
	return status == U16550_OK ? byte : -1;
}

/* Sets the chip up. Where nobody says how fast its clock is, or the clock is of no such rate, the chip stays as it was set up before. */
static int set_up(uint32_t frequency, uint32_t baud_rate)
{
	/* Not every chip has a scratch register, by which one is found. What was printed before goes out first. */
	const struct u16550_setup setup = { .checks_presence = 0, .wait = U16550_WAIT_FIRST };
	struct u16550_config config;
	uint8_t dll, dlm;

	u16550_default_config(&config);
	config.frequency = frequency;
	config.baud_rate = baud_rate;
	config.interrupts = 0;
	if (u16550_nearest(&config, PER_MILLE, &config) == U16550_OK)
		return u16550_init_with(&uart, &config, &setup);
	return u16550_attach(&uart, &dll, &dlm);
}

static struct sbi_console_device console = { .name = "uart8250", .console_putc = put, .console_getc = get };

int uart8250_init(unsigned long base, u32 in_freq, u32 baudrate, u32 reg_shift, u32 reg_width, u32 reg_offset)
{
	const struct u16550_layout layout = { .stride = 1 << reg_shift, .width = 8 * reg_width };
	int status = u16550_new_mmio_wide(&uart, base + reg_offset, &layout);

	if (status != U16550_OK || set_up(in_freq, baudrate) != U16550_OK)
		return SBI_ENODEV;
	sbi_console_set_device(&console);
	return sbi_domain_root_add_memrange(base, PAGE_SIZE, PAGE_SIZE, SBI_DOMAIN_MEMREGION_MMIO | SBI_DOMAIN_MEMREGION_SHARED_SURW_MRW);
}
