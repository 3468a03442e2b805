// SPDX-License-Identifier: MIT OR GPL-2.0-or-later
/*
 * U-Boot's 16550 driver over u16550.c, for boards whose registers are I/O ports or bytes in memory: in place of drivers/serial/ns16550.c.
 *
 * U-Boot looks and never waits in here: an operation that finds nothing to do says so, and the code above calls it again.
 */
#include <common.h>
#include <clk.h>
#include <dm.h>
#include <errno.h>
#include <serial.h>
#include <asm/io.h>
#include <linux/err.h>
#include <linux/kernel.h>
#include <linux/stddef.h>
#include <linux/types.h>

/* The library as a part of this file: U-Boot has the types itself, and no stdint.h. */
#define U16550_HAS_TYPES
#include "u16550.c"

/* How much of an odd clock's baud rate may be off, in thousandths. */
#define TOLERANCE 30

/* What the device tree says of a port. */
struct place {
	fdt_addr_t base;
	u32 shift;
	u32 clock;
};

/* A port. */
struct line {
	struct u16550 uart;
	struct u16550_config config;
};

static uint8_t read_register(void *context, uintptr_t address)
{
#ifdef CONFIG_SYS_NS16550_PORT_MAPPED
	return inb(address);
#else
	return readb((void *)address);
#endif
}

static void write_register(void *context, uintptr_t address, uint8_t value)
{
#ifdef CONFIG_SYS_NS16550_PORT_MAPPED
	outb(value, address);
#else
	writeb(value, (void *)address);
#endif
}

/* Makes the driver for the registers. */
static int make(struct line *line, const struct place *place)
{
	struct u16550_io io = { NULL, read_register, write_register };

#ifdef CONFIG_SYS_NS16550_PORT_MAPPED
	return u16550_new_port(&line->uart, &io, place->base);
#else
	return u16550_new_mmio(&line->uart, &io, (uintptr_t)map_physmem(place->base, 0, MAP_NOCACHE), 1 << place->shift);
#endif
}

/* What U-Boot calls an error. */
static int error_of(int status)
{
	switch (status) {
	case U16550_OK:
		return 0;
	case U16550_SEND_NO_CAPACITY:
	case U16550_RECEIVE_NO_DATA:
		return -EAGAIN;
	case U16550_INIT_DEVICE_NOT_PRESENT:
		return -ENODEV;
	case U16550_INIT_STALLED:
	case U16550_FRAME_STALLED:
		return -ETIMEDOUT;
	}
	return -EINVAL;
}

/* Writes baud rate and frame once all that was sent is on the line. The configuration is kept if that was done. */
static int set(struct line *line, const struct u16550_config *config)
{
	struct u16550_config nearest;
	int status = u16550_nearest(config, TOLERANCE, &nearest);

	if (status == U16550_OK)
		status = u16550_set_frame_when_idle(&line->uart, &nearest);
	if (status == U16550_OK)
		line->config = *config;
	return error_of(status);
}

/* ------------------------------------------------------------------ the operations */

static int put_character(struct udevice *dev, const char character)
{
	struct line *line = dev_get_priv(dev);

	return error_of(u16550_try_send_byte(&line->uart, character));
}

/* Returns how many of the characters the chip took. */
static ssize_t put_characters(struct udevice *dev, const char *text, size_t len)
{
	struct line *line = dev_get_priv(dev);
	size_t count = 0;
	int status = u16550_send_bytes(&line->uart, (const uint8_t *)text, len, &count);

	return status == U16550_OK ? count : error_of(status);
}

static int get_character(struct udevice *dev)
{
	struct line *line = dev_get_priv(dev);
	uint8_t byte;
	int error = error_of(u16550_try_receive_byte(&line->uart, &byte));

	return error ? error : byte;
}

/* Whether characters wait to be read, or are not yet on the line. */
static int is_pending(struct udevice *dev, bool input)
{
	struct line *line = dev_get_priv(dev);
	uint8_t idle = 1;

	if (input)
		return u16550_ready_to_receive(&line->uart) == U16550_OK;
	u16550_is_idle(&line->uart, &idle);
	return !idle;
}

static int set_baud_rate(struct udevice *dev, int baud_rate)
{
	struct line *line = dev_get_priv(dev);
	struct u16550_config config = line->config;

	config.baud_rate = baud_rate;
	return set(line, &config);
}

static int set_frame(struct udevice *dev, uint frame)
{
	static const u8 bits[] = {
		[SERIAL_5_BITS] = 5, [SERIAL_6_BITS] = 6, [SERIAL_7_BITS] = 7, [SERIAL_8_BITS] = 8,
	};
	struct line *line = dev_get_priv(dev);
	struct u16550_config config = line->config;

	switch (SERIAL_GET_PARITY(frame)) {
	case SERIAL_PAR_NONE:
		config.parity = U16550_PARITY_NONE;
		break;
	case SERIAL_PAR_ODD:
		config.parity = U16550_PARITY_ODD;
		break;
	case SERIAL_PAR_EVEN:
		config.parity = U16550_PARITY_EVEN;
		break;
	default:
		return -ENOTSUPP;
	}
	if (SERIAL_GET_STOP(frame) != SERIAL_ONE_STOP && SERIAL_GET_STOP(frame) != SERIAL_TWO_STOP)
		return -ENOTSUPP;
	config.data_bits = bits[SERIAL_GET_BITS(frame)];
	config.extra_stop_bits = SERIAL_GET_STOP(frame) == SERIAL_TWO_STOP;
	return set(line, &config);
}

static int get_info(struct udevice *dev, struct serial_device_info *info)
{
	const struct place *place = dev_get_plat(dev);

	info->type = SERIAL_CHIP_16550_COMPATIBLE;
	info->addr_space = IS_ENABLED(CONFIG_SYS_NS16550_PORT_MAPPED) ? SERIAL_ADDRESS_SPACE_IO : SERIAL_ADDRESS_SPACE_MEMORY;
	info->addr = place->base;
	info->reg_width = 1;
	info->reg_shift = place->shift;
	info->reg_offset = 0;
	info->clock = place->clock;
	return 0;
}

static const struct dm_serial_ops operations = {
	.putc = put_character,
	.puts = put_characters,
	.getc = get_character,
	.pending = is_pending,
	.setbrg = set_baud_rate,
	.setconfig = set_frame,
	.getinfo = get_info,
};

/* ------------------------------------------------------------------ the device */

static int read_tree(struct udevice *dev)
{
	struct place *place = dev_get_plat(dev);
	struct clk clock;

	place->base = dev_read_addr(dev);
	place->shift = dev_read_u32_default(dev, "reg-shift", 0);
	place->clock = dev_read_u32_default(dev, "clock-frequency", 0);
	if (place->clock == 0 && clk_get_by_index(dev, 0, &clock) == 0) {
		ulong rate = clk_get_rate(&clock);

		place->clock = IS_ERR_VALUE(rate) ? 0 : rate;
	}
	if (place->base == FDT_ADDR_T_NONE || place->clock == 0 || place->shift > 7)
		return -EINVAL;
	if (dev_read_u32_default(dev, "reg-io-width", 1) != 1 || dev_read_u32_default(dev, "reg-offset", 0) != 0)
		return -ENOTSUPP;
	return 0;
}

/* Sets the port up. What was sent before is on the line first. */
static int probe(struct udevice *dev)
{
	const struct place *place = dev_get_plat(dev);
	const struct u16550_setup setup = { 1, U16550_WAIT_FIRST, U16550_MCR_DTR | U16550_MCR_RTS };
	struct line *line = dev_get_priv(dev);
	struct u16550_config nearest;
	int status = make(line, place);

	if (status == U16550_OK)
		status = u16550_default_config(&line->config);
	line->config.frequency = place->clock;
	line->config.baud_rate = CONFIG_BAUDRATE;
	if (status == U16550_OK)
		status = u16550_nearest(&line->config, TOLERANCE, &nearest);
	if (status == U16550_OK)
		status = u16550_init_with(&line->uart, &nearest, &setup);
	return error_of(status);
}

static const struct udevice_id ids[] = {
	{ .compatible = "ns16550" },
	{ .compatible = "ns16550a" },
	{}
};

U_BOOT_DRIVER(ns16550_serial) = {
	.name = "ns16550_serial",
	.id = UCLASS_SERIAL,
	.of_match = ids,
	.of_to_plat = read_tree,
	.plat_auto = sizeof(struct place),
	.priv_auto = sizeof(struct line),
	.probe = probe,
	.ops = &operations,
};
