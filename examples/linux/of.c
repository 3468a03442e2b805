// SPDX-License-Identifier: MIT OR GPL-2.0-only
/*
 * Chips of a device tree, as boards have them. Their registers are in memory. How far apart, and
 * how wide, are properties of the node; so are the clocks, which have to run, and the line that
 * holds the chip in reset.
 *
 * The chips of Synopsys' DesignWare ignore a write of LCR while they are busy. The library has a
 * device for them, which needs one register more than the eight.
 */
#include <linux/clk.h>
#include <linux/err.h>
#include <linux/mod_devicetable.h>
#include <linux/module.h>
#include <linux/platform_device.h>
#include <linux/property.h>
#include <linux/reset.h>

#include "tty.h"

#define DESIGN_WARE_REGISTERS 32	/* up to the one that says whether the chip is busy */
#define MOST_SHIFT 4

enum kind { PLAIN, DESIGN_WARE };

static const struct of_device_id devices[] = {
	{ .compatible = "ns16550a", .data = (void *)PLAIN },
	{ .compatible = "ns16550", .data = (void *)PLAIN },
	{ .compatible = "snps,dw-apb-uart", .data = (void *)DESIGN_WARE },
	{ }
};
MODULE_DEVICE_TABLE(of, devices);

/* Returns whether registers can be accessed so. */
static bool set_width(struct u16550_tty_chip *chip, u32 bytes, bool is_big_endian)
{
	switch (bytes) {
	case 1:
		chip->iotype = UPIO_MEM;
		return true;
	case 2:
		chip->iotype = UPIO_MEM16;
		return !is_big_endian;
	case 4:
		chip->iotype = is_big_endian ? UPIO_MEM32BE : UPIO_MEM32;
		return true;
	}
	return false;
}

static int find_registers(struct platform_device *device, struct u16550_tty_chip *chip)
{
	struct resource *memory = platform_get_resource(device, IORESOURCE_MEM, 0);
	u32 offset = 0, shift = 0, width = 1;
	bool is_big_endian;

	if (!memory)
		return -ENODEV;
	device_property_read_u32(&device->dev, "reg-offset", &offset);
	device_property_read_u32(&device->dev, "reg-shift", &shift);
	device_property_read_u32(&device->dev, "reg-io-width", &width);
	if (shift > MOST_SHIFT || width > 1u << shift || offset >= resource_size(memory))
		return -EINVAL;
	chip->memory = memory->start + offset;
	chip->size = resource_size(memory) - offset;
	chip->shift = shift;
	if (chip->size < (chip->is_design_ware ? DESIGN_WARE_REGISTERS : REGISTERS) << shift)
		return -EINVAL;
	is_big_endian = device_property_read_bool(&device->dev, "big-endian");
	return set_width(chip, width, is_big_endian) ? 0 : -EINVAL;
}

/*
 * Has a clock run as long as the driver has the device. Without one in the device tree there is
 * none.
 */
static struct clk *run_clock(struct device *device, const char *name)
{
	return devm_clk_get_optional_enabled(device, name);
}

/* How fast the chip's clock is: a property says that, or the clock itself. */
static int find_frequency(struct device *device, struct u16550_tty_chip *chip)
{
	struct clk *clock = run_clock(device, "baudclk"), *bus = run_clock(device, "apb_pclk");

	if (!clock)
		clock = run_clock(device, NULL);
	if (IS_ERR(clock))
		return PTR_ERR(clock);
	if (IS_ERR(bus))
		return PTR_ERR(bus);
	if (device_property_read_u32(device, "clock-frequency", &chip->frequency))
		chip->frequency = clk_get_rate(clock);
	return chip->frequency ? 0 : -EINVAL;
}

static void hold(void *reset)
{
	reset_control_assert(reset);
}

static int release(struct device *device)
{
	struct reset_control *reset = devm_reset_control_get_optional_exclusive(device, NULL);
	int error;

	if (IS_ERR(reset))
		return PTR_ERR(reset);
	error = reset_control_deassert(reset);
	return error ? error : devm_add_action_or_reset(device, hold, reset);
}

static void remove(void *device)
{
	u16550_tty_remove(device);
}

static int probe(struct platform_device *device)
{
	struct u16550_tty_chip chip = {
		.is_design_ware = device_get_match_data(&device->dev) == (void *)DESIGN_WARE,
		.has_auto_flow = device_property_read_bool(&device->dev, "auto-flow-control"),
	};
	int irq = platform_get_irq_optional(device, 0), error;

	/* Without one a timer looks at the chip. */
	if (irq < 0 && irq != -ENXIO)
		return irq;
	chip.irq = max(irq, 0);
	error = find_registers(device, &chip);
	if (!error)
		error = find_frequency(&device->dev, &chip);
	if (!error)
		error = release(&device->dev);
	if (!error)
		error = u16550_tty_add(&device->dev, &chip);
	/* What the driver's own `remove` returns is not the same in all versions of Linux. */
	return error ? error : devm_add_action_or_reset(&device->dev, remove, &device->dev);
}

static struct platform_driver driver = {
	.probe = probe,
	.driver = {
		.name = KBUILD_MODNAME "_of",
		.of_match_table = devices,
		.pm = pm_sleep_ptr(&u16550_tty_sleep),
	},
};

int __init u16550_tty_begin_of(void)
{
	return platform_driver_register(&driver);
}

void u16550_tty_end_of(void)
{
	platform_driver_unregister(&driver);
}
