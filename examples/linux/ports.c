// SPDX-License-Identifier: MIT OR GPL-2.0-only
/*
 * Chips that the user names, since no firmware describes them: an old card, a card on PCI, a
 * machine without PNP. Each is a device.
 */
#define pr_fmt(fmt) KBUILD_MODNAME ": " fmt
#include <linux/err.h>
#include <linux/module.h>
#include <linux/platform_device.h>

#include "tty.h"

static unsigned int ports[MOST_PORTS], irqs[MOST_PORTS];
static unsigned int port_count, irq_count;
module_param_array(ports, uint, &port_count, 0444);
MODULE_PARM_DESC(ports, "the first I/O port of each chip, in place of those that firmware describes");
module_param_array(irqs, uint, &irq_count, 0444);
MODULE_PARM_DESC(irqs, "the interrupt of each of ports, or 0: then a timer looks at the chip");

static struct platform_device *devices[MOST_PORTS];

static void remove(void *device)
{
	u16550_tty_remove(device);
}

static int probe(struct platform_device *device)
{
	struct u16550_tty_chip chip = PORT_CHIP;
	int error;

	/* A user can bind any device of the platform here, by its driver_override. */
	if (device->id < 0 || device->id >= port_count)
		return -ENODEV;
	chip.base = ports[device->id];
	chip.irq = irqs[device->id];
	error = u16550_tty_add_named(&device->dev, device->id, &chip);
	/* What the driver's own `remove` returns is not the same in all versions of Linux. */
	return error ? error : devm_add_action_or_reset(&device->dev, remove, &device->dev);
}

/* The numbers of the ports are those of the devices, also after unbind and bind. */
static struct platform_driver driver = {
	.probe = probe,
	.driver = {
		.name = KBUILD_MODNAME,
		.pm = pm_sleep_ptr(&u16550_tty_sleep),
	},
};

bool u16550_tty_has_ports(void)
{
	return port_count > 0;
}

int __init u16550_tty_begin_ports(void)
{
	unsigned int index;
	int error;

	if (port_count != irq_count) {
		pr_err("there are %u ports and %u interrupts\n", port_count, irq_count);
		return -EINVAL;
	}
	for (index = 0; index < port_count; index++) {
		if (!ports[index] || ports[index] > LAST_PORT - (REGISTERS - 1)) {
			pr_err("there is no port %#x\n", ports[index]);
			return -EINVAL;
		}
	}
	error = platform_driver_register(&driver);
	if (error)
		return error;
	for (index = 0; index < port_count; index++) {
		devices[index] = platform_device_register_simple(KBUILD_MODNAME, index, NULL, 0);
		if (IS_ERR(devices[index])) {
			error = PTR_ERR(devices[index]);
			devices[index] = NULL;
			u16550_tty_end_ports();
			return error;
		}
	}
	return 0;
}

void u16550_tty_end_ports(void)
{
	unsigned int index;

	for (index = 0; index < port_count; index++)
		platform_device_unregister(devices[index]);
	platform_driver_unregister(&driver);
}
