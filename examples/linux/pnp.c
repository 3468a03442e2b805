// SPDX-License-Identifier: MIT OR GPL-2.0-only
/*
 * Chips that firmware describes. On a PC these are its serial ports, and firmware may switch one
 * off: Linux has that done when a driver leaves a device, and has it switched on for the next
 * driver. Whoever takes the I/O ports without the device finds no chip there.
 *
 * The port and the interrupt are the firmware's. So is how the interrupt is triggered: Linux has
 * told the interrupt controller that before the probe, and a request without a trigger leaves it
 * so.
 */
#include <linux/module.h>
#include <linux/pnp.h>
#include <linux/property.h>
#include <linux/serial_core.h>

#include "tty.h"

static const struct pnp_device_id devices[] = {
	{ "PNP0500" },			/* a serial port of a PC */
	{ "PNP0501" },			/* one with a 16550A */
	{ }
};
MODULE_DEVICE_TABLE(pnp, devices);

static int probe(struct pnp_dev *device, const struct pnp_device_id *id)
{
	struct u16550_tty_chip chip = PORT_CHIP;
	struct uart_port *port;
	int error;

	/* Not all of them are at I/O ports. */
	if (!pnp_port_valid(device, 0) || pnp_port_len(device, 0) < REGISTERS)
		return -ENODEV;
	chip.base = pnp_port_start(device, 0);
	if (pnp_irq_valid(device, 0))
		chip.irq = pnp_irq(device, 0);
	device_property_read_u32(&device->dev, "clock-frequency", &chip.frequency);
	error = u16550_tty_add(&device->dev, &chip);
	if (error)
		return error;
	port = pnp_get_drvdata(device);
	/* A console that does not sleep is not switched off meanwhile. */
	if (uart_console(port))
		device->capabilities |= PNP_CONSOLE;
	return 0;
}

static void remove(struct pnp_dev *device)
{
	device->capabilities &= ~PNP_CONSOLE;
	u16550_tty_remove(&device->dev);
}

static struct pnp_driver driver = {
	.name = KBUILD_MODNAME,
	.id_table = devices,
	.probe = probe,
	.remove = remove,
	.driver.pm = pm_sleep_ptr(&u16550_tty_sleep),
};

int __init u16550_tty_begin_pnp(void)
{
	return pnp_register_driver(&driver);
}

void u16550_tty_end_pnp(void)
{
	pnp_unregister_driver(&driver);
}
