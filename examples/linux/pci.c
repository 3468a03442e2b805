// SPDX-License-Identifier: MIT OR GPL-2.0-only
/*
 * Cards on PCI that the user names by their numbers, in `new_id` of this driver. Nobody else knows
 * which cards have a 16550 behind their first I/O ports: Linux's own driver has a table of five
 * hundred.
 */
#include <linux/module.h>
#include <linux/pci.h>

#include "tty.h"

/* The region with a card's registers. */
#define BAR 0

static int probe(struct pci_dev *device, const struct pci_device_id *id)
{
	struct u16550_tty_chip chip = PORT_CHIP;
	int error;

	if (!(pci_resource_flags(device, BAR) & IORESOURCE_IO) ||
	    pci_resource_len(device, BAR) < REGISTERS)
		return -ENODEV;
	/*
	 * A card has its ports only while it is enabled, and its interrupt is known only from then
	 * on. That ends with the probe, if it fails, or when the driver leaves the card.
	 */
	error = pcim_enable_device(device);
	if (error)
		return error;
	chip.base = pci_resource_start(device, BAR);
	chip.irq = device->irq;
	return u16550_tty_add(&device->dev, &chip);
}

/* Called also for a card that was pulled out. */
static void remove(struct pci_dev *device)
{
	u16550_tty_remove(&device->dev);
}

/* Without a table, since an empty one would refuse all numbers. */
static struct pci_driver driver = {
	.name = KBUILD_MODNAME,
	.probe = probe,
	.remove = remove,
	.driver.pm = pm_sleep_ptr(&u16550_tty_sleep),
};

int __init u16550_tty_begin_pci(void)
{
	return pci_register_driver(&driver);
}

void u16550_tty_end_pci(void)
{
	pci_unregister_driver(&driver);
}
