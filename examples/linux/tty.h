/* SPDX-License-Identifier: MIT OR GPL-2.0-only */
/*
 * What the files of the module share: tty.c drives the chips that pnp.c, pci.c, of.c and ports.c
 * find.
 */
#ifndef U16550_TTY_H
#define U16550_TTY_H

#include <linux/device.h>
#include <linux/pm.h>
#include <linux/serial_core.h>

#define MOST_PORTS 8
#define REGISTERS 8
#define LAST_PORT 0xffff
#define FREQUENCY 1843200		/* that of a PC */

/* At the I/O ports of a PC. */
#define PORT_CHIP { .iotype = UPIO_PORT, .frequency = FREQUENCY }

struct u16550_tty_chip {
	/* UPIO_PORT, or for registers in memory UPIO_MEM, _MEM16, _MEM32 or _MEM32BE. */
	unsigned char iotype;
	unsigned long base;		/* its first I/O port */
	resource_size_t memory, size;	/* where its registers in memory are */
	u8 shift;			/* and as a power of two how far apart */
	bool is_design_ware;
	bool has_auto_flow;		/* it can do flow control by RTS and CTS itself */
	unsigned int irq;		/* 0: a timer looks at the chip */
	unsigned int frequency;		/* at its clock input */
};

/*
 * Makes a terminal for the chip of a device, with the first number that is free. The device's
 * driver data belong to it until it is removed. Returns 0 or an error: -ENODEV if the chip is not
 * there, and then the device is left to another driver.
 */
int u16550_tty_add(struct device *device, const struct u16550_tty_chip *chip);

/*
 * The same with this number, for a chip that the user has named. If it is not there the terminal
 * has no type, and `setserial` may move it to where one is.
 */
int u16550_tty_add_named(struct device *device, int number, const struct u16550_tty_chip *chip);

/* Hangs up who uses the port of a device, and takes it away. */
void u16550_tty_remove(struct device *device);

/* For each driver of such devices. */
extern const struct dev_pm_ops u16550_tty_sleep;

/* Devices that firmware describes. A kernel without them has none. */
#ifdef CONFIG_PNP
int u16550_tty_begin_pnp(void);
void u16550_tty_end_pnp(void);
#else
static inline int u16550_tty_begin_pnp(void) { return 0; }
static inline void u16550_tty_end_pnp(void) { }
#endif

/* Devices of a device tree. */
#ifdef CONFIG_OF
int u16550_tty_begin_of(void);
void u16550_tty_end_of(void);
#else
static inline int u16550_tty_begin_of(void) { return 0; }
static inline void u16550_tty_end_of(void) { }
#endif

/* Cards whose numbers the user names. */
#ifdef CONFIG_PCI
int u16550_tty_begin_pci(void);
void u16550_tty_end_pci(void);
#else
static inline int u16550_tty_begin_pci(void) { return 0; }
static inline void u16550_tty_end_pci(void) { }
#endif

/* Devices that the user names. */
bool u16550_tty_has_ports(void);
int u16550_tty_begin_ports(void);
void u16550_tty_end_ports(void);

#endif
