/* SPDX-License-Identifier: MIT OR GPL-3.0-or-later */
/*
 * GRUB's driver for the serial ports of a PC over u16550.c: in place of grub-core/term/ns8250.c.
 */
#include <stdbool.h>
#include <stddef.h>
#include <grub/types.h>

/*
 * The library as a part of this file, with GRUB's types. It has GRUB's calling convention then, which hands arguments over in registers. It
 * comes first, since grub/ns8250.h has macros with names that it uses itself.
 */
typedef grub_uint8_t uint8_t;
typedef grub_uint16_t uint16_t;
typedef grub_uint32_t uint32_t;
typedef grub_uint64_t uint64_t;
typedef grub_addr_t uintptr_t;
#define U16550_HAS_TYPES
#include "u16550.c"

#include <grub/cpu/io.h>
#include <grub/err.h>
#include <grub/i18n.h>
#include <grub/misc.h>
#include <grub/mm.h>
#include <grub/ns8250.h>
#include <grub/serial.h>
#include <grub/time.h>

#ifdef GRUB_MACHINE_PCBIOS
#include <grub/machine/memory.h>
/* The BIOS keeps there which ports it has found. */
static const unsigned short *const places = (const unsigned short *) GRUB_MEMORY_MACHINE_BIOS_DATA_AREA_ADDR;
#define MOST_UNITS 4
#else
#include <grub/machine/serial.h>
static const grub_port_t places[] = GRUB_MACHINE_SERIAL_PORTS;
#define MOST_UNITS ARRAY_SIZE (places)
#endif

#define FREQUENCY 1843200

/* How much a baud rate may be off, in thousandths. */
#define TOLERANCE 33

/* How long a character waits for room, in milliseconds. One that waits behind another for which there was none has less patience. */
#define PATIENCE 200
#define LITTLE_PATIENCE 1

struct line
{
  struct grub_serial_port port;
  struct u16550 uart;
  struct u16550_config config;
  grub_uint64_t patience;
  char name[20];
};

static struct line lines[MOST_UNITS];

static struct line *
line_of (struct grub_serial_port *port)
{
  return (struct line *) ((char *) port - offsetof (struct line, port));
}

static uint8_t
read_register (void *context __attribute__ ((unused)), uintptr_t address)
{
  return grub_inb (address);
}

static void
write_register (void *context __attribute__ ((unused)), uintptr_t address, uint8_t value)
{
  grub_outb (value, address);
}

/* ------------------------------------------------------------------ the operations of a port */

/* Writes what the library takes for a configuration of GRUB's. Returns U16550_OK, or why the chip cannot have it. */
static int
translate (const struct grub_serial_config *from, struct u16550_config *to)
{
  struct u16550_config config;

  u16550_default_config (&config);
  config.frequency = from->base_clock ? from->base_clock : FREQUENCY;
  config.baud_rate = from->speed;
  config.data_bits = from->word_len;
  config.extra_stop_bits = from->stop_bits == GRUB_SERIAL_STOP_BITS_2;
  config.check_cts_before_sending = from->rtscts != 0;
  config.parity = U16550_PARITY_NONE;
  if (from->parity == GRUB_SERIAL_PARITY_ODD)
    config.parity = U16550_PARITY_ODD;
  else if (from->parity == GRUB_SERIAL_PARITY_EVEN)
    config.parity = U16550_PARITY_EVEN;
  return u16550_nearest (&config, TOLERANCE, to);
}

static grub_err_t
configure (struct grub_serial_port *port, struct grub_serial_config *config)
{
  struct u16550_config translated;

  if (config->parity > GRUB_SERIAL_PARITY_EVEN)
    return grub_error (GRUB_ERR_BAD_ARGUMENT, N_("unsupported serial port parity"));
  if (config->stop_bits != GRUB_SERIAL_STOP_BITS_1 && config->stop_bits != GRUB_SERIAL_STOP_BITS_2)
    return grub_error (GRUB_ERR_BAD_ARGUMENT, N_("unsupported serial port stop bits number"));
  if (config->word_len < 5 || config->word_len > 8)
    return grub_error (GRUB_ERR_BAD_ARGUMENT, N_("unsupported serial port word length"));
  if (translate (config, &translated) != U16550_OK)
    return grub_error (GRUB_ERR_BAD_ARGUMENT, N_("unsupported serial port speed"));
  line_of (port)->config = translated;
  port->config = *config;
  port->configured = 0;
  return GRUB_ERR_NONE;
}

/* Sets the chip up when it is used for the first time, and not before. Returns whether it works. */
static int
set_up (struct line *line)
{
  /* What was sent before goes out as it was sent. */
  const struct u16550_setup setup = { 1, U16550_WAIT_FIRST, U16550_MCR_DTR | U16550_MCR_RTS | U16550_MCR_OUT_2_INT_ENABLE };

  if (!line->port.configured)
    {
      line->port.broken = u16550_init_with (&line->uart, &line->config, &setup) != U16550_OK;
      line->port.configured = 1;
      line->patience = PATIENCE;
    }
  return !line->port.broken;
}

static int
fetch (struct grub_serial_port *port)
{
  struct line *line = line_of (port);
  uint8_t byte;

  if (!set_up (line) || u16550_try_receive_byte (&line->uart, &byte) != U16550_OK)
    return -1;
  return byte;
}

static void
put (struct grub_serial_port *port, const int character)
{
  struct line *line = line_of (port);
  grub_uint64_t end;

  if (!set_up (line))
    return;
  end = grub_get_time_ms () + line->patience;
  line->patience = PATIENCE;
  while (u16550_try_send_byte (&line->uart, character) != U16550_OK)
    if (grub_get_time_ms () > end)
      {
	line->patience = LITTLE_PATIENCE;
	return;
      }
}

struct grub_serial_driver grub_ns8250_driver = { .configure = configure, .fetch = fetch, .put = put };

/* ------------------------------------------------------------------ which ports there are */

/* Makes the driver of the chip at a place. Returns whether there is one. */
static int
find (struct line *line, grub_port_t place)
{
  struct u16550_io io = { 0, read_register, write_register };
  uint8_t is_present = 0;

  if (u16550_new_port (&line->uart, &io, place) != U16550_OK)
    return 0;
  u16550_check_present (&line->uart, &is_present);
  line->port.driver = &grub_ns8250_driver;
  line->port.port = place;
  line->port.name = line->name;
  return is_present;
}

/* Lets GRUB know of a port. */
static void
add (struct line *line)
{
  if (grub_serial_config_defaults (&line->port) != GRUB_ERR_NONE)
    grub_print_error ();
  grub_serial_register (&line->port);
}

void
grub_ns8250_init (void)
{
  unsigned unit;

  for (unit = 0; unit < MOST_UNITS; unit++)
    if (places[unit] && find (&lines[unit], places[unit]))
      {
	grub_snprintf (lines[unit].name, sizeof (lines[unit].name), "com%d", unit);
	add (&lines[unit]);
      }
}

/* Returns where a unit is, or 0 if it has no chip. */
grub_port_t
grub_ns8250_hw_get_port (const unsigned int unit)
{
  return unit < MOST_UNITS && lines[unit].name[0] ? lines[unit].port.port : 0;
}

/* Returns the name of the port at a place, of which GRUB may not yet know, or 0 if no chip is there. */
char *
grub_serial_ns8250_add_port (grub_port_t place)
{
  struct line *line;
  unsigned unit;

  for (unit = 0; unit < MOST_UNITS; unit++)
    if (lines[unit].name[0] && lines[unit].port.port == place)
      return lines[unit].name;
  line = grub_zalloc (sizeof (*line));
  if (!line)
    return 0;
  if (!find (line, place))
    {
      grub_free (line);
      return 0;
    }
  grub_snprintf (line->name, sizeof (line->name), "port%lx", (unsigned long) place);
  add (line);
  return line->name;
}
