/*
 * The census of the second serial port of a MIPS board, Malta, as GXemul has it: gxemul -E evbmips -e maltabe census.malta, in a terminal.
 * Rows and recording go to the first.
 */
#include "text.h"

static volatile uint8_t *const port = (volatile uint8_t *)0xb80002f8, *const out = (volatile uint8_t *)0xb80003f8;
static struct census_recording recording;
static struct census_row rows[CENSUS_RULES];

/* The processor's counter goes round in two minutes. Each wait of the census looks more often. */
static uint32_t last_count;
static uint64_t ticks;

static uint8_t port_read(void *at, uint8_t offset)
{
    (void)at;
    return port[offset];
}

static void port_write(void *at, uint8_t offset, uint8_t value)
{
    (void)at;
    port[offset] = value;
}

/* The counter ticks at 33 MHz. */
static uint64_t port_now(void *at)
{
    uint32_t count;

    (void)at;
    __asm__ volatile("mfc0 %0, $9" : "=r"(count));
    ticks += (uint32_t)(count - last_count);
    last_count = count;
    return ticks * 30;
}

static void to_out(void *at, char character)
{
    (void)at;
    *out = (uint8_t)character;
}

void census_main(void);
void census_main(void)
{
    const struct census_chip chip = {port_read, port_write, port_now, 0, &recording, 0};
    const struct census_printer printer = {to_out, 0};
    enum census_end end = census_take(&chip, rows);

    census_print_rows(&printer, end, rows);
    census_print_recording(&printer, &recording);
    for (;;)
        ;
}
