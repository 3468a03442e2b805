/*
 * The census of a serial port under DOS, which lets a program reach the ports: CENSUS 2F8 > FILE. Rows and recording go to standard output.
 */
#include "ports.h"
#include "text.h"

static struct pit pit;
static uint16_t port = 0x3f8;
static struct census_recording recording;
static struct census_row rows[CENSUS_RULES];

static uint8_t port_read(void *at, uint8_t offset)
{
    (void)at;
    return in8(port + offset);
}

static void port_write(void *at, uint8_t offset, uint8_t value)
{
    (void)at;
    out8(port + offset, value);
}

static uint64_t port_now(void *at)
{
    (void)at;
    return pit_ns(&pit);
}

static void to_output(void *at, char character)
{
    static char buffer[512];
    static uint16_t count;

    (void)at;
    if (character != 0)
        buffer[count++] = character;
    if (character == 0 || count == sizeof buffer) {
        uint16_t ax = 0x4000, bx = 1, cx = count, dx = (uint16_t)(uint32_t)buffer;

        __asm__ volatile("int $0x21" : "+a"(ax), "+b"(bx), "+c"(cx), "+d"(dx) : : "cc", "memory");
        count = 0;
    }
}

static void say(const char *text)
{
    for (; *text != 0; text++)
        to_output(0, *text);
}

void census_main(void);
void census_main(void)
{
    const struct census_chip chip = {port_read, port_write, port_now, 0, &recording, 0};
    const struct census_printer printer = {to_output, 0};
    /* The command line with its length in front, and 0d behind it. A compiler takes so low an address for a mistake. */
    const volatile char *words = (const volatile char *)0x80;
    unsigned at = 1, count;
    enum census_end end;

    __asm__("" : "+r"(words));
    count = (uint8_t)words[0];
    while (at <= count && words[at] == ' ')
        at++;
    if (at <= count && !read_port(words + at, &port))
        say("census: wanted is a port from 0 to fff8 in hexadecimal digits, as CENSUS 2F8; nothing was accessed\r\n");
    else {
        pit_start(&pit);
        end = census_take(&chip, rows);
        census_print_rows(&printer, end, rows);
        census_print_recording(&printer, &recording);
    }
    to_output(0, 0);
}
