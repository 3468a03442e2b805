/*
 * The census of a serial port of a PC, without an operating system. What is asked for is on the command line:
 *
 *   port=2f8   the port to be asked; by default 3f8
 *   pci        the first serial port on the PCI bus that has I/O ports
 *   out=3f8    rows and recording go to this serial port, 8N1 as it was set up; by default to e9, QEMU's and Bochs' debug console
 *   exit       ends QEMU by its device isa-debug-exit at 501, and Bochs by its port 8900
 */
#include "ports.h"
#include "text.h"

static struct pit pit;
static uint16_t port = 0x3f8, out = 0xe9;
static struct census_recording recording;
static struct census_row rows[CENSUS_RULES];

static uint8_t port_read(void *at, uint8_t offset)
{
    (void)at;
    return in8(port + offset);
}

static void port_write(void *at, uint8_t offset, uint8_t value)
{
    (void)at;
    out8(port + offset, value);
}

static uint64_t port_now(void *at)
{
    (void)at;
    return pit_ns(&pit);
}

static void to_out(void *at, char character)
{
    unsigned long polls = 0;

    (void)at;
    if (out != 0xe9)
        while (!(in8(out + 5) & 0x20) && polls++ < 1000000)
            ;
    out8(out, character);
}

/* The screen has 25 lines, so a rule has a third of one: its name, and a value if it differs. */
static volatile uint16_t *const screen = (volatile uint16_t *)0xb8000;
static unsigned column, line;

static void to_screen(void *at, char character)
{
    (void)at;
    if (character == '\n' || line == 25) {
        column = 0;
        line++;
    } else if (column < 80)
        screen[80 * line + column++] = (uint16_t)(0x0700 | (uint8_t)character);
}

/*
 * The rest of the first word that begins so, or 0. QEMU puts the name of the file in front of the words, and GRUB does not; such a name
 * begins with a path.
 */
static const char *find_word(const char *text, const char *begin)
{
    unsigned at, i;

    for (at = 0; text[at] != 0; at++) {
        if (at > 0 && text[at - 1] != ' ')
            continue;
        for (i = 0; begin[i] != 0 && text[at + i] == begin[i]; i++)
            ;
        if (begin[i] == 0)
            return text + at + i;
    }
    return 0;
}

static int has_word(const char *text, const char *word)
{
    const char *rest = find_word(text, word);

    return rest != 0 && (*rest == 0 || *rest == ' ');
}

/* Whether the word is missing, or names a port, which is taken. */
static int take_port(const char *text, const char *begin, uint16_t *number)
{
    const char *found = find_word(text, begin);

    return found == 0 || read_port(found, number);
}

static uint16_t pci_port(void)
{
    uint32_t function, address, bar;
    unsigned i;

    for (function = 0; function < 0x10000; function++) {
        address = 0x80000000 | function << 8;
        out32(0xcf8, address | 0x08);
        /* A serial port of any kind. */
        if (in32(0xcfc) >> 16 != 0x0700)
            continue;
        for (i = 0; i < 6; i++) {
            out32(0xcf8, address | (0x10 + 4 * i));
            bar = in32(0xcfc);
            if (!(bar & 1) || !(bar & 0xfffc))
                continue;
            out32(0xcf8, address | 0x04);
            out32(0xcfc, in32(0xcfc) | 1);
            return bar & 0xfffc;
        }
    }
    return 0;
}

static void say(const struct census_printer *to, const char *text)
{
    for (; *text != 0; text++)
        to->print(to->at, *text);
}

static void clear_screen(void)
{
    unsigned i;

    for (i = 0; i < 80 * 25; i++)
        screen[i] = 0x0720;
}

static void leave_emulator(void)
{
    const char *letter;

    for (letter = "Shutdown"; *letter != 0; letter++)
        out8(0x8900, (uint8_t)*letter);
    out8(0x501, 0);
}

/* Takes the census, and tells what came of it on the screen and at `out`. */
static void take(const char *words, const struct census_printer *printer, const struct census_printer *on_screen)
{
    const struct census_chip chip = {port_read, port_write, port_now, 0, &recording, 0};
    enum census_end end = CENSUS_NOBODY;

    if (has_word(words, "pci"))
        port = pci_port();
    pit_start(&pit);
    /* The port that rows go to cannot be asked too. */
    if (port != 0 && port != out)
        end = census_take(&chip, rows);
    clear_screen();
    census_print_short(on_screen, end, rows);
    census_print_rows(printer, end, rows);
    census_print_recording(printer, &recording);
}

void census_main(uint32_t magic, uint32_t *info);
void census_main(uint32_t magic, uint32_t *info)
{
    const struct census_printer printer = {to_out, 0}, on_screen = {to_screen, 0};
    const char *words = "";

    if (magic == 0x2badb002 && (info[0] & 4))
        words = (const char *)info[4];
    else if (info[0] == 0x336ec578 && info[6] != 0)
        words = (const char *)info[6];
    if (take_port(words, "port=", &port) && take_port(words, "out=", &out))
        take(words, &printer, &on_screen);
    else {
        clear_screen();
        say(&on_screen, "census: 'port=' and 'out=' want a port from 0 to fff8 in hexadecimal digits; nothing was accessed\n");
        say(&printer, "# census: 'port=' and 'out=' want a port from 0 to fff8 in hexadecimal digits; nothing was accessed\n");
    }
    if (has_word(words, "exit"))
        leave_emulator();
}
