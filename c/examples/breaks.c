/*
 * Prints at which byte a break stood: rings whose driver notes the errors of each received byte. The device is five characters that have
 * come, one of them a break; with a chip these functions are those of the console, and the handler is called by its interrupt.
 *
 *     cc -I c -o breaks c/examples/breaks.c c/u16550.c && ./breaks
 */
#include <stdio.h>

#include "u16550.h"

enum { DATA = 0, ISR = 2, LSR = 5, ROOM = 64 };

static const struct u16550_received line[] = { { 'a', 0 }, { 't', 0 }, { 0, U16550_LSR_BREAK_INTERRUPT }, { 'o', 0 }, { 'k', 0 } };
static size_t arrived, first;
static uint8_t registers[8], errors;

/* The next character is in front, and LSR shows its errors once. */
static void show_next(void)
{
    errors = first < arrived ? line[first].errors : 0;
}

static uint8_t load(void *context, uintptr_t offset)
{
    uint8_t value = registers[offset];
    (void)context;
    if (offset == DATA && first < arrived) {
        value = line[first++].byte;
        show_next();
    } else if (offset == ISR) {
        value = 0xc0 | (errors ? 0x06 : first < arrived ? 0x04 : 0x01);
    } else if (offset == LSR) {
        value = (uint8_t)(U16550_LSR_THR_EMPTY | U16550_LSR_TRANSMITTER_EMPTY | errors | (first < arrived ? U16550_LSR_DATA_READY : 0));
        errors = 0;
    }
    return value;
}

static void store(void *context, uintptr_t offset, uint8_t value)
{
    (void)context;
    registers[offset] = value;
}

static struct u16550 uart;
static struct u16550_notes notes;
static uint8_t rings[2 * ROOM], noted[ROOM];

/* The notes come before the initialisation, which they have to see. */
static int start(void)
{
    struct u16550_io io = { NULL, load, store };
    struct u16550_config config;
    int status = u16550_new(&uart, &io);
    if (status == U16550_OK)
        status = u16550_note_errors(&uart, &notes, noted, sizeof noted);
    if (status == U16550_OK)
        status = u16550_ring_new(&uart, rings, sizeof rings, ROOM, ROOM);
    u16550_default_config(&config);
    config.interrupts = U16550_IER_DATA_READY | U16550_IER_RECEIVER_LINE_STATUS;
    return status == U16550_OK ? u16550_init(&uart, &config) : status;
}

int main(void)
{
    struct u16550_received received[ROOM];
    struct u16550_handled handled;
    size_t count = 0;
    int status = start();
    arrived = sizeof line / sizeof *line;
    show_next();
    if (status == U16550_OK)
        status = u16550_ring_try_handle(&uart, 32, 100, &handled);
    if (status == U16550_OK)
        status = u16550_ring_take_with_errors(&uart, received, ROOM, &count);
    for (size_t i = 0; i < count; i++) {
        if (received[i].errors & U16550_LSR_BREAK_INTERRUPT)
            printf("byte %u: a break\n", (unsigned)i);
        else
            printf("byte %u: %c\n", (unsigned)i, received[i].byte);
    }
    if (status != U16550_OK)
        puts(u16550_text(status));
    return status != U16550_OK;
}
