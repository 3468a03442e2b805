/* An owner of the chip of uart_port.c: a guest's accesses, time, characters, an interrupt, and a snapshot. */
#include "uart_16550.h"

#include <inttypes.h>
#include <stdio.h>

enum { CHAR_TICKS = 4, WIRE_CAPACITY = 32 };

static void show_wire(struct uart_chip *chip)
{
    uint8_t bytes[UART_WIRE_ROOM];
    size_t count = uart_chip_take_wire(chip, bytes, sizeof bytes);

    printf("out \"%.*s\"\n", (int)count, (const char *)bytes);
}

static void show_status(struct uart_chip *chip, const char *when)
{
    printf("%s: ISR %02x, interrupt line %d\n", when, uart_chip_read(chip, UART_OFFSET_ISR), uart_chip_is_interrupting(chip));
}

/* The guest sends a text, and time passes. */
static void send(struct uart_chip *chip, const char *text)
{
    for (; *text; text++)
        uart_chip_write(chip, UART_OFFSET_DATA, (uint8_t)*text);
    printf("LSR %02x after the writes, %zu bytes to go out\n", uart_chip_read(chip, UART_OFFSET_LSR), uart_chip_held_len(chip));
    uart_chip_ticks(chip, 100);
    printf("LSR %02x after 100 ticks\n", uart_chip_read(chip, UART_OFFSET_LSR));
    show_wire(chip);
}

/* The guest reads what waits. */
static void receive(struct uart_chip *chip)
{
    printf("in \"");
    while (uart_chip_read(chip, UART_OFFSET_LSR) & UART_LSR_DATA_READY)
        putchar(uart_chip_read(chip, UART_OFFSET_DATA));
    printf("\"\n");
}

/* Says whether the saved data are a chip. */
static void load(const char *what, const struct uart_chip *saved)
{
    struct uart_chip chip;
    uint32_t status;

    uart_chip_new(&chip, UART_16450, CHAR_TICKS, WIRE_CAPACITY, UART_WHOLE_BYTES);
    uart_chip_write(&chip, UART_OFFSET_SPR, 0x5a);
    status = uart_chip_load(&chip, saved);
    printf("%s: load %" PRIu32 ", then SPR %02x\n", what, status, uart_chip_read(&chip, UART_OFFSET_SPR));
}

/* What is no chip is refused, and changes nothing. */
static void refuse(struct uart_chip sound)
{
    struct uart_chip saved;

    uart_chip_write(&sound, UART_OFFSET_SPR, 0x33);
    uart_chip_save(&sound, &saved);
    load("saved", &saved);
    saved.latches.ier = UART_IER_DMA_TX_END;
    load("IER with a bit that is not kept", &saved);
    saved = sound;
    saved.model = UART_16450;
    load("a 16450 with its FIFO on", &saved);
    saved = sound;
    saved.receiver.queue.items[0].errors = UART_LSR_OVERRUN_ERROR;
    load("a character with an overrun", &saved);
    saved = sound;
    saved.transmitter.char_ticks = 0;
    load("no ticks", &saved);
    saved = sound;
    saved.transmitter.wire.capacity = 1, saved.transmitter.wire.len = 2;
    load("a full wire with one byte more", &saved);
    saved = sound;
    saved.receiver.timeout_limit++;
    load("another limit", &saved);
}

/* A byte goes out and one arrives, with LCR as after power on: five bits. */
static void use_five_bits(uint8_t cuts)
{
    struct uart_chip chip;
    uint8_t sent = 0;

    uart_chip_new(&chip, UART_16450, CHAR_TICKS, WIRE_CAPACITY, cuts);
    uart_chip_write(&chip, UART_OFFSET_DATA, 0xff);
    uart_chip_arrive(&chip, 0xff, 0);
    uart_chip_ticks(&chip, CHAR_TICKS + 1);
    uart_chip_take_wire(&chip, &sent, 1);
    printf("%s: out %02x, in %02x\n", cuts ? "cut" : "whole bytes", sent, uart_chip_read(&chip, UART_OFFSET_DATA));
}

/* Any bytes at all are legal. */
static void survive(struct uart_chip *chip)
{
    unsigned char *bytes = (unsigned char *)chip;
    uint8_t wire[UART_WIRE_ROOM];
    size_t taken = 0;

    for (size_t i = 0; i < sizeof *chip; i++)
        bytes[i] = (unsigned char)(i * 167 + 255);
    for (unsigned i = 0; i < 1000; i++) {
        uart_chip_write(chip, (uint8_t)i, (uint8_t)(i * 7));
        uart_chip_read(chip, (uint8_t)(i * 3));
        uart_chip_ticks(chip, (uint16_t)(i * 11));
        uart_chip_arrive(chip, (uint8_t)i, UART_LSR_PARITY_ERROR);
        taken += uart_chip_take_wire(chip, wire, sizeof wire);
    }
    printf("any bytes: %s\n", taken > 0 ? "went on" : "went on, and sent nothing");
}

int main(void)
{
    struct uart_chip chip, saved;

    printf("no ticks: %" PRIu32 "\n", uart_chip_new(&chip, UART_16550A, 0, WIRE_CAPACITY, UART_WHOLE_BYTES));
    printf("new: %" PRIu32 "\n", uart_chip_new(&chip, UART_16550A, CHAR_TICKS, WIRE_CAPACITY, UART_WHOLE_BYTES));
    /* The FIFO is on, with a trigger level of four. */
    uart_chip_write(&chip, UART_OFFSET_FCR, UART_FCR_FIFO_ENABLE | UART_FCR_RX_FIFO_TRIGGER_LEVEL0);
    send(&chip, "Hello from C");

    uart_chip_write(&chip, UART_OFFSET_IER, UART_IER_DATA_READY);
    show_status(&chip, "no character");
    for (const char *text = "abc"; *text; text++)
        uart_chip_arrive(&chip, (uint8_t)*text, 0);
    show_status(&chip, "three characters");
    uart_chip_arrive(&chip, 'd', 0);
    show_status(&chip, "four characters");
    printf("bad error bits: %" PRIu32 "\n", uart_chip_arrive(&chip, 'e', UART_LSR_DATA_READY));

    refuse(chip);
    saved = chip; /* a snapshot is a copy */
    receive(&chip);
    chip = saved;
    receive(&chip);
    use_five_bits(UART_WHOLE_BYTES);
    use_five_bits(UART_CUT);
    survive(&chip);
    return 0;
}
