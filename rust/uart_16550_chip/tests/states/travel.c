/*
 * Restores chips and ports of c/uart_port.c from states, saves them, and writes their states: for the test travel.rs, which has made the
 * states in Rust.
 *
 * Reads records from standard input: how many bytes, as a number of two bytes, and so many bytes. For each it writes one byte for
 * what uart_chip_from_bytes returns, the lowest byte of the detail, and one byte each for what uart_chip_load and uart_port_load return.
 * Then it writes of the chip and of the port that were loaded, or zeros: the state, UART_STATE_LEN bytes, and what a guest finds.
 */
#include "uart_port.h"

#include <stdio.h>
#include <string.h>

/* A guest looks at what the registers hold, and then for causes of interrupts and for characters, so often. */
enum { LOOKS = 20, READS = 6 + 3 * LOOKS };
enum { HEAD = 4, OF_ONE = UART_STATE_LEN + 2 * READS, ANSWER = HEAD + 2 * OF_ONE };

/* What the guest accesses: a chip that lets a tick pass after each access, or a port. */
struct device {
    struct uart_chip *chip;
    struct uart_port *port;
};

static void guest_writes(struct device device, uint8_t offset, uint8_t value)
{
    struct uart_todo todo;

    if (device.port) {
        uart_port_write(device.port, offset, value, &todo);
    } else {
        uart_chip_write(device.chip, offset, value);
        uart_chip_ticks(device.chip, 1);
    }
}

/* The guest reads. What it read, and the level of the interrupt line, are written at *to. */
static void guest_reads(struct device device, uint8_t offset, uint8_t **to)
{
    struct uart_todo todo;

    if (device.port) {
        *(*to)++ = uart_port_read(device.port, offset, &todo);
        *(*to)++ = uart_port_level(device.port);
    } else {
        *(*to)++ = uart_chip_read(device.chip, offset);
        uart_chip_ticks(device.chip, 1);
        *(*to)++ = uart_chip_is_interrupting(device.chip);
    }
}

static void guest_looks(struct device device, uint8_t *to)
{
    guest_reads(device, UART_OFFSET_LCR, &to);
    guest_reads(device, UART_OFFSET_MCR, &to);
    guest_reads(device, UART_OFFSET_SPR, &to);
    guest_writes(device, UART_OFFSET_LCR, UART_LCR_DLAB);
    guest_reads(device, UART_OFFSET_DLL, &to);
    guest_reads(device, UART_OFFSET_DLM, &to);
    guest_writes(device, UART_OFFSET_LCR, UART_LCR_WORD_LENGTH);
    guest_reads(device, UART_OFFSET_IER, &to);
    guest_writes(device, UART_OFFSET_IER, UART_IER_DATA_READY | UART_IER_RECEIVER_LINE_STATUS);
    for (int look = 0; look < LOOKS; look++) {
        guest_reads(device, UART_OFFSET_ISR, &to);
        guest_reads(device, look % 2 ? UART_OFFSET_MSR : UART_OFFSET_LSR, &to);
        guest_reads(device, UART_OFFSET_DATA, &to);
    }
}

/* Restores a chip, and saves it. */
static uint32_t through_chip(const struct uart_chip *saved, uint8_t *bytes)
{
    struct uart_chip chip, again;
    uint32_t status = uart_chip_load(&chip, saved);

    if (status != UART_OK)
        return status;
    uart_chip_save(&chip, &again);
    uart_chip_to_bytes(&again, bytes);
    guest_looks((struct device){ &chip, NULL }, bytes + UART_STATE_LEN);
    return status;
}

/* Restores a port, and saves it. */
static uint32_t through_port(const struct uart_chip *saved, uint8_t *bytes)
{
    struct uart_chip again;
    struct uart_port port;
    struct uart_todo todo;
    uint32_t status = uart_port_load(&port, saved, &todo);

    if (status != UART_OK)
        return status;
    uart_port_save(&port, &again);
    uart_chip_to_bytes(&again, bytes);
    guest_looks((struct device){ NULL, &port }, bytes + UART_STATE_LEN);
    return status;
}

/* Writes the answer to a record. */
static void travel(const uint8_t *bytes, size_t len, uint8_t *answer)
{
    struct uart_chip saved;
    size_t detail;

    memset(answer, 0, ANSWER);
    answer[0] = (uint8_t)uart_chip_from_bytes(&saved, bytes, len, &detail);
    answer[1] = (uint8_t)detail;
    if (answer[0] != UART_STATE_OK)
        return;
    answer[2] = (uint8_t)through_chip(&saved, answer + HEAD);
    answer[3] = (uint8_t)through_port(&saved, answer + HEAD + OF_ONE);
}

int main(void)
{
    uint8_t bytes[1 << 16];
    uint8_t answer[ANSWER];
    uint8_t prefix[2];

    while (fread(prefix, 1, sizeof prefix, stdin) == sizeof prefix) {
        size_t len = prefix[0] | (size_t)prefix[1] << 8;

        if (fread(bytes, 1, len, stdin) != len)
            return 1;
        travel(bytes, len, answer);
        if (fwrite(answer, 1, sizeof answer, stdout) != sizeof answer)
            return 1;
    }
    return ferror(stdin) || fflush(stdout);
}
