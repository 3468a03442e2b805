/* What chip_in_c.rs needs to know of the struct of c/uart_port.h. */
#include "uart_port.h"

size_t chip_in_c_size(void)
{
    return sizeof(struct uart_chip);
}

/* Whether nothing is on its way out. */
uint8_t chip_in_c_is_idle(const struct uart_chip *chip)
{
    return !chip->transmitter.is_shifting && chip->transmitter.queue.len == 0;
}

/* The character that leaves the shift register with the next tick, or -1. In loopback it is received in that tick. */
int chip_in_c_ending(const struct uart_chip *chip)
{
    return chip->transmitter.is_shifting && chip->transmitter.ticks_left == 1 ? chip->transmitter.shift_byte : -1;
}

/* The tick in which a character leaves the shift register, for the transmitter alone. */
void chip_in_c_end_sending(struct uart_chip *chip)
{
    struct uart_chip ticked = *chip;

    uart_chip_ticks(&ticked, 1);
    chip->transmitter = ticked.transmitter;
}

/* The tick in which a character is received in loopback, for the receiver alone. */
void chip_in_c_receive(struct uart_chip *chip, uint8_t byte)
{
    struct uart_chip ticked = *chip;

    ticked.transmitter.is_shifting = 1;
    ticked.transmitter.shift_byte = byte;
    ticked.transmitter.ticks_left = 1;
    uart_chip_ticks(&ticked, 1);
    chip->receiver = ticked.receiver;
}

/*
 * What is no part of what a chip answers is made alike, so that two chips that differ in nothing else are the same: how many writes met a
 * full transmitter, and the time towards a timeout while no character waits. A character that comes begins that time anew.
 */
void chip_in_c_forget(struct uart_chip *chip)
{
    chip->transmitter.overflows = 0;
    if (chip->receiver.queue.len == 0)
        chip->receiver.timeout_ticks = 0;
}
