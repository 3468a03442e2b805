/*
 * Calls of uart_port.h, any number of them in any order, with any arguments, and structs of any bytes where the header allows any. There is a
 * function for each part of the header that is looked at, which Eva begins at: the chip, and a chip as bytes. Of the port it is not: within
 * four minutes Eva does not come to an end.
 */
#include "any.h"
#include "uart_port.h"

enum { ROOM = 16 };

static struct uart_chip chip, saved;
static uint8_t bytes[UART_STATE_MOST];
static size_t detail;

static void of_chip(void)
{
    switch (below(18)) {
    case 0: uart_chip_new(&chip, any_byte(), any_short(), any_byte(), any_byte()); break;
    case 1: uart_chip_new_sized(&chip, any_byte(), any_byte(), any_short(), any_byte(), any_byte()); break;
    case 2: uart_chip_load(&chip, &saved); break;
    case 3: uart_chip_save(&chip, &saved); break;
    case 4: uart_chip_read(&chip, any_byte()); break;
    case 5: uart_chip_write(&chip, any_byte(), any_byte()); break;
    case 6: uart_chip_ticks(&chip, any_short()); break;
    case 7: uart_chip_arrive(&chip, any_byte(), any_byte()); break;
    case 8: uart_chip_set_lines(&chip, any_byte()); break;
    case 9: uart_chip_is_interrupting(&chip); break;
    case 10: uart_chip_take_wire(&chip, bytes, below(ROOM + 1)); break;
    case 11: uart_chip_wire_len(&chip); break;
    case 12: uart_chip_wire_room(&chip); break;
    case 13: uart_chip_receive_room(&chip); break;
    case 14: uart_chip_waiting_len(&chip); break;
    case 15: uart_chip_held_len(&chip); break;
    case 16: uart_chip_divisor(&chip); break;
    default: any_bytes((uint8_t *)&saved, sizeof saved); break;
    }
}

static void of_state(void)
{
    switch (below(5)) {
    case 0: uart_chip_to_bytes_sized(&saved, bytes, below(sizeof bytes + 1)); break;
    case 1: uart_chip_to_bytes(&saved, bytes); break;
    case 2: uart_chip_from_bytes(&saved, bytes, below(sizeof bytes + 1), &detail); break;
    case 3: any_bytes(bytes, sizeof bytes); break;
    default: any_bytes((uint8_t *)&saved, sizeof saved); break;
    }
}

int chips(void)
{
    while (below(2))
        of_chip();
    return 0;
}

int states(void)
{
    while (below(2))
        of_state();
    return 0;
}
