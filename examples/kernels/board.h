/* What console.c has of a board, and a board of console.c. pc.c, riscv.c and aarch64.c are boards. */
#ifndef BOARD_H
#define BOARD_H

#include "u16550.h"

/* The clock of the board's chip, in hertz. */
extern const uint32_t board_frequency;

/* Makes a driver for the board's chip. Returns U16550_OK, or why there is none. */
int board_new(struct u16550 *uart);

/* Lets the chip's interrupt in, and no other, as soon as the processor's interrupts are on. They are off so far. */
void board_set_up_interrupts(void);

/* Turns the processor's interrupts on and off. */
void board_interrupts_on(void);
void board_interrupts_off(void);

/* The board calls these: where the kernel begins, and at each interrupt of the chip, with interrupts off. */
void kernel_main(void);
void console_interrupt(void);

#endif
