/* SPDX-FileCopyrightText: 2025 Philipp Schuster, 2026 Geesetrunk */
/* SPDX-License-Identifier: MIT OR Apache-2.0 */
/*
 * u16550_console.h - a console over one 16550 whose place is known when this is compiled, for firmware of a few kilobytes.
 *
 * Made by tools/c/emit from the code that is proved. Do not edit.
 *
 * It is the driver of u16550.h with some of its values fixed: the device and where its registers are, a clock and a baud rate that have a
 * whole divisor, 8 data bits, no parity, one stop bit, FIFOs of 16 characters, no interrupt, no prescaler, no check of CTS, and one spin
 * limit. What depends on nothing else is left out. Each call makes the accesses that the call of u16550.h makes whose name it has.
 *
 * Compile u16550_console.c with these macros, from the command line or from the file that U16550_CONSOLE_CONFIG names:
 *
 *     U16550_CONSOLE_BASE         the address of the first register, a multiple of the bytes of a register
 *     U16550_CONSOLE_WIDTH        how many bits a register has, in the byte order of the processor: 8, else 16 or 32
 *     U16550_CONSOLE_STRIDE       how many bytes apart registers are: else as many as a register has
 *     U16550_CONSOLE_FREQUENCY    of the clock, in Hz: else 1843200
 *     U16550_CONSOLE_BAUD_RATE    else 115200
 *     U16550_CONSOLE_DIVISOR      in the place of these two
 *     U16550_CONSOLE_POLLS        after how many unsuccessful polls in a row a wait ends, at most 2^32 - 1: else 1000000
 *     U16550_CONSOLE_READ(offset), U16550_CONSOLE_WRITE(offset, value)    in the place of the first three: for ports, or for another bus
 *     U16550_BARRIER()            what orders accesses to devices, if not as u16550.c has it for the processor
 *
 * What cannot be is refused then, by a message of the compiler: a baud rate that no divisor gives, registers that overlap, a limit of 0.
 *
 * A pointer must not be null: nothing looks at it. A console may be used by one thread at a time, and not by an interrupt handler in the
 * middle of a call. A function that returns an int returns 0, or a number that u16550.h has for the same cause.
 */
#ifndef U16550_CONSOLE_H
#define U16550_CONSOLE_H

#ifndef U16550_HAS_TYPES
#include <stdbool.h>
#include <stddef.h>
#include <stdint.h>
#endif

#if defined(__cplusplus)
extern "C" {
#endif

enum u16550_console_status {
    U16550_CONSOLE_OK = 0,
    U16550_CONSOLE_DEVICE_NOT_PRESENT = 20,
    U16550_CONSOLE_INIT_STALLED = 23,
    U16550_CONSOLE_LOOPBACK_NO_CAPACITY = 30,
    U16550_CONSOLE_LOOPBACK_UNEXPECTED_BYTE = 32,
    U16550_CONSOLE_LOOPBACK_UNEXPECTED_MSG = 33,
    U16550_CONSOLE_LOOPBACK_STALLED = 34,
    U16550_CONSOLE_NO_CAPACITY = 50,
    U16550_CONSOLE_STALLED = 70,
    U16550_CONSOLE_DIVISOR_LATCH_OPEN = 120,
    U16550_CONSOLE_LOOPBACK = 121,
    U16550_CONSOLE_NO_DIVISOR = 122
};

/* What a console keeps. All of it may be zero before the first call: then the FIFOs are taken to be off. */
struct u16550_console {
    uint8_t fifo_enabled;
    uint8_t saved_lsr;
};

/* Sets the chip up, as u16550_init does. */
int u16550_console_init(struct u16550_console *uart);

/* Takes a port that is set up already, as u16550_attach does. */
int u16550_console_attach(struct u16550_console *uart);

/* Tests the chip in loopback, as u16550_test_loopback does. */
int u16550_console_test_loopback(struct u16550_console *uart);

/* Waits for room, and sends a byte: u16550_send_bytes_exact of one byte. */
int u16550_console_put(struct u16550_console *uart, uint8_t byte);

/* Sends a byte if there is room, as u16550_try_send_byte does. */
int u16550_console_try_put(struct u16550_console *uart, uint8_t byte);

/* Receives a byte if there is one, as u16550_try_receive_byte does. Returns it, or -1. */
int u16550_console_get(struct u16550_console *uart);

/*
 * Sends all bytes in bursts, and waits for room before each, as u16550_send_bytes_exact does. Returns how many were sent: fewer if a wait
 * came to its end.
 */
size_t u16550_console_send(struct u16550_console *uart, const uint8_t *bytes, size_t len);

/* Sends text as terminals expect it, as u16550_write_raw_text does. */
int u16550_console_write_text(struct u16550_console *uart, const char *text, size_t len);

/* Brings a chip in any state into one in which text goes out, as u16550_emergency does. */
int u16550_console_emergency(struct u16550_console *uart);

/* Returns LSR, with the errors that other calls have cleared since, as u16550_lsr does. */
uint8_t u16550_console_lsr(struct u16550_console *uart);

#if defined(__cplusplus)
}
#endif

#endif
