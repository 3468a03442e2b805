/* SPDX-License-Identifier: MIT OR Apache-2.0 */
/*
 * The services of INT 14h over u16550.c: what stands in src/serial.c of SeaBIOS in the place of its own.
 *
 * A BIOS keeps nothing from one call to the next, so each has a driver of its own on the stack. To make one is no access to the chip.
 */
#include "u16550_types.h"
#include "u16550.c"

#define PER_MILLE 1 /* 110 baud are no whole part of the clock */

static uint8_t read_port(void *context, uintptr_t port) { return inb(port); }
static void write_port(void *context, uintptr_t port, uint8_t value) { outb(value, port); }

// gcc copies structs by ES, which SeaBIOS has for what lies in other segments.
static void
copy_on_stack(void)
{
    SET_SEG(ES, GET_SEG(SS));
    barrier();
}

// Makes a driver for the port that the registers name, and says when its time is over. Returns whether there is such a port.
static int
make_driver(struct u16550 *uart, struct bregs *regs, u32 *end)
{
    struct u16550_io io = { 0, read_port, write_port };
    u16 addr = getComAddr(regs);
    if (!addr)
        return 0;
    *end = irqtimer_calc_ticks(GET_BDA(com_timeout[regs->dx]));
    copy_on_stack();
    uart->mark = uart->is_busy = 0;
    return u16550_new_port(uart, &io, addr) == U16550_OK;
}

// Lets other threads go on, and says whether there is time left for the port.
static uint8_t
has_time(void *end)
{
    yield();
    int is_over = irqtimer_check(*(u32*)end);
    copy_on_stack();
    return !is_over;
}

// Says how a call ended. With LSR come the errors that were seen in the call: a read of LSR clears them in the chip.
static void
answer(struct u16550 *uart, struct bregs *regs, int status)
{
    uint8_t lsr = 0;
    u16550_lsr(uart, &lsr);
    regs->ah = lsr | (status ? 0x80 : 0);
    set_success(regs);
}

// SERIAL - GET PORT STATUS
static void
handle_1403(struct bregs *regs)
{
    struct u16550 uart;
    u32 end;
    if (!make_driver(&uart, regs, &end))
        return;
    answer(&uart, regs, U16550_OK);
    u16550_msr(&uart, &regs->al);
}

// SERIAL - INITIALIZE PORT
static void
handle_1400(struct bregs *regs)
{
    struct u16550 uart;
    struct u16550_config config;
    u32 end;
    u8 asked = regs->al, rate = asked >> 5;
    if (!make_driver(&uart, regs, &end))
        return;
    u16550_default_config(&config);
    config.baud_rate = rate ? 75 << rate : 110;
    config.data_bits = 5 + (asked & 3);
    config.extra_stop_bits = asked >> 2 & 1;
    config.parity = !(asked & 8) ? U16550_PARITY_NONE : asked & 16 ? U16550_PARITY_EVEN : U16550_PARITY_ODD;
    u16550_nearest(&config, PER_MILLE, &config);
    u16550_set_frame(&uart, &config);
    handle_1403(regs);
}

// SERIAL - WRITE CHARACTER TO PORT
static void
handle_1401(struct bregs *regs)
{
    struct u16550 uart;
    u32 end;
    if (make_driver(&uart, regs, &end))
        answer(&uart, regs, u16550_send_bytes_while(&uart, &regs->al, 1, has_time, &end, 0));
}

// SERIAL - READ CHARACTER FROM PORT
static void
handle_1402(struct bregs *regs)
{
    struct u16550 uart;
    u32 end;
    if (make_driver(&uart, regs, &end))
        answer(&uart, regs, u16550_receive_bytes_while(&uart, &regs->al, 1, has_time, &end, 0));
}
