/*
 * All calls of a console at random, over a chip of some lines whose answers are partly at random, for compilers and processors of 8 bits: what
 * is printed, hashes of each access and of each result, is the same everywhere. SDCC's program for a Z80 runs in its simulator.
 */
#include <stdint.h>

static uint8_t chip_read(uint8_t offset);
static void chip_write(uint8_t offset, uint8_t value);
#define U16550_CONSOLE_READ(offset) chip_read(offset)
#define U16550_CONSOLE_WRITE(offset, value) chip_write(offset, value)
#define U16550_CONSOLE_BAUD_RATE 9600
#define U16550_CONSOLE_POLLS 5
#include "u16550_console.c"

#ifdef __SDCC
/* The port of the simulator: it prints the letter behind a p, and s ends the program. */
__sfr __at(0xff) simulator;

static void print(char letter)
{
    simulator = 'p';
    simulator = (uint8_t)letter;
}

static void end(void)
{
    simulator = 's';
}
#else
#include <stdio.h>

static void print(char letter)
{
    putchar(letter);
}

static void end(void)
{
}
#endif

static uint32_t hash = UINT32_C(2166136261), state = UINT32_C(2463534242);
static uint8_t registers[8], latch[2], sent;

static void note(uint8_t byte)
{
    hash = (hash ^ byte) * UINT32_C(16777619);
}

static uint8_t at_random(void)
{
    state ^= state << 13;
    state ^= state >> 17;
    state ^= state << 5;
    return (uint8_t)(state >> 16);
}

static bool is_latch(uint8_t offset)
{
    return offset < 2 && (registers[UART_LCR] & U16550_LCR_DLAB) != 0;
}

/* One answer of 32 is at random, and so is whether a byte came. */
static uint8_t answer(uint8_t offset)
{
    bool is_looped = (registers[UART_MCR] & U16550_MCR_LOOP_BACK) != 0;
    if ((at_random() & 31) == 0)
        return at_random();
    if (is_latch(offset))
        return latch[offset];
    switch (offset) {
    case UART_DATA:
        return is_looped ? sent : at_random();
    case UART_ISR:
        return 0xc1;
    case UART_LSR:
        return (uint8_t)(0x60 | (is_looped || (at_random() & 3) == 0));
    case UART_MSR:
        return 0xb0;
    default:
        return registers[offset];
    }
}

static uint8_t chip_read(uint8_t offset)
{
    uint8_t value = answer(offset);
    note(offset);
    note(value);
    return value;
}

static void chip_write(uint8_t offset, uint8_t value)
{
    note((uint8_t)(offset | 0x80));
    note(value);
    if (is_latch(offset)) {
        latch[offset] = value;
    } else if (offset == UART_DATA) {
        sent = value;
    } else if (offset != UART_FCR) {
        registers[offset] = value;
    }
}

static void call(struct u16550_console *uart)
{
    static uint8_t bytes[40];
    uint8_t len = at_random() % 40;
    int result;
    for (uint8_t i = 0; i < len; i++)
        bytes[i] = at_random() & 0x7f;
    switch (at_random() % 10) {
    case 0:
        result = u16550_console_init(uart);
        break;
    case 1:
        result = u16550_console_attach(uart);
        break;
    case 2:
        result = u16550_console_test_loopback(uart);
        break;
    case 3:
        result = u16550_console_put(uart, bytes[0]);
        break;
    case 4:
        result = u16550_console_try_put(uart, bytes[0]);
        break;
    case 5:
        result = u16550_console_get(uart);
        break;
    case 6:
        result = (int)u16550_console_send(uart, bytes, len);
        break;
    case 7:
        result = u16550_console_write_text(uart, (const char *)bytes, len);
        break;
    case 8:
        result = u16550_console_emergency(uart);
        break;
    default:
        result = u16550_console_lsr(uart);
    }
    note((uint8_t)result);
    note((uint8_t)((unsigned int)result >> 8));
    note(uart->fifo_enabled);
    note(uart->saved_lsr);
}

int main(void)
{
    static struct u16550_console uart;
    for (uint16_t count = 1; count <= 2000; count++) {
        call(&uart);
        if (count % 500 == 0) {
            for (uint8_t shift = 32; shift > 0; shift = (uint8_t)(shift - 4))
                print("0123456789abcdef"[(hash >> (shift - 4)) & 15]);
            print('\n');
        }
    }
    end();
    return 0;
}
