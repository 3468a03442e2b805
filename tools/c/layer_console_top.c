#ifdef U16550_CONSOLE_CONFIG
#include U16550_CONSOLE_CONFIG
#endif

#ifndef U16550_CONSOLE_POLLS
#define U16550_CONSOLE_POLLS 1000000
#endif
#ifndef U16550_CONSOLE_FREQUENCY
#define U16550_CONSOLE_FREQUENCY 1843200
#endif
#ifndef U16550_CONSOLE_BAUD_RATE
#define U16550_CONSOLE_BAUD_RATE 115200
#endif

/* The clock divided by 16 times the baud rate. A baud rate that has no whole divisor is refused. An int of 16 bits is less than that product. */
#ifndef U16550_CONSOLE_DIVISOR
#if U16550_CONSOLE_BAUD_RATE <= 0 || U16550_CONSOLE_FREQUENCY % (16UL * U16550_CONSOLE_BAUD_RATE) != 0
#error "no whole divisor gives U16550_CONSOLE_BAUD_RATE: define U16550_CONSOLE_DIVISOR"
#endif
#define U16550_CONSOLE_DIVISOR (U16550_CONSOLE_FREQUENCY / (16UL * U16550_CONSOLE_BAUD_RATE))
#endif
#if U16550_CONSOLE_DIVISOR < 1 || U16550_CONSOLE_DIVISOR > 65535
#error "the divisor does not fit its register"
#endif
/* The limit is counted in 32 bits. */
#if U16550_CONSOLE_POLLS < 1 || U16550_CONSOLE_POLLS > 4294967295
#error "U16550_CONSOLE_POLLS is 0, or has more than 32 bits"
#endif
#if defined(U16550_CONSOLE_READ) != defined(U16550_CONSOLE_WRITE)
#error "U16550_CONSOLE_READ and U16550_CONSOLE_WRITE are defined together"
#endif

#ifndef U16550_CONSOLE_READ
#ifndef U16550_CONSOLE_BASE
#error "define U16550_CONSOLE_BASE, or U16550_CONSOLE_READ(offset) and U16550_CONSOLE_WRITE(offset, value)"
#endif
#ifndef U16550_CONSOLE_WIDTH
#define U16550_CONSOLE_WIDTH 8
#endif
#ifndef U16550_CONSOLE_STRIDE
#define U16550_CONSOLE_STRIDE (U16550_CONSOLE_WIDTH / 8)
#endif
#if U16550_CONSOLE_STRIDE < U16550_CONSOLE_WIDTH / 8
#error "U16550_CONSOLE_STRIDE is less than a register has bytes"
#endif

ACCESSES
#if U16550_CONSOLE_WIDTH == 8
UART_WORD(8, "ldrb", "strb")
#define UART_LOAD_REGISTER uart_load_8
#define UART_STORE_REGISTER uart_store_8
#elif U16550_CONSOLE_WIDTH == 16
UART_WORD(16, "ldrh", "strh")
#define UART_LOAD_REGISTER uart_load_16
#define UART_STORE_REGISTER uart_store_16
#elif U16550_CONSOLE_WIDTH == 32
UART_WORD(32, "ldr", "str")
#define UART_LOAD_REGISTER uart_load_32
#define UART_STORE_REGISTER uart_store_32
#else
#error "U16550_CONSOLE_WIDTH is 8, 16 or 32"
#endif

static inline uintptr_t uart_place(uint8_t offset)
{
    return (uintptr_t)(U16550_CONSOLE_BASE) + (uintptr_t)((uintptr_t)offset * U16550_CONSOLE_STRIDE);
}
#define U16550_CONSOLE_READ(offset) ((uint8_t)UART_LOAD_REGISTER(uart_place(offset)))
#define U16550_CONSOLE_WRITE(offset, value) UART_STORE_REGISTER(uart_place(offset), value)
#endif

static inline uint8_t uart_device_read(uint8_t offset)
{
    return U16550_CONSOLE_READ(offset);
}

static inline void uart_device_write(uint8_t offset, uint8_t value)
{
    U16550_CONSOLE_WRITE(offset, value);
}
