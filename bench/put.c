/*
 * put.c - sends BYTES bytes, each by a call of its own, over the driver that is told by OF_U_BOOT, OF_HAND, OF_CONSOLE or OF_DRIVER, for
 * integration/sizes-of-c, which counts the instructions outside of `send_all`. The chip is eight cells, whose transmitter is always empty.
 */
#include "put.h"

volatile uint8_t cells[8] = { 0, 0, 0, 0, 0, 0x60, 0, 0 };

#if defined(OF_U_BOOT)
#include "u_boot.h"
#include "ns16550.h"
static struct ns16550_plat place = { .base = (unsigned long)cells, .reg_width = 1, .fcr = UART_FCR_DEFVAL };
static struct ns16550 chip = { .plat = &place };
#define SET_UP() ns16550_init(&chip, DIVISOR)
#define PUT(byte) ns16550_putc(&chip, (char)(byte))
#elif defined(OF_HAND)
#define SET_UP() hand_init()
#define PUT(byte) hand_put(byte)
#elif defined(OF_CONSOLE)
#include "u16550_console.h"
static struct u16550_console console;
#define SET_UP() u16550_console_init(&console)
#define PUT(byte) u16550_console_put(&console, byte)
#else
#include "u16550.h"
static struct u16550 driver;
static const struct u16550_layout layout = { 1, 8, U16550_NATIVE_ENDIAN };
static void set_up(void)
{
    struct u16550_config config;
    u16550_new_mmio_wide(&driver, (uintptr_t)cells, &layout);
    u16550_default_config(&config);
    u16550_init(&driver, &config);
}
#define SET_UP() set_up()
#define PUT(byte) u16550_send_bytes_exact(&driver, (const uint8_t[]){ byte }, 1, NULL)
#endif

void *memcpy(void *to, const void *from, size_t count)
{
    for (size_t at = 0; at < count; at++)
        ((uint8_t *)to)[at] = ((const uint8_t *)from)[at];
    return to;
}

void *memset(void *to, int value, size_t count)
{
    for (size_t at = 0; at < count; at++)
        ((uint8_t *)to)[at] = (uint8_t)value;
    return to;
}

void send_all(void);
__attribute__((__noinline__)) void send_all(void)
{
    for (unsigned byte = 0; byte < BYTES; byte++)
        PUT((uint8_t)byte);
}

/* Ends the program, as Linux has it. */
static void leave(void)
{
#if defined(__x86_64__)
    __asm__ volatile("syscall" : : "a"(60), "D"(0));
#elif defined(__arm__)
    register long number __asm__("r7") = 1, status __asm__("r0") = 0;
    __asm__ volatile("svc 0" : : "r"(number), "r"(status));
#else
    register long number __asm__("a7") = 93, status __asm__("a0") = 0;
    __asm__ volatile("ecall" : : "r"(number), "r"(status));
#endif
}

void begin(void);
__attribute__((__used__, __noinline__)) void begin(void)
{
    SET_UP();
    send_all();
    leave();
}

/* Where Linux begins the program, with a stack. */
#if defined(__x86_64__)
__asm__(".section .text._start, \"ax\"\n.globl _start\n_start: call begin");
#elif defined(__arm__)
__asm__(".section .text._start, \"ax\"\n.globl _start\n.thumb_func\n_start: bl begin");
#else
__asm__(".section .text._start, \"ax\"\n.globl _start\n_start: .option push\n.option norelax\n"
        "la gp, __global_pointer$\n.option pop\ncall begin");
#endif
