/* A console of QEMU's RISC-V board, whose 16550 is at 0x10000000: it says hello, and sends back what is typed. */
#include "u16550.h"

enum { BASE = 0x10000000, FREQUENCY = 3686400 };

static struct u16550 console;

/* Sets the console up. Returns U16550_OK, or why there is none. */
static int start(void)
{
    struct u16550_layout registers = { 1, 8, U16550_NATIVE_ENDIAN };
    struct u16550_config config;
    int status = u16550_new_mmio_wide(&console, BASE, &registers);

    if (status == U16550_OK)
        status = u16550_default_config(&config);
    if (status != U16550_OK)
        return status;
    config.frequency = FREQUENCY;
    config.baud_rate = 115200;
    status = u16550_init(&console, &config);
    if (status == U16550_OK)
        status = u16550_test_loopback(&console, NULL);
    return status;
}

int main(void)
{
    int status = start();

    if (status == U16550_OK)
        status = u16550_write_text(&console, "hello from C\n", 13, NULL);
    while (status == U16550_OK || status == U16550_RECEIVE_NO_DATA) {
        uint8_t byte;

        status = u16550_try_receive_byte(&console, &byte);
        if (status == U16550_OK)
            status = u16550_write_raw_text(&console, (const char *)&byte, 1, NULL);
    }
    return status;
}

/* What a program without a library of C has itself: its start, its stack, and what compilers call. */
char stack[4096];
__asm__(".globl _start\n_start: la sp, stack + 4096\n call main\n0: j 0b\n");

void *memcpy(void *to, const void *from, size_t count)
{
    for (size_t i = 0; i < count; i++)
        ((volatile char *)to)[i] = ((const char *)from)[i];
    return to;
}

void *memset(void *to, int value, size_t count)
{
    for (size_t i = 0; i < count; i++)
        ((volatile char *)to)[i] = (char)value;
    return to;
}
