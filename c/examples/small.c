/* The smallest console of QEMU's RISC-V board: it says hello, and sends back what is typed. */
#include "u16550_console.h"

static struct u16550_console console;

int main(void)
{
    int status = u16550_console_init(&console);

    if (status == U16550_CONSOLE_OK)
        status = u16550_console_test_loopback(&console);
    if (status == U16550_CONSOLE_OK)
        status = u16550_console_write_text(&console, "hello from C\n", 13);
    while (status == U16550_CONSOLE_OK) {
        int byte = u16550_console_get(&console);

        if (byte >= 0)
            status = u16550_console_put(&console, (uint8_t)byte);
    }
    return status;
}

/* What a program without a library of C has itself: its start, its stack, and what a compiler may call. */
char stack[1024];
__asm__(".globl _start\n_start: la sp, stack + 1024\n call main\n0: j 0b\n");

void *memcpy(void *to, const void *from, size_t count)
{
    for (size_t i = 0; i < count; i++)
        ((volatile char *)to)[i] = ((const char *)from)[i];
    return to;
}
