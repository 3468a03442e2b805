/* QEMU's board `virt` for RISC-V with 64 or 32 bits: a chip in memory, and the PLIC, which detects levels. All is in machine mode. */
#include "board.h"
#include "memory.h"

enum { UART = 0x10000000, STRIDE = 1, WIDTH = 8, UART_LINE = 10 };

/* The PLIC: a priority for each line, and what the first processor's machine mode has. */
enum { PRIORITIES = 0x0c000000, ENABLED = 0x0c002000, THRESHOLD = 0x0c200000, CLAIM = 0x0c200004 };

enum { MIE_EXTERNAL = 1 << 11, MSTATUS_INTERRUPTS = 1 << 3 };

const uint32_t board_frequency = 3686400;

/* The processor keeps the order of accesses to one device, but not of those to two of them. */
static void fence(void)
{
    __asm__ volatile("fence iorw, iorw" : : : "memory");
}

int board_new(struct u16550 *uart)
{
    struct u16550_layout registers = { STRIDE, WIDTH, U16550_NATIVE_ENDIAN };
    return u16550_new_mmio_wide(uart, UART, &registers);
}

/* The entry of all interrupts and faults. Only that of the chip is let in. */
__attribute__((interrupt("machine"), aligned(4))) static void enter(void)
{
    uint32_t claimed = load_word(CLAIM);
    fence();
    console_interrupt();
    fence();
    store_word(CLAIM, claimed);
}

void board_set_up_interrupts(void)
{
    store_word(PRIORITIES + 4 * UART_LINE, 1);
    store_word(ENABLED, 1 << UART_LINE);
    store_word(THRESHOLD, 0);
    __asm__ volatile("csrw mtvec, %0" : : "r"(enter));
    __asm__ volatile("csrs mie, %0" : : "r"(MIE_EXTERNAL));
}

void board_interrupts_on(void)
{
    __asm__ volatile("csrs mstatus, %0" : : "r"(MSTATUS_INTERRUPTS) : "memory");
}

void board_interrupts_off(void)
{
    __asm__ volatile("csrc mstatus, %0" : : "r"(MSTATUS_INTERRUPTS) : "memory");
}
