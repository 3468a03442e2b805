/*
 * QEMU's board `virt` for Arm with 64 bits. Its own serial chip is another one, so the console is on a PCI card, which firmware would have
 * given its place: in I/O space, which the board shows in memory. Interrupts come by a GIC of version 2, which detects levels here.
 */
#include "board.h"
#include "memory.h"

/* The configurations of the PCI devices, and where they have I/O space. The card goes to a place there. */
enum { CONFIGURATIONS = 0x3f000000, CONFIGURATION_SIZE = 0x8000, DEVICES = 32, IO_SPACE = 0x3eff0000, PLACE = 0x1000 };
enum { STRIDE = 1, WIDTH = 8 };

/* Where a configuration has its switches, its class, and its first base. */
enum { COMMAND = 0x04, CLASS = 0x08, BASE = 0x10, IN_IO_SPACE = 1, CLASS_SERIAL = 0x0700 };

/* The GIC. Each four PCI devices have four of its interrupts in turn. */
enum { DISTRIBUTOR = 0x08000000, ENABLED = DISTRIBUTOR + 0x100, PRIORITIES = DISTRIBUTOR + 0x400, TARGETS = DISTRIBUTOR + 0x800 };
enum { INTERFACE = 0x08010000, LOWEST_PRIORITY = INTERFACE + 0x04, CLAIM = INTERFACE + 0x0c, COMPLETE = INTERFACE + 0x10 };
enum { FIRST_OF_PCI = 35, LINES_OF_PCI = 4, NOBODYS = 1023, CLAIMED = 0x3ff };

static uint32_t line;

const uint32_t board_frequency = 1843200;

/* The table of entries, in aarch64.S. */
extern const uint8_t vectors[];
void board_interrupt(void);

/* Finds the card, and gives it its place. Returns whether there is one. */
static bool place_card(void)
{
    for (uint32_t device = 0; device < DEVICES; device++) {
        uintptr_t configuration = CONFIGURATIONS + (uintptr_t)device * CONFIGURATION_SIZE;
        if (load_word(configuration + CLASS) >> 16 == CLASS_SERIAL) {
            store_word(configuration + BASE, PLACE);
            store_word(configuration + COMMAND, IN_IO_SPACE);
            line = FIRST_OF_PCI + device % LINES_OF_PCI;
            return true;
        }
    }
    return false;
}

int board_new(struct u16550 *uart)
{
    struct u16550_layout registers = { STRIDE, WIDTH, U16550_NATIVE_ENDIAN };
    /* Without a card this is where nothing is, and init says so. */
    place_card();
    return u16550_new_mmio_wide(uart, IO_SPACE + PLACE, &registers);
}

void board_interrupt(void)
{
    uint32_t claimed = load_word(CLAIM);
    if ((claimed & CLAIMED) == NOBODYS)
        return;
    console_interrupt();
    store_word(COMPLETE, claimed);
}

void board_set_up_interrupts(void)
{
    uintptr_t byte_of_line = line;
    store_byte(PRIORITIES + byte_of_line, 0);
    store_byte(TARGETS + byte_of_line, 1);
    store_word(ENABLED + 4 * (line / 32), UINT32_C(1) << line % 32);
    store_word(DISTRIBUTOR, 1);
    store_word(LOWEST_PRIORITY, 0xff);
    store_word(INTERFACE, 1);
    __asm__ volatile("msr vbar_el1, %0; isb" : : "r"(vectors));
}

void board_interrupts_on(void)
{
    __asm__ volatile("msr daifclr, #2" : : : "memory");
}

void board_interrupts_off(void)
{
    __asm__ volatile("msr daifset, #2" : : : "memory");
}
