/*
 * u16550.h - a driver for serial chips of the 16550 family, for kernels and firmware.
 *
 * Made by tools/c/emit from the code that is proved, and from the table of the interface. Do not edit.
 *
 * This is u16550.c and u16550.h alone: C99 that needs stddef.h, stdint.h and stdbool.h, and nothing else. It allocates nothing, has
 * no variables and calls no function but those that it is given. A compiler may call memcpy and memset, and no other function of a
 * library. Compile u16550.c as the rest of the program is compiled.
 *
 * The device is reached by two functions of the caller, or by the library itself if it is in memory. The driver is in memory of the
 * caller.
 *
 * 'Proved' says which accesses a call makes and what it leaves, for every device, in the words of the definitions. It is proved of the
 * code that this is made from, which the C is compared with.
 *
@RULES@ */
#ifndef U16550_H
#define U16550_H

/*
 * A kernel without these headers defines U16550_HAS_TYPES, and has bool, true, false, size_t, NULL, offsetof, uintptr_t and uint8_t to
 * uint64_t itself.
 */
#ifndef U16550_HAS_TYPES
#include <stdbool.h>
#include <stddef.h>
#include <stdint.h>
#endif

#if defined(__cplusplus)
extern "C" {
#endif

@VERSION@
@NUMBERS@
@TYPES@
/* What a driver keeps of its device: its functions, the first address, and how far apart the registers are. */
struct u16550_device {
    struct u16550_io io;
    uintptr_t base;
    uint8_t stride;
};

/* ---- what a driver keeps */

@KEPT@
@HANDLE@struct u16550 {
    volatile uint32_t mark;
    volatile uint32_t is_busy;
    uint8_t has_rings;
    struct u16550_core_ring ring;
};

@CHIP@struct u16550_design_ware {
    struct u16550_core_design_ware chip;
};

@BUS@struct u16550_bus {
    volatile uint32_t mark;
    volatile uint32_t is_busy;
    struct u16550_core_half_duplex bus;
};

@NOTES@struct u16550_notes {
    struct u16550_core_error_notes notes;
};

@CALLS@
/* --------------------------------------------------------------- the layout of structs
 *
 * A library that lays structs out otherwise than its program would write behind them. So the functions that make a driver look first whether
 * both were compiled for each other, and return U16550_OTHER_LAYOUT if not, without an access to any memory of the program.
 */

/* Each struct. How many bytes they are together says how a compiler lays structs out. */
struct u16550_structs {
@STRUCTS@};

/* The version of this header and the layout of its structs. */
#define U16550_LAYOUT (65536ul * U16550_VERSION_NUMBER + sizeof(struct u16550_structs))

/*
 * Returns U16550_OK if each of the three is the library's number, or U16550_OTHER_LAYOUT. Then the library is of another version; or one of
 * the two was compiled with an option that changes structs, as -fpack-struct; or with one that changes where arguments are, as -mregparm, so
 * that the library finds other numbers than it was given.
 */
int u16550_check_layout(uint32_t first, uint32_t second, uint32_t third);

#define U16550_LOOK() u16550_check_layout(U16550_LAYOUT, U16550_LAYOUT, U16550_LAYOUT)
#define U16550_LAID_OUT(call) (U16550_LOOK() == U16550_OK ? (call) : U16550_LOOK())
@MAKERS@
#if defined(__cplusplus)
}
#endif

#endif
