/*
 * What the calls that poll of U-Boot's drivers/serial/ns16550.c take from the headers of U-Boot, as its boards with a driver model have
 * it: the registers are bytes in memory, and where they are is told when it runs.
 */
#ifndef U_BOOT_H
#define U_BOOT_H

#include "put.h"

#define CONFIG_DM_SERIAL
#define CONFIG_IS_ENABLED(option) 1
#define IS_ENABLED(option) 0
#define DECLARE_GLOBAL_DATA_PTR struct u_boot_without_data
#define DIV_ROUND_CLOSEST(number, by) (((number) + (by) / 2) / (by))

typedef uint8_t u8;
typedef uint32_t u32;
typedef unsigned long ulong;

static inline void schedule(void) {}

static inline u8 readb(const volatile void *address)
{
    U16550_BARRIER();
    u8 value = *(const volatile u8 *)address;
    U16550_BARRIER();
    return value;
}

static inline void writeb(u8 value, volatile void *address)
{
    U16550_BARRIER();
    *(volatile u8 *)address = value;
    U16550_BARRIER();
}

#endif
