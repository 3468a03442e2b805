/* Registers in memory, of an interrupt controller and the like. u16550.c reaches those of the serial chip itself. */
#ifndef MEMORY_H
#define MEMORY_H

#include <stdint.h>

static inline uint32_t load_word(uintptr_t address)
{
    return *(volatile uint32_t *)address;
}

static inline void store_word(uintptr_t address, uint32_t value)
{
    *(volatile uint32_t *)address = value;
}

static inline void store_byte(uintptr_t address, uint8_t value)
{
    *(volatile uint8_t *)address = value;
}

#endif
