/* What a harness for Frama-C's Eva chooses: any value of a range. */
#ifndef ANY_H
#define ANY_H

#include <stddef.h>
#include <stdint.h>

#include "__fc_builtin.h"

/* A number below this one. */
static inline uint32_t below(uint32_t most)
{
    return Frama_C_unsigned_int_interval(0, most - 1);
}

static inline uint8_t any_byte(void)
{
    return (uint8_t)below(256);
}

static inline uint16_t any_short(void)
{
    return (uint16_t)below(65536);
}

static inline uint32_t any_word(void)
{
    return Frama_C_unsigned_int_interval(0, 0xffffffffu);
}

static inline uint64_t any_number(void)
{
    return Frama_C_unsigned_long_long_interval(0, 0xffffffffffffffffu);
}

/* Bytes of any value. */
static inline void any_bytes(uint8_t *bytes, size_t count)
{
    size_t i;
    for (i = 0; i < count; i++)
        bytes[i] = any_byte();
}

#endif
