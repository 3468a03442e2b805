/*
 * What a comparison is made of: numbers at random that depend on the seed alone, a hash of all that is seen, and its text. It needs no
 * library of C.
 */
#ifndef CHOICES_H
#define CHOICES_H

#include <stddef.h>
#include <stdint.h>

#if defined(__cplusplus)
extern "C" {
#endif
void print(const char *text, size_t len);
#if defined(__cplusplus)
}
#endif

/* ---- choices and the hash */

static uint64_t choices, hash;

#if defined(__clang__)
/* These numbers are to overflow. */
__attribute__((no_sanitize("unsigned-integer-overflow", "unsigned-shift-base")))
#endif
static uint64_t choose(void)
{
    uint64_t z = choices += UINT64_C(0x9e3779b97f4a7c15);
    z = (z ^ z >> 30) * UINT64_C(0xbf58476d1ce4e5b9);
    z = (z ^ z >> 27) * UINT64_C(0x94d049bb133111eb);
    return z ^ z >> 31;
}

/* A number below this one. */
static uint32_t below(uint32_t most)
{
    return (uint32_t)((choose() >> 32) % most);
}

static uint8_t any_byte(void)
{
    return (uint8_t)below(256);
}

#if defined(__clang__)
__attribute__((no_sanitize("unsigned-integer-overflow")))
#endif
static void note(uint64_t word)
{
    hash = (hash ^ word) * UINT64_C(0x100000001b3);
    hash ^= hash >> 29;
}

static void note_bytes(const uint8_t *bytes, size_t len)
{
    for (size_t i = 0; i < len; i++)
        note(bytes[i]);
}

static void print_number(uint64_t number, unsigned base, const char *end)
{
    char text[24], *at = text + sizeof text;
    size_t len = 0;
    do {
        *--at = "0123456789abcdef"[number % base];
        number /= base;
    } while (number);
    print(at, (size_t)(text + sizeof text - at));
    while (end[len])
        len++;
    print(end, len);
}

#endif
