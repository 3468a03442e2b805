/* What a PC has without an operating system: ports, a clock, numbers as text, and the division that a compiler asks for. */
#ifndef CENSUS_PORTS_H
#define CENSUS_PORTS_H

#include <stdint.h>

static inline uint8_t in8(uint16_t port)
{
    uint8_t value;

    __asm__ volatile("inb %1, %0" : "=a"(value) : "Nd"(port));
    return value;
}

static inline void out8(uint16_t port, uint8_t value)
{
    __asm__ volatile("outb %0, %1" : : "a"(value), "Nd"(port));
}

static inline uint32_t in32(uint16_t port)
{
    uint32_t value;

    __asm__ volatile("inl %1, %0" : "=a"(value) : "Nd"(port));
    return value;
}

static inline void out32(uint16_t port, uint32_t value)
{
    __asm__ volatile("outl %0, %1" : : "a"(value), "Nd"(port));
}

/* Counter 2 of the PC's timer goes round every 55 ms, at 1,193,182 Hz. Each wait of the census looks more often. */
struct pit {
    uint16_t last;
    uint64_t ticks;
};

static inline uint16_t pit_count(void)
{
    uint16_t low;

    out8(0x43, 0x80);
    low = in8(0x42);
    return low | (uint16_t)(in8(0x42) << 8);
}

static inline void pit_start(struct pit *pit)
{
    /* The gate is on, and the loudspeaker off. Mode 2 counts by ones. */
    out8(0x61, (in8(0x61) & 0xfc) | 0x01);
    out8(0x43, 0xb4);
    out8(0x42, 0);
    out8(0x42, 0);
    pit->last = pit_count();
    pit->ticks = 0;
}

static inline uint64_t pit_ns(struct pit *pit)
{
    uint16_t count = pit_count();

    pit->ticks += (uint16_t)(pit->last - count);
    pit->last = count;
    return pit->ticks * 838 + (pit->ticks * 25 >> 8); /* 838.1, without a division: a slow machine asks often */
}

/*
 * Reads a port in hexadecimal digits, from its first digit to a space or the end. Returns whether it is one. The words of a boot loader end
 * with 00, and those of DOS with 0d.
 */
static inline int read_port(const volatile char *text, uint16_t *port)
{
    uint32_t value = 0;
    unsigned count;
    char digit;

    for (count = 0; (digit = text[count]) != 0 && digit != ' ' && digit != 0x0d; count++) {
        if (digit >= '0' && digit <= '9')
            value = value << 4 | (uint32_t)(digit - '0');
        else if ((digit | 0x20) >= 'a' && (digit | 0x20) <= 'f')
            value = value << 4 | (uint32_t)((digit | 0x20) - 'a' + 10);
        else
            return 0;
        if (value > 0xfff8)
            return 0;
    }
    *port = (uint16_t)value;
    return count > 0;
}

/* What the compiler calls for a division of 64 bits on a processor of 32. */
uint64_t __udivmoddi4(uint64_t number, uint64_t by, uint64_t *rest);
uint64_t __udivmoddi4(uint64_t number, uint64_t by, uint64_t *rest)
{
    uint64_t quotient = 0, left = 0;
    int bit;

    for (bit = 63; bit >= 0; bit--) {
        left = left << 1 | (number >> bit & 1);
        if (left >= by) {
            left -= by;
            quotient |= (uint64_t)1 << bit;
        }
    }
    if (rest != 0)
        *rest = left;
    return quotient;
}

uint64_t __udivdi3(uint64_t number, uint64_t by);
uint64_t __udivdi3(uint64_t number, uint64_t by)
{
    return __udivmoddi4(number, by, 0);
}

#endif
