/*
 * The comparison where there is no library of C: for processors with the other byte order, and for Arm, whose accesses to registers in memory
 * are instructions of their own, in QEMU's user mode; and for x86 of 32 bits. CALLS and SEED are given to the compiler.
 */
#if defined(OF_PORT)
#include "port.h"
#elif defined(OF_CONSOLE)
#include "console.h"
#else
#include "calls.h"
#endif

#if defined(__s390x__)
static long call_system(long number, long one, long two, long three)
{
    register long r1 __asm__("1") = number;
    register long r2 __asm__("2") = one;
    register long r3 __asm__("3") = two;
    register long r4 __asm__("4") = three;
    __asm__ volatile("svc 0" : "+d"(r2) : "d"(r1), "d"(r3), "d"(r4) : "memory");
    return r2;
}
enum { WRITE = 4, EXIT = 1 };
#elif defined(__powerpc__)
static long call_system(long number, long one, long two, long three)
{
    register long r0 __asm__("0") = number;
    register long r3 __asm__("3") = one;
    register long r4 __asm__("4") = two;
    register long r5 __asm__("5") = three;
    __asm__ volatile("sc" : "+r"(r0), "+r"(r3), "+r"(r4), "+r"(r5) : : "memory", "cr0", "ctr", "6", "7", "8", "9", "10", "11", "12");
    return r3;
}
enum { WRITE = 4, EXIT = 1 };
#elif defined(__aarch64__)
static long call_system(long number, long one, long two, long three)
{
    register long x8 __asm__("x8") = number;
    register long x0 __asm__("x0") = one;
    register long x1 __asm__("x1") = two;
    register long x2 __asm__("x2") = three;
    __asm__ volatile("svc 0" : "+r"(x0) : "r"(x8), "r"(x1), "r"(x2) : "memory");
    return x0;
}
enum { WRITE = 64, EXIT = 93 };
#elif defined(__arm__)
static long call_system(long number, long one, long two, long three)
{
    register long r7 __asm__("r7") = number;
    register long r0 __asm__("r0") = one;
    register long r1 __asm__("r1") = two;
    register long r2 __asm__("r2") = three;
    __asm__ volatile("svc 0" : "+r"(r0) : "r"(r7), "r"(r1), "r"(r2) : "memory");
    return r0;
}
enum { WRITE = 4, EXIT = 1 };
#elif defined(__i386__)
static long call_system(long number, long one, long two, long three)
{
    long result;
    __asm__ volatile("int $0x80" : "=a"(result) : "a"(number), "b"(one), "c"(two), "d"(three) : "memory");
    return result;
}
enum { WRITE = 4, EXIT = 1 };
#endif

#if defined(__powerpc__) || defined(__i386__)
/* What a compiler calls for numbers of 64 bits on a processor of 32: one bit after the other. */
uint64_t __udivmoddi4(uint64_t number, uint64_t by, uint64_t *rest);
uint64_t __udivdi3(uint64_t number, uint64_t by);
uint64_t __umoddi3(uint64_t number, uint64_t by);

uint64_t __udivmoddi4(uint64_t number, uint64_t by, uint64_t *rest)
{
    uint64_t quotient = 0;
    *rest = 0;
    for (int bit = 63; bit >= 0; bit--) {
        uint64_t over = *rest >> 63;
        *rest = *rest << 1 | (number >> bit & 1);
        if (over || *rest >= by) {
            *rest -= by;
            quotient |= (uint64_t)1 << bit;
        }
    }
    return quotient;
}

uint64_t __udivdi3(uint64_t number, uint64_t by)
{
    uint64_t rest;
    return __udivmoddi4(number, by, &rest);
}

uint64_t __umoddi3(uint64_t number, uint64_t by)
{
    uint64_t rest;
    __udivmoddi4(number, by, &rest);
    return rest;
}
#endif

void *memcpy(void *to, const void *from, size_t len);
void *memset(void *to, int value, size_t len);

void *memcpy(void *to, const void *from, size_t len)
{
    volatile uint8_t *at = (volatile uint8_t *)to;
    for (size_t i = 0; i < len; i++)
        at[i] = ((const uint8_t *)from)[i];
    return to;
}

void *memset(void *to, int value, size_t len)
{
    volatile uint8_t *at = (volatile uint8_t *)to;
    for (size_t i = 0; i < len; i++)
        at[i] = (uint8_t)value;
    return to;
}

void print(const char *text, size_t len)
{
    call_system(WRITE, 1, (long)text, (long)len);
}

void begin(void);
void begin(void)
{
    compare(SEED, CALLS);
    call_system(EXIT, 0, 0, 0);
    for (;;)
        ;
}

#if defined(__s390x__)
__asm__(".globl _start\n_start: aghi %r15,-160\nbrasl %r14,begin\n");
#elif defined(__powerpc__)
__asm__(".globl _start\n_start: stwu 1,-64(1)\nbl begin\n");
#elif defined(__i386__)
__asm__(".globl _start\n_start: call begin\n");
#elif defined(__aarch64__) || defined(__arm__)
__asm__(".globl _start\n_start: bl begin\n");
#endif
