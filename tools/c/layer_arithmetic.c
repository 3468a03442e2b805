/* --------------------------------------------------------------- arithmetic */

/*
 * How many bits the numbers have that the processor divides, and those that it multiplies. For others a compiler calls a function of its
 * library, which firmware may not have, or may have wrong. So they are computed by shifts.
 */
#if defined(UART_BY_SHIFTS)
#define UART_DIVIDES 0
#elif defined(__x86_64__) || defined(_M_X64) || defined(__aarch64__) || defined(_M_ARM64) || defined(__powerpc64__) || defined(__s390x__) || \
    defined(__mips64) || defined(__loongarch64) || (defined(__sparc__) && defined(__arch64__)) || (defined(__riscv_div) && __riscv_xlen == 64)
#define UART_DIVIDES 64
#elif defined(__i386__) || defined(_M_IX86) || defined(__mips__) || defined(__powerpc__) || defined(__riscv_div) || defined(__ARM_FEATURE_IDIV)
#define UART_DIVIDES 32
#else
#define UART_DIVIDES 0
#endif

/* A processor of 32 bits that gives both halves of a product multiplies 64 by some instructions. Thumb's first form gives one half, and AVR
 * multiplies what an address takes. */
#if defined(UART_BY_SHIFTS)
#define UART_MULTIPLIES 0
#elif (defined(__thumb__) && !defined(__thumb2__)) || defined(__AVR_HAVE_MUL__)
#define UART_MULTIPLIES 32
#elif UART_DIVIDES > 0 || defined(__arm__) || defined(__riscv_mul)
#define UART_MULTIPLIES 64
#else
#define UART_MULTIPLIES 0
#endif

#if UART_DIVIDES < 32
/* Divides bit by bit, as on paper. Returns the quotient, and puts what is left in the place of the dividend, which it never exceeds. */
static uint32_t uart_divide_32(uint32_t *dividend, uint32_t divisor)
{
    uint32_t quotient = 0, left = 0;
    for (unsigned bit = 0; bit < 32; bit++) {
        left = left << 1 | *dividend >> 31;
        *dividend <<= 1;
        quotient <<= 1;
        if (left >= divisor) {
            left -= divisor;
            quotient++;
        }
    }
    *dividend = left;
    return quotient;
}
#endif

#if UART_DIVIDES < 64
static inline uint32_t uart_quotient_32(uint32_t dividend, uint32_t divisor)
{
#if UART_DIVIDES >= 32
    return dividend / divisor;
#else
    return uart_divide_32(&dividend, divisor);
#endif
}

static inline uint32_t uart_rest_32(uint32_t dividend, uint32_t divisor)
{
#if UART_DIVIDES >= 32
    return dividend % divisor;
#else
    (void)uart_divide_32(&dividend, divisor);
    return dividend;
#endif
}

static uint64_t uart_divide_64(uint64_t *dividend, uint64_t divisor)
{
    uint64_t quotient = 0, left = 0;
    for (unsigned bit = 0; bit < 64; bit++) {
        left = left << 1 | *dividend >> 63;
        *dividend <<= 1;
        quotient <<= 1;
        if (left >= divisor) {
            left -= divisor;
            quotient++;
        }
    }
    *dividend = left;
    return quotient;
}
#endif

static inline uint64_t uart_quotient_64(uint64_t dividend, uint64_t divisor)
{
#if UART_DIVIDES >= 64
    return dividend / divisor;
#else
    /* As for a divisor of the chip. */
    if (((dividend | divisor) >> 32) == 0)
        return uart_quotient_32((uint32_t)dividend, (uint32_t)divisor);
    return uart_divide_64(&dividend, divisor);
#endif
}

static inline uint64_t uart_rest_64(uint64_t dividend, uint64_t divisor)
{
#if UART_DIVIDES >= 64
    return dividend % divisor;
#else
    if (((dividend | divisor) >> 32) == 0)
        return uart_rest_32((uint32_t)dividend, (uint32_t)divisor);
    (void)uart_divide_64(&dividend, divisor);
    return dividend;
#endif
}

static inline uint64_t uart_product_64(uint64_t one, uint64_t other)
{
#if UART_MULTIPLIES >= 64
    return one * other;
#else
    uint64_t product = 0;
    for (; other != 0; one <<= 1, other >>= 1) {
        if ((other & 1) != 0)
            product += one;
    }
    return product;
#endif
}

/* How many bytes so many items have. */
static inline uintptr_t uart_times(uintptr_t number, uint8_t times)
{
#if UART_MULTIPLIES >= 32
    return (uintptr_t)(number * times);
#else
    /* Hidden from the compiler: clang would make a product of this loop. */
    volatile uint8_t hidden = times;
    uintptr_t product = 0;
    for (times = hidden; times != 0; number = (uintptr_t)(number << 1), times >>= 1) {
        if ((times & 1) != 0)
            product = (uintptr_t)(product + number);
    }
    return product;
#endif
}

/* How far a register is from the first one. A stride is a power of two, so that a compiler sees no product by an offset that it knows. */
static inline uintptr_t uart_distance(uint8_t offset, uint8_t stride)
{
    uintptr_t distance = offset;
#if UART_MULTIPLIES >= 32
    distance = (uintptr_t)(distance * stride);
#else
    for (; stride > 1; stride >>= 1)
        distance = (uintptr_t)(distance << 1);
#endif
    return distance;
}
