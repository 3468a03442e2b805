/*
 * Arithmetic by shifts, as processors have it that have no instruction for it, beside that of this one: numbers at the edges, each with each,
 * and numbers at random of each length.
 */
#define UART_BY_SHIFTS
#include <stdint.h>
#include <stdio.h>

#include "../layer_arithmetic.c"
#include "../layer_product.c"

static unsigned long pairs, wrong;

static void compare(uint64_t one, uint64_t other)
{
    uint32_t short_one = (uint32_t)one, short_other = (uint32_t)other;
    pairs++;
    wrong += uart_product_64(one, other) != one * other;
    wrong += __mspabi_mpyi((uint16_t)one, (uint16_t)other) != (uint16_t)(one * other);
    wrong += uart_times((uintptr_t)one, (uint8_t)other) != (uintptr_t)(one * (uint8_t)other);
    for (uint8_t stride = 1; stride != 0; stride = (uint8_t)(stride << 1))
        wrong += uart_distance((uint8_t)one, stride) != (uintptr_t)(uint8_t)one * stride;
    if (other != 0) {
        wrong += uart_quotient_64(one, other) != one / other;
        wrong += uart_rest_64(one, other) != one % other;
    }
    if (short_other != 0) {
        wrong += uart_quotient_32(short_one, short_other) != short_one / short_other;
        wrong += uart_rest_32(short_one, short_other) != short_one % short_other;
    }
}

static uint64_t at_random(void)
{
    static uint64_t state = 88172645463325252u;
    state ^= state << 13;
    state ^= state >> 7;
    state ^= state << 17;
    return state >> (state & 63);
}

int main(void)
{
    uint64_t edges[64 * 3];
    unsigned count = 0;
    for (unsigned bit = 0; bit < 64; bit++) {
        for (unsigned more = 0; more < 3; more++)
            edges[count++] = ((uint64_t)1 << bit) + more - 1;
    }
    for (unsigned i = 0; i < count; i++) {
        for (unsigned j = 0; j < count; j++)
            compare(edges[i], edges[j]);
    }
    for (unsigned i = 0; i < 200000; i++)
        compare(at_random(), at_random());
    printf("%lu pairs of numbers, %lu wrong\n", pairs, wrong);
    return wrong != 0;
}
