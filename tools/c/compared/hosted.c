/* The comparison as a program: compared SEED CALLS. */
#include <stdio.h>
#include <stdlib.h>

#if defined(OF_PORT)
#include "port.h"
#elif defined(OF_CONSOLE)
#include "console.h"
#else
#include "calls.h"
#endif

void print(const char *text, size_t len)
{
    fwrite(text, 1, len, stdout);
}

#if defined(LISTED)
/*
 * Which functions each call comes to: a compiler that is told to calls these two at the beginning and at the end of each function. The first
 * of all is that of the call, and so is the first in a call in the middle of another.
 */
enum { PAIRS = 1 << 16 };
static struct pair {
    void *call, *function;
} pairs[PAIRS];
static void *stack[64];
static unsigned depth, first;

void __cyg_profile_func_enter(void *function, void *site) __attribute__((no_instrument_function));
void __cyg_profile_func_exit(void *function, void *site) __attribute__((no_instrument_function));

void __cyg_profile_func_enter(void *function, void *site)
{
    size_t place;
    void *call;
    (void)site;
#if !defined(OF_PORT) && !defined(OF_CONSOLE)
    if (!is_nested)
        first = 0;
    else if (first == 0)
        first = depth;
#endif
    stack[depth++ % 64] = function;
    call = stack[first];
    place = ((size_t)call * 31 + (size_t)function) / 4 % PAIRS;
    while (pairs[place].call != NULL && (pairs[place].call != call || pairs[place].function != function))
        place = (place + 1) % PAIRS;
    pairs[place].call = call;
    pairs[place].function = function;
}

void __cyg_profile_func_exit(void *function, void *site)
{
    (void)function;
    (void)site;
    depth--;
}

/* Prints the addresses of each call and of each function that it came to. */
static void print_pairs(void)
{
    for (size_t i = 0; i < PAIRS; i++) {
        if (pairs[i].call != NULL)
            printf("pair %p %p\n", pairs[i].call, pairs[i].function);
    }
}
#endif

int main(int argc, char **argv)
{
    if (argc != 3)
        return EXIT_FAILURE;
    compare(strtoull(argv[1], NULL, 10), (uint32_t)strtoul(argv[2], NULL, 10));
#if defined(LISTED)
    print_pairs();
#endif
    return EXIT_SUCCESS;
}
