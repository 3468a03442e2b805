/*
 * A console whose registers lie in memory, and a driver over other memory of this layout, made by u16550_new_mmio_wide: after each call at
 * random both have returned and written the same, by the same number of accesses between two barriers.
 */
#include "u16550.h"
#include "u16550_console.h"

#include <stdio.h>
#include <stdlib.h>
#include <string.h>

enum { WORDS = 8 * 4 / 4, ROUNDS = 20000 };

uint32_t registers_of_console[WORDS];
unsigned barriers;
static uint32_t registers_of_driver[WORDS];
static struct u16550 driver;
static struct u16550_console console;

/* Where the calls differ, or NULL. */
static const char *differ(int one, int other, unsigned before)
{
    if (one != other)
        return "result";
    if (memcmp(registers_of_console, registers_of_driver, sizeof registers_of_driver) != 0)
        return "memory";
    return barriers == 2 * before ? NULL : "number of barriers";
}

static int call_of_console(unsigned which, const uint8_t *bytes)
{
    switch (which) {
    case 0:
        return u16550_console_init(&console);
    case 1:
        return u16550_console_attach(&console);
    case 2:
        return u16550_console_test_loopback(&console);
    case 3:
        return u16550_console_put(&console, bytes[0]);
    default:
        return u16550_console_emergency(&console);
    }
}

static int call_of_driver(unsigned which, const uint8_t *bytes, const struct u16550_config *config)
{
    uint8_t dll, dlm;
    switch (which) {
    case 0:
        return u16550_init(&driver, config);
    case 1:
        return u16550_attach(&driver, &dll, &dlm);
    case 2:
        return u16550_test_loopback(&driver, NULL);
    case 3:
        return u16550_send_bytes_exact(&driver, bytes, 1, NULL);
    default:
        return u16550_emergency(&driver);
    }
}

int main(void)
{
    struct u16550_layout layout = { U16550_CONSOLE_STRIDE, U16550_CONSOLE_WIDTH, U16550_NATIVE_ENDIAN };
    struct u16550_config config;
    unsigned all = 0;
    int status = u16550_new_mmio_wide(&driver, (uintptr_t)registers_of_driver, &layout);
    if (status == U16550_OK)
        status = u16550_set_spin_limit(&driver, U16550_CONSOLE_POLLS);
    if (status == U16550_OK)
        status = u16550_default_config(&config);
    if (status != U16550_OK)
        return EXIT_FAILURE;
    config.baud_rate = 115200;
    console.fifo_enabled = true;
    srand(12);
    for (unsigned round = 0; round < ROUNDS; round++) {
        unsigned which = (unsigned)rand() % 5, before;
        uint8_t bytes[1] = { (uint8_t)rand() };
        const char *place;
        for (size_t i = 0; i < WORDS; i++)
            registers_of_console[i] = registers_of_driver[i] = (uint32_t)rand() ^ (uint32_t)rand() << 16;
        barriers = 0;
        status = call_of_driver(which, bytes, &config);
        before = barriers;
        place = differ(call_of_console(which, bytes), status, before);
        if (place != NULL || before == 0) {
            printf("call %u, number %u: another %s\n", which, round, place != NULL ? place : "number of accesses");
            return EXIT_FAILURE;
        }
        all += before;
    }
    printf("%u calls, %u barriers\n", (unsigned)ROUNDS, all);
    return EXIT_SUCCESS;
}
