/* Prints how late the handler may be at 115,200 baud, by the trigger level of a FIFO of 16, if an access takes a microsecond. */
#include <stdio.h>

#include "u16550.h"

/* Writes the nanoseconds that a handler with this configuration has. Returns U16550_OK, or why there are none. */
static int time_left(const struct u16550_config *config, uint64_t *nanoseconds)
{
    uint64_t access, late;
    /* What an access takes is rounded up, and what is left is rounded down. */
    int status = u16550_clocks_covering(config, 1000, &access);

    if (status == U16550_OK)
        status = u16550_handler_budget(config, 16, access, 0, &late);
    if (status == U16550_OK)
        status = u16550_nanoseconds_within(config, late, nanoseconds);
    return status;
}

int main(void)
{
    static const uint8_t levels[] = { 1, 4, 8, 14 };
    struct u16550_config config;
    uint64_t nanoseconds = 0;
    int status = u16550_default_config(&config);

    config.frequency = 14745600;
    config.baud_rate = 115200;
    for (size_t i = 0; status == U16550_OK && i < sizeof levels; i++) {
        config.fifo_trigger_level = levels[i];
        status = time_left(&config, &nanoseconds);
        if (status == U16550_OK)
            printf("level %u: %lu us\n", levels[i], (unsigned long)(nanoseconds / 1000));
    }
    if (status != U16550_OK)
        puts(u16550_text(status));
    return status;
}
