/*
 * The rings of the driver in C over GXemul's serial chip, by its interrupt line: rings BYTES ARRIVALS. Of 1000 accesses so many come with a
 * byte that arrives. Sends so many bytes, compares both directions, and prints how many are wrong, how many did not come out at the other
 * end, and how often bytes stayed in the transmit ring although the chip had room and nothing would have called the handler.
 */
#include <stdio.h>
#include <stdlib.h>

#include "around.h"
#include "dev_ns16550.c"
#include "u16550.h"

/* So often the clock ticks at most until what is queued has gone, half of them without being told to go on. */
enum { MOST_TICKS = 6000 };

static struct ns_data chip;
static uint64_t arrivals, arrived, went, wrong, asleep;

static uint64_t below(uint64_t bound)
{
    static uint64_t seed = 0x9e3779b97f4a7c15;

    seed ^= seed << 13;
    seed ^= seed >> 7;
    seed ^= seed << 17;
    return (seed >> 11) % bound;
}

/* The byte at a place of each of the two streams. */
static uint8_t sent_byte(uint64_t at) { return (uint8_t)(at * 3); }
static uint8_t arriving_byte(uint64_t at) { return (uint8_t)(at * 7 + 1); }

/* GXemul's console: what the chip sends, and what waits for it. */
static uint8_t waiting[1024];
static uint64_t waiting_begin, waiting_end;

int console_charavail(int handle) { (void)handle; return waiting_begin != waiting_end; }
int console_readchar(int handle) { return console_charavail(handle) ? waiting[waiting_begin++ % sizeof waiting] : -1; }
void console_makeavail(int handle, char character) { (void)handle; waiting[waiting_end++ % sizeof waiting] = (uint8_t)character; }
void console_putchar(int handle, int character) { (void)handle; wrong += (uint8_t)character != sent_byte(went++); }

static void access_chip(uintptr_t offset, unsigned char *value, int writes)
{
    dev_ns16550_access(0, 0, offset, value, 1, writes, &chip);
    if (below(1000) < arrivals && waiting_end - waiting_begin < sizeof waiting)
        console_makeavail(0, (char)arriving_byte(arrived++));
}

static uint8_t chip_read(void *at, uintptr_t offset)
{
    unsigned char value = 0;

    (void)at;
    access_chip(offset, &value, MEM_READ);
    return value;
}

static void chip_write(void *at, uintptr_t offset, uint8_t value)
{
    unsigned char written = value;

    (void)at;
    access_chip(offset, &written, MEM_WRITE);
}

/* A tick of the machine's clock, and the handler while the line is high. */
static void tick(struct u16550 *uart)
{
    struct u16550_handled handled;

    dev_ns16550_tick(0, &chip);
    if (chip.irq.line)
        u16550_ring_try_handle(uart, 32, 100, &handled);
}

/* Takes what has come, up to 200 bytes, and returns how many had come before. */
static uint64_t take(struct u16550 *uart, uint64_t came)
{
    uint8_t bytes[200];
    size_t count, at;

    u16550_ring_take(uart, bytes, below(sizeof bytes), &count);
    for (at = 0; at < count; at++)
        wrong += bytes[at] != arriving_byte(came++);
    return came;
}

/*
 * Lets the clock tick while no program queues, until what is queued has gone, and if nothing arrives any more, until all has come. Rings
 * that are asleep after half of the time are counted, and told to go on.
 */
static void rest(struct u16550 *uart, uint64_t sent, uint64_t *came)
{
    unsigned ticks;

    for (ticks = 0; ticks < MOST_TICKS && (went < sent || (arrivals == 0 && *came < arrived)); ticks++) {
        if (ticks == MOST_TICKS / 2 && went < sent) {
            asleep++;
            u16550_ring_resume_transmit(uart);
        }
        tick(uart);
        *came = take(uart, *came);
    }
}

int main(int count, char **words)
{
    static struct u16550 uart;
    static uint8_t memory[8192];
    struct u16550_io io = {0, chip_read, chip_write};
    struct u16550_config config;
    uint8_t bytes[40];
    uint64_t wanted, sent = 0, came = 0;
    size_t len, at;

    if (count != 3 || (wanted = strtoull(words[1], 0, 10)) == 0)
        return 2;
    chip = (struct ns_data){.addrmult = 1, .enable_fifo = 1, .in_use = 1, .divisor = 12, .databits = 8, .parity = 'N', .stopbits = "1"};
    u16550_default_config(&config);
    config.interrupts = U16550_IER_DATA_READY | U16550_IER_RECEIVER_LINE_STATUS | U16550_IER_MODEM_STATUS;
    if (u16550_new(&uart, &io) || u16550_ring_new(&uart, memory, sizeof memory, 512, 4096) || u16550_init(&uart, &config))
        return 2;
    arrivals = strtoull(words[2], 0, 10);
    while (sent < wanted) {
        tick(&uart);
        len = 1 + below(sizeof bytes);
        for (at = 0; at < len; at++)
            bytes[at] = sent_byte(sent + at);
        u16550_ring_queue(&uart, bytes, len, &len);
        sent += len;
        came = take(&uart, came);
        if (below(50) == 0)
            rest(&uart, sent, &came);
    }
    arrivals = 0;
    rest(&uart, sent, &came);
    printf("sent %llu, arrived %llu, wrong %llu, missing %llu, asleep %llu times\n", (unsigned long long)sent,
           (unsigned long long)arrived, (unsigned long long)wrong, (unsigned long long)(sent - went + arrived - came),
           (unsigned long long)asleep);
    return wrong > 0;
}
