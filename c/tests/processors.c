/*
 * The example of examples/processors.c: the lock is taken with interrupts off and none of it is held at the end, readers are woken
 * behind it, and last words come out after a panic in the middle of a call. Prints each comparison that fails, and their number.
 */
#include <setjmp.h>
#include <stdint.h>
#include <stdio.h>
#include <stdlib.h>
#include <string.h>

#include "device.h"
#include "u16550.h"

static struct device d;
const struct u16550_io port_io = { &d, device_read, device_write };

#include "../examples/processors.c"

static int compared, failed;

static void compare(const char *file, int line, const char *what, long long got, long long wanted)
{
    compared++;
    if (got != wanted) {
        failed++;
        printf("%s:%d: %s is %lld, not %lld\n", file, line, what, got, wanted);
    }
}

#define IS(expression, wanted) compare(__FILE__, __LINE__, #expression, (long long)(expression), (long long)(wanted))
#define OK(expression) IS(expression, U16550_OK)

/* ---- the kernel */

static int are_off, is_locked, is_alone;
static unsigned woken;
static jmp_buf halted, panicked;

unsigned long interrupts_save(void)
{
    unsigned long were = (unsigned long)are_off;
    are_off = 1;
    return were;
}

void interrupts_restore(unsigned long were)
{
    IS(is_locked, 0);
    are_off = (int)were;
}

void lock_port(void)
{
    IS(are_off, 1);
    IS(is_locked, 0);
    is_locked = 1;
}

void unlock_port(void)
{
    IS(are_off, 1);
    IS(is_locked, 1);
    is_locked = 0;
}

void wake_readers(void)
{
    IS(is_locked, 0);
    woken++;
}

void stop_other_processors(void)
{
    is_alone = 1;
}

void halt(void)
{
    longjmp(halted, 1);
}

/* ---- the tests */

static void look_and_panic(struct device *device)
{
    IS(is_locked, 1);
    if (device->sent_len == 3)
        longjmp(panicked, 1);
}

static void look(struct device *device)
{
    (void)device;
    IS(is_locked, 1);
}

static struct u16550_config config;

static void start(void)
{
    static uint8_t rings[128];
    d = device_new();
    d.base = PORT_BASE;
    d.stride = PORT_STRIDE;
    memset(&port, 0, sizeof port);
    are_off = is_locked = is_alone = 0;
    woken = 0;
    OK(u16550_new_mmio(&port, &port_io, PORT_BASE, PORT_STRIDE));
    OK(u16550_default_config(&config));
    config.interrupts = U16550_IER_DATA_READY;
    OK(u16550_init(&port, &config));
    OK(u16550_ring_new(&port, rings, sizeof rings, 64, 64));
}

static void threads_and_handler(void)
{
    uint8_t slots[8];
    start();
    d.meanwhile = look;
    IS(port_write((const uint8_t *)"hello", 5), 5);
    IS(port_read(slots, sizeof slots), 0);
    device_arrive(&d, "typed");
    OK(port_interrupt());
    IS(woken, 1);
    are_off = 1; /* as in a handler that is called with interrupts off */
    IS(port_read(slots, sizeof slots), 5);
    IS(are_off, 1);
    IS(memcmp(slots, "typed", 5), 0);
    d.meanwhile = NULL;
    IS(memcmp(d.sent, "hello", 5), 0);
}

/* A write waits for CTS, and goes out when the handler sees it come back. An overrun is counted. */
static void lines(void)
{
    start();
    config.check_cts_before_sending = 1;
    config.interrupts = PORT_INTERRUPTS;
    OK(u16550_init(&port, &config));
    d.registers[MSR] = U16550_MSR_DSR;
    IS(port_write((const uint8_t *)"hello", 5), 5);
    IS(d.sent_len, 0);
    d.registers[MSR] = U16550_MSR_DSR | U16550_MSR_CTS | U16550_MSR_DELTA_CTS;
    d.errors = U16550_LSR_OVERRUN_ERROR;
    OK(port_interrupt());
    IS(d.sent_len, 5);
    IS(overruns, 1);
}

/* The chip shows an interrupt for ever, until it is mended. */
static void stuck(uint8_t shows, int why)
{
    unsigned run;
    start();
    d.shows = shows;
    for (run = 1; run < MOST_RUNS; run++)
        OK(port_interrupt());
    IS(port_interrupt(), why);
    IS(d.registers[IER], 0);
    IS(port_write((const uint8_t *)"waits", 5), 5);
    IS(port_interrupt(), why);
    IS(d.registers[IER], 0);
    IS(d.sent_len, 0);
    d.shows = SHOWS_WHAT_IS;
    OK(port_restart());
    IS(d.sent_len, 5);
    OK(port_interrupt());
}

static void panic_in_a_call(const struct u16550_config *frame)
{
    size_t count;
    start();
    d.meanwhile = look_and_panic;
    if (setjmp(panicked) == 0)
        IS(port_write((const uint8_t *)"sent before", 11), 0);
    d.meanwhile = NULL;
    IS(u16550_ring_queue(&port, (const uint8_t *)"x", 1, &count), U16550_BUSY);
    if (setjmp(halted) == 0)
        last_words(frame, "\nno memory\n", 11);
    IS(is_alone, 1);
    IS(are_off, 1);
    IS(d.sent_len, 3 + 13);
    IS(memcmp(d.sent, "sen\r\nno memory\r\n", 16), 0);
    IS(d.registers[IER], 0);
}

int main(void)
{
    threads_and_handler();
    lines();
    stuck(0x08, U16550_RING_STUCK_UNKNOWN);
    stuck(RECEIVED_DATA, U16550_RING_STUCK_PENDING);
    panic_in_a_call(NULL);
    panic_in_a_call(&config);
    printf("%d compared, %d failed\n", compared, failed);
    return failed != 0;
}
