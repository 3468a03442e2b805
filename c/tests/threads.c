/*
 * Threads over the library, for tools that find data races and writes outside of memory: two threads with a driver each, and two
 * with one driver behind a lock, of which one is the interrupt handler. Prints each comparison that fails, and their number.
 *
 * With the name of a fault it makes this fault and ends. What runs it has to find the fault, or else finds nothing in the tests
 * either: `race`, the one driver without the lock; `outside`, a byte received behind the end of an array; `overflow`, a sum of
 * integers that C does not define.
 */
#define _POSIX_C_SOURCE 200809L
#include <limits.h>
#include <pthread.h>
#include <sched.h>
#include <stdint.h>
#include <stdio.h>
#include <stdlib.h>
#include <string.h>

#include "device.h"
#include "u16550.h"

enum {
    MESSAGES = 50,
    MESSAGE = 100,         /* bytes, fewer than a device keeps */
    CAPACITY = 64,         /* of each ring */
    TURNS = 10000000       /* in which a test has to come to its end, also if a thread waits long for a processor */
};

/* The text of message n. */
static void write_message(unsigned n, uint8_t *bytes)
{
    unsigned i;
    for (i = 0; i < MESSAGE; i++)
        bytes[i] = (uint8_t)(n + i);
}

static struct u16550_config config_with(uint8_t interrupts)
{
    struct u16550_config config;
    u16550_default_config(&config);
    config.interrupts = interrupts;
    return config;
}

/* ---- a driver for each thread */

struct own {
    struct device device;
    struct u16550 uart;
    unsigned wrong;
};

static void exchange(struct own *own, unsigned n)
{
    uint8_t message[MESSAGE], back[MESSAGE];
    size_t done = 0;

    write_message(n, message);
    own->device.room = ROOM;
    own->device.sent_len = 0;
    own->wrong += u16550_send_bytes_exact(&own->uart, message, MESSAGE, &done) != U16550_OK;
    own->wrong += own->device.sent_len != MESSAGE || memcmp(own->device.sent, message, MESSAGE) != 0;
    memcpy(own->device.arrived, message, MESSAGE);
    own->device.arrived_len = MESSAGE;
    own->wrong += u16550_receive_bytes_exact(&own->uart, back, MESSAGE, &done) != U16550_OK;
    own->wrong += memcmp(back, message, MESSAGE) != 0;
}

static void *use_own(void *context)
{
    struct own *own = (struct own *)context;
    struct u16550_io io;
    struct u16550_config config = config_with(0);
    unsigned n;

    own->device = device_new();
    io = device_io(&own->device);
    own->wrong += u16550_new(&own->uart, &io) != U16550_OK;
    own->wrong += u16550_init(&own->uart, &config) != U16550_OK;
    own->wrong += u16550_test_loopback(&own->uart, NULL) != U16550_OK;
    for (n = 0; n < MESSAGES; n++)
        exchange(own, n);
    return NULL;
}

static unsigned test_own(void)
{
    static struct own owns[2];
    pthread_t thread;

    if (pthread_create(&thread, NULL, use_own, &owns[0]))
        return 1;
    use_own(&owns[1]);
    pthread_join(thread, NULL);
    return owns[0].wrong + owns[1].wrong;
}

/* ---- one driver behind a lock */

static struct device device;
static struct u16550 uart;
static uint8_t memory[2 * CAPACITY];
static pthread_mutex_t lock = PTHREAD_MUTEX_INITIALIZER;
static int is_locked = 1;  /* but for the fault */
static int is_over;

static void take_lock(void)
{
    if (is_locked)
        pthread_mutex_lock(&lock);
}

/* Lets the other thread go first, since a lock promises no turns. */
static void give_lock(void)
{
    if (is_locked)
        pthread_mutex_unlock(&lock);
    sched_yield();
}

/* The cable leads back: what the device sent arrives, as far as there is room. */
static void loop_back(void)
{
    unsigned i;
    for (i = 0; i < device.sent_len && device.arrived_len < ROOM; i++)
        device.arrived[device.arrived_len++] = device.sent[i];
    memmove(device.sent, device.sent + i, device.sent_len - i);
    device.sent_len -= i;
    device.room = ROOM - device.sent_len;
    device.thr_pending = 1;
}

/* The interrupt handler, on a thread of its own. */
static void *handle(void *context)
{
    struct u16550_handled handled;
    unsigned *wrong = (unsigned *)context;
    unsigned turn;
    int over = 0;

    for (turn = 0; turn < TURNS && !over; turn++) {
        take_lock();
        if (device_is_interrupting(&device))
            *wrong += u16550_ring_handle(&uart, U16550_MAX_INTERRUPTS, &handled) != U16550_OK;
        loop_back();
        over = is_over;
        give_lock();
    }
    return NULL;
}

/* Sends one message and takes it back. Returns what was wrong. */
static unsigned echo(unsigned n)
{
    uint8_t message[MESSAGE], back[MESSAGE];
    size_t queued = 0, taken = 0, count;
    unsigned turn, wrong = 0;

    write_message(n, message);
    for (turn = 0; turn < TURNS && taken < MESSAGE; turn++) {
        take_lock();
        wrong += u16550_ring_queue(&uart, message + queued, MESSAGE - queued, &count) != U16550_OK;
        queued += count;
        wrong += u16550_ring_take(&uart, back + taken, MESSAGE - taken, &count) != U16550_OK;
        taken += count;
        give_lock();
    }
    return wrong + (taken != MESSAGE || memcmp(back, message, MESSAGE) != 0);
}

static unsigned make_shared(void)
{
    struct u16550_io io;
    struct u16550_config config = config_with(U16550_IER_DATA_READY | U16550_IER_RECEIVER_LINE_STATUS);
    unsigned wrong = 0;

    device = device_new();
    io = device_io(&device);
    wrong += u16550_new(&uart, &io) != U16550_OK;
    wrong += u16550_ring_new(&uart, memory, sizeof memory, CAPACITY, CAPACITY) != U16550_OK;
    wrong += u16550_init(&uart, &config) != U16550_OK;
    return wrong;
}

static unsigned test_shared(unsigned messages)
{
    pthread_t thread;
    unsigned n, wrong = make_shared(), wrong_in_handler = 0;

    if (pthread_create(&thread, NULL, handle, &wrong_in_handler))
        return wrong + 1;
    for (n = 0; n < messages; n++)
        wrong += echo(n);
    take_lock();
    is_over = 1;
    give_lock();
    pthread_join(thread, NULL);
    return wrong + wrong_in_handler;
}

/* ---- faults */

static void *set_without_lock(void *context)
{
    (void)context;
    u16550_set_spin_limit(&uart, 1);
    return NULL;
}

/* Two threads call over one driver. Neither calls the device, so only what sees into the library finds it. */
static void race(void)
{
    pthread_t thread;

    make_shared();
    if (pthread_create(&thread, NULL, set_without_lock, NULL))
        return;
    set_without_lock(NULL);
    pthread_join(thread, NULL);
}

/* The same with calls of the device, whose functions are here. */
static void race_on_device(void)
{
    is_locked = 0;
    test_shared(1);
}

static void receive_outside(void)
{
    uint8_t *array = (uint8_t *)malloc(1);
    size_t count;

    make_shared();
    device_arrive(&device, "xy");
    u16550_receive_bytes(&uart, array, 2, &count);
    printf("%d\n", array[0]);
    free(array);
}

static void overflow(void)
{
    volatile int most = INT_MAX;
    printf("%d\n", most + 1);
}

static const struct {
    const char *name;
    void (*make)(void);
} faults[] = {
    { "race", race }, { "race-on-device", race_on_device }, { "outside", receive_outside }, { "overflow", overflow }
};

int main(int argc, char **argv)
{
    unsigned wrong, i;

    for (i = 0; argc > 1 && i < sizeof faults / sizeof *faults; i++) {
        if (strcmp(argv[1], faults[i].name) == 0) {
            faults[i].make();
            return 0;
        }
    }
    if (argc > 1) {
        fprintf(stderr, "no fault is called %s\n", argv[1]);
        return 2;
    }
    wrong = test_own() + test_shared(MESSAGES);
    printf("%d messages on each of three drivers, %u wrong\n", MESSAGES, wrong);
    return wrong != 0;
}
