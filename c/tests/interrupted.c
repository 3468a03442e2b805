/*
 * An interrupt at every instruction of a call: a handler that calls the library over the same driver gets U16550_BUSY or a call
 * of its own, whole, before the other or after. Prints each comparison that fails, and their number. For x86-64 with Linux, whose
 * processor stops at each step.
 */
#define _POSIX_C_SOURCE 200809L
#include <signal.h>
#include <stdint.h>
#include <stdio.h>
#include <stdlib.h>
#include <string.h>

#include "device.h"
#include "u16550.h"

static int compared, failed;

static void compare(const char *file, int line, const char *what, long long got, long long wanted)
{
    compared++;
    if (got != wanted) {
        failed++;
        printf("%s:%d: %s is %lld, not %lld\n", file, line, what, got, wanted);
    }
}

#define IS(expression, wanted) compare(__FILE__, __LINE__, #expression, (long long)(expression), (long long)(wanted))
#define OK(expression) IS(expression, U16550_OK)

static struct device d;
static struct u16550 uart;
static struct u16550_config config;
static uint8_t memory[64];

/* ---- a processor that is interrupted at each step */

/* How often the handler got this, during the last call. */
static struct {
    unsigned served, busy, not_made, no_rings, else_;
} got;

static void count(int status)
{
    switch (status) {
    case U16550_OK:
        got.served++;
        break;
    case U16550_BUSY:
        got.busy++;
        break;
    case U16550_NOT_MADE:
        got.not_made++;
        break;
    case U16550_NO_RINGS:
        got.no_rings++;
        break;
    default:
        got.else_++;
    }
}

static void handle(int signal)
{
    struct u16550_handled handled;
    (void)signal;
    count(u16550_ring_handle(&uart, 2, &handled));
}

/* A handler that makes another driver in the place of this one, with rings. */
static void replace(int signal)
{
    struct u16550_io io = device_io(&d);
    int status = u16550_new(&uart, &io);
    (void)signal;
    if (status == U16550_OK)
        status = u16550_ring_new(&uart, memory, sizeof memory, 32, 32);
    count(status);
}

static void interrupt_by(void (*handler)(int))
{
    struct sigaction action;
    memset(&action, 0, sizeof action);
    action.sa_handler = handler;
    if (sigaction(SIGTRAP, &action, NULL))
        abort();
}

/* Below the red zone. */
#define SET_STEPS(change)                                                                                                  \
    __asm__ volatile("leaq -128(%%rsp), %%rsp\n\tpushfq\n\t" change "\n\tpopfq\n\tleaq 128(%%rsp), %%rsp" : : : "memory", "cc")

static void steps_on(void)
{
    memset(&got, 0, sizeof got);
    SET_STEPS("orq $0x100, (%%rsp)");
}

static void steps_off(void)
{
    SET_STEPS("andq $~0x100, (%%rsp)");
}

/* Makes a call in steps, and compares what it returns. The handler came into it, and got nothing else than is said. */
static int made(int status)
{
    steps_off();
    return status;
}

#define STEPS(call, wanted, of_not_made, of_no_rings)         \
    do {                                                      \
        steps_on();                                           \
        IS(made(call), wanted);                               \
        IS(got.busy > 0, 1);                                  \
        IS(got.not_made > 0, of_not_made);                    \
        IS(got.no_rings > 0, of_no_rings);                    \
        IS(got.else_, 0);                                     \
    } while (0)

/* ---- the tests */

static void ready(void)
{
    struct u16550_io io;
    d = device_new();
    io = device_io(&d);
    memset(&uart, 0, sizeof uart);
    OK(u16550_new(&uart, &io));
    OK(u16550_default_config(&config));
    config.interrupts = U16550_IER_DATA_READY | U16550_IER_RECEIVER_LINE_STATUS;
    OK(u16550_init(&uart, &config));
    OK(u16550_ring_new(&uart, memory, sizeof memory, 32, 32));
}

/* Each constructor, in memory that is zero and in place of a driver with rings. */
static void making(void)
{
    struct u16550_io io;
    struct u16550_state state;
    uint8_t byte;
    ready();
    OK(u16550_get_state(&uart, &state));
    io = device_io(&d);
    STEPS(u16550_new(&uart, &io), U16550_OK, 0, 1);
    OK(u16550_try_send_byte(&uart, 'a'));
    ready();
    STEPS(u16550_new_port(&uart, &io, 0), U16550_OK, 0, 1);
    OK(u16550_try_send_byte(&uart, 'b'));
    ready();
    STEPS(u16550_from_state(&uart, &io, &state), U16550_OK, 0, 1);
    OK(u16550_try_send_byte(&uart, 'c'));
    memset(&uart, 0, sizeof uart);
    STEPS(u16550_new_mmio(&uart, &io, 8, 1), U16550_OK, 1, 1);
    d.base = 8;
    OK(u16550_lsr(&uart, &byte));
    steps_on();
    OK(made(u16550_end(&uart)));
    IS(got.not_made > 0, 1);
    IS(got.else_, 0);
}

/* Calls that wait, and the others. */
static void calls(void)
{
    static const char text[] = "a text\n", bytes[] = "0123456789abcdefghijklmnopqrstuv";
    uint8_t slots[32], value;
    size_t len;
    ready();
    STEPS(u16550_init(&uart, &config), U16550_OK, 0, 0);
    STEPS(u16550_test_loopback(&uart, NULL), U16550_OK, 0, 0);
    STEPS(u16550_write_text(&uart, text, sizeof text - 1, NULL), U16550_OK, 0, 0);
    IS(memcmp(d.sent, "a text\r\n", 8), 0);
    d.sent_len = 0;
    STEPS(u16550_ring_queue(&uart, (const uint8_t *)bytes, 32, &len), U16550_OK, 0, 0);
    IS(len, 32);
    STEPS(u16550_ring_resume_transmit(&uart), U16550_OK, 0, 0);
    IS(d.sent_len, 32);
    IS(memcmp(d.sent, bytes, 32), 0);
    device_arrive(&d, bytes);
    STEPS(u16550_ring_service(&uart, &len), U16550_OK, 0, 0);
    STEPS(u16550_ring_take(&uart, slots, 32, &len), U16550_OK, 0, 0);
    IS(len, 32);
    IS(memcmp(slots, bytes, 32), 0);
    STEPS(u16550_ring_take_line(&uart, &value), U16550_OK, 0, 0);
    STEPS(u16550_ring_end(&uart), U16550_OK, 0, 1);
    STEPS(u16550_ring_new(&uart, memory, sizeof memory, 32, 32), U16550_OK, 0, 1);
    OK(u16550_ring_queue(&uart, (const uint8_t *)bytes, 32, &len));
    IS(len, 32);
}

/* A handler that replaces the driver, before a call or after it. */
static void replacing(void)
{
    static const char bytes[] = "0123456789abcdefghijklmnopqrstuv";
    size_t len;
    ready();
    STEPS(u16550_ring_queue(&uart, (const uint8_t *)bytes, 32, &len), U16550_OK, 0, 0);
    IS(len, 32);
    IS(d.sent_len, 16);
    IS(memcmp(d.sent, bytes, 16), 0);
    OK(u16550_ring_transmit_len(&uart, &len));
    IS(len, 0);
    STEPS(u16550_init(&uart, &config), U16550_OK, 0, 0);
    STEPS(u16550_test_loopback(&uart, NULL), U16550_OK, 0, 0);
    OK(u16550_ring_end(&uart));
}

/* ---- a handler that acts once, at each instruction of a call in turn */

/* The step in which it acts, the step that comes, and what it got. */
static struct {
    unsigned at, step, accesses, looks, mixed;
    int status;
} once;

/* Ends the driver. */
static void end_once(int signal)
{
    (void)signal;
    if (once.step++ == once.at) {
        once.status = u16550_end(&uart);
        once.accesses = d.accesses;
    }
}

/* A call of whose driver the end came before makes no access: whoever ended it may use the memory of its rings. */
static void ending(void)
{
    uint8_t value;
    int status;
    interrupt_by(end_once);
    for (memset(&once, 0, sizeof once);; once.at++) {
        unsigned before;
        ready();
        before = d.accesses;
        once.step = 0;
        steps_on();
        status = made(u16550_lsr(&uart, &value));
        if (once.step <= once.at)
            break;
        IS(once.status == U16550_OK || once.status == U16550_BUSY, 1);
        if (once.status == U16550_OK)
            IS(d.accesses, once.accesses);
        IS(status, d.accesses == before ? U16550_NOT_MADE : U16550_OK);
    }
    IS(once.at > 0, 1);
}

static struct device other;

static void write_other(void *context, uintptr_t address, uint8_t value)
{
    device_write(context, address, value);
}

/* Makes a driver over the other device, and from then on looks at what is there. */
static void make_once(int signal)
{
    struct u16550_io io = device_io(&other);
    (void)signal;
    io.write = write_other;
    if (once.step++ == once.at) {
        once.status = u16550_new(&uart, &io);
    } else if (once.step > once.at && u16550_get_io(&uart, &io) == U16550_OK) {
        once.looks++;
        once.mixed += (io.context == &other) != (io.write == write_other);
    }
}

/* Where two drivers are made in one memory, there is always one of them, and never a part of each. */
static void making_two(void)
{
    struct u16550_io io = device_io(&d);
    interrupt_by(make_once);
    for (memset(&once, 0, sizeof once);; once.at++) {
        memset(&uart, 0, sizeof uart);
        once.step = 0;
        steps_on();
        OK(made(u16550_new(&uart, &io)));
        if (once.step <= once.at)
            break;
        IS(once.status == U16550_OK || once.status == U16550_BUSY, 1);
    }
    IS(once.looks > 0, 1);
    IS(once.mixed, 0);
}

/* Tries to make a driver over the other device, from one step on, until it has made one. */
static void make_when_free(int signal)
{
    struct u16550_io io = device_io(&other);
    (void)signal;
    if (once.step++ < once.at || once.status == U16550_OK)
        return;
    once.status = u16550_new(&uart, &io);
    once.looks += once.status == U16550_BUSY;
}

/* A driver that a handler makes once an end has begun stays: the end is that of the driver before. */
static void making_beside_an_end(void)
{
    struct u16550_io io;
    unsigned stayed = 0;
    interrupt_by(make_when_free);
    for (memset(&once, 0, sizeof once);; once.at++) {
        ready();
        once.step = once.looks = 0;
        once.status = U16550_BUSY;
        steps_on();
        OK(made(u16550_end(&uart)));
        if (once.step <= once.at)
            break;
        if (once.looks > 0 && once.status == U16550_OK) {
            IS(u16550_get_io(&uart, &io), U16550_OK);
            stayed++;
        }
    }
    IS(stayed > 0, 1);
}

/* ---- a chip of DesignWare, which has memory beside the driver's */

static struct u16550_design_ware design_ware;
static unsigned reads;

/* Both devices are always idle. Each has functions of its own, which see whether their context is theirs. */
static uint8_t read_one(void *context, uintptr_t offset)
{
    (void)offset;
    reads++;
    once.mixed += context != &d;
    return 0;
}

static uint8_t read_two(void *context, uintptr_t offset)
{
    (void)offset;
    reads++;
    once.mixed += context != &other;
    return 0;
}

static void write_none(void *context, uintptr_t offset, uint8_t value)
{
    (void)context;
    (void)offset;
    (void)value;
}

static void look_at_chip(int signal)
{
    uint8_t value;
    (void)signal;
    count(u16550_lsr(&uart, &value));
}

/* A handler that uses a driver over a chip, where another chip is made in the place of that one, never meets a part of each. */
static void making_a_chip_again(void)
{
    struct u16550_io one = { &d, read_one, write_none }, two = { &other, read_two, write_none };
    memset(&uart, 0, sizeof uart);
    memset(&once, 0, sizeof once);
    OK(u16550_new_design_ware(&uart, &design_ware, &one, 10));
    interrupt_by(look_at_chip);
    reads = 0;
    STEPS(u16550_new_design_ware(&uart, &design_ware, &two, 10), U16550_OK, 0, 0);
    IS(reads > 0, 1);
    IS(once.mixed, 0);
    /* A refused one leaves the driver as it is. */
    steps_on();
    IS(made(u16550_new_design_ware(&uart, &design_ware, &one, 0)), U16550_ZERO_LIMIT);
    IS(got.not_made + got.no_rings + got.else_, 0);
    IS(once.mixed, 0);
    OK(u16550_end(&uart));
}

int main(void)
{
    interrupt_by(handle);
    making();
    calls();
    ending();
    making_two();
    making_beside_an_end();
    making_a_chip_again();
    interrupt_by(replace);
    replacing();
    printf("%d compared, %d failed\n", compared, failed);
    return failed != 0;
}
