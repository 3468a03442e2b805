/*
 * The handler of examples/interrupts.c on interrupt controllers that detect levels or edges: every byte comes and goes, no
 * interrupt is left behind, and none comes for ever. Prints each comparison that fails, and their number.
 */
#include <stdint.h>
#include <stdio.h>
#include <string.h>

#include "device.h"
#include "u16550.h"

static struct device d;

/* The example's registers are those of the device. */
static int simulated_mmio(struct u16550 *uart, const struct u16550_io *io, uintptr_t base, uint8_t stride)
{
    struct u16550_io simulated = device_io(&d);
    (void)io;
    d.base = base;
    d.stride = stride;
    return u16550_new_mmio(uart, &simulated, base, stride);
}

/* The header has it as a macro, around a look at the layout. */
#undef u16550_new_mmio
#define u16550_new_mmio simulated_mmio
#include "../examples/interrupts.c"
#undef u16550_new_mmio

static int compared, failed;

static void compare(const char *file, int line, const char *what, long long got, long long wanted)
{
    compared++;
    if (got != wanted) {
        failed++;
        printf("%s:%d: %s is %lld, not %lld\n", file, line, what, got, wanted);
    }
}

#define IS(expression, wanted) compare(__FILE__, __LINE__, #expression, (long long)(expression), (long long)(wanted))
#define OK(expression) IS(expression, U16550_OK)

/* ---- the machine: a processor, an interrupt controller, and a person who types */

enum controller { LEVELS, EDGES, EDGES_UNLESS_MASKED, CONTROLLERS };

enum {
    FIFO = 16,
    NAMELESS = 0x08, /* no interrupt has this code */
    TIMEOUT = 0x0c,
    GONE = 0xff,
    STORM = 100000, /* runs of the handler in a row are without end */
    STEPS = 1000000 /* in which a test has to come to its end */
};

static struct {
    enum controller controller;
    int was_high, is_latched, is_masked, is_off, is_handling, is_storm;
    unsigned runs;          /* of the handler, since the processor went on */
    unsigned to_type, typed, received;
    unsigned sent;          /* bytes that the device has sent */
    uint32_t seed;
} machine;

static unsigned random_below(unsigned most)
{
    machine.seed = machine.seed * 1664525 + 1013904223;
    return (machine.seed >> 16) % most;
}

static uint8_t typed_byte(unsigned index)
{
    return (uint8_t)(index * 7 + index / 256);
}

/* The controller looks at the device's line. */
static void look(void)
{
    int is_high = device_is_interrupting(&d);
    if (is_high && !machine.was_high && !(machine.is_masked && machine.controller == EDGES_UNLESS_MASKED))
        machine.is_latched = 1;
    machine.was_high = is_high;
}

static int is_pending(void)
{
    return !machine.is_masked && (machine.controller == LEVELS ? machine.was_high : machine.is_latched);
}

/* The processor takes interrupts, before it goes on. */
static void deliver(void)
{
    while (!machine.is_off && !machine.is_handling && !machine.is_storm && is_pending()) {
        machine.is_latched = 0;
        machine.is_handling = 1;
        console_interrupt();
        machine.is_handling = 0;
        machine.is_storm = ++machine.runs >= STORM;
    }
    if (!machine.is_handling)
        machine.runs = 0;
}

void mask_line(void)
{
    machine.is_masked = 1;
}

void unmask_line(void)
{
    machine.is_masked = 0;
    deliver();
}

void interrupts_off(void)
{
    machine.is_off = 1;
}

void interrupts_on(void)
{
    machine.is_off = 0;
    deliver();
}

/* A moment in which somebody may type, and an interrupt may come. */
static void moment(struct device *device)
{
    if (machine.typed < machine.to_type && device->arrived_len < FIFO && random_below(4) == 0)
        device->arrived[device->arrived_len++] = typed_byte(machine.typed++);
    look();
    deliver();
}

/* A console over a new device, on this controller. */
static void start(enum controller controller, uint32_t seed)
{
    memset(&console, 0, sizeof console);
    memset(&machine, 0, sizeof machine);
    machine.controller = controller;
    machine.seed = seed;
    d = device_new();
    d.meanwhile = moment;
    machine.is_masked = 1;
    OK(console_start());
    OK(console_use_interrupts());
    unmask_line();
}

/* Lets moments pass until this many bytes are received, and compares them with those that were typed. */
static void receive(unsigned count)
{
    uint8_t slots[64];
    unsigned done = 0, steps = 0, wrong = 0;
    while (done < count && steps++ < STEPS) {
        size_t some = console_read(slots, sizeof slots), i;
        for (i = 0; i < some; i++)
            wrong += slots[i] != typed_byte(machine.received++);
        done += (unsigned)some;
        moment(&d);
    }
    IS(done, count);
    IS(wrong, 0);
}

/* ---- the tests */

/* What is typed comes back, in bursts and pauses, on rings that become full. */
static void echo(enum controller controller)
{
    static uint8_t waiting[64];
    size_t len = 0;
    unsigned steps = 0, wrong = 0, i;
    start(controller, 7 + controller);
    machine.to_type = 50000;
    while (machine.sent < machine.to_type && steps++ < STEPS && !machine.is_storm) {
        if (random_below(50) == 0)
            len += console_read(waiting + len, sizeof waiting - len);
        if (random_below(3) == 0) {
            size_t count = console_write(waiting, len);
            memmove(waiting, waiting + count, len -= count);
        }
        moment(&d);
        for (i = 0; i < d.sent_len; i++)
            wrong += d.sent[i] != typed_byte(machine.sent++);
        d.sent_len = 0;
        d.room = ROOM;
    }
    IS(machine.sent, machine.to_type);
    IS(wrong, 0);
    IS(machine.is_storm, 0);
    IS(machine.is_masked, 0);
}

/* Somebody types while a text is sent for which the program waits. */
static void texts(enum controller controller)
{
    static const char text[] = "one\ntwo\nthree\n", sent[] = "one\r\ntwo\r\nthree\r\n";
    uint32_t seed;
    for (seed = 0; seed < 500; seed++) {
        start(controller, seed);
        machine.to_type = 1 + random_below(FIFO);
        OK(console_say(text, sizeof text - 1));
        IS(machine.is_storm, 0);
        IS(d.sent_len, sizeof sent - 1);
        IS(memcmp(d.sent, sent, sizeof sent - 1), 0);
        IS(machine.is_masked, 0);
        while (machine.typed < machine.to_type)
            moment(&d);
        receive(machine.to_type);
        machine.to_type += 100;
        receive(100);
    }
}

/* The chip shows this interrupt for ever. It is given up, and goes on once the chip is mended. */
static void broken(enum controller controller, uint8_t shows, int why)
{
    struct u16550_stuck stuck;
    static const char waiting[] = "waits";
    start(controller, 1);
    d.shows = shows;
    moment(&d);
    IS(machine.is_storm, 0);
    IS(machine.is_masked, 1);
    IS(console_broken(), why);
    IS(d.registers[IER], 0);
    OK(u16550_ring_stuck(&console, &stuck));
    IS(stuck.is_stuck, 1);
    IS(stuck.isr, shows);
    IS(console_write((const uint8_t *)waiting, sizeof waiting), sizeof waiting);
    IS(d.sent_len, 0);
    d.shows = SHOWS_WHAT_IS;
    OK(console_restart());
    OK(console_broken());
    IS(machine.is_masked, 0);
    IS(d.sent_len, sizeof waiting);
    machine.to_type = 100;
    receive(100);
    OK(console_broken());
}

/* Runs the handler while the line is masked, so often as may be in a row, but for one. */
static void run_almost_too_often(void)
{
    unsigned i;
    for (i = 0; i < MOST_RUNS - 1; i++)
        console_interrupt();
}

/* The chip shows an interrupt without a name for some time, and the handler does not give up. */
static void recovered(enum controller controller)
{
    unsigned turn;
    start(controller, 1);
    mask_line();
    for (turn = 0; turn < 3; turn++) {
        d.shows = NAMELESS;
        run_almost_too_often();
        d.shows = SHOWS_WHAT_IS;
        console_interrupt();
    }
    OK(console_broken());
    unmask_line();
    machine.to_type = 100;
    receive(100);
    OK(console_broken());
}

/* Every register of a device that is gone reads as 0xff, and in ISR that is no interrupt. */
static void gone(void)
{
    unsigned i;
    start(LEVELS, 1);
    mask_line();
    d.shows = GONE;
    for (i = 0; i < 2 * MOST_RUNS; i++)
        console_interrupt();
    OK(console_broken());
}

/* An interrupt before there are rings. */
static void early(enum controller controller)
{
    start(controller, 1);
    OK(u16550_ring_end(&console));
    machine.to_type = 1;
    while (machine.typed < machine.to_type)
        moment(&d);
    IS(machine.is_storm, 0);
    IS(machine.is_masked, 1);
    IS(console_broken(), U16550_NO_RINGS);
}

int main(void)
{
    static const uint8_t served[] = { THR_IS_EMPTY, RECEIVED_DATA, TIMEOUT, LINE_STATUS, MODEM };
    enum controller controller;
    size_t i;
    for (controller = LEVELS; controller < CONTROLLERS; controller++) {
        echo(controller);
        texts(controller);
        broken(controller, NAMELESS, U16550_RING_STUCK_UNKNOWN);
        for (i = 0; i < sizeof served; i++)
            broken(controller, served[i], U16550_RING_STUCK_PENDING);
        recovered(controller);
        early(controller);
    }
    gone();
    printf("%d compared, %d failed\n", compared, failed);
    return failed != 0;
}
