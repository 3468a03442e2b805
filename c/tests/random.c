/*
 * Calls in any order over a device that answers anything, and in the middle of each some others: each returns a
 * number that has a text, and one in the middle of another over the same driver returns U16550_BUSY. Prints how many were made.
 *
 * With FUZZED all choices are those of a fuzzer, by LLVMFuzzerTestOneInput.
 */
#include <stdint.h>
#include <stdio.h>
#include <stdlib.h>
#include <string.h>

#include "u16550.h"
#include "each.h"

enum { CALLS = 40000, NESTED_IN = 16, ROOM = 64 };

#ifdef FUZZED
static const uint8_t *choices;
static size_t choices_left;

static uint8_t next_choice(void)
{
    if (choices_left == 0)
        return 0;
    choices_left--;
    return *choices++;
}

/* A number below this one, of one byte if that is enough. */
static uint32_t below(uint32_t most)
{
    uint32_t chosen = next_choice();
    if (most > 256)
        chosen = chosen << 8 | next_choice();
    return chosen % most;
}
#else
static uint64_t seed = 1;

/* A number below this one. */
static uint32_t below(uint32_t most)
{
    seed ^= seed << 13;
    seed ^= seed >> 7;
    seed ^= seed << 17;
    return (uint32_t)(seed >> 20) % most;
}
#endif

static uint32_t any_bits(void)
{
    return (below(1u << 16) << 16 | below(1u << 16)) >> below(32);
}

/* A time of any length. */
static uint64_t any_time(void)
{
    return ((uint64_t)any_bits() << 32 | any_bits()) >> below(64);
}

/* What a call takes and gives. */
struct room {
    uint8_t bytes[ROOM], value, other;
    size_t count;
    uint16_t fifo_size;
    uint64_t limit;
    struct u16550_io io;
    struct u16550_config config, nearest;
    struct u16550_state state;
    struct u16550_dump dump;
    struct u16550_loopback_failure failure;
    struct u16550_received received[ROOM];
    struct u16550_handled handled;
    struct u16550_difference difference;
    struct u16550_urgent urgent;
    struct u16550_stuck stuck;
};

static struct u16550 uart;
static struct u16550_io device;
static struct u16550_design_ware chip;
static struct u16550_notes notes;
static struct u16550_bus bus;
/* There is no driver in the memory of one meanwhile. */
static int is_at_bus;
static uint8_t noted[ROOM];
static uint8_t *rings;
static size_t rings_size;

/* A configuration that stands for something, or seldom for nothing. */
static void choose(struct u16550_config *config)
{
    static const uint32_t rates[] = { 1, 300, 9600, 115200, UINT32_MAX };
    static const uint8_t levels[] = { 0, 1, 4, 8, 14 };
    u16550_default_config(config);
    if (below(2))
        config->frequency = any_bits();
    config->baud_rate = below(2) ? any_bits() : rates[below(5)];
    config->has_prescaler = (uint8_t)below(2);
    config->prescaler_division_factor = below(17);
    config->interrupts = (uint8_t)below(256);
    config->fifo_trigger_level = levels[below(5)];
    config->data_bits = (uint8_t)(5 + below(4));
    config->extra_stop_bits = (uint8_t)below(2);
    config->parity = (uint8_t)below(5);
    config->check_cts_before_sending = (uint8_t)below(2);
    if (below(50) == 0)
        config->data_bits = (uint8_t)below(256);
}

/* A driver over memory that keeps what is written, sometimes a DesignWare's, of a layout that stands for something, or seldom for none. */
static int new_wide(struct u16550 *u)
{
    /* A DesignWare has 32 registers and more, and its status is the last of these. */
    static uint32_t words[32 * 128 / 4 + 1];
    static const uint8_t widths[] = { 8, 16, 32, 0 };
    struct u16550_layout layout;
    uint8_t *cells = (uint8_t *)words;
    size_t i;
    for (i = 0; i < sizeof words; i++)
        cells[i] = (uint8_t)below(256);
    layout.stride = below(20) ? (uint8_t)(1u << below(8)) : (uint8_t)below(256);
    layout.width = widths[below(4)];
    layout.byte_order = (uint8_t)below(4);
    if (below(4) == 0)
        return u16550_new_mmio_design_ware(u, &chip, (uintptr_t)words, &layout, below(20));
    return u16550_new_mmio_wide(u, (uintptr_t)words + (below(2) ? 0 : below(4)), &layout);
}

/* Rings in memory of just their size, in place of those that are there. */
static int new_rings(struct u16550 *u)
{
    size_t tx = 1 + below(40), rx = 1 + below(40);
    int status = u16550_ring_end(u);
    if (status != U16550_OK && status != U16550_NO_RINGS)
        return status;
    free(rings);
    rings_size = tx + rx;
    rings = (uint8_t *)malloc(rings_size);
    if (rings == NULL)
        abort();
    return u16550_ring_new(u, rings, rings_size, tx, rx);
}

/* A bus that is made of a driver, and one again behind a call. */
static int at_bus(struct u16550 *u, struct room *r, size_t len)
{
    struct u16550_direction direction = { (uint8_t)below(2), (uint8_t)below(2) };
    int status = u16550_direction_receiving(&direction, (uint8_t)below(256), &r->value);
    if (status == U16550_OK)
        status = u16550_bus_new(&bus, u, &direction);
    if (status != U16550_OK)
        return status;
    is_at_bus = 1;
    if (below(4))
        u16550_bus_start_sending(&bus);
    switch (below(9)) {
    case 0: status = u16550_bus_send_bytes(&bus, r->bytes, len, &r->count); break;
    case 1: status = u16550_bus_send_bytes_exact(&bus, r->bytes, len, &r->count); break;
    case 2: status = u16550_bus_receive_bytes(&bus, r->bytes, len, &r->count); break;
    case 3: status = u16550_bus_receive_with_errors(&bus, r->received, len, &r->count); break;
    case 4: status = u16550_bus_try_finish(&bus); break;
    case 5: status = u16550_bus_is_idle(&bus, &r->value); break;
    case 6: status = u16550_bus_is_sending(&bus, &r->value); break;
    case 7: status = u16550_bus_lsr(&bus, &r->value); break;
    default: status = u16550_bus_flush(&bus); break;
    }
    is_at_bus = 0;
    return u16550_bus_end(&bus, u) == U16550_OK ? status : U16550_BUSY;
}

/* A caller who keeps waiting so many times. */
static uint8_t keep_waiting(void *context)
{
    uint32_t *left = (uint32_t *)context;
    return *left > 0 && (*left)--;
}

/* What the calls of the table take and give. */
#define DRIVER u
#define BUFFER r->bytes
#define LEN len
#define CONFIG &r->config
#define SETUP &setup
#define DUMP &r->dump
#define ON (uint8_t)below(2)
#define BYTE (uint8_t)below(256)
#define OUTPUTS (uint8_t)below(256)
#define INTERRUPTS (uint8_t)below(256)
#define CHARACTERS (uint8_t)below(16)
#define FIFOS (uint8_t)below(4)
#define FIFO_SIZE (uint16_t)(16 << below(6))
#define URGENT below(2) ? &r->value : NULL
#define FIRST r->bytes
#define FIRST_LEN len
#define SECOND r->bytes
#define SECOND_LEN below(ROOM + 1)
#define SPIN_LIMIT 1 + below(20)
#define LIMIT below(10)
#define ROUNDS below(4)
#define MARK below(20)
#define HOLD below(20)
#define RELEASE below(20)
#define KEEP_WAITING keep_waiting
#define CONTEXT &left
#define BYTE_AT &r->value
#define OTHER_BYTE_AT &r->other
#define SHORT_AT &r->fifo_size
#define SIZE_AT &r->count
#define NUMBER_AT &r->limit
#define CONFIG_AT &r->config
#define STATE_AT &r->state
#define RECEIVED_AT r->received
#define DUMP_AT &r->dump
#define URGENT_AT &r->urgent
#define HANDLED_AT &r->handled
#define ACCESS_CLOCKS any_time()
#define BEFORE_CLOCKS any_time()
#define CLOCKS any_time()
#define NANOSECONDS any_time()

/* The numbers of the calls: those of the table, and behind them the others. */
#define NUMBER(name, ...) NUMBER_OF_##name,
enum { EACH_CALL(NUMBER, NUMBER) OTHERS, LAST = OTHERS + 22 };

/* Makes one call over a driver. */
static int make(struct u16550 *u, unsigned which, struct room *r)
{
    struct u16550_setup setup = { (uint8_t)below(2), (uint8_t)below(4), (uint8_t)below(256) };
    uint32_t left = below(20);
    size_t len = below(ROOM + 1), i;
    for (i = 0; i < ROOM; i++)
        r->bytes[i] = (uint8_t)below(128);
    choose(&r->config);
    memset(&r->state, 0, sizeof r->state);
    r->state.spin_limit = 1 + below(20);
    r->state.config = r->config;
    r->state.saved_lsr = (uint8_t)below(256);
    r->state.fifo_size = FIFO_SIZE;
    switch (which) {
#define CASE(name, ...) case NUMBER_OF_##name: return name(__VA_ARGS__);
    EACH_CALL(CASE, CASE)
    case OTHERS: return u16550_new(u, &device);
    case OTHERS + 1: return u16550_new_port(u, &device, (uint16_t)below(1u << 16));
    case OTHERS + 2: return u16550_new_mmio(u, &device, any_bits(), (uint8_t)below(256));
    case OTHERS + 3: return u16550_from_state(u, &device, &r->state);
    case OTHERS + 4: return u16550_end(u);
    case OTHERS + 5: return u16550_get_io(u, &r->io);
    case OTHERS + 6: return u16550_set_io(u, &device);
    case OTHERS + 7: return u16550_test_loopback(u, &r->failure);
    case OTHERS + 8: return u16550_write_text(u, (const char *)r->bytes, len, &r->count);
    case OTHERS + 9: return new_rings(u);
    case OTHERS + 10: return u16550_ring_new(u, rings, rings_size, 1, 1);
    case OTHERS + 11: return new_wide(u);
    case OTHERS + 12: return u16550_check_configured(u, (uint8_t)below(256), &r->difference);
    case OTHERS + 13: {
        struct u16550_line_port port = { u, { 0, 0 }, U16550_OK, 0 };
        return u16550_line_handle(&port, 1, below(10), below(4), &r->value);
    }
    case OTHERS + 14: return u16550_write_raw_text(u, (const char *)r->bytes, len, &r->count);
    case OTHERS + 15: return u16550_ring_stuck(u, &r->stuck);
    case OTHERS + 16: return u16550_emergency(u);
    case OTHERS + 17: return u16550_new_design_ware(u, &chip, &device, below(20));
    case OTHERS + 18: return u16550_note_errors(u, &notes, noted, below(ROOM + 1));
    case OTHERS + 19: return u16550_end_notes(u);
    case OTHERS + 20: return u16550_ring_take_with_errors(u, r->received, len, &r->count);
    case OTHERS + 21: return at_bus(u, r, len);
    default: return u16550_design_ware_fault(u, &chip);
    }
}

/* ---- the device */

static unsigned long made, nested;
static int is_nested;

static void stop(const char *what, unsigned which, int status)
{
    printf("%s: call %u returned %d (%s)\n", what, which, status, u16550_text(status));
    exit(EXIT_FAILURE);
}

/* Seldom makes a call over the driver that is in the middle of one. */
static void meanwhile(void)
{
    static struct room room;
    unsigned which = below(LAST + 1);
    int status;
    if (is_nested || is_at_bus || below(NESTED_IN))
        return;
    is_nested = 1;
    status = make(&uart, which, &room);
    if (status != U16550_BUSY)
        stop("in the middle of a call", which, status);
    is_nested = 0;
    nested++;
}

static uint8_t read_any(void *context, uintptr_t address)
{
    static const uint8_t likely[] = { 0x60, 0x61, 0xc1, 0xc2, 0xc4, 0xcc, 0x01, 0x30 };
    (void)context;
    (void)address;
    meanwhile();
    return below(2) ? likely[below(sizeof likely)] : (uint8_t)below(256);
}

static void write_any(void *context, uintptr_t address, uint8_t value)
{
    (void)context;
    (void)address;
    (void)value;
    meanwhile();
}

/* What a call over a configuration may return that gets pointers to something. */
static int is_of_config(int status)
{
    switch (status) {
    case U16550_OK:
    case U16550_BAD_CODE:
    case U16550_NOT_COMPUTABLE:
    case U16550_FRAME_NON_INTEGER_DIVISOR:
    case U16550_FRAME_DIVISOR_OUT_OF_RANGE:
    case U16550_TIME_NOTHING_LEFT:
    case U16550_TIME_NO_LIMIT:
    case U16550_TIME_OUT_OF_RANGE:
        return 1;
    default:
        return 0;
    }
}

/* Makes calls over no driver. */
static void compute(struct room *r)
{
    uint16_t divisor;
    uint32_t rate;
    int status;
    choose(&r->config);
    status = u16550_nearest(&r->config, any_bits(), &r->nearest);
    if (status == U16550_OK) {
        status = u16550_nearest(&r->nearest, 0, &r->nearest);
        if (status != U16550_OK)
            stop("the nearest divisor again", 0, status);
    } else if (status > 0 && status != U16550_NEAREST_TOO_FAR && status != U16550_NEAREST_OUT_OF_RANGE) {
        stop("the nearest divisor", 0, status);
    }
    r->dump.dll = (uint8_t)below(256);
    r->dump.dlm = (uint8_t)below(256);
    u16550_dump_divisor(&r->dump, &divisor);
    choose(&r->config);
    status = u16550_dump_baud_rate(&r->dump, &r->config, &rate);
    if (status > 0 && status != U16550_NON_INTEGER_BAUD_RATE)
        stop("the baud rate of a dump", 0, status);
#define COMPUTE(name, ...)                     \
    status = name(__VA_ARGS__);                \
    if (!is_of_config(status))                 \
        stop(#name, 0, status);
    EACH_OF_CONFIG(COMPUTE)
}

/* Makes one call between two others. */
static void make_one(struct room *room)
{
    unsigned which = below(LAST + 1);
    int status = make(&uart, which, room);
    if (strcmp(u16550_text(status), u16550_text(INT32_MAX)) == 0 || status == U16550_BUSY)
        stop("between two calls", which, status);
    if (status == U16550_NOT_MADE)
        u16550_from_state(&uart, &device, &room->state);
    u16550_set_spin_limit(&uart, 1 + below(20));
    compute(room);
    made++;
}

#ifdef FUZZED
int LLVMFuzzerTestOneInput(const uint8_t *data, size_t size);

int LLVMFuzzerTestOneInput(const uint8_t *data, size_t size)
{
    static struct room room;
    choices = data;
    choices_left = size;
    device.read = read_any;
    device.write = write_any;
    memset(&uart, 0, sizeof uart);
    memset(&bus, 0, sizeof bus);
    memset(&chip, 0, sizeof chip);
    memset(&notes, 0, sizeof notes);
    while (choices_left > 0)
        make_one(&room);
    free(rings);
    rings = NULL;
    rings_size = 0;
    return 0;
}
#else
int main(void)
{
    static struct room room;
    device.read = read_any;
    device.write = write_any;
    while (made < CALLS)
        make_one(&room);
    free(rings);
    printf("version %s: %lu calls, and %lu in the middle of others\n", u16550_version(), made, nested);
    return nested == 0;
}
#endif
