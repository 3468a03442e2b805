/*
 * Every call of the library and every number that it can return, over a small device. Prints each comparison that fails, and
 * their number. The expected values are those of the driver's specification and of the header.
 */
#include <setjmp.h>
#include <stdint.h>
#include <stdio.h>
#include <stdlib.h>
#include <string.h>

#include "device.h"
#include "u16550.h"
#include "each.h"

static int compared, failed;

static void compare(const char *file, int line, const char *what, long long got, long long wanted)
{
    compared++;
    if (got != wanted) {
        failed++;
        printf("%s:%d: %s is %lld, not %lld\n", file, line, what, got, wanted);
    }
}

#define IS(expression, wanted) compare(__FILE__, __LINE__, #expression, (long long)(expression), (long long)(wanted))
#define OK(expression) IS(expression, U16550_OK)
#define BYTES(at, wanted) IS(memcmp(at, wanted, sizeof(wanted) - 1), 0)

static struct device d;
static struct u16550 uart;
static struct u16550_config config;
static unsigned accesses; /* that were made before a misuse */

/* A new device, and a driver of it in its default state. */
static void anew(void)
{
    struct u16550_io io;
    d = device_new();
    accesses = 0;
    io = device_io(&d);
    memset(&uart, 0xa5, sizeof uart);
    OK(u16550_new(&uart, &io));
    OK(u16550_default_config(&config));
}

/* The same, set up, with a spin limit of 3. */
static void ready(void)
{
    anew();
    OK(u16550_init(&uart, &config));
    OK(u16550_set_spin_limit(&uart, 3));
}

/* A call that was a misuse made no access. */
static void misuse(int got, int wanted, const char *what, int line)
{
    compare(__FILE__, line, what, got, wanted);
    compare(__FILE__, line, "accesses", d.accesses, accesses);
}

#define MISUSE(expression, wanted) misuse(expression, wanted, #expression, __LINE__)

static void sizes(void)
{
    IS(sizeof(struct u16550_io), 3 * sizeof(void *));
    IS(offsetof(struct u16550_io, read), sizeof(void *));
    IS(offsetof(struct u16550_io, write), 2 * sizeof(void *));
    IS(sizeof(struct u16550_layout), 3);
    IS(offsetof(struct u16550_layout, width), 1);
    IS(offsetof(struct u16550_layout, byte_order), 2);
    IS(sizeof(struct u16550_config), 20);
    IS(offsetof(struct u16550_config, baud_rate), 4);
    IS(offsetof(struct u16550_config, prescaler_division_factor), 8);
    IS(offsetof(struct u16550_config, has_prescaler), 12);
    IS(offsetof(struct u16550_config, interrupts), 13);
    IS(offsetof(struct u16550_config, fifo_trigger_level), 14);
    IS(offsetof(struct u16550_config, data_bits), 15);
    IS(offsetof(struct u16550_config, extra_stop_bits), 16);
    IS(offsetof(struct u16550_config, parity), 17);
    IS(offsetof(struct u16550_config, check_cts_before_sending), 18);
    IS(offsetof(struct u16550_state, fifo_size), 32);
    IS(offsetof(struct u16550_state, config), 8);
    IS(offsetof(struct u16550_state, fifo_enabled), 28);
    IS(offsetof(struct u16550_state, saved_lsr), 29);
    IS(offsetof(struct u16550_state, saved_msr), 30);
    IS(sizeof(struct u16550_dump), 9);
    IS(offsetof(struct u16550_dump, dlm), 8);
    IS(sizeof(struct u16550_loopback_failure), 34);
    IS(offsetof(struct u16550_loopback_failure, actual_msg), 18);
    IS(sizeof(struct u16550_received), 2);
    IS(offsetof(struct u16550_received, errors), 1);
    IS(sizeof(struct u16550_direction), 2);
    IS(sizeof(struct u16550_handled), 2 * sizeof(size_t));
    IS(offsetof(struct u16550_handled, end), sizeof(size_t));
    IS(sizeof(U16550_OK), sizeof(int));
    IS(sizeof(U16550_NULL_POINTER), sizeof(int));
    IS(sizeof(U16550_STALLED), sizeof(int));
}

/* Makes a driver of the default state from each constructor, and sends a byte over it. */
static void making(void)
{
    struct u16550_io io, none;
    struct u16550_state state;
    anew();
    io = device_io(&d);
    d.base = 0x3f8;
    OK(u16550_new_port(&uart, &io, 0x3f8));
    OK(u16550_try_send_byte(&uart, 'p'));
    IS(u16550_new_port(&uart, &io, 0xfff9), U16550_BAD_BASE);
    OK(u16550_new_port(&uart, &io, 0xfff8));
    d.base = 0x10000000;
    d.stride = 4;
    OK(u16550_new_mmio(&uart, &io, 0x10000000, 4));
    OK(u16550_try_send_byte(&uart, 'm'));
    IS(d.sent_len, 2);
    BYTES(d.sent, "pm");
    IS(u16550_new_mmio(&uart, &io, 0x10000000, 0), U16550_BAD_STRIDE);
    IS(u16550_new_mmio(&uart, &io, 0x10000000, 3), U16550_BAD_STRIDE);
    IS(u16550_new_mmio(&uart, &io, 0, 1), U16550_BAD_BASE);
    IS(u16550_new_mmio(&uart, &io, UINTPTR_MAX - 27, 4), U16550_BAD_BASE);
    OK(u16550_new_mmio(&uart, &io, UINTPTR_MAX - 28, 4));

    ready();
    io = device_io(&d);
    d.errors = U16550_LSR_OVERRUN_ERROR;
    OK(u16550_ready_to_send(&uart));
    OK(u16550_get_state(&uart, &state));
    IS(state.saved_lsr, U16550_LSR_OVERRUN_ERROR);
    IS(state.saved_msr, 0);
    IS(state.fifo_enabled, 1);
    IS(state.spin_limit, 3);
    IS(state.fifo_size, 16);
    IS(memcmp(&state.config, &config, sizeof config - 1), 0);
    OK(u16550_end(&uart));
    OK(u16550_from_state(&uart, &io, &state));
    {
        uint8_t lsr;
        OK(u16550_lsr(&uart, &lsr));
        IS(lsr, U16550_LSR_OVERRUN_ERROR | U16550_LSR_THR_EMPTY | U16550_LSR_TRANSMITTER_EMPTY);
    }
    anew();
    io = device_io(&d);
    state.spin_limit = 0;
    MISUSE(u16550_from_state(&uart, &io, &state), U16550_ZERO_LIMIT);
    state.spin_limit = 1;
    state.fifo_enabled = 2;
    MISUSE(u16550_from_state(&uart, &io, &state), U16550_BAD_CODE);
    state.fifo_enabled = 0;
    state.fifo_size = 17;
    MISUSE(u16550_from_state(&uart, &io, &state), U16550_BAD_CODE);
    state.fifo_size = 0;
    MISUSE(u16550_from_state(&uart, &io, &state), U16550_BAD_CODE);
    state.fifo_size = 64;
    state.config.parity = 5;
    MISUSE(u16550_from_state(&uart, &io, &state), U16550_BAD_CODE);
    none = io;
    none.read = NULL;
    MISUSE(u16550_new(&uart, &none), U16550_NULL_POINTER);
    none = io;
    none.write = NULL;
    MISUSE(u16550_new(&uart, &none), U16550_NULL_POINTER);
    MISUSE(u16550_set_io(&uart, &none), U16550_NULL_POINTER);
}

/* The byte of a register that the library is to access, from the first one in memory. */
static unsigned lowest_of(const struct u16550_layout *layout)
{
    static const uint16_t one = 1;
    int is_little = layout->byte_order == U16550_LITTLE_ENDIAN
        || (layout->byte_order == U16550_NATIVE_ENDIAN && *(const uint8_t *)&one == 1);
    return is_little ? 0 : layout->width / 8u - 1;
}

/* A driver over registers in real memory, of each layout: its accesses, and what they leave alone. */
static void wide_accesses(const struct u16550_layout *layout)
{
    enum { SIZE = 8 * 128 };
    static uint32_t words[SIZE / 4];
    uint8_t *cells = (uint8_t *)words, expected[SIZE], lsr;
    struct u16550_io io;
    unsigned bytes = layout->width / 8u, lowest = lowest_of(layout);
    memset(cells, 0xee, SIZE);
    cells[LSR * layout->stride + lowest] = U16550_LSR_THR_EMPTY | U16550_LSR_TRANSMITTER_EMPTY;
    memcpy(expected, cells, SIZE);
    OK(u16550_new_mmio_wide(&uart, (uintptr_t)words, layout));
    OK(u16550_lsr(&uart, &lsr));
    IS(lsr, U16550_LSR_THR_EMPTY | U16550_LSR_TRANSMITTER_EMPTY);
    OK(u16550_try_send_byte(&uart, 'w'));
    memset(expected + DATA * layout->stride, 0, bytes);
    expected[DATA * layout->stride + lowest] = 'w';
    IS(memcmp(cells, expected, SIZE), 0);
    /* The functions are some as a program could have them, and get addresses of registers. */
    OK(u16550_get_io(&uart, &io));
    IS(io.read(io.context, (uintptr_t)cells + LSR * layout->stride), lsr);
    io.write(io.context, (uintptr_t)cells + SPR * layout->stride, 0x5a);
    memset(expected + SPR * layout->stride, 0, bytes);
    expected[SPR * layout->stride + lowest] = 0x5a;
    IS(memcmp(cells, expected, SIZE), 0);
    OK(u16550_set_io(&uart, &io));
    OK(u16550_spr(&uart, &lsr));
    IS(lsr, 0x5a);
}

static void wide(void)
{
    static const uint8_t widths[] = { 8, 16, 32 };
    struct u16550_layout layout, bad;
    unsigned i, stride, order;
    static uint32_t words[8];
    uintptr_t base = (uintptr_t)words;
    for (i = 0; i < 3; i++)
        for (order = U16550_NATIVE_ENDIAN; order <= U16550_BIG_ENDIAN; order++)
            for (stride = 1; stride <= 128; stride *= 2) {
                layout.stride = (uint8_t)stride;
                layout.width = widths[i];
                layout.byte_order = (uint8_t)order;
                if (stride >= widths[i] / 8u)
                    wide_accesses(&layout);
                else
                    IS(u16550_new_mmio_wide(&uart, base, &layout), U16550_STRIDE_TOO_SMALL);
            }
    anew();
    layout.stride = 4;
    layout.width = 32;
    layout.byte_order = U16550_NATIVE_ENDIAN;
    for (i = 0; i < 256; i++) {
        bad = layout;
        bad.width = (uint8_t)i;
        if (i != 8 && i != 16 && i != 32)
            IS(u16550_new_mmio_wide(&uart, base, &bad), U16550_BAD_WIDTH);
        bad = layout;
        bad.byte_order = (uint8_t)i;
        if (i > U16550_BIG_ENDIAN)
            MISUSE(u16550_new_mmio_wide(&uart, base, &bad), U16550_BAD_CODE);
        bad = layout;
        bad.stride = (uint8_t)i;
        if (i == 0 || (i & (i - 1)) != 0)
            IS(u16550_new_mmio_wide(&uart, base, &bad), U16550_BAD_STRIDE);
    }
    for (i = 1; i < 4; i++)
        IS(u16550_new_mmio_wide(&uart, base + i, &layout), U16550_MISALIGNED_BASE);
    layout.width = 16;
    IS(u16550_new_mmio_wide(&uart, base + 1, &layout), U16550_MISALIGNED_BASE);
    OK(u16550_new_mmio_wide(&uart, base + 2, &layout));
    layout.width = 32;
    IS(u16550_new_mmio_wide(&uart, 0, &layout), U16550_BAD_BASE);
    IS(u16550_new_mmio_wide(&uart, UINTPTR_MAX - 27, &layout), U16550_BAD_BASE);
    OK(u16550_new_mmio_wide(&uart, UINTPTR_MAX - 31, &layout));
    MISUSE(u16550_new_mmio_wide(&uart, base, NULL), U16550_NULL_POINTER);
    MISUSE(u16550_new_mmio_wide(NULL, base, &layout), U16550_NULL_POINTER);
    /* The whole way, with a clock of 24 MHz, which no baud rate divides. */
    words[LSR] = U16550_LSR_THR_EMPTY | U16550_LSR_TRANSMITTER_EMPTY;
    OK(u16550_new_mmio_wide(&uart, base, &layout));
    OK(u16550_default_config(&config));
    config.frequency = 24000000;
    config.baud_rate = 115200;
    OK(u16550_nearest(&config, 20, &config));
    OK(u16550_init(&uart, &config));
    OK(u16550_send_bytes_exact(&uart, (const uint8_t *)"hello", 5, NULL));
    IS(words[DATA], 'o');
}

static void settings(void)
{
    struct u16550_io io;
    struct u16550_config kept;
    uint64_t limit;
    uint8_t enabled, present;
    static struct device other;
    anew();
    OK(u16550_fifo_enabled(&uart, &enabled));
    IS(enabled, 1);
    OK(u16550_spin_limit(&uart, &limit));
    IS(limit, 1000000);
    MISUSE(u16550_set_spin_limit(&uart, 0), U16550_ZERO_LIMIT);
    OK(u16550_set_spin_limit(&uart, UINT64_MAX));
    OK(u16550_spin_limit(&uart, &limit));
    IS(limit == UINT64_MAX, 1);
    OK(u16550_get_config(&uart, &kept));
    IS(kept.frequency, 1843200);
    IS(kept.baud_rate, 9600);
    IS(kept.has_prescaler, 0);
    IS(kept.interrupts, 0);
    IS(kept.fifo_trigger_level, 14);
    IS(kept.data_bits, 8);
    IS(kept.extra_stop_bits, 0);
    IS(kept.parity, U16550_PARITY_NONE);
    IS(kept.check_cts_before_sending, 0);
    OK(u16550_get_io(&uart, &io));
    IS(io.context == &d && io.read == device_read && io.write == device_write, 1);
    IS(d.accesses, 0);
    OK(u16550_check_present(&uart, &present));
    IS(present, 1);
    IS(d.accesses, 6);
    d.is_absent = 1;
    OK(u16550_check_present(&uart, &present));
    IS(present, 0);
    IS(d.accesses, 10);
    other = device_new();
    io.context = &other;
    OK(u16550_set_io(&uart, &io));
    OK(u16550_try_send_byte(&uart, 'o'));
    IS(other.sent_len, 1);
}

/* Settings of every field, and what the device's registers are then. */
static void init(void)
{
    static const struct {
        uint8_t bits, stop, parity, level, lcr, fifo;
    } rows[] = {
        { 5, 0, U16550_PARITY_NONE, 0, 0x00, 0 },      { 6, 1, U16550_PARITY_ODD, 1, 0x0d, 1 },
        { 7, 0, U16550_PARITY_EVEN, 4, 0x1a, 1 },      { 8, 1, U16550_PARITY_FORCED_1, 8, 0x2f, 1 },
        { 8, 0, U16550_PARITY_FORCED_0, 14, 0x3b, 1 },
    };
    size_t i;
    for (i = 0; i < sizeof rows / sizeof rows[0]; i++) {
        uint8_t enabled;
        anew();
        config.data_bits = rows[i].bits;
        config.extra_stop_bits = rows[i].stop;
        config.parity = rows[i].parity;
        config.fifo_trigger_level = rows[i].level;
        config.baud_rate = 300; /* the divisor is 384 */
        config.interrupts = U16550_IER_DATA_READY;
        OK(u16550_init(&uart, &config));
        IS(d.registers[LCR], rows[i].lcr);
        IS(d.dll, 0x80);
        IS(d.dlm, 0x01);
        IS(d.registers[IER], U16550_IER_DATA_READY);
        IS(d.registers[MCR], 0x0b);
        OK(u16550_fifo_enabled(&uart, &enabled));
        IS(enabled, rows[i].fifo);
    }
    anew();
    config.has_prescaler = 1;
    config.prescaler_division_factor = 3; /* divides by 4: the divisor is 3 */
    OK(u16550_init(&uart, &config));
    IS(d.dll, 3);
}

static void init_errors(void)
{
    anew();
    config.baud_rate = 7777;
    IS(u16550_init(&uart, &config), U16550_INIT_NON_INTEGER_DIVISOR);
    IS(d.accesses, 0);
    config.frequency = 1600000;
    config.baud_rate = 1; /* the divisor would be 100000 */
    IS(u16550_init(&uart, &config), U16550_INIT_DIVISOR_OUT_OF_RANGE);
    IS(d.accesses, 0);
    anew();
    d.is_absent = 1;
    IS(u16550_init(&uart, &config), U16550_INIT_DEVICE_NOT_PRESENT);
    anew();
    d.is_stuck = 1;
    OK(u16550_set_spin_limit(&uart, 3));
    IS(u16550_init(&uart, &config), U16550_INIT_STALLED);
}

/* Configurations that stand for nothing. */
static void bad_configs(void)
{
    static const struct {
        size_t field;
        uint8_t value;
    } rows[] = {
        { offsetof(struct u16550_config, has_prescaler), 2 },
        { offsetof(struct u16550_config, fifo_trigger_level), 2 },
        { offsetof(struct u16550_config, fifo_trigger_level), 15 },
        { offsetof(struct u16550_config, data_bits), 4 },
        { offsetof(struct u16550_config, data_bits), 9 },
        { offsetof(struct u16550_config, data_bits), 99 },
        { offsetof(struct u16550_config, extra_stop_bits), 0xff },
        { offsetof(struct u16550_config, parity), 5 },
        { offsetof(struct u16550_config, check_cts_before_sending), 2 },
    };
    size_t i;
    for (i = 0; i < sizeof rows / sizeof rows[0]; i++) {
        anew();
        ((uint8_t *)&config)[rows[i].field] = rows[i].value;
        MISUSE(u16550_init(&uart, &config), U16550_BAD_CODE);
    }
    anew();
    config.frequency = 0;
    MISUSE(u16550_init(&uart, &config), U16550_NOT_COMPUTABLE);
    anew();
    config.baud_rate = 0;
    MISUSE(u16550_init(&uart, &config), U16550_NOT_COMPUTABLE);
    anew();
    config.prescaler_division_factor = 16;
    OK(u16550_init(&uart, &config));
    anew();
    config.prescaler_division_factor = 16;
    config.has_prescaler = 1;
    MISUSE(u16550_init(&uart, &config), U16550_NOT_COMPUTABLE);
}

static void loopback(void)
{
    struct u16550_loopback_failure failure;
    ready();
    OK(u16550_test_loopback(&uart, &failure));
    OK(u16550_test_loopback(&uart, NULL));
    IS(d.registers[MCR], 0x0b);
    IS(d.sent_len, 0);
    d.flips = 0x01;
    IS(u16550_test_loopback(&uart, &failure), U16550_LOOPBACK_UNEXPECTED_BYTE);
    IS(failure.expected, 0x42);
    IS(failure.actual, 0x43);
    d.flips_after = 2;
    IS(u16550_test_loopback(&uart, &failure), U16550_LOOPBACK_UNEXPECTED_MSG);
    BYTES(failure.expected_msg, "hello world!1337");
    BYTES(failure.actual_msg, "hdmmn!vnsme 0226");
    IS(failure.expected, 0);
    IS(u16550_test_loopback(&uart, NULL), U16550_LOOPBACK_UNEXPECTED_BYTE);
    d.flips = 0;
    d.arrived_len = 0;
    d.is_silent = 1;
    IS(u16550_test_loopback(&uart, &failure), U16550_LOOPBACK_STALLED);
    ready();
    d.is_stuck = 1;
    IS(u16550_test_loopback(&uart, &failure), U16550_LOOPBACK_STALLED);
}

static void remote(void)
{
    ready();
    d.registers[MSR] = U16550_MSR_CTS;
    IS(u16550_check_connected(&uart), U16550_REMOTE_NO_DSR);
    d.registers[MSR] = U16550_MSR_DSR;
    IS(u16550_check_connected(&uart), U16550_REMOTE_NOT_CLEAR_TO_SEND);
    d.registers[MSR] = U16550_MSR_DSR | U16550_MSR_CTS;
    OK(u16550_check_connected(&uart));
    config.check_cts_before_sending = 1;
    OK(u16550_init(&uart, &config));
    OK(u16550_ready_to_send(&uart));
    d.registers[MSR] = 0;
    IS(u16550_ready_to_send(&uart), U16550_SEND_NOT_CLEAR_TO_SEND);
    IS(u16550_try_send_byte(&uart, 'x'), U16550_SEND_NO_CAPACITY);
}

/* A baud rate that no whole divisor gives. */
static void nearest(void)
{
    struct u16550_config found;
    anew();
    config.frequency = 24000000; /* 9600 baud needs a divisor of 156.25 */
    IS(u16550_init(&uart, &config), U16550_INIT_NON_INTEGER_DIVISOR);
    found = config;
    IS(u16550_nearest(&config, 1, &found), U16550_NEAREST_TOO_FAR);
    IS(found.frequency, 24000000);
    OK(u16550_nearest(&config, 2, &found));
    IS(found.frequency, 23961600);
    IS(found.baud_rate, 9600);
    IS(found.parity, config.parity);
    OK(u16550_init(&uart, &found));
    IS(d.dll, 156);
    IS(d.dlm, 0);
    OK(u16550_nearest(&config, 2, &config));
    IS(config.frequency, 23961600);
    config.frequency = UINT32_MAX;
    config.baud_rate = 4000; /* 67108.86 */
    IS(u16550_nearest(&config, 1000, &config), U16550_NEAREST_OUT_OF_RANGE);
    config.has_prescaler = 1;
    config.prescaler_division_factor = 3;
    OK(u16550_nearest(&config, 1000, &config));
    IS(config.frequency, 4u * 16 * 4000 * 16777);
    anew();
    config.frequency = 0;
    MISUSE(u16550_nearest(&config, 20, &found), U16550_NOT_COMPUTABLE);
    config.data_bits = 4;
    MISUSE(u16550_nearest(&config, 20, &found), U16550_BAD_CODE);
    MISUSE(u16550_nearest(NULL, 20, &found), U16550_NULL_POINTER);
    MISUSE(u16550_nearest(&config, 20, NULL), U16550_NULL_POINTER);
}

/* The slowest line: a character of twelve bits at divisor 62,500 and factor 15 takes 192,000,000 clocks. */
static void slowest(void)
{
    config.frequency = 16000000;
    config.baud_rate = 1;
    config.has_prescaler = 1;
    config.prescaler_division_factor = 15;
    config.parity = U16550_PARITY_ODD;
    config.extra_stop_bits = 1;
}

/* How long characters take, in clocks. At 9600 baud a bit has 12 times 16. */
static void clocks(void)
{
    uint64_t found;
    anew();
    OK(u16550_character_clocks(&config, &found));
    IS(found, 1920);
    OK(u16550_timeout_clocks(&config, &found));
    IS(found, 4 * 1920);
    OK(u16550_drain_clocks(&config, 16, &found));
    IS(found, 17 * 1920);
    OK(u16550_drain_clocks(&config, 256, &found));
    IS(found, 257 * 1920);
    OK(u16550_characters_in(&config, 0, &found));
    IS(found, 1);
    OK(u16550_characters_in(&config, 1919, &found));
    IS(found, 1);
    OK(u16550_characters_in(&config, 1920, &found));
    IS(found, 2);
    OK(u16550_characters_in(&config, UINT64_MAX, &found));
    IS(found, 9607679205057059);
    config.data_bits = 5;
    config.extra_stop_bits = 1; /* five bits have one and a half */
    OK(u16550_character_clocks(&config, &found));
    IS(found, 1440);
    config.parity = U16550_PARITY_FORCED_0;
    OK(u16550_character_clocks(&config, &found));
    IS(found, 1632);
    anew();
    slowest();
    OK(u16550_character_clocks(&config, &found));
    IS(found, 192000000);
    OK(u16550_timeout_clocks(&config, &found));
    IS(found, 768000000);
    OK(u16550_drain_clocks(&config, 256, &found));
    IS(found, 49344000000);
}

/* How late a handler may be. At 115200 baud a character takes 160 clocks. */
static void budgets(void)
{
    uint64_t found;
    anew();
    config.baud_rate = 115200;
    OK(u16550_handler_budget(&config, 16, 0, 0, &found));
    IS(found, 3 * 160 - 1);
    OK(u16550_handler_budget(&config, 64, 0, 0, &found));
    IS(found, 9 * 160 - 1);
    config.fifo_trigger_level = 8;
    OK(u16550_handler_budget(&config, 16, 2, 0, &found));
    IS(found, 1431);
    OK(u16550_handler_budget(&config, 16, 2, 100, &found));
    IS(found, 1331);
    OK(u16550_handler_budget(&config, 16, 2, 1431, &found));
    IS(found, 0);
    IS(u16550_handler_budget(&config, 16, 2, 1432, &found), U16550_TIME_NOTHING_LEFT);
    IS(u16550_handler_budget(&config, 16, 2, UINT64_MAX, &found), U16550_TIME_NOTHING_LEFT);
    /* A byte takes two accesses. */
    OK(u16550_handler_budget(&config, 16, 80, 0, &found));
    IS(found, 9 * 160 - 1 - 4 * 80);
    IS(u16550_handler_budget(&config, 16, 81, 0, &found), U16550_TIME_NOTHING_LEFT);
    IS(u16550_handler_budget(&config, 16, UINT64_MAX, 0, &found), U16550_TIME_NOTHING_LEFT);
    IS(found, 9 * 160 - 1 - 4 * 80);
    config.fifo_trigger_level = 0;
    OK(u16550_handler_budget(&config, 16, 2, 0, &found));
    IS(found, 151);
    slowest();
    config.fifo_trigger_level = 1;
    OK(u16550_handler_budget(&config, 256, 1, 0, &found));
    IS(found, 256 * UINT64_C(192000000) - 5);
}

/* A spin limit with which no wait for a working transmitter gives up. */
static void limits(void)
{
    uint64_t found = 7;
    anew();
    IS(u16550_spin_limit_for(&config, 16, 0, &found), U16550_TIME_NO_LIMIT);
    IS(found, 7);
    OK(u16550_spin_limit_for(&config, 16, 2, &found));
    IS(found, 17 * 961);
    OK(u16550_spin_limit_for(&config, 16, 1919, &found));
    IS(found, 17 * 3);
    OK(u16550_spin_limit_for(&config, 16, UINT64_MAX, &found));
    IS(found, 17 * 2);
    OK(u16550_set_spin_limit(&uart, found));
    slowest();
    OK(u16550_spin_limit_for(&config, 256, 1, &found));
    IS(found, 257 * UINT64_C(192000001));
}

/* Clocks as nanoseconds and back, to the safe side. */
static void nanoseconds(void)
{
    uint64_t found = 7;
    anew();
    OK(u16550_nanoseconds_within(&config, 160, &found));
    IS(found, 86805);
    OK(u16550_nanoseconds_covering(&config, 160, &found));
    IS(found, 86806);
    OK(u16550_clocks_within(&config, 1000, &found));
    IS(found, 1);
    OK(u16550_clocks_covering(&config, 1000, &found));
    IS(found, 2);
    OK(u16550_clocks_within(&config, UINT64_MAX, &found));
    IS(found, 34001038676661445);
    OK(u16550_clocks_covering(&config, UINT64_MAX, &found));
    IS(found, 34001038676661446);
    /* What is exact is rounded in neither way: 9 clocks of 1.8 MHz are five microseconds. */
    config.frequency = 1800000;
    OK(u16550_nanoseconds_within(&config, 9, &found));
    IS(found, 5000);
    OK(u16550_nanoseconds_covering(&config, 9, &found));
    IS(found, 5000);
    OK(u16550_clocks_within(&config, 5000, &found));
    IS(found, 9);
    OK(u16550_clocks_covering(&config, 5000, &found));
    IS(found, 9);
    IS(u16550_nanoseconds_within(&config, UINT64_MAX, &found), U16550_TIME_OUT_OF_RANGE);
    IS(u16550_nanoseconds_covering(&config, UINT64_MAX, &found), U16550_TIME_OUT_OF_RANGE);
    config.frequency = UINT32_MAX;
    IS(u16550_clocks_within(&config, UINT64_MAX, &found), U16550_TIME_OUT_OF_RANGE);
    IS(u16550_clocks_covering(&config, UINT64_MAX, &found), U16550_TIME_OUT_OF_RANGE);
    IS(found, 9);
}

/* The calls of a configuration with these pointers and this size of FIFOs: each returns this number. */
static void no_time(const struct u16550_config *from, uint16_t fifo_size, uint64_t *to, int wanted)
{
#define ACCESS_CLOCKS 1
#define BEFORE_CLOCKS 1
#define CLOCKS 1
#define NANOSECONDS 1
#define CONFIG from
#define FIFO_SIZE fifo_size
#define NUMBER_AT to
#define RETURNS(name, ...) IS(name(__VA_ARGS__), wanted);
    EACH_OF_CONFIG(RETURNS)
#undef CONFIG
#undef FIFO_SIZE
#undef NUMBER_AT
}

static void no_times(void)
{
    uint64_t two[2] = { 7, 7 }, *found = &two[0], *crooked = (uint64_t *)(void *)((uint8_t *)two + 1);
    uint8_t room[sizeof config + 1];
    anew();
    no_time(NULL, 16, found, U16550_NULL_POINTER);
    no_time(&config, 16, NULL, U16550_NULL_POINTER);
    no_time((const struct u16550_config *)(const void *)(room + ((uintptr_t)room % 2 == 0)), 16, found, U16550_MISALIGNED);
    no_time(&config, 16, crooked, U16550_MISALIGNED);
    config.frequency = 0;
    no_time(&config, 16, found, U16550_NOT_COMPUTABLE);
    config.frequency = 1843200;
    config.baud_rate = 0;
    no_time(&config, 16, found, U16550_NOT_COMPUTABLE);
    config.baud_rate = 9600;
    config.has_prescaler = 1;
    config.prescaler_division_factor = 16;
    no_time(&config, 16, found, U16550_NOT_COMPUTABLE);
    config.has_prescaler = 2;
    no_time(&config, 16, found, U16550_BAD_CODE);
    config.has_prescaler = 0;
    IS(u16550_handler_budget(&config, 17, 1, 0, found), U16550_BAD_CODE);
    IS(u16550_drain_clocks(&config, 0, found), U16550_BAD_CODE);
    IS(u16550_spin_limit_for(&config, 512, 1, found), U16550_BAD_CODE);
    /* What has no divisor has no time of a character. What a clock is, it has. */
    config.baud_rate = 7;
    IS(u16550_character_clocks(&config, found), U16550_FRAME_NON_INTEGER_DIVISOR);
    IS(u16550_handler_budget(&config, 16, 1, 0, found), U16550_FRAME_NON_INTEGER_DIVISOR);
    IS(u16550_characters_in(&config, 1, found), U16550_FRAME_NON_INTEGER_DIVISOR);
    config.baud_rate = 1;
    IS(u16550_drain_clocks(&config, 16, found), U16550_FRAME_DIVISOR_OUT_OF_RANGE);
    IS(u16550_timeout_clocks(&config, found), U16550_FRAME_DIVISOR_OUT_OF_RANGE);
    IS(u16550_spin_limit_for(&config, 16, 0, found), U16550_FRAME_DIVISOR_OUT_OF_RANGE);
    IS(two[0] + two[1], 14);
    OK(u16550_clocks_covering(&config, 1000, found));
    IS(*found, 2);
}

/* A new frame while the port runs. */
static void frame(void)
{
    struct u16550_config kept_config, changed;
    unsigned before;
    ready();
    d.registers[IER] = U16550_IER_DATA_READY;
    d.registers[MCR] = U16550_MCR_DTR;
    before = d.accesses;
    changed = config;
    changed.baud_rate = 300;
    changed.data_bits = 7;
    changed.parity = U16550_PARITY_EVEN;
    changed.extra_stop_bits = 1;
    changed.interrupts = 0x0f;
    changed.fifo_trigger_level = 0;
    changed.check_cts_before_sending = 1;
    OK(u16550_set_frame(&uart, &changed));
    IS(d.accesses, before + 4);
    IS(d.registers[LCR], 0x1e);
    IS(d.dll, 0x80);
    IS(d.dlm, 0x01);
    IS(d.registers[IER], U16550_IER_DATA_READY);
    IS(d.registers[MCR], U16550_MCR_DTR);
    IS(d.fifo_on, 1);
    OK(u16550_get_config(&uart, &kept_config));
    IS(kept_config.baud_rate, 300);
    IS(kept_config.data_bits, 7);
    IS(kept_config.interrupts, config.interrupts);
    IS(kept_config.fifo_trigger_level, 14);
    IS(kept_config.check_cts_before_sending, 0);
    anew();
    config.baud_rate = 7777;
    MISUSE(u16550_set_frame(&uart, &config), U16550_FRAME_NON_INTEGER_DIVISOR);
    config.frequency = 1600000;
    config.baud_rate = 1;
    MISUSE(u16550_set_frame(&uart, &config), U16550_FRAME_DIVISOR_OUT_OF_RANGE);
    config.baud_rate = 0;
    MISUSE(u16550_set_frame(&uart, &config), U16550_NOT_COMPUTABLE);
    config.fifo_trigger_level = 2;
    MISUSE(u16550_set_frame(&uart, &config), U16550_BAD_CODE);
    MISUSE(u16550_set_frame(&uart, NULL), U16550_NULL_POINTER);
}

/* What the chip shows of what was written to it. */
static void configured(void)
{
    struct u16550_difference difference = { 7, 7 };
    ready();
    OK(u16550_check_configured(&uart, 0x0b, &difference));
    OK(u16550_check_configured(&uart, 0x0b | U16550_MCR_LOOP_BACK, NULL));
    IS(difference.expected, 7);
    d.registers[LCR] |= 0x40;
    OK(u16550_check_configured(&uart, 0x0b, NULL));
    d.registers[LCR] = 0x1b;
    IS(u16550_check_configured(&uart, 0x0b, &difference), U16550_CONFIGURATION_LINE_CONTROL);
    IS(difference.expected, 0x03);
    IS(difference.shown, 0x1b);
    d.registers[LCR] = 0x03;
    IS(u16550_check_configured(&uart, 0x09, &difference), U16550_CONFIGURATION_MODEM_CONTROL);
    IS(difference.expected, 0x09);
    IS(difference.shown, 0x0b);
    d.registers[IER] ^= 0x08;
    IS(u16550_check_configured(&uart, 0x0b, &difference), U16550_CONFIGURATION_INTERRUPTS);
    IS(difference.expected ^ difference.shown, 0x08);
    d.registers[IER] ^= 0x08;
    d.dll = 13;
    d.dlm = 1;
    IS(u16550_check_configured(&uart, 0x0b, &difference), U16550_CONFIGURATION_DIVISOR);
    IS(difference.expected, 12);
    IS(difference.shown, 256 + 13);
    IS(d.registers[LCR], 0x03);
    d.dll = 12;
    d.dlm = 0;
    d.fifo_on = 0;
    IS(u16550_check_configured(&uart, 0x0b, &difference), U16550_CONFIGURATION_FIFOS);
    IS(difference.expected, 1);
    IS(difference.shown, 0);
    IS(u16550_check_configured(&uart, 0x0b, NULL), U16550_CONFIGURATION_FIFOS);
}

/* A port that firmware has set up. */
/* An initialisation otherwise, the trigger level, a frame that waits, and a port that is left and taken up again. */
static void setup(void)
{
    struct u16550_setup unchecked = { 0, U16550_WAIT_LAST, U16550_MCR_OUT_1 | U16550_MCR_LOOP_BACK };
    struct u16550_config off;
    struct u16550_dump dump;
    uint8_t enabled;
    anew();
    OK(u16550_init_with(&uart, &config, &unchecked));
    IS(d.registers[MCR], U16550_MCR_OUT_1);
    IS(d.dll, 12);
    anew();
    d.is_stuck = 1;
    unchecked.wait = U16550_WAIT_FIRST;
    IS(u16550_init_with(&uart, &config, &unchecked), U16550_INIT_STALLED);
    IS(d.dll, 0);
    unchecked.wait = U16550_WAIT_LAST;
    IS(u16550_init_with(&uart, &config, &unchecked), U16550_INIT_STALLED);
    IS(d.dll, 12);
    unchecked.wait = U16550_WAIT_NEVER;
    OK(u16550_init_with(&uart, &config, &unchecked));
    unchecked.wait = 3;
    accesses = d.accesses;
    MISUSE(u16550_init_with(&uart, &config, &unchecked), U16550_BAD_CODE);
    unchecked.wait = U16550_WAIT_NEVER;
    unchecked.checks_presence = 2;
    MISUSE(u16550_init_with(&uart, &config, &unchecked), U16550_BAD_CODE);
    MISUSE(u16550_init_with(&uart, &config, NULL), U16550_NULL_POINTER);
    MISUSE(u16550_init_with(&uart, NULL, &unchecked), U16550_NULL_POINTER);

    ready();
    OK(u16550_set_trigger_level(&uart, 4));
    accesses = d.accesses;
    MISUSE(u16550_set_trigger_level(&uart, 0), U16550_BAD_CODE);
    MISUSE(u16550_set_trigger_level(&uart, 5), U16550_BAD_CODE);
    config.baud_rate = 115200;
    OK(u16550_set_frame_when_idle(&uart, &config));
    IS(d.dll, 1);
    d.is_stuck = 1;
    IS(u16550_set_frame_when_idle(&uart, &config), U16550_FRAME_STALLED);
    d.is_stuck = 0;
    config.baud_rate = 110;
    accesses = d.accesses;
    MISUSE(u16550_set_frame_when_idle(&uart, &config), U16550_FRAME_NON_INTEGER_DIVISOR);
    config.baud_rate = 0;
    MISUSE(u16550_set_frame_when_idle(&uart, &config), U16550_NOT_COMPUTABLE);
    unchecked.checks_presence = 0;
    MISUSE(u16550_init_with(&uart, &config, &unchecked), U16550_NOT_COMPUTABLE);
    MISUSE(u16550_set_frame_when_idle(&uart, NULL), U16550_NULL_POINTER);

    ready();
    off = config;
    off.fifo_trigger_level = 0;
    OK(u16550_init(&uart, &off));
    accesses = d.accesses;
    MISUSE(u16550_set_trigger_level(&uart, 4), U16550_FIFOS_OFF);

    ready();
    OK(u16550_enable_interrupts(&uart, U16550_IER_DATA_READY));
    OK(u16550_config_register_dump(&uart, &dump));
    OK(u16550_quiesce(&uart, U16550_MCR_OUT_1 | U16550_MCR_LOOP_BACK, U16550_FIFOS_KEEP));
    IS(d.registers[MCR], U16550_MCR_OUT_1);
    IS(d.registers[IER], 0);
    OK(u16550_quiesce(&uart, 0, U16550_FIFOS_RESET));
    OK(u16550_fifo_enabled(&uart, &enabled));
    IS(enabled, 1);
    OK(u16550_quiesce(&uart, 0, U16550_FIFOS_DISABLE));
    OK(u16550_fifo_enabled(&uart, &enabled));
    IS(enabled, 0);
    accesses = d.accesses;
    MISUSE(u16550_quiesce(&uart, 0, 3), U16550_BAD_CODE);
    d.dll = 0;
    OK(u16550_restore(&uart, &dump));
    IS(d.dll, 12);
    IS(d.registers[MCR], 0x0b);
    IS(d.registers[IER], U16550_IER_DATA_READY);
    accesses = d.accesses;
    MISUSE(u16550_restore(&uart, NULL), U16550_NULL_POINTER);
}

static void attach(void)
{
    uint8_t dll = 1, dlm = 1, enabled;
    anew();
    d.dll = 24;
    d.registers[LCR] = 0x07;
    d.registers[MCR] = U16550_MCR_RTS;
    OK(u16550_attach(&uart, &dll, &dlm));
    IS(dll, 24);
    IS(dlm, 0);
    IS(d.registers[LCR], 0x07);
    IS(d.registers[MCR], U16550_MCR_RTS);
    OK(u16550_fifo_enabled(&uart, &enabled));
    IS(enabled, 0);
    d.fifo_on = 1;
    OK(u16550_attach(&uart, &dll, &dlm));
    OK(u16550_fifo_enabled(&uart, &enabled));
    IS(enabled, 1);
    d.fifo_on = 0;
    dll = dlm = 7;
    d.registers[MCR] = U16550_MCR_LOOP_BACK;
    IS(u16550_attach(&uart, &dll, &dlm), U16550_ATTACH_LOOPBACK);
    d.registers[MCR] = 0;
    d.dll = d.dlm = 0;
    IS(u16550_attach(&uart, &dll, &dlm), U16550_ATTACH_NO_DIVISOR);
    IS(d.registers[LCR], 0x07);
    d.registers[LCR] = DLAB;
    IS(u16550_attach(&uart, &dll, &dlm), U16550_ATTACH_DIVISOR_LATCH_OPEN);
    IS(dll, 7);
    IS(dlm, 7);
    OK(u16550_fifo_enabled(&uart, &enabled));
    IS(enabled, 1);
    anew();
    MISUSE(u16550_attach(&uart, NULL, &dlm), U16550_NULL_POINTER);
    MISUSE(u16550_attach(&uart, &dll, NULL), U16550_NULL_POINTER);
}

/* The outputs to the modem, a break, the modem lines now, and whether all is sent. */
static void outputs(void)
{
    uint8_t value = 9;
    anew();
    MISUSE(u16550_set_rts(&uart, 2), U16550_BAD_CODE);
    MISUSE(u16550_set_dtr(&uart, 0xff), U16550_BAD_CODE);
    MISUSE(u16550_set_break(&uart, 2), U16550_BAD_CODE);
    MISUSE(u16550_peek_modem(&uart, NULL), U16550_NULL_POINTER);
    MISUSE(u16550_is_idle(&uart, NULL), U16550_NULL_POINTER);
    MISUSE(u16550_is_gone(&uart, NULL), U16550_NULL_POINTER);
    ready();
    IS(d.registers[MCR], U16550_MCR_DTR | U16550_MCR_RTS | U16550_MCR_OUT_2_INT_ENABLE);
    OK(u16550_set_rts(&uart, 0));
    IS(d.registers[MCR], U16550_MCR_DTR | U16550_MCR_OUT_2_INT_ENABLE);
    OK(u16550_set_dtr(&uart, 0));
    IS(d.registers[MCR], U16550_MCR_OUT_2_INT_ENABLE);
    OK(u16550_set_rts(&uart, 1));
    OK(u16550_set_dtr(&uart, 1));
    IS(d.registers[MCR], 0x0b);
    OK(u16550_set_modem_control(&uart, U16550_MCR_OUT_1 | U16550_MCR_LOOP_BACK));
    IS(d.registers[MCR], U16550_MCR_OUT_1);
    OK(u16550_set_modem_control(&uart, U16550_MCR_RTS | U16550_MCR_AUTO_FLOW));
    IS(d.registers[MCR], U16550_MCR_RTS | U16550_MCR_AUTO_FLOW);
    OK(u16550_set_modem_control(&uart, U16550_MCR_OUT_1));
    OK(u16550_set_break(&uart, 1));
    IS(d.registers[LCR], 0x43);
    OK(u16550_set_break(&uart, 0));
    IS(d.registers[LCR], 0x03);
    d.registers[MSR] |= U16550_MSR_DELTA_CTS;
    OK(u16550_peek_modem(&uart, &value));
    IS(value, U16550_MSR_CTS | U16550_MSR_DSR | U16550_MSR_DELTA_CTS);
    OK(u16550_peek_modem(&uart, &value));
    IS(value, U16550_MSR_CTS | U16550_MSR_DSR);
    OK(u16550_msr(&uart, &value));
    IS(value, U16550_MSR_CTS | U16550_MSR_DSR | U16550_MSR_DELTA_CTS);
    d.errors = U16550_LSR_PARITY_ERROR;
    OK(u16550_is_idle(&uart, &value));
    IS(value, 1);
    d.is_stuck = 1;
    OK(u16550_is_idle(&uart, &value));
    IS(value, 0);
    d.is_stuck = 0;
    OK(u16550_lsr(&uart, &value));
    IS(value, 0x60 | U16550_LSR_PARITY_ERROR);
    d.registers[MCR] = 0xef;
    OK(u16550_is_gone(&uart, &value));
    IS(value, 0);
    d.registers[MCR] = 0xff;
    OK(u16550_is_gone(&uart, &value));
    IS(value, 1);
}

/* Received bytes with their errors. */
static void with_errors(void)
{
    struct u16550_received slots[4], one = { 1, 1 };
    size_t count = 99;
    uint8_t value;
    memset(slots, '-', sizeof slots);
    ready();
    IS(u16550_try_receive_with_errors(&uart, &one), U16550_RECEIVE_NO_DATA);
    IS(one.byte, 1);
    device_arrive(&d, "abcdef");
    d.errors = U16550_LSR_FRAMING_ERROR | U16550_LSR_OVERRUN_ERROR;
    OK(u16550_try_receive_with_errors(&uart, &one));
    IS(one.byte, 'a');
    IS(one.errors, U16550_LSR_FRAMING_ERROR | U16550_LSR_OVERRUN_ERROR);
    d.errors = U16550_LSR_PARITY_ERROR | U16550_LSR_FIFO_DATA_ERROR;
    OK(u16550_receive_with_errors(&uart, slots, 2, &count));
    IS(count, 2);
    IS(slots[0].byte, 'b');
    IS(slots[0].errors, U16550_LSR_PARITY_ERROR);
    IS(slots[1].byte, 'c');
    IS(slots[1].errors, 0);
    IS(slots[2].byte, '-');
    OK(u16550_receive_with_errors(&uart, slots, 4, &count));
    IS(count, 3);
    IS(slots[2].byte, 'f');
    IS(slots[3].byte, '-');
    OK(u16550_lsr(&uart, &value));
    IS(value & 0x1e, U16550_LSR_FRAMING_ERROR | U16550_LSR_OVERRUN_ERROR | U16550_LSR_PARITY_ERROR);
    OK(u16550_receive_with_errors(&uart, slots, 4, &count));
    IS(count, 0);
    anew();
    OK(u16550_receive_with_errors(&uart, NULL, 0, &count));
    MISUSE(u16550_receive_with_errors(&uart, NULL, 1, &count), U16550_NULL_POINTER);
    MISUSE(u16550_receive_with_errors(&uart, slots, 1, NULL), U16550_NULL_POINTER);
    MISUSE(u16550_receive_with_errors(&uart, slots, SIZE_MAX / 4 + 1, &count), U16550_BAD_LENGTH);
    MISUSE(u16550_receive_with_errors(&uart, slots, SIZE_MAX, &count), U16550_BAD_LENGTH);
    MISUSE(u16550_try_receive_with_errors(&uart, NULL), U16550_NULL_POINTER);
}

static void bytes(void)
{
    uint8_t byte = 0, slots[24], ready_now = 7;
    size_t count = 99;
    static const uint8_t twenty[] = "abcdefghijklmnopqrst";
    ready();
    IS(u16550_ready_to_receive(&uart), U16550_RECEIVE_NO_DATA);
    IS(u16550_try_receive_byte(&uart, &byte), U16550_RECEIVE_NO_DATA);
    OK(u16550_read_ready(&uart, &ready_now));
    IS(ready_now, 0);
    OK(u16550_write_ready(&uart, &ready_now));
    IS(ready_now, 1);
    device_arrive(&d, "12345");
    OK(u16550_ready_to_receive(&uart));
    OK(u16550_read_ready(&uart, &ready_now));
    IS(ready_now, 1);
    OK(u16550_try_receive_byte(&uart, &byte));
    IS(byte, '1');
    memset(slots, '-', sizeof slots);
    OK(u16550_receive_bytes(&uart, slots, 3, &count));
    IS(count, 3);
    BYTES(slots, "234-");
    OK(u16550_receive_bytes(&uart, slots, sizeof slots, &count));
    IS(count, 1);
    BYTES(slots, "534-");
    OK(u16550_receive_bytes(&uart, slots, sizeof slots, &count));
    IS(count, 0);
    OK(u16550_receive_bytes(&uart, NULL, 0, &count));
    IS(count, 0);
    OK(u16550_send_bytes(&uart, twenty, 20, &count));
    IS(count, 16);
    OK(u16550_send_bytes(&uart, NULL, 0, &count));
    IS(count, 0);
    OK(u16550_try_send_byte(&uart, 'z'));
    IS(d.sent_len, 17);
    BYTES(d.sent, "abcdefghijklmnopz");
    d.is_stuck = 1;
    IS(u16550_ready_to_send(&uart), U16550_SEND_NO_CAPACITY);
    IS(u16550_try_send_byte(&uart, 'z'), U16550_SEND_NO_CAPACITY);
    OK(u16550_send_bytes(&uart, twenty, 20, &count));
    IS(count, 0);
    OK(u16550_write_ready(&uart, &ready_now));
    IS(ready_now, 0);
    d.is_stuck = 0;
    config.fifo_trigger_level = 0;
    OK(u16550_init(&uart, &config));
    OK(u16550_send_bytes(&uart, twenty, 20, &count));
    IS(count, 1);
    OK(u16550_send_burst(&uart, twenty, 20, 64, &count));
    IS(count, 1);
}

/* A burst as large as the transmitter FIFO is. */
static void bursts(void)
{
    static const uint8_t many[300] = { 0 };
    static const uint16_t sizes[] = { 16, 32, 64, 128, 256 }, wrong[] = { 0, 1, 15, 17, 48, 512 };
    size_t i, count, before;
    for (i = 0; i < sizeof sizes / sizeof *sizes; i++) {
        ready();
        before = d.sent_len;
        OK(u16550_send_burst(&uart, many, sizeof many, sizes[i], &count));
        IS(count, sizes[i]);
        IS(d.sent_len - before, sizes[i]);
    }
    ready();
    OK(u16550_send_burst(&uart, many, 20, 64, &count));
    IS(count, 20);
    OK(u16550_send_burst(&uart, NULL, 0, 64, &count));
    IS(count, 0);
    accesses = d.accesses;
    for (i = 0; i < sizeof wrong / sizeof *wrong; i++)
        MISUSE(u16550_send_burst(&uart, many, sizeof many, wrong[i], &count), U16550_BAD_CODE);
}

/* Makes room for as many bytes as the device keeps. */
static void emptied(void)
{
    d.sent_len = 0;
    d.room = ROOM;
}

/* The rings over a driver that was told this size: each burst is as large, and each second one lies around the end of the ring. */
static void sized_rings(size_t size)
{
    static const uint8_t many[384] = { 0 };
    static uint8_t cells[385];
    size_t capacity = size + size / 2, count, i;
    OK(u16550_ring_new(&uart, cells, sizeof cells, capacity, 1));
    d.is_stuck = 1;
    OK(u16550_ring_queue(&uart, many, sizeof many, &count));
    IS(count, capacity);
    d.is_stuck = 0;
    for (i = 0; i < 5; i++) {
        emptied();
        OK(u16550_ring_resume_transmit(&uart));
        IS(d.sent_len, size);
        d.is_stuck = 1;
        OK(u16550_ring_queue(&uart, many, sizeof many, &count));
        IS(count, size);
        d.is_stuck = 0;
    }
    OK(u16550_ring_end(&uart));
}

/* The size of the FIFOs as the driver was told it: each send is as large. */
static void set_sizes(void)
{
    static const uint8_t many[300] = { 0 };
    static const uint16_t sizes[] = { 16, 32, 64, 128, 256 }, looks[] = { 13, 7, 4, 2, 1 }, wrong[] = { 0, 1, 15, 17, 48, 512 };
    struct u16550_io io;
    struct u16550_state state;
    size_t i, count;
    uint16_t size;
    for (i = 0; i < sizeof sizes / sizeof *sizes; i++) {
        ready();
        accesses = d.accesses;
        OK(u16550_fifo_size(&uart, &size));
        IS(size, 16);
        OK(u16550_set_fifo_size(&uart, sizes[i]));
        OK(u16550_fifo_size(&uart, &size));
        IS(size, sizes[i]);
        IS(d.accesses, accesses);
        OK(u16550_send_bytes_exact(&uart, many, 200, NULL));
        IS(d.accesses, accesses + 200 + looks[i]);
        emptied();
        OK(u16550_send_bytes(&uart, many, sizeof many, &count));
        IS(count, sizes[i]);
        IS(d.sent_len, sizes[i]);
        emptied();
        OK(u16550_write(&uart, many, sizeof many, &count));
        IS(count, sizes[i]);
        /* An init keeps it, and so does a driver that goes on from the state. */
        emptied();
        OK(u16550_init(&uart, &config));
        OK(u16550_get_state(&uart, &state));
        IS(state.fifo_size, sizes[i]);
        io = device_io(&d);
        OK(u16550_from_state(&uart, &io, &state));
        OK(u16550_fifo_size(&uart, &size));
        IS(size, sizes[i]);
        sized_rings(size);
        emptied();
        config.fifo_trigger_level = 0;
        OK(u16550_init(&uart, &config));
        OK(u16550_send_bytes(&uart, many, sizeof many, &count));
        IS(count, 1);
    }
    OK(u16550_set_fifo_size(&uart, 64));
    accesses = d.accesses;
    for (i = 0; i < sizeof wrong / sizeof *wrong; i++)
        MISUSE(u16550_set_fifo_size(&uart, wrong[i]), U16550_BAD_CODE);
    OK(u16550_fifo_size(&uart, &size));
    IS(size, 64);
    MISUSE(u16550_fifo_size(&uart, NULL), U16550_NULL_POINTER);
}

/* Bytes in two parts, and an urgent one before them, are one burst. */
static void gathered(void)
{
    static const uint8_t urgent = 'u', first[] = "0123456789", second[] = "abcdefghijkl";
    size_t count;
    ready();
    accesses = d.accesses;
    OK(u16550_send_gathered(&uart, &urgent, first, 10, second, 12, &count));
    IS(count, 16);
    IS(d.accesses, accesses + 1 + 16);
    BYTES(d.sent, "u0123456789abcde");
    OK(u16550_send_gathered(&uart, NULL, first, 10, second, 12, &count));
    IS(count, 16);
    BYTES(d.sent + 16, "0123456789abcdef");
    OK(u16550_set_fifo_size(&uart, 32));
    OK(u16550_send_gathered(&uart, &urgent, first, 10, second, 12, &count));
    IS(count, 23);
    BYTES(d.sent + 32, "u0123456789abcdefghijkl");
    OK(u16550_send_gathered(&uart, NULL, NULL, 0, second, 2, &count));
    IS(count, 2);
    OK(u16550_send_gathered(&uart, &urgent, NULL, 0, NULL, 0, &count));
    IS(count, 1);
    BYTES(d.sent + 55, "abu");
    accesses = d.accesses;
    OK(u16550_send_gathered(&uart, NULL, NULL, 0, NULL, 0, &count));
    IS(count, 0);
    IS(d.accesses, accesses);
    MISUSE(u16550_send_gathered(&uart, &urgent, NULL, 1, second, 2, &count), U16550_NULL_POINTER);
    MISUSE(u16550_send_gathered(&uart, &urgent, first, 1, NULL, 2, &count), U16550_NULL_POINTER);
    MISUSE(u16550_send_gathered(&uart, &urgent, first, SIZE_MAX, second, 2, &count), U16550_BAD_LENGTH);
    MISUSE(u16550_send_gathered(&uart, &urgent, first, 1, second, SIZE_MAX, &count), U16550_BAD_LENGTH);
    MISUSE(u16550_send_gathered(&uart, &urgent, first, 1, second, 2, NULL), U16550_NULL_POINTER);
    d.is_stuck = 1;
    OK(u16550_send_gathered(&uart, &urgent, first, 10, second, 12, &count));
    IS(count, 0);
    d.is_stuck = 0;
    config.fifo_trigger_level = 0;
    OK(u16550_init(&uart, &config));
    OK(u16550_send_gathered(&uart, &urgent, first, 10, second, 12, &count));
    IS(count, 1);
    OK(u16550_send_gathered(&uart, NULL, first, 10, second, 12, &count));
    IS(count, 1);
    BYTES(d.sent + 58, "u0");
}

/* The size of the FIFOs, found in loopback: nothing is sent, and MCR, IER and the errors are as before. */
static void found_sizes(void)
{
    static const uint16_t holds[] = { 16, 31, 32, 64, 100, 128, 255, 256 }, found[] = { 16, 16, 32, 64, 64, 128, 128, 256 };
    size_t i;
    uint16_t size;
    uint8_t errors;
    for (i = 0; i < sizeof holds / sizeof *holds; i++) {
        ready();
        OK(u16550_enable_interrupts(&uart, U16550_IER_DATA_READY));
        d.holds = holds[i];
        d.arrived[0] = 'x';
        d.arrived_len = 1;
        OK(u16550_find_fifo_size(&uart, &size));
        IS(size, found[i]);
        IS(d.sent_len, 0);
        IS(d.arrived_len, 0);
        IS(d.registers[MCR], 0x0b);
        IS(d.registers[IER], U16550_IER_DATA_READY);
        OK(u16550_lsr(&uart, &errors));
        IS(errors & U16550_LSR_OVERRUN_ERROR, 0);
    }
    d.holds = 15;
    size = 77;
    IS(u16550_find_fifo_size(&uart, &size), U16550_FIFOS_TOO_FEW);
    d.is_stuck = 1;
    IS(u16550_find_fifo_size(&uart, &size), U16550_FIFOS_STALLED);
    IS(size, 77);
    d.is_stuck = 0;
    config.fifo_trigger_level = 0;
    OK(u16550_init(&uart, &config));
    accesses = d.accesses;
    MISUSE(u16550_find_fifo_size(&uart, &size), U16550_FIFOS_OFF);
    MISUSE(u16550_find_fifo_size(&uart, NULL), U16550_NULL_POINTER);
}

/* The FIFOs of a 16750 are made those of 64: nothing is sent, and LCR, IER and the size of the driver are as before. */
static void enabled_64(void)
{
    uint16_t size;
    uint8_t enabled = 77;
    int is_16750;
    for (is_16750 = 0; is_16750 < 2; is_16750++) {
        ready();
        OK(u16550_enable_interrupts(&uart, U16550_IER_DATA_READY));
        d.holds = 16;
        d.is_16750 = (uint8_t)is_16750;
        device_arrive(&d, "x");
        OK(u16550_enable_64_byte_fifos(&uart, &enabled));
        IS(enabled, is_16750);
        IS(d.holds, is_16750 ? 64 : 16);
        IS(d.arrived_len, !is_16750);
        IS(d.sent_len, 0);
        IS(d.registers[LCR], 0x03);
        IS(d.registers[IER], U16550_IER_DATA_READY);
        OK(u16550_fifo_size(&uart, &size));
        IS(size, 16);
        OK(u16550_set_trigger_level(&uart, 8));
        OK(u16550_find_fifo_size(&uart, &size));
        IS(size, is_16750 ? 64 : 16);
    }
    enabled = 77;
    d.is_stuck = 1;
    IS(u16550_enable_64_byte_fifos(&uart, &enabled), U16550_FIFOS_STALLED);
    IS(enabled, 77);
    d.is_stuck = 0;
    config.fifo_trigger_level = 0;
    OK(u16550_init(&uart, &config));
    accesses = d.accesses;
    MISUSE(u16550_enable_64_byte_fifos(&uart, &enabled), U16550_FIFOS_OFF);
    MISUSE(u16550_enable_64_byte_fifos(&uart, NULL), U16550_NULL_POINTER);
}

static void exact(void)
{
    uint8_t slots[8];
    size_t done = 99;
    ready();
    OK(u16550_send_bytes_exact(&uart, (const uint8_t *)"0123456789abcdefghij", 20, &done));
    IS(done, 20);
    BYTES(d.sent, "0123456789abcdefghij");
    OK(u16550_send_bytes_exact(&uart, NULL, 0, &done));
    IS(done, 0);
    OK(u16550_send_bytes_exact(&uart, (const uint8_t *)"k", 1, NULL));
    device_arrive(&d, "xyz");
    memset(slots, '-', sizeof slots);
    OK(u16550_receive_bytes_exact(&uart, slots, 2, &done));
    IS(done, 2);
    IS(u16550_receive_bytes_exact(&uart, slots + 2, 3, &done), U16550_STALLED);
    IS(done, 1);
    BYTES(slots, "xyz-----");
    IS(u16550_receive_bytes_exact(&uart, slots, 1, NULL), U16550_STALLED);
    d.room = 16;
    IS(u16550_send_bytes_exact(&uart, (const uint8_t *)"0123456789abcdefghij", 20, &done), U16550_STALLED);
    IS(done, 16);
}

/* A clock that goes on by one each time it is looked at, and a time at which a wait ends. */
struct deadline {
    unsigned now, end;
    int inside;
};

static uint8_t is_before(void *context)
{
    struct deadline *deadline = (struct deadline *)context;
    deadline->inside = u16550_flush(&uart);
    return ++deadline->now < deadline->end ? 0xff : 0;
}

static void waits_in_time(void)
{
    static const uint8_t text[] = "0123456789abcdefghij";
    struct deadline deadline = { 0, 2, 0 };
    size_t done = 99;
    ready();
    OK(u16550_send_bytes_while(&uart, text, 20, is_before, &deadline, &done));
    IS(done, 20);
    BYTES(d.sent, "0123456789abcdefghij");
    OK(u16550_send_bytes_while(&uart, NULL, 0, is_before, &deadline, &done));
    IS(done, 0);
    OK(u16550_send_bytes_while(&uart, text, 1, is_before, &deadline, NULL));
    IS(deadline.now, 0);
    /* The second poll is the last, and the spin limit is three. */
    d.is_stuck = 1;
    accesses = d.accesses;
    IS(u16550_send_bytes_while(&uart, text, 20, is_before, &deadline, &done), U16550_WAIT_ENDED);
    IS(done, 0);
    IS(deadline.now, 2);
    IS(deadline.inside, U16550_BUSY);
    IS(d.accesses, accesses + 2);
    deadline.now = 0;
    deadline.end = 1000;
    IS(u16550_send_bytes_while(&uart, text, 20, is_before, &deadline, &done), U16550_STALLED);
    IS(deadline.now, 3);
    IS(d.accesses, accesses + 5);
    d.is_stuck = 0;
    d.room = 16;
    deadline.end = 0;
    IS(u16550_send_bytes_while(&uart, text, 20, is_before, &deadline, &done), U16550_WAIT_ENDED);
    IS(done, 16);
    accesses = d.accesses;
    MISUSE(u16550_send_bytes_while(&uart, text, 20, NULL, &deadline, &done), U16550_NULL_POINTER);
}

static void waits_in_time_for_bytes(void)
{
    struct deadline deadline = { 0, 2, 0 };
    uint8_t slots[4] = { 0xee, 0xee, 0xee, 0xee };
    size_t done = 99;
    ready();
    device_arrive(&d, "ab");
    OK(u16550_receive_bytes_while(&uart, slots, 2, is_before, &deadline, &done));
    IS(done, 2);
    BYTES(slots, "ab\xee\xee");
    OK(u16550_receive_bytes_while(&uart, NULL, 0, is_before, &deadline, &done));
    IS(done, 0);
    IS(deadline.now, 0);
    /* A byte, then two polls, of which the second is the last; the spin limit is three. */
    device_arrive(&d, "c");
    accesses = d.accesses;
    IS(u16550_receive_bytes_while(&uart, slots, 4, is_before, &deadline, &done), U16550_WAIT_ENDED);
    IS(done, 1);
    BYTES(slots, "cb\xee\xee");
    IS(deadline.now, 2);
    IS(deadline.inside, U16550_BUSY);
    IS(d.accesses, accesses + 4);
    deadline.now = 0;
    deadline.end = 1000;
    IS(u16550_receive_bytes_while(&uart, slots, 4, is_before, &deadline, NULL), U16550_STALLED);
    IS(deadline.now, 3);
    IS(d.accesses, accesses + 7);
    accesses = d.accesses;
    MISUSE(u16550_receive_bytes_while(&uart, slots, 4, NULL, &deadline, &done), U16550_NULL_POINTER);
}

static void waits_in_time_for_an_empty_transmitter(void)
{
    struct deadline deadline = { 0, 2, 0 };
    ready();
    OK(u16550_flush_while(&uart, is_before, &deadline));
    IS(deadline.now, 0);
    /* The second poll is the last, and the spin limit is three. */
    d.is_stuck = 1;
    accesses = d.accesses;
    IS(u16550_flush_while(&uart, is_before, &deadline), U16550_WAIT_ENDED);
    IS(deadline.now, 2);
    IS(deadline.inside, U16550_BUSY);
    IS(d.accesses, accesses + 2);
    deadline.now = 0;
    deadline.end = 1000;
    IS(u16550_flush_while(&uart, is_before, &deadline), U16550_STALLED);
    IS(deadline.now, 3);
    IS(d.accesses, accesses + 5);
    accesses = d.accesses;
    MISUSE(u16550_flush_while(&uart, NULL, &deadline), U16550_NULL_POINTER);
}

static void io_traits(void)
{
    uint8_t slots[8];
    size_t count = 99;
    ready();
    device_arrive(&d, "ab");
    OK(u16550_read(&uart, slots, sizeof slots, &count));
    IS(count, 2);
    IS(u16550_read(&uart, slots, sizeof slots, &count), U16550_STALLED);
    OK(u16550_read(&uart, NULL, 0, &count));
    IS(count, 0);
    OK(u16550_write(&uart, (const uint8_t *)"cd", 2, &count));
    IS(count, 2);
    OK(u16550_write(&uart, NULL, 0, &count));
    IS(count, 0);
    OK(u16550_flush(&uart));
    d.is_stuck = 1;
    IS(u16550_write(&uart, (const uint8_t *)"cd", 2, &count), U16550_STALLED);
    IS(u16550_flush(&uart), U16550_STALLED);
}

static void text(void)
{
    size_t done = 99;
    ready();
    OK(u16550_write_text(&uart, "a\n\b\x7f\xc3\xbc\r", 7, &done));
    IS(done, 99);
    IS(d.sent_len, 12);
    BYTES(d.sent, "a\r\n\b \b\b \b\xc3\xbc\r");
    OK(u16550_write_text(&uart, NULL, 0, NULL));
    d.room = 2;
    IS(u16550_write_text(&uart, "x\n\n", 3, &done), U16550_STALLED);
    IS(done, 2);
    IS(u16550_write_text(&uart, "x", 1, NULL), U16550_STALLED);
    anew();
    MISUSE(u16550_write_text(&uart, "x\xff", 2, &done), U16550_NOT_UTF8);
    IS(done, 2);
    d.room = 4;
    d.sent_len = 0;
    OK(u16550_write_raw_text(&uart, "x\xff\n", 3, &done));
    BYTES(d.sent, "x\xff\r\n");
    d.room = 1;
    IS(u16550_write_raw_text(&uart, "\xff\n", 2, &done), U16550_STALLED);
    IS(done, 1);
}

static void registers(void)
{
    uint8_t value = 0, dll = 0, dlm = 0;
    uint16_t divisor = 0;
    uint32_t rate = 0;
    struct u16550_dump dump;
    ready();
    OK(u16550_enable_interrupts(&uart, U16550_IER_DATA_READY | U16550_IER_MODEM_STATUS));
    OK(u16550_disable_interrupts(&uart, U16550_IER_MODEM_STATUS));
    OK(u16550_ier(&uart, &value));
    IS(value, U16550_IER_DATA_READY);
    d.falls = 0;
    OK(u16550_retrigger_interrupts(&uart));
    IS(d.registers[IER], U16550_IER_DATA_READY);
    IS(d.falls, 1);
    OK(u16550_isr(&uart, &value));
    IS(value, FIFOS_ENABLED | NO_INTERRUPT);
    OK(u16550_lcr(&uart, &value));
    IS(value, 0x03);
    OK(u16550_mcr(&uart, &value));
    IS(value, 0x0b);
    d.registers[SPR] = 0x5a;
    OK(u16550_spr(&uart, &value));
    IS(value, 0x5a);
    d.errors = U16550_LSR_FRAMING_ERROR;
    d.registers[MSR] |= U16550_MSR_DELTA_CD;
    OK(u16550_ready_to_send(&uart));
    OK(u16550_check_connected(&uart));
    OK(u16550_dll_dlm(&uart, &dll, &dlm));
    IS(dll, 12);
    IS(dlm, 0);
    IS(d.registers[LCR], 0x03);
    OK(u16550_config_register_dump(&uart, &dump));
    IS(dump.ier, U16550_IER_DATA_READY);
    IS(dump.isr, FIFOS_ENABLED | NO_INTERRUPT);
    IS(dump.lcr, 0x03);
    IS(dump.mcr, 0x0b);
    IS(dump.lsr, 0x60 | U16550_LSR_FRAMING_ERROR);
    IS(dump.msr, U16550_MSR_CTS | U16550_MSR_DSR | U16550_MSR_DELTA_CD);
    IS(dump.spr, 0x5a);
    IS(dump.dll, 12);
    IS(dump.dlm, 0);
    OK(u16550_lsr(&uart, &value));
    IS(value, 0x60 | U16550_LSR_FRAMING_ERROR);
    OK(u16550_lsr(&uart, &value));
    IS(value, 0x60);
    OK(u16550_msr(&uart, &value));
    IS(value, U16550_MSR_CTS | U16550_MSR_DSR | U16550_MSR_DELTA_CD);
    OK(u16550_msr(&uart, &value));
    IS(value, U16550_MSR_CTS | U16550_MSR_DSR);
    dump.dlm = 1;
    OK(u16550_dump_divisor(&dump, &divisor));
    IS(divisor, 268);
    IS(u16550_dump_baud_rate(&dump, &config, &rate), U16550_NON_INTEGER_BAUD_RATE);
    dump.dlm = 0;
    OK(u16550_dump_baud_rate(&dump, &config, &rate));
    IS(rate, 9600);
    dump.dll = 0;
    IS(u16550_dump_baud_rate(&dump, &config, &rate), U16550_NON_INTEGER_BAUD_RATE);
    config.frequency = 0;
    IS(u16550_dump_baud_rate(&dump, &config, &rate), U16550_NOT_COMPUTABLE);
    config.frequency = 1;
    config.has_prescaler = 1;
    config.prescaler_division_factor = 16;
    IS(u16550_dump_baud_rate(&dump, &config, &rate), U16550_NOT_COMPUTABLE);
    config.data_bits = 9;
    IS(u16550_dump_baud_rate(&dump, &config, &rate), U16550_BAD_CODE);
}

static uint8_t memory[64];

static void rings_ready(void)
{
    anew();
    OK(u16550_ring_new(&uart, memory, sizeof memory, 40, 24));
    config.interrupts = U16550_IER_DATA_READY | U16550_IER_RECEIVER_LINE_STATUS | U16550_IER_MODEM_STATUS;
    OK(u16550_init(&uart, &config));
}

static void rings(void)
{
    size_t count = 99;
    uint8_t slots[40], value = 9;
    static const char fifty[] = "abcdefghijklmnopqrstuvwxyzABCDEFGHIJKLMNOPQRSTUVWX";
    rings_ready();
    OK(u16550_ring_queue(&uart, (const uint8_t *)fifty, 50, &count));
    IS(count, 40);
    IS(d.sent_len, 16);
    IS(d.registers[IER] & U16550_IER_THR_EMPTY, U16550_IER_THR_EMPTY);
    OK(u16550_ring_transmit_len(&uart, &count));
    IS(count, 24);
    OK(u16550_ring_service(&uart, &count));
    IS(count, 2);
    IS(d.sent_len, 40);
    BYTES(d.sent, "abcdefghijklmnopqrstuvwxyzABCDEFGHIJKLMN");
    IS(d.registers[IER] & U16550_IER_THR_EMPTY, 0);
    OK(u16550_ring_transmit_len(&uart, &count));
    IS(count, 0);
    OK(u16550_ring_is_paused(&uart, &value));
    IS(value, 0);
    device_arrive(&d, fifty);
    OK(u16550_ring_service(&uart, &count));
    IS(count, 2);
    OK(u16550_ring_receive_len(&uart, &count));
    IS(count, 24);
    OK(u16550_ring_is_paused(&uart, &value));
    IS(value, 1);
    OK(u16550_ring_take(&uart, slots, 10, &count));
    IS(count, 10);
    BYTES(slots, "abcdefghij");
    OK(u16550_ring_is_paused(&uart, &value));
    IS(value, 0);
    OK(u16550_ring_take(&uart, slots, sizeof slots, &count));
    IS(count, 14);
    BYTES(slots, "klmnopqrstuvwx");
    d.arrived_len = 0;
    d.errors = U16550_LSR_OVERRUN_ERROR;
    d.registers[MSR] |= U16550_MSR_DELTA_DSR;
    OK(u16550_ring_service(&uart, &count));
    IS(count, 2);
    OK(u16550_ring_take_line(&uart, &value));
    IS(value, 0x60 | U16550_LSR_OVERRUN_ERROR);
    OK(u16550_ring_take_line(&uart, &value));
    IS(value, 0x60);
    OK(u16550_ring_take_modem(&uart, &value));
    IS(value, U16550_MSR_CTS | U16550_MSR_DSR | U16550_MSR_DELTA_DSR);
    OK(u16550_ring_take_modem(&uart, &value));
    IS(value, U16550_MSR_CTS | U16550_MSR_DSR);
    OK(u16550_write_text(&uart, "t\n", 2, NULL));
    IS(d.sent_len, 43);
    IS(u16550_ring_new(&uart, memory, sizeof memory, 40, 24), U16550_HAS_RINGS);
    IS(u16550_ring_new(&uart, NULL, 1, 40, 24), U16550_HAS_RINGS);
    IS(u16550_ring_new(&uart, memory, SIZE_MAX, 40, 24), U16550_HAS_RINGS);
    OK(u16550_ring_resume_transmit(&uart));
    d.is_stuck = 1;
    OK(u16550_ring_queue(&uart, (const uint8_t *)"vw", 2, &count));
    d.is_stuck = 0;
    IS(d.sent_len, 43);
    OK(u16550_ring_resume_transmit(&uart));
    BYTES(d.sent + 43, "vw");
    OK(u16550_ring_end(&uart));
    IS(u16550_ring_end(&uart), U16550_NO_RINGS);
    OK(u16550_try_send_byte(&uart, 'u'));
    BYTES(d.sent + 40, "t\r\nvwu");
}

/* The ends of a handler's call, and that the interrupt line was low before each. */
static void handling(void)
{
    struct u16550_handled handled = { 9, 9 };
    size_t count;
    rings_ready();
    d.falls = 0;
    OK(u16550_ring_handle(&uart, 4, &handled));
    IS(handled.served, 0);
    IS(handled.end, U16550_HANDLE_IDLE);
    IS(d.falls, 0);
    device_arrive(&d, "abc");
    OK(u16550_ring_handle(&uart, 4, &handled));
    IS(handled.served, 1);
    IS(handled.end, U16550_HANDLE_IDLE);
    IS(d.falls, 0);
    device_arrive(&d, "0123456789abcdef01");
    OK(u16550_ring_handle(&uart, 1, &handled));
    IS(handled.served, 1);
    IS(handled.end, U16550_HANDLE_LIMIT);
    IS(d.falls, 1);
    OK(u16550_ring_handle(&uart, 0, &handled));
    IS(handled.served, 0);
    IS(handled.end, U16550_HANDLE_LIMIT);
    IS(d.falls, 2);
    OK(u16550_ring_receive_len(&uart, &count));
    IS(count, 19);
    d.shows = 0x08; /* no interrupt has this code */
    OK(u16550_ring_handle(&uart, SIZE_MAX, &handled));
    IS(handled.served, 0);
    IS(handled.end, U16550_HANDLE_UNKNOWN);
    IS(d.falls, 3);
    d.shows = SHOWS_WHAT_IS;
    OK(u16550_ring_retrigger(&uart));
    IS(d.falls, 4);
    IS(d.registers[IER], config.interrupts);
    OK(u16550_ring_handle(&uart, SIZE_MAX, &handled));
    IS(handled.served, 1);
    IS(handled.end, U16550_HANDLE_IDLE);
}

/* What an operating system tells the transmit ring. */
static void telling(void)
{
    struct u16550_urgent urgent = { 9, 9 };
    size_t count = 99;
    uint8_t value = 9;
    rings_ready();
    OK(u16550_ring_set_low_mark(&uart, 8));
    OK(u16550_ring_queue(&uart, (const uint8_t *)"abcdefghijklmnopqrstuvwxyz", 26, &count));
    IS(d.sent_len, 16);
    OK(u16550_ring_transmit_room(&uart, &count));
    IS(count, 30);
    OK(u16550_ring_hold_transmit(&uart));
    OK(u16550_ring_is_held(&uart, &value));
    IS(value, 1);
    OK(u16550_ring_service(&uart, &count));
    IS(d.sent_len, 16);
    IS(d.registers[IER], config.interrupts);
    OK(u16550_ring_queue_urgent(&uart, 0x13, &urgent));
    IS(urgent.waits, 0);
    IS(urgent.byte, 0);
    IS(d.sent_len, 17);
    BYTES(d.sent + 16, "\x13");
    d.is_stuck = 1;
    OK(u16550_ring_queue_urgent(&uart, 0x11, &urgent));
    OK(u16550_ring_urgent(&uart, &urgent));
    IS(urgent.waits, 1);
    IS(urgent.byte, 0x11);
    urgent.waits = urgent.byte = 0;
    OK(u16550_ring_queue_urgent(&uart, 0x12, &urgent));
    IS(urgent.waits, 1);
    IS(urgent.byte, 0x11);
    d.is_stuck = 0;
    OK(u16550_ring_take_low(&uart, &value));
    IS(value, 0);
    OK(u16550_ring_release_transmit(&uart));
    OK(u16550_ring_is_held(&uart, &value));
    IS(value, 0);
    BYTES(d.sent + 17, "\x12qrstuvwxyz");
    OK(u16550_ring_take_low(&uart, &value));
    IS(value, 1);
    OK(u16550_ring_take_low(&uart, &value));
    IS(value, 0);
    d.is_stuck = 1;
    OK(u16550_ring_queue(&uart, (const uint8_t *)"123456789", 9, &count));
    OK(u16550_ring_clear_transmit(&uart, &count));
    IS(count, 9);
    OK(u16550_ring_take_low(&uart, &value));
    IS(value, 1);
    d.is_stuck = 0;
    device_arrive(&d, "0123456789abcdef0123456789");
    OK(u16550_ring_service(&uart, &count));
    OK(u16550_ring_is_paused(&uart, &value));
    IS(value, 1);
    OK(u16550_ring_clear_receive(&uart, &count));
    IS(count, 24);
    OK(u16550_ring_is_paused(&uart, &value));
    IS(value, 0);
    OK(u16550_ring_clear_receive(&uart, &count));
    IS(count, 0);
}

/* RTS follows the room for 24 received bytes. */
static void pacing(void)
{
    enum { WITH_RTS = 0x0b, WITHOUT_RTS = 0x09 };
    size_t count = 99;
    uint8_t slots[24];
    rings_ready();
    OK(u16550_ring_adjust_rts(&uart, 10, 20));
    IS(d.registers[MCR], WITH_RTS);
    device_arrive(&d, "0123456789abcd");
    OK(u16550_ring_service(&uart, &count));
    OK(u16550_ring_adjust_rts(&uart, 10, 20)); /* room for 10 */
    IS(d.registers[MCR], WITH_RTS);
    device_arrive(&d, "e");
    OK(u16550_ring_service(&uart, &count));
    OK(u16550_ring_adjust_rts(&uart, 10, 20));
    IS(d.registers[MCR], WITHOUT_RTS);
    OK(u16550_ring_take(&uart, slots, 10, &count));
    OK(u16550_ring_adjust_rts(&uart, 10, 20)); /* room for 19 */
    IS(d.registers[MCR], WITHOUT_RTS);
    OK(u16550_ring_take(&uart, slots, 1, &count));
    OK(u16550_ring_adjust_rts(&uart, 10, 20));
    IS(d.registers[MCR], WITH_RTS);
}

/* XOFF and XON follow the room for 24 received bytes. */
static void stopping(void)
{
    enum { XON = 0x11, XOFF = 0x13 };
    struct u16550_urgent told = { 9, 9 };
    size_t count = 99;
    uint8_t slots[24];
    rings_ready();
    OK(u16550_ring_adjust_xoff(&uart, 10, 20, &told));
    IS(told.waits, 0);
    device_arrive(&d, "0123456789abcde");
    OK(u16550_ring_service(&uart, &count));
    OK(u16550_ring_adjust_xoff(&uart, 10, 20, &told));
    IS(told.waits, 1);
    IS(told.byte, XOFF);
    OK(u16550_ring_adjust_xoff(&uart, 10, 20, &told));
    IS(told.waits, 0);
    OK(u16550_ring_take(&uart, slots, 11, &count));
    OK(u16550_ring_adjust_xoff(&uart, 10, 20, &told));
    IS(told.waits, 1);
    IS(told.byte, XON);
}

/* XOFF and XON among what arrives hold what is queued, and let it go on. */
static void obeying(void)
{
    enum { XON = 0x11, XOFF = 0x13 };
    struct u16550_urgent told = { 9, 9 };
    size_t count = 99;
    uint8_t slots[24], value = 9;
    rings_ready();
    OK(u16550_ring_obey_xoff(&uart, &told));
    IS(told.waits, 0);
    device_arrive(&d, "a\023b");
    OK(u16550_ring_service(&uart, &count));
    OK(u16550_ring_obey_xoff(&uart, &told));
    IS(told.waits, 1);
    IS(told.byte, XOFF);
    OK(u16550_ring_is_held(&uart, &value));
    IS(value, 1);
    OK(u16550_ring_queue(&uart, (const uint8_t *)"x", 1, &count));
    OK(u16550_ring_transmit_len(&uart, &count));
    IS(count, 1);
    device_arrive(&d, "\023\021");
    OK(u16550_ring_service(&uart, &count));
    OK(u16550_ring_obey_xoff(&uart, &told));
    IS(told.waits, 1);
    IS(told.byte, XON);
    OK(u16550_ring_transmit_len(&uart, &count));
    IS(count, 0);
    OK(u16550_ring_take(&uart, slots, 24, &count));
    IS(count, 5);
    BYTES(slots, "a\023b\023\021");
}

/* A chip that shows interrupts for ever. */
static void storms(void)
{
    struct u16550_handled handled = { 9, 9 };
    struct u16550_stuck stuck = { 9, 9 };
    size_t count;
    rings_ready();
    OK(u16550_ring_stuck(&uart, &stuck));
    IS(stuck.is_stuck, 0);
    IS(stuck.isr, 0);
    OK(u16550_ring_try_handle(&uart, 4, 2, &handled));
    IS(handled.served, 0);
    IS(handled.end, U16550_HANDLE_IDLE);
    d.shows = 0xc8;
    OK(u16550_ring_try_handle(&uart, 4, 2, &handled));
    IS(handled.end, U16550_HANDLE_UNKNOWN);
    IS(u16550_ring_try_handle(&uart, 4, 2, &handled), U16550_RING_STUCK_UNKNOWN);
    IS(d.registers[IER], 0);
    OK(u16550_ring_stuck(&uart, &stuck));
    IS(stuck.is_stuck, 1);
    IS(stuck.isr, 0x08);
    OK(u16550_ring_queue(&uart, (const uint8_t *)"ab", 2, &count));
    IS(count, 2);
    IS(d.sent_len, 0);
    d.registers[IER] = 1;
    IS(u16550_ring_try_handle(&uart, 4, 2, &handled), U16550_RING_STUCK_UNKNOWN);
    IS(d.registers[IER], 0);
    OK(u16550_ring_restart(&uart, config.interrupts));
    IS(d.registers[IER], config.interrupts);
    BYTES(d.sent, "ab");
    d.shows = 0xcc;
    IS(u16550_ring_try_handle(&uart, 4, 0, &handled), U16550_RING_STUCK_PENDING);
    OK(u16550_ring_stuck(&uart, &stuck));
    IS(stuck.isr, 0x0c);
    d.shows = SHOWS_WHAT_IS;
    OK(u16550_ring_restart(&uart, 0));
    OK(u16550_ring_stuck(&uart, &stuck));
    IS(stuck.is_stuck, 0);
    IS(strcmp(u16550_text(U16550_RING_STUCK_PENDING), "an interrupt does not go away"), 0);
}

/* ---- two ports on one line */

static struct device other_device;
static struct u16550 other;
static struct u16550_line_port line_ports[2];
static uint8_t other_memory[64];
static unsigned lows; /* at how many instants of a call the common line was low */

static void look_at_line(struct device *device)
{
    (void)device;
    lows += !device_is_interrupting(&d) && !device_is_interrupting(&other_device);
}

static void line_ready(void)
{
    struct u16550_io io;
    rings_ready();
    other_device = device_new();
    io = device_io(&other_device);
    memset(&other, 0, sizeof other);
    OK(u16550_new(&other, &io));
    OK(u16550_ring_new(&other, other_memory, sizeof other_memory, 40, 24));
    OK(u16550_init(&other, &config));
    memset(line_ports, 0, sizeof line_ports);
    line_ports[0].uart = &uart;
    line_ports[1].uart = &other;
}

/* Each port is served, and keeps its interrupts. */
static void shared_line(void)
{
    uint8_t served = 9;
    line_ready();
    IS(sizeof(struct u16550_line_port), 3 * sizeof(void *) + 2 * sizeof(int));
    IS(offsetof(struct u16550_line_port, handled), sizeof(void *));
    IS(offsetof(struct u16550_line_port, status), 3 * sizeof(void *));
    OK(u16550_line_handle(line_ports, 2, 4, 2, &served));
    IS(served, 0);
    device_arrive(&d, "a");
    device_arrive(&other_device, "bc");
    d.falls = other_device.falls = 0;
    OK(u16550_line_handle(line_ports, 2, 4, 2, &served));
    IS(served, 1);
    OK(line_ports[0].status);
    IS(line_ports[0].handled.served, 1);
    IS(line_ports[0].handled.end, U16550_HANDLE_IDLE);
    OK(line_ports[1].status);
    IS(line_ports[1].handled.served, 1);
    IS(d.falls, 1);
    IS(other_device.falls, 1);
    IS(d.registers[IER], config.interrupts);
    IS(other_device.registers[IER], config.interrupts);
    device_arrive(&other_device, "d");
    OK(u16550_line_handle(line_ports + 1, 1, 4, 2, &served));
    IS(served, 1);
    OK(u16550_line_handle(NULL, 0, 4, 2, &served));
    IS(served, 0);
}

/* Interrupts that nothing ends are pending at both ports before the call and after it, and in between the line is low. */
static void line_falls(void)
{
    uint8_t served;
    line_ready();
    d.shows = other_device.shows = RECEIVED_DATA;
    d.meanwhile = other_device.meanwhile = look_at_line;
    lows = 0;
    OK(u16550_line_handle(line_ports, 2, 4, 9, &served));
    IS(served, 1);
    IS(lows > 0, 1);
    IS(device_is_interrupting(&d) && device_is_interrupting(&other_device), 1);
    IS(line_ports[0].handled.end, U16550_HANDLE_LIMIT);
}

/* A chip that is stuck is off, and the other one is served. */
static void line_storm(void)
{
    struct u16550_stuck stuck;
    uint8_t served;
    line_ready();
    d.shows = 0xc8;
    device_arrive(&other_device, "e");
    OK(u16550_line_handle(line_ports, 2, 4, 1, &served));
    IS(served, 1);
    IS(line_ports[0].status, U16550_RING_STUCK_UNKNOWN);
    IS(line_ports[0].handled.served, 0);
    IS(d.registers[IER], 0);
    OK(line_ports[1].status);
    IS(line_ports[1].handled.served, 1);
    IS(other_device.registers[IER], config.interrupts);
    OK(u16550_ring_stuck(&uart, &stuck));
    IS(stuck.is_stuck, 1);
    d.shows = SHOWS_WHAT_IS;
    OK(u16550_ring_restart(&uart, config.interrupts));
    OK(u16550_line_handle(line_ports, 2, 4, 1, &served));
    OK(line_ports[0].status);
}

/* What is wrong with one port is wrong with the call, and none was accessed. */
static void line_misuses(void)
{
    uint8_t served = 9;
    struct u16550_line_port *crooked = (struct u16550_line_port *)((uint8_t *)line_ports + 1);
    line_ready();
    accesses = d.accesses;
    MISUSE(u16550_line_handle(line_ports, 2, 4, 1, NULL), U16550_NULL_POINTER);
    MISUSE(u16550_line_handle(NULL, 1, 4, 1, &served), U16550_NULL_POINTER);
    MISUSE(u16550_line_handle(crooked, 1, 4, 1, &served), U16550_MISALIGNED);
    MISUSE(u16550_line_handle(line_ports, SIZE_MAX, 4, 1, &served), U16550_BAD_LENGTH);
    line_ports[1].uart = NULL;
    MISUSE(u16550_line_handle(line_ports, 2, 4, 1, &served), U16550_NULL_POINTER);
    line_ports[1].uart = &other;
    OK(u16550_ring_end(&other));
    MISUSE(u16550_line_handle(line_ports, 2, 4, 1, &served), U16550_NO_RINGS);
    OK(u16550_end(&other));
    MISUSE(u16550_line_handle(line_ports, 2, 4, 1, &served), U16550_NOT_MADE);
    IS(served, 9);
}

/* A dump acknowledges THR_EMPTY, and sends what the handler would have sent then. */
static void ring_dump(void)
{
    static const char forty[] = "abcdefghijklmnopqrstuvwxyzABCDEFGHIJKLMN";
    struct u16550_dump dump;
    size_t count;
    rings_ready();
    OK(u16550_ring_queue(&uart, (const uint8_t *)forty, 40, &count));
    IS(count, 40);
    IS(d.sent_len, 16);
    OK(u16550_ring_config_register_dump(&uart, &dump));
    IS(dump.ier & U16550_IER_THR_EMPTY, U16550_IER_THR_EMPTY);
    IS(d.sent_len, 32);
    BYTES(d.sent, "abcdefghijklmnopqrstuvwxyzABCDEF");
    OK(u16550_ring_transmit_len(&uart, &count));
    IS(count, 8);
}

/* ---- rings whose driver notes errors */

static struct u16550_notes notes;
static uint8_t noted[24];

static void notes_ready(void)
{
    anew();
    OK(u16550_note_errors(&uart, &notes, noted, sizeof noted));
    OK(u16550_ring_new(&uart, memory, sizeof memory, 40, 24));
    config.interrupts = U16550_IER_DATA_READY | U16550_IER_RECEIVER_LINE_STATUS;
    OK(u16550_init(&uart, &config));
}

/* These bytes arrive, the first one with these errors, and the handler comes. */
static void received_with(const char *arrived, uint8_t errors)
{
    size_t count;
    device_arrive(&d, arrived);
    d.errors = errors;
    OK(u16550_ring_service(&uart, &count));
}

static void taking_with_errors(void)
{
    struct u16550_received slots[24];
    size_t count = 99;
    uint8_t value, byte;
    memset(slots, '-', sizeof slots);
    notes_ready();
    received_with("ab", U16550_LSR_BREAK_INTERRUPT | U16550_LSR_FIFO_DATA_ERROR);
    received_with("c", U16550_LSR_OVERRUN_ERROR | U16550_LSR_PARITY_ERROR);
    accesses = d.accesses;
    MISUSE(u16550_ring_take_with_errors(&uart, slots, 2, &count), U16550_OK);
    IS(count, 2);
    IS(slots[0].byte, 'a');
    IS(slots[0].errors, U16550_LSR_BREAK_INTERRUPT);
    IS(slots[1].byte, 'b');
    IS(slots[1].errors, 0);
    IS(slots[2].byte, '-');
    received_with("de", U16550_LSR_FRAMING_ERROR);
    OK(u16550_ring_take(&uart, &byte, 1, &count));
    IS(byte, 'c');
    OK(u16550_ring_take_with_errors(&uart, slots, 24, &count));
    IS(count, 2);
    IS(slots[0].byte, 'd');
    IS(slots[0].errors, U16550_LSR_FRAMING_ERROR);
    IS(slots[1].byte, 'e');
    IS(slots[1].errors, 0);
    OK(u16550_ring_take_with_errors(&uart, slots, 24, &count));
    IS(count, 0);
    OK(u16550_ring_take_line(&uart, &value));
    IS(value, 0x60 | U16550_LSR_BREAK_INTERRUPT | U16550_LSR_OVERRUN_ERROR | U16550_LSR_PARITY_ERROR | U16550_LSR_FRAMING_ERROR);
    /* A full ring pauses, until a byte is taken. */
    received_with("abcdefghijklmnopqrstuvwx", U16550_LSR_PARITY_ERROR);
    OK(u16550_ring_is_paused(&uart, &value));
    IS(value, 1);
    OK(u16550_ring_take_with_errors(&uart, NULL, 0, &count));
    IS(count, 0);
    OK(u16550_ring_is_paused(&uart, &value));
    IS(value, 1);
    OK(u16550_ring_take_with_errors(&uart, slots, 3, &count));
    IS(count, 3);
    IS(slots[0].errors, U16550_LSR_PARITY_ERROR);
    IS(slots[2].byte, 'c');
    IS(slots[2].errors, 0);
    OK(u16550_ring_is_paused(&uart, &value));
    IS(value, 0);
    IS(d.registers[IER] & U16550_IER_DATA_READY, U16550_IER_DATA_READY);
    /* An overrun of before an init is at no byte. */
    OK(u16550_ring_clear_receive(&uart, &count));
    d.errors = U16550_LSR_OVERRUN_ERROR;
    OK(u16550_init(&uart, &config));
    received_with("y", U16550_LSR_OVERRUN_ERROR);
    OK(u16550_ring_take_with_errors(&uart, slots, 24, &count));
    IS(count, 1);
    IS(slots[0].errors, U16550_LSR_OVERRUN_ERROR);
    d.errors = U16550_LSR_OVERRUN_ERROR;
    OK(u16550_init(&uart, &config));
    received_with("z", 0);
    OK(u16550_ring_take_with_errors(&uart, slots, 24, &count));
    IS(count, 1);
    IS(slots[0].byte, 'z');
    IS(slots[0].errors, 0);
}

/* Bytes of before the notes were made have none. */
static void bytes_without_a_note(void)
{
    struct u16550_received slots[8];
    uint8_t bytes_of[3];
    size_t count;
    memset(slots, '-', sizeof slots);
    rings_ready();
    received_with("xyz", U16550_LSR_PARITY_ERROR);
    OK(u16550_note_errors(&uart, &notes, noted, sizeof noted));
    received_with("w", U16550_LSR_FRAMING_ERROR);
    accesses = d.accesses;
    count = 99;
    MISUSE(u16550_ring_take_with_errors(&uart, slots, 8, &count), U16550_RING_UNNOTED);
    IS(count, 3);
    IS(slots[0].byte, '-');
    count = 99;
    MISUSE(u16550_ring_take_with_errors(&uart, NULL, 0, &count), U16550_RING_UNNOTED);
    IS(count, 3);
    OK(u16550_ring_receive_len(&uart, &count));
    IS(count, 4);
    OK(u16550_ring_take(&uart, bytes_of, 3, &count));
    BYTES(bytes_of, "xyz");
    OK(u16550_ring_take_with_errors(&uart, slots, 8, &count));
    IS(count, 1);
    IS(slots[0].byte, 'w');
    IS(slots[0].errors, U16550_LSR_FRAMING_ERROR);
    /* Notes that have room for fewer bytes than the ring. */
    OK(u16550_end_notes(&uart));
    OK(u16550_note_errors(&uart, &notes, noted, 2));
    received_with("123", U16550_LSR_PARITY_ERROR);
    IS(u16550_ring_take_with_errors(&uart, slots, 8, &count), U16550_RING_UNNOTED);
    IS(count, 1);
    OK(u16550_ring_take(&uart, bytes_of, 1, &count));
    OK(u16550_ring_take_with_errors(&uart, slots, 8, &count));
    IS(count, 2);
    IS(slots[0].byte, '2');
}

/* Where the notes lie, and which calls are refused. */
static void notes_between(void)
{
    static struct u16550_design_ware design_ware;
    static uint8_t large[4097];
    static uint64_t room[sizeof(struct u16550_notes) / 8 + 1];
    struct u16550_notes *crooked = (struct u16550_notes *)((uint8_t *)room + 2);
    struct u16550_received slot;
    struct u16550_io io, found;
    volatile uintptr_t top = UINTPTR_MAX;
    const uintptr_t last = top;
    size_t count;
    uint8_t value;
    anew();
    io = device_io(&d);
    MISUSE(u16550_note_errors(&uart, NULL, noted, 1), U16550_NULL_POINTER);
    MISUSE(u16550_note_errors(&uart, crooked, noted, 1), U16550_MISALIGNED);
    MISUSE(u16550_note_errors(&uart, &notes, NULL, 1), U16550_NULL_POINTER);
    MISUSE(u16550_note_errors(&uart, &notes, (uint8_t *)(last - 1), 2), U16550_BAD_LENGTH);
    MISUSE(u16550_note_errors(&uart, &notes, noted, SIZE_MAX), U16550_BAD_LENGTH);
    MISUSE(u16550_note_errors(&uart, &notes, NULL, 0), U16550_RING_BAD_CAPACITY);
    MISUSE(u16550_note_errors(&uart, &notes, large, 4097), U16550_RING_BAD_CAPACITY);
    MISUSE(u16550_end_notes(&uart), U16550_NO_NOTES);
    MISUSE(u16550_ring_take_with_errors(&uart, &slot, 1, &count), U16550_NO_RINGS);
    OK(u16550_ring_new(&uart, memory, sizeof memory, 1, 1));
    MISUSE(u16550_ring_take_with_errors(&uart, &slot, 1, &count), U16550_NO_NOTES);
    MISUSE(u16550_ring_take_with_errors(&uart, NULL, 1, &count), U16550_NO_NOTES);
    MISUSE(u16550_note_errors(&uart, &notes, large, 4096), U16550_OK);
    MISUSE(u16550_note_errors(&uart, &notes, noted, 1), U16550_HAS_NOTES);
    MISUSE(u16550_note_errors(&uart, &notes, NULL, 1), U16550_HAS_NOTES);
    MISUSE(u16550_note_errors(&uart, NULL, noted, 1), U16550_NULL_POINTER);
    MISUSE(u16550_ring_take_with_errors(&uart, NULL, 1, &count), U16550_NULL_POINTER);
    MISUSE(u16550_ring_take_with_errors(&uart, &slot, 1, NULL), U16550_NULL_POINTER);
    MISUSE(u16550_ring_take_with_errors(&uart, &slot, SIZE_MAX / 4 + 1, &count), U16550_BAD_LENGTH);
    MISUSE(u16550_ring_end(&uart), U16550_OK);
    /* The functions of the library may be given back to it, and the notes stay. */
    OK(u16550_get_io(&uart, &found));
    IS(found.read == io.read, 0);
    OK(u16550_set_io(&uart, &found));
    IS(u16550_note_errors(&uart, &notes, noted, 1), U16550_HAS_NOTES);
    OK(u16550_end_notes(&uart));
    OK(u16550_get_io(&uart, &found));
    IS(found.read == io.read && found.write == io.write && found.context == io.context, 1);
    /* Where the registers are stays as it was. */
    d.base = 0x1000;
    d.stride = 4;
    OK(u16550_new_mmio(&uart, &io, 0x1000, 4));
    OK(u16550_note_errors(&uart, &notes, noted, 1));
    d.registers[SPR] = 0x5a;
    OK(u16550_spr(&uart, &value));
    IS(value, 0x5a);
    OK(u16550_end_notes(&uart));
    d.registers[SPR] = 0xa5;
    OK(u16550_spr(&uart, &value));
    IS(value, 0xa5);
    OK(u16550_new_design_ware(&uart, &design_ware, &io, 1));
    OK(u16550_note_errors(&uart, &notes, noted, 1));
    IS(u16550_design_ware_fault(&uart, &design_ware), U16550_NOT_MADE);
    OK(u16550_end_notes(&uart));
    OK(u16550_design_ware_fault(&uart, &design_ware));
    /* A driver that is made in its place notes nothing. */
    OK(u16550_note_errors(&uart, &notes, noted, 1));
    OK(u16550_new(&uart, &io));
    IS(u16550_end_notes(&uart), U16550_NO_NOTES);
}

static void ring_errors(void)
{
    struct u16550_dump dump;
    struct u16550_handled handled;
    struct u16550_urgent urgent;
    struct u16550_stuck stuck;
    size_t count;
    uint8_t value;
    anew();
    IS(u16550_ring_new(&uart, memory, sizeof memory, 0, 1), U16550_RING_BAD_CAPACITY);
    IS(u16550_ring_new(&uart, memory, sizeof memory, 1, 0), U16550_RING_BAD_CAPACITY);
    IS(u16550_ring_new(&uart, memory, sizeof memory, 4097, 1), U16550_RING_BAD_CAPACITY);
    IS(u16550_ring_new(&uart, memory, sizeof memory, 1, 4097), U16550_RING_BAD_CAPACITY);
    IS(u16550_ring_new(&uart, memory, sizeof memory, 41, 24), U16550_RING_OUT_OF_MEMORY);
    IS(u16550_ring_new(&uart, memory, sizeof memory, 4096, 1), U16550_RING_OUT_OF_MEMORY);
    IS(u16550_ring_new(&uart, NULL, 0, 1, 1), U16550_RING_OUT_OF_MEMORY);
    MISUSE(u16550_ring_new(&uart, NULL, 1, 1, 1), U16550_NULL_POINTER);
    MISUSE(u16550_ring_end(&uart), U16550_NO_RINGS);
    MISUSE(u16550_ring_transmit_len(&uart, &count), U16550_NO_RINGS);
    MISUSE(u16550_ring_receive_len(&uart, &count), U16550_NO_RINGS);
    MISUSE(u16550_ring_is_paused(&uart, &value), U16550_NO_RINGS);
    MISUSE(u16550_ring_queue(&uart, &value, 1, &count), U16550_NO_RINGS);
    MISUSE(u16550_ring_take(&uart, &value, 1, &count), U16550_NO_RINGS);
    MISUSE(u16550_ring_service(&uart, &count), U16550_NO_RINGS);
    MISUSE(u16550_ring_handle(&uart, 1, &handled), U16550_NO_RINGS);
    MISUSE(u16550_ring_retrigger(&uart), U16550_NO_RINGS);
    MISUSE(u16550_ring_resume_transmit(&uart), U16550_NO_RINGS);
    MISUSE(u16550_ring_take_line(&uart, &value), U16550_NO_RINGS);
    MISUSE(u16550_ring_take_modem(&uart, &value), U16550_NO_RINGS);
    MISUSE(u16550_ring_transmit_room(&uart, &count), U16550_NO_RINGS);
    MISUSE(u16550_ring_hold_transmit(&uart), U16550_NO_RINGS);
    MISUSE(u16550_ring_release_transmit(&uart), U16550_NO_RINGS);
    MISUSE(u16550_ring_is_held(&uart, &value), U16550_NO_RINGS);
    MISUSE(u16550_ring_queue_urgent(&uart, 1, &urgent), U16550_NO_RINGS);
    MISUSE(u16550_ring_urgent(&uart, &urgent), U16550_NO_RINGS);
    MISUSE(u16550_ring_clear_transmit(&uart, &count), U16550_NO_RINGS);
    MISUSE(u16550_ring_clear_receive(&uart, &count), U16550_NO_RINGS);
    MISUSE(u16550_ring_set_low_mark(&uart, 1), U16550_NO_RINGS);
    MISUSE(u16550_ring_take_low(&uart, &value), U16550_NO_RINGS);
    MISUSE(u16550_ring_adjust_rts(&uart, 1, 2), U16550_NO_RINGS);
    MISUSE(u16550_ring_adjust_xoff(&uart, 1, 2, &urgent), U16550_NO_RINGS);
    MISUSE(u16550_ring_obey_xoff(&uart, &urgent), U16550_NO_RINGS);
    MISUSE(u16550_ring_try_handle(&uart, 1, 1, &handled), U16550_NO_RINGS);
    MISUSE(u16550_ring_stuck(&uart, &stuck), U16550_NO_RINGS);
    MISUSE(u16550_ring_restart(&uart, 1), U16550_NO_RINGS);
    MISUSE(u16550_ring_config_register_dump(&uart, &dump), U16550_NO_RINGS);
}

/* ---- a driver at a bus of two wires */

static struct u16550_bus bus;
static const struct u16550_direction by_rts = { U16550_DIRECTION_RTS, 1 }, by_dtr = { U16550_DIRECTION_DTR, 0 };

/* A bus whose transceiver sends while RTS is set, that receives. */
static void bus_ready(void)
{
    struct u16550_setup set_up = { 1, U16550_WAIT_LAST, 0 };
    anew();
    memset(&bus, 0x5a, sizeof bus);
    OK(u16550_direction_receiving(&by_rts, 0x0b, &set_up.outputs));
    IS(set_up.outputs, 0x09);
    OK(u16550_init_with(&uart, &config, &set_up));
    OK(u16550_set_spin_limit(&uart, 3));
    OK(u16550_bus_new(&bus, &uart, &by_rts));
}

static void at_a_bus(void)
{
    struct u16550_received received[2];
    uint8_t value = 9, slots[4];
    size_t count = 99;
    bus_ready();
    IS(u16550_ier(&uart, &value), U16550_NOT_MADE);
    IS(d.registers[MCR] & U16550_MCR_RTS, 0);
    OK(u16550_bus_is_sending(&bus, &value));
    IS(value, 0);
    accesses = d.accesses;
    MISUSE(u16550_bus_send_bytes(&bus, (const uint8_t *)"abc", 3, &count), U16550_BUS_NOT_SENDING);
    IS(count, 99);
    MISUSE(u16550_bus_send_bytes_exact(&bus, (const uint8_t *)"abc", 3, &count), U16550_BUS_NOT_SENDING);
    IS(count, 0);
    MISUSE(u16550_bus_send_bytes_exact(&bus, (const uint8_t *)"abc", 3, NULL), U16550_BUS_NOT_SENDING);
    OK(u16550_bus_start_sending(&bus));
    IS(d.registers[MCR] & U16550_MCR_RTS, U16550_MCR_RTS);
    OK(u16550_bus_is_sending(&bus, &value));
    IS(value, 1);
    OK(u16550_bus_send_bytes(&bus, (const uint8_t *)"abc", 3, &count));
    IS(count, 3);
    OK(u16550_bus_send_bytes_exact(&bus, (const uint8_t *)"0123456789abcdefgh", 18, &count));
    IS(count, 18);
    OK(u16550_bus_send_bytes_exact(&bus, (const uint8_t *)"z", 1, NULL));
    BYTES(d.sent, "abc0123456789abcdefghz");
    OK(u16550_bus_flush(&bus));
    OK(u16550_bus_is_idle(&bus, &value));
    IS(value, 1);
    /* It is given back only while the transmitter is empty. */
    d.is_stuck = 1;
    IS(u16550_bus_try_finish(&bus), U16550_BUS_BUSY);
    IS(d.registers[MCR] & U16550_MCR_RTS, U16550_MCR_RTS);
    IS(u16550_bus_flush(&bus), U16550_STALLED);
    IS(u16550_bus_send_bytes_exact(&bus, (const uint8_t *)"abc", 3, &count), U16550_STALLED);
    IS(count, 0);
    OK(u16550_bus_is_idle(&bus, &value));
    IS(value, 0);
    OK(u16550_bus_is_sending(&bus, &value));
    IS(value, 1);
    d.is_stuck = 0;
    OK(u16550_bus_try_finish(&bus));
    IS(d.registers[MCR] & U16550_MCR_RTS, 0);
    OK(u16550_bus_is_sending(&bus, &value));
    IS(value, 0);
    device_arrive(&d, "xyz");
    d.errors = U16550_LSR_PARITY_ERROR;
    OK(u16550_bus_receive_with_errors(&bus, received, 2, &count));
    IS(count, 2);
    IS(received[0].byte, 'x');
    IS(received[0].errors, U16550_LSR_PARITY_ERROR);
    IS(received[1].errors, 0);
    OK(u16550_bus_receive_bytes(&bus, slots, 4, &count));
    IS(count, 1);
    IS(slots[0], 'z');
    OK(u16550_bus_lsr(&bus, &value));
    IS(value, 0x60 | U16550_LSR_PARITY_ERROR);
    OK(u16550_bus_end(&bus, &uart));
    IS(u16550_bus_flush(&bus), U16550_NOT_MADE);
    OK(u16550_mcr(&uart, &value));
    IS(value, 0x09);
    /* By DTR, which is clear to send. */
    OK(u16550_bus_new(&bus, &uart, &by_dtr));
    IS(d.registers[MCR] & 3, U16550_MCR_DTR);
    OK(u16550_bus_start_sending(&bus));
    IS(d.registers[MCR] & 3, 0);
    OK(u16550_direction_receiving(&by_dtr, 0, &value));
    IS(value, U16550_MCR_DTR);
    /* A driver in the place of one that is there. */
    OK(u16550_bus_end(&bus, &uart));
    d.is_stuck = 1;
    IS(u16550_bus_new(&bus, &uart, &by_rts), U16550_BUS_BUSY);
    OK(u16550_lsr(&uart, &value));
    d.is_stuck = 0;
    OK(u16550_bus_new(&bus, &uart, &by_rts));
}

/* Each call over this memory is refused by this number, and makes no access. */
static void refused_at_bus(struct u16550_bus *at, int wanted)
{
    static struct u16550 zeros;
    struct u16550_received received;
    uint8_t value;
    size_t count;
    MISUSE(u16550_bus_end(at, &zeros), wanted);
    MISUSE(u16550_bus_start_sending(at), wanted);
    MISUSE(u16550_bus_try_finish(at), wanted);
    MISUSE(u16550_bus_is_sending(at, &value), wanted);
    MISUSE(u16550_bus_flush(at), wanted);
    MISUSE(u16550_bus_is_idle(at, &value), wanted);
    MISUSE(u16550_bus_send_bytes(at, &value, 0, &count), wanted);
    MISUSE(u16550_bus_send_bytes_exact(at, &value, 0, &count), wanted);
    MISUSE(u16550_bus_receive_bytes(at, &value, 1, &count), wanted);
    MISUSE(u16550_bus_receive_with_errors(at, &received, 1, &count), wanted);
    MISUSE(u16550_bus_lsr(at, &value), wanted);
}

static void call_all_at_bus(struct device *device)
{
    device->meanwhile = NULL;
    accesses = device->accesses;
    refused_at_bus(&bus, U16550_BUSY);
    MISUSE(u16550_bus_new(&bus, &uart, &by_rts), U16550_BUSY);
}

static void bus_misuses(void)
{
    static struct u16550_bus zeros;
    static uint64_t room[sizeof(struct u16550_bus) / 8 + 1];
    struct u16550_bus *crooked = (struct u16550_bus *)((uint8_t *)room + 4);
    static const struct u16550_direction other_line = { 2, 1 }, other_flag = { 0, 2 };
    struct u16550_received received;
    struct u16550_io io;
    uint8_t value;
    size_t count;
    anew();
    MISUSE(u16550_direction_receiving(NULL, 0, &value), U16550_NULL_POINTER);
    MISUSE(u16550_direction_receiving(&by_rts, 0, NULL), U16550_NULL_POINTER);
    MISUSE(u16550_direction_receiving(&other_line, 0, &value), U16550_BAD_CODE);
    MISUSE(u16550_direction_receiving(&other_flag, 0, &value), U16550_BAD_CODE);
    MISUSE(u16550_bus_new(NULL, &uart, &by_rts), U16550_NULL_POINTER);
    MISUSE(u16550_bus_new(crooked, &uart, &by_rts), U16550_MISALIGNED);
    MISUSE(u16550_bus_new(&zeros, NULL, &by_rts), U16550_NULL_POINTER);
    MISUSE(u16550_bus_new(&zeros, &uart, NULL), U16550_NULL_POINTER);
    MISUSE(u16550_bus_new(&zeros, &uart, &other_line), U16550_BAD_CODE);
    MISUSE(u16550_bus_new(&zeros, &uart, &other_flag), U16550_BAD_CODE);
    OK(u16550_ring_new(&uart, memory, sizeof memory, 1, 1));
    MISUSE(u16550_bus_new(&zeros, &uart, &by_rts), U16550_HAS_RINGS);
    MISUSE(u16550_bus_new(&zeros, &uart, NULL), U16550_HAS_RINGS);
    refused_at_bus(NULL, U16550_NULL_POINTER);
    refused_at_bus(crooked, U16550_MISALIGNED);
    refused_at_bus(&zeros, U16550_NOT_MADE);
    bus_ready();
    accesses = d.accesses;
    MISUSE(u16550_bus_new(&zeros, &uart, &by_rts), U16550_NOT_MADE);
    MISUSE(u16550_bus_end(&bus, NULL), U16550_NULL_POINTER);
    MISUSE(u16550_bus_is_sending(&bus, NULL), U16550_NULL_POINTER);
    MISUSE(u16550_bus_is_idle(&bus, NULL), U16550_NULL_POINTER);
    MISUSE(u16550_bus_lsr(&bus, NULL), U16550_NULL_POINTER);
    MISUSE(u16550_bus_send_bytes(&bus, NULL, 1, &count), U16550_NULL_POINTER);
    MISUSE(u16550_bus_send_bytes(&bus, &value, 1, NULL), U16550_NULL_POINTER);
    MISUSE(u16550_bus_send_bytes(&bus, &value, SIZE_MAX, &count), U16550_BAD_LENGTH);
    MISUSE(u16550_bus_send_bytes_exact(&bus, NULL, 1, &count), U16550_NULL_POINTER);
    MISUSE(u16550_bus_send_bytes_exact(&bus, &value, 1, (size_t *)((uint8_t *)room + 1)), U16550_MISALIGNED);
    MISUSE(u16550_bus_receive_bytes(&bus, NULL, 1, &count), U16550_NULL_POINTER);
    MISUSE(u16550_bus_receive_bytes(&bus, &value, 1, NULL), U16550_NULL_POINTER);
    MISUSE(u16550_bus_receive_with_errors(&bus, NULL, 1, &count), U16550_NULL_POINTER);
    MISUSE(u16550_bus_receive_with_errors(&bus, &received, 1, NULL), U16550_NULL_POINTER);
    d.meanwhile = call_all_at_bus;
    OK(u16550_bus_flush(&bus));
    d.meanwhile = call_all_at_bus;
    OK(u16550_bus_start_sending(&bus));
    /* While a bus is made in the place of another. */
    io = device_io(&d);
    OK(u16550_new(&other, &io));
    d.meanwhile = call_all_at_bus;
    OK(u16550_bus_new(&bus, &other, &by_rts));
    OK(u16550_bus_flush(&bus));
    IS(u16550_end(&other), U16550_NOT_MADE);
}

/* What the calls of the table take and give when they are refused. */
#define DRIVER u
#define BUFFER &byte
#define LEN 1
#define CONFIG &config
#define SETUP &setup
#define DUMP &dump
#define ON 1
#define BYTE 1
#define OUTPUTS 0
#define INTERRUPTS 1
#define CHARACTERS 4
#define FIFOS U16550_FIFOS_KEEP
#define FIFO_SIZE 16
#define URGENT &byte
#define FIRST &byte
#define FIRST_LEN 1
#define SECOND NULL
#define SECOND_LEN 0
#define SPIN_LIMIT 1
#define LIMIT 1
#define ROUNDS 1
#define MARK 1
#define HOLD 1
#define RELEASE 2
#define KEEP_WAITING is_before
#define CONTEXT NULL
#define BYTE_AT &byte
#define OTHER_BYTE_AT &byte
#define SHORT_AT &fifo_size
#define SIZE_AT &count
#define NUMBER_AT &limit
#define CONFIG_AT &config
#define STATE_AT &state
#define RECEIVED_AT &received
#define DUMP_AT &dump
#define URGENT_AT &urgent
#define HANDLED_AT &handled

/* Each call over this memory is refused by this number, and makes no access. `u` is the memory. */
static void refused(struct u16550 *u, int wanted)
{
    struct u16550_io io = device_io(&d);
    struct u16550_state state;
    struct u16550_dump dump;
    struct u16550_received received;
    struct u16550_handled handled;
    struct u16550_urgent urgent;
    struct u16550_stuck stuck;
    struct u16550_setup setup = { 1, U16550_WAIT_LAST, 0 };
    uint8_t byte;
    uint16_t fifo_size;
    uint64_t limit;
    size_t count;
#define REFUSED(name, ...) MISUSE(name(__VA_ARGS__), wanted);
    EACH_CALL(REFUSED, REFUSED)
    MISUSE(u16550_end(u), wanted);
    MISUSE(u16550_get_io(u, &io), wanted);
    MISUSE(u16550_set_io(u, &io), wanted);
    MISUSE(u16550_test_loopback(u, NULL), wanted);
    MISUSE(u16550_emergency(u), wanted);
    MISUSE(u16550_check_configured(u, 0, NULL), wanted);
    MISUSE(u16550_write_text(u, "t", 1, &count), wanted);
    MISUSE(u16550_write_raw_text(u, "t", 1, &count), wanted);
    MISUSE(u16550_ring_new(u, memory, sizeof memory, 1, 1), wanted);
    MISUSE(u16550_ring_end(u), wanted);
    MISUSE(u16550_ring_stuck(u, &stuck), wanted);
    MISUSE(u16550_note_errors(u, &notes, noted, 1), wanted);
    MISUSE(u16550_end_notes(u), wanted);
    MISUSE(u16550_ring_take_with_errors(u, &received, 1, &count), wanted);
}

static void misuses(void)
{
    static struct u16550 zeros;
    static uint64_t room[sizeof(struct u16550) / 8 + 1];
    struct u16550 *crooked = (struct u16550 *)((uint8_t *)room + 4);
    struct u16550_io io;
    anew();
    io = device_io(&d);
    refused(NULL, U16550_NULL_POINTER);
    refused(crooked, U16550_MISALIGNED);
    refused(&zeros, U16550_NOT_MADE);
    memset(&zeros, 0xff, sizeof zeros);
    refused(&zeros, U16550_NOT_MADE);
    OK(u16550_new(&zeros, &io));
    OK(u16550_end(&zeros));
    refused(&zeros, U16550_NOT_MADE);
    MISUSE(u16550_new(NULL, &io), U16550_NULL_POINTER);
    MISUSE(u16550_new(crooked, &io), U16550_MISALIGNED);
    MISUSE(u16550_new_port(NULL, &io, 0), U16550_NULL_POINTER);
    MISUSE(u16550_new_mmio(NULL, &io, 1, 1), U16550_NULL_POINTER);
}

/* Null in place of each other pointer. */
static void nulls(void)
{
    struct u16550_io io;
    struct u16550_dump dump = { 0, 0, 0, 0, 0, 0, 0, 0, 0 };
    uint8_t byte;
    uint16_t divisor;
    uint32_t rate;
    size_t count;
    const int null = U16550_NULL_POINTER;
    volatile uintptr_t top = UINTPTR_MAX;
    const uintptr_t last = top;
    anew();
    io = device_io(&d);
    MISUSE(u16550_new(&uart, NULL), null);
    MISUSE(u16550_new_port(&uart, NULL, 0), null);
    MISUSE(u16550_new_mmio(&uart, NULL, 1, 1), null);
    MISUSE(u16550_from_state(&uart, NULL, NULL), null);
    MISUSE(u16550_from_state(&uart, &io, NULL), null);
    MISUSE(u16550_default_config(NULL), null);
    MISUSE(u16550_get_io(&uart, NULL), null);
    MISUSE(u16550_set_io(&uart, NULL), null);
    MISUSE(u16550_get_config(&uart, NULL), null);
    MISUSE(u16550_get_state(&uart, NULL), null);
    MISUSE(u16550_fifo_enabled(&uart, NULL), null);
    MISUSE(u16550_spin_limit(&uart, NULL), null);
    MISUSE(u16550_fifo_size(&uart, NULL), null);
    MISUSE(u16550_check_present(&uart, NULL), null);
    MISUSE(u16550_init(&uart, NULL), null);
    MISUSE(u16550_try_receive_byte(&uart, NULL), null);
    MISUSE(u16550_receive_bytes(&uart, NULL, 1, &count), null);
    MISUSE(u16550_receive_bytes(&uart, &byte, 1, NULL), null);
    MISUSE(u16550_send_bytes(&uart, NULL, 1, &count), null);
    MISUSE(u16550_send_bytes(&uart, &byte, 1, NULL), null);
    MISUSE(u16550_find_fifo_size(&uart, NULL), null);
    MISUSE(u16550_enable_64_byte_fifos(&uart, NULL), null);
    MISUSE(u16550_send_burst(&uart, NULL, 1, 16, &count), null);
    MISUSE(u16550_send_burst(&uart, &byte, 1, 16, NULL), null);
    MISUSE(u16550_receive_bytes_exact(&uart, NULL, 1, &count), null);
    MISUSE(u16550_send_bytes_exact(&uart, NULL, 1, &count), null);
    MISUSE(u16550_flush_while(&uart, NULL, NULL), null);
    MISUSE(u16550_receive_bytes_while(&uart, NULL, 1, is_before, NULL, &count), null);
    MISUSE(u16550_receive_bytes_while(&uart, &byte, 1, NULL, NULL, &count), null);
    MISUSE(u16550_send_bytes_while(&uart, NULL, 1, is_before, NULL, &count), null);
    MISUSE(u16550_send_bytes_while(&uart, &byte, 1, NULL, NULL, &count), null);
    MISUSE(u16550_read(&uart, NULL, 1, &count), null);
    MISUSE(u16550_read(&uart, &byte, 1, NULL), null);
    MISUSE(u16550_write(&uart, NULL, 1, &count), null);
    MISUSE(u16550_write(&uart, &byte, 1, NULL), null);
    MISUSE(u16550_read_ready(&uart, NULL), null);
    MISUSE(u16550_write_ready(&uart, NULL), null);
    MISUSE(u16550_write_text(&uart, NULL, 1, &count), null);
    MISUSE(u16550_write_raw_text(&uart, NULL, 1, &count), null);
    MISUSE(u16550_ier(&uart, NULL), null);
    MISUSE(u16550_isr(&uart, NULL), null);
    MISUSE(u16550_lcr(&uart, NULL), null);
    MISUSE(u16550_mcr(&uart, NULL), null);
    MISUSE(u16550_lsr(&uart, NULL), null);
    MISUSE(u16550_msr(&uart, NULL), null);
    MISUSE(u16550_spr(&uart, NULL), null);
    MISUSE(u16550_dll_dlm(&uart, NULL, &byte), null);
    MISUSE(u16550_dll_dlm(&uart, &byte, NULL), null);
    MISUSE(u16550_config_register_dump(&uart, NULL), null);
    MISUSE(u16550_dump_divisor(NULL, &divisor), null);
    MISUSE(u16550_dump_divisor(&dump, NULL), null);
    MISUSE(u16550_dump_baud_rate(NULL, &config, &rate), null);
    MISUSE(u16550_dump_baud_rate(&dump, NULL, &rate), null);
    MISUSE(u16550_dump_baud_rate(&dump, &config, NULL), null);
    MISUSE(u16550_receive_bytes(&uart, &byte, SIZE_MAX / 2 + 1, &count), U16550_BAD_LENGTH);
    MISUSE(u16550_send_bytes(&uart, &byte, SIZE_MAX, &count), U16550_BAD_LENGTH);
    MISUSE(u16550_send_burst(&uart, &byte, SIZE_MAX, 16, &count), U16550_BAD_LENGTH);
    /* An array with the last address would end where no pointer can point to. */
    MISUSE(u16550_send_bytes(&uart, (const uint8_t *)(last - 3), 4, &count), U16550_BAD_LENGTH);
    MISUSE(u16550_receive_bytes(&uart, (uint8_t *)last, 1, &count), U16550_BAD_LENGTH);
    MISUSE(u16550_ring_new(&uart, (uint8_t *)(last - 1), 2, 1, 1), U16550_BAD_LENGTH);
    OK(u16550_ring_new(&uart, memory, sizeof memory, 1, 1));
    MISUSE(u16550_ring_transmit_len(&uart, NULL), null);
    MISUSE(u16550_ring_receive_len(&uart, NULL), null);
    MISUSE(u16550_ring_is_paused(&uart, NULL), null);
    MISUSE(u16550_ring_queue(&uart, NULL, 1, &count), null);
    MISUSE(u16550_ring_queue(&uart, &byte, 1, NULL), null);
    MISUSE(u16550_ring_take(&uart, NULL, 1, &count), null);
    MISUSE(u16550_ring_take(&uart, &byte, 1, NULL), null);
    MISUSE(u16550_ring_service(&uart, NULL), null);
    MISUSE(u16550_ring_handle(&uart, 1, NULL), null);
    MISUSE(u16550_ring_take_line(&uart, NULL), null);
    MISUSE(u16550_ring_take_modem(&uart, NULL), null);
    MISUSE(u16550_ring_config_register_dump(&uart, NULL), null);
    MISUSE(u16550_ring_transmit_room(&uart, NULL), null);
    MISUSE(u16550_ring_is_held(&uart, NULL), null);
    MISUSE(u16550_ring_queue_urgent(&uart, 1, NULL), null);
    MISUSE(u16550_ring_urgent(&uart, NULL), null);
    MISUSE(u16550_ring_adjust_xoff(&uart, 1, 2, NULL), null);
    MISUSE(u16550_ring_obey_xoff(&uart, NULL), null);
    MISUSE(u16550_ring_clear_transmit(&uart, NULL), null);
    MISUSE(u16550_ring_clear_receive(&uart, NULL), null);
    MISUSE(u16550_ring_take_low(&uart, NULL), null);
    MISUSE(u16550_ring_try_handle(&uart, 1, 1, NULL), null);
    MISUSE(u16550_ring_stuck(&uart, NULL), null);
}

/* Each constructor over the memory of a driver is refused by this number. */
static void not_made(struct u16550 *u, int wanted)
{
    struct u16550_io io = device_io(&d);
    struct u16550_state state;
    memset(&state, 0, sizeof state);
    MISUSE(u16550_new(u, &io), wanted);
    MISUSE(u16550_new_port(u, &io, 0), wanted);
    MISUSE(u16550_new_port(u, &io, UINT16_MAX), wanted);
    MISUSE(u16550_new_mmio(u, &io, 1, 1), wanted);
    MISUSE(u16550_new_mmio(u, &io, 0, 0), wanted);
    MISUSE(u16550_new_mmio_wide(u, 0, NULL), wanted);
    MISUSE(u16550_from_state(u, &io, &state), wanted);
}

static struct u16550 copy;

/* In the middle of a call, at its first access: each call over the driver is refused. */
static void call_all(struct device *device)
{
    device->meanwhile = NULL;
    accesses = device->accesses;
    copy = uart;
    refused(&uart, U16550_BUSY);
    not_made(&uart, U16550_BUSY);
}

/* Callbacks that call the same driver, at each kind of call that makes accesses. */
static void reentry(void)
{
    static const char ten[] = "0123456789";
    struct u16550_io io;
    uint8_t value, slots[10], *heap;
    size_t count;
    ready();
    d.meanwhile = call_all;
    OK(u16550_ier(&uart, &value));
    d.meanwhile = call_all;
    OK(u16550_init(&uart, &config));
    d.meanwhile = call_all;
    OK(u16550_test_loopback(&uart, NULL));
    d.meanwhile = call_all;
    OK(u16550_write_text(&uart, "t", 1, NULL));
    BYTES(d.sent, "t");
    /* Rings in memory of their own, whose ends a sanitiser sees. */
    ready();
    heap = (uint8_t *)malloc(20);
    if (heap == NULL)
        abort();
    OK(u16550_ring_new(&uart, heap, 20, 10, 10));
    d.is_stuck = 1;
    d.meanwhile = call_all;
    OK(u16550_ring_queue(&uart, (const uint8_t *)ten, 10, &count));
    IS(count, 10);
    d.is_stuck = 0;
    d.meanwhile = call_all;
    OK(u16550_ring_resume_transmit(&uart));
    BYTES(d.sent, "0123456789");
    OK(u16550_enable_interrupts(&uart, U16550_IER_DATA_READY));
    device_arrive(&d, ten);
    d.meanwhile = call_all;
    OK(u16550_ring_service(&uart, &count));
    OK(u16550_ring_take(&uart, slots, 10, &count));
    IS(count, 10);
    BYTES(slots, "0123456789");
    free(heap);
    notes_ready();
    d.meanwhile = call_all;
    OK(u16550_init(&uart, &config));
    received_with(ten, 0);
    d.meanwhile = call_all;
    OK(u16550_ier(&uart, &value));
    /* Between two calls a constructor replaces what is there. */
    io = device_io(&d);
    OK(u16550_new(&uart, &io));
    IS(u16550_ring_end(&uart), U16550_NO_RINGS);
}

/* Memory in which a call was left is free again once it is zero. */
static void left_calls(void)
{
    struct u16550_io io;
    uint8_t value;
    ready();
    io = device_io(&d);
    d.meanwhile = call_all;
    OK(u16550_ier(&uart, &value));
    accesses = d.accesses;
    refused(&copy, U16550_BUSY);
    not_made(&copy, U16550_BUSY);
    memset(&copy, 0, sizeof copy);
    refused(&copy, U16550_NOT_MADE);
    OK(u16550_new(&copy, &io));
    OK(u16550_try_send_byte(&copy, 'z'));
    BYTES(d.sent, "z");
}

/* ---- last words, after a call that stopped at any of its accesses and is never done */

enum { SET_BREAK = 0x40 };

static jmp_buf stopped;
static unsigned accesses_left;

static void stop_here(struct device *device)
{
    (void)device;
    if (accesses_left-- == 0)
        longjmp(stopped, 1);
}

static void send_all(void)
{
    size_t count;
    u16550_send_bytes(&uart, (const uint8_t *)"sent", 4, &count);
}
static void init_again(void) { u16550_init(&uart, &config); }
static void other_frame(void)
{
    struct u16550_config other = config;
    other.baud_rate = 38400;
    u16550_set_frame(&uart, &other);
}
static void look_at_latch(void)
{
    uint8_t dll, dlm;
    u16550_dll_dlm(&uart, &dll, &dlm);
}
static void loop_back(void) { u16550_test_loopback(&uart, NULL); }

/* Stops the call behind this access. Returns 0 if it makes no more accesses. */
static int stops_at(void (*call)(void), unsigned access)
{
    ready();
    OK(u16550_set_break(&uart, access % 2));
    accesses_left = access;
    d.meanwhile = stop_here;
    if (setjmp(stopped) == 0) {
        call();
        d.meanwhile = NULL;
        return 0;
    }
    d.meanwhile = NULL;
    return 1;
}

static void emergency(void)
{
    static void (*const calls[])(void) = { send_all, init_again, other_frame, look_at_latch, loop_back };
    static struct u16550 last;
    struct u16550_io io;
    uint8_t value;
    size_t count;
    unsigned i, access;
    for (i = 0; i < sizeof calls / sizeof calls[0]; i++)
        for (access = 0; stops_at(calls[i], access); access++) {
            IS(u16550_ier(&uart, &value), U16550_BUSY);
            io = device_io(&d);
            OK(u16550_new(&last, &io));
            OK(u16550_set_spin_limit(&last, 3));
            OK(u16550_emergency(&last));
            IS(d.registers[LCR] & (DLAB | SET_BREAK), 0);
            IS(d.registers[IER], 0);
            IS(d.registers[MCR] & LOOP_BACK, 0);
            OK(u16550_flush(&last));
            OK(u16550_set_frame(&last, &config));
            IS(d.dll + 256 * d.dlm, 12);
            d.sent_len = 0;
            OK(u16550_write_text(&last, "no memory\n", 10, NULL));
            IS(d.sent_len, 11);
            BYTES(d.sent, "no memory\r\n");
        }
    ready();
    d.is_stuck = 1;
    OK(u16550_emergency(&uart));
    IS(u16550_send_bytes_exact(&uart, (const uint8_t *)"x", 1, &count), U16550_STALLED);
    ready();
    OK(u16550_ring_new(&uart, memory, sizeof memory, 1, 1));
    accesses = d.accesses;
    MISUSE(u16550_emergency(&uart), U16550_HAS_RINGS);
}

/* A driver that is copied to another place. */
static void moves(void)
{
    struct u16550 moved;
    ready();
    moved = uart;
    memset(&uart, 0, sizeof uart);
    OK(u16550_try_send_byte(&moved, 'v'));
    BYTES(d.sent, "v");
}

static void texts(void)
{
    static const int known[] = {
        0, -1, -2, -3, -4, -5, -6, -7, -8, -9, -10, -11, -12, -13, -14, 10, 11, 12, 13, 14, 20, 21, 22, 23, 30, 31, 32, 33, 34, 40, 41, 42, 50,
        51, 60, 70, 71, 80, 90, 91, 92, 93, 94, 100, 101, 102, 110, 111, 120, 121, 122, 130, 140, 141, 142, 143, 144, 145, 150, 151, 160, 161, 170,
        171, 172,
    };
    size_t count = sizeof known / sizeof known[0], i, j;
    for (i = 0; i < count; i++)
        for (j = 0; j <= i; j++)
            IS(strcmp(u16550_text(known[i]), u16550_text(known[j])) == 0, i == j);
    IS(strcmp(u16550_text(1), "no known status"), 0);
    IS(strcmp(u16550_version(), U16550_VERSION), 0);
    IS(strcmp(u16550_text(-15), "no known status"), 0);
    IS(strcmp(u16550_text(INT32_MIN), "no known status"), 0);
    for (i = 0; i < count; i++)
        IS(strcmp(u16550_text(known[i]), "no known status") != 0, 1);
}

int main(void)
{
    sizes();
    making();
    wide();
    settings();
    init();
    init_errors();
    bad_configs();
    loopback();
    remote();
    nearest();
    clocks();
    budgets();
    limits();
    nanoseconds();
    no_times();
    frame();
    configured();
    setup();
    attach();
    outputs();
    bytes();
    bursts();
    set_sizes();
    gathered();
    found_sizes();
    enabled_64();
    with_errors();
    exact();
    waits_in_time();
    waits_in_time_for_bytes();
    waits_in_time_for_an_empty_transmitter();
    io_traits();
    text();
    registers();
    rings();
    handling();
    telling();
    pacing();
    stopping();
    obeying();
    storms();
    shared_line();
    line_falls();
    line_storm();
    line_misuses();
    ring_dump();
    taking_with_errors();
    bytes_without_a_note();
    notes_between();
    ring_errors();
    at_a_bus();
    bus_misuses();
    misuses();
    nulls();
    reentry();
    left_calls();
    emergency();
    moves();
    texts();
    printf("%d compared, %d failed\n", compared, failed);
    return failed != 0;
}
