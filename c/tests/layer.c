/*
 * What stands between the header and the code that is proved, part by part: each field and each number on its way in and out, each rule of
 * UTF-8, each state in which last words find a chip, and what a refused call leaves. Prints each comparison that fails, and their number.
 */
#include <stdint.h>
#include <stdio.h>
#include <string.h>

#include "device.h"
#include "u16550.h"

static int compared, failed;

static void compare(const char *file, int line, const char *what, long long got, long long wanted)
{
    compared++;
    if (got != wanted) {
        failed++;
        printf("%s:%d: %s is %lld, not %lld\n", file, line, what, got, wanted);
    }
}

#define IS(expression, wanted) compare(__FILE__, __LINE__, #expression, (long long)(expression), (long long)(wanted))
#define OK(expression) IS(expression, U16550_OK)

static struct device d;
static struct u16550 uart;
static struct u16550_config config;
static uint8_t memory[64];

/* A new device, and a driver of it that is set up, with a spin limit of 3. */
static void ready(void)
{
    struct u16550_io io;
    d = device_new();
    io = device_io(&d);
    OK(u16550_new(&uart, &io));
    OK(u16550_default_config(&config));
    OK(u16550_init(&uart, &config));
    OK(u16550_set_spin_limit(&uart, 3));
}

/* What happens behind the access that `accesses_left` counts to, or behind each. */
static unsigned accesses_left;

static void get_stuck(struct device *device)
{
    if (accesses_left-- == 0)
        device->is_stuck = 1;
}

static void lose_cts(struct device *device)
{
    if (accesses_left-- == 0)
        device->registers[MSR] = 0;
}

static void keep_latch_open(struct device *device)
{
    device->registers[LCR] |= DLAB;
}

static void keep_loop(struct device *device)
{
    device->registers[MCR] |= LOOP_BACK;
}

/* ---- data of the header */

/* A state comes back as it was given, each part of it other than a new driver's. */
static void states(void)
{
    const struct u16550_config other = { 3686400, 38400, 3, 1, 5, 4, 7, 1, U16550_PARITY_EVEN, 1 };
    struct u16550_state given, got;
    struct u16550_io io, crooked[2];
    uint8_t value;
    uint16_t size;
    uint64_t limit;
    ready();
    io = device_io(&d);
    memset(&given, 0, sizeof given);
    given.spin_limit = 0x100000007;
    given.config = other;
    given.fifo_enabled = 1;
    given.saved_lsr = U16550_LSR_PARITY_ERROR;
    given.saved_msr = U16550_MSR_DELTA_CTS;
    given.fifo_size = 64;
    for (given.fifo_enabled = 0; given.fifo_enabled <= 1; given.fifo_enabled++) {
        memset(&got, 0xff, sizeof got);
        OK(u16550_from_state(&uart, &io, &given));
        OK(u16550_get_state(&uart, &got));
        IS(got.spin_limit == given.spin_limit, 1);
        IS(got.config.frequency, 3686400);
        IS(got.config.baud_rate, 38400);
        IS(got.config.prescaler_division_factor, 3);
        IS(got.config.has_prescaler, 1);
        IS(got.config.interrupts, 5);
        IS(got.config.fifo_trigger_level, 4);
        IS(got.config.data_bits, 7);
        IS(got.config.extra_stop_bits, 1);
        IS(got.config.parity, U16550_PARITY_EVEN);
        IS(got.config.check_cts_before_sending, 1);
        IS(got.fifo_enabled, given.fifo_enabled);
        IS(got.saved_lsr, given.saved_lsr);
        IS(got.saved_msr, given.saved_msr);
        IS(got.fifo_size, 64);
        OK(u16550_fifo_enabled(&uart, &value));
        IS(value, given.fifo_enabled);
        OK(u16550_spin_limit(&uart, &limit));
        IS(limit == given.spin_limit, 1);
        OK(u16550_fifo_size(&uart, &size));
        IS(size, 64);
    }
    given.fifo_enabled = 1;
    io.read = NULL;
    IS(u16550_from_state(&uart, &io, &given), U16550_NULL_POINTER);
    IS(u16550_from_state(&uart, (const struct u16550_io *)(const void *)((const uint8_t *)crooked + 1), &given), U16550_MISALIGNED);
}

/* Each number that stands for a variant. */
static void codes(void)
{
    static const uint8_t levels[] = { 0, 1, 4, 8, 14 };
    struct u16550_config got;
    uint8_t bits, parity;
    size_t i;
    ready();
    for (bits = 5; bits <= 8; bits++)
        for (parity = U16550_PARITY_NONE; parity <= 4; parity++)
            for (i = 0; i < sizeof levels; i++) {
                config.data_bits = bits;
                config.parity = parity;
                config.fifo_trigger_level = levels[i];
                OK(u16550_init(&uart, &config));
                OK(u16550_get_config(&uart, &got));
                IS(got.data_bits, bits);
                IS(got.parity, parity);
                IS(got.fifo_trigger_level, levels[i]);
                IS(d.registers[LCR] & 3, bits - 5);
            }
}

static void presence(void)
{
    struct u16550_setup setup = { 1, U16550_WAIT_NEVER, 0 };
    ready();
    d.is_absent = 1;
    IS(u16550_init_with(&uart, &config, &setup), U16550_INIT_DEVICE_NOT_PRESENT);
    setup.checks_presence = 0;
    OK(u16550_init_with(&uart, &config, &setup));
}

static void prescalers(void)
{
    struct u16550_dump dump;
    uint32_t rate;
    ready();
    OK(u16550_config_register_dump(&uart, &dump));
    config.frequency = 16 * 1843200;
    config.prescaler_division_factor = 15;
    config.has_prescaler = 1;
    OK(u16550_dump_baud_rate(&dump, &config, &rate));
    IS(rate, 9600);
    config.prescaler_division_factor = 16;
    IS(u16550_dump_baud_rate(&dump, &config, &rate), U16550_NOT_COMPUTABLE);
    config.has_prescaler = 0;
    config.frequency = 1843200;
    OK(u16550_dump_baud_rate(&dump, &config, &rate));
    IS(rate, 9600);
}

/* A loopback test finds the transmitter full, or CTS cleared, only if that comes in the middle of it: some access is that moment. */
static void loopback(void)
{
    unsigned access, full = 0, not_clear = 0;
    for (access = 0; access < 60; access++) {
        ready();
        accesses_left = access;
        d.meanwhile = get_stuck;
        full += u16550_test_loopback(&uart, NULL) == U16550_LOOPBACK_NO_CAPACITY;
        ready();
        config.check_cts_before_sending = 1;
        OK(u16550_init(&uart, &config));
        accesses_left = access;
        d.meanwhile = lose_cts;
        not_clear += u16550_test_loopback(&uart, NULL) == U16550_LOOPBACK_NOT_CLEAR_TO_SEND;
    }
    IS(full > 0, 1);
    IS(not_clear, 0);
}

static void layouts(void)
{
    const uint32_t layout = (uint32_t)U16550_LAYOUT;
    const struct u16550_layout bytes = { 1, 8, U16550_NATIVE_ENDIAN };
    OK(u16550_check_layout(layout, layout, layout));
    IS(u16550_check_layout(layout + 1, layout, layout), U16550_OTHER_LAYOUT);
    IS(u16550_check_layout(layout, layout + 1, layout), U16550_OTHER_LAYOUT);
    IS(u16550_check_layout(layout, layout, layout + 1), U16550_OTHER_LAYOUT);
    /* The last place that eight registers can have. */
    OK(u16550_new_mmio_wide(&uart, UINTPTR_MAX - 7, &bytes));
    IS(u16550_new_mmio_wide(&uart, UINTPTR_MAX - 6, &bytes), U16550_BAD_BASE);
}

/* ---- texts */

/* A text is refused whole if it is not UTF-8: https://www.rfc-editor.org/rfc/rfc3629#section-4 */
static void utf8(void)
{
    static const char *const good[] = {
        "\x7f", "\xc2\x80", "\xdf\xbf", "\xe0\xa0\x80", "\xe0\xbf\xbf", "\xe1\x80\x80", "\xec\xbf\xbf", "\xed\x80\x80", "\xed\x9f\xbf",
        "\xee\x80\x80", "\xef\xbf\xbf", "\xf0\x90\x80\x80", "\xf0\xbf\xbf\xbf", "\xf1\x80\x80\x80", "\xf3\xbf\xbf\xbf", "\xf4\x80\x80\x80",
        "\xf4\x8f\xbf\xbf", "\xe0\xa0\x80z", "\xed\x9f\xbf\xee\x80\x80", "\xf0\x90\x80\x80\xc2\x80",
    };
    static const char *const bad[] = {
        "\x80", "\xbf", "\xc1\xbf", "\xc2", "\xc2\x7f", "\xc2\xc0", "\xdfz", "\xe0\x9f\xbf", "\xe0\xa0", "\xe0\xa0\x7f", "\xe0\xa0\xc0",
        "\xe1\x7f\x80", "\xe1\xc0\x80", "\xed\xa0\x80", "\xed\xbf\xbf", "\xef\xbf", "\xf0\x8f\xbf\xbf", "\xf0\x90\x80", "\xf0\x90\x80z",
        "\xf4\x90\x80\x80", "\xf5\x80\x80\x80", "\xf8\x88\x80\x80", "\xff",
    };
    size_t i;
    for (i = 0; i < sizeof good / sizeof good[0]; i++) {
        ready();
        OK(u16550_write_text(&uart, good[i], strlen(good[i]), NULL));
        IS(d.sent_len >= strlen(good[i]), 1);
    }
    for (i = 0; i < sizeof bad / sizeof bad[0]; i++) {
        ready();
        IS(u16550_write_text(&uart, bad[i], strlen(bad[i]), NULL), U16550_NOT_UTF8);
        IS(d.sent_len, 0);
    }
}

/* Errors that LSR showed while a text was sent are reported afterwards. */
static void text_keeps_errors(void)
{
    uint8_t lsr;
    ready();
    d.errors = U16550_LSR_OVERRUN_ERROR;
    OK(u16550_write_text(&uart, "text", 4, NULL));
    IS(d.errors, 0);
    OK(u16550_lsr(&uart, &lsr));
    IS(lsr & U16550_LSR_OVERRUN_ERROR, U16550_LSR_OVERRUN_ERROR);
}

/* ---- last words */

/* The frame stays, and of the outputs those that hold no text back. */
static void emergency_keeps(uint8_t outputs)
{
    uint64_t limit;
    ready();
    d.registers[LCR] = DLAB | 0x40 | 0x1b;
    d.registers[IER] = 5;
    d.registers[MCR] = outputs;
    OK(u16550_emergency(&uart));
    IS(d.registers[LCR], 0x1b);
    IS(d.registers[IER], 0);
    IS(d.registers[MCR], U16550_MCR_DTR | U16550_MCR_RTS | (outputs & (U16550_MCR_OUT_1 | U16550_MCR_OUT_2_INT_ENABLE)));
    OK(u16550_spin_limit(&uart, &limit));
    IS(limit, 3);
}

static void emergency(void)
{
    struct u16550_config got;
    uint8_t lsr;
    size_t count;
    emergency_keeps(0);
    emergency_keeps(U16550_MCR_OUT_1);
    emergency_keeps(U16550_MCR_OUT_2_INT_ENABLE | LOOP_BACK);
    emergency_keeps(0xff);
    /* The driver is as a new one: it has forgotten its configuration, and what it saved. */
    ready();
    config.data_bits = 7;
    OK(u16550_init(&uart, &config));
    d.errors = U16550_LSR_OVERRUN_ERROR;
    OK(u16550_ready_to_send(&uart));
    OK(u16550_emergency(&uart));
    OK(u16550_get_config(&uart, &got));
    IS(got.data_bits, 8);
    OK(u16550_lsr(&uart, &lsr));
    IS(lsr & U16550_LSR_OVERRUN_ERROR, 0);
    /* It takes the FIFOs to be off. The chip may have none. */
    OK(u16550_send_bytes(&uart, (const uint8_t *)"two", 3, &count));
    IS(count, 1);
    /* A latch that does not close: as many writes as the spin limit, and a read in front of each and behind the last. */
    ready();
    OK(u16550_set_spin_limit(&uart, 5));
    d.accesses = 0;
    d.meanwhile = keep_latch_open;
    d.registers[LCR] |= DLAB;
    IS(u16550_emergency(&uart), U16550_ATTACH_DIVISOR_LATCH_OPEN);
    IS(d.accesses, 11);
    ready();
    config.data_bits = 7;
    OK(u16550_init(&uart, &config));
    d.meanwhile = keep_loop;
    IS(u16550_emergency(&uart), U16550_ATTACH_LOOPBACK);
    OK(u16550_get_config(&uart, &got));
    IS(got.data_bits, 7);
}

/* ---- one access where there is nothing to wait for */

static void tries(void)
{
    uint8_t byte;
    ready();
    d.accesses = 0;
    IS(u16550_try_receive_byte(&uart, &byte), U16550_RECEIVE_NO_DATA);
    IS(d.accesses, 1);
}

/* ---- a driver that becomes something else, and back */

static void notes_at_a_place(void)
{
    static struct u16550_notes notes;
    struct u16550_io io;
    uint8_t noted[8], value;
    ready();
    d.base = 0x1003;
    d.stride = 4;
    io = device_io(&d);
    OK(u16550_new_mmio(&uart, &io, 0x1003, 4));
    OK(u16550_note_errors(&uart, &notes, noted, sizeof noted));
    d.registers[SPR] = 0x37;
    OK(u16550_spr(&uart, &value));
    IS(value, 0x37);
    OK(u16550_end_notes(&uart));
    OK(u16550_spr(&uart, &value));
    IS(value, 0x37);
}

/* A bus that is not made leaves its memory, and the driver with what it saw. One that ends gives its driver to memory that had rings. */
static void at_a_bus(void)
{
    static const struct u16550_direction by_rts = { U16550_DIRECTION_RTS, 1 };
    static struct u16550_bus bus, before;
    static struct u16550 other;
    struct u16550_io io;
    uint8_t lsr, value;
    ready();
    memset(&bus, 0x5a, sizeof bus);
    memcpy(&before, &bus, sizeof bus);
    d.is_stuck = 1;
    d.errors = U16550_LSR_PARITY_ERROR;
    IS(u16550_bus_new(&bus, &uart, &by_rts), U16550_BUS_BUSY);
    IS(memcmp(&before, &bus, sizeof bus), 0);
    OK(u16550_lsr(&uart, &lsr));
    IS(lsr, U16550_LSR_PARITY_ERROR);
    d.is_stuck = 0;
    OK(u16550_bus_new(&bus, &uart, &by_rts));
    io = device_io(&d);
    OK(u16550_new(&other, &io));
    OK(u16550_ring_new(&other, memory, sizeof memory, 8, 8));
    OK(u16550_bus_end(&bus, &other));
    OK(u16550_emergency(&other));
    memset(&other, 0xa5, sizeof other);
    IS(u16550_bus_new(&bus, &uart, &by_rts), U16550_NOT_MADE);
    OK(u16550_new(&uart, &io));
    OK(u16550_bus_new(&bus, &uart, &by_rts));
    memset(&other, 0, sizeof other);
    OK(u16550_bus_end(&bus, &other));
    d.registers[SPR] = 0x73;
    OK(u16550_spr(&other, &value));
    IS(value, 0x73);
}

/* ---- rings */

static void low_mark(void)
{
    size_t count;
    uint8_t low;
    ready();
    OK(u16550_ring_new(&uart, memory, sizeof memory, 40, 24));
    OK(u16550_ring_set_low_mark(&uart, 8));
    OK(u16550_ring_queue(&uart, (const uint8_t *)"abcdefghijklmnopqrstuvwxyz0123456789ABCD", 40, &count));
    OK(u16550_ring_take_low(&uart, &low));
    IS(low, 0);
    /* 16 bytes go at once, and 16 now: 8 are left. */
    OK(u16550_ring_resume_transmit(&uart));
    OK(u16550_ring_transmit_len(&uart, &count));
    IS(count, 8);
    OK(u16550_ring_take_low(&uart, &low));
    IS(low, 1);
}

/* ---- where numbers are written to */

static void misaligned(void)
{
    uint64_t room[2] = { 0, 0 };
    size_t *crooked = (size_t *)(void *)((uint8_t *)room + 1);
    struct u16550_difference *difference = (struct u16550_difference *)(void *)((uint8_t *)room + 1);
    uint8_t byte = 'b';
    ready();
    d.accesses = 0;
    IS(u16550_write_text(&uart, "t", 1, crooked), U16550_MISALIGNED);
    IS(u16550_write_raw_text(&uart, "t", 1, crooked), U16550_MISALIGNED);
    IS(u16550_send_bytes_exact(&uart, &byte, 1, crooked), U16550_MISALIGNED);
    IS(u16550_receive_bytes_exact(&uart, &byte, 1, crooked), U16550_MISALIGNED);
    IS(u16550_send_bytes_while(&uart, &byte, 1, NULL, NULL, crooked), U16550_MISALIGNED);
    IS(u16550_receive_bytes_while(&uart, &byte, 1, NULL, NULL, crooked), U16550_MISALIGNED);
    IS(u16550_check_configured(&uart, 0, difference), U16550_MISALIGNED);
    IS(d.accesses, 0);
}

int main(void)
{
    states();
    codes();
    presence();
    prescalers();
    loopback();
    layouts();
    utf8();
    text_keeps_errors();
    emergency();
    tries();
    notes_at_a_place();
    at_a_bus();
    low_mark();
    misaligned();
    printf("%d compared, %d failed\n", compared, failed);
    return failed != 0;
}
