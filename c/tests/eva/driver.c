/*
 * Calls of u16550.h, any number of them in any order, over a device that answers anything. There is a function for each kind of driver,
 * which Eva begins at: without rings, with rings, with notes of errors, at a bus; one for what makes a driver, and one for what needs none.
 * Without rings an interrupt comes in the middle of each access.
 */
#include "any.h"
#include "u16550.h"
#include "each.h"

enum { ROOM = 40 };

static struct u16550 uart;
static struct u16550_bus bus;
static struct u16550_notes notes;
static uint8_t bytes[ROOM], memory[ROOM], noted[ROOM];

/* What calls write. */
static uint8_t value, other;
static uint16_t size;
static uint32_t rate;
static uint64_t limit;
static size_t count;
static struct u16550_io io;
static struct u16550_config config, nearest;
static struct u16550_setup setup;
static struct u16550_state state;
static struct u16550_dump dump;
static struct u16550_loopback_failure failure;
static struct u16550_difference difference;
static struct u16550_received received[ROOM];
static struct u16550_handled handled;
static struct u16550_urgent urgent;
static struct u16550_stuck stuck;
static struct u16550_direction direction;

/* ---- the device */

static uint8_t interrupts;

/* Whether an access was made since the last call began. */
uint8_t uart_was_reached;

static void interrupt(void)
{
    static struct u16550_handled ignored;
    if (interrupts) {
        interrupts = 0;
        u16550_ring_try_handle(&uart, any_number(), any_word(), &ignored);
        interrupts = 1;
    }
}

static uint8_t read_any(void *context, uintptr_t address)
{
    (void)context;
    (void)address;
    uart_was_reached = 1;
    interrupt();
    return any_byte();
}

static void write_any(void *context, uintptr_t address, uint8_t written)
{
    (void)context;
    (void)address;
    (void)written;
    uart_was_reached = 1;
    interrupt();
}

static struct u16550_io device = { NULL, read_any, write_any };

static uint8_t keep_waiting(void *context)
{
    (void)context;
    return any_byte();
}

/* ---- what calls are given */

static void choose(void)
{
    config.frequency = any_word();
    config.baud_rate = any_word();
    config.has_prescaler = any_byte();
    config.prescaler_division_factor = any_word();
    config.interrupts = any_byte();
    config.fifo_trigger_level = any_byte();
    config.data_bits = any_byte();
    config.extra_stop_bits = any_byte();
    config.parity = any_byte();
    config.check_cts_before_sending = any_byte();
    direction.line = any_byte();
    direction.sends_when_set = any_byte();
    setup.checks_presence = any_byte();
    setup.wait = any_byte();
    setup.outputs = any_byte();
}

#define DRIVER &uart
#define BUFFER bytes
#define LEN len
#define CONFIG &config
#define SETUP &setup
#define DUMP &dump
#define ON any_byte()
#define BYTE any_byte()
#define OUTPUTS any_byte()
#define INTERRUPTS any_byte()
#define CHARACTERS any_byte()
#define FIFOS any_byte()
#define FIFO_SIZE any_short()
#define URGENT below(2) ? &value : NULL
#define FIRST bytes
#define FIRST_LEN len
#define SECOND bytes
#define SECOND_LEN below(ROOM + 1)
#define SPIN_LIMIT any_number()
#define LIMIT any_number()
#define ROUNDS any_word()
#define MARK any_number()
#define HOLD any_number()
#define RELEASE any_number()
#define KEEP_WAITING keep_waiting
#define CONTEXT NULL
#define BYTE_AT &value
#define OTHER_BYTE_AT &other
#define SHORT_AT &size
#define SIZE_AT &count
#define NUMBER_AT &limit
#define CONFIG_AT &config
#define STATE_AT &state
#define RECEIVED_AT received
#define DUMP_AT &dump
#define URGENT_AT &urgent
#define HANDLED_AT &handled
#define ACCESS_CLOCKS any_number()
#define BEFORE_CLOCKS any_number()
#define CLOCKS any_number()
#define NANOSECONDS any_number()

#define NUMBER(name, ...) NUMBER_OF_##name,
#define NONE(name, ...)
#define CASE(name, ...) case NUMBER_OF_##name: name(__VA_ARGS__); break;

/* ---- calls */

static void plain_call(void)
{
    enum { EACH_CALL(NUMBER, NONE) LAST };
    size_t len = below(ROOM + 1);
    choose();
    uart_was_reached = 0;
    switch (below(LAST + 7)) {
    EACH_CALL(CASE, NONE)
    case LAST: u16550_get_io(&uart, &io); break;
    case LAST + 1: u16550_set_io(&uart, &device); break;
    case LAST + 2: u16550_test_loopback(&uart, &failure); break;
    case LAST + 3: u16550_write_text(&uart, (const char *)bytes, len, &count); break;
    case LAST + 4: u16550_write_raw_text(&uart, (const char *)bytes, len, &count); break;
    case LAST + 5: u16550_check_configured(&uart, any_byte(), &difference); break;
    default: u16550_emergency(&uart); break;
    }
}

static void ring_call(void)
{
    enum { EACH_CALL(NONE, NUMBER) LAST };
    size_t len = below(ROOM + 1);
    struct u16550_line_port port = { &uart, { 0, 0 }, U16550_OK, 0 };
    uart_was_reached = 0;
    switch (below(LAST + 3)) {
    EACH_CALL(NONE, CASE)
    case LAST: u16550_ring_stuck(&uart, &stuck); break;
    case LAST + 1: u16550_line_handle(&port, 1, any_number(), any_word(), &value); break;
    default: u16550_try_send_byte(&uart, any_byte()); break;
    }
}

static void bus_call(void)
{
    size_t len = below(ROOM + 1);
    uart_was_reached = 0;
    switch (below(10)) {
    case 0: u16550_bus_start_sending(&bus); break;
    case 1: u16550_bus_try_finish(&bus); break;
    case 2: u16550_bus_is_sending(&bus, &value); break;
    case 3: u16550_bus_flush(&bus); break;
    case 4: u16550_bus_is_idle(&bus, &value); break;
    case 5: u16550_bus_send_bytes(&bus, bytes, len, &count); break;
    case 6: u16550_bus_send_bytes_exact(&bus, bytes, len, &count); break;
    case 7: u16550_bus_receive_bytes(&bus, bytes, len, &count); break;
    case 8: u16550_bus_receive_with_errors(&bus, received, len, &count); break;
    default: u16550_bus_lsr(&bus, &value); break;
    }
}

static void computation(void)
{
    enum { EACH_OF_CONFIG(NUMBER) LAST };
    choose();
    uart_was_reached = 0;
    switch (below(LAST + 5)) {
    EACH_OF_CONFIG(CASE)
    case LAST: u16550_nearest(&config, any_word(), &nearest); break;
    case LAST + 1: u16550_dump_divisor(&dump, &size); break;
    case LAST + 2: u16550_default_config(&config); break;
    case LAST + 3: u16550_direction_receiving(&direction, any_byte(), &value); break;
    default: u16550_dump_baud_rate(&dump, &config, &rate); break;
    }
}

/* ---- kinds of drivers */

/* Makes a driver. Returns U16550_OK, or why there is none. */
static int make(void)
{
    any_bytes(bytes, ROOM);
    dump.ier = any_byte();
    dump.isr = any_byte();
    dump.lcr = any_byte();
    dump.mcr = any_byte();
    dump.dll = any_byte();
    dump.dlm = any_byte();
    return (u16550_new)(&uart, &device);
}

/* Makes drivers in the place of each other, and none makes an access. */
int makers(void)
{
    static struct u16550_design_ware chip;
    static struct u16550_layout layout;
    while (below(2)) {
        choose();
        layout.stride = any_byte();
        layout.width = any_byte();
        layout.byte_order = any_byte();
        state.config = config;
        state.spin_limit = any_number();
        state.fifo_enabled = any_byte();
        state.saved_lsr = any_byte();
        state.saved_msr = any_byte();
        state.fifo_size = any_short();
        switch (below(9)) {
        case 0: (u16550_new)(&uart, &device); break;
        case 1: (u16550_new_port)(&uart, &device, any_short()); break;
        case 2: (u16550_new_mmio)(&uart, &device, any_number(), any_byte()); break;
        case 3: (u16550_new_mmio_wide)(&uart, any_number(), &layout); break;
        case 4: (u16550_new_design_ware)(&uart, &chip, &device, any_number()); break;
        case 5: (u16550_new_mmio_design_ware)(&uart, &chip, any_number(), &layout, any_number()); break;
        case 6: u16550_design_ware_fault(&uart, &chip); break;
        case 7: (u16550_from_state)(&uart, &device, &state); break;
        default: u16550_end(&uart); break;
        }
    }
    return 0;
}

int plain(void)
{
    int status = make();
    if (status != U16550_OK)
        return status;
    interrupts = 1;
    while (below(2))
        plain_call();
    uart_was_reached = 0;
    return u16550_end(&uart);
}

int rings(void)
{
    int status = make();
    if (status != U16550_OK)
        return status;
    status = u16550_ring_new(&uart, memory, ROOM, 1 + below(ROOM - 1), 1 + below(ROOM - 1));
    if (status != U16550_OK)
        return status;
    while (below(2))
        ring_call();
    uart_was_reached = 0;
    return u16550_ring_end(&uart);
}

int noting(void)
{
    int status = make();
    if (status != U16550_OK)
        return status;
    status = u16550_note_errors(&uart, &notes, noted, ROOM);
    if (status != U16550_OK)
        return status;
    status = u16550_ring_new(&uart, memory, ROOM, 1 + below(ROOM - 1), 1 + below(ROOM - 1));
    if (status != U16550_OK)
        return status;
    while (below(2))
        u16550_ring_take_with_errors(&uart, received, below(ROOM + 1), &count);
    status = u16550_ring_end(&uart);
    if (status != U16550_OK)
        return status;
    return u16550_end_notes(&uart);
}

int at_a_bus(void)
{
    int status = make();
    if (status != U16550_OK)
        return status;
    choose();
    status = u16550_bus_new(&bus, &uart, &direction);
    if (status != U16550_OK)
        return status;
    while (below(2))
        bus_call();
    uart_was_reached = 0;
    return u16550_bus_end(&bus, &uart);
}

int times(void)
{
    choose();
    while (below(2))
        computation();
    return 0;
}
