/*
 * All calls at random over a device that is partly at random, and a hash of all that they do: each access, each result, each byte of each
 * buffer, and what the driver keeps afterwards. The same program runs over each build, and prints the same. What is at random depends on the
 * seed alone. It needs no library of C, so that it also runs where there is none.
 */
#include "u16550.h"

#include "choices.h"
#include "each.h"

/* Now and then a call gets null for what it is to write. */
static int is_null;
#define OUT(at) (is_null ? NULL : (at))

static int told(int status)
{
    note((uint64_t)(uint32_t)status);
    return status;
}

/* ---- the device: at random, or one that works, or one that sends to itself, or one that works and seldom shows something else */

enum { DATA, IER, ISR, LCR, MCR, LSR, MSR, SPR, FCR = ISR, USR = 31, DLAB = 0x80, LOOP_BACK = 0x10 };

struct device {
    uint8_t registers[8], dll, dlm, kind, idle, queue[256], first, end;
};

static struct device chip;
static struct u16550 uart;
static uint32_t nested, is_nested;
static void meanwhile(void);

/* Four lines, and now and then their changes. */
static uint8_t lines(uint8_t high)
{
    return below(4) ? high : (uint8_t)(high | below(16));
}

static uint8_t likely(unsigned offset)
{
    static const uint8_t lsr[8] = { 0x60, 0x61, 0x00, 0x01, 0x20, 0x63, 0x9f, 0x40 };
    static const uint8_t isr[10] = { 0x01, 0xc1, 0xc2, 0xc4, 0xc6, 0xcc, 0xc0, 0xce, 0xc7, 0xe1 };
    if (below(4) == 0)
        return any_byte();
    switch (offset) {
    case LSR:
        return lsr[below(8)];
    case MSR:
        return lines((uint8_t)(below(16) << 4));
    case MCR:
        return below(2) ? 0x0b : 0x1b;
    case ISR:
        return isr[below(10)];
    case LCR:
        return below(4) ? 0x03 : 0x83;
    default:
        return any_byte();
    }
}

/* What a device shows that works: in loopback the bytes that were sent, and the lines that were set. */
static uint8_t working(unsigned offset)
{
    static const uint8_t idle[4] = { 0x60, 0x60, 0x20, 0x00 };
    uint8_t mcr = chip.registers[MCR];
    int waits = chip.first != chip.end;
    if ((chip.registers[LCR] & DLAB) && offset < 2)
        return offset ? chip.dlm : chip.dll;
    switch (offset) {
    case DATA: {
        uint8_t byte = chip.queue[chip.first];
        if (waits)
            chip.first++;
        return byte;
    }
    case LSR:
        if (below(40) == 0)
            chip.idle = idle[below(4)];
        return (uint8_t)(chip.idle | waits | (below(20) ? 0 : 2));
    case MSR:
        if (mcr & LOOP_BACK)
            return (uint8_t)((mcr & 0x0c) << 4 | (mcr & 1) << 5 | (mcr & 2) << 3);
        return lines(0xb0);
    case ISR:
        return (uint8_t)((chip.registers[FCR] & 1 ? 0xc0 : 0) | (waits ? 4 : below(8) ? 1 : 2));
    default:
        return chip.registers[offset];
    }
}

static uint8_t read_register(void *context, uintptr_t address)
{
    unsigned offset = (unsigned)address & 7;
    uint8_t value;
    if (address == USR)
        value = below(4) ? 0 : any_byte();
    else
        value = chip.kind == 0 || below(chip.kind == 3 ? 400 : 64) == 0 ? likely(offset) : working(offset);
    note(0x10000u + (uint64_t)address * 256 + value);
    note(context == (void *)&chip);
    meanwhile();
    return value;
}

static void write_register(void *context, uintptr_t address, uint8_t value)
{
    unsigned offset = (unsigned)address & 7;
    note(0x20000000u + (uint64_t)address * 256 + value);
    note(context == (void *)&chip);
    if ((chip.registers[LCR] & DLAB) && offset < 2) {
        *(offset ? &chip.dlm : &chip.dll) = value;
    } else if (offset == DATA) {
        if ((chip.kind == 2 || (chip.registers[MCR] & LOOP_BACK)) && (uint8_t)(chip.end + 1) != chip.first)
            chip.queue[chip.end++] = value;
    } else {
        chip.registers[offset] = value;
    }
    meanwhile();
}

/* ---- the calls */

enum { ROOM = 400, RINGS = 96 };

static uint8_t bytes[ROOM], rings[2][RINGS];
static const struct u16550_io device_io = { &chip, read_register, write_register };

static void fill(size_t len)
{
    for (size_t i = 0; i < len; i++)
        bytes[i] = any_byte();
}

/* ---- registers in memory, which the library accesses itself: as they lie there, on a processor of each byte order */

enum { REGISTERS = USR + 1, MOST_STRIDE = 128 };
static uint32_t words[REGISTERS * MOST_STRIDE / 4 + 1];
static struct u16550_layout layout;
static struct u16550_design_ware chips[2];

static uint8_t *register_at(unsigned offset)
{
    return (uint8_t *)words + (size_t)offset * layout.stride;
}

static int is_big_endian(void)
{
    const uint16_t one = 1;
    return layout.byte_order == U16550_NATIVE_ENDIAN ? *(const uint8_t *)&one == 0 : layout.byte_order == U16550_BIG_ENDIAN;
}

static void put_register(unsigned offset, uint32_t value)
{
    unsigned bytes_of = layout.width / 8u;
    for (unsigned i = 0; i < bytes_of; i++)
        register_at(offset)[is_big_endian() ? bytes_of - 1 - i : i] = (uint8_t)(value >> 8 * i);
}

static uint32_t get_register(unsigned offset)
{
    uint32_t value = 0;
    unsigned bytes_of = layout.width / 8u;
    for (unsigned i = 0; i < bytes_of; i++)
        value |= (uint32_t)register_at(offset)[is_big_endian() ? bytes_of - 1 - i : i] << 8 * i;
    return value;
}

/* A layout: mostly one that can be. */
static struct u16550_layout some_layout(void)
{
    static const uint8_t widths[3] = { 8, 16, 32 };
    struct u16550_layout made;
    made.stride = (uint8_t)(below(12) ? 1u << below(8) : below(256));
    made.width = (uint8_t)(below(12) ? widths[below(3)] : below(40));
    made.byte_order = (uint8_t)below(below(12) ? 3 : 5);
    return made;
}

/* Something in each register, also above the lowest byte. The chip is seldom busy. */
static void fill_registers(void)
{
    for (unsigned offset = 0; offset < REGISTERS; offset++)
        put_register(offset, (uint32_t)(choose() >> 32) << 8 | likely(offset & 7));
    put_register(USR, below(4) == 0);
}

static void note_registers(void)
{
    for (unsigned offset = 0; offset < REGISTERS; offset++)
        note(get_register(offset));
}

/* A length: mostly short, and now and then that of many bursts. */
static size_t some_len(void)
{
    return below(8) ? below(40) : below(ROOM);
}

/* A size of FIFOs: mostly one that there is. */
static uint16_t some_fifo_size(void)
{
    return (uint16_t)(below(8) ? 16u << below(6) : below(600));
}

static struct u16550_config some_config(void)
{
    static const uint32_t clocks[6] = { 1843200, 3686400, 24000000, 0, 115200, 16000000 };
    static const uint32_t rates[16] = { 115200, 57600, 38400, 9600, 4800, 2400, 1200, 600, 300, 150, 110, 0, 1, 2, 134, 75 };
    static const uint8_t levels[5] = { 0, 1, 4, 8, 14 };
    struct u16550_config config;
    if (below(2)) {
        u16550_default_config(&config);
        config.baud_rate = rates[below(10)];
        config.interrupts = (uint8_t)below(16);
        return config;
    }
    config.frequency = below(8) ? clocks[below(6)] : (uint32_t)(choose() >> 32);
    config.baud_rate = below(4) ? rates[below(16)] : below(2) ? 9600 * below(20) : (uint32_t)(choose() >> 32);
    config.prescaler_division_factor = below(18);
    config.has_prescaler = (uint8_t)below(below(30) ? 2 : 4);
    config.interrupts = any_byte();
    config.fifo_trigger_level = below(30) ? levels[below(5)] : (uint8_t)below(20);
    config.data_bits = (uint8_t)(below(30) ? 5 + below(4) : below(12));
    config.extra_stop_bits = (uint8_t)below(below(30) ? 2 : 4);
    config.parity = (uint8_t)below(below(30) ? 5 : 9);
    config.check_cts_before_sending = (uint8_t)below(below(30) ? 2 : 4);
    return config;
}

static void note_config(const struct u16550_config *config)
{
    note(config->frequency);
    note(config->baud_rate);
    note(config->prescaler_division_factor);
    note(config->has_prescaler);
    note(config->interrupts);
    note(config->fifo_trigger_level);
    note(config->data_bits);
    note(config->extra_stop_bits);
    note(config->parity);
    note(config->check_cts_before_sending);
}

static void note_state(const struct u16550_state *state)
{
    note(state->spin_limit);
    note_config(&state->config);
    note(state->fifo_enabled);
    note(state->saved_lsr);
    note(state->saved_msr);
    note(state->fifo_size);
}

static void note_dump(const struct u16550_dump *dump)
{
    note(dump->ier);
    note(dump->isr);
    note(dump->lcr);
    note(dump->mcr);
    note(dump->lsr);
    note(dump->msr);
    note(dump->spr);
    note(dump->dll);
    note(dump->dlm);
}

static void note_handled(int status, const struct u16550_handled *handled)
{
    if (told(status) == U16550_OK) {
        note(handled->served);
        note(handled->end);
    }
}

/* All that can be asked of a driver without an access. */
static void note_driver(struct u16550 *u)
{
    struct u16550_state state;
    struct u16550_config config;
    struct u16550_urgent urgent;
    struct u16550_stuck stuck;
    uint64_t limit;
    uint16_t fifo_size;
    uint8_t flag;
    size_t count;
    if (told(u16550_get_state(u, &state)) == U16550_OK)
        note_state(&state);
    if (told(u16550_get_config(u, &config)) == U16550_OK)
        note_config(&config);
    if (told(u16550_fifo_enabled(u, &flag)) == U16550_OK)
        note(flag);
    if (told(u16550_spin_limit(u, &limit)) == U16550_OK)
        note(limit);
    if (told(u16550_fifo_size(u, OUT(&fifo_size))) == U16550_OK)
        note(fifo_size);
    if (told(u16550_ring_transmit_len(u, &count)) == U16550_OK)
        note(count);
    if (told(u16550_ring_transmit_room(u, &count)) == U16550_OK)
        note(count);
    if (told(u16550_ring_receive_len(u, &count)) == U16550_OK)
        note(count);
    if (told(u16550_ring_is_paused(u, &flag)) == U16550_OK)
        note(flag);
    if (told(u16550_ring_is_held(u, &flag)) == U16550_OK)
        note(flag);
    if (told(u16550_ring_urgent(u, &urgent)) == U16550_OK) {
        note(urgent.waits);
        note(urgent.byte);
    }
    if (told(u16550_ring_stuck(u, &stuck)) == U16550_OK) {
        note(stuck.is_stuck);
        note(stuck.isr);
    }
    told(u16550_design_ware_fault(u, &chips[0]));
    told(u16550_design_ware_fault(u, &chips[1]));
    note_registers();
}

/* A base for registers in memory: where they are, or where none can be. What is made there is not used. */
static uintptr_t some_base(void)
{
    return below(8) ? (uintptr_t)words : below(2) ? (uintptr_t)words + below(4) : below(2) ? 0 : UINTPTR_MAX - below(500);
}

static void new_in_memory(struct u16550 *u, int is_design_ware)
{
    /* That of registers where none can be: a bus that was not ended may still have the other one. */
    static struct u16550_design_ware nowhere;
    struct u16550_layout made = some_layout();
    uintptr_t base = some_base();
    uint64_t patience = below(20) ? 1 + below(6) : 0;
    int status;
    if (is_design_ware)
        status = told(u16550_new_mmio_design_ware(u, OUT(base == (uintptr_t)words ? &chips[0] : &nowhere), base, OUT(&made), patience));
    else
        status = told(u16550_new_mmio_wide(u, base, OUT(&made)));
    if (status != U16550_OK)
        return;
    if (base == (uintptr_t)words) {
        layout = made;
        fill_registers();
    } else {
        told(u16550_new(u, &device_io));
    }
    told(u16550_set_spin_limit(u, 1 + below(20)));
}

static void new_design_ware(struct u16550 *u, const struct u16550_io *io)
{
    uint64_t patience = below(20) ? 1 + below(6) : 0;
    told(u16550_new_design_ware(u, OUT(&chips[0]), below(20) ? io : NULL, patience));
    told(u16550_set_spin_limit(u, 1 + below(20)));
}

static void new_rings(struct u16550 *u)
{
    size_t tx = below(30) ? 1 + below(40) : below(3) * 3000, rx = below(30) ? 1 + below(40) : 0;
    size_t size = below(30) ? RINGS : below(RINGS);
    told(u16550_ring_end(u));
    told(u16550_ring_new(u, rings[is_nested != 0], size, tx, rx));
}

static void make_driver(struct u16550 *u, uint32_t which)
{
    struct u16550_state state;
    struct u16550_io io = device_io;
    uintptr_t base;
    uint8_t stride;
    state.spin_limit = below(20) ? 1 + below(20) : 0;
    state.config = some_config();
    state.fifo_enabled = (uint8_t)below(below(30) ? 2 : 256);
    state.saved_lsr = any_byte();
    state.saved_msr = any_byte();
    state.fifo_size = some_fifo_size();
    if (below(30) == 0)
        io.read = NULL;
    base = below(8) ? 0x1000 : below(2) * 0x1001;
    stride = (uint8_t)(below(8) ? 1u : below(256));
    switch (which) {
    case 5:
        new_in_memory(u, 0);
        return;
    case 6:
        new_in_memory(u, 1);
        return;
    case 7:
    case 8:
        new_design_ware(u, &io);
        return;
    case 9:
        told(u16550_set_spin_limit(u, 1 + below(20)));
        if (below(2))
            told(u16550_ring_end(u));
        told(u16550_emergency(u));
        return;
    case 0:
        told(u16550_new(u, &io));
        break;
    case 1:
        told(u16550_new_port(u, &io, (uint16_t)(below(4) ? 0x2f8 : 0xfff0 + below(16))));
        break;
    case 2:
        told(u16550_new_mmio(u, &io, base, stride));
        break;
    case 3:
        told(u16550_from_state(u, &io, &state));
        break;
    default:
        told(u16550_end(u));
        break;
    }
}

/* One call at random. There are three arms, so that no function is too long to be read. */
static void call_settings(struct u16550 *u, uint32_t which)
{
    struct u16550_config config = some_config(), nearest;
    struct u16550_setup setup;
    struct u16550_loopback_failure failure;
    struct u16550_difference difference;
    struct u16550_dump dump;
    struct u16550_io io = device_io;
    uint8_t low, high, flag;
    uint16_t divisor, fifo_size;
    uint32_t rate;
    int status;
    setup.checks_presence = (uint8_t)below(below(30) ? 2 : 256);
    setup.wait = (uint8_t)below(below(30) ? 3 : 256);
    setup.outputs = any_byte();
    switch (which) {
    case 0:
    case 1:
        told(u16550_init(u, OUT(&config)));
        break;
    case 2:
    case 3:
        told(u16550_init_with(u, &config, OUT(&setup)));
        break;
    case 4:
        told(u16550_set_frame(u, OUT(&config)));
        break;
    case 5:
        told(u16550_set_frame_when_idle(u, &config));
        break;
    case 6:
        told(u16550_set_trigger_level(u, (uint8_t)below(16)));
        break;
    case 7:
        low = any_byte();
        told(u16550_quiesce(u, low, (uint8_t)below(4)));
        break;
    case 8:
        if (told(u16550_config_register_dump(u, OUT(&dump))) == U16550_OK) {
            note_dump(&dump);
            if (below(2))
                dump.lcr = any_byte();
            told(u16550_restore(u, OUT(&dump)));
        }
        break;
    case 9:
        if (told(u16550_attach(u, &low, OUT(&high))) == U16550_OK)
            note(low * 256u + high);
        break;
    case 10:
        if (below(2)) {
            if (told(u16550_find_fifo_size(u, OUT(&fifo_size))) == U16550_OK)
                note(fifo_size);
        } else if (told(u16550_enable_64_byte_fifos(u, OUT(&flag))) == U16550_OK) {
            note(flag);
        }
        break;
    case 11:
        for (size_t i = 0; i < 16; i++)
            failure.expected_msg[i] = failure.actual_msg[i] = 0;
        failure.expected = failure.actual = 0;
        if (told(u16550_test_loopback(u, below(4) ? &failure : NULL)) != U16550_OK) {
            note(failure.expected * 256u + failure.actual);
            note_bytes(failure.expected_msg, 16);
            note_bytes(failure.actual_msg, 16);
        }
        break;
    case 12:
    case 13:
        difference.expected = difference.shown = 0;
        low = (uint8_t)(below(2) ? 0x0b : below(256));
        status = told(u16550_check_configured(u, low, below(4) ? &difference : NULL));
        if (status != U16550_OK)
            note(difference.expected * UINT64_C(65536) + difference.shown);
        break;
    case 14:
        if (told(u16550_check_present(u, OUT(&flag))) == U16550_OK)
            note(flag);
        break;
    case 15:
        told(u16550_check_connected(u));
        break;
    case 16:
        if (told(u16550_nearest(&config, below(2) ? below(40) : (uint32_t)(choose() >> 32), OUT(&nearest))) == U16550_OK)
            note_config(&nearest);
        break;
    case 17:
        if (told(u16550_config_register_dump(u, OUT(&dump))) == U16550_OK) {
            dump.dll = any_byte();
            dump.dlm = (uint8_t)(below(2) ? 0 : below(256));
            if (told(u16550_dump_divisor(OUT(&dump), &divisor)) == U16550_OK)
                note(divisor);
            if (told(u16550_dump_baud_rate(&dump, OUT(&config), &rate)) == U16550_OK)
                note(rate);
        }
        break;
    case 18:
        if (below(2))
            told(u16550_set_spin_limit(u, below(30) ? 1 + below(20) : 0));
        else
            told(u16550_set_fifo_size(u, some_fifo_size()));
        break;
    case 19:
        /* In place of functions of the library those of this program would get addresses of its memory, which are others in each build. */
        if (u16550_get_io(u, &io) == U16550_OK && io.context == NULL)
            break;
        io = device_io;
        told(u16550_set_io(u, below(10) ? &io : NULL));
        if (told(u16550_get_io(u, OUT(&io))) == U16550_OK)
            note(io.read == read_register && io.write == write_register && io.context == (void *)&chip);
        break;
    default:
        if (told(u16550_default_config(OUT(&config))) == U16550_OK)
            note_config(&config);
        note_bytes((const uint8_t *)u16550_text((int)below(200) - 20), 4);
        note_bytes((const uint8_t *)u16550_version(), sizeof U16550_VERSION);
        break;
    }
}

/* A text: bytes of all kinds, or well-formed UTF-8 with a mistake now and then. */
static size_t fill_text(void)
{
    static const char *const pieces[10] = {
        "a", "\n", "\x08", "\x7f", "\xc3\xa4", "\xe2\x82\xac", "\xf0\x9f\x98\x80", "\r", "\xed\x9f\xbf", "\xf4\x8f\xbf\xbf"
    };
    static const char *const wrong[6] = { "\x80", "\xc0\x80", "\xe0\x80\x80", "\xed\xa0\x80", "\xf4\x90\x80\x80", "\xf0\x9f" };
    size_t len = 0, pieces_len = below(12);
    for (size_t i = 0; i < pieces_len; i++) {
        const char *piece = below(40) ? pieces[below(10)] : wrong[below(6)];
        while (*piece)
            bytes[len++] = (uint8_t)*piece++;
    }
    return len;
}

/* A caller who keeps waiting so many times, and counts them down. */
static uint8_t keep_waiting(void *context)
{
    uint32_t *left = (uint32_t *)context;
    if (*left == 0)
        return 0;
    (*left)--;
    return (uint8_t)(1 + below(255));
}

static void call_bytes(struct u16550 *u, uint32_t which)
{
    static const size_t lengths[3] = { 0, SIZE_MAX, SIZE_MAX / 2 + 1 };
    struct u16550_received received[40];
    size_t count = 77, len = some_len();
    uint32_t left;
    uint8_t value = 0, other = 0;
    if (which < 15)
        fill(len);
    switch (which) {
    case 0:
        told(u16550_ready_to_receive(u));
        break;
    case 1:
        told(u16550_ready_to_send(u));
        break;
    case 2:
        if (told(u16550_try_receive_byte(u, OUT(&value))) == U16550_OK)
            note(value);
        break;
    case 3:
        told(u16550_try_send_byte(u, any_byte()));
        break;
    case 4:
        told(u16550_receive_bytes(u, bytes, len, OUT(&count)));
        break;
    case 5:
        if (below(2)) {
            told(u16550_send_bytes(u, bytes, len, OUT(&count)));
        } else {
            /* The parts meet somewhere, or one of them is not there. */
            size_t first_len = below(3) ? len / (1 + below(8)) : len;
            const uint8_t *urgent = below(2) ? &value : NULL, *second = below(20) ? bytes + first_len : NULL;
            value = any_byte();
            told(u16550_send_gathered(u, urgent, below(20) ? bytes : NULL, first_len, second, len - first_len, OUT(&count)));
        }
        break;
    case 6:
        told(u16550_send_burst(u, bytes, len, some_fifo_size(), OUT(&count)));
        break;
    case 7:
        if (told(u16550_try_receive_with_errors(u, OUT(received))) == U16550_OK)
            note(received->byte * 256u + received->errors);
        break;
    case 8:
        for (size_t i = 0; i < 40; i++)
            received[i].byte = received[i].errors = (uint8_t)i;
        told(u16550_receive_with_errors(u, received, len % 40, OUT(&count)));
        for (size_t i = 0; i < 40; i++)
            note(received[i].byte * 256u + received[i].errors);
        break;
    case 9:
        if (below(2)) {
            told(u16550_receive_bytes_exact(u, bytes, len, below(4) ? &count : NULL));
        } else {
            size_t *done = below(4) ? &count : NULL;
            left = below(10);
            told(u16550_receive_bytes_while(u, bytes, len, below(20) ? keep_waiting : NULL, &left, done));
            note(left);
        }
        break;
    case 10:
        told(u16550_send_bytes_exact(u, bytes, len, below(4) ? &count : NULL));
        break;
    case 11: {
        /* Each choice by itself: of two in one list of arguments the compiler says which is first. */
        size_t *done = below(4) ? &count : NULL;
        left = below(10);
        told(u16550_send_bytes_while(u, bytes, len, below(20) ? keep_waiting : NULL, &left, done));
        note(left);
        break;
    }
    case 12:
        told(u16550_read(u, bytes, len, OUT(&count)));
        break;
    case 13:
        told(u16550_write(u, bytes, len, OUT(&count)));
        break;
    case 14:
        told(u16550_write_raw_text(u, (const char *)bytes, len, OUT(&count)));
        break;
    case 15:
        len = fill_text();
        told(u16550_write_text(u, (const char *)bytes, len, below(4) ? &count : NULL));
        break;
    case 16:
        if (below(2)) {
            told(u16550_flush(u));
        } else {
            left = below(10);
            told(u16550_flush_while(u, below(20) ? keep_waiting : NULL, &left));
            note(left);
        }
        break;
    case 17:
        if (told(u16550_read_ready(u, OUT(&value))) == U16550_OK)
            note(value);
        break;
    case 18:
        if (told(u16550_write_ready(u, OUT(&value))) == U16550_OK)
            note(value);
        break;
    case 19:
        if (told(u16550_is_idle(u, OUT(&value))) == U16550_OK)
            note(value);
        break;
    case 20:
        if (told(u16550_is_gone(u, OUT(&value))) == U16550_OK)
            note(value);
        break;
    default:
        len = lengths[below(3)];
        told(u16550_send_bytes(u, below(2) ? bytes : NULL, len, OUT(&count)));
        told(u16550_dll_dlm(u, &value, below(2) ? &other : NULL));
        note(value * 256u + other);
        break;
    }
    note(count);
    note_bytes(bytes, len < ROOM ? len : 0);
}

static void call_registers(struct u16550 *u, uint32_t which)
{
    static int (*const registers[8])(struct u16550 *, uint8_t *) = { u16550_ier, u16550_isr, u16550_lcr, u16550_mcr,
                                                                    u16550_lsr, u16550_msr, u16550_spr, u16550_peek_modem };
    uint8_t value;
    if (which < 8) {
        if (told(registers[which](u, OUT(&value))) == U16550_OK)
            note(value);
        return;
    }
    value = any_byte();
    switch (which) {
    case 8:
        told(u16550_set_modem_control(u, value));
        break;
    case 9:
        told(u16550_set_rts(u, value % 3));
        break;
    case 10:
        told(u16550_set_dtr(u, value % 3));
        break;
    case 11:
        told(u16550_set_break(u, value % 3));
        break;
    case 12:
        told(u16550_enable_interrupts(u, value));
        break;
    case 13:
        told(u16550_disable_interrupts(u, value));
        break;
    default:
        told(u16550_retrigger_interrupts(u));
        break;
    }
}

/*
 * What each call of the rings takes and gives: those that the table of the interface alone has are made by it. At most one argument of a
 * call is a choice: in which order arguments are computed is up to the compiler.
 */
#define DRIVER u
#define BUFFER bytes
#define LEN len
#define BYTE any_byte()
#define INTERRUPTS any_byte()
#define LIMIT (len % 10)
#define ROUNDS below(4)
#define MARK below(30)
#define HOLD (len % 20)
#define RELEASE below(20)
#define BYTE_AT OUT(&value)
#define SIZE_AT OUT(&count)
#define URGENT_AT OUT(&urgent)
#define HANDLED_AT OUT(&handled)
#define DUMP_AT OUT(&dump)
#define NO_CALL(name, ...)
#define ONE_MORE(name, ...) +1
#define MAKE(name, ...)    \
    if (which-- == 0)      \
        told(name(__VA_ARGS__));

/* Has a driver note errors, in memory that is too large seldom, or ends that. */
static void note_errors(struct u16550 *u)
{
    static struct u16550_notes notes;
    static uint8_t noted[4097];
    size_t capacity = below(20) ? 1 + below(40) : below(2) * sizeof noted;
    if (below(3) == 0)
        told(u16550_end_notes(u));
    else if (below(20))
        told(u16550_note_errors(u, OUT(&notes), noted, capacity));
    else
        told(u16550_note_errors(u, &notes, NULL, capacity));
}

static void take_with_errors(struct u16550 *u, size_t len)
{
    struct u16550_received received[40];
    size_t count = 77;
    for (size_t i = 0; i < 40; i++)
        received[i].byte = received[i].errors = (uint8_t)i;
    if (below(20))
        told(u16550_ring_take_with_errors(u, received, len, OUT(&count)));
    else
        told(u16550_ring_take_with_errors(u, NULL, len, &count));
    for (size_t i = 0; i < 40; i++)
        note(received[i].byte * 256u + received[i].errors);
    note(count);
}

static void call_rings(struct u16550 *u, uint32_t which)
{
    struct u16550_handled handled = { 0, 0 };
    struct u16550_urgent urgent = { 0, 0 };
    struct u16550_line_port ports[2];
    struct u16550_dump dump;
    size_t count = 55, len = below(40);
    uint8_t value = 0;
    fill(len);
    switch (which) {
    case 0:
    case 1:
        told(u16550_ring_queue(u, bytes, len, OUT(&count)));
        break;
    case 2:
    case 3:
        told(u16550_ring_take(u, bytes, len, OUT(&count)));
        break;
    case 4:
    case 5:
        note_handled(u16550_ring_handle(u, below(10), OUT(&handled)), &handled);
        break;
    case 6:
    case 7:
        note_handled(u16550_ring_try_handle(u, len % 10, below(4), OUT(&handled)), &handled);
        break;
    case 8:
        told(u16550_ring_service(u, OUT(&count)));
        break;
    case 9:
        told(u16550_ring_queue_urgent(u, any_byte(), OUT(&urgent)));
        break;
    case 10:
        told(u16550_ring_hold_transmit(u));
        break;
    case 11:
        told(u16550_ring_release_transmit(u));
        break;
    case 12:
        if (below(4))
            told(u16550_ring_resume_transmit(u));
        else
            told(u16550_ring_clear_transmit(u, OUT(&count)));
        break;
    case 13:
        if (below(4))
            told(u16550_ring_retrigger(u));
        else
            told(u16550_ring_clear_receive(u, OUT(&count)));
        break;
    case 14:
        told(u16550_ring_restart(u, any_byte()));
        break;
    case 15:
        told(u16550_ring_set_low_mark(u, below(30)));
        break;
    case 16:
        told(u16550_ring_take_low(u, OUT(&value)));
        break;
    case 17:
        told(u16550_ring_take_line(u, OUT(&value)));
        break;
    case 18:
        told(u16550_ring_take_modem(u, OUT(&value)));
        break;
    case 19:
        which = below(0 EACH_CALL(NO_CALL, ONE_MORE));
        EACH_CALL(NO_CALL, MAKE)
        break;
    case 20:
        if (told(u16550_ring_config_register_dump(u, OUT(&dump))) == U16550_OK)
            note_dump(&dump);
        break;
    case 21:
        note_errors(u);
        break;
    case 22:
    case 23:
        take_with_errors(u, len);
        break;
    default:
        for (size_t i = 0; i < 2; i++) {
            ports[i].uart = u;
            ports[i].handled = handled;
            ports[i].status = 0;
            ports[i].enabled = 0;
        }
        count = below(3);
        told(u16550_line_handle(ports, count, len % 10, below(4), OUT(&value)));
        for (size_t i = 0; i < 2; i++) {
            note_handled(ports[i].status, &ports[i].handled);
            note(ports[i].enabled);
        }
        break;
    }
    note(count);
    note(value);
    note(urgent.waits * 256u + urgent.byte);
    note_bytes(bytes, len);
}

/* ---- how long things take: what each call of a configuration takes and gives */

#define CONFIG OUT(&config)
#define FIFO_SIZE fifo_size
#define ACCESS_CLOCKS access
#define BEFORE_CLOCKS time
#define CLOCKS time
#define NANOSECONDS time
#define NUMBER_AT OUT(&found)

/* A time: mostly short, or of any length, or one to which nothing can be added. Of one the nanoseconds just do not fit at 1843200 Hz. */
static uint64_t some_time(void)
{
    uint64_t bits = choose();
    switch (below(8)) {
    case 0:
        return UINT64_MAX - below(1000);
    case 1:
        return UINT64_C(34001038676661446);
    case 2:
    case 3:
        return bits >> below(64);
    default:
        return below(2000);
    }
}

static void compute(uint32_t which)
{
    struct u16550_config config = some_config(), other = some_config();
    uint64_t time = some_time(), access = some_time(), found = 88;
    uint16_t fifo_size = some_fifo_size();
    config.fifo_trigger_level = other.fifo_trigger_level;
    config.data_bits = other.data_bits;
    config.extra_stop_bits = other.extra_stop_bits;
    config.parity = other.parity;
    /* The slowest line: what a large FIFO holds takes more clocks than 32 bits can count. */
    if (below(8) == 0) {
        config.frequency = 16000000;
        config.baud_rate = 1;
        config.has_prescaler = 1;
        config.prescaler_division_factor = 15;
    }
    EACH_OF_CONFIG(MAKE)
    note(found);
}

/* ---- a driver at a bus of two wires */

static struct u16550_bus bus;
static int is_at_bus;

/* A call over the bus at random. */
static void call_bus(uint32_t which)
{
    struct u16550_received received[20];
    size_t count = 66, len = below(8) ? below(20) : below(40);
    size_t *done = below(4) ? &count : NULL;
    uint8_t value = 9;
    fill(len);
    switch (which) {
    case 0:
    case 1:
        told(u16550_bus_start_sending(&bus));
        break;
    case 2:
        told(u16550_bus_try_finish(&bus));
        break;
    case 3:
        told(u16550_bus_is_sending(&bus, OUT(&value)));
        break;
    case 4:
        told(u16550_bus_flush(&bus));
        break;
    case 5:
        told(u16550_bus_is_idle(&bus, OUT(&value)));
        break;
    case 6:
        told(u16550_bus_lsr(&bus, OUT(&value)));
        break;
    case 7:
        told(u16550_bus_send_bytes(&bus, below(20) ? bytes : NULL, len, &count));
        break;
    case 8:
        told(u16550_bus_send_bytes_exact(&bus, bytes, len, done));
        break;
    case 9:
        told(u16550_bus_receive_bytes(&bus, bytes, len, OUT(&count)));
        break;
    default:
        for (size_t i = 0; i < 20; i++)
            received[i].byte = received[i].errors = (uint8_t)i;
        told(u16550_bus_receive_with_errors(&bus, received, len % 20, OUT(&count)));
        for (size_t i = 0; i < 20; i++)
            note(received[i].byte * 256u + received[i].errors);
        break;
    }
    note(count);
    note(value);
    note_bytes(bytes, len);
}

/* Some calls over a bus that is made of a driver, which mostly is one again in the end. */
static void use_bus(struct u16550 *u)
{
    struct u16550_direction direction;
    uint32_t calls = below(20);
    uint8_t outputs = any_byte();
    if (is_at_bus)
        return;
    direction.line = (uint8_t)(below(30) ? below(2) : below(256));
    direction.sends_when_set = (uint8_t)(below(30) ? below(2) : below(256));
    if (told(u16550_direction_receiving(below(30) ? &direction : NULL, outputs, OUT(&outputs))) == U16550_OK)
        note(outputs);
    if (below(2))
        told(u16550_ring_end(u));
    is_at_bus = 1;
    told(u16550_bus_new(below(30) ? &bus : NULL, u, OUT(&direction)));
    for (uint32_t i = 0; i < calls; i++)
        call_bus(below(11));
    if (below(8))
        told(u16550_bus_end(below(30) ? &bus : NULL, u));
    is_at_bus = 0;
}

/* How often each call was made. */
static uint32_t times[7][32];
enum { OF_CONFIG = 0 EACH_OF_CONFIG(ONE_MORE) };

static void call(struct u16550 *u)
{
    static const uint32_t kinds[26] = { 0, 0, 1, 1, 1, 1, 1, 1, 1, 1, 2, 2, 2, 2, 3, 3, 3, 3, 3, 3, 3, 3, 4, 5, 6, 6 };
    uint32_t kind = kinds[below(26)];
    uint32_t which =
        below(kind == 0 ? 21 : kind == 1 ? 22 : kind == 2 ? 15 : kind == 3 ? 25 : kind == 6 ? OF_CONFIG : kind == 5 || below(4) ? 1 : 11);
    times[kind][which]++;
    is_null = below(50) == 0;
    if (below(200) == 0)
        u = NULL;
    note(0xabc0000u + kind * 64 + which);
    switch (kind) {
    case 0:
        call_settings(u, which);
        break;
    case 1:
        call_bytes(u, which);
        break;
    case 2:
        call_registers(u, which);
        break;
    case 3:
        call_rings(u, which);
        break;
    case 5:
        use_bus(u);
        break;
    case 6:
        compute(which);
        break;
    default:
        if (which == 0)
            new_rings(u);
        else
            make_driver(u, which - 1);
        break;
    }
}

/* Now and then a call comes into the middle of another over the same driver, as one of an interrupt handler may. */
static void meanwhile(void)
{
    static uint8_t kept[ROOM];
    if (is_nested || below(400))
        return;
    is_nested = 1;
    nested++;
    for (size_t i = 0; i < ROOM; i++)
        kept[i] = bytes[i];
    /* A driver that is made in the place of one at a bus would make its chip anew, in the middle of an access. */
    if (is_at_bus)
        call_bus(below(11));
    else
        call(&uart);
    for (size_t i = 0; i < ROOM; i++)
        bytes[i] = kept[i];
    is_nested = 0;
}

/* Makes so many calls. Prints the hash after each thousand, and in the end how many calls were never made. */
static void compare(uint64_t seed, uint32_t total)
{
    static const uint32_t counts[7] = { 21, 22, 15, 25, 11, 1, OF_CONFIG };
    uint32_t never = 0;
    choices = seed;
    hash = 1;
    for (uint32_t made = 0; made < total; made++) {
        if (made % 60 == 0) {
            static const struct device none = { { 0 }, 0, 0, 0, 0x60, { 0 }, 0, 0 };
            chip = none;
            chip.kind = (uint8_t)below(4);
            if (below(4))
                told(u16550_new(&uart, &device_io));
            else
                told(u16550_new_design_ware(&uart, &chips[0], &device_io, 1 + below(6)));
            told(u16550_set_spin_limit(&uart, 1 + below(20)));
            if (below(2))
                new_rings(&uart);
        }
        call(&uart);
        note_driver(&uart);
        if (made % 1000 == 999 || made + 1 == total) {
            print_number(made + 1, 10, " calls: ");
            print_number(hash, 16, "\n");
        }
    }
    for (uint32_t kind = 0; kind < 7; kind++) {
        for (uint32_t which = 0; which < counts[kind]; which++)
            never += times[kind][which] == 0;
    }
    print_number(nested, 10, " calls in the middle of others; ");
    print_number(never, 10, " kinds of calls were never made\n");
}
