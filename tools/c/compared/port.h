/*
 * All calls of the chip and of the port at random, and a hash of all that they do: each result, each byte that is written, and each field of
 * the structs afterwards. The same program runs over the MIR that is proved, by the header of the source, and over the C, and prints the same.
 */
#if defined(HEADER_OF_LIBRARY)
#include "uart_16550.h"
#include "uart_16550_state.h"
#else
#include "uart_port.h"
#endif

#include "choices.h"

enum { CHIPS = 3, PORTS = 2, ROOM = 160, STATE_ROOM = UART_STATE_MOST + 29 };

static struct uart_chip chips[CHIPS];
static struct uart_port ports[PORTS];
static struct uart_clock clocks[PORTS];
static uint8_t bytes[ROOM], state[STATE_ROOM];
static size_t state_len;

static uint32_t told(uint32_t status)
{
    note(status);
    return status;
}

/* ---- what is seen */

static void note_transmitter(const struct uart_transmitter *transmitter)
{
    note(transmitter->overflows);
    note(transmitter->char_ticks);
    note(transmitter->ticks_left);
    note(transmitter->is_shifting);
    note(transmitter->shift_byte);
    note(transmitter->is_thr_pending);
    note(transmitter->fifo_size);
    note(transmitter->queue.len);
    note_bytes(transmitter->queue.items, UART_FIFO_ROOM);
    note(transmitter->wire.len);
    note(transmitter->wire.capacity);
    note_bytes(transmitter->wire.items, UART_WIRE_ROOM);
}

static void note_receiver(const struct uart_receiver *receiver)
{
    note(receiver->timeout_ticks);
    note(receiver->timeout_limit);
    note(receiver->is_overrun);
    note(receiver->is_front_reported);
    note(receiver->last_byte);
    note(receiver->trigger);
    note(receiver->fifo_size);
    note(receiver->queue.len);
    for (size_t i = 0; i < UART_FIFO_ROOM; i++) {
        const struct uart_character *character = &receiver->queue.items[i];
        note(character->byte * UINT64_C(65536) + character->errors * UINT64_C(256) + character->is_looped);
    }
}

static void note_chip(const struct uart_chip *chip)
{
    const struct uart_latches *latches = &chip->latches;
    const struct uart_modem *modem = &chip->modem;
    note_transmitter(&chip->transmitter);
    note_receiver(&chip->receiver);
    note(latches->ier * UINT64_C(65536) + latches->lcr * UINT64_C(256) + latches->mcr);
    note(latches->scr * UINT64_C(65536) + latches->dll * UINT64_C(256) + latches->dlm);
    note(modem->inputs * UINT64_C(65536) + modem->lines * UINT64_C(256) + modem->deltas);
    note(chip->model * UINT64_C(65536) + chip->fifo * UINT64_C(256) + chip->cuts);
}

static void note_port(const struct uart_port *port)
{
    const struct uart_told *last = &port->told;
    note_chip(&port->chip);
    note(last->line * UINT64_C(65536) + last->has_room * UINT64_C(256) + last->has_looked);
    note(last->spare);
}

static void note_todo(const struct uart_todo *todo)
{
    note(todo->ready);
    note(todo->signal * UINT64_C(65536) + todo->level * UINT64_C(256) + todo->has_moved);
    note(todo->has_room);
}

/* ---- what is at random */

static void fill(size_t len)
{
    for (size_t i = 0; i < len; i++)
        bytes[i] = any_byte();
}

static uint16_t any_number(void)
{
    return (uint16_t)below(65536);
}

/* A number that is mostly small. */
static uint8_t small(uint32_t most)
{
    return below(6) ? (uint8_t)below(most) : any_byte();
}

/* How many characters FIFOs hold: a number that there is, or mostly one. */
static uint8_t some_size(void)
{
    static const uint8_t sizes[6] = { 16, 16, 32, 64, 64, 128 };
    return sizes[below(6)];
}

static uint8_t any_size(void)
{
    return below(6) ? some_size() : any_byte();
}

/* A length of a queue in FIFOs of so many characters. */
static uint8_t some_len(uint8_t fifo_size)
{
    return below(2) ? small(18) : (uint8_t)(fifo_size - 1 + below(3));
}

/* A struct of any bytes, but each field mostly one that it may have. */
static void spoil_transmitter(struct uart_transmitter *transmitter)
{
    transmitter->overflows = below(3) ? below(3) : below(2) ? UINT64_MAX : choose();
    transmitter->char_ticks = below(4) ? (uint16_t)below(5) : any_number();
    transmitter->ticks_left = below(4) ? (uint16_t)below(5) : any_number();
    transmitter->is_shifting = small(2);
    transmitter->shift_byte = any_byte();
    transmitter->is_thr_pending = small(2);
    transmitter->fifo_size = any_size();
    transmitter->queue.len = some_len(transmitter->fifo_size);
    for (size_t i = 0; i < UART_FIFO_ROOM; i++)
        transmitter->queue.items[i] = any_byte();
    transmitter->wire.len = small(66);
    transmitter->wire.capacity = below(2) ? UART_WIRE_ROOM : small(70);
    for (size_t i = 0; i < UART_WIRE_ROOM; i++)
        transmitter->wire.items[i] = any_byte();
}

static void spoil_receiver(struct uart_receiver *receiver)
{
    static const uint8_t levels[4] = { 1, 4, 8, 14 };
    receiver->timeout_ticks = below(4) ? (uint16_t)below(20) : any_number();
    receiver->timeout_limit = below(4) ? (uint16_t)(4 * below(5)) : any_number();
    receiver->is_overrun = small(2);
    receiver->is_front_reported = small(2);
    receiver->last_byte = any_byte();
    receiver->trigger = below(6) ? levels[below(4)] : any_byte();
    receiver->fifo_size = any_size();
    receiver->queue.len = some_len(receiver->fifo_size);
    for (size_t i = 0; i < UART_FIFO_ROOM; i++) {
        receiver->queue.items[i].byte = any_byte();
        receiver->queue.items[i].errors = below(6) ? (uint8_t)(below(8) << 2) : any_byte();
        receiver->queue.items[i].is_looped = small(2);
    }
}

static void spoil(struct uart_chip *chip)
{
    spoil_transmitter(&chip->transmitter);
    spoil_receiver(&chip->receiver);
    if (below(3))
        chip->receiver.fifo_size = chip->transmitter.fifo_size;
    chip->latches.ier = small(16);
    chip->latches.lcr = any_byte();
    chip->latches.mcr = small(32);
    chip->latches.scr = any_byte();
    chip->latches.dll = any_byte();
    chip->latches.dlm = any_byte();
    chip->modem.inputs = (uint8_t)(below(6) ? below(16) << 4 : any_byte());
    chip->modem.lines = (uint8_t)(below(6) ? below(16) << 4 : any_byte());
    chip->modem.deltas = small(16);
    chip->model = small(2);
    chip->fifo = small(2);
    chip->cuts = small(2);
}

/* What the monitor was told last, which need not be so. */
static void spoil_told(struct uart_told *told)
{
    told->line = small(2);
    told->has_room = small(2);
    told->has_looked = small(2);
    told->spare = small(4);
}

/* Changes one field of a chip that is sound, so that what refuses one comes to each of its questions. */
static void spoil_one(struct uart_chip *chip)
{
    struct uart_chip other = *chip;
    size_t place;
    spoil(&other);
    switch (below(22)) {
    case 0:
        chip->transmitter.queue.len = other.transmitter.queue.len;
        break;
    case 1:
        chip->transmitter.wire.len = other.transmitter.wire.len;
        break;
    case 2:
        chip->transmitter.wire.capacity = other.transmitter.wire.capacity;
        break;
    case 3:
        chip->transmitter.char_ticks = other.transmitter.char_ticks;
        break;
    case 4:
        chip->transmitter.ticks_left = other.transmitter.ticks_left;
        break;
    case 5:
        chip->transmitter.is_shifting = other.transmitter.is_shifting;
        break;
    case 6:
        chip->receiver.queue.len = other.receiver.queue.len;
        break;
    case 7:
        chip->receiver.timeout_ticks = other.receiver.timeout_ticks;
        break;
    case 8:
        chip->receiver.timeout_limit = other.receiver.timeout_limit;
        break;
    case 9:
        place = below(below(2) ? UART_FIFO_SIZE : UART_FIFO_ROOM);
        chip->receiver.queue.items[place].errors = any_byte();
        break;
    case 10:
        chip->receiver.trigger = other.receiver.trigger;
        break;
    case 11:
        chip->latches.ier = other.latches.ier;
        break;
    case 12:
        chip->latches.mcr = other.latches.mcr;
        break;
    case 13:
        chip->modem.inputs = other.modem.inputs;
        break;
    case 14:
        chip->modem.lines = other.modem.lines;
        break;
    case 15:
        chip->modem.deltas = other.modem.deltas;
        break;
    case 16:
        chip->model = other.model;
        break;
    case 17:
        chip->fifo = other.fifo;
        break;
    case 18:
        chip->transmitter.is_thr_pending = other.transmitter.is_thr_pending;
        chip->receiver.is_front_reported = other.receiver.is_front_reported;
        chip->receiver.is_overrun = other.receiver.is_overrun;
        break;
    case 19:
        chip->receiver.fifo_size = other.receiver.fifo_size;
        break;
    case 20:
        chip->transmitter.fifo_size = chip->receiver.fifo_size = other.transmitter.fifo_size;
        break;
    default:
        chip->transmitter.wire.len = UART_WIRE_ROOM;
        chip->cuts = other.cuts;
        break;
    }
}

static uint8_t some_offset(void)
{
    return below(10) ? (uint8_t)below(8) : any_byte();
}

/* What a guest writes into a register. */
static uint8_t some_value(uint8_t offset)
{
    static const uint8_t fifos[8] = { 0x01, 0x07, 0xc1, 0x81, 0x41, 0x00, 0x03, 0x05 };
    static const uint8_t frames[4] = { 0x03, 0x83, 0x00, 0x02 };
    static const uint8_t outputs[6] = { 0x0b, 0x0b, 0x1b, 0x03, 0x08, 0x00 };
    if (below(8) == 0)
        return any_byte();
    switch (offset & 7) {
    case UART_OFFSET_IER:
        return (uint8_t)(below(3) ? 0x05 | below(16) : below(16));
    case UART_OFFSET_FCR:
        return fifos[below(8)];
    case UART_OFFSET_LCR:
        return below(8) ? 0x03 : frames[below(4)];
    case UART_OFFSET_MCR:
        return outputs[below(6)];
    default:
        return any_byte();
    }
}

/* Which register a guest writes: mostly data. */
static uint8_t some_written(void)
{
    return below(3) ? UART_OFFSET_DATA : some_offset();
}

static uint8_t some_errors(void)
{
    return below(4) ? 0 : below(4) ? (uint8_t)(below(8) << 2) : any_byte();
}

static uint8_t some_lines(void)
{
    return below(6) ? (uint8_t)(below(16) << 4) : any_byte();
}

/* ---- the calls: how often each was made, of each of the three arms */

enum { ARMS = 3, CALLS_OF_ARM = 24 };
static uint32_t times[ARMS][CALLS_OF_ARM];
static const uint32_t counts[ARMS] = { 17, 13, 5 };

/* Arguments are computed one after the other, since C says nothing of their order. */
static uint32_t new_chip(struct uart_chip *chip)
{
    uint8_t model = small(2), cuts = small(2);
    uint16_t ticks = (uint16_t)(below(4) ? 1 + below(4) : below(3) ? below(1100) : any_number());
    uint8_t capacity = (uint8_t)(below(3) ? below(66) : below(256));
    if (below(2))
        return uart_chip_new(chip, model, ticks, capacity, cuts);
    return uart_chip_new_sized(chip, model, any_size(), ticks, capacity, cuts);
}

static void call_chip(struct uart_chip *chip, struct uart_chip *other, uint32_t which)
{
    uint8_t offset, errors;
    size_t len;
    switch (which) {
    case 0:
        told(new_chip(chip));
        break;
    case 1:
        if (below(2))
            spoil_one(other);
        told(uart_chip_load(chip, other));
        break;
    case 2:
        uart_chip_save(chip, other);
        note_chip(other);
        break;
    case 3:
    case 4:
        note(uart_chip_read(chip, some_offset()));
        break;
    case 5:
    case 6:
        offset = some_written();
        uart_chip_write(chip, offset, some_value(offset));
        break;
    case 7:
    case 8:
        uart_chip_ticks(chip, below(3) ? (uint16_t)below(20) : any_number());
        break;
    case 9:
        errors = some_errors();
        told(uart_chip_arrive(chip, any_byte(), errors));
        break;
    case 10:
        told(uart_chip_set_lines(chip, some_lines()));
        break;
    case 11:
        note(uart_chip_is_interrupting(chip));
        break;
    case 12:
        len = below(ROOM);
        fill(ROOM);
        note(uart_chip_take_wire(chip, bytes, len));
        note_bytes(bytes, ROOM);
        break;
    case 13:
        note(uart_chip_wire_len(chip));
        note(uart_chip_wire_room(chip));
        break;
    case 14:
        note(uart_chip_receive_room(chip));
        break;
    case 15:
        note(uart_chip_waiting_len(chip));
        note(uart_chip_held_len(chip));
        break;
    default:
        note(uart_chip_divisor(chip));
        break;
    }
}

/* What a monitor with a clock does behind a call of the port, or with flags that no call gives. */
static void call_clock(struct uart_clock *clock, uint8_t offset, struct uart_todo *todo)
{
    switch (below(5)) {
    case 0:
        note(uart_clock_after_read(clock, offset, todo));
        break;
    case 1:
        note(uart_clock_after_write(clock, offset, todo));
        break;
    case 2:
        uart_clock_after_host(clock, todo);
        break;
    case 3:
        note(uart_clock_pass_time(clock));
        break;
    default:
        clock->is_owed = any_byte();
        break;
    }
    note(clock->is_owed);
}

static uint32_t new_port(struct uart_port *port)
{
    uint8_t model = small(2), size = any_size();
    return uart_port_new_sized(port, model, size);
}

static void call_port(struct uart_port *port, struct uart_chip *saved, uint32_t which)
{
    struct uart_todo todo = { 77, 5, 6, 7, 8 };
    uint8_t offset, errors;
    size_t len;
    switch (which) {
    case 0:
        if (below(2))
            uart_port_new(port, small(2));
        else
            told(new_port(port));
        break;
    case 1:
    case 2:
        note(uart_port_read(port, some_offset(), &todo));
        break;
    case 3:
    case 4:
        offset = some_written();
        uart_port_write(port, offset, some_value(offset), &todo);
        break;
    case 5:
    case 6:
        len = below(3) ? below(4) : below(3) ? below(40) : below(ROOM);
        fill(len);
        note(uart_port_receive(port, bytes, len, &todo));
        break;
    case 7:
        errors = some_errors();
        told(uart_port_receive_one(port, any_byte(), errors, &todo));
        break;
    case 8:
        told(uart_port_set_lines(port, some_lines(), &todo));
        break;
    case 9:
        note_bytes(uart_port_output(port), UART_WIRE_ROOM);
        uart_port_take_output(port, below(8) ? below(20) : (size_t)choose(), &todo);
        break;
    case 10:
        note(uart_port_level(port));
        note(uart_port_is_breaking(port));
        break;
    case 11:
        offset = some_offset();
        if (below(2)) {
            note(uart_port_read(port, offset, &todo));
        } else {
            todo.signal = small(2);
            todo.level = small(2);
            todo.has_moved = small(2);
        }
        call_clock(&clocks[port - ports], offset, &todo);
        break;
    default:
        if (below(2)) {
            uart_port_save(port, saved);
            note_chip(saved);
        }
        if (below(2))
            spoil_one(saved);
        told(uart_port_load(port, saved, &todo));
        break;
    }
    note_todo(&todo);
}

/* Makes of a state one of the first version: a version, the registers, and the output, without magic and parts. */
static void make_first_version(void)
{
    enum { REGISTERS = 77, OUTPUT = 65, START = 16, OUTPUT_START = 106 };
    uint8_t made[4 + REGISTERS + OUTPUT] = { 1 };
    for (size_t i = 0; i < REGISTERS; i++)
        made[4 + i] = state[START + i];
    for (size_t i = 0; i < OUTPUT; i++)
        made[4 + REGISTERS + i] = state[OUTPUT_START + i];
    for (size_t i = 0; i < sizeof made; i++)
        state[i] = made[i];
    state_len = below(8) ? sizeof made : below(STATE_ROOM);
}

/* States as bytes, of which some are spoiled. */
static void call_state(struct uart_chip *chip, uint32_t which)
{
    size_t place, detail = 99;
    switch (which) {
    case 0:
        for (size_t i = 0; i < STATE_ROOM; i++)
            state[i] = 0;
        if (below(2)) {
            told(uart_chip_to_bytes(chip, state));
            state_len = UART_STATE_LEN;
        } else {
            state_len = uart_chip_to_bytes_sized(chip, state, below(4) ? UART_STATE_MOST : below(UART_STATE_MOST));
            note(state_len);
        }
        note_bytes(state, STATE_ROOM);
        break;
    case 1:
        place = below(STATE_ROOM);
        state[place] = small(4);
        break;
    case 2:
        state_len = below(3) ? state_len : below(STATE_ROOM);
        break;
    case 3:
        uart_chip_to_bytes(chip, state);
        make_first_version();
        break;
    default:
        told(uart_chip_from_bytes(chip, state, state_len, &detail));
        note(detail);
        break;
    }
}

/* One call at random. Most are of a port; a struct is spoiled now and then. */
static void call(void)
{
    static const uint32_t arms[10] = { 0, 0, 0, 0, 1, 1, 1, 1, 1, 2 };
    uint32_t arm = arms[below(10)], which = below(counts[arm]);
    struct uart_chip *chip = &chips[below(CHIPS)];
    struct uart_port *port = &ports[below(PORTS)];
    if (below(400) == 0)
        spoil(below(2) ? chip : &port->chip);
    if (below(200) == 0)
        spoil_told(&port->told);
    if (which == 0 && arm < 2 && below(8))
        which = 1 + below(counts[arm] - 1);
    times[arm][which]++;
    note(0xabc0000u + arm * 64 + which);
    if (arm == 0)
        call_chip(chip, &chips[below(CHIPS)] == chip ? &ports[0].chip : &chips[(size_t)(chip - chips + 1) % CHIPS], which);
    else if (arm == 1)
        call_port(port, chip, which);
    else
        call_state(chip, which);
    note_chip(chip);
    note_port(port);
}

#if !defined(HEADER_OF_LIBRARY)
/* Prints something, which nothing else does, unless each function refuses each pointer that is null, and then changes nothing. */
static void refuse_null(void)
{
    static struct uart_chip chip, other;
    static struct uart_port port;
    struct uart_clock clock = { 0 };
    struct uart_todo todo = { 0 };
    uint64_t before;
    size_t detail = 77;
    uint32_t wrong = 0;
    uart_chip_new(&chip, UART_16550A, 1, UART_WIRE_ROOM, UART_CUT);
    uart_chip_save(&chip, &other);
    uart_port_new(&port, UART_16550A);
    note_chip(&chip);
    note_chip(&other);
    note_port(&port);
    before = hash;
    wrong += uart_chip_new(NULL, UART_16550A, 1, 1, UART_CUT) != UART_NULL_POINTER;
    wrong += uart_chip_new_sized(NULL, UART_16550A, 64, 1, 1, UART_CUT) != UART_NULL_POINTER;
    wrong += uart_chip_load(NULL, &other) != UART_NULL_POINTER || uart_chip_load(&chip, NULL) != UART_NULL_POINTER;
    uart_chip_save(NULL, &other);
    uart_chip_save(&chip, NULL);
    wrong += uart_chip_read(NULL, UART_OFFSET_LSR) != 0;
    uart_chip_write(NULL, UART_OFFSET_LCR, 3);
    uart_chip_ticks(NULL, 9);
    wrong += uart_chip_arrive(NULL, 1, 0) != UART_NULL_POINTER || uart_chip_set_lines(NULL, 0) != UART_NULL_POINTER;
    wrong += uart_chip_is_interrupting(NULL) != 0 || uart_chip_take_wire(NULL, bytes, 1) != 0 || uart_chip_take_wire(&chip, NULL, 0) != 0;
    wrong += uart_chip_wire_len(NULL) != 0 || uart_chip_wire_room(NULL) != 0 || uart_chip_receive_room(NULL) != 0;
    wrong += uart_chip_waiting_len(NULL) != 0 || uart_chip_held_len(NULL) != 0 || uart_chip_divisor(NULL) != 0;
    uart_port_new(NULL, UART_16550A);
    wrong += uart_port_new_sized(NULL, UART_16550A, 64) != UART_NULL_POINTER;
    wrong += uart_port_read(NULL, UART_OFFSET_ISR, &todo) != 0 || uart_port_read(&port, UART_OFFSET_ISR, NULL) != 0;
    uart_port_write(NULL, UART_OFFSET_DATA, 1, &todo);
    uart_port_write(&port, UART_OFFSET_DATA, 1, NULL);
    wrong += uart_port_receive(NULL, bytes, 1, &todo) != 0 || uart_port_receive(&port, NULL, 1, &todo) != 0;
    wrong += uart_port_receive(&port, bytes, 1, NULL) != 0;
    wrong += uart_port_receive_one(NULL, 1, 0, &todo) != UART_NULL_POINTER || uart_port_receive_one(&port, 1, 0, NULL) != UART_NULL_POINTER;
    wrong += uart_port_set_lines(NULL, 0, &todo) != UART_NULL_POINTER || uart_port_set_lines(&port, 0, NULL) != UART_NULL_POINTER;
    wrong += uart_port_output(NULL) != NULL || uart_port_level(NULL) != 0 || uart_port_is_breaking(NULL) != 0;
    uart_port_take_output(NULL, 1, &todo);
    uart_port_take_output(&port, 1, NULL);
    uart_port_save(NULL, &other);
    uart_port_save(&port, NULL);
    wrong += uart_port_load(NULL, &other, &todo) != UART_NULL_POINTER || uart_port_load(&port, NULL, &todo) != UART_NULL_POINTER;
    wrong += uart_port_load(&port, &other, NULL) != UART_NULL_POINTER;
    wrong += uart_clock_after_read(NULL, 0, &todo) != 0 || uart_clock_after_read(&clock, 0, NULL) != 0;
    wrong += uart_clock_after_write(NULL, 0, &todo) != 0 || uart_clock_after_write(&clock, 0, NULL) != 0;
    uart_clock_after_host(NULL, &todo);
    uart_clock_after_host(&clock, NULL);
    wrong += uart_clock_pass_time(NULL) != 0;
    wrong += uart_chip_to_bytes(NULL, state) != UART_STATE_NULL_POINTER || uart_chip_to_bytes(&chip, NULL) != UART_STATE_NULL_POINTER;
    wrong += uart_chip_to_bytes_sized(NULL, state, STATE_ROOM) != 0 || uart_chip_to_bytes_sized(&chip, NULL, STATE_ROOM) != 0;
    wrong += uart_chip_from_bytes(NULL, state, 1, &detail) != UART_STATE_NULL_POINTER;
    wrong += uart_chip_from_bytes(&other, NULL, 0, &detail) != UART_STATE_NULL_POINTER;
    wrong += uart_chip_from_bytes(&other, state, 1, NULL) != UART_STATE_NULL_POINTER || detail != 77;
    hash = 1;
    note_chip(&chip);
    note_chip(&other);
    note_port(&port);
    wrong += hash != before || todo.ready != 0 || todo.signal != 0;
    if (wrong)
        print_number(wrong, 10, " functions do not refuse null\n");
}
#endif

/* Makes so many calls. Prints the hash after each thousand, and in the end how many calls were never made. */
static void compare(uint64_t seed, uint32_t total)
{
    uint32_t never = 0;
    choices = seed;
    hash = 1;
#if !defined(HEADER_OF_LIBRARY)
    refuse_null();
    hash = 1;
#endif
    for (uint32_t made = 0; made < total; made++) {
        if (made % 400 == 0) {
            for (size_t i = 0; i < CHIPS; i++) {
                uint8_t cuts = (uint8_t)below(2);
                told(uart_chip_new_sized(&chips[i], UART_16550A, some_size(), (uint16_t)(1 + i), UART_WIRE_ROOM, cuts));
            }
            for (size_t i = 0; i < PORTS; i++) {
                told(uart_port_new_sized(&ports[i], UART_16550A, some_size()));
                note_port(&ports[i]);
            }
        }
        call();
        if (made % 1000 == 999 || made + 1 == total) {
            print_number(made + 1, 10, " calls: ");
            print_number(hash, 16, "\n");
        }
    }
    for (uint32_t arm = 0; arm < ARMS; arm++) {
        for (uint32_t which = 0; which < counts[arm]; which++)
            never += times[arm][which] == 0;
    }
    print_number(never, 10, " kinds of calls were never made\n");
}
