/*
 * uart_16550_state.h - a saved chip as bytes, and back: for a file, for another machine, or for a monitor in Rust, whose
 * crate uart_16550_chip reads and writes the same bytes. The layout is in STATE.md of that crate.
 *
 * To save a port, call uart_port_save and then uart_chip_to_bytes. To restore one, call uart_chip_from_bytes and then
 * uart_port_load. Of a chip without a port it is uart_chip_save and uart_chip_load. Of one with FIFOs of more than 16 characters it is
 * uart_chip_to_bytes_sized in the place of uart_chip_to_bytes.
 *
 * The functions are by hand, not proved, and move bytes alone: whether a chip can be what they read is for uart_port_load or
 * uart_chip_load to say. Whatever bytes there are, they stay within them. A level of the interrupt line, and what the monitor
 * was told last, are not saved: uart_port_load tells them anew.
 */
#ifndef UART_16550_STATE_H
#define UART_16550_STATE_H

#include "uart_16550.h"

#ifdef __cplusplus
extern "C" {
#endif

/* How many bytes a state is with FIFOs of 16, which uart_chip_to_bytes writes; how many it is at most; and its version. */
#define UART_STATE_LEN 171
#define UART_STATE_MOST 528
#define UART_STATE_VERSION 2

/* What uart_chip_from_bytes returns, and what it then writes to *detail. */
enum uart_state_status {
    UART_STATE_OK = 0,           /* 0 */
    UART_STATE_NONE = 1,         /* the bytes do not begin as a state does: 0 */
    UART_STATE_BAD_VERSION = 2,  /* a version that is not known: the version */
    UART_STATE_BAD_LENGTH = 3,   /* too few bytes, or too many: the offset where, 8 for those of all */
    UART_STATE_UNKNOWN_PART = 4, /* a part that must not be skipped is not known: its kind */
    UART_STATE_MISSING_PART = 5, /* a part is not there: its kind */
    UART_STATE_BAD_VALUE = 6,    /* a byte that its field cannot have: the offset of the byte */
    UART_STATE_LARGER = 8        /* of uart_chip_to_bytes: the FIFOs are not of 16 */
};

/* ------------------------------------------------------------------ the layout
 *
 * What follows up to uart_chip_to_bytes_sized is for the functions below, and not to be used otherwise.
 */

enum uart_state_layout {
    UART_STATE_MAGIC_LEN = 6,
    UART_STATE_LENGTH_OFFSET = 8,
    UART_STATE_HEADER = 12,
    UART_STATE_PART_HEADER = 4,
    UART_STATE_CHIP = 1,       /* the kinds of parts, and how many bytes each has behind its header */
    UART_STATE_CHIP_LEN = 86,
    UART_STATE_OUTPUT = 2,
    UART_STATE_OUTPUT_LEN = 65,
    UART_STATE_FIFOS = 3,      /* what FIFOs of more than 16 have beyond 16; how many bytes it is depends on their size */
    UART_STATE_FIFOS_HEAD = 3,
    UART_STATE_LEN_1 = 146     /* how many bytes a state of version 1 is */
};

/* Returns byte number place of "u16550", with which a state begins. */
static inline uint8_t uart_state_magic(size_t place)
{
    static const uint8_t magic[UART_STATE_MAGIC_LEN] = { 0x75, 0x31, 0x36, 0x35, 0x35, 0x30 };

    return magic[place];
}

/* Returns the trigger level with this number, 0 to 3. */
static inline uint8_t uart_state_level(uint8_t number)
{
    static const uint8_t levels[4] = { 1, 4, 8, 14 };

    return levels[number & 3];
}

/* ---- writing: each function writes at *to, and moves it behind what it wrote */

static inline void uart_state_put(uint8_t **to, uint8_t byte)
{
    *(*to)++ = byte;
}

/* A number of so many bytes, the lowest first. */
static inline void uart_state_put_number(uint8_t **to, uint64_t number, unsigned len)
{
    for (; len > 0; len--, number >>= 8)
        uart_state_put(to, (uint8_t)(number & 0xff));
}

/* The numbers and places of FIFOs: how many characters one holds, how many of so many are beyond 16, and how many wait. */
static inline uint8_t uart_state_size(uint8_t fifo_size)
{
    return fifo_size == 32 || fifo_size == 64 || fifo_size == 128 ? fifo_size : UART_FIFO_SIZE;
}

static inline uint8_t uart_state_beyond(uint8_t count)
{
    return (uint8_t)(count > UART_FIFO_SIZE ? count - UART_FIFO_SIZE : 0);
}

static inline uint8_t uart_state_waiting(uint8_t len, uint8_t fifo_size)
{
    return len < uart_state_size(fifo_size) ? len : uart_state_size(fifo_size);
}

/* How many bytes the part with the rest of such FIFOs is. Of eight characters one byte says which came by loopback. */
static inline uint16_t uart_state_fifos_len(uint8_t fifo_size)
{
    uint8_t room = uart_state_beyond(uart_state_size(fifo_size));

    return (uint16_t)(UART_STATE_FIFOS_HEAD + 3 * room + room / 8);
}

/* A list, with its length in front, in the room that it may take. A length beyond the room counts as the room. */
static inline void uart_state_put_list(uint8_t **to, const uint8_t *items, uint8_t len, uint8_t room)
{
    uint8_t i;

    len = len < room ? len : room;
    uart_state_put(to, len);
    for (i = 0; i < room; i++)
        uart_state_put(to, i < len ? items[i] : 0);
}

/* What is before the body of a part. A reader that does not know the kind refuses the state. */
static inline void uart_state_put_part(uint8_t **to, uint8_t kind, uint16_t len)
{
    uart_state_put(to, kind);
    uart_state_put(to, 1);
    uart_state_put_number(to, len, 2);
}

/* The characters that wait: their bytes, their errors, and which of them came by loopback. */
static inline void uart_state_put_characters(uint8_t **to, const struct uart_characters *queue)
{
    uint8_t len = queue->len < UART_FIFO_SIZE ? queue->len : UART_FIFO_SIZE;
    unsigned looped = 0;
    uint8_t i;

    uart_state_put(to, len);
    for (i = 0; i < UART_FIFO_SIZE; i++)
        uart_state_put(to, i < len ? queue->items[i].byte : 0);
    for (i = 0; i < UART_FIFO_SIZE; i++)
        uart_state_put(to, i < len ? queue->items[i].errors : 0);
    for (i = 0; i < len; i++)
        looped |= (unsigned)(queue->items[i].is_looped != 0) << i;
    uart_state_put_number(to, looped, 2);
}

/* What waits beyond 16 characters, in the room that it may take. */
static inline void uart_state_put_more(uint8_t **to, const struct uart_chip *chip)
{
    const struct uart_bytes *bytes = &chip->transmitter.queue;
    const struct uart_characters *queue = &chip->receiver.queue;
    uint8_t size = uart_state_size(chip->transmitter.fifo_size);
    uint8_t room = uart_state_beyond(size);
    uint8_t len = uart_state_beyond(uart_state_waiting(queue->len, size));
    uint8_t i, bit;

    uart_state_put(to, size);
    uart_state_put_list(to, bytes->items + UART_FIFO_SIZE, uart_state_beyond(uart_state_waiting(bytes->len, size)), room);
    uart_state_put(to, len);
    for (i = 0; i < room; i++)
        uart_state_put(to, i < len ? queue->items[UART_FIFO_SIZE + i].byte : 0);
    for (i = 0; i < room; i++)
        uart_state_put(to, i < len ? queue->items[UART_FIFO_SIZE + i].errors : 0);
    for (i = 0; i < room; i = (uint8_t)(i + 8)) {
        unsigned looped = 0;

        for (bit = 0; bit < 8; bit++)
            if (i + bit < len && queue->items[UART_FIFO_SIZE + i + bit].is_looped)
                looped |= 1u << bit;
        uart_state_put(to, (uint8_t)looped);
    }
}

static inline void uart_state_put_transmitter(uint8_t **to, const struct uart_transmitter *transmitter)
{
    uart_state_put(to, transmitter->is_thr_pending != 0);
    uart_state_put_number(to, transmitter->overflows, 8);
    uart_state_put(to, transmitter->is_shifting != 0);
    uart_state_put(to, transmitter->is_shifting ? transmitter->shift_byte : 0);
    uart_state_put_list(to, transmitter->queue.items, transmitter->queue.len, UART_FIFO_SIZE);
}

static inline void uart_state_put_receiver(uint8_t **to, const struct uart_receiver *receiver)
{
    uint8_t level = 0;

    /* Any other number counts as the last level. */
    while (level < 3 && uart_state_level(level) != receiver->trigger)
        level++;
    uart_state_put(to, receiver->is_overrun != 0);
    uart_state_put(to, receiver->is_front_reported != 0);
    uart_state_put(to, receiver->last_byte);
    uart_state_put(to, level);
    uart_state_put_characters(to, &receiver->queue);
}

static inline void uart_state_put_chip(uint8_t **to, const struct uart_chip *chip)
{
    const struct uart_transmitter *transmitter = &chip->transmitter;

    uart_state_put(to, chip->latches.ier);
    uart_state_put(to, chip->latches.lcr);
    uart_state_put(to, chip->latches.mcr);
    uart_state_put(to, chip->latches.scr);
    uart_state_put(to, chip->latches.dll);
    uart_state_put(to, chip->latches.dlm);
    uart_state_put(to, chip->fifo != 0);
    uart_state_put_transmitter(to, transmitter);
    uart_state_put_receiver(to, &chip->receiver);
    uart_state_put(to, chip->modem.inputs);
    uart_state_put(to, chip->modem.lines);
    uart_state_put(to, chip->modem.deltas);
    uart_state_put(to, chip->model != 0);
    uart_state_put(to, chip->cuts != 0);
    uart_state_put_number(to, transmitter->char_ticks, 2);
    uart_state_put_number(to, transmitter->is_shifting ? transmitter->ticks_left : 0, 2);
    uart_state_put_number(to, chip->receiver.timeout_ticks, 2);
    uart_state_put(to, transmitter->wire.capacity < UART_WIRE_ROOM ? transmitter->wire.capacity : UART_WIRE_ROOM);
}

/* ---- reading: each function reads at from->offset, and moves it behind what it read. What is behind the end is read as 0 */

struct uart_state_reader {
    const uint8_t *bytes;
    size_t len;
    size_t offset;
    size_t detail;
    uint32_t status; /* the first refusal stays */
};

static inline void uart_state_refuse(struct uart_state_reader *from, uint32_t status, size_t detail)
{
    if (from->status != UART_STATE_OK)
        return;
    from->status = status;
    from->detail = detail;
}

/* Refuses the state unless there are so many more bytes. */
static inline int uart_state_has(struct uart_state_reader *from, size_t count)
{
    if (from->len - from->offset >= count)
        return 1;
    uart_state_refuse(from, UART_STATE_BAD_LENGTH, from->offset);
    return 0;
}

static inline uint64_t uart_state_number(struct uart_state_reader *from, unsigned len)
{
    uint64_t number = 0;
    unsigned i;

    if (!uart_state_has(from, len))
        return 0;
    /* From the highest byte on: for a shift by a number that is not known compilers of 32 bits call a function. */
    for (i = len; i > 0; i--)
        number = number << 8 | from->bytes[from->offset + i - 1];
    from->offset += len;
    return number;
}

/* A byte that is at most this. */
static inline uint8_t uart_state_up_to(struct uart_state_reader *from, uint8_t most)
{
    size_t offset = from->offset;
    uint8_t byte = (uint8_t)uart_state_number(from, 1);

    if (byte <= most)
        return byte;
    uart_state_refuse(from, UART_STATE_BAD_VALUE, offset);
    return 0;
}

static inline uint8_t uart_state_byte(struct uart_state_reader *from)
{
    return uart_state_up_to(from, 0xff);
}

static inline uint8_t uart_state_flag(struct uart_state_reader *from)
{
    return uart_state_up_to(from, 1);
}

/* Bytes that mean nothing, and are 0: a state has one form. */
static inline void uart_state_nothing(struct uart_state_reader *from, uint8_t count)
{
    if (!uart_state_has(from, count))
        return;
    for (; count > 0; count--)
        uart_state_up_to(from, 0);
}

/* The items of a list: the first len of so many bytes. */
static inline void uart_state_items(struct uart_state_reader *from, uint8_t *items, uint8_t len, uint8_t room)
{
    uint8_t i;

    if (!uart_state_has(from, len))
        return;
    for (i = 0; i < len; i++)
        items[i] = uart_state_byte(from);
    uart_state_nothing(from, (uint8_t)(room - len));
}

/* A list, with its length in front. Returns the length. */
static inline uint8_t uart_state_list(struct uart_state_reader *from, uint8_t *items, uint8_t room)
{
    uint8_t len = uart_state_up_to(from, room);

    uart_state_items(from, items, len, room);
    return len;
}

static inline void uart_state_characters(struct uart_state_reader *from, struct uart_characters *queue)
{
    uint8_t bytes[UART_FIFO_SIZE] = { 0 };
    uint8_t errors[UART_FIFO_SIZE] = { 0 };
    size_t offset;
    uint16_t looped;
    uint8_t i;

    queue->len = uart_state_list(from, bytes, UART_FIFO_SIZE);
    uart_state_items(from, errors, queue->len, UART_FIFO_SIZE);
    offset = from->offset;
    looped = (uint16_t)uart_state_number(from, 2);
    for (i = 0; i < UART_FIFO_SIZE; i++) {
        if ((looped & 1) && i >= queue->len)
            uart_state_refuse(from, UART_STATE_BAD_VALUE, offset);
        queue->items[i].byte = bytes[i];
        queue->items[i].errors = errors[i];
        queue->items[i].is_looped = looped & 1;
        looped >>= 1;
    }
}

/* What waits beyond 16 characters, of FIFOs of more. */
static inline void uart_state_more(struct uart_state_reader *from, struct uart_chip *chip)
{
    struct uart_bytes *bytes = &chip->transmitter.queue;
    struct uart_characters *queue = &chip->receiver.queue;
    uint8_t more[UART_FIFO_ROOM] = { 0 };
    size_t offset = from->offset;
    uint8_t size = uart_state_byte(from);
    uint8_t room = uart_state_beyond(size);
    uint8_t i, len;

    if (size == UART_FIFO_SIZE || uart_state_size(size) != size) {
        uart_state_refuse(from, UART_STATE_BAD_VALUE, offset);
        return;
    }
    chip->transmitter.fifo_size = chip->receiver.fifo_size = size;
    /* Nothing waits beyond 16 unless as many wait before. */
    offset = from->offset;
    len = uart_state_list(from, bytes->items + UART_FIFO_SIZE, room);
    if (len > 0 && bytes->len < UART_FIFO_SIZE)
        uart_state_refuse(from, UART_STATE_BAD_VALUE, offset);
    bytes->len = (uint8_t)(bytes->len + len);
    offset = from->offset;
    len = uart_state_list(from, more, room);
    if (len > 0 && queue->len < UART_FIFO_SIZE)
        uart_state_refuse(from, UART_STATE_BAD_VALUE, offset);
    queue->len = (uint8_t)(queue->len + len);
    for (i = 0; i < len; i++)
        queue->items[UART_FIFO_SIZE + i].byte = more[i];
    uart_state_items(from, more, len, room);
    for (i = 0; i < len; i++)
        queue->items[UART_FIFO_SIZE + i].errors = more[i];
    for (i = 0; i < room; i = (uint8_t)(i + 8)) {
        uint8_t looped, bit;

        offset = from->offset;
        looped = uart_state_byte(from);
        for (bit = 0; bit < 8; bit++) {
            if ((looped & 1) && i + bit >= len)
                uart_state_refuse(from, UART_STATE_BAD_VALUE, offset);
            queue->items[UART_FIFO_SIZE + i + bit].is_looped = looped & 1;
            looped >>= 1;
        }
    }
}

static inline void uart_state_transmitter(struct uart_state_reader *from, struct uart_transmitter *transmitter)
{
    transmitter->is_thr_pending = uart_state_flag(from);
    transmitter->overflows = uart_state_number(from, 8);
    transmitter->is_shifting = uart_state_flag(from);
    transmitter->shift_byte = uart_state_up_to(from, (uint8_t)(transmitter->is_shifting ? 0xff : 0));
    transmitter->queue.len = uart_state_list(from, transmitter->queue.items, UART_FIFO_SIZE);
}

static inline void uart_state_receiver(struct uart_state_reader *from, struct uart_receiver *receiver)
{
    receiver->is_overrun = uart_state_flag(from);
    receiver->is_front_reported = uart_state_flag(from);
    receiver->last_byte = uart_state_byte(from);
    receiver->trigger = uart_state_level(uart_state_up_to(from, 3));
    uart_state_characters(from, &receiver->queue);
}

/* A chip after power on, with nothing behind the ends of its queues. */
static inline void uart_state_clear(struct uart_chip *chip)
{
    static const struct uart_character none = { 0, 0, 0 };
    uint8_t i;

    uart_chip_new(chip, UART_16550A, 1, UART_WIRE_ROOM, UART_WHOLE_BYTES);
    for (i = 0; i < UART_FIFO_ROOM; i++) {
        chip->transmitter.queue.items[i] = 0;
        chip->receiver.queue.items[i] = none;
    }
}

/* What version 1 has of a chip. */
static inline void uart_state_registers(struct uart_state_reader *from, struct uart_chip *chip)
{
    if (!uart_state_has(from, 6))
        return;
    chip->latches.ier = uart_state_byte(from);
    chip->latches.lcr = uart_state_byte(from);
    chip->latches.mcr = uart_state_byte(from);
    chip->latches.scr = uart_state_byte(from);
    chip->latches.dll = uart_state_byte(from);
    chip->latches.dlm = uart_state_byte(from);
    chip->fifo = uart_state_flag(from);
    uart_state_transmitter(from, &chip->transmitter);
    uart_state_receiver(from, &chip->receiver);
    if (!uart_state_has(from, 3))
        return;
    chip->modem.inputs = uart_state_byte(from);
    chip->modem.lines = uart_state_byte(from);
    chip->modem.deltas = uart_state_byte(from);
}

/* The model, and how time passes. */
static inline void uart_state_pace(struct uart_state_reader *from, struct uart_chip *chip)
{
    chip->model = uart_state_flag(from);
    chip->cuts = uart_state_flag(from);
    chip->transmitter.char_ticks = (uint16_t)uart_state_number(from, 2);
    if (chip->transmitter.is_shifting)
        chip->transmitter.ticks_left = (uint16_t)uart_state_number(from, 2);
    else
        uart_state_nothing(from, 2);
    chip->receiver.timeout_ticks = (uint16_t)uart_state_number(from, 2);
    /* A character that takes too many ticks for this is refused when the chip is loaded. */
    chip->receiver.timeout_limit = (uint16_t)(4 * chip->transmitter.char_ticks);
    chip->transmitter.wire.capacity = uart_state_up_to(from, UART_WIRE_ROOM);
}

/* What version 1 leaves out, since it is the same in each device: that of a new chip, but for what a byte on its way takes. */
static inline void uart_state_usual_pace(struct uart_chip *chip)
{
    chip->transmitter.ticks_left = chip->transmitter.is_shifting;
    chip->receiver.timeout_ticks = chip->receiver.timeout_limit;
}

static inline void uart_state_output(struct uart_state_reader *from, struct uart_wire *wire)
{
    wire->len = uart_state_list(from, wire->items, UART_WIRE_ROOM);
}

/* The next part. Returns its kind. What is behind its known fields is of a later release, and is skipped. */
static inline uint8_t uart_state_part(struct uart_state_reader *from, uint8_t last, struct uart_chip *chip)
{
    size_t start = from->offset;
    uint8_t kind = uart_state_byte(from);
    uint8_t is_needed = uart_state_flag(from);
    size_t length_offset = from->offset;
    size_t len = (size_t)uart_state_number(from, 2);
    struct uart_state_reader body = *from;

    if (from->status != UART_STATE_OK)
        return 0;
    if (from->len - from->offset < len) {
        uart_state_refuse(from, UART_STATE_BAD_LENGTH, length_offset);
        return 0;
    }
    from->offset += len;
    if (kind <= last) {
        uart_state_refuse(from, UART_STATE_BAD_VALUE, start);
        return 0;
    }
    body.len = from->offset;
    if (kind > UART_STATE_FIFOS) {
        if (is_needed)
            uart_state_refuse(&body, UART_STATE_UNKNOWN_PART, kind);
    } else if (!is_needed) {
        uart_state_refuse(&body, UART_STATE_BAD_VALUE, start + 1);
    } else if (kind == UART_STATE_CHIP) {
        uart_state_registers(&body, chip);
        uart_state_pace(&body, chip);
    } else if (kind == UART_STATE_OUTPUT) {
        uart_state_output(&body, &chip->transmitter.wire);
    } else {
        uart_state_more(&body, chip);
    }
    uart_state_refuse(from, body.status, body.detail);
    return kind;
}

/* All parts, each at most once, in the order of their kinds. */
static inline void uart_state_parts(struct uart_state_reader *from, struct uart_chip *chip)
{
    int has_chip = 0, has_output = 0;
    uint8_t last = 0;

    /* Each part takes at least four bytes. */
    while (from->status == UART_STATE_OK && from->offset < from->len) {
        last = uart_state_part(from, last, chip);
        has_chip |= last == UART_STATE_CHIP;
        has_output |= last == UART_STATE_OUTPUT;
    }
    if (!has_chip)
        uart_state_refuse(from, UART_STATE_MISSING_PART, UART_STATE_CHIP);
    if (!has_output)
        uart_state_refuse(from, UART_STATE_MISSING_PART, UART_STATE_OUTPUT);
}

/* A state of version 1, which has no magic and no parts. */
static inline void uart_state_version_1(struct uart_state_reader *from, struct uart_chip *chip)
{
    if (from->len != UART_STATE_LEN_1) {
        uart_state_refuse(from, UART_STATE_BAD_LENGTH, 0);
        return;
    }
    from->offset = 4;
    uart_state_registers(from, chip);
    uart_state_usual_pace(chip);
    uart_state_output(from, &chip->transmitter.wire);
}

/* A state of the version that is written. */
static inline void uart_state_version_2(struct uart_state_reader *from, struct uart_chip *chip)
{
    size_t version;

    from->offset = UART_STATE_MAGIC_LEN;
    version = (size_t)uart_state_number(from, 2);
    if (version != UART_STATE_VERSION)
        uart_state_refuse(from, UART_STATE_BAD_VERSION, version);
    if (uart_state_number(from, 4) != from->len)
        uart_state_refuse(from, UART_STATE_BAD_LENGTH, UART_STATE_LENGTH_OFFSET);
    if (from->status == UART_STATE_OK)
        uart_state_parts(from, chip);
}

/* Whether a state begins with these bytes. */
static inline int uart_state_is_version_1(const uint8_t *bytes, size_t len)
{
    return len >= 4 && bytes[0] == 1 && !bytes[1] && !bytes[2] && !bytes[3];
}

static inline int uart_state_has_magic(const uint8_t *bytes, size_t len)
{
    size_t i;

    if (len < UART_STATE_MAGIC_LEN)
        return 0;
    for (i = 0; i < UART_STATE_MAGIC_LEN; i++)
        if (bytes[i] != uart_state_magic(i))
            return 0;
    return 1;
}

/* Writes a state of so many bytes: that of a chip whose FIFOs have one size. */
static inline void uart_state_put_all(const struct uart_chip *chip, uint8_t *bytes, size_t len)
{
    uint8_t *to = bytes;
    size_t i;

    for (i = 0; i < UART_STATE_MAGIC_LEN; i++)
        uart_state_put(&to, uart_state_magic(i));
    uart_state_put_number(&to, UART_STATE_VERSION, 2);
    uart_state_put_number(&to, len, 4);
    uart_state_put_part(&to, UART_STATE_CHIP, UART_STATE_CHIP_LEN);
    uart_state_put_chip(&to, chip);
    uart_state_put_part(&to, UART_STATE_OUTPUT, UART_STATE_OUTPUT_LEN);
    uart_state_put_list(&to, chip->transmitter.wire.items, chip->transmitter.wire.len, UART_WIRE_ROOM);
    if (len == UART_STATE_LEN)
        return;
    uart_state_put_part(&to, UART_STATE_FIFOS, uart_state_fifos_len(chip->transmitter.fifo_size));
    uart_state_put_more(&to, chip);
}

/* --------------------------------------------------------------- what is called
 *
 * Writes a chip with FIFOs of any size as bytes, and returns how many: UART_STATE_LEN with FIFOs of 16, and else more, at most
 * UART_STATE_MOST. If bytes has not room for so many, or the two FIFOs have not one size, as those of each chip that can be loaded have,
 * it writes nothing and returns 0. Of what the struct holds the same counts as in a call of the library: any number but 0 is a set flag,
 * and a length beyond its FIFO or its array is that of the FIFO or the array.
 *
 * A reader of an earlier release, and that of the Rust crate, refuses a chip with larger FIFOs: UART_STATE_UNKNOWN_PART, 3.
 */
static inline size_t uart_chip_to_bytes_sized(const struct uart_chip *chip, uint8_t *bytes, size_t room)
{
    uint8_t size = uart_state_size(chip->transmitter.fifo_size);
    size_t len = UART_STATE_LEN;

    if (size != UART_FIFO_SIZE)
        len += UART_STATE_PART_HEADER + (size_t)uart_state_fifos_len(size);
    if (size != uart_state_size(chip->receiver.fifo_size) || len > room)
        return 0;
    uart_state_put_all(chip, bytes, len);
    return len;
}

/*
 * The same for a chip with FIFOs of 16: writes UART_STATE_LEN bytes.
 *
 * Returns UART_STATE_OK, or UART_STATE_LARGER for a chip with larger FIFOs. The bytes are all 0 then, which are no state.
 */
static inline uint32_t uart_chip_to_bytes(const struct uart_chip *chip, uint8_t *bytes)
{
    size_t i;

    if (uart_chip_to_bytes_sized(chip, bytes, UART_STATE_LEN) == UART_STATE_LEN)
        return UART_STATE_OK;
    for (i = 0; i < UART_STATE_LEN; i++)
        bytes[i] = 0;
    return UART_STATE_LARGER;
}

/*
 * Reads a chip from len bytes, which may come from anywhere: those that a function above or the Rust crate wrote, in this release, in
 * one before it, or in one after it that added only what may be skipped. Its FIFOs have the size that they had. The chip is then for
 * uart_port_load or uart_chip_load, which refuses what is no port or no chip.
 *
 * Returns an enum uart_state_status, and writes to *detail what that says. If it is not UART_STATE_OK, *saved is as before.
 */
static inline uint32_t uart_chip_from_bytes(struct uart_chip *saved, const uint8_t *bytes, size_t len, size_t *detail)
{
    struct uart_state_reader from;
    struct uart_chip chip;

    from.bytes = bytes;
    from.len = len;
    from.offset = 0;
    from.detail = 0;
    from.status = UART_STATE_OK;
    uart_state_clear(&chip);
    if (uart_state_is_version_1(bytes, len))
        uart_state_version_1(&from, &chip);
    else if (uart_state_has_magic(bytes, len))
        uart_state_version_2(&from, &chip);
    else
        uart_state_refuse(&from, UART_STATE_NONE, 0);
    *detail = from.detail;
    if (from.status == UART_STATE_OK)
        *saved = chip;
    return from.status;
}

#ifdef __cplusplus
}
#endif

#endif
