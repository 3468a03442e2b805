/* SPDX-FileCopyrightText: 2025 Philipp Schuster, 2026 Geesetrunk */
/* SPDX-License-Identifier: MIT OR Apache-2.0 */
/*
 * uart_port.c - a 16550A or 16450 serial chip in software, and a serial port for monitors. uart_port.h says how it is used.
 *
 * Made by tools/c/emit from the code that is proved. Do not edit. Names and comments are those of its source, and what is computed
 * is taken from what the proofs are about.
 *
 * The functions of the header check all that they are given, of pointers that they are not null. The others check nothing that is proved
 * never to happen. Those that write and read a chip as bytes are by hand, and not proved.
 */
#include "uart_port.h"

#include <stdbool.h>

/* For a function that is to stand in the place of its calls, unless it is to be small. */
#if defined(__GNUC__) && !defined(__OPTIMIZE_SIZE__)
#define UART_INLINE static inline __attribute__((always_inline))
#else
#define UART_INLINE static inline
#endif

/* For a function that is not to stand there: it would take registers from what is done often, or be there in many places. */
#if defined(__GNUC__) && !defined(__OPTIMIZE_SIZE__)
#define UART_APART __attribute__((__noinline__))
#else
#define UART_APART
#endif

/* For a function that is seldom called: it is to be small, also where all else is to be fast. */
#if defined(__GNUC__)
#define UART_SELDOM __attribute__((__cold__))
#else
#define UART_SELDOM
#endif

/* For a switch of many cases: gcc for Cortex-M0 would make a table of it where code is to be small, and call its library for that. */
#if defined(__GNUC__) && !defined(__clang__) && defined(__OPTIMIZE_SIZE__) && defined(__thumb__) && !defined(__thumb2__)
#define UART_NO_TABLE __attribute__((__optimize__("no-jump-tables")))
#else
#define UART_NO_TABLE
#endif


/* The number of data bits of a character. */
enum uart_word_length {
    UART_WORD_LENGTH_FIVE_BITS = 0,
    UART_WORD_LENGTH_SIX_BITS = 1,
    UART_WORD_LENGTH_SEVEN_BITS = 2,
    UART_WORD_LENGTH_EIGHT_BITS = 3
};

enum uart_origin_kind {
    UART_ORIGIN_ARRIVED = 0,
    UART_ORIGIN_LOOPED = 1,
    UART_ORIGIN_LIVE = 2
};

/* Where a character is from. */
struct uart_origin {
    enum uart_origin_kind kind;
    uint64_t arrived;
};

/* A received character that has not been read. */
struct uart_chip_character {
    uint8_t byte;
    uint8_t errors;
    struct uart_origin origin;
};

/*
 * How many characters each FIFO of a chip holds, for Uart16550_set_fifo_size, by which all calls
 * that send and the rings go, and for one Uart16550_send_burst.
 *
 * A 16550 has 16. No register that all chips have shows the size, so it is taken from the
 * datasheet, or Uart16550_find_fifo_size finds it. A 16750 has 64 after
 * Uart16550_enable_64_byte_fifos. If a size is given that is larger than the chip's, bytes are
 * lost.
 */
enum uart_fifo_size {
    UART_FIFO_SIZE_SIXTEEN = 0,
    UART_FIFO_SIZE_THIRTY_TWO = 1,
    UART_FIFO_SIZE_SIXTY_FOUR = 2,
    UART_FIFO_SIZE_ONE_HUNDRED_TWENTY_EIGHT = 3,
    UART_FIFO_SIZE_TWO_HUNDRED_FIFTY_SIX = 4
};

struct uart_maybe_chip_character {
    bool is_some;
    struct uart_chip_character value;
};

struct uart_maybe_character {
    bool is_some;
    struct uart_character value;
};

/* The registers that keep what is written to them. */
struct uart_chip_latches {
    uint8_t ier;
    uint8_t lcr;
    uint8_t mcr;
    uint8_t scr;
    uint8_t dll;
    uint8_t dlm;
};

/* The character in the shift register. */
struct uart_shifting {
    uint8_t byte;
    uint16_t ticks_left;
};

struct uart_maybe_shifting {
    bool is_some;
    struct uart_shifting value;
};

/* An interrupt, in the order in which a chip reports interrupts that are pending together. */
enum uart_interrupt_type {
    UART_INTERRUPT_TYPE_RECEIVER_LINE_STATUS = 0,
    UART_INTERRUPT_TYPE_RECEIVED_DATA_READY = 1,
    UART_INTERRUPT_TYPE_RECEPTION_TIMEOUT = 2,
    UART_INTERRUPT_TYPE_TRANSMITTER_HOLDING_REGISTER_EMPTY = 3,
    UART_INTERRUPT_TYPE_MODEM_STATUS = 4,
    UART_INTERRUPT_TYPE_DMA_RECEPTION_END_OF_TRANSFER = 5,
    UART_INTERRUPT_TYPE_DMA_TRANSMISSION_END_OF_TRANSFER = 6
};

struct uart_maybe_interrupt_type {
    bool is_some;
    enum uart_interrupt_type value;
};

/*
 * The number of characters in the receiver FIFO at which a DATA_READY interrupt is raised.
 *
 * A high level needs fewer interrupts. A low level leaves more time to read before the FIFO
 * overruns.
 */
enum uart_fifo_trigger_level {
    UART_FIFO_TRIGGER_LEVEL_ONE = 0,
    UART_FIFO_TRIGGER_LEVEL_FOUR = 1,
    UART_FIFO_TRIGGER_LEVEL_EIGHT = 2,
    UART_FIFO_TRIGGER_LEVEL_FOURTEEN = 3
};

/* The ticks towards a reception timeout. */
struct uart_timeout {
    uint16_t ticks;
    uint16_t limit;
};

/* The modem's inputs, the lines that MSR shows, and their changes since its last read. */
struct uart_chip_modem {
    uint8_t inputs;
    uint8_t lines;
    uint8_t deltas;
};

/* The modem lines as plain data. */
struct uart_modem_data {
    uint8_t inputs;
    uint8_t lines;
    uint8_t deltas;
};

/* The model of a chip. */
enum uart_events_chip {
    UART_EVENTS_CHIP_UART16550_A = 0,
    UART_EVENTS_CHIP_UART16450 = 1
};

struct uart_maybe_u16 {
    bool is_some;
    uint16_t value;
};

struct uart_maybe_u8 {
    bool is_some;
    uint8_t value;
};

/*
 * What a monitor has to do after a call.
 *
 * A monitor whose interrupt controller takes edges obeys signal, and one whose controller takes
 * levels obeys level. Each obeys has_room.
 */
struct uart_virtual_todo {
    bool signal;
    bool level;
    bool has_moved;
    bool has_room;
    size_t ready;
};

/* What a call is, as far as signals are concerned. */
struct uart_kind {
    bool brings;
    bool looks;
    bool moves_data;
    bool may_make_room;
};

/* What a monitor was told, as far as the next call depends on it. */
struct uart_virtual_told {
    bool line;
    bool has_room;
    bool has_looked;
    uint8_t spare;
};

/* What is seen of a chip when a call ends, as far as its monitor is told of it. */
struct uart_seen {
    bool level;
    bool has_room;
    bool is_empty;
    uint8_t rest;
    size_t ready;
};

/* Sets so many bytes to one value. */
static inline void uart_fill_bytes(uint8_t *to, uint8_t value, size_t count)
{
    for (size_t i = 0; i < count; i++)
        to[i] = value;
}

/* Moves so many bytes towards the front of their array, by way of a place of their own. */
static inline void
uart_move_down_bytes(uint8_t *items, size_t from, size_t to, size_t count)
{
    uint8_t moved[64];
    for (size_t done = 0; done < count; done += 64) {
        size_t some = count - done < 64 ? count - done : 64;
        for (size_t i = 0; i < some; i++)
            moved[i] = items[from + done + i];
        for (size_t i = 0; i < some; i++)
            items[to + done + i] = moved[i];
    }
}

/* Moves so many characters towards the front of their array, by way of a place of their own. */
static inline void
uart_move_down_characters(struct uart_character *items, size_t from, size_t to, size_t count)
{
    struct uart_character moved[16];
    for (size_t done = 0; done < count; done += 16) {
        size_t some = count - done < 16 ? count - done : 16;
        for (size_t i = 0; i < some; i++)
            moved[i] = items[from + done + i];
        for (size_t i = 0; i < some; i++)
            items[to + done + i] = moved[i];
    }
}

/* Returns the modem control register. */
static inline uint8_t uart_chip_mcr(const struct uart_chip *uart_chip)
{
    return uart_chip->latches.mcr;
}

/* Returns whether what leaves the transmitter comes back to the receiver. */
static inline bool uart_is_loopback(const struct uart_chip *parts)
{
    return (uart_chip_mcr(parts) & UART_MCR_LOOP_BACK) != 0;
}

/* Returns whether characters are cut to the word length. */
static inline bool uart_chip_cuts(const struct uart_chip *uart_chip)
{
    return uart_chip->cuts != 0;
}

/* Returns the line control register. */
static inline uint8_t uart_chip_lcr(const struct uart_chip *uart_chip)
{
    return uart_chip->latches.lcr;
}

/*
 * Returns the word length with this code, which is in the low two bits. Higher bits are ignored.
 *
 * Proved: these bits are the code of this word length.
 */
static inline enum uart_word_length uart_word_length_from_raw_bits(uint8_t bits)
{
    switch (bits & 3) {
    case 0:
        return UART_WORD_LENGTH_FIVE_BITS;
    case 1:
        return UART_WORD_LENGTH_SIX_BITS;
    case 2:
        return UART_WORD_LENGTH_SEVEN_BITS;
    default:
        return UART_WORD_LENGTH_EIGHT_BITS;
    }
}

/*
 * Returns the number of data bits of a character.
 *
 * Proved: these bits are the code of this word length.
 */
static inline enum uart_word_length uart_lcr_word_length(uint8_t lcr)
{
    return uart_word_length_from_raw_bits(lcr);
}

/*
 * Returns a byte as it is sent and received under a line control register: only its data bits if
 * characters are cut. That is an option of the chip: the tests of the original driver have a model
 * that moves whole bytes, and a machine from new does so too. A byte is cut when it is written and
 * when it arrives. What comes back in loopback was cut already, and the divisor latch is no byte
 * of the line.
 */
static inline uint8_t uart_cut_to(bool cuts, uint8_t lcr, uint8_t byte)
{
    if (!cuts)
        return byte;
    switch (uart_lcr_word_length(lcr)) {
    case UART_WORD_LENGTH_FIVE_BITS:
        return (uint8_t)(byte % (uint8_t)(1 << 5));
    case UART_WORD_LENGTH_SIX_BITS:
        return (uint8_t)(byte % (uint8_t)(1 << 6));
    case UART_WORD_LENGTH_SEVEN_BITS:
        return (uint8_t)(byte % (uint8_t)(1 << 7));
    case UART_WORD_LENGTH_EIGHT_BITS:
    default:
        return byte;
    }
}

/* Returns a byte as it is sent and received: only its data bits if characters are cut. */
static inline uint8_t uart_cut(const struct uart_chip *parts, uint8_t byte)
{
    bool is_so = uart_chip_cuts(parts);
    return uart_cut_to(is_so, uart_chip_lcr(parts), byte);
}

/* Returns whether the FIFOs are on. */
static inline bool uart_chip_fifo(const struct uart_chip *uart_chip)
{
    return uart_chip->fifo != 0;
}

/* How many characters a FIFO with this number holds: as many as it says, or 16. */
static inline uint8_t uart_places_of(uint8_t fifo_size)
{
    if (fifo_size < 32)
        return 16;
    switch (fifo_size) {
    case 32:
    case 64:
    case 128:
        return fifo_size;
    default:
        return 16;
    }
}

/* How many items are in the queue of a FIFO. */
static inline size_t uart_count(uint8_t len, uint8_t fifo_size)
{
    if ((uint64_t)len <= 16)
        return (size_t)len;
    uint8_t places_of = uart_places_of(fifo_size);
    return (size_t)(places_of < len ? places_of : len);
}

/* Returns the number of characters in the queue. */
static inline size_t uart_receiver_queue_len(const struct uart_receiver *uart_receiver)
{
    return uart_count(uart_receiver->queue.len, uart_receiver->fifo_size);
}

/* A FIFO of so many characters; any other number than 32, 64 and 128 counts as 16. */
static inline enum uart_fifo_size uart_fifo_size_of(uint8_t characters)
{
    if (characters < 32)
        return UART_FIFO_SIZE_SIXTEEN;
    switch (characters) {
    case 32:
        return UART_FIFO_SIZE_THIRTY_TWO;
    case 64:
        return UART_FIFO_SIZE_SIXTY_FOUR;
    case 128:
        return UART_FIFO_SIZE_ONE_HUNDRED_TWENTY_EIGHT;
    default:
        return UART_FIFO_SIZE_SIXTEEN;
    }
}

/* Returns the size of the FIFO. */
static inline enum uart_fifo_size uart_receiver_size(const struct uart_receiver *uart_receiver)
{
    return uart_fifo_size_of(uart_receiver->fifo_size);
}

/* Returns the number of characters. */
static inline size_t uart_fifo_size_characters(enum uart_fifo_size fifo_size)
{
    switch (fifo_size) {
    case UART_FIFO_SIZE_SIXTEEN:
        return 16;
    case UART_FIFO_SIZE_THIRTY_TWO:
        return 32;
    case UART_FIFO_SIZE_SIXTY_FOUR:
        return 64;
    case UART_FIFO_SIZE_ONE_HUNDRED_TWENTY_EIGHT:
        return 128;
    case UART_FIFO_SIZE_TWO_HUNDRED_FIFTY_SIX:
    default:
        return 256;
    }
}

/*
 * Returns the number of characters that a queue has room for, with a FIFO of this size. Without
 * FIFO that is one, although it could hold more.
 */
static inline size_t uart_room_of(bool fifo, enum uart_fifo_size size)
{
    if (fifo)
        return uart_fifo_size_characters(size);
    return 1;
}

/*
 * Returns a character as C has it. It is no arrival of a schedule.
 *
 * Proved: a flag is 0 or 1.
 */
static inline struct uart_character uart_character_of(struct uart_chip_character character)
{
    struct uart_character character2 =
        { character.byte, character.errors,
        (uint8_t)(character.origin.kind == UART_ORIGIN_LOOPED) };
    return character2;
}

/* Puts an item last. */
static inline void
uart_push_character(uint8_t *len, struct uart_character *items, size_t items_len,
    struct uart_character item)
{
    (void)items_len;
    size_t last = (size_t)*len;
    items[last] = item;
    *len = (uint8_t)(*len + 1);
}

/*
 * Appends a character to the queue. The errors of one that is at the front have not been reported.
 * The caller must show that there is room, and that the character has a place.
 */
static inline void
uart_receiver_put(struct uart_receiver *uart_receiver, struct uart_chip_character new_)
{
    if (uart_receiver_queue_len(uart_receiver) == 0)
        uart_receiver->is_front_reported = 0;
    struct uart_character *at = uart_receiver->queue.items;
    struct uart_character character = uart_character_of(new_);
    uart_push_character(&uart_receiver->queue.len, at, 128, character);
}

/* The items behind those of a FIFO of 16 move down by one place, as many as wait. */
static UART_APART void
uart_drop_others_character(struct uart_character *items, size_t items_len, size_t count)
{
    (void)items_len;
    size_t number = count / 16;
    size_t number2 = count % 16 == 0 ? number : number + 1;
    for (size_t block = 1; block < number2; block++)
        uart_move_down_characters(&items[16 * block - 1], 1, 0, 17 - 1);
}

/*
 * The items behind the front move down by one place, as many as wait. In blocks of a constant
 * size: a move of any number of items would call memmove.
 */
static inline void
uart_drop_front_character(struct uart_character *items, size_t items_len, size_t count)
{
    uart_move_down_characters(items, 1, 0, 16 - 1);
    if (16 < count)
        uart_drop_others_character(items, items_len, count);
}

/* Takes the front of the queue of a FIFO. */
static inline struct uart_maybe_character
uart_pop_front_character(uint8_t *len, struct uart_character *items, size_t items_len,
    uint8_t fifo_size)
{
    if (*len == 0) {
        struct uart_maybe_character character = { false, { 0, 0, 0 } };
        return character;
    }
    struct uart_character character2 = items[0];
    if (*len == 1) {
        *len = 0;
        struct uart_maybe_character character = { true, character2 };
        return character;
    }
    size_t count = uart_count(*len, fifo_size);
    uart_drop_front_character(items, items_len, count);
    *len = (uint8_t)((uint8_t)count - 1);
    struct uart_maybe_character character3 = { true, character2 };
    return character3;
}

/* Returns the character as a receiver has it. */
static inline struct uart_chip_character
uart_character_shown(const struct uart_character *uart_character)
{
    uint8_t byte = uart_character->byte;
    uint8_t errors = uart_character->errors;
    struct uart_origin origin;
    if (uart_character->is_looped != 0) {
        origin.kind = UART_ORIGIN_LOOPED;
        origin.arrived = 0;
    } else {
        origin.kind = UART_ORIGIN_LIVE;
        origin.arrived = 0;
    }
    struct uart_chip_character chip_character = { byte, errors, origin };
    return chip_character;
}

/*
 * Removes the front of the queue, and returns it. The errors of the next one have not been
 * reported.
 */
static inline struct uart_maybe_chip_character
uart_receiver_pop(struct uart_receiver *uart_receiver)
{
    struct uart_maybe_character found =
        uart_pop_front_character(&uart_receiver->queue.len, uart_receiver->queue.items, 128,
        uart_receiver->fifo_size);
    if (!found.is_some) {
        struct uart_maybe_chip_character chip_character =
            { false, { 0, 0, { UART_ORIGIN_ARRIVED, 0 } } };
        return chip_character;
    }
    struct uart_character front = found.value;
    uart_receiver->is_front_reported = 0;
    struct uart_maybe_chip_character chip_character2 = { true, uart_character_shown(&front) };
    return chip_character2;
}

/* Replaces the character in the receiver, which is dropped. */
static UART_APART void uart_replace(struct uart_receiver *parts, struct uart_chip_character new_)
{
    struct uart_maybe_chip_character found = uart_receiver_pop(parts);
    if (!found.is_some)
        return;
    parts->queue.len = 0;
    uart_receiver_put(parts, new_);
    parts->is_overrun = (uint8_t)true;
    parts->timeout_ticks = 0;
}

/*
 * Puts a character into the queue. If there is no room, the FIFO loses it, and the single register
 * loses the one that it held.
 */
static inline void
uart_enter(struct uart_receiver *parts, bool fifo, struct uart_chip_character new_)
{
    size_t receiver_queue_len = uart_receiver_queue_len(parts);
    if (receiver_queue_len < uart_room_of(fifo, uart_receiver_size(parts))) {
        uart_receiver_put(parts, new_);
    } else {
        if (!fifo) {
            uart_replace(parts, new_);
            return;
        }
        parts->is_overrun = (uint8_t)true;
    }
    parts->timeout_ticks = 0;
}

/* Receives a character without a schedule. In loopback it is lost. */
static inline void
uart_receiving_arrive_live(struct uart_receiver *parts, bool loopback, bool fifo, uint8_t byte,
    uint8_t errors)
{
    if (!loopback) {
        struct uart_chip_character chip_character = { byte, errors, { UART_ORIGIN_LIVE, 0 } };
        uart_enter(parts, fifo, chip_character);
    }
}

/*
 * Receives a character without a schedule, with these error bits. In loopback the character is
 * lost.
 */
static inline void
uart_controlling_arrive_live(struct uart_chip *parts, uint8_t byte, uint8_t errors)
{
    bool loopback = uart_is_loopback(parts);
    uint8_t byte2 = uart_cut(parts, byte);
    bool fifo = uart_chip_fifo(parts);
    uart_receiving_arrive_live(&parts->receiver, loopback, fifo, byte2, errors);
}

/* A character comes in. */
uint32_t uart_chip_arrive(struct uart_chip *chip, uint8_t byte, uint8_t errors)
{
    if (chip == NULL)
        return UART_NULL_POINTER;
    if ((errors & UART_LSR_CHARACTER_ERRORS) != errors)
        return UART_BAD_ERRORS;
    uart_controlling_arrive_live(chip, byte, errors);
    return UART_OK;
}

/* Returns the interrupt enable register. */
static inline uint8_t uart_chip_ier(const struct uart_chip *uart_chip)
{
    return uart_chip->latches.ier;
}

/* Returns the registers that keep what is written to them. */
static inline struct uart_chip_latches uart_chip_latches_of(const struct uart_chip *uart_chip)
{
    struct uart_chip_latches latches;
    latches.ier = uart_chip_ier(uart_chip);
    latches.lcr = uart_chip_lcr(uart_chip);
    latches.mcr = uart_chip_mcr(uart_chip);
    latches.scr = uart_chip->latches.scr;
    latches.dll = uart_chip->latches.dll;
    latches.dlm = uart_chip->latches.dlm;
    return latches;
}

/* Returns the divisor in the divisor latch. */
static inline uint16_t uart_divisor(const struct uart_chip *parts)
{
    struct uart_chip_latches latches = uart_chip_latches_of(parts);
    return (uint16_t)((uint16_t)((uint16_t)latches.dlm * 256) + (uint16_t)latches.dll);
}

/* The divisor latch. */
uint16_t uart_chip_divisor(const struct uart_chip *chip)
{
    if (chip == NULL)
        return 0;
    return uart_divisor(chip);
}

/* Returns the character in the shift register. */
static inline struct uart_maybe_shifting
uart_transmitter_shifting(const struct uart_transmitter *uart_transmitter)
{
    if (uart_transmitter->is_shifting == 0) {
        struct uart_maybe_shifting shifting = { false, { 0, 0 } };
        return shifting;
    }
    struct uart_maybe_shifting shifting2 =
        { true, { uart_transmitter->shift_byte, uart_transmitter->ticks_left } };
    return shifting2;
}

/* Returns the number of bytes in the queue. */
static inline size_t uart_transmitter_queue_len(const struct uart_transmitter *uart_transmitter)
{
    return uart_count(uart_transmitter->queue.len, uart_transmitter->fifo_size);
}

/* Returns the number of bytes that are still to be sent. */
static inline size_t uart_held_len(const struct uart_transmitter *parts)
{
    if (uart_transmitter_shifting(parts).is_some)
        return uart_transmitter_queue_len(parts) + 1;
    return uart_transmitter_queue_len(parts);
}

/* How many bytes are still to go out. */
size_t uart_chip_held_len(const struct uart_chip *chip)
{
    if (chip == NULL)
        return 0;
    return uart_held_len(&chip->transmitter);
}

/* Returns these bits if the condition holds, else none. */
static inline uint8_t uart_flag_lsr(bool on, uint8_t bits)
{
    return on ? bits : 0;
}

/* The errors of the front, unless they were reported. */
static inline uint8_t uart_receiver_front_errors(const struct uart_receiver *uart_receiver)
{
    if ((uart_receiver->queue.len == 0) || (uart_receiver->is_front_reported != 0))
        return 0;
    return uart_receiver->queue.items[0].errors & UART_LSR_CHARACTER_ERRORS;
}

/* Returns what LSR shows of the receiver, but for the errors behind the front. */
static inline uint8_t uart_receiver_status(const struct uart_receiver *uart_receiver)
{
    uint8_t flag_lsr =
        uart_flag_lsr(0 < uart_receiver_queue_len(uart_receiver), UART_LSR_DATA_READY);
    uint8_t lsr = flag_lsr | uart_flag_lsr(uart_receiver->is_overrun != 0, UART_LSR_OVERRUN_ERROR);
    return lsr | uart_receiver_front_errors(uart_receiver);
}

/* Returns what LSR shows of the transmitter. */
static inline uint8_t uart_transmitter_status(const struct uart_transmitter *uart_transmitter)
{
    bool is_thr_empty = uart_transmitter_queue_len(uart_transmitter) == 0;
    bool is_so = is_thr_empty && uart_transmitter->is_shifting == 0;
    uint8_t flag_lsr = uart_flag_lsr(is_thr_empty, UART_LSR_THR_EMPTY);
    return flag_lsr | uart_flag_lsr(is_so, UART_LSR_TRANSMITTER_EMPTY);
}

/* Returns whether the character has a parity error or a framing error, or is a break. */
static inline bool uart_character_has_errors(const struct uart_chip_character *character)
{
    return (character->errors & UART_LSR_CHARACTER_ERRORS) != 0;
}

static inline bool uart_some_has_errors_any(const struct uart_character *part2)
{
    struct uart_chip_character chip_character = uart_character_shown(part2);
    return uart_character_has_errors(&chip_character);
}

/* Some character has errors. */
static inline bool
uart_some_has_errors(const struct uart_character *characters, size_t characters_len)
{
    const struct uart_character *found = characters;
    size_t len = characters_len;
    for (;;) {
        const struct uart_character *found2 = found;
        size_t len2 = len;
        if (len2 == 0)
            break;
        found = &found2[1];
        len = len2 - 1;
        if (uart_some_has_errors_any(&found2[0]))
            return true;
    }
    return false;
}

/* Returns whether a character has errors that were not reported. */
static inline bool uart_receiver_has_unreported_errors(const struct uart_receiver *uart_receiver)
{
    size_t len = uart_receiver_queue_len(uart_receiver);
    if (len == 0)
        return false;
    if (uart_receiver->is_front_reported == 0)
        return uart_some_has_errors(uart_receiver->queue.items, len);
    return uart_some_has_errors(&uart_receiver->queue.items[1], len - 1);
}

/*
 * Returns whether a character in the FIFO has errors that were not reported, as LSR shows it.
 */
static inline uint8_t uart_fifo_error(const struct uart_chip *parts)
{
    uint8_t lsr;
    bool is_so;
    if (uart_receiver_has_unreported_errors(&parts->receiver)) {
        if (uart_chip_fifo(parts)) {
            lsr = UART_LSR_FIFO_DATA_ERROR;
            is_so = false;
        } else {
            is_so = true;
        }
    } else {
        is_so = true;
    }
    if (is_so)
        lsr = 0;
    return lsr;
}

static inline uint8_t uart_lsr(const struct uart_chip *parts)
{
    uint8_t receiver_status = uart_receiver_status(&parts->receiver);
    uint8_t lsr = receiver_status | uart_transmitter_status(&parts->transmitter);
    return lsr | uart_fifo_error(parts);
}

/* The trigger level for so many characters. */
static inline enum uart_fifo_trigger_level uart_trigger_of(uint8_t characters)
{
    switch (characters) {
    case 1:
        return UART_FIFO_TRIGGER_LEVEL_ONE;
    case 4:
        return UART_FIFO_TRIGGER_LEVEL_FOUR;
    case 8:
        return UART_FIFO_TRIGGER_LEVEL_EIGHT;
    default:
        return UART_FIFO_TRIGGER_LEVEL_FOURTEEN;
    }
}

/* Returns the trigger level. */
static inline enum uart_fifo_trigger_level
uart_receiver_trigger(const struct uart_receiver *uart_receiver)
{
    return uart_trigger_of(uart_receiver->trigger);
}

/*
 * Returns the number of characters of a trigger level, for a FIFO of 16. Apart from by_level: of
 * constants a compiler makes a table, and of numbers that are passed one test for each level,
 * which in C takes five instructions more for each look at the interrupts.
 */
static inline uint8_t uart_characters_of_16(enum uart_fifo_trigger_level level)
{
    switch (level) {
    case UART_FIFO_TRIGGER_LEVEL_ONE:
        return 1;
    case UART_FIFO_TRIGGER_LEVEL_FOUR:
        return 4;
    case UART_FIFO_TRIGGER_LEVEL_EIGHT:
        return 8;
    case UART_FIFO_TRIGGER_LEVEL_FOURTEEN:
    default:
        return 14;
    }
}

/* Returns one of four numbers, for the lowest trigger level to the highest. */
static inline uint8_t
uart_by_level(uint8_t first, uint8_t second, uint8_t third, uint8_t fourth,
    enum uart_fifo_trigger_level level)
{
    switch (level) {
    case UART_FIFO_TRIGGER_LEVEL_ONE:
        return first;
    case UART_FIFO_TRIGGER_LEVEL_FOUR:
        return second;
    case UART_FIFO_TRIGGER_LEVEL_EIGHT:
        return third;
    case UART_FIFO_TRIGGER_LEVEL_FOURTEEN:
    default:
        return fourth;
    }
}

/*
 * Returns the number of characters of a trigger level, for a FIFO of this size. The levels have
 * the names of their numbers for a 16550.
 */
static inline uint8_t
uart_characters_of(enum uart_fifo_size size, enum uart_fifo_trigger_level level)
{
    switch (size) {
    case UART_FIFO_SIZE_SIXTEEN:
        return uart_characters_of_16(level);
    case UART_FIFO_SIZE_THIRTY_TWO:
        return uart_by_level(8, 16, 24, 28, level);
    case UART_FIFO_SIZE_SIXTY_FOUR:
        return uart_by_level(1, 16, 32, 56, level);
    case UART_FIFO_SIZE_ONE_HUNDRED_TWENTY_EIGHT:
        return uart_by_level(16, 32, 112, 120, level);
    case UART_FIFO_SIZE_TWO_HUNDRED_FIFTY_SIX:
    default:
        return uart_by_level(1, 64, 128, 254, level);
    }
}

/* Returns whether there are as many characters as the trigger level, or without FIFO any. */
static inline bool uart_is_data_pending(const struct uart_receiver *parts, bool fifo)
{
    size_t waiting = uart_receiver_queue_len(parts);
    if (!fifo || (waiting == 0))
        return 0 < waiting;
    enum uart_fifo_trigger_level level = uart_receiver_trigger(parts);
    return (size_t)uart_characters_of(uart_receiver_size(parts), level) <= waiting;
}

/*
 * Returns whether there are characters in the FIFO, and none was received or read for four
 * character times.
 */
static inline bool uart_is_timed_out(const struct uart_receiver *parts, bool fifo)
{
    bool is_so = fifo && 0 < uart_receiver_queue_len(parts);
    if (is_so) {
        struct uart_timeout timeout = { parts->timeout_ticks, parts->timeout_limit };
        is_so = timeout.ticks == timeout.limit;
    }
    return is_so;
}

/* Returns whether a THR_EMPTY interrupt is pending. */
static inline bool uart_transmitter_is_thr_pending(const struct uart_transmitter *uart_transmitter)
{
    return uart_transmitter->is_thr_pending != 0;
}

/* The lines as a live chip saves them. */
static inline struct uart_modem_data uart_modem_data_of(struct uart_modem uart_modem)
{
    struct uart_modem_data modem_data = { uart_modem.inputs, uart_modem.lines, uart_modem.deltas };
    return modem_data;
}

/* Returns the modem lines with these data. */
static inline struct uart_chip_modem uart_modem_from_data(struct uart_modem_data saved)
{
    struct uart_chip_modem chip_modem = { saved.inputs, saved.lines, saved.deltas };
    return chip_modem;
}

/* The lines as the chip keeps them. */
static inline struct uart_chip_modem uart_restored(struct uart_modem saved)
{
    return uart_modem_from_data(uart_modem_data_of(saved));
}

/* Returns whether a line has changed since the last read of MSR. */
static inline bool uart_chip_modem_has_changes(const struct uart_chip_modem *modem)
{
    return modem->deltas != 0;
}

static inline bool uart_modem_has_changes(const struct uart_modem *uart_modem)
{
    struct uart_chip_modem chip_modem = uart_restored(*uart_modem);
    return uart_chip_modem_has_changes(&chip_modem);
}

/* Returns whether a modem line has changed since the last read of MSR. */
static inline bool uart_chip_has_modem_changes(const struct uart_chip *uart_chip)
{
    return uart_modem_has_changes(&uart_chip->modem);
}

/* Returns the interrupt of the highest priority among those that are enabled and pending. */
static UART_NO_TABLE struct uart_maybe_interrupt_type
uart_pending_interrupt(const struct uart_chip *parts)
{
    uint8_t enabled = uart_chip_ier(parts);
    struct uart_maybe_interrupt_type found;
    bool is_so;
    if ((enabled & UART_IER_RECEIVER_LINE_STATUS) != 0) {
        if ((uart_lsr(parts) & UART_LSR_LINE_ERRORS) != 0) {
            found.is_some = true;
            found.value = UART_INTERRUPT_TYPE_RECEIVER_LINE_STATUS;
            is_so = false;
        } else {
            is_so = true;
        }
    } else {
        is_so = true;
    }
    if (is_so) {
        struct uart_maybe_interrupt_type found2;
        bool is_so2;
        if ((enabled & UART_IER_DATA_READY) != 0) {
            if (uart_is_data_pending(&parts->receiver, uart_chip_fifo(parts))) {
                found2.is_some = true;
                found2.value = UART_INTERRUPT_TYPE_RECEIVED_DATA_READY;
                is_so2 = false;
            } else {
                is_so2 = true;
            }
        } else {
            is_so2 = true;
        }
        if (is_so2) {
            struct uart_maybe_interrupt_type found3;
            bool is_so3;
            if ((enabled & UART_IER_DATA_READY) != 0) {
                if (uart_is_timed_out(&parts->receiver, uart_chip_fifo(parts))) {
                    found3.is_some = true;
                    found3.value = UART_INTERRUPT_TYPE_RECEPTION_TIMEOUT;
                    is_so3 = false;
                } else {
                    is_so3 = true;
                }
            } else {
                is_so3 = true;
            }
            if (is_so3) {
                struct uart_maybe_interrupt_type found4;
                bool is_so4;
                if ((enabled & UART_IER_THR_EMPTY) != 0) {
                    if (uart_transmitter_is_thr_pending(&parts->transmitter)) {
                        found4.is_some = true;
                        found4.value = UART_INTERRUPT_TYPE_TRANSMITTER_HOLDING_REGISTER_EMPTY;
                        is_so4 = false;
                    } else {
                        is_so4 = true;
                    }
                } else {
                    is_so4 = true;
                }
                if (is_so4) {
                    struct uart_maybe_interrupt_type found5;
                    bool is_so5;
                    if ((enabled & UART_IER_MODEM_STATUS) != 0) {
                        if (uart_chip_has_modem_changes(parts)) {
                            found5.is_some = true;
                            found5.value = UART_INTERRUPT_TYPE_MODEM_STATUS;
                            is_so5 = false;
                        } else {
                            is_so5 = true;
                        }
                    } else {
                        is_so5 = true;
                    }
                    if (is_so5)
                        found5.is_some = false;
                    found4 = found5;
                }
                found3 = found4;
            }
            found2 = found3;
        }
        found = found2;
    }
    return found;
}

/*
 * Returns whether an interrupt is enabled and pending: whether the interrupt output is active.
 */
static inline bool uart_is_interrupting(const struct uart_chip *parts)
{
    return uart_chip_ier(parts) != 0 && uart_pending_interrupt(parts).is_some;
}

/* 1 if the chip asks for an interrupt, else 0. */
uint8_t uart_chip_is_interrupting(const struct uart_chip *chip)
{
    if (chip == NULL)
        return 0;
    return (uint8_t)uart_is_interrupting(chip);
}

/* Returns the size of the FIFO. */
static inline enum uart_fifo_size
uart_transmitter_size(const struct uart_transmitter *uart_transmitter)
{
    return uart_fifo_size_of(uart_transmitter->fifo_size);
}

/* Returns what IER keeps of a write: the interrupts that the chip has. */
static inline uint8_t uart_kept_interrupts(uint8_t written)
{
    return written & (UART_IER_DATA_READY | UART_IER_RECEIVER_LINE_STATUS |
        (UART_IER_THR_EMPTY | UART_IER_MODEM_STATUS));
}

/* Returns what MCR keeps of a write: the outputs and loopback. */
static inline uint8_t uart_kept_modem_control(uint8_t written)
{
    return written & (UART_MCR_DTR | UART_MCR_RTS | UART_MCR_OUT_1 | UART_MCR_OUT_2_INT_ENABLE |
        UART_MCR_LOOP_BACK);
}

/* Returns whether the two latches that keep only some bits have no others. */
static inline bool uart_is_sound_latches(struct uart_chip_latches latches)
{
    return uart_kept_interrupts(latches.ier) == latches.ier &&
        uart_kept_modem_control(latches.mcr) == latches.mcr;
}

/* Returns the model. */
static inline enum uart_events_chip uart_chip_model(const struct uart_chip *uart_chip)
{
    return uart_chip->model != 0 ? UART_EVENTS_CHIP_UART16550_A : UART_EVENTS_CHIP_UART16450;
}

/*
 * Returns whether a chip of this model can have its FIFO as it is: only one that has a FIFO has it
 * on.
 */
static inline bool uart_is_implemented(enum uart_events_chip model, bool fifo)
{
    return (model == UART_EVENTS_CHIP_UART16550_A) || !fifo;
}

/* Returns whether inputs and lines have bits of lines alone, and changes bits of changes. */
static inline bool uart_is_sound_modem(struct uart_modem_data saved)
{
    return (saved.inputs & UART_MSR_LINES) == saved.inputs &&
        (saved.lines & UART_MSR_LINES) == saved.lines &&
        (saved.deltas & UART_MSR_CHANGES) == saved.deltas;
}

/*
 * Returns whether a character may wait in a live chip: it is no arrival of a schedule, and has
 * only errors of a character.
 */
static inline bool uart_is_live_character(const struct uart_chip_character *character)
{
    uint8_t errors = character->errors;
    return character->origin.kind != UART_ORIGIN_ARRIVED &&
        (errors & UART_LSR_CHARACTER_ERRORS) == errors;
}

static inline bool uart_are_live_all(const struct uart_character *part2)
{
    struct uart_chip_character chip_character = uart_character_shown(part2);
    return uart_is_live_character(&chip_character);
}

/* Each of these characters may wait in a live chip. */
static inline bool uart_are_live(const struct uart_character *characters, size_t characters_len)
{
    const struct uart_character *found = characters;
    size_t len = characters_len;
    for (;;) {
        const struct uart_character *found2 = found;
        size_t len2 = len;
        if (len2 == 0)
            break;
        found = &found2[1];
        len = len2 - 1;
        if (!uart_are_live_all(&found2[0]))
            return false;
    }
    return true;
}

/* Each character of the queue is sound. */
static inline bool uart_is_sound_queue(const struct uart_receiver *receiver)
{
    size_t len = uart_receiver_queue_len(receiver);
    return uart_are_live(receiver->queue.items, len);
}

/*
 * The queue fits, its characters may be there, and the idle ticks end when a reception timeout is
 * due.
 */
static inline bool
uart_is_sound_receiver(const struct uart_receiver *receiver, enum uart_fifo_size size, bool fifo,
    uint16_t char_ticks)
{
    size_t receiver_queue_len = uart_receiver_queue_len(receiver);
    bool is_so = receiver_queue_len <= uart_room_of(fifo, size) && uart_is_sound_queue(receiver);
    return is_so && (uint32_t)receiver->timeout_ticks <= 4 * (uint32_t)char_ticks;
}

/* Returns whether a character may take so many ticks. */
static inline bool uart_is_char_time(uint16_t char_ticks)
{
    return 1 <= char_ticks && char_ticks <= 1000;
}

/*
 * Returns whether a character in the shift register has at least one tick left, and at most its
 * whole time.
 */
static inline bool uart_is_ticking(uint16_t char_ticks, struct uart_maybe_shifting shift_register)
{
    if (shift_register.is_some) {
        return 1 <= shift_register.value.ticks_left &&
            shift_register.value.ticks_left <= char_ticks;
    }
    return true;
}

/* How many bytes have gone out and were not taken yet. */
static inline size_t uart_wire_len(const struct uart_wire *uart_wire)
{
    size_t number = (size_t)uart_wire->len;
    return 64 < number ? 64 : number;
}

/* How many bytes there is room for. */
static inline size_t uart_wire_capacity(const struct uart_wire *uart_wire)
{
    size_t number = (size_t)uart_wire->capacity;
    return 64 < number ? 64 : number;
}

/* The ticks of a character are in their range, and the queue and the wire fit. */
static inline bool
uart_is_sound_transmitter(const struct uart_transmitter *transmitter, enum uart_fifo_size size,
    bool fifo)
{
    bool is_so = uart_is_char_time(transmitter->char_ticks);
    if (is_so) {
        uint16_t char_ticks = transmitter->char_ticks;
        is_so = uart_is_ticking(char_ticks, uart_transmitter_shifting(transmitter));
    }
    bool is_so2 = is_so;
    if (is_so2) {
        size_t transmitter_queue_len = uart_transmitter_queue_len(transmitter);
        is_so2 = transmitter_queue_len <= uart_room_of(fifo, size);
    }
    bool is_so3 = is_so2;
    if (is_so3) {
        size_t wire_len = uart_wire_len(&transmitter->wire);
        is_so3 = wire_len <= uart_wire_capacity(&transmitter->wire);
    }
    return is_so3 && (uint64_t)uart_wire_capacity(&transmitter->wire) <= UINT32_C(65536);
}

/* The idle ticks are counted up to four character times. */
static inline bool uart_has_limit(const struct uart_chip *chip)
{
    return (uint32_t)chip->receiver.timeout_limit == 4 * (uint32_t)chip->transmitter.char_ticks;
}

/* Both FIFOs have one size. */
static inline bool uart_has_one_size(const struct uart_chip *chip)
{
    uint8_t places_of = uart_places_of(chip->receiver.fifo_size);
    return places_of == uart_places_of(chip->transmitter.fifo_size);
}

/* Every part is sound. */
static inline bool uart_are_sound(const struct uart_chip *chip)
{
    bool fifo = uart_chip_fifo(chip);
    enum uart_fifo_size size = uart_transmitter_size(&chip->transmitter);
    bool is_so = uart_is_sound_latches(uart_chip_latches_of(chip)) &&
        uart_is_implemented(uart_chip_model(chip), fifo);
    bool is_so2 = is_so && uart_is_sound_modem(uart_modem_data_of(chip->modem));
    bool is_so3 = is_so2 &&
        uart_is_sound_receiver(&chip->receiver, size, fifo, chip->transmitter.char_ticks);
    bool is_so4 = is_so3 && uart_is_sound_transmitter(&chip->transmitter, size, fifo);
    bool is_so5 = is_so4 && uart_has_limit(chip);
    return is_so5 && uart_has_one_size(chip);
}

/*
 * The data are those of a sound chip. No function of this library makes another of one.
 *
 * Proved: sound as a live chip is, with FIFOs of the size that they have.
 */
static UART_APART bool uart_is_sound(const struct uart_chip *chip)
{
    return uart_are_sound(chip);
}

/* Puts an item last. */
static inline void uart_push_u8(uint8_t *len, uint8_t *items, size_t items_len, uint8_t item)
{
    (void)items_len;
    size_t last = (size_t)*len;
    items[last * sizeof(uint8_t)] = item;
    *len = (uint8_t)(*len + 1);
}

/* Puts these items in the place of those that are there. */
static inline void
uart_put_all(uint8_t *len, uint8_t *items, size_t items_len, const uint8_t *all, size_t all_len)
{
    *len = 0;
    for (size_t item = 0; item < all_len; item++)
        uart_push_u8(len, items, items_len, all[item * sizeof(uint8_t)]);
}

/*
 * Becomes a wire like this one.
 *
 * Proved: a length or a room is within the array.
 */
static inline void uart_wire_restore(struct uart_wire *uart_wire, const struct uart_wire *saved)
{
    uart_wire->capacity = (uint8_t)uart_wire_capacity(saved);
    uint8_t *at = uart_wire->items;
    size_t wire_len = uart_wire_len(saved);
    uart_put_all(&uart_wire->len, at, 64, saved->items, wire_len);
}

/*
 * Becomes a transmitter like this one.
 *
 * Proved: a length is within the FIFO.
 */
static inline void
uart_transmitter_restore(struct uart_transmitter *uart_transmitter,
    const struct uart_transmitter *saved)
{
    uart_transmitter->overflows = saved->overflows;
    uart_transmitter->char_ticks = saved->char_ticks;
    uart_transmitter->ticks_left = saved->ticks_left;
    uart_transmitter->is_shifting = (uint8_t)(saved->is_shifting != 0);
    uart_transmitter->shift_byte = saved->shift_byte;
    uart_transmitter->is_thr_pending = (uint8_t)(saved->is_thr_pending != 0);
    uart_transmitter->fifo_size = uart_places_of(saved->fifo_size);
    uart_wire_restore(&uart_transmitter->wire, &saved->wire);
    size_t transmitter_queue_len = uart_transmitter_queue_len(saved);
    uart_put_all(&uart_transmitter->queue.len, uart_transmitter->queue.items, 128,
        saved->queue.items, transmitter_queue_len);
}

/*
 * The number of characters by which C names a trigger level: as many as it is for with a FIFO of
 * 16.
 */
static inline uint8_t uart_number_of(enum uart_fifo_trigger_level trigger)
{
    switch (trigger) {
    case UART_FIFO_TRIGGER_LEVEL_ONE:
        return 1;
    case UART_FIFO_TRIGGER_LEVEL_FOUR:
        return 4;
    case UART_FIFO_TRIGGER_LEVEL_EIGHT:
        return 8;
    case UART_FIFO_TRIGGER_LEVEL_FOURTEEN:
    default:
        return 14;
    }
}

/*
 * Returns the character with its flag as 0 or 1.
 *
 * Proved: a flag is 0 or 1.
 */
static inline struct uart_character uart_character_restored(struct uart_character uart_character)
{
    struct uart_character character =
        { uart_character.byte, uart_character.errors, (uint8_t)(uart_character.is_looped != 0) };
    return character;
}

/*
 * Becomes a queue like this one, of a FIFO of the same size.
 *
 * Proved: a flag of a character that waits too.
 */
static inline void
uart_characters_restore(struct uart_characters *uart_characters,
    const struct uart_characters *saved, uint8_t fifo_size)
{
    size_t count = uart_count(saved->len, fifo_size);
    const struct uart_character *at = saved->items;
    uart_characters->len = 0;
    for (size_t character = 0; character < count; character++) {
        struct uart_character *at2 = uart_characters->items;
        struct uart_character character2 = uart_character_restored(at[character]);
        uart_push_character(&uart_characters->len, at2, 128, character2);
    }
}

/*
 * Becomes a receiver like this one.
 *
 * Proved: the trigger is the number of characters of its level.
 */
static inline void
uart_receiver_restore(struct uart_receiver *uart_receiver, const struct uart_receiver *saved)
{
    uart_receiver->timeout_ticks = saved->timeout_ticks;
    uart_receiver->timeout_limit = saved->timeout_limit;
    uart_receiver->is_overrun = (uint8_t)(saved->is_overrun != 0);
    uart_receiver->is_front_reported = (uint8_t)(saved->is_front_reported != 0);
    uart_receiver->last_byte = saved->last_byte;
    uart_receiver->trigger = uart_number_of(uart_trigger_of(saved->trigger));
    uart_receiver->fifo_size = uart_places_of(saved->fifo_size);
    uart_characters_restore(&uart_receiver->queue, &saved->queue, saved->fifo_size);
}

/*
 * Becomes a chip like this one.
 *
 * Proved: the whole chip, but for bytes behind the end of a queue and those of an empty shift
 * register.
 */
static inline void uart_chip_restore(struct uart_chip *uart_chip, const struct uart_chip *saved)
{
    uart_transmitter_restore(&uart_chip->transmitter, &saved->transmitter);
    uart_receiver_restore(&uart_chip->receiver, &saved->receiver);
    uart_chip->latches = saved->latches;
    uart_chip->modem = saved->modem;
    uart_chip->model = (uint8_t)(saved->model != 0);
    uart_chip->fifo = (uint8_t)(saved->fifo != 0);
    uart_chip->cuts = (uint8_t)(saved->cuts != 0);
}

/* Makes a chip like one that was saved, unless the data are those of no sound chip. */
UART_SELDOM uint32_t uart_chip_load(struct uart_chip *chip, const struct uart_chip *saved)
{
    if (chip == NULL || saved == NULL)
        return UART_NULL_POINTER;
    if (!uart_is_sound(saved))
        return UART_BAD_CHIP;
    uart_chip_restore(chip, saved);
    return UART_OK;
}

/* A chip can be made with FIFOs of so many characters. */
static inline bool uart_is_fifo_size(uint8_t characters)
{
    switch (characters) {
    case 16:
    case 32:
    case 64:
    case 128:
        return true;
    default:
        return false;
    }
}

/*
 * Becomes a transmitter that has sent nothing yet, with a FIFO of this size. What is in the
 * queue's places means nothing. To clear so many would call memset.
 *
 * Proved: a length is within the FIFO.
 */
static inline void
uart_transmitter_power_on(struct uart_transmitter *uart_transmitter, uint8_t fifo_size,
    uint16_t char_ticks, uint8_t capacity)
{
    uart_transmitter->overflows = 0;
    uart_transmitter->char_ticks = char_ticks;
    uart_transmitter->ticks_left = 0;
    uart_transmitter->is_shifting = 0;
    uart_transmitter->shift_byte = 0;
    uart_transmitter->is_thr_pending = 0;
    uart_transmitter->fifo_size = uart_places_of(fifo_size);
    uart_transmitter->queue.len = 0;
    struct uart_wire wire;
    wire.len = 0;
    wire.capacity = capacity;
    uart_fill_bytes(wire.items, 0, 64);
    uart_transmitter->wire = wire;
}

/*
 * Becomes a receiver to which nothing has come yet, with a FIFO of this size. What is in the
 * queue's places means nothing. To clear so many would call memset.
 *
 * Proved: the trigger is the number of characters of its level.
 */
static inline void
uart_receiver_power_on(struct uart_receiver *uart_receiver, uint8_t fifo_size, uint16_t char_ticks)
{
    uart_receiver->timeout_ticks = 0;
    uart_receiver->timeout_limit = (uint16_t)(4 * char_ticks);
    uart_receiver->is_overrun = 0;
    uart_receiver->is_front_reported = 0;
    uart_receiver->last_byte = 0;
    uart_receiver->trigger = 1;
    uart_receiver->fifo_size = uart_places_of(fifo_size);
    uart_receiver->queue.len = 0;
}

/*
 * Becomes a chip after power on, with FIFOs of this size.
 *
 * Proved: the whole chip, but for bytes behind the end of a queue and those of an empty shift
 * register.
 */
static inline void
uart_chip_power_on(struct uart_chip *uart_chip, uint8_t model, uint8_t fifo_size,
    uint16_t char_ticks, uint8_t capacity, uint8_t cuts)
{
    uart_transmitter_power_on(&uart_chip->transmitter, fifo_size, char_ticks, capacity);
    uart_receiver_power_on(&uart_chip->receiver, fifo_size, char_ticks);
    struct uart_latches latches;
    latches.ier = 0;
    latches.lcr = 0;
    latches.mcr = 0;
    latches.scr = 0;
    latches.dll = 0;
    latches.dlm = 0;
    uart_chip->latches = latches;
    uart_chip->modem.inputs = 0;
    uart_chip->modem.lines = 0;
    uart_chip->modem.deltas = 0;
    uart_chip->model = (uint8_t)(model != 0);
    uart_chip->fifo = 0;
    uart_chip->cuts = (uint8_t)(cuts != 0);
}

/* Makes a chip after power on, with FIFOs of so many characters. */
UART_SELDOM uint32_t
uart_chip_new_sized(struct uart_chip *chip, uint8_t model, uint8_t fifo_size, uint16_t char_ticks,
    uint8_t wire_capacity, uint8_t cuts)
{
    if (chip == NULL)
        return UART_NULL_POINTER;
    if (!uart_is_fifo_size(fifo_size))
        return UART_BAD_FIFO;
    if ((char_ticks == 0) || (1000 < char_ticks))
        return UART_BAD_TICKS;
    if (64 < (uint64_t)wire_capacity)
        return UART_BAD_WIRE;
    uart_chip_power_on(chip, model, fifo_size, char_ticks, wire_capacity, cuts);
    return UART_OK;
}

/* Makes a chip after power on. */
UART_SELDOM uint32_t
uart_chip_new(struct uart_chip *chip, uint8_t model, uint16_t char_ticks, uint8_t wire_capacity,
    uint8_t cuts)
{
    if (chip == NULL)
        return UART_NULL_POINTER;
    return uart_chip_new_sized(chip, model, 16, char_ticks, wire_capacity, cuts);
}

/* Returns whether a character has errors. */
static inline bool uart_receiver_has_errors(const struct uart_receiver *uart_receiver)
{
    size_t len = uart_receiver_queue_len(uart_receiver);
    return uart_some_has_errors(uart_receiver->queue.items, len);
}

/* Does what a read of LSR does: clears the overrun and the errors of the front. */
static inline void uart_receiving_report(struct uart_receiver *parts)
{
    parts->is_overrun = (uint8_t)false;
    if (0 < uart_receiver_queue_len(parts))
        parts->is_front_reported = (uint8_t)true;
}

/* Reads LSR while some character has errors. */
static UART_APART uint8_t uart_read_errors(struct uart_chip *parts)
{
    uint8_t status = uart_lsr(parts);
    uart_receiving_report(&parts->receiver);
    return status;
}

/* Reads LSR, which reports the overrun and the errors of the front. */
static inline uint8_t uart_read_line_status(struct uart_chip *parts)
{
    if (uart_receiver_has_errors(&parts->receiver))
        return uart_read_errors(parts);
    uint8_t receiver_status = uart_receiver_status(&parts->receiver);
    uint8_t transmitter_status = uart_transmitter_status(&parts->transmitter);
    uart_receiving_report(&parts->receiver);
    return receiver_status | transmitter_status;
}

/* Returns whether DATA and IER are the divisor latch. */
static inline bool uart_is_dlab_set(const struct uart_chip *parts)
{
    return (uart_chip_lcr(parts) & UART_LCR_DLAB) != 0;
}

/*
 * Takes the front if there is one, and returns the byte that was taken last. A read of an empty
 * receiver changes nothing, and not the ticks towards a timeout either.
 */
static inline uint8_t uart_take_front(struct uart_receiver *parts)
{
    struct uart_maybe_chip_character found = uart_receiver_pop(parts);
    if (found.is_some) {
        parts->timeout_ticks = 0;
        parts->last_byte = found.value.byte;
    }
    return parts->last_byte;
}

static inline uint8_t uart_read_data(struct uart_chip *parts)
{
    if (uart_is_dlab_set(parts))
        return uart_chip_latches_of(parts).dll;
    return uart_take_front(&parts->receiver);
}

/* Returns these bits if the condition holds, else none. */
static inline uint8_t uart_flag_isr(bool on, uint8_t bits)
{
    return on ? bits : 0;
}

/* Returns what ISR shows of the FIFOs. Bit 5 of a chip without the size switch is 0. */
static inline uint8_t uart_fifo_flags(const struct uart_chip *parts)
{
    return uart_flag_isr(uart_chip_fifo(parts), UART_ISR_FIFOS_ENABLED);
}

/* Returns whether a read of ISR that shows this interrupt acknowledges it. */
static inline bool uart_is_thr_empty(struct uart_maybe_interrupt_type interrupt)
{
    return interrupt.is_some &&
        interrupt.value == UART_INTERRUPT_TYPE_TRANSMITTER_HOLDING_REGISTER_EMPTY;
}

/*
 * Returns the low nibble of an ISR value that identifies this interrupt.
 *
 * Proved: bit 0 is clear, so an interrupt is pending, and the code is that of this interrupt.
 */
static inline uint8_t uart_interrupt_type_to_bits(enum uart_interrupt_type interrupt_type)
{
    switch (interrupt_type) {
    case UART_INTERRUPT_TYPE_RECEIVER_LINE_STATUS:
        return 6;
    case UART_INTERRUPT_TYPE_RECEIVED_DATA_READY:
        return 4;
    case UART_INTERRUPT_TYPE_RECEPTION_TIMEOUT:
        return 12;
    case UART_INTERRUPT_TYPE_TRANSMITTER_HOLDING_REGISTER_EMPTY:
        return 2;
    case UART_INTERRUPT_TYPE_MODEM_STATUS:
        return 0;
    case UART_INTERRUPT_TYPE_DMA_RECEPTION_END_OF_TRANSFER:
        return 14;
    case UART_INTERRUPT_TYPE_DMA_TRANSMISSION_END_OF_TRANSFER:
    default:
        return 10;
    }
}

/* Returns ISR without the bits that show the FIFO. */
static inline uint8_t uart_identification(struct uart_maybe_interrupt_type interrupt)
{
    if (interrupt.is_some)
        return uart_interrupt_type_to_bits(interrupt.value);
    return UART_ISR_INTERRUPT_STATUS;
}

/* Reads ISR. A read that shows THR_EMPTY acknowledges it. */
static inline uint8_t uart_read_interrupt(struct uart_chip *parts)
{
    struct uart_maybe_interrupt_type interrupt = uart_pending_interrupt(parts);
    uint8_t flags = uart_fifo_flags(parts);
    if (uart_is_thr_empty(interrupt))
        parts->transmitter.is_thr_pending = (uint8_t)false;
    return uart_identification(interrupt) | flags;
}

/* Returns what a read of MSR returns, and clears the changes, as the read does. */
static inline uint8_t uart_chip_modem_read(struct uart_chip_modem *modem)
{
    uint8_t lines = modem->lines;
    uint8_t deltas = modem->deltas;
    modem->deltas = 0;
    return lines | deltas;
}

/* Returns the modem lines as plain data. */
static inline struct uart_modem_data uart_chip_modem_data(const struct uart_chip_modem *modem)
{
    struct uart_modem_data modem_data = { modem->inputs, modem->lines, modem->deltas };
    return modem_data;
}

/* The lines as C keeps them. */
static inline struct uart_modem uart_saved(const struct uart_chip_modem *modem)
{
    struct uart_modem_data data = uart_chip_modem_data(modem);
    struct uart_modem modem2 = { data.inputs, data.lines, data.deltas };
    return modem2;
}

/* A read of the modem status register, which clears the changes. */
static inline uint8_t uart_modem_read(struct uart_modem *uart_modem)
{
    struct uart_chip_modem modem = uart_restored(*uart_modem);
    uint8_t status = uart_chip_modem_read(&modem);
    *uart_modem = uart_saved(&modem);
    return status;
}

/*
 * Returns what a read of MSR returns, and clears the changes of the modem lines, as the read does.
 */
static inline uint8_t uart_chip_read_modem(struct uart_chip *uart_chip)
{
    return uart_modem_read(&uart_chip->modem);
}

static UART_APART UART_NO_TABLE uint8_t uart_read_register(struct uart_chip *parts, uint8_t offset)
{
    switch (offset) {
    case UART_OFFSET_DATA:
        return uart_read_data(parts);
    case UART_OFFSET_IER:
        if (uart_is_dlab_set(parts))
            return uart_chip_latches_of(parts).dlm;
        return uart_chip_ier(parts);
    case UART_OFFSET_ISR:
        return uart_read_interrupt(parts);
    case UART_OFFSET_LCR:
        return uart_chip_lcr(parts);
    case UART_OFFSET_MCR:
        return uart_chip_mcr(parts);
    case UART_OFFSET_LSR:
        return uart_read_line_status(parts);
    case UART_OFFSET_MSR:
        return uart_chip_read_modem(parts);
    default:
        return uart_chip_latches_of(parts).scr;
    }
}

/*
 * Reads the register at this offset: returns its value, and has the effect of the read on the
 * chip.
 */
static inline uint8_t uart_read(struct uart_chip *parts, uint8_t offset)
{
    if (offset == UART_OFFSET_LSR)
        return uart_read_line_status(parts);
    return uart_read_register(parts, offset);
}

/* The guest reads a register. */
uint8_t uart_chip_read(struct uart_chip *chip, uint8_t offset)
{
    if (chip == NULL)
        return 0;
    return uart_read(chip, (uint8_t)(offset % 8));
}

/* Returns how many characters can be received before one is lost. */
static inline size_t uart_receiving_receive_room(const struct uart_receiver *parts, bool fifo)
{
    size_t room_of = uart_room_of(fifo, uart_receiver_size(parts));
    size_t receiver_queue_len = uart_receiver_queue_len(parts);
    return receiver_queue_len <= room_of ? room_of - receiver_queue_len : 0;
}

/* Returns how many characters can be received before one is lost. In loopback that is 0. */
static inline size_t uart_controlling_receive_room(const struct uart_chip *parts)
{
    if (uart_is_loopback(parts))
        return 0;
    return uart_receiving_receive_room(&parts->receiver, uart_chip_fifo(parts));
}

/* How many characters can come in before one is lost. */
size_t uart_chip_receive_room(const struct uart_chip *chip)
{
    if (chip == NULL)
        return 0;
    return uart_controlling_receive_room(chip);
}

/* Saves a chip. */
UART_SELDOM void uart_chip_save(const struct uart_chip *chip, struct uart_chip *saved)
{
    if (chip == NULL || saved == NULL)
        return;
    uart_chip_restore(saved, chip);
}

/* Returns these bits if the condition holds, else none. */
static inline uint8_t uart_flag_msr(bool on, uint8_t bits)
{
    return on ? bits : 0;
}

/* Returns the lines in loopback, where the outputs replace the inputs. */
static inline uint8_t uart_looped_lines(uint8_t mcr)
{
    uint8_t cts = uart_flag_msr((mcr & UART_MCR_RTS) != 0, UART_MSR_CTS);
    uint8_t dsr = uart_flag_msr((mcr & UART_MCR_DTR) != 0, UART_MSR_DSR);
    uint8_t ri = uart_flag_msr((mcr & UART_MCR_OUT_1) != 0, UART_MSR_RI);
    return cts | dsr | (ri | uart_flag_msr((mcr & UART_MCR_OUT_2_INT_ENABLE) != 0, UART_MSR_CD));
}

/* Returns the lines under this value of MCR. */
static inline uint8_t uart_lines_under(uint8_t mcr, uint8_t inputs)
{
    if ((mcr & UART_MCR_LOOP_BACK) != 0)
        return uart_looped_lines(mcr);
    return inputs;
}

/* Returns whether this line has changed. */
static inline bool uart_msr_is_changed(uint8_t msr, uint8_t before, uint8_t line)
{
    return (before & line) != (msr & line);
}

/*
 * Returns the changes of the lines since an earlier reading, as their bits: of RI only its
 * trailing edge, from set to clear.
 */
static inline uint8_t uart_msr_changes_since(uint8_t msr, uint8_t before)
{
    uint8_t cts = uart_flag_msr(uart_msr_is_changed(msr, before, UART_MSR_CTS), UART_MSR_DELTA_CTS);
    uint8_t dsr = uart_flag_msr(uart_msr_is_changed(msr, before, UART_MSR_DSR), UART_MSR_DELTA_DSR);
    uint8_t flag_msr =
        uart_flag_msr((before & UART_MSR_RI) != 0 && (msr & UART_MSR_RI) == 0,
        UART_MSR_TRAILING_EDGE_RI);
    return cts | dsr |
        (flag_msr | uart_flag_msr(uart_msr_is_changed(msr, before, UART_MSR_CD),
        UART_MSR_DELTA_CD));
}

/* Computes the lines anew under this value of MCR, and adds their changes. */
static inline void uart_chip_modem_renew(struct uart_chip_modem *modem, uint8_t mcr)
{
    uint8_t lines = uart_lines_under(mcr, modem->inputs);
    uint8_t deltas = modem->deltas;
    modem->deltas = deltas | uart_msr_changes_since(lines, modem->lines);
    modem->lines = lines;
}

/* Sets the inputs, and computes the lines anew. */
static inline void
uart_chip_modem_change_inputs(struct uart_chip_modem *modem, uint8_t mcr, uint8_t inputs)
{
    modem->inputs = inputs;
    uart_chip_modem_renew(modem, mcr);
}

/* The inputs become these. */
static inline void
uart_modem_change_inputs(struct uart_modem *uart_modem, uint8_t mcr, uint8_t inputs)
{
    struct uart_chip_modem modem = uart_restored(*uart_modem);
    uart_chip_modem_change_inputs(&modem, mcr, inputs);
    *uart_modem = uart_saved(&modem);
}

/* Sets the inputs of the modem, and computes its lines anew under this value of MCR. */
static inline void uart_chip_change_inputs(struct uart_chip *uart_chip, uint8_t mcr, uint8_t inputs)
{
    uart_modem_change_inputs(&uart_chip->modem, mcr, inputs);
}

/* Sets the inputs of the modem, as bits of MSR. */
static UART_APART void uart_change_lines(struct uart_chip *parts, uint8_t inputs)
{
    uart_chip_change_inputs(parts, uart_chip_mcr(parts), inputs);
}

/* The modem's inputs become these. */
UART_SELDOM uint32_t uart_chip_set_lines(struct uart_chip *chip, uint8_t inputs)
{
    if (chip == NULL)
        return UART_NULL_POINTER;
    if ((inputs & UART_MSR_LINES) != inputs)
        return UART_BAD_LINES;
    uart_change_lines(chip, inputs);
    return UART_OK;
}

/* Takes the front. */
static inline uint8_t uart_wire_pop_front(struct uart_wire *uart_wire)
{
    uint8_t number = uart_wire->items[0];
    size_t count = uart_wire_len(uart_wire);
    uart_move_down_bytes(uart_wire->items, 1, 0, 64 - 1);
    uart_wire->len = (uint8_t)((uint8_t)count - 1);
    return number;
}

/*
 * Takes bytes from the front: as many as there are, and as bytes has room for. Returns how many.
 */
static inline size_t uart_wire_take(struct uart_wire *uart_wire, uint8_t *bytes, size_t bytes_len)
{
    size_t wire_len = uart_wire_len(uart_wire);
    size_t count = wire_len < bytes_len ? wire_len : bytes_len;
    for (size_t i = 0; i < count; i++)
        bytes[i] = uart_wire_pop_front(uart_wire);
    return count;
}

/*
 * Takes bytes from the front of the wire: as many as there are, and as bytes has room for. Returns
 * how many.
 *
 * Proved: a length is within the FIFO.
 */
static inline size_t
uart_transmitter_take_wire(struct uart_transmitter *uart_transmitter, uint8_t *bytes,
    size_t bytes_len)
{
    return uart_wire_take(&uart_transmitter->wire, bytes, bytes_len);
}

/* Takes bytes that have gone out. Returns how many. */
size_t uart_chip_take_wire(struct uart_chip *chip, uint8_t *bytes, size_t room)
{
    if (chip == NULL || bytes == NULL)
        return 0;
    return uart_transmitter_take_wire(&chip->transmitter, bytes, room);
}

/* Returns whether the wire has room for a byte. */
static inline bool uart_transmitter_has_room(const struct uart_transmitter *uart_transmitter)
{
    size_t wire_len = uart_wire_len(&uart_transmitter->wire);
    return wire_len < uart_wire_capacity(&uart_transmitter->wire);
}

/*
 * Returns the ticks until a character enters or leaves the shift register: None if none can, as
 * with a full wire.
 *
 * The held_off is false in each call, and so it is left out.
 */
static inline struct uart_maybe_u16
uart_next_move(const struct uart_transmitter *parts, bool loopback)
{
    struct uart_maybe_shifting found = uart_transmitter_shifting(parts);
    if (found.is_some) {
        if (loopback || uart_transmitter_has_room(parts)) {
            struct uart_maybe_u16 u16 =
                { true, (uint16_t)(1 < found.value.ticks_left ? found.value.ticks_left : 1) };
            return u16;
        }
        struct uart_maybe_u16 u162 = { false, 0 };
        return u162;
    }
    if (uart_transmitter_queue_len(parts) == 0) {
        struct uart_maybe_u16 u16 = { false, 0 };
        return u16;
    }
    struct uart_maybe_u16 u163 = { true, 1 };
    return u163;
}

/* Sets the character in the shift register. */
static inline void
uart_transmitter_set_shifting(struct uart_transmitter *uart_transmitter,
    struct uart_maybe_shifting shifting)
{
    uart_transmitter->is_shifting = (uint8_t)shifting.is_some;
    if (shifting.is_some) {
        uart_transmitter->shift_byte = shifting.value.byte;
        uart_transmitter->ticks_left = shifting.value.ticks_left;
    }
}

/* Lets ticks pass in which no character enters or leaves the shift register. */
static inline void uart_count_down(struct uart_transmitter *parts, uint16_t ticks)
{
    struct uart_maybe_shifting found = uart_transmitter_shifting(parts);
    if (found.is_some) {
        struct uart_maybe_shifting shifting =
            { true,
            { found.value.byte,
            (uint16_t)(ticks < found.value.ticks_left ? (uint16_t)(found.value.ticks_left - ticks)
            : (1 < found.value.ticks_left ? 1 : found.value.ticks_left)) } };
        uart_transmitter_set_shifting(parts, shifting);
    }
}

/* Lets ticks pass in which no character is received or read. */
static inline void uart_count_up(struct uart_receiver *parts, uint16_t ticks)
{
    if (0 < ticks) {
        struct uart_timeout timeout = { parts->timeout_ticks, parts->timeout_limit };
        uint16_t number = (uint16_t)(UINT32_C(65535) - ticks);
        uint16_t number2 = timeout.ticks <= number ? (uint16_t)(timeout.ticks + ticks)
            : UINT32_C(65535);
        parts->timeout_ticks = timeout.limit < number2 ? timeout.limit : number2;
    }
}

/* Lets ticks pass in which no character enters or leaves the shift register. */
static inline void uart_skip(struct uart_chip *parts, uint16_t ticks)
{
    uart_count_down(&parts->transmitter, ticks);
    uart_count_up(&parts->receiver, ticks);
}

/* A byte goes out. */
static inline void uart_wire_push(struct uart_wire *uart_wire, uint8_t byte)
{
    uart_push_u8(&uart_wire->len, uart_wire->items, 64, byte);
}

/* Appends a byte to the wire. The caller must show that there is room. */
static inline void uart_transmitter_send(struct uart_transmitter *uart_transmitter, uint8_t byte)
{
    uart_wire_push(&uart_transmitter->wire, byte);
}

/*
 * Lets one tick pass in the shift register, and returns the byte that loopback returns in it. If
 * the wire is full, the byte waits in the shift register at its last tick, so none is lost.
 */
static struct uart_maybe_u8 uart_shift(struct uart_transmitter *parts, bool loopback)
{
    struct uart_maybe_shifting found = uart_transmitter_shifting(parts);
    if (!found.is_some) {
        struct uart_maybe_u8 u8 = { false, 0 };
        return u8;
    }
    if (1 < found.value.ticks_left) {
        struct uart_maybe_shifting shifting =
            { true, { found.value.byte, (uint16_t)(found.value.ticks_left - 1) } };
        uart_transmitter_set_shifting(parts, shifting);
        struct uart_maybe_u8 u8 = { false, 0 };
        return u8;
    }
    if (loopback) {
        struct uart_maybe_shifting shifting = { false, { 0, 0 } };
        uart_transmitter_set_shifting(parts, shifting);
        struct uart_maybe_u8 u8 = { true, found.value.byte };
        return u8;
    }
    if (uart_transmitter_has_room(parts)) {
        uart_transmitter_send(parts, found.value.byte);
        struct uart_maybe_shifting shifting = { false, { 0, 0 } };
        uart_transmitter_set_shifting(parts, shifting);
    }
    struct uart_maybe_u8 u82 = { false, 0 };
    return u82;
}

/* The items behind those of a FIFO of 16 move down by one place, as many as wait. */
static UART_APART void uart_drop_others_u8(uint8_t *items, size_t items_len, size_t count)
{
    (void)items_len;
    size_t number = count / 16;
    size_t number2 = count % 16 == 0 ? number : number + 1;
    for (size_t block = 1; block < number2; block++)
        uart_move_down_bytes(&items[(16 * block - 1) * sizeof(uint8_t)], 1, 0, 17 - 1);
}

/*
 * The items behind the front move down by one place, as many as wait. In blocks of a constant
 * size: a move of any number of items would call memmove.
 */
static inline void uart_drop_front_u8(uint8_t *items, size_t items_len, size_t count)
{
    uart_move_down_bytes(items, 1, 0, 16 - 1);
    if (16 < count)
        uart_drop_others_u8(items, items_len, count);
}

/* Takes the front of the queue of a FIFO. */
static inline struct uart_maybe_u8
uart_pop_front_u8(uint8_t *len, uint8_t *items, size_t items_len, uint8_t fifo_size)
{
    if (*len == 0) {
        struct uart_maybe_u8 u8 = { false, 0 };
        return u8;
    }
    uint8_t number = items[0 * sizeof(uint8_t)];
    if (*len == 1) {
        *len = 0;
        struct uart_maybe_u8 u8 = { true, number };
        return u8;
    }
    size_t count = uart_count(*len, fifo_size);
    uart_drop_front_u8(items, items_len, count);
    *len = (uint8_t)((uint8_t)count - 1);
    struct uart_maybe_u8 u82 = { true, number };
    return u82;
}

/* Removes the front of the queue, and returns it. */
static inline struct uart_maybe_u8 uart_transmitter_pop(struct uart_transmitter *uart_transmitter)
{
    return uart_pop_front_u8(&uart_transmitter->queue.len, uart_transmitter->queue.items, 128,
        uart_transmitter->fifo_size);
}

/* Moves the front of the queue into an empty shift register. */
static inline void uart_refill(struct uart_transmitter *parts)
{
    if (uart_transmitter_shifting(parts).is_some)
        return;
    struct uart_maybe_u8 found = uart_transmitter_pop(parts);
    if (found.is_some) {
        struct uart_maybe_shifting shifting = { true, { found.value, parts->char_ticks } };
        uart_transmitter_set_shifting(parts, shifting);
        if (uart_transmitter_queue_len(parts) == 0)
            parts->is_thr_pending = (uint8_t)true;
    }
}

/*
 * Lets one tick pass, and returns the byte that loopback returns in it. A transmitter that is held
 * off takes no next character from its queue; the one that it shifts out goes on.
 *
 * The held_off is false in each call, and so it is left out.
 */
static inline struct uart_maybe_u8
uart_transmitting_tick(struct uart_transmitter *parts, bool loopback)
{
    struct uart_maybe_u8 looped = uart_shift(parts, loopback);
    uart_refill(parts);
    return looped;
}

/* Lets one tick pass, with the byte that loopback returned in it. */
static inline void
uart_receiving_tick(struct uart_receiver *parts, bool fifo, struct uart_maybe_u8 looped)
{
    if (looped.is_some) {
        struct uart_chip_character chip_character = { looped.value, 0, { UART_ORIGIN_LOOPED, 0 } };
        uart_enter(parts, fifo, chip_character);
    }
    uart_count_up(parts, 1);
}

/* Lets one tick pass. */
static inline void uart_controlling_tick(struct uart_chip *parts)
{
    bool loopback = uart_is_loopback(parts);
    struct uart_maybe_u8 looped = uart_transmitting_tick(&parts->transmitter, loopback);
    bool fifo = uart_chip_fifo(parts);
    uart_receiving_tick(&parts->receiver, fifo, looped);
}

/*
 * Lets n ticks pass, and returns the number of jumps that this took.
 *
 * A jump ends at the tick in which a character enters or leaves the shift register, or takes all
 * ticks that are left. So its cost does not grow with the number of ticks. A jump skips the ticks
 * before that tick, and then makes it as any other tick. So the start and the end of a character
 * have no second definition. With FIFOs of 16 at most 17 characters move, and one jump takes what
 * is left: 18 jumps are enough for any number of ticks.
 */
static inline size_t uart_advance(struct uart_chip *parts, uint16_t n)
{
    uint16_t ticks = n;
    size_t left = 0;
    while (0 < ticks) {
        bool jumps = uart_is_loopback(parts);
        struct uart_maybe_u16 found = uart_next_move(&parts->transmitter, jumps);
        if (found.is_some && found.value <= ticks) {
            uart_skip(parts, (uint16_t)(found.value - 1));
            uart_controlling_tick(parts);
            ticks = (uint16_t)(ticks - found.value);
        } else {
            uart_skip(parts, ticks);
            ticks = 0;
        }
        left++;
    }
    return left;
}

/* So many ticks pass. */
void uart_chip_ticks(struct uart_chip *chip, uint16_t count)
{
    if (chip == NULL)
        return;
    uart_advance(chip, count);
}

/* How many characters wait for the guest to read them. */
size_t uart_chip_waiting_len(const struct uart_chip *chip)
{
    if (chip == NULL)
        return 0;
    return uart_receiver_queue_len(&chip->receiver);
}

/* How many bytes have gone out and were not taken yet. */
size_t uart_chip_wire_len(const struct uart_chip *chip)
{
    if (chip == NULL)
        return 0;
    return uart_wire_len(&chip->transmitter.wire);
}

/* How many more bytes the wire has room for. */
size_t uart_chip_wire_room(const struct uart_chip *chip)
{
    if (chip == NULL)
        return 0;
    size_t wire_capacity = uart_wire_capacity(&chip->transmitter.wire);
    size_t wire_len = uart_wire_len(&chip->transmitter.wire);
    return wire_len <= wire_capacity ? wire_capacity - wire_len : 0;
}

/* Returns what is owed as a clock of uart_virtual has it. */
static inline bool uart_clock_known(struct uart_clock uart_clock)
{
    return uart_clock.is_owed != 0;
}

/* Returns what the monitor has to do as a port of uart_virtual asks for it. */
static inline struct uart_virtual_todo uart_asked(struct uart_todo todo)
{
    struct uart_virtual_todo todo2;
    todo2.signal = todo.signal != 0;
    todo2.level = todo.level != 0;
    todo2.has_moved = todo.has_moved != 0;
    todo2.has_room = todo.has_room != 0;
    todo2.ready = todo.ready;
    return todo2;
}

/*
 * The host brought something, or took output, and the port asked for this. All of it is to be done
 * now.
 */
static inline void uart_after_host_clock(bool *clock, struct uart_virtual_todo todo)
{
    bool was_owed = *clock;
    *clock = todo.level && (!todo.signal && was_owed);
}

/* The host made a call, and the port asked for this. */
void uart_clock_after_host(struct uart_clock *clock, const struct uart_todo *todo)
{
    if (clock == NULL || todo == NULL)
        return;
    bool owed = uart_clock_known(*clock);
    struct uart_virtual_todo virtual_todo = uart_asked(*todo);
    uart_after_host_clock(&owed, virtual_todo);
    clock->is_owed = (uint8_t)owed;
}

/*
 * Returns what the guest's read of this register is, as far as signals are concerned. Only a read
 * of ISR is a look. With LSR and MSR, a handler that reads LSR before each byte, as most do, would
 * be signalled for each byte, as long as more wait. A handler that never reads ISR is signalled
 * each time that the line falls and rises, so it cannot wait for ever.
 */
static inline struct uart_kind uart_kind_of_read(uint8_t offset)
{
    uint64_t offset2 = (uint64_t)offset;
    struct uart_kind kind;
    kind.brings = false;
    kind.looks = offset2 == 2;
    kind.moves_data = offset2 == 0;
    kind.may_make_room = false;
    return kind;
}

/*
 * Takes the signal from todo, if it waits. What was put off before is no longer owed if a signal
 * is given, or if the line is down.
 */
static inline void uart_clock_put_off(bool *clock, bool waits, struct uart_virtual_todo *todo)
{
    bool was_owed = *clock;
    *clock = todo->level && (todo->signal ? waits : was_owed);
    todo->signal = todo->signal && !waits;
}

/*
 * The guest read this register, and the port asked for this. Takes the signal from todo if it can
 * wait: the register is DATA, and the line was up before. Returns whether that is so: then the
 * time begins, after which the monitor calls pass_time.
 */
static inline bool
uart_after_read_clock(bool *clock, uint8_t offset, struct uart_virtual_todo *todo)
{
    bool is_so = uart_kind_of_read(offset).moves_data && (todo->signal && !todo->has_moved);
    uart_clock_put_off(clock, is_so, todo);
    return is_so;
}

/* Returns what the monitor has to do as C has it. */
static inline struct uart_todo uart_shown(struct uart_virtual_todo todo)
{
    struct uart_todo uart_todo;
    uart_todo.ready = todo.ready;
    uart_todo.signal = (uint8_t)todo.signal;
    uart_todo.level = (uint8_t)todo.level;
    uart_todo.has_moved = (uint8_t)todo.has_moved;
    uart_todo.has_room = (uint8_t)todo.has_room;
    return uart_todo;
}

/* The guest read a register. Takes the signal from what the port asked for, if it can wait. */
uint8_t uart_clock_after_read(struct uart_clock *clock, uint8_t offset, struct uart_todo *todo)
{
    if (clock == NULL || todo == NULL)
        return 0;
    bool owed = uart_clock_known(*clock);
    struct uart_virtual_todo left = uart_asked(*todo);
    bool waits = uart_after_read_clock(&owed, (uint8_t)(offset % 8), &left);
    *todo = uart_shown(left);
    clock->is_owed = (uint8_t)owed;
    return (uint8_t)waits;
}

/* Returns what the guest's write of this register is, as far as signals are concerned. */
static inline struct uart_kind uart_kind_of_write(uint8_t offset)
{
    uint64_t offset2 = (uint64_t)offset;
    struct uart_kind kind;
    kind.brings = false;
    kind.looks = false;
    kind.moves_data = offset2 == 0;
    kind.may_make_room = (offset2 == 2) || (offset2 == 4);
    return kind;
}

/*
 * The guest wrote this register, and the port asked for this. Takes the signal from todo if it can
 * wait: the register is DATA. Returns whether that is so: then the time begins, after which the
 * monitor calls pass_time.
 */
static inline bool
uart_after_write_clock(bool *clock, uint8_t offset, struct uart_virtual_todo *todo)
{
    bool is_so = uart_kind_of_write(offset).moves_data && todo->signal;
    uart_clock_put_off(clock, is_so, todo);
    return is_so;
}

/*
 * The guest wrote a register. Takes the signal from what the port asked for, if it can wait.
 */
uint8_t uart_clock_after_write(struct uart_clock *clock, uint8_t offset, struct uart_todo *todo)
{
    if (clock == NULL || todo == NULL)
        return 0;
    bool owed = uart_clock_known(*clock);
    struct uart_virtual_todo left = uart_asked(*todo);
    bool waits = uart_after_write_clock(&owed, (uint8_t)(offset % 8), &left);
    *todo = uart_shown(left);
    clock->is_owed = (uint8_t)owed;
    return (uint8_t)waits;
}

/* The time has passed. 1 if the guest is to be signalled now, else 0. */
uint8_t uart_clock_pass_time(struct uart_clock *clock)
{
    if (clock == NULL)
        return 0;
    bool owed = uart_clock_known(*clock);
    bool is_so = owed;
    owed = false;
    clock->is_owed = (uint8_t)owed;
    return (uint8_t)is_so;
}

/* The level of the interrupt line. */
uint8_t uart_port_level(const struct uart_port *port)
{
    if (port == NULL)
        return 0;
    return (uint8_t)uart_is_interrupting(&port->chip);
}

/*
 * Nothing is left to happen to a chip with these data, and it has the pace and the room of a port.
 */
static inline bool uart_is_settled(const struct uart_chip *chip)
{
    bool is_so = chip->transmitter.char_ticks == 1 &&
        uart_wire_capacity(&chip->transmitter.wire) == 64;
    bool is_so2 = is_so && chip->receiver.timeout_ticks == chip->receiver.timeout_limit;
    if (is_so2) {
        bool is_so3 = uart_is_loopback(chip);
        is_so2 = !uart_next_move(&chip->transmitter, is_so3).is_some;
    }
    return is_so2;
}

/* Returns what the monitor was told as a port of uart_virtual has it. */
static inline struct uart_virtual_told uart_told_known(struct uart_told uart_told)
{
    struct uart_virtual_told told;
    told.line = uart_told.line != 0;
    told.has_room = uart_told.has_room != 0;
    told.has_looked = uart_told.has_looked != 0;
    told.spare = uart_told.spare;
    return told;
}

/*
 * Returns whether the FIFO has room for one more character. Each has room for 16, so mostly there
 * is no need to look at its size.
 */
static inline bool uart_receiver_has_place(const struct uart_receiver *uart_receiver)
{
    bool is_so = (uint64_t)uart_receiver->queue.len < 16;
    if (!is_so) {
        uint8_t len = uart_receiver->queue.len;
        is_so = len < uart_places_of(uart_receiver->fifo_size);
    }
    return is_so;
}

/* Returns whether a character can be received. */
static inline bool uart_has_room(const struct uart_chip *chip)
{
    if (uart_is_loopback(chip))
        return false;
    if (uart_chip_fifo(chip))
        return uart_receiver_has_place(&chip->receiver);
    return uart_receiver_queue_len(&chip->receiver) == 0;
}

/*
 * Returns how many more characters than one a FIFO holds: none, if the guest has the FIFOs off.
 */
static inline uint8_t uart_rest_of(const struct uart_chip *chip)
{
    if (uart_chip_fifo(chip))
        return (uint8_t)(uart_places_of(chip->transmitter.fifo_size) - 1);
    return 0;
}

/* Returns what is seen of the chip when a call ends. */
static inline struct uart_seen uart_seen_of(const struct uart_chip *chip)
{
    struct uart_seen seen;
    seen.level = uart_is_interrupting(chip);
    seen.has_room = uart_has_room(chip);
    seen.is_empty = uart_receiver_queue_len(&chip->receiver) == 0;
    seen.rest = uart_rest_of(chip);
    seen.ready = uart_wire_len(&chip->transmitter.wire);
    return seen;
}

/*
 * Returns whether the guest's interrupt is signalled after a call of this kind.
 *
 * A rise of the line is not enough. If the line falls and rises in one call, a handler that has
 * already left would not be called again: so such a fall is signalled, if no signal covers it. And
 * a guest that left its handler while the line is up gets no edge from a real chip either, but it
 * would stay without one for good if the port could receive nothing more. So input that fills the
 * FIFO is signalled. Other input while the line is up is not: Linux's handler takes what was added
 * since, and an interrupt for it would find nothing.
 */
static inline bool
uart_is_signalled(struct uart_kind kind, bool was_up, struct uart_seen seen,
    struct uart_virtual_told told)
{
    return seen.level &&
        (!told.line || (kind.brings && !seen.has_room) || (!was_up && told.spare == 0));
}

/*
 * Returns whether the monitor may take it that there is room.
 *
 * Most guests read a FIFO to its end. If room was told after each character, a monitor would read
 * the host's input byte by byte, and the guest's handler would never end.
 */
static inline bool
uart_room_after(struct uart_kind kind, struct uart_seen seen, struct uart_virtual_told told)
{
    return seen.has_room && (told.has_room || (kind.may_make_room || seen.is_empty));
}

/*
 * Returns how many more falls of the line the last signal covers.
 *
 * A burst of 16 bytes takes the line down 16 times. The first of them is signalled, which calls
 * the guest's handler again once it is done; 15 signals more would say nothing. But a guest that
 * does not look may have returned from its handler before any of them. So a signal covers others
 * only after a look, and no more than a FIFO has room for: rest says how many that are, with the
 * one access in which the signal is given. An access in which the line stays up uses none of them:
 * so what another processor prints meanwhile takes nothing from a handler that reads.
 */
static uint8_t
uart_spare_after(struct uart_kind kind, bool was_up, bool signal, uint8_t rest,
    struct uart_virtual_told told)
{
    bool is_so = told.line && !was_up;
    if (kind.looks)
        return 0;
    if (signal) {
        uint8_t number;
        bool is_so2;
        if (kind.moves_data) {
            if (told.has_looked) {
                number = rest;
                is_so2 = false;
            } else {
                is_so2 = true;
            }
        } else {
            is_so2 = true;
        }
        if (is_so2)
            number = 0;
        return number;
    }
    uint8_t spare;
    bool is_so3;
    if (kind.moves_data) {
        if (is_so) {
            spare = 1 <= told.spare ? (uint8_t)(told.spare - 1) : 0;
            is_so3 = false;
        } else {
            is_so3 = true;
        }
    } else {
        is_so3 = true;
    }
    if (is_so3)
        spare = told.spare;
    return spare;
}

/*
 * Returns what is to be told after a call of this kind, and notes that it was told. was_up says
 * whether the line was up all the time.
 *
 * A port over another chip, as the one for C, tells its monitor by this too. Inlined in any case:
 * of most calls the kind is known, and little of this is left.
 */
static inline struct uart_virtual_todo
uart_tell(struct uart_seen seen, bool was_up, struct uart_virtual_told *told, struct uart_kind kind)
{
    bool signal = uart_is_signalled(kind, was_up, seen, *told);
    bool has_room = uart_room_after(kind, seen, *told);
    struct uart_virtual_todo todo;
    todo.signal = signal;
    todo.level = seen.level;
    todo.has_moved = seen.level ? !told->line : told->line;
    todo.has_room = has_room && !told->has_room;
    todo.ready = seen.ready;
    struct uart_virtual_told told2;
    told2.line = seen.level;
    told2.has_room = has_room;
    told2.has_looked = kind.looks || (told->has_looked && !signal);
    told2.spare = uart_spare_after(kind, was_up, signal, seen.rest, *told);
    *told = told2;
    return todo;
}

/* Returns what the monitor was told as C has it. */
static inline struct uart_told uart_told_of(struct uart_virtual_told told)
{
    struct uart_told uart_told;
    uart_told.line = (uint8_t)told.line;
    uart_told.has_room = (uint8_t)told.has_room;
    uart_told.has_looked = (uint8_t)told.has_looked;
    uart_told.spare = told.spare;
    return uart_told;
}

/*
 * Says what is to be told after a call, and notes that it was told.
 *
 * Proved: the whole chip, but for bytes behind the end of a queue and those of an empty shift
 * register.
 * Proved: a port whose data are the one value for their meaning, but for bytes of its chip that
 * mean nothing.
 */
static inline void
uart_decide(struct uart_port *port, bool was_up, struct uart_kind kind, struct uart_todo *todo)
{
    struct uart_virtual_told told = uart_told_known(port->told);
    struct uart_seen seen = uart_seen_of(&port->chip);
    *todo = uart_shown(uart_tell(seen, was_up, &told, kind));
    port->told = uart_told_of(told);
}

/* Makes a port with a chip that was saved, unless the data are those of no port. */
UART_SELDOM uint32_t
uart_port_load(struct uart_port *port, const struct uart_chip *saved, struct uart_todo *todo)
{
    if (port == NULL || saved == NULL || todo == NULL)
        return UART_NULL_POINTER;
    if (!uart_is_sound(saved) || !uart_is_settled(saved))
        return UART_BAD_PORT;
    uart_chip_restore(&port->chip, saved);
    struct uart_told told;
    told.line = 0;
    told.has_room = 0;
    told.has_looked = 0;
    told.spare = 0;
    port->told = told;
    struct uart_kind kind;
    kind.brings = false;
    kind.looks = false;
    kind.moves_data = false;
    kind.may_make_room = true;
    uart_decide(port, true, kind, todo);
    return UART_OK;
}

/* Returns the ticks that pass in each call of a port whose FIFOs have this size. */
static inline uint16_t uart_settle_ticks(enum uart_fifo_size size)
{
    return (uint16_t)((uint16_t)uart_fifo_size_characters(size) + 6);
}

/*
 * Lets the time of a call pass. If the transmitter holds nothing, as in most calls, a reception
 * timeout is all that time brings, and nothing if that is due.
 *
 * Proved: the whole chip, but for bytes behind the end of a queue and those of an empty shift
 * register.
 */
static inline void uart_settle(struct uart_chip *chip)
{
    if (uart_held_len(&chip->transmitter) != 0) {
        uart_advance(chip, uart_settle_ticks(uart_transmitter_size(&chip->transmitter)));
    } else if (chip->receiver.timeout_ticks != chip->receiver.timeout_limit) {
        uint16_t ticks = uart_settle_ticks(uart_transmitter_size(&chip->transmitter));
        uart_count_up(&chip->receiver, ticks);
    }
}

/*
 * Makes a port after power on, with FIFOs of this size.
 *
 * Proved: a port whose data are the one value for their meaning, but for bytes of its chip that
 * mean nothing.
 */
static void uart_power_on(struct uart_port *port, uint8_t model, uint8_t fifo_size)
{
    uart_chip_power_on(&port->chip, model, fifo_size, 1, 64, 0);
    struct uart_told told;
    told.line = 0;
    told.has_room = 0;
    told.has_looked = 0;
    told.spare = 0;
    port->told = told;
    uart_settle(&port->chip);
    struct uart_todo uart_todo;
    uart_todo.ready = 0;
    uart_todo.signal = 0;
    uart_todo.level = 0;
    uart_todo.has_moved = 0;
    uart_todo.has_room = 0;
    struct uart_todo todo = uart_todo;
    struct uart_kind kind;
    kind.brings = false;
    kind.looks = false;
    kind.moves_data = false;
    kind.may_make_room = true;
    uart_decide(port, true, kind, &todo);
}

/* Makes a port after power on. */
UART_SELDOM void uart_port_new(struct uart_port *port, uint8_t model)
{
    if (port == NULL)
        return;
    uart_power_on(port, model, 16);
}

/* Makes a port after power on, with FIFOs of so many characters. */
UART_SELDOM uint32_t uart_port_new_sized(struct uart_port *port, uint8_t model, uint8_t fifo_size)
{
    if (port == NULL)
        return UART_NULL_POINTER;
    if (!uart_is_fifo_size(fifo_size))
        return UART_BAD_FIFO;
    uart_power_on(port, model, fifo_size);
    return UART_OK;
}

/*
 * Returns whether a call of this kind leaves nothing to be told, as most do that find no
 * interrupt.
 */
static inline bool uart_leaves_nothing(const struct uart_port *port, struct uart_kind kind)
{
    return !kind.looks &&
        (port->told.line == 0 &&
        (port->told.has_room != 0 &&
        (uart_has_room(&port->chip) && !uart_is_interrupting(&port->chip))));
}

/*
 * Does the same as decide, which is called only if something is new: it writes all that the
 * monitor was told, which takes as long as the rest of a call.
 *
 * Proved: a port whose data are the one value for their meaning, but for bytes of its chip that
 * mean nothing.
 */
UART_INLINE void
uart_port_report(struct uart_port *port, bool was_up, struct uart_kind kind, struct uart_todo *todo)
{
    if (uart_leaves_nothing(port, kind)) {
        struct uart_todo uart_todo;
        uart_todo.ready = uart_wire_len(&port->chip.transmitter.wire);
        uart_todo.signal = 0;
        uart_todo.level = 0;
        uart_todo.has_moved = 0;
        uart_todo.has_room = 0;
        *todo = uart_todo;
    } else {
        uart_decide(port, was_up, kind, todo);
    }
}

/*
 * Lets the time of a call pass, and says what is to be told.
 *
 * Proved: a port whose data are the one value for their meaning, but for bytes of its chip that
 * mean nothing.
 */
UART_INLINE void
uart_finish(struct uart_port *port, bool was_up, struct uart_kind kind, struct uart_todo *todo)
{
    uart_settle(&port->chip);
    uart_port_report(port, was_up, kind, todo);
}

/*
 * Does the same as finish, if what happened is all that the line was to show. If the monitor was
 * told that it was down, it does not matter whether it was up meanwhile.
 *
 * Proved: a port whose data are the one value for their meaning, but for bytes of its chip that
 * mean nothing.
 */
UART_INLINE void
uart_conclude(struct uart_port *port, struct uart_kind kind, struct uart_todo *todo)
{
    uart_finish(port, port->told.line != 0 && uart_is_interrupting(&port->chip), kind, todo);
}

/* The same, for calls that are not to have all of it in their place. */
static UART_APART void
uart_conclude_apart(struct uart_port *port, struct uart_kind kind, struct uart_todo *todo)
{
    uart_conclude(port, kind, todo);
}

/* The guest reads a register. */
uint8_t uart_port_read(struct uart_port *port, uint8_t offset, struct uart_todo *todo)
{
    if (port == NULL || todo == NULL)
        return 0;
    uint8_t offset2 = (uint8_t)(offset % 8);
    uint8_t value = uart_read(&port->chip, offset2);
    uart_conclude(port, uart_kind_of_read(offset2), todo);
    return value;
}

/*
 * These characters arrive, without errors.
 *
 * Proved: the whole chip, but for bytes behind the end of a queue and those of an empty shift
 * register.
 */
static inline void uart_arrive_all(struct uart_chip *chip, const uint8_t *bytes, size_t bytes_len)
{
    for (size_t i = 0; i < bytes_len; i++)
        uart_controlling_arrive_live(chip, bytes[i], 0);
}

/* Characters come in, as many as there is room for. Returns how many. */
size_t
uart_port_receive(struct uart_port *port, const uint8_t *bytes, size_t len, struct uart_todo *todo)
{
    if (port == NULL || bytes == NULL || todo == NULL)
        return 0;
    size_t room = uart_controlling_receive_room(&port->chip);
    size_t count = room < len ? room : len;
    struct uart_kind kind;
    kind.brings = 0 < count;
    kind.looks = false;
    kind.moves_data = false;
    kind.may_make_room = false;
    uart_arrive_all(&port->chip, bytes, count);
    uart_conclude(port, kind, todo);
    return count;
}

/* A character comes in, with errors. */
uint32_t
uart_port_receive_one(struct uart_port *port, uint8_t byte, uint8_t errors, struct uart_todo *todo)
{
    if (port == NULL || todo == NULL)
        return UART_NULL_POINTER;
    if ((errors & UART_LSR_CHARACTER_ERRORS) != errors)
        return UART_BAD_ERRORS;
    uart_controlling_arrive_live(&port->chip, byte, errors);
    struct uart_kind kind;
    kind.brings = true;
    kind.looks = false;
    kind.moves_data = false;
    kind.may_make_room = false;
    uart_conclude_apart(port, kind, todo);
    return UART_OK;
}

/* Saves the chip of a port. */
UART_SELDOM void uart_port_save(const struct uart_port *port, struct uart_chip *saved)
{
    if (port == NULL || saved == NULL)
        return;
    uart_chip_restore(saved, &port->chip);
}

/* The modem's inputs become these. */
UART_SELDOM uint32_t
uart_port_set_lines(struct uart_port *port, uint8_t inputs, struct uart_todo *todo)
{
    if (port == NULL || todo == NULL)
        return UART_NULL_POINTER;
    if ((inputs & UART_MSR_LINES) != inputs)
        return UART_BAD_LINES;
    uart_change_lines(&port->chip, inputs);
    struct uart_kind kind;
    kind.brings = true;
    kind.looks = false;
    kind.moves_data = false;
    kind.may_make_room = false;
    uart_conclude_apart(port, kind, todo);
    return UART_OK;
}

/* Removes this number of bytes from the front, or all if there are fewer. */
static inline void uart_wire_remove(struct uart_wire *uart_wire, size_t count)
{
    if (uart_wire_len(uart_wire) <= count) {
        uart_wire->len = 0;
        return;
    }
    for (size_t number = 0; number < count; number++)
        uart_wire_pop_front(uart_wire);
}

/*
 * Removes this number of bytes from the front of the wire, or all if there are fewer.
 *
 * Proved: a length is within the FIFO.
 */
static inline void
uart_transmitter_remove_wire(struct uart_transmitter *uart_transmitter, size_t count)
{
    uart_wire_remove(&uart_transmitter->wire, count);
}

/* The host took so many bytes of the output. */
void uart_port_take_output(struct uart_port *port, size_t count, struct uart_todo *todo)
{
    if (port == NULL || todo == NULL)
        return;
    struct uart_kind kind;
    kind.brings = uart_held_len(&port->chip.transmitter) != 0;
    kind.looks = false;
    kind.moves_data = false;
    kind.may_make_room = false;
    uart_transmitter_remove_wire(&port->chip.transmitter, count);
    uart_conclude_apart(port, kind, todo);
}

/* Sets the registers that keep what is written to them. */
static inline void
uart_chip_set_latches(struct uart_chip *uart_chip, struct uart_chip_latches latches)
{
    struct uart_latches uart_latches;
    uart_latches.ier = latches.ier;
    uart_latches.lcr = latches.lcr;
    uart_latches.mcr = latches.mcr;
    uart_latches.scr = latches.scr;
    uart_latches.dll = latches.dll;
    uart_latches.dlm = latches.dlm;
    uart_chip->latches = uart_latches;
}

/* Appends a byte to the queue. The caller must show that there is room. */
static inline void uart_transmitter_put(struct uart_transmitter *uart_transmitter, uint8_t byte)
{
    uart_push_u8(&uart_transmitter->queue.len, uart_transmitter->queue.items, 128, byte);
}

/* Counts a byte that was written while there was no room. The count saturates. */
static inline void uart_transmitter_count_overflow(struct uart_transmitter *uart_transmitter)
{
    uint64_t overflows = uart_transmitter->overflows;
    uart_transmitter->overflows = overflows <= (uint64_t)-1 - 1 ? overflows + 1 : (uint64_t)-1;
}

/*
 * Takes a byte that is written to DATA. If there is no room, the FIFO loses it, and THR loses the
 * byte that it held. A write clears a pending THR_EMPTY interrupt even if there is no room.
 */
static inline void uart_load(struct uart_transmitter *parts, bool fifo, uint8_t byte)
{
    if (fifo) {
        size_t transmitter_queue_len = uart_transmitter_queue_len(parts);
        if (transmitter_queue_len < uart_fifo_size_characters(uart_transmitter_size(parts)))
            uart_transmitter_put(parts, byte);
        else
            uart_transmitter_count_overflow(parts);
    } else {
        if (0 < uart_transmitter_queue_len(parts)) {
            parts->queue.len = 0;
            uart_transmitter_count_overflow(parts);
        }
        uart_transmitter_put(parts, byte);
    }
    parts->is_thr_pending = (uint8_t)false;
}

/* Writes DATA. */
static inline void uart_write_data(struct uart_chip *parts, uint8_t value)
{
    if (uart_is_dlab_set(parts)) {
        struct uart_chip_latches latches = uart_chip_latches_of(parts);
        latches.dll = value;
        uart_chip_set_latches(parts, latches);
    } else {
        uint8_t byte = uart_cut(parts, value);
        bool fifo = uart_chip_fifo(parts);
        uart_load(&parts->transmitter, fifo, byte);
    }
}

/* Writes IER. */
static inline void uart_enable(struct uart_chip *parts, uint8_t interrupts)
{
    struct uart_chip_latches latches = uart_chip_latches_of(parts);
    if ((latches.ier & UART_IER_THR_EMPTY) == 0 &&
        ((interrupts & UART_IER_THR_EMPTY) != 0 &&
        uart_transmitter_queue_len(&parts->transmitter) == 0)) {
        parts->transmitter.is_thr_pending = (uint8_t)true;
    }
    struct uart_chip_latches latches2 = latches;
    latches2.ier = uart_kept_interrupts(interrupts);
    uart_chip_set_latches(parts, latches2);
}

/* Empties the queue. Its characters are discarded. */
static inline void uart_clear(struct uart_receiver *parts)
{
    parts->queue.len = 0;
}

/*
 * Switches the FIFOs on or off, which empties both. No THR_EMPTY interrupt is raised by that, but
 * by the reset of the transmitter.
 */
static inline void uart_switch(struct uart_chip *parts, bool on)
{
    parts->fifo = (uint8_t)on;
    uart_clear(&parts->receiver);
    parts->transmitter.queue.len = 0;
}

static inline void uart_reset_receiver(struct uart_chip *parts, uint8_t value)
{
    if ((value & UART_FCR_RX_FIFO_RESET) != 0)
        uart_clear(&parts->receiver);
}

static inline void uart_reset_transmitter(struct uart_chip *parts, uint8_t value)
{
    if ((value & UART_FCR_TX_FIFO_RESET) != 0) {
        parts->transmitter.queue.len = 0;
        parts->transmitter.is_thr_pending = (uint8_t)true;
    }
}

/*
 * Returns the trigger level with this code, which is in the low two bits. Higher bits are ignored.
 *
 * Proved: these bits are the code of this trigger level.
 */
static inline enum uart_fifo_trigger_level uart_fifo_trigger_level_from_raw_bits(uint8_t bits)
{
    switch (bits & 3) {
    case 0:
        return UART_FIFO_TRIGGER_LEVEL_ONE;
    case 1:
        return UART_FIFO_TRIGGER_LEVEL_FOUR;
    case 2:
        return UART_FIFO_TRIGGER_LEVEL_EIGHT;
    default:
        return UART_FIFO_TRIGGER_LEVEL_FOURTEEN;
    }
}

/*
 * Returns the trigger level of the receiver FIFO.
 *
 * Proved: these bits are the code of this trigger level.
 */
static inline enum uart_fifo_trigger_level uart_fcr_fifo_trigger_level(uint8_t fcr)
{
    return uart_fifo_trigger_level_from_raw_bits((uint8_t)(fcr >> 6));
}

/* Returns the trigger level of a value of FCR. */
static inline enum uart_fifo_trigger_level uart_trigger_level(uint8_t fcr)
{
    return uart_fcr_fifo_trigger_level(fcr);
}

/* Sets the trigger level. */
static inline void
uart_receiver_set_trigger(struct uart_receiver *uart_receiver, enum uart_fifo_trigger_level trigger)
{
    uart_receiver->trigger = uart_number_of(trigger);
}

/*
 * Without the enable bit nothing but the switch is done: a chip whose FIFOs are off ignores the
 * resets. Neither the character in the shift register nor the overrun flag changes. The trigger
 * level survives when the FIFOs are switched off, and so does their size.
 */
static inline void uart_set_fifo(struct uart_chip *parts, uint8_t value)
{
    bool enable = (value & UART_FCR_FIFO_ENABLE) != 0;
    if (uart_chip_fifo(parts) != enable)
        uart_switch(parts, enable);
    if (enable) {
        uart_reset_receiver(parts, value);
        uart_reset_transmitter(parts, value);
        uart_receiver_set_trigger(&parts->receiver, uart_trigger_level(value));
    }
}

/* Writes FCR. */
static inline void uart_control(struct uart_chip *parts, uint8_t value)
{
    if (uart_chip_model(parts) != UART_EVENTS_CHIP_UART16450)
        uart_set_fifo(parts, value);
}

/* Renews the lines under this modem control register. */
static inline void uart_modem_renew(struct uart_modem *uart_modem, uint8_t mcr)
{
    struct uart_chip_modem modem = uart_restored(*uart_modem);
    uart_chip_modem_renew(&modem, mcr);
    *uart_modem = uart_saved(&modem);
}

/* Computes the modem lines anew under this value of MCR, and adds their changes. */
static UART_APART void uart_chip_renew_modem(struct uart_chip *uart_chip, uint8_t mcr)
{
    uart_modem_renew(&uart_chip->modem, mcr);
}

/* Writes MCR. */
static inline void uart_control_modem(struct uart_chip *parts, uint8_t value)
{
    uint8_t mcr = uart_kept_modem_control(value);
    struct uart_chip_latches latches = uart_chip_latches_of(parts);
    latches.mcr = mcr;
    uart_chip_set_latches(parts, latches);
    uart_chip_renew_modem(parts, mcr);
}

static UART_APART UART_NO_TABLE void
uart_write_register(struct uart_chip *parts, uint8_t offset, uint8_t value)
{
    switch (offset) {
    case UART_OFFSET_DATA:
        uart_write_data(parts, value);
        break;
    case UART_OFFSET_IER:
        if (uart_is_dlab_set(parts)) {
            struct uart_chip_latches latches = uart_chip_latches_of(parts);
            latches.dlm = value;
            uart_chip_set_latches(parts, latches);
        } else {
            uart_enable(parts, value);
        }
        break;
    case UART_OFFSET_FCR:
        uart_control(parts, value);
        break;
    case UART_OFFSET_LCR: {
        struct uart_chip_latches latches = uart_chip_latches_of(parts);
        latches.lcr = value;
        uart_chip_set_latches(parts, latches);
        break;
    }
    case UART_OFFSET_MCR:
        uart_control_modem(parts, value);
        break;
    case UART_OFFSET_SPR: {
        struct uart_chip_latches latches = uart_chip_latches_of(parts);
        latches.scr = value;
        uart_chip_set_latches(parts, latches);
        break;
    }
    default:
        break;
    }
}

/* Writes a value to the register at this offset. */
static inline void uart_write(struct uart_chip *parts, uint8_t offset, uint8_t value)
{
    if (offset == UART_OFFSET_DATA)
        uart_write_data(parts, value);
    else
        uart_write_register(parts, offset, value);
}

/*
 * Returns whether a byte that is written to DATA goes into the queue of a FIFO as it is, as most
 * do: DATA is not the divisor latch, characters are not cut, and there is room.
 */
static inline bool uart_queues_whole(const struct uart_chip *chip)
{
    bool has_room = (uint64_t)chip->transmitter.queue.len < 16;
    return !uart_is_dlab_set(chip) && (!uart_chip_cuts(chip) && (uart_chip_fifo(chip) && has_room));
}

/*
 * Writes DATA, whatever that is and does, out of line: most bytes need none of it.
 *
 * Proved: the whole chip, but for bytes behind the end of a queue and those of an empty shift
 * register.
 */
static UART_APART void uart_write_data_slowly(struct uart_chip *chip, uint8_t value)
{
    uart_write(chip, 0, value);
}

/* The guest writes a register. */
void uart_chip_write(struct uart_chip *chip, uint8_t offset, uint8_t value)
{
    if (chip == NULL)
        return;
    uint8_t offset2 = (uint8_t)(offset % 8);
    if (offset2 != 0) {
        uart_write(chip, offset2, value);
    } else if (uart_queues_whole(chip)) {
        uart_transmitter_put(&chip->transmitter, value);
        chip->transmitter.is_thr_pending = (uint8_t)false;
    } else {
        uart_write_data_slowly(chip, value);
    }
}

/* Returns whether a transmitter holds nothing, and its wire has room. */
static inline bool uart_is_ready(const struct uart_transmitter *parts)
{
    bool is_so = uart_transmitter_queue_len(parts) == 0;
    if (is_so) {
        bool is_so2 = uart_transmitter_shifting(parts).is_some;
        is_so = !is_so2 && uart_transmitter_has_room(parts);
    }
    return is_so;
}

/*
 * Returns whether a byte that is written to DATA can go onto the wire at once: outside of
 * loopback, with nothing in the transmitter, which is not held off, and with room on the wire.
 */
static inline bool uart_sends_at_once(const struct uart_chip *parts)
{
    return (uart_chip_lcr(parts) & UART_LCR_DLAB) == 0 &&
        (!uart_is_loopback(parts) && uart_is_ready(&parts->transmitter));
}

/* Returns whether a write can be made by send: it is a byte that meets an idle transmitter. */
static inline bool uart_is_fast(const struct uart_port *port, uint8_t offset)
{
    return (uint64_t)offset == UART_OFFSET_DATA &&
        (uart_sends_at_once(&port->chip) && uart_is_settled(&port->chip));
}

/* Returns whether LSR shows an error of the line. The transmitter has no part in that. */
static inline bool uart_has_line_errors(const struct uart_chip *parts)
{
    return (uart_receiver_status(&parts->receiver) & UART_LSR_LINE_ERRORS) != 0;
}

/*
 * Returns whether the interrupt line is up if a reception timeout is due, and a THR-empty
 * interrupt is pending or is not. Each character that waits is a cause then, so the trigger level
 * and the ticks are not looked at.
 *
 * The is_thr_pending is false in each call, and so it is left out.
 */
static inline bool uart_interrupts_when_due(const struct uart_chip *parts)
{
    uint8_t enabled = uart_chip_ier(parts);
    if ((enabled & UART_IER_DATA_READY) != 0 && 0 < uart_receiver_queue_len(&parts->receiver))
        return true;
    if ((enabled & UART_IER_RECEIVER_LINE_STATUS) != 0 && uart_has_line_errors(parts))
        return true;
    return (enabled & UART_IER_MODEM_STATUS) != 0 && uart_chip_has_modem_changes(parts);
}

/* Puts a byte onto the wire. THR is as empty as before, and that counts as a new interrupt. */
static inline void uart_put_on_wire(struct uart_transmitter *parts, uint8_t byte)
{
    uart_transmitter_send(parts, byte);
    parts->is_thr_pending = (uint8_t)true;
}

/*
 * Puts a byte that is written to DATA onto the wire, cut to the word length if the chip does so.
 * The caller must have asked sends_at_once.
 */
static inline void uart_send_at_once(struct uart_chip *parts, uint8_t value)
{
    uint8_t byte = uart_cut(parts, value);
    uart_put_on_wire(&parts->transmitter, byte);
}

/*
 * Does the same as write_slowly for a byte that can be sent at once: queue, shift register and
 * time are passed over.
 *
 * Proved: a port whose data are the one value for their meaning, but for bytes of its chip that
 * mean nothing.
 */
static inline void uart_send(struct uart_port *port, uint8_t value, struct uart_todo *todo)
{
    struct uart_kind kind = uart_kind_of_write(0);
    bool was_up = uart_interrupts_when_due(&port->chip);
    uart_send_at_once(&port->chip, value);
    uart_port_report(port, was_up, kind, todo);
}

/*
 * Writes a register, and raises a THR-empty interrupt if this is a write of FCR that discards
 * bytes which the transmitter held: its queue is empty then.
 *
 * Proved: the whole chip, but for bytes behind the end of a queue and those of an empty shift
 * register.
 */
static inline void uart_write_and_raise(struct uart_chip *chip, uint8_t offset, uint8_t value)
{
    size_t held = uart_held_len(&chip->transmitter);
    uart_write(chip, offset, value);
    if ((uint64_t)offset == UART_OFFSET_FCR && uart_held_len(&chip->transmitter) < held)
        chip->transmitter.is_thr_pending = (uint8_t)true;
}

/*
 * Writes a register, and lets the time of a call pass.
 *
 * Proved: a port whose data are the one value for their meaning, but for bytes of its chip that
 * mean nothing.
 */
static UART_APART void
uart_write_slowly(struct uart_port *port, uint8_t offset, uint8_t value, struct uart_todo *todo)
{
    uart_write_and_raise(&port->chip, offset, value);
    bool is_so = uart_is_interrupting(&port->chip) && !uart_is_loopback(&port->chip);
    uart_finish(port, is_so, uart_kind_of_write(offset), todo);
}

/* The guest writes a register. */
void uart_port_write(struct uart_port *port, uint8_t offset, uint8_t value, struct uart_todo *todo)
{
    if (port == NULL || todo == NULL)
        return;
    uint8_t offset2 = (uint8_t)(offset % 8);
    if (uart_is_fast(port, offset2))
        uart_send(port, value, todo);
    else
        uart_write_slowly(port, offset2, value, todo);
}

/* --------------------------------------------------------------- what is by hand: a chip as bytes */

enum uart_state_layout {
    UART_STATE_MAGIC_LEN = 6,
    UART_STATE_LENGTH_OFFSET = 8,
    UART_STATE_HEADER = 12,
    UART_STATE_PART_HEADER = 4,
    UART_STATE_CHIP = 1,       /* the kinds of parts, and how many bytes each has behind its header */
    UART_STATE_CHIP_LEN = 86,
    UART_STATE_OUTPUT = 2,
    UART_STATE_OUTPUT_LEN = 65,
    UART_STATE_FIFOS = 3,      /* what FIFOs of more than 16 have beyond 16; how many bytes it is depends on their size */
    UART_STATE_FIFOS_HEAD = 3,
    UART_STATE_LEN_1 = 146     /* how many bytes a state of version 1 is */
};

/* Returns byte number place of "u16550", with which a state begins. */
static uint8_t uart_state_magic(size_t place)
{
    static const uint8_t magic[UART_STATE_MAGIC_LEN] = { 0x75, 0x31, 0x36, 0x35, 0x35, 0x30 };

    return magic[place];
}

/* Returns the trigger level with this number, 0 to 3. */
static uint8_t uart_state_level(uint8_t number)
{
    static const uint8_t levels[4] = { 1, 4, 8, 14 };

    return levels[number & 3];
}

/* ---- writing: each function writes at *to, and moves it behind what it wrote */

static void uart_state_put(uint8_t **to, uint8_t byte)
{
    *(*to)++ = byte;
}

/* A number of so many bytes, the lowest first. */
static void uart_state_put_number(uint8_t **to, uint64_t number, unsigned len)
{
    for (; len > 0; len--, number >>= 8)
        uart_state_put(to, (uint8_t)(number & 0xff));
}

/* The numbers and places of FIFOs: how many characters one holds, how many of so many are beyond 16, and how many wait. */
static uint8_t uart_state_size(uint8_t fifo_size)
{
    return fifo_size == 32 || fifo_size == 64 || fifo_size == 128 ? fifo_size : UART_FIFO_SIZE;
}

static uint8_t uart_state_beyond(uint8_t count)
{
    return (uint8_t)(count > UART_FIFO_SIZE ? count - UART_FIFO_SIZE : 0);
}

static uint8_t uart_state_waiting(uint8_t len, uint8_t fifo_size)
{
    return len < uart_state_size(fifo_size) ? len : uart_state_size(fifo_size);
}

/* How many bytes the part with the rest of such FIFOs is. Of eight characters one byte says which came by loopback. */
static uint16_t uart_state_fifos_len(uint8_t fifo_size)
{
    uint8_t room = uart_state_beyond(uart_state_size(fifo_size));

    return (uint16_t)(UART_STATE_FIFOS_HEAD + 3 * room + room / 8);
}

/* A list, with its length in front, in the room that it may take. A length beyond the room counts as the room. */
static void uart_state_put_list(uint8_t **to, const uint8_t *items, uint8_t len, uint8_t room)
{
    uint8_t i;

    len = len < room ? len : room;
    uart_state_put(to, len);
    for (i = 0; i < room; i++)
        uart_state_put(to, i < len ? items[i] : 0);
}

/* What is before the body of a part. A reader that does not know the kind refuses the state. */
static void uart_state_put_part(uint8_t **to, uint8_t kind, uint16_t len)
{
    uart_state_put(to, kind);
    uart_state_put(to, 1);
    uart_state_put_number(to, len, 2);
}

/* The characters that wait: their bytes, their errors, and which of them came by loopback. */
static void uart_state_put_characters(uint8_t **to, const struct uart_characters *queue)
{
    uint8_t len = queue->len < UART_FIFO_SIZE ? queue->len : UART_FIFO_SIZE;
    unsigned looped = 0;
    uint8_t i;

    uart_state_put(to, len);
    for (i = 0; i < UART_FIFO_SIZE; i++)
        uart_state_put(to, i < len ? queue->items[i].byte : 0);
    for (i = 0; i < UART_FIFO_SIZE; i++)
        uart_state_put(to, i < len ? queue->items[i].errors : 0);
    for (i = 0; i < len; i++)
        looped |= (unsigned)(queue->items[i].is_looped != 0) << i;
    uart_state_put_number(to, looped, 2);
}

/* What waits beyond 16 characters, in the room that it may take. */
static void uart_state_put_more(uint8_t **to, const struct uart_chip *chip)
{
    const struct uart_bytes *bytes = &chip->transmitter.queue;
    const struct uart_characters *queue = &chip->receiver.queue;
    uint8_t size = uart_state_size(chip->transmitter.fifo_size);
    uint8_t room = uart_state_beyond(size);
    uint8_t len = uart_state_beyond(uart_state_waiting(queue->len, size));
    uint8_t i, bit;

    uart_state_put(to, size);
    uart_state_put_list(to, bytes->items + UART_FIFO_SIZE, uart_state_beyond(uart_state_waiting(bytes->len, size)), room);
    uart_state_put(to, len);
    for (i = 0; i < room; i++)
        uart_state_put(to, i < len ? queue->items[UART_FIFO_SIZE + i].byte : 0);
    for (i = 0; i < room; i++)
        uart_state_put(to, i < len ? queue->items[UART_FIFO_SIZE + i].errors : 0);
    for (i = 0; i < room; i = (uint8_t)(i + 8)) {
        unsigned looped = 0;

        for (bit = 0; bit < 8; bit++)
            if (i + bit < len && queue->items[UART_FIFO_SIZE + i + bit].is_looped)
                looped |= 1u << bit;
        uart_state_put(to, (uint8_t)looped);
    }
}

static void uart_state_put_transmitter(uint8_t **to, const struct uart_transmitter *transmitter)
{
    uart_state_put(to, transmitter->is_thr_pending != 0);
    uart_state_put_number(to, transmitter->overflows, 8);
    uart_state_put(to, transmitter->is_shifting != 0);
    uart_state_put(to, transmitter->is_shifting ? transmitter->shift_byte : 0);
    uart_state_put_list(to, transmitter->queue.items, transmitter->queue.len, UART_FIFO_SIZE);
}

static void uart_state_put_receiver(uint8_t **to, const struct uart_receiver *receiver)
{
    uint8_t level = 0;

    /* Any other number counts as the last level. */
    while (level < 3 && uart_state_level(level) != receiver->trigger)
        level++;
    uart_state_put(to, receiver->is_overrun != 0);
    uart_state_put(to, receiver->is_front_reported != 0);
    uart_state_put(to, receiver->last_byte);
    uart_state_put(to, level);
    uart_state_put_characters(to, &receiver->queue);
}

static void uart_state_put_chip(uint8_t **to, const struct uart_chip *chip)
{
    const struct uart_transmitter *transmitter = &chip->transmitter;

    uart_state_put(to, chip->latches.ier);
    uart_state_put(to, chip->latches.lcr);
    uart_state_put(to, chip->latches.mcr);
    uart_state_put(to, chip->latches.scr);
    uart_state_put(to, chip->latches.dll);
    uart_state_put(to, chip->latches.dlm);
    uart_state_put(to, chip->fifo != 0);
    uart_state_put_transmitter(to, transmitter);
    uart_state_put_receiver(to, &chip->receiver);
    uart_state_put(to, chip->modem.inputs);
    uart_state_put(to, chip->modem.lines);
    uart_state_put(to, chip->modem.deltas);
    uart_state_put(to, chip->model != 0);
    uart_state_put(to, chip->cuts != 0);
    uart_state_put_number(to, transmitter->char_ticks, 2);
    uart_state_put_number(to, transmitter->is_shifting ? transmitter->ticks_left : 0, 2);
    uart_state_put_number(to, chip->receiver.timeout_ticks, 2);
    uart_state_put(to, transmitter->wire.capacity < UART_WIRE_ROOM ? transmitter->wire.capacity : UART_WIRE_ROOM);
}

/* ---- reading: each function reads at from->offset, and moves it behind what it read. What is behind the end is read as 0 */

struct uart_state_reader {
    const uint8_t *bytes;
    size_t len;
    size_t offset;
    size_t detail;
    uint32_t status; /* the first refusal stays */
};

static void uart_state_refuse(struct uart_state_reader *from, uint32_t status, size_t detail)
{
    if (from->status != UART_STATE_OK)
        return;
    from->status = status;
    from->detail = detail;
}

/* Refuses the state unless there are so many more bytes. */
static int uart_state_has(struct uart_state_reader *from, size_t count)
{
    if (from->len - from->offset >= count)
        return 1;
    uart_state_refuse(from, UART_STATE_BAD_LENGTH, from->offset);
    return 0;
}

static uint64_t uart_state_number(struct uart_state_reader *from, unsigned len)
{
    uint64_t number = 0;
    unsigned i;

    if (!uart_state_has(from, len))
        return 0;
    /* From the highest byte on: for a shift by a number that is not known compilers of 32 bits call a function. */
    for (i = len; i > 0; i--)
        number = number << 8 | from->bytes[from->offset + i - 1];
    from->offset += len;
    return number;
}

/* A byte that is at most this. */
static uint8_t uart_state_up_to(struct uart_state_reader *from, uint8_t most)
{
    size_t offset = from->offset;
    uint8_t byte = (uint8_t)uart_state_number(from, 1);

    if (byte <= most)
        return byte;
    uart_state_refuse(from, UART_STATE_BAD_VALUE, offset);
    return 0;
}

static uint8_t uart_state_byte(struct uart_state_reader *from)
{
    return uart_state_up_to(from, 0xff);
}

static uint8_t uart_state_flag(struct uart_state_reader *from)
{
    return uart_state_up_to(from, 1);
}

/* Bytes that mean nothing, and are 0: a state has one form. */
static void uart_state_nothing(struct uart_state_reader *from, uint8_t count)
{
    if (!uart_state_has(from, count))
        return;
    for (; count > 0; count--)
        uart_state_up_to(from, 0);
}

/* The items of a list: the first len of so many bytes. */
static void uart_state_items(struct uart_state_reader *from, uint8_t *items, uint8_t len, uint8_t room)
{
    uint8_t i;

    if (!uart_state_has(from, len))
        return;
    for (i = 0; i < len; i++)
        items[i] = uart_state_byte(from);
    uart_state_nothing(from, (uint8_t)(room - len));
}

/* A list, with its length in front. Returns the length. */
static uint8_t uart_state_list(struct uart_state_reader *from, uint8_t *items, uint8_t room)
{
    uint8_t len = uart_state_up_to(from, room);

    uart_state_items(from, items, len, room);
    return len;
}

static void uart_state_characters(struct uart_state_reader *from, struct uart_characters *queue)
{
    uint8_t bytes[UART_FIFO_SIZE] = { 0 };
    uint8_t errors[UART_FIFO_SIZE] = { 0 };
    size_t offset;
    uint16_t looped;
    uint8_t i;

    queue->len = uart_state_list(from, bytes, UART_FIFO_SIZE);
    uart_state_items(from, errors, queue->len, UART_FIFO_SIZE);
    offset = from->offset;
    looped = (uint16_t)uart_state_number(from, 2);
    for (i = 0; i < UART_FIFO_SIZE; i++) {
        if ((looped & 1) && i >= queue->len)
            uart_state_refuse(from, UART_STATE_BAD_VALUE, offset);
        queue->items[i].byte = bytes[i];
        queue->items[i].errors = errors[i];
        queue->items[i].is_looped = looped & 1;
        looped >>= 1;
    }
}

/* What waits beyond 16 characters, of FIFOs of more. */
static void uart_state_more(struct uart_state_reader *from, struct uart_chip *chip)
{
    struct uart_bytes *bytes = &chip->transmitter.queue;
    struct uart_characters *queue = &chip->receiver.queue;
    uint8_t more[UART_FIFO_ROOM] = { 0 };
    size_t offset = from->offset;
    uint8_t size = uart_state_byte(from);
    uint8_t room = uart_state_beyond(size);
    uint8_t i, len;

    if (size == UART_FIFO_SIZE || uart_state_size(size) != size) {
        uart_state_refuse(from, UART_STATE_BAD_VALUE, offset);
        return;
    }
    chip->transmitter.fifo_size = chip->receiver.fifo_size = size;
    /* Nothing waits beyond 16 unless as many wait before. */
    offset = from->offset;
    len = uart_state_list(from, bytes->items + UART_FIFO_SIZE, room);
    if (len > 0 && bytes->len < UART_FIFO_SIZE)
        uart_state_refuse(from, UART_STATE_BAD_VALUE, offset);
    bytes->len = (uint8_t)(bytes->len + len);
    offset = from->offset;
    len = uart_state_list(from, more, room);
    if (len > 0 && queue->len < UART_FIFO_SIZE)
        uart_state_refuse(from, UART_STATE_BAD_VALUE, offset);
    queue->len = (uint8_t)(queue->len + len);
    for (i = 0; i < len; i++)
        queue->items[UART_FIFO_SIZE + i].byte = more[i];
    uart_state_items(from, more, len, room);
    for (i = 0; i < len; i++)
        queue->items[UART_FIFO_SIZE + i].errors = more[i];
    for (i = 0; i < room; i = (uint8_t)(i + 8)) {
        uint8_t looped, bit;

        offset = from->offset;
        looped = uart_state_byte(from);
        for (bit = 0; bit < 8; bit++) {
            if ((looped & 1) && i + bit >= len)
                uart_state_refuse(from, UART_STATE_BAD_VALUE, offset);
            queue->items[UART_FIFO_SIZE + i + bit].is_looped = looped & 1;
            looped >>= 1;
        }
    }
}

static void uart_state_transmitter(struct uart_state_reader *from, struct uart_transmitter *transmitter)
{
    transmitter->is_thr_pending = uart_state_flag(from);
    transmitter->overflows = uart_state_number(from, 8);
    transmitter->is_shifting = uart_state_flag(from);
    transmitter->shift_byte = uart_state_up_to(from, (uint8_t)(transmitter->is_shifting ? 0xff : 0));
    transmitter->queue.len = uart_state_list(from, transmitter->queue.items, UART_FIFO_SIZE);
}

static void uart_state_receiver(struct uart_state_reader *from, struct uart_receiver *receiver)
{
    receiver->is_overrun = uart_state_flag(from);
    receiver->is_front_reported = uart_state_flag(from);
    receiver->last_byte = uart_state_byte(from);
    receiver->trigger = uart_state_level(uart_state_up_to(from, 3));
    uart_state_characters(from, &receiver->queue);
}

/* A chip after power on, with nothing behind the ends of its queues. */
static void uart_state_clear(struct uart_chip *chip)
{
    static const struct uart_character none = { 0, 0, 0 };
    uint8_t i;

    uart_chip_new(chip, UART_16550A, 1, UART_WIRE_ROOM, UART_WHOLE_BYTES);
    for (i = 0; i < UART_FIFO_ROOM; i++) {
        chip->transmitter.queue.items[i] = 0;
        chip->receiver.queue.items[i] = none;
    }
}

/* What version 1 has of a chip. */
static void uart_state_registers(struct uart_state_reader *from, struct uart_chip *chip)
{
    if (!uart_state_has(from, 6))
        return;
    chip->latches.ier = uart_state_byte(from);
    chip->latches.lcr = uart_state_byte(from);
    chip->latches.mcr = uart_state_byte(from);
    chip->latches.scr = uart_state_byte(from);
    chip->latches.dll = uart_state_byte(from);
    chip->latches.dlm = uart_state_byte(from);
    chip->fifo = uart_state_flag(from);
    uart_state_transmitter(from, &chip->transmitter);
    uart_state_receiver(from, &chip->receiver);
    if (!uart_state_has(from, 3))
        return;
    chip->modem.inputs = uart_state_byte(from);
    chip->modem.lines = uart_state_byte(from);
    chip->modem.deltas = uart_state_byte(from);
}

/* The model, and how time passes. */
static void uart_state_pace(struct uart_state_reader *from, struct uart_chip *chip)
{
    chip->model = uart_state_flag(from);
    chip->cuts = uart_state_flag(from);
    chip->transmitter.char_ticks = (uint16_t)uart_state_number(from, 2);
    if (chip->transmitter.is_shifting)
        chip->transmitter.ticks_left = (uint16_t)uart_state_number(from, 2);
    else
        uart_state_nothing(from, 2);
    chip->receiver.timeout_ticks = (uint16_t)uart_state_number(from, 2);
    /* A character that takes too many ticks for this is refused when the chip is loaded. */
    chip->receiver.timeout_limit = (uint16_t)(4 * chip->transmitter.char_ticks);
    chip->transmitter.wire.capacity = uart_state_up_to(from, UART_WIRE_ROOM);
}

/* What version 1 leaves out, since it is the same in each device: that of a new chip, but for what a byte on its way takes. */
static void uart_state_usual_pace(struct uart_chip *chip)
{
    chip->transmitter.ticks_left = chip->transmitter.is_shifting;
    chip->receiver.timeout_ticks = chip->receiver.timeout_limit;
}

static void uart_state_output(struct uart_state_reader *from, struct uart_wire *wire)
{
    wire->len = uart_state_list(from, wire->items, UART_WIRE_ROOM);
}

/* The next part. Returns its kind. What is behind its known fields is of a later release, and is skipped. */
static uint8_t uart_state_part(struct uart_state_reader *from, uint8_t last, struct uart_chip *chip)
{
    size_t start = from->offset;
    uint8_t kind = uart_state_byte(from);
    uint8_t is_needed = uart_state_flag(from);
    size_t length_offset = from->offset;
    size_t len = (size_t)uart_state_number(from, 2);
    struct uart_state_reader body = *from;

    if (from->status != UART_STATE_OK)
        return 0;
    if (from->len - from->offset < len) {
        uart_state_refuse(from, UART_STATE_BAD_LENGTH, length_offset);
        return 0;
    }
    from->offset += len;
    if (kind <= last) {
        uart_state_refuse(from, UART_STATE_BAD_VALUE, start);
        return 0;
    }
    body.len = from->offset;
    if (kind > UART_STATE_FIFOS) {
        if (is_needed)
            uart_state_refuse(&body, UART_STATE_UNKNOWN_PART, kind);
    } else if (!is_needed) {
        uart_state_refuse(&body, UART_STATE_BAD_VALUE, start + 1);
    } else if (kind == UART_STATE_CHIP) {
        uart_state_registers(&body, chip);
        uart_state_pace(&body, chip);
    } else if (kind == UART_STATE_OUTPUT) {
        uart_state_output(&body, &chip->transmitter.wire);
    } else {
        uart_state_more(&body, chip);
    }
    uart_state_refuse(from, body.status, body.detail);
    return kind;
}

/* All parts, each at most once, in the order of their kinds. */
static void uart_state_parts(struct uart_state_reader *from, struct uart_chip *chip)
{
    int has_chip = 0, has_output = 0;
    uint8_t last = 0;

    /* Each part takes at least four bytes. */
    while (from->status == UART_STATE_OK && from->offset < from->len) {
        last = uart_state_part(from, last, chip);
        has_chip |= last == UART_STATE_CHIP;
        has_output |= last == UART_STATE_OUTPUT;
    }
    if (!has_chip)
        uart_state_refuse(from, UART_STATE_MISSING_PART, UART_STATE_CHIP);
    if (!has_output)
        uart_state_refuse(from, UART_STATE_MISSING_PART, UART_STATE_OUTPUT);
}

/* A state of version 1, which has no magic and no parts. */
static void uart_state_version_1(struct uart_state_reader *from, struct uart_chip *chip)
{
    if (from->len != UART_STATE_LEN_1) {
        uart_state_refuse(from, UART_STATE_BAD_LENGTH, 0);
        return;
    }
    from->offset = 4;
    uart_state_registers(from, chip);
    uart_state_usual_pace(chip);
    uart_state_output(from, &chip->transmitter.wire);
}

/* A state of the version that is written. */
static void uart_state_version_2(struct uart_state_reader *from, struct uart_chip *chip)
{
    size_t version;

    from->offset = UART_STATE_MAGIC_LEN;
    version = (size_t)uart_state_number(from, 2);
    if (version != UART_STATE_VERSION)
        uart_state_refuse(from, UART_STATE_BAD_VERSION, version);
    if (uart_state_number(from, 4) != from->len)
        uart_state_refuse(from, UART_STATE_BAD_LENGTH, UART_STATE_LENGTH_OFFSET);
    if (from->status == UART_STATE_OK)
        uart_state_parts(from, chip);
}

/* Whether a state begins with these bytes. */
static int uart_state_is_version_1(const uint8_t *bytes, size_t len)
{
    return len >= 4 && bytes[0] == 1 && !bytes[1] && !bytes[2] && !bytes[3];
}

static int uart_state_has_magic(const uint8_t *bytes, size_t len)
{
    size_t i;

    if (len < UART_STATE_MAGIC_LEN)
        return 0;
    for (i = 0; i < UART_STATE_MAGIC_LEN; i++)
        if (bytes[i] != uart_state_magic(i))
            return 0;
    return 1;
}

/* Writes a state of so many bytes: that of a chip whose FIFOs have one size. */
static void uart_state_put_all(const struct uart_chip *chip, uint8_t *bytes, size_t len)
{
    uint8_t *to = bytes;
    size_t i;

    for (i = 0; i < UART_STATE_MAGIC_LEN; i++)
        uart_state_put(&to, uart_state_magic(i));
    uart_state_put_number(&to, UART_STATE_VERSION, 2);
    uart_state_put_number(&to, len, 4);
    uart_state_put_part(&to, UART_STATE_CHIP, UART_STATE_CHIP_LEN);
    uart_state_put_chip(&to, chip);
    uart_state_put_part(&to, UART_STATE_OUTPUT, UART_STATE_OUTPUT_LEN);
    uart_state_put_list(&to, chip->transmitter.wire.items, chip->transmitter.wire.len, UART_WIRE_ROOM);
    if (len == UART_STATE_LEN)
        return;
    uart_state_put_part(&to, UART_STATE_FIFOS, uart_state_fifos_len(chip->transmitter.fifo_size));
    uart_state_put_more(&to, chip);
}

/* --------------------------------------------------------------- what is called
 *
 * Writes a chip with FIFOs of any size as bytes, and returns how many: UART_STATE_LEN with FIFOs of 16, and else more, at most
 * UART_STATE_MOST. If bytes has not room for so many, or the two FIFOs have not one size, as those of each chip that can be loaded have,
 * it writes nothing and returns 0. Of what the struct holds the same counts as in a call of the library: any number but 0 is a set flag,
 * and a length beyond its FIFO or its array is that of the FIFO or the array.
 *
 * A reader of an earlier release, and that of the Rust crate, refuses a chip with larger FIFOs: UART_STATE_UNKNOWN_PART, 3.
 */
size_t uart_chip_to_bytes_sized(const struct uart_chip *chip, uint8_t *bytes, size_t room)
{
    if (chip == NULL || bytes == NULL)
        return 0;
    uint8_t size = uart_state_size(chip->transmitter.fifo_size);
    size_t len = UART_STATE_LEN;

    if (size != UART_FIFO_SIZE)
        len += UART_STATE_PART_HEADER + (size_t)uart_state_fifos_len(size);
    if (size != uart_state_size(chip->receiver.fifo_size) || len > room)
        return 0;
    uart_state_put_all(chip, bytes, len);
    return len;
}

/*
 * The same for a chip with FIFOs of 16: writes UART_STATE_LEN bytes.
 *
 * Returns UART_STATE_OK, or UART_STATE_LARGER for a chip with larger FIFOs. The bytes are all 0 then, which are no state.
 */
uint32_t uart_chip_to_bytes(const struct uart_chip *chip, uint8_t *bytes)
{
    if (chip == NULL || bytes == NULL)
        return UART_STATE_NULL_POINTER;
    size_t i;

    if (uart_chip_to_bytes_sized(chip, bytes, UART_STATE_LEN) == UART_STATE_LEN)
        return UART_STATE_OK;
    for (i = 0; i < UART_STATE_LEN; i++)
        bytes[i] = 0;
    return UART_STATE_LARGER;
}

/*
 * Reads a chip from len bytes, which may come from anywhere: those that a function above or the Rust crate wrote, in this release, in
 * one before it, or in one after it that added only what may be skipped. Its FIFOs have the size that they had. The chip is then for
 * uart_port_load or uart_chip_load, which refuses what is no port or no chip.
 *
 * Returns an enum uart_state_status, and writes to *detail what that says. If it is not UART_STATE_OK, *saved is as before.
 */
uint32_t uart_chip_from_bytes(struct uart_chip *saved, const uint8_t *bytes, size_t len, size_t *detail)
{
    if (saved == NULL || bytes == NULL || detail == NULL)
        return UART_STATE_NULL_POINTER;
    struct uart_state_reader from;
    struct uart_chip chip;

    from.bytes = bytes;
    from.len = len;
    from.offset = 0;
    from.detail = 0;
    from.status = UART_STATE_OK;
    uart_state_clear(&chip);
    if (uart_state_is_version_1(bytes, len))
        uart_state_version_1(&from, &chip);
    else if (uart_state_has_magic(bytes, len))
        uart_state_version_2(&from, &chip);
    else
        uart_state_refuse(&from, UART_STATE_NONE, 0);
    *detail = from.detail;
    if (from.status == UART_STATE_OK)
        *saved = chip;
    return from.status;
}

/*
 * A product of 16 bits by shifts: processors of the family MSP430 have no instruction for it, and a compiler calls this function. A program
 * that is linked with the library of its compiler may take that one's.
 */
#if defined(__MSP430__) || defined(UART_BY_SHIFTS)
#if defined(__cplusplus)
extern "C"
#endif
uint16_t __mspabi_mpyi(uint16_t one, uint16_t other);

__attribute__((__weak__)) uint16_t __mspabi_mpyi(uint16_t one, uint16_t other)
{
    uint16_t product = 0;
    for (; other != 0; one = (uint16_t)(one << 1), other = (uint16_t)(other >> 1)) {
        if ((other & 1) != 0)
            product = (uint16_t)(product + one);
    }
    return product;
}
#endif

/*
 * Where code is to be small, gcc for PowerPC saves registers and returns by functions of its own library. A program that is linked without
 * that library has them here. One that has them, as kernels do, takes its own. Two files that are compiled as one have them once.
 */
#if defined(__powerpc__) && !defined(__powerpc64__) && defined(__ELF__) && defined(__OPTIMIZE_SIZE__) && !defined(__clang__)
#define UART_CALLERS_REGISTERS "14, 15, 16, 17, 18, 19, 20, 21, 22, 23, 24, 25, 26, 27, 28, 29, 30, 31"
__asm__(".ifndef _restgpr_14_x\n"
        ".pushsection .text.uart_restore, \"ax\", @progbits\n"
        ".irp number, " UART_CALLERS_REGISTERS "\n"
        ".weak _restgpr_\\number\\()_x\n"
        ".hidden _restgpr_\\number\\()_x\n"
        "_restgpr_\\number\\()_x: lwz \\number, 4 * (\\number - 32)(11)\n"
        ".endr\n"
        "lwz 0, 4(11)\n"
        "mtlr 0\n"
        "mr 1, 11\n"
        "blr\n"
        ".popsection\n"
        ".endif\n"
        ".ifndef _savegpr_14\n"
        ".pushsection .text.uart_save, \"ax\", @progbits\n"
        ".irp number, " UART_CALLERS_REGISTERS "\n"
        ".weak _savegpr_\\number\n"
        ".hidden _savegpr_\\number\n"
        "_savegpr_\\number: stw \\number, 4 * (\\number - 32)(11)\n"
        ".endr\n"
        "blr\n"
        ".popsection\n"
        ".endif\n");
#endif
