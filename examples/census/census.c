/* See census.h. C99, no library, no allocation. The first half is the list of what is done to the chip, the second how it is done. */
#include "census.h"

enum { DATA, IER, ISR, LCR, MCR, LSR, MSR, SCR, FCR = ISR, DLL = DATA, DLM = IER };
/* Bits of LSR and of MCR; what ISR shows in its low four bits. */
enum { DR = 0x01, OE = 0x02, BI = 0x10, ERRORS = 0x1e, THRE = 0x20, TEMT = 0x40, FIFO_ERROR = 0x80 };
enum { OUT2 = 0x08, LOOP = 0x10 };
enum { CODE = 0x0f, NONE = 0x01, RECEIVED = 0x04, TIMEOUT = 0x0c };
/* 9,600 baud at a PC's clock, the nanoseconds that a character takes then, and more characters than any FIFO holds. */
enum { DIVISOR = 12, NOMINAL = 1041667, MOST = 300 };
/* How often something is measured that fails if who looks is held up. */
enum { TRIES = 3 };
/* Nanoseconds in a millisecond. */
#define MS 1000000u

/*
 * Steps. BEGIN starts a question with an empty chip, interrupts off and 8N1; BEGIN_OFF turns the FIFOs off. BEGIN_FIFO is left out with its
 * question on a chip without FIFOs, and what stands behind TIMED on a chip that sends at once. READ wants these bits of a register to have
 * this value, KEEP that a register keeps what is written to these bits, beside others that are set. SEND sends a character and waits until
 * it is on its way to the receiver, and READY until it is there; ROOM waits for an empty THR.
 */
struct step {
    uint8_t op, offset, bits, value, rule;
};
enum {
    OP_BEGIN, OP_BEGIN_OFF, OP_BEGIN_FIFO, OP_TIMED, OP_WRITE, OP_READ, OP_LOOK, OP_KEEP, OP_SEND, OP_READY, OP_ROOM, OP_PAUSE, OP_FLUSH
};
#define BEGIN {OP_BEGIN, 0, 0, 0, 0}
#define BEGIN_OFF {OP_BEGIN_OFF, 0, 0, 0, 0}
#define BEGIN_FIFO {OP_BEGIN_FIFO, 0, 0, 0, 0}
#define TIMED {OP_TIMED, 0, 0, 0, 0}
#define WRITE(offset, value) {OP_WRITE, offset, 0, value, 0}
#define READ(offset, bits, value, rule) {OP_READ, offset, bits, value, CENSUS_##rule}
#define LOOK(offset) {OP_LOOK, offset, 0, 0, 0}
#define KEEP(offset, bits, beside, rule) {OP_KEEP, offset, bits, beside, CENSUS_##rule}
#define SEND(value) {OP_SEND, 0, 0, value, 0}
#define READY {OP_READY, 0, 0, 0, 0}
#define ROOM {OP_ROOM, 0, 0, 0, 0}
#define PAUSE(characters) {OP_PAUSE, 0, 0, characters, 0}
#define FLUSH {OP_FLUSH, 0, 0, 0, 0}
/* An output of MCR goes on and off in loopback: the line of MSR follows, and its change is noted. */
#define OUTPUT(output, line, at_rise) \
    WRITE(MCR, LOOP | output), READ(MSR, 0xf0, line, LINES), LOOK(MSR), WRITE(MCR, LOOP), LOOK(MSR), \
    WRITE(MCR, LOOP | output), READ(MSR, 0x0f, at_rise, DELTAS), READ(MSR, 0x0f, 0, MSR_CLEARS), \
    WRITE(MCR, LOOP), READ(MSR, 0x0f, line >> 4, DELTAS), READ(MSR, 0x0f, 0, MSR_CLEARS)
#define ECHO_OF(value) \
    BEGIN, SEND(value), READ(LSR, DR, DR, READY), READY, READ(LSR, DR, DR, ECHO), READ(DATA, 0xff, value, ECHO), READ(LSR, DR, 0, DATA_ENDS)

static const struct step registers[] = {
    KEEP(SCR, 0xff, 0, SCRATCH), KEEP(IER, 0x0f, 0, IER_KEEPS), WRITE(IER, 0), KEEP(MCR, 0x0f, LOOP, MCR_KEEPS), WRITE(MCR, LOOP),
    KEEP(LCR, 0x3f, 0, LCR_KEEPS), WRITE(LCR, 0x03),
    WRITE(IER, 0xf0), READ(IER, 0xf0, 0, IER_UPPER), WRITE(IER, 0x05),
    WRITE(MCR, LOOP | 0xe0), READ(MCR, 0xe0, 0, MCR_UPPER), WRITE(MCR, LOOP),
    WRITE(LCR, 0x83), READ(LCR, 0xff, 0x83, LCR_KEEPS), KEEP(DLL, 0xff, 0, LATCH), KEEP(DLM, 0xff, 0, LATCH),
    WRITE(DLL, DIVISOR), WRITE(DLM, 0), READ(DLL, 0xff, DIVISOR, LATCH), WRITE(LCR, 0x03),
    READ(IER, 0x0f, 0x05, LATCH_HIDES), WRITE(IER, 0), READ(ISR, CODE, 1, ISR_IDLE), READ(ISR, 0x30, 0, ISR_BITS),
};

static const struct step modem[] = {
    BEGIN, OUTPUT(0x02, 0x10, 0x01), OUTPUT(0x01, 0x20, 0x02), OUTPUT(0x04, 0x40, 0x00), OUTPUT(0x08, 0x80, 0x08),
    WRITE(IER, 0x08), WRITE(MCR, LOOP | 0x02), READ(ISR, CODE, 0, MODEM_INTERRUPT), READ(ISR, CODE, 0, MODEM_INTERRUPT), LOOK(MSR),
    READ(ISR, CODE, 1, MODEM_INTERRUPT),
};

static const struct step first[] = {ECHO_OF(0x55)};

static const struct step data[] = {
    ECHO_OF(0x00), ECHO_OF(0xaa), ECHO_OF(0xff),
    BEGIN, WRITE(LCR, 0x00), SEND(0xff), READY, READ(DATA, 0xff, 0x1f, WORD),
    BEGIN, WRITE(LCR, 0x02), SEND(0xff), READY, READ(DATA, 0xff, 0x7f, WORD),
    BEGIN, WRITE(DATA, 0x55), WRITE(DATA, 0xaa), WRITE(LCR, 0x83), READ(LCR, 0xff, 0x83, LCR_BUSY), WRITE(LCR, 0x03),
    BEGIN_OFF, SEND(0x41), SEND(0x42), READ(DATA, 0xff, 0x42, OVERRUN_REPLACES),
    BEGIN_OFF, SEND(0x41), WRITE(DATA, 0x42), PAUSE(2), READ(LSR, OE, OE, OVERRUN_REPLACES),
};

static const struct step interrupts[] = {
    BEGIN, WRITE(IER, 0x02), READ(ISR, CODE, 2, THRE_ENABLE), READ(ISR, CODE, 1, THRE_ACKED),
    WRITE(IER, 0x00), WRITE(IER, 0x02), READ(ISR, CODE, 2, THRE_AGAIN),
    BEGIN, TIMED, WRITE(IER, 0x02), WRITE(DATA, 0x55), ROOM, WRITE(DATA, 0x55), READ(ISR, CODE, 1, THRE_WRITE),
};

static const struct step resets[] = {
    BEGIN_OFF, SEND(0x41), READY, WRITE(FCR, 0x02), READ(LSR, DR, DR, RESET_OFF),
    BEGIN_FIFO, SEND(0x41), READY, WRITE(FCR, 0xc3), READ(LSR, DR, 0, RECEIVER_RESET),
    SEND(0x42), READY, READ(LSR, DR, DR, RESET_ENDS), WRITE(FCR, 0x00), READ(LSR, DR, 0, SWITCH_EMPTIES),
    BEGIN_FIFO, TIMED, WRITE(DATA, 0), WRITE(DATA, 1), WRITE(DATA, 2), WRITE(DATA, 3), WRITE(FCR, 0xc5), READ(LSR, THRE, THRE, SENDER_RESET),
    FLUSH, PAUSE(1), LOOK(DATA), LOOK(DATA), READ(LSR, DR, 0, SENDER_RESET),
};

struct run {
    const struct census_chip *chip;
    struct census_row *rows;
    uint32_t character; /* nanoseconds, as measured */
    uint8_t on;         /* FCR with FIFOs on and level 14, or 0 if there are none */
    int has_time;       /* a look found the transmitter at work */
    int is_stalled;     /* the transmitter did not become empty, or the clock stands: from here on no wait is longer than a look */
    int is_without_clock;
    uint64_t begin;      /* what the clock showed first */
    uint64_t time;       /* of the last access, since then, in steps of 1024 ns: what a recording has, and all that is decided by */
    uint64_t in_vain;    /* when the last wait last saw that it had to go on, or when it began */
    int is_wait;         /* the next read is one of a wait, and not its first */
    uint32_t repeats;    /* how many reads of the wait in a row have shown the same */
    uint64_t last_look;  /* what the clock showed last, and for how many looks */
    uint32_t same_looks;
};

/* A clock that shows the same for so many looks stands: a look takes some nanoseconds at least, and a clock ticks each few milliseconds. */
enum { MOST_LOOKS = 10000000 };
/* Nanoseconds of a step in which a recording has the time. */
enum { STEP = 1024 };

static uint64_t look_at_clock(struct run *run)
{
    uint64_t look = run->chip->now(run->chip->at);

    if (look != run->last_look) {
        run->last_look = look;
        run->same_looks = 0;
    } else if (++run->same_looks >= MOST_LOOKS) {
        run->is_without_clock = 1;
        run->is_stalled = 1;
    }
    return (look - run->begin) & ~(uint64_t)(STEP - 1);
}

/* Counts a read that shows the same again as an earlier one of its wait, and records each other access. */
static void record(struct run *run, uint8_t what, uint8_t value)
{
    struct census_recording *recording = run->chip->recording;
    struct census_access *next;

    if (recording == 0)
        return;
    next = recording->accesses + recording->count;
    run->repeats = run->is_wait && recording->count > 0 && next[-1].what == what && next[-1].value == value ? run->repeats + 1 : 0;
    if (recording->lost == 0 && run->repeats > 1 && next[-2].more < 0xffff) {
        next[-2].more++;
        next[-1].time = (uint32_t)(run->time / STEP);
    } else if (recording->lost == 0 && recording->count < CENSUS_ENTRIES) {
        *next = (struct census_access){(uint32_t)(run->time / STEP), 0, what, value};
        recording->count++;
    } else
        recording->lost++;
}

static uint8_t get(struct run *run, uint8_t offset)
{
    uint8_t value;

    run->time = look_at_clock(run);
    value = run->chip->read(run->chip->at, offset);
    record(run, offset, value);
    return value;
}

static void put(struct run *run, uint8_t offset, uint8_t value)
{
    run->time = look_at_clock(run);
    run->chip->write(run->chip->at, offset, value);
    record(run, 8 | offset, value);
}

/* Whether so many nanoseconds had passed at the last access. What stalled waits no more, so that the census ends. */
static int has_passed(struct run *run, uint64_t start, uint64_t ns)
{
    return run->time - start >= ns || run->is_stalled;
}

/* Waits until so many nanoseconds have passed since the last access. */
static void pause(struct run *run, uint32_t ns)
{
    while (look_at_clock(run) - run->time < ns && !run->is_stalled)
        ;
}

/* Notes what was seen of a rule. One that was seen to differ stays so. */
static void note(struct run *run, enum census_rule rule, int holds, uint32_t value)
{
    struct census_row *row = &run->rows[rule];

    if (row->seen == CENSUS_DIFFERS)
        return;
    row->seen = holds ? CENSUS_HOLDS : CENSUS_DIFFERS;
    row->value = value;
}

static uint8_t get_code(struct run *run)
{
    return get(run, ISR) & CODE;
}

static uint8_t get_lsr(struct run *run)
{
    uint8_t value = get(run, LSR);

    note(run, CENSUS_TEMT_THRE, !(value & TEMT) || (value & THRE), value);
    run->has_time |= !(value & TEMT);
    return value;
}

/* Waits for these bits of LSR. Errors of each look are in what is returned, since a look clears them. */
static uint8_t wait_for(struct run *run, uint8_t bits, uint32_t ms)
{
    uint64_t start = run->time;
    uint8_t value, errors = 0;

    run->in_vain = start;
    do {
        value = get_lsr(run);
        if ((value & bits) != bits)
            run->in_vain = run->time;
        errors |= value & ERRORS;
        run->is_wait = 1;
    } while ((value & bits) != bits && !has_passed(run, start, (uint64_t)ms * MS));
    run->is_wait = 0;
    return value | errors;
}

static uint8_t flush(struct run *run)
{
    uint8_t value = wait_for(run, TEMT, 3000);

    run->is_stalled |= !(value & TEMT);
    return value;
}

static uint8_t wait_for_room(struct run *run)
{
    uint8_t value = wait_for(run, THRE, 1000);

    run->is_stalled |= !(value & THRE);
    return value;
}

/* Returns LSR as it was when the character had gone out. It may be received some bits later. */
static uint8_t send(struct run *run, uint8_t value)
{
    put(run, DATA, value);
    value = flush(run);
    pause(run, run->character / 4);
    return value;
}

/* Waits for this code of ISR, and returns the nanoseconds, or 0 if it does not come. */
static uint32_t wait_for_code(struct run *run, uint8_t wanted, uint32_t ms)
{
    uint64_t start = run->time;
    uint8_t code;

    run->in_vain = start;
    do {
        code = get_code(run);
        if (code != wanted)
            run->in_vain = run->time;
        run->is_wait = 1;
    } while (code != wanted && !has_passed(run, start, (uint64_t)ms * MS));
    run->is_wait = 0;
    return code == wanted ? (uint32_t)(run->time - start) + 1 : 0;
}

/* Reads what waits, and returns how many characters that were: CENSUS_OTHERS more, if they are not `from`, `from` + 1 and so on. */
static unsigned take(struct run *run, uint8_t from)
{
    unsigned count;
    int are_others = 0;

    for (count = 0; count < 2 * MOST && (get_lsr(run) & DR); count++)
        are_others |= get(run, DATA) != (uint8_t)(from + count);
    return count + (are_others ? CENSUS_OTHERS : 0);
}

static void set_divisor(struct run *run, uint16_t divisor)
{
    put(run, LCR, 0x83);
    put(run, DLL, divisor & 0xff);
    put(run, DLM, divisor >> 8);
    put(run, LCR, 0x03);
}

/* Starts a question: an empty chip, interrupts off, 8N1, and FCR as said. */
static void begin(struct run *run, uint8_t fcr)
{
    put(run, IER, 0);
    put(run, MCR, LOOP);
    put(run, LCR, 0x03);
    flush(run);
    put(run, FCR, fcr & 1 ? fcr | 0x06 : 0);
    take(run, 0);
    get(run, ISR);
    get(run, MSR);
}

/* How long a pause takes that is named by characters. On a chip that sends at once a character has its length at 9,600 baud. */
static uint32_t character_of(const struct run *run)
{
    return run->has_time ? run->character : NOMINAL;
}

static void keep(struct run *run, const struct step *step)
{
    static const uint8_t patterns[] = {0x00, 0x55, 0xaa, 0xff, 0x0f};
    unsigned i;
    uint8_t value;

    for (i = 0; i < sizeof patterns; i++) {
        put(run, step->offset, (patterns[i] & step->bits) | step->value);
        value = get(run, step->offset);
        note(run, step->rule, (value & step->bits) == (patterns[i] & step->bits), value);
    }
}

static void do_step(struct run *run, const struct step *step)
{
    uint8_t value;

    switch (step->op) {
    case OP_BEGIN:
        begin(run, run->on);
        break;
    case OP_BEGIN_OFF:
        begin(run, 0);
        break;
    case OP_BEGIN_FIFO:
        begin(run, run->on);
        break;
    case OP_WRITE:
        put(run, step->offset, step->value);
        break;
    case OP_READ:
        value = step->offset == LSR ? get_lsr(run) : get(run, step->offset);
        note(run, step->rule, (value & step->bits) == step->value, value);
        break;
    case OP_LOOK:
        get(run, step->offset);
        break;
    case OP_KEEP:
        keep(run, step);
        break;
    case OP_SEND:
        send(run, step->value);
        break;
    case OP_READY:
        wait_for(run, DR, 50);
        break;
    case OP_ROOM:
        wait_for(run, THRE, 50);
        break;
    case OP_PAUSE:
        pause(run, step->value * character_of(run));
        break;
    case OP_FLUSH:
        flush(run);
        break;
    default:
        break;
    }
}

static void ask(struct run *run, const struct step *steps, unsigned count)
{
    const struct step *step;
    int is_left_out = 0;

    for (step = steps; step < steps + count && !run->is_stalled; step++) {
        if (step->op == OP_BEGIN || step->op == OP_BEGIN_OFF || step->op == OP_BEGIN_FIFO)
            is_left_out = step->op == OP_BEGIN_FIFO && !run->on;
        if (step->op == OP_TIMED && !run->has_time)
            is_left_out = 1;
        if (!is_left_out)
            do_step(run, step);
    }
}

#define ASK(steps) ask(run, steps, sizeof steps / sizeof *steps)

/* Sends this many, each as soon as THR is empty, and returns the time that it took. What comes back is not read. */
static uint32_t time_of(struct run *run, unsigned count)
{
    uint64_t start;

    begin(run, run->on);
    for (start = run->time; count > 0; count--) {
        put(run, DATA, 0x55);
        wait_for_room(run);
    }
    flush(run);
    return (uint32_t)(run->time - start);
}

static uint32_t less_of(uint32_t one, uint32_t other)
{
    return one < other ? one : other;
}

/*
 * The time of a character in nanoseconds, or 0 if it takes none. Who looks may be held up, so the least of some tries counts. Without a
 * chip that takes time one try is enough.
 */
static uint32_t time_of_character(struct run *run)
{
    uint32_t few = time_of(run, 2), many = time_of(run, 10);
    unsigned i;

    for (i = 1; i < TRIES && run->has_time; i++) {
        few = less_of(few, time_of(run, 2));
        many = less_of(many, time_of(run, 10));
    }
    return many > few ? (many - few) / 8 : 0;
}

/* DSR changes, and then CTS. A chip that notes neither shows nothing of this. */
static void ask_changes(struct run *run)
{
    uint8_t msr;

    begin(run, run->on);
    put(run, MCR, LOOP | 0x01);
    put(run, MCR, LOOP | 0x03);
    msr = get(run, MSR);
    if ((msr & 0x0f) != 0)
        note(run, CENSUS_DELTAS_STAY, (msr & 0x02) != 0, msr);
}

static void ask_fifos(struct run *run)
{
    uint8_t off, on;

    put(run, FCR, 0x00);
    off = get(run, ISR);
    put(run, FCR, 0x01);
    on = get(run, ISR);
    run->on = (on & 0xc0) == 0xc0 ? 0xc1 : 0;
    if ((off | on) & 0xc0)
        note(run, CENSUS_FIFO_BITS, run->on && !(off & 0xc0), (uint32_t)off << 8 | on);
}

/*
 * Sends a character, and looks for half of its time. Returns the last look that another followed within that time's end: who is held up
 * before that other one has looked in time all the same. What was sent before is out by then also where TRANSMITTER_EMPTY comes too early.
 */
static uint8_t look_while_sending(struct run *run)
{
    uint64_t start;
    uint8_t lsr, next;

    begin(run, run->on);
    pause(run, 2 * run->character);
    put(run, DATA, 0x55);
    start = run->time;
    next = lsr = get_lsr(run);
    run->is_wait = 1;
    while (!has_passed(run, start, run->character / 2)) {
        lsr = next;
        next = get_lsr(run);
    }
    run->is_wait = 0;
    return lsr;
}

static void ask_transmitter(struct run *run)
{
    uint8_t lsr = TEMT;
    unsigned i;

    /* Who looks may be held up until the character is out, so one try without an empty transmitter counts. */
    for (i = 0; i < TRIES && (lsr & TEMT); i++)
        lsr = look_while_sending(run);
    note(run, CENSUS_TEMT, !(lsr & TEMT), lsr);
    begin(run, run->on);
    put(run, DATA, 0x55);
    lsr = wait_for_room(run);
    note(run, CENSUS_THRE_FIRST, !(lsr & TEMT), lsr);
}

static void ask_time(struct run *run)
{
    uint32_t twice;

    run->has_time = 0;
    run->character = time_of_character(run);
    if (run->character == 0)
        run->character = 1;
    note(run, CENSUS_TIME, run->has_time, run->has_time ? (uint32_t)(DIVISOR * 160 * 1000ull * MS / run->character) : 0);
    if (run->has_time) {
        set_divisor(run, 2 * DIVISOR);
        twice = (uint32_t)(time_of_character(run) * 100ull / run->character);
        set_divisor(run, DIVISOR);
        note(run, CENSUS_DIVISOR, twice > 190 && twice < 210, twice);
    }
    ask_transmitter(run);
}

static void ask_burst(struct run *run)
{
    unsigned i, size = run->on ? 16 : 1;

    begin(run, run->on);
    for (i = 0; i < size; i++)
        put(run, DATA, 0x30 + i);
    flush(run);
    pause(run, run->character);
    wait_for(run, DR, 50);
    i = take(run, 0x30);
    note(run, CENSUS_BURST, i == size, i);
}

/*
 * As a driver meets the chip most often: THR is empty, and the shift register is not. Returns how many come back of a character and a burst
 * behind it: CENSUS_OTHERS more, if they are not what was written. `*was_behind` says that the character was still going out.
 */
static unsigned count_burst_behind(struct run *run, unsigned size, int *was_behind)
{
    unsigned i, count = 0;
    int are_others = 0;
    uint64_t start;
    uint8_t lsr;

    begin(run, run->on);
    put(run, DATA, 0x30);
    *was_behind = !(wait_for_room(run) & TEMT);
    for (i = 1; i <= size; i++)
        put(run, DATA, 0x30 + i);
    /* Taken as they come, since a receiver does not hold them all, and by the time alone: a chip that lost some may show anything. */
    start = run->time;
    while (count < MOST && !has_passed(run, start, (size + 8ull) * run->character)) {
        lsr = get_lsr(run);
        run->is_wait = !(lsr & DR);
        if (lsr & DR) {
            are_others |= get(run, DATA) != (uint8_t)(0x30 + count);
            count++;
        }
    }
    run->is_wait = 0;
    /* What is left in a transmitter that never shows room ends here. */
    put(run, FCR, run->on ? run->on | 0x06 : 0);
    return count + (are_others ? CENSUS_OTHERS : 0);
}

/* Who looks may be held up until a receiver overruns, so one try in which all come back counts. */
static void ask_burst_behind(struct run *run)
{
    unsigned i, size = run->on ? 16 : 1, count = 0;
    int was_behind = 0;

    for (i = 0; i < TRIES && !(was_behind && count == size + 1); i++)
        count = count_burst_behind(run, size, &was_behind);
    if (was_behind)
        note(run, CENSUS_BURST_BEHIND, count == size + 1, count);
}

static void ask_receive_fifo(struct run *run)
{
    unsigned size = 0, count;
    uint8_t lsr;

    begin(run, run->on);
    while (size < MOST && !run->is_stalled && !(send(run, size) & OE))
        size++;
    note(run, CENSUS_RECEIVE_SIZE, size == 16, size);
    if (size == MOST)
        return;
    lsr = get_lsr(run);
    note(run, CENSUS_OVERRUN_CLEARS, !(lsr & OE), lsr);
    count = take(run, 0);
    note(run, CENSUS_OVERRUN_NEWEST, count == size, count);
}

/* Written within the time of a character, so that nothing leaves meanwhile but the first. Else nothing is seen. */
static void ask_send_fifo(struct run *run)
{
    unsigned i, count = 0;
    int are_others = 0;
    uint64_t start, passed;
    uint8_t lsr;

    begin(run, run->on);
    set_divisor(run, 4 * DIVISOR);
    start = run->time;
    for (i = 0; i < MOST; i++)
        put(run, DATA, i);
    lsr = get_lsr(run);
    passed = run->time - start;
    while ((lsr & (TEMT | DR)) != TEMT && count < MOST && !run->is_stalled) {
        if (lsr & DR) {
            are_others |= get(run, DATA) != (uint8_t)count;
            count++;
        }
        lsr = get_lsr(run);
        run->is_wait = 1;
    }
    run->is_wait = 0;
    if (passed < 3ull * run->character && !are_others)
        note(run, CENSUS_SEND_SIZE, count == 17, count - 1);
    begin(run, run->on);
    set_divisor(run, DIVISOR);
}

static void ask_sizes(struct run *run)
{
    ask_burst(run);
    if (run->has_time)
        ask_burst_behind(run);
    if (!run->on)
        return;
    ask_receive_fifo(run);
    if (run->has_time)
        ask_send_fifo(run);
}

/* Sends until received data interrupt, and returns how many that took, or 0 if they do not. `*had_timeout` says that a timeout did. */
static unsigned count_to_level(struct run *run, uint8_t level, int *had_timeout)
{
    unsigned count;
    uint8_t code;

    *had_timeout = 0;
    begin(run, 0x01 | level << 6);
    put(run, IER, 0x01);
    for (count = 1; count <= 64 && !run->is_stalled; count++) {
        send(run, count - 1);
        code = get_code(run);
        if (code == RECEIVED)
            return count;
        *had_timeout |= code == TIMEOUT;
    }
    return 0;
}

/*
 * A timeout before the level says that who looks was held up for four characters, or that on this chip no time passes between two of
 * them. It may hide the level. So then it is tried again, and a wrong count counts for nothing.
 */
static void ask_level(struct run *run, uint8_t level)
{
    static const uint8_t expected[] = {1, 4, 8, 14};
    unsigned count = 0, i;
    int had_timeout = 1;
    uint8_t code;

    for (i = 0; i < TRIES && had_timeout && count != expected[level]; i++)
        count = count_to_level(run, level, &had_timeout);
    if (had_timeout && count != expected[level])
        return;
    note(run, CENSUS_TRIGGER_1 + level, count == expected[level], count);
    if (count > 0) {
        get(run, DATA);
        code = get_code(run);
        note(run, CENSUS_TRIGGER_ENDS, code != RECEIVED, code);
    }
}

/*
 * Whether a timeout that was waited for comes three to six characters behind one that was sent at `sent` and took `least` at least. Who
 * looks may be held up: so it is too early by the look that shows it, and too late by the last one that does not.
 */
static void note_timeout(struct run *run, uint64_t sent, uint64_t least)
{
    uint64_t arrived = sent + run->character;
    int is_early = run->time < sent + 4 * least, is_late = run->in_vain > arrived + 6ull * run->character;
    uint64_t behind = run->time > arrived ? run->time - arrived : 0;

    note(run, CENSUS_TIMEOUT_WHEN, !is_early && !is_late, (uint32_t)(behind * 10 / run->character));
}

static void ask_timeout(struct run *run)
{
    uint32_t ns;
    uint64_t sent, least;
    uint8_t code;

    begin(run, 0xc1);
    put(run, IER, 0x01);
    put(run, DATA, 0x41);
    sent = run->time;
    flush(run);
    least = run->in_vain - sent;
    ns = wait_for_code(run, TIMEOUT, 50);
    note(run, CENSUS_TIMEOUT, ns > 0, (uint32_t)(ns * 10ull / character_of(run)));
    if (ns == 0)
        return;
    if (run->has_time)
        note_timeout(run, sent, least);
    send(run, 0x42);
    code = get_code(run);
    note(run, CENSUS_TIMEOUT_KEPT, code == TIMEOUT, code);
    wait_for_code(run, TIMEOUT, 50);
    get(run, DATA);
    /* Where no time passes between two accesses, the next timeout is there at once. */
    if (!run->has_time)
        get(run, DATA);
    code = get_code(run);
    note(run, CENSUS_TIMEOUT_ENDS, code == NONE, code);
}

static void ask_levels(struct run *run)
{
    uint8_t level;

    if (!run->on)
        return;
    for (level = 0; level < 4; level++)
        ask_level(run, level);
    ask_timeout(run);
}

static void ask_thr_empty(struct run *run)
{
    uint32_t ns;

    begin(run, run->on);
    put(run, IER, 0x02);
    get(run, ISR);
    put(run, DATA, 0x55);
    wait_for_room(run);
    ns = wait_for_code(run, 2, 50);
    note(run, CENSUS_THRE_SENT, ns > 0, ns > 0 ? 2 : 1);
    if (ns > 0 && run->has_time)
        note(run, CENSUS_THRE_LATE, ns < run->character / 5, (uint32_t)(ns * 10ull / run->character));
}

/* Without FIFO: an overrun, a character, an empty THR and a change of CTS at once, of which each has its own end. */
static void ask_priorities(struct run *run)
{
    uint32_t seen = 0;
    unsigned i;

    begin(run, 0);
    send(run, 0x41);
    put(run, DATA, 0x42);
    pause(run, 2 * run->character);
    put(run, MCR, LOOP | 0x02);
    put(run, IER, 0x0f);
    for (i = 0; i < 8; i++) {
        seen = seen << 4 | get_code(run);
        if (i == 1)
            get(run, LSR);
        else if (i == 3)
            get(run, DATA);
        else if (i == 6)
            get(run, MSR);
    }
    note(run, CENSUS_PRIORITY, seen == 0x66442001, seen);
}

/* The data sheet says that a break acts on the pin alone, so a chip need not loop it back: then nothing is seen. */
static void ask_break(struct run *run)
{
    uint8_t behind, lsr;

    if (!run->on)
        return;
    begin(run, run->on);
    send(run, 0x41);
    put(run, LCR, 0x43);
    pause(run, 3 * character_of(run));
    put(run, LCR, 0x03);
    pause(run, character_of(run));
    behind = get_lsr(run);
    lsr = get(run, DATA) == 0x41 ? get_lsr(run) : 0;
    if (!((behind | lsr) & BI))
        return;
    note(run, CENSUS_BREAK, !(behind & BI), behind);
    note(run, CENSUS_BREAK_BIT_7, behind & FIFO_ERROR, behind);
    lsr = get_lsr(run);
    note(run, CENSUS_BREAK_CLEARS, !(lsr & BI), lsr);
    lsr = get(run, DATA);
    note(run, CENSUS_BREAK_ZERO, lsr == 0 && !(get_lsr(run) & DR), lsr);
}

/* How the questions ended that could be asked. */
static enum census_end end_of(const struct run *run)
{
    if (run->is_without_clock)
        return CENSUS_NO_CLOCK;
    return run->is_stalled ? CENSUS_STALLED : CENSUS_DONE;
}

static enum census_end ask_all(struct run *run)
{
    /* Before anything else: without loopback the outputs would follow what is written to MCR. */
    if (!(get(run, MCR) & LOOP))
        return CENSUS_NO_LOOPBACK;
    ASK(registers);
    ASK(modem);
    ask_changes(run);
    /* If the first character does not come back, it may be on the line, and the others are to stay here. */
    ASK(first);
    if (run->rows[CENSUS_ECHO].seen != CENSUS_HOLDS)
        return end_of(run) == CENSUS_DONE ? CENSUS_NO_LOOPBACK : end_of(run);
    ask_fifos(run);
    ask_time(run);
    ASK(data);
    ask_sizes(run);
    ask_levels(run);
    ASK(interrupts);
    ask_thr_empty(run);
    ask_priorities(run);
    ASK(resets);
    ask_break(run);
    return end_of(run);
}

/* What of a chip can be read, and is put back. */
struct found {
    uint8_t scr, lcr, ier, mcr, isr, dll, dlm;
};

/*
 * As leave_loopback does: what comes back is no change that anybody made, and OUT2 and IER stay off until it is read. Returns whether
 * somebody is there.
 */
static int restore(struct run *run, const struct found *found)
{
    int is_there;

    put(run, IER, 0);
    put(run, FCR, 0x07);
    put(run, FCR, run->chip->fcr ? run->chip->fcr : found->isr & 0xc0 ? 0x81 : 0x00);
    set_divisor(run, (uint16_t)(found->dlm << 8 | found->dll));
    put(run, LCR, found->lcr);
    take(run, 0);
    put(run, SCR, found->scr);
    put(run, MCR, found->mcr & ~OUT2);
    is_there = get(run, MSR) != 0xff;
    is_there |= get(run, ISR) != 0xff;
    put(run, MCR, found->mcr);
    put(run, IER, found->ier);
    return is_there;
}

enum census_end census_take(const struct census_chip *chip, struct census_row rows[CENSUS_RULES])
{
    struct run run = {chip, rows, 1, 0, 0, 0, 0, chip->now(chip->at), 0, 0, 0, 0, 0, 0};
    struct found found;
    enum census_end end;
    unsigned i;

    for (i = 0; i < CENSUS_RULES; i++)
        rows[i] = (struct census_row){CENSUS_NOT_SEEN, 0};
    found.lcr = get(&run, LCR);
    found.mcr = get(&run, MCR);
    /* No chip has MCR FF; a port whose divisor latch is open, or that still sends, is another's. */
    if (found.mcr == 0xff)
        return CENSUS_NOBODY;
    if (found.lcr & 0x80)
        return CENSUS_IN_USE;
    found.ier = get(&run, IER);
    put(&run, IER, 0);
    if (!(wait_for(&run, TEMT, 1000) & TEMT)) {
        put(&run, IER, found.ier);
        return run.is_without_clock ? CENSUS_NO_CLOCK : CENSUS_IN_USE;
    }
    found.isr = get(&run, ISR);
    found.scr = get(&run, SCR);
    put(&run, MCR, LOOP);
    put(&run, LCR, 0x80);
    found.dll = get(&run, DLL);
    found.dlm = get(&run, DLM);
    put(&run, LCR, 0x03);
    end = ask_all(&run);
    return restore(&run, &found) ? end : CENSUS_GONE;
}
