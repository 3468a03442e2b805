/*
 * A kernel whose console is u16550.c. It says that it is there, sends back what is typed until a mark, and sends many bytes, whether the
 * other end reads them or not. Then it sends back what is typed once more, by interrupts with rings. What differs from board to board is
 * behind board.h.
 */
#include "board.h"

/* The byte that ends what is typed. */
enum { MARK = 0x04 };

/* What is sent to who may not read. It is repeated after so many bytes, which is no power of two, so that a lost burst is seen. */
enum { PATTERN_LEN = 65536, PATTERN_PERIOD = 251, PIECE = 1024 };

/* A wait gives up soon, so that the other end that does not read is noticed. So often it may, until that end is taken to be gone. */
enum { SPIN_LIMIT = 10000, MOST_STALLS = 1000000 };

/* How many looks for what is typed are made until the other end is taken to be gone: minutes. */
enum { MOST_LOOKS = 1000000000 };

/* The thousandths by which the baud rate may be off. */
enum { BAUD_RATE = 115200, TOLERANCE = 20 };

/* How many interrupts one run of the handler serves, and how many runs in a row may leave some unserved before the chip is stuck. */
enum { MOST_SERVED = 4 * U16550_MAX_INTERRUPTS, MOST_RUNS = 100 };

enum { RING_SIZE = 256 };

enum {
    LINE_ERRORS = U16550_LSR_OVERRUN_ERROR | U16550_LSR_PARITY_ERROR | U16550_LSR_FRAMING_ERROR | U16550_LSR_BREAK_INTERRUPT
        | U16550_LSR_FIFO_DATA_ERROR
};

static struct u16550 console;
static uint8_t ring_memory[2 * RING_SIZE];
static volatile uint32_t interrupts;
static volatile int why_stuck;

/* ---- text */

static size_t length_of(const char *text)
{
    size_t len = 0;
    while (text[len] != '\0')
        len++;
    return len;
}

static int say(const char *text)
{
    return u16550_write_text(&console, text, length_of(text), NULL);
}

static void stop(void)
{
    board_interrupts_off();
    for (;;)
        ;
}

/* Ends the kernel with the reason, unless a call succeeded. The chip may send even though it is not as it should be. */
static void must(int status)
{
    if (status == U16550_OK)
        return;
    board_interrupts_off();
    say("\n");
    say(u16550_text(status));
    say("\n");
    stop();
}

/* Says a number to a base of at most 16, with at least so many digits. */
static void say_number(uint32_t number, uint32_t base, size_t digits)
{
    static const char names[] = "0123456789abcdef";
    char text[33];
    size_t at = sizeof text - 1;
    text[at] = '\0';
    do {
        text[--at] = names[number % base];
        number /= base;
    } while (number != 0 || sizeof text - 1 - at < digits);
    must(say(text + at));
}

/* ---- by polling */

/* Sends all bytes, and goes on where a wait has given up. Returns how often one has. */
static uint32_t send_all(const uint8_t *bytes, size_t len)
{
    size_t done;
    for (uint32_t stalls = 0; stalls < MOST_STALLS; stalls++) {
        int status = u16550_send_bytes_exact(&console, bytes, len, &done);
        if (status != U16550_STALLED) {
            must(status);
            return stalls;
        }
        bytes += done;
        len -= done;
    }
    stop();
    return MOST_STALLS;
}

/* Where the mark is, or the length if there is none. */
static size_t find_mark(const uint8_t *bytes, size_t len)
{
    size_t at = 0;
    while (at < len && bytes[at] != MARK)
        at++;
    return at;
}

/* Sends back what is typed, until the mark. */
static void echo(void)
{
    uint8_t slots[64];
    size_t count, end;
    for (uint32_t look = 0; look < MOST_LOOKS; look++) {
        must(u16550_receive_bytes(&console, slots, sizeof slots, &count));
        end = find_mark(slots, count);
        send_all(slots, end);
        if (end < count)
            return;
    }
    stop();
}

/* Sends the pattern. Returns how often a wait has given up. */
static uint32_t send_pattern(void)
{
    uint8_t piece[PIECE];
    uint32_t stalls = 0;
    for (size_t first = 0; first < PATTERN_LEN; first += sizeof piece) {
        for (size_t at = 0; at < sizeof piece; at++)
            piece[at] = (uint8_t)((first + at) % PATTERN_PERIOD);
        stalls += send_all(piece, sizeof piece);
    }
    return stalls;
}

static void start(void)
{
    struct u16550_config config;
    must(board_new(&console));
    must(u16550_set_spin_limit(&console, SPIN_LIMIT));
    must(u16550_default_config(&config));
    config.frequency = board_frequency;
    config.baud_rate = BAUD_RATE;
    must(u16550_nearest(&config, TOLERANCE, &config));
    must(u16550_init(&console, &config));
    must(u16550_test_loopback(&console, NULL));
}

static void run_by_polling(void)
{
    uint8_t line;
    uint32_t stalls;
    must(say("\nconsole: loopback ok\n"));
    echo();
    must(u16550_lsr(&console, &line));
    must(say("\nechoed by polling, errors "));
    say_number(line & LINE_ERRORS, 16, 2);
    must(say("\n"));
    stalls = send_pattern();
    must(say("\nsent, stalls "));
    say_number(stalls, 10, 1);
    must(say("\n"));
}

/* ---- by interrupts */

void console_interrupt(void)
{
    struct u16550_handled handled;
    uint8_t scratch;
    int status = u16550_ring_try_handle(&console, MOST_SERVED, MOST_RUNS, &handled);
    interrupts++;
    if (status != U16550_OK)
        why_stuck = status;
    /* A read of the chip is answered when all writes before it have arrived, so the controller sees the line that they have made. */
    u16550_spr(&console, &scratch);
}

/* Moves bytes from the receive ring to the transmit ring, as many as that has room for. Returns whether the mark was among them. */
static bool move_some(void)
{
    uint8_t slots[64];
    size_t room, count, end, queued;
    must(u16550_ring_transmit_room(&console, &room));
    must(u16550_ring_take(&console, slots, room < sizeof slots ? room : sizeof slots, &count));
    end = find_mark(slots, count);
    must(u16550_ring_queue(&console, slots, end, &queued));
    return end < count;
}

/* Sends back what is typed, until the mark. Each call over the rings is made with interrupts off, so that none comes into another. */
static uint8_t echo_by_interrupts(void)
{
    uint8_t line, errors = 0;
    size_t waiting = 1;
    bool is_marked = false;
    for (uint32_t look = 0; look < MOST_LOOKS && !(is_marked && waiting == 0); look++) {
        board_interrupts_off();
        must(why_stuck);
        if (!is_marked)
            is_marked = move_some();
        must(u16550_ring_take_line(&console, &line));
        errors |= line & LINE_ERRORS;
        must(u16550_ring_transmit_len(&console, &waiting));
        board_interrupts_on();
    }
    board_interrupts_off();
    return errors;
}

static void run_by_interrupts(void)
{
    static const char begun[] = "\r\nby interrupts\r\n";
    size_t count;
    uint8_t errors;
    must(u16550_ring_new(&console, ring_memory, sizeof ring_memory, RING_SIZE, RING_SIZE));
    /* Before the chip has an interrupt: a controller that detects edges sees none of a line that is high already. */
    board_set_up_interrupts();
    must(u16550_enable_interrupts(&console, U16550_IER_DATA_READY | U16550_IER_RECEIVER_LINE_STATUS));
    must(u16550_ring_queue(&console, (const uint8_t *)begun, sizeof begun - 1, &count));
    errors = echo_by_interrupts();
    must(u16550_ring_end(&console));
    must(say("\nechoed by "));
    say_number(interrupts, 10, 1);
    must(say(" interrupts, errors "));
    say_number(errors, 16, 2);
    must(say("\n"));
}

void kernel_main(void)
{
    start();
    run_by_polling();
    run_by_interrupts();
    must(say("\nend\n"));
    stop();
}

/* ---- what a C compiler calls, also where nothing is written so */

void *memcpy(void *to, const void *from, size_t count);
void *memset(void *to, int byte, size_t count);

void *memcpy(void *to, const void *from, size_t count)
{
    for (size_t at = 0; at < count; at++)
        ((uint8_t *)to)[at] = ((const uint8_t *)from)[at];
    return to;
}

void *memset(void *to, int byte, size_t count)
{
    for (size_t at = 0; at < count; at++)
        ((uint8_t *)to)[at] = (uint8_t)byte;
    return to;
}
