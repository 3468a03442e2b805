/*
 * hand_written.c - a console as a firmware engineer writes it, for integration/sizes-of-c to compare with. Nothing of it is proved.
 *
 * It checks what u16550_console.c checks: that the scratch register keeps two patterns, that ISR shows the FIFOs, that the transmitter
 * comes to rest, and that in loopback a byte and a message come back. No wait is endless. Errors that a poll clears are kept for hand_lsr.
 */
#include "put.h"

enum { DATA, IER, FCR, LCR, MCR, LSR, MSR, SPR, ISR = FCR };
enum { READY = 0x01, ERRORS = 0x1e, ROOM = 0x20, IDLE = 0x40, DLAB = 0x80, LOOP = 0x10, FIFOS = 0xc0, FIFO = 16 };
#define REGISTER(offset) (((volatile uint8_t *)U16550_CONSOLE_BASE)[offset])
static uint8_t errors, burst = 1;

static uint8_t in(int offset) { U16550_BARRIER(); uint8_t value = REGISTER(offset); U16550_BARRIER(); return value; }
static void out(int offset, int value) { U16550_BARRIER(); REGISTER(offset) = (uint8_t)value; U16550_BARRIER(); }
static uint8_t status(void) { uint8_t lsr = in(LSR); errors |= lsr & ERRORS; return lsr; }
static bool wait(int bits)
{
    for (uint32_t polls = 0; polls < POLLS; polls++)
        if ((status() & bits) == bits)
            return true;
    return false;
}
static bool keeps(int value) { out(SPR, value); return in(SPR) == value; }
static void reset_fifos(void) { out(FCR, 0xc7); burst = (in(ISR) & FIFOS) == FIFOS ? FIFO : 1; }

int hand_init(void)
{
    uint8_t before = in(SPR);
    bool is_there = keeps(0x42) && keeps(0x73);
    out(SPR, before);
    if (!is_there)
        return -1;
    out(LCR, 0), out(IER, 0);
    out(LCR, DLAB), out(DATA, DIVISOR % 256), out(IER, DIVISOR / 256), out(LCR, 3);
    reset_fifos();
    for (int left = FIFO + 1; left > 0 && (in(LSR) & READY); left--)
        in(DATA);
    out(MCR, 0x0b);
    if (!wait(IDLE))
        return -2;
    in(LSR), in(ISR), in(MSR), errors = 0;
    return 0;
}
uint8_t hand_lsr(void) { uint8_t lsr = status() | errors; errors = 0; return lsr; }
int hand_put(uint8_t byte) { if (!wait(ROOM)) return -1; out(DATA, byte); return 0; }
int hand_get(void) { return status() & READY ? in(DATA) : -1; }
size_t hand_send(const uint8_t *bytes, size_t len)
{
    size_t done = 0;
    while (done < len && wait(ROOM))
        for (int room = burst; room > 0 && done < len; room--)
            out(DATA, bytes[done++]);
    return done;
}
int hand_write_text(const char *text, size_t len)
{
    for (; len > 0; len--, text++) {
        bool erases = *text == 8 || *text == 127;
        if ((*text == '\n' && hand_put('\r')) || (erases && (hand_put(8) || hand_put(' '))) || hand_put(erases ? 8 : (uint8_t)*text))
            return -1;
    }
    return 0;
}
static bool echoes(const uint8_t *bytes, size_t len)
{
    for (size_t at = 0, some; at < len; at += some) {
        some = len - at < burst ? len - at : burst;
        if (hand_send(bytes + at, some) < some)
            return false;
        for (size_t back = 0; back < some; back++)
            if (!wait(READY) || in(DATA) != bytes[at + back])
                return false;
    }
    return true;
}
int hand_test_loopback(void)
{
    uint8_t mcr = in(MCR), ier = in(IER), before;
    if (!wait(IDLE))
        return -1;
    before = errors;
    out(IER, 0), out(MCR, LOOP), reset_fifos();
    for (uint32_t polls = 0; polls < POLLS && (in(LSR) & READY); polls++)
        in(DATA);
    bool is_good = echoes((const uint8_t *)"B", 1) && echoes((const uint8_t *)"hello world!1337", 16);
    out(MCR, mcr & ~8), in(MSR), out(MCR, mcr), out(IER, ier), errors = before;
    return is_good ? 0 : -2;
}
