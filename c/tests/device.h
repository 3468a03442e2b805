/* A small 16550A for tests: what is written goes out at once, and tests put into it what arrives. */
#ifndef DEVICE_H
#define DEVICE_H

#include <stdint.h>
#include <string.h>

#include "u16550.h"

enum {
    DATA = 0, IER = 1, ISR = 2, FCR = 2, LCR = 3, MCR = 4, LSR = 5, MSR = 6, SPR = 7,
    DLAB = 0x80, LOOP_BACK = 0x10, FIFOS_ENABLED = 0xc0, FIFO_ENABLE = 0x01, FIFO_64 = 0x20,
    NO_INTERRUPT = 0x01, LINE_STATUS = 0x06, RECEIVED_DATA = 0x04, THR_IS_EMPTY = 0x02, MODEM = 0x00,
    CHANGES = 0x0f, ROOM = 256, SHOWS_WHAT_IS = 0x80
};

struct device {
    uintptr_t base, stride;
    uint8_t registers[8];
    uint8_t dll, dlm;
    uint8_t errors;              /* that the next read of LSR shows */
    uint8_t arrived[ROOM];
    unsigned arrived_len;
    uint8_t sent[ROOM];
    unsigned sent_len;
    unsigned accesses;
    unsigned falls;              /* how often 0 was written into IER, so that the interrupt line is low */
    uint8_t fifo_on, thr_pending;
    /* what is wrong with it */
    uint8_t is_absent, is_stuck, is_silent;
    uint8_t shows;               /* what ISR shows: SHOWS_WHAT_IS, or always this, whatever is pending */
    unsigned room;               /* how many more bytes it sends; it is then full */
    unsigned holds;              /* how many characters its receiver holds; 0 for ROOM. What comes then is lost */
    uint8_t is_16750;            /* FCR switches its FIFOs between 16 and 64 characters while DLAB is set */
    uint8_t flips;               /* that a byte in loopback comes back with */
    unsigned flips_after;        /* so many bytes */
    /* what happens in the middle of a call: behind each access */
    void (*meanwhile)(struct device *d);
};

/* The interrupt that ISR identifies. */
static inline uint8_t device_interrupt(const struct device *d)
{
    uint8_t ier = d->registers[IER];
    if (d->shows != SHOWS_WHAT_IS)
        return d->shows;
    if ((ier & U16550_IER_RECEIVER_LINE_STATUS) && d->errors)
        return LINE_STATUS;
    if ((ier & U16550_IER_DATA_READY) && d->arrived_len)
        return RECEIVED_DATA;
    if ((ier & U16550_IER_THR_EMPTY) && d->thr_pending)
        return THR_IS_EMPTY;
    if ((ier & U16550_IER_MODEM_STATUS) && (d->registers[MSR] & CHANGES))
        return MODEM;
    return NO_INTERRUPT;
}

/* Whether the interrupt line is high. */
static inline int device_is_interrupting(const struct device *d)
{
    return d->registers[IER] != 0 && device_interrupt(d) != NO_INTERRUPT;
}

static inline uint8_t device_isr(struct device *d)
{
    uint8_t interrupt = device_interrupt(d);
    if (interrupt == THR_IS_EMPTY)
        d->thr_pending = 0;
    return (d->fifo_on ? FIFOS_ENABLED | (d->is_16750 && d->holds == 64 ? FIFO_64 : 0) : 0) | interrupt;
}

static inline uint8_t device_lsr(struct device *d)
{
    uint8_t lsr = d->errors | (d->arrived_len ? U16550_LSR_DATA_READY : 0);
    d->errors = 0;
    if (d->is_stuck || !d->room)
        return lsr;
    return lsr | U16550_LSR_THR_EMPTY | U16550_LSR_TRANSMITTER_EMPTY;
}

static inline uint8_t device_value(struct device *d, unsigned offset)
{
    uint8_t value;

    switch (offset) {
    case DATA:
        if (d->registers[LCR] & DLAB)
            return d->dll;
        value = d->arrived[0];
        if (d->arrived_len)
            memmove(d->arrived, d->arrived + 1, --d->arrived_len);
        return value;
    case IER:
        return d->registers[LCR] & DLAB ? d->dlm : d->registers[IER];
    case ISR:
        return device_isr(d);
    case LSR:
        return device_lsr(d);
    case MSR:
        value = d->registers[MSR];
        d->registers[MSR] &= (uint8_t)~CHANGES;
        return value;
    case SPR:
        return d->is_absent ? 0xff : d->registers[SPR];
    default:
        return d->registers[offset];
    }
}

static inline void device_send(struct device *d, uint8_t byte)
{
    d->thr_pending = 1;
    if (d->registers[MCR] & LOOP_BACK) {
        if (d->flips_after)
            d->flips_after--;
        else
            byte ^= d->flips;
        if (d->is_silent)
            return;
        if (d->arrived_len == (d->holds ? d->holds : (unsigned)ROOM))
            d->errors |= U16550_LSR_OVERRUN_ERROR;
        else
            d->arrived[d->arrived_len++] = byte;
    } else if (d->room) {
        d->room--;
        d->sent[d->sent_len++] = byte;
    }
}

static inline void device_set(struct device *d, unsigned offset, uint8_t value)
{
    if (offset <= IER && (d->registers[LCR] & DLAB)) {
        *(offset ? &d->dlm : &d->dll) = value;
        return;
    }
    switch (offset) {
    case DATA:
        device_send(d, value);
        return;
    case IER:
        if (value == 0)
            d->falls++;
        /* An empty transmitter interrupts as soon as it may. */
        if (value & ~d->registers[IER] & U16550_IER_THR_EMPTY)
            d->thr_pending = 1;
        d->registers[IER] = value;
        return;
    case FCR:
        d->fifo_on = value & FIFO_ENABLE;
        if (d->is_16750 && (d->registers[LCR] & DLAB) && d->fifo_on) {
            d->holds = value & FIFO_64 ? 64 : 16;
            d->arrived_len = 0;
        }
        return;
    case LSR:
    case MSR:
        return;
    default:
        d->registers[offset] = value;
    }
}

static inline unsigned device_access(struct device *d, uintptr_t address)
{
    d->accesses++;
    return (unsigned)((address - d->base) / d->stride);
}

static inline uint8_t device_read(void *context, uintptr_t address)
{
    struct device *d = (struct device *)context;
    uint8_t value = device_value(d, device_access(d, address));
    if (d->meanwhile)
        d->meanwhile(d);
    return value;
}

static inline void device_write(void *context, uintptr_t address, uint8_t value)
{
    struct device *d = (struct device *)context;
    device_set(d, device_access(d, address), value);
    if (d->meanwhile)
        d->meanwhile(d);
}

/* A device that works, with CTS and DSR set. */
static inline struct device device_new(void)
{
    struct device d;
    memset(&d, 0, sizeof d);
    d.stride = 1;
    d.room = ROOM;
    d.shows = SHOWS_WHAT_IS;
    d.registers[MSR] = U16550_MSR_CTS | U16550_MSR_DSR;
    return d;
}

static inline struct u16550_io device_io(struct device *d)
{
    struct u16550_io io = { d, device_read, device_write };
    return io;
}

static inline void device_arrive(struct device *d, const char *bytes)
{
    size_t len = strlen(bytes);
    memcpy(d->arrived + d->arrived_len, bytes, len);
    d->arrived_len += (unsigned)len;
}

#endif
