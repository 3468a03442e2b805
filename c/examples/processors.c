#include "u16550.h"

/* What the kernel has for this. The lock is a plain one: it waits until the other processor has unlocked it. */
unsigned long interrupts_save(void); /* turns this processor's interrupts off, and returns how they were */
void interrupts_restore(unsigned long were);
void lock_port(void);
void unlock_port(void);
void wake_readers(void);
void stop_other_processors(void);
void halt(void);

/* How the device is reached, and where it is. */
extern const struct u16550_io port_io;
enum { PORT_BASE = 0x10000000, PORT_STRIDE = 1 };

/*
 * How many interrupts one run of the handler serves, how many runs in a row may leave some unserved before the chip is stuck, and how many
 * polls the last words wait for a byte: about a second.
 */
enum { MOST_SERVED = 32, MOST_RUNS = 100, PATIENCE = 1000000 };

/* Set up with rings, as the console of interrupts.c, and with these interrupts. */
static struct u16550 port;
enum { PORT_INTERRUPTS = U16550_IER_DATA_READY | U16550_IER_RECEIVER_LINE_STATUS | U16550_IER_MODEM_STATUS };

/* How often the chip has dropped a received byte. */
static unsigned overruns;

/*
 * The interrupts go off first, and on last. Otherwise the handler could come when this processor has the lock, and would wait for it
 * for ever. Interrupts off alone are not enough: another processor may run the handler.
 */
static unsigned long enter_port(void)
{
    unsigned long were = interrupts_save();

    lock_port();
    return were;
}

static void leave_port(unsigned long were)
{
    unlock_port();
    interrupts_restore(were);
}

/* Sends bytes, as many as there is room for, and returns how many. Not to be called between enter_port and leave_port. */
size_t port_write(const uint8_t *bytes, size_t len)
{
    size_t count = 0;
    unsigned long were = enter_port();
    int status = u16550_ring_queue(&port, bytes, len, &count);

    leave_port(were);
    return status == U16550_OK ? count : 0;
}

/* Gives received bytes, as many as there are, and returns how many. */
size_t port_read(uint8_t *slots, size_t len)
{
    size_t count = 0;
    unsigned long were = enter_port();
    int status = u16550_ring_take(&port, slots, len, &count);

    leave_port(were);
    return status == U16550_OK ? count : 0;
}

/* Counts what was lost, and sends what waits when CTS came back: the chip has already reported that it is empty. */
static void look_at_lines(void)
{
    enum { CTS_CAME_BACK = U16550_MSR_DELTA_CTS | U16550_MSR_CTS };
    uint8_t line, modem;

    if (u16550_ring_take_line(&port, &line) == U16550_OK && (line & U16550_LSR_OVERRUN_ERROR))
        overruns++;
    if (u16550_ring_take_modem(&port, &modem) == U16550_OK && (modem & CTS_CAME_BACK) == CTS_CAME_BACK)
        u16550_ring_resume_transmit(&port);
}

/*
 * The handler of the device's interrupt, on any processor, at a controller that detects levels or edges. Returns U16550_OK, or why the
 * chip is stuck: then its interrupts are off until port_restart.
 */
int port_interrupt(void)
{
    struct u16550_handled handled;
    size_t received = 0;
    uint8_t scratch;
    unsigned long were = enter_port();
    int status = u16550_ring_try_handle(&port, MOST_SERVED, MOST_RUNS, &handled);

    if (status == U16550_OK) {
        look_at_lines();
        status = u16550_ring_receive_len(&port, &received);
    }
    /* This read is answered when all writes before it have arrived, so the controller then sees the line that they have made. */
    u16550_spr(&port, &scratch);
    leave_port(were);
    /* Behind the lock: whoever is woken takes it. */
    if (received > 0)
        wake_readers();
    return status;
}

/* Starts a port again that is stuck. What waits to be sent is sent. */
int port_restart(void)
{
    unsigned long were = enter_port();
    int status = u16550_ring_restart(&port, PORT_INTERRUPTS);

    leave_port(were);
    return status;
}

/*
 * Sends a text in a panic, and stops. It takes no lock, since its owner may be who panicked, and uses another driver, since a call over
 * port may never be done. frame may be null: then baud rate and frame stay as they are.
 */
void last_words(const struct u16550_config *frame, const char *text, size_t len)
{
    static struct u16550 last;
    int status;

    interrupts_save();
    stop_other_processors();
    status = u16550_new_mmio(&last, &port_io, PORT_BASE, PORT_STRIDE);
    if (status == U16550_OK)
        status = u16550_set_spin_limit(&last, PATIENCE);
    if (status == U16550_OK)
        status = u16550_emergency(&last);
    if (status == U16550_OK) {
        /* Each of these waits, but not for ever. If one fails, there is nobody to tell. */
        if (frame != NULL) {
            u16550_flush(&last);
            u16550_set_frame(&last, frame);
        }
        u16550_write_text(&last, text, len, NULL);
        u16550_flush(&last);
    }
    halt();
}
