#include "u16550.h"

/* The device: registers in memory, one byte apart, and its clock. */
enum { BASE = 0x10000000, STRIDE = 1, FREQUENCY = 3686400, RING = 1024 };

/* The interrupts that the console asks for. The rings ask for THR_EMPTY themselves, as long as bytes wait. */
enum { INTERRUPTS = U16550_IER_DATA_READY | U16550_IER_RECEIVER_LINE_STATUS };

/*
 * How many interrupts one run of the handler serves, and how many runs in a row may leave some unserved before the chip is stuck. These
 * are 3,200 interrupts without a pause, a tenth of a second at a microsecond for an access.
 */
enum { MOST_INTERRUPTS = 32, MOST_RUNS = 100 };

/* What the program has for this: the device's line at the interrupt controller, and the interrupts of the processor. */
void mask_line(void);
void unmask_line(void);
void interrupts_off(void);
void interrupts_on(void);

static uint8_t load(void *context, uintptr_t address)
{
    (void)context;
    return *(volatile uint8_t *)address;
}

static void store(void *context, uintptr_t address, uint8_t value)
{
    (void)context;
    *(volatile uint8_t *)address = value;
}

static struct u16550 console;
static uint8_t rings[2 * RING];
static volatile uint8_t is_put_off;
static volatile int why_broken;

/* Sets the console up. Returns U16550_OK, or why there is none; u16550_text has a text for it. */
int console_start(void)
{
    struct u16550_io memory = { NULL, load, store };
    struct u16550_config config;
    int status = u16550_new_mmio(&console, &memory, BASE, STRIDE);

    if (status == U16550_OK)
        status = u16550_default_config(&config);
    if (status != U16550_OK)
        return status;
    config.frequency = FREQUENCY;
    config.baud_rate = 115200;
    config.interrupts = INTERRUPTS;
    status = u16550_init(&console, &config);
    if (status == U16550_OK)
        status = u16550_test_loopback(&console, NULL);
    return status;
}

/* From here on the interrupt handler moves the bytes. The line is masked until this has returned. */
int console_use_interrupts(void)
{
    is_put_off = 0;
    why_broken = U16550_OK;
    return u16550_ring_new(&console, rings, sizeof rings, RING, RING);
}

/* The handler of the device's interrupt. The controller may detect levels or edges; it gets its end of interrupt after this. */
void console_interrupt(void)
{
    struct u16550_handled handled;
    int status = u16550_ring_try_handle(&console, MOST_INTERRUPTS, MOST_RUNS, &handled);

    if (status == U16550_BUSY) {
        /* A call is not done. It never would be if the line stayed high and the handler came again at once. */
        mask_line();
        is_put_off = 1;
    } else if (status != U16550_OK) {
        /* Nobody can serve this: the chip is stuck, or there are no rings. A stuck chip's line may stay high although IER is 0. */
        mask_line();
        why_broken = status;
    }
}

/* Why the handler has given up, or U16550_OK if it has not. u16550_text has a text for it. */
int console_broken(void)
{
    return why_broken;
}

/* Starts a console again whose handler has given up. What waits to be sent is sent. */
int console_restart(void)
{
    int status;

    interrupts_off();
    status = u16550_ring_restart(&console, INTERRUPTS);
    if (status == U16550_OK) {
        why_broken = U16550_OK;
        unmask_line();
        /* A controller for edges may have missed one while the line was masked. */
        u16550_ring_retrigger(&console);
    }
    interrupts_on();
    return status;
}

/* Lets the interrupt in again that the handler has put off. To be called after each call that the handler may have come into. */
void console_catch_up(void)
{
    interrupts_off();
    if (is_put_off) {
        is_put_off = 0;
        unmask_line();
        /* A controller for edges may have missed one while the line was masked. */
        u16550_retrigger_interrupts(&console);
    }
    interrupts_on();
}

/* Sends a text, a line feed as carriage return and line feed, and waits for room. Interrupts are on meanwhile, since it is long. */
int console_say(const char *text, size_t len)
{
    int status = u16550_write_text(&console, text, len, NULL);

    console_catch_up();
    return status;
}

/* Sends bytes, as many as there is room for, and returns how many. */
size_t console_write(const uint8_t *bytes, size_t len)
{
    size_t count = 0;
    int status;

    interrupts_off();
    status = u16550_ring_queue(&console, bytes, len, &count);
    interrupts_on();
    return status == U16550_OK ? count : 0;
}

/* Gives received bytes, as many as there are, and returns how many. */
size_t console_read(uint8_t *slots, size_t len)
{
    size_t count = 0;
    int status;

    interrupts_off();
    status = u16550_ring_take(&console, slots, len, &count);
    interrupts_on();
    return status == U16550_OK ? count : 0;
}
