/*
 * A driver over a UART of DesignWare: writes of LCR on a busy chip, its interrupts of its own, and what is refused. Prints each
 * comparison that fails, and their number.
 */
#include <stdint.h>
#include <stdio.h>
#include <stdlib.h>
#include <string.h>

#include "device.h"
#include "u16550.h"

static int compared, failed;

static void compare(const char *file, int line, const char *what, long long got, long long wanted)
{
    compared++;
    if (got != wanted) {
        failed++;
        printf("%s:%d: %s is %lld, not %lld\n", file, line, what, got, wanted);
    }
}

#define IS(expression, wanted) compare(__FILE__, __LINE__, #expression, (long long)(expression), (long long)(wanted))
#define OK(expression) IS(expression, U16550_OK)

/* ---- the chip */

enum { USR = 31, BUSY_DETECT = 0x07, TIMEOUT = 0x0c, FOR_EVER = 1000000, PATIENCE = 100 };

static struct device d;

static struct {
    unsigned busy;         /* looks at USR for which the chip is busy sending */
    int is_busy_detected;  /* a write of LCR was ignored, and USR was not read since */
    unsigned timeouts;     /* reads of RBR that end a reception timeout without data */
} more;

/* It is busy too as long as received data wait. */
static int is_busy(void)
{
    return more.busy > 0 || d.arrived_len > 0;
}

static uint8_t read_usr(void)
{
    int was_busy = is_busy();
    more.is_busy_detected = 0;
    if (more.busy > 0)
        more.busy--;
    return (uint8_t)was_busy;
}

static uint8_t chip_read(void *context, uintptr_t offset)
{
    uint8_t value;
    if (offset == USR)
        return read_usr();
    if (offset == DATA && more.timeouts > 0 && d.arrived_len == 0)
        more.timeouts--;
    value = device_read(context, offset);
    if (offset == ISR && more.is_busy_detected)
        return FIFOS_ENABLED | BUSY_DETECT;
    if (offset == ISR && more.timeouts > 0)
        return FIFOS_ENABLED | TIMEOUT;
    return value;
}

static void chip_write(void *context, uintptr_t offset, uint8_t value)
{
    if (offset == LCR && is_busy())
        more.is_busy_detected = 1;
    else
        device_write(context, offset, value);
}

static struct u16550 uart;
static struct u16550_design_ware chip;
static struct u16550_config config;
static const struct u16550_io io = { &d, chip_read, chip_write };

static void new_chip(void)
{
    d = device_new();
    memset(&more, 0, sizeof more);
    memset(&uart, 0, sizeof uart);
    OK(u16550_default_config(&config));
    config.interrupts = U16550_IER_DATA_READY | U16550_IER_RECEIVER_LINE_STATUS;
}

static void start(void)
{
    new_chip();
    OK(u16550_new_design_ware(&uart, &chip, &io, PATIENCE));
    OK(u16550_init(&uart, &config));
    OK(u16550_check_configured(&uart, U16550_MCR_DTR | U16550_MCR_RTS | U16550_MCR_OUT_2_INT_ENABLE, NULL));
    OK(u16550_design_ware_fault(&uart, &chip));
}

/* ---- the tests */

/* What the test is about: without the backend nothing is set, and half of a divisor goes to the line. */
static void without_the_backend(void)
{
    new_chip();
    OK(u16550_new(&uart, &io));
    OK(u16550_init(&uart, &config));
    more.busy = 3;
    config.baud_rate = 115200;
    OK(u16550_set_frame(&uart, &config));
    IS(d.sent_len, 1);
    IS(d.dll, 12);
}

static void a_busy_chip_is_set_up(void)
{
    uint8_t bytes[8];
    size_t count;
    start();
    IS(d.dll, 12);
    more.busy = 3;
    device_arrive(&d, "abc");
    config.baud_rate = 115200;
    OK(u16550_set_frame(&uart, &config));
    IS(d.dll, 1);
    IS(d.sent_len, 0);
    IS(more.is_busy_detected, 0);
    OK(u16550_receive_bytes(&uart, bytes, sizeof bytes, &count));
    IS(count, 3);
    IS(memcmp(bytes, "abc", 3), 0);
    OK(u16550_design_ware_fault(&uart, &chip));
}

static void a_chip_that_stays_busy_is_told(void)
{
    start();
    more.busy = FOR_EVER;
    config.baud_rate = 115200;
    OK(u16550_set_frame(&uart, &config));
    IS(u16550_design_ware_fault(&uart, &chip), U16550_DESIGN_WARE_LINE_CONTROL);
    IS(d.dll, 12);
    IS(d.sent_len, 0);
    IS(d.registers[IER], 0);
    OK(u16550_enable_interrupts(&uart, U16550_IER_DATA_READY));
    IS(d.registers[IER], 0);
    more.busy = 0;
    OK(u16550_init(&uart, &config));
    OK(u16550_design_ware_fault(&uart, &chip));
    IS(d.dll, 1);
    IS(d.registers[IER], config.interrupts);
}

static void interrupts_of_its_own_end(void)
{
    static uint8_t memory[128];
    struct u16550_handled handled;
    start();
    OK(u16550_ring_new(&uart, memory, sizeof memory, 64, 64));
    more.is_busy_detected = 1;
    more.timeouts = 1;
    OK(u16550_ring_try_handle(&uart, 8, 2, &handled));
    IS(handled.served, 0);
    IS(handled.end, U16550_HANDLE_IDLE);
    IS(more.is_busy_detected, 0);
    IS(more.timeouts, 0);
    /* One that does not end is turned off. */
    more.timeouts = FOR_EVER;
    OK(u16550_ring_try_handle(&uart, 8, 2, &handled));
    IS(u16550_design_ware_fault(&uart, &chip), U16550_DESIGN_WARE_INTERRUPT);
    IS(d.registers[IER], 0);
}

/* Registers of 32 bits in memory: USR is the last of 32. */
static void in_memory(void)
{
    static uint32_t words[USR + 1];
    static const struct u16550_layout layout = { 4, 32, U16550_NATIVE_ENDIAN };
    new_chip();
    OK(u16550_new_mmio_design_ware(&uart, &chip, (uintptr_t)words, &layout, PATIENCE));
    OK(u16550_set_break(&uart, 1));
    IS(words[LCR], 0x40);
    words[USR] = 0xffffff01;
    OK(u16550_set_break(&uart, 0));
    IS(words[LCR], 0x40);
    IS(u16550_design_ware_fault(&uart, &chip), U16550_DESIGN_WARE_LINE_CONTROL);
    words[USR] = 0xffffff00;
    OK(u16550_set_break(&uart, 0));
    IS(words[LCR], 0);
    OK(u16550_design_ware_fault(&uart, &chip));
}

static void misuses(void)
{
    static struct u16550_design_ware other;
    static const struct u16550_io half = { NULL, chip_read, NULL };
    static const struct u16550_layout words = { 4, 32, 0 }, narrow = { 2, 32, 0 }, strange = { 4, 32, 3 };
    new_chip();
    IS(u16550_new_design_ware(NULL, &chip, &io, PATIENCE), U16550_NULL_POINTER);
    IS(u16550_new_design_ware(&uart, NULL, &io, PATIENCE), U16550_NULL_POINTER);
    IS(u16550_new_design_ware(&uart, &chip, NULL, PATIENCE), U16550_NULL_POINTER);
    IS(u16550_new_design_ware(&uart, &chip, &half, PATIENCE), U16550_NULL_POINTER);
    IS(u16550_new_design_ware(&uart, &chip, &io, 0), U16550_ZERO_LIMIT);
    IS(u16550_new_mmio_design_ware(&uart, &chip, 0, &words, PATIENCE), U16550_BAD_BASE);
    IS(u16550_new_mmio_design_ware(&uart, &chip, UINTPTR_MAX - 63, &words, PATIENCE), U16550_BAD_BASE);
    IS(u16550_new_mmio_design_ware(&uart, &chip, 0x1000, NULL, PATIENCE), U16550_NULL_POINTER);
    IS(u16550_new_mmio_design_ware(&uart, &chip, 0x1000, &narrow, PATIENCE), U16550_STRIDE_TOO_SMALL);
    IS(u16550_new_mmio_design_ware(&uart, &chip, 0x1002, &words, PATIENCE), U16550_MISALIGNED_BASE);
    IS(u16550_new_mmio_design_ware(&uart, &chip, 0x1000, &strange, PATIENCE), U16550_BAD_CODE);
    IS(u16550_new_mmio_design_ware(&uart, &chip, 0x1000, &words, 0), U16550_ZERO_LIMIT);
    IS(u16550_design_ware_fault(&uart, &chip), U16550_NOT_MADE);
    OK(u16550_new_design_ware(&uart, &chip, &io, PATIENCE));
    OK(u16550_design_ware_fault(&uart, &chip));
    IS(u16550_design_ware_fault(&uart, &other), U16550_NOT_MADE);
    IS(u16550_design_ware_fault(&uart, NULL), U16550_NULL_POINTER);
    IS(u16550_design_ware_fault(NULL, &chip), U16550_NULL_POINTER);
}

/* Last words over another driver, with a chip of its own, while the chip is busy with what the first one sent. */
static void last_words(void)
{
    static struct u16550 last;
    static struct u16550_design_ware last_chip;
    start();
    d.registers[LCR] |= DLAB;
    more.busy = 3;
    OK(u16550_new_design_ware(&last, &last_chip, &io, PATIENCE));
    OK(u16550_emergency(&last));
    OK(u16550_write_text(&last, "bye\n", 4, NULL));
    IS(d.sent_len, 5);
    IS(memcmp(d.sent, "bye\r\n", 5), 0);
}

int main(void)
{
    without_the_backend();
    a_busy_chip_is_set_up();
    a_chip_that_stays_busy_is_told();
    interrupts_of_its_own_end();
    in_memory();
    misuses();
    last_words();
    printf("%d compared, %d failed\n", compared, failed);
    return failed != 0;
}
