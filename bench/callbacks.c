/*
 * callbacks.c - calls the driver in C with callbacks, for tools/c/measure to count.
 *
 * usage: callbacks BODY COUNT
 *
 * Makes one call of a body with COUNT bytes, or COUNT calls of a body that has none. The device is eight cells of memory whose
 * transmitter is always empty and whose receiver always has a byte.
 */
#include <stdio.h>
#include <stdlib.h>
#include <string.h>

#include "u16550.h"

enum { ISR = 2, LSR = 5, NO_INTERRUPT = 0xc1, MOST = 1 << 17, RING = 4096 };

static volatile uint8_t cells[8];
static uint8_t bytes[MOST], rings[2 * RING];
static struct u16550 uart;
static struct u16550_config config;

static uint8_t load(void *context, uintptr_t offset)
{
    (void)context;
    return cells[offset];
}

static void store(void *context, uintptr_t offset, uint8_t value)
{
    (void)context;
    if (offset != LSR && offset != ISR)
        cells[offset] = value;
}

static int init(size_t count)
{
    int status = U16550_OK;
    while (count-- > 0 && status == U16550_OK)
        status = u16550_init(&uart, &config);
    return status;
}

static int lsr(size_t count)
{
    int status = U16550_OK;
    uint8_t value;
    while (count-- > 0 && status == U16550_OK)
        status = u16550_lsr(&uart, &value);
    return status;
}

static int service(size_t count)
{
    int status = u16550_ring_new(&uart, rings, sizeof rings, RING, RING);
    size_t served;
    while (count-- > 0 && status == U16550_OK)
        status = u16550_ring_service(&uart, &served);
    return status;
}

static int handle(size_t count)
{
    int status = u16550_ring_new(&uart, rings, sizeof rings, RING, RING);
    struct u16550_handled handled;
    while (count-- > 0 && status == U16550_OK)
        status = u16550_ring_try_handle(&uart, 8, 100, &handled);
    return status;
}

static int try_send(size_t count)
{
    int status = U16550_OK;
    while (count-- > 0 && status == U16550_OK)
        status = u16550_try_send_byte(&uart, 'a');
    return status;
}

static int try_receive(size_t count)
{
    int status = U16550_OK;
    uint8_t byte;
    while (count-- > 0 && status == U16550_OK)
        status = u16550_try_receive_byte(&uart, &byte);
    return status;
}

static int send(size_t count)
{
    return u16550_send_bytes_exact(&uart, bytes, count, NULL);
}

static int receive(size_t count)
{
    return u16550_receive_bytes_exact(&uart, bytes, count, NULL);
}

int main(int argc, char **argv)
{
    const char *body = argc == 3 ? argv[1] : "";
    size_t count = argc == 3 ? strtoul(argv[2], NULL, 10) : 0;
    struct u16550_io io = { NULL, load, store };
    int status = count > MOST || u16550_new(&uart, &io) || u16550_default_config(&config);

    cells[LSR] = U16550_LSR_THR_EMPTY | U16550_LSR_TRANSMITTER_EMPTY | U16550_LSR_DATA_READY;
    cells[ISR] = NO_INTERRUPT;
    if (!strcmp(body, "send-without-fifo"))
        config.fifo_trigger_level = 0;
    status = status || u16550_init(&uart, &config);
    if (!strcmp(body, "send") || !strcmp(body, "send-without-fifo"))
        status = status || send(count);
    else if (!strcmp(body, "receive"))
        status = status || receive(count);
    else if (!strcmp(body, "init"))
        status = status || init(count);
    else if (!strcmp(body, "lsr"))
        status = status || lsr(count);
    else if (!strcmp(body, "service"))
        status = status || service(count);
    else if (!strcmp(body, "handle"))
        status = status || handle(count);
    else if (!strcmp(body, "try_send"))
        status = status || try_send(count);
    else if (!strcmp(body, "try_receive"))
        status = status || try_receive(count);
    else
        status = 1;
    if (status)
        fprintf(stderr, "usage: callbacks BODY COUNT\n");
    return status;
}
