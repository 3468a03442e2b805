/* A port goes to another machine: it is saved as bytes, which a monitor in Rust reads too, and restored from them. */
#include "uart_16550_state.h"

#include <inttypes.h>
#include <stdio.h>

/* A port whose guest waits for characters, and has sent some that the host has not taken. */
static void be_busy(struct uart_port *port)
{
    struct uart_todo todo;

    uart_port_new(port, UART_16550A);
    uart_port_write(port, UART_OFFSET_FCR, UART_FCR_FIFO_ENABLE, &todo);
    uart_port_write(port, UART_OFFSET_IER, UART_IER_DATA_READY, &todo);
    uart_port_write(port, UART_OFFSET_SPR, 0x5a, &todo);
    for (const char *text = "out"; *text; text++)
        uart_port_write(port, UART_OFFSET_DATA, (uint8_t)*text, &todo);
    uart_port_receive(port, (const uint8_t *)"in", 2, &todo);
}

/* Saves a port: these bytes go into a file, or over a connection. */
static void save(const struct uart_port *port, uint8_t *bytes)
{
    struct uart_chip saved;

    uart_port_save(port, &saved);
    uart_chip_to_bytes(&saved, bytes);
}

/* Restores a port, and says whether that is possible. */
static int restore(struct uart_port *port, const uint8_t *bytes, size_t len, const char *what)
{
    struct uart_todo todo = { 0, 0, 0, 0, 0 };
    struct uart_chip saved;
    size_t detail;
    uint32_t status = uart_chip_from_bytes(&saved, bytes, len, &detail);

    printf("%s: ", what);
    if (status != UART_STATE_OK) {
        printf("refused, %" PRIu32 " with %zu\n", status, detail);
        return 0;
    }
    status = uart_port_load(port, &saved, &todo);
    printf("load %" PRIu32 ", signal %d, room %d, ready %zu\n", status, todo.signal, todo.has_room, todo.ready);
    return status == UART_OK;
}

/* Shows what the guest finds, and what the host still has to take. */
static void show(struct uart_port *port)
{
    struct uart_todo todo;
    uint8_t first = uart_port_read(port, UART_OFFSET_DATA, &todo);
    uint8_t second = uart_port_read(port, UART_OFFSET_DATA, &todo);

    printf("in %c%c, SPR %02x, ", first, second, uart_port_read(port, UART_OFFSET_SPR, &todo));
    printf("out %.*s\n", (int)todo.ready, (const char *)uart_port_output(port));
}

/* What is refused, and why. */
static void refuse(struct uart_port *port, uint8_t *bytes)
{
    restore(port, bytes, UART_STATE_LEN - 1, "cut short");
    bytes[6]++;
    restore(port, bytes, UART_STATE_LEN, "of a later version");
    bytes[6]--, bytes[22] = 2;
    restore(port, bytes, UART_STATE_LEN, "a flag that is 2");
    bytes[22] = 1, bytes[95] = 2;
    restore(port, bytes, UART_STATE_LEN, "a character takes two ticks");
    bytes[95] = 1, bytes[0] = 'U';
    restore(port, bytes, UART_STATE_LEN, "something else");
}

int main(void)
{
    struct uart_port port, other;
    uint8_t bytes[UART_STATE_LEN];

    be_busy(&port);
    save(&port, bytes);
    printf("%.6s, version %d, %d bytes\n", (const char *)bytes, bytes[6], UART_STATE_LEN);
    if (restore(&other, bytes, sizeof bytes, "restored"))
        show(&other);
    refuse(&other, bytes);
    return 0;
}
