/* Chips and ports with FIFOs of more than 16 characters: how often a guest is called, what is refused, and such a chip as bytes. */
#include "uart_16550_state.h"

#include <inttypes.h>
#include <stdio.h>
#include <string.h>

enum { FIFO_ON = UART_FCR_FIFO_ENABLE | UART_FCR_RX_FIFO_TRIGGER_LEVEL };

/* How often the monitor signals its guest. */
static unsigned signals;

static void guest_writes(struct uart_port *port, uint8_t offset, uint8_t value)
{
    struct uart_todo todo;

    uart_port_write(port, offset, value, &todo);
    signals += todo.signal;
}

static uint8_t guest_reads(struct uart_port *port, uint8_t offset)
{
    struct uart_todo todo;
    uint8_t value = uart_port_read(port, offset, &todo);

    signals += todo.signal;
    return value;
}

/* Returns how often the guest was signalled since the last time. */
static unsigned signalled(void)
{
    unsigned count = signals;

    signals = 0;
    return count;
}

/* The host takes all output. Returns how many bytes that were. */
static size_t take_output(struct uart_port *port)
{
    struct uart_todo todo;
    size_t ready = uart_chip_wire_len(&port->chip);

    uart_port_take_output(port, ready, &todo);
    signals += todo.signal;
    return ready;
}

/* The guest is in its handler, since THR is empty: it looks once, and writes as many bytes as a FIFO holds. */
static void send_burst(struct uart_port *port, uint8_t fifo_size)
{
    size_t sent = 0;

    guest_writes(port, UART_OFFSET_IER, UART_IER_THR_EMPTY);
    printf("  THR is empty: signals %u, ", signalled());
    printf("ISR %02x\n", guest_reads(port, UART_OFFSET_ISR));
    for (unsigned i = 0; i < fifo_size; i++) {
        guest_writes(port, UART_OFFSET_DATA, (uint8_t)i);
        sent += take_output(port);
    }
    printf("  a burst of %u: signals %u, out %zu\n", fifo_size, signalled(), sent);
    guest_reads(port, UART_OFFSET_ISR);
    guest_writes(port, UART_OFFSET_IER, 0);
    signalled();
}

/* The host has more input than there is room for, and the guest reads it in its handler. */
static void receive(struct uart_port *port)
{
    uint8_t bytes[200], wrong = 0, value;
    struct uart_todo todo;
    size_t count, read = 0;

    for (unsigned i = 0; i < sizeof bytes; i++)
        bytes[i] = (uint8_t)i;
    guest_writes(port, UART_OFFSET_IER, UART_IER_DATA_READY);
    printf("  room %zu, ", uart_chip_receive_room(&port->chip));
    count = uart_port_receive(port, bytes, sizeof bytes, &todo);
    signals += todo.signal;
    printf("received %zu, room %zu, ", count, uart_chip_receive_room(&port->chip));
    printf("ISR %02x, ", guest_reads(port, UART_OFFSET_ISR));
    for (; guest_reads(port, UART_OFFSET_LSR) & UART_LSR_DATA_READY; read++) {
        value = guest_reads(port, UART_OFFSET_DATA);
        wrong |= (uint8_t)(value ^ read);
    }
    printf("read %zu%s: signals %u\n", read, wrong ? " of others" : "", signalled());
}

static void use(uint8_t fifo_size)
{
    struct uart_port port;

    printf("FIFOs of %u: new %" PRIu32 "\n", fifo_size, uart_port_new_sized(&port, UART_16550A, fifo_size));
    guest_writes(&port, UART_OFFSET_FCR, FIFO_ON);
    send_burst(&port, fifo_size);
    receive(&port);
}

/* A chip that cannot be made, and data that are no chip. What is refused changes nothing. */
static void refuse(void)
{
    struct uart_port port, before;
    struct uart_chip chip, other;
    static const uint8_t numbers[] = { 0, 1, 15, 17, 20, 48, 127, 129, 255 };

    memset(&port, 0x5a, sizeof port);
    before = port;
    printf("refused:");
    for (size_t i = 0; i < sizeof numbers; i++) {
        printf(" %" PRIu32, uart_port_new_sized(&port, UART_16550A, numbers[i]));
        printf(" %" PRIu32, uart_chip_new_sized(&port.chip, UART_16550A, numbers[i], 0, 255, UART_CUT));
    }
    printf("%s\n", memcmp(&port, &before, sizeof port) ? ", and something changed" : "");
    printf("bad ticks: %" PRIu32 ", ", uart_chip_new_sized(&port.chip, UART_16550A, 64, 0, 64, UART_CUT));
    printf("bad wire: %" PRIu32 "\n", uart_chip_new_sized(&port.chip, UART_16550A, 64, 1, 65, UART_CUT));

    uart_chip_new_sized(&chip, UART_16550A, 64, 1, 64, UART_CUT);
    other = chip;
    other.receiver.fifo_size = 32;
    printf("two sizes: load %" PRIu32 "\n", uart_chip_load(&chip, &other));
    other.receiver.fifo_size = 64;
    printf("one size: load %" PRIu32 "\n", uart_chip_load(&chip, &other));
}

/* A struct of zeros has FIFOs of 16, as one of before FIFOs had sizes, and so has one with a number that is no size. */
static void be_of_16(void)
{
    static struct uart_chip zeros;
    struct uart_chip saved;

    zeros.model = zeros.fifo = 1;
    printf("zeros: room %zu", uart_chip_receive_room(&zeros));
    zeros.receiver.fifo_size = zeros.transmitter.fifo_size = 20;
    printf(", with 20 room %zu", uart_chip_receive_room(&zeros));
    uart_chip_save(&zeros, &saved);
    printf(", saved as one of %u and %u\n", saved.receiver.fifo_size, saved.transmitter.fifo_size);
}

/* Reads a state, and says what that came to. */
static void read_state(const char *what, const uint8_t *bytes, size_t len)
{
    struct uart_chip chip, saved;
    uint8_t data[2];
    size_t detail, waiting, held;
    uint32_t status = uart_chip_from_bytes(&saved, bytes, len, &detail);

    printf("%s: %" PRIu32 " with %zu", what, status, detail);
    if (status == UART_STATE_OK) {
        status = uart_chip_load(&chip, &saved);
        waiting = uart_chip_waiting_len(&chip);
        held = uart_chip_held_len(&chip);
        for (size_t i = 0; i < waiting; i++)
            data[i + 1 == waiting] = uart_chip_read(&chip, UART_OFFSET_DATA);
        printf(", load %" PRIu32 ", FIFOs of %u, waiting %zu, the last %02x, held %zu", status, chip.receiver.fifo_size, waiting, data[1], held);
    }
    printf("\n");
}

/* A chip of 64 with 40 characters and 50 bytes as bytes, and back. */
static void be_bytes(void)
{
    uint8_t bytes[UART_STATE_MOST];
    struct uart_chip chip;
    size_t len;

    uart_chip_new_sized(&chip, UART_16550A, 64, 1, 64, UART_WHOLE_BYTES);
    uart_chip_write(&chip, UART_OFFSET_FCR, FIFO_ON);
    for (uint8_t i = 0; i < 40; i++)
        uart_chip_arrive(&chip, (uint8_t)(0x80 + i), i == 30 ? UART_LSR_PARITY_ERROR : 0);
    for (uint8_t i = 0; i < 50; i++)
        uart_chip_write(&chip, UART_OFFSET_DATA, i);
    printf("as one of 16: %" PRIu32 "\n", uart_chip_to_bytes(&chip, bytes));
    read_state("read", bytes, UART_STATE_LEN);
    len = uart_chip_to_bytes_sized(&chip, bytes, sizeof bytes);
    printf("with room: %zu, with less: %zu\n", len, uart_chip_to_bytes_sized(&chip, bytes, len - 1));
    read_state("read", bytes, len);
    read_state("cut short", bytes, len - 1);
    bytes[UART_STATE_LEN + 4] = 63;
    read_state("of 63", bytes, len);
    bytes[UART_STATE_LEN + 4] = 128;
    read_state("of 128", bytes, len);
    bytes[UART_STATE_LEN + 4] = 64, bytes[34] = 15, bytes[50] = 0;
    read_state("more behind fewer than 16", bytes, len);
    bytes[34] = 16, bytes[UART_STATE_LEN] = 4;
    read_state("a part of a later release", bytes, len);
}

int main(void)
{
    use(16);
    use(32);
    use(64);
    use(128);
    refuse();
    be_of_16();
    be_bytes();
    return 0;
}
