/* A monitor's serial port over uart_port.c: a guest with interrupts, input that waits, a slow host, breaks, snapshots, and a clock. */
#include "uart_16550.h"

#include <inttypes.h>
#include <stdio.h>

enum { FIFO_ON = UART_FCR_FIFO_ENABLE | UART_FCR_RX_FIFO_RESET | UART_FCR_TX_FIFO_RESET };

/* What the rest of the monitor has for its serial port. */
struct host {
    const char *input; /* what is still to be typed */
    size_t takes;      /* how many bytes of output it takes at a time */
    unsigned signals;  /* how often it signalled the guest; a monitor writes to an eventfd */
    uint8_t line;      /* the level of the guest's interrupt line, for a controller that takes levels */
    unsigned rises;    /* how often that line rose, which is what a pin that detects edges sees */
};

struct serial {
    struct uart_port port;
    struct host host;
    struct uart_clock clock;
    int has_clock;     /* the monitor can count time */
    int time_is_set;   /* it does: a monitor sets a timer of four characters */
};

static void offer_input(struct serial *serial);

/* Sets the guest's interrupt line. A monitor over KVM calls the ioctl KVM_IRQ_LINE. */
static void set_line(struct host *host, uint8_t level)
{
    host->rises += level && !host->line;
    host->line = level;
}

/*
 * Does what a call asks for. A monitor needs either signal or level. If its input is in another thread, it wakes that thread where
 * this one offers input at once.
 */
static void obey(struct serial *serial, const struct uart_todo *todo)
{
    if (todo->signal) {
        serial->host.signals++;
        /* The line may have fallen and risen in this call. A pin that detects edges, as those of a PC do, sees that only so. */
        set_line(&serial->host, 0);
    }
    set_line(&serial->host, todo->level);
    if (todo->has_room)
        offer_input(serial);
}

static size_t length_of(const char *text)
{
    size_t len = 0;

    while (text[len])
        len++;
    return len;
}

/* The host has input, or goes on with what was put off. What there is no room for is told of by has_room, so it is not offered before. */
static void offer_input(struct serial *serial)
{
    const uint8_t *bytes = (const uint8_t *)serial->host.input;
    struct uart_todo todo;
    size_t count = uart_port_receive(&serial->port, bytes, length_of(serial->host.input), &todo);

    serial->host.input += count;
    uart_clock_after_host(&serial->clock, &todo);
    obey(serial, &todo);
}

/* The host can take output. A monitor writes to a file here, and takes as much as write() returned. */
static void give_output(struct serial *serial)
{
    struct uart_todo todo;
    size_t ready = uart_chip_wire_len(&serial->port.chip);
    size_t count = ready < serial->host.takes ? ready : serial->host.takes;

    for (size_t i = 0; i < count; i++)
        putchar(uart_port_output(&serial->port)[i]);
    uart_port_take_output(&serial->port, count, &todo);
    uart_clock_after_host(&serial->clock, &todo);
    obey(serial, &todo);
}

/* The guest's accesses: what a monitor calls at an exit. */
static uint8_t guest_reads(struct serial *serial, uint8_t offset)
{
    struct uart_todo todo;
    uint8_t value = uart_port_read(&serial->port, offset, &todo);

    if (serial->has_clock && uart_clock_after_read(&serial->clock, offset, &todo))
        serial->time_is_set = 1;
    obey(serial, &todo);
    return value;
}

static void guest_writes(struct serial *serial, uint8_t offset, uint8_t value)
{
    struct uart_todo todo;

    uart_port_write(&serial->port, offset, value, &todo);
    if (serial->has_clock && uart_clock_after_write(&serial->clock, offset, &todo))
        serial->time_is_set = 1;
    obey(serial, &todo);
    if (todo.ready > 0)
        give_output(serial);
}

/* The monitor's timer ran out. */
static void time_passes(struct serial *serial)
{
    serial->time_is_set = 0;
    if (uart_clock_pass_time(&serial->clock))
        serial->host.signals++;
}

/* Says what the monitor did since the last time. */
static void tell(struct serial *serial, const char *what)
{
    printf("%s: signals %u, rises %u, line %d, ready %zu\n", what, serial->host.signals, serial->host.rises, serial->host.line,
           uart_chip_wire_len(&serial->port.chip));
    serial->host.signals = serial->host.rises = 0;
}

/* The guest's handler: it reads ISR first, and what waits as long as LSR says that something does. */
static void handle(struct serial *serial)
{
    uint8_t isr = guest_reads(serial, UART_OFFSET_ISR);

    printf("handler: ISR %02x, in \"", isr);
    while (guest_reads(serial, UART_OFFSET_LSR) & UART_LSR_DATA_READY)
        putchar(guest_reads(serial, UART_OFFSET_DATA));
    printf("\"\n");
}

/* The guest sends as long as LSR shows an empty THR. Returns how many bytes that were. */
static size_t guest_sends(struct serial *serial, const char *text)
{
    size_t count = 0;

    while (text[count] && guest_reads(serial, UART_OFFSET_LSR) & UART_LSR_THR_EMPTY)
        guest_writes(serial, UART_OFFSET_DATA, (uint8_t)text[count++]);
    return count;
}

/* Input that was typed before the guest has a driver is not lost, and not forgotten. */
static void type_before_boot(struct serial *serial)
{
    serial->host.input = "typed before boot, and more than a FIFO has room for";
    offer_input(serial);
    tell(serial, "typed before boot");
    printf("waiting %zu, put off %zu\n", uart_chip_waiting_len(&serial->port.chip), length_of(serial->host.input));
    guest_writes(serial, UART_OFFSET_FCR, FIFO_ON);
    guest_writes(serial, UART_OFFSET_IER, UART_IER_DATA_READY);
    tell(serial, "the guest is ready");
    handle(serial);
    tell(serial, "handled");
}

/* A host that takes little holds the guest back, and loses nothing. */
static void be_slow(struct serial *serial)
{
    static const char text[] = "0123456789abcdefghijklmnopqrstuvwxyzABCDEFGHIJKLMNOPQRSTUVWXYZ-+0123456789";
    size_t sent;

    serial->host.takes = 0;
    sent = guest_sends(serial, text);
    printf("sent %zu of %zu, LSR %02x\n", sent, length_of(text), guest_reads(serial, UART_OFFSET_LSR));
    guest_writes(serial, UART_OFFSET_IER, UART_IER_THR_EMPTY);
    tell(serial, "nothing is taken");
    serial->host.takes = 60;
    give_output(serial);
    printf("\n");
    tell(serial, "the host takes 60");
    serial->host.takes = UART_WIRE_ROOM;
    sent += guest_sends(serial, text + sent);
    printf("\nsent %zu of %zu\n", sent, length_of(text));
    tell(serial, "the host takes all");
}

/* A break, an overrun, modem lines, and bits that there are not. */
static void bring_errors(struct serial *serial)
{
    struct uart_todo todo;
    uint8_t status;

    guest_writes(serial, UART_OFFSET_IER, UART_IER_RECEIVER_LINE_STATUS | UART_IER_MODEM_STATUS);
    guest_writes(serial, UART_OFFSET_FCR, 0);
    serial->host.signals = serial->host.rises = 0;
    printf("break: %" PRIu32 "\n", uart_port_receive_one(&serial->port, 0, UART_LSR_BREAK_INTERRUPT, &todo));
    obey(serial, &todo);
    printf("no room: %" PRIu32 "\n", uart_port_receive_one(&serial->port, 'x', 0, &todo));
    obey(serial, &todo);
    tell(serial, "a break and an overrun");
    status = guest_reads(serial, UART_OFFSET_LSR);
    printf("LSR %02x, DATA %02x\n", status, guest_reads(serial, UART_OFFSET_DATA));
    printf("lines: %" PRIu32 "\n", uart_port_set_lines(&serial->port, UART_MSR_CTS | UART_MSR_DSR, &todo));
    obey(serial, &todo);
    tell(serial, "CTS and DSR");
    printf("MSR %02x\n", guest_reads(serial, UART_OFFSET_MSR));
    printf("other bits: %" PRIu32, uart_port_receive_one(&serial->port, 'x', UART_LSR_OVERRUN_ERROR, &todo));
    printf(" and %" PRIu32 "\n", uart_port_set_lines(&serial->port, UART_MSR_DELTA_CTS, &todo));
}

/* Says whether the data are those of a port, and what its monitor has to do. */
static void load(const char *what, const struct uart_chip *saved)
{
    struct uart_todo todo = { 0, 0, 0, 0, 0 };
    struct uart_port port;
    uint32_t status;

    uart_port_new(&port, UART_16450);
    status = uart_port_load(&port, saved, &todo);
    printf("%s: load %" PRIu32 ", signal %d, level %d, room %d, ready %zu\n", what, status, todo.signal, todo.level,
           todo.has_room, todo.ready);
}

/* A port is saved and restored, and what no port can be is refused. */
static void save(struct serial *serial)
{
    struct uart_chip saved, other;
    struct uart_todo todo;

    guest_writes(serial, UART_OFFSET_FCR, FIFO_ON);
    guest_writes(serial, UART_OFFSET_IER, UART_IER_DATA_READY);
    serial->host.takes = 0;
    guest_writes(serial, UART_OFFSET_DATA, '!');
    uart_port_receive(&serial->port, (const uint8_t *)"abc", 3, &todo);
    obey(serial, &todo);
    uart_port_save(&serial->port, &saved);
    load("saved", &saved);
    other = saved;
    other.transmitter.char_ticks = 2, other.receiver.timeout_limit = other.receiver.timeout_ticks = 8;
    load("a character takes two ticks", &other);
    other = saved;
    other.receiver.timeout_ticks = 0;
    load("a timeout is left to happen", &other);
    other = saved;
    other.transmitter.queue.len = 1;
    load("a byte could go on", &other);
    other = saved;
    other.latches.ier = UART_IER_DMA_TX_END;
    load("no sound chip", &other);
    uart_port_load(&serial->port, &saved, &todo);
    serial->host.line = todo.level;
    handle(serial);
    printf("line %d and %d\n", serial->host.line, uart_port_level(&serial->port));
}

/* A handler that leaves early is called again, and one that goes on is not interrupted for nothing. */
static void count_time(struct serial *serial)
{
    static const char text[] = "sixteen bytes...";

    guest_writes(serial, UART_OFFSET_FCR, FIFO_ON | 0x80); /* trigger level 8 */
    guest_writes(serial, UART_OFFSET_IER, UART_IER_DATA_READY);
    serial->host.input = "twelve bytes";
    offer_input(serial);
    guest_reads(serial, UART_OFFSET_ISR);
    for (unsigned i = 0; i < 8; i++)
        putchar(guest_reads(serial, UART_OFFSET_DATA));
    printf("\ntime is set: %d\n", serial->time_is_set);
    tell(serial, "it left early");
    time_passes(serial);
    tell(serial, "time passed");
    handle(serial);
    guest_writes(serial, UART_OFFSET_IER, UART_IER_THR_EMPTY);
    tell(serial, "it wants to send");
    printf("ISR %02x\n", guest_reads(serial, UART_OFFSET_ISR));
    guest_sends(serial, text);
    printf("\ntime is set: %d\n", serial->time_is_set);
    guest_writes(serial, UART_OFFSET_IER, 0);
    time_passes(serial);
    tell(serial, "it has sent all");
}

static void use_a_clock(struct serial *serial)
{
    for (int has_clock = 0; has_clock <= 1; has_clock++) {
        uart_port_new(&serial->port, UART_16550A);
        serial->clock = (struct uart_clock){ 0 };
        serial->has_clock = has_clock;
        serial->time_is_set = 0;
        serial->host.takes = UART_WIRE_ROOM;
        serial->host.signals = serial->host.rises = serial->host.line = 0;
        printf("%s a clock\n", has_clock ? "with" : "without");
        count_time(serial);
    }
}

/* Any bytes at all are legal. */
static void survive(struct uart_port *port)
{
    unsigned char *bytes = (unsigned char *)port;
    struct uart_clock clock = { 255 };
    struct uart_todo todo;
    uint8_t text[3] = { 1, 2, 3 };

    for (size_t i = 0; i < sizeof *port; i++)
        bytes[i] = (unsigned char)(i * 167 + 255);
    for (unsigned i = 0; i < 1000; i++) {
        uart_port_write(port, (uint8_t)i, (uint8_t)(i * 7), &todo);
        uart_clock_after_write(&clock, (uint8_t)i, &todo);
        uart_port_read(port, (uint8_t)(i * 3), &todo);
        uart_clock_after_read(&clock, (uint8_t)(i * 3), &todo);
        uart_port_receive(port, text, sizeof text, &todo);
        uart_port_receive_one(port, (uint8_t)i, UART_LSR_PARITY_ERROR, &todo);
        uart_port_set_lines(port, (uint8_t)(i & UART_MSR_LINES), &todo);
        uart_port_take_output(port, i % 5, &todo);
    }
    printf("any bytes: level %s\n", uart_port_level(port) == todo.level ? "as it was told" : "not as it was told");
}

int main(void)
{
    static struct serial serial;
    size_t sent;

    uart_port_new(&serial.port, UART_16550A);
    serial.host.takes = UART_WIRE_ROOM;
    serial.host.input = "";
    sent = guest_sends(&serial, "Hello from a guest");
    printf("\nsent %zu\n", sent);
    tell(&serial, "hello");
    type_before_boot(&serial);
    be_slow(&serial);
    bring_errors(&serial);
    save(&serial);
    use_a_clock(&serial);
    survive(&serial.port);
    return 0;
}
