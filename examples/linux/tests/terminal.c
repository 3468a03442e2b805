/*
 * What uses a terminal in the guest, beside busybox: terminal COMMAND DEVICE [ARGUMENT..]
 *
 * transfer DEVICE SEND RECEIVE CRTSCTS [SEED]  sends and receives so many bytes at once, at 115,200 baud, and compares what comes; SEED is
 *                                        3 if another transfer sends, of which some may have come before
 * marks DEVICE COUNT IFLAG               prints so many bytes that come, in hexadecimal, and those that come soon after; IFLAG is octal
 * cycles DEVICE COUNT                    opens, sends one byte and closes, so many times
 * change DEVICE COUNT WAITS              sends 256 bytes and changes the rate, so many times; WAITS is 1 for TCSADRAIN
 * rates DEVICE                           sets rates, and prints what each has become
 * lines DEVICE CHANGE..                  changes outputs, as +rts or -dtr, and prints all lines after each
 * break DEVICE MILLISECONDS              sends a break
 * flow DEVICE BYTES                      sends with CRTSCTS until all is sent
 * loop DEVICE BYTES                      sends in the chip's loopback, and counts what comes
 * bus DEVICE BEFORE AFTER BYTES COUNT     sends so many messages at an RS-485 bus, with RTS on so many milliseconds before and behind each
 * cost DEVICE BYTES SIZE LOOP            sends in writes of this size, in the chip's loopback if LOOP is 1, and prints the time for a byte,
 *                                        without what the processor had left. Where an instruction takes a nanosecond, it counts them
 * find DEVICE                            lets the driver find out which chip this is
 * chip DEVICE TYPE IRQ                   sets the type of the chip, as linux/serial_core.h has it, and the interrupt; 0 is none
 * discipline DEVICE NUMBER               sets the line discipline, as 18 for kernel PPS, and keeps the port open until it is ended
 * set DEVICE NAME=NUMBER..               sets these of type, port, irq, flags, divisor and baud_base, as setserial does, and prints some
 *
 * A transfer ends when nothing has moved for ten seconds, and it has looked for something as often as it does in so long: while the machine
 * sleeps, or has no time for the emulator, it does not look. Each command says `ready` when the port is open, and prints one line at its end.
 */
#define _GNU_SOURCE
#include <asm/ioctls.h>
#include <asm/termbits.h>
#include <errno.h>
#include <fcntl.h>
#include <linux/serial.h>
#include <poll.h>
#include <sched.h>
#include <signal.h>
#include <stdint.h>
#include <stdio.h>
#include <stdlib.h>
#include <string.h>
#include <sys/ioctl.h>
#include <time.h>
#include <unistd.h>

enum { SENT = 3, RECEIVED = 9, PATIENCE = 10, RATE = 115200, FIFO = 16 };
/* How many milliseconds a look takes if there is nothing. */
enum { LOOK = 200, SHORT_LOOK = 50 };

/* Of the kernel, which has it in a header that does not go with these. */
enum { LOOP = 0x8000 };

/* Byte n of a stream: no short period, so that a byte that is missing or doubled shows. guest.py has the same. */
static uint8_t byte_of(uint32_t n, uint32_t seed)
{
    return (uint8_t)(n * 167 + (n >> 8) * 13 + (n >> 16) * 7 + seed);
}

static double now(void)
{
    struct timespec time;
    clock_gettime(CLOCK_MONOTONIC, &time);
    return time.tv_sec + time.tv_nsec / 1e9;
}

/* Since when nothing has come or gone, and how often it was looked since then. */
struct quiet {
    double since;
    uint32_t looks;
};

/* Something has moved. */
static void moved(struct quiet *quiet)
{
    quiet->since = now();
    quiet->looks = 0;
}

/* Looks again, and says whether that is worth it. A look takes so many milliseconds. */
static int goes_on(struct quiet *quiet, int look)
{
    return quiet->looks++ < (uint32_t)(PATIENCE * 1000 / look) || now() - quiet->since < PATIENCE;
}

static void fail(const char *what)
{
    perror(what);
    exit(2);
}

static int open_port(const char *device, int more)
{
    int port = open(device, O_RDWR | O_NOCTTY | more);
    if (port < 0)
        fail(device);
    return port;
}

static void set_rate(int port, unsigned long request, unsigned rate, unsigned iflag, unsigned cflag)
{
    struct termios2 termios = { 0 };
    if (ioctl(port, TCGETS2, &termios))
        fail("TCGETS2");
    termios.c_iflag = iflag;
    termios.c_oflag = termios.c_lflag = 0;
    termios.c_cflag = CREAD | CLOCAL | BOTHER | cflag;
    termios.c_ispeed = termios.c_ospeed = rate;
    termios.c_cc[VMIN] = termios.c_cc[VTIME] = 0;
    termios.c_cc[VSTART] = 17;
    termios.c_cc[VSTOP] = 19;
    if (ioctl(port, request, &termios))
        fail("TCSETS2");
}

static struct serial_icounter_struct before;

static void ready(int port)
{
    if (ioctl(port, TIOCGICOUNT, &before))
        fail("TIOCGICOUNT");
    puts("ready");
    fflush(stdout);
}

/* What the driver has counted since then. After a hangup nobody knows. */
static void print_counts(int port)
{
    struct serial_icounter_struct counts;
    if (ioctl(port, TIOCGICOUNT, &counts))
        puts("");
    else
        printf(", overruns %d, parity %d, frame %d, breaks %d, lost in the tty layer %d\n", counts.overrun - before.overrun,
               counts.parity - before.parity, counts.frame - before.frame, counts.brk - before.brk,
               counts.buf_overrun - before.buf_overrun);
}

static void transfer(int port, uint32_t send, uint32_t receive, int crtscts, uint32_t seed)
{
    static uint8_t out[4096], in[65536];
    uint32_t sent = 0, received = 0, wrong = 0, i;
    struct quiet quiet;

    set_rate(port, TCSETS2, RATE, 0, CS8 | (crtscts ? CRTSCTS : 0));
    if (seed == RECEIVED)
        ioctl(port, TCFLSH, 2);
    ready(port);
    for (moved(&quiet); (sent < send || received < receive) && goes_on(&quiet, LOOK);) {
        struct pollfd events = { port, (sent < send ? POLLOUT : 0) | (received < receive ? POLLIN : 0), 0 };
        ssize_t count;

        poll(&events, 1, LOOK);
        if (events.revents & POLLHUP) {
            printf("hangup, ");
            break;
        }
        if (events.revents & POLLIN && (count = read(port, in, sizeof in)) > 0) {
            for (i = 0; i < count; i++, received++)
                wrong += in[i] != byte_of(received, seed);
            moved(&quiet);
        }
        if (events.revents & POLLOUT) {
            uint32_t len = send - sent < sizeof out ? send - sent : sizeof out;
            for (i = 0; i < len; i++)
                out[i] = byte_of(sent + i, SENT);
            if ((count = write(port, out, len)) > 0) {
                sent += count;
                moved(&quiet);
            }
        }
    }
    if (sent == send)
        ioctl(port, TCSBRK, 1);
    printf("transfer: sent %u of %u, received %u of %u, wrong %u", sent, send, received, receive, wrong);
    print_counts(port);
}

static void marks(int port, int wanted, unsigned iflag)
{
    uint8_t bytes[256];
    struct quiet quiet;
    double end = 0;

    set_rate(port, TCSETS2, RATE, iflag, CS8);
    ready(port);
    printf("marks:");
    for (moved(&quiet); wanted > 0 ? goes_on(&quiet, SHORT_LOOK) : now() < end;) {
        struct pollfd events = { port, POLLIN, 0 };
        ssize_t count, i;

        poll(&events, 1, SHORT_LOOK);
        count = read(port, bytes, sizeof bytes);
        for (i = 0; i < count; i++) {
            printf(" %02x", bytes[i]);
            if (--wanted == 0)
                end = now() + 0.2;
        }
    }
    print_counts(port);
}

static void cycles(const char *device, int count)
{
    int i, wrong = 0;

    for (i = 0; i < count; i++) {
        int port = open_port(device, O_NONBLOCK);
        set_rate(port, TCSETS2, i & 1 ? 9600 : RATE, 0, CS8);
        wrong += write(port, "x", 1) != 1;
        close(port);
    }
    printf("cycles: %d, wrong %d\n", count, wrong);
}

static void change(int port, int count, int waits)
{
    uint8_t out[256];
    uint32_t sent = 0;
    int round;

    set_rate(port, TCSETS2, RATE, 0, CS8);
    ready(port);
    for (round = 0; round < count; round++) {
        uint32_t i;
        ssize_t len;
        for (i = 0; i < sizeof out; i++)
            out[i] = byte_of(sent + i, SENT);
        len = write(port, out, sizeof out);
        if (len < 0)
            fail("write");
        sent += len;
        set_rate(port, waits ? TCSETSW2 : TCSETS2, round & 1 ? RATE : RATE / 2, 0, CS8);
    }
    ioctl(port, TCSBRK, 1);
    printf("change: sent %u", sent);
    print_counts(port);
}

static void rates(int port)
{
    /* Those that are too fast or too slow follow one that is far from what they become. */
    static const unsigned wanted[] = { 50, 110, 134, 300, 9600, 31250, 38400, 57600, 74880, 100000, 115200,
                                       9600, 125000, 9600, 4000000, 9600, 1 };
    size_t i;

    ready(port);
    printf("rates:");
    for (i = 0; i < sizeof wanted / sizeof *wanted; i++) {
        struct termios2 termios = { 0 };
        set_rate(port, TCSETS2, wanted[i], 0, CS8);
        ioctl(port, TCGETS2, &termios);
        printf(" %u:%u", wanted[i], termios.c_ospeed);
    }
    puts("");
}

static void lines(int port, int count, char **changes)
{
    int i, all = 0;

    set_rate(port, TCSETS2, RATE, 0, CS8);
    ready(port);
    for (i = 0; i < count; i++) {
        int bits = strstr(changes[i], "rts") ? TIOCM_RTS : TIOCM_DTR;
        if (ioctl(port, changes[i][0] == '+' ? TIOCMBIS : TIOCMBIC, &bits) || ioctl(port, TIOCMGET, &all))
            fail("TIOCM");
        printf("%s: rts %d dtr %d cts %d dsr %d cd %d\n", changes[i], !!(all & TIOCM_RTS), !!(all & TIOCM_DTR), !!(all & TIOCM_CTS),
               !!(all & TIOCM_DSR), !!(all & TIOCM_CAR));
    }
}

static void send_break(int port, int milliseconds)
{
    set_rate(port, TCSETS2, RATE, 0, CS8);
    ready(port);
    ioctl(port, TIOCSBRK);
    usleep(milliseconds * 1000);
    ioctl(port, TIOCCBRK);
    puts("break: done");
}

static void flow(int port, uint32_t bytes)
{
    uint8_t out[256];
    uint32_t sent = 0, i;

    set_rate(port, TCSETS2, RATE, 0, CS8 | CRTSCTS);
    ready(port);
    while (sent < bytes) {
        ssize_t count;
        for (i = 0; i < sizeof out; i++)
            out[i] = byte_of(sent + i, SENT);
        count = write(port, out, bytes - sent < sizeof out ? bytes - sent : sizeof out);
        if (count < 0)
            fail("write");
        sent += count;
    }
    ioctl(port, TCSBRK, 1);
    printf("flow: sent %u\n", sent);
}

static void loop(int port, int bytes)
{
    uint8_t out[256], in[256];
    int bit = LOOP, sent = 0, came = 0;
    ssize_t count;
    double last;

    set_rate(port, TCSETS2, RATE, 0, CS8);
    if (ioctl(port, TIOCMBIS, &bit))
        fail("TIOCM_LOOP");
    ready(port);
    memset(out, 'l', sizeof out);
    for (last = now(); came < bytes && now() - last < 1;) {
        /* No more at once than a FIFO holds: on a busy machine a driver comes too late for what is sent meanwhile. */
        if (sent < bytes && came == sent && (count = write(port, out, bytes - sent < FIFO ? bytes - sent : FIFO)) > 0)
            sent += count;
        while ((count = read(port, in, sizeof in)) > 0) {
            came += count;
            last = now();
        }
        usleep(2000);
    }
    ioctl(port, TIOCMBIC, &bit);
    printf("loop: sent %d, came %d\n", sent, came);
}

static void bus(int port, int before_send, int after_send, int bytes, int count)
{
    struct serial_rs485 none = { 0 }, rs485 = {
        .flags = SER_RS485_ENABLED | SER_RS485_RTS_ON_SEND, .delay_rts_before_send = before_send, .delay_rts_after_send = after_send,
    };
    uint8_t out[4096];
    uint32_t sent = 0;
    int message, i;

    set_rate(port, TCSETS2, RATE, 0, CS8);
    if (ioctl(port, TIOCSRS485, &rs485))
        fail("TIOCSRS485");
    ready(port);
    for (message = 0; message < count; message++) {
        for (i = 0; i < bytes; i++, sent++)
            out[i] = byte_of(sent, SENT);
        if (write(port, out, bytes) != bytes)
            fail("write");
        ioctl(port, TCSBRK, 1);
        usleep(20000);
    }
    if (ioctl(port, TIOCGRS485, &rs485) || !(rs485.flags & SER_RS485_ENABLED) || ioctl(port, TIOCSRS485, &none))
        fail("TIOCGRS485");
    printf("bus: sent %u\n", sent);
}

static double time_of(clockid_t clock)
{
    struct timespec time;
    clock_gettime(clock, &time);
    return time.tv_sec * 1e9 + time.tv_nsec;
}

/* A program that takes what time nobody else wants. So a processor never sleeps, and what is left is what this one and the kernel took. */
static pid_t spin(void)
{
    static const struct sched_param none;
    pid_t spinner = fork();

    if (spinner)
        return spinner;
    sched_setscheduler(0, SCHED_IDLE, &none);
    for (;;)
        __asm__ volatile("");
}

static void cost(int port, int bytes, int size, int loops)
{
    static uint8_t out[4096], in[4096];
    int bit = LOOP, sent = 0, came = 0;
    pid_t spinner = spin();
    clockid_t spun;
    double began, taken;

    set_rate(port, TCSETS2, RATE, 0, CS8);
    if (loops && ioctl(port, TIOCMBIS, &bit))
        fail("TIOCM_LOOP");
    clock_getcpuclockid(spinner, &spun);
    began = time_of(CLOCK_MONOTONIC) - time_of(spun);
    while (sent < bytes) {
        ssize_t count = write(port, out, size);
        if (count < 0)
            fail("write");
        for (sent += count; loops && came < sent; came += count) {
            struct pollfd events = { port, POLLIN, 0 };
            if (poll(&events, 1, PATIENCE * 1000) <= 0 || (count = read(port, in, sizeof in)) < 0) {
                puts("cost: bytes are missing");
                exit(1);
            }
        }
    }
    ioctl(port, TCSBRK, 1);
    taken = time_of(CLOCK_MONOTONIC) - time_of(spun) - began;
    kill(spinner, SIGKILL);
    ioctl(port, TIOCMBIC, &bit);
    printf("cost: %.1f\n", taken / bytes);
}

static void set_chip(int port, int type, int irq)
{
    struct serial_struct serial;

    if (ioctl(port, TIOCGSERIAL, &serial))
        fail("TIOCGSERIAL");
    serial.type = type;
    serial.irq = irq;
    if (ioctl(port, TIOCSSERIAL, &serial))
        fail("TIOCSSERIAL");
    printf("chip: type %d, irq %d\n", type, irq);
}

static void keep_discipline(int port, int discipline)
{
    set_rate(port, TCSETS2, RATE, 0, CS8);
    if (ioctl(port, TIOCSETD, &discipline))
        fail("TIOCSETD");
    ready(port);
    pause();
}

/* Sets some fields of a port in one request, and prints what the port then has. */
static void set_fields(int port, int count, char **fields)
{
    struct serial_struct serial;
    int i, failed;

    if (ioctl(port, TIOCGSERIAL, &serial))
        fail("TIOCGSERIAL");
    for (i = 0; i < count; i++) {
        char *value = strchr(fields[i], '=');
        int number = value ? (int)strtol(value + 1, NULL, 0) : 0;

        if (value && !strncmp(fields[i], "type=", 5))
            serial.type = number;
        else if (value && !strncmp(fields[i], "port=", 5))
            serial.port = number;
        else if (value && !strncmp(fields[i], "irq=", 4))
            serial.irq = number;
        else if (value && !strncmp(fields[i], "flags=", 6))
            serial.flags = number;
        else if (value && !strncmp(fields[i], "divisor=", 8))
            serial.custom_divisor = number;
        else if (value && !strncmp(fields[i], "baud_base=", 10))
            serial.baud_base = number;
        else {
            fprintf(stderr, "terminal: no such field: %s\n", fields[i]);
            exit(1);
        }
    }
    failed = count && ioctl(port, TIOCSSERIAL, &serial);
    printf("set: %s, ", failed ? strerror(errno) : "done");
    if (ioctl(port, TIOCGSERIAL, &serial))
        fail("TIOCGSERIAL");
    printf("type %d, port %#x, irq %d\n", serial.type, serial.port, serial.irq);
}

int main(int count, char **words)
{
    const char *command = count > 2 ? words[1] : "";
    char **more = words + 3;

    if (!strcmp(command, "transfer") && (count == 6 || count == 7))
        transfer(open_port(words[2], O_NONBLOCK), atoi(more[0]), atoi(more[1]), atoi(more[2]), count == 7 ? atoi(more[3]) : RECEIVED);
    else if (!strcmp(command, "marks") && count == 5)
        marks(open_port(words[2], O_NONBLOCK), atoi(more[0]), strtoul(more[1], 0, 8));
    else if (!strcmp(command, "cycles") && count == 4)
        cycles(words[2], atoi(more[0]));
    else if (!strcmp(command, "change") && count == 5)
        change(open_port(words[2], 0), atoi(more[0]), atoi(more[1]));
    else if (!strcmp(command, "rates") && count == 3)
        rates(open_port(words[2], O_NONBLOCK));
    else if (!strcmp(command, "lines") && count > 3)
        lines(open_port(words[2], O_NONBLOCK), count - 3, more);
    else if (!strcmp(command, "break") && count == 4)
        send_break(open_port(words[2], O_NONBLOCK), atoi(more[0]));
    else if (!strcmp(command, "flow") && count == 4)
        flow(open_port(words[2], 0), atoi(more[0]));
    else if (!strcmp(command, "loop") && count == 4)
        loop(open_port(words[2], O_NONBLOCK), atoi(more[0]));
    else if (!strcmp(command, "bus") && count == 7)
        bus(open_port(words[2], 0), atoi(more[0]), atoi(more[1]), atoi(more[2]), atoi(more[3]));
    else if (!strcmp(command, "cost") && count == 6)
        cost(open_port(words[2], 0), atoi(more[0]), atoi(more[1]), atoi(more[2]));
    else if (!strcmp(command, "find") && count == 3)
        printf("find: %d\n", ioctl(open_port(words[2], O_NONBLOCK), TIOCSERCONFIG));
    else if (!strcmp(command, "chip") && count == 5)
        set_chip(open_port(words[2], O_NONBLOCK), atoi(more[0]), atoi(more[1]));
    else if (!strcmp(command, "discipline") && count == 4)
        keep_discipline(open_port(words[2], O_NONBLOCK), atoi(more[0]));
    else if (!strcmp(command, "set") && count >= 3)
        set_fields(open_port(words[2], O_NONBLOCK), count - 3, more);
    else {
        fprintf(stderr, "terminal: no such command\n");
        return 1;
    }
    return 0;
}
