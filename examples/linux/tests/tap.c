/*
 * Tells what comes to a serial port of QEMU from outside, beside QEMU's own trace: LD_PRELOAD=tap.so TAP=FILE qemu-system-x86_64 ..
 * The chardevs are pseudo terminals. The file is shared with who records, and has a part for each of them: its path, the modem lines that
 * come in, those that go out, and how many breaks were sent. QEMU hands a port what it reads at once, so that a line about a character is
 * in the trace before every access that may see it.
 */
#define _GNU_SOURCE
#include <dlfcn.h>
#include <fcntl.h>
#include <stdarg.h>
#include <stdio.h>
#include <stdlib.h>
#include <string.h>
#include <sys/ioctl.h>
#include <sys/mman.h>
#include <sys/time.h>
#include <sys/uio.h>
#include <termios.h>
#include <unistd.h>

enum { PORTS = 2, FILES = 1024 };

struct port {
    char path[64];
    int in, out, breaks, told;
};

static struct port *ports(void)
{
    static struct port *shared;

    if (!shared) {
        int file = open(getenv("TAP"), O_RDWR);
        shared = mmap(NULL, PORTS * sizeof *shared, PROT_READ | PROT_WRITE, MAP_SHARED, file, 0);
        if (shared == MAP_FAILED) {
            perror("tap.so");
            exit(1);
        }
    }
    return shared;
}

/* The port of a file. A file that is none is asked once. */
static struct port *port_of(int file)
{
    static char known[FILES];
    char name[64], path[64];
    ssize_t length;
    int i;

    if (file < 0 || file >= FILES || known[file] == -1)
        return NULL;
    if (!known[file]) {
        known[file] = -1;
        snprintf(name, sizeof name, "/proc/self/fd/%d", file);
        length = readlink(name, path, sizeof path - 1);
        if (length < 0)
            return NULL;
        path[length] = 0;
        for (i = 0; i < PORTS; i++)
            if (!strcmp(path, ports()[i].path))
                known[file] = i + 1;
    }
    return known[file] > 0 ? &ports()[known[file] - 1] : NULL;
}

/* A line of the form of QEMU's trace. */
static void tell(const struct port *port, const char *event, unsigned value)
{
    char line[128];
    struct timeval time;
    int length;

    gettimeofday(&time, NULL);
    length = snprintf(line, sizeof line, "%d@%ld.%06ld:tap_%s %d 0x%02x\n", (int)getpid(), (long)time.tv_sec, (long)time.tv_usec, event,
                      (int)(port - ports()), value);
    if (write(2, line, length) != length)
        abort();
}

ssize_t readv(int file, const struct iovec *pieces, int count)
{
    static ssize_t (*real)(int, const struct iovec *, int);
    struct port *port = port_of(file);
    ssize_t length, left;
    int i;

    if (!real)
        *(void **)&real = dlsym(RTLD_NEXT, "readv");
    length = left = real(file, pieces, count);
    for (i = 0; port && left > 0; i++) {
        const unsigned char *bytes = pieces[i].iov_base;
        size_t n;
        for (n = 0; n < pieces[i].iov_len && left > 0; n++, left--)
            tell(port, "arrived", bytes[n]);
    }
    return length;
}

int ioctl(int file, unsigned long request, ...)
{
    static int (*real)(int, unsigned long, void *);
    struct port *port = port_of(file);
    va_list more;
    void *argument;

    va_start(more, request);
    argument = va_arg(more, void *);
    va_end(more);
    if (port && request == TIOCMGET) {
        int in = port->in & (TIOCM_CTS | TIOCM_CAR | TIOCM_DSR);
        if (in != port->told) {
            port->told = in;
            tell(port, "lines", (in & TIOCM_CTS ? 0x10 : 0) | (in & TIOCM_DSR ? 0x20 : 0) | (in & TIOCM_CAR ? 0x80 : 0));
        }
        *(int *)argument = in | (port->out & (TIOCM_RTS | TIOCM_DTR));
        return 0;
    }
    if (port && request == TIOCMSET) {
        port->out = *(int *)argument;
        return 0;
    }
    if (!real)
        *(void **)&real = dlsym(RTLD_NEXT, "ioctl");
    return real(file, request, argument);
}

int tcsendbreak(int file, int duration)
{
    struct port *port = port_of(file);

    (void)duration;
    if (port)
        port->breaks++;
    return 0;
}
