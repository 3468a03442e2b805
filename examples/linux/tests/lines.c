/*
 * Gives a pseudo terminal modem lines, for QEMU's chardev `serial`: LD_PRELOAD=lines.so LINES=FILE qemu-system-x86_64 ..
 * The test and QEMU share the file: the test writes what comes in, and reads what goes out, how many breaks were sent, and when RTS was on.
 */
#define _GNU_SOURCE
#include <dlfcn.h>
#include <fcntl.h>
#include <stdarg.h>
#include <stdio.h>
#include <stdlib.h>
#include <sys/ioctl.h>
#include <sys/mman.h>
#include <sys/uio.h>
#include <termios.h>
#include <time.h>
#include <unistd.h>

struct lines {
    int in, out, breaks;
    int with_rts, without_rts; /* how many bytes went out while RTS was on, and while it was off */
    int before, behind;        /* how many milliseconds RTS was on before the first byte of a turn and behind the last, at least */
    int turns;
};

static int milliseconds(void)
{
    struct timespec time;

    clock_gettime(CLOCK_MONOTONIC, &time);
    return time.tv_sec % 100000 * 1000 + time.tv_nsec / 1000000;
}

/* When RTS was last switched on, and when the last byte went out; 0 if none has since then. */
static int began, last;

static struct lines *lines(void)
{
    static struct lines *shared;

    if (!shared) {
        int file = open(getenv("LINES"), O_RDWR);
        shared = mmap(NULL, sizeof *shared, PROT_READ | PROT_WRITE, MAP_SHARED, file, 0);
        if (shared == MAP_FAILED) {
            perror("lines.so");
            exit(1);
        }
    }
    return shared;
}

static void keep_least(int *least, int found)
{
    if (found < *least)
        *least = found;
}

/* What QEMU writes to the pseudo terminal. */
ssize_t writev(int file, const struct iovec *pieces, int count)
{
    static ssize_t (*real)(int, const struct iovec *, int);
    ssize_t written;

    if (!real)
        *(void **)&real = dlsym(RTLD_NEXT, "writev");
    written = real(file, pieces, count);
    if (written <= 0 || !isatty(file))
        return written;
    if (!last && lines()->out & TIOCM_RTS)
        keep_least(&lines()->before, milliseconds() - began);
    last = milliseconds();
    *(lines()->out & TIOCM_RTS ? &lines()->with_rts : &lines()->without_rts) += written;
    return written;
}

int ioctl(int file, unsigned long request, ...)
{
    static int (*real)(int, unsigned long, void *);
    va_list more;
    void *argument;

    va_start(more, request);
    argument = va_arg(more, void *);
    va_end(more);
    if (request == TIOCMGET) {
        *(int *)argument = (lines()->in & (TIOCM_CTS | TIOCM_CAR | TIOCM_DSR)) | (lines()->out & (TIOCM_RTS | TIOCM_DTR));
        return 0;
    }
    if (request == TIOCMSET) {
        int out = *(int *)argument, changed = out ^ lines()->out;

        if (changed & out & TIOCM_RTS) {
            began = milliseconds();
            last = 0;
            lines()->turns++;
        }
        if (changed & ~out & TIOCM_RTS && last)
            keep_least(&lines()->behind, milliseconds() - last);
        lines()->out = out;
        return 0;
    }
    if (!real)
        *(void **)&real = dlsym(RTLD_NEXT, "ioctl");
    return real(file, request, argument);
}

int tcsendbreak(int file, int duration)
{
    (void)file;
    (void)duration;
    lines()->breaks++;
    return 0;
}
