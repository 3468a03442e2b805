/*
 * A virtual machine monitor over KVM, whose serial port is uart_port.c. It boots Linux, with the port as the console:
 *
 *     monitor KERNEL INITRAMFS COMMAND-LINE
 *
 * What the guest prints goes to standard output, and standard input is what is typed. It ends with 0 when the guest has reset its machine.
 *
 * The main thread is the guest's processor, and another one waits for the host: for input, for room in the output, and for what the first
 * one tells. Both use the port with a lock taken. Neither waits for anything else meanwhile, so a host that takes no output stops no
 * processor.
 */
#define _GNU_SOURCE
#include <errno.h>
#include <fcntl.h>
#include <linux/kvm.h>
#include <poll.h>
#include <pthread.h>
#include <stdbool.h>
#include <stdint.h>
#include <stdio.h>
#include <stdlib.h>
#include <string.h>
#include <sys/eventfd.h>
#include <sys/ioctl.h>
#include <sys/mman.h>
#include <sys/stat.h>
#include <unistd.h>

#include "uart_port.h"

/* The machine: its memory, from address 0 on, and where things lie in it. */
#define MEMORY_SIZE 0x10000000u
#define DESCRIPTORS 0x500u
#define BOOT_PARAMETERS 0x7000u
#define PAGE_TABLES 0x9000u
#define COMMAND_LINE 0x20000u
#define LOW_END 0x9fc00u
#define KERNEL 0x100000u
#define PAGE_SIZE 0x1000u

/* COM1, and the port of a PC's clock, which is not there. */
#define SERIAL_BASE 0x3f8u
#define SERIAL_LINE 4u
#define CLOCK_DATA 0x71u

/* Where KVM keeps pages for Intel's processors. It is above all memory. */
#define TASK_STATE 0xfffbd000u

static uint8_t *memory;
static struct uart_port port;
static pthread_mutex_t lock = PTHREAD_MUTEX_INITIALIZER;

/* With the lock: how much output is ready, and whether the guest has ended. */
static size_t ready;
static bool has_ended;

/* Each signal of the first is an edge of the guest's interrupt line. The second wakes the host's thread. */
static int interrupt, news;

/* Ends the monitor with what could not be done, and why. */
__attribute__((noreturn)) static void fail(const char *what)
{
    fprintf(stderr, "monitor: %s: %s\n", what, errno ? strerror(errno) : "this is none");
    exit(2);
}

static int checked(int result, const char *what)
{
    if (result < 0)
        fail(what);
    return result;
}

static void signal_event(int event)
{
    uint64_t one = 1;
    if (write(event, &one, sizeof one) != sizeof one)
        fail("a signal of an event");
}

/* ---- the port */

/* Does what the port asks for, after each call. The lock is taken. */
static void obey(const struct uart_todo *todo)
{
    bool is_news = todo->has_room || (ready == 0 && todo->ready > 0);
    ready = todo->ready;
    if (todo->signal)
        signal_event(interrupt);
    if (is_news)
        signal_event(news);
}

static uint8_t read_serial(uint8_t offset)
{
    struct uart_todo todo;
    uint8_t value;
    pthread_mutex_lock(&lock);
    value = uart_port_read(&port, offset, &todo);
    obey(&todo);
    pthread_mutex_unlock(&lock);
    return value;
}

static void write_serial(uint8_t offset, uint8_t value)
{
    struct uart_todo todo;
    pthread_mutex_lock(&lock);
    uart_port_write(&port, offset, value, &todo);
    obey(&todo);
    pthread_mutex_unlock(&lock);
}

/*
 * Has the port begin as firmware leaves it. There is none here, and a kernel that takes over the baud rate it finds, as Linux does with
 * console=uart8250,io,0x3f8, divides by the divisor, which is 0 in a chip after power-on.
 */
static void set_as_firmware(void)
{
    enum { DIVISOR_OF_9600 = 12 };
    write_serial(UART_OFFSET_LCR, UART_LCR_DLAB | UART_LCR_WORD_LENGTH);
    write_serial(UART_OFFSET_DLL, DIVISOR_OF_9600);
    write_serial(UART_OFFSET_LCR, UART_LCR_WORD_LENGTH);
    write_serial(UART_OFFSET_MCR, UART_MCR_OUT_2_INT_ENABLE);
}

/* ---- the host's thread */

/* Gives the host as much of the output as it takes now. The lock is taken. */
static void give_output(void)
{
    struct uart_todo todo;
    ssize_t count = write(STDOUT_FILENO, uart_port_output(&port), ready);
    if (count < 0 && errno != EAGAIN)
        fail("standard output");
    if (count > 0) {
        uart_port_take_output(&port, (size_t)count, &todo);
        obey(&todo);
    }
}

/*
 * Reads as much input as the port has room for, and gives it to the port. What there is no room for stays in the host until the port tells
 * of room: what a monitor keeps is in no snapshot of the port. Returns whether the input has ended. The lock is taken.
 */
static bool give_input(void)
{
    struct uart_todo todo;
    uint8_t bytes[UART_FIFO_SIZE];
    size_t room = uart_chip_receive_room(&port.chip);
    ssize_t count;
    if (room == 0)
        return false;
    count = read(STDIN_FILENO, bytes, room < sizeof bytes ? room : sizeof bytes);
    if (count < 0 && errno != EAGAIN)
        fail("standard input");
    if (count > 0) {
        uart_port_receive(&port, bytes, (size_t)count, &todo);
        obey(&todo);
    }
    return count == 0;
}

/* Passes on what comes, both ways, until the guest has ended and its output is out. */
static void *be_host(void *unused)
{
    struct pollfd events[3] = { { .fd = news, .events = POLLIN }, { .events = POLLIN }, { .events = POLLOUT } };
    uint64_t count;
    bool is_over = false, is_done = false;
    while (!is_done) {
        pthread_mutex_lock(&lock);
        events[1].fd = is_over || uart_chip_receive_room(&port.chip) == 0 ? -1 : STDIN_FILENO;
        events[2].fd = ready > 0 ? STDOUT_FILENO : -1;
        pthread_mutex_unlock(&lock);
        if (poll(events, 3, -1) < 0 && errno != EINTR)
            fail("poll");
        if (events[0].revents && read(news, &count, sizeof count) < 0)
            fail("an event");
        pthread_mutex_lock(&lock);
        if (events[1].fd >= 0 && events[1].revents)
            is_over = give_input();
        if (events[2].fd >= 0 && events[2].revents)
            give_output();
        is_done = has_ended && ready == 0;
        pthread_mutex_unlock(&lock);
    }
    return unused;
}

/* ---- what Linux needs to begin: Documentation/arch/x86/boot.rst of its sources */

/* Offsets in the first sectors of a kernel, which are those of its parameters too. */
#define E820_COUNT 0x1e8
#define SETUP_SECTORS 0x1f1
#define HEADER_END 0x201
#define HEADER_MAGIC 0x202
#define LOADER_TYPE 0x210
#define RAMDISK 0x218
#define RAMDISK_SIZE 0x21c
#define COMMAND_LINE_AT 0x228
#define LOAD_FLAGS 0x236
#define E820 0x2d0
#define ENTRY_64 0x200
#define SECTOR 512

struct __attribute__((packed)) e820 {
    uint64_t start, len;
    uint32_t type;
};

static void put_word(uint32_t at, uint32_t value)
{
    memcpy(memory + at, &value, sizeof value);
}

static void put_long(uint32_t at, uint64_t value)
{
    memcpy(memory + at, &value, sizeof value);
}

/* A file, mapped. */
static const uint8_t *map_file(const char *name, size_t *len)
{
    struct stat about;
    int file = checked(open(name, O_RDONLY | O_CLOEXEC), name);
    const uint8_t *bytes;
    checked(fstat(file, &about), name);
    *len = (size_t)about.st_size;
    bytes = mmap(NULL, *len, PROT_READ, MAP_PRIVATE, file, 0);
    if (bytes == MAP_FAILED)
        fail(name);
    close(file);
    return bytes;
}

/* Puts the kernel, its parameters and the files of its first programs into the memory. */
static void load_linux(const char *kernel_name, const char *files_name, const char *command_line)
{
    const struct e820 map[] = { { 0, LOW_END, 1 }, { KERNEL, MEMORY_SIZE - KERNEL, 1 } };
    size_t kernel_len, files_len, first;
    const uint8_t *kernel = map_file(kernel_name, &kernel_len), *files = map_file(files_name, &files_len);
    uint8_t *parameters = memory + BOOT_PARAMETERS;
    uint32_t files_at = (uint32_t)(MEMORY_SIZE - files_len) & ~(PAGE_SIZE - 1);
    errno = 0;
    if (kernel_len < 0x1000 || memcmp(kernel + HEADER_MAGIC, "HdrS", 4) != 0 || !(kernel[LOAD_FLAGS] & 1))
        fail(kernel_name);
    first = (size_t)(kernel[SETUP_SECTORS] ? kernel[SETUP_SECTORS] + 1 : 5) * SECTOR;
    if (first >= kernel_len || kernel_len > MEMORY_SIZE / 4 || files_len > MEMORY_SIZE / 4)
        fail("a kernel and its files that fit");
    memcpy(parameters + SETUP_SECTORS, kernel + SETUP_SECTORS, (size_t)HEADER_MAGIC + kernel[HEADER_END] - SETUP_SECTORS);
    parameters[LOADER_TYPE] = 0xff;
    put_word(BOOT_PARAMETERS + RAMDISK, files_at);
    put_word(BOOT_PARAMETERS + RAMDISK_SIZE, (uint32_t)files_len);
    put_word(BOOT_PARAMETERS + COMMAND_LINE_AT, COMMAND_LINE);
    parameters[E820_COUNT] = sizeof map / sizeof map[0];
    memcpy(parameters + E820, map, sizeof map);
    memcpy(memory + COMMAND_LINE, command_line, strlen(command_line) + 1);
    memcpy(memory + KERNEL, kernel + first, kernel_len - first);
    memcpy(memory + files_at, files, files_len);
}

/* ---- the machine */

static int call(int of, unsigned long request, void *argument, const char *what)
{
    return checked(ioctl(of, request, argument), what);
}
#define CALL(of, request, argument) call(of, request, argument, #request)
#define NUMBER(number) ((void *)(uintptr_t)(number))

static int make_machine(int kvm)
{
    struct kvm_pit_config timer = { 0 };
    struct kvm_userspace_memory_region region = { .memory_size = MEMORY_SIZE };
    struct kvm_irqfd edge = { .gsi = SERIAL_LINE };
    int machine = CALL(kvm, KVM_CREATE_VM, NULL);
    memory = mmap(NULL, MEMORY_SIZE, PROT_READ | PROT_WRITE, MAP_PRIVATE | MAP_ANONYMOUS, -1, 0);
    if (memory == MAP_FAILED)
        fail("the guest's memory");
    region.userspace_addr = (uintptr_t)memory;
    CALL(machine, KVM_SET_TSS_ADDR, NUMBER(TASK_STATE));
    CALL(machine, KVM_CREATE_IRQCHIP, NULL);
    CALL(machine, KVM_CREATE_PIT2, &timer);
    CALL(machine, KVM_SET_USER_MEMORY_REGION, &region);
    interrupt = checked(eventfd(0, EFD_CLOEXEC), "eventfd");
    news = checked(eventfd(0, EFD_CLOEXEC), "eventfd");
    edge.fd = (uint32_t)interrupt;
    CALL(machine, KVM_IRQFD, &edge);
    return machine;
}

/* The processor has what KVM can give it, and says that it is one of KVM's, so that the guest takes its clock. */
static void describe_processor(int kvm, int processor)
{
    enum { MOST = 256, FEATURES = 1 };
    const uint32_t is_virtual = 0x80000000u;
    struct kvm_cpuid2 *found = calloc(1, sizeof *found + MOST * sizeof found->entries[0]);
    if (found == NULL)
        fail("memory");
    found->nent = MOST;
    CALL(kvm, KVM_GET_SUPPORTED_CPUID, found);
    for (uint32_t entry = 0; entry < found->nent; entry++)
        if (found->entries[entry].function == FEATURES)
            found->entries[entry].ecx |= is_virtual;
    CALL(processor, KVM_SET_CPUID2, found);
    free(found);
}

/* Has the processor begin at Linux's entry for 64 bits, with the first GiB mapped to itself. */
static void start_processor(int processor)
{
    enum { PRESENT_WRITABLE = 0x03, LARGE = 0x83, LARGE_SIZE = 0x200000, ENTRIES = 512 };
    enum { CODE = 0x10, DATA = 0x18, PROTECTION = 0x1, PAE = 0x20, LONG_MODE = 0x500 };
    const uint32_t paging = 0x80000000u;
    struct kvm_segment code = { .limit = 0xffffffff, .selector = CODE, .type = 11, .present = 1, .s = 1, .l = 1, .g = 1 };
    struct kvm_segment data = { .limit = 0xffffffff, .selector = DATA, .type = 3, .present = 1, .s = 1, .db = 1, .g = 1 };
    struct kvm_regs registers = { .rip = KERNEL + ENTRY_64, .rsi = BOOT_PARAMETERS, .rflags = 2 };
    struct kvm_sregs system;
    put_long(DESCRIPTORS + CODE, 0x00af9b000000ffff);
    put_long(DESCRIPTORS + DATA, 0x00cf93000000ffff);
    put_long(PAGE_TABLES, (PAGE_TABLES + PAGE_SIZE) | PRESENT_WRITABLE);
    put_long(PAGE_TABLES + PAGE_SIZE, (PAGE_TABLES + 2 * PAGE_SIZE) | PRESENT_WRITABLE);
    for (uint32_t page = 0; page < ENTRIES; page++)
        put_long(PAGE_TABLES + 2 * PAGE_SIZE + 8 * page, ((uint64_t)page * LARGE_SIZE) | LARGE);
    CALL(processor, KVM_GET_SREGS, &system);
    system.gdt.base = DESCRIPTORS;
    system.gdt.limit = DATA + 7;
    system.cs = code;
    system.ds = system.es = system.fs = system.gs = system.ss = data;
    system.cr3 = PAGE_TABLES;
    system.cr4 = PAE;
    system.cr0 |= PROTECTION | paging;
    system.efer = LONG_MODE;
    CALL(processor, KVM_SET_SREGS, &system);
    CALL(processor, KVM_SET_REGS, &registers);
}

/* An access of a port. Nothing answers elsewhere than in the serial port, and the clock that is not there is never busy. */
static void access_port(uint32_t number, bool is_write, uint8_t *byte)
{
    bool is_serial = number >= SERIAL_BASE && number < SERIAL_BASE + UART_NUM_REGISTERS;
    if (is_serial && is_write)
        write_serial((uint8_t)(number - SERIAL_BASE), *byte);
    else if (is_serial)
        *byte = read_serial((uint8_t)(number - SERIAL_BASE));
    else if (!is_write)
        *byte = number == CLOCK_DATA ? 0 : 0xff;
}

/* Accesses that the guest made by one instruction. Each byte of one is of the next port, as when a word sets both bytes of a divisor. */
static void access_ports(struct kvm_run *exit)
{
    uint8_t *bytes = (uint8_t *)exit + exit->io.data_offset;
    for (uint32_t item = 0; item < exit->io.count; item++)
        for (uint32_t byte = 0; byte < exit->io.size; byte++)
            access_port(exit->io.port + byte, exit->io.direction == KVM_EXIT_IO_OUT, bytes++);
}

/* Lets the guest run until it resets the machine. */
static void run(int processor, struct kvm_run *exit)
{
    for (;;) {
        if (ioctl(processor, KVM_RUN, NULL) < 0 && errno != EINTR)
            fail("KVM_RUN");
        switch (exit->exit_reason) {
        case KVM_EXIT_IO:
            access_ports(exit);
            break;
        case KVM_EXIT_MMIO:
            memset(exit->mmio.data, 0xff, exit->mmio.is_write ? 0 : exit->mmio.len);
            break;
        case KVM_EXIT_SHUTDOWN:
            return;
        case KVM_EXIT_INTR:
            break;
        default:
            fprintf(stderr, "monitor: the guest stopped for reason %u of KVM\n", exit->exit_reason);
            _exit(1);
        }
    }
}

int main(int count, char **words)
{
    pthread_t host;
    int kvm, machine, processor, size;
    struct kvm_run *exit;
    if (count != 4 || strlen(words[3]) >= PAGE_SIZE) {
        fprintf(stderr, "usage: monitor KERNEL INITRAMFS COMMAND-LINE\n");
        return 2;
    }
    kvm = checked(open("/dev/kvm", O_RDWR | O_CLOEXEC), "/dev/kvm");
    machine = make_machine(kvm);
    load_linux(words[1], words[2], words[3]);
    uart_port_new(&port, UART_16550A);
    set_as_firmware();
    processor = CALL(machine, KVM_CREATE_VCPU, NUMBER(0));
    size = CALL(kvm, KVM_GET_VCPU_MMAP_SIZE, NULL);
    exit = mmap(NULL, (size_t)size, PROT_READ | PROT_WRITE, MAP_SHARED, processor, 0);
    if (exit == MAP_FAILED)
        fail("what KVM tells of a processor");
    describe_processor(kvm, processor);
    start_processor(processor);
    checked(fcntl(STDOUT_FILENO, F_SETFL, fcntl(STDOUT_FILENO, F_GETFL) | O_NONBLOCK), "standard output");
    errno = pthread_create(&host, NULL, be_host, NULL);
    if (errno)
        fail("a thread");
    run(processor, exit);
    pthread_mutex_lock(&lock);
    has_ended = true;
    signal_event(news);
    pthread_mutex_unlock(&lock);
    pthread_join(host, NULL);
    return 0;
}
