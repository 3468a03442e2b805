/*
 * How much stack each call of the library takes: prints its name and bytes. A call is made on a stack of its own that was painted before,
 * and what has another colour afterwards was used: from the return address of the call on, with the return addresses of the two functions of
 * this program, which use no more. For hosts with glibc's contexts.
 */
#define _GNU_SOURCE
#include <stdint.h>
#include <stdio.h>
#include <stdlib.h>
#include <string.h>
#include <ucontext.h>

#include "u16550.h"
#include "each.h"

enum { SIZE = 1 << 16, COLOUR = 0xa5, DLAB = 0x80, FIFO_ENABLE = 1 };

/* ---- a chip whose transmitter is joined to its receiver: what is sent comes back. It calls nothing, and so uses no stack */

static struct {
    uint8_t registers[8], dll, dlm, fifo[256], in, out, fifos, isr;
} chip;

static uint8_t read_register(void *context, uintptr_t address)
{
    (void)context;
    switch (address & 7) {
    case 0:
        return chip.registers[3] & DLAB ? chip.dll : chip.in != chip.out ? chip.fifo[chip.out++] : 0;
    case 1:
        return chip.registers[3] & DLAB ? chip.dlm : chip.registers[1];
    case 2:
        return chip.fifos | chip.isr;
    case 5:
        return U16550_LSR_THR_EMPTY | U16550_LSR_TRANSMITTER_EMPTY | (chip.in != chip.out);
    case 6:
        return chip.registers[4] & U16550_MCR_LOOP_BACK ? 0 : U16550_MSR_CTS | U16550_MSR_DSR | U16550_MSR_CD | U16550_MSR_DELTA_CTS;
    default:
        return chip.registers[address & 7];
    }
}

static void write_register(void *context, uintptr_t address, uint8_t value)
{
    (void)context;
    if ((address & 7) == 0 && chip.registers[3] & DLAB)
        chip.dll = value;
    else if ((address & 7) == 1 && chip.registers[3] & DLAB)
        chip.dlm = value;
    else if ((address & 7) == 0)
        chip.fifo[chip.in++] = value;
    else if ((address & 7) == 2)
        chip.fifos = value & FIFO_ENABLE ? 0xc0 : 0;
    else
        chip.registers[address & 7] = value;
}

static const struct u16550_io io = { NULL, read_register, write_register };

/* ---- a stack that is painted */

static uint8_t stack[SIZE] __attribute__((aligned(64)));
static ucontext_t here, there;
static void (*the_call)(void);
static size_t used;

/* The look at the colours is made on the painted stack too, and calls nothing: leaving it would use more of it. */
static void run_the_call(void)
{
    size_t untouched = 0;

    the_call();
    while (untouched < sizeof stack && stack[untouched] == COLOUR)
        untouched++;
    used = sizeof stack - untouched;
}

/* How many bytes of the stack a call has used, with all above it. */
static size_t used_by(void (*call)(void))
{
    memset(stack, COLOUR, sizeof stack);
    the_call = call;
    if (getcontext(&there))
        abort();
    there.uc_stack.ss_sp = stack;
    there.uc_stack.ss_size = sizeof stack;
    there.uc_link = &here;
    makecontext(&there, run_the_call, 0);
    if (swapcontext(&here, &there))
        abort();
    return used;
}

static struct u16550 uart;
static struct u16550_design_ware design_ware;
static struct u16550_notes notes;
static struct u16550_bus bus;
static const struct u16550_direction direction = { U16550_DIRECTION_RTS, 1 };
static struct u16550_config config;
static struct u16550_state state;
static struct u16550_dump dump;
static struct u16550_setup setup = { 1, U16550_WAIT_FIRST, 0x0b };
static struct u16550_layout layout = { 4, 32, U16550_NATIVE_ENDIAN };
static struct u16550_io got_io;
static struct u16550_loopback_failure failure;
static struct u16550_difference difference;
static struct u16550_received received[256];
static struct u16550_handled handled;
static struct u16550_urgent urgent;
static struct u16550_stuck stuck;
static struct u16550_line_port line_ports[1] = { { &uart, { 0, 0 }, 0, 0 } };
static uint32_t device[64];
static uint8_t rings[512], noted[256], bytes[256], byte, other;
static uint16_t divisor, fifo_size;
static uint32_t baud_rate;
static uint64_t limit;
static size_t len;
static int status;

/* Takes what a call returns, so that each call has the same frame above it. */
static void __attribute__((noinline)) keep(int result)
{
    status = result;
}

static int __attribute__((noinline)) nothing(void)
{
    __asm__ volatile("");
    return 0;
}

static uint8_t keep_waiting(void *context)
{
    return context == NULL;
}

/* What there is before a call. */
enum { A_DRIVER, HAS_RINGS, AT_BUS };

/* Everything as it is before each call: a driver with rings and queued bytes, or without, or at a bus; bytes that arrived. The other end was
 * told XOFF, and has told XON, so that calls about these have something to send. */
static void ready(int what)
{
    static const uint8_t isr_idle = 1, isr_data = 4, xon = 0x11;
    size_t count;

    memset(&chip, 0, sizeof chip);
    memset(&uart, 0, sizeof uart);
    chip.isr = isr_idle;
    u16550_new(&uart, &io);
    u16550_default_config(&config);
    u16550_init(&uart, &config);
    u16550_set_spin_limit(&uart, 100);
    u16550_config_register_dump(&uart, &dump);
    u16550_get_state(&uart, &state);
    chip.in = 40;
    if (what == HAS_RINGS) {
        u16550_ring_new(&uart, rings, sizeof rings, 256, 256);
        u16550_ring_adjust_xoff(&uart, 257, 257, &urgent);
        chip.fifo[chip.in++] = xon;
        chip.isr = isr_data;
        u16550_ring_service(&uart, &count);
        chip.isr = isr_idle;
        chip.in += 40;
        u16550_ring_hold_transmit(&uart);
        u16550_ring_queue(&uart, bytes, 64, &count);
        u16550_ring_release_transmit(&uart);
    } else if (what == AT_BUS) {
        u16550_bus_new(&bus, &uart, &direction);
        u16550_bus_start_sending(&bus);
    }
}

static size_t above;

static void call_nothing(void)
{
    keep(nothing());
}

/* What the calls of the table take and give. */
#define DRIVER &uart
#define BUFFER bytes
#define LEN sizeof bytes
#define CONFIG &config
#define SETUP &setup
#define DUMP &dump
#define ON 1
#define BYTE 'a'
#define OUTPUTS 0x0b
#define INTERRUPTS 3
#define CHARACTERS 8
#define FIFOS U16550_FIFOS_RESET
#define FIFO_SIZE 64
#define URGENT &byte
#define FIRST bytes
#define FIRST_LEN 8
#define SECOND bytes
#define SECOND_LEN sizeof bytes
#define SPIN_LIMIT 100
#define LIMIT 8
#define ROUNDS 1
#define MARK 16
#define HOLD 32
#define RELEASE 64
#define KEEP_WAITING keep_waiting
#define CONTEXT NULL
#define BYTE_AT &byte
#define OTHER_BYTE_AT &other
#define SHORT_AT &fifo_size
#define SIZE_AT &len
#define NUMBER_AT &limit
#define CONFIG_AT &config
#define STATE_AT &state
#define RECEIVED_AT received
#define DUMP_AT &dump
#define URGENT_AT &urgent
#define HANDLED_AT &handled
#define ACCESS_CLOCKS 2
#define BEFORE_CLOCKS 100
#define CLOCKS 1000
#define NANOSECONDS 1000

/* The other calls. */
#define OTHERS(PLAIN, RING)                                                                        \
    PLAIN(u16550_new, &uart, &io)                                                                  \
    PLAIN(u16550_new_port, &uart, &io, 0x3f8)                                                      \
    PLAIN(u16550_new_mmio, &uart, &io, 0x1000, 4)                                                  \
    PLAIN(u16550_new_mmio_wide, &uart, (uintptr_t)device, &layout)                                 \
    PLAIN(u16550_new_design_ware, &uart, &design_ware, &io, 10)                                    \
    PLAIN(u16550_new_mmio_design_ware, &uart, &design_ware, (uintptr_t)device, &layout, 10)        \
    PLAIN(u16550_design_ware_fault, &uart, &design_ware)                                           \
    PLAIN(u16550_from_state, &uart, &io, &state)                                                   \
    PLAIN(u16550_end, &uart)                                                                       \
    PLAIN(u16550_default_config, &config)                                                          \
    PLAIN(u16550_nearest, &config, 20, &config)                                                    \
    PLAIN(u16550_get_io, &uart, &got_io)                                                           \
    PLAIN(u16550_set_io, &uart, &io)                                                               \
    PLAIN(u16550_test_loopback, &uart, &failure)                                                   \
    PLAIN(u16550_check_configured, &uart, 0x0b, &difference)                                       \
    PLAIN(u16550_emergency, &uart)                                                                 \
    PLAIN(u16550_write_text, &uart, "a\nb\bc\177", 6, &len)                                        \
    PLAIN(u16550_write_raw_text, &uart, "a\nb\bc\177", 6, &len)                                    \
    PLAIN(u16550_dump_divisor, &dump, &divisor)                                                    \
    PLAIN(u16550_dump_baud_rate, &dump, &config, &baud_rate)                                       \
    PLAIN(u16550_ring_new, &uart, rings, sizeof rings, 256, 256)                                   \
    PLAIN(u16550_direction_receiving, &direction, 0x0b, &byte)                                     \
    PLAIN(u16550_bus_new, &bus, &uart, &direction)                                                 \
    PLAIN(u16550_note_errors, &uart, &notes, noted, sizeof noted)                                  \
    PLAIN(u16550_end_notes, &uart)                                                                 \
    RING(u16550_ring_take_with_errors, &uart, received, 256, &len)                                 \
    RING(u16550_ring_end, &uart)                                                                   \
    RING(u16550_ring_stuck, &uart, &stuck)                                                         \
    RING(u16550_line_handle, line_ports, 1, 8, 1, &byte)

/* Those over a bus. */
#define OVER_BUS(BUS)                                                                              \
    BUS(u16550_bus_end, &bus, &uart)                                                               \
    BUS(u16550_bus_start_sending, &bus)                                                            \
    BUS(u16550_bus_try_finish, &bus)                                                               \
    BUS(u16550_bus_is_sending, &bus, &byte)                                                        \
    BUS(u16550_bus_flush, &bus)                                                                    \
    BUS(u16550_bus_is_idle, &bus, &byte)                                                           \
    BUS(u16550_bus_send_bytes, &bus, bytes, sizeof bytes, &len)                                    \
    BUS(u16550_bus_send_bytes_exact, &bus, bytes, sizeof bytes, &len)                              \
    BUS(u16550_bus_receive_bytes, &bus, bytes, sizeof bytes, &len)                                 \
    BUS(u16550_bus_receive_with_errors, &bus, received, 256, &len)                                 \
    BUS(u16550_bus_lsr, &bus, &byte)

/* A function for each call. */
#define WRAPPER(name, ...)                 \
    static void call_##name(void)          \
    {                                      \
        keep(name(__VA_ARGS__));           \
    }
EACH_CALL(WRAPPER, WRAPPER)
EACH_OF_CONFIG(WRAPPER)
OTHERS(WRAPPER, WRAPPER)
OVER_BUS(WRAPPER)

static void call_u16550_text(void)
{
    keep(u16550_text(U16550_NULL_POINTER) != NULL);
}

static void call_u16550_check_layout(void)
{
    keep(U16550_LOOK());
}

static void call_u16550_version(void)
{
    keep(u16550_version() != NULL);
}

/* The most that a call takes, whichever interrupt the chip shows. */
static void measure(const char *name, void (*call)(void), int what)
{
    static const uint8_t isrs[] = { 1, 0, 2, 4, 6, 8, 0x0c };
    size_t most = 0, i;

    for (i = 0; i < sizeof isrs; i++) {
        ready(what);
        chip.isr = isrs[i];
        if (used_by(call) > most)
            most = used;
    }
    printf("%s %zu\n", name, most - above);
}

int main(void)
{
    /* But for the return address. */
    above = used_by(call_nothing) - sizeof(void *);
#define PLAIN(name, ...) measure(#name, call_##name, A_DRIVER);
#define RING(name, ...) measure(#name, call_##name, HAS_RINGS);
#define BUS(name, ...) measure(#name, call_##name, AT_BUS);
    EACH_CALL(PLAIN, RING)
    EACH_OF_CONFIG(PLAIN)
    OTHERS(PLAIN, RING)
    OVER_BUS(BUS)
    measure("u16550_text", call_u16550_text, A_DRIVER);
    measure("u16550_version", call_u16550_version, A_DRIVER);
    measure("u16550_check_layout", call_u16550_check_layout, A_DRIVER);
    return 0;
}
