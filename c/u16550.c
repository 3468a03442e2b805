/* SPDX-FileCopyrightText: 2025 Philipp Schuster, 2026 Geesetrunk */
/* SPDX-License-Identifier: MIT OR Apache-2.0 */
/*
 * u16550.c - a driver for serial chips of the 16550 family, with rings for interrupts. u16550.h says how it is used.
 *
 * Made by tools/c/emit from the code that is proved. Do not edit. Names and comments are those of its source, and what is computed
 * is taken from what the proofs are about.
 *
 * The functions uart_* are the code that is proved. They check nothing that is proved never to happen, if their caller keeps what
 * they ask for. The functions u16550_* at the end are that caller: they check what the program gives, and refuse what must not be.
 */
#include "u16550.h"

/* What a header in the place of stdint.h may lack. */
#ifndef UINT16_MAX
#define UINT16_MAX 0xffff
#endif
#ifndef UINT32_C
#define UINT32_C(number) ((uint32_t)number##UL)
#endif
#ifndef SIZE_MAX
#define SIZE_MAX ((size_t)-1)
#endif
#ifndef UINTPTR_MAX
#define UINTPTR_MAX ((uintptr_t)-1)
#endif

/* For a switch of many cases: gcc for Cortex-M0 would make a table of it where code is to be small, and call its library for that. */
#if defined(__GNUC__) && !defined(__clang__) && defined(__OPTIMIZE_SIZE__) && defined(__thumb__) && !defined(__thumb2__)
#define UART_NO_TABLE __attribute__((__optimize__("no-jump-tables")))
#else
#define UART_NO_TABLE
#endif

/* The clock. */
/* Of a PC, in hertz. */
#define UART_DEFAULT_FREQUENCY UINT32_C(1843200)
#define UART_NANOSECONDS_PER_SECOND UINT32_C(1000000000)
#define UART_MOST_32 UINT32_C(4294967295)
#define UART_MOST_64 ((uint64_t)-1)
enum {
    /* The receiver looks so often at a bit: the clock is divided by this too. */
    UART_SAMPLES_PER_BIT = 16,
    /* The prescaler has four bits, and divides by one more than they say. */
    UART_MAX_PRESCALER = 15
};

/* Waits, and the FIFOs. */
/* Looks at a register until a wait has failed. */
#define UART_DEFAULT_SPIN_LIMIT UINT32_C(1000000)
enum {
    /* Of a 16550, in characters. */
    UART_FIFO_SIZE = 16,
    /* The number of characters in a full FIFO and the shift register. */
    UART_MOST_WAITING = 17,
    /*
     * How many bytes are sent: one more than the largest FIFO holds. The shift register takes the
     * first of them, so a FIFO of 256 is full although the last character may still be on its way.
     */
    UART_FLOOD_LENGTH = 257
};

/* Is there a chip, and does it work. */
enum {
    /*
     * The patterns that are written to the scratch register. Where no chip is, a read returns
     * something too, often 0xff. A place that always returns the first pattern fails the second.
     */
    UART_FIRST_PATTERN = 0x42,
    UART_SECOND_PATTERN = 0x73,
    /* What a read shows if no device is there to drive the lines of the bus: all bits set. */
    UART_UNDRIVEN = 0xff,
    /* What the loopback test sends first. */
    UART_TEST_BYTE = 0x42
};

#if !defined(U16550_OMIT_DESIGN_WARE) || !defined(U16550_OMIT_RINGS)
/* The low four bits of ISR: which interrupt is pending. The last one is a DesignWare UART's. */
enum {
    /* The bits themselves. */
    UART_CODE = 0x0f,
    UART_CODE_NONE = 0x01,
    UART_CODE_MODEM_STATUS = 0x00,
    UART_CODE_THR_EMPTY = 0x02,
    UART_CODE_DATA_READY = 0x04,
    UART_CODE_LINE_STATUS = 0x06,
    UART_CODE_TIMEOUT = 0x0c,
    UART_CODE_DMA_RX_END = 0x0e,
    UART_CODE_DMA_TX_END = 0x0a,
    UART_CODE_BUSY_DETECT = 0x07
};
#endif

#ifndef U16550_OMIT_RINGS
/* The rings. */
enum {
    /* The largest capacity of a ring, in bytes. */
    UART_MAX_CAPACITY = 4096,
    /*
     * The most interrupts that one call of u16550_ring_service serves. A broken chip can show
     * interrupts without end, and no call may wait.
     */
    UART_MAX_INTERRUPTS = 8,
    /*
     * A chip that works shows at most five interrupts in a row without a byte that moves and without
     * news from outside. After one more it has shown that none is pending, or news came. A round of
     * fewer tells nothing: one of a single interrupt never ends with U16550_HANDLE_IDLE.
     */
    UART_LEAST_LIMIT = 6,
    UART_ALL_INTERRUPTS = 0xff,
    /* Flow control by characters: go on, and stop. */
    UART_XON = 0x11,
    UART_XOFF = 0x13
};
#endif

#ifndef U16550_OMIT_DESIGN_WARE
/* A DesignWare UART. */
enum {
    /* The bit of USR. */
    UART_USR_BUSY = 1,
    /* How many received characters are kept while LCR is written. */
    UART_MOST_KEPT = 64,
    /*
     * How often in one read of ISR an interrupt is ended that the driver cannot serve. One is enough
     * on a chip that works, and a second one may come meanwhile.
     */
    UART_MOST_ENDED = 4
};
#endif

/* Where the registers are. */
enum {
    UART_DATA = 0,
    UART_DLL = 0,
    UART_DLM = 1,
    UART_IER = 1,
    UART_FCR = 2,
    UART_ISR = 2,
    UART_LCR = 3,
    UART_MCR = 4,
    UART_LSR = 5,
    UART_MSR = 6,
    UART_SPR = 7
};

/* Bits of registers that the header does not need. */
enum {
    U16550_FCR_FIFO_64_ENABLE = 0x20,
    U16550_FCR_FIFO_ENABLE = 0x01,
    U16550_FCR_RX_FIFO_RESET = 0x02,
    U16550_FCR_TRIGGER_1 = 0x00,
    U16550_FCR_TRIGGER_4 = 0x40,
    U16550_FCR_TRIGGER_8 = 0x80,
    U16550_FCR_TRIGGER_14 = 0xc0,
    U16550_FCR_TX_FIFO_RESET = 0x04,
    U16550_ISR_DMA_RX_END = 0x10,
    U16550_ISR_FIFOS_ENABLED = 0xc0,
    U16550_ISR_FIFO_64_ENABLED = 0x20,
    U16550_ISR_INTERRUPT_STATUS = 0x01,
    U16550_LCR_DLAB = 0x80,
    U16550_LCR_MORE_STOP_BITS = 0x04,
    U16550_LCR_PARITY_ENABLE = 0x08,
    U16550_LCR_PARITY_EVEN = 0x10,
    U16550_LCR_PARITY_STICK = 0x20,
    U16550_LCR_SET_BREAK = 0x40,
    U16550_LCR_WORD_LENGTH_5 = 0x00,
    U16550_LCR_WORD_LENGTH_6 = 0x01,
    U16550_LCR_WORD_LENGTH_7 = 0x02,
    U16550_LCR_WORD_LENGTH_8 = 0x03,
    U16550_LSR_CHARACTER_ERRORS = 0x1c,
    U16550_LSR_LINE_ERRORS = 0x1e,
    U16550_MSR_CHANGES = 0x0f
};

struct uart_latch {
    uint8_t dll;
    uint8_t dlm;
};

/*
 * The state of a driver without its backend: everything that a driver over another backend needs
 * to continue.
 */
struct uart_driver_state {
    struct u16550_core_config config;
    bool fifo_enabled;
    uint8_t fifo_size; /* an enum u16550_core_fifo_size */
    uint8_t saved_lsr;
    uint8_t saved_msr;
    uint64_t spin_limit;
};

/* What an initialisation does beside writing the configuration, for u16550_init_with. */
struct uart_setup {
    bool checks_presence;
    uint8_t wait; /* an enum u16550_transmitter_wait */
    uint8_t outputs;
};

#ifndef U16550_OMIT_TIMES
struct uart_maybe_u64 {
    bool is_some;
    uint64_t value;
};
#endif

#ifndef U16550_OMIT_LOOPBACK
struct uart_bytes16 {
    uint8_t bytes[16];
};
#endif

/*
 * A driver that sends text as terminals expect it.
 *
 * Backspace and delete are sent as backspace, space, backspace, and a line feed as carriage
 * return, line feed. All other bytes are sent unchanged, also a carriage return. Bytes are
 * expanded, not characters.
 */
struct uart_tty {
    struct u16550_core_driver inner;
};

struct uart_bytes3 {
    uint8_t bytes[3];
};

/* The bytes of one expansion, at most three. */
struct uart_expansion {
    struct uart_bytes3 text;
    size_t len;
};

#ifndef U16550_OMIT_RINGS
/*
 * How much room in the receive ring turns RTS off, and how much turns it on again. With XOFF and
 * XON it is the same.
 *
 * Between the two RTS stays as it is, so it does not change with each byte. If release is less
 * than hold, RTS is off below hold and on from there.
 */
struct uart_receive_marks {
    size_t hold;
    size_t release;
};

struct uart_slice {
    const uint8_t *data;
    size_t len;
};

struct uart_slices {
    struct uart_slice front;
    struct uart_slice rest;
};

/* What serving interrupts did. */
struct uart_served {
    struct u16550_handled handled;
    bool has_room;
};

struct uart_handled_or_stuck_error {
    struct u16550_core_stuck_error error;
    struct u16550_handled value;
};

/* What uart_ring_lower_line did at a port. */
struct uart_lowered {
    struct uart_handled_or_stuck_error handled;
    uint8_t enabled;
};
#endif

/* --------------------------------------------------------------- arithmetic */

/*
 * How many bits the numbers have that the processor divides, and those that it multiplies. For others a compiler calls a function of its
 * library, which firmware may not have, or may have wrong. So they are computed by shifts.
 */
#if defined(UART_BY_SHIFTS)
#define UART_DIVIDES 0
#elif defined(__x86_64__) || defined(_M_X64) || defined(__aarch64__) || defined(_M_ARM64) || defined(__powerpc64__) || defined(__s390x__) || \
    defined(__mips64) || defined(__loongarch64) || (defined(__sparc__) && defined(__arch64__)) || (defined(__riscv_div) && __riscv_xlen == 64)
#define UART_DIVIDES 64
#elif defined(__i386__) || defined(_M_IX86) || defined(__mips__) || defined(__powerpc__) || defined(__riscv_div) || defined(__ARM_FEATURE_IDIV)
#define UART_DIVIDES 32
#else
#define UART_DIVIDES 0
#endif

/* A processor of 32 bits that gives both halves of a product multiplies 64 by some instructions. Thumb's first form gives one half, and AVR
 * multiplies what an address takes. */
#if defined(UART_BY_SHIFTS)
#define UART_MULTIPLIES 0
#elif (defined(__thumb__) && !defined(__thumb2__)) || defined(__AVR_HAVE_MUL__)
#define UART_MULTIPLIES 32
#elif UART_DIVIDES > 0 || defined(__arm__) || defined(__riscv_mul)
#define UART_MULTIPLIES 64
#else
#define UART_MULTIPLIES 0
#endif

#if UART_DIVIDES < 32
/* Divides bit by bit, as on paper. Returns the quotient, and puts what is left in the place of the dividend, which it never exceeds. */
static uint32_t uart_divide_32(uint32_t *dividend, uint32_t divisor)
{
    uint32_t quotient = 0, left = 0;
    for (unsigned bit = 0; bit < 32; bit++) {
        left = left << 1 | *dividend >> 31;
        *dividend <<= 1;
        quotient <<= 1;
        if (left >= divisor) {
            left -= divisor;
            quotient++;
        }
    }
    *dividend = left;
    return quotient;
}
#endif

#if UART_DIVIDES < 64
static inline uint32_t uart_quotient_32(uint32_t dividend, uint32_t divisor)
{
#if UART_DIVIDES >= 32
    return dividend / divisor;
#else
    return uart_divide_32(&dividend, divisor);
#endif
}

static inline uint32_t uart_rest_32(uint32_t dividend, uint32_t divisor)
{
#if UART_DIVIDES >= 32
    return dividend % divisor;
#else
    (void)uart_divide_32(&dividend, divisor);
    return dividend;
#endif
}

static uint64_t uart_divide_64(uint64_t *dividend, uint64_t divisor)
{
    uint64_t quotient = 0, left = 0;
    for (unsigned bit = 0; bit < 64; bit++) {
        left = left << 1 | *dividend >> 63;
        *dividend <<= 1;
        quotient <<= 1;
        if (left >= divisor) {
            left -= divisor;
            quotient++;
        }
    }
    *dividend = left;
    return quotient;
}
#endif

static inline uint64_t uart_quotient_64(uint64_t dividend, uint64_t divisor)
{
#if UART_DIVIDES >= 64
    return dividend / divisor;
#else
    /* As for a divisor of the chip. */
    if (((dividend | divisor) >> 32) == 0)
        return uart_quotient_32((uint32_t)dividend, (uint32_t)divisor);
    return uart_divide_64(&dividend, divisor);
#endif
}

static inline uint64_t uart_rest_64(uint64_t dividend, uint64_t divisor)
{
#if UART_DIVIDES >= 64
    return dividend % divisor;
#else
    if (((dividend | divisor) >> 32) == 0)
        return uart_rest_32((uint32_t)dividend, (uint32_t)divisor);
    (void)uart_divide_64(&dividend, divisor);
    return dividend;
#endif
}

static inline uint64_t uart_product_64(uint64_t one, uint64_t other)
{
#if UART_MULTIPLIES >= 64
    return one * other;
#else
    uint64_t product = 0;
    for (; other != 0; one <<= 1, other >>= 1) {
        if ((other & 1) != 0)
            product += one;
    }
    return product;
#endif
}

/* How many bytes so many items have. */
static inline uintptr_t uart_times(uintptr_t number, uint8_t times)
{
#if UART_MULTIPLIES >= 32
    return (uintptr_t)(number * times);
#else
    /* Hidden from the compiler: clang would make a product of this loop. */
    volatile uint8_t hidden = times;
    uintptr_t product = 0;
    for (times = hidden; times != 0; number = (uintptr_t)(number << 1), times >>= 1) {
        if ((times & 1) != 0)
            product = (uintptr_t)(product + number);
    }
    return product;
#endif
}

/* How far a register is from the first one. A stride is a power of two, so that a compiler sees no product by an offset that it knows. */
static inline uintptr_t uart_distance(uint8_t offset, uint8_t stride)
{
    uintptr_t distance = offset;
#if UART_MULTIPLIES >= 32
    distance = (uintptr_t)(distance * stride);
#else
    for (; stride > 1; stride >>= 1)
        distance = (uintptr_t)(distance << 1);
#endif
    return distance;
}

/* --------------------------------------------------------------- the device */

static inline uintptr_t uart_address(const struct u16550_device *device, uint8_t offset)
{
    return (uintptr_t)(device->base + uart_distance(offset, device->stride));
}

static inline uint8_t uart_device_read(struct u16550_device *device, uint8_t offset)
{
    return device->io.read(device->io.context, uart_address(device, offset));
}

static inline void uart_device_write(struct u16550_device *device, uint8_t offset, uint8_t value)
{
    device->io.write(device->io.context, uart_address(device, offset), value);
}

#ifndef U16550_OMIT_DESIGN_WARE
/* The register USR of a DesignWare UART lies beyond the eight. */
enum { UART_USR = 31 };

static inline uint8_t uart_device_read_usr(struct u16550_device *device)
{
    return uart_device_read(device, UART_USR);
}
#endif

#ifndef U16550_OMIT_RINGS
/* Memory of the caller, of which the rings take cells from the front. */
struct uart_memory {
    uint8_t *data;
    size_t len;
};
#endif

/* Whoever is asked whether to keep waiting. */
struct uart_patience {
    uint8_t (*keep_waiting)(void *context);
    void *context;
};

static inline bool uart_patience_keep_waiting(struct uart_patience *patience)
{
    return patience->keep_waiting(patience->context) != 0;
}

#ifndef U16550_OMIT_RINGS
/* The ports of a line: see u16550_line_handle. */
struct uart_line_ports {
    struct u16550_line_port *ports;
    size_t count;
};
#endif

#ifndef U16550_OMIT_LOOPBACK
/* What came back in a loopback test that failed. */
struct uart_loopback_failure {
    uint8_t expected;
    uint8_t actual;
    struct uart_bytes16 expected_msg;
    struct uart_bytes16 actual_msg;
};
#endif

#ifndef U16550_OMIT_RINGS
static bool
uart_cells_in_memory(struct uart_memory *memory, uint8_t value, size_t count, struct u16550_core_vec_u8 *cells);
static inline size_t uart_line_ports_number(const struct uart_line_ports *ports);
static bool
uart_line_ports_lower(struct uart_line_ports *ports, size_t port, size_t limit, uint32_t rounds);
static void uart_line_ports_raise(struct uart_line_ports *ports, size_t port);
#endif

/* Copies so many bytes between two places that do not overlap. */
static inline void uart_copy_bytes(uint8_t *to, const uint8_t *from, size_t count)
{
    for (size_t i = 0; i < count; i++)
        to[i] = from[i];
}

#ifndef U16550_OMIT_LOOPBACK
/* Sets so many bytes to one value. */
static inline void uart_fill_bytes(uint8_t *to, uint8_t value, size_t count)
{
    for (size_t i = 0; i < count; i++)
        to[i] = value;
}
#endif

#ifndef U16550_OMIT_DESIGN_WARE
/* Moves the first of some characters behind the others. */
static inline void uart_first_to_last(struct u16550_received *items, size_t count)
{
    struct u16550_received first = items[0];
    for (size_t i = 1; i < count; i++)
        items[i - 1] = items[i];
    items[count - 1] = first;
}
#endif

/* Returns the number that the caller has for the same error. */
static inline int uart_init_error_of(int error)
{
    return error == U16550_FRAME_NON_INTEGER_DIVISOR ? U16550_INIT_NON_INTEGER_DIVISOR : U16550_INIT_DIVISOR_OUT_OF_RANGE;
}

#ifndef U16550_OMIT_LOOPBACK
/* Returns whether so many bytes are the same. */
static inline bool uart_same_bytes(const uint8_t *one, const uint8_t *other, size_t count)
{
    for (size_t i = 0; i < count; i++) {
        if (one[i] != other[i])
            return false;
    }
    return true;
}

static const uint8_t uart_test_message[16] =
    { 'h', 'e', 'l', 'l', 'o', ' ', 'w', 'o', 'r', 'l', 'd', '!', '1', '3', '3', '7' };
#endif

static const uint8_t uart_erase_text[3] = { '\b', ' ', '\b' };

static const uint8_t uart_newline_text[3] = { '\r', '\n', 0 };

#ifndef U16550_OMIT_TIMES
static const uint8_t uart_levels_of_16[4] = { 1, 4, 8, 14 };

static const uint8_t uart_levels_of_32[4] = { 8, 16, 24, 28 };

static const uint8_t uart_levels_of_64[4] = { 1, 16, 32, 56 };

static const uint8_t uart_levels_of_128[4] = { 16, 32, 112, 120 };

static const uint8_t uart_levels_of_256[4] = { 1, 64, 128, 254 };
#endif

/* Reads a register, and saves nothing of what that clears in the chip. */
static inline uint8_t uart_read_register(struct u16550_core_driver *uart, uint8_t offset)
{
    return uart_device_read(&uart->backend, offset);
}

/* Reads and returns the line control register (LCR). Reading it changes nothing. */
static inline uint8_t uart_lcr(struct u16550_core_driver *uart)
{
    return uart_read_register(uart, UART_LCR);
}

/* Reads and returns the modem control register (MCR). Reading it changes nothing. */
static inline uint8_t uart_mcr(struct u16550_core_driver *uart)
{
    return uart_read_register(uart, UART_MCR);
}

/* Writes a register. */
static inline void
uart_write_register(struct u16550_core_driver *uart, uint8_t offset, uint8_t value)
{
    uart_device_write(&uart->backend, offset, value);
}

/*
 * Reads and returns the divisor latch, low byte first.
 *
 * Sets DLAB in LCR for the two reads, and then writes LCR back. In between offsets 0 and 1 are the
 * latch, so nothing else may access the chip: neither data nor IER can be reached.
 *
 * Proved: LCR is read, and written with DLAB; the divisor latch is read, its low byte first; and
 * LCR is written back.
 */
static struct uart_latch uart_dll_dlm(struct u16550_core_driver *uart)
{
    uint8_t lcr = uart_read_register(uart, UART_LCR);
    uart_write_register(uart, UART_LCR, lcr | U16550_LCR_DLAB);
    uint8_t dll = uart_read_register(uart, UART_DLL);
    uint8_t dlm = uart_read_register(uart, UART_DLM);
    uart_write_register(uart, UART_LCR, lcr);
    struct uart_latch latch = { dll, dlm };
    return latch;
}

/*
 * Reads and returns the interrupt status register (ISR), which the datasheet also calls IIR.
 *
 * A read that shows a THR_EMPTY interrupt acknowledges it.
 */
static inline uint8_t uart_isr(struct u16550_core_driver *uart)
{
    return uart_read_register(uart, UART_ISR);
}

/* Returns whether the FIFOs are on and work: bits 6 and 7 are both set then. */
static inline bool uart_isr_fifo_enabled(uint8_t isr)
{
    return (isr & U16550_ISR_FIFOS_ENABLED) == U16550_ISR_FIFOS_ENABLED;
}

/*
 * Takes a port as it was set up, for example by firmware, in place of u16550_init: finds out
 * whether the FIFOs are on, and returns the divisor latch, low byte first. It is not 0.
 *
 * Reads LCR and MCR, then the divisor latch as u16550_dll_dlm does, which writes LCR and restores
 * it, and then ISR. Nothing else is written. The read of ISR acknowledges a THR_EMPTY interrupt.
 * Afterwards fifo_enabled is as ISR showed. config is not changed, since the clock of the chip is
 * not known: it does not say what the chip has.
 *
 * Errors
 *
 * - U16550_ATTACH_DIVISOR_LATCH_OPEN if DLAB is set.
 * - U16550_ATTACH_LOOPBACK if DLAB is clear, and the chip is in loopback.
 * - U16550_ATTACH_NO_DIVISOR if neither is so, and the divisor latch reads as 0: no port is set up
 *   there, or there is none. So a bus where all registers read as 0 is refused.
 *
 * ISR was not read then, so no interrupt was acknowledged, and the driver is unchanged. For the
 * first two only LCR and MCR were read, and nothing was written. For U16550_ATTACH_NO_DIVISOR DLAB
 * was set for the look at the latch, and LCR written back.
 *
 * Proved: LCR shows that DLAB is off, MCR that loopback is off, the divisor latch a divisor, and
 * ISR whether the FIFOs are on, which the driver takes them to be; or these are read up to the one
 * that the error is about, and the driver stays as it was.
 */
static int uart_attach(struct u16550_core_driver *uart, struct uart_latch *latch)
{
    /*
     * LCR comes first, since its DLAB says what other offsets are: on later chips some of its
     * values show further registers in place of MCR and ISR. ISR comes last, after the latch
     * too, since its read may acknowledge an interrupt, and a refusal is to change nothing.
     */
    if ((uart_lcr(uart) & U16550_LCR_DLAB) != 0)
        return U16550_ATTACH_DIVISOR_LATCH_OPEN;
    if ((uart_mcr(uart) & U16550_MCR_LOOP_BACK) != 0)
        return U16550_ATTACH_LOOPBACK;
    struct uart_latch shown = uart_dll_dlm(uart);
    /* No port is set up so, and where nothing answers all registers may read as 0. */
    if (shown.dll == 0 && shown.dlm == 0)
        return U16550_ATTACH_NO_DIVISOR;
    uart->fifo_enabled = uart_isr_fifo_enabled(uart_isr(uart));
    *latch = shown;
    return U16550_OK;
}

/* Returns the backend, to read its state. Makes no access. */
static inline const struct u16550_device *uart_backend(const struct u16550_core_driver *uart)
{
    return &uart->backend;
}

/*
 * Returns the backend, for raw accesses by the caller. Makes no access itself.
 *
 * Raw accesses bypass the driver: status bits that they clear are not saved, and the driver does
 * not notice what they change. After raw accesses that changed the setup of the chip, call
 * u16550_init again with a configuration that matches.
 */
static inline struct u16550_device *uart_backend_mut(struct u16550_core_driver *uart)
{
    return &uart->backend;
}

/* Returns the number of bits per second. */
static uint32_t uart_baud_rate_bps(struct u16550_core_baud_rate baud_rate)
{
    switch (baud_rate.kind) {
    case U16550_CORE_BAUD_RATE_BAUD115200:
        return UINT32_C(115200);
    case U16550_CORE_BAUD_RATE_BAUD57600:
        return UINT32_C(57600);
    case U16550_CORE_BAUD_RATE_BAUD38400:
        return UINT32_C(38400);
    case U16550_CORE_BAUD_RATE_BAUD9600:
        return 9600;
    case U16550_CORE_BAUD_RATE_BAUD4800:
        return 4800;
    case U16550_CORE_BAUD_RATE_BAUD2400:
        return 2400;
    case U16550_CORE_BAUD_RATE_BAUD1200:
        return 1200;
    case U16550_CORE_BAUD_RATE_BAUD600:
        return 600;
    case U16550_CORE_BAUD_RATE_BAUD300:
        return 300;
    case U16550_CORE_BAUD_RATE_BAUD150:
        return 150;
    case U16550_CORE_BAUD_RATE_BAUD110:
        return 110;
    case U16550_CORE_BAUD_RATE_CUSTOM:
    default:
        return baud_rate.custom;
    }
}

/*
 * Returns whether the arithmetic of the baud rate accepts this configuration, as u16550_init
 * requires: the frequency and the baud rate are not zero, and the prescaler division factor is
 * none or at most 15.
 *
 * u16550_init may still refuse the baud rate, if its divisor is not a whole number or does not fit
 * into the divisor latch.
 */
static inline bool uart_config_is_computable(const struct u16550_core_config *config)
{
    if ((config->frequency == 0) || (uart_baud_rate_bps(config->baud_rate) == 0))
        return false;
    struct u16550_core_maybe_u32 prescaler_division_factor = config->prescaler_division_factor;
    uint32_t prescaler = prescaler_division_factor.is_some ? prescaler_division_factor.value : 0;
    return prescaler <= UART_MAX_PRESCALER;
}

/* Returns the quotient if there is no remainder. */
static inline bool uart_whole_quotient(uint32_t dividend, uint64_t divisor, uint32_t *quotient)
{
    if (uart_rest_64(dividend, divisor) != 0)
        return false;
    *quotient = (uint32_t)uart_quotient_64(dividend, divisor);
    return true;
}

/*
 * Returns the divisor for a baud rate, or the baud rate for a divisor: it is frequency / (16 *
 * (prescaler + 1) * factor), if that is a whole number. With the baud rate as the factor that is
 * the divisor, and with the divisor it is the baud rate. The product is computed in 64 bits: it
 * reaches 16 * 16 * (2^32 - 1).
 */
static inline bool
uart_divide_clock(uint32_t frequency, uint32_t factor,
    struct u16550_core_maybe_u32 prescaler_division_factor, uint32_t *quotient)
{
    uint32_t prescaler = prescaler_division_factor.is_some ? prescaler_division_factor.value : 0;
    return uart_whole_quotient(frequency,
        uart_product_64(UART_SAMPLES_PER_BIT * ((uint64_t)prescaler + 1), factor), quotient);
}

/*
 * Returns the divisor that gives a baud rate at a clock frequency in hertz: frequency / (16 *
 * (prescaler + 1) * baud_rate). Nothing is rounded.
 *
 * Errors
 *
 * - U16550_FRAME_NON_INTEGER_DIVISOR if no whole divisor gives exactly this baud rate. At the
 *   usual clock that is the case for 110 baud.
 * - U16550_FRAME_DIVISOR_OUT_OF_RANGE if one does, but it does not fit into the divisor latch of
 *   16 bits.
 *
 * Proved: the divisor that gives exactly this baud rate, if it fits into the divisor latch; the
 * error that says so if it does not fit, or if no whole divisor does.
 */
static int
uart_calc_divisor(uint32_t frequency, uint32_t baud_rate,
    struct u16550_core_maybe_u32 prescaler_division_factor, uint16_t *divisor)
{
    uint32_t quotient;
    if (!uart_divide_clock(frequency, baud_rate, prescaler_division_factor, &quotient))
        return U16550_FRAME_NON_INTEGER_DIVISOR;
    if (quotient > UINT16_MAX)
        return U16550_FRAME_DIVISOR_OUT_OF_RANGE;
    *divisor = (uint16_t)quotient;
    return U16550_OK;
}

/*
 * Returns the divisor of the configuration, if it has one.
 *
 * Proved: the divisor of a configuration, or none if there is none or none can be computed.
 */
static bool uart_configured_divisor(const struct u16550_core_driver *uart, uint16_t *divisor)
{
    if (!uart_config_is_computable(&uart->config))
        return false;
    uint32_t baud_rate = uart_baud_rate_bps(uart->config.baud_rate);
    uint16_t exact;
    if (uart_calc_divisor(uart->config.frequency, baud_rate,
        uart->config.prescaler_division_factor, &exact) != U16550_OK) {
        return false;
    }
    *divisor = exact;
    return true;
}

/*
 * Returns this word length as LCR has it.
 *
 * Proved: these bits are the code of this word length.
 */
static uint8_t uart_lcr_of_word_length(uint8_t word_length)
{
    switch (word_length) {
    case U16550_CORE_WORD_LENGTH_FIVE_BITS:
        return U16550_LCR_WORD_LENGTH_5;
    case U16550_CORE_WORD_LENGTH_SIX_BITS:
        return U16550_LCR_WORD_LENGTH_6;
    case U16550_CORE_WORD_LENGTH_SEVEN_BITS:
        return U16550_LCR_WORD_LENGTH_7;
    case U16550_CORE_WORD_LENGTH_EIGHT_BITS:
    default:
        return U16550_LCR_WORD_LENGTH_8;
    }
}

/*
 * Returns this parity as LCR has it.
 *
 * Proved: these bits are a code of this parity.
 */
static uint8_t uart_lcr_of_parity(uint8_t parity)
{
    switch (parity) {
    case U16550_PARITY_NONE:
        return 0x00;
    case U16550_PARITY_ODD:
        return U16550_LCR_PARITY_ENABLE;
    case U16550_PARITY_EVEN:
        return U16550_LCR_PARITY_ENABLE | U16550_LCR_PARITY_EVEN;
    case U16550_PARITY_FORCED_1:
        return U16550_LCR_PARITY_ENABLE | U16550_LCR_PARITY_STICK;
    case U16550_PARITY_FORCED_0:
    default:
        return U16550_LCR_PARITY_ENABLE | U16550_LCR_PARITY_EVEN | U16550_LCR_PARITY_STICK;
    }
}

/* Returns LCR for a configuration. */
static inline uint8_t uart_lcr_of_config(const struct u16550_core_config *config)
{
    uint8_t length_bits = uart_lcr_of_word_length(config->data_bits);
    uint8_t lcr = length_bits | uart_lcr_of_parity(config->parity);
    if (config->extra_stop_bits)
        lcr |= U16550_LCR_MORE_STOP_BITS;
    return lcr;
}

/*
 * Checks the frame. A break is no part of it: u16550_set_break does not store one.
 *
 * Proved: LCR shows this frame, with or without a break.
 */
static int
uart_check_frame(struct u16550_core_driver *uart, uint8_t expected,
    struct u16550_difference *difference)
{
    uint8_t shown = uart_lcr(uart);
    if ((shown & (uint8_t)~U16550_LCR_SET_BREAK) != expected) {
        difference->expected = expected;
        difference->shown = shown;
        return U16550_CONFIGURATION_LINE_CONTROL;
    }
    return U16550_OK;
}

/*
 * Checks the outputs to the modem.
 *
 * Proved: MCR shows these outputs.
 */
static int
uart_check_outputs(struct u16550_core_driver *uart, uint8_t expected,
    struct u16550_difference *difference)
{
    uint8_t shown = uart_mcr(uart);
    if (shown != expected) {
        difference->expected = expected;
        difference->shown = shown;
        return U16550_CONFIGURATION_MODEM_CONTROL;
    }
    return U16550_OK;
}

/* Reads and returns the interrupt enable register (IER). Reading it changes nothing. */
static inline uint8_t uart_ier(struct u16550_core_driver *uart)
{
    return uart_read_register(uart, UART_IER);
}

/*
 * Checks the interrupts that are enabled.
 *
 * Proved: IER shows these interrupts.
 */
static int
uart_check_interrupts(struct u16550_core_driver *uart, uint8_t expected,
    struct u16550_difference *difference)
{
    uint8_t shown = uart_ier(uart);
    if (shown != expected) {
        difference->expected = expected;
        difference->shown = shown;
        return U16550_CONFIGURATION_INTERRUPTS;
    }
    return U16550_OK;
}

/*
 * Writes LCR, and checks that the chip took it.
 *
 * Proved: LCR is written with this value, and shows it.
 */
static int
uart_keep_line(struct u16550_core_driver *uart, uint8_t expected,
    struct u16550_difference *difference)
{
    uart_write_register(uart, UART_LCR, expected);
    uint8_t shown = uart_lcr(uart);
    if (shown != expected) {
        difference->expected = expected;
        difference->shown = shown;
        return U16550_CONFIGURATION_LINE_CONTROL;
    }
    return U16550_OK;
}

/*
 * Checks the divisor latch, and leaves it closed.
 *
 * Proved: LCR is read, and then the latch opened and read. If it was not opened, it is not read.
 */
static int
uart_check_divisor(struct u16550_core_driver *uart, uint16_t expected,
    struct u16550_difference *difference)
{
    uint8_t lcr = uart_lcr(uart);
    /*
     * If DLAB was not taken, offset 0 is still the receiver, and a read takes a byte from it.
     */
    int status = uart_keep_line(uart, lcr | U16550_LCR_DLAB, difference);
    if (status != U16550_OK) {
        uart_write_register(uart, UART_LCR, lcr);
        return status;
    }
    uint8_t dll = uart_read_register(uart, UART_DLL);
    uint8_t dlm = uart_read_register(uart, UART_DLM);
    /*
     * While DLAB is still set, neither data nor IER can be reached, so that is told before a
     * wrong divisor.
     */
    status = uart_keep_line(uart, lcr, difference);
    if (status != U16550_OK)
        return status;
    uint16_t shown = (uint16_t)(((uint16_t)dlm << 8) | dll);
    if (shown != expected) {
        difference->expected = expected;
        difference->shown = shown;
        return U16550_CONFIGURATION_DIVISOR;
    }
    return U16550_OK;
}

/*
 * Checks whether the FIFOs are on.
 *
 * Proved: ISR shows that the FIFOs are on exactly if the driver takes them to be on.
 */
static int
uart_check_fifos(struct u16550_core_driver *uart, uint8_t interrupts,
    struct u16550_difference *difference)
{
    bool expected = uart->fifo_enabled;
    /*
     * With no interrupt enabled ISR shows none, so its read acknowledges no THR_EMPTY. If that
     * is enabled and the transmitter is empty, the last write raises it again.
     */
    uart_write_register(uart, UART_IER, 0);
    bool shown = uart_isr_fifo_enabled(uart_isr(uart));
    uart_write_register(uart, UART_IER, interrupts);
    if (shown != expected) {
        difference->expected = expected;
        difference->shown = shown;
        return U16550_CONFIGURATION_FIFOS;
    }
    return U16550_OK;
}

/*
 * Checks the registers in turn.
 *
 * Proved: the registers in turn. What is only read comes first, so that a fault there is found
 * before anything is written.
 */
static int
uart_check_registers(struct u16550_core_driver *uart, uint8_t frame, uint8_t outputs,
    uint8_t interrupts, uint16_t divisor, struct u16550_difference *difference)
{
    /*
     * LCR comes first, since its DLAB says what other offsets are. What is only read comes
     * before what has to be written for it.
     */
    int status = uart_check_frame(uart, frame, difference);
    if (status != U16550_OK)
        return status;
    status = uart_check_outputs(uart, outputs, difference);
    if (status != U16550_OK)
        return status;
    status = uart_check_interrupts(uart, interrupts, difference);
    if (status != U16550_OK)
        return status;
    status = uart_check_divisor(uart, divisor, difference);
    if (status != U16550_OK)
        return status;
    return uart_check_fifos(uart, interrupts, difference);
}

/*
 * Checks, register by register, whether the chip shows what was written to it: the frame, the
 * outputs to the modem and the interrupts, the divisor, and whether the FIFOs are on.
 *
 * What is expected is the configuration of the driver (config), these outputs, which after
 * u16550_init are DTR, RTS and OUT2, and the FIFOs as fifo_enabled says. LOOP_BACK is left out of
 * the outputs. A break may be on.
 *
 * Call it after u16550_init, u16550_init_with, u16550_set_frame or u16550_set_frame_when_idle on a
 * chip that may ignore a write: these calls do not read back what they wrote. A DesignWare UART
 * ignores LCR while it sends, receives, or has received data. After u16550_attach and
 * u16550_restore the driver does not know the divisor, so a difference does not tell much.
 *
 * Does not wait: makes at most 13 accesses. To read the divisor it sets DLAB, as u16550_dll_dlm
 * does, but reads offset 0 only if LCR shows that DLAB is set. To read ISR it writes 0 to IER, and
 * writes the interrupts back: so no interrupt is acknowledged, and the interrupt output falls and
 * rises as in u16550_retrigger_interrupts. No received byte is read, and nothing that is saved for
 * u16550_lsr or u16550_msr changes.
 *
 * Errors
 *
 * The first difference, in this order:
 *
 * - U16550_CONFIGURATION_NO_DIVISOR if the configuration has no divisor, or is not computable
 *   (uart_config_is_computable). No access was made.
 * - U16550_CONFIGURATION_LINE_CONTROL if LCR shows another frame, or DLAB. LCR alone was read.
 * - U16550_CONFIGURATION_MODEM_CONTROL if MCR shows other outputs, or loopback. Nothing was
 *   written.
 * - U16550_CONFIGURATION_INTERRUPTS if IER shows other interrupts. Nothing was written.
 * - U16550_CONFIGURATION_LINE_CONTROL if LCR does not show DLAB after that was set, and then LCR
 *   was written as it was before; or if LCR does not show that DLAB was cleared again.
 * - U16550_CONFIGURATION_DIVISOR if the divisor latch shows another divisor. DLAB is clear again.
 * - U16550_CONFIGURATION_FIFOS if ISR shows FIFOs that are on where the driver takes them to be
 *   off, or the other way round.
 *
 * Proved: the registers show the configuration and these outputs, without loopback; or one does
 * not, and the error has what was asked for and what it shows; or the configuration has no
 * divisor, and no access was made.
 */
static inline int
uart_check_configured(struct u16550_core_driver *uart, uint8_t outputs,
    struct u16550_difference *difference)
{
    uint16_t divisor;
    if (!uart_configured_divisor(uart, &divisor))
        return U16550_CONFIGURATION_NO_DIVISOR;
    uint8_t frame = uart_lcr_of_config(&uart->config);
    return uart_check_registers(uart, frame, outputs & (uint8_t)~U16550_MCR_LOOP_BACK,
        uart->config.interrupts, divisor, difference);
}

/* Reads MSR, and saves the changes that the read clears in the chip. */
static inline uint8_t uart_read_msr(struct u16550_core_driver *uart)
{
    uint8_t msr = uart_device_read(&uart->backend, UART_MSR);
    uart->saved_msr |= msr & U16550_MSR_CHANGES;
    return msr;
}

/*
 * Checks whether a remote is present and ready to receive: whether MSR shows DSR and CTS.
 *
 * Does not wait: reads MSR once. The changes that this clears are saved for the next u16550_msr.
 * Many cables never assert DSR or CTS, so sending may work even if this call fails. Call it again
 * after a modem status interrupt.
 *
 * Errors
 *
 * - U16550_REMOTE_NO_DSR if DSR is clear.
 * - U16550_REMOTE_NOT_CLEAR_TO_SEND if DSR is set and CTS is clear.
 *
 * U16550_REMOTE_NO_CD is never returned.
 *
 * Proved: one read of MSR, which shows DSR and CTS; or which does not show the one that the error
 * names.
 */
static inline int uart_check_connected(struct u16550_core_driver *uart)
{
    uint8_t msr = uart_read_msr(uart);
    if ((msr & U16550_MSR_DSR) == 0)
        return U16550_REMOTE_NO_DSR;
    if ((msr & U16550_MSR_CTS) == 0)
        return U16550_REMOTE_NOT_CLEAR_TO_SEND;
    return U16550_OK;
}

/*
 * Writes a pattern to the scratch register, and returns whether it reads back.
 *
 * Proved: the scratch register is written with a pattern and keeps it, or not.
 */
static inline bool uart_keeps(struct u16550_core_driver *uart, uint8_t pattern)
{
    uart_write_register(uart, UART_SPR, pattern);
    return uart_read_register(uart, UART_SPR) == pattern;
}

/*
 * Proved: the first pattern is written and, if it is kept, the second; the result is whether both
 * were kept.
 */
static inline bool uart_keeps_patterns(struct u16550_core_driver *uart)
{
    return uart_keeps(uart, UART_FIRST_PATTERN) && uart_keeps(uart, UART_SECOND_PATTERN);
}

/*
 * Returns whether a device is present: whether its scratch register (SPR) keeps what is written to
 * it.
 *
 * Reads SPR, writes a pattern and reads it back, tries a second pattern if the first was kept, and
 * restores SPR. Nothing else changes in the chip. Does not wait: makes 4 or 6 accesses.
 * u16550_init makes the same check.
 *
 * Proved: the scratch register is read, tested with the patterns, and restored.
 */
static inline bool uart_check_present(struct u16550_core_driver *uart)
{
    uint8_t old = uart_read_register(uart, UART_SPR);
    bool present = uart_keeps_patterns(uart);
    uart_write_register(uart, UART_SPR, old);
    return present;
}

/*
 * Returns the configuration of the last u16550_init, with the interrupts as they were enabled and
 * disabled since, and with the clock, the baud rate and the frame of the last u16550_set_frame
 * since. Makes no access.
 *
 * If that u16550_init failed with a number that tells of the baud rate, it is the configuration
 * before it. If it failed with U16550_INIT_DEVICE_NOT_PRESENT or U16550_INIT_STALLED, it is the
 * new one.
 */
static inline const struct u16550_core_config *uart_config(const struct u16550_core_driver *uart)
{
    return &uart->config;
}

/* Reads LSR, and saves the errors that the read clears in the chip. */
static inline uint8_t uart_read_lsr(struct u16550_core_driver *uart)
{
    uint8_t lsr = uart_device_read(&uart->backend, UART_LSR);
    uart->saved_lsr |= lsr & U16550_LSR_LINE_ERRORS;
    return lsr;
}

/* Reads and returns the scratch register (SPR), which the chip does not use. */
static inline uint8_t uart_spr(struct u16550_core_driver *uart)
{
    return uart_read_register(uart, UART_SPR);
}

/*
 * Reads the divisor latch and then IER, ISR, LCR, MCR, LSR, MSR and SPR, and returns them. It is
 * meant for debugging.
 *
 * LSR and MSR are returned joined with the saved bits, which stay saved. The read of ISR
 * acknowledges a THR_EMPTY interrupt, and DLAB is set for a moment, as by u16550_dll_dlm. Does not
 * wait: makes 12 accesses.
 */
static struct u16550_dump uart_config_register_dump(struct u16550_core_driver *uart)
{
    struct uart_latch latch = uart_dll_dlm(uart);
    struct u16550_dump dump;
    dump.dll = latch.dll;
    dump.dlm = latch.dlm;
    dump.ier = uart_ier(uart);
    dump.isr = uart_isr(uart);
    dump.lcr = uart_lcr(uart);
    dump.mcr = uart_mcr(uart);
    uint8_t lsr = uart_read_lsr(uart);
    dump.lsr = lsr | uart->saved_lsr;
    uint8_t msr = uart_read_msr(uart);
    dump.msr = msr | uart->saved_msr;
    dump.spr = uart_spr(uart);
    return dump;
}

/*
 * Stores the interrupts in the configuration, and writes them.
 *
 * Proved: the interrupts are stored in the configuration and written to IER.
 */
static inline void uart_store_interrupts(struct u16550_core_driver *uart, uint8_t enabled)
{
    uart->config.interrupts = enabled;
    uart_write_register(uart, UART_IER, enabled);
}

/*
 * Disables these interrupts and leaves the others: reads IER, removes them, stores the result in
 * the configuration, and writes it.
 *
 * Proved: IER is read; what it shows, without these bits, is stored in the configuration and
 * written.
 */
static inline void uart_disable_interrupts(struct u16550_core_driver *uart, uint8_t interrupts)
{
    uart_store_interrupts(uart, uart_ier(uart) & (uint8_t)~interrupts);
}

/*
 * Polls LSR until it shows these bits, or until the limit. Each call counts anew: the polls that
 * count are those in a row.
 *
 * Proved: a wait for these bits of LSR: fewer reads without them than the limit and then one with
 * them; or as many without them.
 */
static inline bool uart_wait_for(struct u16550_core_driver *uart, uint8_t bits)
{
    uint64_t spin_limit = uart->spin_limit;
    for (uint64_t turn = 0; turn < spin_limit; turn++) {
        if ((uart_read_lsr(uart) & bits) == bits)
            return true;
    }
    return false;
}

/*
 * Returns the trigger level for FIFOs that are on: the configured one, or one byte if none is
 * configured, as on a port that was taken by u16550_attach.
 */
static inline uint8_t uart_fifo_level(const struct u16550_core_driver *uart)
{
    struct u16550_core_maybe_fifo_trigger_level fifo_trigger_level =
        uart->config.fifo_trigger_level;
    return fifo_trigger_level.is_some ? fifo_trigger_level.value
        : (uint8_t)U16550_CORE_FIFO_TRIGGER_LEVEL_ONE;
}

/*
 * Returns this trigger level as FCR has it.
 *
 * Proved: these bits are the code of this trigger level.
 */
static uint8_t uart_fcr_of_trigger_level(uint8_t fifo_trigger_level)
{
    switch (fifo_trigger_level) {
    case U16550_CORE_FIFO_TRIGGER_LEVEL_ONE:
        return U16550_FCR_TRIGGER_1;
    case U16550_CORE_FIFO_TRIGGER_LEVEL_FOUR:
        return U16550_FCR_TRIGGER_4;
    case U16550_CORE_FIFO_TRIGGER_LEVEL_EIGHT:
        return U16550_FCR_TRIGGER_8;
    case U16550_CORE_FIFO_TRIGGER_LEVEL_FOURTEEN:
    default:
        return U16550_FCR_TRIGGER_14;
    }
}

/*
 * Returns FCR for FIFOs that are on and stay on. Without the reset bits the bytes in them stay.
 */
static inline uint8_t uart_fcr_of_running_fifos(uint8_t level)
{
    return U16550_FCR_FIFO_ENABLE | uart_fcr_of_trigger_level(level);
}

/* Returns whether this is what a 16750 shows while its FIFOs are on and hold 64. */
static inline bool uart_is_64_shown(uint8_t isr)
{
    /*
     * A 16750 leaves bit 4 clear. Where nobody answers a bus mostly shows FF or 7F, which have
     * it.
     */
    return uart_isr_fifo_enabled(isr) && (isr & U16550_ISR_FIFO_64_ENABLED) != 0 &&
        (isr & U16550_ISR_DMA_RX_END) == 0;
}

/*
 * Turns on the FIFOs of 64 characters of a 16750, which has FIFOs of 16 after power-on. Returns
 * whether the FIFOs hold 64 then. It does not set the size of the driver: u16550_set_fifo_size
 * does.
 *
 * Call it after u16550_init, and again after a reset of the chip. The answer is whether ISR shows
 * bits 5 to 7 set and bit 4 clear after a write of FCR without DLAB, as other calls make it. A
 * chip that ends the mode there counts as one of 16, and so does a bus where nobody answers: FF
 * and 7F are false, and 0 is U16550_FIFOS_STALLED. On a chip that shows something else in these
 * bits the answer is of no use.
 *
 * Nothing goes out on the line, but for what is in the transmitter already: the call waits until
 * it is empty, at most spin_limit polls. A chip that switches empties its FIFOs, so bytes that
 * were received and not taken are lost: take them first. A chip that does not switch loses
 * nothing.
 *
 * Reads LCR and IER. After the wait it disables all interrupts, writes FCR while DLAB is set,
 * restores LCR, writes FCR once more, reads ISR, and restores IER. While DLAB is set, offsets 0
 * and 1 are the latch, as in u16550_dll_dlm, so nothing else may access the chip. The level of the
 * receiver FIFO is that of the configuration, or one byte if none is configured. Error bits are
 * saved for the next u16550_lsr. If THR_EMPTY is enabled, the chip raises that interrupt again.
 *
 * Errors
 *
 * - U16550_FIFOS_OFF if the FIFOs are off (fifo_enabled). No access was made.
 * - U16550_FIFOS_STALLED if the transmitter was not empty after spin_limit polls. Nothing was
 *   written.
 *
 * Proved: nothing is done if the FIFOs are off. Else LCR and IER are read, and there is a wait for
 * an empty transmitter. If it reaches the limit, nothing is written, and the result is a stall;
 * else FIFOs of 64 are asked for, and the result is whether ISR shows them.
 */
static int uart_enable_64_byte_fifos(struct u16550_core_driver *uart, bool *enabled)
{
    if (!uart->fifo_enabled)
        return U16550_FIFOS_OFF;
    uint8_t lcr = uart_lcr(uart);
    uint8_t ier = uart_ier(uart);
    /* A chip that switches empties its FIFOs: a byte that is still to go out would be lost. */
    if (!uart_wait_for(uart, U16550_LSR_TRANSMITTER_EMPTY))
        return U16550_FIFOS_STALLED;
    uint8_t control = uart_fcr_of_running_fifos(uart_fifo_level(uart));
    /*
     * With two stop bits the frame may make LCR 0xbf, for which later chips show another
     * register in place of FCR. A receiver looks at one stop bit, so it loses no character.
     * While DLAB is set a handler could reach neither data nor IER.
     */
    uart_write_register(uart, UART_IER, 0);
    /* A 16750 looks at the bit only while DLAB is set, by its data sheet. */
    uart_write_register(uart, UART_LCR,
        (lcr & (uint8_t)~U16550_LCR_MORE_STOP_BITS) | U16550_LCR_DLAB);
    uart_write_register(uart, UART_FCR, control | U16550_FCR_FIFO_64_ENABLE);
    uart_write_register(uart, UART_LCR, lcr);
    /*
     * So it keeps its FIFOs of 64 here. A chip that looks at the bit always leaves them, and
     * would do so at the next call that writes FCR: bytes that were written for them would be
     * lost. The answer is what stays.
     */
    uart_write_register(uart, UART_FCR, control);
    /* IER is still 0, so this read acknowledges no interrupt. */
    bool on = uart_is_64_shown(uart_isr(uart));
    uart_write_register(uart, UART_IER, ier);
    *enabled = on;
    return U16550_OK;
}

/*
 * Enables these interrupts in addition to those that are enabled: reads IER, adds them, stores the
 * result in the configuration, and writes it.
 *
 * Bits that the chip does not keep read as clear, so they vanish from the interrupts of the
 * configuration at the next such call. Not every device raises an interrupt if THR_EMPTY is
 * enabled while the transmitter is already empty: send the first bytes directly, and the rest on
 * interrupts.
 *
 * Proved: IER is read; what it shows, with these bits added, is stored in the configuration and
 * written.
 */
static inline void uart_enable_interrupts(struct u16550_core_driver *uart, uint8_t interrupts)
{
    uart_store_interrupts(uart, uart_ier(uart) | interrupts);
}

/*
 * Returns whether the chip has a FIFO that is on, as the last call that sets the FIFO up read it
 * from ISR: u16550_init, u16550_init_with, u16550_attach, u16550_test_loopback,
 * u16550_find_fifo_size or u16550_restore. After a u16550_quiesce that disables the FIFOs it is
 * off. Makes no access.
 *
 * A driver that was never initialised takes the FIFO to be on. If it is on, a send check is
 * followed by up to as many bytes as fifo_size says, else by one.
 */
static inline bool uart_fifo_enabled(const struct u16550_core_driver *uart)
{
    return uart->fifo_enabled;
}

/*
 * Returns which size the FIFOs are taken to have: 16 characters, or what u16550_set_fifo_size set
 * last. Makes no access.
 */
static inline uint8_t uart_fifo_size(const struct u16550_core_driver *uart)
{
    return uart->fifo_size;
}

/* Returns the trigger level for FIFOs that are on, and none for FIFOs that are off. */
static struct u16550_core_maybe_fifo_trigger_level
uart_level_of(const struct u16550_core_driver *uart, bool on)
{
    if (on) {
        struct u16550_core_maybe_fifo_trigger_level level = { true, uart_fifo_level(uart) };
        return level;
    }
    struct u16550_core_maybe_fifo_trigger_level none =
        { false, U16550_CORE_FIFO_TRIGGER_LEVEL_ONE };
    return none;
}

/* Returns FCR for a trigger level. */
static inline uint8_t uart_fcr_resetting_fifos(struct u16550_core_maybe_fifo_trigger_level level)
{
    uint8_t resets = U16550_FCR_RX_FIFO_RESET | U16550_FCR_TX_FIFO_RESET;
    /*
     * Without a level the enable bit is clear. That turns the FIFOs off, and so empties them.
     * If they were off already, a chip ignores the reset bits.
     */
    if (level.is_some)
        return resets | U16550_FCR_FIFO_ENABLE | uart_fcr_of_trigger_level(level.value);
    return resets;
}

/*
 * Resets the FIFOs, enables them if there is a level, and returns whether they are on then.
 *
 * Proved: the FIFO step: FCR is written and, if a level is configured, ISR shows whether the FIFO
 * is on.
 */
static inline bool
uart_set_fifo(struct u16550_core_driver *uart, struct u16550_core_maybe_fifo_trigger_level level)
{
    uart_write_register(uart, UART_FCR, uart_fcr_resetting_fifos(level));
    return level.is_some && uart_isr_fifo_enabled(uart_isr(uart));
}

/*
 * Reads the modem lines, and sets the device to loopback with interrupts off, and with FIFOs of
 * this level, if there is one.
 *
 * Proved: MSR is read, interrupts are switched off, loopback is switched on, and the FIFO step is
 * made with this level.
 */
static inline uint8_t
uart_enter_loopback(struct u16550_core_driver *uart,
    struct u16550_core_maybe_fifo_trigger_level level)
{
    /* Loopback connects the modem's inputs to the outputs. So the lines are read before. */
    uint8_t before = uart_read_msr(uart);
    /* A handler would take the bytes that come back. */
    uart_write_register(uart, UART_IER, 0);
    uart_write_register(uart, UART_MCR, U16550_MCR_LOOP_BACK);
    /* Bytes that were received before are gone after the reset. */
    uart->fifo_enabled = uart_set_fifo(uart, level);
    return before;
}

/*
 * Checks whether a received byte is available: whether LSR shows DATA_READY.
 *
 * Does not wait: reads LSR once. The error bits that this clears are saved for the next
 * u16550_lsr.
 *
 * Returns false if no byte is available.
 *
 * Proved: one read of LSR, which shows a received byte exactly if the result is true.
 */
static inline bool uart_ready_to_receive(struct u16550_core_driver *uart)
{
    return (uart_read_lsr(uart) & U16550_LSR_DATA_READY) != 0;
}

/*
 * Receives one byte if one is available: reads LSR, and if it shows DATA_READY, RBR.
 *
 * Does not wait. The error bits that the read of LSR clears are saved for the next u16550_lsr;
 * they belong to the byte that is then received, except for an overrun.
 *
 * Returns false if no byte is available. RBR was not read then.
 *
 * Proved: LSR shows a received byte, which is read from DATA and returned; or LSR shows none.
 */
static inline bool uart_try_receive_byte(struct u16550_core_driver *uart, uint8_t *byte)
{
    if (!uart_ready_to_receive(uart))
        return false;
    *byte = uart_read_register(uart, UART_DATA);
    return true;
}

/*
 * Discards received bytes until none is available: a byte from before the test would be taken for
 * the first that returns. Returns false after as many bytes as the spin limit, right after the
 * last of them. So with a limit of 1 one byte is too many, even if none is behind it.
 *
 * Proved: bytes that were received before the test are taken until none is available; or as many
 * as the limit were taken.
 */
static bool uart_drain_received(struct u16550_core_driver *uart)
{
    uint64_t spin_limit = uart->spin_limit;
    for (uint64_t turn = 0; turn < spin_limit; turn++) {
        uint8_t byte;
        if (!uart_try_receive_byte(uart, &byte))
            return true;
    }
    return false;
}

/* Writes a byte to DATA. */
static inline void uart_write_byte(struct u16550_core_driver *uart, uint8_t byte)
{
    uart_device_write(&uart->backend, UART_DATA, byte);
}

/* Writes the test byte so many times, with no look between: what does not fit is lost. */
static inline void uart_flood(struct u16550_core_driver *uart, size_t count)
{
    for (size_t turn = 0; turn < count; turn++)
        uart_write_byte(uart, UART_TEST_BYTE);
}

/*
 * Takes what came back, and returns how many bytes that were. No more can come back than were
 * sent, so no look follows the last of so many.
 *
 * Proved: bytes that came back are taken, until LSR shows none, or as many as were sent were
 * taken: so many.
 */
static inline size_t uart_take_back(struct u16550_core_driver *uart)
{
    for (size_t count = 0; count < UART_FLOOD_LENGTH; count++) {
        uint8_t byte;
        if (!uart_try_receive_byte(uart, &byte))
            return count;
    }
    return UART_FLOOD_LENGTH;
}

/*
 * Returns the largest size of no more than so many characters, or none if there is none.
 *
 * So a burst of the size that is returned is safe on a chip that holds so many.
 *
 * Proved: the largest size of no more than so many characters; none, if the smallest has more.
 */
static bool uart_fifo_size_up_to(size_t characters, uint8_t *size)
{
    if (characters < 16)
        return false;
    if (characters < 32) {
        *size = U16550_CORE_FIFO_SIZE_SIXTEEN;
        return true;
    }
    if (characters < 64) {
        *size = U16550_CORE_FIFO_SIZE_THIRTY_TWO;
        return true;
    }
    if (characters < 128) {
        *size = U16550_CORE_FIFO_SIZE_SIXTY_FOUR;
        return true;
    }
    if (characters < 256) {
        *size = U16550_CORE_FIFO_SIZE_ONE_HUNDRED_TWENTY_EIGHT;
        return true;
    }
    *size = U16550_CORE_FIFO_SIZE_TWO_HUNDRED_FIFTY_SIX;
    return true;
}

/*
 * Floods the transmitter, and tells the size by what comes back, while the device is in loopback.
 *
 * Proved: bytes from before are taken, the transmitter is flooded, and, once it is empty, what
 * came back is counted; or one of the two waits reaches the limit.
 */
static int uart_find_size(struct u16550_core_driver *uart, uint8_t *size)
{
    /* A byte from before would be counted. */
    if (!uart_drain_received(uart))
        return U16550_FIFOS_STALLED;
    uart_flood(uart, UART_FLOOD_LENGTH);
    if (!uart_wait_for(uart, U16550_LSR_TRANSMITTER_EMPTY))
        return U16550_FIFOS_STALLED;
    /*
     * Nothing was taken meanwhile. So the receiver's FIFO has as many as it holds, and lost the
     * others.
     */
    if (!uart_fifo_size_up_to(uart_take_back(uart), size))
        return U16550_FIFOS_TOO_FEW;
    return U16550_OK;
}

/*
 * Measures, and resets the FIFOs then. What a wait that reached the limit has left in the
 * transmitter would go out otherwise, as soon as loopback is left.
 *
 * Proved: the measure, and then the FIFO step, which discards what is left of it.
 */
static inline int
uart_find_and_reset(struct u16550_core_driver *uart,
    struct u16550_core_maybe_fifo_trigger_level level, uint8_t *size)
{
    int status = uart_find_size(uart, size);
    uart->fifo_enabled = uart_set_fifo(uart, level);
    return status;
}

/* Returns whether this line has changed. */
static inline bool uart_msr_is_changed(uint8_t msr, uint8_t before, uint8_t line)
{
    return (before & line) != (msr & line);
}

/* Returns these bits if the condition holds, else none. */
static inline uint8_t uart_bits_if(bool on, uint8_t bits)
{
    return on ? bits : 0;
}

/*
 * Returns the changes of the lines since an earlier reading, as their bits: of RI only its
 * trailing edge, from set to clear.
 */
static uint8_t uart_msr_changes_since(uint8_t msr, uint8_t before)
{
    uint8_t cts =
        uart_bits_if(uart_msr_is_changed(msr, before, U16550_MSR_CTS), U16550_MSR_DELTA_CTS);
    uint8_t dsr =
        uart_bits_if(uart_msr_is_changed(msr, before, U16550_MSR_DSR), U16550_MSR_DELTA_DSR);
    uint8_t ri =
        uart_bits_if((before & U16550_MSR_RI) != 0 && (msr & U16550_MSR_RI) == 0,
        U16550_MSR_TRAILING_EDGE_RI);
    return cts | dsr |
        (ri | uart_bits_if(uart_msr_is_changed(msr, before, U16550_MSR_CD), U16550_MSR_DELTA_CD));
}

/*
 * Leaves loopback, restores MCR and IER, and saves the changes of the lines that are not due to
 * the test.
 *
 * Proved: loopback is left, MCR and IER are restored, changes of the lines are saved, and the
 * saved errors are those noted before.
 */
static void
uart_leave_loopback(struct u16550_core_driver *uart, uint8_t mcr, uint8_t ier, uint8_t before,
    uint8_t noted)
{
    /*
     * The inputs are the modem's lines again. Those that are set change by that, which is a
     * modem status interrupt. OUT2 stays clear until the read of MSR has cleared it, and IER is
     * still 0. Otherwise the interrupt line would rise for a moment, and a controller that
     * detects edges would call the handler for nothing.
     */
    uart_write_register(uart, UART_MCR, mcr & (uint8_t)~U16550_MCR_OUT_2_INT_ENABLE);
    /*
     * The change bits that this read clears tell what the test did. What happened to the lines
     * is found by comparing them with those before.
     */
    uint8_t now = uart_read_register(uart, UART_MSR);
    uart_write_register(uart, UART_MCR, mcr);
    uart_write_register(uart, UART_IER, ier);
    uint8_t changes = uart_msr_changes_since(now, before);
    uart->saved_msr |= changes;
    /* Errors in loopback are those of the test's bytes, or of bytes that it has discarded. */
    uart->saved_lsr = noted;
}

/*
 * Finds how many characters the FIFOs of the chip hold as they are set up now: the largest size
 * that is safe in u16550_set_fifo_size and u16550_send_burst. It does not set it.
 *
 * Sends 257 bytes in loopback without looking, and counts those that come back: they are as many
 * as the smaller of the two FIFOs holds, or few more. A count between two sizes gives the lower
 * one. Call it after u16550_init, on a chip that passed u16550_test_loopback, and keep the answer:
 * it holds until something changes the mode of the FIFOs, as another driver or a reset.
 *
 * Nothing goes out on the line, but for what is in the transmitter already: the call waits until
 * it is empty. Then it takes as long as its bytes need at the baud rate that is set up, for a FIFO
 * of 256 about 268 ms at 9,600 baud and 22 ms at 115,200. What arrives on the line meanwhile is
 * lost, and so are bytes that were received before and not taken: take them first. The divisor and
 * the frame stay as they are.
 *
 * Waits at most spin_limit polls each time. The errors that are found in loopback are those of its
 * own bytes, the overrun among them, and are discarded; error bits that were saved before it stay
 * saved. Changes of the modem lines are saved as by u16550_test_loopback. The FIFOs are reset and
 * set up again, with the level of the configuration, or one byte if none is configured, and
 * fifo_enabled is read again. Afterwards MCR and IER are as before.
 *
 * A chip whose transmitter holds fewer characters than its receiver is measured right only if the
 * transmitter sends little while the bytes are written, that is at usual baud rates.
 *
 * Errors
 *
 * - U16550_FIFOS_OFF if the FIFOs are off (fifo_enabled). No access was made.
 * - U16550_FIFOS_STALLED after spin_limit unsuccessful polls in a row. If the first wait failed,
 *   nothing was written, and what the polls cleared is saved. Later the FIFOs are reset, so that
 *   of the bytes in the transmitter at most the rest of one character goes out. On a chip without
 *   FIFOs, which a reset of them does not empty, up to two bytes may go out.
 * - U16550_FIFOS_TOO_FEW if fewer than 16 bytes came back. Call u16550_test_loopback to see
 *   whether any does.
 *
 * Except for the first wait, MCR and IER are restored before the error is returned.
 *
 * Proved: nothing is done if the FIFOs are off. Else MCR and IER are read, and there is a wait for
 * an empty transmitter. If it reaches the limit, nothing is written, and the result is a stall;
 * else loopback is entered, the transmitter is flooded, what comes back is counted, the FIFOs are
 * reset, and MCR and IER are restored. The result is the largest size of no more characters than
 * came back.
 */
static int uart_find_fifo_size(struct u16550_core_driver *uart, uint8_t *size)
{
    if (!uart->fifo_enabled)
        return U16550_FIFOS_OFF;
    uint8_t mcr = uart_mcr(uart);
    uint8_t ier = uart_ier(uart);
    /* A byte that is still to go out would be counted, and would never reach the remote. */
    if (!uart_wait_for(uart, U16550_LSR_TRANSMITTER_EMPTY))
        return U16550_FIFOS_STALLED;
    uint8_t noted = uart->saved_lsr;
    struct u16550_core_maybe_fifo_trigger_level level = uart_level_of(uart, true);
    uint8_t before = uart_enter_loopback(uart, level);
    int status = uart_find_and_reset(uart, level, size);
    uart_leave_loopback(uart, mcr, ier, before, noted);
    return status;
}

/*
 * Waits until LSR shows TRANSMITTER_EMPTY, as u16550_flush does, and no longer than the caller
 * wants: patience is asked after each poll that fails.
 *
 * So the wait can end at a time, by whatever clock the caller has. It ends after spin_limit
 * unsuccessful polls in a row too. No poll follows the answer to wait no longer. Error bits are
 * saved for the next u16550_lsr, and do not end the call.
 *
 * Errors
 *
 * U16550_WAIT_ENDED if patience answered to wait no longer, or U16550_STALLED after spin_limit
 * unsuccessful polls in a row. What was sent goes on to leave the chip.
 *
 * Proved: with the answers of the caller: the transmitter was empty after fewer misses in a row
 * than the limit; or the wait was in vain, and the result tells what ended it.
 */
static int uart_flush_while(struct u16550_core_driver *uart, struct uart_patience *patience)
{
    uint64_t spin_limit = uart->spin_limit;
    for (uint64_t poll = 0; poll < spin_limit; poll++) {
        if ((uart_read_lsr(uart) & U16550_LSR_TRANSMITTER_EMPTY) != 0)
            return U16550_OK;
        if (!uart_patience_keep_waiting(patience))
            return U16550_WAIT_ENDED;
    }
    return U16550_STALLED;
}

/* Returns a driver over this backend that continues from this state. Makes no access. */
static struct u16550_core_driver
uart_from_state(struct u16550_device backend, const struct uart_driver_state *state)
{
    struct u16550_core_config config = state->config;
    struct u16550_core_driver uart;
    uart.backend = backend;
    uart.config = config;
    uart.fifo_enabled = state->fifo_enabled;
    uart.fifo_size = state->fifo_size;
    uart.saved_lsr = state->saved_lsr;
    uart.saved_msr = state->saved_msr;
    uart.spin_limit = state->spin_limit;
    return uart;
}

/*
 * Turns interrupts off, and sets the divisor and the frame. A character that is going out has the
 * new ones from then on, so the remote gets it corrupted. No wait of u16550_init prevents that:
 * call u16550_flush before, if it matters.
 */
static void uart_set_line(struct u16550_core_driver *uart, uint16_t divisor, uint8_t frame)
{
    /* DLAB may still be set from before. Then the write of IER would go to the divisor. */
    uart_write_register(uart, UART_LCR, 0);
    /*
     * Interrupts are off from here on, until the caller's last write. A handler would find a
     * chip that is half set up, and while DLAB is set it could reach neither data nor IER.
     */
    uart_write_register(uart, UART_IER, 0);
    uart_write_register(uart, UART_LCR, U16550_LCR_DLAB);
    uart_write_register(uart, UART_DLL, (uint8_t)divisor);
    uart_write_register(uart, UART_DLM, (uint8_t)(divisor >> 8));
    /*
     * The frame clears DLAB too. This write stays, since each access is one that the crate
     * uart_16550 in Rust makes.
     */
    uart_write_register(uart, UART_LCR, 0);
    uart_write_register(uart, UART_LCR, frame);
}

/*
 * Discards received bytes until none is available, at most 17, as many as a 16550 holds. More are
 * not discarded: a remote that never stops sending must not hold u16550_init for ever. What the
 * reads clear is not saved, since those errors are of bytes that nobody gets.
 *
 * Proved: received bytes are discarded until none is available, or until there were 17.
 */
static inline void uart_drain(struct u16550_core_driver *uart)
{
    for (uint32_t turn = 0; turn < UART_MOST_WAITING; turn++) {
        if ((uart_read_register(uart, UART_LSR) & U16550_LSR_DATA_READY) == 0)
            return;
        uart_read_register(uart, UART_DATA);
    }
}

/*
 * Reads the statuses without saving them, and enables the configured interrupts.
 *
 * Proved: the statuses are read without being saved, and the interrupts enabled.
 */
static inline void uart_finish_init(struct u16550_core_driver *uart)
{
    /*
     * These reads come last, just before the interrupts are enabled: errors, changes of modem
     * lines and a pending THR_EMPTY that were left over would interrupt at once. Some arise in
     * u16550_init itself: the write of MCR may have ended a loopback, and that changes modem
     * lines. The read of ISR matters on a chip that shows THR_EMPTY while IER is 0.
     */
    uart_read_register(uart, UART_LSR);
    uart_read_register(uart, UART_ISR);
    uart_read_register(uart, UART_MSR);
    uart->saved_lsr = 0;
    uart->saved_msr = 0;
    uart_write_register(uart, UART_IER, uart->config.interrupts);
}

/*
 * Initialises the device with this configuration, whose divisor this is.
 *
 * Proved: the configuration is stored, the scratch register tested, divisor, frame and FIFO are
 * set, the receiver is drained, and MCR is written; after a wait for an empty transmitter the
 * statuses are read, and IER is written. Or all up to the test that fails, or to the wait that
 * reaches the limit.
 */
static int
uart_set_up(struct u16550_core_driver *uart, struct u16550_core_config config, uint16_t divisor)
{
    /*
     * The configuration is stored first and then read in place. So it is copied once, and as a
     * whole. A copy that is read before it is stored is copied field by field.
     */
    uart->config = config;
    uint8_t frame = uart_lcr_of_config(&uart->config);
    struct u16550_core_maybe_fifo_trigger_level level = uart->config.fifo_trigger_level;
    if (!uart_check_present(uart))
        return U16550_INIT_DEVICE_NOT_PRESENT;
    uart_set_line(uart, divisor, frame);
    uart->fifo_enabled = uart_set_fifo(uart, level);
    /*
     * FCR has emptied a FIFO. Without FIFO its reset does nothing, and an old byte would be the
     * first of the new session. The old bytes must be gone before MCR is written: DTR and RTS
     * tell the remote that we are ready, and what the remote sends then is not to be discarded.
     */
    uart_drain(uart);
    /* On a PC the gate of the interrupt line is open while OUT2 is set. */
    uart_write_register(uart, UART_MCR,
        U16550_MCR_DTR | U16550_MCR_RTS | U16550_MCR_OUT_2_INT_ENABLE);
    /*
     * If the wait stalls, what its polls have cleared stays saved. The drain saved nothing, and
     * the saved bits are reset only at the end.
     */
    if (!uart_wait_for(uart, U16550_LSR_TRANSMITTER_EMPTY))
        return U16550_INIT_STALLED;
    uart_finish_init(uart);
    return U16550_OK;
}

/*
 * Initialises the device with this configuration, which must be computable
 * (uart_config_is_computable).
 *
 * Its callers have refused any other.
 *
 * Call it before any other call, again after raw accesses that changed the setup of the chip, and
 * to change the configuration. Call it with the processor's interrupts masked: an interrupt may be
 * pending before it returns.
 *
 * In this order it
 *
 * - computes the divisor, and checks that a device is present as u16550_check_present does;
 * - disables all interrupts, writes the divisor to DLL and DLM, and the frame to LCR;
 * - resets both FIFOs by FCR and, if a trigger level is configured, turns them on and reads from
 *   ISR whether they are. ISR with bit 7 alone, as one known broken chip returns it, counts as no
 *   FIFO;
 * - discards received bytes, at most 17;
 * - sets DTR, RTS and OUT2 in MCR, and clears loopback;
 * - waits until LSR shows TRANSMITTER_EMPTY, at most spin_limit polls;
 * - reads LSR, ISR and MSR to clear them, and writes the configured interrupts to IER.
 *
 * Afterwards no status bits are saved, config returns the new configuration, and fifo_enabled
 * whether the FIFOs are on. SPR is unchanged. Bytes that were in the transmitter FIFO may be lost
 * by the reset.
 *
 * A character in the shift register is not waited for before divisor and frame change, so the
 * other end may receive it broken. One that is arriving may be received broken here, after
 * u16550_init has returned. On a line that is in use call u16550_init_with with First, which waits
 * before it writes them.
 *
 * Without a trigger level the FIFOs are off, and bytes are sent one at a time. Some versions of
 * QEMU were reported to stall in this mode.
 *
 * A prescaler division factor takes part in the divisor alone: PSD is not written, so the chip has
 * to divide its clock by the factor plus one already. Without one it divides by one, and with 15
 * by 16. A larger one is not computable.
 *
 * Errors
 *
 * - U16550_INIT_NON_INTEGER_DIVISOR or U16550_INIT_DIVISOR_OUT_OF_RANGE if the divisor is not a
 *   whole number, or does not fit into the divisor latch. No access was made, and nothing changed.
 * - U16550_INIT_DEVICE_NOT_PRESENT if SPR does not keep a pattern. SPR was written back, and the
 *   driver has the new configuration. Saved bits and fifo_enabled are unchanged.
 * - U16550_INIT_STALLED if the transmitter was not empty after spin_limit polls. The interrupts of
 *   the device are disabled, the driver has the new configuration, and the status bits that the
 *   polls cleared are saved.
 *
 * Proved: the configuration is stored, the scratch register tested, divisor, frame and FIFO are
 * set, the receiver is drained, and MCR is written; after a wait for an empty transmitter the
 * statuses are read, and IER is written. Or nothing is done, if there is no divisor; or all up to
 * the test that fails, or to the wait that reaches the limit.
 */
static int uart_init(struct u16550_core_driver *uart, struct u16550_core_config config)
{
    uint16_t divisor;
    /*
     * The divisor comes before the first access, so that a configuration which cannot be had
     * changes nothing.
     */
    int status =
        uart_calc_divisor(config.frequency, uart_baud_rate_bps(config.baud_rate),
        config.prescaler_division_factor, &divisor);
    if (status != U16550_OK)
        return uart_init_error_of(status);
    return uart_set_up(uart, config, divisor);
}

/*
 * Writes MCR: the outputs to the modem are as these bits say, and loopback is off.
 *
 * OUT_2_INT_ENABLE gates the interrupt line on a PC, and u16550_init sets it. So leave it in the
 * bits if interrupts are used.
 *
 * Proved: these bits are written to MCR, without loopback.
 */
static inline void uart_set_modem_control(struct u16550_core_driver *uart, uint8_t outputs)
{
    /*
     * In loopback the outputs are inactive at the pins, whatever MCR has, so the remote would
     * not see what was asked for. The driver itself never leaves the chip in loopback.
     */
    uart_write_register(uart, UART_MCR, outputs & (uint8_t)~U16550_MCR_LOOP_BACK);
}

/*
 * Initialises the device with this configuration, whose divisor this is, as setup asks.
 *
 * Proved: as u16550_init, with the test, the wait and the outputs of this setup. The configuration
 * is stored; the test and the wait that is to be first are made; divisor, frame and FIFO are set,
 * the receiver is drained, and MCR is written; the wait that is to be last is made; the statuses
 * are read, and IER is written. Or all up to the test that fails, or to the wait that reaches the
 * limit.
 */
static int
uart_set_up_with(struct u16550_core_driver *uart, struct u16550_core_config config,
    const struct uart_setup *setup, uint16_t divisor)
{
    uart->config = config;
    uint8_t frame = uart_lcr_of_config(&uart->config);
    struct u16550_core_maybe_fifo_trigger_level level = uart->config.fifo_trigger_level;
    if (setup->checks_presence && !uart_check_present(uart))
        return U16550_INIT_DEVICE_NOT_PRESENT;
    if (setup->wait == U16550_WAIT_FIRST && !uart_wait_for(uart, U16550_LSR_TRANSMITTER_EMPTY))
        return U16550_INIT_STALLED;
    uart_set_line(uart, divisor, frame);
    uart->fifo_enabled = uart_set_fifo(uart, level);
    uart_drain(uart);
    uart_set_modem_control(uart, setup->outputs);
    if (setup->wait == U16550_WAIT_LAST && !uart_wait_for(uart, U16550_LSR_TRANSMITTER_EMPTY))
        return U16550_INIT_STALLED;
    uart_finish_init(uart);
    return U16550_OK;
}

/*
 * Initialises the device with this configuration, which must be computable
 * (uart_config_is_computable), otherwise than u16550_init does: without the check of the scratch
 * register, with the wait for the transmitter first or not at all, or with other outputs.
 *
 * What it does is in the order of u16550_init, except for the wait if it comes first: it comes
 * then between the check and the first write. With { 1, U16550_WAIT_LAST, 0x0b } it makes the
 * accesses of u16550_init.
 *
 * Errors
 *
 * - U16550_INIT_NON_INTEGER_DIVISOR or U16550_INIT_DIVISOR_OUT_OF_RANGE as for u16550_init. No
 *   access was made, and nothing changed.
 * - U16550_INIT_DEVICE_NOT_PRESENT as for u16550_init, if the check is asked for.
 * - U16550_INIT_STALLED if the transmitter was not empty after spin_limit polls, if a wait is
 *   asked for. The driver has the new configuration, and the status bits that the polls cleared
 *   are saved. If the wait came first, nothing was written except the scratch register, and the
 *   interrupts of the device are as they were; else they are disabled.
 *
 * Proved: as u16550_init, with the test, the wait and the outputs of this setup. The configuration
 * is stored; the test and the wait that is to be first are made; divisor, frame and FIFO are set,
 * the receiver is drained, and MCR is written; the wait that is to be last is made; the statuses
 * are read, and IER is written. Or nothing is done, if there is no divisor; or all up to the test
 * that fails, or to the wait that reaches the limit.
 */
static int
uart_init_with(struct u16550_core_driver *uart, struct u16550_core_config config,
    const struct uart_setup *setup)
{
    uint16_t divisor;
    int status =
        uart_calc_divisor(config.frequency, uart_baud_rate_bps(config.baud_rate),
        config.prescaler_division_factor, &divisor);
    if (status != U16550_OK)
        return uart_init_error_of(status);
    return uart_set_up_with(uart, config, setup, divisor);
}

/*
 * Returns whether the chip is gone, as one that was unplugged: whether MCR shows FF, which is what
 * most buses show where nobody answers.
 *
 * Then LSR shows FF too: a byte waits, and the transmitter is empty. So each call that receives
 * finds bytes, all of them FF, and each call that sends succeeds. Call this after bytes of FF, or
 * now and then.
 *
 * Does not wait: reads MCR once, which changes nothing. A chip that is there does not show FF: a
 * 16550 has no bits 5 to 7 in MCR, and on later chips all bits would be set only together with
 * LOOP_BACK, which the driver leaves off. A bus that shows something else where nobody answers is
 * not told from a chip: with 0 each wait stalls, and with 7F bytes of 7F arrive.
 * u16550_check_present, which writes SPR, tells those too.
 *
 * Proved: one read of MCR, which shows all bits set, as a bus does that nobody drives, exactly if
 * the result is true.
 */
static inline bool uart_is_gone(struct u16550_core_driver *uart)
{
    /*
     * MCR, and no other register: a read of DATA, LSR, MSR or ISR changes a chip that is there
     * after all, IER is the divisor latch under DLAB, and LCR and SPR may be FF.
     */
    return uart_mcr(uart) == UART_UNDRIVEN;
}

/*
 * Returns whether the transmitter is empty, both its FIFO and its shift register: whether all that
 * was sent is on the line. u16550_flush waits for that.
 *
 * Does not wait: reads LSR once. This clears the error bits in the chip; they are saved for the
 * next u16550_lsr.
 *
 * Proved: one read of LSR, which shows whether the transmitter is empty.
 */
static inline bool uart_is_idle(struct u16550_core_driver *uart)
{
    return (uart_read_lsr(uart) & U16550_LSR_TRANSMITTER_EMPTY) != 0;
}

/*
 * Reads the line status register (LSR). Returns it joined with the error bits that earlier reads
 * by this driver cleared in the chip, and that are saved. Afterwards no error bits of LSR are
 * saved.
 *
 * Call it to find out whether received bytes had errors or were lost. Does not wait. The result
 * has bit 7 too, an error somewhere in the FIFO, which is not saved.
 *
 * Proved: one read of LSR, which is returned joined with the saved bits, of which none are left.
 */
static inline uint8_t uart_lsr(struct u16550_core_driver *uart)
{
    uint8_t lsr = uart_read_lsr(uart);
    uint8_t saved_lsr = uart->saved_lsr;
    uart->saved_lsr = 0;
    return lsr | saved_lsr;
}

/*
 * Reads the modem status register (MSR). Returns it joined with the changes that earlier reads by
 * this driver cleared in the chip, and that are saved. Afterwards no changes are saved.
 *
 * Call it to find out which modem lines changed. Does not wait.
 *
 * Proved: one read of MSR, which is returned joined with the saved bits, of which none are left.
 */
static inline uint8_t uart_msr(struct u16550_core_driver *uart)
{
    uint8_t msr = uart_read_msr(uart);
    uint8_t saved_msr = uart->saved_msr;
    uart->saved_msr = 0;
    return msr | saved_msr;
}

/*
 * Returns a driver over this backend.
 *
 * Makes no access: call u16550_init before any other call, or u16550_attach. Until then the
 * configuration is that of u16550_default_config, no status bits are saved, and the FIFO is taken
 * to be on. So a send before may write 16 bytes into a chip without a FIFO, which keeps one of
 * them. The size of the FIFOs is 16, until u16550_set_fifo_size sets another.
 */
static struct u16550_core_driver uart_new_with_backend(struct u16550_device backend)
{
    struct u16550_core_config config;
    config.interrupts = 0;
    config.frequency = UART_DEFAULT_FREQUENCY;
    config.prescaler_division_factor.is_some = false;
    config.prescaler_division_factor.value = 0;
    config.fifo_trigger_level.is_some = true;
    config.fifo_trigger_level.value = U16550_CORE_FIFO_TRIGGER_LEVEL_FOURTEEN;
    config.baud_rate.kind = U16550_CORE_BAUD_RATE_BAUD9600;
    config.baud_rate.custom = 0;
    config.data_bits = U16550_CORE_WORD_LENGTH_EIGHT_BITS;
    config.extra_stop_bits = false;
    config.parity = U16550_PARITY_NONE;
    config.check_cts_before_sending = false;
    struct u16550_core_driver uart;
    uart.backend = backend;
    uart.config = config;
    uart.fifo_enabled = true;
    uart.fifo_size = U16550_CORE_FIFO_SIZE_SIXTEEN;
    uart.saved_lsr = 0;
    uart.saved_msr = 0;
    uart.spin_limit = UART_DEFAULT_SPIN_LIMIT;
    return uart;
}

/*
 * Reads and returns the modem status register (MSR) as it is now. The changes that this clears in
 * the chip are saved for the next u16550_msr.
 *
 * Call it to find out how the modem lines are. Does not wait. Like each read of MSR it clears a
 * modem status interrupt that is pending, so no handler is called for it any more: call u16550_msr
 * afterwards, which tells the change.
 */
static inline uint8_t uart_peek_modem(struct u16550_core_driver *uart)
{
    return uart_read_msr(uart);
}

/* Writes FCR as is asked for, and returns whether the FIFOs are on then. */
static bool uart_change_fifos(struct u16550_core_driver *uart, uint8_t action)
{
    bool on = uart->fifo_enabled;
    switch (action) {
    case U16550_FIFOS_KEEP:
        return on;
    case U16550_FIFOS_RESET:
        uart_write_register(uart, UART_FCR, uart_fcr_resetting_fifos(uart_level_of(uart, on)));
        return on;
    case U16550_FIFOS_DISABLE:
    default: {
        struct u16550_core_maybe_fifo_trigger_level none =
            { false, U16550_CORE_FIFO_TRIGGER_LEVEL_ONE };
        uart_write_register(uart, UART_FCR, uart_fcr_resetting_fifos(none));
        return false;
    }
    }
}

/*
 * Leaves the port, so that the chip interrupts nobody: disables all interrupts, writes the outputs
 * to the modem, and does with the FIFOs what is asked for.
 *
 * Does not wait: what is still in the transmitter goes out, if the FIFOs are kept. LOOP_BACK is
 * left out of the outputs. Afterwards the driver's configuration has no interrupts. u16550_init,
 * or u16550_restore with a dump that was made before, takes the port up again.
 *
 * Reads no received byte. Some chips show DATA_READY behind a reset of the FIFOs, or after they
 * were turned off: a receive behind this call may return a byte from before, or one that never
 * arrived. u16550_init discards it.
 *
 * Proved: all interrupts are disabled, the outputs are written to MCR, without loopback, and then
 * FCR, if the FIFOs are to be reset or disabled.
 */
static inline void uart_quiesce(struct u16550_core_driver *uart, uint8_t outputs, uint8_t fifos)
{
    uart->config.interrupts = 0;
    /* The interrupts come first, so that none is raised by what the outputs change. */
    uart_write_register(uart, UART_IER, 0);
    uart_set_modem_control(uart, outputs);
    uart->fifo_enabled = uart_change_fifos(uart, fifos);
}

/*
 * Returns whether the modem lines allow sending. In loopback they do not matter: CTS is then
 * connected to RTS inside the chip, and says nothing about the remote.
 *
 * Proved: whether the modem lines allow sending: they do if MCR shows loopback, in which they mean
 * nothing, or if MSR shows CTS.
 */
static inline bool uart_is_clear_to_send(struct u16550_core_driver *uart)
{
    if ((uart_read_register(uart, UART_MCR) & U16550_MCR_LOOP_BACK) != 0)
        return true;
    return (uart_read_msr(uart) & U16550_MSR_CTS) != 0;
}

/*
 * Checks whether a byte can be sent now: whether LSR shows THR_EMPTY and, if the configuration
 * checks CTS, the remote is clear to send.
 *
 * Does not wait: reads LSR once. If the configuration checks CTS and THR is empty, it also reads
 * MCR and, unless that shows loopback, MSR. The errors and changes that these reads clear are
 * saved for the next u16550_lsr and u16550_msr.
 *
 * Errors
 *
 * - U16550_SEND_NO_CAPACITY if THR, or the transmitter FIFO, is not empty.
 * - U16550_SEND_NOT_CLEAR_TO_SEND if it is empty, but the remote does not assert CTS.
 *
 * Proved: one send check: LSR shows THR_EMPTY and, if CTS is checked, the modem lines allow
 * sending; or the error names which of these is not so.
 */
static inline int uart_ready_to_send(struct u16550_core_driver *uart)
{
    if ((uart_read_lsr(uart) & U16550_LSR_THR_EMPTY) == 0)
        return U16550_SEND_NO_CAPACITY;
    /* Many cables never assert CTS, so it counts only if the configuration says so. */
    if (!uart->config.check_cts_before_sending)
        return U16550_OK;
    if (!uart_is_clear_to_send(uart))
        return U16550_SEND_NOT_CLEAR_TO_SEND;
    return U16550_OK;
}

/*
 * Receives bytes while some are available and there are free slots. Returns how many, and leaves
 * the slots beyond them unchanged.
 *
 * Does not wait: reads LSR before each byte, and ends when it shows none. Call it again with the
 * rest of the array to receive more. An empty array makes no access. Error bits are saved for the
 * next u16550_lsr, and do not end the call.
 *
 * Proved: bytes are read from DATA, each after LSR shows it, until the slots are full, or LSR
 * shows none.
 */
static inline size_t
uart_receive_bytes(struct u16550_core_driver *uart, uint8_t *buffer, size_t buffer_len)
{
    for (size_t count = 0; count < buffer_len; count++) {
        uint8_t byte;
        if (!uart_try_receive_byte(uart, &byte))
            return count;
        buffer[count] = byte;
    }
    return buffer_len;
}

/*
 * Waits for one byte. The first poll is separate, since it mostly finds one: then the limit is
 * never read.
 *
 * Proved: a wait for one byte: it was received, or there were as many misses as the limit.
 */
static inline bool uart_receive_one(struct u16550_core_driver *uart, uint8_t *byte)
{
    if (uart_try_receive_byte(uart, byte))
        return true;
    uint64_t spin_limit = uart->spin_limit;
    for (uint64_t turn = 1; turn < spin_limit; turn++) {
        if (uart_try_receive_byte(uart, byte))
            return true;
    }
    return false;
}

/*
 * Receives a byte into each slot, and waits for each.
 *
 * Each wait makes at most spin_limit polls of LSR. Error bits are saved for the next u16550_lsr,
 * and do not end the call. An empty array makes no access. If the chip is gone, bytes of FF are
 * received: u16550_is_gone tells.
 *
 * Errors
 *
 * U16550_STALLED after spin_limit unsuccessful polls in a row: the remote sent nothing for so
 * long. The first *stalled_at slots have the bytes that were received, and the other slots are
 * unchanged.
 *
 * Proved: the slots are filled, each after its own wait; or those before the one whose wait
 * reaches the limit, as many as *stalled_at says.
 */
static int
uart_receive_bytes_exact(struct u16550_core_driver *uart, uint8_t *buffer, size_t buffer_len,
    size_t *stalled_at)
{
    for (size_t done = 0; done < buffer_len; done++) {
        uint8_t byte;
        if (!uart_receive_one(uart, &byte)) {
            *stalled_at = done;
            return U16550_STALLED;
        }
        buffer[done] = byte;
    }
    return U16550_OK;
}

/*
 * Waits for one byte, and asks after each poll that fails whether to go on.
 *
 * Proved: a wait for one byte, and the answers of the caller: it was received after fewer misses
 * in a row than the limit; or the wait was in vain.
 */
static inline int
uart_receive_one_while(struct u16550_core_driver *uart, struct uart_patience *caller, uint8_t *byte)
{
    uint64_t spin_limit = uart->spin_limit;
    /* The limit bounds the wait even if the caller never has enough. */
    for (uint64_t poll = 0; poll < spin_limit; poll++) {
        if (uart_try_receive_byte(uart, byte))
            return U16550_OK;
        if (!uart_patience_keep_waiting(caller))
            return U16550_WAIT_ENDED;
    }
    return U16550_STALLED;
}

/*
 * Receives a byte into each slot as u16550_receive_bytes_exact does, and waits no longer than the
 * caller wants: patience is asked after each poll that fails.
 *
 * So a wait can end at a time, by whatever clock the caller has. It ends after spin_limit
 * unsuccessful polls in a row too: for a wait that the clock alone ends, set a limit that is not
 * reached before. No poll follows the answer to wait no longer.
 *
 * Error bits are saved for the next u16550_lsr, and do not end the call. An empty array makes no
 * access, and does not ask.
 *
 * Errors
 *
 * U16550_WAIT_ENDED if patience answered to wait no longer, or U16550_STALLED after spin_limit
 * unsuccessful polls in a row. The first *stalled_at slots have the bytes that were received, and
 * the other slots are unchanged: a further call fills them.
 *
 * Proved: with the answers of the caller: the slots are filled, each byte after its own wait; or
 * those before the one whose wait ended in vain, as many as *stalled_at says; the result tells
 * what ended that wait.
 */
static int
uart_receive_bytes_while(struct u16550_core_driver *uart, uint8_t *buffer, size_t buffer_len,
    struct uart_patience *patience, size_t *stalled_at)
{
    for (size_t done = 0; done < buffer_len; done++) {
        uint8_t byte;
        int status = uart_receive_one_while(uart, patience, &byte);
        if (status != U16550_OK) {
            *stalled_at = done;
            return status;
        }
        buffer[done] = byte;
    }
    return U16550_OK;
}

/*
 * Receives one byte if one is available, with the errors that LSR showed with it: reads LSR, and
 * if it shows DATA_READY, RBR.
 *
 * Does not wait. The error bits are saved for the next u16550_lsr too. u16550_receive_with_errors
 * says when an error is not shown.
 *
 * Returns false if no byte is available. RBR was not read then.
 *
 * Proved: LSR shows a received byte, which is read from DATA and returned with the errors that LSR
 * shows; or LSR shows none.
 */
static inline bool
uart_try_receive_with_errors(struct u16550_core_driver *uart, struct u16550_received *received)
{
    /*
     * LSR shows the errors of the character that is the next to be read. So it is read first.
     */
    uint8_t lsr = uart_read_lsr(uart);
    if ((lsr & U16550_LSR_DATA_READY) == 0)
        return false;
    received->byte = uart_read_register(uart, UART_DATA);
    received->errors = lsr & U16550_LSR_LINE_ERRORS;
    return true;
}

/*
 * Receives bytes with their errors while some are available and there are free slots. Returns how
 * many, and leaves the slots beyond them unchanged.
 *
 * The chip shows the errors of the character that is the next to be read, once: if an earlier call
 * has already looked at the first byte, its errors are missing here, and are in the next
 * u16550_lsr. Without a FIFO a byte that arrives between the two reads replaces the one that LSR
 * described, and the next look shows an overrun.
 *
 * An overrun tells that a character was lost, and the FIFO decides on which side of the byte that
 * it comes with. With the FIFO on, all that waited came before the lost one: it was lost right
 * behind as many characters from this byte on as the FIFO holds, or one fewer, so with a FIFO of
 * 16 behind the 15th or the 16th. These are bytes that the call returns and then those that are
 * still in the receiver. With the FIFO off, the further character replaces the one that waits, so
 * the lost one came before this byte.
 *
 * Does not wait: reads LSR before each byte, and ends when it shows none. An empty array makes no
 * access. The error bits are saved for the next u16550_lsr too, and do not end the call.
 *
 * Proved: bytes are read from DATA, each after LSR shows it and its errors, until the slots are
 * full, or LSR shows none.
 */
static size_t
uart_receive_with_errors(struct u16550_core_driver *uart, struct u16550_received *slots,
    size_t slots_len)
{
    for (size_t taken = 0; taken < slots_len; taken++) {
        struct u16550_received received;
        if (!uart_try_receive_with_errors(uart, &received))
            return taken;
        slots[taken] = received;
    }
    return slots_len;
}

/* Returns the divisor in the divisor latch, 0 to 65535. */
static inline uint16_t
uart_config_register_dump_divisor(const struct u16550_dump *config_register_dump)
{
    return (uint16_t)(((uint16_t)config_register_dump->dlm << 8) | config_register_dump->dll);
}

/*
 * Writes to the chip what a dump of its registers shows, for example after it was without power:
 * the divisor, the frame, the FIFOs, the outputs, the scratch register, and in the end the
 * interrupts, which are stored in the driver's configuration.
 *
 * Both FIFOs are emptied. If they were on, they get the level of the configuration, since a chip
 * does not show its own, and ISR tells whether they are on now (fifo_enabled). DLAB and LOOP_BACK
 * are left out. Does not wait, and discards nothing that is saved for the next u16550_lsr or
 * u16550_msr. The other fields of the configuration stay as they are.
 *
 * Reads no received byte. On a chip that shows DATA_READY behind the reset of its FIFOs the next
 * receive may return a byte from before, or one that never arrived: receive what waits, and
 * discard it.
 *
 * Proved: divisor and frame, the FIFOs, and then MCR without loopback, SPR and IER are written as
 * the dump has them. If it has the FIFOs on, ISR shows whether they are.
 */
static void uart_restore(struct u16550_core_driver *uart, const struct u16550_dump *dump)
{
    uart->config.interrupts = dump->ier;
    uint16_t divisor = uart_config_register_dump_divisor(dump);
    uart_set_line(uart, divisor, dump->lcr & (uint8_t)~U16550_LCR_DLAB);
    bool on = uart_set_fifo(uart, uart_level_of(uart, uart_isr_fifo_enabled(dump->isr)));
    uart_set_modem_control(uart, dump->mcr);
    uart_write_register(uart, UART_SPR, dump->spr);
    /*
     * uart_set_line has disabled all interrupts. They come back last, when a handler finds all
     * else as it was.
     */
    uart_write_register(uart, UART_IER, dump->ier);
    uart->fifo_enabled = on;
}

/*
 * Makes the interrupt output fall, and rise again if an interrupt is enabled and pending: reads
 * IER, writes 0, and writes back what it read.
 *
 * An interrupt controller that detects edges sees no new edge while the output stays high. Call
 * this at the end of an interrupt handler that leaves before ISR has shown that no interrupt is
 * pending, and after the interrupt was masked at a controller that forgets edges meanwhile.
 *
 * If THR_EMPTY is enabled and the transmitter is empty, the chip raises that interrupt again. Does
 * not wait: makes three accesses. The interrupts of config are not used, and not changed.
 *
 * Proved: IER is read, then 0 is written to it, and then what was read.
 */
static inline void uart_retrigger_interrupts(struct u16550_core_driver *uart)
{
    uint8_t enabled = uart_read_register(uart, UART_IER);
    /*
     * With no interrupt enabled the output is low. What was pending stays so in the chip, and
     * no read of ISR acknowledges it.
     */
    uart_write_register(uart, UART_IER, 0);
    uart_write_register(uart, UART_IER, enabled);
}

/* Returns the number of characters. */
static size_t uart_fifo_depth(uint8_t fifo_size)
{
    switch (fifo_size) {
    case U16550_CORE_FIFO_SIZE_SIXTEEN:
        return UART_FIFO_SIZE;
    case U16550_CORE_FIFO_SIZE_THIRTY_TWO:
        return 32;
    case U16550_CORE_FIFO_SIZE_SIXTY_FOUR:
        return 64;
    case U16550_CORE_FIFO_SIZE_ONE_HUNDRED_TWENTY_EIGHT:
        return 128;
    case U16550_CORE_FIFO_SIZE_TWO_HUNDRED_FIFTY_SIX:
    default:
        return 256;
    }
}

/* Returns how many bytes certainly fit once LSR has shown THR_EMPTY. */
static inline size_t uart_burst_limit(const struct u16550_core_driver *uart, uint8_t size)
{
    if (uart->fifo_enabled)
        return uart_fifo_depth(size);
    return 1;
}

/* Writes the bytes to DATA in order. */
static inline void
uart_write_data(struct u16550_core_driver *uart, const uint8_t *bytes, size_t bytes_len)
{
    for (size_t i = 0; i < bytes_len; i++)
        uart_write_byte(uart, bytes[i]);
}

/* Writes bytes from the front to DATA, at most so many, and returns how many. */
static inline size_t
uart_write_up_to(struct u16550_core_driver *uart, size_t limit, const uint8_t *bytes,
    size_t bytes_len)
{
    size_t count = limit < bytes_len ? limit : bytes_len;
    uart_write_data(uart, bytes, count);
    return count;
}

/*
 * Does the same as u16550_send_bytes for a chip whose transmitter FIFO has this size, whatever
 * fifo_size says: sends as many bytes as it holds if the FIFO is on, else one.
 *
 * The size is taken on trust: on a chip with a smaller FIFO the bytes that do not fit are lost,
 * and nothing tells. Some chips hold more than 16 only after they were told, as a 16750 by
 * u16550_enable_64_byte_fifos. u16550_set_fifo_size sets the size for all calls that send.
 *
 * Proved: nothing if there are no bytes; else a send check and, if it succeeds, bytes from the
 * front are written to DATA: as many as a FIFO of this size holds, or one if it is off. The result
 * is how many.
 */
static inline size_t
uart_send_burst(struct u16550_core_driver *uart, const uint8_t *buffer, size_t buffer_len,
    uint8_t size)
{
    if (buffer_len == 0)
        return 0;
    if (uart_ready_to_send(uart) != U16550_OK)
        return 0;
    return uart_write_up_to(uart, uart_burst_limit(uart, size), buffer, buffer_len);
}

/*
 * Writes one burst from the front to DATA, and returns its length: as many bytes as certainly fit.
 * LSR shows whether the FIFO is empty, and no register shows how full it is. One byte more could
 * be lost, and nothing would tell.
 *
 * A whole burst of 16, the size of most chips, is apart, since its length is known to the
 * compiler: it then counts no bytes.
 */
static size_t
uart_write_burst(struct u16550_core_driver *uart, const uint8_t *bytes, size_t bytes_len)
{
    if (!uart->fifo_enabled) {
        uart_write_byte(uart, bytes[0]);
        return 1;
    }
    uint8_t fifo_size = uart->fifo_size;
    if (fifo_size == U16550_CORE_FIFO_SIZE_SIXTEEN && bytes_len >= UART_FIFO_SIZE) {
        uart_write_data(uart, bytes, UART_FIFO_SIZE);
        return UART_FIFO_SIZE;
    }
    return uart_write_up_to(uart, uart_fifo_depth(fifo_size), bytes, bytes_len);
}

/*
 * Sends bytes from the front of the array if there is room, and returns how many: up to as many as
 * the FIFO holds (fifo_size) if it is on, else one; 0 if u16550_ready_to_send fails.
 *
 * Does not wait: makes one check as u16550_ready_to_send, and one burst of writes to THR. The chip
 * reports only an empty FIFO, not how full it is, so nothing is sent until the last burst has left
 * the FIFO. Call it again with the rest of the array to send more. An empty array makes no access.
 *
 * Proved: nothing if there are no bytes; else a send check and, if it succeeds, bytes from the
 * front are written to DATA: as many as a FIFO of the size that is set holds, or one if it is off.
 * The result is how many.
 */
static inline size_t
uart_send_bytes(struct u16550_core_driver *uart, const uint8_t *buffer, size_t buffer_len)
{
    if (buffer_len == 0)
        return 0;
    if (uart_ready_to_send(uart) != U16550_OK)
        return 0;
    return uart_write_burst(uart, buffer, buffer_len);
}

/*
 * Waits until bytes may be written. It is apart from the write, so that each loop that sends has
 * one copy of the wait, which a compiler inlines.
 *
 * Proved: a wait for room: a check succeeded after fewer misses in a row than the limit, or there
 * were as many misses.
 */
static inline bool uart_wait_to_send(struct u16550_core_driver *uart)
{
    uint64_t spin_limit = uart->spin_limit;
    for (uint64_t check = 0; check < spin_limit; check++) {
        if (uart_ready_to_send(uart) == U16550_OK)
            return true;
    }
    return false;
}

/*
 * Waits until a burst was sent, and returns its length.
 *
 * Proved: a wait for one burst: *count bytes from the front were sent, or there were as many
 * misses as the limit.
 */
static inline bool
uart_send_some(struct u16550_core_driver *uart, const uint8_t *bytes, size_t bytes_len,
    size_t *count)
{
    if (!uart_wait_to_send(uart))
        return false;
    *count = uart_write_burst(uart, bytes, bytes_len);
    return true;
}

/*
 * Sends all of the bytes, and waits for room before each burst: of up to as many bytes as the FIFO
 * holds (fifo_size) if it is on, else of one.
 *
 * Each wait makes at most spin_limit checks as u16550_ready_to_send. It returns when the last
 * burst is in THR or the FIFO; u16550_flush waits until all of it has left the chip. An empty
 * array makes no access.
 *
 * Errors
 *
 * U16550_STALLED after spin_limit unsuccessful checks in a row: the chip is slower than the limit
 * allows, or CTS is checked and the remote is not clear to send. The first *stalled_at bytes were
 * written to the chip.
 *
 * Proved: all bytes, burst by burst, each burst after its own wait; or those before the burst
 * whose wait reaches the limit, as many as *stalled_at says.
 */
static int
uart_send_bytes_exact(struct u16550_core_driver *uart, const uint8_t *bytes, size_t bytes_len,
    size_t *stalled_at)
{
    size_t done = 0;
    /* Without FIFO each burst is one byte, which needs no loop of its own. */
    while (done < bytes_len) {
        size_t count;
        if (!uart_send_some(uart, &bytes[done], bytes_len - done, &count)) {
            *stalled_at = done;
            return U16550_STALLED;
        }
        done += count;
    }
    return U16550_OK;
}

/*
 * Waits until bytes may be written, and asks after each check that fails whether to go on.
 *
 * Proved: a wait for room, and the answers of the caller: a check succeeded after fewer misses in
 * a row than the limit; or the wait was in vain.
 */
static inline int
uart_wait_to_send_while(struct u16550_core_driver *uart, struct uart_patience *patience)
{
    uint64_t spin_limit = uart->spin_limit;
    /* The limit bounds the wait even if the caller never has enough. */
    for (uint64_t turn = 0; turn < spin_limit; turn++) {
        if (uart_ready_to_send(uart) == U16550_OK)
            return U16550_OK;
        if (!uart_patience_keep_waiting(patience))
            return U16550_WAIT_ENDED;
    }
    return U16550_STALLED;
}

/*
 * Sends all of the bytes as u16550_send_bytes_exact does, and waits no longer than the caller
 * wants: patience is asked after each check that fails.
 *
 * So a wait can end at a time, by whatever clock the caller has. It ends after spin_limit
 * unsuccessful checks in a row too: for a wait that the clock alone ends, set a limit that is not
 * reached before. No check follows the answer to wait no longer.
 *
 * Errors
 *
 * U16550_WAIT_ENDED if patience answered to wait no longer, or U16550_STALLED after spin_limit
 * unsuccessful checks in a row. The first *stalled_at bytes were written to the chip, and the
 * others were not: a further call sends them.
 *
 * Proved: with the answers of the caller: all bytes, burst by burst, each burst after its own
 * wait; or those before the burst whose wait ended in vain, as many as *stalled_at says; the
 * result tells what ended that wait.
 */
static int
uart_send_bytes_while(struct u16550_core_driver *uart, const uint8_t *bytes, size_t bytes_len,
    struct uart_patience *patience, size_t *stalled_at)
{
    size_t done = 0;
    while (done < bytes_len) {
        int error = uart_wait_to_send_while(uart, patience);
        if (error != U16550_OK) {
            *stalled_at = done;
            return error;
        }
        done += uart_write_burst(uart, &bytes[done], bytes_len - done);
    }
    return U16550_OK;
}

/* Writes the urgent byte to DATA, if there is one, and returns how many bytes that were. */
static inline size_t
uart_write_urgent(struct u16550_core_driver *uart, struct u16550_core_maybe_u8 urgent)
{
    if (urgent.is_some) {
        uart_write_byte(uart, urgent.value);
        return 1;
    }
    return 0;
}

/*
 * Writes one burst to DATA: the urgent byte, and then bytes from the front of both parts. Returns
 * its length.
 */
static inline size_t
uart_write_gathered(struct u16550_core_driver *uart, struct u16550_core_maybe_u8 urgent,
    const uint8_t *first, size_t first_len, const uint8_t *second, size_t second_len)
{
    size_t limit = uart_burst_limit(uart, uart->fifo_size);
    size_t urgents = uart_write_urgent(uart, urgent);
    size_t firsts = uart_write_up_to(uart, limit - urgents, first, first_len);
    return urgents + firsts + uart_write_up_to(uart, limit - urgents - firsts, second, second_len);
}

/*
 * Does the same as u16550_send_bytes for bytes that a queue holds: an urgent byte, if there is
 * one, and then the bytes of both parts, as uart_byte_queue_parts gives them. Returns how many of
 * these bytes were sent, from the front.
 *
 * They are one burst, after one check as u16550_ready_to_send, wherever the parts meet. So the
 * queue need not copy bytes into one array, however large the FIFO is. If there are no bytes, it
 * makes no access.
 *
 * Proved: nothing if there are no bytes; else a send check and, if it succeeds, bytes from the
 * front are written to DATA: as many as a FIFO of the size that is set holds, or one if it is off.
 * The result is how many.
 */
static size_t
uart_send_gathered(struct u16550_core_driver *uart, struct u16550_core_maybe_u8 urgent,
    const uint8_t *first, size_t first_len, const uint8_t *second, size_t second_len)
{
    if (!urgent.is_some && ((second_len == 0) || (uart_fifo_depth(uart->fifo_size) <= first_len)))
        return uart_send_bytes(uart, first, first_len);
    if (uart_ready_to_send(uart) != U16550_OK)
        return 0;
    return uart_write_gathered(uart, urgent, first, first_len, second, second_len);
}

/* Returns LCR with a break or without. */
static inline uint8_t uart_lcr_with_break(uint8_t lcr, bool on)
{
    if (on)
        return lcr | U16550_LCR_SET_BREAK;
    return lcr & (uint8_t)~U16550_LCR_SET_BREAK;
}

/*
 * Begins or ends a break: reads LCR, and writes it with SET_BREAK set or cleared, the other bits
 * as they were.
 *
 * In a break the line is held at 0, whatever the transmitter sends. So a character that is going
 * out is lost: wait until u16550_is_idle is true. The remote sees a break once the line was 0 for
 * a whole character. Does not wait: the caller ends the break after that time.
 *
 * Proved: LCR is read, and written with the break set or cleared.
 */
static inline void uart_set_break(struct u16550_core_driver *uart, bool on)
{
    uart_write_register(uart, UART_LCR, uart_lcr_with_break(uart_lcr(uart), on));
}

/* Returns MCR with an output asserted or clear. */
static inline uint8_t uart_mcr_with_output(uint8_t mcr, uint8_t output, bool on)
{
    if (on)
        return mcr | output;
    return mcr & (uint8_t)~output;
}

/*
 * Asserts or clears one output.
 *
 * Proved: MCR is read, and written with this bit set or cleared, without loopback.
 */
static inline void uart_set_output(struct u16550_core_driver *uart, uint8_t output, bool on)
{
    uart_set_modem_control(uart, uart_mcr_with_output(uart_mcr(uart), output, on));
}

/*
 * Asserts or clears DTR: reads MCR, and writes it with this bit so, the other outputs as they
 * were, and loopback off, as in u16550_set_modem_control.
 *
 * Proved: MCR is read, and written with this bit set or cleared, without loopback.
 */
static inline void uart_set_dtr(struct u16550_core_driver *uart, bool on)
{
    uart_set_output(uart, U16550_MCR_DTR, on);
}

/*
 * Sets which size the FIFOs are taken to have. Makes no access, and changes nothing else.
 *
 * From then on all that sends puts as many bytes into one burst as such a FIFO holds, if
 * fifo_enabled. So a larger size takes fewer looks and fewer interrupts for the same bytes. No
 * other call changes the size: u16550_init and u16550_attach keep it.
 *
 * The size is taken on trust. If it is larger than the chip's, the bytes that do not fit are lost,
 * and nothing tells. Some chips hold more than 16 characters only after they were told: a 16750 by
 * u16550_enable_64_byte_fifos, others by a register of their own. u16550_find_fifo_size finds the
 * size of FIFOs as they are set up; a chip of DesignWare may show it in CPR.
 *
 * Proved: no access is made, and nothing else of the driver changes.
 */
static inline void uart_set_fifo_size(struct u16550_core_driver *uart, uint8_t size)
{
    uart->fifo_size = size;
}

/*
 * Stores the clock, the baud rate and the frame. The other fields of the configuration are for
 * registers that a change of the frame does not write.
 *
 * Proved: no access is made, and nothing else of the driver changes.
 */
static inline void
uart_store_frame(struct u16550_core_driver *uart, const struct u16550_core_config *config)
{
    uart->config.frequency = config->frequency;
    uart->config.prescaler_division_factor = config->prescaler_division_factor;
    uart->config.baud_rate = config->baud_rate;
    uart->config.data_bits = config->data_bits;
    uart->config.extra_stop_bits = config->extra_stop_bits;
    uart->config.parity = config->parity;
}

/* Sets the divisor and the frame. */
static inline void
uart_write_frame(struct u16550_core_driver *uart, uint16_t divisor, uint8_t frame)
{
    /* The frame goes in together with DLAB, so that LCR never has a third one in between. */
    uart_write_register(uart, UART_LCR, frame | U16550_LCR_DLAB);
    uart_write_register(uart, UART_DLL, (uint8_t)divisor);
    uart_write_register(uart, UART_DLM, (uint8_t)(divisor >> 8));
    uart_write_register(uart, UART_LCR, frame);
}

/*
 * Changes the baud rate and the frame to those of this configuration, which must be computable
 * (uart_config_is_computable), and stores them in the driver's configuration.
 *
 * Writes LCR, DLL, DLM and LCR, and nothing else. So the FIFOs, the outputs to the modem and the
 * interrupts stay as they are, no byte is discarded, and a break ends. Does not wait.
 *
 * A character that is on the line meanwhile is corrupted, since its rest has the new rate and
 * frame: one that goes out, and one that comes in. Bytes that wait in the transmitter are sent in
 * the new frame. So wait before, until u16550_is_idle is true or with u16550_flush.
 *
 * While DLAB is set, offsets 0 and 1 are the latch, as in u16550_dll_dlm, so nothing else may
 * access the chip. Of the configuration interrupts, fifo_trigger_level and
 * check_cts_before_sending are not used.
 *
 * Errors
 *
 * - U16550_FRAME_NON_INTEGER_DIVISOR if the divisor is not a whole number: u16550_nearest finds
 *   the nearest.
 * - U16550_FRAME_DIVISOR_OUT_OF_RANGE if it does not fit into the divisor latch.
 *
 * No access was made then, and nothing changed.
 *
 * Proved: clock, baud rate and frame are stored, and written to the divisor latch and to LCR; or
 * there is no divisor, and nothing is done.
 */
static int uart_set_frame(struct u16550_core_driver *uart, const struct u16550_core_config *config)
{
    uint32_t baud_rate = uart_baud_rate_bps(config->baud_rate);
    uint16_t divisor;
    int status =
        uart_calc_divisor(config->frequency, baud_rate, config->prescaler_division_factor,
        &divisor);
    if (status != U16550_OK)
        return status;
    uart_store_frame(uart, config);
    uart_write_frame(uart, divisor, uart_lcr_of_config(config));
    return U16550_OK;
}

/*
 * Waits until all that was sent is on the line, and then changes the baud rate and the frame, as
 * u16550_set_frame does. The configuration must be computable (uart_config_is_computable).
 *
 * Polls LSR at most spin_limit times; error bits are saved for the next u16550_lsr. So no
 * character is broken that goes out. One that comes in meanwhile is: agree with the remote when to
 * change.
 *
 * Errors
 *
 * - U16550_FRAME_NON_INTEGER_DIVISOR or U16550_FRAME_DIVISOR_OUT_OF_RANGE if the divisor is not a
 *   whole number, or does not fit into the divisor latch. No access was made, and nothing changed.
 * - U16550_FRAME_STALLED if the transmitter was not empty after spin_limit polls. Nothing was
 *   written, and the driver's configuration is as it was.
 *
 * Proved: after a wait for an empty transmitter all is as in u16550_set_frame; or there is no
 * divisor, and nothing is done; or the wait reaches the limit, and nothing is written.
 */
static int
uart_set_frame_when_idle(struct u16550_core_driver *uart, const struct u16550_core_config *config)
{
    uint32_t baud_rate = uart_baud_rate_bps(config->baud_rate);
    uint16_t divisor;
    /* The divisor comes before the wait, so that a refusal makes no access. */
    int status =
        uart_calc_divisor(config->frequency, baud_rate, config->prescaler_division_factor,
        &divisor);
    if (status != U16550_OK)
        return status;
    if (!uart_wait_for(uart, U16550_LSR_TRANSMITTER_EMPTY))
        return U16550_FRAME_STALLED;
    uart_store_frame(uart, config);
    uart_write_frame(uart, divisor, uart_lcr_of_config(config));
    return U16550_OK;
}

/*
 * Asserts or clears RTS: reads MCR, and writes it with this bit so, the other outputs as they
 * were, and loopback off, as in u16550_set_modem_control.
 *
 * Proved: MCR is read, and written with this bit set or cleared, without loopback.
 */
static inline void uart_set_rts(struct u16550_core_driver *uart, bool on)
{
    uart_set_output(uart, U16550_MCR_RTS, on);
}

/*
 * Sets how many unsuccessful polls in a row a wait makes before it returns an error. Makes no
 * access, and changes nothing else.
 *
 * Choose it by the time of one poll: at 9,600 baud a full FIFO of 16 and the shift register hold
 * 17 characters of 10 bits, which take about 17.7 ms to send. A larger FIFO takes as much longer
 * as it is larger. A limit near 2^64 is a wait without end in practice: at a microsecond a poll it
 * takes more than half a million years.
 *
 * Proved: no access is made, and nothing else of the driver changes.
 */
static inline void uart_set_spin_limit(struct u16550_core_driver *uart, uint64_t limit)
{
    uart->spin_limit = limit;
}

/*
 * Sets the trigger level of the receiver FIFO, and stores it in the driver's configuration.
 *
 * Writes FCR once, without a reset: the bytes in both FIFOs stay. Does not wait.
 *
 * Returns false if the FIFOs are off (fifo_enabled). No access was made, and nothing changed: a
 * write that turns the FIFOs on empties them, which u16550_init does.
 *
 * Proved: with the FIFOs on, the level is stored and written to FCR; with them off, nothing is
 * done, and the result is the error.
 */
static inline bool uart_set_trigger_level(struct u16550_core_driver *uart, uint8_t level)
{
    if (!uart->fifo_enabled)
        return false;
    uart->config.fifo_trigger_level.is_some = true;
    uart->config.fifo_trigger_level.value = level;
    /* On a chip whose FIFOs are off this write would turn them on, and so empty them. */
    uart_write_register(uart, UART_FCR, uart_fcr_of_running_fifos(level));
    return true;
}

/*
 * Returns how many unsuccessful polls in a row a wait makes before it returns an error. Makes no
 * access.
 */
static inline uint64_t uart_spin_limit(const struct u16550_core_driver *uart)
{
    return uart->spin_limit;
}

/* Returns the state of the driver, as a copy. Makes no access. */
static struct uart_driver_state uart_state(const struct u16550_core_driver *uart)
{
    struct u16550_core_config config = uart->config;
    struct uart_driver_state driver_state;
    driver_state.config = config;
    driver_state.fifo_enabled = uart->fifo_enabled;
    driver_state.fifo_size = uart->fifo_size;
    driver_state.saved_lsr = uart->saved_lsr;
    driver_state.saved_msr = uart->saved_msr;
    driver_state.spin_limit = uart->spin_limit;
    return driver_state;
}

/*
 * Sends one byte if there is room: makes one check as u16550_ready_to_send, and one write to THR.
 *
 * Does not wait.
 *
 * Errors
 *
 * U16550_SEND_NO_CAPACITY if the byte was not sent, whatever the cause: also if the remote is not
 * clear to send.
 *
 * Proved: the accesses of u16550_send_bytes for this one byte, which is sent exactly if the result
 * is U16550_OK; the only error is U16550_SEND_NO_CAPACITY.
 */
static inline int uart_try_send_byte(struct u16550_core_driver *uart, uint8_t byte)
{
    if (uart_ready_to_send(uart) != U16550_OK)
        return U16550_SEND_NO_CAPACITY;
    uart_write_byte(uart, byte);
    return U16550_OK;
}

#ifndef U16550_OMIT_LOOPBACK
/*
 * Sends the test byte, and compares what returns.
 *
 * Proved: the test byte: it is sent and comes back; or it is not sent; or the wait for it is
 * unsuccessful; or another byte comes back.
 */
static int
uart_exchange_byte(struct u16550_core_driver *uart, struct uart_loopback_failure *failure)
{
    if (uart_try_send_byte(uart, UART_TEST_BYTE) != U16550_OK)
        return U16550_LOOPBACK_NO_CAPACITY;
    uint8_t actual;
    if (!uart_receive_one(uart, &actual))
        return U16550_LOOPBACK_STALLED;
    if (actual == UART_TEST_BYTE)
        return U16550_OK;
    failure->expected = UART_TEST_BYTE;
    failure->actual = actual;
    return U16550_LOOPBACK_UNEXPECTED_BYTE;
}

/*
 * Sends the whole test message, and then receives it. A FIFO has room for all of it.
 *
 * Proved: what came back for these bytes, or nothing if a wait was unsuccessful, with a FIFO and
 * without; the one of the two that fits.
 */
static inline bool uart_echo_whole(struct u16550_core_driver *uart, struct uart_bytes16 *actual)
{
    size_t stalled_at;
    if (uart_send_bytes_exact(uart, uart_test_message, 16, &stalled_at) != U16550_OK)
        return false;
    uart_fill_bytes(actual->bytes, 0, 16);
    return uart_receive_bytes_exact(uart, actual->bytes, 16, &stalled_at) == U16550_OK;
}

/*
 * Sends a byte, and waits for the byte that returns. On a real chip it returns after the time of a
 * character, and not at once.
 *
 * Proved: what came back for a byte, or nothing if a wait was unsuccessful.
 */
static inline bool uart_echo(struct u16550_core_driver *uart, uint8_t byte, uint8_t *echoed)
{
    size_t count;
    return uart_send_some(uart, &byte, 1, &count) && uart_receive_one(uart, echoed);
}

/*
 * Sends the test message byte by byte, and waits for each to return. Without FIFO the receiver has
 * room for one character, and the next would replace it.
 */
static bool uart_echo_each(struct u16550_core_driver *uart, struct uart_bytes16 *actual)
{
    uart_fill_bytes(actual->bytes, 0, 16);
    for (size_t i = 0; i < 16; i++) {
        uint8_t byte;
        if (!uart_echo(uart, uart_test_message[i], &byte))
            return false;
        actual->bytes[i] = byte;
    }
    return true;
}

/* Sends and receives the test message: as a whole if the FIFO is on, else byte by byte. */
static inline bool uart_echo_message(struct u16550_core_driver *uart, struct uart_bytes16 *actual)
{
    if (uart->fifo_enabled)
        return uart_echo_whole(uart, actual);
    return uart_echo_each(uart, actual);
}

/*
 * Sends the test message, and compares what returns.
 *
 * Proved: the test message: sent and received; or a wait that reaches the limit; or other bytes
 * received.
 */
static int
uart_exchange_message(struct u16550_core_driver *uart, struct uart_loopback_failure *failure)
{
    struct uart_bytes16 actual;
    if (!uart_echo_message(uart, &actual))
        return U16550_LOOPBACK_STALLED;
    if (!uart_same_bytes(actual.bytes, uart_test_message, 16)) {
        uart_copy_bytes(failure->expected_msg.bytes, uart_test_message, 16);
        failure->actual_msg = actual;
        return U16550_LOOPBACK_UNEXPECTED_MSG;
    }
    return U16550_OK;
}

/*
 * Makes the test itself, while the device is in loopback.
 *
 * Proved: in loopback: bytes from before the test taken, the byte, the message, up to the first
 * error.
 */
static inline int
uart_exchange(struct u16550_core_driver *uart, struct uart_loopback_failure *failure)
{
    if (!uart_drain_received(uart))
        return U16550_LOOPBACK_STALLED;
    int status = uart_exchange_byte(uart, failure);
    if (status != U16550_OK)
        return status;
    return uart_exchange_message(uart, failure);
}

/*
 * Tests whether bytes that are sent return while the device is in loopback: first one byte, and
 * then a message of 16.
 *
 * Call it after u16550_init, to find out whether the chip works. Send nothing else while it runs.
 * In loopback the chip connects its transmitter to its receiver, and nothing goes out on the line.
 * For a device without loopback do not call it.
 *
 * Waits until the transmitter is empty, and then for each byte, at most spin_limit polls each
 * time. Received bytes and error bits that are found in loopback are discarded; error bits that
 * were saved before it stay saved. The FIFOs are reset and set up again, and fifo_enabled is read
 * again. Afterwards MCR and IER are as before, also on a chip that was in loopback already.
 *
 * The modem lines before and after the test are compared, and their changes saved for the next
 * u16550_msr; of RI only its trailing edge. A line that changed and changed back in between is not
 * reported.
 *
 * Whole bytes are compared. With 5 or 6 data bits a chip that cuts characters fails the test.
 *
 * Errors
 *
 * - U16550_LOOPBACK_STALLED after spin_limit unsuccessful polls in a row. If the first wait
 *   failed, nothing was written, and what the polls cleared is saved. Later a test byte may still
 *   be in the transmitter, and is then sent after the test.
 * - U16550_LOOPBACK_NO_CAPACITY or U16550_LOOPBACK_NOT_CLEAR_TO_SEND if the device does not accept
 *   the test byte. Its cause is always U16550_SEND_NO_CAPACITY.
 * - U16550_LOOPBACK_UNEXPECTED_BYTE, U16550_LOOPBACK_UNEXPECTED_MSG if other bytes return.
 *
 * Except for the first wait, MCR and IER are restored before the error is returned.
 *
 * Proved: MCR and IER are read, and there is a wait for an empty transmitter. If it reaches the
 * limit, nothing is written, and the result is a stall; else loopback is entered, bytes are
 * exchanged up to the first error, and MCR and IER are restored.
 */
static int
uart_test_loopback(struct u16550_core_driver *uart, struct uart_loopback_failure *failure)
{
    uint8_t mcr = uart_mcr(uart);
    uint8_t ier = uart_ier(uart);
    /*
     * A byte that is still to go out would come back among those of the test, and would never
     * reach the remote.
     */
    if (!uart_wait_for(uart, U16550_LSR_TRANSMITTER_EMPTY))
        return U16550_LOOPBACK_STALLED;
    uint8_t noted = uart->saved_lsr;
    uint8_t before = uart_enter_loopback(uart, uart->config.fifo_trigger_level);
    int status = uart_exchange(uart, failure);
    uart_leave_loopback(uart, mcr, ier, before, noted);
    return status;
}
#endif

/*
 * Waits until some bytes were received, and returns how many.
 *
 * Proved: a wait for bytes: some were received, or there were as many misses as the limit.
 */
static bool
uart_receive_some(struct u16550_core_driver *uart, uint8_t *buffer, size_t buffer_len,
    size_t *count)
{
    uint64_t spin_limit = uart->spin_limit;
    for (uint64_t turn = 0; turn < spin_limit; turn++) {
        size_t received = uart_receive_bytes(uart, buffer, buffer_len);
        if (received > 0) {
            *count = received;
            return true;
        }
    }
    return false;
}

/*
 * Reads at least one byte into the slots, waits for it if necessary, and returns how many were
 * read: 0 only if there are no slots.
 *
 * Slots beyond this number are unchanged. If the call fails, all slots are unchanged.
 */
static int uart_read(struct u16550_core_driver *uart, uint8_t *buf, size_t buf_len, size_t *count)
{
    if (buf_len == 0) {
        *count = 0;
        return U16550_OK;
    }
    if (!uart_receive_some(uart, buf, buf_len, count))
        return U16550_STALLED;
    return U16550_OK;
}

/* Returns whether a read would find a byte without waiting. */
static inline int uart_read_ready(struct u16550_core_driver *uart, bool *ready)
{
    *ready = uart_ready_to_receive(uart);
    return U16550_OK;
}

/* Waits until everything that was written has been sent. */
static inline int uart_flush(struct u16550_core_driver *uart)
{
    if (!uart_wait_for(uart, U16550_LSR_TRANSMITTER_EMPTY))
        return U16550_STALLED;
    return U16550_OK;
}

/*
 * Writes at least one byte from the front, waits for room if necessary, and returns how many were
 * written: 0 only if there are no bytes.
 */
static int
uart_write(struct u16550_core_driver *uart, const uint8_t *buf, size_t buf_len, size_t *count)
{
    if (buf_len == 0) {
        *count = 0;
        return U16550_OK;
    }
    if (!uart_send_some(uart, buf, buf_len, count))
        return U16550_STALLED;
    return U16550_OK;
}

/* Returns whether a write would find room without waiting. */
static inline int uart_write_ready(struct u16550_core_driver *uart, bool *ready)
{
    *ready = uart_ready_to_send(uart) == U16550_OK;
    return U16550_OK;
}

/*
 * Waits for room, and sends a byte.
 *
 * Proved: a wait for room, and then the byte is written; or as many misses as the limit.
 */
static inline int uart_send_one(struct u16550_core_driver *uart, uint8_t byte)
{
    if (!uart_wait_to_send(uart))
        return U16550_STALLED;
    uart_write_byte(uart, byte);
    return U16550_OK;
}

/* Returns what is sent for a byte of a text. */
static struct uart_expansion uart_tty_expand(uint8_t byte)
{
    struct uart_expansion expansion;
    switch (byte) {
    case '\b':
    case 0x7f:
        uart_copy_bytes(expansion.text.bytes, uart_erase_text, 3);
        expansion.len = 3;
        return expansion;
    case '\n':
        uart_copy_bytes(expansion.text.bytes, uart_newline_text, 3);
        expansion.len = 2;
        return expansion;
    default:
        expansion.text.bytes[0] = byte;
        expansion.text.bytes[1] = 0;
        expansion.text.bytes[2] = 0;
        expansion.len = 1;
        return expansion;
    }
}

/*
 * Sends the bytes one by one, and waits for room before each.
 *
 * Proved: these bytes, one by one: all of them, or a beginning.
 */
static int
uart_send_singly(struct u16550_core_driver *uart, const uint8_t *bytes, size_t bytes_len,
    size_t *stalled_at)
{
    for (size_t done = 0; done < bytes_len; done++) {
        uint8_t byte = bytes[done];
        if (!uart_wait_to_send(uart)) {
            *stalled_at = done;
            return U16550_STALLED;
        }
        uart_write_byte(uart, byte);
    }
    return U16550_OK;
}

/*
 * Sends the expansion of a byte, and returns its length. Printable bytes have a branch of their
 * own, since most bytes of a text are printable, and that branch is short.
 *
 * Proved: these bytes, one by one: all of them, or a beginning.
 */
static int
uart_tty_send_expansion(struct uart_tty *tty, uint8_t byte, size_t *count, size_t *stalled_at)
{
    if (byte >= ' ' && byte < 0x7f) {
        if (uart_send_one(&tty->inner, byte) != U16550_OK) {
            *stalled_at = 0;
            return U16550_STALLED;
        }
        *count = 1;
        return U16550_OK;
    }
    struct uart_expansion expansion = uart_tty_expand(byte);
    if (uart_send_singly(&tty->inner, expansion.text.bytes, expansion.len, stalled_at) != U16550_OK)
        return U16550_STALLED;
    *count = expansion.len;
    return U16550_OK;
}

/*
 * Sends the expansion of text that need not be UTF-8, as u16550_write_text does.
 *
 * This is for a console that passes on what others write, as the messages of a log in an older
 * code.
 *
 * Errors
 *
 * Those of u16550_write_text.
 *
 * Proved: the expansion of the text, byte by byte, each after its own wait; or a beginning of it,
 * as long as *stalled_at says, at most SIZE_MAX, and then a wait that reaches the limit.
 */
static int
uart_tty_write_raw_text(struct uart_tty *tty, const uint8_t *text, size_t text_len,
    size_t *stalled_at)
{
    size_t done = 0;
    /*
     * An expansion may be three times as long as its text. So its length need not fit into a
     * size_t, and the count of a stall ends at the largest one.
     */
    for (size_t i = 0; i < text_len; i++) {
        size_t count;
        size_t sent;
        if (uart_tty_send_expansion(tty, text[i], &count, &sent) != U16550_OK) {
            *stalled_at = done <= SIZE_MAX - sent ? done + sent : SIZE_MAX;
            return U16550_STALLED;
        }
        done = done <= SIZE_MAX - count ? done + count : SIZE_MAX;
    }
    return U16550_OK;
}

#ifndef U16550_OMIT_DESIGN_WARE
/*
 * Reads a register.
 *
 * Proved: one read of this register, which returned this.
 */
static inline uint8_t
uart_design_ware_load(struct u16550_core_design_ware *design_ware, size_t offset)
{
    return uart_device_read(&design_ware->registers, (uint8_t)offset);
}

/*
 * Returns whether the chip has DLAB otherwise than the driver takes it to have, so that offsets 0
 * and 1 are something else than the driver means.
 *
 * Proved: whether offsets 0 and 1 are something else than the driver means: after an ignored write
 * of LCR, one read of LCR shows DLAB otherwise than the driver wrote it. Else no access is made.
 */
static inline bool uart_design_ware_is_mistaken(struct u16550_core_design_ware *design_ware)
{
    if (!(design_ware->fault.is_some &&
        design_ware->fault.value == U16550_DESIGN_WARE_LINE_CONTROL)) {
        return false;
    }
    bool dlab = (uart_design_ware_load(design_ware, UART_LCR) & U16550_LCR_DLAB) != 0;
    return dlab != ((design_ware->line & U16550_LCR_DLAB) != 0);
}

/*
 * Returns whether a register is something else than the driver means.
 *
 * Proved: whether a register is something else than the driver means: a look, if DLAB changes it.
 */
static inline bool
uart_design_ware_is_out_of_reach(struct u16550_core_design_ware *design_ware, size_t offset)
{
    return offset <= 1 && uart_design_ware_is_mistaken(design_ware);
}

/* Returns whether this offset is of the divisor latch, as the driver takes it. */
static inline bool
uart_design_ware_is_latch(const struct u16550_core_design_ware *design_ware, size_t offset)
{
    return offset <= 1 && (design_ware->line & U16550_LCR_DLAB) != 0;
}

/* Takes the first one. */
static bool
uart_kept_characters_pop(struct u16550_core_kept_characters *kept_characters,
    struct u16550_received *received)
{
    if (kept_characters->count == 0)
        return false;
    struct u16550_received first = kept_characters->cells.bytes[0];
    uart_first_to_last(kept_characters->cells.bytes, UART_MOST_KEPT);
    kept_characters->count--;
    *received = first;
    return true;
}

/* Reads DATA. */
static inline uint8_t uart_design_ware_read_data(struct u16550_core_design_ware *design_ware)
{
    struct u16550_received received;
    if (!uart_kept_characters_pop(&design_ware->kept, &received))
        return uart_design_ware_load(design_ware, UART_DATA);
    design_ware->cleared |= received.errors;
    return received.byte;
}

/*
 * Reads LSR, and saves the errors that this clears.
 *
 * Proved: one read of LSR, whose errors are saved.
 */
static inline uint8_t uart_design_ware_look(struct u16550_core_design_ware *design_ware)
{
    uint8_t lsr = uart_design_ware_load(design_ware, UART_LSR);
    design_ware->cleared |= lsr & U16550_LSR_LINE_ERRORS;
    return lsr;
}

/* Returns what a look at LSR shows of the line, without the errors, which are saved. */
static inline uint8_t uart_line_state(uint8_t lsr, bool is_mistaken)
{
    uint8_t state = lsr & (uint8_t)~U16550_LSR_LINE_ERRORS;
    if (!is_mistaken)
        return state;
    return state & (uint8_t)~(U16550_LSR_DATA_READY | U16550_LSR_THR_EMPTY |
        U16550_LSR_TRANSMITTER_EMPTY);
}

/* Takes the errors of the first one, which stays without them. */
static inline bool
uart_kept_characters_take_errors(struct u16550_core_kept_characters *kept_characters,
    uint8_t *errors)
{
    if (kept_characters->count == 0)
        return false;
    uint8_t first = kept_characters->cells.bytes[0].errors;
    kept_characters->cells.bytes[0].errors = 0;
    *errors = first;
    return true;
}

/*
 * Returns LSR for the character that the driver reads next, from what a look at LSR showed of the
 * line.
 *
 * Proved: what LSR shows for the character that the driver reads next: data, an overrun, and its
 * own errors. If none is kept, what the chip shows, with all errors that are saved.
 */
static uint8_t uart_design_ware_show(struct u16550_core_design_ware *design_ware, uint8_t state)
{
    uint8_t errors;
    if (!uart_kept_characters_take_errors(&design_ware->kept, &errors)) {
        uint8_t cleared = design_ware->cleared;
        design_ware->cleared = 0;
        return state | cleared;
    }
    uint8_t overrun = design_ware->cleared & U16550_LSR_OVERRUN_ERROR;
    design_ware->cleared &= (uint8_t)~overrun;
    return state | U16550_LSR_DATA_READY | overrun | errors;
}

/*
 * Reads LSR.
 *
 * Proved: a read of LSR.
 */
static inline uint8_t uart_design_ware_read_lsr(struct u16550_core_design_ware *design_ware)
{
    uint8_t lsr = uart_design_ware_look(design_ware);
    return uart_design_ware_show(design_ware,
        uart_line_state(lsr, uart_design_ware_is_mistaken(design_ware)));
}

/*
 * Reads USR.
 *
 * Proved: one read of this register, which returned this.
 */
static inline uint8_t uart_design_ware_read_usr(struct u16550_core_design_ware *design_ware)
{
    return uart_device_read_usr(&design_ware->registers);
}

/*
 * Returns whether LSR shows neither data nor a break.
 *
 * Proved: LSR shows neither data nor a break, or does.
 */
static inline bool uart_design_ware_shows_no_data(struct u16550_core_design_ware *design_ware)
{
    return (
        uart_design_ware_look(design_ware) & (U16550_LSR_DATA_READY |
        U16550_LSR_BREAK_INTERRUPT)) == 0;
}

/*
 * Returns whether there is nothing to read.
 *
 * Proved: whether nothing is to be read: none is kept, DATA can be reached, and LSR shows neither
 * data nor a break.
 */
static inline bool uart_design_ware_is_without_data(struct u16550_core_design_ware *design_ware)
{
    if (design_ware->kept.count != 0)
        return false;
    if (uart_design_ware_is_mistaken(design_ware))
        return false;
    return uart_design_ware_shows_no_data(design_ware);
}

/*
 * Ends a reception timeout if there is nothing to read, and returns whether that is so.
 *
 * Proved: a reception timeout without data is ended by a read of DATA.
 */
static inline bool uart_design_ware_end_timeout(struct u16550_core_design_ware *design_ware)
{
    if (!uart_design_ware_is_without_data(design_ware))
        return false;
    uart_design_ware_load(design_ware, UART_DATA);
    return true;
}

/*
 * Ends the interrupt that ISR shows if the driver cannot serve it, and returns whether it is such
 * a one.
 *
 * Proved: an interrupt that the driver cannot serve is ended, or it is another one. A read of USR
 * ends a busy detect.
 */
static inline bool
uart_design_ware_end_interrupt(struct u16550_core_design_ware *design_ware, uint8_t isr)
{
    uint8_t cause = isr & UART_CODE;
    if (cause == UART_CODE_BUSY_DETECT) {
        uart_design_ware_read_usr(design_ware);
        return true;
    }
    if (cause == UART_CODE_TIMEOUT)
        return uart_design_ware_end_timeout(design_ware);
    return false;
}

/*
 * Returns ISR as the driver gets it. Nothing is pending in the chip for data that are kept here.
 */
static inline uint8_t
uart_design_ware_isr_with_kept(const struct u16550_core_design_ware *design_ware, uint8_t isr)
{
    bool is_kept = design_ware->kept.count != 0 &&
        (design_ware->interrupts & U16550_IER_DATA_READY) != 0;
    if ((isr & UART_CODE) == UART_CODE_NONE && is_kept)
        return (isr & (uint8_t)~UART_CODE) | UART_CODE_DATA_READY;
    return isr;
}

/*
 * Writes a register.
 *
 * Proved: one write of this register.
 */
static inline void
uart_design_ware_store(struct u16550_core_design_ware *design_ware, size_t offset, uint8_t value)
{
    uart_device_write(&design_ware->registers, (uint8_t)offset, value);
}

/*
 * Turns the chip's interrupts off, until LCR was written and taken. While DLAB is set, IER cannot
 * be reached.
 *
 * Proved: a fault begins: all interrupts are disabled, if LCR shows that IER can be reached.
 */
static inline void
uart_design_ware_begin_fault(struct u16550_core_design_ware *design_ware, uint8_t fault)
{
    design_ware->fault.is_some = true;
    design_ware->fault.value = fault;
    if ((uart_design_ware_load(design_ware, UART_LCR) & U16550_LCR_DLAB) == 0)
        uart_design_ware_store(design_ware, UART_IER, 0);
}

/*
 * Returns ISR once it shows what the driver can serve.
 *
 * Proved: a read of ISR.
 */
static uint8_t uart_design_ware_read_isr(struct u16550_core_design_ware *design_ware)
{
    uint8_t isr = UART_CODE_NONE;
    for (uint32_t round = 0; round < UART_MOST_ENDED; round++) {
        isr = uart_design_ware_load(design_ware, UART_ISR);
        if (!uart_design_ware_end_interrupt(design_ware, isr))
            return uart_design_ware_isr_with_kept(design_ware, isr);
    }
    uart_design_ware_begin_fault(design_ware, U16550_DESIGN_WARE_INTERRUPT);
    return (isr & (uint8_t)~UART_CODE) | UART_CODE_NONE;
}

/*
 * Reads a register that is not of the latch.
 *
 * Proved: a read of a register that is not of the latch.
 */
static uint8_t
uart_design_ware_read_plain(struct u16550_core_design_ware *design_ware, size_t offset)
{
    if (offset == UART_DATA)
        return uart_design_ware_read_data(design_ware);
    if (offset == UART_LSR)
        return uart_design_ware_read_lsr(design_ware);
    if (offset == UART_ISR)
        return uart_design_ware_read_isr(design_ware);
    return uart_design_ware_load(design_ware, offset);
}

/*
 * Reads a register that is what the driver means.
 *
 * Proved: a read of a register.
 */
static inline uint8_t
uart_design_ware_read_meant(struct u16550_core_design_ware *design_ware, size_t offset)
{
    if (uart_design_ware_is_latch(design_ware, offset))
        return uart_design_ware_load(design_ware, offset);
    return uart_design_ware_read_plain(design_ware, offset);
}

/*
 * Reads the register at an offset of 0 to 7, and returns its value.
 *
 * Called once for each read that the driver makes. A read may change the device: one of LSR clears
 * its error bits.
 */
static inline uint8_t
uart_design_ware_read(struct u16550_core_design_ware *design_ware, uint8_t register_offset)
{
    if (uart_design_ware_is_out_of_reach(design_ware, register_offset))
        return 0;
    return uart_design_ware_read_meant(design_ware, register_offset);
}

/* Returns whether this offset is that of IER, and not of the latch. */
static inline bool
uart_design_ware_is_interrupts(const struct u16550_core_design_ware *design_ware, size_t offset)
{
    return offset == UART_IER && !uart_design_ware_is_latch(design_ware, 1);
}

/*
 * Writes IER.
 *
 * Proved: a write of IER is remembered, and made if there is no fault.
 */
static inline void
uart_design_ware_write_interrupts(struct u16550_core_design_ware *design_ware, uint8_t interrupts)
{
    design_ware->interrupts = interrupts;
    if (!design_ware->fault.is_some)
        uart_design_ware_store(design_ware, UART_IER, interrupts);
}

/*
 * Returns whether a write of FCR empties the chip's receiver: a reset, and a change of the FIFOs'
 * switch.
 */
static inline bool
uart_design_ware_empties(const struct u16550_core_design_ware *design_ware, uint8_t control)
{
    return (((control ^ design_ware->fifo_control) & U16550_FCR_FIFO_ENABLE) != 0) ||
        ((control & U16550_FCR_RX_FIFO_RESET) != 0);
}

/*
 * Drops what is kept if a write of FCR empties the chip's receiver.
 *
 * Proved: what empties the chip's receiver empties this one.
 */
static inline void
uart_design_ware_empty_kept(struct u16550_core_design_ware *design_ware, uint8_t control)
{
    if (!uart_design_ware_empties(design_ware, control))
        return;
    design_ware->kept.count = 0;
}

/*
 * Writes FCR.
 *
 * Proved: a write of FCR, which is remembered without the bits that reset.
 */
static inline void
uart_design_ware_write_fifo_control(struct u16550_core_design_ware *design_ware, uint8_t control)
{
    uart_design_ware_empty_kept(design_ware, control);
    design_ware->fifo_control =
        control & (uint8_t)~(U16550_FCR_RX_FIFO_RESET | U16550_FCR_TX_FIFO_RESET);
    /* The bits that reset do not stay. */
    uart_design_ware_store(design_ware, UART_FCR, control);
}

/*
 * Returns whether the chip is busy.
 *
 * Proved: one read of USR, which says whether the chip is busy.
 */
static inline bool uart_design_ware_is_busy(struct u16550_core_design_ware *design_ware)
{
    return (uart_design_ware_read_usr(design_ware) & UART_USR_BUSY) != 0;
}

/*
 * Writes LCR and reads it back, and returns whether the chip took it. Some versions do not keep
 * the bit of stick parity.
 *
 * Proved: LCR is written and read back, and shows what was written or does not.
 */
static inline bool uart_design_ware_tries(struct u16550_core_design_ware *design_ware, uint8_t line)
{
    uart_design_ware_store(design_ware, UART_LCR, line);
    return (uart_design_ware_load(design_ware, UART_LCR) & (uint8_t)~U16550_LCR_PARITY_STICK) ==
        (line & (uint8_t)~U16550_LCR_PARITY_STICK);
}

/*
 * Writes LCR if the chip is not busy, and returns whether the chip took it.
 *
 * Proved: if the chip is not busy, LCR is written and read back. It is taken or not.
 */
static inline bool uart_design_ware_takes(struct u16550_core_design_ware *design_ware, uint8_t line)
{
    if (uart_design_ware_is_busy(design_ware))
        return false;
    /* A character may begin after the look at USR, and then the write is ignored. */
    return uart_design_ware_tries(design_ware, line);
}

/*
 * Gives IER back what the driver wrote to it.
 *
 * Proved: a fault ends, if there is one and IER can be reached.
 */
static inline void uart_design_ware_end_fault(struct u16550_core_design_ware *design_ware)
{
    if (design_ware->fault.is_some && (design_ware->line & U16550_LCR_DLAB) == 0) {
        design_ware->fault.is_some = false;
        uart_design_ware_store(design_ware, UART_IER, design_ware->interrupts);
    }
}

/*
 * Discards received data while offset 0 is the latch. They cannot be read, and must not be lost in
 * silence.
 *
 * Proved: while offset 0 is the divisor latch, data that LSR shows are discarded.
 */
static inline void uart_design_ware_discard_unreadable(struct u16550_core_design_ware *design_ware)
{
    if ((uart_design_ware_look(design_ware) & U16550_LSR_DATA_READY) != 0) {
        design_ware->cleared |= U16550_LSR_OVERRUN_ERROR;
        uart_design_ware_store(design_ware, UART_FCR,
            design_ware->fifo_control | U16550_FCR_RX_FIFO_RESET);
    }
}

/* Adds a character behind the others. */
static inline void
uart_kept_characters_keep(struct u16550_core_kept_characters *kept_characters,
    struct u16550_received character)
{
    kept_characters->cells.bytes[kept_characters->count] = character;
    kept_characters->count++;
}

/*
 * Keeps received data. Those that find no room stay in the chip.
 *
 * Proved: characters are taken and kept, until there is room for no more, or LSR shows none.
 */
static void uart_design_ware_keep_waiting(struct u16550_core_design_ware *design_ware)
{
    while (design_ware->kept.count != UART_MOST_KEPT) {
        if ((uart_design_ware_look(design_ware) & U16550_LSR_DATA_READY) == 0)
            return;
        uint8_t errors = design_ware->cleared;
        design_ware->cleared = 0;
        struct u16550_received received = { uart_design_ware_load(design_ware, UART_DATA), errors };
        uart_kept_characters_keep(&design_ware->kept, received);
    }
}

/*
 * Takes received data out of the way, which keep the chip busy.
 *
 * Proved: received data, which keep the chip busy, are put out of the way.
 */
static inline void uart_design_ware_make_room(struct u16550_core_design_ware *design_ware)
{
    if ((uart_design_ware_load(design_ware, UART_LCR) & U16550_LCR_DLAB) != 0)
        uart_design_ware_discard_unreadable(design_ware);
    else
        uart_design_ware_keep_waiting(design_ware);
}

/*
 * Writes LCR.
 *
 * Proved: a write of LCR: the chip takes it within the patience, or it is a fault.
 */
static void uart_design_ware_write_line(struct u16550_core_design_ware *design_ware, uint8_t line)
{
    design_ware->line = line;
    uint64_t patience = design_ware->patience;
    for (uint64_t round = 0; round < patience; round++) {
        if (uart_design_ware_takes(design_ware, line)) {
            uart_design_ware_end_fault(design_ware);
            return;
        }
        uart_design_ware_make_room(design_ware);
    }
    uart_design_ware_begin_fault(design_ware, U16550_DESIGN_WARE_LINE_CONTROL);
    /* The last write may have been ignored, which interrupts. */
    uart_design_ware_read_usr(design_ware);
}

/*
 * Writes a register that is not IER.
 *
 * Proved: a write of another register than IER.
 */
static void
uart_design_ware_write_plain(struct u16550_core_design_ware *design_ware, size_t offset,
    uint8_t value)
{
    if (offset == UART_FCR) {
        uart_design_ware_write_fifo_control(design_ware, value);
        return;
    }
    if (offset == UART_LCR) {
        uart_design_ware_write_line(design_ware, value);
        return;
    }
    uart_design_ware_store(design_ware, offset, value);
}

/*
 * Writes a register, if it is what the driver means.
 *
 * Proved: a write that reaches offset 0 or 1 only if these are what the driver means.
 */
static inline void
uart_design_ware_write_meant(struct u16550_core_design_ware *design_ware, size_t offset,
    uint8_t value)
{
    if (uart_design_ware_is_out_of_reach(design_ware, offset))
        return;
    uart_design_ware_write_plain(design_ware, offset, value);
}

/*
 * Writes a value to the register at an offset of 0 to 7.
 *
 * Called once for each write that the driver makes, in the driver's order.
 */
static inline void
uart_design_ware_write(struct u16550_core_design_ware *design_ware, uint8_t register_offset,
    uint8_t value)
{
    if (uart_design_ware_is_interrupts(design_ware, register_offset)) {
        uart_design_ware_write_interrupts(design_ware, value);
        return;
    }
    uart_design_ware_write_meant(design_ware, register_offset, value);
}

/* Returns what went wrong, if anything did since the last write of LCR that the chip took. */
static inline bool
uart_design_ware_fault(const struct u16550_core_design_ware *design_ware, uint8_t *fault)
{
    *fault = design_ware->fault.value;
    return design_ware->fault.is_some;
}

/* Returns none. */
static inline struct u16550_core_kept_characters uart_kept_characters_new(void)
{
    struct u16550_received received = { 0, 0 };
    struct u16550_core_kept_characters kept_characters;
    for (size_t place = 0; place < UART_MOST_KEPT; place++)
        kept_characters.cells.bytes[place] = received;
    kept_characters.count = 0;
    return kept_characters;
}

/*
 * Returns a backend over these registers. patience is how many times in a row it looks whether the
 * chip is busy before a write of LCR has failed. Makes no access.
 *
 * A full FIFO and a character take about 17.7 ms at 9,600 baud.
 */
static struct u16550_core_design_ware
uart_design_ware_new(struct u16550_device registers, uint64_t patience)
{
    struct u16550_core_design_ware design_ware;
    design_ware.registers = registers;
    design_ware.patience = patience;
    design_ware.kept = uart_kept_characters_new();
    design_ware.cleared = 0;
    design_ware.line = 0;
    design_ware.interrupts = 0;
    design_ware.fifo_control = 0;
    design_ware.fault.is_some = false;
    return design_ware;
}
#endif

#ifndef U16550_OMIT_RINGS
/*
 * Handles the interrupt of a line that several ports share, whether the controller detects levels
 * or edges. Returns whether an interrupt was served at one of them.
 *
 * Call it once each time the controller calls the handler, under the lock that all calls at these
 * ports take: one lock for the line. With a lock for each port another processor could let the
 * line of one rise, before that of the next has fallen.
 *
 * At each port, in turn, it handles what is pending and disables the chip's interrupts. Then the
 * common line is low, whatever happens to the chips. After that it enables the interrupts again,
 * at each port in turn. So if the line is high afterwards, it has risen since the call began, and
 * a controller that detects edges calls the handler again.
 *
 * A chip that is stuck has its interrupts disabled, as after a u16550_ring_try_handle, and the
 * others are served.
 */
static bool uart_handle_line(struct uart_line_ports *ports, size_t limit, uint32_t rounds)
{
    size_t number = uart_line_ports_number(ports);
    bool has_served = false;
    for (size_t port = 0; port < number; port++) {
        bool was_served = uart_line_ports_lower(ports, port, limit, rounds);
        has_served = has_served || was_served;
    }
    /*
     * All lines are low here, at one time. It is not enough that each was low at some time:
     * another one may have risen before, and the common line has then not fallen.
     */
    for (size_t port = 0; port < number; port++)
        uart_line_ports_raise(ports, port);
    return has_served;
}

/* Returns whether a ring can have this capacity. */
static inline bool uart_is_capacity(size_t capacity)
{
    return capacity >= 1 && capacity <= UART_MAX_CAPACITY;
}

/* Returns an empty queue with room for this number of bytes. */
static bool
uart_byte_queue_with_capacity(struct uart_memory *alloc, size_t capacity,
    struct u16550_core_byte_queue *byte_queue)
{
    struct u16550_core_vec_u8 cells;
    if (!uart_cells_in_memory(alloc, 0, capacity, &cells))
        return false;
    byte_queue->cells = cells;
    byte_queue->front = 0;
    byte_queue->len = 0;
    return true;
}

/*
 * Returns a backend over this one, with room for the errors of so many bytes: as many as the
 * receive ring has room for. Makes no access.
 *
 * Takes its memory from *alloc.
 *
 * Errors
 *
 * - U16550_RING_BAD_CAPACITY if the capacity is 0 or more than U16550_MAX_CAPACITY.
 * - U16550_RING_OUT_OF_MEMORY if *alloc has less memory.
 *
 * Then *device is the backend, unchanged.
 *
 * Proved: notes of nothing over this backend, with room for the errors of so many bytes.
 */
static int
uart_error_notes_new(struct uart_memory *alloc, struct u16550_device backend, size_t capacity,
    struct u16550_core_error_notes *error_notes, struct u16550_device *device)
{
    if (!uart_is_capacity(capacity)) {
        *device = backend;
        return U16550_RING_BAD_CAPACITY;
    }
    struct u16550_core_byte_queue noted;
    if (!uart_byte_queue_with_capacity(alloc, capacity, &noted)) {
        *device = backend;
        return U16550_RING_OUT_OF_MEMORY;
    }
    error_notes->backend = backend;
    error_notes->noted = noted;
    error_notes->shown = 0;
    error_notes->is_latch = false;
    error_notes->is_overrun_old = true;
    return U16550_OK;
}

/* Returns the largest number of bytes. */
static inline size_t uart_byte_queue_capacity(const struct u16550_core_byte_queue *byte_queue)
{
    return byte_queue->cells.len;
}

/* Returns how many bytes make way for one more: the first one, if there is no room. */
static inline size_t uart_byte_queue_in_the_way(const struct u16550_core_byte_queue *byte_queue)
{
    size_t len = byte_queue->len;
    if (len < uart_byte_queue_capacity(byte_queue))
        return 0;
    size_t used = byte_queue->len;
    return used > 1 ? 1 : used;
}

/*
 * Returns the cell that is count behind cell, of so many cells.
 *
 * Proved: this is the cell that is count behind cell, of so many cells: behind the last one is the
 * first.
 */
static inline size_t uart_cell_behind(size_t cell, size_t count, size_t cells)
{
    size_t to_end = cells - cell;
    return count < to_end ? cell + count : count - to_end;
}

/* Drops this number of bytes from the front. */
static inline void
uart_byte_queue_drop_front(struct u16550_core_byte_queue *byte_queue, size_t count)
{
    size_t front = byte_queue->front;
    byte_queue->front = uart_cell_behind(front, count, uart_byte_queue_capacity(byte_queue));
    byte_queue->len -= count;
}

/* Copies bytes to the slots from place on, as many as both have, and returns how many. */
static inline size_t
uart_copy(const uint8_t *bytes, size_t bytes_len, uint8_t *slots, size_t slots_len, size_t place)
{
    size_t room = slots_len - place;
    size_t count = room < bytes_len ? room : bytes_len;
    /* Mostly all bytes are in one piece. The second copy would be a call for nothing. */
    if (count > 0)
        uart_copy_bytes(&slots[place], bytes, count);
    return count;
}

/*
 * Appends bytes from the front of the array, as many as there is room for, and returns how many.
 */
static size_t
uart_byte_queue_append(struct u16550_core_byte_queue *byte_queue, const uint8_t *bytes,
    size_t bytes_len)
{
    size_t capacity = uart_byte_queue_capacity(byte_queue);
    size_t room = capacity - byte_queue->len;
    size_t some = room < bytes_len ? room : bytes_len;
    size_t front = byte_queue->front;
    size_t len = byte_queue->len;
    size_t behind = uart_cell_behind(front, len, uart_byte_queue_capacity(byte_queue));
    uint8_t *cells = byte_queue->cells.data;
    size_t cells_len = byte_queue->cells.len;
    size_t before = uart_copy(bytes, some, cells, cells_len, behind);
    size_t count = before + uart_copy(&bytes[before], some - before, cells, cells_len, 0);
    byte_queue->len += count;
    return count;
}

/* Appends a byte. If there is no room for it, the first one makes way. */
static inline void
uart_byte_queue_push_last(struct u16550_core_byte_queue *byte_queue, uint8_t byte)
{
    uart_byte_queue_drop_front(byte_queue, uart_byte_queue_in_the_way(byte_queue));
    uart_byte_queue_append(byte_queue, &byte, 1);
}

/* Notes what a read showed. */
static void
uart_error_notes_note_read(struct u16550_core_error_notes *error_notes, size_t offset,
    uint8_t answer)
{
    if (offset == UART_LSR) {
        uint8_t errors = error_notes->is_overrun_old ? (uint8_t)U16550_LSR_CHARACTER_ERRORS
            : (uint8_t)U16550_LSR_LINE_ERRORS;
        error_notes->shown |= answer & errors;
        error_notes->is_overrun_old = false;
    } else if (offset == UART_DATA && !error_notes->is_latch) {
        uart_byte_queue_push_last(&error_notes->noted, error_notes->shown);
        error_notes->shown = 0;
    }
}

/*
 * Reads the register at an offset of 0 to 7, and returns its value.
 *
 * Called once for each read that the driver makes. A read may change the device: one of LSR clears
 * its error bits.
 */
static inline uint8_t
uart_error_notes_read(struct u16550_core_error_notes *error_notes, uint8_t register_offset)
{
    uint8_t answer = uart_device_read(&error_notes->backend, register_offset);
    uart_error_notes_note_read(error_notes, register_offset, answer);
    return answer;
}

/* Notes what a write changes. */
static inline void
uart_error_notes_note_write(struct u16550_core_error_notes *error_notes, size_t offset,
    uint8_t value)
{
    if (offset == UART_LCR) {
        error_notes->is_latch = (value & U16550_LCR_DLAB) != 0;
    } else if (offset == UART_FCR && (value & U16550_FCR_RX_FIFO_RESET) != 0) {
        error_notes->shown = 0;
        error_notes->is_overrun_old = true;
    }
}

/*
 * Writes a value to the register at an offset of 0 to 7.
 *
 * Called once for each write that the driver makes, in the driver's order.
 */
static inline void
uart_error_notes_write(struct u16550_core_error_notes *error_notes, uint8_t register_offset,
    uint8_t value)
{
    uart_device_write(&error_notes->backend, register_offset, value);
    uart_error_notes_note_write(error_notes, register_offset, value);
}

/* Returns whether the other end may send, or none if that is to stay as it is. */
static bool
uart_ring_may_send(const struct u16550_core_ring *ring, struct uart_receive_marks marks, bool *may)
{
    size_t byte_queue_capacity = uart_byte_queue_capacity(&ring->receive);
    size_t room = byte_queue_capacity - ring->receive.len;
    /*
     * The first test comes first, so that marks the wrong way round do not let bytes come for
     * which there is no room.
     */
    if (room < marks.hold) {
        *may = false;
        return true;
    }
    if (marks.release > room)
        return false;
    *may = true;
    return true;
}

/* Returns MCR with RTS asserted or clear. */
static inline uint8_t uart_with_rts(uint8_t mcr, bool on)
{
    if (on)
        return mcr | U16550_MCR_RTS;
    return mcr & (uint8_t)~U16550_MCR_RTS;
}

/*
 * Asserts or clears RTS, unless it is so already.
 *
 * Proved: this is made of RTS, or it stays as it is.
 */
static inline void uart_ring_make_rts(struct u16550_core_ring *ring, bool on)
{
    /*
     * A handler adjusts RTS each time that it runs, and RTS changes seldom. So one read shows
     * most times that there is nothing to write, where u16550_set_rts would also write.
     */
    uint8_t mcr = uart_mcr(&ring->uart);
    if (((mcr & U16550_MCR_RTS) != 0) != on) {
        uint8_t with_rts = uart_with_rts(mcr, on);
        uart_set_modem_control(&ring->uart, with_rts);
    }
}

/*
 * Holds the other end back, or lets it go on, by RTS: clears RTS if the receive ring has room for
 * fewer than marks.hold bytes, and asserts it if there is room for at least marks.release. Between
 * the two RTS stays as it is.
 *
 * The other end has to check CTS before it sends, as check_cts_before_sending says. It may still
 * send what is in its transmitter. So choose hold with room for that, and release not above the
 * capacity of the receive ring, or RTS would never be asserted again.
 *
 * Call it at the end of the interrupt handler, and after each u16550_ring_take and
 * u16550_ring_clear_receive. A handler alone is not enough: while the other end is held back no
 * byte arrives, so nothing calls the handler.
 *
 * Does not wait. Between the marks it makes no access. Otherwise it reads MCR, and if RTS is not
 * as it is to be, writes MCR: the other outputs as they were, and loopback off.
 *
 * Proved: RTS is off if the receive ring has room for fewer bytes than hold, on if it has room for
 * release or more, and else stays. For this MCR is read, and written only if it shows RTS
 * otherwise.
 */
static inline void
uart_ring_adjust_rts(struct u16550_core_ring *ring, struct uart_receive_marks marks)
{
    bool may;
    if (uart_ring_may_send(ring, marks, &may))
        uart_ring_make_rts(ring, may);
}

/* Returns this number of bytes from the front, in order, as two arrays. */
static inline struct uart_slices
uart_byte_queue_front_parts(const struct u16550_core_byte_queue *byte_queue, size_t count)
{
    const uint8_t *cells = byte_queue->cells.data;
    size_t front = byte_queue->front;
    size_t to_end = byte_queue->cells.len - front;
    size_t some = to_end < count ? to_end : count;
    struct uart_slices slices = { { &cells[front], some }, { cells, count - some } };
    return slices;
}

/*
 * Sends one burst of the bytes that may be sent, if the chip has room, and returns how many.
 *
 * Proved: nothing if there are no bytes; else a send check and, if it succeeds, bytes from the
 * front are written to DATA: as many as a FIFO of the size that is set holds, or one if it is off.
 * The result is how many.
 */
static inline size_t uart_ring_send_sendable(struct u16550_core_ring *ring)
{
    if (ring->stuck.is_some)
        return 0;
    struct uart_slices slices =
        uart_byte_queue_front_parts(&ring->transmit, ring->is_held ? 0 : ring->transmit.len);
    /*
     * In the ring the bytes may be in two parts, and the urgent byte is in none of them. They
     * are one burst, after one look, all the same.
     */
    return uart_send_gathered(&ring->uart, ring->urgent, slices.front.data, slices.front.len,
        slices.rest.data, slices.rest.len);
}

/*
 * Drops bytes from the front of the transmit ring, and notes it if the ring falls to the low mark.
 */
static inline void uart_ring_drop_queued(struct u16550_core_ring *ring, size_t count)
{
    bool was_above = ring->low_mark < ring->transmit.len;
    uart_byte_queue_drop_front(&ring->transmit, count);
    bool is_at_mark = ring->transmit.len <= ring->low_mark;
    ring->is_low = ring->is_low || (was_above && is_at_mark);
}

/* Drops bytes that were sent. The urgent byte is the first of them. */
static void uart_ring_drop_sent(struct u16550_core_ring *ring, size_t count)
{
    if (count == 0)
        return;
    struct u16550_core_maybe_u8 urgent = ring->urgent;
    ring->urgent.is_some = false;
    if (urgent.is_some)
        uart_ring_drop_queued(ring, count - 1);
    else
        uart_ring_drop_queued(ring, count);
}

/* Returns whether there is no byte. */
static inline bool uart_byte_queue_is_empty(const struct u16550_core_byte_queue *byte_queue)
{
    return byte_queue->len == 0;
}

/* Returns whether a byte waits that may be sent. */
static inline bool uart_ring_has_sendable(const struct u16550_core_ring *ring)
{
    if (ring->stuck.is_some)
        return false;
    if (ring->urgent.is_some)
        return true;
    bool is_empty = uart_byte_queue_is_empty(&ring->transmit);
    return !ring->is_held && !is_empty;
}

/*
 * Enables THR_EMPTY if bytes are left that may be sent, else disables it.
 *
 * IER is read and written each time, even if it need not change: only the chip knows what IER
 * holds, and a caller may have changed it.
 *
 * Proved: THR_EMPTY is enabled if bytes are left to be sent, else disabled.
 */
static inline void uart_ring_arm_if_left(struct u16550_core_ring *ring)
{
    if (uart_ring_has_sendable(ring))
        uart_enable_interrupts(&ring->uart, U16550_IER_THR_EMPTY);
    else
        uart_disable_interrupts(&ring->uart, U16550_IER_THR_EMPTY);
}

/*
 * Sends bytes that may be sent if the chip has room. Then enables THR_EMPTY if such bytes are
 * left, else disables it.
 *
 * The bytes are sent first, because not every chip interrupts when THR_EMPTY is enabled on an
 * empty transmitter. If bytes are left, the chip was found full or has just been filled, so it
 * still has to report that it is empty.
 */
static inline void uart_ring_pump(struct u16550_core_ring *ring)
{
    uart_ring_drop_sent(ring, uart_ring_send_sendable(ring));
    uart_ring_arm_if_left(ring);
}

/*
 * Puts this byte before all bytes that wait to be sent, and sends if the chip has room. Returns
 * the urgent byte that still waited, which this one replaces.
 *
 * This is for the flow control of a terminal: an XON or XOFF goes out after what is in the chip,
 * even while the transmit ring is held. The newest one counts, so it replaces one that waits. With
 * CTS checking it waits, as all bytes do, until the remote is clear to send.
 *
 * Does not wait.
 *
 * Proved: the byte is the urgent one, in place of one that waited, which is returned; and what the
 * chip takes at once is sent.
 */
static inline bool
uart_ring_queue_urgent(struct u16550_core_ring *ring, uint8_t byte, uint8_t *replaced)
{
    struct u16550_core_maybe_u8 urgent = ring->urgent;
    ring->urgent.is_some = true;
    ring->urgent.value = byte;
    uart_ring_pump(ring);
    *replaced = urgent.value;
    return urgent.is_some;
}

/*
 * Tells the other end to go on, or to stop, unless it was told so last. Returns what was told.
 *
 * Proved: the character for this is the urgent byte, and it is what was told last; the result is
 * that character. Or nothing is done.
 */
static bool uart_ring_tell(struct u16550_core_ring *ring, bool on, uint8_t *byte)
{
    if (ring->urgent.is_some || (ring->has_told_xoff != on))
        return false;
    ring->has_told_xoff = !on;
    uint8_t character = on ? (uint8_t)UART_XON : (uint8_t)UART_XOFF;
    uint8_t replaced;
    uart_ring_queue_urgent(ring, character, &replaced);
    *byte = character;
    return true;
}

/*
 * Holds the other end back, or lets it go on, by XOFF and XON, where RTS is not wired: tells it
 * XOFF if the receive ring has room for fewer than marks.hold bytes, and XON if it has room for at
 * least marks.release. Returns the character, or none if none was to be told.
 *
 * The character goes out before all bytes that wait, also while the transmit ring is held, as that
 * of a u16550_ring_queue_urgent. What was told last is not told again. While another urgent byte
 * waits, nothing is told; the next call does it. Once XOFF was told, marks of 0 let the other end
 * go on in any case.
 *
 * The other end sends on until it has read the XOFF, which comes after what is in the chip. So
 * choose hold with room for that, and release not above the capacity of the receive ring, or the
 * other end would stop for ever. The other end takes each byte of the value of an XON or XOFF for
 * one: this is for text.
 *
 * Call it at the end of the interrupt handler, and after each u16550_ring_take and
 * u16550_ring_clear_receive, as u16550_ring_adjust_rts.
 *
 * Does not wait. If it tells something, it makes the accesses of a u16550_ring_queue_urgent.
 * Otherwise it makes none.
 *
 * Proved: the other end is told XOFF if the receive ring has room for fewer bytes than hold, and
 * XON if it has room for release or more, as a u16550_ring_queue_urgent sends it. What was told
 * last is not told again, and nothing is told while another urgent byte waits. The result is what
 * was told.
 */
static inline bool
uart_ring_adjust_xoff(struct u16550_core_ring *ring, struct uart_receive_marks marks, uint8_t *byte)
{
    bool may;
    return uart_ring_may_send(ring, marks, &may) && uart_ring_tell(ring, may, byte);
}

/*
 * Ends a pause if so many bytes have left the receive ring.
 *
 * Proved: if receiving is paused, DATA_READY is enabled, and the pause ends.
 */
static inline void uart_ring_end_pause(struct u16550_core_ring *ring, size_t count)
{
    if (count > 0 && ring->is_paused) {
        uart_enable_interrupts(&ring->uart, U16550_IER_DATA_READY);
        ring->is_paused = false;
    }
}

/*
 * Drops the bytes of the receive ring, and returns how many. What is in the chip stays there.
 *
 * Does not wait. If it drops at least one byte and receiving is paused, it enables DATA_READY
 * again and ends the pause, as u16550_ring_take does. Otherwise it makes no access.
 *
 * Proved: the receive ring is emptied, and the result is how many bytes it had; if it had any, a
 * pause of receiving ends.
 */
static inline size_t uart_ring_clear_receive(struct u16550_core_ring *ring)
{
    size_t len = ring->receive.len;
    uart_byte_queue_drop_front(&ring->receive, len);
    uart_ring_end_pause(ring, len);
    return len;
}

/*
 * Drops the bytes of the transmit ring, and returns how many.
 *
 * An urgent byte, and what is in the chip, still go out. Makes no access: if THR_EMPTY is enabled,
 * it is disabled when its next interrupt is served.
 *
 * Proved: the transmit ring is emptied without an access, and the result is how many bytes it had.
 */
static inline size_t uart_ring_clear_transmit(struct u16550_core_ring *ring)
{
    size_t len = ring->transmit.len;
    uart_ring_drop_queued(ring, len);
    return len;
}

/*
 * Starts sending again if bytes wait in the transmit ring with no interrupt to come.
 *
 * If bytes wait, it sends one burst of them if the chip has room, as u16550_ring_queue does. Then
 * it enables THR_EMPTY if bytes are left in the ring, else it disables it. The rest is sent when
 * that interrupt is served. If none wait, it makes no access.
 *
 * Does not wait. Call it
 *
 * - after an u16550_init, which disables THR_EMPTY and may acknowledge its interrupt;
 * - with CTS checking, when u16550_ring_take_modem reports that CTS came back. While CTS is clear,
 *   it sends nothing.
 *
 * Proved: if bytes wait, what the chip takes at once is sent, and THR_EMPTY is enabled if some are
 * left, else disabled.
 */
static inline void uart_ring_resume_transmit(struct u16550_core_ring *ring)
{
    bool has_urgent = ring->urgent.is_some;
    /*
     * A pump, and not THR_EMPTY switched off and on: some devices raise no interrupt for that.
     */
    if (has_urgent || !uart_byte_queue_is_empty(&ring->transmit))
        uart_ring_pump(ring);
}

/*
 * Reads all registers, as the driver's u16550_config_register_dump does, and then sends bytes that
 * wait, as u16550_ring_resume_transmit does.
 *
 * ISR is among the registers, and a read of it that shows THR_EMPTY acknowledges that interrupt.
 * So after the driver's own call, bytes in the transmit ring may wait for ever. After this call
 * they do not.
 *
 * u16550_ring_take_line and u16550_ring_take_modem still return what the reads of LSR and MSR have
 * cleared.
 *
 * Does not wait. Under DLAB, which is set meanwhile, the divisor latch is read in place of DATA
 * and IER: mask the interrupt, as for every call.
 *
 * Proved: the dump of the driver, whose read of ISR may acknowledge THR_EMPTY; and then sending
 * resumes.
 */
static inline struct u16550_dump uart_ring_config_register_dump(struct u16550_core_ring *ring)
{
    struct u16550_dump dump = uart_config_register_dump(&ring->uart);
    /*
     * Behind the dump, since what it acknowledges never comes again. A u16550_ring_retrigger
     * would raise the interrupt again on a chip that does so whenever THR_EMPTY is enabled
     * while THR is empty; to send what waits needs nothing of the chip.
     */
    uart_ring_resume_transmit(ring);
    return dump;
}

/* Returns the bytes in order, as two arrays. */
static inline struct uart_slices
uart_byte_queue_parts(const struct u16550_core_byte_queue *byte_queue)
{
    return uart_byte_queue_front_parts(byte_queue, byte_queue->len);
}

/* Returns the byte at this place, from the front on. */
static inline uint8_t
uart_byte_queue_byte_at(const struct u16550_core_byte_queue *byte_queue, size_t place)
{
    struct uart_slices slices = uart_byte_queue_parts(byte_queue);
    return place < slices.front.len ? slices.front.data[place]
        : slices.rest.data[place - slices.front.len];
}

/*
 * Copies the first bytes with the errors that are noted of them to the slots, as many as both
 * have, and returns how many. More may be noted before the first byte.
 */
static size_t
uart_copy_with_errors(const struct u16550_core_byte_queue *bytes,
    const struct u16550_core_byte_queue *noted, struct u16550_received *slots, size_t slots_len)
{
    size_t before = noted->len - bytes->len;
    for (size_t place = 0; place < slots_len; place++) {
        if (place == bytes->len)
            return place;
        uint8_t byte = uart_byte_queue_byte_at(bytes, place);
        slots[place].byte = byte;
        slots[place].errors = uart_byte_queue_byte_at(noted, before + place);
    }
    return slots_len;
}

/*
 * Copies the first bytes with the errors that are noted of them, as many as there are slots, and
 * returns how many, unless fewer errors are noted than there are bytes.
 */
static inline int
uart_copy_noted(const struct u16550_core_byte_queue *bytes,
    const struct u16550_core_byte_queue *noted, struct u16550_received *slots, size_t slots_len,
    size_t *count, size_t *unnoted)
{
    /* Without this, errors would stand at other bytes, and nobody could tell. */
    if (noted->len < bytes->len) {
        *unnoted = bytes->len - noted->len;
        return U16550_RING_UNNOTED;
    }
    *count = uart_copy_with_errors(bytes, noted, slots, slots_len);
    return U16550_OK;
}

/*
 * Copies received bytes from the front of the receive ring, each with the errors that these notes
 * have of it, as many as there are slots, and returns how many. Takes none of them, and leaves the
 * other slots unchanged.
 *
 * It is for a backend that reaches the notes somewhere else, as through a pointer. What
 * u16550_ring_take_with_errors does, this and a u16550_ring_take of so many bytes do. The notes
 * are those that each access of the driver goes through; others tell of other bytes.
 *
 * Errors
 *
 * U16550_RING_UNNOTED if fewer errors are noted than bytes are in the receive ring. Then nothing
 * is copied.
 */
static inline int
uart_ring_copy_with_notes(const struct u16550_core_ring *ring,
    const struct u16550_core_error_notes *notes, struct u16550_received *slots, size_t slots_len,
    size_t *count, size_t *unnoted)
{
    return uart_copy_noted(&ring->receive, &notes->noted, slots, slots_len, count, unnoted);
}

/*
 * Drops so many bytes that were taken from the front of the receive ring.
 *
 * Proved: if receiving is paused, DATA_READY is enabled, and the pause ends.
 */
static inline void uart_ring_drop_taken(struct u16550_core_ring *ring, size_t count)
{
    uart_byte_queue_drop_front(&ring->receive, count);
    uart_ring_end_pause(ring, count);
}

/*
 * Returns the interrupt that the low nibble of an ISR value identifies.
 *
 * Returns none if bit 0 is set, since no interrupt is pending then, and also for the code 100 in
 * bits 3 to 1, although an interrupt is pending then.
 *
 * Proved: bit 0 is clear, so an interrupt is pending, and the code is that of this interrupt.
 */
static UART_NO_TABLE bool uart_interrupt_type_from_bits(uint8_t isr_bits, uint8_t *interrupt)
{
    switch (isr_bits & UART_CODE) {
    case UART_CODE_LINE_STATUS:
        *interrupt = U16550_CORE_INTERRUPT_TYPE_RECEIVER_LINE_STATUS;
        return true;
    case UART_CODE_DATA_READY:
        *interrupt = U16550_CORE_INTERRUPT_TYPE_RECEIVED_DATA_READY;
        return true;
    case UART_CODE_TIMEOUT:
        *interrupt = U16550_CORE_INTERRUPT_TYPE_RECEPTION_TIMEOUT;
        return true;
    case UART_CODE_THR_EMPTY:
        *interrupt = U16550_CORE_INTERRUPT_TYPE_TRANSMITTER_HOLDING_REGISTER_EMPTY;
        return true;
    case UART_CODE_MODEM_STATUS:
        *interrupt = U16550_CORE_INTERRUPT_TYPE_MODEM_STATUS;
        return true;
    case UART_CODE_DMA_RX_END:
        *interrupt = U16550_CORE_INTERRUPT_TYPE_DMA_RECEPTION_END_OF_TRANSFER;
        return true;
    case UART_CODE_DMA_TX_END:
        *interrupt = U16550_CORE_INTERRUPT_TYPE_DMA_TRANSMISSION_END_OF_TRANSFER;
        return true;
    default:
        return false;
    }
}

/* Returns whether an interrupt is pending: bit 0 is clear then. */
static inline bool uart_isr_has_pending_interrupt(uint8_t isr)
{
    return (isr & U16550_ISR_INTERRUPT_STATUS) == 0;
}

/*
 * Notes the errors that LSR shows, and those that the driver has saved. Returns both with the
 * other bits of LSR.
 *
 * Proved: u16550_lsr, of which the line errors are noted.
 */
static inline uint8_t uart_ring_note_line(struct u16550_core_ring *ring)
{
    uint8_t status = uart_lsr(&ring->uart);
    ring->line |= status & U16550_LSR_LINE_ERRORS;
    return status;
}

/*
 * Notes the errors of a line status. Returns whether this sends and LSR shows room.
 *
 * Proved: a line status: its errors are noted, and if this sends also whether LSR shows room.
 */
static inline bool uart_ring_serve_line(struct u16550_core_ring *ring, bool sends)
{
    uint8_t status = uart_ring_note_line(ring);
    return sends && (status & U16550_LSR_THR_EMPTY) != 0;
}

/*
 * Receives bytes into the cells from place on, as the driver's u16550_receive_bytes does with so
 * many slots, and returns how many. The other cells stay as they are.
 *
 * Proved: bytes are read from DATA, each after LSR shows it, until the slots are full, or LSR
 * shows none.
 */
static inline size_t
uart_receive(struct u16550_core_driver *uart, uint8_t *cells, size_t place, size_t slots)
{
    return uart_receive_bytes(uart, &cells[place], slots);
}

/*
 * Appends bytes that the driver receives, as its u16550_receive_bytes does with so many slots, and
 * returns how many.
 */
static size_t
uart_byte_queue_receive_from(struct u16550_core_byte_queue *byte_queue,
    struct u16550_core_driver *uart, size_t slots)
{
    size_t front = byte_queue->front;
    size_t len = byte_queue->len;
    /*
     * The driver writes the free cells themselves, however large the FIFO is: a copy would need
     * as large a buffer on the stack.
     */
    size_t behind = uart_cell_behind(front, len, uart_byte_queue_capacity(byte_queue));
    uint8_t *cells = byte_queue->cells.data;
    size_t to_end = byte_queue->cells.len - behind;
    size_t some = to_end < slots ? to_end : slots;
    size_t before = uart_receive(uart, cells, behind, some);
    /* The free cells go on at the first one, if all up to the last one were needed. */
    size_t count = before + uart_receive(uart, cells, 0, before == some ? slots - some : 0);
    byte_queue->len += count;
    return count;
}

/* Returns whether there is no room for another byte. */
static inline bool uart_byte_queue_is_full(const struct u16550_core_byte_queue *byte_queue)
{
    size_t len = byte_queue->len;
    return len == uart_byte_queue_capacity(byte_queue);
}

/*
 * Pauses receiving if the receive ring is full. The data interrupt does not end until the data are
 * read, so the handler would be called without end.
 *
 * Proved: if the receive ring is full, DATA_READY is disabled and receiving is paused.
 */
static inline void uart_ring_pause_if_full(struct u16550_core_ring *ring)
{
    if (uart_byte_queue_is_full(&ring->receive)) {
        uart_disable_interrupts(&ring->uart, U16550_IER_DATA_READY);
        ring->is_paused = true;
    }
}

/*
 * Receives bytes into the receive ring: as many as a FIFO of the size that is set holds, and as
 * there is room for.
 *
 * Proved: u16550_receive_bytes into as many slots as the receive ring has room for, at most as
 * many as a FIFO of the size that is set holds; the bytes are appended to it.
 */
static void uart_ring_fill_receive_ring(struct u16550_core_ring *ring)
{
    size_t len = ring->receive.len;
    size_t most = uart_fifo_depth(ring->uart.fifo_size);
    size_t room = uart_byte_queue_capacity(&ring->receive) - len;
    size_t count =
        uart_byte_queue_receive_from(&ring->receive, &ring->uart, room < most ? room : most);
    size_t unlooked = ring->unlooked;
    ring->unlooked = (len < unlooked ? len : unlooked) + count;
    uart_ring_pause_if_full(ring);
}

/*
 * Sends as a pump does, but leaves IER as it is if nothing is sent.
 *
 * why: if the chip has no room, or CTS is clear, nothing has changed for the bytes that wait; and
 * to enable THR_EMPTY on an empty transmitter would raise one more interrupt.
 */
static inline void uart_ring_send_on(struct u16550_core_ring *ring)
{
    size_t burst = uart_ring_send_sendable(ring);
    if (burst > 0) {
        uart_ring_drop_sent(ring, burst);
        uart_ring_arm_if_left(ring);
    }
}

/*
 * Sends, if a line status has shown room.
 *
 * Proved: if a line status has shown room, what the chip takes at once is sent.
 */
static inline void uart_ring_send_on_if(struct u16550_core_ring *ring, bool has_room)
{
    if (has_room)
        uart_ring_send_on(ring);
}

/*
 * Receives bytes. Then sends, if a line status has shown room.
 *
 * why: where THR_EMPTY and received data are due together, some chips show a line status, and that
 * read of ISR acknowledges the THR_EMPTY. LSR shows the room all the same. And a THR_EMPTY that
 * got lost is made up for here. why: behind the data, and not at the line status: a burst ahead of
 * the first byte would take time that the receiver may not have.
 *
 * Proved: data: bytes are received; and then what the chip takes is sent, if a line status has
 * shown room.
 */
static inline void uart_ring_serve_data(struct u16550_core_ring *ring, bool has_room)
{
    uart_ring_fill_receive_ring(ring);
    uart_ring_send_on_if(ring, has_room);
}

/*
 * Notes the changes that MSR shows, and those that the driver has saved.
 *
 * Proved: u16550_msr, of which the changes are noted.
 */
static inline void uart_ring_note_modem(struct u16550_core_ring *ring)
{
    uint8_t msr = uart_msr(&ring->uart) & U16550_MSR_CHANGES;
    ring->modem |= msr;
}

/*
 * Serves one interrupt. Takes and returns whether a line status has shown room, behind which
 * nothing was sent. Only a handler sends there.
 *
 * Proved: how an interrupt is served: bytes are received, a pump is made, a status is noted, or
 * nothing is done; and whether a line status has shown room, before it and after it, behind which
 * nothing was sent.
 */
static UART_NO_TABLE bool
uart_ring_serve(struct u16550_core_ring *ring, uint8_t interrupt, bool sends, bool has_room)
{
    switch (interrupt) {
    case U16550_CORE_INTERRUPT_TYPE_RECEIVER_LINE_STATUS:
        return uart_ring_serve_line(ring, sends);
    case U16550_CORE_INTERRUPT_TYPE_RECEIVED_DATA_READY:
    case U16550_CORE_INTERRUPT_TYPE_RECEPTION_TIMEOUT:
        uart_ring_serve_data(ring, has_room);
        return false;
    case U16550_CORE_INTERRUPT_TYPE_TRANSMITTER_HOLDING_REGISTER_EMPTY:
        uart_ring_pump(ring);
        return false;
    case U16550_CORE_INTERRUPT_TYPE_MODEM_STATUS:
        uart_ring_note_modem(ring);
        return has_room;
    case U16550_CORE_INTERRUPT_TYPE_DMA_RECEPTION_END_OF_TRANSFER:
    case U16550_CORE_INTERRUPT_TYPE_DMA_TRANSMISSION_END_OF_TRANSFER:
    default:
        return has_room;
    }
}

/*
 * Serves the interrupts that ISR identifies, at most limit. Returns how many, and why it serves no
 * more.
 *
 * Proved: as many interrupts as are pending are served, but no more than the limit.
 */
static UART_NO_TABLE struct uart_served
uart_ring_serve_up_to(struct u16550_core_ring *ring, size_t limit, bool sends)
{
    bool has_room = false;
    for (size_t served = 0; served < limit; served++) {
        uint8_t isr = uart_isr(&ring->uart);
        uint8_t interrupt;
        if (!uart_interrupt_type_from_bits(isr, &interrupt)) {
            struct uart_served served2 =
                { { served,
                uart_isr_has_pending_interrupt(isr) ? (uint8_t)U16550_HANDLE_UNKNOWN
                : (uint8_t)U16550_HANDLE_IDLE }, has_room };
            return served2;
        }
        has_room = uart_ring_serve(ring, interrupt, sends, has_room);
    }
    struct uart_served served3 = { { limit, U16550_HANDLE_LIMIT }, has_room };
    return served3;
}

/*
 * Makes the chip's interrupt line fall, and rise again if an interrupt is enabled and pending:
 * reads IER, writes 0, and writes back what it read.
 *
 * An interrupt controller that detects edges sees no new edge while the line stays high, so it
 * would not call the handler again. u16550_ring_handle retriggers where that is needed. Call this
 * yourself
 *
 * - at the end of a handler of your own that returns before ISR has shown that no interrupt is
 *   pending;
 * - after the interrupt was unmasked at a controller that forgets the edges that come while it is
 *   masked, as an I/O APIC does.
 *
 * If THR_EMPTY is enabled and the transmitter is empty, the chip raises that interrupt again.
 *
 * Does not wait: makes three accesses.
 *
 * Proved: IER is read, and written with 0 and then with what was read.
 */
static inline void uart_ring_retrigger(struct u16550_core_ring *ring)
{
    uart_retrigger_interrupts(&ring->uart);
}

/* Triggers what is left again, and sends before that, if a line status has shown room. */
static inline void
uart_ring_retrigger_unless_idle(struct u16550_core_ring *ring, bool has_room, uint8_t end)
{
    if (end != U16550_HANDLE_IDLE) {
        uart_ring_send_on_if(ring, has_room);
        uart_ring_retrigger(ring);
    }
}

/*
 * Handles the chip's interrupt: serves what is pending, as u16550_ring_service does, but at most
 * limit interrupts. Returns how many it served, and why it ended.
 *
 * Call it once each time the interrupt handler runs, whether the interrupt controller detects
 * levels or edges:
 *
 * - If the end is U16550_HANDLE_IDLE, no interrupt is pending, and the line is low. The next
 *   interrupt makes the line rise.
 * - Otherwise an interrupt may be left, and u16550_ring_handle makes the line fall and rise again,
 *   as u16550_ring_retrigger does. So the controller calls the handler again.
 *
 * At a line status it notes whether LSR shows room. If so, it sends bytes that wait behind the
 * next received data, though ISR shows no THR_EMPTY: where both are due, some chips show a line
 * status.
 *
 * A broken chip may show interrupts for ever, and the controller then calls the handler for ever.
 * So count the calls in a row that do not end with U16550_HANDLE_IDLE, and after a number of them
 * disable the chip's interrupts.
 *
 * Does not wait: makes at most 35 accesses for each interrupt of the limit, and 3 more. With a
 * larger fifo_size of the driver it is twice that size and 3 in place of the 35.
 *
 * Proved: as many interrupts as are pending are served, but no more than the limit; if a line
 * status shows room, bytes that wait are sent behind the data that comes next. Then, unless ISR
 * has shown that none is pending, IER is read, and written with 0 and with what was read: what is
 * left is triggered again.
 */
static inline struct u16550_handled uart_ring_handle(struct u16550_core_ring *ring, size_t limit)
{
    struct uart_served round = uart_ring_serve_up_to(ring, limit, true);
    uart_ring_retrigger_unless_idle(ring, round.has_room, round.handled.end);
    return round.handled;
}

/*
 * Holds the transmit ring: none of its bytes is handed to the chip until
 * u16550_ring_release_transmit.
 *
 * What is in the chip goes out: a held ring stops with at most as many characters of delay as the
 * FIFO holds. u16550_ring_queue accepts bytes as before, and an urgent byte still goes out.
 *
 * Makes no access. If THR_EMPTY is enabled, it is disabled when its next interrupt is served.
 *
 * Proved: the ring is held, and no access is made.
 */
static inline void uart_ring_hold_transmit(struct u16550_core_ring *ring)
{
    ring->is_held = true;
}

/* Returns whether the transmit ring is held. Makes no access. */
static inline bool uart_ring_is_held(const struct u16550_core_ring *ring)
{
    return ring->is_held;
}

/*
 * Returns whether receiving is paused because the receive ring was full. Makes no access.
 *
 * During a pause DATA_READY is disabled and received bytes stay in the chip, which loses some if
 * there are more than it has room for. The next u16550_ring_take of at least one byte ends the
 * pause.
 */
static inline bool uart_ring_is_paused(const struct u16550_core_ring *ring)
{
    return ring->is_paused;
}

/*
 * Returns whether a byte has moved between the rings and the chip since there were so many in the
 * rings.
 */
static inline bool
uart_ring_has_moved(const struct u16550_core_ring *ring, size_t transmit, bool is_urgent,
    size_t receive)
{
    return (ring->transmit.len != transmit) || (is_urgent && !ring->urgent.is_some) ||
        (ring->receive.len != receive);
}

/* Returns how a round counts that ended so: as idle if a byte moved. */
static inline uint8_t uart_counted_as(bool has_moved, uint8_t end)
{
    return has_moved ? (uint8_t)U16550_HANDLE_IDLE : end;
}

/*
 * Returns why a chip that shows this is stuck, or none if no interrupt is pending.
 *
 * Proved: this is why, or no interrupt is pending.
 */
static bool uart_stuck_reason(uint8_t isr, struct u16550_core_stuck_error *why)
{
    uint8_t interrupt;
    if (uart_interrupt_type_from_bits(isr, &interrupt)) {
        why->kind = U16550_RING_STUCK_PENDING;
        why->pending = interrupt;
        return true;
    }
    if (!uart_isr_has_pending_interrupt(isr))
        return false;
    why->kind = U16550_RING_STUCK_UNKNOWN;
    why->unknown = isr;
    return true;
}

/*
 * Reads ISR once more. If it shows an interrupt, disables all interrupts and returns why.
 *
 * Proved: ISR is read once more. If no interrupt is pending now, the chip is not stuck, and the
 * count of rounds begins again; else all interrupts are disabled.
 */
static bool
uart_ring_look_once_more(struct u16550_core_ring *ring, struct u16550_core_stuck_error *why)
{
    struct u16550_core_stuck_error reason;
    /*
     * This read may acknowledge a THR_EMPTY interrupt, which is then not served. The chip is
     * stuck in that case, and a u16550_ring_restart sends what waits.
     */
    if (uart_stuck_reason(uart_isr(&ring->uart), &reason)) {
        /*
         * All eight bits, and not only those of the interrupts that are served here: some chips
         * have more. Without them IER is 0.
         */
        uart_disable_interrupts(&ring->uart, UART_ALL_INTERRUPTS);
        ring->rounds = 0;
        ring->stuck.is_some = true;
        ring->stuck.value = reason;
        *why = reason;
        return true;
    }
    ring->rounds = 0;
    return false;
}

/*
 * Counts a round that did not end with U16550_HANDLE_IDLE, if there may be more of them in a row.
 *
 * Proved: a round was left unfinished. It is counted, if there may be more in a row.
 */
static inline bool
uart_ring_count_unfinished(struct u16550_core_ring *ring, uint32_t rounds,
    struct u16550_core_stuck_error *why)
{
    if (ring->rounds < (rounds >= 1 ? rounds - 1 : 0)) {
        ring->rounds++;
        return false;
    }
    return uart_ring_look_once_more(ring, why);
}

/*
 * Counts a round that ended so.
 *
 * Proved: how a round ended: if no interrupt is pending, the count of rounds begins again.
 */
static inline bool
uart_ring_count_round(struct u16550_core_ring *ring, uint32_t rounds, uint8_t end,
    struct u16550_core_stuck_error *why)
{
    if (end == U16550_HANDLE_IDLE) {
        ring->rounds = 0;
        return false;
    }
    return uart_ring_count_unfinished(ring, rounds, why);
}

/*
 * Handles the interrupt, and counts the round.
 *
 * Proved: a u16550_ring_handle, and its round is counted.
 */
static int
uart_ring_handle_round(struct u16550_core_ring *ring, size_t limit, uint32_t rounds,
    struct u16550_handled *handled, struct u16550_core_stuck_error *error)
{
    size_t len = ring->transmit.len;
    bool has_urgent = ring->urgent.is_some;
    size_t receive = ring->receive.len;
    struct u16550_handled round = uart_ring_handle(ring, limit);
    struct u16550_core_stuck_error why;
    if (uart_ring_count_round(ring, rounds,
        uart_counted_as(uart_ring_has_moved(ring, len, has_urgent, receive), round.end), &why)) {
        *error = why;
        return why.kind;
    }
    *handled = round;
    return U16550_OK;
}

/*
 * Handles the chip's interrupt as u16550_ring_handle does, and ends a storm: a chip that shows an
 * interrupt for ever gets its interrupts disabled.
 *
 * A call that does not end with U16550_HANDLE_IDLE, and that moves no byte between the rings and
 * the chip, is a round that is left unfinished. The controller then calls the handler again, and
 * on a broken chip for ever. So this call counts such rounds. If there were rounds of them in a
 * row, the last one reads ISR once more. If that shows no interrupt, the count begins again.
 * Otherwise the chip is stuck: the call reads IER, writes 0 to it, and returns why.
 *
 * While the chip is stuck, the rings hand no byte to it, and each further call of
 * u16550_ring_try_handle serves nothing, writes 0 to IER again, and returns the same error.
 * u16550_ring_restart starts again.
 *
 * A limit below 6 counts as 6: a chip that works may show 5 interrupts in a row without news and
 * without a byte that moves. So it leaves a round unfinished only if the rest arrives while the
 * round is served: at least limit - 5 characters or changes of the modem lines, and never none. It
 * is never found stuck, unless as many come in the course of each of rounds rounds in a row. If
 * rounds is 0 or 1, the first unfinished round is the last one.
 *
 * As long as bytes move, the rounds end by themselves: a handler alone moves no more bytes than
 * wait in the transmit ring and fit into the receive ring.
 *
 * A chip whose line stays high while ISR shows no interrupt is not found: its rounds end with
 * U16550_HANDLE_IDLE. DesignWare's busy detect is such a one.
 *
 * Does not wait: makes at most 35 accesses for each interrupt of the limit, which is 6 if it is
 * lower, and 6 more. With a larger fifo_size of the driver it is twice that size and 3 in place of
 * the 35.
 *
 * Errors
 *
 * The chip is stuck:
 *
 * - U16550_RING_STUCK_UNKNOWN if ISR shows an interrupt without a name.
 * - U16550_RING_STUCK_PENDING if ISR shows this interrupt, after so many were served.
 *
 * If the chip's interrupt line stays high although IER is 0, mask the interrupt at the controller.
 *
 * Proved: a u16550_ring_handle, whose round is counted, and after which the chip may be found
 * stuck; or, if the chip is stuck already, all interrupts are disabled again. The error is why it
 * is stuck.
 */
static int
uart_ring_try_handle(struct u16550_core_ring *ring, size_t limit, uint32_t rounds,
    struct u16550_handled *handled, struct u16550_core_stuck_error *error)
{
    if (ring->stuck.is_some) {
        struct u16550_core_stuck_error stuck = ring->stuck.value;
        /*
         * A u16550_ring_take that ended a pause has enabled DATA_READY again, or another device
         * on the line has interrupted.
         */
        uart_disable_interrupts(&ring->uart, UART_ALL_INTERRUPTS);
        *error = stuck;
        return stuck.kind;
    }
    return uart_ring_handle_round(ring,
        limit > UART_LEAST_LIMIT ? limit : (size_t)UART_LEAST_LIMIT, rounds, handled, error);
}

/*
 * Handles the chip's interrupt as u16550_ring_try_handle does, and then lowers the chip's
 * interrupt line: reads IER, and disables all interrupts. Returns what was handled and what was
 * enabled.
 *
 * This is the first half of handling at a line that several ports share (u16550_line_handle);
 * uart_ring_raise_line is the second. In between make no other call at this port: a
 * u16550_ring_take that ends a pause would let its line rise.
 *
 * Does not wait: makes 3 accesses more than u16550_ring_try_handle.
 *
 * Proved: a u16550_ring_try_handle; then IER is read, and all interrupts are disabled.
 */
static inline struct uart_lowered
uart_ring_lower_line(struct u16550_core_ring *ring, size_t limit, uint32_t rounds)
{
    struct uart_handled_or_stuck_error handled;
    handled.error.kind = uart_ring_try_handle(ring, limit, rounds, &handled.value, &handled.error);
    /*
     * IER is read after the interrupt was handled: what a pump or a pause has changed stays so.
     */
    uint8_t enabled = uart_ier(&ring->uart);
    /*
     * All eight bits, as in u16550_ring_try_handle: without them IER is 0, and the chip's line
     * is low whatever happens to it.
     */
    uart_disable_interrupts(&ring->uart, UART_ALL_INTERRUPTS);
    struct uart_lowered lowered = { handled, enabled };
    return lowered;
}

/*
 * Returns empty rings over this driver, for tx_capacity bytes that are to be sent and rx_capacity
 * received bytes.
 *
 * Makes no access. Takes all memory of the rings from *alloc.
 *
 * Errors
 *
 * - U16550_RING_BAD_CAPACITY if a capacity is 0 or more than U16550_MAX_CAPACITY.
 * - U16550_RING_OUT_OF_MEMORY if *alloc has less memory.
 *
 * Then *driver is the driver, unchanged.
 */
static int
uart_ring_new(struct uart_memory *alloc, struct u16550_core_driver uart, size_t tx_capacity,
    size_t rx_capacity, struct u16550_core_ring *ring, struct u16550_core_driver *driver)
{
    if (!uart_is_capacity(tx_capacity) || !uart_is_capacity(rx_capacity)) {
        *driver = uart;
        return U16550_RING_BAD_CAPACITY;
    }
    struct u16550_core_byte_queue transmit;
    if (!uart_byte_queue_with_capacity(alloc, tx_capacity, &transmit)) {
        *driver = uart;
        return U16550_RING_OUT_OF_MEMORY;
    }
    struct u16550_core_byte_queue receive;
    if (!uart_byte_queue_with_capacity(alloc, rx_capacity, &receive)) {
        *driver = uart;
        return U16550_RING_OUT_OF_MEMORY;
    }
    ring->uart = uart;
    ring->transmit = transmit;
    ring->receive = receive;
    ring->line = 0;
    ring->modem = 0;
    ring->is_paused = false;
    ring->urgent.is_some = false;
    ring->is_held = false;
    ring->has_told_xoff = false;
    ring->unlooked = 0;
    ring->low_mark = 0;
    ring->is_low = false;
    ring->rounds = 0;
    ring->stuck.is_some = false;
    return U16550_OK;
}

/*
 * Returns the last XON or XOFF of the bytes at which u16550_ring_obey_xoff has not looked yet.
 */
static bool uart_ring_last_told(const struct u16550_core_ring *ring, uint8_t *byte)
{
    struct u16550_core_maybe_u8 told = { false, 0 };
    size_t len = ring->receive.len;
    size_t unlooked = ring->unlooked;
    size_t count = len < unlooked ? len : unlooked;
    for (size_t place = len - count; place < len; place++) {
        uint8_t received = uart_byte_queue_byte_at(&ring->receive, place);
        if ((received == UART_XON) || (received == UART_XOFF)) {
            told.is_some = true;
            told.value = received;
        }
    }
    *byte = told.value;
    return told.is_some;
}

/*
 * Ends the hold of the transmit ring, and starts sending again as u16550_ring_resume_transmit
 * does, so that no interrupt is missed which came during the hold.
 *
 * Does not wait.
 *
 * Proved: the ring is no longer held, and sending resumes.
 */
static inline void uart_ring_release_transmit(struct u16550_core_ring *ring)
{
    ring->is_held = false;
    uart_ring_resume_transmit(ring);
}

/*
 * Obeys the other end, which holds this end back by XOFF and lets it go on by XON: holds the
 * transmit ring if it told XOFF last, and releases it if it told XON last. Returns that character,
 * or none if none came.
 *
 * It looks at the bytes that came into the receive ring since it looked last, and were not taken
 * meanwhile. So it sees each character once, and of several the last one counts. All bytes stay in
 * the receive ring, in their order and with their errors: a program whose readers are to see
 * neither character leaves both out of what it takes. Bytes of these values are taken for the
 * characters, so this is for text.
 *
 * The hold is that of u16550_ring_hold_transmit. A program that holds the ring for a reason of its
 * own does not call this meanwhile: the characters wait, and the next call obeys the last one.
 * What is in the chip goes out after an XOFF, and an urgent byte still does.
 *
 * Call it at the end of the interrupt handler, before the program takes what came. While receiving
 * is paused the characters stay in the chip: so choose a receive ring with room, or an XON behind
 * a full one is seen only after a u16550_ring_take.
 *
 * Does not wait. At an XON it makes the accesses of a u16550_ring_release_transmit. Otherwise it
 * makes none.
 *
 * Proved: of the bytes that came into the receive ring since it looked last, and are still there,
 * the last XON or XOFF is obeyed, and is the result. All bytes stay there.
 */
static bool uart_ring_obey_xoff(struct u16550_core_ring *ring, uint8_t *byte)
{
    uint8_t last;
    bool told = uart_ring_last_told(ring, &last);
    ring->unlooked = 0;
    if (!told)
        return false;
    if (last == UART_XON)
        uart_ring_release_transmit(ring);
    else
        ring->is_held = true;
    *byte = last;
    return told;
}

/*
 * Queues bytes from the front of the array, as many as the transmit ring has room for, and returns
 * how many.
 *
 * If it queues any, it sends one burst of the ring if the chip has room, as u16550_send_bytes of
 * the driver: up to as many bytes as the FIFO holds if it is on, else one. Then it enables
 * THR_EMPTY if bytes are left in the ring, else it disables it. The rest is sent when that
 * interrupt is served. While the ring is held or the chip is stuck, it sends none, and disables
 * THR_EMPTY.
 *
 * Does not wait. If it did not queue all bytes, call it again with the rest of the array after
 * interrupts were served.
 *
 * Proved: bytes from the front of the input are added at the end of the transmit ring, as many as
 * it has room for; if there are any, what the chip takes at once is sent.
 */
static inline size_t
uart_ring_queue(struct u16550_core_ring *ring, const uint8_t *bytes, size_t bytes_len)
{
    size_t count = uart_byte_queue_append(&ring->transmit, bytes, bytes_len);
    if (count > 0)
        uart_ring_pump(ring);
    return count;
}

/*
 * Lets the chip raise its interrupt line again: enables these interrupts, which
 * uart_ring_lower_line found enabled. Those of a chip that is stuck stay disabled.
 *
 * Does not wait: makes 2 accesses, or none if the chip is stuck.
 *
 * Proved: these interrupts are enabled; of a chip that is stuck none.
 */
static inline void uart_ring_raise_line(struct u16550_core_ring *ring, uint8_t enabled)
{
    if (!ring->stuck.is_some)
        uart_enable_interrupts(&ring->uart, enabled);
}

/*
 * Returns the number of bytes in the receive ring: those that were received and not yet taken.
 * Makes no access.
 */
static inline size_t uart_ring_receive_len(const struct u16550_core_ring *ring)
{
    return ring->receive.len;
}

/* Returns these interrupts, without DATA_READY while receiving is paused. */
static inline uint8_t uart_ring_not_paused(const struct u16550_core_ring *ring, uint8_t interrupts)
{
    if (ring->is_paused)
        return interrupts & (uint8_t)~U16550_IER_DATA_READY;
    return interrupts;
}

/*
 * Starts a chip again that is stuck: forgets why, and the count of rounds, enables these
 * interrupts, and sends bytes that wait, as u16550_ring_resume_transmit does.
 *
 * DATA_READY is left out while receiving is paused: the u16550_ring_take that ends the pause
 * enables it. After an u16550_init, which has enabled interrupts itself, call it with none.
 *
 * Does not wait. It may be called on a chip that is not stuck.
 *
 * Proved: these interrupts are enabled, without DATA_READY while receiving is paused; the chip is
 * not stuck any more, and sending resumes.
 */
static inline void uart_ring_restart(struct u16550_core_ring *ring, uint8_t interrupts)
{
    uint8_t enabled = uart_ring_not_paused(ring, interrupts);
    uart_enable_interrupts(&ring->uart, enabled);
    ring->rounds = 0;
    ring->stuck.is_some = false;
    uart_ring_resume_transmit(ring);
}

/*
 * Serves the interrupts that ISR identifies, until it identifies none or U16550_MAX_INTERRUPTS
 * were served. Returns how many.
 *
 * This is for a program that polls. A handler calls u16550_ring_handle, or u16550_line_handle for
 * several chips on one line, which also leaves the interrupt line so that the next interrupt is
 * noticed. u16550_ring_service does not write IER for that, and its count alone does not tell
 * whether an interrupt is left: one that has no name may be.
 *
 * Does not wait. What it does depends on the interrupt:
 *
 * - Received data, or a reception timeout: bytes are moved to the receive ring, up to as many as
 *   the FIFO holds (fifo_size of the driver). If that is full then, receiving is paused:
 *   DATA_READY is disabled, and bytes stay in the chip until a u16550_ring_take makes room.
 * - THR_EMPTY: bytes of the transmit ring are sent, up to as many as the FIFO holds if it is on,
 *   else one. If bytes are left in the ring, THR_EMPTY stays enabled, else it is disabled.
 * - Line status: the errors are noted for u16550_ring_take_line.
 * - Modem status: the changes are noted for u16550_ring_take_modem.
 * - End of DMA: nothing.
 *
 * With CTS checking no byte is sent while CTS is clear, and no THR_EMPTY interrupt is raised when
 * CTS returns. After such a change, which u16550_ring_take_modem reports, call
 * u16550_ring_resume_transmit.
 *
 * Proved: at most 8 interrupts are served, and bytes are sent at THR-empty alone. It tells how
 * many, and not why it ended.
 */
static inline size_t uart_ring_service(struct u16550_core_ring *ring)
{
    /*
     * The number does not tell whether an interrupt without a name is left, and if the line
     * stays high no edge comes. So this call is for programs that poll, and u16550_ring_handle
     * for handlers.
     */
    return uart_ring_serve_up_to(ring, UART_MAX_INTERRUPTS, false).handled.served;
}

/*
 * Sets the low mark, a number of bytes in the transmit ring. It is 0 at first. Makes no access.
 *
 * Proved: the low mark is stored, and no access is made.
 */
static inline void uart_ring_set_low_mark(struct u16550_core_ring *ring, size_t mark)
{
    ring->low_mark = mark;
}

/*
 * Returns why the chip is stuck, or none if it is not: u16550_ring_try_handle has disabled its
 * interrupts since the last u16550_ring_restart. Makes no access.
 */
static inline bool
uart_ring_stuck(const struct u16550_core_ring *ring, struct u16550_core_stuck_error *stuck_error)
{
    *stuck_error = ring->stuck.value;
    return ring->stuck.is_some;
}

/*
 * Copies bytes from the front, as many as there are slots, and returns how many. Leaves the other
 * slots unchanged.
 */
static inline size_t
uart_byte_queue_copy_front(const struct u16550_core_byte_queue *byte_queue, uint8_t *slots,
    size_t slots_len)
{
    struct uart_slices slices = uart_byte_queue_parts(byte_queue);
    size_t before = uart_copy(slices.front.data, slices.front.len, slots, slots_len, 0);
    return before + uart_copy(slices.rest.data, slices.rest.len, &slots[before],
        slots_len - before, 0);
}

/*
 * Takes bytes from the front, as many as there are slots, and returns how many. Leaves the other
 * slots unchanged.
 */
static inline size_t
uart_byte_queue_read_into(struct u16550_core_byte_queue *byte_queue, uint8_t *slots,
    size_t slots_len)
{
    size_t count = uart_byte_queue_copy_front(byte_queue, slots, slots_len);
    uart_byte_queue_drop_front(byte_queue, count);
    return count;
}

/*
 * Takes received bytes from the front of the receive ring, as many as there are slots, and returns
 * how many. Leaves the other slots unchanged.
 *
 * Does not wait. If it takes at least one byte and receiving is paused, it enables DATA_READY
 * again and ends the pause: one read and one write of IER. Otherwise it makes no access.
 *
 * Proved: the bytes are from the front of the receive ring, as many as there are slots and bytes;
 * if there are any, a pause of receiving ends.
 */
static inline size_t uart_ring_take(struct u16550_core_ring *ring, uint8_t *slots, size_t slots_len)
{
    size_t count = uart_byte_queue_read_into(&ring->receive, slots, slots_len);
    uart_ring_end_pause(ring, count);
    return count;
}

/*
 * Reads LSR once. Returns it joined with the errors that were noted when interrupts were served,
 * and with those that the driver has saved. Both are then forgotten.
 *
 * Proved: u16550_lsr, joined with what was noted, after which nothing is noted.
 */
static inline uint8_t uart_ring_take_line(struct u16550_core_ring *ring)
{
    uint8_t lsr = uart_lsr(&ring->uart);
    uint8_t line = ring->line;
    ring->line = 0;
    return lsr | line;
}

/*
 * Returns whether the transmit ring fell from above the low mark to the mark or below since the
 * last u16550_ring_take_low. Makes no access.
 *
 * Call it at the end of the interrupt handler, and wake who waits for room if it returns true. It
 * tells once of each fall; of several falls between two calls it tells once.
 *
 * Proved: whether a fall to the low mark was noted, which is then forgotten.
 */
static inline bool uart_ring_take_low(struct u16550_core_ring *ring)
{
    bool low = ring->is_low;
    ring->is_low = false;
    return low;
}

/*
 * Reads MSR once. Returns it joined with the changes that were noted when interrupts were served,
 * and with those that the driver has saved. Both are then forgotten.
 *
 * Proved: u16550_msr, joined with what was noted, after which nothing is noted.
 */
static inline uint8_t uart_ring_take_modem(struct u16550_core_ring *ring)
{
    uint8_t msr = uart_msr(&ring->uart);
    uint8_t modem = ring->modem;
    ring->modem = 0;
    return msr | modem;
}

/*
 * Returns the number of bytes in the transmit ring: those that are queued and not yet written to
 * the chip. Makes no access.
 */
static inline size_t uart_ring_transmit_len(const struct u16550_core_ring *ring)
{
    return ring->transmit.len;
}

/* Returns how many more bytes the transmit ring has room for. Makes no access. */
static inline size_t uart_ring_transmit_room(const struct u16550_core_ring *ring)
{
    size_t byte_queue_capacity = uart_byte_queue_capacity(&ring->transmit);
    return byte_queue_capacity - ring->transmit.len;
}

/* Returns the urgent byte that still waits to be sent. Makes no access. */
static inline bool uart_ring_urgent(const struct u16550_core_ring *ring, uint8_t *byte)
{
    *byte = ring->urgent.value;
    return ring->urgent.is_some;
}
#endif

#ifndef U16550_OMIT_BUS
/*
 * Waits until the transmitter is empty, at most spin_limit polls of LSR, as u16550_flush of the
 * driver does. The direction stays as it is.
 *
 * Errors
 *
 * U16550_STALLED after spin_limit unsuccessful polls in a row.
 *
 * Proved: a wait for an empty transmitter.
 */
static inline int uart_half_duplex_flush(struct u16550_core_half_duplex *half_duplex)
{
    return uart_flush(&half_duplex->uart);
}

/* Returns the driver. The direction stays as it is, so finish before. Makes no access. */
static inline struct u16550_core_driver
uart_half_duplex_into_inner(struct u16550_core_half_duplex half_duplex)
{
    return half_duplex.uart;
}

/*
 * Returns whether the transmitter is empty, as u16550_is_idle of the driver does: reads LSR once.
 *
 * Does not wait. The error bits that this clears are saved for the next u16550_bus_lsr.
 *
 * Proved: one read of LSR, which shows whether the transmitter is empty.
 */
static inline bool uart_half_duplex_is_idle(struct u16550_core_half_duplex *half_duplex)
{
    return uart_is_idle(&half_duplex->uart);
}

/* Returns whether the direction is to send. Makes no access. */
static inline bool uart_half_duplex_is_sending(const struct u16550_core_half_duplex *half_duplex)
{
    return half_duplex->is_sending;
}

/*
 * Reads LSR, and returns it joined with the error bits that all calls before have cleared in the
 * chip, as u16550_lsr of the driver does. Afterwards no error bits are saved.
 *
 * Proved: one read of LSR, which is returned joined with the saved bits, of which none are left.
 */
static inline uint8_t uart_half_duplex_lsr(struct u16550_core_half_duplex *half_duplex)
{
    return uart_lsr(&half_duplex->uart);
}
#endif

/* Returns whether the bit of the output is set in this direction. */
static inline bool uart_direction_level(struct u16550_core_direction direction, bool sends)
{
    return sends ? direction.sends_when_set : !direction.sends_when_set;
}

/* Returns the bit of the output. */
static inline uint8_t uart_direction_bit(struct u16550_core_direction direction)
{
    return direction.line == U16550_DIRECTION_RTS ? (uint8_t)U16550_MCR_RTS
        : (uint8_t)U16550_MCR_DTR;
}

/*
 * Returns the bit by which the chip would drive the output itself: flow control by the chip drives
 * RTS, by how many characters wait.
 */
static inline uint8_t uart_direction_flow(struct u16550_core_direction direction)
{
    return direction.line == U16550_DIRECTION_RTS ? (uint8_t)U16550_MCR_AUTO_FLOW : 0;
}

/* Returns these outputs with the line as it is to be in this direction. */
static inline uint8_t
uart_direction_turned(struct u16550_core_direction direction, bool sends, uint8_t outputs)
{
    uint8_t mcr;
    if (uart_direction_level(direction, sends))
        mcr = outputs | uart_direction_bit(direction);
    else
        mcr = outputs & (uint8_t)~uart_direction_bit(direction);
    /*
     * A chip whose flow control is on clears RTS once its FIFO has as many characters as its
     * trigger level. It would give the bus away in the middle of a message whose echo is not
     * yet read. Firmware, or a driver before this one, may have left it on.
     */
    return mcr & (uint8_t)~uart_direction_flow(direction);
}

#ifndef U16550_OMIT_BUS
/*
 * Switches the transceiver to send, or to receive.
 *
 * Proved: the transceiver is switched: MCR is read, and written with the line as it is to be in
 * this direction, without loopback, and at RTS without automatic flow control.
 */
static inline void uart_half_duplex_turn(struct u16550_core_half_duplex *half_duplex, bool sends)
{
    uint8_t outputs = uart_mcr(&half_duplex->uart);
    uint8_t turned = uart_direction_turned(half_duplex->direction, sends, outputs);
    uart_set_modem_control(&half_duplex->uart, turned);
    half_duplex->is_sending = sends;
}

/*
 * Gives the bus back if the transmitter is empty: reads LSR once and, if it shows
 * TRANSMITTER_EMPTY, MCR, and writes that with the line so that the transceiver receives.
 *
 * Does not wait. The error bits that the read of LSR clears are saved for the next u16550_bus_lsr.
 * Call it some time after u16550_bus_is_idle was true or u16550_bus_flush returned: some chips
 * show an empty transmitter while the last stop bit is still on the line.
 *
 * Returns false if the transmitter is not empty. Nothing was written, and the direction is as it
 * was.
 *
 * Proved: a look at LSR shows that the transmitter is empty, and the transceiver is switched to
 * receive; or it shows that it is not, and nothing else is done.
 */
static inline bool uart_half_duplex_try_finish(struct u16550_core_half_duplex *half_duplex)
{
    /*
     * The look is part of the call that switches. A look of an earlier call would tell nothing
     * of bytes that were sent after it.
     */
    if (!uart_is_idle(&half_duplex->uart))
        return false;
    uart_half_duplex_turn(half_duplex, false);
    return true;
}

/*
 * Returns a driver at a bus that it may drive, with the transceiver switched to receive.
 *
 * Makes the accesses of u16550_bus_try_finish, since an u16550_init or whoever had the port before
 * may have left the transceiver so that it sends, and may have sent. Does not wait. Initialise the
 * driver before, with the outputs of u16550_direction_receiving.
 *
 * Errors
 *
 * U16550_BUS_BUSY if the transmitter is not empty. Nothing was written then, and *driver is the
 * driver.
 *
 * Proved: as u16550_bus_try_finish of a driver of whose direction nothing is known, so that it is
 * taken to be to send. If the transmitter is not empty, the driver is returned.
 */
static int
uart_half_duplex_new(struct u16550_core_driver uart, struct u16550_core_direction direction,
    struct u16550_core_half_duplex *half_duplex, struct u16550_core_driver *driver)
{
    half_duplex->uart = uart;
    half_duplex->direction = direction;
    half_duplex->is_sending = true;
    if (uart_half_duplex_try_finish(half_duplex))
        return U16550_OK;
    *driver = half_duplex->uart;
    return U16550_BUS_BUSY;
}

/*
 * Receives bytes while some are available and there are free slots, as u16550_receive_bytes of the
 * driver does. Returns how many, and leaves the slots beyond them unchanged.
 *
 * Does not wait, in either direction. If the receiver hears what this end sends, these bytes are
 * among those that are received.
 *
 * Proved: bytes are read from DATA, each after LSR shows it, until the slots are full, or LSR
 * shows none.
 */
static inline size_t
uart_half_duplex_receive_bytes(struct u16550_core_half_duplex *half_duplex, uint8_t *buffer,
    size_t buffer_len)
{
    return uart_receive_bytes(&half_duplex->uart, buffer, buffer_len);
}

/*
 * Receives bytes with their errors while some are available and there are free slots, as
 * u16550_receive_with_errors of the driver does.
 *
 * Does not wait. A byte that was received while two ends sent at once has mostly an error, and
 * while no end drives a bus without resistors that hold it there may be errors and breaks.
 *
 * Proved: bytes are read from DATA, each after LSR shows it and its errors, until the slots are
 * full, or LSR shows none.
 */
static inline size_t
uart_half_duplex_receive_with_errors(struct u16550_core_half_duplex *half_duplex,
    struct u16550_received *slots, size_t slots_len)
{
    return uart_receive_with_errors(&half_duplex->uart, slots, slots_len);
}

/*
 * Sends bytes from the front of the array if there is room, and returns how many, as
 * u16550_send_bytes of the driver does: up to as many as the FIFO holds if it is on, else one.
 *
 * Does not wait. Call it again with the rest of the array to send more.
 *
 * Returns false if the direction is not to send. No access was made.
 *
 * Proved: while the direction is to send, a u16550_send_bytes of the driver; else nothing, and the
 * error.
 */
static inline bool
uart_half_duplex_send_bytes(struct u16550_core_half_duplex *half_duplex, const uint8_t *buffer,
    size_t buffer_len, size_t *count)
{
    if (!half_duplex->is_sending)
        return false;
    *count = uart_send_bytes(&half_duplex->uart, buffer, buffer_len);
    return true;
}

/*
 * Sends all of the bytes, and waits for room before each burst, as u16550_send_bytes_exact of the
 * driver does.
 *
 * It returns when the last burst is in THR or the FIFO. u16550_bus_flush waits until all of it has
 * left the chip.
 *
 * Errors
 *
 * - U16550_BUS_NOT_SENDING if the direction is not to send. No access was made.
 * - U16550_STALLED after spin_limit unsuccessful checks in a row. The first *stalled_at bytes were
 *   written to the chip.
 *
 * Proved: while the direction is to send, a u16550_send_bytes_exact of the driver; else nothing,
 * and the error.
 */
static inline int
uart_half_duplex_send_bytes_exact(struct u16550_core_half_duplex *half_duplex,
    const uint8_t *bytes, size_t bytes_len, size_t *stalled_at)
{
    if (!half_duplex->is_sending)
        return U16550_BUS_NOT_SENDING;
    return uart_send_bytes_exact(&half_duplex->uart, bytes, bytes_len, stalled_at);
}

/*
 * Switches the transceiver to send: reads MCR, and writes it with the line so, as u16550_set_rts
 * or u16550_set_dtr of the driver do. Where the line is RTS, flow control by the chip is off from
 * then on. From now on bytes may be sent.
 *
 * Does not wait. Before the first byte wait as long as the transceiver takes.
 *
 * Proved: the transceiver is switched: MCR is read, and written with the line as it is to be in
 * this direction, without loopback, and at RTS without automatic flow control.
 */
static inline void uart_half_duplex_start_sending(struct u16550_core_half_duplex *half_duplex)
{
    uart_half_duplex_turn(half_duplex, true);
}
#endif

/*
 * Returns these outputs with the line as it is to be while the transceiver receives: of RTS
 * without flow control by the chip, which would drive it.
 *
 * u16550_init raises RTS and DTR. On a bus with other ends that may send, initialise the chip with
 * these outputs instead, by u16550_init_with: else this end may hold the bus until u16550_bus_new.
 */
static inline uint8_t
uart_direction_receiving(struct u16550_core_direction direction, uint8_t outputs)
{
    return uart_direction_turned(direction, false, outputs);
}

/*
 * Returns the baud rate with this number of bits per second: the case with a name if there is one,
 * else U16550_CORE_BAUD_RATE_CUSTOM.
 *
 * Proved: a rate that has a name is never U16550_CORE_BAUD_RATE_CUSTOM.
 */
static struct u16550_core_baud_rate uart_baud_rate_from_bps(uint32_t value)
{
    switch (value) {
    case UINT32_C(115200): {
        struct u16550_core_baud_rate baud_rate = { U16550_CORE_BAUD_RATE_BAUD115200, 0 };
        return baud_rate;
    }
    case UINT32_C(57600): {
        struct u16550_core_baud_rate baud_rate = { U16550_CORE_BAUD_RATE_BAUD57600, 0 };
        return baud_rate;
    }
    case UINT32_C(38400): {
        struct u16550_core_baud_rate baud_rate = { U16550_CORE_BAUD_RATE_BAUD38400, 0 };
        return baud_rate;
    }
    case 9600: {
        struct u16550_core_baud_rate baud_rate = { U16550_CORE_BAUD_RATE_BAUD9600, 0 };
        return baud_rate;
    }
    case 4800: {
        struct u16550_core_baud_rate baud_rate = { U16550_CORE_BAUD_RATE_BAUD4800, 0 };
        return baud_rate;
    }
    case 2400: {
        struct u16550_core_baud_rate baud_rate = { U16550_CORE_BAUD_RATE_BAUD2400, 0 };
        return baud_rate;
    }
    case 1200: {
        struct u16550_core_baud_rate baud_rate = { U16550_CORE_BAUD_RATE_BAUD1200, 0 };
        return baud_rate;
    }
    case 600: {
        struct u16550_core_baud_rate baud_rate = { U16550_CORE_BAUD_RATE_BAUD600, 0 };
        return baud_rate;
    }
    case 300: {
        struct u16550_core_baud_rate baud_rate = { U16550_CORE_BAUD_RATE_BAUD300, 0 };
        return baud_rate;
    }
    case 150: {
        struct u16550_core_baud_rate baud_rate = { U16550_CORE_BAUD_RATE_BAUD150, 0 };
        return baud_rate;
    }
    case 110: {
        struct u16550_core_baud_rate baud_rate = { U16550_CORE_BAUD_RATE_BAUD110, 0 };
        return baud_rate;
    }
    default: {
        struct u16550_core_baud_rate baud_rate = { U16550_CORE_BAUD_RATE_CUSTOM, value };
        return baud_rate;
    }
    }
}

#ifndef U16550_OMIT_TIMES
/* Returns the factor if it is at most 15, or if there is none. */
static bool
uart_valid_prescaler(struct u16550_core_maybe_u32 prescaler_division_factor,
    struct u16550_core_maybe_u32 *prescaler)
{
    if (prescaler_division_factor.is_some) {
        if (prescaler_division_factor.value > UART_MAX_PRESCALER)
            return false;
        prescaler->is_some = true;
        prescaler->value = prescaler_division_factor.value;
        return true;
    }
    prescaler->is_some = false;
    return true;
}

/*
 * Returns the factor if a divisor can be computed with these, and otherwise why not.
 *
 * Errors
 *
 * Those of uart_checked_divisor, but for the ones that depend on the divisor.
 *
 * Proved: why the arithmetic does not accept a frequency and a baud rate: no divisor gives a baud
 * rate of zero, or has a factor above 15; otherwise a frequency of zero has the divisor 0, which
 * does not fit into the divisor latch.
 */
static int
uart_computable_prescaler(uint32_t frequency, uint32_t baud_rate,
    struct u16550_core_maybe_u32 prescaler_division_factor, struct u16550_core_maybe_u32 *prescaler)
{
    struct u16550_core_maybe_u32 valid;
    if (uart_valid_prescaler(prescaler_division_factor, &valid)) {
        if (baud_rate != 0 && frequency != 0) {
            *prescaler = valid;
            return U16550_OK;
        }
        if (baud_rate != 0)
            return U16550_FRAME_DIVISOR_OUT_OF_RANGE;
    }
    return U16550_FRAME_NON_INTEGER_DIVISOR;
}

/*
 * Does the same as uart_calc_divisor, but also returns an error if the frequency or the baud rate
 * is 0, or if the prescaler division factor is above 15.
 *
 * Errors
 *
 * Those of uart_calc_divisor. A baud rate of 0 or a larger factor gives
 * U16550_FRAME_NON_INTEGER_DIVISOR, and otherwise a frequency of 0 gives
 * U16550_FRAME_DIVISOR_OUT_OF_RANGE.
 *
 * Proved: the answer of the arithmetic if it accepts these, and otherwise why it does not.
 */
static inline int
uart_checked_divisor(uint32_t frequency, uint32_t baud_rate,
    struct u16550_core_maybe_u32 prescaler_division_factor, uint16_t *divisor)
{
    struct u16550_core_maybe_u32 prescaler;
    int status =
        uart_computable_prescaler(frequency, baud_rate, prescaler_division_factor, &prescaler);
    if (status != U16550_OK)
        return status;
    return uart_calc_divisor(frequency, baud_rate, prescaler, divisor);
}

/* Returns the number of data bits. */
static uint32_t uart_word_length_bits(uint8_t word_length)
{
    switch (word_length) {
    case U16550_CORE_WORD_LENGTH_FIVE_BITS:
        return 5;
    case U16550_CORE_WORD_LENGTH_SIX_BITS:
        return 6;
    case U16550_CORE_WORD_LENGTH_SEVEN_BITS:
        return 7;
    case U16550_CORE_WORD_LENGTH_EIGHT_BITS:
    default:
        return 8;
    }
}

/* Returns how many halves of bits a character has, with its start bit and its stop bits. */
static uint64_t uart_half_bits_of_character(const struct u16550_core_config *config)
{
    uint64_t parity = config->parity == U16550_PARITY_NONE ? 0 : 2;
    uint64_t stop;
    if (!config->extra_stop_bits)
        stop = 2;
    else
        stop = config->data_bits == U16550_CORE_WORD_LENGTH_FIVE_BITS ? 3 : 4;
    return 2 + 2 * (uint64_t)uart_word_length_bits(config->data_bits) + parity + stop;
}

/*
 * Returns how many clocks of the chip's input a character takes on the line: its start bit, data
 * bits, parity bit and stop bits, with one and a half stop bits exact.
 *
 * Errors
 *
 * Those of uart_checked_divisor, if there is no divisor for the baud rate.
 *
 * Proved: the time of a character, if there is a divisor for the baud rate; otherwise why there is
 * none.
 */
static int uart_config_character_clocks(const struct u16550_core_config *config, uint64_t *clocks)
{
    struct u16550_core_maybe_u32 factor = config->prescaler_division_factor;
    uint32_t rate = uart_baud_rate_bps(config->baud_rate);
    uint16_t divisor;
    int status = uart_checked_divisor(config->frequency, rate, factor, &divisor);
    if (status != U16550_OK)
        return status;
    uint32_t prescaler = factor.is_some ? factor.value : 0;
    *clocks =
        uart_product_64(uart_product_64(8 * ((uint64_t)prescaler + 1), divisor),
        uart_half_bits_of_character(config));
    return U16550_OK;
}

/*
 * Returns the most characters that can arrive within so many clocks.
 *
 * That is what a mark of flow control has to leave room for: what is under way on a cable with
 * such a delay, or comes until a handler runs that is so late.
 *
 * Errors
 *
 * Those of uart_checked_divisor, if there is no divisor for the baud rate.
 *
 * Proved: the most characters that end within so many clocks: one ends at once, and each other a
 * character's time later.
 */
static inline int
uart_config_characters_in(const struct u16550_core_config *config, uint64_t clocks,
    uint64_t *characters)
{
    uint64_t character;
    int status = uart_config_character_clocks(config, &character);
    if (status != U16550_OK)
        return status;
    *characters = uart_quotient_64(clocks, character) + 1;
    return U16550_OK;
}

/*
 * Returns (value * times + more) / per, if there is one and it fits. No step of it overflows: what
 * value has above a multiple of per is below it.
 */
static bool
uart_multiply_divide(uint64_t value, uint32_t times, uint32_t per, uint32_t more, uint64_t *result)
{
    if (per == 0)
        return false;
    uint64_t quotient = uart_quotient_64(value, per);
    uint64_t product;
    if (times == 0)
        product = 0;
    else if (quotient <= uart_quotient_64(UART_MOST_64, times))
        product = uart_product_64(quotient, times);
    else
        return false;
    uint64_t part =
        uart_quotient_64(uart_product_64(uart_rest_64(value, per), times) + (uint64_t)more, per);
    if (UART_MOST_64 - part < product)
        return false;
    *result = product + part;
    return true;
}

/*
 * Returns the fewest clocks that cover so many nanoseconds: rounded up, as the most that an access
 * takes, or a handler is late. None if they do not fit.
 *
 * Proved: the exact quotient, rounded up; or none, if that does not fit into 64 bits, or is by 0.
 */
static inline bool
uart_config_clocks_covering(const struct u16550_core_config *config, uint64_t nanoseconds,
    uint64_t *clocks)
{
    return uart_multiply_divide(nanoseconds, config->frequency, UART_NANOSECONDS_PER_SECOND,
        UART_NANOSECONDS_PER_SECOND - 1, clocks);
}

/*
 * Returns the whole clocks within so many nanoseconds: rounded down, as the least that a look
 * takes. None if they do not fit.
 *
 * Proved: the exact quotient, rounded down; or none, if that does not fit into 64 bits, or is by
 * 0.
 */
static inline bool
uart_config_clocks_within(const struct u16550_core_config *config, uint64_t nanoseconds,
    uint64_t *clocks)
{
    return uart_multiply_divide(nanoseconds, config->frequency, UART_NANOSECONDS_PER_SECOND, 0,
        clocks);
}

/*
 * Returns the clocks after which a full transmitter has sent all that it holds: the FIFO, of this
 * size, and the shift register.
 *
 * So long at most does a u16550_flush take, if the other end does not hold the chip off.
 *
 * Errors
 *
 * Those of uart_checked_divisor, if there is no divisor for the baud rate.
 *
 * Proved: the time of so many characters.
 */
static int
uart_config_drain_clocks(const struct u16550_core_config *config, uint8_t size, uint64_t *clocks)
{
    uint64_t characters = (uint64_t)uart_fifo_depth(size) + 1;
    uint64_t character;
    int status = uart_config_character_clocks(config, &character);
    if (status != U16550_OK)
        return status;
    *clocks = uart_product_64(characters, character);
    return U16550_OK;
}

/*
 * Returns how many characters wait in a FIFO of this size when the level is reached: the number of
 * its name in one of 16, and other numbers in larger ones.
 *
 * They are those of a 16550, a 16650, a 16750 and a 16950, and those of DesignWare for 256: one, a
 * quarter, a half, and two less than full.
 */
static size_t uart_rx_trigger_bytes(uint8_t fifo_trigger_level, uint8_t size)
{
    const uint8_t *levels;
    switch (size) {
    case U16550_CORE_FIFO_SIZE_SIXTEEN:
        levels = uart_levels_of_16;
        break;
    case U16550_CORE_FIFO_SIZE_THIRTY_TWO:
        levels = uart_levels_of_32;
        break;
    case U16550_CORE_FIFO_SIZE_SIXTY_FOUR:
        levels = uart_levels_of_64;
        break;
    case U16550_CORE_FIFO_SIZE_ONE_HUNDRED_TWENTY_EIGHT:
        levels = uart_levels_of_128;
        break;
    case U16550_CORE_FIFO_SIZE_TWO_HUNDRED_FIFTY_SIX:
    default:
        levels = uart_levels_of_256;
        break;
    }
    switch (fifo_trigger_level) {
    case U16550_CORE_FIFO_TRIGGER_LEVEL_ONE:
        return levels[0];
    case U16550_CORE_FIFO_TRIGGER_LEVEL_FOUR:
        return levels[1];
    case U16550_CORE_FIFO_TRIGGER_LEVEL_EIGHT:
        return levels[2];
    case U16550_CORE_FIFO_TRIGGER_LEVEL_FOURTEEN:
    default:
        return levels[3];
    }
}

/*
 * Returns how many characters more the receiver takes, once as many wait as the trigger level.
 */
static inline uint32_t uart_rx_spare(const struct u16550_core_config *config, uint8_t size)
{
    if (config->fifo_trigger_level.is_some) {
        uint8_t level = config->fifo_trigger_level.value;
        size_t depth = uart_fifo_depth(size);
        return (uint32_t)(depth - uart_rx_trigger_bytes(level, size));
    }
    return 0;
}

/*
 * Returns the most clocks that may pass from the receiver's interrupt to the handler's read of
 * ISR, so that no character is dropped without flow control; or none if nothing is left.
 *
 * An access takes at most access_clocks. At a line that several ports share those before this one
 * are served first, for at most before_clocks: the result is then what is left for the first read
 * of ISR of the whole handler. At a line of its own this is 0. If a line error is told first, the
 * first byte is read four accesses after ISR. Nothing is left either if two accesses, as each byte
 * needs, take longer than a character.
 *
 * A character takes as long as this configuration says. The other end must be no faster, also by
 * its stop bits: an end that sends one takes less time than two, and this end sees no difference.
 *
 * The result counts no other accesses of a visit of the handler. If one takes a quarter of a
 * character or more, a visit may meet each character that comes meanwhile as an interrupt of its
 * own, and end by its limit and not with U16550_HANDLE_IDLE. Then characters are lost in spite of
 * the result, and at half a character even if the handler comes at once.
 *
 * Errors
 *
 * Those of uart_checked_divisor, if there is no divisor for the baud rate.
 *
 * Proved: how late the handler may begin where an access takes access_clocks, and the others at
 * its line are served first: an access reads ISR, and the first byte is read four accesses later
 * if a line error is told before it. It is in time if something is left, and no character comes
 * while another one is read, by two accesses.
 */
static int
uart_config_handler_budget(const struct u16550_core_config *config, uint8_t size,
    uint64_t access_clocks, uint64_t before_clocks, struct uart_maybe_u64 *clocks)
{
    uint64_t character;
    int status = uart_config_character_clocks(config, &character);
    if (status != U16550_OK)
        return status;
    if (character / 2 < access_clocks) {
        clocks->is_some = false;
        return U16550_OK;
    }
    uint64_t most = uart_product_64((uint64_t)uart_rx_spare(config, size) + 1, character) - 1;
    uint64_t first_byte = 4 * access_clocks;
    uint64_t served = before_clocks <= UART_MOST_64 - first_byte ? before_clocks + first_byte
        : UART_MOST_64;
    if (most < served) {
        clocks->is_some = false;
    } else {
        clocks->is_some = true;
        clocks->value = most - served;
    }
    return U16550_OK;
}

/*
 * Returns the fewest whole nanoseconds that cover so many clocks: rounded up, as a time to wait.
 * None if they do not fit, or the frequency is 0.
 *
 * Proved: the exact quotient, rounded up; or none, if that does not fit into 64 bits, or is by 0.
 */
static inline bool
uart_config_nanoseconds_covering(const struct u16550_core_config *config, uint64_t clocks,
    uint64_t *nanoseconds)
{
    uint32_t frequency = config->frequency;
    return uart_multiply_divide(clocks, UART_NANOSECONDS_PER_SECOND, config->frequency,
        frequency >= 1 ? frequency - 1 : 0, nanoseconds);
}

/*
 * Returns the whole nanoseconds within so many clocks: rounded down, as a time that may be used
 * up. None if they do not fit, or the frequency is 0.
 *
 * Proved: the exact quotient, rounded down; or none, if that does not fit into 64 bits, or is by
 * 0.
 */
static inline bool
uart_config_nanoseconds_within(const struct u16550_core_config *config, uint64_t clocks,
    uint64_t *nanoseconds)
{
    return uart_multiply_divide(clocks, UART_NANOSECONDS_PER_SECOND, config->frequency, 0,
        nanoseconds);
}

/* Returns how many clock ticks a bit has at divisor 1. */
static inline uint64_t
uart_ticks_of(uint32_t baud_rate, struct u16550_core_maybe_u32 prescaler_division_factor)
{
    uint32_t prescaler = prescaler_division_factor.is_some ? prescaler_division_factor.value : 0;
    return uart_product_64(UART_SAMPLES_PER_BIT * ((uint64_t)prescaler + 1), baud_rate);
}

/*
 * Returns the factor, at least 1, at which the rate is nearest to the one that is wanted, if the
 * clock has this frequency, and if the factor 1 is exact at this number of ticks. If two are
 * equally near, it is the larger one.
 *
 * A factor gives the rate frequency / factor, and the wanted one is ticks. Rates are not spaced as
 * their factors are: between two neighbours the rates are equally far off where the frequency
 * divided by the ticks is the harmonic mean of the two, which is below the middle.
 */
static inline uint64_t uart_nearest_factor(uint64_t frequency, uint64_t ticks)
{
    uint64_t below = uart_quotient_64(frequency, ticks);
    uint64_t above = below + 1;
    return 2 * uart_product_64(uart_product_64(ticks, below), above) <= uart_product_64(frequency,
        below + above) ? above : below;
}

/*
 * Returns the configuration for the divisor whose rate is nearest to the configured one, if it is
 * near enough. Use it for a clock that gives no exact divisor, since u16550_init and
 * u16550_set_frame round nothing.
 *
 * In the result only frequency differs: it is the one, in hertz, at which the nearest divisor
 * gives the configured baud rate exactly. So u16550_init accepts the result, and writes this
 * divisor. If two divisors are equally near, it is the larger one.
 *
 * The rate on the line differs from the configured one by at most per_mille thousandths of the
 * configured one: 20 are two per cent, 0 takes an exact divisor alone. A receiver looks at the
 * last of ten bits nine and a half bit times after the start of the character. So the two sides
 * together may be some 45 thousandths apart, and 20 for each side is a usual choice.
 *
 * Errors
 *
 * - U16550_NEAREST_OUT_OF_RANGE if it is above 65,535, or its frequency needs more than 32 bits.
 * - U16550_NEAREST_TOO_FAR if it is in range, and the rate differs by more. Then the rate of each
 *   divisor does.
 *
 * Proved: the configuration with the frequency at which the nearest divisor is exact, so that it
 * is the one that the exact arithmetic computes, and the rate is near enough; or the error that
 * says that the nearest divisor does not fit, or fits and is too far off, as each other divisor
 * then is.
 */
static int
uart_config_nearest(struct u16550_core_config config, uint32_t per_mille,
    struct u16550_core_config *nearest)
{
    uint64_t frequency = config.frequency;
    uint64_t ticks =
        uart_ticks_of(uart_baud_rate_bps(config.baud_rate), config.prescaler_division_factor);
    uint64_t divisor = uart_nearest_factor(frequency, ticks);
    uint64_t exact = uart_product_64(ticks, divisor);
    if ((divisor > UINT16_MAX) || (exact > UART_MOST_32))
        return U16550_NEAREST_OUT_OF_RANGE;
    if (uart_product_64(per_mille, exact) < uart_product_64(1000,
        exact < frequency ? frequency - exact : exact - frequency)) {
        return U16550_NEAREST_TOO_FAR;
    }
    config.frequency = (uint32_t)exact;
    *nearest = config;
    return U16550_OK;
}

/*
 * Returns the spin limit with which no wait for a working transmitter gives up, of a FIFO of this
 * size: if each look takes at least so many clocks, and the other end does not hold the chip off.
 * None if a look takes none.
 *
 * A wait gives up after at most as many looks in a row as the limit, so after the limit times the
 * clocks of a look.
 *
 * Errors
 *
 * Those of uart_checked_divisor, if there is no divisor for the baud rate.
 *
 * Proved: The limit with which no wait for a full transmitter gives up, of a FIFO and the shift
 * register, if each look takes at least access_clocks. A character is so many looks, of which the
 * last may begin before it ends; and one look more finds that the next character has begun.
 */
static int
uart_config_spin_limit_for(const struct u16550_core_config *config, uint8_t size,
    uint64_t access_clocks, struct uart_maybe_u64 *limit)
{
    uint64_t clocks;
    int status = uart_config_character_clocks(config, &clocks);
    if (status != U16550_OK)
        return status;
    if (access_clocks == 0) {
        limit->is_some = false;
        return U16550_OK;
    }
    limit->is_some = true;
    limit->value =
        uart_product_64((uint64_t)uart_fifo_depth(size) + 1,
        uart_quotient_64(clocks - 1, access_clocks) + 2);
    return U16550_OK;
}

/*
 * Returns the clocks after which the chip's reception timeout interrupts, if fewer characters wait
 * than the trigger level: the time of four characters, in which none came and none was read.
 *
 * Errors
 *
 * Those of uart_checked_divisor, if there is no divisor for the baud rate.
 *
 * Proved: the time of so many characters.
 */
static inline int
uart_config_timeout_clocks(const struct u16550_core_config *config, uint64_t *clocks)
{
    uint64_t character;
    int status = uart_config_character_clocks(config, &character);
    if (status != U16550_OK)
        return status;
    *clocks = 4 * character;
    return U16550_OK;
}
#endif

/*
 * Returns the baud rate that a divisor gives at a clock frequency in hertz. Nothing is rounded.
 *
 * Errors
 *
 * U16550_NON_INTEGER_BAUD_RATE, with the arguments, if the baud rate is not a whole number.
 *
 * Proved: the baud rate that this divisor gives exactly; or an error with the arguments, if it
 * gives no whole one.
 */
static inline int
uart_calc_baud_rate(uint32_t frequency, uint32_t divisor,
    struct u16550_core_maybe_u32 prescaler_division_factor, uint32_t *baud_rate)
{
    if (!uart_divide_clock(frequency, divisor, prescaler_division_factor, baud_rate))
        return U16550_NON_INTEGER_BAUD_RATE;
    return U16550_OK;
}

/*
 * Returns the baud rate that the divisor gives at the configuration's frequency and prescaler
 * division factor: the case with a name if there is one, else U16550_CORE_BAUD_RATE_CUSTOM.
 *
 * The configuration's own baud rate does not matter. Its frequency must not be 0, and its
 * prescaler division factor must be none or at most 15.
 *
 * Errors
 *
 * U16550_NON_INTEGER_BAUD_RATE if the divisor is 0, or if the baud rate is not a whole number.
 *
 * Proved: the baud rate that a dump's divisor gives, with its name if it has one; or an error if
 * it is not a whole number.
 */
static int
uart_config_register_dump_baud_rate(const struct u16550_dump *config_register_dump,
    const struct u16550_core_config *config, struct u16550_core_baud_rate *baud_rate)
{
    uint32_t frequency = config->frequency;
    struct u16550_core_maybe_u32 prescaler_division_factor = config->prescaler_division_factor;
    uint32_t divisor = uart_config_register_dump_divisor(config_register_dump);
    if (divisor == 0)
        return U16550_NON_INTEGER_BAUD_RATE;
    uint32_t exact;
    if (uart_calc_baud_rate(frequency, divisor, prescaler_division_factor, &exact) != U16550_OK)
        return U16550_NON_INTEGER_BAUD_RATE;
    *baud_rate = uart_baud_rate_from_bps(exact);
    return U16550_OK;
}

#ifndef U16550_OMIT_RINGS
/*
 * Returns the low nibble of an ISR value that identifies this interrupt.
 *
 * Proved: bit 0 is clear, so an interrupt is pending, and the code is that of this interrupt.
 */
static uint8_t uart_interrupt_type_to_bits(uint8_t interrupt_type)
{
    switch (interrupt_type) {
    case U16550_CORE_INTERRUPT_TYPE_RECEIVER_LINE_STATUS:
        return UART_CODE_LINE_STATUS;
    case U16550_CORE_INTERRUPT_TYPE_RECEIVED_DATA_READY:
        return UART_CODE_DATA_READY;
    case U16550_CORE_INTERRUPT_TYPE_RECEPTION_TIMEOUT:
        return UART_CODE_TIMEOUT;
    case U16550_CORE_INTERRUPT_TYPE_TRANSMITTER_HOLDING_REGISTER_EMPTY:
        return UART_CODE_THR_EMPTY;
    case U16550_CORE_INTERRUPT_TYPE_MODEM_STATUS:
        return UART_CODE_MODEM_STATUS;
    case U16550_CORE_INTERRUPT_TYPE_DMA_RECEPTION_END_OF_TRANSFER:
        return UART_CODE_DMA_RX_END;
    case U16550_CORE_INTERRUPT_TYPE_DMA_TRANSMISSION_END_OF_TRANSFER:
    default:
        return UART_CODE_DMA_TX_END;
    }
}

/* --------------------------------------------------------------- what is by hand: memory of the caller, and calls that are not done */

/* Takes so many cells from the front of the memory, if there are so many. */
static bool
uart_cells_in_memory(struct uart_memory *memory, uint8_t value, size_t count, struct u16550_core_vec_u8 *cells)
{
    if (count > memory->len)
        return false;
    cells->data = memory->data;
    cells->len = count;
    cells->capacity = count;
    memory->data += count;
    memory->len -= count;
    for (size_t i = 0; i < count; i++)
        cells->data[i] = value;
    return true;
}
#endif

/* Marks memory with a driver in it, and a call that is not done. Either is unlikely in other memory. */
#define UART_MARK UINT32_C(0x16550a5e)
#define UART_IS_BUSY UINT32_C(0x16550b5b)

/* What is before this in the text is done before what is behind it, as an interrupt handler of the same processor sees it. */
#if defined(__GNUC__)
#define UART_FENCE() __asm__ __volatile__("" : : : "memory")
#else
#define UART_FENCE() ((void)0)
#endif

#define UART_ALIGNMENT(name, type) struct uart_aligned_##name { char first; type value; }
UART_ALIGNMENT(handle, struct u16550);
UART_ALIGNMENT(io, struct u16550_io);
UART_ALIGNMENT(config, struct u16550_config);
UART_ALIGNMENT(state, struct u16550_state);
UART_ALIGNMENT(difference, struct u16550_difference);
#ifndef U16550_OMIT_RINGS
UART_ALIGNMENT(handled, struct u16550_handled);
UART_ALIGNMENT(port, struct u16550_line_port);
#endif
#ifndef U16550_OMIT_DESIGN_WARE
UART_ALIGNMENT(chip, struct u16550_design_ware);
#endif
#ifndef U16550_OMIT_RINGS
UART_ALIGNMENT(notes, struct u16550_notes);
#endif
#ifndef U16550_OMIT_BUS
UART_ALIGNMENT(bus, struct u16550_bus);
#endif
UART_ALIGNMENT(size, size_t);
UART_ALIGNMENT(u64, uint64_t);
UART_ALIGNMENT(u32, uint32_t);
UART_ALIGNMENT(u16, uint16_t);
#define UART_USABLE(at, name) uart_usable(at, offsetof(struct uart_aligned_##name, value))
#define UART_ALIGNED(at, name) uart_aligned(at, offsetof(struct uart_aligned_##name, value))

static inline int uart_aligned(const void *at, size_t alignment)
{
    if (((uintptr_t)at & (alignment - 1)) != 0)
        return U16550_MISALIGNED;
    return U16550_OK;
}

/* Refuses a pointer that is null or not aligned. */
static int uart_usable(const void *at, size_t alignment)
{
    return at == NULL ? U16550_NULL_POINTER : uart_aligned(at, alignment);
}

/*
 * Refuses an array that cannot be: a pointer that is null or not aligned, more items than half of all memory holds, or an end behind that of
 * memory. An array of no items may have any pointer.
 */
static int uart_items(const void *at, size_t len, size_t item, size_t half, size_t alignment)
{
    uintptr_t start = (uintptr_t)at;
    int status;
    if (len == 0)
        return U16550_OK;
    status = uart_usable(at, alignment);
    if (status != U16550_OK)
        return status;
    if (len > half || start > UINTPTR_MAX - uart_times(len, (uint8_t)item))
        return U16550_BAD_LENGTH;
    return U16550_OK;
}

/* The same for items of a constant size: how many half of all memory holds is computed by the compiler. */
#define uart_array(at, len, item, alignment) uart_items(at, len, item, (SIZE_MAX / 2) / (item), alignment)

/* Begins a call over a driver, unless there is none or a call over it is not done. */
static int uart_enter(struct u16550 *uart)
{
    int status = UART_USABLE(uart, handle);
    if (status != U16550_OK)
        return status;
    if (uart->mark != UART_MARK)
        return U16550_NOT_MADE;
    if (uart->is_busy != 0)
        return U16550_BUSY;
    uart->is_busy = UART_IS_BUSY;
    UART_FENCE();
    /* A handler that came before the sign was set may have ended the driver. */
    if (uart->mark != UART_MARK) {
        uart->is_busy = 0;
        return U16550_NOT_MADE;
    }
    return U16550_OK;
}

#ifndef U16550_OMIT_RINGS
/* The same for a call over the rings. */
static int uart_enter_rings(struct u16550 *uart)
{
    int status = uart_enter(uart);
    if (status == U16550_OK && !uart->has_rings) {
        uart->is_busy = 0;
        return U16550_NO_RINGS;
    }
    return status;
}
#endif

/* Ends a call, and returns its status. */
static inline int uart_leave(struct u16550 *uart, int status)
{
    UART_FENCE();
    uart->is_busy = 0;
    return status;
}

static int uart_check_flag(uint8_t byte)
{
    if (byte > 1)
        return U16550_BAD_CODE;
    return U16550_OK;
}

static int uart_decode_fifo_trigger_level(uint8_t from, uint8_t *to)
{
    switch (from) {
    case 1:
        *to = U16550_CORE_FIFO_TRIGGER_LEVEL_ONE;
        return U16550_OK;
    case 4:
        *to = U16550_CORE_FIFO_TRIGGER_LEVEL_FOUR;
        return U16550_OK;
    case 8:
        *to = U16550_CORE_FIFO_TRIGGER_LEVEL_EIGHT;
        return U16550_OK;
    case 14:
        *to = U16550_CORE_FIFO_TRIGGER_LEVEL_FOURTEEN;
        return U16550_OK;
    default:
        return U16550_BAD_CODE;
    }
}

static uint8_t uart_encode_fifo_trigger_level(uint8_t from)
{
    switch (from) {
    case U16550_CORE_FIFO_TRIGGER_LEVEL_ONE:
        return 1;
    case U16550_CORE_FIFO_TRIGGER_LEVEL_FOUR:
        return 4;
    case U16550_CORE_FIFO_TRIGGER_LEVEL_EIGHT:
        return 8;
    case U16550_CORE_FIFO_TRIGGER_LEVEL_FOURTEEN:
    default:
        return 14;
    }
}

static int uart_decode_word_length(uint8_t from, uint8_t *to)
{
    switch (from) {
    case 5:
        *to = U16550_CORE_WORD_LENGTH_FIVE_BITS;
        return U16550_OK;
    case 6:
        *to = U16550_CORE_WORD_LENGTH_SIX_BITS;
        return U16550_OK;
    case 7:
        *to = U16550_CORE_WORD_LENGTH_SEVEN_BITS;
        return U16550_OK;
    case 8:
        *to = U16550_CORE_WORD_LENGTH_EIGHT_BITS;
        return U16550_OK;
    default:
        return U16550_BAD_CODE;
    }
}

static uint8_t uart_encode_word_length(uint8_t from)
{
    switch (from) {
    case U16550_CORE_WORD_LENGTH_FIVE_BITS:
        return 5;
    case U16550_CORE_WORD_LENGTH_SIX_BITS:
        return 6;
    case U16550_CORE_WORD_LENGTH_SEVEN_BITS:
        return 7;
    case U16550_CORE_WORD_LENGTH_EIGHT_BITS:
    default:
        return 8;
    }
}

static int uart_decode_fifo_size(uint16_t from, uint8_t *to)
{
    switch (from) {
    case 16:
        *to = U16550_CORE_FIFO_SIZE_SIXTEEN;
        return U16550_OK;
    case 32:
        *to = U16550_CORE_FIFO_SIZE_THIRTY_TWO;
        return U16550_OK;
    case 64:
        *to = U16550_CORE_FIFO_SIZE_SIXTY_FOUR;
        return U16550_OK;
    case 128:
        *to = U16550_CORE_FIFO_SIZE_ONE_HUNDRED_TWENTY_EIGHT;
        return U16550_OK;
    case 256:
        *to = U16550_CORE_FIFO_SIZE_TWO_HUNDRED_FIFTY_SIX;
        return U16550_OK;
    default:
        return U16550_BAD_CODE;
    }
}

static uint16_t uart_encode_fifo_size(uint8_t from)
{
    switch (from) {
    case U16550_CORE_FIFO_SIZE_SIXTEEN:
        return 16;
    case U16550_CORE_FIFO_SIZE_THIRTY_TWO:
        return 32;
    case U16550_CORE_FIFO_SIZE_SIXTY_FOUR:
        return 64;
    case U16550_CORE_FIFO_SIZE_ONE_HUNDRED_TWENTY_EIGHT:
        return 128;
    case U16550_CORE_FIFO_SIZE_TWO_HUNDRED_FIFTY_SIX:
    default:
        return 256;
    }
}

static int uart_check_parity(uint8_t parity)
{
    if (parity > U16550_PARITY_FORCED_0)
        return U16550_BAD_CODE;
    return U16550_OK;
}

static int uart_check_transmitter_wait(uint8_t transmitter_wait)
{
    if (transmitter_wait > U16550_WAIT_NEVER)
        return U16550_BAD_CODE;
    return U16550_OK;
}

static int uart_check_fifo_action(uint8_t fifo_action)
{
    if (fifo_action > U16550_FIFOS_DISABLE)
        return U16550_BAD_CODE;
    return U16550_OK;
}

static int uart_check_direction_line(uint8_t direction_line)
{
    if (direction_line > U16550_DIRECTION_DTR)
        return U16550_BAD_CODE;
    return U16550_OK;
}

/* --------------------------------------------------------------- data of the header as those of the driver, and back */

/* Reads a trigger level, or none for 0. */
static int uart_decode_level(uint8_t from, struct u16550_core_maybe_fifo_trigger_level *to)
{
    to->is_some = from != 0;
    to->value = U16550_CORE_FIFO_TRIGGER_LEVEL_ONE;
    return to->is_some ? uart_decode_fifo_trigger_level(from, &to->value) : U16550_OK;
}

/* Reads a configuration, of which perhaps no divisor can be computed. */
static UART_NO_TABLE int uart_decode_config(const struct u16550_config *from, struct u16550_core_config *to)
{
    int status = uart_check_flag(from->has_prescaler);
    to->data_bits = U16550_CORE_WORD_LENGTH_EIGHT_BITS;
    if (status == U16550_OK)
        status = uart_check_flag(from->extra_stop_bits);
    if (status == U16550_OK)
        status = uart_check_flag(from->check_cts_before_sending);
    if (status == U16550_OK)
        status = uart_decode_level(from->fifo_trigger_level, &to->fifo_trigger_level);
    if (status == U16550_OK)
        status = uart_decode_word_length(from->data_bits, &to->data_bits);
    if (status == U16550_OK)
        status = uart_check_parity(from->parity);
    to->parity = from->parity;
    to->interrupts = from->interrupts;
    to->frequency = from->frequency;
    to->prescaler_division_factor.is_some = from->has_prescaler == 1;
    to->prescaler_division_factor.value = from->prescaler_division_factor;
    to->baud_rate = uart_baud_rate_from_bps(from->baud_rate);
    to->extra_stop_bits = from->extra_stop_bits == 1;
    to->check_cts_before_sending = from->check_cts_before_sending == 1;
    return status;
}

/* The same, if a divisor can be computed. */
static int uart_decode_computable(const struct u16550_config *from, struct u16550_core_config *to)
{
    int status = UART_USABLE(from, config);
    if (status == U16550_OK)
        status = uart_decode_config(from, to);
    if (status != U16550_OK)
        return status;
    if (!uart_config_is_computable(to))
        return U16550_NOT_COMPUTABLE;
    return U16550_OK;
}

static void uart_encode_config(const struct u16550_core_config *from, struct u16550_config *to)
{
    bool has_prescaler = from->prescaler_division_factor.is_some;
    to->frequency = from->frequency;
    to->baud_rate = uart_baud_rate_bps(from->baud_rate);
    to->prescaler_division_factor = has_prescaler ? from->prescaler_division_factor.value : 0;
    to->has_prescaler = has_prescaler;
    to->interrupts = from->interrupts;
    to->fifo_trigger_level = (uint8_t)(from->fifo_trigger_level.is_some ? uart_encode_fifo_trigger_level(from->fifo_trigger_level.value) : 0);
    to->data_bits = uart_encode_word_length(from->data_bits);
    to->extra_stop_bits = from->extra_stop_bits;
    to->parity = from->parity;
    to->check_cts_before_sending = from->check_cts_before_sending;
}

static int uart_decode_state(const struct u16550_state *from, struct uart_driver_state *to)
{
    int status = uart_decode_config(&from->config, &to->config);
    if (status == U16550_OK)
        status = uart_check_flag(from->fifo_enabled);
    if (status == U16550_OK && from->spin_limit == 0)
        status = U16550_ZERO_LIMIT;
    if (status == U16550_OK)
        status = uart_decode_fifo_size(from->fifo_size, &to->fifo_size);
    if (status != U16550_OK)
        return status;
    to->fifo_enabled = from->fifo_enabled == 1;
    to->saved_lsr = from->saved_lsr;
    to->saved_msr = from->saved_msr;
    to->spin_limit = from->spin_limit;
    return U16550_OK;
}

static void uart_encode_state(struct uart_driver_state from, struct u16550_state *to)
{
    to->spin_limit = from.spin_limit;
    uart_encode_config(&from.config, &to->config);
    to->fifo_enabled = from.fifo_enabled;
    to->saved_lsr = from.saved_lsr;
    to->saved_msr = from.saved_msr;
    to->fifo_size = uart_encode_fifo_size(from.fifo_size);
}

static int uart_decode_setup(const struct u16550_setup *from, struct uart_setup *to)
{
    int status = from == NULL ? U16550_NULL_POINTER : uart_check_flag(from->checks_presence);
    if (status == U16550_OK)
        status = uart_check_transmitter_wait(from->wait);
    if (status != U16550_OK)
        return status;
    to->wait = from->wait;
    to->checks_presence = from->checks_presence == 1;
    to->outputs = from->outputs;
    return U16550_OK;
}

#ifndef U16550_OMIT_RINGS
static struct uart_receive_marks uart_marks(size_t hold, size_t release)
{
    struct uart_receive_marks marks;
    marks.hold = hold;
    marks.release = release;
    return marks;
}
#endif

#ifndef U16550_OMIT_LOOPBACK
static void uart_encode_failure(const struct uart_loopback_failure *from, struct u16550_loopback_failure *to)
{
    to->expected = from->expected;
    to->actual = from->actual;
    uart_copy_bytes(to->expected_msg, from->expected_msg.bytes, 16);
    uart_copy_bytes(to->actual_msg, from->actual_msg.bytes, 16);
}
#endif

/* A byte that goes first, if there is one. */
static int uart_decode_urgent(const uint8_t *from, struct u16550_core_maybe_u8 *to)
{
    to->is_some = from != NULL;
    to->value = (uint8_t)(from != NULL ? *from : 0);
    return U16550_OK;
}

/* --------------------------------------------------------------- making and ending a driver */

int u16550_check_layout(uint32_t first, uint32_t second, uint32_t third)
{
    if (first != U16550_LAYOUT || second != U16550_LAYOUT || third != U16550_LAYOUT)
        return U16550_OTHER_LAYOUT;
    return U16550_OK;
}

/* Refuses functions that are not there. */
static int uart_check_io(const struct u16550_io *io)
{
    int status = UART_USABLE(io, io);
    return status == U16550_OK && (io->read == NULL || io->write == NULL) ? U16550_NULL_POINTER : status;
}

/* Refuses memory of a driver in which a call is not done. */
static int uart_check_memory(struct u16550 *uart)
{
    int status = UART_USABLE(uart, handle);
    return status == U16550_OK && uart->is_busy == UART_IS_BUSY ? U16550_BUSY : status;
}

/*
 * Begins to make a driver in memory that was looked at. A handler that comes from now on finds a call that is not done, and never a part of
 * the old driver with one of the new.
 */
static void uart_begin(struct u16550 *uart)
{
    uart->is_busy = UART_IS_BUSY;
    UART_FENCE();
}

/* Makes a driver whose functions get addresses from base on, and ends what was begun. */
static int uart_put(struct u16550 *uart, const struct u16550_io *io, uintptr_t base, uint8_t stride, const struct uart_driver_state *state)
{
    struct u16550_device device;
    device.io = *io;
    device.base = base;
    device.stride = stride;
    uart->mark = UART_MARK;
    uart->has_rings = false;
    uart->ring.uart = state == NULL ? uart_new_with_backend(device) : uart_from_state(device, state);
    return uart_leave(uart, U16550_OK);
}

/* Makes a driver, unless it is refused, or its memory or its functions are not there. */
static int uart_make(struct u16550 *uart, const struct u16550_io *io, uintptr_t base, uint8_t stride, int refused)
{
    int status = uart_check_memory(uart);
    if (status == U16550_OK)
        status = UART_USABLE(io, io);
    if (status == U16550_OK)
        status = refused;
    if (status == U16550_OK)
        status = uart_check_io(io);
    if (status != U16550_OK)
        return status;
    uart_begin(uart);
    return uart_put(uart, io, base, stride, NULL);
}

/* Refuses registers in memory that cannot be there. */
static int uart_check_place(uintptr_t base, uint8_t stride)
{
    if (base == 0)
        return U16550_BAD_BASE;
    if (stride == 0 || (stride & (stride - 1)) != 0)
        return U16550_BAD_STRIDE;
    if (base > UINTPTR_MAX - uart_distance(UART_SPR, stride))
        return U16550_BAD_BASE;
    return U16550_OK;
}

int (u16550_new)(struct u16550 *uart, const struct u16550_io *io)
{
    return uart_make(uart, io, 0, 1, U16550_OK);
}

int (u16550_new_port)(struct u16550 *uart, const struct u16550_io *io, uint16_t base)
{
    int refused = U16550_OK;
    if (base > UINT16_MAX - UART_SPR)
        refused = U16550_BAD_BASE;
    return uart_make(uart, io, base, 1, refused);
}

int (u16550_new_mmio)(struct u16550 *uart, const struct u16550_io *io, uintptr_t base, uint8_t stride)
{
    return uart_make(uart, io, base, stride, uart_check_place(base, stride));
}

int (u16550_from_state)(struct u16550 *uart, const struct u16550_io *io, const struct u16550_state *state)
{
    struct uart_driver_state decoded;
    int status = uart_check_memory(uart);
    if (status == U16550_OK)
        status = UART_USABLE(io, io);
    if (status == U16550_OK)
        status = UART_USABLE(state, state);
    if (status == U16550_OK)
        status = uart_check_io(io);
    if (status == U16550_OK)
        status = uart_decode_state(state, &decoded);
    if (status != U16550_OK)
        return status;
    uart_begin(uart);
    return uart_put(uart, io, 0, 1, &decoded);
}

int u16550_end(struct u16550 *uart)
{
    int status = uart_enter(uart);
    if (status != U16550_OK)
        return status;
    uart->mark = 0;
    return uart_leave(uart, U16550_OK);
}

int u16550_get_io(struct u16550 *uart, struct u16550_io *io)
{
    struct u16550_io found;
    int status = UART_USABLE(io, io);
    if (status == U16550_OK)
        status = uart_enter(uart);
    if (status != U16550_OK)
        return status;
    found = uart_backend(&uart->ring.uart)->io;
    uart_leave(uart, U16550_OK);
    *io = found;
    return U16550_OK;
}

int u16550_set_io(struct u16550 *uart, const struct u16550_io *io)
{
    int status = uart_enter(uart);
    if (status != U16550_OK)
        return status;
    status = uart_check_io(io);
    if (status == U16550_OK)
        uart_backend_mut(&uart->ring.uart)->io = *io;
    return uart_leave(uart, status);
}

#ifndef U16550_OMIT_LOOPBACK
int u16550_test_loopback(struct u16550 *uart, struct u16550_loopback_failure *failure)
{
    struct uart_loopback_failure found = { 0, 0, { { 0 } }, { { 0 } } };
    int status = uart_enter(uart);
    if (status != U16550_OK)
        return status;
    status = uart_test_loopback(&uart->ring.uart, &found);
    if (status != U16550_OK && failure != NULL)
        uart_encode_failure(&found, failure);
    return uart_leave(uart, status);
}
#endif

int u16550_check_configured(struct u16550 *uart, uint8_t outputs, struct u16550_difference *difference)
{
    struct u16550_difference found = { 0, 0 };
    int status = uart_enter(uart);
    if (status != U16550_OK)
        return status;
    status = UART_ALIGNED(difference, difference);
    if (status != U16550_OK)
        return uart_leave(uart, status);
    status = uart_check_configured(&uart->ring.uart, outputs, &found);
    if (status != U16550_OK && difference != NULL)
        *difference = found;
    return uart_leave(uart, status);
}

/* Brings the chip into a state in which text goes out. */
static int uart_take_over(struct u16550_core_driver *uart)
{
    const uint8_t blocking = U16550_LCR_DLAB | U16550_LCR_SET_BREAK;
    uint8_t lcr = uart_lcr(uart);
    uint8_t kept;
    /* A UART of DesignWare takes no new LCR while it is busy. */
    for (uint64_t writes = 0; writes < uart->spin_limit && (lcr & blocking) != 0; writes++) {
        uart_device_write(&uart->backend, UART_LCR, (uint8_t)(lcr & ~blocking));
        lcr = uart_lcr(uart);
    }
    if ((lcr & blocking) != 0)
        return U16550_ATTACH_DIVISOR_LATCH_OPEN;
    uart_device_write(&uart->backend, UART_IER, 0);
    /* The other outputs stay: loopback and a flow control by the chip would hold text back. */
    kept = uart_mcr(uart) & (U16550_MCR_OUT_1 | U16550_MCR_OUT_2_INT_ENABLE);
    uart_set_modem_control(uart, kept | U16550_MCR_DTR | U16550_MCR_RTS);
    if ((uart_mcr(uart) & U16550_MCR_LOOP_BACK) != 0)
        return U16550_ATTACH_LOOPBACK;
    return U16550_OK;
}

int u16550_emergency(struct u16550 *uart)
{
    struct u16550_core_driver console;
    int status = uart_enter(uart);
    if (status != U16550_OK)
        return status;
    if (uart->has_rings)
        return uart_leave(uart, U16550_HAS_RINGS);
    console = uart_new_with_backend(uart->ring.uart.backend);
    uart_set_spin_limit(&console, uart->ring.uart.spin_limit);
    /* Nobody knows whether the FIFOs are on. If they are off, the second byte of a burst would be lost. */
    console.fifo_enabled = false;
    status = uart_take_over(&console);
    if (status == U16550_OK)
        uart->ring.uart = console;
    return uart_leave(uart, status);
}

const char *u16550_version(void)
{
    return U16550_VERSION;
}

int u16550_default_config(struct u16550_config *config)
{
    struct u16550_device device = { { NULL, NULL, NULL }, 0, 0 };
    struct u16550_core_driver fresh;
    int status = UART_USABLE(config, config);
    if (status != U16550_OK)
        return status;
    fresh = uart_new_with_backend(device);
    uart_encode_config(&fresh.config, config);
    return U16550_OK;
}

#ifndef U16550_OMIT_TIMES
int u16550_nearest(const struct u16550_config *config, uint32_t per_mille, struct u16550_config *nearest)
{
    struct u16550_core_config decoded, found;
    int status = UART_USABLE(nearest, config);
    if (status == U16550_OK)
        status = uart_decode_computable(config, &decoded);
    if (status != U16550_OK)
        return status;
    status = uart_config_nearest(decoded, per_mille, &found);
    if (status == U16550_OK)
        uart_encode_config(&found, nearest);
    return status;
}
#endif

int u16550_dump_divisor(const struct u16550_dump *dump, uint16_t *divisor)
{
    int status = UART_USABLE(divisor, u16);
    if (status == U16550_OK && dump == NULL)
        status = U16550_NULL_POINTER;
    if (status == U16550_OK)
        *divisor = uart_config_register_dump_divisor(dump);
    return status;
}

int u16550_dump_baud_rate(const struct u16550_dump *dump, const struct u16550_config *config, uint32_t *baud_rate)
{
    struct u16550_core_baud_rate rate;
    struct u16550_core_config decoded;
    int status = UART_USABLE(baud_rate, u32);
    if (status == U16550_OK && dump == NULL)
        status = U16550_NULL_POINTER;
    if (status == U16550_OK)
        status = UART_USABLE(config, config);
    if (status == U16550_OK)
        status = uart_decode_config(config, &decoded);
    if (status != U16550_OK)
        return status;
    if (decoded.frequency == 0 ||
        (decoded.prescaler_division_factor.is_some && decoded.prescaler_division_factor.value > UART_MAX_PRESCALER))
        return U16550_NOT_COMPUTABLE;
    status = uart_config_register_dump_baud_rate(dump, &decoded, &rate);
    if (status == U16550_OK)
        *baud_rate = uart_baud_rate_bps(rate);
    return status;
}

#ifndef U16550_OMIT_RINGS
/* --------------------------------------------------------------- rings and lines */

int u16550_ring_new(struct u16550 *uart, uint8_t *memory, size_t size, size_t tx_capacity, size_t rx_capacity)
{
    struct u16550_core_driver driver;
    struct u16550_core_ring made;
    struct uart_memory cells = { memory, size };
    int status = uart_enter(uart);
    if (status != U16550_OK)
        return status;
    status = uart->has_rings ? U16550_HAS_RINGS : uart_array(memory, size, 1, 1);
    if (status != U16550_OK)
        return uart_leave(uart, status);
    status = uart_ring_new(&cells, uart->ring.uart, tx_capacity, rx_capacity, &made, &driver);
    if (status != U16550_OK)
        return uart_leave(uart, status);
    uart->ring = made;
    uart->has_rings = true;
    return uart_leave(uart, U16550_OK);
}

int u16550_ring_end(struct u16550 *uart)
{
    int status = uart_enter_rings(uart);
    if (status != U16550_OK)
        return status;
    uart->has_rings = false;
    return uart_leave(uart, U16550_OK);
}

int u16550_ring_stuck(struct u16550 *uart, struct u16550_stuck *stuck)
{
    struct u16550_core_stuck_error found;
    int status = stuck == NULL ? U16550_NULL_POINTER : uart_enter_rings(uart);
    if (status != U16550_OK)
        return status;
    stuck->is_stuck = uart_ring_stuck(&uart->ring, &found);
    uart_leave(uart, U16550_OK);
    stuck->isr = 0;
    if (stuck->is_stuck && found.kind == U16550_RING_STUCK_UNKNOWN)
        stuck->isr = found.unknown & 0x0f;
    else if (stuck->is_stuck)
        stuck->isr = uart_interrupt_type_to_bits(found.pending);
    return U16550_OK;
}

static inline size_t uart_line_ports_number(const struct uart_line_ports *ports)
{
    return ports->count;
}

/* The port of this number. A compiler would call a multiplication where a processor has none. */
static struct u16550_line_port *uart_line_port(struct u16550_line_port *ports, size_t port)
{
    return (struct u16550_line_port *)(void *)((uint8_t *)ports + uart_times(port, sizeof(struct u16550_line_port)));
}

static bool
uart_line_ports_lower(struct uart_line_ports *ports, size_t port, size_t limit, uint32_t rounds)
{
    struct u16550_line_port *at = uart_line_port(ports->ports, port);
    struct uart_lowered lowered;
    at->handled.served = 0;
    at->handled.end = U16550_HANDLE_IDLE;
    at->status = uart_enter_rings(at->uart);
    if (at->status != U16550_OK)
        return false;
    lowered = uart_ring_lower_line(&at->uart->ring, limit, rounds);
    uart_leave(at->uart, U16550_OK);
    at->enabled = lowered.enabled;
    at->status = lowered.handled.error.kind;
    if (at->status != U16550_OK)
        return false;
    at->handled = lowered.handled.value;
    return at->handled.served > 0;
}

static void uart_line_ports_raise(struct uart_line_ports *ports, size_t port)
{
    struct u16550_line_port *at = uart_line_port(ports->ports, port);
    if (uart_enter_rings(at->uart) != U16550_OK)
        return;
    uart_ring_raise_line(&at->uart->ring, at->enabled);
    uart_leave(at->uart, U16550_OK);
}

int u16550_line_handle(struct u16550_line_port *ports, size_t count, size_t limit, uint32_t rounds, uint8_t *served)
{
    struct uart_line_ports line = { ports, count };
    int status = served == NULL ? U16550_NULL_POINTER :
        uart_array(ports, count, sizeof(struct u16550_line_port), offsetof(struct uart_aligned_port, value));
    for (size_t port = 0; status == U16550_OK && port < count; port++) {
        struct u16550 *uart = uart_line_port(ports, port)->uart;
        status = uart_enter_rings(uart);
        if (status == U16550_OK)
            uart_leave(uart, U16550_OK);
    }
    if (status == U16550_OK)
        *served = uart_handle_line(&line, limit, rounds);
    return status;
}
#endif

/* Returns whether a text is UTF-8: no overlong form, no surrogate, nothing above U+10FFFF. */
static bool uart_is_utf8(const uint8_t *text, size_t len)
{
    size_t at = 0;
    while (at < len) {
        uint8_t first = text[at++];
        uint8_t low = 0x80, high = 0xbf;
        unsigned more;
        if (first < 0x80)
            continue;
        if (first < 0xc2 || first > 0xf4)
            return false;
        more = first < 0xe0 ? 1u : first < 0xf0 ? 2u : 3u;
        if (first == 0xe0)
            low = 0xa0;
        else if (first == 0xed)
            high = 0x9f;
        else if (first == 0xf0)
            low = 0x90;
        else if (first == 0xf4)
            high = 0x8f;
        for (; more > 0; more--) {
            if (at == len || text[at] < low || text[at] > high)
                return false;
            low = 0x80;
            high = 0xbf;
            at++;
        }
    }
    return true;
}

/* Sends a text over a terminal, which has the driver meanwhile. */
static int uart_send_text(struct u16550 *uart, const char *text, size_t len, size_t *done, bool is_checked)
{
    const uint8_t *bytes = (const uint8_t *)text;
    struct uart_tty terminal;
    size_t sent = 0;
    int status = UART_ALIGNED(done, size);
    if (status == U16550_OK)
        status = uart_enter(uart);
    if (status != U16550_OK)
        return status;
    status = uart_array(bytes, len, 1, 1);
    if (status == U16550_OK && is_checked && !uart_is_utf8(bytes, len))
        status = U16550_NOT_UTF8;
    if (status != U16550_OK)
        return uart_leave(uart, status);
    terminal.inner = uart->ring.uart;
    status = uart_tty_write_raw_text(&terminal, bytes, len, &sent);
    uart->ring.uart = terminal.inner;
    uart_leave(uart, U16550_OK);
    if (status != U16550_OK && done != NULL)
        *done = sent;
    return status;
}

int u16550_write_text(struct u16550 *uart, const char *text, size_t len, size_t *done)
{
    return uart_send_text(uart, text, len, done, true);
}

int u16550_write_raw_text(struct u16550 *uart, const char *text, size_t len, size_t *done)
{
    return uart_send_text(uart, text, len, done, false);
}

/* --------------------------------------------------------------- registers in memory that the library accesses itself */

/*
 * Makes the processor finish the accesses before this, to devices and to memory, before it begins those behind it, where its architecture
 * does not do so by itself. On x86 and on Arm accesses to one device are made in the order of the program, if its memory is mapped as a
 * device's. On the others the order depends on the memory's attributes, or a load may pass a store, and barriers of locks are not for
 * devices.
 */
#ifndef U16550_BARRIER
#if defined(__riscv)
#define U16550_BARRIER() __asm__ __volatile__("fence iorw, iorw" : : : "memory")
#elif defined(__loongarch__)
#define U16550_BARRIER() __asm__ __volatile__("dbar 0" : : : "memory")
#elif defined(__powerpc__) || defined(__PPC__)
#define U16550_BARRIER() __asm__ __volatile__("sync" : : : "memory")
#elif defined(__mips__)
#define U16550_BARRIER() __asm__ __volatile__(".set push\n\t.set mips2\n\tsync\n\t.set pop" : : : "memory")
#elif defined(__s390x__)
#define U16550_BARRIER() __asm__ __volatile__("bcr 15, 0" : : : "memory")
#elif defined(__i386__) || defined(__x86_64__) || defined(__arm__) || defined(__aarch64__) || defined(__AVR__) || defined(__MSP430__) || \
    defined(_M_IX86) || defined(_M_X64) || defined(__SDCC)
#define U16550_BARRIER() UART_FENCE()
#elif defined(__GNUC__)
#define U16550_BARRIER() __sync_synchronize()
#else
#error "define U16550_BARRIER() as what orders accesses to devices on this processor, or as ((void)0) if nothing is needed"
#endif
#endif

/*
 * One load and one store of a register, between barriers. On Arm they are instructions that a hypervisor can emulate: such as change no
 * address register. A compiler may make others of a volatile access.
 */
#if defined(__GNUC__) && defined(__aarch64__)
#define UART_LOAD(bits, name) __asm__ __volatile__(name " %w0, [%1]" : "=r"(loaded) : "r"(address) : "memory")
#define UART_STORE(bits, name) __asm__ __volatile__(name " %w0, [%1]" : : "r"(value), "r"(address) : "memory")
#elif defined(__GNUC__) && defined(__arm__)
#define UART_LOAD(bits, name) __asm__ __volatile__(name " %0, [%1]" : "=l"(loaded) : "l"(address) : "memory")
#define UART_STORE(bits, name) __asm__ __volatile__(name " %0, [%1]" : : "l"(value), "l"(address) : "memory")
#else
#define UART_LOAD(bits, name) (loaded = *(const volatile uint##bits##_t *)address)
#define UART_STORE(bits, name) (*(volatile uint##bits##_t *)address = (uint##bits##_t)value)
#endif
#define UART_WORD(bits, load, store)                                        \
    static inline uint32_t uart_load_##bits(uintptr_t address)              \
    {                                                                       \
        uint32_t loaded;                                                    \
        U16550_BARRIER();                                                   \
        UART_LOAD(bits, load);                                              \
        U16550_BARRIER();                                                   \
        return loaded;                                                      \
    }                                                                       \
    static inline void uart_store_##bits(uintptr_t address, uint32_t value) \
    {                                                                       \
        U16550_BARRIER();                                                   \
        UART_STORE(bits, store);                                            \
        U16550_BARRIER();                                                   \
    }
#if !defined(U16550_OMIT_DESIGN_WARE) || !defined(U16550_OMIT_MEMORY)
UART_WORD(8, "ldrb", "strb")
UART_WORD(16, "ldrh", "strh")
UART_WORD(32, "ldr", "str")
#endif

/*
 * The functions of a driver for such registers. The eight bits of a register are in its lowest byte: in a register of `bits` bits whose
 * bytes are the other way round than those of the processor, they are `up` bits further up.
 */
#define UART_REGISTERS(name, bits, up)                                                        \
    static uint8_t uart_read_##name(void *context, uintptr_t address)                         \
    {                                                                                         \
        (void)context;                                                                        \
        return (uint8_t)(uart_load_##bits(address) >> (up));                                  \
    }                                                                                         \
    static void uart_write_##name(void *context, uintptr_t address, uint8_t value)            \
    {                                                                                         \
        (void)context;                                                                        \
        uart_store_##bits(address, (uint32_t)value << (up));                                  \
    }                                                                                         \
    static struct u16550_io uart_io_of_##name(void)                                           \
    {                                                                                         \
        struct u16550_io io = { NULL, uart_read_##name, uart_write_##name };                  \
        return io;                                                                            \
    }
#if !defined(U16550_OMIT_DESIGN_WARE) || !defined(U16550_OMIT_MEMORY)
UART_REGISTERS(bytes, 8, 0)
UART_REGISTERS(half_words, 16, 0)
UART_REGISTERS(swapped_half_words, 16, 8)
UART_REGISTERS(words, 32, 0)
UART_REGISTERS(swapped_words, 32, 24)

/* Returns whether the first byte of a number is the highest, as this processor has it. */
static bool uart_is_big_endian(void)
{
    const uint16_t one = 1;
    return *(const uint8_t *)&one == 0;
}

/* Returns the functions for registers of a layout that was looked at. */
static struct u16550_io uart_io_of_layout(const struct u16550_layout *layout)
{
    bool is_swapped = layout->byte_order == (uart_is_big_endian() ? U16550_LITTLE_ENDIAN : U16550_BIG_ENDIAN);
    if (layout->width == 8)
        return uart_io_of_bytes();
    if (layout->width == 16)
        return is_swapped ? uart_io_of_swapped_half_words() : uart_io_of_half_words();
    return is_swapped ? uart_io_of_swapped_words() : uart_io_of_words();
}

/* Refuses registers that cannot lie so: `last` is the offset of the last one. */
static int uart_check_memory_layout(uintptr_t base, const struct u16550_layout *layout, uint8_t last)
{
    uint8_t bytes;
    int status;
    if (layout == NULL)
        return U16550_NULL_POINTER;
    if (layout->width != 8 && layout->width != 16 && layout->width != 32)
        return U16550_BAD_WIDTH;
    if (layout->byte_order > U16550_BIG_ENDIAN)
        return U16550_BAD_CODE;
    bytes = layout->width / 8;
    status = uart_check_place(base, layout->stride);
    if (status != U16550_OK)
        return status;
    if (layout->stride < bytes)
        return U16550_STRIDE_TOO_SMALL;
    if ((base & (bytes - 1U)) != 0)
        return U16550_MISALIGNED_BASE;
    if (base > UINTPTR_MAX - uart_distance(last, layout->stride))
        return U16550_BAD_BASE;
    return U16550_OK;
}
#endif

#ifndef U16550_OMIT_MEMORY
int (u16550_new_mmio_wide)(struct u16550 *uart, uintptr_t base, const struct u16550_layout *layout)
{
    struct u16550_io io;
    int status = uart_check_memory(uart);
    if (status == U16550_OK)
        status = uart_check_memory_layout(base, layout, UART_SPR);
    if (status != U16550_OK)
        return status;
    io = uart_io_of_layout(layout);
    uart_begin(uart);
    return uart_put(uart, &io, base, layout->stride, NULL);
}
#endif

#ifndef U16550_OMIT_DESIGN_WARE

/* --------------------------------------------------------------- UARTs of DesignWare */

/* The functions by which a driver reaches a chip in its context. */
static uint8_t uart_chip_read(void *context, uintptr_t offset)
{
    struct u16550_design_ware *chip = (struct u16550_design_ware *)context;
    return uart_design_ware_read(&chip->chip, (uint8_t)offset);
}

static void uart_chip_write(void *context, uintptr_t offset, uint8_t value)
{
    struct u16550_design_ware *chip = (struct u16550_design_ware *)context;
    uart_design_ware_write(&chip->chip, (uint8_t)offset, value);
}

/* Makes a driver over a chip in its own memory, over these registers, unless they are refused. */
static int uart_make_chip(struct u16550 *uart, struct u16550_design_ware *chip, const struct u16550_io *io, uintptr_t base, uint8_t stride,
                          int refused, uint64_t patience)
{
    struct u16550_io functions = { chip, uart_chip_read, uart_chip_write };
    struct u16550_device registers;
    int status = uart_check_memory(uart);
    if (status == U16550_OK)
        status = UART_USABLE(chip, chip);
    if (status == U16550_OK && patience == 0)
        status = U16550_ZERO_LIMIT;
    if (status == U16550_OK)
        status = refused;
    if (status != U16550_OK)
        return status;
    /* The driver that was there may have this chip: no handler is to use it from now on. */
    uart_begin(uart);
    registers.io = *io;
    registers.base = base;
    registers.stride = stride;
    chip->chip = uart_design_ware_new(registers, patience);
    return uart_put(uart, &functions, 0, 1, NULL);
}

int (u16550_new_design_ware)(struct u16550 *uart, struct u16550_design_ware *chip, const struct u16550_io *io, uint64_t patience)
{
    return uart_make_chip(uart, chip, io, 0, 1, uart_check_io(io), patience);
}

int (u16550_new_mmio_design_ware)(struct u16550 *uart, struct u16550_design_ware *chip, uintptr_t base, const struct u16550_layout *layout,
                                uint64_t patience)
{
    struct u16550_io io = { NULL, NULL, NULL };
    uint8_t stride = 0;
    int refused = uart_check_memory_layout(base, layout, UART_USR);
    if (refused == U16550_OK) {
        io = uart_io_of_layout(layout);
        stride = layout->stride;
    }
    return uart_make_chip(uart, chip, &io, base, stride, refused, patience);
}

int u16550_design_ware_fault(struct u16550 *uart, struct u16550_design_ware *chip)
{
    uint8_t fault;
    int status = UART_USABLE(chip, chip);
    if (status == U16550_OK)
        status = uart_enter(uart);
    if (status != U16550_OK)
        return status;
    if (uart->ring.uart.backend.io.context != (void *)chip)
        return uart_leave(uart, U16550_NOT_MADE);
    return uart_leave(uart, uart_design_ware_fault(&chip->chip, &fault) ? (int)fault : U16550_OK);
}
#endif

#ifndef U16550_OMIT_RINGS
/* --------------------------------------------------------------- notes of the errors of received bytes */

/* The functions by which a driver reaches its device through the notes in its context. */
static uint8_t uart_noted_read(void *context, uintptr_t offset)
{
    struct u16550_notes *notes = (struct u16550_notes *)context;
    return uart_error_notes_read(&notes->notes, (uint8_t)offset);
}

static void uart_noted_write(void *context, uintptr_t offset, uint8_t value)
{
    struct u16550_notes *notes = (struct u16550_notes *)context;
    uart_error_notes_write(&notes->notes, (uint8_t)offset, value);
}

/* The notes through which a driver reaches its device, or null. No other driver has these functions. */
static struct u16550_notes *uart_notes_of(const struct u16550 *uart)
{
    const struct u16550_io *io = &uart->ring.uart.backend.io;
    return io->read == uart_noted_read && io->write == uart_noted_write ? (struct u16550_notes *)io->context : NULL;
}

int u16550_note_errors(struct u16550 *uart, struct u16550_notes *notes, uint8_t *memory, size_t capacity)
{
    struct u16550_device given;
    struct u16550_core_error_notes made;
    struct uart_memory cells = { memory, capacity };
    struct u16550_device *device;
    int status = UART_USABLE(notes, notes);
    if (status == U16550_OK)
        status = uart_enter(uart);
    if (status != U16550_OK)
        return status;
    status = uart_notes_of(uart) != NULL ? U16550_HAS_NOTES : uart_array(memory, capacity, 1, 1);
    if (status != U16550_OK)
        return uart_leave(uart, status);
    device = uart_backend_mut(&uart->ring.uart);
    status = uart_error_notes_new(&cells, *device, capacity, &made, &given);
    if (status != U16550_OK)
        return uart_leave(uart, status);
    notes->notes = made;
    device->io.context = notes;
    device->io.read = uart_noted_read;
    device->io.write = uart_noted_write;
    device->base = 0;
    device->stride = 1;
    return uart_leave(uart, U16550_OK);
}

int u16550_end_notes(struct u16550 *uart)
{
    struct u16550_notes *notes;
    int status = uart_enter(uart);
    if (status != U16550_OK)
        return status;
    notes = uart_notes_of(uart);
    if (notes == NULL)
        return uart_leave(uart, U16550_NO_NOTES);
    *uart_backend_mut(&uart->ring.uart) = notes->notes.backend;
    return uart_leave(uart, U16550_OK);
}

int u16550_ring_take_with_errors(struct u16550 *uart, struct u16550_received *received, size_t len, size_t *count)
{
    size_t copied, unnoted;
    const struct u16550_notes *notes;
    int status = UART_USABLE(count, size);
    if (status == U16550_OK)
        status = uart_enter_rings(uart);
    if (status != U16550_OK)
        return status;
    notes = uart_notes_of(uart);
    status = notes == NULL ? U16550_NO_NOTES : uart_array(received, len, sizeof(struct u16550_received), 1);
    if (status != U16550_OK)
        return uart_leave(uart, status);
    status = uart_ring_copy_with_notes(&uart->ring, &notes->notes, received, len, &copied, &unnoted);
    if (status == U16550_OK)
        uart_ring_drop_taken(&uart->ring, copied);
    *count = status == U16550_OK ? copied : unnoted;
    return uart_leave(uart, status);
}
#endif

/* --------------------------------------------------------------- a driver at a bus of two wires */

/* Marks memory with a bus in it. */
#define UART_BUS_MARK UINT32_C(0x16550b05)

#ifndef U16550_OMIT_BUS
/* Begins a call over a bus, as uart_enter does over a driver. One copy is enough: the time at a bus is that of the line. The name of the
 * attribute has underscores, since kernels and U-Boot have a macro with the other name. */
#if defined(__GNUC__)
__attribute__((__noinline__))
#endif
static int uart_enter_bus(struct u16550_bus *bus)
{
    int status = UART_USABLE(bus, bus);
    if (status != U16550_OK)
        return status;
    if (bus->mark != UART_BUS_MARK)
        return U16550_NOT_MADE;
    if (bus->is_busy != 0)
        return U16550_BUSY;
    bus->is_busy = UART_IS_BUSY;
    UART_FENCE();
    /* A handler that came before the sign was set may have ended the bus. */
    if (bus->mark != UART_BUS_MARK) {
        bus->is_busy = 0;
        return U16550_NOT_MADE;
    }
    return U16550_OK;
}

static int uart_leave_bus(struct u16550_bus *bus, int status)
{
    UART_FENCE();
    bus->is_busy = 0;
    return status;
}
#endif

static int uart_decode_direction(const struct u16550_direction *from, struct u16550_core_direction *to)
{
    int status = from == NULL ? U16550_NULL_POINTER : uart_check_flag(from->sends_when_set);
    if (status == U16550_OK)
        status = uart_check_direction_line(from->line);
    if (status != U16550_OK)
        return status;
    to->line = from->line;
    to->sends_when_set = from->sends_when_set == 1;
    return U16550_OK;
}

int u16550_direction_receiving(const struct u16550_direction *direction, uint8_t outputs, uint8_t *receiving)
{
    struct u16550_core_direction decoded;
    int status = receiving == NULL ? U16550_NULL_POINTER : uart_decode_direction(direction, &decoded);
    if (status == U16550_OK)
        *receiving = uart_direction_receiving(decoded, outputs);
    return status;
}

#ifndef U16550_OMIT_BUS
int u16550_bus_new(struct u16550_bus *bus, struct u16550 *uart, const struct u16550_direction *direction)
{
    struct u16550_core_half_duplex made;
    struct u16550_core_driver driver;
    struct u16550_core_direction decoded;
    uint32_t before;
    int status = UART_USABLE(bus, bus);
    if (status == U16550_OK && bus->is_busy == UART_IS_BUSY)
        status = U16550_BUSY;
    if (status == U16550_OK)
        status = uart_enter(uart);
    if (status != U16550_OK)
        return status;
    status = uart->has_rings ? U16550_HAS_RINGS : uart_decode_direction(direction, &decoded);
    if (status != U16550_OK)
        return uart_leave(uart, status);
    /* A handler that comes from now on finds a call that is not done, at a bus that was there too. */
    before = bus->is_busy;
    bus->is_busy = UART_IS_BUSY;
    UART_FENCE();
    status = uart_half_duplex_new(uart->ring.uart, decoded, &made, &driver);
    if (status != U16550_OK) {
        uart->ring.uart = driver;
        bus->is_busy = before;
        return uart_leave(uart, status);
    }
    bus->mark = UART_BUS_MARK;
    bus->bus = made;
    uart->mark = 0;
    uart_leave(uart, U16550_OK);
    return uart_leave_bus(bus, U16550_OK);
}

int u16550_bus_end(struct u16550_bus *bus, struct u16550 *uart)
{
    struct u16550_core_half_duplex ended;
    int status = uart_check_memory(uart);
    if (status == U16550_OK)
        status = uart_enter_bus(bus);
    if (status != U16550_OK)
        return status;
    uart_begin(uart);
    uart->mark = UART_MARK;
    uart->has_rings = false;
    /* By way of a place of its own: for two places that may overlap clang calls memmove, which few kernels have. */
    ended = bus->bus;
    UART_FENCE();
    uart->ring.uart = uart_half_duplex_into_inner(ended);
    bus->mark = 0;
    uart_leave_bus(bus, U16550_OK);
    return uart_leave(uart, U16550_OK);
}

int u16550_bus_start_sending(struct u16550_bus *bus)
{
    int status = uart_enter_bus(bus);
    if (status != U16550_OK)
        return status;
    uart_half_duplex_start_sending(&bus->bus);
    return uart_leave_bus(bus, U16550_OK);
}

int u16550_bus_try_finish(struct u16550_bus *bus)
{
    int status = uart_enter_bus(bus);
    if (status != U16550_OK)
        return status;
    if (!uart_half_duplex_try_finish(&bus->bus))
        status = U16550_BUS_BUSY;
    return uart_leave_bus(bus, status);
}

int u16550_bus_flush(struct u16550_bus *bus)
{
    int status = uart_enter_bus(bus);
    if (status != U16550_OK)
        return status;
    return uart_leave_bus(bus, uart_half_duplex_flush(&bus->bus));
}

int u16550_bus_is_idle(struct u16550_bus *bus, uint8_t *idle)
{
    uint8_t found;
    int status = idle == NULL ? U16550_NULL_POINTER : uart_enter_bus(bus);
    if (status != U16550_OK)
        return status;
    found = uart_half_duplex_is_idle(&bus->bus);
    uart_leave_bus(bus, U16550_OK);
    *idle = found;
    return U16550_OK;
}

int u16550_bus_is_sending(struct u16550_bus *bus, uint8_t *sending)
{
    uint8_t found;
    int status = sending == NULL ? U16550_NULL_POINTER : uart_enter_bus(bus);
    if (status != U16550_OK)
        return status;
    found = uart_half_duplex_is_sending(&bus->bus);
    uart_leave_bus(bus, U16550_OK);
    *sending = found;
    return U16550_OK;
}

int u16550_bus_lsr(struct u16550_bus *bus, uint8_t *value)
{
    uint8_t found;
    int status = value == NULL ? U16550_NULL_POINTER : uart_enter_bus(bus);
    if (status != U16550_OK)
        return status;
    found = uart_half_duplex_lsr(&bus->bus);
    uart_leave_bus(bus, U16550_OK);
    *value = found;
    return U16550_OK;
}

int u16550_bus_send_bytes(struct u16550_bus *bus, const uint8_t *buffer, size_t len, size_t *count)
{
    size_t sent;
    int status = UART_USABLE(count, size);
    if (status == U16550_OK)
        status = uart_enter_bus(bus);
    if (status != U16550_OK)
        return status;
    status = uart_array(buffer, len, 1, 1);
    if (status != U16550_OK)
        return uart_leave_bus(bus, status);
    if (!uart_half_duplex_send_bytes(&bus->bus, buffer, len, &sent))
        status = U16550_BUS_NOT_SENDING;
    uart_leave_bus(bus, status);
    if (status == U16550_OK)
        *count = sent;
    return status;
}

int u16550_bus_send_bytes_exact(struct u16550_bus *bus, const uint8_t *buffer, size_t len, size_t *done)
{
    size_t sent = 0;
    int status = UART_ALIGNED(done, size);
    if (status == U16550_OK)
        status = uart_enter_bus(bus);
    if (status != U16550_OK)
        return status;
    status = uart_array(buffer, len, 1, 1);
    if (status != U16550_OK)
        return uart_leave_bus(bus, status);
    status = uart_leave_bus(bus, uart_half_duplex_send_bytes_exact(&bus->bus, buffer, len, &sent));
    if (done != NULL)
        *done = status == U16550_OK ? len : sent;
    return status;
}

int u16550_bus_receive_bytes(struct u16550_bus *bus, uint8_t *buffer, size_t len, size_t *count)
{
    size_t found;
    int status = UART_USABLE(count, size);
    if (status == U16550_OK)
        status = uart_enter_bus(bus);
    if (status != U16550_OK)
        return status;
    status = uart_array(buffer, len, 1, 1);
    if (status != U16550_OK)
        return uart_leave_bus(bus, status);
    found = uart_half_duplex_receive_bytes(&bus->bus, buffer, len);
    uart_leave_bus(bus, U16550_OK);
    *count = found;
    return U16550_OK;
}

int u16550_bus_receive_with_errors(struct u16550_bus *bus, struct u16550_received *received, size_t len, size_t *count)
{
    size_t found;
    int status = UART_USABLE(count, size);
    if (status == U16550_OK)
        status = uart_enter_bus(bus);
    if (status != U16550_OK)
        return status;
    status = uart_array(received, len, sizeof(struct u16550_received), 1);
    if (status != U16550_OK)
        return uart_leave_bus(bus, status);
    found = uart_half_duplex_receive_with_errors(&bus->bus, received, len);
    uart_leave_bus(bus, U16550_OK);
    *count = found;
    return U16550_OK;
}
#endif

int u16550_get_config(struct u16550 *uart, struct u16550_config *config)
{
    struct u16550_config found;
    int status = UART_USABLE(config, config);
    if (status == U16550_OK)
        status = uart_enter(uart);
    if (status != U16550_OK)
        return status;
    uart_encode_config(uart_config(&uart->ring.uart), &found);
    uart_leave(uart, U16550_OK);
    *config = found;
    return U16550_OK;
}

int u16550_get_state(struct u16550 *uart, struct u16550_state *state)
{
    struct u16550_state found;
    int status = UART_USABLE(state, state);
    if (status == U16550_OK)
        status = uart_enter(uart);
    if (status != U16550_OK)
        return status;
    uart_encode_state(uart_state(&uart->ring.uart), &found);
    uart_leave(uart, U16550_OK);
    *state = found;
    return U16550_OK;
}

int u16550_fifo_enabled(struct u16550 *uart, uint8_t *enabled)
{
    uint8_t found;
    int status = enabled == NULL ? U16550_NULL_POINTER : uart_enter(uart);
    if (status != U16550_OK)
        return status;
    found = uart_fifo_enabled(&uart->ring.uart);
    uart_leave(uart, U16550_OK);
    *enabled = found;
    return U16550_OK;
}

int u16550_spin_limit(struct u16550 *uart, uint64_t *limit)
{
    uint64_t found;
    int status = UART_USABLE(limit, u64);
    if (status == U16550_OK)
        status = uart_enter(uart);
    if (status != U16550_OK)
        return status;
    found = uart_spin_limit(&uart->ring.uart);
    uart_leave(uart, U16550_OK);
    *limit = found;
    return U16550_OK;
}

int u16550_set_spin_limit(struct u16550 *uart, uint64_t limit)
{
    int status = uart_enter(uart);
    if (status != U16550_OK)
        return status;
    if (limit == 0)
        status = U16550_ZERO_LIMIT;
    if (status != U16550_OK)
        return uart_leave(uart, status);
    uart_set_spin_limit(&uart->ring.uart, limit);
    return uart_leave(uart, U16550_OK);
}

int u16550_fifo_size(struct u16550 *uart, uint16_t *fifo_size)
{
    uint16_t found;
    int status = fifo_size == NULL ? U16550_NULL_POINTER : uart_enter(uart);
    if (status != U16550_OK)
        return status;
    found = uart_encode_fifo_size(uart_fifo_size(&uart->ring.uart));
    uart_leave(uart, U16550_OK);
    *fifo_size = found;
    return U16550_OK;
}

int u16550_set_fifo_size(struct u16550 *uart, uint16_t fifo_size)
{
    uint8_t size;
    int status = uart_enter(uart);
    if (status != U16550_OK)
        return status;
    status = uart_decode_fifo_size(fifo_size, &size);
    if (status != U16550_OK)
        return uart_leave(uart, status);
    uart_set_fifo_size(&uart->ring.uart, size);
    return uart_leave(uart, U16550_OK);
}

#ifndef U16550_OMIT_TIMES
int u16550_character_clocks(const struct u16550_config *config, uint64_t *clocks)
{
    struct u16550_core_config decoded;
    uint64_t found_clocks = 0;
    int status = UART_USABLE(clocks, u64);
    if (status == U16550_OK)
        status = uart_decode_computable(config, &decoded);
    if (status != U16550_OK)
        return status;
    status = uart_config_character_clocks(&decoded, &found_clocks);
    if (status == U16550_OK)
        *clocks = found_clocks;
    return status;
}

int u16550_handler_budget(const struct u16550_config *config, uint16_t fifo_size,
    uint64_t access_clocks, uint64_t before_clocks, uint64_t *clocks)
{
    struct u16550_core_config decoded;
    uint8_t size;
    struct uart_maybe_u64 found_clocks = { false, 0 };
    int status = UART_USABLE(clocks, u64);
    if (status == U16550_OK)
        status = uart_decode_computable(config, &decoded);
    if (status == U16550_OK)
        status = uart_decode_fifo_size(fifo_size, &size);
    if (status != U16550_OK)
        return status;
    status = uart_config_handler_budget(&decoded, size, access_clocks, before_clocks, &found_clocks);
    if (status == U16550_OK && !found_clocks.is_some)
        status = U16550_TIME_NOTHING_LEFT;
    if (status == U16550_OK)
        *clocks = found_clocks.value;
    return status;
}

int u16550_characters_in(const struct u16550_config *config, uint64_t clocks, uint64_t *characters)
{
    struct u16550_core_config decoded;
    uint64_t found_characters = 0;
    int status = UART_USABLE(characters, u64);
    if (status == U16550_OK)
        status = uart_decode_computable(config, &decoded);
    if (status != U16550_OK)
        return status;
    status = uart_config_characters_in(&decoded, clocks, &found_characters);
    if (status == U16550_OK)
        *characters = found_characters;
    return status;
}

int u16550_drain_clocks(const struct u16550_config *config, uint16_t fifo_size, uint64_t *clocks)
{
    struct u16550_core_config decoded;
    uint8_t size;
    uint64_t found_clocks = 0;
    int status = UART_USABLE(clocks, u64);
    if (status == U16550_OK)
        status = uart_decode_computable(config, &decoded);
    if (status == U16550_OK)
        status = uart_decode_fifo_size(fifo_size, &size);
    if (status != U16550_OK)
        return status;
    status = uart_config_drain_clocks(&decoded, size, &found_clocks);
    if (status == U16550_OK)
        *clocks = found_clocks;
    return status;
}

int u16550_timeout_clocks(const struct u16550_config *config, uint64_t *clocks)
{
    struct u16550_core_config decoded;
    uint64_t found_clocks = 0;
    int status = UART_USABLE(clocks, u64);
    if (status == U16550_OK)
        status = uart_decode_computable(config, &decoded);
    if (status != U16550_OK)
        return status;
    status = uart_config_timeout_clocks(&decoded, &found_clocks);
    if (status == U16550_OK)
        *clocks = found_clocks;
    return status;
}

int u16550_spin_limit_for(const struct u16550_config *config, uint16_t fifo_size,
    uint64_t access_clocks, uint64_t *limit)
{
    struct u16550_core_config decoded;
    uint8_t size;
    struct uart_maybe_u64 found_limit = { false, 0 };
    int status = UART_USABLE(limit, u64);
    if (status == U16550_OK)
        status = uart_decode_computable(config, &decoded);
    if (status == U16550_OK)
        status = uart_decode_fifo_size(fifo_size, &size);
    if (status != U16550_OK)
        return status;
    status = uart_config_spin_limit_for(&decoded, size, access_clocks, &found_limit);
    if (status == U16550_OK && !found_limit.is_some)
        status = U16550_TIME_NO_LIMIT;
    if (status == U16550_OK)
        *limit = found_limit.value;
    return status;
}

int u16550_nanoseconds_within(const struct u16550_config *config, uint64_t clocks,
    uint64_t *nanoseconds)
{
    struct u16550_core_config decoded;
    uint64_t found_nanoseconds = 0;
    int status = UART_USABLE(nanoseconds, u64);
    if (status == U16550_OK)
        status = uart_decode_computable(config, &decoded);
    if (status != U16550_OK)
        return status;
    if (!uart_config_nanoseconds_within(&decoded, clocks, &found_nanoseconds))
        status = U16550_TIME_OUT_OF_RANGE;
    if (status == U16550_OK)
        *nanoseconds = found_nanoseconds;
    return status;
}

int u16550_nanoseconds_covering(const struct u16550_config *config, uint64_t clocks,
    uint64_t *nanoseconds)
{
    struct u16550_core_config decoded;
    uint64_t found_nanoseconds = 0;
    int status = UART_USABLE(nanoseconds, u64);
    if (status == U16550_OK)
        status = uart_decode_computable(config, &decoded);
    if (status != U16550_OK)
        return status;
    if (!uart_config_nanoseconds_covering(&decoded, clocks, &found_nanoseconds))
        status = U16550_TIME_OUT_OF_RANGE;
    if (status == U16550_OK)
        *nanoseconds = found_nanoseconds;
    return status;
}

int u16550_clocks_within(const struct u16550_config *config, uint64_t nanoseconds, uint64_t *clocks)
{
    struct u16550_core_config decoded;
    uint64_t found_clocks = 0;
    int status = UART_USABLE(clocks, u64);
    if (status == U16550_OK)
        status = uart_decode_computable(config, &decoded);
    if (status != U16550_OK)
        return status;
    if (!uart_config_clocks_within(&decoded, nanoseconds, &found_clocks))
        status = U16550_TIME_OUT_OF_RANGE;
    if (status == U16550_OK)
        *clocks = found_clocks;
    return status;
}

int u16550_clocks_covering(const struct u16550_config *config, uint64_t nanoseconds,
    uint64_t *clocks)
{
    struct u16550_core_config decoded;
    uint64_t found_clocks = 0;
    int status = UART_USABLE(clocks, u64);
    if (status == U16550_OK)
        status = uart_decode_computable(config, &decoded);
    if (status != U16550_OK)
        return status;
    if (!uart_config_clocks_covering(&decoded, nanoseconds, &found_clocks))
        status = U16550_TIME_OUT_OF_RANGE;
    if (status == U16550_OK)
        *clocks = found_clocks;
    return status;
}
#endif

int u16550_check_present(struct u16550 *uart, uint8_t *present)
{
    uint8_t found;
    int status = present == NULL ? U16550_NULL_POINTER : uart_enter(uart);
    if (status != U16550_OK)
        return status;
    found = uart_check_present(&uart->ring.uart);
    uart_leave(uart, U16550_OK);
    *present = found;
    return U16550_OK;
}

int u16550_init(struct u16550 *uart, const struct u16550_config *config)
{
    struct u16550_core_config decoded;
    int status = uart_enter(uart);
    if (status != U16550_OK)
        return status;
    status = uart_decode_computable(config, &decoded);
    if (status != U16550_OK)
        return uart_leave(uart, status);
    status = uart_init(&uart->ring.uart, decoded);
    return uart_leave(uart, status);
}

int u16550_init_with(struct u16550 *uart, const struct u16550_config *config,
    const struct u16550_setup *setup)
{
    struct u16550_core_config decoded;
    struct uart_setup setup_of;
    int status = uart_enter(uart);
    if (status != U16550_OK)
        return status;
    status = uart_decode_computable(config, &decoded);
    if (status == U16550_OK)
        status = uart_decode_setup(setup, &setup_of);
    if (status != U16550_OK)
        return uart_leave(uart, status);
    status = uart_init_with(&uart->ring.uart, decoded, &setup_of);
    return uart_leave(uart, status);
}

int u16550_find_fifo_size(struct u16550 *uart, uint16_t *fifo_size)
{
    uint8_t size;
    int status = fifo_size == NULL ? U16550_NULL_POINTER : uart_enter(uart);
    if (status != U16550_OK)
        return status;
    status = uart_find_fifo_size(&uart->ring.uart, &size);
    status = uart_leave(uart, status);
    if (status == U16550_OK)
        *fifo_size = uart_encode_fifo_size(size);
    return status;
}

int u16550_enable_64_byte_fifos(struct u16550 *uart, uint8_t *enabled)
{
    bool found_enabled;
    int status = enabled == NULL ? U16550_NULL_POINTER : uart_enter(uart);
    if (status != U16550_OK)
        return status;
    status = uart_enable_64_byte_fifos(&uart->ring.uart, &found_enabled);
    status = uart_leave(uart, status);
    if (status == U16550_OK)
        *enabled = found_enabled;
    return status;
}

int u16550_check_connected(struct u16550 *uart)
{
    int status = uart_enter(uart);
    if (status != U16550_OK)
        return status;
    status = uart_check_connected(&uart->ring.uart);
    return uart_leave(uart, status);
}

int u16550_set_frame(struct u16550 *uart, const struct u16550_config *config)
{
    struct u16550_core_config decoded;
    int status = uart_enter(uart);
    if (status != U16550_OK)
        return status;
    status = uart_decode_computable(config, &decoded);
    if (status != U16550_OK)
        return uart_leave(uart, status);
    status = uart_set_frame(&uart->ring.uart, &decoded);
    return uart_leave(uart, status);
}

int u16550_set_frame_when_idle(struct u16550 *uart, const struct u16550_config *config)
{
    struct u16550_core_config decoded;
    int status = uart_enter(uart);
    if (status != U16550_OK)
        return status;
    status = uart_decode_computable(config, &decoded);
    if (status != U16550_OK)
        return uart_leave(uart, status);
    status = uart_set_frame_when_idle(&uart->ring.uart, &decoded);
    return uart_leave(uart, status);
}

int u16550_set_trigger_level(struct u16550 *uart, uint8_t characters)
{
    uint8_t level;
    int status = uart_enter(uart);
    if (status != U16550_OK)
        return status;
    status = uart_decode_fifo_trigger_level(characters, &level);
    if (status != U16550_OK)
        return uart_leave(uart, status);
    if (!uart_set_trigger_level(&uart->ring.uart, level))
        status = U16550_FIFOS_OFF;
    return uart_leave(uart, status);
}

int u16550_quiesce(struct u16550 *uart, uint8_t outputs, uint8_t fifos)
{
    int status = uart_enter(uart);
    if (status != U16550_OK)
        return status;
    status = uart_check_fifo_action(fifos);
    if (status != U16550_OK)
        return uart_leave(uart, status);
    uart_quiesce(&uart->ring.uart, outputs, fifos);
    return uart_leave(uart, U16550_OK);
}

int u16550_restore(struct u16550 *uart, const struct u16550_dump *dump)
{
    int status = uart_enter(uart);
    if (status != U16550_OK)
        return status;
    if (dump == NULL)
        status = U16550_NULL_POINTER;
    if (status != U16550_OK)
        return uart_leave(uart, status);
    uart_restore(&uart->ring.uart, dump);
    return uart_leave(uart, U16550_OK);
}

int u16550_attach(struct u16550 *uart, uint8_t *dll, uint8_t *dlm)
{
    struct uart_latch latch;
    int status = dll == NULL || dlm == NULL ? U16550_NULL_POINTER : uart_enter(uart);
    if (status != U16550_OK)
        return status;
    status = uart_attach(&uart->ring.uart, &latch);
    status = uart_leave(uart, status);
    if (status == U16550_OK) {
        *dll = latch.dll;
        *dlm = latch.dlm;
    }
    return status;
}

int u16550_set_modem_control(struct u16550 *uart, uint8_t outputs)
{
    int status = uart_enter(uart);
    if (status != U16550_OK)
        return status;
    uart_set_modem_control(&uart->ring.uart, outputs);
    return uart_leave(uart, U16550_OK);
}

int u16550_set_rts(struct u16550 *uart, uint8_t on)
{
    int status = uart_enter(uart);
    if (status != U16550_OK)
        return status;
    status = uart_check_flag(on);
    if (status != U16550_OK)
        return uart_leave(uart, status);
    uart_set_rts(&uart->ring.uart, on == 1);
    return uart_leave(uart, U16550_OK);
}

int u16550_set_dtr(struct u16550 *uart, uint8_t on)
{
    int status = uart_enter(uart);
    if (status != U16550_OK)
        return status;
    status = uart_check_flag(on);
    if (status != U16550_OK)
        return uart_leave(uart, status);
    uart_set_dtr(&uart->ring.uart, on == 1);
    return uart_leave(uart, U16550_OK);
}

int u16550_set_break(struct u16550 *uart, uint8_t on)
{
    int status = uart_enter(uart);
    if (status != U16550_OK)
        return status;
    status = uart_check_flag(on);
    if (status != U16550_OK)
        return uart_leave(uart, status);
    uart_set_break(&uart->ring.uart, on == 1);
    return uart_leave(uart, U16550_OK);
}

int u16550_ready_to_receive(struct u16550 *uart)
{
    int status = uart_enter(uart);
    if (status != U16550_OK)
        return status;
    if (!uart_ready_to_receive(&uart->ring.uart))
        status = U16550_RECEIVE_NO_DATA;
    return uart_leave(uart, status);
}

int u16550_ready_to_send(struct u16550 *uart)
{
    int status = uart_enter(uart);
    if (status != U16550_OK)
        return status;
    status = uart_ready_to_send(&uart->ring.uart);
    return uart_leave(uart, status);
}

int u16550_try_receive_byte(struct u16550 *uart, uint8_t *byte)
{
    uint8_t found_byte;
    int status = byte == NULL ? U16550_NULL_POINTER : uart_enter(uart);
    if (status != U16550_OK)
        return status;
    if (!uart_try_receive_byte(&uart->ring.uart, &found_byte))
        status = U16550_RECEIVE_NO_DATA;
    status = uart_leave(uart, status);
    if (status == U16550_OK)
        *byte = found_byte;
    return status;
}

int u16550_try_send_byte(struct u16550 *uart, uint8_t byte)
{
    int status = uart_enter(uart);
    if (status != U16550_OK)
        return status;
    status = uart_try_send_byte(&uart->ring.uart, byte);
    return uart_leave(uart, status);
}

int u16550_receive_bytes(struct u16550 *uart, uint8_t *buffer, size_t len, size_t *count)
{
    size_t found;
    int status = UART_USABLE(count, size);
    if (status == U16550_OK)
        status = uart_enter(uart);
    if (status != U16550_OK)
        return status;
    status = uart_array(buffer, len, 1, 1);
    if (status != U16550_OK)
        return uart_leave(uart, status);
    found = uart_receive_bytes(&uart->ring.uart, buffer, len);
    uart_leave(uart, U16550_OK);
    *count = found;
    return U16550_OK;
}

int u16550_send_bytes(struct u16550 *uart, const uint8_t *buffer, size_t len, size_t *count)
{
    size_t found;
    int status = UART_USABLE(count, size);
    if (status == U16550_OK)
        status = uart_enter(uart);
    if (status != U16550_OK)
        return status;
    status = uart_array(buffer, len, 1, 1);
    if (status != U16550_OK)
        return uart_leave(uart, status);
    found = uart_send_bytes(&uart->ring.uart, buffer, len);
    uart_leave(uart, U16550_OK);
    *count = found;
    return U16550_OK;
}

int u16550_send_burst(struct u16550 *uart, const uint8_t *buffer, size_t len, uint16_t fifo_size,
    size_t *count)
{
    uint8_t size;
    size_t found;
    int status = UART_USABLE(count, size);
    if (status == U16550_OK)
        status = uart_enter(uart);
    if (status != U16550_OK)
        return status;
    status = uart_decode_fifo_size(fifo_size, &size);
    if (status == U16550_OK)
        status = uart_array(buffer, len, 1, 1);
    if (status != U16550_OK)
        return uart_leave(uart, status);
    found = uart_send_burst(&uart->ring.uart, buffer, len, size);
    uart_leave(uart, U16550_OK);
    *count = found;
    return U16550_OK;
}

int u16550_send_gathered(struct u16550 *uart, const uint8_t *urgent, const uint8_t *first,
    size_t first_len, const uint8_t *second, size_t second_len, size_t *count)
{
    struct u16550_core_maybe_u8 urgent_byte;
    size_t found;
    int status = UART_USABLE(count, size);
    if (status == U16550_OK)
        status = uart_enter(uart);
    if (status != U16550_OK)
        return status;
    status = uart_decode_urgent(urgent, &urgent_byte);
    if (status == U16550_OK)
        status = uart_array(first, first_len, 1, 1);
    if (status == U16550_OK)
        status = uart_array(second, second_len, 1, 1);
    if (status != U16550_OK)
        return uart_leave(uart, status);
    found = uart_send_gathered(&uart->ring.uart, urgent_byte, first, first_len, second, second_len);
    uart_leave(uart, U16550_OK);
    *count = found;
    return U16550_OK;
}

int u16550_try_receive_with_errors(struct u16550 *uart, struct u16550_received *received)
{
    struct u16550_received found_received;
    int status = received == NULL ? U16550_NULL_POINTER : uart_enter(uart);
    if (status != U16550_OK)
        return status;
    if (!uart_try_receive_with_errors(&uart->ring.uart, &found_received))
        status = U16550_RECEIVE_NO_DATA;
    status = uart_leave(uart, status);
    if (status == U16550_OK)
        *received = found_received;
    return status;
}

int u16550_receive_with_errors(struct u16550 *uart, struct u16550_received *received, size_t len,
    size_t *count)
{
    size_t found;
    int status = UART_USABLE(count, size);
    if (status == U16550_OK)
        status = uart_enter(uart);
    if (status != U16550_OK)
        return status;
    status = uart_array(received, len, sizeof(struct u16550_received), 1);
    if (status != U16550_OK)
        return uart_leave(uart, status);
    found = uart_receive_with_errors(&uart->ring.uart, received, len);
    uart_leave(uart, U16550_OK);
    *count = found;
    return U16550_OK;
}

int u16550_receive_bytes_exact(struct u16550 *uart, uint8_t *buffer, size_t len, size_t *done)
{
    size_t stalled_at;
    int status = UART_ALIGNED(done, size);
    if (status == U16550_OK)
        status = uart_enter(uart);
    if (status != U16550_OK)
        return status;
    status = uart_array(buffer, len, 1, 1);
    if (status != U16550_OK)
        return uart_leave(uart, status);
    status = uart_receive_bytes_exact(&uart->ring.uart, buffer, len, &stalled_at);
    status = uart_leave(uart, status);
    if (done != NULL)
        *done = status == U16550_OK ? len : stalled_at;
    return status;
}

int u16550_send_bytes_exact(struct u16550 *uart, const uint8_t *buffer, size_t len, size_t *done)
{
    size_t stalled_at;
    int status = UART_ALIGNED(done, size);
    if (status == U16550_OK)
        status = uart_enter(uart);
    if (status != U16550_OK)
        return status;
    status = uart_array(buffer, len, 1, 1);
    if (status != U16550_OK)
        return uart_leave(uart, status);
    status = uart_send_bytes_exact(&uart->ring.uart, buffer, len, &stalled_at);
    status = uart_leave(uart, status);
    if (done != NULL)
        *done = status == U16550_OK ? len : stalled_at;
    return status;
}

int u16550_receive_bytes_while(struct u16550 *uart, uint8_t *buffer, size_t len,
    uint8_t (*keep_waiting)(void *context), void *context, size_t *done)
{
    struct uart_patience patience = { keep_waiting, context };
    size_t stalled_at;
    int status = UART_ALIGNED(done, size);
    if (status == U16550_OK)
        status = uart_enter(uart);
    if (status != U16550_OK)
        return status;
    status = uart_array(buffer, len, 1, 1);
    if (status == U16550_OK && keep_waiting == NULL)
        status = U16550_NULL_POINTER;
    if (status != U16550_OK)
        return uart_leave(uart, status);
    status = uart_receive_bytes_while(&uart->ring.uart, buffer, len, &patience, &stalled_at);
    status = uart_leave(uart, status);
    if (done != NULL)
        *done = status == U16550_OK ? len : stalled_at;
    return status;
}

int u16550_send_bytes_while(struct u16550 *uart, const uint8_t *buffer, size_t len,
    uint8_t (*keep_waiting)(void *context), void *context, size_t *done)
{
    struct uart_patience patience = { keep_waiting, context };
    size_t stalled_at;
    int status = UART_ALIGNED(done, size);
    if (status == U16550_OK)
        status = uart_enter(uart);
    if (status != U16550_OK)
        return status;
    status = uart_array(buffer, len, 1, 1);
    if (status == U16550_OK && keep_waiting == NULL)
        status = U16550_NULL_POINTER;
    if (status != U16550_OK)
        return uart_leave(uart, status);
    status = uart_send_bytes_while(&uart->ring.uart, buffer, len, &patience, &stalled_at);
    status = uart_leave(uart, status);
    if (done != NULL)
        *done = status == U16550_OK ? len : stalled_at;
    return status;
}

int u16550_flush_while(struct u16550 *uart, uint8_t (*keep_waiting)(void *context), void *context)
{
    struct uart_patience patience = { keep_waiting, context };
    int status = uart_enter(uart);
    if (status != U16550_OK)
        return status;
    if (keep_waiting == NULL)
        status = U16550_NULL_POINTER;
    if (status != U16550_OK)
        return uart_leave(uart, status);
    status = uart_flush_while(&uart->ring.uart, &patience);
    return uart_leave(uart, status);
}

int u16550_read(struct u16550 *uart, uint8_t *buffer, size_t len, size_t *count)
{
    size_t found_count;
    int status = UART_USABLE(count, size);
    if (status == U16550_OK)
        status = uart_enter(uart);
    if (status != U16550_OK)
        return status;
    status = uart_array(buffer, len, 1, 1);
    if (status != U16550_OK)
        return uart_leave(uart, status);
    status = uart_read(&uart->ring.uart, buffer, len, &found_count);
    status = uart_leave(uart, status);
    if (status == U16550_OK)
        *count = found_count;
    return status;
}

int u16550_write(struct u16550 *uart, const uint8_t *buffer, size_t len, size_t *count)
{
    size_t found_count;
    int status = UART_USABLE(count, size);
    if (status == U16550_OK)
        status = uart_enter(uart);
    if (status != U16550_OK)
        return status;
    status = uart_array(buffer, len, 1, 1);
    if (status != U16550_OK)
        return uart_leave(uart, status);
    status = uart_write(&uart->ring.uart, buffer, len, &found_count);
    status = uart_leave(uart, status);
    if (status == U16550_OK)
        *count = found_count;
    return status;
}

int u16550_flush(struct u16550 *uart)
{
    int status = uart_enter(uart);
    if (status != U16550_OK)
        return status;
    status = uart_flush(&uart->ring.uart);
    return uart_leave(uart, status);
}

int u16550_read_ready(struct u16550 *uart, uint8_t *ready)
{
    bool found_ready;
    int status = ready == NULL ? U16550_NULL_POINTER : uart_enter(uart);
    if (status != U16550_OK)
        return status;
    status = uart_read_ready(&uart->ring.uart, &found_ready);
    status = uart_leave(uart, status);
    if (status == U16550_OK)
        *ready = found_ready;
    return status;
}

int u16550_write_ready(struct u16550 *uart, uint8_t *ready)
{
    bool found_ready;
    int status = ready == NULL ? U16550_NULL_POINTER : uart_enter(uart);
    if (status != U16550_OK)
        return status;
    status = uart_write_ready(&uart->ring.uart, &found_ready);
    status = uart_leave(uart, status);
    if (status == U16550_OK)
        *ready = found_ready;
    return status;
}

int u16550_is_idle(struct u16550 *uart, uint8_t *idle)
{
    uint8_t found;
    int status = idle == NULL ? U16550_NULL_POINTER : uart_enter(uart);
    if (status != U16550_OK)
        return status;
    found = uart_is_idle(&uart->ring.uart);
    uart_leave(uart, U16550_OK);
    *idle = found;
    return U16550_OK;
}

int u16550_is_gone(struct u16550 *uart, uint8_t *gone)
{
    uint8_t found;
    int status = gone == NULL ? U16550_NULL_POINTER : uart_enter(uart);
    if (status != U16550_OK)
        return status;
    found = uart_is_gone(&uart->ring.uart);
    uart_leave(uart, U16550_OK);
    *gone = found;
    return U16550_OK;
}

int u16550_ier(struct u16550 *uart, uint8_t *value)
{
    uint8_t found;
    int status = value == NULL ? U16550_NULL_POINTER : uart_enter(uart);
    if (status != U16550_OK)
        return status;
    found = uart_ier(&uart->ring.uart);
    uart_leave(uart, U16550_OK);
    *value = found;
    return U16550_OK;
}

int u16550_isr(struct u16550 *uart, uint8_t *value)
{
    uint8_t found;
    int status = value == NULL ? U16550_NULL_POINTER : uart_enter(uart);
    if (status != U16550_OK)
        return status;
    found = uart_isr(&uart->ring.uart);
    uart_leave(uart, U16550_OK);
    *value = found;
    return U16550_OK;
}

int u16550_lcr(struct u16550 *uart, uint8_t *value)
{
    uint8_t found;
    int status = value == NULL ? U16550_NULL_POINTER : uart_enter(uart);
    if (status != U16550_OK)
        return status;
    found = uart_lcr(&uart->ring.uart);
    uart_leave(uart, U16550_OK);
    *value = found;
    return U16550_OK;
}

int u16550_mcr(struct u16550 *uart, uint8_t *value)
{
    uint8_t found;
    int status = value == NULL ? U16550_NULL_POINTER : uart_enter(uart);
    if (status != U16550_OK)
        return status;
    found = uart_mcr(&uart->ring.uart);
    uart_leave(uart, U16550_OK);
    *value = found;
    return U16550_OK;
}

int u16550_lsr(struct u16550 *uart, uint8_t *value)
{
    uint8_t found;
    int status = value == NULL ? U16550_NULL_POINTER : uart_enter(uart);
    if (status != U16550_OK)
        return status;
    found = uart_lsr(&uart->ring.uart);
    uart_leave(uart, U16550_OK);
    *value = found;
    return U16550_OK;
}

int u16550_msr(struct u16550 *uart, uint8_t *value)
{
    uint8_t found;
    int status = value == NULL ? U16550_NULL_POINTER : uart_enter(uart);
    if (status != U16550_OK)
        return status;
    found = uart_msr(&uart->ring.uart);
    uart_leave(uart, U16550_OK);
    *value = found;
    return U16550_OK;
}

int u16550_spr(struct u16550 *uart, uint8_t *value)
{
    uint8_t found;
    int status = value == NULL ? U16550_NULL_POINTER : uart_enter(uart);
    if (status != U16550_OK)
        return status;
    found = uart_spr(&uart->ring.uart);
    uart_leave(uart, U16550_OK);
    *value = found;
    return U16550_OK;
}

int u16550_dll_dlm(struct u16550 *uart, uint8_t *dll, uint8_t *dlm)
{
    struct uart_latch found;
    int status = dll == NULL || dlm == NULL ? U16550_NULL_POINTER : uart_enter(uart);
    if (status != U16550_OK)
        return status;
    found = uart_dll_dlm(&uart->ring.uart);
    status = uart_leave(uart, U16550_OK);
    if (status == U16550_OK) {
        *dll = found.dll;
        *dlm = found.dlm;
    }
    return status;
}

int u16550_peek_modem(struct u16550 *uart, uint8_t *msr)
{
    uint8_t found;
    int status = msr == NULL ? U16550_NULL_POINTER : uart_enter(uart);
    if (status != U16550_OK)
        return status;
    found = uart_peek_modem(&uart->ring.uart);
    uart_leave(uart, U16550_OK);
    *msr = found;
    return U16550_OK;
}

int u16550_enable_interrupts(struct u16550 *uart, uint8_t interrupts)
{
    int status = uart_enter(uart);
    if (status != U16550_OK)
        return status;
    uart_enable_interrupts(&uart->ring.uart, interrupts);
    return uart_leave(uart, U16550_OK);
}

int u16550_disable_interrupts(struct u16550 *uart, uint8_t interrupts)
{
    int status = uart_enter(uart);
    if (status != U16550_OK)
        return status;
    uart_disable_interrupts(&uart->ring.uart, interrupts);
    return uart_leave(uart, U16550_OK);
}

int u16550_retrigger_interrupts(struct u16550 *uart)
{
    int status = uart_enter(uart);
    if (status != U16550_OK)
        return status;
    uart_retrigger_interrupts(&uart->ring.uart);
    return uart_leave(uart, U16550_OK);
}

int u16550_config_register_dump(struct u16550 *uart, struct u16550_dump *dump)
{
    struct u16550_dump found;
    int status = dump == NULL ? U16550_NULL_POINTER : uart_enter(uart);
    if (status != U16550_OK)
        return status;
    found = uart_config_register_dump(&uart->ring.uart);
    uart_leave(uart, U16550_OK);
    *dump = found;
    return U16550_OK;
}

#ifndef U16550_OMIT_RINGS
int u16550_ring_transmit_len(struct u16550 *uart, size_t *len)
{
    size_t found;
    int status = UART_USABLE(len, size);
    if (status == U16550_OK)
        status = uart_enter_rings(uart);
    if (status != U16550_OK)
        return status;
    found = uart_ring_transmit_len(&uart->ring);
    uart_leave(uart, U16550_OK);
    *len = found;
    return U16550_OK;
}

int u16550_ring_receive_len(struct u16550 *uart, size_t *len)
{
    size_t found;
    int status = UART_USABLE(len, size);
    if (status == U16550_OK)
        status = uart_enter_rings(uart);
    if (status != U16550_OK)
        return status;
    found = uart_ring_receive_len(&uart->ring);
    uart_leave(uart, U16550_OK);
    *len = found;
    return U16550_OK;
}

int u16550_ring_is_paused(struct u16550 *uart, uint8_t *paused)
{
    uint8_t found;
    int status = paused == NULL ? U16550_NULL_POINTER : uart_enter_rings(uart);
    if (status != U16550_OK)
        return status;
    found = uart_ring_is_paused(&uart->ring);
    uart_leave(uart, U16550_OK);
    *paused = found;
    return U16550_OK;
}

int u16550_ring_queue(struct u16550 *uart, const uint8_t *buffer, size_t len, size_t *count)
{
    size_t found;
    int status = UART_USABLE(count, size);
    if (status == U16550_OK)
        status = uart_enter_rings(uart);
    if (status != U16550_OK)
        return status;
    status = uart_array(buffer, len, 1, 1);
    if (status != U16550_OK)
        return uart_leave(uart, status);
    found = uart_ring_queue(&uart->ring, buffer, len);
    uart_leave(uart, U16550_OK);
    *count = found;
    return U16550_OK;
}

int u16550_ring_transmit_room(struct u16550 *uart, size_t *room)
{
    size_t found;
    int status = UART_USABLE(room, size);
    if (status == U16550_OK)
        status = uart_enter_rings(uart);
    if (status != U16550_OK)
        return status;
    found = uart_ring_transmit_room(&uart->ring);
    uart_leave(uart, U16550_OK);
    *room = found;
    return U16550_OK;
}

int u16550_ring_hold_transmit(struct u16550 *uart)
{
    int status = uart_enter_rings(uart);
    if (status != U16550_OK)
        return status;
    uart_ring_hold_transmit(&uart->ring);
    return uart_leave(uart, U16550_OK);
}

int u16550_ring_release_transmit(struct u16550 *uart)
{
    int status = uart_enter_rings(uart);
    if (status != U16550_OK)
        return status;
    uart_ring_release_transmit(&uart->ring);
    return uart_leave(uart, U16550_OK);
}

int u16550_ring_is_held(struct u16550 *uart, uint8_t *held)
{
    uint8_t found;
    int status = held == NULL ? U16550_NULL_POINTER : uart_enter_rings(uart);
    if (status != U16550_OK)
        return status;
    found = uart_ring_is_held(&uart->ring);
    uart_leave(uart, U16550_OK);
    *held = found;
    return U16550_OK;
}

int u16550_ring_queue_urgent(struct u16550 *uart, uint8_t byte, struct u16550_urgent *replaced)
{
    struct u16550_urgent found = { 0, 0 };
    int status = replaced == NULL ? U16550_NULL_POINTER : uart_enter_rings(uart);
    if (status != U16550_OK)
        return status;
    found.waits = uart_ring_queue_urgent(&uart->ring, byte, &found.byte);
    if (!found.waits)
        found.byte = 0;
    uart_leave(uart, U16550_OK);
    *replaced = found;
    return U16550_OK;
}

int u16550_ring_urgent(struct u16550 *uart, struct u16550_urgent *urgent)
{
    struct u16550_urgent found = { 0, 0 };
    int status = urgent == NULL ? U16550_NULL_POINTER : uart_enter_rings(uart);
    if (status != U16550_OK)
        return status;
    found.waits = uart_ring_urgent(&uart->ring, &found.byte);
    if (!found.waits)
        found.byte = 0;
    uart_leave(uart, U16550_OK);
    *urgent = found;
    return U16550_OK;
}

int u16550_ring_clear_transmit(struct u16550 *uart, size_t *count)
{
    size_t found;
    int status = UART_USABLE(count, size);
    if (status == U16550_OK)
        status = uart_enter_rings(uart);
    if (status != U16550_OK)
        return status;
    found = uart_ring_clear_transmit(&uart->ring);
    uart_leave(uart, U16550_OK);
    *count = found;
    return U16550_OK;
}

int u16550_ring_clear_receive(struct u16550 *uart, size_t *count)
{
    size_t found;
    int status = UART_USABLE(count, size);
    if (status == U16550_OK)
        status = uart_enter_rings(uart);
    if (status != U16550_OK)
        return status;
    found = uart_ring_clear_receive(&uart->ring);
    uart_leave(uart, U16550_OK);
    *count = found;
    return U16550_OK;
}

int u16550_ring_set_low_mark(struct u16550 *uart, size_t mark)
{
    int status = uart_enter_rings(uart);
    if (status != U16550_OK)
        return status;
    uart_ring_set_low_mark(&uart->ring, mark);
    return uart_leave(uart, U16550_OK);
}

int u16550_ring_take_low(struct u16550 *uart, uint8_t *low)
{
    uint8_t found;
    int status = low == NULL ? U16550_NULL_POINTER : uart_enter_rings(uart);
    if (status != U16550_OK)
        return status;
    found = uart_ring_take_low(&uart->ring);
    uart_leave(uart, U16550_OK);
    *low = found;
    return U16550_OK;
}

int u16550_ring_take(struct u16550 *uart, uint8_t *buffer, size_t len, size_t *count)
{
    size_t found;
    int status = UART_USABLE(count, size);
    if (status == U16550_OK)
        status = uart_enter_rings(uart);
    if (status != U16550_OK)
        return status;
    status = uart_array(buffer, len, 1, 1);
    if (status != U16550_OK)
        return uart_leave(uart, status);
    found = uart_ring_take(&uart->ring, buffer, len);
    uart_leave(uart, U16550_OK);
    *count = found;
    return U16550_OK;
}

int u16550_ring_adjust_rts(struct u16550 *uart, size_t hold, size_t release)
{
    int status = uart_enter_rings(uart);
    if (status != U16550_OK)
        return status;
    uart_ring_adjust_rts(&uart->ring, uart_marks(hold, release));
    return uart_leave(uart, U16550_OK);
}

int u16550_ring_adjust_xoff(struct u16550 *uart, size_t hold, size_t release,
    struct u16550_urgent *told)
{
    struct u16550_urgent found = { 0, 0 };
    int status = told == NULL ? U16550_NULL_POINTER : uart_enter_rings(uart);
    if (status != U16550_OK)
        return status;
    found.waits = uart_ring_adjust_xoff(&uart->ring, uart_marks(hold, release), &found.byte);
    if (!found.waits)
        found.byte = 0;
    uart_leave(uart, U16550_OK);
    *told = found;
    return U16550_OK;
}

int u16550_ring_obey_xoff(struct u16550 *uart, struct u16550_urgent *told)
{
    struct u16550_urgent found = { 0, 0 };
    int status = told == NULL ? U16550_NULL_POINTER : uart_enter_rings(uart);
    if (status != U16550_OK)
        return status;
    found.waits = uart_ring_obey_xoff(&uart->ring, &found.byte);
    if (!found.waits)
        found.byte = 0;
    uart_leave(uart, U16550_OK);
    *told = found;
    return U16550_OK;
}

int u16550_ring_resume_transmit(struct u16550 *uart)
{
    int status = uart_enter_rings(uart);
    if (status != U16550_OK)
        return status;
    uart_ring_resume_transmit(&uart->ring);
    return uart_leave(uart, U16550_OK);
}

int u16550_ring_handle(struct u16550 *uart, size_t limit, struct u16550_handled *handled)
{
    struct u16550_handled found;
    int status = UART_USABLE(handled, handled);
    if (status == U16550_OK)
        status = uart_enter_rings(uart);
    if (status != U16550_OK)
        return status;
    found = uart_ring_handle(&uart->ring, limit);
    uart_leave(uart, U16550_OK);
    *handled = found;
    return U16550_OK;
}

int u16550_ring_try_handle(struct u16550 *uart, size_t limit, uint32_t rounds,
    struct u16550_handled *handled)
{
    struct u16550_handled found_handled;
    struct u16550_core_stuck_error error;
    int status = UART_USABLE(handled, handled);
    if (status == U16550_OK)
        status = uart_enter_rings(uart);
    if (status != U16550_OK)
        return status;
    status = uart_ring_try_handle(&uart->ring, limit, rounds, &found_handled, &error);
    status = uart_leave(uart, status);
    if (status == U16550_OK)
        *handled = found_handled;
    return status;
}

int u16550_ring_restart(struct u16550 *uart, uint8_t interrupts)
{
    int status = uart_enter_rings(uart);
    if (status != U16550_OK)
        return status;
    uart_ring_restart(&uart->ring, interrupts);
    return uart_leave(uart, U16550_OK);
}

int u16550_ring_retrigger(struct u16550 *uart)
{
    int status = uart_enter_rings(uart);
    if (status != U16550_OK)
        return status;
    uart_ring_retrigger(&uart->ring);
    return uart_leave(uart, U16550_OK);
}

int u16550_ring_service(struct u16550 *uart, size_t *count)
{
    size_t found;
    int status = UART_USABLE(count, size);
    if (status == U16550_OK)
        status = uart_enter_rings(uart);
    if (status != U16550_OK)
        return status;
    found = uart_ring_service(&uart->ring);
    uart_leave(uart, U16550_OK);
    *count = found;
    return U16550_OK;
}

int u16550_ring_take_line(struct u16550 *uart, uint8_t *lsr)
{
    uint8_t found;
    int status = lsr == NULL ? U16550_NULL_POINTER : uart_enter_rings(uart);
    if (status != U16550_OK)
        return status;
    found = uart_ring_take_line(&uart->ring);
    uart_leave(uart, U16550_OK);
    *lsr = found;
    return U16550_OK;
}

int u16550_ring_take_modem(struct u16550 *uart, uint8_t *msr)
{
    uint8_t found;
    int status = msr == NULL ? U16550_NULL_POINTER : uart_enter_rings(uart);
    if (status != U16550_OK)
        return status;
    found = uart_ring_take_modem(&uart->ring);
    uart_leave(uart, U16550_OK);
    *msr = found;
    return U16550_OK;
}

int u16550_ring_config_register_dump(struct u16550 *uart, struct u16550_dump *dump)
{
    struct u16550_dump found;
    int status = dump == NULL ? U16550_NULL_POINTER : uart_enter_rings(uart);
    if (status != U16550_OK)
        return status;
    found = uart_ring_config_register_dump(&uart->ring);
    uart_leave(uart, U16550_OK);
    *dump = found;
    return U16550_OK;
}
#endif

#ifndef U16550_OMIT_TEXT
const char *u16550_text(int status)
{
    switch (status) {
    case U16550_OK:
        return "no error";
    case U16550_NULL_POINTER:
        return "a pointer is null";
    case U16550_MISALIGNED:
        return "a pointer is not aligned";
    case U16550_NOT_MADE:
        return "there is no driver in this memory";
    case U16550_BUSY:
        return "another call over this driver is not done";
    case U16550_BAD_LENGTH:
        return "a length is larger than any array";
    case U16550_BAD_CODE:
        return "a number stands for nothing";
    case U16550_NOT_COMPUTABLE:
        return "no divisor can be computed for the configuration";
    case U16550_ZERO_LIMIT:
        return "the spin limit is 0";
    case U16550_NOT_UTF8:
        return "the text is not UTF-8";
    case U16550_NO_RINGS:
        return "the driver has no rings";
    case U16550_HAS_RINGS:
        return "the driver has rings already";
    case U16550_NO_NOTES:
        return "the driver notes no errors";
    case U16550_HAS_NOTES:
        return "the driver notes errors already";
    case U16550_OTHER_LAYOUT:
        return "program and library were not compiled for each other";
    case U16550_BAD_BASE:
        return "the registers do not fit behind the base address";
    case U16550_BAD_STRIDE:
        return "the stride is not a power of two";
    case U16550_BAD_WIDTH:
        return "a register has 8, 16 or 32 bits";
    case U16550_STRIDE_TOO_SMALL:
        return "the registers overlap: the stride is less than their width";
    case U16550_MISALIGNED_BASE:
        return "the base address is not aligned for the registers";
    case U16550_INIT_DEVICE_NOT_PRESENT:
        return "there is no device";
    case U16550_INIT_NON_INTEGER_DIVISOR:
        return "no whole divisor gives the baud rate";
    case U16550_INIT_DIVISOR_OUT_OF_RANGE:
        return "the divisor for the baud rate does not fit";
    case U16550_INIT_STALLED:
        return "the transmitter did not become empty";
    case U16550_LOOPBACK_NO_CAPACITY:
        return "loopback: the device took no byte";
    case U16550_LOOPBACK_NOT_CLEAR_TO_SEND:
        return "loopback: the remote is not clear to send";
    case U16550_LOOPBACK_UNEXPECTED_BYTE:
        return "loopback: another byte came back";
    case U16550_LOOPBACK_UNEXPECTED_MSG:
        return "loopback: another message came back";
    case U16550_LOOPBACK_STALLED:
        return "loopback: the device did not respond in time";
    case U16550_REMOTE_NO_DSR:
        return "no remote is connected: DSR is clear";
    case U16550_REMOTE_NO_CD:
        return "no remote is connected: CD is clear";
    case U16550_REMOTE_NOT_CLEAR_TO_SEND:
        return "the remote is not clear to send";
    case U16550_SEND_NO_CAPACITY:
        return "the transmitter has no room";
    case U16550_SEND_NOT_CLEAR_TO_SEND:
        return "nothing is sent, because CTS is clear";
    case U16550_RECEIVE_NO_DATA:
        return "no byte was received";
    case U16550_STALLED:
        return "a wait came to the spin limit";
    case U16550_WAIT_ENDED:
        return "the caller waits no longer";
    case U16550_NON_INTEGER_BAUD_RATE:
        return "the divisor gives no whole baud rate";
    case U16550_RING_BAD_CAPACITY:
        return "a ring has room for 1 to 4096 bytes";
    case U16550_RING_OUT_OF_MEMORY:
        return "the memory is too small for the rings";
    case U16550_RING_STUCK_UNKNOWN:
        return "the chip shows an unknown interrupt for ever";
    case U16550_RING_STUCK_PENDING:
        return "an interrupt does not go away";
    case U16550_RING_UNNOTED:
        return "bytes of the receive ring have no note of their errors";
    case U16550_FRAME_NON_INTEGER_DIVISOR:
        return "frame: no whole divisor gives the baud rate";
    case U16550_FRAME_DIVISOR_OUT_OF_RANGE:
        return "frame: the divisor for the baud rate does not fit";
    case U16550_FRAME_STALLED:
        return "frame: the transmitter did not become empty";
    case U16550_NEAREST_TOO_FAR:
        return "the nearest divisor is not near enough";
    case U16550_NEAREST_OUT_OF_RANGE:
        return "the nearest divisor does not fit";
    case U16550_ATTACH_DIVISOR_LATCH_OPEN:
        return "attach: the divisor latch was left open";
    case U16550_ATTACH_LOOPBACK:
        return "attach: the chip was left in loopback";
    case U16550_ATTACH_NO_DIVISOR:
        return "attach: the port has no divisor";
    case U16550_FIFOS_OFF:
        return "the FIFOs are off";
    case U16550_FIFOS_TOO_FEW:
        return "FIFO size: too few bytes came back";
    case U16550_FIFOS_STALLED:
        return "FIFO size: the device did not respond in time";
    case U16550_CONFIGURATION_NO_DIVISOR:
        return "configured: there is no divisor for the baud rate";
    case U16550_CONFIGURATION_LINE_CONTROL:
        return "configured: LCR does not show what was written";
    case U16550_CONFIGURATION_MODEM_CONTROL:
        return "configured: MCR does not show what was written";
    case U16550_CONFIGURATION_INTERRUPTS:
        return "configured: IER does not show what was written";
    case U16550_CONFIGURATION_DIVISOR:
        return "configured: the divisor latch has another divisor";
    case U16550_CONFIGURATION_FIFOS:
        return "configured: the FIFOs are not as the driver takes them to be";
    case U16550_BUS_BUSY:
        return "the transmitter is not empty";
    case U16550_BUS_NOT_SENDING:
        return "the direction is not to send";
    case U16550_DESIGN_WARE_LINE_CONTROL:
        return "the UART stayed busy, and ignored LCR";
    case U16550_DESIGN_WARE_INTERRUPT:
        return "an interrupt of the UART does not end";
    case U16550_TIME_NOTHING_LEFT:
        return "time: nothing is left for a handler";
    case U16550_TIME_NO_LIMIT:
        return "time: a look takes no time";
    case U16550_TIME_OUT_OF_RANGE:
        return "time: it does not fit into 64 bits";
    default:
        return "no known status";
    }
}
#endif

/*
 * Where code is to be small, gcc for PowerPC saves registers and returns by functions of its own library. A program that is linked without
 * that library has them here. One that has them, as kernels do, takes its own. Two files that are compiled as one have them once.
 */
#if defined(__powerpc__) && !defined(__powerpc64__) && defined(__ELF__) && defined(__OPTIMIZE_SIZE__) && !defined(__clang__)
#define UART_CALLERS_REGISTERS "14, 15, 16, 17, 18, 19, 20, 21, 22, 23, 24, 25, 26, 27, 28, 29, 30, 31"
__asm__(".ifndef _restgpr_14_x\n"
        ".pushsection .text.uart_restore, \"ax\", @progbits\n"
        ".irp number, " UART_CALLERS_REGISTERS "\n"
        ".weak _restgpr_\\number\\()_x\n"
        ".hidden _restgpr_\\number\\()_x\n"
        "_restgpr_\\number\\()_x: lwz \\number, 4 * (\\number - 32)(11)\n"
        ".endr\n"
        "lwz 0, 4(11)\n"
        "mtlr 0\n"
        "mr 1, 11\n"
        "blr\n"
        ".popsection\n"
        ".endif\n"
        ".ifndef _savegpr_14\n"
        ".pushsection .text.uart_save, \"ax\", @progbits\n"
        ".irp number, " UART_CALLERS_REGISTERS "\n"
        ".weak _savegpr_\\number\n"
        ".hidden _savegpr_\\number\n"
        "_savegpr_\\number: stw \\number, 4 * (\\number - 32)(11)\n"
        ".endr\n"
        "blr\n"
        ".popsection\n"
        ".endif\n");
#endif
