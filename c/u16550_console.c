/* SPDX-FileCopyrightText: 2025 Philipp Schuster, 2026 Geesetrunk */
/* SPDX-License-Identifier: MIT OR Apache-2.0 */
/*
 * u16550_console.c - a console over one 16550. u16550_console.h says how it is used.
 *
 * Made by tools/c/emit from the code that is proved. Do not edit. Names and comments are those of its source, and what is computed
 * is taken from what the proofs are about. The functions at the end are by hand.
 */
#include "u16550_console.h"

/* What a header in the place of stdint.h may lack. */
#ifndef SIZE_MAX
#define SIZE_MAX ((size_t)-1)
#endif

/* Where the registers are, and their bits. */
enum {
    UART_DATA = 0,
    UART_DLL = 0,
    UART_DLM = 1,
    UART_IER = 1,
    UART_FCR = 2,
    UART_ISR = 2,
    UART_LCR = 3,
    UART_MCR = 4,
    UART_LSR = 5,
    UART_MSR = 6,
    UART_SPR = 7,
    U16550_FCR_FIFO_ENABLE = 0x01,
    U16550_FCR_RX_FIFO_RESET = 0x02,
    U16550_FCR_TRIGGER_14 = 0xc0,
    U16550_FCR_TX_FIFO_RESET = 0x04,
    U16550_ISR_FIFOS_ENABLED = 0xc0,
    U16550_LCR_DLAB = 0x80,
    U16550_LCR_SET_BREAK = 0x40,
    U16550_LCR_8N1 = 0x03,
    U16550_LSR_DATA_READY = 0x01,
    U16550_LSR_LINE_ERRORS = 0x1e,
    U16550_LSR_THR_EMPTY = 0x20,
    U16550_LSR_TRANSMITTER_EMPTY = 0x40,
    U16550_MCR_DTR = 0x01,
    U16550_MCR_LOOP_BACK = 0x10,
    U16550_MCR_OUT_1 = 0x04,
    U16550_MCR_OUT_2_INT_ENABLE = 0x08,
    U16550_MCR_RTS = 0x02
};

/* Waits, and the FIFOs. */
enum {
    /* Of a 16550, in characters. */
    UART_FIFO_SIZE = 16,
    /* The number of characters in a full FIFO and the shift register. */
    UART_MOST_WAITING = 17
};

/* Is there a chip, and does it work. */
enum {
    /*
     * The patterns that are written to the scratch register. Where no chip is, a read returns
     * something too, often 0xff. A place that always returns the first pattern fails the second.
     */
    UART_FIRST_PATTERN = 0x42,
    UART_SECOND_PATTERN = 0x73,
    /* What the loopback test sends first. */
    UART_TEST_BYTE = 0x42
};

#ifdef U16550_CONSOLE_CONFIG
#include U16550_CONSOLE_CONFIG
#endif

#ifndef U16550_CONSOLE_POLLS
#define U16550_CONSOLE_POLLS 1000000
#endif
#ifndef U16550_CONSOLE_FREQUENCY
#define U16550_CONSOLE_FREQUENCY 1843200
#endif
#ifndef U16550_CONSOLE_BAUD_RATE
#define U16550_CONSOLE_BAUD_RATE 115200
#endif

/* The clock divided by 16 times the baud rate. A baud rate that has no whole divisor is refused. An int of 16 bits is less than that product. */
#ifndef U16550_CONSOLE_DIVISOR
#if U16550_CONSOLE_BAUD_RATE <= 0 || U16550_CONSOLE_FREQUENCY % (16UL * U16550_CONSOLE_BAUD_RATE) != 0
#error "no whole divisor gives U16550_CONSOLE_BAUD_RATE: define U16550_CONSOLE_DIVISOR"
#endif
#define U16550_CONSOLE_DIVISOR (U16550_CONSOLE_FREQUENCY / (16UL * U16550_CONSOLE_BAUD_RATE))
#endif
#if U16550_CONSOLE_DIVISOR < 1 || U16550_CONSOLE_DIVISOR > 65535
#error "the divisor does not fit its register"
#endif
/* The limit is counted in 32 bits. */
#if U16550_CONSOLE_POLLS < 1 || U16550_CONSOLE_POLLS > 4294967295
#error "U16550_CONSOLE_POLLS is 0, or has more than 32 bits"
#endif
#if defined(U16550_CONSOLE_READ) != defined(U16550_CONSOLE_WRITE)
#error "U16550_CONSOLE_READ and U16550_CONSOLE_WRITE are defined together"
#endif

#ifndef U16550_CONSOLE_READ
#ifndef U16550_CONSOLE_BASE
#error "define U16550_CONSOLE_BASE, or U16550_CONSOLE_READ(offset) and U16550_CONSOLE_WRITE(offset, value)"
#endif
#ifndef U16550_CONSOLE_WIDTH
#define U16550_CONSOLE_WIDTH 8
#endif
#ifndef U16550_CONSOLE_STRIDE
#define U16550_CONSOLE_STRIDE (U16550_CONSOLE_WIDTH / 8)
#endif
#if U16550_CONSOLE_STRIDE < U16550_CONSOLE_WIDTH / 8
#error "U16550_CONSOLE_STRIDE is less than a register has bytes"
#endif

/* What is before this in the text is done before what is behind it, as an interrupt handler of the same processor sees it. */
#if defined(__GNUC__)
#define UART_FENCE() __asm__ __volatile__("" : : : "memory")
#else
#define UART_FENCE() ((void)0)
#endif

/*
 * Makes the processor finish the accesses before this, to devices and to memory, before it begins those behind it, where its architecture
 * does not do so by itself. On x86 and on Arm accesses to one device are made in the order of the program, if its memory is mapped as a
 * device's. On the others the order depends on the memory's attributes, or a load may pass a store, and barriers of locks are not for
 * devices.
 */
#ifndef U16550_BARRIER
#if defined(__riscv)
#define U16550_BARRIER() __asm__ __volatile__("fence iorw, iorw" : : : "memory")
#elif defined(__loongarch__)
#define U16550_BARRIER() __asm__ __volatile__("dbar 0" : : : "memory")
#elif defined(__powerpc__) || defined(__PPC__)
#define U16550_BARRIER() __asm__ __volatile__("sync" : : : "memory")
#elif defined(__mips__)
#define U16550_BARRIER() __asm__ __volatile__(".set push\n\t.set mips2\n\tsync\n\t.set pop" : : : "memory")
#elif defined(__s390x__)
#define U16550_BARRIER() __asm__ __volatile__("bcr 15, 0" : : : "memory")
#elif defined(__i386__) || defined(__x86_64__) || defined(__arm__) || defined(__aarch64__) || defined(__AVR__) || defined(__MSP430__) || \
    defined(_M_IX86) || defined(_M_X64) || defined(__SDCC)
#define U16550_BARRIER() UART_FENCE()
#elif defined(__GNUC__)
#define U16550_BARRIER() __sync_synchronize()
#else
#error "define U16550_BARRIER() as what orders accesses to devices on this processor, or as ((void)0) if nothing is needed"
#endif
#endif

/*
 * One load and one store of a register, between barriers. On Arm they are instructions that a hypervisor can emulate: such as change no
 * address register. A compiler may make others of a volatile access.
 */
#if defined(__GNUC__) && defined(__aarch64__)
#define UART_LOAD(bits, name) __asm__ __volatile__(name " %w0, [%1]" : "=r"(loaded) : "r"(address) : "memory")
#define UART_STORE(bits, name) __asm__ __volatile__(name " %w0, [%1]" : : "r"(value), "r"(address) : "memory")
#elif defined(__GNUC__) && defined(__arm__)
#define UART_LOAD(bits, name) __asm__ __volatile__(name " %0, [%1]" : "=l"(loaded) : "l"(address) : "memory")
#define UART_STORE(bits, name) __asm__ __volatile__(name " %0, [%1]" : : "l"(value), "l"(address) : "memory")
#else
#define UART_LOAD(bits, name) (loaded = *(const volatile uint##bits##_t *)address)
#define UART_STORE(bits, name) (*(volatile uint##bits##_t *)address = (uint##bits##_t)value)
#endif
#define UART_WORD(bits, load, store)                                        \
    static inline uint32_t uart_load_##bits(uintptr_t address)              \
    {                                                                       \
        uint32_t loaded;                                                    \
        U16550_BARRIER();                                                   \
        UART_LOAD(bits, load);                                              \
        U16550_BARRIER();                                                   \
        return loaded;                                                      \
    }                                                                       \
    static inline void uart_store_##bits(uintptr_t address, uint32_t value) \
    {                                                                       \
        U16550_BARRIER();                                                   \
        UART_STORE(bits, store);                                            \
        U16550_BARRIER();                                                   \
    }
#if U16550_CONSOLE_WIDTH == 8
UART_WORD(8, "ldrb", "strb")
#define UART_LOAD_REGISTER uart_load_8
#define UART_STORE_REGISTER uart_store_8
#elif U16550_CONSOLE_WIDTH == 16
UART_WORD(16, "ldrh", "strh")
#define UART_LOAD_REGISTER uart_load_16
#define UART_STORE_REGISTER uart_store_16
#elif U16550_CONSOLE_WIDTH == 32
UART_WORD(32, "ldr", "str")
#define UART_LOAD_REGISTER uart_load_32
#define UART_STORE_REGISTER uart_store_32
#else
#error "U16550_CONSOLE_WIDTH is 8, 16 or 32"
#endif

static inline uintptr_t uart_place(uint8_t offset)
{
    return (uintptr_t)(U16550_CONSOLE_BASE) + (uintptr_t)((uintptr_t)offset * U16550_CONSOLE_STRIDE);
}
#define U16550_CONSOLE_READ(offset) ((uint8_t)UART_LOAD_REGISTER(uart_place(offset)))
#define U16550_CONSOLE_WRITE(offset, value) UART_STORE_REGISTER(uart_place(offset), value)
#endif

static inline uint8_t uart_device_read(uint8_t offset)
{
    return U16550_CONSOLE_READ(offset);
}

static inline void uart_device_write(uint8_t offset, uint8_t value)
{
    U16550_CONSOLE_WRITE(offset, value);
}

struct uart_latch {
    uint8_t dll;
    uint8_t dlm;
};

struct uart_bytes16 {
    uint8_t bytes[16];
};

struct uart_bytes3 {
    uint8_t bytes[3];
};

/* The bytes of one expansion, at most three. */
struct uart_expansion {
    struct uart_bytes3 text;
    size_t len;
};

/* Copies so many bytes between two places that do not overlap. */
static inline void uart_copy_bytes(uint8_t *to, const uint8_t *from, size_t count)
{
    for (size_t i = 0; i < count; i++)
        to[i] = from[i];
}

/* Sets so many bytes to one value. */
static inline void uart_fill_bytes(uint8_t *to, uint8_t value, size_t count)
{
    for (size_t i = 0; i < count; i++)
        to[i] = value;
}

/* Returns whether so many bytes are the same. */
static inline bool uart_same_bytes(const uint8_t *one, const uint8_t *other, size_t count)
{
    for (size_t i = 0; i < count; i++) {
        if (one[i] != other[i])
            return false;
    }
    return true;
}

static const uint8_t uart_test_message[16] =
    { 'h', 'e', 'l', 'l', 'o', ' ', 'w', 'o', 'r', 'l', 'd', '!', '1', '3', '3', '7' };

static const uint8_t uart_erase_text[3] = { '\b', ' ', '\b' };

static const uint8_t uart_newline_text[3] = { '\r', '\n', 0 };

/*
 * Writes a pattern to the scratch register, and returns whether it reads back.
 *
 * Proved: the scratch register is written with a pattern and keeps it, or not.
 */
static inline bool uart_keeps(uint8_t pattern)
{
    uart_device_write(UART_SPR, pattern);
    return uart_device_read(UART_SPR) == pattern;
}

/*
 * Proved: the first pattern is written and, if it is kept, the second; the result is whether both
 * were kept.
 */
static inline bool uart_keeps_patterns(void)
{
    return uart_keeps(UART_FIRST_PATTERN) && uart_keeps(UART_SECOND_PATTERN);
}

/*
 * Returns whether a device is present: whether its scratch register (SPR) keeps what is written to
 * it.
 *
 * Reads SPR, writes a pattern and reads it back, tries a second pattern if the first was kept, and
 * restores SPR. Nothing else changes in the chip. Does not wait: makes 4 or 6 accesses.
 * u16550_console_init makes the same check.
 *
 * Proved: the scratch register is read, tested with the patterns, and restored.
 */
static inline bool uart_check_present(void)
{
    uint8_t old = uart_device_read(UART_SPR);
    bool present = uart_keeps_patterns();
    uart_device_write(UART_SPR, old);
    return present;
}

/*
 * Turns interrupts off, and sets the divisor and the frame. A character that is going out has the
 * new ones from then on, so the remote gets it corrupted.
 */
static void uart_set_line(uint16_t divisor, uint8_t frame)
{
    /* DLAB may still be set from before. Then the write of IER would go to the divisor. */
    uart_device_write(UART_LCR, 0);
    /*
     * No interrupt comes from here on: a handler could reach neither data nor IER while DLAB is
     * set.
     */
    uart_device_write(UART_IER, 0);
    uart_device_write(UART_LCR, U16550_LCR_DLAB);
    uart_device_write(UART_DLL, (uint8_t)divisor);
    uart_device_write(UART_DLM, (uint8_t)(divisor >> 8));
    /*
     * The frame clears DLAB too. This write stays, since each access is one that the crate
     * uart_16550 in Rust makes.
     */
    uart_device_write(UART_LCR, 0);
    uart_device_write(UART_LCR, frame);
}

/* Returns whether the FIFOs are on and work: bits 6 and 7 are both set then. */
static inline bool uart_isr_fifo_enabled(uint8_t isr)
{
    return (isr & U16550_ISR_FIFOS_ENABLED) == U16550_ISR_FIFOS_ENABLED;
}

/*
 * Resets the FIFOs, enables them, and returns whether they are on then.
 *
 * Proved: FCR is written, and ISR shows whether the FIFO is on.
 */
static inline bool uart_set_fifo(void)
{
    uart_device_write(UART_FCR,
        U16550_FCR_RX_FIFO_RESET | U16550_FCR_TX_FIFO_RESET | U16550_FCR_FIFO_ENABLE |
        U16550_FCR_TRIGGER_14);
    return uart_isr_fifo_enabled(uart_device_read(UART_ISR));
}

/*
 * Discards received bytes until none is available, at most 17, as many as a 16550 holds. More are
 * not discarded: a remote that never stops sending must not hold u16550_console_init for ever.
 * What the reads clear is not saved, since those errors are of bytes that nobody gets.
 *
 * Proved: received bytes are discarded until none is available, or until there were 17.
 */
static inline void uart_drain(void)
{
    for (uint32_t turn = 0; turn < UART_MOST_WAITING; turn++) {
        if ((uart_device_read(UART_LSR) & U16550_LSR_DATA_READY) == 0)
            return;
        uart_device_read(UART_DATA);
    }
}

/* Reads LSR, and saves the errors that the read clears in the chip. */
static inline uint8_t uart_read_lsr(struct u16550_console *uart)
{
    uint8_t lsr = uart_device_read(UART_LSR);
    uart->saved_lsr |= lsr & U16550_LSR_LINE_ERRORS;
    return lsr;
}

/*
 * Polls LSR until it shows these bits, or until the limit. Each call counts anew: the polls that
 * count are those in a row.
 *
 * Proved: a wait for these bits of LSR: fewer reads without them than the limit and then one with
 * them; or as many without them.
 */
static inline bool uart_wait_for(struct u16550_console *uart, uint8_t bits)
{
    for (uint32_t turn = 0; turn < U16550_CONSOLE_POLLS; turn++) {
        if ((uart_read_lsr(uart) & bits) == bits)
            return true;
    }
    return false;
}

/*
 * Reads the statuses without saving them, and enables no interrupt.
 *
 * Proved: the statuses are read without being saved, and 0 is written to IER.
 */
static inline void uart_finish_init(struct u16550_console *uart)
{
    /*
     * These reads clear what is left over: errors, changes of modem lines and a pending
     * THR_EMPTY. Some arise in u16550_console_init itself: the write of MCR may have ended a
     * loopback, and that changes modem lines.
     */
    uart_device_read(UART_LSR);
    uart_device_read(UART_ISR);
    uart_device_read(UART_MSR);
    uart->saved_lsr = 0;
    uart_device_write(UART_IER, 0);
}

/*
 * Initialises the device with this divisor.
 *
 * Proved: the scratch register is tested, divisor, frame and FIFO are set, the receiver is
 * drained, and MCR is written; after a wait for an empty transmitter the statuses are read, and
 * IER is written. Or all is done up to the test that fails, or to the wait that reaches the limit.
 */
static int uart_set_up(struct u16550_console *uart, uint16_t divisor)
{
    if (!uart_check_present())
        return U16550_CONSOLE_DEVICE_NOT_PRESENT;
    uart_set_line(divisor, U16550_LCR_8N1);
    uart->fifo_enabled = uart_set_fifo();
    /*
     * FCR has emptied a FIFO. Without FIFO its reset does nothing, and an old byte would be the
     * first of the new session. The old bytes must be gone before MCR is written: DTR and RTS
     * tell the remote that we are ready, and what the remote sends then is not to be discarded.
     */
    uart_drain();
    /* OUT2 is for who enables interrupts later: on a PC it opens the gate of their line. */
    uart_device_write(UART_MCR,
        U16550_MCR_DTR | U16550_MCR_RTS | U16550_MCR_OUT_2_INT_ENABLE);
    /*
     * If the wait stalls, what its polls have cleared stays saved. The drain saved nothing, and
     * the saved bits are reset only at the end.
     */
    if (!uart_wait_for(uart, U16550_LSR_TRANSMITTER_EMPTY))
        return U16550_CONSOLE_INIT_STALLED;
    uart_finish_init(uart);
    return U16550_CONSOLE_OK;
}

/*
 * Reads and returns the divisor latch, low byte first.
 *
 * Sets DLAB in LCR for the two reads, and then writes LCR back. In between offsets 0 and 1 are the
 * latch, so nothing else may access the chip: neither data nor IER can be reached.
 *
 * Proved: LCR is read, and written with DLAB; the divisor latch is read, its low byte first; and
 * LCR is written back.
 */
static void uart_dll_dlm(struct uart_latch *latch)
{
    uint8_t lcr = uart_device_read(UART_LCR);
    uart_device_write(UART_LCR, lcr | U16550_LCR_DLAB);
    uint8_t dll = uart_device_read(UART_DLL);
    uint8_t dlm = uart_device_read(UART_DLM);
    uart_device_write(UART_LCR, lcr);
    latch->dll = dll;
    latch->dlm = dlm;
}

/*
 * Takes a port as it was set up, for example by firmware, in place of u16550_console_init: finds
 * out whether the FIFOs are on, and returns the divisor latch, low byte first. It is not 0.
 *
 * Reads LCR and MCR, then the divisor latch as uart_dll_dlm does, which writes LCR and restores
 * it, and then ISR. Nothing else is written. The read of ISR acknowledges a THR_EMPTY interrupt.
 * Afterwards fifo_enabled is as ISR showed.
 *
 * Errors
 *
 * - U16550_CONSOLE_DIVISOR_LATCH_OPEN if DLAB is set.
 * - U16550_CONSOLE_LOOPBACK if DLAB is clear, and the chip is in loopback.
 * - U16550_CONSOLE_NO_DIVISOR if neither is so, and the divisor latch reads as 0: no port is set
 *   up there, or there is none. So a bus where all registers read as 0 is refused.
 *
 * ISR was not read then, so no interrupt was acknowledged, and the driver is unchanged. For the
 * first two only LCR and MCR were read, and nothing was written. For U16550_CONSOLE_NO_DIVISOR
 * DLAB was set for the look at the latch, and LCR written back.
 *
 * Proved: LCR shows that DLAB is off, MCR that loopback is off, the divisor latch a divisor, and
 * ISR whether the FIFOs are on, which the driver takes them to be; or these are read up to the one
 * that the error is about, and the driver stays as it was.
 */
static int uart_attach(struct u16550_console *uart, struct uart_latch *latch)
{
    /*
     * LCR comes first, since its DLAB says what other offsets are: on later chips some of its
     * values show further registers in place of MCR and ISR. ISR comes last, after the latch
     * too, since its read may acknowledge an interrupt, and a refusal is to change nothing.
     */
    if ((uart_device_read(UART_LCR) & U16550_LCR_DLAB) != 0)
        return U16550_CONSOLE_DIVISOR_LATCH_OPEN;
    if ((uart_device_read(UART_MCR) & U16550_MCR_LOOP_BACK) != 0)
        return U16550_CONSOLE_LOOPBACK;
    struct uart_latch shown;
    uart_dll_dlm(&shown);
    /* No port is set up so, and where nothing answers all registers may read as 0. */
    if (shown.dll == 0 && shown.dlm == 0)
        return U16550_CONSOLE_NO_DIVISOR;
    uart->fifo_enabled = uart_isr_fifo_enabled(uart_device_read(UART_ISR));
    *latch = shown;
    return U16550_CONSOLE_OK;
}

/*
 * Reads the modem lines, and sets the device to loopback with interrupts off, and resets the
 * FIFOs.
 *
 * Proved: MSR is read, interrupts are switched off, loopback is switched on, and FCR is written,
 * and ISR shows whether the FIFO is on.
 */
static inline uint8_t uart_enter_loopback(struct u16550_console *uart)
{
    uint8_t before = uart_device_read(UART_MSR);
    /*
     * Loopback connects the modem's inputs to the outputs: the changes from before are cleared
     * here. A handler would take the bytes that come back.
     */
    uart_device_write(UART_IER, 0);
    uart_device_write(UART_MCR, U16550_MCR_LOOP_BACK);
    /* Bytes that were received before are gone after the reset. */
    uart->fifo_enabled = uart_set_fifo();
    return before;
}

/*
 * Checks whether a received byte is available: whether LSR shows DATA_READY.
 *
 * Does not wait: reads LSR once. The error bits that this clears are saved for the next
 * u16550_console_lsr.
 *
 * Returns false if no byte is available.
 *
 * Proved: one read of LSR, which shows a received byte exactly if the result is true.
 */
static inline bool uart_ready_to_receive(struct u16550_console *uart)
{
    return (uart_read_lsr(uart) & U16550_LSR_DATA_READY) != 0;
}

/*
 * Receives one byte if one is available: reads LSR, and if it shows DATA_READY, RBR.
 *
 * Does not wait. The error bits that the read of LSR clears are saved for the next
 * u16550_console_lsr; they belong to the byte that is then received, except for an overrun.
 *
 * Returns false if no byte is available. RBR was not read then.
 *
 * Proved: LSR shows a received byte, which is read from DATA and returned; or LSR shows none.
 */
static inline bool uart_try_receive_byte(struct u16550_console *uart, uint8_t *byte)
{
    if (!uart_ready_to_receive(uart))
        return false;
    *byte = uart_device_read(UART_DATA);
    return true;
}

/*
 * Discards received bytes until none is available: a byte from before the test would be taken for
 * the first that returns. Returns false after as many bytes as the spin limit, right after the
 * last of them. So with a limit of 1 one byte is too many, even if none is behind it.
 *
 * Proved: bytes that were received before the test are taken until none is available; or as many
 * as the limit were taken.
 */
static inline bool uart_drain_received(struct u16550_console *uart)
{
    for (uint32_t turn = 0; turn < U16550_CONSOLE_POLLS; turn++) {
        uint8_t byte;
        if (!uart_try_receive_byte(uart, &byte))
            return true;
    }
    return false;
}

/*
 * Checks whether a byte can be sent now: whether LSR shows THR_EMPTY.
 *
 * Does not wait: reads LSR once. The errors that this clears are saved for the next
 * u16550_console_lsr.
 *
 * Errors
 *
 * - U16550_CONSOLE_NO_CAPACITY if THR, or the transmitter FIFO, is not empty.
 *
 * Proved: one send check: LSR shows THR_EMPTY, or does not.
 */
static inline int uart_ready_to_send(struct u16550_console *uart)
{
    if ((uart_read_lsr(uart) & U16550_LSR_THR_EMPTY) == 0)
        return U16550_CONSOLE_NO_CAPACITY;
    return U16550_CONSOLE_OK;
}

/*
 * Sends one byte if there is room: makes one check as uart_ready_to_send, and one write to THR.
 *
 * Does not wait.
 *
 * Errors
 *
 * U16550_CONSOLE_NO_CAPACITY if the byte was not sent, whatever the cause.
 *
 * Proved: the accesses of u16550_send_bytes for this one byte, which is sent exactly if the result
 * is U16550_CONSOLE_OK; the only error is U16550_CONSOLE_NO_CAPACITY.
 */
static inline int uart_try_send_byte(struct u16550_console *uart, uint8_t byte)
{
    if (uart_ready_to_send(uart) != U16550_CONSOLE_OK)
        return U16550_CONSOLE_NO_CAPACITY;
    uart_device_write(UART_DATA, byte);
    return U16550_CONSOLE_OK;
}

/*
 * Waits for one byte. The first poll mostly finds one, and so stands before the loop.
 *
 * Proved: a wait for one byte: it was received, or there were as many misses as the limit.
 */
static inline bool uart_receive_one(struct u16550_console *uart, uint8_t *byte)
{
    if (uart_try_receive_byte(uart, byte))
        return true;
    for (uint32_t turn = 1; turn < U16550_CONSOLE_POLLS; turn++) {
        if (uart_try_receive_byte(uart, byte))
            return true;
    }
    return false;
}

/*
 * Sends the test byte, and compares what returns.
 *
 * Proved: the test byte: it is sent and comes back; or it is not sent; or the wait for it is
 * unsuccessful; or another byte comes back.
 */
static int uart_exchange_byte(struct u16550_console *uart)
{
    if (uart_try_send_byte(uart, UART_TEST_BYTE) != U16550_CONSOLE_OK)
        return U16550_CONSOLE_LOOPBACK_NO_CAPACITY;
    uint8_t byte;
    if (!uart_receive_one(uart, &byte))
        return U16550_CONSOLE_LOOPBACK_STALLED;
    if (byte != UART_TEST_BYTE)
        return U16550_CONSOLE_LOOPBACK_UNEXPECTED_BYTE;
    return U16550_CONSOLE_OK;
}

/*
 * Waits until bytes may be written. It is apart from the write, so that each loop that sends has
 * one copy of the wait, which a compiler inlines.
 *
 * Proved: a wait for room: a check succeeded after fewer misses in a row than the limit, or there
 * were as many misses.
 */
static inline bool uart_wait_to_send(struct u16550_console *uart)
{
    for (uint32_t check = 0; check < U16550_CONSOLE_POLLS; check++) {
        if (uart_ready_to_send(uart) == U16550_CONSOLE_OK)
            return true;
    }
    return false;
}

/* Writes the bytes to DATA in order. */
static inline void uart_write_data(const uint8_t *bytes, size_t bytes_len)
{
    for (size_t i = 0; i < bytes_len; i++)
        uart_device_write(UART_DATA, bytes[i]);
}

/* Writes bytes from the front to DATA, at most so many, and returns how many. */
static inline size_t uart_write_up_to(size_t limit, const uint8_t *bytes, size_t bytes_len)
{
    size_t count = limit < bytes_len ? limit : bytes_len;
    uart_write_data(bytes, count);
    return count;
}

/*
 * Writes one burst from the front to DATA, and returns its length: as many bytes as certainly fit.
 * LSR shows whether the FIFO is empty, and no register shows how full it is. One byte more could
 * be lost, and nothing would tell.
 *
 * A whole burst of 16, the size of most chips, is apart, since its length is known to the
 * compiler: it then counts no bytes.
 */
static size_t
uart_write_burst(struct u16550_console *uart, const uint8_t *bytes, size_t bytes_len)
{
    if (!uart->fifo_enabled) {
        uart_device_write(UART_DATA, bytes[0]);
        return 1;
    }
    if (bytes_len >= UART_FIFO_SIZE) {
        uart_write_data(bytes, UART_FIFO_SIZE);
        return UART_FIFO_SIZE;
    }
    return uart_write_up_to(UART_FIFO_SIZE, bytes, bytes_len);
}

/*
 * Waits until a burst was sent, and returns its length.
 *
 * Proved: a wait for one burst: *count bytes from the front were sent, or there were as many
 * misses as the limit.
 */
static inline bool
uart_send_some(struct u16550_console *uart, const uint8_t *bytes, size_t bytes_len,
    size_t *count)
{
    if (!uart_wait_to_send(uart))
        return false;
    *count = uart_write_burst(uart, bytes, bytes_len);
    return true;
}

/*
 * Sends all of the bytes, and waits for room before each burst: of up to as many bytes as the FIFO
 * holds if it is on, else of one.
 *
 * Each wait makes at most U16550_CONSOLE_POLLS checks as uart_ready_to_send. It returns when the
 * last burst is in THR or the FIFO. An empty array makes no access.
 *
 * Errors
 *
 * U16550_CONSOLE_STALLED after U16550_CONSOLE_POLLS unsuccessful checks in a row: the chip is
 * slower than the limit allows. The first *stalled_at bytes were written to the chip.
 *
 * Proved: all bytes, burst by burst, each burst after its own wait; or those before the burst
 * whose wait reaches the limit, as many as *stalled_at says.
 */
static int
uart_send_bytes_exact(struct u16550_console *uart, const uint8_t *bytes, size_t bytes_len,
    size_t *stalled_at)
{
    size_t done = 0;
    /* Without FIFO each burst is one byte, which needs no loop of its own. */
    while (done < bytes_len) {
        size_t count;
        if (!uart_send_some(uart, &bytes[done], bytes_len - done, &count)) {
            *stalled_at = done;
            return U16550_CONSOLE_STALLED;
        }
        done += count;
    }
    return U16550_CONSOLE_OK;
}

/*
 * Receives a byte into each slot, and waits for each.
 *
 * Each wait makes at most U16550_CONSOLE_POLLS polls of LSR. Error bits are saved for the next
 * u16550_console_lsr, and do not end the call. An empty array makes no access. If the chip is
 * gone, bytes of FF are received.
 *
 * Errors
 *
 * U16550_CONSOLE_STALLED after U16550_CONSOLE_POLLS unsuccessful polls in a row: the remote sent
 * nothing for so long. The first *stalled_at slots have the bytes that were received, and the
 * other slots are unchanged.
 *
 * Proved: the slots are filled, each after its own wait; or those before the one whose wait
 * reaches the limit, as many as *stalled_at says.
 */
static int
uart_receive_bytes_exact(struct u16550_console *uart, uint8_t *buffer, size_t buffer_len,
    size_t *stalled_at)
{
    for (size_t done = 0; done < buffer_len; done++) {
        uint8_t byte;
        if (!uart_receive_one(uart, &byte)) {
            *stalled_at = done;
            return U16550_CONSOLE_STALLED;
        }
        buffer[done] = byte;
    }
    return U16550_CONSOLE_OK;
}

/*
 * Sends the whole test message, and then receives it. A FIFO has room for all of it.
 *
 * Proved: what came back for these bytes, or nothing if a wait was unsuccessful, with a FIFO and
 * without; the one of the two that fits.
 */
static inline bool uart_echo_whole(struct u16550_console *uart, struct uart_bytes16 *actual)
{
    size_t stalled_at;
    if (uart_send_bytes_exact(uart, uart_test_message, 16, &stalled_at) != U16550_CONSOLE_OK)
        return false;
    uart_fill_bytes(actual->bytes, 0, 16);
    return uart_receive_bytes_exact(uart, actual->bytes, 16, &stalled_at) == U16550_CONSOLE_OK;
}

/*
 * Sends a byte, and waits for the byte that returns. On a real chip it returns after the time of a
 * character, and not at once.
 *
 * Proved: what came back for a byte, or nothing if a wait was unsuccessful.
 */
static inline bool uart_echo(struct u16550_console *uart, uint8_t byte, uint8_t *echoed)
{
    size_t count;
    return uart_send_some(uart, &byte, 1, &count) && uart_receive_one(uart, echoed);
}

/*
 * Sends the test message byte by byte, and waits for each to return. Without FIFO the receiver has
 * room for one character, and the next would replace it.
 */
static bool uart_echo_each(struct u16550_console *uart, struct uart_bytes16 *actual)
{
    uart_fill_bytes(actual->bytes, 0, 16);
    for (size_t i = 0; i < 16; i++) {
        uint8_t byte;
        if (!uart_echo(uart, uart_test_message[i], &byte))
            return false;
        actual->bytes[i] = byte;
    }
    return true;
}

/* Sends and receives the test message: as a whole if the FIFO is on, else byte by byte. */
static inline bool uart_echo_message(struct u16550_console *uart, struct uart_bytes16 *actual)
{
    if (uart->fifo_enabled)
        return uart_echo_whole(uart, actual);
    return uart_echo_each(uart, actual);
}

/*
 * Sends the test message, and compares what returns.
 *
 * Proved: the test message: sent and received; or a wait that reaches the limit; or other bytes
 * received.
 */
static inline int uart_exchange_message(struct u16550_console *uart)
{
    struct uart_bytes16 actual;
    if (!uart_echo_message(uart, &actual))
        return U16550_CONSOLE_LOOPBACK_STALLED;
    if (!uart_same_bytes(actual.bytes, uart_test_message, 16))
        return U16550_CONSOLE_LOOPBACK_UNEXPECTED_MSG;
    return U16550_CONSOLE_OK;
}

/*
 * Makes the test itself, while the device is in loopback.
 *
 * Proved: in loopback: bytes from before the test taken, the byte, the message, up to the first
 * error.
 */
static inline int uart_exchange(struct u16550_console *uart)
{
    if (!uart_drain_received(uart))
        return U16550_CONSOLE_LOOPBACK_STALLED;
    int error = uart_exchange_byte(uart);
    if (error != U16550_CONSOLE_OK)
        return error;
    return uart_exchange_message(uart);
}

/*
 * Leaves loopback, restores MCR and IER, and reads MSR, so that no change of the lines which is
 * due to the test stays.
 *
 * Proved: loopback is left, MCR and IER are restored, MSR is read, and the saved errors are those
 * noted before.
 */
static inline void
uart_leave_loopback(struct u16550_console *uart, uint8_t mcr, uint8_t ier, uint8_t noted)
{
    /*
     * The inputs are the modem's lines again. Those that are set change by that, which is a
     * modem status interrupt. OUT2 stays clear until the read of MSR has cleared it, and IER is
     * still 0. Otherwise the interrupt line would rise for a moment, and a controller that
     * detects edges would call the handler for nothing.
     */
    uart_device_write(UART_MCR, mcr & (uint8_t)~U16550_MCR_OUT_2_INT_ENABLE);
    /* The change bits that this read clears tell what the test did. */
    uart_device_read(UART_MSR);
    uart_device_write(UART_MCR, mcr);
    uart_device_write(UART_IER, ier);
    /* Errors in loopback are those of the test's bytes, or of bytes that it has discarded. */
    uart->saved_lsr = noted;
}

/*
 * Tests whether bytes that are sent return while the device is in loopback: first one byte, and
 * then a message of 16.
 *
 * Call it after u16550_console_init, to find out whether the chip works. Send nothing else while
 * it runs. In loopback the chip connects its transmitter to its receiver, and nothing goes out on
 * the line. For a device without loopback do not call it.
 *
 * Waits until the transmitter is empty, and then for each byte, at most U16550_CONSOLE_POLLS polls
 * each time. Received bytes and error bits that are found in loopback are discarded; error bits
 * that were saved before it stay saved. The FIFOs are reset and set up again, and fifo_enabled is
 * read again. Afterwards MCR and IER are as before, also on a chip that was in loopback already.
 *
 * Whole bytes are compared.
 *
 * Errors
 *
 * - U16550_CONSOLE_LOOPBACK_STALLED after U16550_CONSOLE_POLLS unsuccessful polls in a row. If the
 *   first wait failed, nothing was written, and what the polls cleared is saved. Later a test byte
 *   may still be in the transmitter, and is then sent after the test.
 * - U16550_CONSOLE_LOOPBACK_NO_CAPACITY if the device does not accept the test byte.
 * - U16550_CONSOLE_LOOPBACK_UNEXPECTED_BYTE, U16550_CONSOLE_LOOPBACK_UNEXPECTED_MSG if other bytes
 *   return.
 *
 * Except for the first wait, MCR and IER are restored before the error is returned.
 *
 * Proved: MCR and IER are read, and there is a wait for an empty transmitter. If it reaches the
 * limit, nothing is written, and the result is a stall; else loopback is entered, bytes are
 * exchanged up to the first error, and MCR and IER are restored.
 */
static int uart_test_loopback(struct u16550_console *uart)
{
    uint8_t mcr = uart_device_read(UART_MCR);
    uint8_t ier = uart_device_read(UART_IER);
    /*
     * A byte that is still to go out would come back among those of the test, and would never
     * reach the remote.
     */
    if (!uart_wait_for(uart, U16550_LSR_TRANSMITTER_EMPTY))
        return U16550_CONSOLE_LOOPBACK_STALLED;
    uint8_t noted = uart->saved_lsr;
    uart_enter_loopback(uart);
    int outcome = uart_exchange(uart);
    uart_leave_loopback(uart, mcr, ier, noted);
    return outcome;
}

/*
 * Reads the line status register (LSR). Returns it joined with the error bits that earlier reads
 * by this driver cleared in the chip, and that are saved. Afterwards no error bits of LSR are
 * saved.
 *
 * Call it to find out whether received bytes had errors or were lost. Does not wait. The result
 * has bit 7 too, an error somewhere in the FIFO, which is not saved.
 *
 * Proved: one read of LSR, which is returned joined with the saved bits, of which none are left.
 */
static inline uint8_t uart_lsr(struct u16550_console *uart)
{
    uint8_t lsr = uart_read_lsr(uart);
    uint8_t saved_lsr = uart->saved_lsr;
    uart->saved_lsr = 0;
    return lsr | saved_lsr;
}

/*
 * Writes MCR: the outputs to the modem are as these bits say, and loopback is off.
 *
 * OUT_2_INT_ENABLE gates the interrupt line on a PC, and u16550_console_init sets it. So leave it
 * in the bits if interrupts are used.
 *
 * Proved: these bits are written to MCR, without loopback.
 */
static inline void uart_set_modem_control(uint8_t outputs)
{
    /*
     * In loopback the outputs are inactive at the pins, whatever MCR has, so the remote would
     * not see what was asked for. The driver itself never leaves the chip in loopback.
     */
    uart_device_write(UART_MCR, outputs & (uint8_t)~U16550_MCR_LOOP_BACK);
}

/*
 * Waits for room, and sends a byte.
 *
 * Proved: a wait for room, and then the byte is written; or as many misses as the limit.
 */
static inline int uart_send_one(struct u16550_console *uart, uint8_t byte)
{
    if (!uart_wait_to_send(uart))
        return U16550_CONSOLE_STALLED;
    uart_device_write(UART_DATA, byte);
    return U16550_CONSOLE_OK;
}

/* Returns what is sent for a byte of a text. */
static void uart_tty_expand(uint8_t byte, struct uart_expansion *expansion)
{
    switch (byte) {
    case '\b':
    case 0x7f:
        uart_copy_bytes(expansion->text.bytes, uart_erase_text, 3);
        expansion->len = 3;
        return;
    case '\n':
        uart_copy_bytes(expansion->text.bytes, uart_newline_text, 3);
        expansion->len = 2;
        return;
    default:
        expansion->text.bytes[0] = byte;
        expansion->text.bytes[1] = 0;
        expansion->text.bytes[2] = 0;
        expansion->len = 1;
        return;
    }
}

/*
 * Sends the bytes one by one, and waits for room before each.
 *
 * Proved: these bytes, one by one: all of them, or a beginning.
 */
static int
uart_send_singly(struct u16550_console *uart, const uint8_t *bytes, size_t bytes_len,
    size_t *stalled_at)
{
    for (size_t done = 0; done < bytes_len; done++) {
        uint8_t byte = bytes[done];
        if (!uart_wait_to_send(uart)) {
            *stalled_at = done;
            return U16550_CONSOLE_STALLED;
        }
        uart_device_write(UART_DATA, byte);
    }
    return U16550_CONSOLE_OK;
}

/*
 * Sends the expansion of a byte, and returns its length. Printable bytes have a branch of their
 * own, since most bytes of a text are printable, and that branch is short.
 *
 * Proved: these bytes, one by one: all of them, or a beginning.
 */
static int
uart_tty_send_expansion(struct u16550_console *uart, uint8_t byte, size_t *count, size_t *stalled_at)
{
    if (byte >= ' ' && byte < 0x7f) {
        if (uart_send_one(uart, byte) != U16550_CONSOLE_OK) {
            *stalled_at = 0;
            return U16550_CONSOLE_STALLED;
        }
        *count = 1;
        return U16550_CONSOLE_OK;
    }
    struct uart_expansion expansion;
    uart_tty_expand(byte, &expansion);
    if (uart_send_singly(uart, expansion.text.bytes, expansion.len,
        stalled_at) != U16550_CONSOLE_OK) {
        return U16550_CONSOLE_STALLED;
    }
    *count = expansion.len;
    return U16550_CONSOLE_OK;
}

/*
 * Sends the expansion of text that need not be UTF-8, as u16550_console_write_text does.
 *
 * This is for a console that passes on what others write, as the messages of a log in an older
 * code.
 *
 * Errors
 *
 * Those of u16550_console_write_text.
 *
 * Proved: the expansion of the text, byte by byte, each after its own wait; or a beginning of it,
 * as long as *stalled_at says, at most SIZE_MAX, and then a wait that reaches the limit.
 */
static int
uart_tty_write_raw_text(struct u16550_console *uart, const uint8_t *text, size_t text_len,
    size_t *stalled_at)
{
    size_t done = 0;
    /*
     * An expansion may be three times as long as its text. So its length need not fit into a
     * size_t, and the count of a stall ends at the largest one.
     */
    for (size_t i = 0; i < text_len; i++) {
        size_t count;
        size_t sent;
        if (uart_tty_send_expansion(uart, text[i], &count, &sent) != U16550_CONSOLE_OK) {
            *stalled_at = done <= SIZE_MAX - sent ? done + sent : SIZE_MAX;
            return U16550_CONSOLE_STALLED;
        }
        done = done <= SIZE_MAX - count ? done + count : SIZE_MAX;
    }
    return U16550_CONSOLE_OK;
}

/* ---- the functions of the header, by hand: errors as numbers */

int u16550_console_init(struct u16550_console *uart)
{
    return uart_set_up(uart, U16550_CONSOLE_DIVISOR);
}

int u16550_console_attach(struct u16550_console *uart)
{
    struct uart_latch latch;
    return uart_attach(uart, &latch);
}

int u16550_console_test_loopback(struct u16550_console *uart)
{
    return uart_test_loopback(uart);
}

int u16550_console_put(struct u16550_console *uart, uint8_t byte)
{
    return uart_send_one(uart, byte);
}

int u16550_console_try_put(struct u16550_console *uart, uint8_t byte)
{
    return uart_try_send_byte(uart, byte);
}

int u16550_console_get(struct u16550_console *uart)
{
    uint8_t byte;
    if (!uart_try_receive_byte(uart, &byte))
        return -1;
    /* Not by `?`, of which SDCC 4.2 makes a byte with a sign. */
    return byte;
}

size_t u16550_console_send(struct u16550_console *uart, const uint8_t *bytes, size_t len)
{
    size_t done;
    return uart_send_bytes_exact(uart, bytes, len, &done) == U16550_CONSOLE_OK ? len : done;
}

int u16550_console_write_text(struct u16550_console *uart, const char *text, size_t len)
{
    size_t done;
    return uart_tty_write_raw_text(uart, (const uint8_t *)text, len, &done);
}

int u16550_console_emergency(struct u16550_console *uart)
{
    const uint8_t blocking = U16550_LCR_DLAB | U16550_LCR_SET_BREAK;
    uint8_t lcr = uart_device_read(UART_LCR);
    uint8_t kept;
    /* A UART of DesignWare takes no new LCR while it is busy. */
    for (uint32_t writes = 0; writes < U16550_CONSOLE_POLLS && (lcr & blocking) != 0; writes++) {
        uart_device_write(UART_LCR, (uint8_t)(lcr & ~blocking));
        lcr = uart_device_read(UART_LCR);
    }
    if ((lcr & blocking) != 0)
        return U16550_CONSOLE_DIVISOR_LATCH_OPEN;
    uart_device_write(UART_IER, 0);
    /* The other outputs stay: loopback and a flow control by the chip would hold text back. */
    kept = uart_device_read(UART_MCR) & (U16550_MCR_OUT_1 | U16550_MCR_OUT_2_INT_ENABLE);
    uart_set_modem_control(kept | U16550_MCR_DTR | U16550_MCR_RTS);
    if ((uart_device_read(UART_MCR) & U16550_MCR_LOOP_BACK) != 0)
        return U16550_CONSOLE_LOOPBACK;
    /* Nobody knows whether the FIFOs are on. If they are off, the second byte of a burst would be lost. */
    uart->fifo_enabled = false;
    uart->saved_lsr = 0;
    return U16550_CONSOLE_OK;
}

uint8_t u16550_console_lsr(struct u16550_console *uart)
{
    return uart_lsr(uart);
}

/*
 * Where code is to be small, gcc for PowerPC saves registers and returns by functions of its own library. A program that is linked without
 * that library has them here. One that has them, as kernels do, takes its own. Two files that are compiled as one have them once.
 */
#if defined(__powerpc__) && !defined(__powerpc64__) && defined(__ELF__) && defined(__OPTIMIZE_SIZE__) && !defined(__clang__)
#define UART_CALLERS_REGISTERS "14, 15, 16, 17, 18, 19, 20, 21, 22, 23, 24, 25, 26, 27, 28, 29, 30, 31"
__asm__(".ifndef _restgpr_14_x\n"
        ".pushsection .text.uart_restore, \"ax\", @progbits\n"
        ".irp number, " UART_CALLERS_REGISTERS "\n"
        ".weak _restgpr_\\number\\()_x\n"
        ".hidden _restgpr_\\number\\()_x\n"
        "_restgpr_\\number\\()_x: lwz \\number, 4 * (\\number - 32)(11)\n"
        ".endr\n"
        "lwz 0, 4(11)\n"
        "mtlr 0\n"
        "mr 1, 11\n"
        "blr\n"
        ".popsection\n"
        ".endif\n"
        ".ifndef _savegpr_14\n"
        ".pushsection .text.uart_save, \"ax\", @progbits\n"
        ".irp number, " UART_CALLERS_REGISTERS "\n"
        ".weak _savegpr_\\number\n"
        ".hidden _savegpr_\\number\n"
        "_savegpr_\\number: stw \\number, 4 * (\\number - 32)(11)\n"
        ".endr\n"
        "blr\n"
        ".popsection\n"
        ".endif\n");
#endif
