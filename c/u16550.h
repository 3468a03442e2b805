/* SPDX-FileCopyrightText: 2025 Philipp Schuster, 2026 Geesetrunk */
/* SPDX-License-Identifier: MIT OR Apache-2.0 */
/*
 * u16550.h - a driver for serial chips of the 16550 family, for kernels and firmware.
 *
 * Made by tools/c/emit from the code that is proved, and from the table of the interface. Do not edit.
 *
 * This is u16550.c and u16550.h alone: C99 that needs stddef.h, stdint.h and stdbool.h, and nothing else. It allocates nothing, has
 * no variables and calls no function but those that it is given. A compiler may call memcpy and memset, and no other function of a
 * library. Compile u16550.c as the rest of the program is compiled.
 *
 * The device is reached by two functions of the caller, or by the library itself if it is in memory. The driver is in memory of the
 * caller.
 *
 * 'Proved' says which accesses a call makes and what it leaves, for every device, in the words of the definitions. It is proved of the
 * code that this is made from, which the C is compared with.
 *
 * Every function that returns an int returns U16550_OK, or a number of the enums below: a negative one if the call was a
 * misuse, which made no access and changed nothing, or a positive one, which is the error of the call. What a call reports
 * through a pointer is written only if it returns U16550_OK, unless the function says otherwise.
 *
 * A pointer must point to what its type says, or be null. Null is refused, unless the function says otherwise. An array of
 * length 0 may be null. Arrays and structs of one call must not overlap, and nobody else changes them until the call has
 * returned.
 */
#ifndef U16550_H
#define U16550_H

/*
 * A kernel without these headers defines U16550_HAS_TYPES, and has bool, true, false, size_t, NULL, offsetof, uintptr_t and uint8_t to
 * uint64_t itself.
 */
#ifndef U16550_HAS_TYPES
#include <stdbool.h>
#include <stddef.h>
#include <stdint.h>
#endif

#if defined(__cplusplus)
extern "C" {
#endif

/* The version of this header. u16550_version returns that of the library. */
#define U16550_VERSION "0.11.0-dev"
#define U16550_VERSION_NUMBER 1100

enum u16550_status { U16550_OK = 0 };

/* The call was a misuse. It made no access and changed nothing. */
enum u16550_misuse {
    U16550_NULL_POINTER = -1,
    U16550_MISALIGNED = -2,
    U16550_NOT_MADE = -3,         /* there is no driver in this memory */
    U16550_BUSY = -4,             /* a call over this driver is not done: the caller is a callback or an interrupt handler */
    U16550_BAD_LENGTH = -5,       /* no array is so long: it is larger than half of all memory, or holds the last address */
    U16550_BAD_CODE = -6,         /* a number in a configuration or a state stands for nothing */
    U16550_NOT_COMPUTABLE = -7,   /* frequency or baud rate 0, or a prescaler division factor above 15 */
    U16550_ZERO_LIMIT = -8,       /* a spin limit of 0 */
    U16550_NOT_UTF8 = -9,
    U16550_NO_RINGS = -10,
    U16550_HAS_RINGS = -11,
    U16550_NO_NOTES = -12,
    U16550_HAS_NOTES = -13,
    U16550_OTHER_LAYOUT = -14     /* the library is of another version than the header, or was compiled with other options */
};

/* Why the registers cannot be there. */
enum u16550_address_error {
    U16550_BAD_BASE = 10,         /* the last register is above the last address or port, or the base is 0 in memory */
    U16550_BAD_STRIDE = 11,       /* the stride is no power of two */
    U16550_BAD_WIDTH = 12,        /* a register has not 8, 16 or 32 bits */
    U16550_STRIDE_TOO_SMALL = 13, /* the registers would overlap: the stride is less than their width */
    U16550_MISALIGNED_BASE = 14   /* the base is no multiple of the width */
};

/* Why an initialisation failed. */
enum u16550_init_error {
    U16550_INIT_DEVICE_NOT_PRESENT = 20,
    U16550_INIT_NON_INTEGER_DIVISOR = 21, /* no whole divisor gives the baud rate; no access was made */
    U16550_INIT_DIVISOR_OUT_OF_RANGE = 22, /* it is above 65535; no access was made */
    U16550_INIT_STALLED = 23      /* the transmitter did not become empty within the spin limit */
};

/* Why a loopback test failed. */
enum u16550_loopback_error {
    U16550_LOOPBACK_NO_CAPACITY = 30, /* the device took no byte */
    U16550_LOOPBACK_NOT_CLEAR_TO_SEND = 31, /* no call returns this */
    U16550_LOOPBACK_UNEXPECTED_BYTE = 32,
    U16550_LOOPBACK_UNEXPECTED_MSG = 33,
    U16550_LOOPBACK_STALLED = 34
};

/* Why the remote seems not to be connected. */
enum u16550_remote_error {
    U16550_REMOTE_NO_DSR = 40,
    U16550_REMOTE_NO_CD = 41,     /* no call returns this */
    U16550_REMOTE_NOT_CLEAR_TO_SEND = 42
};

/* Why no byte can be sent at the moment. */
enum u16550_send_error {
    U16550_SEND_NO_CAPACITY = 50,
    U16550_SEND_NOT_CLEAR_TO_SEND = 51 /* CTS is clear, and the configuration checks it */
};

enum u16550_receive_error { U16550_RECEIVE_NO_DATA = 60 };

enum u16550_stalled_error {
    U16550_STALLED = 70,          /* a wait came to the spin limit */
    U16550_WAIT_ENDED = 71        /* keep_waiting returned 0 */
};

enum u16550_baud_rate_error { U16550_NON_INTEGER_BAUD_RATE = 80 }; /* the divisor is 0, or gives no whole baud rate */

/* Why there are no rings. */
enum u16550_ring_error {
    U16550_RING_BAD_CAPACITY = 90, /* a capacity is 0 or more than U16550_MAX_CAPACITY */
    U16550_RING_OUT_OF_MEMORY = 91 /* the memory is smaller than both capacities together */
};

/* Why a chip is stuck. */
enum u16550_stuck_error {
    U16550_RING_STUCK_UNKNOWN = 92, /* ISR shows an interrupt that has no name */
    U16550_RING_STUCK_PENDING = 93 /* ISR shows an interrupt that was served and does not go away */
};

enum u16550_unnoted_error { U16550_RING_UNNOTED = 94 }; /* bytes of the receive ring have no note of their errors */

/* Why no frame was set. */
enum u16550_frame_error {
    U16550_FRAME_NON_INTEGER_DIVISOR = 100, /* no whole divisor gives the baud rate; no access was made */
    U16550_FRAME_DIVISOR_OUT_OF_RANGE = 101, /* it is above 65535; no access was made */
    U16550_FRAME_STALLED = 102    /* the transmitter did not become empty within the spin limit; nothing was written */
};

/* Why the nearest divisor for a baud rate cannot be used. */
enum u16550_nearest_error {
    U16550_NEAREST_TOO_FAR = 110, /* its baud rate differs by more than so many thousandths */
    U16550_NEAREST_OUT_OF_RANGE = 111 /* it is above 65535, or the frequency at which it is exact is above 32 bits */
};

/* Why a port could not be taken as it is. */
enum u16550_attach_error {
    U16550_ATTACH_DIVISOR_LATCH_OPEN = 120, /* DLAB is set */
    U16550_ATTACH_LOOPBACK = 121,
    U16550_ATTACH_NO_DIVISOR = 122 /* the divisor latch reads as 0: no port is set up there, or there is none */
};

/* Why the FIFOs have no trigger level, or why their size was not found or not changed. */
enum u16550_fifos_error {
    U16550_FIFOS_OFF = 130,       /* no access was made */
    U16550_FIFOS_TOO_FEW = 131,   /* fewer than 16 bytes came back in loopback */
    U16550_FIFOS_STALLED = 132    /* a wait came to the spin limit */
};

/* What a chip does not show of what was written to it. The first difference is told, in this order. */
enum u16550_configuration_error {
    U16550_CONFIGURATION_NO_DIVISOR = 140, /* the driver's configuration has no divisor; no access was made */
    U16550_CONFIGURATION_LINE_CONTROL = 141, /* LCR shows another frame, or DLAB was not set or not cleared */
    U16550_CONFIGURATION_MODEM_CONTROL = 142,
    U16550_CONFIGURATION_INTERRUPTS = 143,
    U16550_CONFIGURATION_DIVISOR = 144,
    U16550_CONFIGURATION_FIFOS = 145 /* ISR shows otherwise than u16550_fifo_enabled whether they are on */
};

/* Why a call at a bus was not done. */
enum u16550_bus_error {
    U16550_BUS_BUSY = 160,        /* the transmitter is not empty; nothing was written */
    U16550_BUS_NOT_SENDING = 161  /* the direction is not to send; no access was made */
};

/* What a DesignWare UART did that could not be mended. */
enum u16550_design_ware_fault {
    U16550_DESIGN_WARE_LINE_CONTROL = 150, /* it was busy for longer than the patience, and LCR does not have what was written */
    U16550_DESIGN_WARE_INTERRUPT = 151 /* busy detect, or a reception timeout without data, does not end */
};

/* Why there is no such time. */
enum u16550_time_error {
    U16550_TIME_NOTHING_LEFT = 170, /* a handler is too late, however early it begins */
    U16550_TIME_NO_LIMIT = 171,   /* a look takes no time, so no limit is long enough */
    U16550_TIME_OUT_OF_RANGE = 172
};

/*
 * How the device is reached. The functions get the context and an address: the offset of a register, 0 to 7, or after
 * u16550_new_port a port, or after u16550_new_mmio an address of memory. They must return, and must not throw. If one of
 * them calls a function over the same driver, that function returns U16550_BUSY.
 */
struct u16550_io {
    void *context;
    uint8_t (*read)(void *context, uintptr_t address);
    void (*write)(void *context, uintptr_t address, uint8_t value);
};

/* Which byte of a register of several bytes is the first in memory. The chip's eight bits are in the lowest byte. */
enum u16550_byte_order {
    U16550_NATIVE_ENDIAN = 0,     /* that of the processor: no byte is moved */
    U16550_LITTLE_ENDIAN = 1,     /* the lowest */
    U16550_BIG_ENDIAN = 2         /* the highest */
};

/* How the registers of a device lie in memory, from the first one on. */
struct u16550_layout {
    uint8_t stride;                     /* the distance between two registers in bytes: a power of two, and at least the width */
    uint8_t width;                      /* how many bits each access has: 8, 16 or 32 */
    uint8_t byte_order;                 /* an enum u16550_byte_order; it means nothing if the width is 8 */
};

enum u16550_parity {
    U16550_PARITY_NONE = 0,
    U16550_PARITY_ODD = 1,
    U16550_PARITY_EVEN = 2,
    U16550_PARITY_FORCED_1 = 3,
    U16550_PARITY_FORCED_0 = 4
};

/* How a device is to be set up. Another number than these is refused by U16550_BAD_CODE. */
struct u16550_config {
    uint32_t frequency;                 /* of the clock, in hertz: usually 1843200 */
    uint32_t baud_rate;
    uint32_t prescaler_division_factor; /* 0 to 15; counts only with has_prescaler */
    uint8_t has_prescaler;              /* 0 or 1 */
    uint8_t interrupts;                 /* as in IER */
    uint8_t fifo_trigger_level;         /* 0 for no FIFO, or 1, 4, 8, 14 */
    uint8_t data_bits;                  /* 5 to 8 */
    uint8_t extra_stop_bits;            /* 0 or 1 */
    uint8_t parity;                     /* an enum u16550_parity */
    uint8_t check_cts_before_sending;   /* 0 or 1 */
};

/* What a driver keeps from call to call. */
struct u16550_state {
    uint64_t spin_limit;                /* how many unsuccessful polls in a row a wait makes; not 0 */
    struct u16550_config config;
    uint8_t fifo_enabled;               /* 0 or 1 */
    uint8_t saved_lsr;                  /* errors that reads of LSR cleared in the chip, and that were not reported yet */
    uint8_t saved_msr;                  /* the same for changes of the modem lines */
    uint16_t fifo_size;                 /* how many characters the FIFOs are taken to hold: 16, 32, 64, 128 or 256 */
};

/* All registers at one time. */
struct u16550_dump {
    uint8_t ier, isr, lcr, mcr, lsr, msr, spr, dll, dlm;
};

/* When an initialisation waits until the transmitter is empty. */
enum u16550_transmitter_wait {
    U16550_WAIT_FIRST = 0,        /* before divisor and frame are written: no character is broken that is going out */
    U16550_WAIT_LAST = 1,         /* after everything but the interrupts is written, as u16550_init does */
    U16550_WAIT_NEVER = 2
};

/* What u16550_init_with does beside writing the configuration. u16550_init does { 1, U16550_WAIT_LAST, 0x0b }. */
struct u16550_setup {
    uint8_t checks_presence;            /* 1: the scratch register is tested first; 0 for a chip without one */
    uint8_t wait;                       /* an enum u16550_transmitter_wait */
    uint8_t outputs;                    /* bits of MCR that are set, others are clear; loopback is left out */
};

/* What becomes of the FIFOs of a port that is left. */
enum u16550_fifo_action {
    U16550_FIFOS_KEEP = 0,
    U16550_FIFOS_RESET = 1,       /* they are emptied, and stay on if they are on */
    U16550_FIFOS_DISABLE = 2      /* they are emptied and turned off */
};

/* What came back in a loopback test. What does not belong to the error is 0. */
struct u16550_loopback_failure {
    uint8_t expected, actual;
    uint8_t expected_msg[16], actual_msg[16];
};

/* What was expected of a register, and what it shows. For FIFOs 1 says that they are on. */
struct u16550_difference {
    uint16_t expected, shown;
};

/*
 * A received byte, and the line errors that LSR showed with it. Parity, framing and break are of this byte. An overrun tells that
 * a character was lost: with the FIFO on right behind as many characters from this byte on as the FIFO holds, or one fewer, the 15th
 * or the 16th with a FIFO of 16; with the FIFO off before this byte.
 */
struct u16550_received {
    uint8_t byte;                       /* 0 for a break */
    uint8_t errors;                     /* as in LSR */
};

/* Why a call of u16550_ring_handle ended. */
enum u16550_handle_end {
    U16550_HANDLE_IDLE = 0,       /* ISR showed that no interrupt is pending */
    U16550_HANDLE_UNKNOWN = 1,    /* ISR showed an interrupt that has no name; it was not served */
    U16550_HANDLE_LIMIT = 2       /* as many interrupts as the limit were served */
};

/* What a call of u16550_ring_handle did. */
struct u16550_handled {
    size_t served;                      /* how many interrupts */
    uint8_t end;                        /* an enum u16550_handle_end */
};

/* A port of an interrupt line that several ports share, and what u16550_line_handle did there. */
struct u16550_line_port {
    struct u16550 *uart;                /* a driver with rings; this alone is given */
    struct u16550_handled handled;      /* all 0 if the chip is stuck */
    int status;                         /* U16550_OK, or an enum u16550_stuck_error if the chip is stuck */
    uint8_t enabled;                    /* the interrupts that were enabled, for the library */
};

/* The urgent byte of rings. */
struct u16550_urgent {
    uint8_t waits;                      /* whether there is one */
    uint8_t byte;                       /* 0 if there is none */
};

/* The output that switches the transceiver at a bus. */
enum u16550_direction_line {
    U16550_DIRECTION_RTS = 0,
    U16550_DIRECTION_DTR = 1
};

/*
 * How the transceiver at a bus is switched. The pin of an output is low while its bit in MCR is set: a transceiver at the pin itself, which
 * drives the bus while its input DE is high, sends while the bit is clear; with an inverter between them it sends while the bit is set.
 */
struct u16550_direction {
    uint8_t line;                       /* an enum u16550_direction_line */
    uint8_t sends_when_set;             /* 0 or 1: it sends while the bit is set in MCR */
};

/* Whether a chip is stuck. */
struct u16550_stuck {
    uint8_t is_stuck;
    uint8_t isr;                        /* bits 3 to 0 of ISR, which showed why; 0 if it is not stuck */
};

/* Bits of registers. */
enum u16550_ier_bits {
    U16550_IER_DATA_READY = 0x01,
    U16550_IER_THR_EMPTY = 0x02,
    U16550_IER_RECEIVER_LINE_STATUS = 0x04,
    U16550_IER_MODEM_STATUS = 0x08
};

enum u16550_mcr_bits {
    U16550_MCR_DTR = 0x01,
    U16550_MCR_RTS = 0x02,
    U16550_MCR_OUT_1 = 0x04,
    U16550_MCR_OUT_2_INT_ENABLE = 0x08, /* on a PC the interrupt line is connected only with this */
    U16550_MCR_LOOP_BACK = 0x10,
    U16550_MCR_AUTO_FLOW = 0x20   /* RTS and CTS by the chip, which a 16750, a 16950 and DesignWare UARTs can do */
};

enum u16550_lsr_bits {
    U16550_LSR_DATA_READY = 0x01,
    U16550_LSR_OVERRUN_ERROR = 0x02,
    U16550_LSR_PARITY_ERROR = 0x04,
    U16550_LSR_FRAMING_ERROR = 0x08,
    U16550_LSR_BREAK_INTERRUPT = 0x10,
    U16550_LSR_THR_EMPTY = 0x20,
    U16550_LSR_TRANSMITTER_EMPTY = 0x40,
    U16550_LSR_FIFO_DATA_ERROR = 0x80
};

enum u16550_msr_bits {
    U16550_MSR_DELTA_CTS = 0x01,
    U16550_MSR_DELTA_DSR = 0x02,
    U16550_MSR_TRAILING_EDGE_RI = 0x04,
    U16550_MSR_DELTA_CD = 0x08,
    U16550_MSR_CTS = 0x10,
    U16550_MSR_DSR = 0x20,
    U16550_MSR_RI = 0x40,
    U16550_MSR_CD = 0x80
};

/* What a driver keeps of its device: its functions, the first address, and how far apart the registers are. */
struct u16550_device {
    struct u16550_io io;
    uintptr_t base;
    uint8_t stride;
};

/* ---- what a driver keeps */

struct u16550_core_maybe_u32 {
    uint8_t is_some;
    uint32_t value;
};

/*
 * The number of characters in the receiver FIFO at which a DATA_READY interrupt is raised.
 *
 * A high level needs fewer interrupts. A low level leaves more time to read before the FIFO
 * overruns.
 */
enum u16550_core_fifo_trigger_level {
    U16550_CORE_FIFO_TRIGGER_LEVEL_ONE = 0,
    U16550_CORE_FIFO_TRIGGER_LEVEL_FOUR = 1,
    U16550_CORE_FIFO_TRIGGER_LEVEL_EIGHT = 2,
    U16550_CORE_FIFO_TRIGGER_LEVEL_FOURTEEN = 3
};

struct u16550_core_maybe_fifo_trigger_level {
    uint8_t is_some;
    uint8_t value; /* an enum u16550_core_fifo_trigger_level */
};

enum u16550_core_baud_rate_kind {
    U16550_CORE_BAUD_RATE_BAUD115200 = 0,
    U16550_CORE_BAUD_RATE_BAUD57600 = 1,
    U16550_CORE_BAUD_RATE_BAUD38400 = 2,
    U16550_CORE_BAUD_RATE_BAUD9600 = 3,
    U16550_CORE_BAUD_RATE_BAUD4800 = 4,
    U16550_CORE_BAUD_RATE_BAUD2400 = 5,
    U16550_CORE_BAUD_RATE_BAUD1200 = 6,
    U16550_CORE_BAUD_RATE_BAUD600 = 7,
    U16550_CORE_BAUD_RATE_BAUD300 = 8,
    U16550_CORE_BAUD_RATE_BAUD150 = 9,
    U16550_CORE_BAUD_RATE_BAUD110 = 10,
    U16550_CORE_BAUD_RATE_CUSTOM = 11
};

/*
 * A baud rate, in bits per second.
 *
 * Baud rates are ordered by their number. If two have the same number, the one with a name comes
 * before U16550_CORE_BAUD_RATE_CUSTOM. So U16550_CORE_BAUD_RATE_BAUD9600 and
 * U16550_CORE_BAUD_RATE_CUSTOM with 9600 are different values; uart_baud_rate_from_bps returns the
 * one with a name.
 */
struct u16550_core_baud_rate {
    uint8_t kind; /* an enum u16550_core_baud_rate_kind */
    uint32_t custom;
};

/* The number of data bits of a character. */
enum u16550_core_word_length {
    U16550_CORE_WORD_LENGTH_FIVE_BITS = 0,
    U16550_CORE_WORD_LENGTH_SIX_BITS = 1,
    U16550_CORE_WORD_LENGTH_SEVEN_BITS = 2,
    U16550_CORE_WORD_LENGTH_EIGHT_BITS = 3
};

/*
 * The configuration of a device: clock and baud rate, the format of a character, FIFOs and
 * interrupts.
 *
 * Pass it to u16550_init, which requires that it is computable (uart_config_is_computable). Start
 * from that of u16550_default_config, and set what differs.
 */
struct u16550_core_config {
    uint8_t interrupts;
    uint32_t frequency;
    struct u16550_core_maybe_u32 prescaler_division_factor;
    struct u16550_core_maybe_fifo_trigger_level fifo_trigger_level;
    struct u16550_core_baud_rate baud_rate;
    uint8_t data_bits; /* an enum u16550_core_word_length */
    uint8_t extra_stop_bits;
    uint8_t parity; /* an enum u16550_parity */
    uint8_t check_cts_before_sending;
};

/*
 * How many characters each FIFO of a chip holds, for u16550_set_fifo_size, by which all calls that
 * send and the rings go, and for one u16550_send_burst.
 *
 * A 16550 has 16. No register that all chips have shows the size, so it is taken from the
 * datasheet, or u16550_find_fifo_size finds it. A 16750 has 64 after u16550_enable_64_byte_fifos.
 * If a size is given that is larger than the chip's, bytes are lost.
 */
enum u16550_core_fifo_size {
    U16550_CORE_FIFO_SIZE_SIXTEEN = 0,
    U16550_CORE_FIFO_SIZE_THIRTY_TWO = 1,
    U16550_CORE_FIFO_SIZE_SIXTY_FOUR = 2,
    U16550_CORE_FIFO_SIZE_ONE_HUNDRED_TWENTY_EIGHT = 3,
    U16550_CORE_FIFO_SIZE_TWO_HUNDRED_FIFTY_SIX = 4
};

/*
 * A driver for one serial chip of the 16550 family, over any backend.
 *
 * Construct it with u16550_new_port, u16550_new_mmio or u16550_new, and call u16550_init before
 * any other call, or u16550_attach on a port that is set up already. u16550_test_loopback then
 * tests whether the chip works, and u16550_check_connected whether a remote is ready.
 *
 * No call blocks forever. u16550_init, u16550_init_with, u16550_test_loopback,
 * u16550_find_fifo_size, u16550_enable_64_byte_fifos, u16550_set_frame_when_idle,
 * u16550_send_bytes_exact, u16550_receive_bytes_exact, and the calls u16550_read, u16550_write and
 * u16550_flush poll LSR, and return an error after spin_limit unsuccessful polls in a row. The
 * other calls do not wait.
 *
 * A read of LSR clears its error bits in the chip, and a read of MSR its change bits. The driver
 * saves those that its own reads clear, and the next u16550_lsr or u16550_msr returns them. So a
 * poll loses no error and no change. u16550_init, the loopback test and u16550_find_fifo_size
 * discard some.
 */
struct u16550_core_driver {
    struct u16550_device backend;
    struct u16550_core_config config;
    uint8_t fifo_enabled;
    uint8_t fifo_size; /* an enum u16550_core_fifo_size */
    uint8_t saved_lsr;
    uint8_t saved_msr;
    uint64_t spin_limit;
};

struct u16550_core_maybe_u8 {
    uint8_t is_some;
    uint8_t value;
};

struct u16550_core_received_64 {
    struct u16550_received bytes[64];
};

/*
 * Characters in the order in which they were received. The first one is in the first cell. Taking
 * it moves the others up, which costs 64 cells. Only a character that came in the course of a
 * write of LCR is ever kept.
 */
struct u16550_core_kept_characters {
    struct u16550_core_received_64 cells;
    size_t count;
};

struct u16550_core_maybe_design_ware_fault {
    uint8_t is_some;
    uint8_t value; /* an enum u16550_design_ware_fault */
};

/*
 * The registers of a DesignWare UART, as a backend of the driver.
 *
 * Such a chip differs from a 16550 in this, unless it was built to be compatible, and then nothing
 * here is needed and nothing goes wrong:
 *
 * - It ignores a write of LCR while it is busy: while it sends, receives, or has received data.
 *   Here each such write waits until USR says that the chip is not busy, and is read back. Data
 *   that were received meanwhile are kept, at most 64 characters with their errors, and the
 *   driver's next reads get them. Data that come while DLAB is set cannot be read. They are
 *   discarded by a reset of the receiver, and LSR shows an overrun for it.
 * - It interrupts for such a write (busy detect). A read of ISR that finds this reads USR, which
 *   ends it, and looks again.
 * - It may interrupt for a reception timeout while no data wait. A read of ISR that finds this,
 *   while LSR shows neither data nor a break, reads RBR once, which ends it. A character that
 *   comes between these two accesses is lost. Linux does the same.
 *
 * No wait is longer than patience. After a u16550_design_ware_fault the chip's interrupts are off,
 * whatever the driver writes to IER; only if DLAB could not be cleared, IER is out of reach and
 * stays as it was. While the chip has DLAB otherwise than the driver takes it to have, nothing
 * reaches offsets 0 and 1. So no divisor goes to the line. All that is over with the next write of
 * LCR that the chip takes, as by an u16550_init. The driver's calls return no error for a fault:
 * u16550_check_configured does, and u16550_design_ware_fault says why.
 */
struct u16550_core_design_ware {
    struct u16550_device registers;
    uint64_t patience;
    struct u16550_core_kept_characters kept;
    uint8_t cleared;
    uint8_t line;
    uint8_t interrupts;
    uint8_t fifo_control;
    struct u16550_core_maybe_design_ware_fault fault;
};

struct u16550_core_vec_u8 {
    uint8_t *data;
    size_t len;
    size_t capacity;
};

/* Bytes in order, at most as many as there are cells. */
struct u16550_core_byte_queue {
    struct u16550_core_vec_u8 cells;
    size_t front;
    size_t len;
};

/*
 * A backend that notes the errors of each received byte, for u16550_ring_take_with_errors.
 *
 * It makes each access that it is asked for over the backend under it, and no other. Rings without
 * it cost what they cost before; with it they take one byte of memory more for each byte of the
 * receive ring.
 *
 * LSR shows the errors of the character that is the next to be read, once, to whoever looks: to
 * the handler that serves a line status interrupt, to a pump that looks for room, to a
 * u16550_ring_take_line. So the errors of a byte are all that LSR has shown since the byte before
 * it was read, and this backend sees each look. Only an overrun that the first look shows, since
 * the notes were made or the receiver was reset, is of no byte: it may be of before.
 */
struct u16550_core_error_notes {
    struct u16550_device backend;
    struct u16550_core_byte_queue noted;
    uint8_t shown;
    uint8_t is_latch;
    uint8_t is_overrun_old;
};

/* An interrupt, in the order in which a chip reports interrupts that are pending together. */
enum u16550_core_interrupt_type {
    U16550_CORE_INTERRUPT_TYPE_RECEIVER_LINE_STATUS = 0,
    U16550_CORE_INTERRUPT_TYPE_RECEIVED_DATA_READY = 1,
    U16550_CORE_INTERRUPT_TYPE_RECEPTION_TIMEOUT = 2,
    U16550_CORE_INTERRUPT_TYPE_TRANSMITTER_HOLDING_REGISTER_EMPTY = 3,
    U16550_CORE_INTERRUPT_TYPE_MODEM_STATUS = 4,
    U16550_CORE_INTERRUPT_TYPE_DMA_RECEPTION_END_OF_TRANSFER = 5,
    U16550_CORE_INTERRUPT_TYPE_DMA_TRANSMISSION_END_OF_TRANSFER = 6
};

/* Why a chip is stuck: what ISR still showed after as many rounds as the caller allows. */
struct u16550_core_stuck_error {
    int kind;
    uint8_t unknown;
    uint8_t pending; /* an enum u16550_core_interrupt_type */
};

struct u16550_core_maybe_stuck_error {
    uint8_t is_some;
    struct u16550_core_stuck_error value;
};

/*
 * A driver with a ring for bytes that are to be sent, and a ring for received bytes.
 *
 * Initialise the driver, with DATA_READY, RECEIVER_LINE_STATUS and MODEM_STATUS enabled and
 * without THR_EMPTY, which the rings enable as long as there are bytes to send. Call
 * u16550_ring_handle or u16550_ring_try_handle in the interrupt handler. Mask the interrupt during
 * all other calls, since the handler must not run in the middle of one.
 *
 * For a chip whose FIFOs hold more than 16 characters set their size in the driver, by
 * u16550_set_fifo_size, before: an interrupt then sends or receives as many.
 *
 * No call waits, so none returns a stall.
 */
struct u16550_core_ring {
    struct u16550_core_driver uart;
    struct u16550_core_byte_queue transmit;
    struct u16550_core_byte_queue receive;
    uint8_t line;
    uint8_t modem;
    uint8_t is_paused;
    struct u16550_core_maybe_u8 urgent;
    uint8_t is_held;
    uint8_t has_told_xoff;
    size_t unlooked;
    size_t low_mark;
    uint8_t is_low;
    uint32_t rounds;
    struct u16550_core_maybe_stuck_error stuck;
};

/*
 * How the transceiver is switched between its two directions.
 *
 * The pin of an output is the other way round: it is low while the bit in MCR is set. So a
 * transceiver at the pin itself, whose driver is on while its input DE is high, sends while the
 * bit is clear. With an inverter between them it sends while the bit is set.
 */
struct u16550_core_direction {
    uint8_t line; /* an enum u16550_direction_line */
    uint8_t sends_when_set;
};

/*
 * A driver at a bus on which one end at a time may send, as RS-485 with two wires.
 *
 * u16550_bus_start_sending switches the transceiver to send, and u16550_bus_try_finish gives the
 * bus back once the transmitter is empty. While the direction is not to send,
 * u16550_bus_send_bytes and u16550_bus_send_bytes_exact write nothing and return an error. No call
 * writes a byte or switches the direction otherwise, in whatever order they are made: that is
 * proved.
 *
 * The two delays are the caller's, by a clock of its own:
 *
 * - Between u16550_bus_start_sending and the first byte: as long as the transceiver takes to drive
 *   the bus, often some microseconds.
 * - Between the end of the last byte and u16550_bus_try_finish. u16550_bus_flush and
 *   u16550_bus_is_idle tell when the transmitter is empty. Some chips show that when the last stop
 *   bit begins, so wait as long as this bit takes, or two of them: at 9,600 baud 104 microseconds
 *   a bit. Most protocols let a remote wait longer than that before it answers.
 *
 * No interrupt tells that the transmitter is empty: THR_EMPTY comes while the last byte is still
 * in the shift register. So somebody polls, or waits for the time that the bytes take.
 *
 * Whether the receiver hears what this end sends depends on the board. If it does, as many bytes
 * as were sent are received: take them by u16550_bus_receive_bytes between calls that send, before
 * they overrun the receiver. No call drops received bytes.
 *
 * Only calls of this type keep the direction, so no call of a driver is to be made over it. For
 * other calls, as u16550_set_frame, take the driver back by u16550_bus_end, and give it to
 * u16550_bus_new again. So set the size of the FIFOs, by u16550_set_fifo_size, before
 * u16550_bus_new. The direction is by software: where RTS is the line, flow control by the chip
 * would drive it, so each switch turns that off.
 */
struct u16550_core_half_duplex {
    struct u16550_core_driver uart;
    struct u16550_core_direction direction;
    uint8_t is_sending;
};

/*
 * The memory of a driver. What is in it is the library's: it is here so that a C compiler knows how much it is. Leave it alone. It may be
 * copied to another place between two calls, if only one of the copies is used from then on. One thread at a time may use a driver;
 * drivers of different chips are independent. Nothing refuses two drivers of one chip: a call of one that comes between the accesses of
 * a call of the other loses bytes that were reported as sent, and stops rings.
 *
 * Set it to zero before a first driver is made in it, unless it is static, and so zero from the start. What was left in it
 * may look like a driver, or like a call that is not done.
 */
struct u16550 {
    volatile uint32_t mark;
    volatile uint32_t is_busy;
    uint8_t has_rings;
    struct u16550_core_ring ring;
};

/* The memory of a DesignWare UART: what the library keeps of it. It stays where it is as long as the driver is used. */
struct u16550_design_ware {
    struct u16550_core_design_ware chip;
};

/*
 * The memory of a driver at a bus. As for a driver: it may be copied to another place between two calls, if only one of the copies is used
 * from then on, and it is zero before a first bus is made in it.
 */
struct u16550_bus {
    volatile uint32_t mark;
    volatile uint32_t is_busy;
    struct u16550_core_half_duplex bus;
};

/* The memory of notes of errors, which is the library's. It stays where it is as long as the driver notes errors. */
struct u16550_notes {
    struct u16550_core_error_notes notes;
};

#ifndef U16550_OMIT_TEXT
/* --------------------------------------------------------------- numbers and the version as texts */

/* Returns a text for what a function returned, for a log. Never null. */
const char *u16550_text(int status);
#endif

/* Returns the version of the library, as U16550_VERSION was when it was compiled. Never null. */
const char *u16550_version(void);

/* --------------------------------------------------------------- making a driver
 *
 * These make a driver in the memory, in place of one that is there, whose rings end. They make no access. If a call over the
 * driver that is there is not done, they return U16550_BUSY. The driver has the default configuration, a spin limit of
 * 1000000 polls, and takes the FIFOs to hold 16 characters.
 */

/* A driver whose functions get offsets. */
int u16550_new(struct u16550 *uart, const struct u16550_io *io);

/* A driver whose functions get ports, from base on. Refused by U16550_BAD_BASE if base + 7 is above 65535. */
int u16550_new_port(struct u16550 *uart, const struct u16550_io *io, uint16_t base);

/*
 * A driver whose functions get addresses of memory, from base on and stride apart. Refused by U16550_BAD_STRIDE if stride
 * is no power of two, else by U16550_BAD_BASE if base is 0 or base + 7 * stride is too large.
 */
int u16550_new_mmio(struct u16550 *uart, const struct u16550_io *io, uintptr_t base, uint8_t stride);

#ifndef U16550_OMIT_MEMORY
/*
 * A driver for registers in memory that the library accesses itself, by functions of its own, which u16550_get_io returns.
 * Each access is one load or store of the width of the layout, in order: with a barrier before and behind it on architectures that need
 * one. A read gives the lowest eight bits of a register, and a write sets the others to 0. Refused by U16550_BAD_WIDTH, by
 * U16550_BAD_CODE if the byte order is none, else as u16550_new_mmio, else by U16550_STRIDE_TOO_SMALL or U16550_MISALIGNED_BASE.
 */
int u16550_new_mmio_wide(struct u16550 *uart, uintptr_t base, const struct u16550_layout *layout);
#endif

#ifndef U16550_OMIT_DESIGN_WARE
/*
 * A driver for a UART of Synopsys' DesignWare, as Rockchip, Allwinner, StarFive, Intel and others have it. Such a chip ignores a write of
 * LCR while it is busy, and interrupts for that and for reception timeouts without data. Here each write of LCR waits until the chip is not
 * busy, is read back, and loses none of what is received meanwhile, up to 64 characters; and these interrupts are ended. patience is how
 * many looks in a row a write of LCR waits; 0 is refused by U16550_ZERO_LIMIT.
 *
 * The functions get the offset of a register, 0 to 7, or 31 for the register USR. With mmio there are none, and the registers lie in
 * memory as for u16550_new_mmio_wide. Each driver has its own chip, which is in no other use as long as the driver is used.
 */
int u16550_new_design_ware(struct u16550 *uart, struct u16550_design_ware *chip, const struct u16550_io *io, uint64_t patience);
int u16550_new_mmio_design_ware(struct u16550 *uart, struct u16550_design_ware *chip, uintptr_t base,
                                const struct u16550_layout *layout, uint64_t patience);

/*
 * What went wrong since the last write of LCR that the chip took, as an enum u16550_design_ware_fault, or U16550_OK. After a fault the
 * chip's interrupts are off, whatever is written to IER. The calls return no error for it: u16550_check_configured does. Makes no access.
 * U16550_NOT_MADE if the driver has another chip.
 */
int u16550_design_ware_fault(struct u16550 *uart, struct u16550_design_ware *chip);
#endif

/* A driver in this state, whose functions get offsets. */
int u16550_from_state(struct u16550 *uart, const struct u16550_io *io, const struct u16550_state *state);

/*
 * Ends a driver: the memory is the caller's again, and so is that of its rings. If a call over the driver is not done, this
 * returns U16550_BUSY, and the driver stays.
 */
int u16550_end(struct u16550 *uart);

/* --------------------------------------------------------------- what a driver keeps; none of these makes an access */

/* Writes the default: no interrupts, 1843200 Hz, 9600 baud, FIFO with trigger level 14, 8 data bits, 1 stop bit, no parity. */
int u16550_default_config(struct u16550_config *config);

#ifndef U16550_OMIT_TIMES
/*
 * Writes the configuration with the frequency at which the nearest divisor gives its baud rate exactly, if that differs from
 * its frequency by at most so many thousandths. u16550_init and u16550_set_frame accept it, and write the nearest divisor. The
 * line then has a rate that differs by as many thousandths at most. The two sides of a line may be some 45 thousandths
 * apart, so 20 for each is usual.
 * Returns an enum u16550_nearest_error if there is none. nearest may be config.
 */
/*
 * Proved: the configuration with the frequency at which the nearest divisor is exact, so that it
 * is the one that the exact arithmetic computes, and the rate is near enough; or the error that
 * says that the nearest divisor does not fit, or fits and is too far off, as each other divisor
 * then is.
 */
int u16550_nearest(const struct u16550_config *config, uint32_t per_mille, struct u16550_config *nearest);
#endif

int u16550_get_io(struct u16550 *uart, struct u16550_io *io);
int u16550_set_io(struct u16550 *uart, const struct u16550_io *io);
int u16550_get_config(struct u16550 *uart, struct u16550_config *config);
int u16550_get_state(struct u16550 *uart, struct u16550_state *state);
int u16550_fifo_enabled(struct u16550 *uart, uint8_t *enabled);
int u16550_spin_limit(struct u16550 *uart, uint64_t *limit);
/* Proved: no access is made, and nothing else of the driver changes. */
int u16550_set_spin_limit(struct u16550 *uart, uint64_t limit);

/*
 * How many characters the FIFOs are taken to hold: 16 at first, or what u16550_set_fifo_size set last: 16, 32, 64, 128 or 256. Another
 * number is refused by U16550_BAD_CODE. All that sends, and the rings, put as many bytes into one burst if the FIFO is on, so that a larger
 * size takes fewer interrupts for the same bytes. No other call changes it. It is taken on trust: with a size larger than the chip's the
 * bytes that do not fit are lost, and nothing tells. Some chips hold more than 16 only after they were told, as a 16750 by
 * u16550_enable_64_byte_fifos. u16550_find_fifo_size finds the size of FIFOs as they are set up.
 */
int u16550_fifo_size(struct u16550 *uart, uint16_t *fifo_size);
/* Proved: no access is made, and nothing else of the driver changes. */
int u16550_set_fifo_size(struct u16550 *uart, uint16_t fifo_size);

#ifndef U16550_OMIT_TIMES
/* --------------------------------------------------------------- how long things take
 *
 * These take a configuration and no driver, and make no access. Times are in clocks of the chip's input, of which a second has frequency: so
 * nothing is rounded but by the last four calls. A configuration is refused as by u16550_set_frame; the last four need no divisor. fifo_size
 * is how many characters the FIFOs hold, as for u16550_set_fifo_size.
 */

/* How many clocks a character takes on the line: its start bit, data bits, parity bit and stop bits, with one and a half exact. */
/*
 * Proved: the time of a character, if there is a divisor for the baud rate; otherwise why there is
 * none.
 */
int u16550_character_clocks(const struct u16550_config *config, uint64_t *clocks);

/*
 * The most clocks that a handler may be late, so that no character is dropped without flow control: from the receiver's interrupt to the
 * read of ISR, at the trigger level of the configuration. An access takes at most access_clocks, which u16550_clocks_covering has of
 * nanoseconds. At a line that several ports share, those before this one are served first, for at most before_clocks; at a line of its own
 * this is 0. With 0 for both it is the time until the first read of DATA. Returns U16550_TIME_NOTHING_LEFT if nothing is left, also if the
 * two accesses of a byte take longer than a character. The other end must be no faster than the configuration, also by its stop bits. If an
 * access takes a quarter of a character or more, a visit may end by its limit, and characters are lost in spite of the result.
 */
/*
 * Proved: how late the handler may begin where an access takes access_clocks, and the others at
 * its line are served first: an access reads ISR, and the first byte is read four accesses later
 * if a line error is told before it. It is in time if something is left, and no character comes
 * while another one is read, by two accesses.
 */
int u16550_handler_budget(const struct u16550_config *config, uint16_t fifo_size, uint64_t access_clocks,
                          uint64_t before_clocks, uint64_t *clocks);

/*
 * How many characters arrive within so many clocks at most: what a mark of flow control has to leave room for, if these pass until the other
 * end holds back.
 */
/*
 * Proved: the most characters that end within so many clocks: one ends at once, and each other a
 * character's time later.
 */
int u16550_characters_in(const struct u16550_config *config, uint64_t clocks, uint64_t *characters);

/*
 * How many clocks a full transmitter takes to send all that it holds, the FIFO and the shift register: so long at most does a u16550_flush
 * take, if the other end does not hold the chip off.
 */
/* Proved: the time of so many characters. */
int u16550_drain_clocks(const struct u16550_config *config, uint16_t fifo_size, uint64_t *clocks);

/* After how many clocks the chip interrupts if fewer characters wait than the trigger level: the time of four characters. */
/* Proved: the time of so many characters. */
int u16550_timeout_clocks(const struct u16550_config *config, uint64_t *clocks);

/*
 * The limit for u16550_set_spin_limit with which no wait for a working transmitter gives up, if each look takes at least access_clocks, and
 * the other end does not hold the chip off. u16550_clocks_within has these of nanoseconds. Returns U16550_TIME_NO_LIMIT if a look takes
 * none.
 */
/*
 * Proved: The limit with which no wait for a full transmitter gives up, of a FIFO and the shift
 * register, if each look takes at least access_clocks. A character is so many looks, of which the
 * last may begin before it ends; and one look more finds that the next character has begun.
 */
int u16550_spin_limit_for(const struct u16550_config *config, uint16_t fifo_size, uint64_t access_clocks, uint64_t *limit);

/*
 * Clocks as nanoseconds, and back. Those with 'within' round down: for a time that may be used up, and for the least that a look takes. Those
 * with 'covering' round up: for a time to wait, and for the most that an access takes. They return U16550_TIME_OUT_OF_RANGE if the result does
 * not fit into 64 bits.
 */
/*
 * Proved: the exact quotient, rounded down; or none, if that does not fit into 64 bits, or is by
 * 0.
 */
int u16550_nanoseconds_within(const struct u16550_config *config, uint64_t clocks, uint64_t *nanoseconds);
/* Proved: the exact quotient, rounded up; or none, if that does not fit into 64 bits, or is by 0. */
int u16550_nanoseconds_covering(const struct u16550_config *config, uint64_t clocks, uint64_t *nanoseconds);
/*
 * Proved: the exact quotient, rounded down; or none, if that does not fit into 64 bits, or is by
 * 0.
 */
int u16550_clocks_within(const struct u16550_config *config, uint64_t nanoseconds, uint64_t *clocks);
/* Proved: the exact quotient, rounded up; or none, if that does not fit into 64 bits, or is by 0. */
int u16550_clocks_covering(const struct u16550_config *config, uint64_t nanoseconds, uint64_t *clocks);
#endif

/* --------------------------------------------------------------- setting up */

/* Whether a chip is there: its scratch register keeps two patterns. */
/* Proved: the scratch register is read, tested with the patterns, and restored. */
int u16550_check_present(struct u16550 *uart, uint8_t *present);

/*
 * Sets the device up. Returns an enum u16550_init_error if it cannot be. A character in the shift register is not waited for before
 * divisor and frame change: the other end may receive it broken, and one that is arriving may be received broken here. On a line
 * that is in use call u16550_init_with and U16550_WAIT_FIRST.
 */
/*
 * Proved: the configuration is stored, the scratch register tested, divisor, frame and FIFO are
 * set, the receiver is drained, and MCR is written; after a wait for an empty transmitter the
 * statuses are read, and IER is written. Or nothing is done, if there is no divisor; or all up to
 * the test that fails, or to the wait that reaches the limit.
 */
int u16550_init(struct u16550 *uart, const struct u16550_config *config);

/*
 * Does the same otherwise: without the test of the scratch register, with the wait for the transmitter first or not at all,
 * with other outputs. If the wait that comes first ends by U16550_INIT_STALLED, nothing was written but the scratch register.
 */
/*
 * Proved: as u16550_init, with the test, the wait and the outputs of this setup. The configuration
 * is stored; the test and the wait that is to be first are made; divisor, frame and FIFO are set,
 * the receiver is drained, and MCR is written; the wait that is to be last is made; the statuses
 * are read, and IER is written. Or nothing is done, if there is no divisor; or all up to the test
 * that fails, or to the wait that reaches the limit.
 */
int u16550_init_with(struct u16550 *uart, const struct u16550_config *config, const struct u16550_setup *setup);

#ifndef U16550_OMIT_LOOPBACK
/*
 * Tests the chip in loopback. Returns an enum u16550_loopback_error if it fails; *failure then has what came back. failure
 * may be null.
 */
/*
 * Proved: MCR and IER are read, and there is a wait for an empty transmitter. If it reaches the
 * limit, nothing is written, and the result is a stall; else loopback is entered, bytes are
 * exchanged up to the first error, and MCR and IER are restored.
 */
int u16550_test_loopback(struct u16550 *uart, struct u16550_loopback_failure *failure);
#endif

/*
 * Finds how many characters the FIFOs hold as they are set up now, for u16550_set_fifo_size, which it does not call: 16, 32, 64,
 * 128 or 256. Sends 257 bytes in loopback without looking, and counts those that come back. Nothing goes out on the line. Bytes
 * that were received before and not taken are lost, and so is what arrives meanwhile. It takes as long as the characters need on
 * the line. Returns an enum u16550_fifos_error if no size was found.
 */
/*
 * Proved: nothing is done if the FIFOs are off. Else MCR and IER are read, and there is a wait for
 * an empty transmitter. If it reaches the limit, nothing is written, and the result is a stall;
 * else loopback is entered, the transmitter is flooded, what comes back is counted, the FIFOs are
 * reset, and MCR and IER are restored. The result is the largest size of no more characters than
 * came back.
 */
int u16550_find_fifo_size(struct u16550 *uart, uint16_t *fifo_size);

/*
 * Turns on the FIFOs of 64 characters of a 16750, once its transmitter is empty. *enabled is 1 if they hold 64 then: a
 * u16550_set_fifo_size with 64, which it does not call, is right. A 16750 empties its FIFOs, so bytes that were received before and
 * not taken are lost. Another chip loses nothing, and *enabled is 0. Call it again after a u16550_init that follows a reset of the
 * chip. Interrupts are off meanwhile, and DLAB is set for a moment, so nothing else may access the chip. Returns an enum
 * u16550_fifos_error if the FIFOs are off, or if the transmitter did not become empty.
 */
/*
 * Proved: nothing is done if the FIFOs are off. Else LCR and IER are read, and there is a wait for
 * an empty transmitter. If it reaches the limit, nothing is written, and the result is a stall;
 * else FIFOs of 64 are asked for, and the result is whether ISR shows them.
 */
int u16550_enable_64_byte_fifos(struct u16550 *uart, uint8_t *enabled);

/*
 * Whether the chip shows what was written to it: the frame, these outputs, which after u16550_init are 0x0b, the interrupts, the
 * divisor, and whether the FIFOs are on. Call it after a call that sets the chip up, if the chip may ignore a write. Returns an
 * enum u16550_configuration_error if a register differs; *difference then has both values. difference may be null. It reads the
 * latch only if LCR shows DLAB, writes LCR back, and is without interrupts while it reads ISR.
 */
/*
 * Proved: the registers show the configuration and these outputs, without loopback; or one does
 * not, and the error has what was asked for and what it shows; or the configuration has no
 * divisor, and no access was made.
 */
int u16550_check_configured(struct u16550 *uart, uint8_t outputs, struct u16550_difference *difference);

/* Whether a remote is there and ready to receive. Returns an enum u16550_remote_error if not. */
/*
 * Proved: one read of MSR, which shows DSR and CTS; or which does not show the one that the error
 * names.
 */
int u16550_check_connected(struct u16550 *uart);

/*
 * Changes baud rate and frame to those of this configuration while the port runs: writes LCR, DLL, DLM and LCR, and nothing
 * else. So FIFOs, outputs to the modem and interrupts stay as they are, and no byte is discarded; characters that are on the
 * line may be cut, and a break ends. interrupts, fifo_trigger_level and check_cts_before_sending are not used. Returns an enum
 * u16550_frame_error if the divisor cannot be had.
 */
/*
 * Proved: clock, baud rate and frame are stored, and written to the divisor latch and to LCR; or
 * there is no divisor, and nothing is done.
 */
int u16550_set_frame(struct u16550 *uart, const struct u16550_config *config);

/* Waits until all that was sent is on the line, within the spin limit, and then does the same. */
/*
 * Proved: after a wait for an empty transmitter all is as in u16550_set_frame; or there is no
 * divisor, and nothing is done; or the wait reaches the limit, and nothing is written.
 */
int u16550_set_frame_when_idle(struct u16550 *uart, const struct u16550_config *config);

/*
 * Sets the trigger level of the receiver FIFO to 1, 4, 8 or 14 characters, without a reset: what is in the FIFOs stays. Returns
 * U16550_FIFOS_OFF, without an access, if the FIFOs are off.
 */
/*
 * Proved: with the FIFOs on, the level is stored and written to FCR; with them off, nothing is
 * done, and the result is the error.
 */
int u16550_set_trigger_level(struct u16550 *uart, uint8_t characters);

/*
 * Leaves the port so that the chip interrupts nobody: writes 0 to IER, then the outputs to MCR without loopback, and does with
 * the FIFOs what an enum u16550_fifo_action says. Does not wait, and reads no received byte: on a chip that shows DATA_READY behind
 * a reset of its FIFOs, or after they were turned off, the next receive may return one that never arrived. u16550_init discards it.
 */
/*
 * Proved: all interrupts are disabled, the outputs are written to MCR, without loopback, and then
 * FCR, if the FIFOs are to be reset or disabled.
 */
int u16550_quiesce(struct u16550 *uart, uint8_t outputs, uint8_t fifos);

/*
 * Writes what a dump shows back to the chip, for example after it was without power: divisor and frame without DLAB, FCR, MCR
 * without loopback, SPR, and IER in the end. Both FIFOs are emptied; if they were on, they get the configured trigger level. It reads
 * no received byte, so on a chip as with u16550_quiesce receive what waits, and discard it.
 */
/*
 * Proved: divisor and frame, the FIFOs, and then MCR without loopback, SPR and IER are written as
 * the dump has them. If it has the FIFOs on, ISR shows whether they are.
 */
int u16550_restore(struct u16550 *uart, const struct u16550_dump *dump);

/*
 * Takes a port as it was set up, for example by firmware: finds out whether the FIFO is on, and gives the divisor, which is
 * not 0. It reads LCR, MCR, the divisor latch, for which it sets DLAB and then writes LCR back, and ISR; nothing else is
 * written. The read of ISR acknowledges a THR_EMPTY interrupt. The driver's configuration stays as it was, since nobody knows
 * the chip's clock. Returns an enum u16550_attach_error if the port is not one to be taken. ISR was not read then, and the
 * driver is as it was.
 */
/*
 * Proved: LCR shows that DLAB is off, MCR that loopback is off, the divisor latch a divisor, and
 * ISR whether the FIFOs are on, which the driver takes them to be; or these are read up to the one
 * that the error is about, and the driver stays as it was.
 */
int u16550_attach(struct u16550 *uart, uint8_t *dll, uint8_t *dlm);

/*
 * For last words, in a panic. The call that the panic came into is never done, and every function over its driver returns
 * U16550_BUSY from then on. So make a driver for the same device in other memory, by u16550_new, u16550_new_port or
 * u16550_new_mmio, give it a spin limit, and call this over it. It takes the device over, whatever state that is in, so that text
 * goes out: it clears DLAB and the break, writes 0 to IER, and clears loopback and flow control in MCR, with DTR and RTS set. FIFOs,
 * baud rate and frame stay as they are. If the panic may have come into u16550_init or u16550_set_frame, call u16550_flush and
 * u16550_set_frame next. Then send: one byte at a time goes out, and each wait ends after the spin limit.
 *
 * Whoever accessed the device before must not go on: mask the interrupts, and stop the other processors before.
 *
 * Returns U16550_ATTACH_DIVISOR_LATCH_OPEN if DLAB or the break stays set after as many writes as the spin limit, as where no
 * device is, and U16550_ATTACH_LOOPBACK if the chip stays in loopback. Refused by U16550_HAS_RINGS if the driver has rings.
 */
int u16550_emergency(struct u16550 *uart);

/* --------------------------------------------------------------- outputs
 *
 * on is 0 or 1; another number is refused by U16550_BAD_CODE.
 */

/* Writes MCR with these bits, an enum u16550_mcr_bits, but never loopback. */
/* Proved: these bits are written to MCR, without loopback. */
int u16550_set_modem_control(struct u16550 *uart, uint8_t outputs);

/* Asserts or clears one output, and leaves the others. Clears loopback. */
/* Proved: MCR is read, and written with this bit set or cleared, without loopback. */
int u16550_set_rts(struct u16550 *uart, uint8_t on);
/* Proved: MCR is read, and written with this bit set or cleared, without loopback. */
int u16550_set_dtr(struct u16550 *uart, uint8_t on);

/* Begins or ends a break. */
/* Proved: LCR is read, and written with the break set or cleared. */
int u16550_set_break(struct u16550 *uart, uint8_t on);

/* --------------------------------------------------------------- sending and receiving */

/* These two and the next two do not wait. They return U16550_RECEIVE_NO_DATA or an enum u16550_send_error. */
/* Proved: one read of LSR, which shows a received byte exactly if the result is U16550_OK. */
int u16550_ready_to_receive(struct u16550 *uart);
/*
 * Proved: one send check: LSR shows THR_EMPTY and, if CTS is checked, the modem lines allow
 * sending; or the error names which of these is not so.
 */
int u16550_ready_to_send(struct u16550 *uart);
/* Proved: LSR shows a received byte, which is read from DATA and returned; or LSR shows none. */
int u16550_try_receive_byte(struct u16550 *uart, uint8_t *byte);
/*
 * Proved: the accesses of u16550_send_bytes for this one byte, which is sent exactly if the result
 * is U16550_OK; the only error is U16550_SEND_NO_CAPACITY.
 */
int u16550_try_send_byte(struct u16550 *uart, uint8_t byte);

/*
 * Receive what is there, or send one burst, without waiting. *count is how many bytes it was, perhaps 0. A burst has as many bytes
 * as u16550_fifo_size says if the FIFO is on, else one.
 */
/*
 * Proved: bytes are read from DATA, each after LSR shows it, until the slots are full, or LSR
 * shows none.
 */
int u16550_receive_bytes(struct u16550 *uart, uint8_t *buffer, size_t len, size_t *count);
/*
 * Proved: nothing if there are no bytes; else a send check and, if it succeeds, bytes from the
 * front are written to DATA: as many as a FIFO of the size that is set holds, or one if it is off.
 * The result is how many.
 */
int u16550_send_bytes(struct u16550 *uart, const uint8_t *buffer, size_t len, size_t *count);

/*
 * The same as u16550_send_bytes for a chip whose transmitter FIFO has 16, 32, 64, 128 or 256 characters: one burst of that size,
 * whatever u16550_fifo_size says. On a chip with fewer the bytes that do not fit are lost.
 */
/*
 * Proved: nothing if there are no bytes; else a send check and, if it succeeds, bytes from the
 * front are written to DATA: as many as a FIFO of this size holds, or one if it is off. The result
 * is how many.
 */
int u16550_send_burst(struct u16550 *uart, const uint8_t *buffer, size_t len, uint16_t fifo_size, size_t *count);

/*
 * The same as u16550_send_bytes for bytes in a circular buffer: an urgent byte, as XOFF is, and then the bytes of both parts, in one burst
 * wherever the parts meet. urgent may be null, and there is no such byte then. *count is how many of these bytes were sent, from the front:
 * the urgent one is the first of them.
 */
/*
 * Proved: nothing if there are no bytes; else a send check and, if it succeeds, bytes from the
 * front are written to DATA: as many as a FIFO of the size that is set holds, or one if it is off.
 * The result is how many.
 */
int u16550_send_gathered(struct u16550 *uart, const uint8_t *urgent, const uint8_t *first, size_t first_len,
                         const uint8_t *second, size_t second_len, size_t *count);

/*
 * The same as u16550_try_receive_byte and u16550_receive_bytes, with the line errors of each byte. A chip shows these once: if
 * an earlier call has looked at the first byte, its errors are missing here. The next u16550_lsr has all of them.
 */
/*
 * Proved: LSR shows a received byte, which is read from DATA and returned with the errors that LSR
 * shows; or LSR shows none.
 */
int u16550_try_receive_with_errors(struct u16550 *uart, struct u16550_received *received);
/*
 * Proved: bytes are read from DATA, each after LSR shows it and its errors, until the slots are
 * full, or LSR shows none.
 */
int u16550_receive_with_errors(struct u16550 *uart, struct u16550_received *received, size_t len, size_t *count);

/*
 * Receive or send all bytes, and wait for each. They return U16550_STALLED after as many unsuccessful polls in a row as the
 * spin limit. *done is how many bytes were done, also after a stall. done may be null.
 */
/*
 * Proved: the slots are filled, each after its own wait; or those before the one whose wait
 * reaches the limit, as many as *done says.
 */
int u16550_receive_bytes_exact(struct u16550 *uart, uint8_t *buffer, size_t len, size_t *done);
/*
 * Proved: all bytes, burst by burst, each burst after its own wait; or those before the burst
 * whose wait reaches the limit, as many as *done says.
 */
int u16550_send_bytes_exact(struct u16550 *uart, const uint8_t *buffer, size_t len, size_t *done);

/*
 * The same as the two above, and wait no longer than keep_waiting wants: it gets the context after each unsuccessful
 * poll, and the wait ends by U16550_WAIT_ENDED if it returns 0. So a wait can end at a time, by whatever clock there is. The spin limit
 * ends it too, by U16550_STALLED. keep_waiting must not be null, and a call over this driver from it returns U16550_BUSY.
 */
/*
 * Proved: with the answers of the caller: the slots are filled, each byte after its own wait; or
 * those before the one whose wait ended in vain, as many as *done says; the result tells what
 * ended that wait.
 */
int u16550_receive_bytes_while(struct u16550 *uart, uint8_t *buffer, size_t len, uint8_t (*keep_waiting)(void *context),
                               void *context, size_t *done);
/*
 * Proved: with the answers of the caller: all bytes, burst by burst, each burst after its own
 * wait; or those before the burst whose wait ended in vain, as many as *done says; the result
 * tells what ended that wait.
 */
int u16550_send_bytes_while(struct u16550 *uart, const uint8_t *buffer, size_t len, uint8_t (*keep_waiting)(void *context),
                            void *context, size_t *done);

/* The same wait as u16550_flush, and no longer than keep_waiting wants. */
/*
 * Proved: with the answers of the caller: the transmitter was empty after fewer misses in a row
 * than the limit; or the wait was in vain, and the result tells what ended it.
 */
int u16550_flush_while(struct u16550 *uart, uint8_t (*keep_waiting)(void *context), void *context);

/*
 * Some bytes after a wait for the first, and a wait until all is sent. These three return U16550_STALLED after as many unsuccessful
 * polls in a row as the spin limit. The last two do not wait: they say whether there is a byte, or room for one.
 */
int u16550_read(struct u16550 *uart, uint8_t *buffer, size_t len, size_t *count);
int u16550_write(struct u16550 *uart, const uint8_t *buffer, size_t len, size_t *count);
int u16550_flush(struct u16550 *uart);
int u16550_read_ready(struct u16550 *uart, uint8_t *ready);
int u16550_write_ready(struct u16550 *uart, uint8_t *ready);

/* Whether the transmitter has sent everything: the FIFO and the byte on the line. Does not wait. */
/* Proved: one read of LSR, which shows whether the transmitter is empty. */
int u16550_is_idle(struct u16550 *uart, uint8_t *idle);

/*
 * Whether the chip is gone, as one that was unplugged: whether MCR shows 0xff, as most buses do where nobody answers. Then all that is
 * received is 0xff, and all sends succeed. Reads MCR once, which changes nothing. A bus of 0x7f or 0 is not told from a chip:
 * u16550_check_present, which writes SPR, tells it.
 */
/*
 * Proved: one read of MCR, which shows all bits set, as a bus does that nobody drives, exactly if
 * *gone is 1.
 */
int u16550_is_gone(struct u16550 *uart, uint8_t *gone);

/*
 * Sends a text as terminals expect it: a line feed as carriage return and line feed, backspace and delete as backspace,
 * space and backspace. The text is UTF-8, and needs no zero at its end. After U16550_STALLED *done is how many bytes were
 * sent. done may be null.
 */
int u16550_write_text(struct u16550 *uart, const char *text, size_t len, size_t *done);

/* The same for a text that need not be UTF-8. */
int u16550_write_raw_text(struct u16550 *uart, const char *text, size_t len, size_t *done);

/* --------------------------------------------------------------- registers */

/* LSR and MSR are joined with what the driver saved of them, which is then forgotten. */
int u16550_ier(struct u16550 *uart, uint8_t *value);
int u16550_isr(struct u16550 *uart, uint8_t *value);
int u16550_lcr(struct u16550 *uart, uint8_t *value);
int u16550_mcr(struct u16550 *uart, uint8_t *value);
/* Proved: one read of LSR, which is returned joined with the saved bits, of which none are left. */
int u16550_lsr(struct u16550 *uart, uint8_t *value);
/* Proved: one read of MSR, which is returned joined with the saved bits, of which none are left. */
int u16550_msr(struct u16550 *uart, uint8_t *value);
int u16550_spr(struct u16550 *uart, uint8_t *value);
/*
 * Proved: LCR is read, and written with DLAB; the divisor latch is read, its low byte first; and
 * LCR is written back.
 */
int u16550_dll_dlm(struct u16550 *uart, uint8_t *dll, uint8_t *dlm);

/* MSR as it is now. The changes in it stay saved for the next u16550_msr. */
int u16550_peek_modem(struct u16550 *uart, uint8_t *msr);

/*
 * Proved: IER is read; what it shows, with these bits added, is stored in the configuration and
 * written.
 */
int u16550_enable_interrupts(struct u16550 *uart, uint8_t interrupts);
/*
 * Proved: IER is read; what it shows, without these bits, is stored in the configuration and
 * written.
 */
int u16550_disable_interrupts(struct u16550 *uart, uint8_t interrupts);

/*
 * Makes the interrupt line fall, and rise again if an interrupt is enabled and pending: reads IER, writes 0, and writes what it
 * read. A controller that detects edges sees no new edge while the line stays high. Call this at the end of a handler that
 * leaves before ISR has shown that none is pending, and after the interrupt was masked at a controller that forgets edges.
 */
/* Proved: IER is read, then 0 is written to it, and then what was read. */
int u16550_retrigger_interrupts(struct u16550 *uart);

/* Reads all registers. What the driver saved of LSR and MSR is in the dump, and stays saved. */
int u16550_config_register_dump(struct u16550 *uart, struct u16550_dump *dump);

/* The divisor of a dump, and the baud rate that it gives with the frequency and the prescaler of a configuration. */
int u16550_dump_divisor(const struct u16550_dump *dump, uint16_t *divisor);
int u16550_dump_baud_rate(const struct u16550_dump *dump, const struct u16550_config *config, uint32_t *baud_rate);

/* --------------------------------------------------------------- a bus of two wires, as RS-485
 *
 * One end at a time sends at such a bus, and RTS or DTR switches the transceiver of this end. A bus takes a driver, and has the calls that keep
 * the direction: no byte is written while it is not to send, and it is given back only while the transmitter is empty. That is proved of the
 * code that this is made from, for these calls in any order. Delays are the caller's: between start_sending and the first byte as long as the
 * transceiver takes, and between the end of the last byte and try_finish about a bit, since some chips are empty when the stop bit begins.
 */

/*
 * The outputs with the line as it is to be while the transceiver receives. Give them to u16550_init_with: u16550_init raises RTS and DTR, and
 * this end might hold the bus.
 */
int u16550_direction_receiving(const struct u16550_direction *direction, uint8_t outputs, uint8_t *receiving);

#ifndef U16550_OMIT_BUS
/*
 * Makes a bus of a driver that is set up: makes the accesses of u16550_bus_try_finish, and there is no driver in the memory of the driver any
 * more. Returns U16550_BUS_BUSY if the transmitter is not empty; the driver then stays. Refused by U16550_HAS_RINGS if it has rings. If a call
 * over a bus that is there is not done, it returns U16550_BUSY.
 */
int u16550_bus_new(struct u16550_bus *bus, struct u16550 *uart, const struct u16550_direction *direction);

/*
 * Ends a bus, and makes a driver of it again, in this memory, as the constructors do: for other calls, as u16550_set_frame. Makes no access.
 * The direction stays as it is, so finish before.
 */
int u16550_bus_end(struct u16550_bus *bus, struct u16550 *uart);

/* Switches the transceiver to send: reads MCR, and writes it with the line so. From now on bytes may be sent. */
int u16550_bus_start_sending(struct u16550_bus *bus);

/*
 * Gives the bus back if the transmitter is empty: reads LSR once, and then MCR, which it writes with the line so that the transceiver
 * receives. Returns U16550_BUS_BUSY if it is not empty, and the direction stays. Does not wait.
 */
int u16550_bus_try_finish(struct u16550_bus *bus);

/* Whether the direction is to send. Makes no access. */
int u16550_bus_is_sending(struct u16550_bus *bus, uint8_t *sending);

/* As u16550_flush and u16550_is_idle: a wait until the transmitter is empty, and a look at it. The direction stays. */
int u16550_bus_flush(struct u16550_bus *bus);
int u16550_bus_is_idle(struct u16550_bus *bus, uint8_t *idle);

/*
 * As u16550_send_bytes and u16550_send_bytes_exact. Both return U16550_BUS_NOT_SENDING, without an access, if the direction is not to send;
 * *done is 0 then, and after U16550_STALLED how many bytes were written. done may be null.
 */
int u16550_bus_send_bytes(struct u16550_bus *bus, const uint8_t *buffer, size_t len, size_t *count);
int u16550_bus_send_bytes_exact(struct u16550_bus *bus, const uint8_t *buffer, size_t len, size_t *done);

/*
 * As u16550_receive_bytes, u16550_receive_with_errors and u16550_lsr, in either direction. If the board hears what this end sends, those bytes
 * are received too.
 */
int u16550_bus_receive_bytes(struct u16550_bus *bus, uint8_t *buffer, size_t len, size_t *count);
int u16550_bus_receive_with_errors(struct u16550_bus *bus, struct u16550_received *received, size_t len, size_t *count);
int u16550_bus_lsr(struct u16550_bus *bus, uint8_t *value);
#endif

/* --------------------------------------------------------------- rings, for use with interrupts
 *
 * Rings keep bytes until the chip has room for them, and received bytes until they are taken. Initialise the driver with
 * DATA_READY and RECEIVER_LINE_STATUS enabled, and call u16550_ring_try_handle in the interrupt handler. No ring call waits. All
 * calls above work on a driver with rings; what they send and receive bypasses the rings.
 *
 * A handler that comes into the middle of another call gets U16550_BUSY, and comes again at once if the line stays high. So turn
 * the processor's interrupts off during each call that does not wait. During one that waits they may stay on: the handler then
 * masks the line at the interrupt controller on U16550_BUSY, and after the call the program unmasks it and calls
 * u16550_retrigger_interrupts. examples/console.c is such a handler.
 */

#define U16550_MAX_CAPACITY 4096
#define U16550_MAX_INTERRUPTS 8

#ifndef U16550_OMIT_RINGS
/*
 * Gives a driver rings for so many bytes to be sent and so many received bytes, in this memory of size bytes. The memory is
 * the rings' until u16550_ring_end or u16550_end, or until another driver is made in the place of this one. Refused by an
 * enum u16550_ring_error.
 */
int u16550_ring_new(struct u16550 *uart, uint8_t *memory, size_t size, size_t tx_capacity, size_t rx_capacity);

/* Ends the rings, with the bytes in them. The driver stays. */
int u16550_ring_end(struct u16550 *uart);

/* How many bytes wait to be sent, how many were received and not taken, and whether receiving is paused. */
int u16550_ring_transmit_len(struct u16550 *uart, size_t *len);
int u16550_ring_receive_len(struct u16550 *uart, size_t *len);
int u16550_ring_is_paused(struct u16550 *uart, uint8_t *paused);

/* Queues bytes to be sent, as many as there is room for. *count is how many. */
/*
 * Proved: bytes from the front of the input are added at the end of the transmit ring, as many as
 * it has room for; if there are any, what the chip takes at once is sent.
 */
int u16550_ring_queue(struct u16550 *uart, const uint8_t *buffer, size_t len, size_t *count);

/* How many more bytes can be queued. */
int u16550_ring_transmit_room(struct u16550 *uart, size_t *room);

/*
 * Holds the bytes that are queued: what is in the chip goes out, and nothing more is handed over. The release starts sending
 * again, and misses no interrupt that came meanwhile.
 */
/* Proved: the ring is held, and no access is made. */
int u16550_ring_hold_transmit(struct u16550 *uart);
/* Proved: the ring is no longer held, and sending resumes. */
int u16550_ring_release_transmit(struct u16550 *uart);
int u16550_ring_is_held(struct u16550 *uart, uint8_t *held);

/*
 * Sends a byte before all that wait, as XON and XOFF are, also during a hold. There is one place: a byte that still waits there is
 * replaced, and *replaced is that byte. The second tells which byte still waits.
 */
/*
 * Proved: the byte is the urgent one, in place of one that waited, which is returned; and what the
 * chip takes at once is sent.
 */
int u16550_ring_queue_urgent(struct u16550 *uart, uint8_t byte, struct u16550_urgent *replaced);
int u16550_ring_urgent(struct u16550 *uart, struct u16550_urgent *urgent);

/*
 * Drop the bytes that are queued, and those that were received and not taken. *count is how many. An urgent byte and what is in the
 * chip stay.
 */
/* Proved: the transmit ring is emptied without an access, and the result is how many bytes it had. */
int u16550_ring_clear_transmit(struct u16550 *uart, size_t *count);
/*
 * Proved: the receive ring is emptied, and the result is how many bytes it had; if it had any, a
 * pause of receiving ends.
 */
int u16550_ring_clear_receive(struct u16550 *uart, size_t *count);

/*
 * The low mark, a number of queued bytes, is 0 at first. *low is whether their number fell from above the mark to the mark or
 * below since the last call. Ask at the end of the handler, and wake who waits for room.
 */
/* Proved: the low mark is stored, and no access is made. */
int u16550_ring_set_low_mark(struct u16550 *uart, size_t mark);
/* Proved: whether a fall to the low mark was noted, which is then forgotten. */
int u16550_ring_take_low(struct u16550 *uart, uint8_t *low);

/* Takes received bytes, as many as there are and as there is room for. *count is how many. */
/*
 * Proved: the bytes are from the front of the receive ring, as many as there are slots and bytes;
 * if there are any, a pause of receiving ends.
 */
int u16550_ring_take(struct u16550 *uart, uint8_t *buffer, size_t len, size_t *count);

/*
 * Has the driver note the errors of each received byte from now on, for u16550_ring_take_with_errors. Call it before u16550_init. The
 * memory has room for the errors of so many bytes, one byte each: as many as the receive ring has room for. Refused by
 * U16550_RING_BAD_CAPACITY. It makes no access, and no call makes another one for it; rings without it cost what they cost before.
 *
 * The notes lie between the driver and its functions until u16550_end_notes or u16550_end, and are in no other use so long; their
 * memory too. Meanwhile u16550_get_io returns functions of the library, u16550_set_io is to be given no others, and
 * u16550_design_ware_fault finds no chip. u16550_end_notes gives the driver its functions back.
 */
int u16550_note_errors(struct u16550 *uart, struct u16550_notes *notes, uint8_t *memory, size_t capacity);
int u16550_end_notes(struct u16550 *uart);

/*
 * Takes received bytes as u16550_ring_take does, each with its errors; the two may be called in turn. With the FIFO on, the parity
 * error, the framing error and the break of a byte are exactly those of its character. An overrun of before the notes were made, or of
 * before u16550_init, is at no byte: u16550_ring_take_line alone tells of it.
 *
 * A call that receives passes the rings by, and its bytes are the last that were read. So make one only while the receive ring is
 * empty; else errors stand at the wrong bytes until all bytes of the ring are taken.
 *
 * Returns U16550_RING_UNNOTED if fewer errors are noted than bytes are in the receive ring: the notes have room for fewer, or were
 * made later. Then nothing is taken, and *count is how many bytes at the front have no note: u16550_ring_take takes them.
 */
int u16550_ring_take_with_errors(struct u16550 *uart, struct u16550_received *received, size_t len, size_t *count);

/*
 * Holds the other end back by RTS, or lets it go on: RTS goes off if there is room for fewer received bytes than hold, and on if there
 * is room for at least release. Between the two it stays as it is. The other end has to check CTS. Call it at the end of the handler,
 * and after each u16550_ring_take and u16550_ring_clear_receive: while the other end is held back no byte arrives, so nothing calls
 * the handler. rust/uart_16550/INTERRUPTS.md says which marks to choose; release is to be at most the capacity, or RTS never goes on
 * again. MCR is read, and written if RTS is not so yet: the other outputs as they were, and loopback off.
 */
/*
 * Proved: RTS is off if the receive ring has room for fewer bytes than hold, on if it has room for
 * release or more, and else stays. For this MCR is read, and written only if it shows RTS
 * otherwise.
 */
int u16550_ring_adjust_rts(struct u16550 *uart, size_t hold, size_t release);

/*
 * The same by XOFF and XON, where RTS is not wired. The character goes out before all that wait, as that of a u16550_ring_queue_urgent,
 * also during a hold. What was told last is not told again, and nothing is told while another urgent byte waits: the next call does it.
 * *told is the character. Choose hold with room for what comes until the other end has read an XOFF that goes out after what is in the
 * chip. Marks of 0 let the other end go on in any case.
 */
/*
 * Proved: the other end is told XOFF if the receive ring has room for fewer bytes than hold, and
 * XON if it has room for release or more, as a u16550_ring_queue_urgent sends it. What was told
 * last is not told again, and nothing is told while another urgent byte waits. The result is what
 * was told.
 */
int u16550_ring_adjust_xoff(struct u16550 *uart, size_t hold, size_t release, struct u16550_urgent *told);

/*
 * Obeys the other end that tells this one XOFF and XON: holds the bytes that are queued at an XOFF, and releases them at an XON. Of the
 * bytes that came since the last call and are not taken yet, the last XON or XOFF counts, and *told is that one. All bytes stay to be
 * taken. The hold is that of u16550_ring_hold_transmit. Call it at the end of the handler.
 */
/*
 * Proved: of the bytes that came into the receive ring since it looked last, and are still there,
 * the last XON or XOFF is obeyed, and is the result. All bytes stay there.
 */
int u16550_ring_obey_xoff(struct u16550 *uart, struct u16550_urgent *told);

/*
 * Starts sending again if bytes wait with no interrupt to come: when CTS came back and the configuration checks it; and after each
 * of these, which take the interrupt away: u16550_isr, u16550_config_register_dump, u16550_attach, u16550_disable_interrupts of
 * U16550_IER_THR_EMPTY, u16550_quiesce, u16550_restore, u16550_test_loopback, u16550_init and u16550_init_with.
 */
/*
 * Proved: if bytes wait, what the chip takes at once is sent, and THR_EMPTY is enabled if some are
 * left, else disabled.
 */
int u16550_ring_resume_transmit(struct u16550 *uart);

/*
 * Serves interrupts until ISR shows that none is pending, but at most limit. Otherwise it makes the interrupt line fall and
 * rise again, as u16550_ring_retrigger does. *handled says how many it served, and why it ended.
 *
 * Call it once in an interrupt handler, whether the controller detects levels or edges: the line was low at some time during
 * the call, so what is pending afterwards makes a new edge. It does not wait, and ends on a chip that shows an interrupt for
 * ever. But then the controller calls the handler for ever, unless somebody counts: u16550_ring_try_handle does.
 */
/*
 * Proved: as many interrupts as are pending are served, but no more than the limit; if a line
 * status shows room, bytes that wait are sent behind the data that comes next. Then, unless ISR
 * has shown that none is pending, IER is read, and written with 0 and with what was read: what is
 * left is triggered again.
 */
int u16550_ring_handle(struct u16550 *uart, size_t limit, struct u16550_handled *handled);

/*
 * Handles the interrupt as u16550_ring_handle does, and ends a storm. If so many rounds in a row have ended with another end
 * than U16550_HANDLE_IDLE, and moved no byte between the rings and the chip, it reads ISR once more. If that still shows an
 * interrupt, the chip is stuck: the call writes 0 to IER, and returns an enum u16550_stuck_error. While the chip is stuck, each
 * further call writes 0 to IER again and returns the same, and the rings hand no byte to the chip. A limit below 6 counts as 6, so
 * that a chip that works is not found stuck: see rust/uart_16550/INTERRUPTS.md. 100 rounds are 3,200 interrupts without a pause, if
 * the limit is 32.
 */
/*
 * Proved: a u16550_ring_handle, whose round is counted, and after which the chip may be found
 * stuck; or, if the chip is stuck already, all interrupts are disabled again. The error is why it
 * is stuck.
 */
int u16550_ring_try_handle(struct u16550 *uart, size_t limit, uint32_t rounds, struct u16550_handled *handled);

/* Whether the chip is stuck, and what ISR showed. */
int u16550_ring_stuck(struct u16550 *uart, struct u16550_stuck *stuck);

/*
 * Starts a chip again that is stuck: enables these interrupts, U16550_IER_DATA_READY not while receiving is paused, and sends
 * what waits. After u16550_init, which enables interrupts itself, give 0.
 */
/*
 * Proved: these interrupts are enabled, without DATA_READY while receiving is paused; the chip is
 * not stuck any more, and sending resumes.
 */
int u16550_ring_restart(struct u16550 *uart, uint8_t interrupts);

/* The same as u16550_retrigger_interrupts. */
/* Proved: IER is read, and written with 0 and then with what was read. */
int u16550_ring_retrigger(struct u16550 *uart);

/*
 * Serves the interrupts that are pending, at most U16550_MAX_INTERRUPTS, for a handler of your own. *count is how many. If it
 * is the most, or ISR shows an interrupt without a name, the line may still be high.
 */
/*
 * Proved: at most 8 interrupts are served, and bytes are sent at THR-empty alone. It tells how
 * many, and not why it ended.
 */
int u16550_ring_service(struct u16550 *uart, size_t *count);

/*
 * Handles the interrupt of a line that these ports share, whether the controller detects levels or edges. At each port in turn it
 * does what u16550_ring_try_handle does, and disables the chip's interrupts; once all are disabled, so that the line is low, it
 * enables them again at each. So if the line is high afterwards, it has risen since, and a controller that detects edges calls the
 * handler again. A chip that is stuck stays off, and the others are served. *served is whether an interrupt was served at one of
 * them.
 *
 * Call it once in the handler of the line, under one lock that all calls at these ports take. With a lock for each port another
 * processor could let the line of one rise before that of the next has fallen, and no edge would ever come again.
 *
 * If one of the ports has no driver or no rings, or a call at it is not done, the number of this is returned, and nothing was done
 * at any.
 */
int u16550_line_handle(struct u16550_line_port *ports, size_t count, size_t limit, uint32_t rounds, uint8_t *served);

/* LSR or MSR, joined with the errors or changes that were noted since the last of these calls. */
/* Proved: u16550_lsr, joined with what was noted, after which nothing is noted. */
int u16550_ring_take_line(struct u16550 *uart, uint8_t *lsr);
/* Proved: u16550_msr, joined with what was noted, after which nothing is noted. */
int u16550_ring_take_modem(struct u16550 *uart, uint8_t *msr);

/*
 * Reads all registers, as u16550_config_register_dump does, and then starts sending again if bytes wait: the read of ISR may take
 * away the interrupt that would have sent them.
 */
/*
 * Proved: the dump of the driver, whose read of ISR may acknowledge THR_EMPTY; and then sending
 * resumes.
 */
int u16550_ring_config_register_dump(struct u16550 *uart, struct u16550_dump *dump);
#endif

/* --------------------------------------------------------------- the layout of structs
 *
 * A library that lays structs out otherwise than its program would write behind them. So the functions that make a driver look first whether
 * both were compiled for each other, and return U16550_OTHER_LAYOUT if not, without an access to any memory of the program.
 */

/* Each struct. How many bytes they are together says how a compiler lays structs out. */
struct u16550_structs {
    struct u16550_io io;
    struct u16550_layout layout;
    struct u16550_config config;
    struct u16550_state state;
    struct u16550_dump dump;
    struct u16550_setup setup;
    struct u16550_loopback_failure loopback_failure;
    struct u16550_difference difference;
    struct u16550_received received;
    struct u16550_handled handled;
    struct u16550_line_port line_port;
    struct u16550_urgent urgent;
    struct u16550_direction direction;
    struct u16550_stuck stuck;
    struct u16550_design_ware design_ware;
    struct u16550_bus bus;
    struct u16550_notes notes;
    struct u16550 driver;
};

/* The version of this header and the layout of its structs. */
#define U16550_LAYOUT (65536ul * U16550_VERSION_NUMBER + sizeof(struct u16550_structs))

/*
 * Returns U16550_OK if each of the three is the library's number, or U16550_OTHER_LAYOUT. Then the library is of another version; or one of
 * the two was compiled with an option that changes structs, as -fpack-struct; or with one that changes where arguments are, as -mregparm, so
 * that the library finds other numbers than it was given.
 */
int u16550_check_layout(uint32_t first, uint32_t second, uint32_t third);

#define U16550_LOOK() u16550_check_layout(U16550_LAYOUT, U16550_LAYOUT, U16550_LAYOUT)
#define U16550_LAID_OUT(call) (U16550_LOOK() == U16550_OK ? (call) : U16550_LOOK())
#define u16550_new(...) U16550_LAID_OUT(u16550_new(__VA_ARGS__))
#define u16550_new_port(...) U16550_LAID_OUT(u16550_new_port(__VA_ARGS__))
#define u16550_new_mmio(...) U16550_LAID_OUT(u16550_new_mmio(__VA_ARGS__))
#define u16550_new_mmio_wide(...) U16550_LAID_OUT(u16550_new_mmio_wide(__VA_ARGS__))
#define u16550_new_design_ware(...) U16550_LAID_OUT(u16550_new_design_ware(__VA_ARGS__))
#define u16550_new_mmio_design_ware(...) U16550_LAID_OUT(u16550_new_mmio_design_ware(__VA_ARGS__))
#define u16550_from_state(...) U16550_LAID_OUT(u16550_from_state(__VA_ARGS__))

#if defined(__cplusplus)
}
#endif

#endif
