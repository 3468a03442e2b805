/*
 * uart_16550.h - a 16550A or 16450 serial chip in software, and a serial port for virtual machine monitors over it.
 *
 * What crates/uart_c exports, as C declares it: tools/c/emit makes c/uart_port.h of this. A program takes that one.
 *
 * Every pointer must be valid, aligned and not null, also one to an array of length 0. Pointers that a function writes
 * through must not overlap with its others.
 */
#ifndef UART_16550_H
#define UART_16550_H

#include <stddef.h>
#include <stdint.h>

#ifdef __cplusplus
extern "C" {
#endif

/* What most functions return. Whatever is not UART_OK changed nothing. */
enum uart_status {
    UART_OK = 0,
    UART_BAD_TICKS = 1,  /* a character takes 1 to 1000 ticks */
    UART_BAD_WIRE = 2,   /* the wire has room for at most UART_WIRE_ROOM bytes */
    UART_BAD_ERRORS = 3, /* a character has parity, framing and break errors alone */
    UART_BAD_LINES = 4,  /* the modem lines are CTS, DSR, RI and CD */
    UART_BAD_CHIP = 5,   /* the saved data are those of no sound chip */
    UART_BAD_PORT = 6,   /* the saved data are those of no port */
    UART_BAD_FIFO = 8    /* the FIFOs hold 16, 32, 64 or 128 characters */
};

/* --------------------------------------------------------------- the registers
 *
 * Their offsets, and their bits. A register that is read and one that is written may share an offset, and while UART_LCR_DLAB
 * is set, DLL and DLM are in the place of DATA and IER. The chip in software has no prescaler and no DMA: it keeps no bit of
 * these.
 */

#define UART_OFFSET_DATA 0
#define UART_OFFSET_IER 1
#define UART_OFFSET_ISR 2 /* on reads */
#define UART_OFFSET_FCR 2 /* on writes */
#define UART_OFFSET_LCR 3
#define UART_OFFSET_MCR 4
#define UART_OFFSET_LSR 5
#define UART_OFFSET_MSR 6
#define UART_OFFSET_SPR 7
#define UART_OFFSET_DLL 0
#define UART_OFFSET_DLM 1
#define UART_OFFSET_PSD 6
#define UART_NUM_REGISTERS 8

/* Interrupt enable. */
#define UART_IER_DATA_READY 0x01
#define UART_IER_THR_EMPTY 0x02
#define UART_IER_RECEIVER_LINE_STATUS 0x04
#define UART_IER_MODEM_STATUS 0x08
#define UART_IER_DMA_RX_END 0x40
#define UART_IER_DMA_TX_END 0x80

/* Interrupt status. */
#define UART_ISR_INTERRUPT_STATUS 0x01 /* clear while an interrupt is pending */
#define UART_ISR_IIC_0 0x02            /* bits of the interrupt identification code */
#define UART_ISR_IIC_1 0x04
#define UART_ISR_IIC_2 0x08
#define UART_ISR_DMA_RX_END 0x10
#define UART_ISR_DMA_TX_END 0x20
#define UART_ISR_FIFO_64_ENABLED 0x20  /* the FIFOs hold 64 characters: 16750; the chip of this library does not show it */
#define UART_ISR_FIFOS_ENABLED0 0x40
#define UART_ISR_FIFOS_ENABLED1 0x80
#define UART_ISR_FIFOS_ENABLED 0xc0    /* both are set while the FIFOs are on */

/* FIFO control. */
#define UART_FCR_FIFO_ENABLE 0x01
#define UART_FCR_RX_FIFO_RESET 0x02
#define UART_FCR_TX_FIFO_RESET 0x04
#define UART_FCR_DMA_MODE 0x08
#define UART_FCR_ENABLE_DMA_END 0x10
#define UART_FCR_FIFO_64_ENABLE 0x20        /* FIFOs of 64 characters: 16750, while DLAB is set; the chip of this library has no such bit */
#define UART_FCR_RX_FIFO_TRIGGER_LEVEL0 0x40
#define UART_FCR_RX_FIFO_TRIGGER_LEVEL1 0x80
#define UART_FCR_RX_FIFO_TRIGGER_LEVEL 0xc0 /* 1, 4, 8 or 14 characters, with FIFOs of 16 */

/* Line control. */
#define UART_LCR_WORD_LENGTH0 0x01
#define UART_LCR_WORD_LENGTH1 0x02
#define UART_LCR_WORD_LENGTH 0x03      /* 5, 6, 7 or 8 bits */
#define UART_LCR_MORE_STOP_BITS 0x04
#define UART_LCR_PARITY0 0x08          /* there is parity */
#define UART_LCR_PARITY1 0x10          /* even */
#define UART_LCR_PARITY2 0x20          /* forced to a constant */
#define UART_LCR_SET_BREAK 0x40
#define UART_LCR_DLAB 0x80

/* Modem control. */
#define UART_MCR_DTR 0x01
#define UART_MCR_RTS 0x02
#define UART_MCR_OUT_1 0x04
#define UART_MCR_OUT_2_INT_ENABLE 0x08
#define UART_MCR_LOOP_BACK 0x10
#define UART_MCR_AUTO_FLOW 0x20 /* RTS and CTS by the chip: 16750, 16950, DesignWare; the chip of this library has no such bit */
#define UART_MCR_READY 0x0b /* there, ready, interrupt connected: DTR, RTS, OUT2 */

/* Line status. */
#define UART_LSR_DATA_READY 0x01
#define UART_LSR_OVERRUN_ERROR 0x02
#define UART_LSR_PARITY_ERROR 0x04
#define UART_LSR_FRAMING_ERROR 0x08
#define UART_LSR_BREAK_INTERRUPT 0x10
#define UART_LSR_THR_EMPTY 0x20
#define UART_LSR_TRANSMITTER_EMPTY 0x40
#define UART_LSR_FIFO_DATA_ERROR 0x80
#define UART_LSR_CHARACTER_ERRORS 0x1c /* parity, framing and break */
#define UART_LSR_LINE_ERRORS 0x1e      /* those and overrun: what a read clears */
#define UART_LSR_ERRORS 0x9e

/* Modem status. */
#define UART_MSR_DELTA_CTS 0x01
#define UART_MSR_DELTA_DSR 0x02
#define UART_MSR_TRAILING_EDGE_RI 0x04
#define UART_MSR_DELTA_CD 0x08
#define UART_MSR_CTS 0x10
#define UART_MSR_DSR 0x20
#define UART_MSR_RI 0x40
#define UART_MSR_CD 0x80
#define UART_MSR_CHANGES 0x0f          /* what a read clears */
#define UART_MSR_LINES 0xf0

/* Prescaler division, on chips that have a prescaler. */
#define UART_PSD_PDF0 0x01
#define UART_PSD_PDF1 0x02
#define UART_PSD_PDF2 0x04
#define UART_PSD_PDF3 0x08

/* ------------------------------------------------------------------ the chip
 *
 * The chip is plain data of its owner: a copy of the struct is a snapshot, and to copy it back restores the chip. A snapshot
 * that comes from elsewhere, as from a file, is restored by uart_chip_load, which refuses what is no chip.
 *
 * Its owner makes the guest's accesses with uart_chip_read and uart_chip_write, lets time pass with uart_chip_ticks, brings
 * characters with uart_chip_arrive, takes what goes out with uart_chip_take_wire, and asks for the level of the interrupt
 * line with uart_chip_is_interrupting. No time passes but in uart_chip_ticks. A virtual machine monitor rather takes the port
 * below, which needs no clock, and says when to signal the guest and when there is room for input again.
 *
 * The FIFOs of a chip hold 16 characters, or 32, 64 or 128: then it was made by uart_chip_new_sized. Nothing that a guest reads says
 * which, so tell it, for example by fifo-size in a device tree. One that does not know takes them to hold 16, and loses nothing. A length
 * is a byte, so there are no FIFOs of 256. Each struct has room for FIFOs of UART_FIFO_ROOM characters, of which one of 16 uses the first
 * 16: a chip is some 600 bytes.
 */

#define UART_FIFO_SIZE 16
#define UART_FIFO_ROOM 128
#define UART_WIRE_ROOM 64

enum uart_model { UART_16450 = 0, UART_16550A = 1 };

/* Whether whole bytes are sent and received, or as many bits of each as LCR says. */
enum uart_cuts { UART_WHOLE_BYTES = 0, UART_CUT = 1 };

/* The registers that keep what is written. */
struct uart_latches {
    uint8_t ier, lcr, mcr, scr, dll, dlm;
};

/* The modem's inputs, the lines that MSR shows, and their changes since its last read. */
struct uart_modem {
    uint8_t inputs, lines, deltas;
};

/* A queue of bytes. */
struct uart_bytes {
    uint8_t len;
    uint8_t items[UART_FIFO_ROOM];
};

/* The bytes that have gone out, and how many there is room for. */
struct uart_wire {
    uint8_t len, capacity;
    uint8_t items[UART_WIRE_ROOM];
};

/* What sends: the queue, the place from which a character is shifted out, and the wire. */
struct uart_transmitter {
    uint64_t overflows;      /* how many writes met a full transmitter */
    uint16_t char_ticks;     /* a character takes so many ticks */
    uint16_t ticks_left;     /* until the character in the shift register is out */
    uint8_t is_shifting;     /* there is one */
    uint8_t shift_byte;
    uint8_t is_thr_pending;  /* the interrupt THR-empty is pending */
    uint8_t fifo_size;       /* 16, 32, 64 or 128; another number counts as 16 */
    struct uart_bytes queue;
    struct uart_wire wire;
};

/* A character that waits, with its errors where LSR has them. */
struct uart_character {
    uint8_t byte, errors;
    uint8_t is_looped;       /* it came back in loopback */
};

/* A queue of characters. */
struct uart_characters {
    uint8_t len;
    struct uart_character items[UART_FIFO_ROOM];
};

/* What receives. */
struct uart_receiver {
    uint16_t timeout_ticks;  /* since a character came or was taken */
    uint16_t timeout_limit;  /* four character times */
    uint8_t is_overrun;
    uint8_t is_front_reported;
    uint8_t last_byte;
    uint8_t trigger;         /* 1, 4, 8 or 14: the level that is so many characters with a FIFO of 16 */
    uint8_t fifo_size;       /* as that of the transmitter */
    struct uart_characters queue;
};

/*
 * The chip. Bytes behind the end of a queue mean nothing, nor do shift_byte and ticks_left while is_shifting is 0. No function clears
 * them: if the struct is to leave the program as it is, let it be all 0 before a chip is made in it.
 */
struct uart_chip {
    struct uart_transmitter transmitter;
    struct uart_receiver receiver;
    struct uart_latches latches;
    struct uart_modem modem;
    uint8_t model;           /* UART_16550A or UART_16450 */
    uint8_t fifo;            /* the FIFO is on */
    uint8_t cuts;            /* characters are cut to the word length of LCR */
};

/*
 * A chip after power on. A character takes char_ticks ticks, 1 to 1000, and the wire has room for wire_capacity bytes, at
 * most UART_WIRE_ROOM, until they are taken. If the wire is full, the transmitter keeps what it holds. model is an enum
 * uart_model, and cuts an enum uart_cuts; any number but 0 counts as the second of each. A real chip cuts characters. After
 * power on LCR is 0, which says 5 bits.
 *
 * Returns UART_OK, UART_BAD_TICKS or UART_BAD_WIRE.
 */
uint32_t uart_chip_new(struct uart_chip *chip, uint8_t model, uint16_t char_ticks, uint8_t wire_capacity, uint8_t cuts);

/*
 * The same with FIFOs of fifo_size characters: 16, 32, 64 or 128. They fill and give interrupts as those of a real chip do: of 32 a 16650,
 * of 64 a 16750, of 128 a 16950. That is all that it has of these: there is no automatic flow control, no switch of the size, and what
 * ISR shows is that of a 16550A. A 16450 has no FIFOs, and is the same with any size.
 *
 * Returns UART_OK, or UART_BAD_FIFO, which comes first, UART_BAD_TICKS or UART_BAD_WIRE.
 */
uint32_t uart_chip_new_sized(struct uart_chip *chip, uint8_t model, uint8_t fifo_size, uint16_t char_ticks, uint8_t wire_capacity,
                             uint8_t cuts);

/*
 * Makes a chip like one that was saved, which may come from anywhere. It is refused exactly if it is no sound chip, that is,
 * if one of these holds. No chip that was made by a function above and used by those below is refused.
 *
 * - a queue has more than there is room for, which is one item without FIFO, or the wire more than its capacity;
 * - the transmitter has a FIFO of another size than the receiver;
 * - a character takes no 1 to 1000 ticks, or the one in the shift register has no 1 to char_ticks left;
 * - timeout_limit is not four character times, or timeout_ticks is more;
 * - a character has other errors than parity, framing and break;
 * - IER, MCR or the modem's fields have bits that the chip does not keep, or the FIFO is on in a 16450.
 *
 * Returns UART_OK or UART_BAD_CHIP.
 */
uint32_t uart_chip_load(struct uart_chip *chip, const struct uart_chip *saved);

/*
 * Saves a chip: saved becomes a chip that goes on as this one. Its flags are 0 or 1, its trigger is 1, 4, 8 or 14, the sizes of its
 * FIFOs are 16, 32, 64 or 128, and each length is within its array and its FIFO. So it is with a chip that was made or loaded, and the
 * functions below keep it so.
 */
void uart_chip_save(const struct uart_chip *chip, struct uart_chip *saved);

/* The guest reads the register. Of the offset the lowest three bits count. */
uint8_t uart_chip_read(struct uart_chip *chip, uint8_t offset);

/* The guest writes the register. Of the offset the lowest three bits count. */
void uart_chip_write(struct uart_chip *chip, uint8_t offset, uint8_t value);

/* So many ticks pass. What it costs does not grow with their number. */
void uart_chip_ticks(struct uart_chip *chip, uint16_t count);

/*
 * A character arrives, with these errors: bits of UART_LSR_CHARACTER_ERRORS. In loopback it is lost. If there is no room, one
 * is lost, which shows in the overrun flag.
 *
 * Returns UART_OK or UART_BAD_ERRORS.
 */
uint32_t uart_chip_arrive(struct uart_chip *chip, uint8_t byte, uint8_t errors);

/*
 * The modem's inputs become these: bits of UART_MSR_LINES.
 *
 * Returns UART_OK or UART_BAD_LINES.
 */
uint32_t uart_chip_set_lines(struct uart_chip *chip, uint8_t inputs);

/* 1 if the chip asks for an interrupt, that is, a read of ISR would show one; else 0. */
uint8_t uart_chip_is_interrupting(const struct uart_chip *chip);

/*
 * Takes bytes that have gone out, in order: as many as there are and as bytes has room for. Returns how many. The wire has
 * room for others then.
 */
size_t uart_chip_take_wire(struct uart_chip *chip, uint8_t *bytes, size_t room);

/* How many bytes have gone out and were not taken yet. */
size_t uart_chip_wire_len(const struct uart_chip *chip);

/* How many more bytes the wire has room for. */
size_t uart_chip_wire_room(const struct uart_chip *chip);

/* How many characters can come in before one is lost. In loopback each is lost. */
size_t uart_chip_receive_room(const struct uart_chip *chip);

/* How many characters wait for the guest to read them. */
size_t uart_chip_waiting_len(const struct uart_chip *chip);

/* How many bytes are still to go out onto the wire. */
size_t uart_chip_held_len(const struct uart_chip *chip);

/* The divisor latch, from which a baud rate follows. */
uint16_t uart_chip_divisor(const struct uart_chip *chip);

/* ------------------------------------------------------------------ the port
 *
 * A serial port of a virtual machine: a chip, and what its monitor was told last. Each call lets so much time pass that nothing
 * is left to happen, so a port needs no clock, and no guest waits for one. A byte that the guest writes is ready for the host
 * when the call returns, unless the output is full. A character that waits interrupts a guest that has this enabled.
 *
 * The monitor makes the guest's accesses with uart_port_read and uart_port_write, brings input with uart_port_receive, and takes
 * output with uart_port_output and uart_port_take_output. After each call it does what *todo says.
 *
 * A copy of the struct is a snapshot, as with the chip. To look at the chip of a port, call uart_chip_receive_room,
 * uart_chip_waiting_len, uart_chip_held_len or uart_chip_divisor with &port->chip. A call that changes the chip would leave the
 * monitor untold: call those of the port.
 */

/* What the monitor was told, as far as the next call depends on it. */
struct uart_told {
    uint8_t line;            /* the level of the interrupt line */
    uint8_t has_room;        /* the monitor may take it that there is room for input */
    uint8_t has_looked;      /* the guest has read ISR since the last signal */
    uint8_t spare;           /* how many more falls of the line the last signal covers */
};

/*
 * What the monitor has to do after a call. A monitor whose interrupt controller takes edges obeys signal. One whose controller
 * takes levels obeys level, and if there is a signal, it sets the line to 0 first: the line may have fallen and risen, which a
 * pin that detects edges, as those of a PC do, has seen no other way. Each obeys has_room. The flags are 0 or 1.
 */
struct uart_todo {
    size_t ready;            /* so many bytes of output are ready, at most UART_WIRE_ROOM */
    uint8_t signal;          /* signal the guest's interrupt once, for example by a write to an eventfd */
    uint8_t level;           /* set the interrupt line to this level */
    uint8_t has_moved;       /* that is another level than after the call before */
    uint8_t has_room;        /* offer input again: there was no room, and there is now. It is told once, when nothing waits */
};

/* The port. */
struct uart_port {
    struct uart_chip chip;
    struct uart_told told;
};

/*
 * A port after power on, without input and output. model is an enum uart_model. No interrupt is enabled, so nothing is to be done.
 */
void uart_port_new(struct uart_port *port, uint8_t model);

/*
 * The same with FIFOs of fifo_size characters: 16, 32, 64 or 128, as those of a chip from uart_chip_new_sized. A guest that knows writes
 * so many bytes at once for an interrupt, and as many characters of input are received before it reads them: the larger they are, the
 * less often the guest and its monitor are called. Linux knows by a device tree with compatible "ns16550a", fifo-size = <64> and
 * tx-threshold = <0>: it writes the size less the threshold, and 16 bytes if there is no threshold.
 *
 * Returns UART_OK or UART_BAD_FIFO.
 */
uint32_t uart_port_new_sized(struct uart_port *port, uint8_t model, uint8_t fifo_size);

/* The guest reads the register. Of the offset the lowest three bits count. */
uint8_t uart_port_read(struct uart_port *port, uint8_t offset, struct uart_todo *todo);

/* The guest writes the register. Of the offset the lowest three bits count. */
void uart_port_write(struct uart_port *port, uint8_t offset, uint8_t value, struct uart_todo *todo);

/*
 * The host has input: as many of these bytes are received as there is room for, from the front. Returns how many. If these are
 * not all, there is no room left. The first call after which nothing waits says in has_room that there is room, or one by which
 * the guest makes room otherwise than by reading DATA. Offer the others then. Without FIFO there is room for one byte, with it
 * for as many as it holds, and in loopback for none.
 */
size_t uart_port_receive(struct uart_port *port, const uint8_t *bytes, size_t len, struct uart_todo *todo);

/*
 * One character comes, with these errors: bits of UART_LSR_CHARACTER_ERRORS. A break is the byte 0 with
 * UART_LSR_BREAK_INTERRUPT. In loopback the character is lost. If there is no room, one is lost, which shows in the overrun flag.
 *
 * Returns UART_OK or UART_BAD_ERRORS, which changed neither *port nor *todo.
 */
uint32_t uart_port_receive_one(struct uart_port *port, uint8_t byte, uint8_t errors, struct uart_todo *todo);

/*
 * The modem's inputs become these: bits of UART_MSR_LINES.
 *
 * Returns UART_OK or UART_BAD_LINES, which changed neither *port nor *todo.
 */
uint32_t uart_port_set_lines(struct uart_port *port, uint8_t inputs, struct uart_todo *todo);

/*
 * The output that the host has not taken, in order: as many bytes as ready said after the last call. They stay where they are
 * until the next call with the port. While there are UART_WIRE_ROOM of them, the transmitter keeps what the guest writes, and LSR
 * tells the guest so.
 */
static inline const uint8_t *uart_port_output(const struct uart_port *port)
{
    return port->chip.transmitter.wire.items;
}

/*
 * The host took so many bytes of the output, from the front, or all if there are fewer. What the transmitter holds goes to the
 * output as far as there is room now. What the host did not take stays: offer it again later.
 */
void uart_port_take_output(struct uart_port *port, size_t count, struct uart_todo *todo);

/* The level of the interrupt line, 1 or 0, which is the level that was told last. No time changes it. */
uint8_t uart_port_level(const struct uart_port *port);

/*
 * 1 while the guest sends a break, that is, while LCR bit 6 is set, else 0. A monitor that passes breaks on looks after each
 * uart_port_write. What the guest writes in a break is output all the same, though a real line would lose it.
 */
static inline uint8_t uart_port_is_breaking(const struct uart_port *port)
{
    return port->chip.latches.lcr >> 6 & 1;
}

/* Saves the chip of a port, as uart_chip_save does. What the monitor was told is not saved: it is told anew. */
void uart_port_save(const struct uart_port *port, struct uart_chip *saved);

/*
 * Makes a port with a chip that was saved, which may come from anywhere. Its guest goes on as with the port that was saved. If the
 * interrupt line is up, *todo has a signal, since the last one may have been lost on the way; and it tells of the room that there
 * is. The chip is refused exactly if it is that of no port, that is, if uart_chip_load refuses it or one of these holds. No chip
 * of a port that was made or loaded and used by the functions above is refused.
 *
 * - a character does not take one tick, or the wire has not room for UART_WIRE_ROOM bytes;
 * - something is left to happen: timeout_ticks is not timeout_limit, or a byte in the transmitter could go on.
 *
 * Returns UART_OK, or UART_BAD_PORT, which changed neither *port nor *todo.
 */
uint32_t uart_port_load(struct uart_port *port, const struct uart_chip *saved, struct uart_todo *todo);

/*
 * A monitor with a clock. An access of DATA can take the interrupt line up before a real one would rise: a reception timeout is
 * due at once for what is left in the FIFO, and a transmitter is empty again. Most guests go on with their handler, have done by
 * then what they would be called for, and find nothing. A monitor that has a clock may put such a signal off for the time of four
 * characters. It passes the *todo of each call of the port through one of the functions below, before it does what *todo says,
 * and nobody waits for ever. It is for monitors that obey signal: the level is told as it is.
 *
 * The struct of a port that is new or loaded is { 0 }. It is not saved: a port that is loaded tells anew.
 */
struct uart_clock {
    uint8_t is_owed;         /* a signal is put off, and the line is up since */
};

/*
 * After uart_port_read and uart_port_write, with the same offset: takes the signal from *todo if it can wait. Returns 1 if that is
 * so, and the time begins anew, after which uart_clock_pass_time is to be called; else 0.
 */
uint8_t uart_clock_after_read(struct uart_clock *clock, uint8_t offset, struct uart_todo *todo);
uint8_t uart_clock_after_write(struct uart_clock *clock, uint8_t offset, struct uart_todo *todo);

/* After each other call of the port that writes *todo: nothing of it can wait. */
void uart_clock_after_host(struct uart_clock *clock, const struct uart_todo *todo);

/*
 * The time has passed. Returns 1 if the guest's interrupt is to be signalled now, since a signal was put off and is still owed,
 * else 0. A call that comes early, late, or for nothing, does no harm.
 */
uint8_t uart_clock_pass_time(struct uart_clock *clock);

#ifdef __cplusplus
}
#endif

#endif
