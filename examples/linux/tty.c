// SPDX-License-Identifier: MIT OR GPL-2.0-only
/*
 * A tty driver for Linux over the library: chips at I/O ports or in memory, as /dev/ttyPV0,
 * /dev/ttyPV1 and so on. This file is what all chips have in common. pnp.c, pci.c, of.c and ports.c
 * find them, and call what tty.h says.
 *
 * serial_core of Linux does what all serial ports have in common, and calls the functions in
 * `operations`. What these do to a chip they do by calls of the library. It makes each access,
 * through read_register and write_register, or read_memory and write_memory: this file has no
 * other.
 *
 * The library's rings are not used. serial_core keeps what waits to be sent, and the tty layer what
 * was received. A second queue below theirs would hold bytes that a stop or a flush does not reach.
 *
 * Each call of the library is made with port.lock taken and interrupts off, but for last words. No
 * call waits, but for a console's.
 */
#include <linux/console.h>
#include <linux/delay.h>
#include <linux/hrtimer.h>
#include <linux/interrupt.h>
#include <linux/io.h>
#include <linux/ioport.h>
#include <linux/log2.h>
#include <linux/math64.h>
#include <linux/module.h>
#include <linux/mutex.h>
#include <linux/nmi.h>
#include <linux/pm.h>
#include <linux/serial.h>
#include <linux/serial_core.h>
#include <linux/serial_reg.h>
#include <linux/slab.h>
#include <linux/sysrq.h>
#include <linux/timer.h>
#include <linux/tty.h>
#include <linux/tty_flip.h>
#include <linux/workqueue.h>

#define U16550_HAS_TYPES		/* linux/types.h */
#include "compat.h"
#include "u16550.h"
#include "tty.h"

#define FIFO_SIZE 16		/* that of most chips; so many characters are taken at once */
#define LARGEST_FIFO_SIZE 256
#define TRIGGER_LEVEL 8		/* the other half takes what arrives until the handler comes */
#define LARGEST_DIVISOR 0xffff

/* The interrupts of what is received. */
#define RECEIVES (U16550_IER_DATA_READY | U16550_IER_RECEIVER_LINE_STATUS)

/*
 * How many interrupts one run of the handler serves, and how many characters it takes for one of
 * them.
 */
#define MOST_INTERRUPTS 256
#define MOST_CHARACTERS 256

/*
 * How many runs in a row may leave an interrupt pending and do nothing. No sound chip comes to
 * that.
 */
#define MOST_VAIN_RUNS 100

/*
 * How often a timer looks at a chip that is to interrupt, and how many looks in a row may find an
 * interrupt that nobody has announced. That may be chance once: an interrupt was on its way.
 */
#define LOOK (HZ / 5)
#define MOST_MISSED 5

/*
 * How many looks in a row have to find that the chip is gone. One alone may have met a bus that
 * something else had disturbed.
 */
#define LOOKS_IF_GONE 2

/*
 * How many looks in a row a DesignWare chip may be busy before the write of LCR that waits for it
 * is given up.
 */
#define DESIGN_WARE_LOOKS 20000

/*
 * The longest time that a console waits in a panic for the lock: a thousand tenths of a
 * millisecond.
 */
#define LOCK_TRIES 1000
#define LOCK_TRY_MICROSECONDS 100

/*
 * What a transceiver at an RS-485 bus does. With DRAINS all is written, and the line still has it,
 * or a delay behind it.
 */
enum turn { LISTENS, TURNS, SENDS, DRAINS };

static bool with_console;
module_param_named(console, with_console, bool, 0444);
MODULE_PARM_DESC(console, "console=ttyPV0 on the kernel's command line makes a port a console");

struct line {
	struct uart_port port;
	struct u16550 uart;
	struct u16550 last_words;	/* another driver of the same chip, for a panic */
	struct u16550 debugger;		/* another one, for a debugger */
	struct u16550_design_ware own, last, debugged;	/* what they keep of a DesignWare chip */
	bool is_design_ware;
	bool has_auto_flow;		/* the chip can do flow control by RTS and CTS itself */
	bool auto_flow;			/* and does */
	struct u16550 switching;	/* another driver, which `bus` is made of */
	struct u16550_bus bus;		/* switches an RS-485 bus's transceiver, and sends there */
	struct u16550_direction direction;	/* how it is switched */
	struct hrtimer turning;		/* ends the delays there */
	enum turn turn;
	bool is_empty;			/* the transmitter was, when the last delay began */
	bool hears;			/* what comes is wanted, but this end may be deaf now */
	struct u16550 *console;		/* the one of the first two that a text goes through */
	struct u16550_config config;
	u64 patience;			/* the spin limit of each of them */
	/* Where the region begins that this line has; 0 without one, and then no driver is made. */
	resource_size_t base;
	struct u16550_dump registers;	/* before the machine slept */
	u8 interrupts;			/* those that are enabled */
	u8 shown;			/* errors that LSR has shown of the next character */
	struct work_struct report;	/* says what is wrong */
	const char *trouble, *detail;
	char which[24];			/* the interrupt, for that */
	unsigned int vain_runs;
	/* Looks at the chip, whether it interrupts or not, while something may depend on it. */
	struct timer_list timer;
	struct timer_list idle_timer;	/* does so otherwise, and wakes no processor up for it */
	unsigned int missed;		/* looks in a row that found an interrupt not to come */
	unsigned int gone;		/* looks in a row that found no chip */
	bool has_come;			/* an interrupt came since the last look */
	bool comes;			/* one came since the opening: its number is right */
	bool is_polled;			/* the timer does what the interrupt should */
	bool is_masked;			/* the chip is silent for now, so `enable` waits */
	bool loops;			/* TIOCM_LOOP is set */
	bool is_added;
	bool is_open;			/* startup was called, and shutdown not yet */
	bool is_broken;			/* the chip interrupts without end, so it may not */
	bool is_taken_over;		/* last_words has the chip */
	bool is_stalled;		/* the rest of a console's text is left out */
	char name[16];
};

static struct line lines[MOST_PORTS];

static struct line *line_of(struct uart_port *port)
{
	return container_of(port, struct line, port);
}

/* ------------------------------------------------------------------ what the library needs */

/*
 * The chip shows the errors of a character once, to the first look at LSR. That may be a look of a
 * send, or of tx_empty, and the library then has no errors with the character. So what looks have
 * shown is kept here, until it is read.
 */
static void keep_errors(struct line *line, unsigned int offset, u8 value)
{
	switch (offset) {
	case UART_LSR:
		line->shown |= value & UART_LSR_BRK_ERROR_BITS;
		break;
	case UART_RX:
		line->shown = 0;
		break;
	}
}

/* No call of the library leaves a chip in loopback, so TIOCM_LOOP is added to what it writes. */
static u8 with_loop(const struct line *line, unsigned int offset, u8 value)
{
	return line->loops && offset == UART_MCR ? value | UART_MCR_LOOP : value;
}

/* The registers of a chip at I/O ports. */
static uint8_t read_register(void *context, uintptr_t offset)
{
	struct line *line = context;
	u8 value = inb(line->base + offset);

	keep_errors(line, offset, value);
	return value;
}

static void write_register(void *context, uintptr_t offset, uint8_t value)
{
	struct line *line = context;

	outb(with_loop(line, offset, value), line->base + offset);
}

/* Those of a chip in memory. They may have more than eight bits, of which the lowest count. */
static uint8_t read_memory(void *context, uintptr_t offset)
{
	struct line *line = context;
	void __iomem *at = line->port.membase + (offset << line->port.regshift);
	u8 value;

	switch (line->port.iotype) {
	case UPIO_MEM16:
		value = readw(at);
		break;
	case UPIO_MEM32:
		value = readl(at);
		break;
	case UPIO_MEM32BE:
		value = ioread32be(at);
		break;
	default:
		value = readb(at);
	}
	keep_errors(line, offset, value);
	return value;
}

static void write_memory(void *context, uintptr_t offset, uint8_t value)
{
	struct line *line = context;
	void __iomem *at = line->port.membase + (offset << line->port.regshift);

	value = with_loop(line, offset, value);
	switch (line->port.iotype) {
	case UPIO_MEM16:
		writew(value, at);
		break;
	case UPIO_MEM32:
		writel(value, at);
		break;
	case UPIO_MEM32BE:
		iowrite32be(value, at);
		break;
	default:
		writeb(value, at);
	}
}

static struct u16550_io io_of(struct line *line)
{
	if (line->port.iotype == UPIO_PORT)
		return (struct u16550_io){ line, read_register, write_register };
	return (struct u16550_io){ line, read_memory, write_memory };
}

/* Makes one of the library's drivers for the chip, without an access. */
static int make_driver(struct line *line, struct u16550 *uart, struct u16550_design_ware *chip)
{
	struct u16550_io io = io_of(line);

	return line->is_design_ware ? u16550_new_design_ware(uart, chip, &io, DESIGN_WARE_LOOKS) :
				      u16550_new(uart, &io);
}

static void report(struct work_struct *work)
{
	struct line *line = container_of(work, struct line, report);

	dev_err_ratelimited(line->port.dev, "%s: %s: %s\n",
			    line->name, line->trouble, line->detail);
}

/*
 * Has the kernel's log told what is wrong, but later: the log may go to this port, whose lock is
 * taken now. Whoever is the second before that is left out.
 */
static void report_later(struct line *line, const char *trouble, const char *detail)
{
	if (work_pending(&line->report))
		return;
	line->trouble = trouble;
	line->detail = detail;
	schedule_work(&line->report);
}

/*
 * Whether a call has failed. None of those that are asked about here does, unless this driver is
 * wrong; or the port has no chip, as after `setserial .. uart none`, and then there is nothing to
 * do.
 */
static bool failed(struct line *line, const char *call, int status)
{
	if (status != U16550_OK && status != U16550_NOT_MADE)
		report_later(line, call, u16550_text(status));
	return status != U16550_OK;
}

static void enable(struct line *line, u8 interrupts)
{
	if ((line->interrupts & interrupts) == interrupts || line->is_broken)
		return;
	line->interrupts |= interrupts;
	if (!line->is_masked)
		failed(line, "enable", u16550_enable_interrupts(&line->uart, interrupts));
}

static void disable(struct line *line, u8 interrupts)
{
	if (!(line->interrupts & interrupts))
		return;
	line->interrupts &= ~interrupts;
	failed(line, "disable", u16550_disable_interrupts(&line->uart, interrupts));
}

static bool has_more(struct uart_port *port)
{
	return port->x_char || (waiting(port) && !uart_tx_stopped(port));
}

/* ------------------------------------------------------------------ RS-485 */

/*
 * At a bus one end sends at a time, and RTS switches the transceiver of this one. The library's bus
 * keeps that: no byte is written while the transceiver is not to send, and it is given back only
 * while the transmitter is empty. Here are the delays, and what else the port does then.
 */

static bool is_bus(const struct line *line)
{
	return line->port.rs485.flags & SER_RS485_ENABLED;
}

static void send(struct line *line);

/*
 * The outputs that serial_core wants. At a bus RTS is that of the transceiver, whatever it wants.
 */
static u8 outputs_of(const struct line *line)
{
	unsigned int mctrl = line->port.mctrl;
	u8 outputs = (mctrl & TIOCM_DTR ? U16550_MCR_DTR : 0) |
		     (mctrl & TIOCM_RTS ? U16550_MCR_RTS : 0) |
		     (mctrl & TIOCM_OUT1 ? U16550_MCR_OUT_1 : 0) |
		     (mctrl & TIOCM_OUT2 ? U16550_MCR_OUT_2_INT_ENABLE : 0);

	if (line->auto_flow)
		outputs |= U16550_MCR_AUTO_FLOW;
	if (!is_bus(line))
		return outputs;
	u16550_direction_receiving(&line->direction, outputs, &outputs);
	return line->turn == LISTENS ? outputs : outputs ^ U16550_MCR_RTS;
}

/* A delay of so many milliseconds, and of so many nanoseconds more. */
static void wait_at_bus(struct line *line, unsigned int milliseconds, unsigned int nanoseconds)
{
	u64 delay = (u64)milliseconds * NSEC_PER_MSEC + nanoseconds;

	hrtimer_start(&line->turning, ns_to_ktime(delay), HRTIMER_MODE_REL);
}

/*
 * Makes the bus, of a driver that knows of the chip what the first one knows. Fails while the
 * transmitter is not empty.
 */
static int make_bus(struct line *line)
{
	struct u16550_io io = io_of(line);
	struct u16550_state state;
	int status = u16550_get_state(&line->uart, &state);

	line->turn = LISTENS;
	if (status == U16550_OK)
		status = u16550_from_state(&line->switching, &io, &state);
	if (status == U16550_OK)
		status = u16550_bus_new(&line->bus, &line->switching, &line->direction);
	return status;
}

static void end_bus(struct line *line)
{
	if (u16550_bus_end(&line->bus, &line->switching) == U16550_OK)
		u16550_end(&line->switching);
	line->turn = LISTENS;
}

/* Has the transceiver send. Without RX_DURING_TX what comes meanwhile is this end's own. */
static void take_turn(struct line *line)
{
	const struct serial_rs485 *rs485 = &line->port.rs485;
	int status = u16550_bus_start_sending(&line->bus);

	/*
	 * The port was opened while its transmitter did not come to an end, as where the other end
	 * takes nothing.
	 */
	if (status == U16550_NOT_MADE && make_bus(line) == U16550_OK)
		status = u16550_bus_start_sending(&line->bus);
	if (failed(line, "start_sending", status))
		return;
	if (!(rs485->flags & SER_RS485_RX_DURING_TX))
		disable(line, RECEIVES);
	line->turn = rs485->delay_rts_before_send ? TURNS : SENDS;
	if (line->turn == TURNS)
		wait_at_bus(line, rs485->delay_rts_before_send, 0);
}

/*
 * Whether bytes may be written now. Otherwise `turned` sends them, when the transceiver is ready.
 */
static bool has_turn(struct line *line)
{
	if (line->turn == LISTENS && has_more(&line->port))
		take_turn(line);
	if (line->turn == DRAINS && has_more(&line->port))
		line->turn = SENDS;
	return line->turn == SENDS;
}

/* All is written. Looks whether it is on the line when that may be. */
static void drain(struct line *line)
{
	if (!is_bus(line) || line->turn != SENDS)
		return;
	line->turn = DRAINS;
	line->is_empty = false;
	wait_at_bus(line, 0, line->port.frame_time);
}

/* Forgets what has come while this end was deaf. */
static void forget_received(struct line *line)
{
	struct u16550_received burst[FIFO_SIZE];
	size_t count = 0;
	int bursts;

	for (bursts = 0; bursts < MOST_CHARACTERS / FIFO_SIZE; bursts++) {
		int status = u16550_receive_with_errors(&line->uart, burst, FIFO_SIZE, &count);

		if (status != U16550_OK || !count)
			break;
	}
	line->shown = 0;
}

/*
 * Gives the bus back when the last stop bit is out, and the user's delay is over. Some chips call
 * their transmitter empty when that bit begins.
 */
static void give_turn_back(struct line *line)
{
	const struct serial_rs485 *rs485 = &line->port.rs485;
	u8 is_idle = 0;

	failed(line, "is_idle", u16550_bus_is_idle(&line->bus, &is_idle));
	if (!is_idle) {
		wait_at_bus(line, 0, line->port.frame_time);
		return;
	}
	if (!line->is_empty) {
		line->is_empty = true;
		wait_at_bus(line, rs485->delay_rts_after_send, line->port.frame_time / 8);
		return;
	}
	if (failed(line, "try_finish", u16550_bus_try_finish(&line->bus)))
		return;
	line->turn = LISTENS;
	if (rs485->flags & SER_RS485_RX_DURING_TX)
		return;
	forget_received(line);
	if (line->hears)
		enable(line, RECEIVES);
}

static enum hrtimer_restart turned(struct hrtimer *timer)
{
	struct line *line = container_of(timer, struct line, turning);
	unsigned long flags;

	uart_port_lock_irqsave(&line->port, &flags);
	if (line->is_open && line->turn == TURNS) {
		line->turn = SENDS;
		send(line);
	} else if (line->is_open && line->turn == DRAINS) {
		give_turn_back(line);
	}
	uart_port_unlock_irqrestore(&line->port, flags);
	return HRTIMER_NORESTART;
}

static struct u16550_direction direction_of(const struct serial_rs485 *rs485)
{
	return (struct u16550_direction){
		.line = U16550_DIRECTION_RTS,
		.sends_when_set = !!(rs485->flags & SER_RS485_RTS_ON_SEND),
	};
}

/* Called with the lock. serial_core has left out what `rs485_supported` does not have. */
static int set_rs485(struct uart_port *port, struct ktermios *termios, struct serial_rs485 *rs485)
{
	struct line *line = line_of(port);
	struct serial_rs485 before = port->rs485;
	int status = U16550_OK;

	if (line->turn != LISTENS)
		return -EBUSY;
	end_bus(line);
	port->rs485 = *rs485;
	line->direction = direction_of(rs485);
	if (!line->is_open)
		return 0;
	if (is_bus(line))
		status = make_bus(line);
	if (status != U16550_OK) {
		port->rs485 = before;
		return status == U16550_BUS_BUSY ? -EBUSY : -EIO;
	}
	failed(line, "set_modem_control", u16550_set_modem_control(&line->uart, outputs_of(line)));
	return 0;
}

static const struct serial_rs485 rs485_supported = {
	.flags = SER_RS485_ENABLED | SER_RS485_RTS_ON_SEND | SER_RS485_RTS_AFTER_SEND |
		 SER_RS485_RX_DURING_TX,
	.delay_rts_before_send = 1,
	.delay_rts_after_send = 1,
};

/* ------------------------------------------------------------------ sending */

/*
 * Sends as much as the chip takes. Returns how many bytes. At a bus none goes out while its
 * transceiver is not to send.
 */
static size_t send_bytes(struct line *line, const u8 *bytes, size_t len)
{
	size_t sent = 0;

	failed(line, "send", is_bus(line) ? u16550_bus_send_bytes(&line->bus, bytes, len, &sent) :
					    u16550_send_bytes(&line->uart, bytes, len, &sent));
	return sent;
}

static void send_burst(struct line *line)
{
	/*
	 * One array, also where the buffer ends: the chip takes one burst each time that it is
	 * empty, and half a one would cost as much.
	 */
	u8 burst[LARGEST_FIFO_SIZE];
	size_t most = clamp_t(size_t, line->port.fifosize, 1, sizeof(burst));
	size_t sent = send_bytes(line, burst, peek(&line->port, burst, most));

	uart_xmit_advance(&line->port, sent);
	if (waiting(&line->port) < WAKEUP_CHARS)
		uart_write_wakeup(&line->port);
}

/* Sends what the chip takes now, and lets it interrupt when it takes more, if there is more. */
static void send(struct line *line)
{
	struct uart_port *port = &line->port;

	if (is_bus(line) && !has_turn(line)) {
		/* Where the turn cannot be had yet, a look tries again. */
		if (line->turn == LISTENS && has_more(port))
			enable(line, U16550_IER_THR_EMPTY);
		return;
	}
	if (port->x_char) {
		/* XON or XOFF: before all that waits, and also while sending is stopped. */
		u8 character = port->x_char;

		if (send_bytes(line, &character, 1)) {
			port->icount.tx++;
			port->x_char = 0;
		}
	} else if (has_more(port)) {
		send_burst(line);
	}
	if (has_more(port)) {
		enable(line, U16550_IER_THR_EMPTY);
	} else {
		disable(line, U16550_IER_THR_EMPTY);
		drain(line);
	}
}

static void start_tx(struct uart_port *port)
{
	struct line *line = line_of(port);

	/*
	 * A look comes soon after what is sent: the chip may be gone, or the interrupt may not
	 * come.
	 */
	if (line->is_open && !timer_pending(&line->timer))
		mod_timer(&line->timer, jiffies + LOOK);
	/*
	 * With THR_EMPTY enabled the handler is on its way. Otherwise a few bytes go out without
	 * any interrupt.
	 */
	if (!(line->interrupts & U16550_IER_THR_EMPTY))
		send(line);
}

static void stop_tx(struct uart_port *port)
{
	struct line *line = line_of(port);

	disable(line, U16550_IER_THR_EMPTY);
	drain(line);
}

static unsigned int tx_empty(struct uart_port *port)
{
	struct line *line = line_of(port);
	unsigned long flags;
	u8 is_idle = 0;

	uart_port_lock_irqsave(port, &flags);
	failed(line, "is_idle", u16550_is_idle(&line->uart, &is_idle));
	/* At a bus not before somebody else may send. */
	is_idle &= line->turn == LISTENS;
	uart_port_unlock_irqrestore(port, flags);
	return is_idle ? TIOCSER_TEMT : 0;
}

/* ------------------------------------------------------------------ receiving */

static void count_errors(struct uart_icount *counts, u8 errors)
{
	if (errors & UART_LSR_OE)
		counts->overrun++;
	if (errors & UART_LSR_BI)
		counts->brk++;
	else if (errors & UART_LSR_PE)
		counts->parity++;
	else if (errors & UART_LSR_FE)
		counts->frame++;
}

static char mark_of(u8 errors)
{
	return errors & UART_LSR_BI ? TTY_BREAK :
	       errors & UART_LSR_PE ? TTY_PARITY :
	       errors & UART_LSR_FE ? TTY_FRAME : TTY_NORMAL;
}

static void give_character(struct uart_port *port, u8 byte, u8 errors)
{
	/* A break has no stop bit, and perhaps the wrong parity. That says nothing more. */
	if (errors & UART_LSR_BI)
		errors &= ~(UART_LSR_FE | UART_LSR_PE);
	port->icount.rx++;
	count_errors(&port->icount, errors);
	/* A break on a console begins a command to the kernel, which the next character names. */
	if ((errors & UART_LSR_BI) && uart_handle_break(port))
		return;
	if (uart_prepare_sysrq_char(port, byte))
		return;
	errors &= port->read_status_mask;
	uart_insert_char(port, errors | UART_LSR_DR, UART_LSR_OE, byte, mark_of(errors));
}

/*
 * Whether characters without errors go to the tty layer as they are: no command to the kernel is
 * expected, and they are wanted.
 */
static bool passes_on(const struct uart_port *port)
{
	return !port->sysrq && !(port->ignore_status_mask & UART_LSR_DR);
}

static void give_burst(struct uart_port *port, const u8 *bytes, size_t count)
{
	size_t had = tty_insert_flip_string(&port->state->port, bytes, count);

	port->icount.rx += count;
	port->icount.buf_overrun += count - had;
}

/* Takes what has come, up to a FIFO of characters, and passes it on. Returns how many. */
static size_t receive_burst(struct line *line)
{
	struct u16550_received burst[FIFO_SIZE];
	u8 bytes[FIFO_SIZE], shown = line->shown, errors = shown;
	size_t index, count = 0;
	int status = u16550_receive_with_errors(&line->uart, burst, FIFO_SIZE, &count);

	if (failed(line, "receive", status))
		return 0;
	for (index = 0; index < count; index++) {
		bytes[index] = burst[index].byte;
		errors |= burst[index].errors;
	}
	if (!errors && passes_on(&line->port)) {
		give_burst(&line->port, bytes, count);
		return count;
	}
	for (index = 0; index < count; index++) {
		give_character(&line->port, burst[index].byte, burst[index].errors | shown);
		shown = 0;
	}
	return count;
}

/* Returns whether there was a character. */
static bool receive(struct line *line)
{
	size_t total = 0, count;

	do {
		count = receive_burst(line);
		total += count;
	} while (count == FIFO_SIZE && total < MOST_CHARACTERS);
	tty_flip_buffer_push(&line->port.state->port);
	return total > 0;
}

/* ------------------------------------------------------------------ modem lines and breaks */

/*
 * Returns MSR, and passes on what changed. Whoever reads MSR has to: the read ends the interrupt,
 * so nobody else would hear that CTS came back.
 */
static u8 look_at_modem(struct line *line)
{
	struct uart_port *port = &line->port;
	u8 msr = 0;

	failed(line, "msr", u16550_msr(&line->uart, &msr));
	if (!(msr & UART_MSR_ANY_DELTA) || !(line->interrupts & U16550_IER_MODEM_STATUS))
		return msr;
	if (msr & UART_MSR_TERI)
		port->icount.rng++;
	if (msr & UART_MSR_DDSR)
		port->icount.dsr++;
	if (msr & UART_MSR_DDCD)
		uart_handle_dcd_change(port, msr & UART_MSR_DCD);
	if (msr & UART_MSR_DCTS)
		uart_handle_cts_change(port, msr & UART_MSR_CTS);
	wake_up_interruptible(&port->state->port.delta_msr_wait);
	return msr;
}

static unsigned int get_mctrl(struct uart_port *port)
{
	u8 msr = look_at_modem(line_of(port));

	return (msr & UART_MSR_DCD ? TIOCM_CAR : 0) | (msr & UART_MSR_RI ? TIOCM_RNG : 0) |
	       (msr & UART_MSR_DSR ? TIOCM_DSR : 0) | (msr & UART_MSR_CTS ? TIOCM_CTS : 0);
}

static void set_mctrl(struct uart_port *port, unsigned int mctrl)
{
	struct line *line = line_of(port);

	line->loops = mctrl & TIOCM_LOOP;
	failed(line, "set_modem_control", u16550_set_modem_control(&line->uart, outputs_of(line)));
}

static void enable_ms(struct uart_port *port)
{
	enable(line_of(port), U16550_IER_MODEM_STATUS);
}

/*
 * Kernel PPS takes the time of each change of DCD. So it wants that interrupt also with CLOCAL, and
 * set_termios then leaves it enabled.
 */
static void set_ldisc(struct uart_port *port, struct ktermios *termios)
{
	struct line *line = line_of(port);
	unsigned long flags;

	uart_port_lock_irqsave(port, &flags);
	if (termios->c_line == N_PPS)
		port->flags |= UPF_HARDPPS_CD;
	else
		port->flags &= ~UPF_HARDPPS_CD;
	if (line->is_open && UART_ENABLE_MS(port, termios->c_cflag))
		enable(line, U16550_IER_MODEM_STATUS);
	else
		disable(line, U16550_IER_MODEM_STATUS);
	uart_port_unlock_irqrestore(port, flags);
}

static void break_ctl(struct uart_port *port, int state)
{
	struct line *line = line_of(port);
	unsigned long flags;

	uart_port_lock_irqsave(port, &flags);
	failed(line, "set_break", u16550_set_break(&line->uart, state != 0));
	uart_port_unlock_irqrestore(port, flags);
}

/* serial_core asks for no more characters before it closes a port. */
static void stop_rx(struct uart_port *port)
{
	struct line *line = line_of(port);

	line->hears = false;
	disable(line, RECEIVES);
}

/* ------------------------------------------------------------------ the handler */

/* Serves what ISR shows. Returns whether something was done. */
static bool serve(struct line *line, u8 isr)
{
	u32 sent = line->port.icount.tx;

	switch (isr & 0x0f) {
	case UART_IIR_RLSI:
	case UART_IIR_RDI:
	case UART_IIR_RX_TIMEOUT:
		return receive(line);
	case UART_IIR_THRI:
		send(line);
		return line->port.icount.tx != sent;
	case UART_IIR_MSI:
		return look_at_modem(line) & UART_MSR_ANY_DELTA;
	}
	return false;
}

static const char *name_of(u8 isr)
{
	switch (isr & 0x0f) {
	case UART_IIR_RLSI:
		return "line status";
	case UART_IIR_RDI:
		return "data";
	case UART_IIR_RX_TIMEOUT:
		return "data that waits";
	case UART_IIR_THRI:
		return "transmitter empty";
	case UART_IIR_MSI:
		return "modem status";
	}
	return "an interrupt without a name";
}

/* A chip that shows an interrupt for ever would keep this processor for ever. */
static void give_up(struct line *line, u8 isr)
{
	line->is_broken = true;
	disable(line, 0x0f);
	report_later(line,
		     "the chip interrupts without end, and may not until the port is opened or set again",
		     name_of(isr));
}

enum outcome { IDLE, DONE, VAIN };

/*
 * Serves what ISR shows, with the lock for that alone: meanwhile another processor may bring more
 * to be sent.
 */
static enum outcome serve_next(struct line *line, u8 *isr)
{
	enum outcome outcome = IDLE;
	unsigned long flags;

	uart_port_lock_irqsave(&line->port, &flags);
	if (!failed(line, "isr", u16550_isr(&line->uart, isr)) && !(*isr & UART_IIR_NO_INT))
		outcome = serve(line, *isr) ? DONE : VAIN;
	else
		line->vain_runs = 0;
	uart_unlock_and_check_sysrq_irqrestore(&line->port, flags);
	return outcome;
}

/*
 * Ends a run that leaves an interrupt pending. A controller that detects edges would never call
 * again if the chip's line stayed high.
 */
static void leave(struct line *line, bool was_vain, u8 isr)
{
	unsigned long flags;

	uart_port_lock_irqsave(&line->port, &flags);
	failed(line, "retrigger", u16550_retrigger_interrupts(&line->uart));
	line->vain_runs = was_vain ? line->vain_runs + 1 : 0;
	if (line->vain_runs == MOST_VAIN_RUNS)
		give_up(line, isr);
	uart_port_unlock_irqrestore(&line->port, flags);
}

/* Serves what is pending. Returns how many interrupts that was. */
static unsigned int run(struct line *line)
{
	bool was_vain = true;
	unsigned int served;
	u8 isr = 0;

	if (line->is_broken)
		return 0;
	for (served = 0; served < MOST_INTERRUPTS; served++) {
		enum outcome outcome = serve_next(line, &isr);

		if (outcome == IDLE)
			return served;
		was_vain &= outcome == VAIN;
	}
	leave(line, was_vain, isr);
	return served;
}

static bool shares(struct line *line, unsigned int irq)
{
	return READ_ONCE(line->is_open) && line->port.irq == irq;
}

static void set_masked(struct line *line, bool is_masked)
{
	unsigned long flags;

	uart_port_lock_irqsave(&line->port, &flags);
	if (is_masked && line->is_open)
		failed(line, "disable", u16550_disable_interrupts(&line->uart, 0xff));
	if (!is_masked && line->is_masked)
		failed(line, "enable", u16550_enable_interrupts(&line->uart, line->interrupts));
	line->is_masked = is_masked && line->is_open;
	uart_port_unlock_irqrestore(&line->port, flags);
}

/*
 * Ports that share an interrupt: while one of them is served, another one may keep their common
 * line high, and a controller that detects edges would never call again. So the line is low here
 * for a moment. If one of them has something then, the line rises.
 */
static void let_fall(unsigned int irq)
{
	int index, sharing = 0;

	for (index = 0; index < MOST_PORTS; index++)
		sharing += shares(&lines[index], irq);
	if (sharing < 2)
		return;
	for (index = 0; index < MOST_PORTS; index++) {
		if (shares(&lines[index], irq))
			set_masked(&lines[index], true);
	}
	/*
	 * Those of this interrupt alone. Others may be no ports any more, or another processor lets
	 * the line of theirs fall.
	 */
	for (index = 0; index < MOST_PORTS; index++) {
		if (READ_ONCE(lines[index].is_masked) && lines[index].port.irq == irq)
			set_masked(&lines[index], false);
	}
}

static irqreturn_t handle(int irq, void *context)
{
	struct line *line = context;
	unsigned int served = run(line);

	if (served) {
		WRITE_ONCE(line->has_come, true);
		let_fall(irq);
	}
	return IRQ_RETVAL(served);
}

/*
 * Whoever has named a wrong interrupt hears of it, and the port works, if slowly. Called with the
 * lock, as all that is a part of a look.
 */
static void judge_interrupt(struct line *line, bool has_found)
{
	if (xchg(&line->has_come, false)) {
		line->missed = 0;
		line->comes = true;
	} else if (has_found && ++line->missed == MOST_MISSED) {
		line->is_polled = true;
		snprintf(line->which, sizeof(line->which), "interrupt %u", line->port.irq);
		report_later(line,
			     "a timer looks at the port from now on, since its interrupt does not come",
			     line->which);
	}
}

/*
 * Sends what waits for an interrupt, if the transmitter is empty. The chip interrupts for that
 * once. The first look at ISR ends the interrupt, and that look may be somebody else's: a monitor
 * of the firmware's, say. LSR goes on to show that the transmitter is empty. Returns whether
 * something was sent.
 */
static bool send_what_waits(struct line *line)
{
	u32 sent = line->port.icount.tx;

	if (line->interrupts & U16550_IER_THR_EMPTY)
		send(line);
	return line->port.icount.tx != sent;
}

/*
 * Returns whether the chip is found to be gone just now. All that is sent would go nowhere then,
 * and all writes would succeed.
 */
static bool is_gone_now(struct line *line)
{
	u8 is_gone = 0;

	failed(line, "is_gone", u16550_is_gone(&line->uart, &is_gone));
	line->gone = is_gone ? min(line->gone + 1, LOOKS_IF_GONE + 1u) : 0;
	return line->gone == LOOKS_IF_GONE;
}

/*
 * Whether something may depend on the next look. Otherwise it wakes no processor up: the chip's
 * interrupts do that, since they come.
 */
static bool has_to_look(const struct line *line)
{
	return !line->comes || line->gone || (line->interrupts & U16550_IER_THR_EMPTY);
}

/* Has the next look come, unless the port was closed meanwhile. */
static void look_again(struct line *line)
{
	if (!line->is_open)
		return;
	if (line->is_polled)
		mod_timer(&line->timer, jiffies + uart_poll_timeout(&line->port));
	else if (has_to_look(line))
		mod_timer(&line->timer, jiffies + LOOK);
	else if (!timer_pending(&line->timer))
		mod_timer(&line->idle_timer, jiffies + LOOK);
}

/*
 * The two timers may do this at once, on two processors. So all but the run, which takes the lock
 * itself, is done with the lock.
 */
static void look(struct line *line)
{
	bool has_found = run(line), is_gone;
	unsigned long flags;

	uart_port_lock_irqsave(&line->port, &flags);
	has_found |= send_what_waits(line);
	is_gone = is_gone_now(line);
	if (!line->is_polled)
		judge_interrupt(line, has_found);
	look_again(line);
	uart_port_unlock_irqrestore(&line->port, flags);
	if (is_gone) {
		report_later(line, "the chip is gone", "who uses the port is hung up");
		tty_port_tty_hangup(&line->port.state->port, false);
	}
}

static void look_in_time(struct timer_list *timer)
{
	look(container_of(timer, struct line, timer));
}

static void look_when_awake(struct timer_list *timer)
{
	look(container_of(timer, struct line, idle_timer));
}

/* ------------------------------------------------------------------ opening and closing */

/*
 * Has a burst be as long as the FIFO that was found, or that the user has set. A 16750 is told each
 * time that its FIFOs hold 64: a reset of the chip ends that. Where the other end takes nothing
 * that fails, and then the chip was not reset.
 */
static int set_fifos(struct line *line)
{
	unsigned int size = line->port.fifosize;
	u8 enabled;

	if (line->port.type == PORT_16750)
		u16550_enable_64_byte_fifos(&line->uart, &enabled);
	size = clamp_t(unsigned int, size, FIFO_SIZE, LARGEST_FIFO_SIZE);
	return u16550_set_fifo_size(&line->uart, rounddown_pow_of_two(size));
}

/*
 * Sets the chip up, without interrupts, and does not wait: a port opens also while its other end
 * takes nothing.
 */
static int set_up(struct line *line)
{
	struct u16550_setup setup = { 1, U16550_WAIT_NEVER, outputs_of(line) };
	int status;

	line->interrupts = 0;
	line->shown = 0;
	line->vain_runs = 0;
	line->missed = 0;
	line->gone = 0;
	line->is_broken = false;
	line->has_come = false;
	line->comes = false;
	line->is_masked = false;
	line->is_polled = !line->port.irq;
	status = u16550_init_with(&line->uart, &line->config, &setup);
	if (status == U16550_OK && line->is_design_ware)
		status = u16550_design_ware_fault(&line->uart, &line->own);
	return status == U16550_OK ? set_fifos(line) : status;
}

/* Leaves the chip so that it interrupts nobody. */
static void silence(struct uart_port *port)
{
	struct line *line = line_of(port);
	unsigned long flags;
	int status;

	uart_port_lock_irqsave(port, &flags);
	port->mctrl &= ~TIOCM_OUT2;
	line->is_open = false;
	line->interrupts = 0;
	end_bus(line);
	failed(line, "set_break", u16550_set_break(&line->uart, 0));
	status = u16550_quiesce(&line->uart, outputs_of(line), U16550_FIFOS_DISABLE);
	failed(line, "quiesce", status);
	uart_port_unlock_irqrestore(port, flags);
}

static int startup(struct uart_port *port)
{
	struct line *line = line_of(port);
	unsigned long flags;
	int status, error;

	uart_port_lock_irqsave(port, &flags);
	if (port->irq)
		port->mctrl |= TIOCM_OUT2;	/* on a PC the interrupt is connected by it */
	status = set_up(line);
	uart_port_unlock_irqrestore(port, flags);
	if (status != U16550_OK) {
		dev_err(port->dev, "%s: init: %s\n", line->name, u16550_text(status));
		return -EIO;
	}
	error = port->irq ? request_irq(port->irq, handle, IRQF_SHARED, line->name, line) : 0;
	if (error) {
		dev_err(port->dev, "%s: interrupt %u cannot be had: error %d\n",
			line->name, port->irq, error);
		silence(port);
		return error;
	}
	/*
	 * Not before: an I/O APIC forgets an edge that comes while nobody has asked for the
	 * interrupt. The transmitter is empty, and interrupts for that once, which shows whether
	 * the number is right.
	 */
	uart_port_lock_irqsave(port, &flags);
	line->is_open = true;
	line->hears = true;
	if (is_bus(line))
		make_bus(line);
	enable(line, RECEIVES | U16550_IER_THR_EMPTY);
	mod_timer(&line->timer, jiffies + 1);
	uart_port_unlock_irqrestore(port, flags);
	return 0;
}

static void shutdown(struct uart_port *port)
{
	struct line *line = line_of(port);

	silence(port);
	if (port->irq)
		free_irq(port->irq, line);
	timer_delete_sync(&line->timer);
	timer_delete_sync(&line->idle_timer);
	hrtimer_cancel(&line->turning);
}

/* ------------------------------------------------------------------ speed, and what is marked */

static u8 parity_of(const struct ktermios *termios)
{
	if (!(termios->c_cflag & PARENB))
		return U16550_PARITY_NONE;
	if (termios->c_cflag & CMSPAR)
		return termios->c_cflag & PARODD ? U16550_PARITY_FORCED_1 : U16550_PARITY_FORCED_0;
	return termios->c_cflag & PARODD ? U16550_PARITY_ODD : U16550_PARITY_EVEN;
}

/* Which errors make a mark, and which characters are left out. */
static void set_masks(struct uart_port *port, const struct ktermios *termios)
{
	port->read_status_mask = UART_LSR_OE | UART_LSR_THRE | UART_LSR_DR;
	if (termios->c_iflag & INPCK)
		port->read_status_mask |= UART_LSR_FE | UART_LSR_PE;
	if (termios->c_iflag & (IGNBRK | BRKINT | PARMRK))
		port->read_status_mask |= UART_LSR_BI;
	port->ignore_status_mask = 0;
	if (termios->c_iflag & IGNPAR)
		port->ignore_status_mask |= UART_LSR_PE | UART_LSR_FE;
	if (termios->c_iflag & IGNBRK)
		port->ignore_status_mask |= UART_LSR_BI;
	if (termios->c_iflag & IGNBRK && termios->c_iflag & IGNPAR)
		port->ignore_status_mask |= UART_LSR_OE;
	if (!(termios->c_cflag & CREAD))
		port->ignore_status_mask |= UART_LSR_DR;
}

/*
 * How many polls a console waits for room: eight times as long as the FIFO takes with the longest
 * frame of 12 bits, if a poll takes a microsecond. An access to a port takes about that. But not
 * less than a fifth of a second: behind an emulated chip is a program, which may have to wait for a
 * processor.
 */
static u64 patience(unsigned int fifo_size, unsigned int baud)
{
	return max_t(u64, div_u64(8ull * fifo_size * 12 * 1000000, baud), 200000);
}

/*
 * The divisor that the user has set for 38,400 baud by `setserial .. spd_cust`, or 0 if there is
 * none.
 */
static unsigned int own_divisor(const struct uart_port *port, unsigned int baud)
{
	bool is_own = baud == 38400 && (port->flags & UPF_SPD_MASK) == UPF_SPD_CUST;

	return is_own ? port->custom_divisor : 0;
}

static int set_patience(struct line *line, unsigned int baud)
{
	line->patience = patience(max_t(unsigned int, line->port.fifosize, FIFO_SIZE), baud);
	u16550_set_spin_limit(&line->debugger, line->patience);
	return u16550_set_spin_limit(&line->uart, line->patience);
}

/*
 * Sets the nearest rate that the chip has, or the user's divisor, and the frame. Returns the rate.
 */
static unsigned int set_frame(struct line *line, const struct ktermios *termios, unsigned int baud)
{
	unsigned int divisor = own_divisor(&line->port, baud);
	struct u16550_config config = line->config;

	/* At 16 Hz for each of the divisor's, it makes one baud exactly. */
	config.frequency = divisor ? 16 * divisor : line->port.uartclk;
	config.baud_rate = divisor ? 1 : baud;
	config.data_bits = tty_get_char_size(termios->c_cflag);
	config.extra_stop_bits = !!(termios->c_cflag & CSTOPB);
	config.parity = parity_of(termios);
	/*
	 * However far it is: the user reads the rate back. The configuration then has the frequency
	 * at which the divisor is exact.
	 */
	if (failed(line, "nearest", u16550_nearest(&config, 1000, &config)))
		return baud;
	/* No byte is lost that is in the FIFOs, and RTS and DTR stay as they are. */
	failed(line, "set_frame", u16550_set_frame(&line->uart, &config));
	if (line->is_design_ware)
		failed(line, "set_frame", u16550_design_ware_fault(&line->uart, &line->own));
	line->config = config;
	return max(DIV_ROUND_CLOSEST(line->port.uartclk, config.frequency / config.baud_rate), 1u);
}

/*
 * Lets a chip interrupt again that was given up. The port of a console is not closed, so to open it
 * again would not help.
 */
static void start_again(struct line *line)
{
	if (!line->is_broken)
		return;
	line->is_broken = false;
	line->vain_runs = 0;
	enable(line, RECEIVES);
	send(line);
}

/*
 * The rate that is asked for, or the chip's fastest or slowest. serial_core would go on with the
 * rate that was set before.
 */
static unsigned int rate_of(struct uart_port *port, struct ktermios *new,
			    const struct ktermios *old)
{
	unsigned int slowest = DIV_ROUND_UP(port->uartclk, 16 * LARGEST_DIVISOR);
	unsigned int fastest = port->uartclk / 16;
	unsigned int asked = tty_termios_baud_rate(new), had = clamp(asked, slowest, fastest);

	/* Rate 0 hangs up. */
	if (asked && asked != had)
		tty_termios_encode_baud_rate(new, had, had);
	return uart_get_baud_rate(port, new, old, slowest, fastest);
}

static void set_termios(struct uart_port *port, struct ktermios *new, const struct ktermios *old)
{
	struct line *line = line_of(port);
	unsigned int wanted = rate_of(port, new, old), baud;
	unsigned long flags;

	uart_port_lock_irqsave(port, &flags);
	baud = set_frame(line, new, wanted);
	set_patience(line, baud);
	uart_update_timeout(port, new->c_cflag, baud);
	set_masks(port, new);
	start_again(line);
	line->auto_flow = line->has_auto_flow && (new->c_cflag & CRTSCTS);
	if (line->interrupts && UART_ENABLE_MS(port, new->c_cflag))
		enable(line, U16550_IER_MODEM_STATUS);
	else
		disable(line, U16550_IER_MODEM_STATUS);
	/* A console has DTR raised so before anybody opens the port. */
	set_mctrl(port, port->mctrl);
	/* Programs go on to ask for 38,400 baud where the user has set another divisor for it. */
	if (own_divisor(port, wanted))
		baud = wanted;
	uart_port_unlock_irqrestore(port, flags);
	if (tty_termios_baud_rate(new))
		tty_termios_encode_baud_rate(new, baud, baud);
}

/* ------------------------------------------------------------------ the port */

static const char *name_of_type(unsigned int type)
{
	switch (type) {
	case PORT_16550A:
		return "16550A";
	case PORT_16450:
		return "16450";
	case PORT_16650V2:
		return "16650";
	case PORT_16654:
		return "16654";
	case PORT_16750:
		return "16750";
	case PORT_16850:
		return "16850";
	}
	return NULL;
}

static const char *type(struct uart_port *port)
{
	return name_of_type(port->type);
}

/* A chip by its FIFOs, as 8250 names those that differ in nothing else that is used here. */
static unsigned int type_of(unsigned int fifo_size)
{
	switch (fifo_size) {
	case 32:
		return PORT_16650V2;
	case 64:
		return PORT_16654;
	case 128:
	case 256:
		return PORT_16850;
	}
	return PORT_16550A;
}

/*
 * Makes the library's drivers for the chip. The first one is made last: it is what a console looks
 * at.
 */
static int make_drivers(struct line *line)
{
	int status = make_driver(line, &line->debugger, &line->debugged);

	if (status == U16550_OK)
		status = u16550_default_config(&line->config);
	line->config.frequency = line->port.uartclk;
	line->config.fifo_trigger_level = line->port.type == PORT_16450 ? 0 : TRIGGER_LEVEL;
	/* serial_core looks at CTS, if the user wants that. */
	line->config.check_cts_before_sending = 0;
	if (status == U16550_OK)
		status = make_driver(line, &line->uart, &line->own);
	if (status == U16550_OK)
		status = set_patience(line, line->config.baud_rate);
	return status;
}

/* ------------------------------------------------------------------ a file of sysfs */

static struct line *line_of_terminal(struct device *device)
{
	struct tty_port *port = dev_get_drvdata(device);

	return line_of(container_of(port, struct uart_state, port)->uart_port);
}

/*
 * From how many received characters on the chip interrupts, as Linux's own driver has it. A chip
 * with other FIFOs has other levels.
 */
static ssize_t rx_trig_bytes_show(struct device *device, struct device_attribute *attribute,
				  char *text)
{
	struct line *line = line_of_terminal(device);

	if (line->port.type != PORT_16550A)
		return -EINVAL;
	return sysfs_emit(text, "%u\n", line->config.fifo_trigger_level);
}

static ssize_t rx_trig_bytes_store(struct device *device, struct device_attribute *attribute,
				   const char *text, size_t len)
{
	struct line *line = line_of_terminal(device);
	int error, status = U16550_OK;
	unsigned long flags;
	u8 wanted;

	error = kstrtou8(text, 10, &wanted);
	if (error || line->port.type != PORT_16550A)
		return error ? error : -EINVAL;
	uart_port_lock_irqsave(&line->port, &flags);
	line->config.fifo_trigger_level = wanted < 4 ? 1 : wanted < 8 ? 4 : wanted < 14 ? 8 : 14;
	if (line->is_open)
		status = u16550_set_trigger_level(&line->uart, line->config.fifo_trigger_level);
	uart_port_unlock_irqrestore(&line->port, flags);
	return status == U16550_OK ? len : -EIO;
}
static DEVICE_ATTR_RW(rx_trig_bytes);

static struct attribute *attributes[] = { &dev_attr_rx_trig_bytes.attr, NULL };
static struct attribute_group attribute_group = { .attrs = attributes };

/* ------------------------------------------------------------------ finding a chip */

/* Takes the region in which the registers are. */
static int take_registers(struct line *line)
{
	struct uart_port *port = &line->port;

	if (port->iotype == UPIO_PORT) {
		if (!request_region(port->iobase, REGISTERS, KBUILD_MODNAME))
			return -EBUSY;
		line->base = port->iobase;
		return 0;
	}
	if (!request_mem_region(port->mapbase, port->mapsize, KBUILD_MODNAME))
		return -EBUSY;
	port->membase = ioremap(port->mapbase, port->mapsize);
	if (!port->membase) {
		release_mem_region(port->mapbase, port->mapsize);
		return -ENOMEM;
	}
	line->base = port->mapbase;
	return 0;
}

/* Gives back the one that this line has, whatever serial_core believes that it is. */
static void give_registers_back(struct line *line)
{
	struct uart_port *port = &line->port;
	resource_size_t base = line->base;

	line->base = 0;
	if (!base)
		return;
	if (port->iotype == UPIO_PORT) {
		release_region(base, REGISTERS);
		return;
	}
	iounmap(port->membase);
	port->membase = NULL;
	release_mem_region(base, port->mapsize);
}

/*
 * Takes the chip's registers, and makes the drivers for them. serial_core calls this also when a
 * port was moved by `setserial .. port`: nobody may drive ports that he does not have.
 */
static int request_port(struct uart_port *port)
{
	struct line *line = line_of(port);
	unsigned long flags;
	int status, error = take_registers(line);

	if (error)
		return error;
	uart_port_lock_irqsave(port, &flags);
	status = make_drivers(line);
	uart_port_unlock_irqrestore(port, flags);
	if (status == U16550_OK)
		return 0;
	dev_err(port->dev, "%s: no driver for the chip: %s\n", line->name, u16550_text(status));
	give_registers_back(line);
	return -EINVAL;
}

/* Ends the drivers, which can reach nothing then, and gives the registers back. */
static void release_port(struct uart_port *port)
{
	struct line *line = line_of(port);
	unsigned long flags;

	/* Nobody closes the port of a console. */
	if (line->is_open)
		shutdown(port);
	uart_port_lock_irqsave(port, &flags);
	u16550_end(&line->uart);
	u16550_end(&line->debugger);
	uart_port_unlock_irqrestore(port, flags);
	give_registers_back(line);
}

/* Whether the FIFOs are on, once they were turned on. A 16450 has none. */
static bool has_fifos(struct line *line)
{
	u8 isr = 0;

	failed(line, "isr", u16550_isr(&line->uart, &isr));
	return (isr & 0xc0) == 0xc0;
}

/*
 * Whether the chip is a 16750, or another one with larger FIFOs than a 16550A. None of these calls
 * fails behind a loopback test, but where somebody has just pulled the chip out.
 */
static int find_fifos(struct line *line)
{
	u16 size = FIFO_SIZE;
	u8 enabled = 0;
	int status = u16550_enable_64_byte_fifos(&line->uart, &enabled);

	if (status == U16550_OK)
		status = u16550_find_fifo_size(&line->uart, &size);
	line->port.fifosize = size;
	line->port.type = enabled ? PORT_16750 : type_of(size);
	line->has_auto_flow |= enabled;
	return status;
}

/* Whether there is a chip that works, and which. */
static int find_chip(struct line *line)
{
	int status;

	line->loops = false;
	line->port.mctrl &= ~TIOCM_LOOP;
	status = set_up(line);
	if (status == U16550_OK && !has_fifos(line)) {
		line->port.type = PORT_16450;
		line->config.fifo_trigger_level = 0;
		status = set_up(line);
	}
	if (status == U16550_OK)
		status = u16550_test_loopback(&line->uart, NULL);
	if (status == U16550_OK && line->port.type != PORT_16450)
		status = find_fifos(line);
	if (status == U16550_OK)
		status = u16550_quiesce(&line->uart, outputs_of(line), U16550_FIFOS_DISABLE);
	return status;
}

static void config_port(struct uart_port *port, int what)
{
	struct line *line = line_of(port);
	unsigned long long where = port->iotype == UPIO_PORT ? port->iobase : port->mapbase;
	unsigned long flags;
	int status;

	if (!(what & UART_CONFIG_TYPE))
		return;
	port->type = PORT_16550A;
	port->fifosize = FIFO_SIZE;
	if (request_port(port)) {
		port->type = PORT_UNKNOWN;
		dev_err(port->dev, "%s: the registers at %#llx belong to another driver\n",
			line->name, where);
		return;
	}
	uart_port_lock_irqsave(port, &flags);
	status = find_chip(line);
	uart_port_unlock_irqrestore(port, flags);
	if (status != U16550_OK) {
		dev_err(port->dev, "%s: no chip at %#llx: %s\n",
			line->name, where, u16550_text(status));
		release_port(port);
		port->type = PORT_UNKNOWN;
		return;
	}
	dev_info(port->dev, "%s: a chip at %#llx with interrupt %u has passed the loopback test\n",
		 line->name, where, port->irq);
}

/* A chip may be moved to other I/O ports. Where one is in memory, its device says. */
static bool has_good_place(const struct uart_port *port, const struct serial_struct *wanted)
{
	if (port->iotype == UPIO_PORT)
		return wanted->port && wanted->port <= LAST_PORT - (REGISTERS - 1) &&
		       !wanted->port_high && !wanted->iomem_base && !wanted->iomem_reg_shift;
	return (unsigned long)wanted->iomem_base == port->mapbase &&
	       wanted->iomem_reg_shift == port->regshift && !wanted->port;
}

/* What a user may set by TIOCSSERIAL. What else he asks for changes nothing. */
static int verify_port(struct uart_port *port, struct serial_struct *wanted)
{
	if (wanted->type != PORT_UNKNOWN && !name_of_type(wanted->type))
		return -EINVAL;
	if (wanted->xmit_fifo_size > LARGEST_FIFO_SIZE)
		return -EINVAL;
	if (wanted->io_type != port->iotype || wanted->hub6 || !has_good_place(port, wanted))
		return -EINVAL;
	if (wanted->custom_divisor < 0 || wanted->custom_divisor > LARGEST_DIVISOR)
		return -EINVAL;
	/*
	 * The kernel's log goes on to come, and would find no chip, or one that nobody has set up.
	 */
	if (uart_console(port) && (wanted->port != port->iobase || wanted->type != port->type))
		return -EBUSY;
	return 0;
}

/* ------------------------------------------------------------------ a port for a debugger */

#ifdef CONFIG_CONSOLE_POLL
/*
 * kgdb stops all processors, perhaps in the middle of a call, and lets them go on afterwards. So it
 * has a driver of its own, which reads LSR and moves single characters. While the divisor latch is
 * open there are no characters: it stays so until they go on.
 */
static bool has_characters(struct line *line)
{
	u8 lcr;

	return u16550_lcr(&line->debugger, &lcr) == U16550_OK && !(lcr & UART_LCR_DLAB);
}

static int poll_get_char(struct uart_port *port)
{
	struct line *line = line_of(port);
	u8 byte;

	if (!has_characters(line) || u16550_try_receive_byte(&line->debugger, &byte) != U16550_OK)
		return NO_POLL_CHAR;
	return byte;
}

static void poll_put_char(struct uart_port *port, unsigned char character)
{
	struct line *line = line_of(port);

	if (has_characters(line))
		u16550_send_bytes_exact(&line->debugger, &character, 1, NULL);
}
#endif

static const struct uart_ops operations = {
	.tx_empty = tx_empty,
	.set_mctrl = set_mctrl,
	.get_mctrl = get_mctrl,
	.stop_tx = stop_tx,
	.start_tx = start_tx,
	.stop_rx = stop_rx,
	.enable_ms = enable_ms,
	.break_ctl = break_ctl,
	.set_ldisc = set_ldisc,
	.startup = startup,
	.shutdown = shutdown,
	.set_termios = set_termios,
	.type = type,
	.release_port = release_port,
	.request_port = request_port,
	.config_port = config_port,
	.verify_port = verify_port,
#ifdef CONFIG_CONSOLE_POLL
	.poll_get_char = poll_get_char,
	.poll_put_char = poll_put_char,
#endif
};

/* ------------------------------------------------------------------ a port as console */

static struct uart_driver driver;

/*
 * Another driver takes the chip over, from the middle of a call that will never be done. The first
 * driver is busy for ever. What it would still have to do is lost, but for the text of the panic.
 */
static void take_over(struct line *line)
{
	if (line->is_taken_over || !line->base)
		return;
	line->is_taken_over = true;
	line->loops = false;
	make_driver(line, &line->last_words, &line->last);
	u16550_set_spin_limit(&line->last_words, line->patience);
	u16550_emergency(&line->last_words);
}

/*
 * A long text at a slow rate takes seconds, with interrupts off: the kernel's watchdog hears that
 * all is well.
 */
static void put_character(struct uart_port *port, unsigned char character)
{
	struct line *line = line_of(port);
	int status;

	touch_nmi_watchdog();
	/*
	 * The rest of a text is left out, where the first character waited in vain: each would wait
	 * as long.
	 */
	if (line->is_stalled)
		return;
	status = u16550_send_bytes_exact(line->console, &character, 1, NULL);
	line->is_stalled = status != U16550_OK;
}

static void begin_text(struct line *line, struct u16550 *uart)
{
	line->console = uart;
	line->is_stalled = false;
}

#ifdef HAS_NBCON
/*
 * Who owns the console may write. Whoever has the port's lock owns it too, so that no call is under
 * way here. Between two characters another owner may take over: then the rest of the text is his.
 */
static void write_owned(struct line *line, struct u16550 *uart, struct nbcon_write_context *context)
{
	unsigned int at;

	begin_text(line, uart);
	for (at = 0; at < context->len; at++) {
		if (!nbcon_enter_unsafe(context))
			return;
		uart_console_write(&line->port, context->outbuf + at, 1, put_character);
		if (!nbcon_exit_unsafe(context))
			return;
	}
}

static void write_thread(struct console *console, struct nbcon_write_context *context)
{
	struct line *line = &lines[console->index];

	write_owned(line, &line->uart, context);
}

/* At the end of a panic Linux has the console taken over also from the middle of a call. */
static void write_atomic(struct console *console, struct nbcon_write_context *context)
{
	struct line *line = &lines[console->index];

	if (context->unsafe_takeover)
		take_over(line);
	write_owned(line, line->is_taken_over ? &line->last_words : &line->uart, context);
}

/* These two do not own the console: Linux does that behind the first one, and before the second. */
static void console_lock_port(struct console *console, unsigned long *flags)
	__acquires(&lines[console->index].port.lock)
{
	__uart_port_lock_irqsave(&lines[console->index].port, flags);
}

static void console_unlock_port(struct console *console, unsigned long flags)
	__releases(&lines[console->index].port.lock)
{
	__uart_port_unlock_irqrestore(&lines[console->index].port, flags);
}
#else
static void write_text(struct line *line, struct u16550 *uart, const char *text, unsigned int len)
{
	begin_text(line, uart);
	uart_console_write(&line->port, text, len, put_character);
}

/*
 * In a panic the lock's owner may be another processor, which has stopped, or this one. Nobody else
 * has it for so long. Returns whether it could be had, and the text was written.
 */
static bool try_write(struct line *line, const char *text, unsigned int len)
{
	int tries;

	for (tries = 0; tries < LOCK_TRIES && !line->is_taken_over; tries++) {
		if (uart_port_trylock(&line->port)) {
			write_text(line, &line->uart, text, len);
			uart_port_unlock(&line->port);
			return true;
		}
		udelay(LOCK_TRY_MICROSECONDS);
	}
	return false;
}

static void console_write(struct console *console, const char *text, unsigned int len)
{
	struct line *line = &lines[console->index];
	unsigned long flags;

	if (!oops_in_progress) {
		uart_port_lock_irqsave(&line->port, &flags);
		write_text(line, &line->uart, text, len);
		uart_port_unlock_irqrestore(&line->port, flags);
		return;
	}
	local_irq_save(flags);
	if (!try_write(line, text, len)) {
		take_over(line);
		write_text(line, &line->last_words, text, len);
	}
	local_irq_restore(flags);
}
#endif

static int console_setup(struct console *console, char *options)
{
	int baud = 115200, bits = 8, parity = 'n', flow = 'n';
	struct line *line;

	if (console->index < 0 || console->index >= MOST_PORTS)
		return -ENODEV;
	line = &lines[console->index];
	if (line->port.type == PORT_UNKNOWN)
		return -ENODEV;
	if (options)
		uart_parse_options(options, &baud, &parity, &bits, &flow);
	return uart_set_options(&line->port, console, baud, parity, bits, flow);
}

static struct console the_console = {
	.name = "ttyPV",
#ifdef HAS_NBCON
	.write_atomic = write_atomic,
	.write_thread = write_thread,
	.device_lock = console_lock_port,
	.device_unlock = console_unlock_port,
	.flags = CON_PRINTBUFFER | CON_NBCON,
#else
	.write = console_write,
	.flags = CON_PRINTBUFFER,
#endif
	.device = uart_console_device,
	.setup = console_setup,
	.index = -1,
	.data = &driver,
};

static struct uart_driver driver = {
	.owner = THIS_MODULE,
	.driver_name = KBUILD_MODNAME,
	.dev_name = "ttyPV",
	.nr = MOST_PORTS,
};

/* ------------------------------------------------------------------ sleep */

/*
 * Keeps the registers of a port that does not sleep itself: that of a console with
 * no_console_suspend. The chip loses them all the same.
 */
static void keep_registers(struct line *line)
{
	unsigned long flags;

	uart_port_lock_irqsave(&line->port, &flags);
	failed(line, "dump", u16550_config_register_dump(&line->uart, &line->registers));
	uart_port_unlock_irqrestore(&line->port, flags);
}

/* Writes them back, unless the chip has kept them: that would empty its FIFOs. */
static void restore_registers(struct line *line)
{
	unsigned long flags;
	u8 ier;

	uart_port_lock_irqsave(&line->port, &flags);
	if (!failed(line, "ier", u16550_ier(&line->uart, &ier)) && ier != line->registers.ier)
		failed(line, "restore", u16550_restore(&line->uart, &line->registers));
	uart_port_unlock_irqrestore(&line->port, flags);
}

/* serial_core closes the chip of a port that is open, and sets it up again afterwards. */
static int suspend(struct device *device)
{
	struct uart_port *port = dev_get_drvdata(device);

	uart_suspend_port(&driver, port);
	if (line_of(port)->is_open)
		keep_registers(line_of(port));
	return 0;
}

static int resume(struct device *device)
{
	struct uart_port *port = dev_get_drvdata(device);

	if (line_of(port)->is_open)
		restore_registers(line_of(port));
	uart_resume_port(&driver, port);
	return 0;
}

const struct dev_pm_ops u16550_tty_sleep = { SYSTEM_SLEEP_PM_OPS(suspend, resume) };

/* ------------------------------------------------------------------ ports that come and go */

#define ANY_NUMBER (-1)

/* To be held where `is_added` of any line is asked for, or changed. */
static DEFINE_MUTEX(adding);

/* The line with this number, or the first one, that no device has. */
static struct line *free_line(int number)
{
	int index;

	for (index = 0; index < MOST_PORTS; index++) {
		if (!lines[index].is_added && (number == ANY_NUMBER || number == index))
			return &lines[index];
	}
	return NULL;
}

static int add_line(struct line *line, struct device *device, const struct u16550_tty_chip *chip)
{
	int error = 0;

	memset(line, 0, sizeof(*line));
	snprintf(line->name, sizeof(line->name), "%s%d", driver.dev_name, (int)(line - lines));
	spin_lock_init(&line->port.lock);
	INIT_WORK(&line->report, report);
	timer_setup(&line->timer, look_in_time, 0);
	timer_setup(&line->idle_timer, look_when_awake, TIMER_DEFERRABLE);
	hrtimer_setup(&line->turning, turned, CLOCK_MONOTONIC, HRTIMER_MODE_REL);
	line->port.ops = &operations;
	line->port.line = line - lines;
	line->port.iotype = chip->iotype;
	line->port.iobase = chip->base;
	line->port.mapbase = chip->memory;
	line->port.mapsize = chip->size;
	line->port.regshift = chip->shift;
	line->is_design_ware = chip->is_design_ware;
	line->has_auto_flow = chip->has_auto_flow;
	line->port.irq = chip->irq;
	line->port.uartclk = chip->frequency;
	line->port.fifosize = FIFO_SIZE;
	line->port.attr_group = &attribute_group;
	line->port.flags = UPF_BOOT_AUTOCONF | (chip->iotype == UPIO_PORT ? 0 : UPF_FIXED_PORT);
	line->port.has_sysrq = IS_ENABLED(CONFIG_MAGIC_SYSRQ_SERIAL);
	line->port.dev = device;
	/*
	 * A bus needs a second driver of the same chip, which cannot know what the first one keeps
	 * of a DesignWare chip.
	 */
	if (!line->is_design_ware) {
		line->port.rs485_config = set_rs485;
		line->port.rs485_supported = rs485_supported;
		error = uart_get_rs485_mode(&line->port);
		line->direction = direction_of(&line->port.rs485);
	}
	if (!error)
		error = uart_add_one_port(&driver, &line->port);
	line->is_added = !error;
	return error;
}

static int add(struct device *device, int number, const struct u16550_tty_chip *chip)
{
	struct line *line;
	int error = -ENOSPC;

	mutex_lock(&adding);
	line = free_line(number);
	if (line)
		error = add_line(line, device, chip);
	mutex_unlock(&adding);
	if (!error)
		dev_set_drvdata(device, &line->port);
	return error;
}

int u16550_tty_add(struct device *device, const struct u16550_tty_chip *chip)
{
	int error = add(device, ANY_NUMBER, chip);
	struct uart_port *port;

	if (error)
		return error;
	port = dev_get_drvdata(device);
	if (port->type != PORT_UNKNOWN)
		return 0;
	u16550_tty_remove(device);
	return -ENODEV;
}

int u16550_tty_add_named(struct device *device, int number, const struct u16550_tty_chip *chip)
{
	return add(device, number, chip);
}

void u16550_tty_remove(struct device *device)
{
	struct line *line = line_of(dev_get_drvdata(device));

	uart_remove_one_port(&driver, &line->port);
	flush_work(&line->report);
	mutex_lock(&adding);
	line->is_added = false;
	mutex_unlock(&adding);
}

/* ------------------------------------------------------------------ the module */

static int __init begin_firmware(void)
{
	int error = u16550_tty_begin_pnp();

	if (error)
		return error;
	error = u16550_tty_begin_of();
	if (error)
		u16550_tty_end_pnp();
	return error;
}

/*
 * The user's ports are all that he wants of the board. A card has none of them before he names its
 * numbers.
 */
static int __init begin_devices(void)
{
	return u16550_tty_has_ports() ? u16550_tty_begin_ports() : begin_firmware();
}

static void end_devices(void)
{
	if (u16550_tty_has_ports()) {
		u16550_tty_end_ports();
	} else {
		u16550_tty_end_of();
		u16550_tty_end_pnp();
	}
}

static int __init begin(void)
{
	int error;

	if (with_console)
		driver.cons = &the_console;
	error = uart_register_driver(&driver);
	if (error)
		return error;
	error = begin_devices();
	if (error)
		goto without_devices;
	error = u16550_tty_begin_pci();
	if (error)
		goto without_cards;
	return 0;

without_cards:
	end_devices();
without_devices:
	uart_unregister_driver(&driver);
	return error;
}

static void __exit end(void)
{
	u16550_tty_end_pci();
	end_devices();
	uart_unregister_driver(&driver);
}

module_init(begin);
module_exit(end);
MODULE_LICENSE("Dual MIT/GPL");
MODULE_DESCRIPTION("16550 serial ports over a proved driver");
