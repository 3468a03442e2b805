/* SPDX-License-Identifier: MIT OR GPL-2.0-only */
/* What differs between versions of Linux, from 6.1 on. The other files ask for no version. */
#ifndef U16550_TTY_COMPAT_H
#define U16550_TTY_COMPAT_H

#include <linux/hrtimer.h>
#include <linux/serial_core.h>
#include <linux/timer.h>
#include <linux/version.h>

/* A console may write from anywhere at once, and otherwise a thread writes. */
#if LINUX_VERSION_CODE >= KERNEL_VERSION(6, 12, 0)
#define HAS_NBCON
#endif

#if LINUX_VERSION_CODE < KERNEL_VERSION(6, 2, 0)
#define timer_delete_sync del_timer_sync
#endif

#if LINUX_VERSION_CODE < KERNEL_VERSION(6, 13, 0)
static inline void hrtimer_setup(struct hrtimer *timer,
				 enum hrtimer_restart (*over)(struct hrtimer *),
				 clockid_t clock, enum hrtimer_mode mode)
{
	hrtimer_init(timer, clock, mode);
	timer->function = over;
}
#endif

#if LINUX_VERSION_CODE >= KERNEL_VERSION(6, 10, 0)
/* How many bytes wait to be sent. */
static inline unsigned int waiting(struct uart_port *port)
{
	return kfifo_len(&port->state->port.xmit_fifo);
}

/* Copies those that come next, and leaves them there. Returns how many. */
static inline size_t peek(struct uart_port *port, u8 *burst, size_t most)
{
	return kfifo_out_peek(&port->state->port.xmit_fifo, burst, most);
}
#else
static inline unsigned int waiting(struct uart_port *port)
{
	return uart_circ_chars_pending(&port->state->xmit);
}

static inline size_t peek(struct uart_port *port, u8 *burst, size_t most)
{
	struct circ_buf *xmit = &port->state->xmit;
	size_t len = min_t(size_t, most, CIRC_CNT(xmit->head, xmit->tail, UART_XMIT_SIZE));
	size_t to_end = min_t(size_t, len, UART_XMIT_SIZE - xmit->tail);

	memcpy(burst, xmit->buf + xmit->tail, to_end);
	memcpy(burst + to_end, xmit->buf, len - to_end);
	return len;
}
#endif

#endif
