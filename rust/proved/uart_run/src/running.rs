//! Runs of calls over the machine.

use uart_16550::Uart16550Tty;
use uart_calls::{Answer, Call, perform};
use uart_chip::Device16550;

// Makes one call of a run.
fn run_call(uart: &mut Uart16550Tty<Device16550>, call: &Call) -> Answer {
    match call {
        Call::Next => {
            uart.inner_mut().backend_mut().next();
            Answer::Done
        }
        _ => perform(uart, call),
    }
}

/// Makes the calls in turn, and stores the answer of each in its slot. Never fails, and allocates
/// no memory.
///
/// A *session* begins in a ready state, and goes on up to a call that ends it: `docs/PROVED.md` of
/// the repository says which states and calls these are. A new machine is wired, so its modem lines
/// are its inputs; so is one after an `Init` or an `InitWith` that succeeds, and every call keeps
/// that. In each session
///
/// - the wire and the transmitter grow by exactly the bytes that sends reported;
/// - no data write meets a full transmitter;
/// - the bytes received, and then those in the receiver, are those that were in the receiver at the
///   start and those that arrived, in order, without those that were dropped;
/// - no break is on the line if there was none at the start. There is none after an `Init` or an
///   `InitWith` that succeeds.
///
/// The machine sends what is shifted out in a break, and a line loses it. So of a session that
/// begins in a break the wire is none.
///
/// On a machine that cuts characters to the word length ([`Device16550::new_cut`]) this holds with
/// the bytes that sends reported and those that arrived cut in this way. The clause `uncut` states
/// it without cutting, for every other machine. There a session goes on through a
/// `SetFrameWhenIdle`, which waits until the transmitter is empty.
///
/// A `SetFrame` or a `SetFrameWhenIdle` that succeeds leaves LCR and the divisor latch as
/// configured, and the other latches and the FIFO as they were. A `SetTriggerLevel` that succeeds
/// in a ready state sets the level of the receiver. An `Attach` that succeeds leaves a ready
/// state, whatever the machine was before, and changes no latch. A `Restore` leaves one too, with
/// the registers as in the dump. For both the driver has to take the FIFO for no larger than it
/// is, and no call changes for how large it takes it. After a `Quiesce` in a ready state the chip
/// raises no interrupt. A `SetModemControl`, a `SetRts` and a `SetDtr` leave the outputs as they
/// were asked for, without loopback, and change no other register. A `CheckConfigured` succeeds
/// exactly if the registers are as the driver's configuration says, with the outputs that it
/// names. An `IsIdle` that is true found the transmitter empty, and all that was in it on the
/// wire, and so did a `SetFrameWhenIdle` that succeeds. With the FIFO on, each byte of a
/// `ReceiveWithErrors` comes with exactly the errors that it arrived with, unless an earlier look
/// has shown those of the first.
///
/// An `Init` or an `InitWith` finds the device. If it succeeds, the state after it is ready,
/// whatever the machine was before, if the driver takes the FIFO for no larger than it is. A
/// `TestLoopback` in a ready state succeeds or stalls, and if it succeeds, nothing of it went to
/// the wire. With characters of 5 or 6 bits it reports an unexpected byte instead of success.
/// Every call preserves a ready state, whatever its answer is.
///
/// If each access of the schedule has a tick before it, the spin limit is at least n (t + 1) for a
/// character of t ticks and a transmitter that holds at most n, which is 17 with a FIFO of 16, and
/// the wire has room for all that is to be sent, then an `Init` and an `InitWith` with a divisor
/// succeed, and in a ready state so do a `SetFrameWhenIdle` with one, `Attach`, `TestLoopback`,
/// `Flush` and, without CTS checking, `SendExact`, `Write` and `Text`. On a chip that has automatic
/// flow control it is to be off, since the other end may hold such a chip off for ever: an `Init`
/// turns it off, and an `InitWith` is not to turn it on.
///
/// # Examples
///
/// ```text
/// let mut answers = [Answer::Done];
/// run(uart, &[Call::Init(config)], &mut answers);
/// matches!(&answers[0], Answer::Done)
/// ```
pub fn run(uart: &mut Uart16550Tty<Device16550>, calls: &[Call], answers: &mut [Answer]) {
    // The contract of this call states what holds of every machine, whatever was done with it
    // before. Without the call each caller of `run` would have to bring that as a premise.
    let _fifo = uart.inner().backend().fifo_enabled();
    for i in 0..calls.len() {
        answers[i] = run_call(uart, &calls[i]);
    }
}
