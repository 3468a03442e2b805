//! Chips that show interrupts for ever.

use super::{HandleEnd, Handled, Uart16550Ring};
use bitflags::Flags;
use uart_16550::backend::Backend;
use uart_spec::registers::{IER, ISR, InterruptType};

// A chip that works shows at most five interrupts in a row without a byte that moves and without
// news from outside. After one more it has shown that none is pending, or news came. A round of
// fewer tells nothing: one of a single interrupt never ends with `Idle`.
const LEAST_LIMIT: usize = 6;

/// Why a chip is stuck: what ISR still showed after as many rounds as the caller allows.
#[cfg_attr(not(feature = "exhaustive"), non_exhaustive)]
#[derive(Clone, Copy, Debug, PartialEq, Eq)]
pub enum StuckError {
    /// An interrupt that has no name, which nobody can serve.
    Unknown(ISR),
    /// This interrupt, which was served and did not go away.
    Pending(InterruptType),
}

#[automatically_derived]
impl std::fmt::Display for StuckError {
    fn fmt(&self, f: &mut std::fmt::Formatter<'_>) -> std::fmt::Result {
        match self {
            Self::Unknown(_0) => {
                ({
                    (f.write_fmt(format_fields!(
                        "the chip shows an unknown interrupt for ever: {0:?}",
                        _0
                    )))
                })
            }
            Self::Pending(_0) => {
                ({ (f.write_fmt(format_fields!("the interrupt {0:?} does not go away", _0))) })
            }
        }
    }
}

#[automatically_derived]
impl std::error::Error for StuckError {}

// Returns why a chip that shows this is stuck, or `None` if no interrupt is pending.
fn shown_by(isr: ISR) -> Option<StuckError> {
    match isr.interrupt_type() {
        Some(interrupt) => Some(StuckError::Pending(interrupt)),
        None => {
            if isr.has_pending_interrupt() {
                Some(StuckError::Unknown(isr))
            } else {
                None
            }
        }
    }
}

// Returns how a round counts that ended so: as idle if a byte moved.
fn counted_as(has_moved: bool, end: HandleEnd) -> HandleEnd {
    if has_moved { HandleEnd::Idle } else { end }
}

impl<B: Backend> Uart16550Ring<B> {
    // Returns whether a byte has moved between the rings and the chip since there were so many in
    // the rings.
    fn has_moved(&self, transmit: usize, is_urgent: bool, receive: usize) -> bool {
        self.transmit.len() != transmit
            || is_urgent && !self.urgent.is_some()
            || self.receive.len() != receive
    }

    // Reads ISR once more. If it shows an interrupt, disables all interrupts and returns why.
    fn look_once_more(&mut self) -> Option<StuckError> {
        // This read may acknowledge a THR_EMPTY interrupt, which is then not served. The chip is
        // stuck in that case, and a `restart` sends what waits.
        let isr = self.uart.isr();
        match shown_by(isr) {
            None => {
                self.rounds = 0;
                None
            }
            Some(error) => {
                // All eight bits, and not only those of the interrupts that are served here: some
                // chips have more. Without them IER is 0.
                self.uart.disable_interrupts(IER::all());
                self.rounds = 0;
                self.stuck = Some(error);
                Some(error)
            }
        }
    }

    // Counts a round that did not end with `Idle`, if there may be more of them in a row.
    fn count_unfinished(&mut self, rounds: u32) -> Option<StuckError> {
        if self.rounds < rounds.saturating_sub(1) {
            self.rounds += 1;
            return None;
        }
        self.look_once_more()
    }

    // Counts a round that ended so.
    fn count_round(&mut self, rounds: u32, end: HandleEnd) -> Option<StuckError> {
        match end {
            HandleEnd::Idle => {
                self.rounds = 0;
                None
            }
            HandleEnd::Unknown | HandleEnd::Limit => self.count_unfinished(rounds),
        }
    }

    // Handles the interrupt, and counts the round.
    fn handle_round(&mut self, limit: usize, rounds: u32) -> Result<Handled, StuckError> {
        let transmit = self.transmit.len();
        let is_urgent = self.urgent.is_some();
        let receive = self.receive.len();
        let handled = self.handle(limit);
        let has_moved = self.has_moved(transmit, is_urgent, receive);
        match self.count_round(rounds, counted_as(has_moved, handled.end)) {
            None => Ok(handled),
            Some(error) => Err(error),
        }
    }

    /// Handles the chip's interrupt as `handle` does, and ends a storm: a chip that shows an
    /// interrupt for ever gets its interrupts disabled.
    ///
    /// A call that does not end with `Idle`, and that moves no byte between the rings and the chip,
    /// is a round that is left unfinished. The controller then calls the handler again, and on a
    /// broken chip for ever. So this call counts such rounds. If there were `rounds` of them in a
    /// row, the last one reads ISR once more. If that shows no interrupt, the count begins again.
    /// Otherwise the chip is stuck: the call reads IER, writes 0 to it, and returns why.
    ///
    /// While the chip is stuck, the rings hand no byte to it, and each further call of `try_handle`
    /// serves nothing, writes 0 to IER again, and returns the same error. `restart` starts again.
    ///
    /// A limit below 6 counts as 6: a chip that works may show 5 interrupts in a row without news
    /// and without a byte that moves. So it leaves a round unfinished only if the rest arrives
    /// while the round is served: at least `limit - 5` characters or changes of the modem lines,
    /// and never none. It is never found stuck, unless as many come in the course of each of
    /// `rounds` rounds in a row. If `rounds` is 0 or 1, the first unfinished round is the last one.
    ///
    /// As long as bytes move, the rounds end by themselves: a handler alone moves no more bytes
    /// than wait in the transmit ring and fit into the receive ring.
    ///
    /// A chip whose line stays high while ISR shows no interrupt is not found: its rounds end with
    /// `Idle`. DesignWare's busy detect is such a one.
    ///
    /// Does not wait: makes at most 35 accesses for each interrupt of the limit, which is 6 if it
    /// is lower, and 6 more. With a larger `fifo_size` of the driver it is twice that size and 3 in
    /// place of the 35.
    ///
    /// # Errors
    ///
    /// The chip is stuck:
    ///
    /// - `Unknown` if ISR shows an interrupt without a name.
    /// - `Pending` if ISR shows this interrupt, after so many were served.
    ///
    /// If the chip's interrupt line stays high although IER is 0, mask the interrupt at the
    /// controller.
    ///
    /// # Examples
    ///
    /// ```
    /// # include!(concat!(env!("CARGO_MANIFEST_DIR"), "/examples.rs"));
    /// # fn main() {}
    /// # use facade::ring::{self, *};
    /// # struct Port { ring: Uart16550Ring<Device>, overruns: u32 }
    /// # impl Port {
    /// # fn report(&mut self, _: StuckError) {}
    /// # fn example(&mut self) {
    /// # const MAX_UNFINISHED_ROUNDS: u32 = 100;
    /// match self.ring.try_handle(4 * MAX_INTERRUPTS, MAX_UNFINISHED_ROUNDS) {
    ///     Ok(_) => {}
    ///     Err(cause) => self.report(cause),
    /// }
    /// # } }
    /// ```
    ///
    /// # Proved
    ///
    /// - [Does as](crate::proved::ring#RingDid) [`TriesToHandle`](crate::proved::storm#TriesToHandle) `limit rounds result`: a `handle`, whose round is counted, and after which the chip may be found stuck; or, if the chip is stuck already, all interrupts are disabled again. The error is why it is stuck.
    ///
    /// <details><summary>The clauses</summary>
    ///
    /// [How to read them](uart_spec::proved):
    ///
    /// ```text
    /// ensures { RingDid B.step (TriesToHandle limit rounds result) self.old self.new }
    /// ```
    ///
    /// </details>
    pub fn try_handle(&mut self, limit: usize, rounds: u32) -> Result<Handled, StuckError> {
        match self.stuck {
            None => self.handle_round(limit.max(LEAST_LIMIT), rounds),
            Some(error) => {
                // A `take` that ended a pause has enabled DATA_READY again, or another device on
                // the line has interrupted.
                self.uart.disable_interrupts(IER::all());
                Err(error)
            }
        }
    }

    // Returns these interrupts, without DATA_READY while receiving is paused.
    fn not_paused(&self, interrupts: IER) -> IER {
        if self.is_paused {
            interrupts.difference(IER::DATA_READY)
        } else {
            interrupts
        }
    }

    /// Starts a chip again that is stuck: forgets why, and the count of rounds, enables these
    /// interrupts, and sends bytes that wait, as `resume_transmit` does.
    ///
    /// `DATA_READY` is left out while receiving is paused: the `take` that ends the pause enables
    /// it. After an `init` through `inner_mut`, which has enabled interrupts itself, call it with
    /// none.
    ///
    /// Does not wait. It may be called on a chip that is not stuck.
    ///
    /// # Examples
    ///
    /// ```
    /// # include!(concat!(env!("CARGO_MANIFEST_DIR"), "/examples.rs"));
    /// # fn main() {}
    /// # use facade::ring;
    /// # fn example(ring: &mut ring::Uart16550Ring<Device>) -> Outcome<()> {
    /// ring.restart(IER::DATA_READY.union(IER::RECEIVER_LINE_STATUS));
    /// # Ok(()) }
    /// ```
    ///
    /// # Proved
    ///
    /// - [Does as](crate::proved::ring#RingDid) [`Restarts`](crate::proved::storm#Restarts) `interrupts.0`: these interrupts are enabled, without DATA\_READY while receiving is paused; the chip is not stuck any more, and sending resumes.
    ///
    /// <details><summary>The clauses</summary>
    ///
    /// [How to read them](uart_spec::proved):
    ///
    /// ```text
    /// ensures { RingDid B.step (Restarts interrupts.0) self.old self.new }
    /// ```
    ///
    /// </details>
    pub fn restart(&mut self, interrupts: IER) {
        let enabled = self.not_paused(interrupts);
        self.uart.enable_interrupts(enabled);
        self.rounds = 0;
        self.stuck = None;
        self.resume_transmit();
    }
}
