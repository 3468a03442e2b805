//! Rings at a bus: bytes are queued and served by interrupts, and a timer gives the bus back.

use crate::direction::Direction;
use crate::errors::{BusyError, NotSendingError};
use uart_16550::backend::Backend;
use uart_ring::{ErrorNotes, Handled, Refused, StuckError, Uart16550Ring, UnnotedError};
use uart_spec::Received;
use uart_spec::registers::{IER, LSR};

/// Rings at a bus on which one end at a time may send, as RS-485 with two wires.
///
/// `start_sending` switches the transceiver to send, `queue` takes bytes, and the interrupt handler
/// sends them, by `handle`. A timer of the program calls `try_finish`, which gives the bus back
/// once all bytes have left the chip. So nothing waits in a loop: no interrupt tells that the
/// transmitter is empty, and the timer asks.
///
/// While the direction is not to send, `queue` takes nothing and returns an error. No call writes a
/// byte or switches the direction otherwise, in whatever order they are made: that is proved, and
/// each byte that is queued is written while the direction is to send.
///
/// Let the timer come when the bytes may have left, and once more each character until `try_finish`
/// succeeds. The delays are the caller's, as with [`HalfDuplex`](crate::HalfDuplex): before the
/// first `queue`, and between the end of the last byte and `try_finish`. `inner` tells how many
/// bytes wait. A receiver that hears itself has as many bytes as were queued: take them by `take`.
///
/// Interrupts are masked during each call, as with the rings themselves. For other calls of the
/// rings take them back by `into_inner`, and give them to `new` again.
///
/// # Examples
///
/// ```
/// # include!(concat!(env!("CARGO_MANIFEST_DIR"), "/examples.rs"));
/// # fn main() {}
/// # use facade::{ring::{self, MAX_INTERRUPTS}, rs485::*};
/// # fn example(bus: &mut HalfDuplexRing<Device>) -> Outcome<()> {
/// bus.start_sending();
/// bus.queue(b"question")?;
/// // In the interrupt handler:
/// let handled = bus.handle(MAX_INTERRUPTS);
/// // In the timer's:
/// let is_over = bus.try_finish().is_ok();
/// # Ok(()) }
/// ```
pub struct HalfDuplexRing<B> {
    pub(crate) ring: Uart16550Ring<B>,
    pub(crate) direction: Direction,
    pub(crate) is_sending: bool,
}

impl<B: Backend> HalfDuplexRing<B> {
    /// Returns rings at a bus that they may drive, with the transceiver switched to receive.
    ///
    /// Makes the accesses of `try_finish`. Does not wait. Initialise the driver before, with the
    /// outputs of [`Direction::receiving`], and enable its interrupts as for the rings.
    ///
    /// # Errors
    ///
    /// `BusyError` if a byte waits in the transmit ring, or the transmitter is not empty. Nothing
    /// was written then, and the rings are returned.
    ///
    /// # Examples
    ///
    /// ```
    /// # include!(concat!(env!("CARGO_MANIFEST_DIR"), "/examples.rs"));
    /// # fn main() {}
    /// # use facade::{ring::{self, MAX_INTERRUPTS}, rs485::*};
    /// # fn example(ring: ring::Uart16550Ring<Device>, direction: Direction) -> Outcome<()> {
    /// let mut bus = HalfDuplexRing::new(ring, direction)?;
    /// # Ok(()) }
    /// ```
    ///
    /// # Proved
    ///
    /// - [`RingBegins`](crate::proved::rings#RingBegins) `B.step ring direction result`: as `try_finish` of rings of whose direction nothing is known, so that it is taken to be to send. If that fails, the rings are returned.
    ///
    /// <details><summary>The clauses</summary>
    ///
    /// [How to read them](uart_spec::proved):
    ///
    /// ```text
    /// ensures { RingBegins B.step ring direction result }
    /// ```
    ///
    /// </details>
    pub fn new(
        ring: Uart16550Ring<B>,
        direction: Direction,
    ) -> Result<Self, Refused<Uart16550Ring<B>, BusyError>> {
        let mut bus = HalfDuplexRing {
            ring,
            direction,
            is_sending: true,
        };
        match bus.try_finish() {
            Ok(()) => Ok(bus),
            Err(cause) => {
                let given = bus.ring;
                Err(Refused { given, cause })
            }
        }
    }

    // Switches the transceiver to send, or to receive.
    fn turn(&mut self, sends: bool) {
        let direction = self.direction;
        let uart = self.ring.inner_mut();
        let outputs = uart.mcr();
        uart.set_modem_control(direction.turned(sends, outputs));
        self.is_sending = sends;
    }

    /// Switches the transceiver to send, as `start_sending` of [`HalfDuplex`](crate::HalfDuplex)
    /// does. From now on bytes may be queued. Does not wait.
    ///
    /// # Examples
    ///
    /// ```
    /// # include!(concat!(env!("CARGO_MANIFEST_DIR"), "/examples.rs"));
    /// # fn main() {}
    /// # use facade::{ring::{self, MAX_INTERRUPTS}, rs485::*};
    /// # fn example(bus: &mut HalfDuplexRing<Device>) -> Outcome<()> {
    /// bus.start_sending();
    /// assert!(bus.is_sending());
    /// # Ok(()) }
    /// ```
    ///
    /// # Proved
    ///
    /// - [`RingBusDid`](crate::proved::rings#RingBusDid) `B.step (RingTurns true) self.old self.new`: the call did this, on a path of the backend's steps.
    ///   - [`RingTurns`](crate::proved::rings#RingTurns): the transceiver is switched: MCR is read, and written with the line as it is to be in this direction, without loopback, and at RTS without automatic flow control.
    ///
    /// <details><summary>The clauses</summary>
    ///
    /// [How to read them](uart_spec::proved):
    ///
    /// ```text
    /// ensures { RingBusDid B.step (RingTurns true) self.old self.new }
    /// ```
    ///
    /// </details>
    pub fn start_sending(&mut self) {
        self.turn(true);
    }

    /// Gives the bus back if no byte waits and the transmitter is empty: reads LSR once and, if it
    /// shows `TRANSMITTER_EMPTY`, MCR, and writes that with the line so that the transceiver
    /// receives. This is the call of the program's timer.
    ///
    /// Does not wait. The error bits that the read of LSR clears are saved for `take_line`.
    ///
    /// # Errors
    ///
    /// `BusyError` if a byte waits in the transmit ring, and no access was made; or if the
    /// transmitter is not empty. The direction is as it was.
    ///
    /// # Examples
    ///
    /// ```
    /// # include!(concat!(env!("CARGO_MANIFEST_DIR"), "/examples.rs"));
    /// # fn main() {}
    /// # use facade::{ring::{self, MAX_INTERRUPTS}, rs485::*};
    /// # fn example(bus: &mut HalfDuplexRing<Device>) -> Outcome<()> {
    /// let is_over = bus.try_finish().is_ok();
    /// # Ok(()) }
    /// ```
    ///
    /// # Proved
    ///
    /// - [`RingBusDid`](crate::proved::rings#RingBusDid) `B.step (RingTriesToFinish result) self.old self.new`: the call did this, on a path of the backend's steps.
    ///   - [`RingTriesToFinish`](crate::proved::rings#RingTriesToFinish): no byte waits, a look at LSR shows that the transmitter is empty, and the transceiver is switched to receive; or a byte waits, and nothing is done; or none does, and the look shows that it is not.
    ///
    /// <details><summary>The clauses</summary>
    ///
    /// [How to read them](uart_spec::proved):
    ///
    /// ```text
    /// ensures { RingBusDid B.step (RingTriesToFinish result) self.old self.new }
    /// ```
    ///
    /// </details>
    pub fn try_finish(&mut self) -> Result<(), BusyError> {
        // What waits would go out later, when an interrupt is served.
        if self.ring.transmit_len() > 0 || self.ring.urgent().is_some() {
            return Err(BusyError);
        }
        if !self.ring.inner_mut().is_idle() {
            return Err(BusyError);
        }
        self.turn(false);
        Ok(())
    }

    /// Queues bytes from the front of the slice, as `queue` of the rings does, and returns how
    /// many: as many as there is room for. What the chip takes at once is sent.
    ///
    /// # Errors
    ///
    /// `NotSendingError` if the direction is not to send. No access was made.
    ///
    /// # Examples
    ///
    /// ```
    /// # include!(concat!(env!("CARGO_MANIFEST_DIR"), "/examples.rs"));
    /// # fn main() {}
    /// # use facade::{ring::{self, MAX_INTERRUPTS}, rs485::*};
    /// # fn example(bus: &mut HalfDuplexRing<Device>, bytes: &[u8]) -> Outcome<()> {
    /// let count = bus.queue(bytes)?;
    /// # Ok(()) }
    /// ```
    ///
    /// # Proved
    ///
    /// - [`RingBusDid`](crate::proved::rings#RingBusDid) `B.step (RingQueues bytes.now result) self.old self.new`: the call did this, on a path of the backend's steps.
    ///   - [`RingQueues`](crate::proved::rings#RingQueues): while the direction is to send, a `queue` of the rings; else nothing, and the error.
    ///
    /// <details><summary>The clauses</summary>
    ///
    /// [How to read them](uart_spec::proved):
    ///
    /// ```text
    /// ensures { RingBusDid B.step (RingQueues bytes.now result) self.old self.new }
    /// ```
    ///
    /// </details>
    pub fn queue(&mut self, bytes: &[u8]) -> Result<usize, NotSendingError> {
        if !self.is_sending {
            return Err(NotSendingError);
        }
        Ok(self.ring.queue(bytes))
    }

    /// Handles the chip's interrupt, as `handle` of the rings does: what waits is sent, and what
    /// came is received.
    ///
    /// # Examples
    ///
    /// ```
    /// # include!(concat!(env!("CARGO_MANIFEST_DIR"), "/examples.rs"));
    /// # fn main() {}
    /// # use facade::{ring::{self, MAX_INTERRUPTS}, rs485::*};
    /// # fn example(bus: &mut HalfDuplexRing<Device>) -> Outcome<()> {
    /// let handled = bus.handle(MAX_INTERRUPTS);
    /// # Ok(()) }
    /// ```
    ///
    /// # Proved
    ///
    /// - [`RingBusDid`](crate::proved::rings#RingBusDid) `B.step (OnRings (Handles limit result) same) self.old self.new`: the call did this, on a path of the backend's steps.
    ///   - [`OnRings`](crate::proved::rings#OnRings): the rings do this, and of the other fields only this changes.
    ///   - [`Handles`](uart_ring::proved::handle#Handles): as many interrupts as are pending are served, but no more than the limit; if a line status shows room, bytes that wait are sent behind the data that comes next. Then, unless ISR has shown that none is pending, IER is read, and written with 0 and with what was read: what is left is triggered again.
    ///   - [`same`](crate::proved::rings#same): the fields as they are; with other rings; with this direction.
    ///
    /// <details><summary>The clauses</summary>
    ///
    /// [How to read them](uart_spec::proved):
    ///
    /// ```text
    /// ensures { RingBusDid B.step (OnRings (Handles limit result) same) self.old self.new }
    /// ```
    ///
    /// </details>
    pub fn handle(&mut self, limit: usize) -> Handled {
        self.ring.handle(limit)
    }

    /// Handles the chip's interrupt and ends a storm, as `try_handle` of the rings does.
    ///
    /// # Errors
    ///
    /// The chip is stuck, for this reason: its interrupts are off until a `restart`.
    ///
    /// # Examples
    ///
    /// ```
    /// # include!(concat!(env!("CARGO_MANIFEST_DIR"), "/examples.rs"));
    /// # fn main() {}
    /// # use facade::{ring::{self, MAX_INTERRUPTS}, rs485::*};
    /// # fn example(bus: &mut HalfDuplexRing<Device>) -> Outcome<()> {
    /// let handled = bus.try_handle(4 * MAX_INTERRUPTS, 100)?;
    /// # Ok(()) }
    /// ```
    ///
    /// # Proved
    ///
    /// - [`RingBusDid`](crate::proved::rings#RingBusDid): the call did this, on a path of the backend's steps.
    ///   - [`OnRings`](crate::proved::rings#OnRings): the rings do this, and of the other fields only this changes.
    ///   - [`TriesToHandle`](uart_ring::proved::storm#TriesToHandle): a `handle`, whose round is counted, and after which the chip may be found stuck; or, if the chip is stuck already, all interrupts are disabled again. The error is why it is stuck.
    ///   - [`same`](crate::proved::rings#same): the fields as they are; with other rings; with this direction.
    ///
    /// <details><summary>The clauses</summary>
    ///
    /// [How to read them](uart_spec::proved):
    ///
    /// ```text
    /// ensures { RingBusDid B.step (OnRings (TriesToHandle limit rounds result) same) self.old self.new }
    /// ```
    ///
    /// </details>
    pub fn try_handle(&mut self, limit: usize, rounds: u32) -> Result<Handled, StuckError> {
        self.ring.try_handle(limit, rounds)
    }

    /// Starts a chip again that is stuck, with these interrupts, as `restart` of the rings does:
    /// what waits is sent.
    ///
    /// # Examples
    ///
    /// ```
    /// # include!(concat!(env!("CARGO_MANIFEST_DIR"), "/examples.rs"));
    /// # fn main() {}
    /// # use facade::{ring::{self, MAX_INTERRUPTS}, rs485::*};
    /// # fn example(bus: &mut HalfDuplexRing<Device>) -> Outcome<()> {
    /// bus.restart(IER::DATA_READY.union(IER::RECEIVER_LINE_STATUS));
    /// # Ok(()) }
    /// ```
    ///
    /// # Proved
    ///
    /// - [`RingBusDid`](crate::proved::rings#RingBusDid) `B.step (OnRings (Restarts interrupts.0) same) self.old self.new`: the call did this, on a path of the backend's steps.
    ///   - [`OnRings`](crate::proved::rings#OnRings): the rings do this, and of the other fields only this changes.
    ///   - [`Restarts`](uart_ring::proved::storm#Restarts): these interrupts are enabled, without DATA\_READY while receiving is paused; the chip is not stuck any more, and sending resumes.
    ///   - [`same`](crate::proved::rings#same): the fields as they are; with other rings; with this direction.
    ///
    /// <details><summary>The clauses</summary>
    ///
    /// [How to read them](uart_spec::proved):
    ///
    /// ```text
    /// ensures { RingBusDid B.step (OnRings (Restarts interrupts.0) same) self.old self.new }
    /// ```
    ///
    /// </details>
    pub fn restart(&mut self, interrupts: IER) {
        self.ring.restart(interrupts);
    }

    /// Returns whether the transmitter is empty, as `is_idle` of the driver does: reads LSR once.
    /// Bytes that wait in the transmit ring are not in the transmitter.
    ///
    /// # Examples
    ///
    /// ```
    /// # include!(concat!(env!("CARGO_MANIFEST_DIR"), "/examples.rs"));
    /// # fn main() {}
    /// # use facade::{ring::{self, MAX_INTERRUPTS}, rs485::*};
    /// # fn example(bus: &mut HalfDuplexRing<Device>) -> Outcome<()> {
    /// let is_sent = bus.inner().transmit_len() == 0 && bus.is_idle();
    /// # Ok(()) }
    /// ```
    ///
    /// # Proved
    ///
    /// - [`RingBusDid`](crate::proved::rings#RingBusDid) `B.step (RingLooks result) self.old self.new`: the call did this, on a path of the backend's steps.
    ///   - [`RingLooks`](crate::proved::rings#RingLooks): a look at LSR shows that the transmitter is empty, or that it is not.
    ///
    /// <details><summary>The clauses</summary>
    ///
    /// [How to read them](uart_spec::proved):
    ///
    /// ```text
    /// ensures { RingBusDid B.step (RingLooks result) self.old self.new }
    /// ```
    ///
    /// </details>
    pub fn is_idle(&mut self) -> bool {
        self.ring.inner_mut().is_idle()
    }

    /// Takes received bytes from the receive ring, as `take` of the rings does.
    ///
    /// # Examples
    ///
    /// ```
    /// # include!(concat!(env!("CARGO_MANIFEST_DIR"), "/examples.rs"));
    /// # fn main() {}
    /// # use facade::{ring::{self, MAX_INTERRUPTS}, rs485::*};
    /// # fn example(bus: &mut HalfDuplexRing<Device>, mut slots: [u8; 2]) -> Outcome<()> {
    /// let count = bus.take(&mut slots);
    /// # Ok(()) }
    /// ```
    ///
    /// # Proved
    ///
    /// - *did*: [`RingBusDid`](crate::proved::rings#RingBusDid): the call did this, on a path of the backend's steps.
    ///   - [`OnRings`](crate::proved::rings#OnRings): the rings do this, and of the other fields only this changes.
    ///   - [`TakesBytes`](uart_ring::proved::receive#TakesBytes): the bytes are from the front of the receive ring, as many as there are slots and bytes; if there are any, a pause of receiving ends.
    ///   - [`same`](crate::proved::rings#same): the fields as they are; with other rings; with this direction.
    /// - *count*: `result ≤ length slots.old`.
    /// - *rest*: `drop result slots.new ≡ drop result slots.old`.
    ///
    /// <details><summary>The clauses</summary>
    ///
    /// [How to read them](uart_spec::proved):
    ///
    /// ```text
    /// ensures did { RingBusDid B.step (OnRings (TakesBytes (length slots.old) (take result slots.new)) same) self.old self.new }
    /// ensures count { result ≤ length slots.old }
    /// ensures rest { drop result slots.new ≡ drop result slots.old }
    /// ```
    ///
    /// </details>
    pub fn take(&mut self, slots: &mut [u8]) -> usize {
        self.ring.take(slots)
    }

    /// Drops the bytes of the transmit ring, as `clear_transmit` of the rings does, and returns how
    /// many. What is in the chip still goes out. Makes no access.
    ///
    /// # Examples
    ///
    /// ```
    /// # include!(concat!(env!("CARGO_MANIFEST_DIR"), "/examples.rs"));
    /// # fn main() {}
    /// # use facade::{ring::{self, MAX_INTERRUPTS}, rs485::*};
    /// # fn example(bus: &mut HalfDuplexRing<Device>) -> Outcome<()> {
    /// let dropped = bus.clear_transmit();
    /// # Ok(()) }
    /// ```
    ///
    /// # Proved
    ///
    /// - [`RingBusDid`](crate::proved::rings#RingBusDid) `B.step (OnRings (ClearsTransmit result) same) self.old self.new`: the call did this, on a path of the backend's steps.
    ///   - [`OnRings`](crate::proved::rings#OnRings): the rings do this, and of the other fields only this changes.
    ///   - [`ClearsTransmit`](uart_ring::proved::transmit#ClearsTransmit): the transmit ring is emptied without an access, and the result is how many bytes it had.
    ///   - [`same`](crate::proved::rings#same): the fields as they are; with other rings; with this direction.
    ///
    /// <details><summary>The clauses</summary>
    ///
    /// [How to read them](uart_spec::proved):
    ///
    /// ```text
    /// ensures { RingBusDid B.step (OnRings (ClearsTransmit result) same) self.old self.new }
    /// ```
    ///
    /// </details>
    pub fn clear_transmit(&mut self) -> usize {
        self.ring.clear_transmit()
    }

    /// Drops the bytes of the receive ring, as `clear_receive` of the rings does, and returns how
    /// many: an echo that nobody compares, or what was heard before a question.
    ///
    /// # Examples
    ///
    /// ```
    /// # include!(concat!(env!("CARGO_MANIFEST_DIR"), "/examples.rs"));
    /// # fn main() {}
    /// # use facade::{ring::{self, MAX_INTERRUPTS}, rs485::*};
    /// # fn example(bus: &mut HalfDuplexRing<Device>) -> Outcome<()> {
    /// let dropped = bus.clear_receive();
    /// # Ok(()) }
    /// ```
    ///
    /// # Proved
    ///
    /// - [`RingBusDid`](crate::proved::rings#RingBusDid) `B.step (OnRings (ClearsReceive result) same) self.old self.new`: the call did this, on a path of the backend's steps.
    ///   - [`OnRings`](crate::proved::rings#OnRings): the rings do this, and of the other fields only this changes.
    ///   - [`ClearsReceive`](uart_ring::proved::receive#ClearsReceive): the receive ring is emptied, and the result is how many bytes it had; if it had any, a pause of receiving ends.
    ///   - [`same`](crate::proved::rings#same): the fields as they are; with other rings; with this direction.
    ///
    /// <details><summary>The clauses</summary>
    ///
    /// [How to read them](uart_spec::proved):
    ///
    /// ```text
    /// ensures { RingBusDid B.step (OnRings (ClearsReceive result) same) self.old self.new }
    /// ```
    ///
    /// </details>
    pub fn clear_receive(&mut self) -> usize {
        self.ring.clear_receive()
    }

    /// Reads LSR, and returns it with the line errors that were noted, as `take_line` of the rings
    /// does.
    ///
    /// # Examples
    ///
    /// ```
    /// # include!(concat!(env!("CARGO_MANIFEST_DIR"), "/examples.rs"));
    /// # fn main() {}
    /// # use facade::{ring::{self, MAX_INTERRUPTS}, rs485::*};
    /// # fn example(bus: &mut HalfDuplexRing<Device>) -> Outcome<()> {
    /// let had_errors = bus.take_line().has_error();
    /// # Ok(()) }
    /// ```
    ///
    /// # Proved
    ///
    /// - [`RingBusDid`](crate::proved::rings#RingBusDid) `B.step (OnRings (TakesLine result.0) same) self.old self.new`: the call did this, on a path of the backend's steps.
    ///   - [`OnRings`](crate::proved::rings#OnRings): the rings do this, and of the other fields only this changes.
    ///   - [`TakesLine`](uart_ring::proved::status#TakesLine): `lsr`, joined with what was noted, after which nothing is noted.
    ///   - [`same`](crate::proved::rings#same): the fields as they are; with other rings; with this direction.
    ///
    /// <details><summary>The clauses</summary>
    ///
    /// [How to read them](uart_spec::proved):
    ///
    /// ```text
    /// ensures { RingBusDid B.step (OnRings (TakesLine result.0) same) self.old self.new }
    /// ```
    ///
    /// </details>
    pub fn take_line(&mut self) -> LSR {
        self.ring.take_line()
    }

    /// Gives the bus back whatever the transmitter does, for one that stays busy: reads LSR and
    /// MCR, and writes that with the line so that the transceiver receives. Then drops the bytes of
    /// the transmit ring, which would else go out when an interrupt is served.
    ///
    /// Returns the rings, and LSR as their `take_line` does, which says what may be cut off beside
    /// the bytes that waited. With `TRANSMITTER_EMPTY` it is nothing; else with `THR_EMPTY` the
    /// last byte; else as many of the last bytes as the FIFO holds, and one more. What is left in
    /// the chip goes on to leave it, and nobody hears it: `new` takes the rings once that is over.
    ///
    /// Does not wait.
    ///
    /// # Examples
    ///
    /// ```
    /// # include!(concat!(env!("CARGO_MANIFEST_DIR"), "/examples.rs"));
    /// # fn main() {}
    /// # use facade::{ring::{self, MAX_INTERRUPTS}, rs485::*};
    /// # fn example(bus: HalfDuplexRing<Device>) -> Outcome<()> {
    /// let (ring, status) = bus.give_up();
    /// let is_cut_off = !status.contains(LSR::TRANSMITTER_EMPTY);
    /// # Ok(()) }
    /// ```
    ///
    /// # Proved
    ///
    /// - [`RingBusDid`](crate::proved::rings#RingBusDid): the call did this, on a path of the backend's steps.
    ///   - [`RingGivesUp`](crate::proved::rings#RingGivesUp): a `take_line` of the rings, the transceiver is switched to receive, whatever LSR shows, and the bytes of the transmit ring are dropped.
    ///   - [`rings_receiving`](crate::proved::rings#rings_receiving): rings at a bus that receives.
    ///
    /// <details><summary>The clauses</summary>
    ///
    /// [How to read them](uart_spec::proved):
    ///
    /// ```text
    /// ensures { RingBusDid B.step (RingGivesUp result.1.0) self (rings_receiving result.0 self.direction) }
    /// ```
    ///
    /// </details>
    #[must_use]
    pub fn give_up(self) -> (Uart16550Ring<B>, LSR) {
        let mut bus = self;
        // The look is before the switch: what it shows to be sent was sent in time.
        let status = bus.take_line();
        bus.turn(false);
        bus.clear_transmit();
        (bus.ring, status)
    }

    /// Returns whether the direction is to send. Makes no access.
    ///
    /// # Examples
    ///
    /// ```
    /// # include!(concat!(env!("CARGO_MANIFEST_DIR"), "/examples.rs"));
    /// # fn main() {}
    /// # use facade::{ring::{self, MAX_INTERRUPTS}, rs485::*};
    /// # fn example(bus: &mut HalfDuplexRing<Device>) -> Outcome<()> {
    /// assert!(!bus.is_sending());
    /// # Ok(()) }
    /// ```
    ///
    /// # Proved
    ///
    /// - Returns `(ring_bus_fields self.now).sends`.
    ///   - [`ring_bus_fields`](crate::proved::rings#ring_bus_fields): what these hold beside their backend.
    ///
    /// <details><summary>The clauses</summary>
    ///
    /// [How to read them](uart_spec::proved):
    ///
    /// ```text
    /// ensures { result ≡ (ring_bus_fields self.now).sends }
    /// ```
    ///
    /// </details>
    #[must_use]
    pub fn is_sending(&self) -> bool {
        self.is_sending
    }

    /// Returns the rings, to read their state. Makes no access.
    ///
    /// # Examples
    ///
    /// ```
    /// # include!(concat!(env!("CARGO_MANIFEST_DIR"), "/examples.rs"));
    /// # fn main() {}
    /// # use facade::{ring::{self, MAX_INTERRUPTS}, rs485::*};
    /// # fn example(bus: &mut HalfDuplexRing<Device>) -> Outcome<()> {
    /// let waiting = bus.inner().transmit_len();
    /// # Ok(()) }
    /// ```
    ///
    /// # Proved
    ///
    /// - Returns [`rings_of`](crate::proved::rings#rings_of) `self.now`: the rings at a bus.
    ///
    /// <details><summary>The clauses</summary>
    ///
    /// [How to read them](uart_spec::proved):
    ///
    /// ```text
    /// ensures { result.now ≡ rings_of self.now }
    /// ```
    ///
    /// </details>
    #[must_use]
    pub fn inner(&self) -> &Uart16550Ring<B> {
        &self.ring
    }

    /// Returns the rings. The direction stays as it is, so finish before. Makes no access.
    ///
    /// # Examples
    ///
    /// ```
    /// # include!(concat!(env!("CARGO_MANIFEST_DIR"), "/examples.rs"));
    /// # fn main() {}
    /// # use facade::{ring::{self, MAX_INTERRUPTS}, rs485::*};
    /// # fn example(bus: HalfDuplexRing<Device>) -> Outcome<()> {
    /// let ring = bus.into_inner();
    /// # Ok(()) }
    /// ```
    ///
    /// # Proved
    ///
    /// - Returns [`rings_of`](crate::proved::rings#rings_of) `self`: the rings at a bus.
    ///
    /// <details><summary>The clauses</summary>
    ///
    /// [How to read them](uart_spec::proved):
    ///
    /// ```text
    /// ensures { result ≡ rings_of self }
    /// ```
    ///
    /// </details>
    #[must_use]
    pub fn into_inner(self) -> Uart16550Ring<B> {
        self.ring
    }
}

impl<B: Backend> HalfDuplexRing<ErrorNotes<B>> {
    /// Takes received bytes from the receive ring, each with its errors, as `take_with_errors` of
    /// the rings does.
    ///
    /// # Errors
    ///
    /// `UnnotedError` if fewer errors are noted than bytes are in the receive ring. Then nothing is
    /// done.
    ///
    /// # Examples
    ///
    /// ```
    /// # include!(concat!(env!("CARGO_MANIFEST_DIR"), "/examples.rs"));
    /// # fn main() {}
    /// # use facade::{ring::{self, MAX_INTERRUPTS}, rs485::*};
    /// # fn example(bus: &mut HalfDuplexRing<ring::ErrorNotes<Device>>, mut slots: [Received; 2]) -> Outcome<()> {
    /// let count = bus.take_with_errors(&mut slots)?;
    /// # Ok(()) }
    /// ```
    ///
    /// # Proved
    ///
    /// - *did*: if it returns `Ok count`: [`RingBusDid`](crate::proved::rings#RingBusDid): the call did this, on a path of the backend's steps.
    ///   - [`NotesErrors`](uart_ring::proved::notes#NotesErrors): the access is made, and noted.
    ///   - [`OnRings`](crate::proved::rings#OnRings): the rings do this, and of the other fields only this changes.
    ///   - [`TakesBytes`](uart_ring::proved::receive#TakesBytes): the bytes are from the front of the receive ring, as many as there are slots and bytes; if there are any, a pause of receiving ends.
    ///   - [`bytes_of`](uart_ring::proved::notes#bytes_of): the bytes of what was received.
    ///   - [`same`](crate::proved::rings#same): the fields as they are; with other rings; with this direction.
    /// - *count*: if it returns `Ok count`: `count` is `min (length slots.old) (length (ring_fields (rings_of self.old)).receive.items)`.
    ///   - [`ring_fields`](uart_ring::proved::ring#ring_fields): what these rings hold beside their backend.
    ///   - [`rings_of`](crate::proved::rings#rings_of): the rings at a bus.
    /// - *errors*: if it returns `Ok count`: `errors_of (take count slots.new) ≡ take count (errors_in (rings_of self.old))`.
    ///   - [`errors_of`](uart_ring::proved::notes#errors_of): the errors of what was received.
    ///   - [`errors_in`](uart_ring::proved::notes#errors_in): the errors of the bytes in the receive ring, as the backend has noted them.
    /// - *rest*: if it returns `Ok count`: `drop count slots.new ≡ drop count slots.old`.
    /// - *noted*: if `unnoted_in (rings_of self.old) ≡ 0`: `is_ok result ≡ true`.
    ///   - [`unnoted_in`](uart_ring::proved::notes#unnoted_in): how many bytes of the receive ring have no note in the backend.
    /// - *all_noted*: if it returns `Ok count`: `unnoted_in (rings_of self.old) ≡ 0`.
    /// - *refused*: if it returns `Err error`: `0 < error.bytes`, and `error.bytes ≡ unnoted_in (rings_of self.old)`, and nothing changes, and `slots` stays as it was.
    ///
    /// <details><summary>The clauses</summary>
    ///
    /// [How to read them](uart_spec::proved):
    ///
    /// ```text
    /// ensures did { IfOk result (λ count. RingBusDid (NotesErrors B.step) (OnRings (TakesBytes (length slots.old) (bytes_of (take count slots.new))) same) self.old self.new) }
    /// ensures count { IfOk result (λ count. count ≡ min (length slots.old) (length (ring_fields (rings_of self.old)).receive.items)) }
    /// ensures errors { IfOk result (λ count. errors_of (take count slots.new) ≡ take count (errors_in (rings_of self.old))) }
    /// ensures rest { IfOk result (λ count. drop count slots.new ≡ drop count slots.old) }
    /// ensures noted { unnoted_in (rings_of self.old) ≡ 0 → is_ok result ≡ true }
    /// ensures all_noted { IfOk result (λ count. unnoted_in (rings_of self.old) ≡ 0) }
    /// ensures refused { IfErr result (λ error. (0 < error.bytes) × (error.bytes ≡ unnoted_in (rings_of self.old)) × (self.new ≡ self.old) × (slots.new ≡ slots.old)) }
    /// ```
    ///
    /// </details>
    pub fn take_with_errors(&mut self, slots: &mut [Received]) -> Result<usize, UnnotedError> {
        self.ring.take_with_errors(slots)
    }
}
