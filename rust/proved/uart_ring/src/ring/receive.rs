//! From the chip to the receive ring, and from there to the caller.

use super::Uart16550Ring;
use bitflags::Flags;
use uart_16550::backend::Backend;
use uart_spec::registers::{IER, MCR};

// What tells the other end to go on, and to stop.
const XON: u8 = 0x11;

const XOFF: u8 = 0x13;

/// How much room in the receive ring turns RTS off, and how much turns it on again. With XOFF and
/// XON it is the same.
///
/// Between the two RTS stays as it is, so it does not change with each byte. If `release` is less
/// than `hold`, RTS is off below `hold` and on from there.
#[derive(Clone, Copy, Debug, PartialEq, Eq)]
pub struct ReceiveMarks {
    /// The other end is held back while there is room for fewer bytes than this.
    pub hold: usize,
    /// It may go on once there is room for this number of bytes.
    pub release: usize,
}

// Returns MCR with RTS asserted or clear.
fn with_rts(mcr: MCR, on: bool) -> MCR {
    if on {
        mcr.union(MCR::RTS)
    } else {
        mcr.difference(MCR::RTS)
    }
}

impl<B: Backend> Uart16550Ring<B> {
    // Pauses receiving if the receive ring is full. The data interrupt does not end until the data
    // are read, so the handler would be called without end.
    fn pause_if_full(&mut self) {
        if self.receive.is_full() {
            self.uart.disable_interrupts(IER::DATA_READY);
            self.is_paused = true;
        }
    }

    // Receives bytes into the receive ring: as many as a FIFO of the size that is set holds, and as
    // there is room for.
    pub(super) fn fill_receive_ring(&mut self) {
        let len = self.receive.len();
        let most = self.uart.fifo_size().characters();
        let slots = most.min(self.receive.capacity() - len);
        let count = self.receive.receive_from(&mut self.uart, slots);
        self.unlooked = self.unlooked.min(len) + count;
        self.pause_if_full();
    }

    // Ends a pause if so many bytes have left the receive ring.
    pub(super) fn end_pause(&mut self, count: usize) {
        if count > 0 && self.is_paused {
            self.uart.enable_interrupts(IER::DATA_READY);
            self.is_paused = false;
        }
    }

    /// Takes received bytes from the front of the receive ring, as many as there are slots, and
    /// returns how many. Leaves the other slots unchanged.
    ///
    /// Does not wait. If it takes at least one byte and receiving is paused, it enables
    /// `DATA_READY` again and ends the pause: one read and one write of IER. Otherwise it makes no
    /// access.
    ///
    /// # Examples
    ///
    /// ```
    /// # include!(concat!(env!("CARGO_MANIFEST_DIR"), "/examples.rs"));
    /// # fn main() {}
    /// # use facade::ring;
    /// # fn example(ring: &mut ring::Uart16550Ring<Device>, mut slots: [u8; 2]) -> Outcome<()> {
    /// assert_eq!(ring.take(&mut slots), 2);
    /// # Ok(()) }
    /// ```
    ///
    /// # Proved
    ///
    /// - *did*: [does as](crate::proved::ring#RingDid) [`TakesBytes`](crate::proved::receive#TakesBytes) `(length slots.old) (take result slots.new)`: the bytes are from the front of the receive ring, as many as there are slots and bytes; if there are any, a pause of receiving ends.
    /// - *count*: returns `min (length slots.old) (length (ring_fields self.old).receive.items)`.
    ///   - [`ring_fields`](crate::proved::ring#ring_fields): what these rings hold beside their backend.
    /// - *rest*: `drop result slots.new ≡ drop result slots.old`.
    ///
    /// <details><summary>The clauses</summary>
    ///
    /// [How to read them](uart_spec::proved):
    ///
    /// ```text
    /// ensures did { RingDid B.step (TakesBytes (length slots.old) (take result slots.new)) self.old self.new }
    /// ensures count { result ≡ min (length slots.old) (length (ring_fields self.old).receive.items) }
    /// ensures rest { drop result slots.new ≡ drop result slots.old }
    /// ```
    ///
    /// </details>
    pub fn take(&mut self, slots: &mut [u8]) -> usize {
        let count = self.receive.read_into(slots);
        self.end_pause(count);
        count
    }

    /// Drops the bytes of the receive ring, and returns how many. What is in the chip stays there.
    ///
    /// Does not wait. If it drops at least one byte and receiving is paused, it enables
    /// `DATA_READY` again and ends the pause, as `take` does. Otherwise it makes no access.
    ///
    /// # Examples
    ///
    /// ```
    /// # include!(concat!(env!("CARGO_MANIFEST_DIR"), "/examples.rs"));
    /// # fn main() {}
    /// # use facade::ring;
    /// # fn example(ring: &mut ring::Uart16550Ring<Device>) -> Outcome<()> {
    /// let dropped = ring.clear_receive();
    /// # Ok(()) }
    /// ```
    ///
    /// # Proved
    ///
    /// - [Does as](crate::proved::ring#RingDid) [`ClearsReceive`](crate::proved::receive#ClearsReceive) `result`: the receive ring is emptied, and the result is how many bytes it had; if it had any, a pause of receiving ends.
    ///
    /// <details><summary>The clauses</summary>
    ///
    /// [How to read them](uart_spec::proved):
    ///
    /// ```text
    /// ensures { RingDid B.step (ClearsReceive result) self.old self.new }
    /// ```
    ///
    /// </details>
    pub fn clear_receive(&mut self) -> usize {
        let count = self.receive.len();
        self.receive.drop_front(count);
        self.end_pause(count);
        count
    }

    // Returns whether the other end may send, or `None` if that is to stay as it is.
    fn may_send(&self, marks: ReceiveMarks) -> Option<bool> {
        let room = self.receive.capacity() - self.receive.len();
        // The first test comes first, so that marks the wrong way round do not let bytes come for
        // which there is no room.
        if room < marks.hold {
            Some(false)
        } else if room >= marks.release {
            Some(true)
        } else {
            None
        }
    }

    // Asserts or clears RTS, unless it is so already.
    fn make_rts(&mut self, on: bool) {
        // A handler adjusts RTS each time that it runs, and RTS changes seldom. So one read shows
        // most times that there is nothing to write, where `set_rts` would also write.
        let mcr = self.uart.mcr();
        if mcr.contains(MCR::RTS) != on {
            self.uart.set_modem_control(with_rts(mcr, on));
        }
    }

    /// Holds the other end back, or lets it go on, by RTS: clears RTS if the receive ring has room
    /// for fewer than `marks.hold` bytes, and asserts it if there is room for at least
    /// `marks.release`. Between the two RTS stays as it is.
    ///
    /// The other end has to check CTS before it sends, as `check_cts_before_sending` says. It may
    /// still send what is in its transmitter. So choose `hold` with room for that, and `release`
    /// not above the capacity of the receive ring, or RTS would never be asserted again.
    ///
    /// Call it at the end of the interrupt handler, and after each `take` and `clear_receive`. A
    /// handler alone is not enough: while the other end is held back no byte arrives, so nothing
    /// calls the handler.
    ///
    /// Does not wait. Between the marks it makes no access. Otherwise it reads MCR, and if RTS is
    /// not as it is to be, writes MCR: the other outputs as they were, and loopback off.
    ///
    /// # Examples
    ///
    /// ```
    /// # include!(concat!(env!("CARGO_MANIFEST_DIR"), "/examples.rs"));
    /// # fn main() {}
    /// # use facade::ring;
    /// # const MARKS: ring::ReceiveMarks = ring::ReceiveMarks { hold: 48, release: 64 };
    /// # fn example(ring: &mut ring::Uart16550Ring<Device>, mut slots: [u8; 2]) -> Outcome<()> {
    /// ring.take(&mut slots);
    /// ring.adjust_rts(MARKS);
    /// # Ok(()) }
    /// ```
    ///
    /// # Proved
    ///
    /// - [Does as](crate::proved::ring#RingDid) [`AdjustsRts`](crate::proved::receive#AdjustsRts) `marks`: RTS is off if the receive ring has room for fewer bytes than `hold`, on if it has room for `release` or more, and else stays. For this MCR is read, and written only if it shows RTS otherwise.
    ///
    /// <details><summary>The clauses</summary>
    ///
    /// [How to read them](uart_spec::proved):
    ///
    /// ```text
    /// ensures { RingDid B.step (AdjustsRts marks) self.old self.new }
    /// ```
    ///
    /// </details>
    pub fn adjust_rts(&mut self, marks: ReceiveMarks) {
        if let Some(on) = self.may_send(marks) {
            self.make_rts(on);
        }
    }

    // Tells the other end to go on, or to stop, unless it was told so last. Returns what was told.
    fn tell(&mut self, on: bool) -> Option<u8> {
        // An urgent byte that waits is not replaced: it may be the caller's, who would not be told.
        // Its interrupt is to come, and then the handler adjusts again.
        if self.urgent.is_some() || self.has_told_xoff != on {
            return None;
        }
        self.has_told_xoff = !on;
        let byte = if on { XON } else { XOFF };
        self.queue_urgent(byte);
        Some(byte)
    }

    /// Holds the other end back, or lets it go on, by XOFF and XON, where RTS is not wired: tells
    /// it XOFF if the receive ring has room for fewer than `marks.hold` bytes, and XON if it has
    /// room for at least `marks.release`. Returns the character, or `None` if none was to be told.
    ///
    /// The character goes out before all bytes that wait, also while the transmit ring is held, as
    /// that of a `queue_urgent`. What was told last is not told again. While another urgent byte
    /// waits, nothing is told; the next call does it. Once XOFF was told, marks of 0 let the other
    /// end go on in any case.
    ///
    /// The other end sends on until it has read the XOFF, which comes after what is in the chip.
    /// So choose `hold` with room for that, and `release` not above the capacity of the receive
    /// ring, or the other end would stop for ever. The other end takes each byte of the value of an
    /// XON or XOFF for one: this is for text.
    ///
    /// Call it at the end of the interrupt handler, and after each `take` and `clear_receive`, as
    /// [`adjust_rts`](Uart16550Ring::adjust_rts).
    ///
    /// Does not wait. If it tells something, it makes the accesses of a `queue_urgent`. Otherwise
    /// it makes none.
    ///
    /// # Examples
    ///
    /// ```
    /// # include!(concat!(env!("CARGO_MANIFEST_DIR"), "/examples.rs"));
    /// # fn main() {}
    /// # use facade::ring;
    /// # const MARKS: ring::ReceiveMarks = ring::ReceiveMarks { hold: 48, release: 64 };
    /// # fn example(ring: &mut ring::Uart16550Ring<Device>, mut slots: [u8; 2]) -> Outcome<()> {
    /// ring.take(&mut slots);
    /// ring.adjust_xoff(MARKS);
    /// # Ok(()) }
    /// ```
    ///
    /// # Proved
    ///
    /// - [Does as](crate::proved::ring#RingDid) [`AdjustsXoff`](crate::proved::receive#AdjustsXoff) `marks result`: the other end is told XOFF if the receive ring has room for fewer bytes than `hold`, and XON if it has room for `release` or more, as a `queue_urgent` sends it. What was told last is not told again, and nothing is told while another urgent byte waits. The result is what was told.
    ///
    /// <details><summary>The clauses</summary>
    ///
    /// [How to read them](uart_spec::proved):
    ///
    /// ```text
    /// ensures { RingDid B.step (AdjustsXoff marks result) self.old self.new }
    /// ```
    ///
    /// </details>
    pub fn adjust_xoff(&mut self, marks: ReceiveMarks) -> Option<u8> {
        let on = self.may_send(marks)?;
        self.tell(on)
    }

    // Returns the last XON or XOFF of the bytes at which `obey_xoff` has not looked yet.
    fn last_told(&self) -> Option<u8> {
        let mut told = None;
        let len = self.receive.len();
        for place in len - self.unlooked.min(len)..len {
            let byte = self.receive.byte_at(place);
            if byte == XON || byte == XOFF {
                told = Some(byte);
            }
        }
        told
    }

    /// Obeys the other end, which holds this end back by XOFF and lets it go on by XON: holds the
    /// transmit ring if it told XOFF last, and releases it if it told XON last. Returns that
    /// character, or `None` if none came.
    ///
    /// It looks at the bytes that came into the receive ring since it looked last, and were not
    /// taken meanwhile. So it sees each character once, and of several the last one counts. All
    /// bytes stay in the receive ring, in their order and with their errors: a program whose
    /// readers are to see neither character leaves both out of what it takes. Bytes of these values
    /// are taken for the characters, so this is for text.
    ///
    /// The hold is that of `hold_transmit`. A program that holds the ring for a reason of its own
    /// does not call this meanwhile: the characters wait, and the next call obeys the last one.
    /// What is in the chip goes out after an XOFF, and an urgent byte still does.
    ///
    /// Call it at the end of the interrupt handler, before the program takes what came. While
    /// receiving is paused the characters stay in the chip: so choose a receive ring with room, or
    /// an XON behind a full one is seen only after a `take`.
    ///
    /// Does not wait. At an XON it makes the accesses of a `release_transmit`. Otherwise it makes
    /// none.
    ///
    /// # Examples
    ///
    /// ```
    /// # include!(concat!(env!("CARGO_MANIFEST_DIR"), "/examples.rs"));
    /// # fn main() {}
    /// # use facade::ring;
    /// # fn example(ring: &mut ring::Uart16550Ring<Device>) -> Outcome<()> {
    /// ring.handle(32);
    /// ring.obey_xoff();
    /// # Ok(()) }
    /// ```
    ///
    /// # Proved
    ///
    /// - [Does as](crate::proved::ring#RingDid) [`ObeysXoff`](crate::proved::receive#ObeysXoff) `result`: of the bytes that came into the receive ring since it looked last, and are still there, the last XON or XOFF is obeyed, and is the result. All bytes stay there.
    ///
    /// <details><summary>The clauses</summary>
    ///
    /// [How to read them](uart_spec::proved):
    ///
    /// ```text
    /// ensures { RingDid B.step (ObeysXoff result) self.old self.new }
    /// ```
    ///
    /// </details>
    pub fn obey_xoff(&mut self) -> Option<u8> {
        let told = self.last_told();
        self.unlooked = 0;
        let byte = told?;
        if byte == XON {
            self.release_transmit();
        } else {
            self.hold_transmit();
        }
        told
    }
}
