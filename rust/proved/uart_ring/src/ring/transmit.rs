//! From the transmit ring to the chip.

use super::Uart16550Ring;
use uart_16550::backend::Backend;
use uart_spec::registers::IER;

impl<B: Backend> Uart16550Ring<B> {
    // Sends one burst of the bytes that may be sent, if the chip has room, and returns how many.
    fn send_sendable(&mut self) -> usize {
        if self.stuck.is_some() {
            return 0;
        }
        let count = if self.is_held { 0 } else { self.transmit.len() };
        // In the ring the bytes may be in two parts, and the urgent byte is in none of them. They
        // are one burst, after one look, all the same.
        let (first, second) = self.transmit.front_slices(count);
        self.uart.send_gathered(self.urgent, first, second)
    }

    // Returns whether a byte waits that may be sent.
    fn has_sendable(&self) -> bool {
        if self.stuck.is_some() {
            return false;
        }
        if self.urgent.is_some() {
            return true;
        }
        let is_empty = self.transmit.is_empty();
        !self.is_held && !is_empty
    }

    // Drops bytes from the front of the transmit ring, and notes it if the ring falls to the low
    // mark.
    fn drop_queued(&mut self, count: usize) {
        let was_above = self.transmit.len() > self.low_mark;
        self.transmit.drop_front(count);
        let is_at_mark = self.transmit.len() <= self.low_mark;
        self.is_low = self.is_low || (was_above && is_at_mark);
    }

    // Drops bytes that were sent. The urgent byte is the first of them.
    fn drop_sent(&mut self, count: usize) {
        if count == 0 {
            return;
        }
        match self.urgent.take() {
            Some(_) => self.drop_queued(count - 1),
            None => self.drop_queued(count),
        }
    }

    // Enables THR_EMPTY if bytes are left that may be sent, else disables it.
    //
    // IER is read and written each time, even if it need not change: only the chip knows what IER
    // holds, and a caller may have changed it.
    fn arm_if_left(&mut self) {
        if self.has_sendable() {
            self.uart.enable_interrupts(IER::THR_EMPTY);
        } else {
            self.uart.disable_interrupts(IER::THR_EMPTY);
        }
    }

    // Sends bytes that may be sent if the chip has room. Then enables THR_EMPTY if such bytes are
    // left, else disables it.
    //
    // The bytes are sent first, because not every chip interrupts when THR_EMPTY is enabled on an
    // empty transmitter. If bytes are left, the chip was found full or has just been filled, so it
    // still has to report that it is empty.
    pub(super) fn pump(&mut self) {
        let sent = self.send_sendable();
        self.drop_sent(sent);
        self.arm_if_left();
    }

    // Sends as a pump does, but leaves IER as it is if nothing is sent.
    //
    // why: if the chip has no room, or CTS is clear, nothing has changed for the bytes that wait;
    // and to enable THR_EMPTY on an empty transmitter would raise one more interrupt.
    pub(super) fn send_on(&mut self) {
        let burst = self.send_sendable();
        if burst > 0 {
            self.drop_sent(burst);
            self.arm_if_left();
        }
    }

    /// Queues bytes from the front of the slice, as many as the transmit ring has room for, and
    /// returns how many.
    ///
    /// If it queues any, it sends one burst of the ring if the chip has room, as `send_bytes` of
    /// the driver: up to as many bytes as the FIFO holds if it is on, else one. Then it enables
    /// `THR_EMPTY` if bytes are left in the ring, else it disables it. The rest is sent when that
    /// interrupt is served. While the ring is held or the chip is stuck, it sends none, and
    /// disables `THR_EMPTY`.
    ///
    /// Does not wait. If it did not queue all bytes, call it again with the rest of the slice after
    /// interrupts were served.
    ///
    /// # Examples
    ///
    /// ```
    /// # include!(concat!(env!("CARGO_MANIFEST_DIR"), "/examples.rs"));
    /// # fn main() {}
    /// # use facade::ring;
    /// # fn example<'a>(ring: &mut ring::Uart16550Ring<Device>, message: &'a [u8]) -> &'a [u8] {
    /// let count = ring.queue(message);
    /// &message[count..]
    /// # }
    /// ```
    ///
    /// # Proved
    ///
    /// - *did*: [does as](crate::proved::ring#RingDid) [`Queues`](crate::proved::transmit#Queues) `bytes.now result`: bytes from the front of the input are added at the end of the transmit ring, as many as it has room for; if there are any, what the chip takes at once is sent.
    /// - *count*: returns `min (length bytes.now) (free (ring_fields self.old).transmit)`.
    ///   - [`free`](crate::proved::ring#free): how many more bytes a ring has room for.
    ///   - [`ring_fields`](crate::proved::ring#ring_fields): what these rings hold beside their backend.
    ///
    /// <details><summary>The clauses</summary>
    ///
    /// [How to read them](uart_spec::proved):
    ///
    /// ```text
    /// ensures did { RingDid B.step (Queues bytes.now result) self.old self.new }
    /// ensures count { result ≡ min (length bytes.now) (free (ring_fields self.old).transmit) }
    /// ```
    ///
    /// </details>
    pub fn queue(&mut self, bytes: &[u8]) -> usize {
        let count = self.transmit.fill_from_slice(bytes);
        if count > 0 {
            self.pump();
        }
        count
    }

    /// Starts sending again if bytes wait in the transmit ring with no interrupt to come.
    ///
    /// If bytes wait, it sends one burst of them if the chip has room, as `queue` does. Then it
    /// enables `THR_EMPTY` if bytes are left in the ring, else it disables it. The rest is sent
    /// when that interrupt is served. If none wait, it makes no access.
    ///
    /// Does not wait. Call it
    ///
    /// - after an `init` through `inner_mut`, which disables `THR_EMPTY` and may acknowledge its
    ///   interrupt;
    /// - with CTS checking, when `take_modem` reports that CTS came back. While CTS is clear, it
    ///   sends nothing.
    ///
    /// # Examples
    ///
    /// ```
    /// # include!(concat!(env!("CARGO_MANIFEST_DIR"), "/examples.rs"));
    /// # fn main() {}
    /// # use facade::ring::{self, *};
    /// # struct Port { ring: Uart16550Ring<Device>, overruns: u32 }
    /// # impl Port {
    /// # fn example(&mut self) {
    /// let modem = self.ring.take_modem();
    /// if modem.contains(MSR::DELTA_CTS.union(MSR::CTS)) {
    ///     self.ring.resume_transmit();
    /// }
    /// # } }
    /// ```
    ///
    /// # Proved
    ///
    /// - [Does as](crate::proved::ring#RingDid) [`ResumesTransmit`](crate::proved::transmit#ResumesTransmit): if bytes wait, what the chip takes at once is sent, and THR\_EMPTY is enabled if some are left, else disabled.
    ///
    /// <details><summary>The clauses</summary>
    ///
    /// [How to read them](uart_spec::proved):
    ///
    /// ```text
    /// ensures { RingDid B.step ResumesTransmit self.old self.new }
    /// ```
    ///
    /// </details>
    pub fn resume_transmit(&mut self) {
        // A pump, and not THR_EMPTY switched off and on: some devices raise no interrupt for that.
        if self.urgent.is_some() || !self.transmit.is_empty() {
            self.pump();
        }
    }

    /// Holds the transmit ring: none of its bytes is handed to the chip until `release_transmit`.
    ///
    /// What is in the chip goes out: a held ring stops with at most as many characters of delay as
    /// the FIFO holds. `queue` accepts bytes as before, and an urgent byte still goes out.
    ///
    /// Makes no access. If `THR_EMPTY` is enabled, it is disabled when its next interrupt is
    /// served.
    ///
    /// # Examples
    ///
    /// ```
    /// # include!(concat!(env!("CARGO_MANIFEST_DIR"), "/examples.rs"));
    /// # fn main() {}
    /// # use facade::ring;
    /// # fn example(ring: &mut ring::Uart16550Ring<Device>) -> Outcome<()> {
    /// ring.hold_transmit();
    /// # Ok(()) }
    /// ```
    ///
    /// # Proved
    ///
    /// - [Does as](crate::proved::ring#RingDid) [`Holds`](crate::proved::transmit#Holds): the ring is held, and no access is made.
    ///
    /// <details><summary>The clauses</summary>
    ///
    /// [How to read them](uart_spec::proved):
    ///
    /// ```text
    /// ensures { RingDid B.step Holds self.old self.new }
    /// ```
    ///
    /// </details>
    pub fn hold_transmit(&mut self) {
        self.is_held = true;
    }

    /// Ends the hold of the transmit ring, and starts sending again as `resume_transmit` does, so
    /// that no interrupt is missed which came during the hold.
    ///
    /// Does not wait.
    ///
    /// # Examples
    ///
    /// ```
    /// # include!(concat!(env!("CARGO_MANIFEST_DIR"), "/examples.rs"));
    /// # fn main() {}
    /// # use facade::ring;
    /// # fn example(ring: &mut ring::Uart16550Ring<Device>) -> Outcome<()> {
    /// ring.release_transmit();
    /// # Ok(()) }
    /// ```
    ///
    /// # Proved
    ///
    /// - [Does as](crate::proved::ring#RingDid) [`Releases`](crate::proved::transmit#Releases): the ring is no longer held, and sending resumes.
    ///
    /// <details><summary>The clauses</summary>
    ///
    /// [How to read them](uart_spec::proved):
    ///
    /// ```text
    /// ensures { RingDid B.step Releases self.old self.new }
    /// ```
    ///
    /// </details>
    pub fn release_transmit(&mut self) {
        self.is_held = false;
        self.resume_transmit();
    }

    /// Puts this byte before all bytes that wait to be sent, and sends if the chip has room.
    /// Returns the urgent byte that still waited, which this one replaces.
    ///
    /// This is for the flow control of a terminal: an XON or XOFF goes out after what is in the
    /// chip, even while the transmit ring is held. The newest one counts, so it replaces one that
    /// waits. With CTS checking it waits, as all bytes do, until the remote is clear to send.
    ///
    /// Does not wait.
    ///
    /// # Examples
    ///
    /// ```
    /// # include!(concat!(env!("CARGO_MANIFEST_DIR"), "/examples.rs"));
    /// # fn main() {}
    /// # use facade::ring;
    /// # const XOFF: u8 = 0x13;
    /// # fn example(ring: &mut ring::Uart16550Ring<Device>) -> Outcome<()> {
    /// assert_eq!(ring.queue_urgent(XOFF), None);
    /// # Ok(()) }
    /// ```
    ///
    /// # Proved
    ///
    /// - [Does as](crate::proved::ring#RingDid) [`QueuesUrgent`](crate::proved::transmit#QueuesUrgent) `byte result`: the byte is the urgent one, in place of one that waited, which is returned; and what the chip takes at once is sent.
    ///
    /// <details><summary>The clauses</summary>
    ///
    /// [How to read them](uart_spec::proved):
    ///
    /// ```text
    /// ensures { RingDid B.step (QueuesUrgent byte result) self.old self.new }
    /// ```
    ///
    /// </details>
    pub fn queue_urgent(&mut self, byte: u8) -> Option<u8> {
        let replaced = self.urgent.replace(byte);
        self.pump();
        replaced
    }

    /// Drops the bytes of the transmit ring, and returns how many.
    ///
    /// An urgent byte, and what is in the chip, still go out. Makes no access: if `THR_EMPTY` is
    /// enabled, it is disabled when its next interrupt is served.
    ///
    /// # Examples
    ///
    /// ```
    /// # include!(concat!(env!("CARGO_MANIFEST_DIR"), "/examples.rs"));
    /// # fn main() {}
    /// # use facade::ring;
    /// # fn example(ring: &mut ring::Uart16550Ring<Device>) -> Outcome<()> {
    /// let dropped = ring.clear_transmit();
    /// # Ok(()) }
    /// ```
    ///
    /// # Proved
    ///
    /// - [Does as](crate::proved::ring#RingDid) [`ClearsTransmit`](crate::proved::transmit#ClearsTransmit) `result`: the transmit ring is emptied without an access, and the result is how many bytes it had.
    ///
    /// <details><summary>The clauses</summary>
    ///
    /// [How to read them](uart_spec::proved):
    ///
    /// ```text
    /// ensures { RingDid B.step (ClearsTransmit result) self.old self.new }
    /// ```
    ///
    /// </details>
    pub fn clear_transmit(&mut self) -> usize {
        let count = self.transmit.len();
        self.drop_queued(count);
        count
    }

    /// Sets the low mark, a number of bytes in the transmit ring. It is 0 at first. Makes no
    /// access.
    ///
    /// # Examples
    ///
    /// ```
    /// # include!(concat!(env!("CARGO_MANIFEST_DIR"), "/examples.rs"));
    /// # fn main() {}
    /// # use facade::ring;
    /// # fn example(ring: &mut ring::Uart16550Ring<Device>) -> Outcome<()> {
    /// ring.set_low_mark(256);
    /// # Ok(()) }
    /// ```
    ///
    /// # Proved
    ///
    /// - [Does as](crate::proved::ring#RingDid) [`SetsLowMark`](crate::proved::transmit#SetsLowMark) `mark`: the low mark is stored, and no access is made.
    ///
    /// <details><summary>The clauses</summary>
    ///
    /// [How to read them](uart_spec::proved):
    ///
    /// ```text
    /// ensures { RingDid B.step (SetsLowMark mark) self.old self.new }
    /// ```
    ///
    /// </details>
    pub fn set_low_mark(&mut self, mark: usize) {
        self.low_mark = mark;
    }

    /// Returns whether the transmit ring fell from above the low mark to the mark or below since
    /// the last `take_low`. Makes no access.
    ///
    /// Call it at the end of the interrupt handler, and wake who waits for room if it returns
    /// `true`. It tells once of each fall; of several falls between two calls it tells once.
    // A flag and not a callback: a callback would run inside the call that sends, with the rings
    // borrowed, and could not queue.
    ///
    /// # Examples
    ///
    /// ```
    /// # include!(concat!(env!("CARGO_MANIFEST_DIR"), "/examples.rs"));
    /// # fn main() {}
    /// # use facade::ring;
    /// # struct Writers;
    /// # impl Writers { fn wake(&mut self) {} }
    /// # fn example(ring: &mut ring::Uart16550Ring<Device>, writers: &mut Writers) -> Outcome<()> {
    /// if ring.take_low() {
    ///     writers.wake();
    /// }
    /// # Ok(()) }
    /// ```
    ///
    /// # Proved
    ///
    /// - [Does as](crate::proved::ring#RingDid) [`TakesLow`](crate::proved::transmit#TakesLow) `result`: whether a fall to the low mark was noted, which is then forgotten.
    ///
    /// <details><summary>The clauses</summary>
    ///
    /// [How to read them](uart_spec::proved):
    ///
    /// ```text
    /// ensures { RingDid B.step (TakesLow result) self.old self.new }
    /// ```
    ///
    /// </details>
    pub fn take_low(&mut self) -> bool {
        let low = self.is_low;
        self.is_low = false;
        low
    }
}
