//! Receiving.

use super::Uart16550;
use crate::backend::Backend;
use bitflags::Flags;
use uart_spec::registers::{LSR, offsets};
use uart_spec::{ByteReceiveError, Received, StalledError};

impl<B: Backend> Uart16550<B> {
    /// Checks whether a received byte is available: whether LSR shows `DATA_READY`.
    ///
    /// Does not wait: reads LSR once. The error bits that this clears are saved for the next `lsr`.
    ///
    /// # Errors
    ///
    /// `ByteReceiveError` if no byte is available.
    ///
    /// # Examples
    ///
    /// ```
    /// # include!(concat!(env!("CARGO_MANIFEST_DIR"), "/examples.rs"));
    /// # fn main() {}
    /// # fn example(uart: &mut Uart16550<Device>) -> Outcome<()> {
    /// assert!(uart.ready_to_receive().is_err());
    /// # Ok(()) }
    /// ```
    ///
    /// # Proved
    ///
    /// - [Makes accesses as](crate::proved::driver#Made) [`ReadyToReceive`](crate::proved::receive#ReadyToReceive) `result`: one read of LSR, which shows a received byte exactly if the result is `Ok`.
    ///
    /// <details><summary>The clauses</summary>
    ///
    /// [How to read them](uart_spec::proved):
    ///
    /// ```text
    /// ensures { Made B.step (ReadyToReceive result) self.old self.new }
    /// ```
    ///
    /// </details>
    pub fn ready_to_receive(&mut self) -> Result<(), ByteReceiveError> {
        if !self.read_lsr().contains(LSR::DATA_READY) {
            return Err(ByteReceiveError);
        }
        Ok(())
    }

    /// Receives one byte if one is available: reads LSR, and if it shows `DATA_READY`, RBR.
    ///
    /// Does not wait. The error bits that the read of LSR clears are saved for the next `lsr`; they
    /// belong to the byte that is then received, except for an overrun.
    ///
    /// # Errors
    ///
    /// `ByteReceiveError` if no byte is available. RBR was not read then.
    ///
    /// # Examples
    ///
    /// ```
    /// # include!(concat!(env!("CARGO_MANIFEST_DIR"), "/examples.rs"));
    /// # fn main() {}
    /// # fn example(uart: &mut Uart16550<Device>) -> Outcome<Option<u8>> {
    /// # Ok({
    /// uart.try_receive_byte().ok()
    /// # }) }
    /// ```
    ///
    /// # Proved
    ///
    /// - [Makes accesses as](crate::proved::driver#Made) [`TryReceive`](crate::proved::receive#TryReceive) `result`: LSR shows a received byte, which is read from DATA and returned; or LSR shows none.
    ///
    /// <details><summary>The clauses</summary>
    ///
    /// [How to read them](uart_spec::proved):
    ///
    /// ```text
    /// ensures { Made B.step (TryReceive result) self.old self.new }
    /// ```
    ///
    /// </details>
    pub fn try_receive_byte(&mut self) -> Result<u8, ByteReceiveError> {
        self.ready_to_receive()?;
        Ok(self.read_register(offsets::DATA))
    }

    /// Receives bytes while some are available and there are free slots. Returns how many, and
    /// leaves the slots beyond them unchanged.
    ///
    /// Does not wait: reads LSR before each byte, and ends when it shows none. Call it again with
    /// the rest of the slice to receive more. An empty slice makes no access. Error bits are saved
    /// for the next `lsr`, and do not end the call.
    ///
    /// # Examples
    ///
    /// ```
    /// # include!(concat!(env!("CARGO_MANIFEST_DIR"), "/examples.rs"));
    /// # fn main() {}
    /// # fn example(uart: &mut Uart16550<Device>) -> Outcome<()> {
    /// let mut slots = [0xee; 4];
    /// assert_eq!(uart.receive_bytes(&mut slots), 2);
    /// assert_eq!(slots, [0x41, 0x42, 0xee, 0xee]);
    /// # Ok(()) }
    /// ```
    ///
    /// # Proved
    ///
    /// - *made*: [makes accesses as](crate::proved::driver#Made) [`Receives`](crate::proved::receive#Receives) `(length buffer.old) (take result buffer.new)`: bytes are read from DATA, each after LSR shows it, until the slots are full, or LSR shows none.
    /// - *count*: `result ≤ length buffer.old`.
    /// - *rest*: `drop result buffer.new ≡ drop result buffer.old`.
    ///
    /// <details><summary>The clauses</summary>
    ///
    /// [How to read them](uart_spec::proved):
    ///
    /// ```text
    /// ensures made { Made B.step (Receives (length buffer.old) (take result buffer.new)) self.old self.new }
    /// ensures count { result ≤ length buffer.old }
    /// ensures rest { drop result buffer.new ≡ drop result buffer.old }
    /// ```
    ///
    /// </details>
    pub fn receive_bytes(&mut self, buffer: &mut [u8]) -> usize {
        for (count, slot) in buffer.iter_mut().enumerate() {
            match self.try_receive_byte() {
                Ok(byte) => *slot = byte,
                Err(_) => return count,
            }
        }
        buffer.len()
    }

    /// Receives one byte if one is available, with the errors that LSR showed with it: reads LSR,
    /// and if it shows `DATA_READY`, RBR.
    ///
    /// Does not wait. The error bits are saved for the next `lsr` too. `receive_with_errors` says
    /// when an error is not shown.
    ///
    /// # Errors
    ///
    /// `ByteReceiveError` if no byte is available. RBR was not read then.
    ///
    /// # Examples
    ///
    /// ```
    /// # include!(concat!(env!("CARGO_MANIFEST_DIR"), "/examples.rs"));
    /// # fn main() {}
    /// # fn example(uart: &mut Uart16550<Device>) -> Outcome<Option<Received>> {
    /// # Ok({
    /// uart.try_receive_with_errors().ok()
    /// # }) }
    /// ```
    ///
    /// # Proved
    ///
    /// - [Makes accesses as](crate::proved::driver#Made) [`TryReceiveWithErrors`](crate::proved::receive#TryReceiveWithErrors) `result`: LSR shows a received byte, which is read from DATA and returned with the errors that LSR shows; or LSR shows none.
    ///
    /// <details><summary>The clauses</summary>
    ///
    /// [How to read them](uart_spec::proved):
    ///
    /// ```text
    /// ensures { Made B.step (TryReceiveWithErrors result) self.old self.new }
    /// ```
    ///
    /// </details>
    pub fn try_receive_with_errors(&mut self) -> Result<Received, ByteReceiveError> {
        // LSR shows the errors of the character that is the next to be read. So it is read first.
        let lsr = self.read_lsr();
        if !lsr.contains(LSR::DATA_READY) {
            return Err(ByteReceiveError);
        }
        let byte = self.read_register(offsets::DATA);
        let errors = lsr.intersection(LSR::LINE_ERRORS);
        Ok(Received { byte, errors })
    }

    /// Receives bytes with their errors while some are available and there are free slots. Returns
    /// how many, and leaves the slots beyond them unchanged.
    ///
    /// The chip shows the errors of the character that is the next to be read, once: if an earlier
    /// call has already looked at the first byte, its errors are missing here, and are in the next
    /// `lsr`. Without a FIFO a byte that arrives between the two reads replaces the one that LSR
    /// described, and the next look shows an overrun.
    ///
    /// An overrun tells that a character was lost, and the FIFO decides on which side of the byte
    /// that it comes with. With the FIFO on, all that waited came before the lost one: it was lost
    /// right behind as many characters from this byte on as the FIFO holds, or one fewer, so with a
    /// FIFO of 16 behind the 15th or the 16th. These are bytes that the call returns and then those
    /// that are still in the receiver. With the FIFO off, the further character replaces the one
    /// that waits, so the lost one came before this byte.
    ///
    /// Does not wait: reads LSR before each byte, and ends when it shows none. An empty slice makes
    /// no access. The error bits are saved for the next `lsr` too, and do not end the call.
    ///
    /// # Examples
    ///
    /// ```
    /// # include!(concat!(env!("CARGO_MANIFEST_DIR"), "/examples.rs"));
    /// # fn main() {}
    /// # fn example(uart: &mut Uart16550<Device>, mut slots: [Received; 4]) -> Outcome<()> {
    /// let count = uart.receive_with_errors(&mut slots);
    /// # Ok(()) }
    /// ```
    ///
    /// # Proved
    ///
    /// - *made*: [makes accesses as](crate::proved::driver#Made) [`ReceivesWithErrors`](crate::proved::receive#ReceivesWithErrors) `(length slots.old) (take result slots.new)`: bytes are read from DATA, each after LSR shows it and its errors, until the slots are full, or LSR shows none.
    /// - *count*: `result ≤ length slots.old`.
    /// - *rest*: `drop result slots.new ≡ drop result slots.old`.
    ///
    /// <details><summary>The clauses</summary>
    ///
    /// [How to read them](uart_spec::proved):
    ///
    /// ```text
    /// ensures made { Made B.step (ReceivesWithErrors (length slots.old) (take result slots.new)) self.old self.new }
    /// ensures count { result ≤ length slots.old }
    /// ensures rest { drop result slots.new ≡ drop result slots.old }
    /// ```
    ///
    /// </details>
    pub fn receive_with_errors(&mut self, slots: &mut [Received]) -> usize {
        for (taken, slot) in slots.iter_mut().enumerate() {
            match self.try_receive_with_errors() {
                Ok(received) => *slot = received,
                Err(_) => return taken,
            }
        }
        slots.len()
    }

    // Waits until some bytes were received, and returns how many.
    pub(crate) fn receive_some(&mut self, buffer: &mut [u8]) -> Option<usize> {
        for _turn in 0..self.spin_limit.get() {
            let count = self.receive_bytes(buffer);
            if count > 0 {
                return Some(count);
            }
        }
        None
    }

    // Waits for one byte. The first poll is separate, since it mostly finds one: then the limit is
    // never read.
    pub(crate) fn receive_one(&mut self) -> Option<u8> {
        if let Ok(byte) = self.try_receive_byte() {
            return Some(byte);
        }
        for _turn in 1..self.spin_limit.get() {
            if let Ok(byte) = self.try_receive_byte() {
                return Some(byte);
            }
        }
        None
    }

    /// Receives a byte into each slot, and waits for each.
    ///
    /// Each wait makes at most `spin_limit` polls of LSR. Error bits are saved for the next `lsr`,
    /// and do not end the call. An empty slice makes no access. If the chip is gone, bytes of FF
    /// are received: `is_gone` tells.
    ///
    /// # Errors
    ///
    /// `StalledError` after `spin_limit` unsuccessful polls in a row: the remote sent nothing for
    /// so long. The first `done` slots have the bytes that were received, and the other slots are
    /// unchanged.
    ///
    /// # Examples
    ///
    /// ```
    /// # include!(concat!(env!("CARGO_MANIFEST_DIR"), "/examples.rs"));
    /// # fn main() {}
    /// # enum PortError { NoAnswer { received: usize } }
    /// # fn example(uart: &mut Uart16550<Device>, answer: &mut [u8]) -> Result<(), PortError> {
    /// if let Err(stall) = uart.receive_bytes_exact(answer) {
    ///     return Err(PortError::NoAnswer {
    ///         received: stall.done,
    ///     });
    /// }
    /// # Ok(()) }
    /// ```
    ///
    /// # Proved
    ///
    /// - *made*: [makes accesses as](crate::proved::driver#Made) [`ReceivesExact`](crate::proved::receive#ReceivesExact) `(length buffer.old) (filled result buffer.new) result`: the slots are filled, each after its own wait; or those before the one whose wait reaches the limit, as many as the error reports.
    ///   - [`filled`](crate::proved::receive#filled): the bytes that an exact call put into its slots: all of them, or as many as the stall reports.
    /// - *rest*: if it returns `Err e`: `drop e.done buffer.new ≡ drop e.done buffer.old`.
    ///
    /// <details><summary>The clauses</summary>
    ///
    /// [How to read them](uart_spec::proved):
    ///
    /// ```text
    /// ensures made { Made B.step (ReceivesExact (length buffer.old) (filled result buffer.new) result) self.old self.new }
    /// ensures rest { IfErr result (λ e. drop e.done buffer.new ≡ drop e.done buffer.old) }
    /// ```
    ///
    /// </details>
    pub fn receive_bytes_exact(&mut self, buffer: &mut [u8]) -> Result<(), StalledError> {
        for (done, slot) in buffer.iter_mut().enumerate() {
            match self.receive_one() {
                Some(byte) => *slot = byte,
                None => return Err(StalledError { done }),
            }
        }
        Ok(())
    }
}
