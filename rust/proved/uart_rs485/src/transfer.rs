//! The calls that send, and LSR.

use crate::bus::HalfDuplex;
use crate::errors::{NotSendingError, SendError};
use uart_16550::backend::Backend;
use uart_spec::registers::LSR;

impl<B: Backend> HalfDuplex<B> {
    /// Sends bytes from the front of the slice if there is room, and returns how many, as
    /// `send_bytes` of the driver does: up to as many as the FIFO holds if it is on, else one.
    ///
    /// Does not wait. Call it again with the rest of the slice to send more.
    ///
    /// # Errors
    ///
    /// `NotSendingError` if the direction is not to send. No access was made.
    ///
    /// # Examples
    ///
    /// ```
    /// # include!(concat!(env!("CARGO_MANIFEST_DIR"), "/examples.rs"));
    /// # fn main() {}
    /// # use facade::{ring::{self, MAX_INTERRUPTS}, rs485::*};
    /// # fn example(bus: &mut HalfDuplex<Device>, bytes: &[u8]) -> Outcome<()> {
    /// let sent = bus.send_bytes(bytes)?;
    /// let rest = &bytes[sent..];
    /// # Ok(()) }
    /// ```
    ///
    /// # Proved
    ///
    /// - [Does as](crate::proved::bus#BusDid) [`SendsBytes`](crate::proved::bus#SendsBytes) `buffer.now result`: while the direction is to send, a `send_bytes` of the driver; else nothing, and the error.
    ///
    /// <details><summary>The clauses</summary>
    ///
    /// [How to read them](uart_spec::proved):
    ///
    /// ```text
    /// ensures { BusDid B.step (SendsBytes buffer.now result) self.old self.new }
    /// ```
    ///
    /// </details>
    pub fn send_bytes(&mut self, buffer: &[u8]) -> Result<usize, NotSendingError> {
        if !self.is_sending {
            return Err(NotSendingError);
        }
        Ok(self.uart.send_bytes(buffer))
    }

    /// Sends all of the bytes, and waits for room before each burst, as `send_bytes_exact` of the
    /// driver does.
    ///
    /// It returns when the last burst is in THR or the FIFO. `flush` waits until all of it has left
    /// the chip.
    ///
    /// # Errors
    ///
    /// - `NotSending` if the direction is not to send. No access was made.
    /// - `Stalled` after `spin_limit` unsuccessful checks in a row. The first `done` bytes were
    ///   written to the chip.
    ///
    /// # Examples
    ///
    /// ```
    /// # include!(concat!(env!("CARGO_MANIFEST_DIR"), "/examples.rs"));
    /// # fn main() {}
    /// # use facade::{ring::{self, MAX_INTERRUPTS}, rs485::*};
    /// # fn example(bus: &mut HalfDuplex<Device>) -> Outcome<()> {
    /// bus.send_bytes_exact(b"question")?;
    /// # Ok(()) }
    /// ```
    ///
    /// # Proved
    ///
    /// - [Does as](crate::proved::bus#BusDid) [`SendsBytesExact`](crate::proved::bus#SendsBytesExact) `bytes.now result`: while the direction is to send, a `send_bytes_exact` of the driver; else nothing, and the error.
    ///
    /// <details><summary>The clauses</summary>
    ///
    /// [How to read them](uart_spec::proved):
    ///
    /// ```text
    /// ensures { BusDid B.step (SendsBytesExact bytes.now result) self.old self.new }
    /// ```
    ///
    /// </details>
    pub fn send_bytes_exact(&mut self, bytes: &[u8]) -> Result<(), SendError> {
        if !self.is_sending {
            return Err(SendError::NotSending);
        }
        match self.uart.send_bytes_exact(bytes) {
            Ok(()) => Ok(()),
            Err(stall) => Err(SendError::Stalled(stall)),
        }
    }

    /// Reads LSR, and returns it joined with the error bits that all calls before have cleared in
    /// the chip, as `lsr` of the driver does. Afterwards no error bits are saved.
    ///
    /// # Examples
    ///
    /// ```
    /// # include!(concat!(env!("CARGO_MANIFEST_DIR"), "/examples.rs"));
    /// # fn main() {}
    /// # use facade::{ring::{self, MAX_INTERRUPTS}, rs485::*};
    /// # fn example(bus: &mut HalfDuplex<Device>) -> Outcome<()> {
    /// let had_errors = bus.lsr().has_error();
    /// # Ok(()) }
    /// ```
    ///
    /// # Proved
    ///
    /// - [Does as](crate::proved::bus#BusDid) [`OnDriver`](crate::proved::bus#OnDriver) `(TakesLsr result.0) unchanged`: the driver does this, and of the other fields only this changes.
    ///   - [`TakesLsr`](uart_16550::proved::status#TakesLsr): one read of LSR, which is returned joined with the saved bits, of which none are left.
    ///   - [`unchanged`](crate::proved::bus#unchanged): the fields as they are; with another driver; with this direction.
    ///
    /// <details><summary>The clauses</summary>
    ///
    /// [How to read them](uart_spec::proved):
    ///
    /// ```text
    /// ensures { BusDid B.step (OnDriver (TakesLsr result.0) unchanged) self.old self.new }
    /// ```
    ///
    /// </details>
    pub fn lsr(&mut self) -> LSR {
        self.uart.lsr()
    }
}
