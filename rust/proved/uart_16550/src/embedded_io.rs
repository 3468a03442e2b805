//! Traits for byte readers and writers, and their implementations for the driver.
//!
//! In Rattle generic code relies on the contracts of these traits. A reader or a writer defines a
//! relation between its state before a call, the bytes of the call, its result, and its state
//! after; each call is in this relation.

use crate::backend::Backend;
use crate::driver::Uart16550;
use uart_spec::StalledError;
use uart_spec::registers::LSR;

/// Defines the error of a reader or a writer.
pub trait ErrorType {
    /// The error of its calls.
    type Error;
}

/// A reader of bytes.
pub trait Read: ErrorType {
    /// Reads at least one byte into the slots, waits for it if necessary, and returns how many were
    /// read: 0 only if there are no slots.
    ///
    /// Slots beyond this number are unchanged. If the call fails, all slots are unchanged.
    ///
    /// # To be kept by an implementation
    ///
    /// What the proofs take each implementation to do. Nothing checks it of one that is written in Rust.
    ///
    /// - *reads*: `reads self.old (length buf.old) (got result buf.new) result self.new`.
    ///   - [`got`](crate::proved::io#got): the bytes that a read put into its slots: as many as it returned, and none if it failed.
    /// - *count*: if it returns `Ok count`: `count ≤ length buf.old`.
    /// - *none*: if it returns `Ok count`: if `count ≡ 0`: `length buf.old ≡ 0`.
    /// - *rest*: if it returns `Ok count`: `drop count buf.new ≡ drop count buf.old`.
    /// - *err*: if it returns `Err`: `buf` stays as it was.
    ///
    /// <details><summary>The clauses</summary>
    ///
    /// [How to read them](uart_spec::proved):
    ///
    /// ```text
    /// ensures reads { reads self.old (length buf.old) (got result buf.new) result self.new }
    /// ensures count { IfOk result (λ count. count ≤ length buf.old) }
    /// ensures none { IfOk result (λ count. count ≡ 0 → length buf.old ≡ 0) }
    /// ensures rest { IfOk result (λ count. drop count buf.new ≡ drop count buf.old) }
    /// ensures err { OnErr result (buf.new ≡ buf.old) }
    /// ```
    ///
    /// </details>
    fn read(&mut self, buf: &mut [u8]) -> Result<usize, Self::Error>;
}

/// A writer of bytes.
pub trait Write: ErrorType {
    /// Writes at least one byte from the front, waits for room if necessary, and returns how many
    /// were written: 0 only if there are no bytes.
    ///
    /// # To be kept by an implementation
    ///
    /// What the proofs take each implementation to do. Nothing checks it of one that is written in Rust.
    ///
    /// - *writes*: `writes self.old buf.now result self.new`.
    /// - *count*: if it returns `Ok count`: `count ≤ length buf.now`.
    /// - *none*: if it returns `Ok count`: if `count ≡ 0`: `length buf.now ≡ 0`.
    ///
    /// <details><summary>The clauses</summary>
    ///
    /// [How to read them](uart_spec::proved):
    ///
    /// ```text
    /// ensures writes { writes self.old buf.now result self.new }
    /// ensures count { IfOk result (λ count. count ≤ length buf.now) }
    /// ensures none { IfOk result (λ count. count ≡ 0 → length buf.now ≡ 0) }
    /// ```
    ///
    /// </details>
    fn write(&mut self, buf: &[u8]) -> Result<usize, Self::Error>;

    /// Waits until everything that was written has been sent.
    ///
    /// # To be kept by an implementation
    ///
    /// What the proofs take each implementation to do. Nothing checks it of one that is written in Rust.
    ///
    /// - `flushes self.old result self.new`.
    ///
    /// <details><summary>The clauses</summary>
    ///
    /// [How to read them](uart_spec::proved):
    ///
    /// ```text
    /// ensures { flushes self.old result self.new }
    /// ```
    ///
    /// </details>
    fn flush(&mut self) -> Result<(), Self::Error>;
}

/// A reader that can report whether a read would wait.
pub trait ReadReady: ErrorType {
    /// Returns whether a read would find a byte without waiting.
    ///
    /// # To be kept by an implementation
    ///
    /// What the proofs take each implementation to do. Nothing checks it of one that is written in Rust.
    ///
    /// - `answers_read self.old result self.new`.
    ///
    /// <details><summary>The clauses</summary>
    ///
    /// [How to read them](uart_spec::proved):
    ///
    /// ```text
    /// ensures { answers_read self.old result self.new }
    /// ```
    ///
    /// </details>
    fn read_ready(&mut self) -> Result<bool, Self::Error>;
}

/// A writer that can report whether a write would wait.
pub trait WriteReady: ErrorType {
    /// Returns whether a write would find room without waiting.
    ///
    /// # To be kept by an implementation
    ///
    /// What the proofs take each implementation to do. Nothing checks it of one that is written in Rust.
    ///
    /// - `answers_write self.old result self.new`.
    ///
    /// <details><summary>The clauses</summary>
    ///
    /// [How to read them](uart_spec::proved):
    ///
    /// ```text
    /// ensures { answers_write self.old result self.new }
    /// ```
    ///
    /// </details>
    fn write_ready(&mut self) -> Result<bool, Self::Error>;
}

impl<B: Backend> ErrorType for Uart16550<B> {
    type Error = StalledError;
}

impl<B: Backend> Read for Uart16550<B> {
    /// Waits for a byte, at most `spin_limit` polls of LSR, and then receives as `receive_bytes`
    /// does.
    ///
    /// # Errors
    ///
    /// `StalledError`, with `done` 0, after `spin_limit` unsuccessful polls in a row.
    ///
    /// # Examples
    ///
    /// ```
    /// # include!(concat!(env!("CARGO_MANIFEST_DIR"), "/examples.rs"));
    /// # fn main() {}
    /// # fn example(uart: &mut Uart16550<Device>, slots: &mut [u8]) -> Outcome<()> {
    /// assert_eq!(uart.read(&mut slots[1..]), Ok(1));
    /// # Ok(()) }
    /// ```
    fn read(&mut self, buf: &mut [u8]) -> Result<usize, StalledError> {
        if buf.is_empty() {
            return Ok(0);
        }
        match self.receive_some(buf) {
            Some(count) => Ok(count),
            None => Err(StalledError { done: 0 }),
        }
    }
}

impl<B: Backend> Write for Uart16550<B> {
    /// Waits for room, at most `spin_limit` checks as `ready_to_send`, and then sends one burst: up
    /// to as many bytes as `fifo_size` says if the FIFO is on, else one.
    ///
    /// # Errors
    ///
    /// `StalledError`, with `done` 0, after `spin_limit` unsuccessful checks in a row.
    ///
    /// # Examples
    ///
    /// ```
    /// # include!(concat!(env!("CARGO_MANIFEST_DIR"), "/examples.rs"));
    /// # fn main() {}
    /// # fn example(writer: &mut Uart16550<Device>, bytes: &[u8], mut done: usize) -> Result<(), StalledError> {
    /// match writer.write(&bytes[done..]) {
    ///     Ok(count) => done += count,
    ///     Err(error) => return Err(error),
    /// }
    /// # Ok(()) }
    /// ```
    fn write(&mut self, buf: &[u8]) -> Result<usize, StalledError> {
        if buf.is_empty() {
            return Ok(0);
        }
        match self.send_some(buf) {
            Some(count) => Ok(count),
            None => Err(StalledError { done: 0 }),
        }
    }

    /// Waits until LSR shows `TRANSMITTER_EMPTY`, at most `spin_limit` polls: THR, or the
    /// transmitter FIFO, and the shift register are empty then.
    ///
    /// # Errors
    ///
    /// `StalledError`, with `done` 0, after `spin_limit` unsuccessful polls in a row.
    fn flush(&mut self) -> Result<(), StalledError> {
        if self.wait_for(LSR::TRANSMITTER_EMPTY) {
            Ok(())
        } else {
            Err(StalledError { done: 0 })
        }
    }
}

impl<B: Backend> ReadReady for Uart16550<B> {
    /// Returns whether `ready_to_receive` succeeds. Does not wait, and never fails.
    fn read_ready(&mut self) -> Result<bool, StalledError> {
        Ok(self.ready_to_receive().is_ok())
    }
}

impl<B: Backend> WriteReady for Uart16550<B> {
    /// Returns whether `ready_to_send` succeeds. Does not wait, and never fails.
    fn write_ready(&mut self) -> Result<bool, StalledError> {
        Ok(self.ready_to_send().is_ok())
    }
}
