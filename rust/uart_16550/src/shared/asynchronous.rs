//! Shared rings for tasks: futures that the handler wakes.

use super::held::{Held, HeldWithErrors};
use super::rings::{self, Rings};
use super::{CriticalSection, SharedError, SharedRings};
use crate::native::Received;
use core::future::poll_fn;
use core::task::{Context, Poll};

impl<S: CriticalSection, R: Held> SharedRings<S, R> {
    /// Takes received bytes, at least one, as [`take`](crate::ring::Uart16550Ring::take) does, and returns how many. Waits until one
    /// is there. Of no slots it returns 0 at once.
    ///
    /// A future that is dropped before it is ready has taken nothing.
    ///
    /// One task reads at a time. If several do, each gets some of the bytes, and they wake each other until one comes.
    ///
    /// # Errors
    ///
    /// - `Stuck` if the chip is stuck, and so does not come to it.
    /// - `NoRings` if there are none, or none any more.
    /// - `InUse` if the future is polled in the middle of a call.
    ///
    /// # Examples
    ///
    /// ```
    /// # include!(concat!(env!("CARGO_MANIFEST_DIR"), "/tests/common/shared.rs"));
    /// # use uart_16550::shared::SharedError;
    /// async fn echo() -> Result<(), SharedError> {
    ///     let mut slots = [0; 64];
    ///     let count = PORT.read(&mut slots).await?;
    ///     let mut rest = &slots[..count];
    ///     while !rest.is_empty() {
    ///         rest = &rest[PORT.write(rest).await?..];
    ///     }
    ///     PORT.flush().await
    /// }
    /// # fn main() {
    /// # start();
    /// # board::chip().received.extend(b"hello");
    /// # board::raise();
    /// # assert_eq!(block_on(echo()), Ok(()));
    /// # assert_eq!(board::chip().sent, b"hello");
    /// # }
    /// ```
    pub async fn read(&self, slots: &mut [u8]) -> Result<usize, SharedError> {
        poll_fn(|context| self.poll_read(context, slots)).await
    }

    /// Queues bytes from the front, at least one, as [`queue`](crate::ring::Uart16550Ring::queue) does, and returns how many. Waits
    /// until there is room. Of no bytes it returns 0 at once.
    ///
    /// A future that is dropped before it is ready has queued nothing.
    ///
    /// One task writes at a time, or waits for [`flush`](Self::flush). If several do, they wake each other until one goes on.
    ///
    /// # Errors
    ///
    /// - `NotSending` at a bus whose direction is not to send.
    /// - `Stuck` if the chip is stuck, and so does not come to it.
    /// - `NoRings` if there are none, or none any more.
    /// - `InUse` if the future is polled in the middle of a call.
    ///
    /// # Examples
    ///
    /// ```
    /// # include!(concat!(env!("CARGO_MANIFEST_DIR"), "/tests/common/shared.rs"));
    /// # fn main() {
    /// # start();
    /// # let done = block_on(async {
    /// let count = PORT.write(b"hello").await?;
    /// # assert_eq!(count, 5);
    /// # Ok::<_, uart_16550::shared::SharedError>(()) });
    /// # assert_eq!(done, Ok(()));
    /// # }
    /// ```
    pub async fn write(&self, bytes: &[u8]) -> Result<usize, SharedError> {
        poll_fn(|context| self.poll_write(context, bytes)).await
    }

    /// Waits until the transmit ring is empty, and then until the chip is: all that was written is on the line.
    ///
    /// No interrupt tells that the chip is empty. So this is polled: at most as many times as the driver's spin limit the task is
    /// woken at once, and looks again. That takes as long as 17 characters. Do not flush where nobody needs to know.
    ///
    /// # Errors
    ///
    /// - `GaveUp` after that many looks at the chip.
    /// - `Stuck` if the chip is stuck, and so does not come to it.
    /// - `NoRings` if there are none, or none any more.
    /// - `InUse` if the future is polled in the middle of a call.
    ///
    /// # Examples
    ///
    /// ```
    /// # include!(concat!(env!("CARGO_MANIFEST_DIR"), "/tests/common/shared.rs"));
    /// # fn main() {
    /// # start();
    /// # let done = block_on(async {
    /// PORT.write(b"bye").await?;
    /// PORT.flush().await?;
    /// # Ok::<_, uart_16550::shared::SharedError>(()) });
    /// # assert_eq!(done, Ok(()));
    /// # }
    /// ```
    pub async fn flush(&self) -> Result<(), SharedError> {
        rings::flush(self).await
    }

    /// Does what [`read`](Self::read) does, for a future by hand.
    ///
    /// # Errors
    ///
    /// Those of [`read`](Self::read).
    pub fn poll_read(
        &self,
        context: &mut Context<'_>,
        slots: &mut [u8],
    ) -> Poll<Result<usize, SharedError>> {
        self.poll_take(context, slots)
    }

    /// Does what [`write`](Self::write) does, for a future by hand.
    ///
    /// # Errors
    ///
    /// Those of [`write`](Self::write).
    pub fn poll_write(
        &self,
        context: &mut Context<'_>,
        bytes: &[u8],
    ) -> Poll<Result<usize, SharedError>> {
        self.poll_queue(context, bytes)
    }
}

/// Rings over notes of errors.
impl<S: CriticalSection, R: HeldWithErrors> SharedRings<S, R> {
    /// Does what [`read`](Self::read) does, and returns each byte with its errors, as
    /// [`take_with_errors`](crate::ring::Uart16550Ring::take_with_errors) does.
    ///
    /// # Errors
    ///
    /// Those of [`read`](Self::read), and `Unnoted` if bytes have no note of their errors. Then nothing is taken.
    ///
    /// # Examples
    ///
    /// ```
    /// # use uart_16550::native::{Received, backend::Backend, spec::registers::LSR};
    /// # use uart_16550::shared::{CriticalSection, SharedError};
    /// use uart_16550::ring::ErrorNotes;
    /// use uart_16550::shared::Shared;
    ///
    /// async fn breaks<S: CriticalSection, B: Backend>(port: &Shared<S, ErrorNotes<B>>) -> Result<usize, SharedError> {
    ///     let mut slots = [Received::default(); 64];
    ///     let count = port.read_with_errors(&mut slots).await?;
    ///     let is_break = |one: &&Received| one.errors.contains(LSR::BREAK_INTERRUPT);
    ///     Ok(slots[..count].iter().filter(is_break).count())
    /// }
    /// # fn main() {}
    /// ```
    pub async fn read_with_errors(&self, slots: &mut [Received]) -> Result<usize, SharedError> {
        poll_fn(|context| self.poll_read_with_errors(context, slots)).await
    }

    /// Does what [`read_with_errors`](Self::read_with_errors) does, for a future by hand.
    ///
    /// # Errors
    ///
    /// Those of [`read_with_errors`](Self::read_with_errors).
    pub fn poll_read_with_errors(
        &self,
        context: &mut Context<'_>,
        slots: &mut [Received],
    ) -> Poll<Result<usize, SharedError>> {
        rings::poll_take_with_errors(self, context, slots)
    }
}
