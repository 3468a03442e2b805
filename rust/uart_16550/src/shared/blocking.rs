//! Shared rings for threads that wait.

use super::held::{Held, HeldWithErrors};
use super::rings::Rings;
use super::{CriticalSection, Shared, SharedError, SharedRings};
use crate::native::Received;
use crate::native::embedded_io::{ErrorType, Read, ReadReady, Write, WriteReady};
use core::fmt;
use uart_waits::{Awaited, Seen, Unfinished};

/// How a thread of the kernel waits, and for how long.
///
/// # Examples
///
/// A thread that lets others run, at most so many times in all:
///
/// ```
/// use uart_16550::shared::Wait;
/// # mod kernel { pub fn let_others_run() {} }
///
/// struct Turns(u32);
///
/// impl Wait for Turns {
///     fn wait(&mut self, _is_there: impl FnMut() -> bool) -> bool {
///         kernel::let_others_run();
///         self.0 = self.0.saturating_sub(1);
///         self.0 > 0
///     }
/// }
/// # let mut turns = Turns(2);
/// # assert_eq!([turns.wait(|| true), turns.wait(|| true)], [true, false]);
/// ```
///
/// A processor with nothing else to do, which sleeps until an interrupt was served:
///
/// ```
/// use uart_16550::shared::Wait;
/// # mod arch {
/// #     pub fn mask_interrupts() {}
/// #     pub fn unmask_interrupts() {}
/// #     pub fn unmask_interrupts_and_sleep() {}
/// # }
///
/// struct Sleep;
///
/// impl Wait for Sleep {
///     fn wait(&mut self, mut is_there: impl FnMut() -> bool) -> bool {
///         // Between the look and the sleep no interrupt is served. One that comes there ends the sleep.
///         arch::mask_interrupts();
///         if is_there() {
///             arch::unmask_interrupts();
///         } else {
///             arch::unmask_interrupts_and_sleep();
///         }
///         true
///     }
/// }
/// # assert!(Sleep.wait(|| true) && Sleep.wait(|| false));
/// ```
pub trait Wait {
    /// Waits until what is awaited may be there, and returns whether to go on: whoever called looks again, and may call this again.
    ///
    /// An implementation may look by the function, and need not. It may return early. It must not sleep if the function returns
    /// true, and if it sleeps, then so that an interrupt after the look ends the sleep.
    ///
    /// It is not called in the kernel's section, so interrupts are as the thread has them.
    fn wait(&mut self, is_there: impl FnMut() -> bool) -> bool;
}

/// Shared rings for one thread, whose calls wait. Returned by [`Shared::blocking`].
pub type Blocking<'a, S, B, W> = BlockingRings<&'a Shared<S, B>, W>;

/// Rings for one thread, whose calls wait. Returned by [`Shared::blocking`], and by
/// [`blocking`](super::PortOfLine::blocking) of a port of a line.
///
/// It has the traits of [`embedded_io`](crate::native::embedded_io), and with the feature `embedded-io` those of the crate of this
/// name. [`flush`](Self::flush) waits until the transmit ring is empty, and then until the chip is. For the chip no interrupt comes, so the
/// wait function gets a function that returns true, at most as many times as the driver's spin limit.
///
/// # Errors
///
/// - `GaveUp` if the wait function returned false, or after those looks at the chip. Bytes that came meanwhile are in the rings.
/// - `Stuck` if what is awaited is not there, and the chip is stuck, and so does not come to it.
/// - `NotSending` at a bus whose direction is not to send, for a call that queues.
/// - `NoRings` or `InUse` if the call over the rings was refused.
///
/// A call that fails took, or queued, no byte.
///
/// # Examples
///
/// ```
/// # include!(concat!(env!("CARGO_MANIFEST_DIR"), "/tests/common/shared.rs"));
/// use uart_16550::native::embedded_io::{Read, Write};
/// # use uart_16550::shared::SharedError;
/// # fn main() -> Result<(), SharedError> {
/// # start();
/// // `Turns` is how a thread of the kernel waits.
/// let mut port = PORT.blocking(Turns(1000));
/// port.write(b"name? ")?;
/// port.flush()?;
/// # board::chip().received.extend(b"me\r");
/// # board::raise();
/// let mut slots = [0; 80];
/// let count = port.read(&mut slots)?;
/// # assert_eq!(&slots[..count], b"me\r");
/// # Ok(()) }
/// ```
pub struct BlockingRings<P, W> {
    rings: P,
    wait: W,
}

impl<P, W> BlockingRings<P, W> {
    pub(super) const fn new(rings: P, wait: W) -> Self {
        Self { rings, wait }
    }
}

impl<S: CriticalSection, R: Held> SharedRings<S, R> {
    /// Returns these rings for a thread that waits so. Makes no access.
    ///
    /// # Examples
    ///
    /// ```
    /// # include!(concat!(env!("CARGO_MANIFEST_DIR"), "/tests/common/shared.rs"));
    /// # fn main() {
    /// # start();
    /// let mut port = PORT.blocking(Turns(1000));
    /// assert_eq!(port.send_bytes_exact(&[b'x'; 5000]), Ok(()));
    /// # assert_eq!(board::chip().sent, [b'x'; 5000]);
    /// # }
    /// ```
    pub const fn blocking<W: Wait>(&self, wait: W) -> BlockingRings<&Self, W> {
        BlockingRings::new(self, wait)
    }
}

impl<P: Rings, W: Wait> BlockingRings<P, W> {
    /// Queues all of the bytes, and waits for room.
    ///
    /// # Errors
    ///
    /// Those of the type, with how many bytes were queued.
    ///
    /// # Examples
    ///
    /// ```
    /// # include!(concat!(env!("CARGO_MANIFEST_DIR"), "/tests/common/shared.rs"));
    /// # fn main() {
    /// # start();
    /// let mut port = PORT.blocking(Turns(1000));
    /// if let Err(unfinished) = port.send_bytes_exact(b"hello") {
    ///     panic!("only {} bytes: {}", unfinished.done, unfinished.cause);
    /// }
    /// # }
    /// ```
    pub fn send_bytes_exact(&mut self, bytes: &[u8]) -> Result<(), Unfinished> {
        let mut done = 0;
        while let Some(rest @ [_, ..]) = bytes.get(done..) {
            done += self
                .write(rest)
                .map_err(|cause| Unfinished { done, cause })?;
        }
        Ok(())
    }

    /// Takes a received byte into each slot, and waits for each.
    ///
    /// # Errors
    ///
    /// Those of the type, with how many bytes were taken.
    ///
    /// # Examples
    ///
    /// ```
    /// # include!(concat!(env!("CARGO_MANIFEST_DIR"), "/tests/common/shared.rs"));
    /// # use uart_16550::shared::{SharedError, Unfinished};
    /// # fn main() {
    /// # start();
    /// # board::chip().received.extend(b"abc");
    /// # board::raise();
    /// let mut slots = [0; 4];
    /// let taken = PORT.blocking(Turns(1000)).receive_bytes_exact(&mut slots);
    /// assert_eq!(taken, Err(Unfinished { done: 3, cause: SharedError::GaveUp }));
    /// assert_eq!(&slots[..3], b"abc");
    /// # }
    /// ```
    pub fn receive_bytes_exact(&mut self, slots: &mut [u8]) -> Result<(), Unfinished> {
        let mut done = 0;
        while let Some(rest @ [_, ..]) = slots.get_mut(done..) {
            done += self
                .read(rest)
                .map_err(|cause| Unfinished { done, cause })?;
        }
        Ok(())
    }

    /// Waits until all that was queued is on the line: until the transmit ring is empty, and then the chip.
    ///
    /// # Errors
    ///
    /// Those of the type.
    ///
    /// # Examples
    ///
    /// ```
    /// # include!(concat!(env!("CARGO_MANIFEST_DIR"), "/tests/common/shared.rs"));
    /// # fn main() {
    /// # start();
    /// let mut port = PORT.blocking(Turns(1000));
    /// assert_eq!(port.send_bytes_exact(b"bye"), Ok(()));
    /// assert_eq!(port.flush(), Ok(()));
    /// # assert_eq!(board::chip().sent, b"bye");
    /// # }
    /// ```
    pub fn flush(&mut self) -> Result<(), SharedError> {
        self.wait_for(Awaited::EmptyTransmitRing, |ring| {
            (ring.rings().transmit_len() == 0).then_some(())
        })?;
        let limit = self.rings.with_rings(|ring| ring.rings().inner().spin_limit())?;
        for _look in 0..limit.get() {
            if self.rings.is_sent()? {
                return Ok(());
            }
            // No interrupt comes when the chip is empty, so there is nothing to sleep for.
            goes_on(self.wait.wait(|| true))?;
        }
        Err(SharedError::GaveUp)
    }

    // Looks, and waits, until it is found.
    fn wait_for<R>(
        &mut self,
        awaited: Awaited,
        mut look: impl FnMut(&mut P::Held) -> Option<R>,
    ) -> Result<R, SharedError> {
        loop {
            if let Some(found) = self.rings.look(&mut look)? {
                return Ok(found);
            }
            let rings = &self.rings;
            goes_on(self.wait.wait(|| rings.ends_wait(awaited)))?;
        }
    }
}

fn goes_on(does: bool) -> Result<(), SharedError> {
    if does { Ok(()) } else { Err(SharedError::GaveUp) }
}

/// Rings over notes of errors.
impl<P: Rings<Held: HeldWithErrors>, W: Wait> BlockingRings<P, W> {
    /// Takes received bytes, at least one, each with its errors, as
    /// [`take_with_errors`](crate::ring::Uart16550Ring::take_with_errors) does, and returns how many. Waits until one is there. Of no
    /// slots it returns 0 at once.
    ///
    /// # Errors
    ///
    /// - `Unnoted` if bytes have no note of their errors. Then nothing is taken.
    /// - `GaveUp` if the kernel's function said not to go on waiting.
    /// - `Stuck` if the chip is stuck, and so does not come to it.
    /// - `NoRings` if there are none, or none any more.
    /// - `InUse` if the call comes in the middle of another one.
    pub fn read_with_errors(&mut self, slots: &mut [Received]) -> Result<usize, SharedError> {
        let is_empty = slots.is_empty();
        self.wait_for(Awaited::ReceivedByte, |ring| {
            let taken = ring.take_with_errors(slots);
            (taken != Ok(0) || is_empty).then_some(taken)
        })?
        .map_err(SharedError::Unnoted)
    }
}

impl<P, W> ErrorType for BlockingRings<P, W> {
    type Error = SharedError;
}

impl<P: Rings, W: Wait> Read for BlockingRings<P, W> {
    fn read(&mut self, buf: &mut [u8]) -> Result<usize, SharedError> {
        if buf.is_empty() {
            return Ok(0);
        }
        self.wait_for(Awaited::ReceivedByte, |ring| {
            Some(ring.take(buf)).filter(|count| *count > 0)
        })
    }
}

impl<P: Rings, W: Wait> Write for BlockingRings<P, W> {
    fn write(&mut self, buf: &[u8]) -> Result<usize, SharedError> {
        if buf.is_empty() {
            return Ok(0);
        }
        self.wait_for(Awaited::TransmitRoom, |ring| {
            Some(ring.queue(buf)).filter(|queued| *queued != Ok(0))
        })?
    }

    fn flush(&mut self) -> Result<(), SharedError> {
        BlockingRings::flush(self)
    }
}

/// Text is queued as it is: a line feed stays one.
///
/// # Errors
///
/// Those of the type, of which `fmt::Error` says nothing.
impl<P: Rings, W: Wait> fmt::Write for BlockingRings<P, W> {
    fn write_str(&mut self, text: &str) -> fmt::Result {
        self.send_bytes_exact(text.as_bytes())
            .map_err(|_unfinished| fmt::Error)
    }
}

impl<P: fmt::Debug, W> fmt::Debug for BlockingRings<P, W> {
    fn fmt(&self, f: &mut fmt::Formatter<'_>) -> fmt::Result {
        f.debug_struct("Blocking")
            .field("shared", &self.rings)
            .finish_non_exhaustive()
    }
}

impl<P: Rings, W> ReadReady for BlockingRings<P, W> {
    fn read_ready(&mut self) -> Result<bool, SharedError> {
        self.rings.with_rings(|ring| ring.rings().receive_len() > 0)
    }
}

impl<P: Rings, W> WriteReady for BlockingRings<P, W> {
    fn write_ready(&mut self) -> Result<bool, SharedError> {
        self.rings
            .with_rings(|ring| Seen::of(ring.rings()).has(Awaited::TransmitRoom))
    }
}
