//! What a lock holds: rings, or rings at a bus of two wires.

use super::SharedError;
use crate::native::Received;
use crate::native::backend::Backend;
use crate::ring::{ErrorNotes, Handled, StuckError, Uart16550Ring, UnnotedError};
use crate::rs485::HalfDuplexRing;

/// Rings that a lock holds: `Uart16550Ring`, or `HalfDuplexRing`.
// considered: a direction in the rings themselves. Each ring would carry it, and each law of ring calls would speak of it. Here the
//   proved types stay as they are, and safe code cannot reach rings at a bus past their direction.
pub trait Held {
    /// What the driver under the rings reaches.
    type Backend: Backend;

    /// The rings, to read their state.
    fn rings(&self) -> &Uart16550Ring<Self::Backend>;

    /// As `queue` of the rings. At a bus it is an error if the direction is not to send.
    fn queue(&mut self, bytes: &[u8]) -> Result<usize, SharedError>;

    /// As `take` of the rings.
    fn take(&mut self, slots: &mut [u8]) -> usize;

    /// As `try_handle` of the rings.
    fn try_handle(&mut self, limit: usize, rounds: u32) -> Result<Handled, StuckError>;

    /// As `is_idle` of the driver.
    fn is_idle(&mut self) -> bool;
}

/// Rings that a lock holds, over notes of errors.
pub trait HeldWithErrors: Held {
    /// As `take_with_errors` of the rings.
    fn take_with_errors(&mut self, slots: &mut [Received]) -> Result<usize, UnnotedError>;
}

impl<B: Backend> Held for Uart16550Ring<B> {
    type Backend = B;

    fn rings(&self) -> &Uart16550Ring<B> {
        self
    }

    fn queue(&mut self, bytes: &[u8]) -> Result<usize, SharedError> {
        Ok(Uart16550Ring::queue(self, bytes))
    }

    fn take(&mut self, slots: &mut [u8]) -> usize {
        Uart16550Ring::take(self, slots)
    }

    fn try_handle(&mut self, limit: usize, rounds: u32) -> Result<Handled, StuckError> {
        Uart16550Ring::try_handle(self, limit, rounds)
    }

    fn is_idle(&mut self) -> bool {
        self.inner_mut().is_idle()
    }
}

impl<B: Backend> HeldWithErrors for Uart16550Ring<ErrorNotes<B>> {
    fn take_with_errors(&mut self, slots: &mut [Received]) -> Result<usize, UnnotedError> {
        Uart16550Ring::take_with_errors(self, slots)
    }
}

impl<B: Backend> Held for HalfDuplexRing<B> {
    type Backend = B;

    fn rings(&self) -> &Uart16550Ring<B> {
        self.inner()
    }

    fn queue(&mut self, bytes: &[u8]) -> Result<usize, SharedError> {
        HalfDuplexRing::queue(self, bytes).map_err(|_not_sending| SharedError::NotSending)
    }

    fn take(&mut self, slots: &mut [u8]) -> usize {
        HalfDuplexRing::take(self, slots)
    }

    fn try_handle(&mut self, limit: usize, rounds: u32) -> Result<Handled, StuckError> {
        HalfDuplexRing::try_handle(self, limit, rounds)
    }

    fn is_idle(&mut self) -> bool {
        HalfDuplexRing::is_idle(self)
    }
}

impl<B: Backend> HeldWithErrors for HalfDuplexRing<ErrorNotes<B>> {
    fn take_with_errors(&mut self, slots: &mut [Received]) -> Result<usize, UnnotedError> {
        HalfDuplexRing::take_with_errors(self, slots)
    }
}
