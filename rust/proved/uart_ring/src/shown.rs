//! How rings are shown: how many bytes wait, and not the bytes, which may be a password.

use crate::line::LinePort;
use crate::notes::ErrorNotes;
use crate::ring::Uart16550Ring;
use std::fmt;
use uart_16550::backend::Backend;

/// Shows the driver and how many bytes wait, and not the bytes: they may be a password.
impl<B: Backend + fmt::Debug> fmt::Debug for Uart16550Ring<B> {
    fn fmt(&self, f: &mut fmt::Formatter<'_>) -> fmt::Result {
        f.debug_struct("Uart16550Ring")
            .field("uart", self.inner())
            .field("transmit_len", &self.transmit_len())
            .field("receive_len", &self.receive_len())
            .field("stuck", &self.stuck())
            .finish_non_exhaustive()
    }
}

/// Shows the rings, and what was last handled there.
impl<B: Backend + fmt::Debug> fmt::Debug for LinePort<B> {
    fn fmt(&self, f: &mut fmt::Formatter<'_>) -> fmt::Result {
        f.debug_struct("LinePort")
            .field("ring", &self.ring)
            .field("handled", &self.handled())
            .finish()
    }
}

/// Shows the backend, and not the errors: one byte of them for each received byte.
impl<B: fmt::Debug> fmt::Debug for ErrorNotes<B> {
    fn fmt(&self, f: &mut fmt::Formatter<'_>) -> fmt::Result {
        f.debug_struct("ErrorNotes")
            .field("backend", &self.backend)
            .finish_non_exhaustive()
    }
}
