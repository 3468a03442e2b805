//! What is by hand in this crate, since it is of the crate's own types: what a constructor refuses is an error as Rust has it.

use crate::{Refused, RingError};
use core::error::Error;
use core::fmt;

// What was given needs no `Debug`: a backend has none.
impl<T, E: fmt::Debug> fmt::Debug for Refused<T, E> {
    fn fmt(&self, f: &mut fmt::Formatter<'_>) -> fmt::Result {
        f.debug_struct("Refused")
            .field("cause", &self.cause)
            .finish_non_exhaustive()
    }
}

impl<T, E: fmt::Display> fmt::Display for Refused<T, E> {
    fn fmt(&self, f: &mut fmt::Formatter<'_>) -> fmt::Result {
        self.cause.fmt(f)
    }
}

// The text is that of the cause, whose own cause is the next.
impl<T, E: Error> Error for Refused<T, E> {
    fn source(&self) -> Option<&(dyn Error + 'static)> {
        self.cause.source()
    }
}

// One for each cause: Rust allows none for all of them.
impl<T> From<Refused<T, RingError>> for RingError {
    fn from(refused: Refused<T, RingError>) -> Self {
        refused.cause
    }
}
