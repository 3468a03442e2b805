//! What is by hand in this crate, since it is of the crate's own types: an error as Rust has it, with the cause, and from what is refused.

use crate::{BusyError, SendError};
use core::error::Error;
use uart_ring::Refused;

impl Error for SendError {
    fn source(&self) -> Option<&(dyn Error + 'static)> {
        match self {
            Self::Stalled(cause) => Some(cause),
            Self::NotSending => None,
        }
    }
}

impl<T> From<Refused<T, BusyError>> for BusyError {
    fn from(refused: Refused<T, BusyError>) -> Self {
        refused.cause
    }
}
