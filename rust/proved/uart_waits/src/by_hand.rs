//! What is by hand in this crate, since it is of the crate's own errors: as Rust has them, with the cause, from what is refused,
//! and with the trait of the crate `embedded-io`.

use crate::{SharedError, StartError, Unfinished};
use core::error::Error;
use uart_ring::{Refused, RingError};

impl Error for SharedError {
    fn source(&self) -> Option<&(dyn Error + 'static)> {
        match self {
            Self::Stuck(cause) => Some(cause),
            Self::Unnoted(cause) => Some(cause),
            Self::NoRings | Self::InUse | Self::NotSending | Self::GaveUp => None,
        }
    }
}

impl Error for StartError {
    fn source(&self) -> Option<&(dyn Error + 'static)> {
        match self {
            Self::NoRings(cause) => Some(cause),
            Self::Started | Self::NoPlace | Self::InUse => None,
        }
    }
}

impl<T> From<Refused<T, StartError>> for StartError {
    fn from(refused: Refused<T, StartError>) -> Self {
        refused.cause
    }
}

impl<T> From<Refused<T, RingError>> for StartError {
    fn from(refused: Refused<T, RingError>) -> Self {
        StartError::NoRings(refused.cause)
    }
}

impl Error for Unfinished {
    fn source(&self) -> Option<&(dyn Error + 'static)> {
        Some(&self.cause)
    }
}

#[cfg(feature = "embedded-io")]
impl embedded_io::Error for SharedError {
    fn kind(&self) -> embedded_io::ErrorKind {
        match self {
            Self::GaveUp => embedded_io::ErrorKind::TimedOut,
            Self::NoRings | Self::InUse | Self::NotSending | Self::Stuck(_) | Self::Unnoted(_) => {
                embedded_io::ErrorKind::Other
            }
        }
    }
}
