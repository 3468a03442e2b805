//! What is by hand in this crate, since it is of the crate's own types: errors as Rust has them, with the cause, and `Copy`.

use crate::{InitError, InvalidDivisorError, LoopbackError, Uart16550TtyError};
use core::error::Error;

// Their texts tell of the cause. That of an address is the text of the cause, so the cause is not named again.
impl Error for InitError {
    fn source(&self) -> Option<&(dyn Error + 'static)> {
        match self {
            Self::InvalidBaudRate(cause) => Some(cause),
            Self::DeviceNotPresent => None,
        }
    }
}

impl Error for LoopbackError {
    fn source(&self) -> Option<&(dyn Error + 'static)> {
        match self {
            Self::SendError(cause) => Some(cause),
            Self::UnexpectedLoopbackByte { .. } | Self::UnexpectedLoopbackMsg { .. } => None,
        }
    }
}

impl Error for Uart16550TtyError {
    fn source(&self) -> Option<&(dyn Error + 'static)> {
        match self {
            Self::InitError(cause) => Some(cause),
            Self::TestError(cause) => Some(cause),
            Self::AddressError(_) => None,
        }
    }
}

impl Copy for InvalidDivisorError {}
impl Copy for InitError {}
impl Copy for LoopbackError {}
impl Copy for Uart16550TtyError {}
