//! The errors that the original has.

use std::fmt;
use uart_spec::{ByteSendError, InvalidAddressError, NonIntegerDivisorError};

/// Why there is no divisor for a baud rate.
///
/// The original may get more cases, so a match has to have one for all others.
#[non_exhaustive]
#[derive(Clone, Debug, PartialEq, Eq, PartialOrd, Hash)]
pub enum InvalidDivisorError {
    /// No whole divisor gives the baud rate.
    NonInteger(NonIntegerDivisorError),
    /// The divisor does not fit into the divisor latch of 16 bits.
    OutOfRange {
        /// The divisor.
        divisor: u32,
    },
}

#[automatically_derived]
impl std::fmt::Display for InvalidDivisorError {
    fn fmt(&self, f: &mut std::fmt::Formatter<'_>) -> std::fmt::Result {
        match self {
            Self::NonInteger(_0) => { ({ (std::fmt::Display::fmt(_0, f)) }) }
            Self::OutOfRange { divisor } => {
                ({ (f.write_fmt(format_args!("divisor {divisor} is out of range (1..=65535)"))) })
            }
        }
    }
}

#[automatically_derived]
impl std::error::Error for InvalidDivisorError {}

impl From<uart_spec::InvalidDivisorError> for InvalidDivisorError {
    fn from(error: uart_spec::InvalidDivisorError) -> Self {
        match error {
            uart_spec::InvalidDivisorError::NonInteger(cause) => Self::NonInteger(cause),
            uart_spec::InvalidDivisorError::OutOfRange { divisor } => Self::OutOfRange { divisor },
        }
    }
}

/// Why an initialisation failed.
///
/// The original may get more cases, so a match has to have one for all others.
#[non_exhaustive]
#[derive(Clone, Debug, PartialEq, Eq, Hash)]
pub enum InitError {
    /// No device is at the address.
    DeviceNotPresent,
    /// There is no divisor for the baud rate.
    InvalidBaudRate(InvalidDivisorError),
}

#[automatically_derived]
impl std::fmt::Display for InitError {
    fn fmt(&self, f: &mut std::fmt::Formatter<'_>) -> std::fmt::Result {
        match self {
            Self::DeviceNotPresent => {
                ({ (f.write_fmt(format_args!("the device could not be detected"))) })
            }
            Self::InvalidBaudRate(_0) => {
                ({ (f.write_fmt(format_fields!("invalid baud rate: {0}", _0))) })
            }
        }
    }
}

/// Returns the error of the original for one of the driver's initialisation, or `None` for a stall.
#[must_use]
///
/// # Proved
///
/// - *some*: `IfSome result (λ own. init_error own ≡ error)`.
///   - [`init_error`](crate::proved::original#init_error): the same of an initialisation.
/// - *none*: `IfNone result (IsStalledInit error)`.
///   - [`IsStalledInit`](crate::proved::original#IsStalledInit): a wait of the initialisation ended, which the original does not know.
///
/// <details><summary>The clauses</summary>
///
/// [How to read them](uart_spec::proved):
///
/// ```text
/// ensures some { IfSome result (λ own. init_error own ≡ error) }
/// ensures none { IfNone result (IsStalledInit error) }
/// ```
///
/// </details>
pub fn init_error_of(error: uart_spec::InitError) -> Option<InitError> {
    match error {
        uart_spec::InitError::DeviceNotPresent => Some(InitError::DeviceNotPresent),
        uart_spec::InitError::InvalidBaudRate(cause) => Some(InitError::InvalidBaudRate(
            cause.into(),
        )),
        uart_spec::InitError::Stalled => None,
    }
}

/// Why a loopback test failed.
#[derive(Clone, Debug, PartialEq, Eq, Hash)]
pub enum LoopbackError {
    /// The device did not accept the test byte.
    SendError(ByteSendError),
    /// The device returned a byte other than the test byte.
    UnexpectedLoopbackByte {
        /// The byte that was sent.
        expected: u8,
        /// The byte that was received.
        actual: u8,
    },
    /// The device returned bytes other than the test message.
    UnexpectedLoopbackMsg {
        /// The bytes that were sent.
        expected: [u8; 16],
        /// The bytes that were received.
        actual: [u8; 16],
    },
}

// The text is that of the driver's error.
impl fmt::Display for LoopbackError {
    fn fmt(&self, f: &mut fmt::Formatter<'_>) -> fmt::Result {
        let error = match *self {
            Self::SendError(ByteSendError::NoCapacity) => {
                uart_spec::LoopbackError::SendError(ByteSendError::NoCapacity)
            }
            Self::SendError(ByteSendError::RemoteNotClearToSend) => {
                uart_spec::LoopbackError::SendError(ByteSendError::RemoteNotClearToSend)
            }
            Self::UnexpectedLoopbackByte { expected, actual } => {
                uart_spec::LoopbackError::UnexpectedLoopbackByte { expected, actual }
            }
            Self::UnexpectedLoopbackMsg { expected, actual } => {
                uart_spec::LoopbackError::UnexpectedLoopbackMsg { expected, actual }
            }
        };
        fmt::Display::fmt(&error, f)
    }
}

/// Returns the error of the original for one of the driver's loopback test, or `None` for a stall.
#[must_use]
///
/// # Proved
///
/// - *some*: `IfSome result (λ own. loopback_error own ≡ error)`.
///   - [`loopback_error`](crate::proved::original#loopback_error): the same of a loopback test.
/// - *none*: `IfNone result (IsStalledTest error)`.
///   - [`IsStalledTest`](crate::proved::original#IsStalledTest): a wait of the loopback test ended, which the original does not know.
///
/// <details><summary>The clauses</summary>
///
/// [How to read them](uart_spec::proved):
///
/// ```text
/// ensures some { IfSome result (λ own. loopback_error own ≡ error) }
/// ensures none { IfNone result (IsStalledTest error) }
/// ```
///
/// </details>
pub fn loopback_error_of(error: uart_spec::LoopbackError) -> Option<LoopbackError> {
    match error {
        uart_spec::LoopbackError::SendError(cause) => Some(LoopbackError::SendError(cause)),
        uart_spec::LoopbackError::UnexpectedLoopbackByte { expected, actual } => {
            Some(LoopbackError::UnexpectedLoopbackByte { expected, actual })
        }
        uart_spec::LoopbackError::UnexpectedLoopbackMsg { expected, actual } => {
            Some(LoopbackError::UnexpectedLoopbackMsg { expected, actual })
        }
        uart_spec::LoopbackError::Stalled => None,
    }
}

/// Why a terminal could not be set up.
#[derive(Clone, Debug, PartialEq, Eq, Hash)]
pub enum Uart16550TtyError {
    /// No device can be at the address.
    AddressError(InvalidAddressError),
    /// The initialisation failed.
    InitError(InitError),
    /// The loopback test failed.
    TestError(LoopbackError),
}

#[automatically_derived]
impl std::fmt::Display for Uart16550TtyError {
    fn fmt(&self, f: &mut std::fmt::Formatter<'_>) -> std::fmt::Result {
        match self {
            Self::AddressError(_0) => { ({ (std::fmt::Display::fmt(_0, f)) }) }
            Self::InitError(_0) => {
                ({ (f.write_fmt(format_fields!("error initializing the device: {0}", _0))) })
            }
            Self::TestError(_0) => {
                ({ (f.write_fmt(format_fields!("error testing the device: {0}", _0))) })
            }
        }
    }
}
