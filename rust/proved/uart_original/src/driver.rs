//! The errors of the original as those of the driver, which has each of their cases.

use crate::{InitError, InvalidDivisorError, LoopbackError, Uart16550TtyError};

impl From<InvalidDivisorError> for uart_spec::InvalidDivisorError {
    fn from(error: InvalidDivisorError) -> Self {
        match error {
            InvalidDivisorError::NonInteger(cause) => Self::NonInteger(cause),
            InvalidDivisorError::OutOfRange { divisor } => Self::OutOfRange { divisor },
        }
    }
}

impl From<InitError> for uart_spec::InitError {
    fn from(error: InitError) -> Self {
        match error {
            InitError::DeviceNotPresent => Self::DeviceNotPresent,
            InitError::InvalidBaudRate(cause) => Self::InvalidBaudRate(cause.into()),
        }
    }
}

impl From<LoopbackError> for uart_spec::LoopbackError {
    fn from(error: LoopbackError) -> Self {
        match error {
            LoopbackError::SendError(cause) => Self::SendError(cause),
            LoopbackError::UnexpectedLoopbackByte { expected, actual } => {
                Self::UnexpectedLoopbackByte { expected, actual }
            }
            LoopbackError::UnexpectedLoopbackMsg { expected, actual } => {
                Self::UnexpectedLoopbackMsg { expected, actual }
            }
        }
    }
}

impl From<Uart16550TtyError> for uart_spec::Uart16550TtyError {
    fn from(error: Uart16550TtyError) -> Self {
        match error {
            Uart16550TtyError::AddressError(cause) => Self::AddressError(cause),
            Uart16550TtyError::InitError(cause) => Self::InitError(cause.into()),
            Uart16550TtyError::TestError(cause) => Self::TestError(cause.into()),
        }
    }
}
