//! The texts of the original's errors: each is that of the driver's error for which it stands.

use core::error::Error;
use core::fmt::Display;
use proved_uart_original::{InitError, InvalidDivisorError, LoopbackError, Uart16550TtyError};
use uart_spec::{ByteSendError, InvalidAddressError, NonIntegerDivisorError};

fn assert_same_text<Own: Copy + Display, Driver: Display + From<Own>>(error: Own) {
    assert_eq!(error.to_string(), Driver::from(error).to_string());
}

const NO_DIVISOR: InvalidDivisorError = InvalidDivisorError::NonInteger(NonIntegerDivisorError {
    frequency: 1_843_200,
    baud_rate: 50_000,
    prescaler_division_factor: Some(3),
});
const LOOPBACK: [LoopbackError; 5] = [
    LoopbackError::SendError(ByteSendError::NoCapacity),
    LoopbackError::SendError(ByteSendError::RemoteNotClearToSend),
    LoopbackError::UnexpectedLoopbackByte { expected: 66, actual: 2 },
    LoopbackError::UnexpectedLoopbackMsg { expected: *b"hello \"loopback\"", actual: [7; 16] },
    LoopbackError::UnexpectedLoopbackMsg { expected: [0; 16], actual: *b"hello \\loopback!" },
];

#[test]
fn texts_are_those_of_the_driver() {
    for error in [NO_DIVISOR, InvalidDivisorError::OutOfRange { divisor: 70_000 }] {
        assert_same_text::<_, uart_spec::InvalidDivisorError>(error);
        assert_same_text::<_, uart_spec::InitError>(InitError::InvalidBaudRate(error));
    }
    assert_same_text::<_, uart_spec::InitError>(InitError::DeviceNotPresent);
    for error in LOOPBACK {
        assert_same_text::<_, uart_spec::LoopbackError>(error);
        assert_same_text::<_, uart_spec::Uart16550TtyError>(Uart16550TtyError::TestError(error));
    }
    let address = InvalidAddressError::InvalidBaseAddress(65_535);
    assert_same_text::<_, uart_spec::Uart16550TtyError>(Uart16550TtyError::AddressError(address));
    assert_same_text::<_, uart_spec::Uart16550TtyError>(Uart16550TtyError::InitError(InitError::DeviceNotPresent));
}

#[test]
fn an_error_tells_its_cause() {
    assert_eq!(InitError::InvalidBaudRate(NO_DIVISOR).source().map(ToString::to_string), Some(NO_DIVISOR.to_string()));
    assert!(InitError::DeviceNotPresent.source().is_none());
    let full = ByteSendError::NoCapacity;
    assert_eq!(LoopbackError::SendError(full).source().map(ToString::to_string), Some(full.to_string()));
    assert!(LOOPBACK[2].source().is_none() && LOOPBACK[3].source().is_none());
    assert_eq!(Uart16550TtyError::TestError(LOOPBACK[2]).source().map(ToString::to_string), Some(LOOPBACK[2].to_string()));
}
