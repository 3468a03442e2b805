//! What Rust's errors are beside their texts: [`core::error::Error`] with the cause, and `Copy`.

use crate::{
    ByteReceiveError, ByteSendError, FifoSizeError, FrameError, InitError, InvalidAddressError, InvalidDivisorError,
    InvalidLayoutError, LoopbackError, NearestDivisorError, NonIntegerBaudRateError, NonIntegerDivisorError, RemoteReadyToReceiveError,
    StalledError, Uart16550TtyError,
};
use core::error::Error;

// Errors whose text tells of the cause that one of their cases has. Where the text is that of the cause, as of `AddressError`, the cause is
// not named again. An error without a cause has the trait from where it is proved.
macro_rules! with_cause {
    ($($Error:path { $($Told:ident),+; $($Other:ident),+ })+) => { $(
        impl Error for $Error {
            fn source(&self) -> Option<&(dyn Error + 'static)> {
                match self {
                    $(Self::$Told(cause) => Some(cause),)+
                    $(Self::$Other { .. } => None,)+
                }
            }
        }
    )+ };
}

with_cause! {
    InitError { InvalidBaudRate; DeviceNotPresent, Stalled }
    FrameError { InvalidBaudRate; Stalled }
    LoopbackError { SendError; UnexpectedLoopbackByte, UnexpectedLoopbackMsg, Stalled }
    Uart16550TtyError { InitError, TestError; AddressError }
}

macro_rules! copied {
    ($($Error:path),*) => { $(impl Copy for $Error {})* };
}

copied! {
    NonIntegerBaudRateError, NonIntegerDivisorError, InvalidDivisorError, NearestDivisorError, FrameError, InvalidAddressError,
    ByteReceiveError, ByteSendError, RemoteReadyToReceiveError, InitError, LoopbackError, StalledError, Uart16550TtyError,
    FifoSizeError, InvalidLayoutError
}

#[cfg(feature = "embedded-io")]
impl embedded_io::Error for StalledError {
    fn kind(&self) -> embedded_io::ErrorKind {
        embedded_io::ErrorKind::TimedOut
    }
}
