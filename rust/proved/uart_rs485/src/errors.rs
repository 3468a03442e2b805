//! Why a call at the bus failed.
use std::fmt;
use uart_spec::StalledError;

/// The transmitter is not empty, so the bus was not given back.
#[derive(Clone, Copy, Debug, PartialEq, Eq, Hash)]
pub struct BusyError;

#[automatically_derived]
impl std::fmt::Display for BusyError {
    fn fmt(&self, f: &mut std::fmt::Formatter<'_>) -> std::fmt::Result {
        match self {
            Self => { ({ (f.write_fmt(format_args!("the transmitter is not empty"))) }) }
        }
    }
}

#[automatically_derived]
impl std::error::Error for BusyError {}

/// The direction is not to send, so nothing was written.
#[derive(Clone, Copy, Debug, PartialEq, Eq, Hash)]
pub struct NotSendingError;

#[automatically_derived]
impl std::fmt::Display for NotSendingError {
    fn fmt(&self, f: &mut std::fmt::Formatter<'_>) -> std::fmt::Result {
        match self {
            Self => { ({ (f.write_fmt(format_args!("the direction is not to send"))) }) }
        }
    }
}

#[automatically_derived]
impl std::error::Error for NotSendingError {}

/// Why not all of the echo was heard.
#[non_exhaustive]
#[derive(Clone, Copy, Debug, PartialEq, Eq, Hash)]
pub enum EchoError {
    /// Another byte was heard than was sent: two ends sent at once, or the bus is disturbed.
    Differs {
        /// How many bytes were heard as they were sent.
        done: usize,
        /// What was heard then.
        heard: u8,
    },
    /// A wait for a byte ended at the spin limit.
    Silent {
        /// How many bytes were heard as they were sent.
        done: usize,
    },
}

#[automatically_derived]
impl std::fmt::Display for EchoError {
    fn fmt(&self, f: &mut std::fmt::Formatter<'_>) -> std::fmt::Result {
        match self {
            Self::Differs { done, heard } => {
                ({
                    (f.write_fmt(format_args!(
                        "the echo has {heard:#04x} after {done} bytes, which was not sent there"
                    )))
                })
            }
            Self::Silent { done } => {
                ({ (f.write_fmt(format_args!("no echo came after {done} bytes"))) })
            }
        }
    }
}

#[automatically_derived]
impl std::error::Error for EchoError {}

/// Why not all bytes were sent.
#[non_exhaustive]
#[derive(Clone, Debug, PartialEq, Eq, Hash)]
pub enum SendError {
    /// The direction is not to send. Nothing was written.
    NotSending,
    /// A wait for room ended at the spin limit.
    Stalled(StalledError),
}

#[automatically_derived]
impl std::fmt::Display for SendError {
    fn fmt(&self, f: &mut std::fmt::Formatter<'_>) -> std::fmt::Result {
        match self {
            Self::NotSending => {
                ({ (f.write_fmt(format_args!("the direction is not to send"))) })
            }
            Self::Stalled(_0) => {
                ({ (f.write_fmt(format_fields!("not all bytes were sent: {0}", _0))) })
            }
        }
    }
}
