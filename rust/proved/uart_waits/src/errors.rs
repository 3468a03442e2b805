//! Why a call over shared rings did nothing, or not all.
use uart_ring::{RingError, StuckError, UnnotedError};

/// Why a call over shared rings did nothing more.
#[cfg_attr(not(feature = "exhaustive"), non_exhaustive)]
#[derive(Clone, Copy, Debug, PartialEq, Eq)]
pub enum SharedError {
    /// There are no rings: `Shared::start` was not called, or `Shared::stop` was. Or a line has no
    /// such port.
    NoRings,
    /// The call came in the middle of another one, which goes on when this one has returned. Or the
    /// kernel's section let two in.
    InUse,
    /// At a bus of two wires the direction is not to send. Nothing was queued.
    NotSending,
    /// The kernel's function said not to go on waiting, or the chip was not empty after as many
    /// looks as the driver's spin limit.
    GaveUp,
    /// What is awaited does not come, since the chip is stuck. A `restart` starts it again.
    Stuck(StuckError),
    /// Bytes in the receive ring have no note of their errors.
    Unnoted(UnnotedError),
}

#[automatically_derived]
impl std::fmt::Display for SharedError {
    fn fmt(&self, f: &mut std::fmt::Formatter<'_>) -> std::fmt::Result {
        match self {
            Self::NoRings => { ({ (f.write_fmt(format_args!("there are no rings"))) }) }
            Self::InUse => {
                ({ (f.write_fmt(format_args!("the rings are in use by a call that is not done"))) })
            }
            Self::NotSending => {
                ({ (f.write_fmt(format_args!("the direction is not to send"))) })
            }
            Self::GaveUp => { ({ (f.write_fmt(format_args!("waiting was given up"))) }) }
            Self::Stuck(_0) => { ({ (f.write_fmt(format_fields!("the chip is stuck: {0}", _0))) }) }
            Self::Unnoted(_0) => {
                ({ (f.write_fmt(format_fields!("no bytes were taken: {0}", _0))) })
            }
        }
    }
}

/// Why no rings were started.
#[cfg_attr(not(feature = "exhaustive"), non_exhaustive)]
#[derive(Clone, Copy, Debug, PartialEq, Eq)]
pub enum StartError {
    /// The rings could not be made.
    NoRings(RingError),
    /// There are rings already.
    Started,
    /// The line has no place of this number.
    NoPlace,
    /// The call came in the middle of another one.
    InUse,
}

#[automatically_derived]
impl std::fmt::Display for StartError {
    fn fmt(&self, f: &mut std::fmt::Formatter<'_>) -> std::fmt::Result {
        match self {
            Self::NoRings(_0) => {
                ({ (f.write_fmt(format_fields!("the rings could not be made: {0}", _0))) })
            }
            Self::Started => { ({ (f.write_fmt(format_args!("there are rings already"))) }) }
            Self::NoPlace => { ({ (f.write_fmt(format_args!("the line has no such place"))) }) }
            Self::InUse => {
                ({ (f.write_fmt(format_args!("the rings are in use by a call that is not done"))) })
            }
        }
    }
}

/// Why not all bytes were sent or received, and how many were.
#[derive(Clone, Copy, Debug, PartialEq, Eq)]
pub struct Unfinished {
    /// How many bytes were, from the front.
    pub done: usize,
    /// Why no more.
    pub cause: SharedError,
}

#[automatically_derived]
impl std::fmt::Display for Unfinished {
    fn fmt(&self, f: &mut std::fmt::Formatter<'_>) -> std::fmt::Result {
        match self {
            Self { done, cause } => {
                ({ (f.write_fmt(format_args!("{cause} after {done} bytes"))) })
            }
        }
    }
}
