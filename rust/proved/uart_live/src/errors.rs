//! Why a live chip refuses what its owner passes to it.
use crate::fixed::WIRE_ROOM;
use uart_events::MAX_CHAR_TICKS;

/// Why a character or a change of the modem lines was refused.
#[non_exhaustive]
#[derive(Clone, Copy, Debug, PartialEq, Eq)]
pub enum InputError {
    /// A character has error bits other than parity, framing and break.
    BadErrors,
    /// The modem lines have bits other than CTS, DSR, RI and CD.
    BadLines,
}

#[automatically_derived]
impl std::fmt::Display for InputError {
    fn fmt(&self, f: &mut std::fmt::Formatter<'_>) -> std::fmt::Result {
        match self {
            Self::BadErrors => {
                ({
                    (f.write_fmt(format_args!(
                        "a character has other error bits than parity, framing and break"
                    )))
                })
            }
            Self::BadLines => {
                ({
                    (f.write_fmt(format_args!(
                        "the modem lines have other bits than CTS, DSR, RI and CD"
                    )))
                })
            }
        }
    }
}

#[automatically_derived]
impl std::error::Error for InputError {}

/// Why no chip was made: the first reason in this order.
#[non_exhaustive]
#[derive(Clone, Copy, Debug, PartialEq, Eq)]
pub enum ChipError {
    /// A FIFO holds 16, 32, 64, 128 or 256 characters, and no other number.
    BadFifo,
    /// A character takes no ticks, or more than `MAX_CHAR_TICKS`.
    BadTicks,
    /// The wire has room for more than `WIRE_ROOM` bytes.
    BadWire,
}

#[automatically_derived]
impl std::fmt::Display for ChipError {
    fn fmt(&self, f: &mut std::fmt::Formatter<'_>) -> std::fmt::Result {
        match self {
            Self::BadFifo => {
                ({ (f.write_fmt(format_args!("a FIFO holds 16, 32, 64, 128 or 256 characters"))) })
            }
            Self::BadTicks => {
                ({
                    (f.write_fmt(format_args!(
                        "a character takes 1 to {max} ticks",
                        max = MAX_CHAR_TICKS
                    )))
                })
            }
            Self::BadWire => {
                ({
                    (f.write_fmt(format_args!(
                        "the wire has room for at most {max} bytes",
                        max = WIRE_ROOM
                    )))
                })
            }
        }
    }
}

#[automatically_derived]
impl std::error::Error for ChipError {}

/// Why no chip was restored.
#[non_exhaustive]
#[derive(Clone, Copy, Debug, PartialEq, Eq)]
pub enum RestoreError {
    /// The data are not those of a sound chip.
    BadData,
    /// The wire has room for more than `WIRE_ROOM` bytes.
    BadWire,
}

#[automatically_derived]
impl std::fmt::Display for RestoreError {
    fn fmt(&self, f: &mut std::fmt::Formatter<'_>) -> std::fmt::Result {
        match self {
            Self::BadData => {
                ({ (f.write_fmt(format_args!("the data are not those of a sound chip"))) })
            }
            Self::BadWire => {
                ({
                    (f.write_fmt(format_args!(
                        "the wire has room for at most {max} bytes",
                        max = WIRE_ROOM
                    )))
                })
            }
        }
    }
}

#[automatically_derived]
impl std::error::Error for RestoreError {}
