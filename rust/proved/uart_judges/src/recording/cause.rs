//! Why bytes are not a recording.

use crate::recording::limits::MOST_LINE_BYTES;
use uart_language::Cause;

/// What is wrong with a line of a recording.
#[derive(Clone, Copy, Debug, PartialEq, Eq)]
pub enum RecordingFault {
    /// The line has more than `MOST_LINE_BYTES` bytes.
    TooLong,
    /// A line repeats a read, and what happened before is no read.
    NoReadBefore,
    /// The line has no form that a line of a recording has.
    Line(Cause),
}

#[automatically_derived]
impl std::fmt::Display for RecordingFault {
    fn fmt(&self, f: &mut std::fmt::Formatter<'_>) -> std::fmt::Result {
        match self {
            Self::TooLong => {
                ({
                    (f.write_fmt(format_args!(
                        "more than {max} bytes in a line",
                        max = MOST_LINE_BYTES
                    )))
                })
            }
            Self::NoReadBefore => { ({ (f.write_fmt(format_args!("no read before it"))) }) }
            Self::Line(_0) => { ({ (f.write_fmt(format_args!("{}", _0.text()))) }) }
        }
    }
}

#[automatically_derived]
impl std::error::Error for RecordingFault {}

impl From<Cause> for RecordingFault {
    fn from(cause: Cause) -> RecordingFault {
        RecordingFault::Line(cause)
    }
}
