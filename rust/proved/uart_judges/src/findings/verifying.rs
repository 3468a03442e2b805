//! What is printed for the bytes of a trace.

use std::{Vec};

use crate::traces::{TraceError, judge, parse, push_stray};
use std::alloc::Global;
use std::num::NonZeroU64;
use uart_spec::FifoSize;

/// The most bytes of a trace. So input without end is refused, and does not fill the memory.
pub const MOST_TRACE_BYTES: usize = 64 * 1024 * 1024;

/// Why a trace was not verified.
#[derive(Clone, Copy, Debug)]
pub enum VerifyError {
    /// The trace has more than [`MOST_TRACE_BYTES`].
    TooLong,
    /// The bytes are not a trace, or memory for it could not be allocated.
    NoTrace(TraceError),
}

#[automatically_derived]
impl std::fmt::Display for VerifyError {
    fn fmt(&self, f: &mut std::fmt::Formatter<'_>) -> std::fmt::Result {
        match self {
            Self::TooLong => {
                ({
                    (f.write_fmt(format_args!(
                        "the trace has more than {most} bytes",
                        most = MOST_TRACE_BYTES
                    )))
                })
            }
            Self::NoTrace(_0) => { ({ (f.write_fmt(format_fields!("{0}", _0))) }) }
        }
    }
}

#[automatically_derived]
impl std::error::Error for VerifyError {}

#[automatically_derived]
impl std::convert::From<TraceError> for VerifyError {
    fn from(source: TraceError) -> Self {
        Self::NoTrace { 0: source }
    }
}

// Returns the line that is printed for a trace, or nothing.
fn stray_line(
    alloc: Global,
    bytes: &[u8],
    limit: NonZeroU64,
    fifo_size: FifoSize,
) -> Result<Vec<u8>, TraceError> {
    let trace = parse(alloc, bytes)?;
    match judge(alloc, &trace, limit, fifo_size)? {
        None => Ok(Vec::new(alloc)),
        Some(stray) => {
            let mut line = Vec::new(alloc);
            push_stray(alloc, &mut line, &stray)?;
            line.push(b'\n')?;
            Ok(line)
        }
    }
}

/// Returns what is printed for the trace of a driver with this spin limit, which takes the FIFOs to
/// be of this size: nothing if each list is one that its call makes, or else the line that says
/// where the trace strays.
///
/// # Errors
///
/// - `TooLong` if there are more than [`MOST_TRACE_BYTES`].
/// - `NoTrace` with the first fault if the bytes are no trace, or if out of memory.
pub fn verify(
    alloc: Global,
    bytes: &[u8],
    limit: NonZeroU64,
    fifo_size: FifoSize,
) -> Result<Vec<u8>, VerifyError> {
    if bytes.len() > MOST_TRACE_BYTES {
        return Err(VerifyError::TooLong);
    }
    stray_line(alloc, bytes, limit, fifo_size).map_err(VerifyError::NoTrace)
}
