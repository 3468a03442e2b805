//! Why calls were not played to their end.

use std::alloc::AllocError;
use std::io;

/// Why the calls were not played to their end, though no port failed.
#[derive(Debug)]
pub enum ReportError {
    /// The trace could not be written.
    Trace(io::Error),
    /// An answer could not be printed.
    Output(io::Error),
    /// Memory for an answer could not be allocated.
    OutOfMemory,
}

#[automatically_derived]
impl std::fmt::Display for ReportError {
    fn fmt(&self, f: &mut std::fmt::Formatter<'_>) -> std::fmt::Result {
        match self {
            Self::Trace(_0) => {
                ({ (f.write_fmt(format_fields!("the trace cannot be written: {0}", _0))) })
            }
            Self::Output(_0) => {
                ({ (f.write_fmt(format_fields!("standard output cannot be written: {0}", _0))) })
            }
            Self::OutOfMemory => { ({ (f.write_fmt(format_args!("out of memory"))) }) }
        }
    }
}

#[automatically_derived]
impl std::error::Error for ReportError {}

impl From<AllocError> for ReportError {
    fn from(_error: AllocError) -> ReportError {
        ReportError::OutOfMemory
    }
}
