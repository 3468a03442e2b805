//! Why bytes are not a trace.

use std::alloc::{AllocError, AllocFailed};
use uart_language::Cause;

/// What is wrong with a line of a trace.
#[derive(Clone, Copy, Debug, PartialEq, Eq)]
pub enum TraceFault {
    /// The line has no form that a line of a trace has.
    Line(Cause),
    /// The line is an event of a schedule, or `next`: a trace has only calls of the driver.
    NoDriverCall,
    /// An access or an answer without a call before it.
    NoCallBefore,
    /// The call has no answer before another call, a new driver, or the end of the trace.
    NoAnswer,
}

#[automatically_derived]
impl std::fmt::Display for TraceFault {
    fn fmt(&self, f: &mut std::fmt::Formatter<'_>) -> std::fmt::Result {
        match self {
            Self::Line(_0) => { ({ (f.write_fmt(format_args!("{}", _0.text()))) }) }
            Self::NoDriverCall => { ({ (f.write_fmt(format_args!("no call of the driver"))) }) }
            Self::NoCallBefore => { ({ (f.write_fmt(format_args!("no call before it"))) }) }
            Self::NoAnswer => { ({ (f.write_fmt(format_args!("the call has no answer"))) }) }
        }
    }
}

#[automatically_derived]
impl std::error::Error for TraceFault {}

/// Why bytes were not read as a trace.
#[derive(Clone, Copy, Debug, PartialEq, Eq)]
pub enum TraceError {
    /// The bytes are not a trace: the first faulty line, counted from 1, and what is wrong with it.
    NoTrace {
        /// The number of the line.
        line: usize,
        /// What is wrong with it.
        fault: TraceFault,
    },
    /// Memory for the trace could not be allocated.
    OutOfMemory,
}

#[automatically_derived]
impl std::fmt::Display for TraceError {
    fn fmt(&self, f: &mut std::fmt::Formatter<'_>) -> std::fmt::Result {
        match self {
            Self::NoTrace { line, fault } => {
                ({ (f.write_fmt(format_args!("line {line}: {fault}"))) })
            }
            Self::OutOfMemory => { ({ (f.write_fmt(format_args!("out of memory"))) }) }
        }
    }
}

#[automatically_derived]
impl std::error::Error for TraceError {}

impl From<Cause> for TraceFault {
    fn from(cause: Cause) -> TraceFault {
        TraceFault::Line(cause)
    }
}

impl<T> From<AllocFailed<T>> for TraceError {
    fn from(_error: AllocFailed<T>) -> TraceError {
        TraceError::OutOfMemory
    }
}

impl From<AllocError> for TraceError {
    fn from(_error: AllocError) -> TraceError {
        TraceError::OutOfMemory
    }
}
