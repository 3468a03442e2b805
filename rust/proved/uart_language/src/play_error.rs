//! Why a script was not played.

use crate::cause::{Cause, ScriptError};
use std::alloc::AllocError;

/// Why a script was not played to its end.
///
/// Something was written only at a `WriteFault`: a beginning of the output.
#[derive(Clone, Copy, Debug, PartialEq, Eq)]
pub enum PlayError {
    /// The input is not a script: the first faulty line, counted from 1, and what is wrong with it;
    /// line 0 if there are too many bytes.
    Refused {
        /// The number of the line.
        line: u32,
        /// What is wrong with it.
        cause: Cause,
    },
    /// The reader failed.
    ReadFault,
    /// The writer failed, or accepted no byte.
    WriteFault,
    /// Memory for the script, its machine or its output could not be allocated.
    OutOfMemory,
}

#[automatically_derived]
impl std::fmt::Display for PlayError {
    fn fmt(&self, f: &mut std::fmt::Formatter<'_>) -> std::fmt::Result {
        match self {
            Self::Refused { line, cause } => {
                ({ (f.write_fmt(format_args!("line {line}: {}", cause.text()))) })
            }
            Self::ReadFault => { ({ (f.write_fmt(format_args!("read fault"))) }) }
            Self::WriteFault => { ({ (f.write_fmt(format_args!("write fault"))) }) }
            Self::OutOfMemory => { ({ (f.write_fmt(format_args!("out of memory"))) }) }
        }
    }
}

#[automatically_derived]
impl std::error::Error for PlayError {}

impl From<ScriptError> for PlayError {
    fn from(error: ScriptError) -> PlayError {
        match error {
            ScriptError::Refused { line, cause } => PlayError::Refused { line, cause },
            ScriptError::OutOfMemory => PlayError::OutOfMemory,
        }
    }
}

impl From<AllocError> for PlayError {
    fn from(_error: AllocError) -> PlayError {
        PlayError::OutOfMemory
    }
}
