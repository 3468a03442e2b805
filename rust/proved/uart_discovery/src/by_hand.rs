//! What is by hand in this crate, since it is of the crate's own types: an error as Rust has it, with the cause.

use crate::TreeError;
use core::error::Error;

impl Error for TreeError {
    fn source(&self) -> Option<&(dyn Error + 'static)> {
        match self {
            Self::Options(cause) => Some(cause),
            _ => None,
        }
    }
}
