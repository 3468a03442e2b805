//! Readers and writers: those of std.

pub use std::io::{Error, ErrorKind, Read, Result, Write};
