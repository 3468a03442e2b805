//! Where a script is read from, and where its output is written to.
//!
//! It is in this crate so that little is left to prove in `uart_play`, the last of the longest
//! chain of crates.

use std::{Vec};

use crate::limits::MOST_READ;
use crate::play_error::PlayError;
use std::alloc::Global;
use std::io::{Read, Write};

/// The size of the buffer of a read.
const CHUNK: usize = 512;

/// The error of a read or a write.
#[derive(Clone, Copy, Debug, PartialEq, Eq)]
pub struct StreamFault;

#[automatically_derived]
impl std::fmt::Display for StreamFault {
    fn fmt(&self, f: &mut std::fmt::Formatter<'_>) -> std::fmt::Result {
        match self {
            Self => { ({ (f.write_fmt(format_args!("a read or a write failed"))) }) }
        }
    }
}

#[automatically_derived]
impl std::error::Error for StreamFault {}

// These traits are not those of std: beside the bytes, contracts see whether a call has failed.

/// A reader whose contracts state its bytes, if they are known, and whether it has failed.
pub trait Input {
    /// Fills the front of the buffer, and returns how many bytes that are.
    ///
    /// `Ok(0)` for a buffer that is not empty is the end of the input.
    fn read(&mut self, buf: &mut [u8]) -> Result<usize, StreamFault>;
}

/// A writer whose contracts state its bytes, if they are known, and whether it has failed.
pub trait Output {
    /// Writes bytes from the front, and returns how many. If it fails, nothing is written.
    fn write(&mut self, bytes: &[u8]) -> Result<usize, StreamFault>;
}

/// A reader or a writer of std.
pub struct Std<T> {
    inner: T,
    failed: bool,
}

impl<T> Std<T> {
    /// Returns the reader or writer, which has not failed.
    #[must_use]
    pub fn new(inner: T) -> Self {
        Std {
            inner,
            failed: false,
        }
    }
}

impl<T: Read> Input for Std<T> {
    fn read(&mut self, buf: &mut [u8]) -> Result<usize, StreamFault> {
        match self.inner.read(buf) {
            Ok(count) => Ok(count),
            Err(_) => {
                self.failed = true;
                Err(StreamFault)
            }
        }
    }
}

impl<T: Write> Output for Std<T> {
    fn write(&mut self, bytes: &[u8]) -> Result<usize, StreamFault> {
        match self.inner.write(bytes) {
            Ok(count) => {
                if count == 0 && !bytes.is_empty() {
                    self.failed = true;
                }
                Ok(count)
            }
            Err(_) => {
                self.failed = true;
                Err(StreamFault)
            }
        }
    }
}

/// Reads to the end of the input, or [`MOST_READ`] bytes.
///
/// # Errors
///
/// - `ReadFault` if the reader failed.
/// - `OutOfMemory` if memory for the text could not be allocated.
pub fn read_all<R: Input>(alloc: Global, reader: &mut R) -> Result<Vec<u8>, PlayError> {
    let mut text = Vec::new(alloc);
    let mut chunk = [0u8; CHUNK];
    while text.len() < MOST_READ {
        let room = (MOST_READ - text.len()).min(CHUNK);
        match reader.read(&mut chunk[..room]) {
            Err(_) => return Err(PlayError::ReadFault),
            Ok(0) => return Ok(text),
            Ok(count) => {
                if text.extend_from_slice(&chunk[..count]).is_err() {
                    return Err(PlayError::OutOfMemory);
                }
            }
        }
    }
    Ok(text)
}

/// Writes all of the bytes.
///
/// # Errors
///
/// [`StreamFault`] if the writer failed, or accepted no byte; a beginning of the bytes may be
/// written.
pub fn write_all<W: Output>(writer: &mut W, bytes: &[u8]) -> Result<(), StreamFault> {
    let mut done = 0;
    while done < bytes.len() {
        match writer.write(&bytes[done..]) {
            Err(_) => return Err(StreamFault),
            Ok(0) => return Err(StreamFault),
            Ok(count) => done += count,
        }
    }
    Ok(())
}
