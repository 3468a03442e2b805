//! A recording that is read as a stream.

use crate::recording::cause::RecordingFault;
use crate::recording::entry::Entry;
use crate::recording::place::Place;
use crate::recording::window::{WINDOW_BYTES, Window};
use std::alloc::{AllocError, Global};
use std::io;
use std::io::{ErrorKind, Read};

/// Why a recording could not be read any farther.
#[derive(Debug)]
pub enum RecordingError {
    /// A line is no line of a recording: its number, counted from 1, and what is wrong with it.
    Faulty {
        /// The number of the line.
        line: u64,
        /// What is wrong with it.
        fault: RecordingFault,
    },
    /// The reader failed.
    Unread(io::Error),
}

#[automatically_derived]
impl std::fmt::Display for RecordingError {
    fn fmt(&self, f: &mut std::fmt::Formatter<'_>) -> std::fmt::Result {
        match self {
            Self::Faulty { line, fault } => {
                ({ (f.write_fmt(format_args!("line {line}: {fault}"))) })
            }
            Self::Unread(_0) => { ({ (f.write_fmt(format_fields!("{0}", _0))) }) }
        }
    }
}

#[automatically_derived]
impl std::error::Error for RecordingError {}

/// A recording that is read line by line, in constant memory.
///
/// # Examples
///
/// ```text
/// let mut recording = Recording::new(alloc, reader)?;
/// while let Some(entry) = recording.next_entry()? {
///     judge.step(&entry);
/// }
/// ```
pub struct Recording<R> {
    reader: R,
    window: Window,
    place: Place,
}

// Returns how long the first line is, if its end is among these bytes.
fn line_length(bytes: &[u8]) -> Option<usize> {
    bytes.iter().position(|byte| *byte == b'\n')
}

impl<R: Read> Recording<R> {
    /// Returns the recording that this reader gives. Allocates all of its memory.
    ///
    /// # Errors
    ///
    /// `AllocError` if out of memory.
    pub fn new(alloc: Global, reader: R) -> Result<Self, AllocError> {
        Ok(Recording {
            reader,
            window: Window::new(alloc)?,
            place: Place::new(),
        })
    }

    /// Returns the number of lines that were read.
    #[must_use]
    pub fn lines(&self) -> u64 {
        self.place.number
    }

    // Reads until a whole line is in the window, or as much of it as there is room for, and returns
    // how long that is. `None` if no byte is left.
    fn fill_line(&mut self) -> io::Result<Option<usize>> {
        'fills: for _ in 0..u64::MAX {
            if let Some(length) = line_length(self.window.as_slice()) {
                return Ok(Some(length));
            }
            self.window.move_to_front();
            if self.window.is_full() {
                return Ok(Some(WINDOW_BYTES));
            }
            match self.window.read_from(&mut self.reader) {
                Ok(0) => {
                    return match self.window.as_slice().len() {
                        0 => Ok(None),
                        length => Ok(Some(length)),
                    };
                }
                Ok(_) => {}
                Err(error) if error.kind() == ErrorKind::Interrupted => {}
                Err(error) => return Err(error),
            }
        }
        Err(io::Error::from(ErrorKind::Interrupted))
    }

    /// Returns the next entry, or `None` at the end. A line that repeats a read is one entry.
    ///
    /// # Errors
    ///
    /// - `Faulty` with the number of the first line that is no line of a recording, and what is
    /// wrong with it.
    /// - `Unread` if the reader failed.
    pub fn next_entry(&mut self) -> Result<Option<Entry>, RecordingError> {
        'lines: while self.place.number < u64::MAX {
            let Some(length) = self.fill_line().map_err(RecordingError::Unread)? else {
                return Ok(None);
            };
            let found = self.place.read(&self.window.as_slice()[..length]);
            self.window.consume(length + 1);
            match found {
                Ok(Some(entry)) => return Ok(Some(entry)),
                Ok(None) => {}
                Err(fault) => {
                    return Err(RecordingError::Faulty {
                        line: self.place.number,
                        fault,
                    });
                }
            }
        }
        Ok(None)
    }
}
