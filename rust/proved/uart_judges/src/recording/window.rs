//! The bytes that were read from a reader and are not used yet.

use std::{Vec};

use crate::recording::limits::MOST_LINE_BYTES;
use std::alloc::{AllocError, Global};
use std::io;
use std::io::Read;

/// The most bytes that are read ahead: a line of the most bytes, and its end.
pub(crate) const WINDOW_BYTES: usize = MOST_LINE_BYTES + 1;

/// The bytes that were read and are not used yet, which are those from `start` to `end`.
pub(crate) struct Window {
    bytes: Vec<u8>,
    start: usize,
    end: usize,
}

impl Window {
    /// Returns a window without bytes. Allocates all of its memory.
    pub(crate) fn new(alloc: Global) -> Result<Self, AllocError> {
        Ok(Window {
            bytes: vec![in alloc; 0; WINDOW_BYTES]?,
            start: 0,
            end: 0,
        })
    }

    /// Returns the bytes.
    pub(crate) fn as_slice(&self) -> &[u8] {
        &self.bytes[self.start..self.end]
    }

    /// Returns whether there is no room for more bytes, once those that are left are at the front.
    pub(crate) fn is_full(&self) -> bool {
        self.end - self.start == WINDOW_BYTES
    }

    /// Removes this number of bytes from the front, or all if there are fewer.
    pub(crate) fn consume(&mut self, count: usize) {
        self.start += count.min(self.end - self.start);
    }

    /// Moves the bytes to the front, so that there is room behind them.
    pub(crate) fn move_to_front(&mut self) {
        let (start, end) = (self.start, self.end);
        self.bytes.copy_within(start..end, 0);
        self.start = 0;
        self.end = end - start;
    }

    /// Reads more bytes behind those that are there. Returns how many: none only if the reader has
    /// none left, or if there is no room.
    ///
    /// # Errors
    ///
    /// The error of the reader. The bytes stay as they are.
    pub(crate) fn read_from<R: Read>(&mut self, reader: &mut R) -> io::Result<usize> {
        let end = self.end;
        let count = reader.read(&mut self.bytes[end..])?;
        self.end = end + count;
        Ok(count)
    }
}
