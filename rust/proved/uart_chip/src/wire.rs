//! The wire of a transmitter: the bytes that were sent and have not been taken.

use std::{Vec};

use std::alloc::{AllocError, Global};

/// A wire with room for some number of bytes, wherever they are.
pub trait Wire {
    /// Returns how many more bytes the wire has room for.
    fn room(&self) -> usize;

    /// Returns the number of bytes that the wire has room for.
    fn capacity(&self) -> usize;

    /// Returns the bytes, from the first that was sent.
    fn as_slice(&self) -> &[u8];

    /// Appends a byte. The caller must show that there is room.
    fn push(&mut self, byte: u8);

    /// Removes this number of bytes from the front, or all if there are fewer.
    fn take(&mut self, count: usize);
}

/// Appends bytes to an empty wire.
pub fn send<W: Wire>(wire: &mut W, bytes: &[u8]) {
    for byte in bytes {
        wire.push(*byte);
    }
}

/// A wire in memory that is allocated once.
pub struct HeapWire {
    list: Vec<u8>,
    limit: usize,
}

impl HeapWire {
    /// Returns an empty wire with room for `capacity` bytes. Allocates its memory.
    ///
    /// # Errors
    ///
    /// `AllocError` if memory could not be allocated.
    pub fn new(alloc: Global, capacity: usize) -> Result<Self, AllocError> {
        let list = Vec::with_capacity(alloc, capacity)?;
        Ok(HeapWire {
            list,
            limit: capacity,
        })
    }
}

impl Wire for HeapWire {
    fn room(&self) -> usize {
        self.limit.saturating_sub(self.list.len())
    }

    fn capacity(&self) -> usize {
        self.limit
    }

    fn as_slice(&self) -> &[u8] {
        self.list.as_slice()
    }

    fn push(&mut self, byte: u8) {
        self.list.push(byte).unwrap();
    }

    fn take(&mut self, count: usize) {
        let len = self.list.len();
        let count = count.min(len);
        self.list.copy_within(count..len, 0);
        self.list.truncate(len - count);
    }
}
