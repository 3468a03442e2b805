//! What a live chip keeps in arrays, without other memory: its queues and its wire. It has no
//! schedule, so its journal records nothing.

use uart_chip::{Character, Fifo, Journal, Origin, Wire};
use uart_events::ArrivalMark;
use uart_spec::FifoSize;

/// The most bytes that the wire of a live chip has room for.
pub const WIRE_ROOM: usize = 64;

// The places of a `FixedWire`: each byte is in two of them.
const WIRE_PLACES: usize = 2 * WIRE_ROOM;

/// Returns the size of FIFOs that hold so many characters. A number that is no size counts as 16.
///
/// # Proved
///
/// - Returns [`fifo_size`](crate::proved::size#fifo_size) `characters`: the size of FIFOs that hold so many characters; a number that is no size counts as 16.
///
/// <details><summary>The clauses</summary>
///
/// [How to read them](uart_spec::proved):
///
/// ```text
/// ensures { result ≡ fifo_size characters }
/// ```
///
/// </details>
// Of a const parameter the answer is known when the program is compiled. So a chip has no field for
// its size, and tests none.
#[inline]
#[must_use]
pub fn fifo_size(characters: usize) -> FifoSize {
    match characters {
        32 => FifoSize::ThirtyTwo,
        64 => FifoSize::SixtyFour,
        128 => FifoSize::OneHundredTwentyEight,
        256 => FifoSize::TwoHundredFiftySix,
        _ => FifoSize::Sixteen,
    }
}

/// Returns whether FIFOs can hold so many characters: 16, 32, 64, 128 or 256.
///
/// # Proved
///
/// - Returns [`is_size`](crate::proved::size#is_size) `characters`: FIFOs of some size hold so many characters: 16, 32, 64, 128 or 256.
///
/// <details><summary>The clauses</summary>
///
/// [How to read them](uart_spec::proved):
///
/// ```text
/// ensures { result ≡ is_size characters }
/// ```
///
/// </details>
#[inline]
#[must_use]
pub fn is_size(characters: usize) -> bool {
    fifo_size(characters).characters() == characters
}

/// A queue of `FIFO` items in an array, without other memory. A push into a full one would
/// overwrite the oldest item, so the caller of `push` must show that there is room.
pub struct FixedFifo<T, const FIFO: usize> {
    slots: [T; FIFO],
    start: usize,
    len: usize,
}

impl<T: Copy, const FIFO: usize> FixedFifo<T, FIFO> {
    /// Returns an empty queue, whose unused places hold `item`.
    ///
    /// # Proved
    ///
    /// If `characters (fifo_size FIFO) ≡ FIFO` (the number of characters of a FIFO of this size) (the size of FIFOs that hold so many characters; a number that is no size counts as 16):
    ///
    /// - Returns `[]`.
    ///
    /// <details><summary>The clauses</summary>
    ///
    /// [How to read them](uart_spec::proved):
    ///
    /// ```text
    /// requires { characters (fifo_size FIFO) ≡ FIFO }
    /// ensures { result ≡ [] }
    /// ```
    ///
    /// </details>
    #[must_use]
    pub fn new(item: T) -> Self {
        FixedFifo {
            slots: [item; FIFO],
            start: 0,
            len: 0,
        }
    }
}

impl<T: Copy, const FIFO: usize> Fifo<T> for FixedFifo<T, FIFO> {
    fn size(&self) -> FifoSize {
        fifo_size(FIFO)
    }

    fn can_resize() -> bool {
        false
    }

    fn len(&self) -> usize {
        self.len
    }

    fn get(&self, i: usize) -> Option<T> {
        if i < self.len {
            Some(self.slots[(self.start + i) % FIFO])
        } else {
            None
        }
    }

    fn push(&mut self, item: T) {
        self.slots[(self.start + self.len) % FIFO] = item;
        self.len += 1;
    }

    fn pop(&mut self) -> Option<T> {
        if self.len == 0 {
            return None;
        }
        let front = self.slots[self.start % FIFO];
        self.start = (self.start + 1) % FIFO;
        self.len -= 1;
        Some(front)
    }

    fn clear(&mut self) {
        self.len = 0;
    }

    fn resize(&mut self, _size: FifoSize) {}
}

/// A wire in an array, without other memory.
///
/// Each byte is in the array twice, [`WIRE_ROOM`] places apart. So the bytes are one slice wherever
/// the first of them is, and to send or to take a byte costs the same whatever waits.
pub struct FixedWire {
    slots: [u8; WIRE_PLACES],
    start: usize,
    count: usize,
    limit: usize,
}

impl FixedWire {
    /// Returns an empty wire with room for `capacity` bytes.
    ///
    /// # Proved
    ///
    /// If `capacity ≤ WIRE_ROOM`:
    ///
    /// - *bytes*: `result.bytes` is `[]`.
    /// - *capacity*: `result.capacity` is `capacity`.
    ///
    /// <details><summary>The clauses</summary>
    ///
    /// [How to read them](uart_spec::proved):
    ///
    /// ```text
    /// requires { capacity ≤ WIRE_ROOM }
    /// ensures bytes { result.bytes ≡ [] }
    /// ensures capacity { result.capacity ≡ capacity }
    /// ```
    ///
    /// </details>
    #[must_use]
    pub fn new(capacity: usize) -> Self {
        FixedWire {
            slots: [0; WIRE_PLACES],
            start: 0,
            count: 0,
            limit: capacity,
        }
    }
}

impl Wire for FixedWire {
    fn room(&self) -> usize {
        self.limit - self.count
    }

    fn capacity(&self) -> usize {
        self.limit
    }

    fn as_slice(&self) -> &[u8] {
        &self.slots[self.start..][..self.count]
    }

    fn push(&mut self, byte: u8) {
        let place = (self.start + self.count) % WIRE_ROOM;
        self.slots[place] = byte;
        self.slots[WIRE_ROOM + place] = byte;
        self.count += 1;
    }

    fn take(&mut self, count: usize) {
        let count = count.min(self.count);
        self.start = (self.start + count) % WIRE_ROOM;
        self.count -= count;
    }
}

/// The journal of a receiver without a schedule: it records nothing.
pub struct NoMarks;

impl Journal for NoMarks {
    fn len(&self) -> usize {
        0
    }

    fn set_mark(&mut self, _origin: Origin, _mark: ArrivalMark) {}

    fn discard<Q: Fifo<Character>>(&mut self, _characters: &Q) {}
}
