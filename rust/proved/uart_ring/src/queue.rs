//! The queues of the rings: bytes in order, in cells whose number is fixed.

use std::{Vec};

use std::alloc::{AllocError, Global};
use uart_16550::Uart16550;
use uart_16550::backend::Backend;

/// Bytes in order, at most as many as there are cells.
pub struct ByteQueue {
    // They are allocated once. Where there is no allocator, they are memory that the caller gives.
    cells: Vec<u8>,
    // The cell of the first byte. The other bytes are in the cells behind it, which go on at the
    // first cell after the last one.
    front: usize,
    len: usize,
}

// The functions are `inline` because the calls of the rings are compiled in the crate that uses
// them: they are generic over the backend.
impl ByteQueue {
    /// Returns an empty queue with room for this number of bytes.
    ///
    /// # Proved
    ///
    /// - If it returns `Ok made`: `made` is [`queue`](crate::proved::queue#queue) `[] capacity`: a queue of these bytes, in which there may be so many.
    ///
    /// <details><summary>The clauses</summary>
    ///
    /// [How to read them](uart_spec::proved):
    ///
    /// ```text
    /// ensures { IfOk result (λ made. made ≡ queue [] capacity) }
    /// ```
    ///
    /// </details>
    pub fn with_capacity(alloc: Global, capacity: usize) -> Result<Self, AllocError> {
        Ok(ByteQueue {
            cells: vec![in alloc; 0; capacity]?,
            front: 0,
            len: 0,
        })
    }

    /// Returns the number of bytes.
    ///
    /// # Proved
    ///
    /// - *len*: returns `length self.now.items`.
    /// - *within*: `result ≤ self.now.capacity`.
    ///
    /// <details><summary>The clauses</summary>
    ///
    /// [How to read them](uart_spec::proved):
    ///
    /// ```text
    /// ensures len { result ≡ length self.now.items }
    /// ensures within { result ≤ self.now.capacity }
    /// ```
    ///
    /// </details>
    #[inline]
    #[must_use]
    pub fn len(&self) -> usize {
        self.len
    }

    /// Returns the largest number of bytes.
    ///
    /// # Proved
    ///
    /// - *capacity*: returns `self.now.capacity`.
    /// - *within*: `length self.now.items ≤ result`.
    ///
    /// <details><summary>The clauses</summary>
    ///
    /// [How to read them](uart_spec::proved):
    ///
    /// ```text
    /// ensures capacity { result ≡ self.now.capacity }
    /// ensures within { length self.now.items ≤ result }
    /// ```
    ///
    /// </details>
    #[inline]
    #[must_use]
    pub fn capacity(&self) -> usize {
        self.cells.as_slice().len()
    }

    /// Returns whether there is no byte.
    ///
    /// # Proved
    ///
    /// - Returns `(length self.now.items == 0)`.
    ///
    /// <details><summary>The clauses</summary>
    ///
    /// [How to read them](uart_spec::proved):
    ///
    /// ```text
    /// ensures { result ≡ (length self.now.items == 0) }
    /// ```
    ///
    /// </details>
    #[inline]
    #[must_use]
    pub fn is_empty(&self) -> bool {
        self.len() == 0
    }

    /// Returns whether there is no room for another byte.
    ///
    /// # Proved
    ///
    /// - Returns `(length self.now.items == self.now.capacity)`.
    ///
    /// <details><summary>The clauses</summary>
    ///
    /// [How to read them](uart_spec::proved):
    ///
    /// ```text
    /// ensures { result ≡ (length self.now.items == self.now.capacity) }
    /// ```
    ///
    /// </details>
    #[inline]
    #[must_use]
    pub fn is_full(&self) -> bool {
        self.len() == self.capacity()
    }

    /// Returns this number of bytes from the front, in order, as two slices.
    #[inline]
    pub(crate) fn front_slices(&self, count: usize) -> (&[u8], &[u8]) {
        let cells = self.cells.as_slice();
        let end = &cells[self.front..];
        let first = count.min(end.len());
        (&end[..first], &cells[..count - first])
    }

    /// Returns the bytes in order, as two slices.
    #[inline]
    pub(crate) fn as_slices(&self) -> (&[u8], &[u8]) {
        self.front_slices(self.len())
    }

    /// Appends bytes from the front of the slice, as many as there is room for, and returns how
    /// many.
    ///
    /// # Proved
    ///
    /// - *count*: returns `min (length bytes.now) (self.old.capacity - length self.old.items)`.
    /// - *items*: `self` becomes [`queue`](crate::proved::queue#queue) `(self.old.items ++ take result bytes.now) self.old.capacity`: a queue of these bytes, in which there may be so many.
    ///
    /// <details><summary>The clauses</summary>
    ///
    /// [How to read them](uart_spec::proved):
    ///
    /// ```text
    /// ensures count { result ≡ min (length bytes.now) (self.old.capacity - length self.old.items) }
    /// ensures items { self.new ≡ queue (self.old.items ++ take result bytes.now) self.old.capacity }
    /// ```
    ///
    /// </details>
    #[inline]
    pub fn fill_from_slice(&mut self, bytes: &[u8]) -> usize {
        let bytes = &bytes[..bytes.len().min(self.capacity() - self.len)];
        let behind = cell_behind(self.front, self.len, self.capacity());
        let cells = self.cells.as_mut_slice();
        let before = copy(bytes, cells, behind);
        let count = before + copy(&bytes[before..], cells, 0);
        self.len += count;
        count
    }

    /// Appends bytes that the driver receives, as its `receive_bytes` does with so many slots, and
    /// returns how many.
    #[inline]
    pub(crate) fn receive_from<B: Backend>(
        &mut self,
        uart: &mut Uart16550<B>,
        slots: usize,
    ) -> usize {
        // The driver writes the free cells themselves, however large the FIFO is: a copy would
        // need as large a buffer on the stack.
        let behind = cell_behind(self.front, self.len, self.capacity());
        let cells = self.cells.as_mut_slice();
        let to_end = slots.min(cells.len() - behind);
        let before = receive(uart, cells, behind, to_end);
        // The free cells go on at the first one, if all up to the last one were needed.
        let rest = if before == to_end { slots - to_end } else { 0 };
        let count = before + receive(uart, cells, 0, rest);
        self.len += count;
        count
    }

    /// Appends a byte. If there is no room for it, the first one makes way.
    ///
    /// # Proved
    ///
    /// - `self` becomes [`with_latest`](crate::proved::queue#with_latest) `byte self.old`: the queue with one more at its end; if there is no room for it, the first one makes way.
    ///
    /// <details><summary>The clauses</summary>
    ///
    /// [How to read them](uart_spec::proved):
    ///
    /// ```text
    /// ensures { self.new ≡ with_latest byte self.old }
    /// ```
    ///
    /// </details>
    #[inline]
    pub fn push_last(&mut self, byte: u8) {
        let away = self.in_the_way();
        self.drop_front(away);
        self.fill_from_slice(&[byte]);
    }

    // Returns how many bytes make way for one more: the first one, if there is no room.
    #[inline]
    fn in_the_way(&self) -> usize {
        if self.len() < self.capacity() {
            return 0;
        }
        self.len().min(1)
    }

    /// Returns the byte at this place, from the front on.
    #[inline]
    pub(crate) fn byte_at(&self, place: usize) -> u8 {
        let (first, second) = self.as_slices();
        if place < first.len() {
            first[place]
        } else {
            second[place - first.len()]
        }
    }

    /// Copies bytes from the front, as many as there are slots, and returns how many. Leaves the
    /// other slots unchanged.
    ///
    /// # Proved
    ///
    /// - *count*: returns `min (length slots.old) (length self.now.items)`.
    /// - *copied*: `slots` becomes `take result self.now.items ++ drop result slots.old`.
    ///
    /// <details><summary>The clauses</summary>
    ///
    /// [How to read them](uart_spec::proved):
    ///
    /// ```text
    /// ensures count { result ≡ min (length slots.old) (length self.now.items) }
    /// ensures copied { slots.new ≡ take result self.now.items ++ drop result slots.old }
    /// ```
    ///
    /// </details>
    #[inline]
    pub fn copy_front(&self, slots: &mut [u8]) -> usize {
        let (first, second) = self.as_slices();
        let before = copy(first, slots, 0);
        before + copy(second, &mut slots[before..], 0)
    }

    /// Drops this number of bytes from the front.
    #[inline]
    pub(crate) fn drop_front(&mut self, count: usize) {
        self.front = cell_behind(self.front, count, self.capacity());
        self.len -= count;
    }

    /// Takes bytes from the front, as many as there are slots, and returns how many. Leaves the
    /// other slots unchanged.
    ///
    /// # Proved
    ///
    /// - *count*: returns `min (length slots.old) (length self.old.items)`.
    /// - *read*: `slots` becomes `take result self.old.items ++ drop result slots.old`.
    /// - *items*: `self` becomes [`queue`](crate::proved::queue#queue) `(drop result self.old.items) self.old.capacity`: a queue of these bytes, in which there may be so many.
    ///
    /// <details><summary>The clauses</summary>
    ///
    /// [How to read them](uart_spec::proved):
    ///
    /// ```text
    /// ensures count { result ≡ min (length slots.old) (length self.old.items) }
    /// ensures read { slots.new ≡ take result self.old.items ++ drop result slots.old }
    /// ensures items { self.new ≡ queue (drop result self.old.items) self.old.capacity }
    /// ```
    ///
    /// </details>
    #[inline]
    pub fn read_into(&mut self, slots: &mut [u8]) -> usize {
        let count = self.copy_front(slots);
        self.drop_front(count);
        count
    }
}

// Returns the cell that is `count` behind `cell`, of so many cells.
#[inline]
fn cell_behind(cell: usize, count: usize, cells: usize) -> usize {
    // A `usize` need not hold the sum of both.
    let to_end = cells - cell;
    if count < to_end {
        cell + count
    } else {
        count - to_end
    }
}

// Copies bytes to the slots from `place` on, as many as both have, and returns how many.
#[inline]
fn copy(bytes: &[u8], slots: &mut [u8], place: usize) -> usize {
    let count = bytes.len().min(slots.len() - place);
    // Mostly all bytes are in one piece. The second copy would be a call for nothing.
    if count > 0 {
        slots[place..place + count].copy_from_slice(&bytes[..count]);
    }
    count
}

// Receives bytes into the cells from `place` on, as the driver's `receive_bytes` does with so many
// slots, and returns how many. The other cells stay as they are.
#[inline]
fn receive<B: Backend>(
    uart: &mut Uart16550<B>,
    cells: &mut [u8],
    place: usize,
    slots: usize,
) -> usize {
    uart.receive_bytes(&mut cells[place..place + slots])
}
