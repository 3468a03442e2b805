//! The queues of the chip. A clause sees a queue as the list of its items, from the front.

use arrayvec::ArrayVec;
use circular_buffer::HeapCircularBuffer;
use std::alloc::{AllocError, Global};
use uart_spec::{FIFO_SIZE, FifoSize};

/// Returns the number of characters that a queue has room for, with a FIFO of this size. Without
/// FIFO that is one, although it could hold more.
#[must_use]
pub fn room_of(fifo: bool, size: FifoSize) -> usize {
    if fifo { size.characters() } else { 1 }
}

/// A queue that has room for each character of a FIFO, wherever its items are.
pub trait Fifo<T> {
    /// Returns the size of the FIFO: the queue has room for as many items.
    fn size(&self) -> FifoSize;

    /// Returns whether such a queue can become that of a FIFO of another size, of up to 64.
    fn can_resize() -> bool;

    /// Returns the number of items.
    fn len(&self) -> usize;

    /// Returns whether there is no item.
    fn is_empty(&self) -> bool {
        self.len() == 0
    }

    /// Returns the item with this index, from the front.
    fn get(&self, i: usize) -> Option<T>;

    /// Appends an item. The caller must show that there is room.
    fn push(&mut self, item: T);

    /// Removes the front, and returns it.
    fn pop(&mut self) -> Option<T>;

    /// Removes all items.
    fn clear(&mut self);

    /// Removes all items, and becomes the queue of a FIFO of this size, if such a queue can. Else
    /// it stays as it is. The caller must show that the size is at most 64.
    fn resize(&mut self, size: FifoSize);
}

/// Appends items to an empty queue.
// They fit: each FIFO has room for at least so many.
pub fn fill<T: Copy, Q: Fifo<T>>(queue: &mut Q, items: &ArrayVec<T, FIFO_SIZE>) {
    for item in items.as_slice() {
        queue.push(*item);
    }
}

/// Returns the items of a queue of 16, from the front.
#[must_use]
pub fn items_of<T: Copy + Default, Q: Fifo<T>>(queue: &Q) -> ArrayVec<T, FIFO_SIZE> {
    let mut items = ArrayVec::new();
    for i in 0..queue.len() {
        items.push(queue.get(i).unwrap());
    }
    items
}

/// A queue in memory that is allocated once.
// There is room for 64 items in each, so that a chip that switches its FIFOs to 64 allocates none.
pub struct HeapFifo<T> {
    ring: HeapCircularBuffer<T>,
    size: FifoSize,
}

impl<T> HeapFifo<T> {
    /// Returns an empty queue, with room for as many items as a FIFO of this size. Allocates its
    /// memory.
    ///
    /// # Errors
    ///
    /// `AllocError` if memory could not be allocated.
    pub fn new(alloc: Global, size: FifoSize) -> Result<Self, AllocError> {
        let places = size.characters().max(FifoSize::SixtyFour.characters());
        let ring = HeapCircularBuffer::with_capacity(alloc, places)?;
        Ok(HeapFifo { ring, size })
    }
}

impl<T: Copy> Fifo<T> for HeapFifo<T> {
    fn size(&self) -> FifoSize {
        self.size
    }

    fn can_resize() -> bool {
        true
    }

    fn len(&self) -> usize {
        self.ring.len()
    }

    fn get(&self, i: usize) -> Option<T> {
        self.ring.get(i).copied()
    }

    fn push(&mut self, item: T) {
        self.ring.push_back(item);
    }

    fn pop(&mut self) -> Option<T> {
        self.ring.pop_front()
    }

    fn clear(&mut self) {
        self.ring.clear();
    }

    fn resize(&mut self, size: FifoSize) {
        self.clear();
        self.size = size;
    }
}
