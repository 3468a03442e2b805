//! The queue of a receiver, which counts the characters that have errors.

use crate::fifo::Fifo;
use crate::receiver::Character;
use arrayvec::ArrayVec;
use uart_spec::{FIFO_SIZE, FifoSize};

/// A queue of characters, and how many of them have errors.
pub struct Characters<Q: Fifo<Character>> {
    queue: Q,
    errors: usize,
}

// Returns the number of characters whose errors were reported: 1 if the front has some and was
// reported, else 0.
fn known<Q: Fifo<Character>>(queue: &Q, is_front_reported: bool) -> usize {
    match queue.get(0) {
        Some(front) if is_front_reported => front.error_weight(),
        _ => 0,
    }
}

impl<Q: Fifo<Character>> Characters<Q> {
    /// Returns no characters, over an empty queue.
    #[must_use]
    pub fn new(queue: Q) -> Self {
        Characters { queue, errors: 0 }
    }

    /// Returns these characters, over an empty queue.
    // They fit: each FIFO has room for at least so many.
    #[must_use]
    pub fn filled(queue: Q, items: &ArrayVec<Character, FIFO_SIZE>) -> Self {
        let mut characters = Characters::new(queue);
        for item in items.as_slice() {
            characters.push(*item);
        }
        characters
    }

    /// Returns whether a character has errors.
    #[must_use]
    pub fn has_errors(&self) -> bool {
        self.errors > 0
    }

    /// Returns whether a character has errors. Those of the front do not count if they were
    /// reported.
    #[must_use]
    pub fn has_unreported_errors(&self, is_front_reported: bool) -> bool {
        self.errors > known(&self.queue, is_front_reported)
    }
}

impl<Q: Fifo<Character>> Fifo<Character> for Characters<Q> {
    fn size(&self) -> FifoSize {
        self.queue.size()
    }

    fn can_resize() -> bool {
        Q::can_resize()
    }

    fn len(&self) -> usize {
        self.queue.len()
    }

    fn get(&self, i: usize) -> Option<Character> {
        self.queue.get(i)
    }

    fn push(&mut self, item: Character) {
        self.queue.push(item);
        self.errors += item.error_weight();
    }

    fn pop(&mut self) -> Option<Character> {
        let front = self.queue.pop()?;
        self.errors -= front.error_weight();
        Some(front)
    }

    fn clear(&mut self) {
        self.queue.clear();
        self.errors = 0;
    }

    fn resize(&mut self, size: FifoSize) {
        if Q::can_resize() {
            self.queue.resize(size);
            self.errors = 0;
        }
    }
}
