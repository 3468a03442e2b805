//! Queues of a fixed capacity. A value for a full queue drops the first one.

#[cfg(not(feature = "alloc"))]
use crate::absent::VecDeque;
use crate::alloc::{AllocError, Global};
#[cfg(not(feature = "alloc"))]
use core::slice::Iter;
#[cfg(feature = "alloc")]
use heap::collections::VecDeque;
#[cfg(feature = "alloc")]
use heap::collections::vec_deque::Iter;

/// A queue of at most `capacity` values.
pub struct HeapCircularBuffer<T> {
    values: VecDeque<T>,
    capacity: usize,
}

impl<T> HeapCircularBuffer<T> {
    /// Returns an empty queue with room for this number of values. No later call allocates.
    pub fn with_capacity(alloc: Global, capacity: usize) -> Result<Self, AllocError> {
        let mut values = alloc.queue();
        values.try_reserve_exact(capacity)?;
        Ok(HeapCircularBuffer { values, capacity })
    }

    /// Returns how many values there are.
    #[must_use]
    pub fn len(&self) -> usize {
        self.values.len()
    }

    /// Returns how many values there may be.
    #[must_use]
    pub fn capacity(&self) -> usize {
        self.capacity
    }

    /// Returns whether there is no value.
    #[must_use]
    pub fn is_empty(&self) -> bool {
        self.values.is_empty()
    }

    /// Returns the value with this index, counted from the front.
    #[must_use]
    pub fn get(&self, index: usize) -> Option<&T> {
        self.values.get(index)
    }

    /// Appends a value. Returns the one that has no room then: the first one of a full queue, or the value itself if the queue never
    /// has room.
    pub fn push_back(&mut self, value: T) -> Option<T> {
        if self.capacity == 0 {
            return Some(value);
        }
        let first = (self.len() == self.capacity).then(|| self.values.pop_front());
        self.values.push_back(value);
        first.flatten()
    }

    /// Removes the first value.
    pub fn pop_front(&mut self) -> Option<T> {
        self.values.pop_front()
    }

    /// Removes all values.
    pub fn clear(&mut self) {
        self.values.clear();
    }

    /// Returns the values, from the front.
    #[allow(
        clippy::iter_without_into_iter,
        clippy::must_use_candidate,
        reason = "the library that this stands for has this alone, and without an allocator what it returns says this by itself"
    )]
    pub fn iter(&self) -> Iter<'_, T> {
        self.values.iter()
    }
}
