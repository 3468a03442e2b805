//! Memory for the queues of the rings: a piece of what the caller gives, or of the program's allocator.
//!
//! Written by hand, and trusted: the proof of the queues is about Rattle's `Vec`, of which they use no more than is here. Which byte is in
//! which place of it is proved, so nothing here computes an index. There is no `unsafe`. `rust/tests/wrong-kit` tries wrong bodies, and
//! the tests of this file find each.

#[cfg(feature = "alloc")]
extern crate alloc;
#[cfg(test)]
mod tests;

#[cfg(feature = "alloc")]
use alloc::boxed::Box;
use core::cell::Cell;
use core::fmt;
use geesetrunk_kit::alloc::AllocError;

/// Memory for rings. Each ring takes its part from the front.
///
/// Memory that a ring took is not given back, not even when the ring is dropped.
///
/// # Examples
///
/// ```
/// use uart_16550::ring::Memory;
///
/// // A kernel takes the memory from a `static`, or from its page allocator.
/// let bytes: &'static mut [u8] = Box::leak(Box::new([0; 1024 + 256]));
/// let memory = Memory::new(bytes);
/// let global = memory.global();
/// ```
pub struct Memory {
    free: Cell<&'static mut [u8]>,
}

impl Memory {
    /// Returns memory of these bytes.
    #[must_use]
    pub const fn new(bytes: &'static mut [u8]) -> Self {
        Self {
            free: Cell::new(bytes),
        }
    }

    /// Returns a handle, from which `Uart16550Ring::new` takes the memory of its rings.
    #[must_use]
    pub const fn global(&self) -> Global<'_> {
        Global(Source::Given(self))
    }

    // Takes this number of bytes, or none if there are not so many.
    fn take(&self, count: usize) -> Option<&'static mut [u8]> {
        let free = self.free.take();
        if free.len() < count {
            self.free.set(free);
            return None;
        }
        let (taken, rest) = free.split_at_mut(count);
        self.free.set(rest);
        Some(taken)
    }
}

/// Shows how many bytes are free, and not the bytes.
impl fmt::Debug for Memory {
    fn fmt(&self, f: &mut fmt::Formatter<'_>) -> fmt::Result {
        let free = self.free.take();
        let count = free.len();
        self.free.set(free);
        f.debug_struct("Memory").field("free", &count).finish()
    }
}

/// Where the memory of rings comes from.
#[derive(Clone, Copy, Debug)]
pub struct Global<'a>(Source<'a>);

#[derive(Clone, Copy, Debug)]
enum Source<'a> {
    Given(&'a Memory),
    #[cfg(feature = "alloc")]
    Heap,
}

#[cfg(feature = "alloc")]
impl Global<'static> {
    /// Returns a handle to the program's allocator. Memory of rings is given back when they are dropped.
    #[must_use]
    pub const fn heap() -> Self {
        Self(Source::Heap)
    }
}

/// Items whose number is fixed: a Rattle `Vec` that nothing is pushed onto.
pub struct Vec<T: 'static>(Items<T>);

enum Items<T: 'static> {
    Given(&'static mut [T]),
    #[cfg(feature = "alloc")]
    Allocated(Box<[T]>),
}

impl<T> Vec<T> {
    /// Returns the items.
    #[must_use]
    pub const fn as_slice(&self) -> &[T] {
        match &self.0 {
            Items::Given(items) => items,
            #[cfg(feature = "alloc")]
            Items::Allocated(items) => items,
        }
    }

    /// Returns the items, to write to.
    #[must_use]
    pub const fn as_mut_slice(&mut self) -> &mut [T] {
        match &mut self.0 {
            Items::Given(items) => items,
            #[cfg(feature = "alloc")]
            Items::Allocated(items) => items,
        }
    }
}

/// Returns this byte so many times: `vec![in alloc; byte; count]`.
///
/// # Errors
///
/// There is not so much memory. What there is can still be taken.
pub fn filled(global: Global<'_>, byte: u8, count: usize) -> Result<Vec<u8>, AllocError> {
    let items = match global.0 {
        Source::Given(memory) => {
            let bytes = memory.take(count).ok_or(AllocError)?;
            bytes.fill(byte);
            Items::Given(bytes)
        }
        #[cfg(feature = "alloc")]
        Source::Heap => {
            let mut bytes = alloc::vec::Vec::new();
            bytes.try_reserve_exact(count).map_err(|_| AllocError)?;
            bytes.resize(count, byte);
            Items::Allocated(bytes.into_boxed_slice())
        }
    };
    Ok(Vec(items))
}

/// `vec![in alloc; byte; count]`: a byte so many times, or the refusal of their memory.
#[macro_export]
macro_rules! vec {
    (in $alloc:expr; $byte:expr; $count:expr) => {
        $crate::filled($alloc, $byte, $count)
    };
}
