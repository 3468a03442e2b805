//! Lists whose growth can be refused.

#[cfg(not(feature = "alloc"))]
use crate::absent as backing;
use crate::alloc::{AllocError, AllocFailed, Global};
use core::fmt;
use core::ops::{Deref, DerefMut};
#[cfg(feature = "alloc")]
use heap::vec as backing;

/// A list.
#[derive(PartialEq, Eq)]
pub struct Vec<T>(backing::Vec<T>);

impl<T> Vec<T> {
    /// Returns an empty list. Allocates nothing.
    #[must_use]
    pub const fn new(alloc: Global) -> Self {
        Vec(alloc.list())
    }

    /// Returns an empty list with room for this number of values.
    pub fn with_capacity(alloc: Global, capacity: usize) -> Result<Self, AllocError> {
        let mut values = alloc.list();
        values.try_reserve_exact(capacity)?;
        Ok(Vec(values))
    }

    /// Appends a value, or gives it back if memory is refused.
    pub fn push(&mut self, value: T) -> Result<(), AllocFailed<T>> {
        if self.0.try_reserve(1).is_err() {
            return Err(AllocFailed(value));
        }
        self.0.push(value);
        Ok(())
    }

    /// Removes the last value.
    pub fn pop(&mut self) -> Option<T> {
        self.0.pop()
    }

    /// Drops the values behind this number of them.
    pub fn truncate(&mut self, len: usize) {
        self.0.truncate(len);
    }

    /// Drops all values, and keeps their room.
    pub fn clear(&mut self) {
        self.0.truncate(0);
    }

    /// Returns the values.
    #[must_use]
    pub fn as_slice(&self) -> &[T] {
        &self.0
    }

    /// Puts a value in front of the one with this index. Changes nothing if memory is refused.
    ///
    /// # Panics
    ///
    /// If the index is larger than the number of values.
    pub fn insert(&mut self, index: usize, value: T) -> Result<(), AllocError> {
        self.0.try_reserve(1)?;
        self.0.insert(index, value);
        Ok(())
    }
}

impl<T: Copy> Vec<T> {
    /// Appends values. Appends none of them if memory is refused.
    pub fn extend_from_slice(&mut self, values: &[T]) -> Result<(), AllocError> {
        self.0.try_reserve(values.len())?;
        self.0.extend_from_slice(values);
        Ok(())
    }

    /// Changes how many values there are: drops the last ones, or appends this value. Changes nothing if memory is refused.
    pub fn resize(&mut self, count: usize, value: T) -> Result<(), AllocError> {
        self.0.try_reserve(count.saturating_sub(self.0.len()))?;
        self.0.resize(count, value);
        Ok(())
    }
}

impl<T> From<backing::Vec<T>> for Vec<T> {
    fn from(values: backing::Vec<T>) -> Self {
        Vec(values)
    }
}

impl<T> Deref for Vec<T> {
    type Target = [T];

    fn deref(&self) -> &[T] {
        &self.0
    }
}

impl<T> DerefMut for Vec<T> {
    fn deref_mut(&mut self) -> &mut [T] {
        &mut self.0
    }
}

impl<'a, T> IntoIterator for &'a Vec<T> {
    type Item = &'a T;
    type IntoIter = core::slice::Iter<'a, T>;

    fn into_iter(self) -> Self::IntoIter {
        self.0.iter()
    }
}

impl<T> IntoIterator for Vec<T> {
    type Item = T;
    type IntoIter = backing::IntoIter<T>;

    fn into_iter(self) -> Self::IntoIter {
        self.0.into_iter()
    }
}

impl<T: fmt::Debug> fmt::Debug for Vec<T> {
    fn fmt(&self, f: &mut fmt::Formatter<'_>) -> fmt::Result {
        self.0.fmt(f)
    }
}

#[cfg(feature = "std")]
impl std::io::Write for Vec<u8> {
    fn write(&mut self, bytes: &[u8]) -> std::io::Result<usize> {
        self.extend_from_slice(bytes)?;
        Ok(bytes.len())
    }

    fn flush(&mut self) -> std::io::Result<()> {
        Ok(())
    }
}

/// `collect(alloc)` of an iterator, which has another method `collect` in Rust.
pub trait CollectWith: Iterator + Sized {
    /// Returns the values as a list.
    fn collect_with(self, alloc: Global) -> Result<Vec<Self::Item>, AllocError> {
        let mut list = Vec::new(alloc);
        for value in self {
            list.push(value)?;
        }
        Ok(list)
    }
}

impl<I: Iterator> CollectWith for I {}

/// `to_vec(alloc)` of a slice, which has another method `to_vec` in Rust.
pub trait ToVecWith<T> {
    /// Returns a list of these values.
    fn to_vec_with(&self, alloc: Global) -> Result<Vec<T>, AllocError>;
}

impl<T: Copy> ToVecWith<T> for [T] {
    fn to_vec_with(&self, alloc: Global) -> Result<Vec<T>, AllocError> {
        let mut list = Vec::with_capacity(alloc, self.len())?;
        list.extend_from_slice(self)?;
        Ok(list)
    }
}

/// Returns a list of this value so many times: `vec![in alloc; value; count]`.
pub fn filled<T: Copy>(alloc: Global, value: T, count: usize) -> Result<Vec<T>, AllocError> {
    let mut list = Vec::with_capacity(alloc, count)?;
    list.resize(count, value)?;
    Ok(list)
}

/// Returns a list of these values: `vec![in alloc; ..]`.
pub fn of_array<T, const N: usize>(alloc: Global, values: [T; N]) -> Result<Vec<T>, AllocError> {
    let mut list = Vec::with_capacity(alloc, N)?;
    for value in values {
        list.push(value)?;
    }
    Ok(list)
}

/// `vec![in alloc; ..]`: a list, or the refusal of its memory.
#[macro_export]
macro_rules! vec {
    (in $alloc:expr; $value:expr; $count:expr) => {
        $crate::filled($alloc, $value, $count)
    };
    (in $alloc:expr; $($value:expr),*) => {
        $crate::of_array($alloc, [$($value),*])
    };
}
