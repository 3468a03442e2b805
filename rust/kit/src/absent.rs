//! Lists, texts and queues of a program without an allocator: there is none, since nobody can make one.

use crate::alloc::AllocError;
use core::marker::PhantomData;
use core::ops::{Deref, DerefMut};

/// What there is no value of.
#[derive(Clone, Copy, Debug, PartialEq, Eq)]
pub enum Never {}

/// Gives a type without a value these methods.
macro_rules! absent {
    ($Type:ident: $(fn $name:ident($Self:ty $(, $Other:ty)?) -> $Result:ty;)*) => {
        impl<T> $Type<T> {
            $(pub fn $name(self: $Self $(, _: $Other)?) -> $Result {
                match self.0 {}
            })*
        }
    };
}

/// A list.
#[derive(Debug, PartialEq, Eq)]
pub struct Vec<T>(Never, PhantomData<T>);

absent! { Vec:
    fn try_reserve(&mut Self, usize) -> Result<(), AllocError>;
    fn try_reserve_exact(&mut Self, usize) -> Result<(), AllocError>;
    fn push(&mut Self, T) -> ();
    fn pop(&mut Self) -> Option<T>;
    fn truncate(&mut Self, usize) -> ();
    fn extend_from_slice(&mut Self, &[T]) -> ();
}

impl<T> Vec<T> {
    pub fn resize(&mut self, _: usize, _: T) {
        match self.0 {}
    }

    pub fn insert(&mut self, _: usize, _: T) {
        match self.0 {}
    }
}

impl<T> Deref for Vec<T> {
    type Target = [T];

    fn deref(&self) -> &[T] {
        match self.0 {}
    }
}

impl<T> DerefMut for Vec<T> {
    fn deref_mut(&mut self) -> &mut [T] {
        match self.0 {}
    }
}

/// The values of a list.
pub struct IntoIter<T>(Never, PhantomData<T>);

impl<T> Iterator for IntoIter<T> {
    type Item = T;

    fn next(&mut self) -> Option<T> {
        match self.0 {}
    }
}

impl<T> IntoIterator for Vec<T> {
    type Item = T;
    type IntoIter = IntoIter<T>;

    fn into_iter(self) -> IntoIter<T> {
        match self.0 {}
    }
}

/// A text.
#[derive(Debug, PartialEq, Eq)]
pub struct String(Never);

impl String {
    pub fn try_reserve(&mut self, _: usize) -> Result<(), AllocError> {
        match self.0 {}
    }

    pub fn push_str(&mut self, _: &str) {
        match self.0 {}
    }

    pub fn into_bytes(self) -> Vec<u8> {
        match self.0 {}
    }
}

impl Deref for String {
    type Target = str;

    fn deref(&self) -> &str {
        match self.0 {}
    }
}

/// A queue.
#[derive(Debug, PartialEq, Eq)]
pub struct VecDeque<T>(Never, PhantomData<T>);

absent! { VecDeque:
    fn try_reserve_exact(&mut Self, usize) -> Result<(), AllocError>;
    fn len(&Self) -> usize;
    fn is_empty(&Self) -> bool;
    fn get(&Self, usize) -> Option<&T>;
    fn push_back(&mut Self, T) -> ();
    fn pop_front(&mut Self) -> Option<T>;
    fn clear(&mut Self) -> ();
    fn iter(&Self) -> core::slice::Iter<'_, T>;
}
