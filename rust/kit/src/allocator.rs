//! The program's allocator as a value, from which lists, texts and queues take their memory, and what comes back if it is refused.

#[cfg(not(feature = "alloc"))]
use crate::absent::{self as backing, Never};
use crate::alloc::AllocError;
use core::fmt;
#[cfg(feature = "alloc")]
use heap::collections::TryReserveError;
#[cfg(feature = "alloc")]
mod backing {
    pub use heap::collections::VecDeque;
    pub use heap::string::String;
    pub use heap::vec::Vec;
}

/// A handle to the program's allocator. There is none without the feature `alloc`.
#[derive(Clone, Copy)]
pub struct Global {
    #[cfg(not(feature = "alloc"))]
    never: Never,
}

#[cfg(feature = "alloc")]
#[allow(
    clippy::unused_self,
    reason = "whoever has a handle may make what is empty"
)]
impl Global {
    /// Returns a handle to the program's allocator.
    #[must_use]
    pub const fn heap() -> Self {
        Self {}
    }

    pub(crate) const fn list<T>(self) -> backing::Vec<T> {
        backing::Vec::new()
    }

    pub(crate) const fn text(self) -> backing::String {
        backing::String::new()
    }

    pub(crate) const fn queue<T>(self) -> backing::VecDeque<T> {
        backing::VecDeque::new()
    }
}

#[cfg(not(feature = "alloc"))]
impl Global {
    pub(crate) const fn list<T>(self) -> backing::Vec<T> {
        match self.never {}
    }

    pub(crate) const fn text(self) -> backing::String {
        match self.never {}
    }

    pub(crate) const fn queue<T>(self) -> backing::VecDeque<T> {
        match self.never {}
    }
}

#[cfg(feature = "alloc")]
impl From<TryReserveError> for AllocError {
    fn from(_: TryReserveError) -> Self {
        AllocError
    }
}

#[cfg(feature = "std")]
impl From<AllocError> for std::io::Error {
    fn from(_: AllocError) -> Self {
        std::io::ErrorKind::OutOfMemory.into()
    }
}

/// A request for memory was refused. Holds what was to be stored.
#[derive(Clone, Copy, PartialEq, Eq)]
pub struct AllocFailed<T>(pub T);

impl<T> fmt::Debug for AllocFailed<T> {
    fn fmt(&self, f: &mut fmt::Formatter<'_>) -> fmt::Result {
        f.write_str("AllocFailed(..)")
    }
}

impl<T> fmt::Display for AllocFailed<T> {
    fn fmt(&self, f: &mut fmt::Formatter<'_>) -> fmt::Result {
        fmt::Display::fmt(&AllocError, f)
    }
}

impl<T> core::error::Error for AllocFailed<T> {}

impl<T> From<AllocFailed<T>> for AllocError {
    fn from(_: AllocFailed<T>) -> Self {
        AllocError
    }
}
