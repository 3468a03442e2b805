//! What the tests use of the kit's runtime, as far as they use it.

use std::error::Error;

/// A handle for the runtime.
pub struct HostRuntime;

/// What gives an allocator.
pub trait AllocGlobal {}

impl AllocGlobal for HostRuntime {}

/// What may end the process.
pub trait Abort {}

impl Abort for HostRuntime {}

/// Why a test failed.
#[derive(Debug)]
#[allow(dead_code)]
pub struct Fail(String);

impl<E: Into<Box<dyn Error>>> From<E> for Fail {
    fn from(error: E) -> Self {
        Fail(error.into().to_string())
    }
}

macro_rules! assert_with_handle {
    ($rt:expr; $($rest:tt)*) => {{ let _ = &$rt; ::std::assert!($($rest)*) }};
}
macro_rules! assert_eq_with_handle {
    ($rt:expr; $($rest:tt)*) => {{ let _ = &$rt; ::std::assert_eq!($($rest)*) }};
}
pub(crate) use {assert_eq_with_handle as assert_eq, assert_with_handle as assert};
