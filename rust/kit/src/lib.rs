//! What the proved crates use of Rattle's std, and of the libraries `bitflags`, `arrayvec` and `circular_buffer`, under the
//! names that they have there.
//!
//! Written by hand, and trusted: the proofs are about the types of the kit for Rattle that have these names and methods. An emitted crate
//! takes this one for each of the four: it begins with `extern crate geesetrunk_kit as std`, and so on. So its paths stay as they are in
//! the proved source, and what is not here does not compile.
//!
//! Memory comes from the program's allocator, and a request that is refused is an error. A function that allocates takes a
//! [`Global`](alloc::Global). Without the feature `alloc` nobody has one, so nothing is allocated, and what allocates is still compiled.
#![no_std]
#![forbid(unsafe_code)]
#![deny(missing_docs)]

// The proofs take a number of 32 bits for one that fits into `usize`.
#[cfg(not(any(target_pointer_width = "32", target_pointer_width = "64")))]
compile_error!(
    "the driver is for targets whose addresses have 32 or 64 bits: on others an index may not fit into `usize`"
);

#[cfg(feature = "alloc")]
extern crate alloc as heap;
#[cfg(any(feature = "std", test))]
extern crate std;

#[cfg(not(feature = "alloc"))]
mod absent;
pub mod alloc;
mod allocator;
mod array;
mod bits;
#[cfg(feature = "std")]
pub mod io;
#[allow(
    clippy::missing_errors_doc,
    reason = "each error of these is that there is no memory"
)]
mod list;
#[cfg(feature = "std")]
pub mod path;
#[allow(
    clippy::missing_errors_doc,
    reason = "each error of these is that there is no memory"
)]
mod queue;
#[allow(
    clippy::missing_errors_doc,
    reason = "each error of these is that there is no memory"
)]
mod text;

pub use array::{ArrayString, ArrayVec, CapacityError};
pub use bits::{Bits, Flag, Flags, Iter, IterNames, Names};
pub use core::{cmp, convert, error, fmt, mem, num};
pub use list::{CollectWith, ToVecWith, Vec, filled, of_array};
pub use queue::HeapCircularBuffer;
pub use text::{String, ToStringWith, formatted};

/// `format_args!`, as the texts of errors name it.
#[macro_export]
macro_rules! format_fields {
    ($($rest:tt)*) => {
        ::core::format_args!($($rest)*)
    };
}
