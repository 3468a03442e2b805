//! What the rings have in place of Rattle's std: a `Vec` for their queues, in memory that their owner gives.
//!
//! For the other proved crates an allocator is the program's (`geesetrunk-kit`). A kernel may have none, so that of the rings may also be
//! a piece of memory. The rest of std is the same.
#![no_std]
#![forbid(unsafe_code)]
#![deny(missing_docs)]

mod memory;

pub use geesetrunk_kit::{cmp, convert, error, fmt, format_fields, mem, num};
pub use memory::{Vec, filled};

pub mod alloc {
    //! Where memory comes from, and what says that there is not so much.

    pub use crate::memory::{Global, Memory};
    pub use geesetrunk_kit::alloc::AllocError;
}
