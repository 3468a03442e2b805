//! Who waits at rings that a handler and tasks share, for what, and whose turn it is.
//!
//! [`Waits`] has a place at each end of the rings. A task that looked in vain comes into one, by
//! [`Waits::register`]. After each call over the rings [`Waits::take_due`] takes those out whose
//! turn it is, to be woken. What wakes a task is of any kind: it is never looked at, copied or
//! dropped.
//!
//! [`Occupancy`] is whether somebody uses the rings. A handler that comes meanwhile leaves a mark
//! there, and who uses them serves it before leaving.
#![no_std]
#![forbid(unsafe_code)]
#![allow(unused_imports, unused_labels, unused_parens, unused_braces, dead_code, clippy::all, clippy::pedantic, reason = "the text is that of the proved source, in the forms that Rattle has")]
#![allow(rustdoc::broken_intra_doc_links)]

#[macro_use(format, format_fields, vec)]
extern crate geesetrunk_kit as std;
extern crate geesetrunk_kit as bitflags;

mod awaited;
mod errors;
mod occupancy;
mod waits;

pub use awaited::{Awaited, Seen};
pub use errors::{SharedError, StartError, Unfinished};
pub use occupancy::Occupancy;
pub use waits::{Due, Waiter, Waits};

mod by_hand;

pub mod proved;
