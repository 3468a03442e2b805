//! What a call of the driver as data means, and the function that makes such a call, over any
//! backend.
//!
//! [`check`] returns whether a list of accesses is one that a call makes; if it returns `None`, the
//! list is not, whatever the call might have returned. [`next`] returns what the driver does next
//! after some accesses, and [`follow`] how much of a list it makes. Judges and runs need all of
//! this, and no script language: so it is a crate of its own.
#![no_std]
#![forbid(unsafe_code)]
#![allow(unused_imports, unused_labels, unused_parens, unused_braces, dead_code, clippy::all, clippy::pedantic, reason = "the text is that of the proved source, in the forms that Rattle has")]
#![allow(rustdoc::broken_intra_doc_links)]

const _: () = assert!(usize::BITS >= 32, "a script has up to 65,536 bytes");

#[macro_use(format, format_fields, vec)]
extern crate geesetrunk_kit as std;
extern crate geesetrunk_kit as bitflags;
extern crate geesetrunk_kit as arrayvec;

mod checking;
mod performing;
pub mod replay;
mod tape;

pub use checking::{Followed, NextStep, Returned, Turn, check, follow, next};
pub use performing::{perform, perform_on_driver};
pub use tape::{Recorded, Request, Tape};
pub use uart_call::{Answer, CALL_BYTES, Call};
