//! Two serial chips in software, each with its driver and rings, joined by a null-modem cable, and
//! what is proved of them together.
//!
//! [`CabledChip`] is the chip at one end of the cable. [`run_link`] makes the calls of both ends in
//! any order, under a schedule that says when time passes and when characters arrive. Which
//! characters arrive is for the cable to say: those that left the other end.
#![no_std]
#![forbid(unsafe_code)]
#![allow(unused_imports, unused_labels, unused_parens, unused_braces, dead_code, clippy::all, clippy::pedantic, reason = "the text is that of the proved source, in the forms that Rattle has")]
#![allow(rustdoc::broken_intra_doc_links)]

const _: () = assert!(usize::BITS >= 32, "a script has up to 65,536 bytes");

#[macro_use(format, format_fields, vec)]
extern crate geesetrunk_kit as std;
extern crate geesetrunk_kit as bitflags;
extern crate geesetrunk_kit as arrayvec;

mod call;
mod device;
mod link;
mod ring_call;

pub use call::{CALL_MOMENTS, LinkCall, Moment, Side};
pub use device::CabledChip;
pub use link::{Link, run_link};
