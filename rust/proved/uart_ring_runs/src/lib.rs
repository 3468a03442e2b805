//! Runs of ring calls over the software chip, and what is proved of rings, driver and chip
//! together.
#![no_std]
#![forbid(unsafe_code)]
#![allow(unused_imports, unused_labels, unused_parens, unused_braces, dead_code, clippy::all, clippy::pedantic, reason = "the text is that of the proved source, in the forms that Rattle has")]
#![allow(rustdoc::broken_intra_doc_links)]

const _: () = assert!(usize::BITS >= 32, "a script has up to 65,536 bytes");

#[macro_use(format, format_fields, vec)]
extern crate geesetrunk_kit as std;
extern crate geesetrunk_kit as bitflags;
extern crate geesetrunk_kit as arrayvec;

mod call;
mod running;

pub use call::{RingAnswer, RingCall, perform_ring};
pub use running::run_ring;
