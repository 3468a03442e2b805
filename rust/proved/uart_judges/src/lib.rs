//! What a recording or a trace says about its driver and its chip.
//!
//! [`traces`] reads the recorded calls of a driver, and checks that it makes them. [`recording`]
//! reads what was seen at a chip's port; of that, [`audit`] judges the driver and [`replay`] the
//! chip. [`findings`] prints what they find, and where a trace strays.
#![no_std]
#![forbid(unsafe_code)]
#![allow(unused_imports, unused_labels, unused_parens, unused_braces, dead_code, clippy::all, clippy::pedantic, reason = "the text is that of the proved source, in the forms that Rattle has")]
#![allow(rustdoc::broken_intra_doc_links)]

const _: () = assert!(usize::BITS >= 32, "a script has up to 65,536 bytes");

#[macro_use(format, format_fields, vec)]
extern crate geesetrunk_kit as std;
extern crate geesetrunk_kit as bitflags;

pub mod audit;
pub mod findings;
pub mod recording;
pub mod replay;
pub mod traces;
