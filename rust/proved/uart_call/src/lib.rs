//! Calls of a driver as plain data: [`Call`] is a call, and [`Answer`] is what came of it.
//!
//! What says what calls mean, and the language of scripts stand on this crate side by side. The
//! chip does not: it knows events alone.
#![no_std]
#![forbid(unsafe_code)]
#![allow(unused_imports, unused_labels, unused_parens, unused_braces, dead_code, clippy::all, clippy::pedantic, reason = "the text is that of the proved source, in the forms that Rattle has")]
#![allow(rustdoc::broken_intra_doc_links)]

const _: () = assert!(usize::BITS >= 32, "a script has up to 65,536 bytes");

#[macro_use(format, format_fields, vec)]
extern crate geesetrunk_kit as std;
extern crate geesetrunk_kit as bitflags;
extern crate geesetrunk_kit as arrayvec;

mod call;

pub use call::{Answer, CALL_BYTES, Call};
