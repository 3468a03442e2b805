//! Plays scripts: [`play`] reads one, runs its calls over a new device, and writes the answers and
//! the last state of the device.
//!
//! The meaning of a script, and what is printed for it, are defined in `uart_language`.
#![no_std]
#![forbid(unsafe_code)]
#![allow(unused_imports, unused_labels, unused_parens, unused_braces, dead_code, clippy::all, clippy::pedantic, reason = "the text is that of the proved source, in the forms that Rattle has")]
#![allow(rustdoc::broken_intra_doc_links)]

const _: () = assert!(usize::BITS >= 32, "a script has up to 65,536 bytes");

#[macro_use(format, format_fields, vec)]
extern crate geesetrunk_kit as std;
extern crate geesetrunk_kit as bitflags;
extern crate geesetrunk_kit as arrayvec;

mod playing;

pub use playing::{machine_for, play};
pub use uart_language::{Input, Output, PlayError, Std, StreamFault};
