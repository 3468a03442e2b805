//! What happens to a chip from outside, as plain data: time passes for it, characters arrive at it,
//! and its modem lines change.
//!
//! [`Event`] is what happens to a chip, and [`ArrivalMark`] is what became of a character that
//! arrived. The limits are those of a machine that is built. Each has one name, which code, clauses
//! and definitions use.
#![no_std]
#![forbid(unsafe_code)]
#![allow(unused_imports, unused_labels, unused_parens, unused_braces, dead_code, clippy::all, clippy::pedantic, reason = "the text is that of the proved source, in the forms that Rattle has")]
#![allow(rustdoc::broken_intra_doc_links)]

#[macro_use(format, format_fields, vec)]
extern crate geesetrunk_kit as std;
extern crate geesetrunk_kit as bitflags;
extern crate geesetrunk_kit as arrayvec;

mod event;

pub use event::{
    ArrivalMark, BuildError, Chip, Event, MAX_CHAR_TICKS, MAX_WIRE_CAPACITY, arrivals, refusal,
};

pub mod proved;
