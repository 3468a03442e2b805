//! A serial port of a virtual machine: a live chip, and what its monitor has to do.
//!
//! Each call returns as plain data whether to signal the guest's interrupt, the level of the line,
//! whether there is room for input again, and how many bytes of output are ready. Time passes in
//! the calls alone.
#![no_std]
#![forbid(unsafe_code)]
#![allow(unused_imports, unused_labels, unused_parens, unused_braces, dead_code, clippy::all, clippy::pedantic, reason = "the text is that of the proved source, in the forms that Rattle has")]
#![allow(rustdoc::broken_intra_doc_links)]

#[macro_use(format, format_fields, vec)]
extern crate geesetrunk_kit as std;
extern crate geesetrunk_kit as bitflags;
extern crate geesetrunk_kit as arrayvec;

mod clock;
mod port;
mod told;

pub use clock::Clock;
pub use port::{
    Answer, Received, Restored, VirtualPort, VirtualPortWith, kind_of_read, kind_of_write, settle,
    settle_ticks, tell,
};
pub use told::{Kind, Seen, Todo, Told};

mod by_hand;

pub mod proved;
