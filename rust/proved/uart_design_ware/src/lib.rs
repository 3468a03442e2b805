//! A backend for UARTs of Synopsys' DesignWare, which do four things that a 16550 does not.
//!
//! [`DesignWare`] is a backend over the registers of such a chip, which implement
//! [`DesignWareRegisters`]. The driver above it is the one for every 16550, unchanged.
#![no_std]
#![forbid(unsafe_code)]
#![allow(unused_imports, unused_labels, unused_parens, unused_braces, dead_code, clippy::all, clippy::pedantic, reason = "the text is that of the proved source, in the forms that Rattle has")]
#![allow(rustdoc::broken_intra_doc_links)]

#[macro_use(format, format_fields, vec)]
extern crate geesetrunk_kit as std;
extern crate geesetrunk_kit as bitflags;

mod fault;
mod kept;
mod line;
mod parameters;
mod recovery;
mod registers;
mod serving;
mod state;

pub use fault::DesignWareFault;
pub use parameters::fifo_size_of;
pub use registers::{DesignWareRegisters, USR};
pub use state::DesignWare;

pub mod proved;
