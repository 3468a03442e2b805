//! Transmit and receive rings over the serial driver, for use with interrupts.
//!
//! A [`Uart16550Ring`] keeps bytes until the chip has room for them, and received bytes until the
//! caller takes them. Call [`Uart16550Ring::handle`] when the chip raises its interrupt. No call
//! waits, and only [`Uart16550Ring::new`] allocates memory.
#![no_std]
#![forbid(unsafe_code)]
#![allow(unused_imports, unused_labels, unused_parens, unused_braces, dead_code, clippy::all, clippy::pedantic, reason = "the text is that of the proved source, in the forms that Rattle has")]
#![allow(rustdoc::broken_intra_doc_links)]

#[macro_use(format_fields, vec)]
extern crate geesetrunk_kit_of_rings as std;
extern crate geesetrunk_kit as bitflags;

mod line;
mod notes;
mod queue;
mod refused;
mod ring;
mod shown;

pub use line::{LinePort, LinePorts, handle_line, handle_ports};
pub use notes::{ErrorNotes, UnnotedError};
pub use refused::Refused;
pub use ring::{
    HandleEnd, Handled, Lowered, MAX_CAPACITY, MAX_INTERRUPTS, ReceiveMarks, RingError, StuckError,
    Uart16550Ring,
};

mod by_hand;

pub mod proved;
