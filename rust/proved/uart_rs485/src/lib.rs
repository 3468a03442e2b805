//! A driver at a bus on which one end at a time may send, as RS-485 with two wires.
//!
//! A transceiver between the chip and the bus has two directions, and an output of the chip
//! switches it. [`HalfDuplex`] is a driver whose calls switch it: no byte is written while the
//! direction is not to send, and the bus is given back only when the transmitter is empty.
//! [`HalfDuplexRing`] is the same over rings that are served by interrupts.
#![no_std]
#![forbid(unsafe_code)]
#![allow(unused_imports, unused_labels, unused_parens, unused_braces, dead_code, clippy::all, clippy::pedantic, reason = "the text is that of the proved source, in the forms that Rattle has")]
#![allow(rustdoc::broken_intra_doc_links)]

#[macro_use(format, format_fields, vec)]
extern crate geesetrunk_kit as std;
extern crate geesetrunk_kit as bitflags;

mod bus;
mod direction;
mod errors;
mod receive;
mod rings;
mod state;
mod transfer;

pub use bus::HalfDuplex;
pub use direction::{Direction, DirectionLine};
pub use errors::{BusyError, EchoError, NotSendingError, SendError};
pub use rings::HalfDuplexRing;

mod by_hand;

pub mod proved;
