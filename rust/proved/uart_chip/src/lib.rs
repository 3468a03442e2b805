//! A 16550A or 16450 serial chip in software: its registers, its transmitter and receiver, and its
//! modem lines.
//!
//! The contract of each function says exactly which state follows. [`Uart`] is the chip without a
//! schedule. [`Device16550`] puts it under a schedule of ticks, arrivals and modem lines, as a
//! backend of the driver, and `uart_live` gives it to its owner.
//!
//! What holds of every machine, and what every access conserves, is proved here, whatever makes the
//! accesses.
#![no_std]
#![forbid(unsafe_code)]
#![allow(unused_imports, unused_labels, unused_parens, unused_braces, dead_code, clippy::all, clippy::pedantic, reason = "the text is that of the proved source, in the forms that Rattle has")]
#![allow(rustdoc::broken_intra_doc_links)]

#[macro_use(format, format_fields, vec)]
extern crate geesetrunk_kit as std;
extern crate geesetrunk_kit as bitflags;
extern crate geesetrunk_kit as arrayvec;
extern crate geesetrunk_kit as circular_buffer;

// The chip and the chip under a schedule are one crate: `rt` exports facts about every type in a
// crate's public signatures, even types of other crates. If one of them is the chip, that takes
// half a minute.
mod capabilities;
mod characters;
mod chip;
pub mod controlling;
mod device;
mod fifo;
mod journal;
mod masks;
mod modem;
mod receiver;
pub mod receiving;
pub mod sending;
mod transmitter;
pub mod transmitting;
mod wire;

pub use capabilities::{Capabilities, ChosenCapabilities, NoCapabilities};
pub use characters::Characters;
pub use chip::{ChipData, Latches, Uart};
pub use controlling::identification;
pub use device::Device16550;
pub use fifo::{Fifo, HeapFifo, room_of};
pub use journal::{Journal, Marks};
pub use masks::{kept_interrupts, kept_modem_control};
pub use modem::{Modem, ModemData};
pub use receiver::{Character, Origin, Receiver, ReceiverData, Timeout};
pub use transmitter::{Shifting, Transmitter, TransmitterData};
pub use uart_events::{
    ArrivalMark, BuildError, Chip, Event, MAX_CHAR_TICKS, MAX_WIRE_CAPACITY, arrivals, refusal,
};
pub use uart_spec::registers::flag;
pub use wire::{HeapWire, Wire, send};

mod by_hand;

pub mod proved;
