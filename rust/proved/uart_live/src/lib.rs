//! A live chip: the chip of [`uart_chip`] in the hands of its owner, without a schedule.
//!
//! The owner, for example a virtual machine monitor, makes the guest's accesses, takes the bytes
//! that are sent, passes characters and modem lines when they arrive, lets time pass, and reads the
//! level of the interrupt line. Each call does what the definitions of the chip say.
#![no_std]
#![forbid(unsafe_code)]
#![allow(unused_imports, unused_labels, unused_parens, unused_braces, dead_code, clippy::all, clippy::pedantic, reason = "the text is that of the proved source, in the forms that Rattle has")]
#![allow(rustdoc::broken_intra_doc_links)]

#[macro_use(format, format_fields, vec)]
extern crate geesetrunk_kit as std;
extern crate geesetrunk_kit as bitflags;
extern crate geesetrunk_kit as arrayvec;

mod due;
mod errors;
mod fixed;
mod live;
pub mod sound;

pub use due::interrupts_when_due;
pub use errors::{ChipError, InputError, RestoreError};
pub use fixed::WIRE_ROOM;
pub use live::{LiveChip, LiveChipWith};
pub use uart_chip::{
    Character, Chip, ChipData, Latches, ModemData, Origin, ReceiverData, Shifting, TransmitterData,
};

mod by_hand;

pub mod proved;
