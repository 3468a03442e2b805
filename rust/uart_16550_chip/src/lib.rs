#![cfg_attr(feature = "std", doc = include_str!("../README.md"))]
#![cfg_attr(
    not(feature = "std"),
    doc = "A 16550 serial chip in software whose source is proved, without the feature `std`."
)]
#![no_std]
#![forbid(unsafe_code)]
#![deny(missing_docs)]

pub mod serial;

pub use geesetrunk_kit::{ArrayVec, Bits, Flag, Flags};
#[doc(inline)]
pub use serial::{
    BadState, FromStateError, LineSettings, NoEvents, Output, Serial, SerialEvents, SerialState,
    Trigger, TriggerError,
};
#[doc(inline)]
pub use uart_live::{
    Character, Chip, ChipData, ChipError, InputError, Latches, LiveChip, LiveChipWith, ModemData,
    Origin, ReceiverData, RestoreError, Shifting, TransmitterData, WIRE_ROOM,
};
pub use uart_spec::registers;
#[doc(inline)]
pub use uart_spec::{FIFO_SIZE, FifoSize};
#[doc(inline)]
pub use uart_virtual::{
    Answer, Clock, Received, Restored, Todo, VirtualPort, VirtualPortWith, settle,
};

/// The definitions that the sections "Proved" cite: what each name there means. No code is in it.
///
/// Start with [`spec`](proved::spec), which says how a section is read.
pub mod proved {
    #[doc(inline)]
    pub use uart_live::proved as live;
    #[doc(inline)]
    pub use uart_spec::proved as spec;
    #[doc(inline)]
    pub use uart_virtual::proved as port;
}
