//! Everything about a 16550 serial chip that needs no access to it: its registers with their named
//! bits and fields, the arithmetic of its baud rate generator, its configuration, the errors of its
//! driver, and the trait for the access to them.
//!
//! Bits are numbered from 0, the lowest, to 7. Frequencies are in hertz and baud rates in bits per
//! second.
#![no_std]
#![forbid(unsafe_code)]
#![allow(unused_imports, unused_labels, unused_parens, unused_braces, dead_code, clippy::all, clippy::pedantic, reason = "the text is that of the proved source, in the forms that Rattle has")]
#![allow(rustdoc::broken_intra_doc_links)]

#[macro_use(format, format_fields, vec)]
extern crate geesetrunk_kit as std;
extern crate geesetrunk_kit as bitflags;

pub mod access;
pub mod backend;
mod baud;
mod checked;
mod config;
mod dump;
mod errors;
mod layout;
mod received;
pub mod registers;
mod setup;
mod timing;

pub use baud::{
    CLK_FREQUENCY_HZ, FIFO_SIZE, NUM_REGISTERS, calc_baud_rate, calc_divisor, calc_frequency,
};
pub use checked::{accepted, checked_baud_rate, checked_divisor, checked_frequency};
pub use config::{BaudRate, Config};
pub use dump::ConfigRegisterDump;
pub use errors::{
    AttachError, ByteReceiveError, ByteSendError, ConfigurationError, FifoSizeError, FifosOffError,
    FrameError, InitError, InvalidAddressError, InvalidDivisorError, LoopbackError,
    NearestDivisorError, NonIntegerBaudRateError, NonIntegerDivisorError,
    RemoteReadyToReceiveError, StalledError, Uart16550TtyError,
};
pub use layout::{
    ByteOrder, InvalidLayoutError, RegisterLayout, RegisterWidth, check_layout, check_ports,
    check_spacing,
};
pub use received::Received;
pub use setup::{FifoAction, FifoSize, Setup, TransmitterWait};

mod by_hand;

pub mod proved;
