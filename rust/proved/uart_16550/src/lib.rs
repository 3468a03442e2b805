//! A driver for the serial chips of the 16550 family, proved over any backend.
//!
//! - [`Uart16550`] is the driver: initialisation, loopback test, sending and receiving by polling,
//!   status, interrupts.
//! - [`Uart16550Tty`] sends text through it as terminals expect it.
//! - [`backend`] has the access to registers at I/O ports and in memory, and the trait for a
//!   backend of your own.
//! - [`embedded_io`] has traits for byte readers and writers, which the driver implements.
//!
//! No call blocks forever: each wait ends with an error after [`Uart16550::spin_limit`]
//! unsuccessful polls in a row. The contract of each call says which accesses it makes, in which
//! order, and how it changes the driver's fields.
//!
//! # Examples
//!
//! ```
//! # include!(concat!(env!("CARGO_MANIFEST_DIR"), "/examples.rs"));
//! # fn main() {}
//! # fn example(ports: Device) -> Outcome<()> {
//! // `ports` is a `PortAccess`: how this program accesses I/O ports.
//! let mut uart = Uart16550::new_port(0x3f8, ports)?;
//! uart.init(Config::DEFAULT)?;
//! uart.send_bytes_exact(b"hello")?;
//! # Ok(()) }
//! ```
#![no_std]
#![forbid(unsafe_code)]
#![allow(unused_imports, unused_labels, unused_parens, unused_braces, dead_code, clippy::all, clippy::pedantic, reason = "the text is that of the proved source, in the forms that Rattle has")]
#![allow(rustdoc::broken_intra_doc_links)]

#[macro_use(format, format_fields, vec)]
extern crate geesetrunk_kit as std;
extern crate geesetrunk_kit as bitflags;

mod address;
pub mod backend;
mod driver;
pub mod embedded_io;
mod mmio;
mod patience;
mod pio;
mod tty;

pub use driver::{DEFAULT_SPIN_LIMIT, DriverState, Uart16550};
pub use patience::{Patience, WaitEnd, WaitError};
pub use tty::Uart16550Tty;
pub use uart_spec as spec;
pub use uart_spec::{
    AttachError, BaudRate, ByteReceiveError, ByteSendError, Config, ConfigRegisterDump, InitError,
    InvalidAddressError, InvalidDivisorError, LoopbackError, NearestDivisorError,
    NonIntegerBaudRateError, NonIntegerDivisorError, Received, RemoteReadyToReceiveError,
    StalledError, Uart16550TtyError,
};

mod by_hand;

pub mod proved;
