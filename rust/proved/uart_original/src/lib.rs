//! What the interface of the original crate has otherwise than the driver: its waits end when the
//! device lets them, so none of its errors is a stall.
#![no_std]
#![forbid(unsafe_code)]
#![allow(unused_imports, unused_labels, unused_parens, unused_braces, dead_code, clippy::all, clippy::pedantic, reason = "the text is that of the proved source, in the forms that Rattle has")]
#![allow(rustdoc::broken_intra_doc_links)]

#[macro_use(format, format_fields, vec)]
extern crate geesetrunk_kit as std;

mod driver;
mod dump;
mod errors;

pub use dump::ConfigRegisterDump;
pub use errors::{
    InitError, InvalidDivisorError, LoopbackError, Uart16550TtyError, init_error_of,
    loopback_error_of,
};

mod by_hand;

pub mod proved;
