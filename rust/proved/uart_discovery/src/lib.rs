//! Where a serial port is and how it is set up, from the bytes by which firmware and boot loaders
//! say it.
//!
//! Each function takes bytes and returns a [`PortDescription`], or what is wrong with the bytes. It
//! returns for any bytes, allocates nothing, and does not call itself.
#![no_std]
#![forbid(unsafe_code)]
#![allow(unused_imports, unused_labels, unused_parens, unused_braces, dead_code, clippy::all, clippy::pedantic, reason = "the text is that of the proved source, in the forms that Rattle has")]
#![allow(rustdoc::broken_intra_doc_links)]

#[macro_use(format, format_fields, vec)]
extern crate geesetrunk_kit as std;
extern crate geesetrunk_kit as bitflags;

mod acpi;
mod bytes;
mod command_line;
mod errors;
mod numbers;
mod pci;
mod port;
mod tree;

pub use acpi::dbg2::read_dbg2;
pub use acpi::spcr::read_spcr;
pub use command_line::{read_console, read_earlycon};
pub use errors::{OptionError, PciError, TableError, TableFault, TreeError};
pub use pci::read_pci;
pub use port::{AddressSpace, Frame, Interrupt, PortDescription};
pub use tree::console::{read_device_tree, read_tree_node};
pub use tree::ports::{TreePort, read_tree_port};

mod by_hand;

pub mod proved;
