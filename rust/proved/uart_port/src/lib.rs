//! The calls of a script over I/O ports that may fail, as those of Linux's file of ports.
#![no_std]
#![forbid(unsafe_code)]
#![allow(unused_imports, unused_labels, unused_parens, unused_braces, dead_code, clippy::all, clippy::pedantic, reason = "the text is that of the proved source, in the forms that Rattle has")]
#![allow(rustdoc::broken_intra_doc_links)]

const _: () = assert!(usize::BITS >= 32, "a script has up to 65,536 bytes");

#[macro_use(format, format_fields, vec)]
extern crate geesetrunk_kit as std;

mod noted;
mod playing;
mod ports;
mod report_error;
mod trace;

pub use noted::NotedPorts;
pub use playing::{Report, Terminal, play, terminal_at};
pub use ports::{FLOATING, GuardedPorts, PortFault, PortFile};
pub use report_error::ReportError;
pub use trace::Trace;
