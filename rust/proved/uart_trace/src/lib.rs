//! The accesses of a script, call by call: told while it runs, and written as the lines of a trace.
//!
//! [`tell`] runs a script and tells a [`Listener`] of each access. [`trace`] is such a run, in
//! which each line of the trace is written as soon as its access is made.
//!
//! Nothing keeps a list of the accesses, so the memory that is used does not depend on how many
//! there are. A `flush` at the largest limit polls a million times, and a script of one kilobyte
//! may make a hundred of them. A list with repeated polls as one and a count would be short for
//! these, but not for a wait that checks CTS, which repeats three accesses.
#![no_std]
#![forbid(unsafe_code)]
#![allow(unused_imports, unused_labels, unused_parens, unused_braces, dead_code, clippy::all, clippy::pedantic, reason = "the text is that of the proved source, in the forms that Rattle has")]
#![allow(rustdoc::broken_intra_doc_links)]

const _: () = assert!(usize::BITS >= 32, "a script has up to 65,536 bytes");

#[macro_use(format, format_fields, vec)]
extern crate geesetrunk_kit as std;

mod comments;
mod lines;
mod listener;
mod recorder;
mod remarks;
mod run;
mod text;
mod tracing;

pub use comments::{MOST_READ, plain, without_comments};
pub use listener::Listener;
pub use remarks::Remarks;
pub use run::tell;
pub use text::{line_at, printable};
pub use tracing::trace;
