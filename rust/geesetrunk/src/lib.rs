//! What the programs `geesetrunk`, `uart_script` and `uart_port` are made of.
//!
//! What is promised comes from the proved crates: how scripts are read and played, and the judges of
//! traces and recordings. Here is what people look at: tables, pictures, faults explained, command
//! lines, and how the programs end.
// Of `closed` alone it is allowed.
#![deny(unsafe_code)]
#![deny(missing_docs)]

pub mod accepted;
pub mod boxes;
pub mod budget;
pub mod census;
pub mod closed;
pub mod command_line;
pub mod commands;
pub mod end;
pub mod excerpt;
pub mod explain;
pub mod fault;
pub mod findings;
pub mod grammar;
pub mod has;
pub mod hints;
pub mod history;
pub mod import;
pub mod json;
pub mod judging;
pub mod kinds;
pub mod known;
pub mod lateness;
pub mod link;
pub mod log;
pub mod meaning;
pub mod moments;
pub mod near;
pub mod observing;
pub mod options;
pub mod page;
pub mod picture;
pub mod piece;
pub mod port;
pub mod refused_line;
pub mod refused_trace;
pub mod repeats;
pub mod resets;
pub mod ring_language;
pub mod rings;
pub mod sarif;
pub mod script;
pub mod show;
pub mod stats;
pub mod streams;
pub mod table;
pub mod terminal;
pub mod text;
pub mod trace;
pub mod visits;

use geesetrunk_kit::alloc::Global;

/// Returns the allocator of the program, which the proved crates are given.
#[must_use]
pub const fn heap() -> Global {
    Global::heap()
}
