//! Logs of other tools, read as recordings.
//!
//! Only the proved crates say what a recording means. Here the lines of a log are written again as lines of a recording, each in the
//! place of its own: so a finding has the number of the line in the log. One module has one format.

mod address;
mod csv;
mod detect;
mod encoding;
mod fields;
mod json;
mod kvm;
mod numbers;
mod plain;
mod printing;
mod qemu;
mod reader;
mod refusal;
mod sigrok;
mod words;

pub use address::{MOST_STRIDE, Seen, Window};
pub use detect::{Guess, Shown};
pub use encoding::{Encoding, text_in};
pub use json::each_member;
pub use printing::import;
pub use reader::{Imported, Opened, Unopened, open_log};
pub use refusal::{Refusal, Refused};

use std::fmt;

/// A kind of log.
#[derive(Clone, Copy, Debug, PartialEq, Eq)]
pub enum Kind {
    /// The project's own recording, or QEMU's log of `serial_read` and `serial_write`.
    Recording,
    /// QEMU's log of `memory_region_ops_read` and `memory_region_ops_write`.
    Memory,
    /// What KVM's trace events print, through ftrace, trace-cmd or perf.
    Kvm,
    /// Values between commas, below a line of names.
    Csv,
    /// An object of JSON in each line.
    Json,
    /// What `sigrok-cli` prints of a decoder.
    Sigrok,
    /// Words and numbers of a monitor's own.
    Words,
}

impl Kind {
    /// All kinds.
    pub const ALL: [Kind; 7] = [
        Kind::Kvm,
        Kind::Memory,
        Kind::Json,
        Kind::Csv,
        Kind::Recording,
        Kind::Sigrok,
        Kind::Words,
    ];

    /// Returns its name on the command line.
    pub fn name(self) -> &'static str {
        match self {
            Kind::Recording => "recording",
            Kind::Memory => "memory",
            Kind::Kvm => "kvm",
            Kind::Csv => "csv",
            Kind::Json => "json",
            Kind::Sigrok => "sigrok",
            Kind::Words => "words",
        }
    }

    /// Returns whether such a log usually has lines of other devices.
    pub fn has_others(self) -> bool {
        match self {
            Kind::Kvm | Kind::Memory | Kind::Words => true,
            Kind::Recording | Kind::Csv | Kind::Json | Kind::Sigrok => false,
        }
    }

    /// Returns the kind of this name.
    pub fn named(name: &str) -> Option<Self> {
        Kind::ALL.into_iter().find(|kind| kind.name() == name)
    }
}

impl fmt::Display for Kind {
    fn fmt(&self, f: &mut fmt::Formatter<'_>) -> fmt::Result {
        f.write_str(self.name())
    }
}

/// What the command line says about a log.
#[derive(Clone, Copy, Debug, Default, PartialEq, Eq)]
pub struct Import {
    /// Its kind. Without it, it is recognised by its first lines.
    pub kind: Option<Kind>,
    /// The addresses of the chip.
    pub window: Window,
}

/// What writes the lines of one kind of log again.
trait Format {
    /// Writes what a line says as a line of a recording, without its end. A line that says nothing about the chip stays empty.
    ///
    /// # Errors
    ///
    /// Where the line is refused, and why.
    fn rewrite(&mut self, line: &[u8], out: &mut Vec<u8>) -> Result<(), Refusal>;
}
