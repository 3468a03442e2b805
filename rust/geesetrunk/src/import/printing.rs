//! Prints a log as a recording.

use super::{Import, Kind};
use crate::end::End;
use crate::judging::{Stop, each_entry};
use crate::log::Log;
use crate::resets::Next;
use crate::streams::{Output, standard_output};
use std::cell::RefCell;
use std::io::Write;

/// Prints the log of this name as a recording, without the lines that say nothing about the chip. What the judges refuse is refused here
/// too: each line that is printed was read as they read it.
///
/// # Errors
///
/// How the program ends: a line is refused, no line is of the chip, or the output cannot be written.
pub fn import(file: &str, import: &Import) -> Result<(), End> {
    let output = RefCell::new(Output::new(standard_output().map_err(End::unwritten)?));
    let mut log = Log::open(file, "import", import, &output)?;
    let kind = log.kind();
    let mut head = (kind != Kind::Recording).then(|| format!("# {file}, read as {kind}\n"));
    let outcome = each_entry(&mut log, |next| {
        let head = head.take().unwrap_or_default();
        let mut output = output.borrow_mut();
        let written = match next {
            Next::Entry(entry) => writeln!(output, "{head}{entry}"),
            Next::Reset(_) => writeln!(output, "{head}z"),
        };
        written.map_err(Stop::Output)
    });
    let outcome = outcome.map_err(|stop| log.ended(stop));
    log.close();
    output.into_inner().finish().map_err(End::unwritten)?;
    outcome.map(|_| ())
}
