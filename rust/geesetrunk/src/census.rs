//! A census of a chip: what `docs/HARDWARE.md` says of a 16550A is asked in loopback, so nothing leaves on the line and no cable is needed.
//!
//! What a recording of one says is asked of the recording again: the accesses of a census and their times decide each row, so nobody needs
//! to trust who sends one.

#[cfg(target_os = "linux")]
mod asking;
mod battery;
#[cfg(target_os = "linux")]
mod ports;
mod recorded;
mod rules;
mod told;
#[cfg(target_os = "linux")]
mod users;

#[cfg(target_os = "linux")]
pub use asking::ask;
pub use battery::{Census, Chip, Ended, Noted, Row, Seen, take};
pub use recorded::{Replayed, Stray};
pub use rules::{PREMISES, Premise, RULES, Rule, Unit, Words};

use crate::end::{End, Status};
use crate::heap;
use crate::import::Import;
use crate::log::Log;
use crate::streams::{Output, print, standard_output};
use std::cell::RefCell;
use uart_judges::recording::Recording;

/// How what came of a census is printed.
#[derive(Clone, Copy, Debug, PartialEq, Eq)]
pub enum Told {
    /// As a table.
    Table,
    /// As lines of JSON.
    Json,
}

/// What is asked, and where.
#[derive(Clone, Copy, Debug)]
pub struct Request<'a> {
    /// The first port of the chip.
    pub base: u16,
    /// The file with a byte for each port.
    pub device: &'a str,
    /// The file for rows and recording, if one is wanted.
    pub record: Option<&'a str>,
    /// Whether a port is asked that somebody uses.
    pub is_forced: bool,
}

// Prints what was seen. That a chip differs is a verdict, as a finding is.
fn tell(census: &Census, told: Told) -> Result<(), End> {
    let text = match told {
        Told::Table => census.table(),
        Told::Json => census.json(),
    };
    print(text.as_bytes())?;
    match census.count(Seen::Differs) {
        0 => Ok(()),
        _ => Err(End::told(Status::Refused)),
    }
}

fn strayed(file: &str, log: &Log<'_>, stray: Stray) -> End {
    match stray {
        Stray::Unread(stop) => log.ended(stop),
        Stray::Ends(line) => End::failed(format!(
            "{file}: this is not all of a census: it ends behind line {line}"
        )),
        Stray::Untimed(line) => End::failed(format!(
            "{file}:{line}: the access has no time, or an earlier one than the access before it"
        )),
        Stray::Differs { line, wanted } => {
            let wanted = match wanted {
                Some(wanted) => format!("a census has '{wanted}' here"),
                None => "a census is over here".into(),
            };
            End::failed(format!(
                "{file}:{line}: this is no recording of a census: {wanted}"
            ))
        }
    }
}

/// Makes the rows of a recording of a census anew, and prints what they say.
///
/// # Errors
///
/// How the program ends: the file is no recording of a census, the census did not end, a rule differs, or the output cannot be written.
pub fn judge(file: &str, told: Told) -> Result<(), End> {
    let output = RefCell::new(Output::new(standard_output().map_err(End::unwritten)?));
    let mut log = Log::open(file, "census", &Import::default(), &output)?;
    let taken = Recording::new(heap(), &mut log)
        .map_err(End::from)
        .map(|recording| {
            let mut chip = Replayed::new(recording);
            let census = take(&mut chip)?;
            chip.end().map(|()| census)
        })?;
    let census = taken.map_err(|stray| strayed(file, &log, stray))?;
    log.close();
    match census.ended {
        Ended::Done => tell(&census, told),
        ended => Err(End::failed(format!(
            "{file}: the census ended early: {ended}"
        ))),
    }
}

/// Says that this system shows no ports.
///
/// # Errors
///
/// Always.
#[cfg(not(target_os = "linux"))]
pub fn ask(_: &Request<'_>, _: Told) -> Result<(), End> {
    Err(End::failed(
        "ports are asked on Linux alone: elsewhere the image for a PC of examples/census does it",
    ))
}
