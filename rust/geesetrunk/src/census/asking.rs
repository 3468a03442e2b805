//! The census of a port of this machine.

use super::battery::{Census, Ended, take};
use super::ports::PortChip;
use super::users::why_in_use;
use super::{Request, Told, tell};
use crate::end::{End, Status};
use crate::port::{DeviceFile, unopened};
use std::fs::File;
use std::io::Write;

// Returns how the program ends for a census that did not end, where the port was left.
fn ended_early(base: u16, ended: Ended) -> End {
    let after = match ended {
        Ended::Nobody => "nothing was written",
        Ended::InUse => "its divisor latch is open, or it is sending; nothing is changed",
        Ended::NoLoopback | Ended::Stalled | Ended::NoClock => "the chip is as it was",
        Ended::Gone => "the chip may not be as it was",
        Ended::Done => "",
    };
    let status = match ended {
        Ended::InUse => Status::InUse,
        _ => Status::Failed,
    };
    End::new(status, format!("port {base:x}: {ended}; {after}"))
}

fn unrecorded(file: &str, cause: impl std::fmt::Display) -> End {
    End::failed(format!("{file} cannot be written: {cause}"))
}

// Writes rows and recording.
fn keep(census: &Census, record: Option<(&str, File)>) -> Result<(), End> {
    match record {
        Some((name, mut file)) => file
            .write_all(census.file().as_bytes())
            .map_err(|cause| unrecorded(name, cause)),
        None => Ok(()),
    }
}

/// Asks the chip at a port of this machine, and prints what was seen.
///
/// # Errors
///
/// How the program ends: the port is in use, the device cannot be opened or fails, nobody is there, a rule differs, or an output cannot be
/// written.
pub fn ask(request: &Request<'_>, told: Told) -> Result<(), End> {
    let base = request.base;
    let in_use = |why: &str| End::new(Status::InUse, format!("port {base:x} is in use: {why}"));
    let users = || why_in_use(base).filter(|_| !request.is_forced);
    if let Some(why) = users() {
        return Err(in_use(&format!("{why}; nothing was accessed")));
    }
    let device = DeviceFile::open(request.device).map_err(unopened)?;
    // Before the first access, so that nothing is asked whose answer cannot be kept.
    let record = request
        .record
        .map(|name| {
            let file = File::create(name).map_err(|cause| unrecorded(name, cause));
            file.map(|file| (name, file))
        })
        .transpose()?;
    let mut chip = PortChip::new(device, base);
    let failed = |cause| {
        End::failed(format!(
            "port {base:x}: an access failed, and the chip may not be as it was: {cause}"
        ))
    };
    if !request.is_forced && chip.is_served().map_err(failed)? {
        return Err(in_use("its interrupts are enabled; nothing was written"));
    }
    let census = take(&mut chip).map_err(failed)?;
    // Opening the port for itself would have the kernel's driver serve its interrupts meanwhile, so nothing holds others off.
    if let Some(why) = users() {
        return Err(in_use(&format!(
            "meanwhile {why}; what was seen counts for nothing"
        )));
    }
    keep(&census, record)?;
    match census.ended {
        Ended::Done => tell(&census, told),
        ended => Err(ended_early(base, ended)),
    }
}
