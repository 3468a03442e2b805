//! Plays the calls of a script on a real chip.

use super::file::DeviceFile;
use super::lines::{call_lines, event_line};
use crate::end::{End, Status};
use crate::heap;
use std::fs::File;
use std::io::{self, ErrorKind, Write};
use uart_language::{Script, ScriptError, parse};
use uart_port::{NotedPorts, Report, ReportError, Trace, terminal_at};

/// What is played, and where.
#[derive(Clone, Copy, Debug)]
pub struct Run<'a> {
    /// The first port of the chip.
    pub base: u16,
    /// The file of ports.
    pub device: &'a str,
    /// The file for the trace, if one is requested.
    pub trace: Option<&'a str>,
    /// The bytes of the script.
    pub text: &'a [u8],
}

fn untraced(cause: io::Error) -> End {
    End::failed(format!("the trace cannot be written: {cause}"))
}

// Returns how the program ends that cannot open the file of ports.
pub(crate) fn unopened(cause: io::Error) -> End {
    match cause.kind() {
        ErrorKind::PermissionDenied => End::new(
            Status::NoPermission,
            format!(
                "no permission to open the device: {cause}; \
                 you need root, and a kernel that is not locked down"
            ),
        ),
        _ => End::failed(format!("the device cannot be opened: {cause}")),
    }
}

// Returns how the program ends that could not play the calls to their end, though no port failed.
fn unplayed(error: ReportError) -> End {
    match error {
        ReportError::Trace(cause) => untraced(cause),
        ReportError::Output(cause) => End::unwritten(cause),
        ReportError::OutOfMemory => End::out_of_memory(),
    }
}

// Returns the script that a text is, if it has no event.
fn script_in(text: &[u8]) -> Result<Script, End> {
    let script = parse(heap(), text).map_err(|error| match error {
        ScriptError::Refused { .. } => End::new(Status::Refused, error.to_string()),
        ScriptError::OutOfMemory => End::out_of_memory(),
    })?;
    match event_line(text) {
        Some(line) => {
            let cause = format!("line {line}: events cannot be played on a real chip");
            Err(End::new(Status::Refused, cause))
        }
        None => Ok(script),
    }
}

/// Makes the calls of a script in turn on the chip at a port, and prints each answer when the call
/// has returned, up to the first fault.
///
/// # Errors
///
/// How the program ends: the script is refused, a file or a port fails, or the output cannot be
/// written. No call is made after that.
pub fn play(run: &Run<'_>, out: &mut impl Write) -> Result<(), End> {
    let script = script_in(run.text)?;
    let (limit, fifo_size) = (script.limit(), script.driver_fifo_size());
    let device = DeviceFile::open(run.device).map_err(unopened)?;
    let file = run.trace.map(File::create).transpose().map_err(untraced)?;
    let trace = file.as_ref().map(Trace::new);
    if let Some(mut trace) = trace {
        trace.begin(limit, fifo_size).map_err(untraced)?;
    }
    let ports = NotedPorts::new(device, run.base, trace);
    let mut terminal = terminal_at(run.base, limit, fifo_size, ports);
    let lines: Vec<&[u8]> = call_lines(run.text).collect();
    let mut report = Report::new(heap(), out, trace);
    uart_port::play(&mut terminal, script.calls(), &lines, &mut report).map_err(unplayed)?;
    match terminal.inner().backend().access().fault() {
        Some(fault) => Err(End::failed(format!(
            "port {:x}: {}",
            fault.port, fault.cause
        ))),
        None => Ok(()),
    }
}
