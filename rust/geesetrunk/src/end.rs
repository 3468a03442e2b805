//! How a program ends.

use crate::import::Encoding;
use geesetrunk_kit::alloc::AllocError;
use std::fmt;
use std::io::{self, ErrorKind, Write};
use std::process::ExitCode;

/// How a program ends that does not do what was requested. The worst is the last.
// One table for all programs: 1 is a verdict on what was read, and 2 that there is none. So a wrong
// command line is 2 everywhere. No permission has a status of its own, since its remedy is another.
#[derive(Clone, Copy, Debug, PartialEq, Eq, PartialOrd, Ord)]
pub enum Status {
    /// What was read is refused, or something was found in it.
    Refused,
    /// The command line is wrong; or a file, a port or an output failed; or what was read is no
    /// trace, or no recording.
    Failed,
    /// Memory could not be allocated.
    OutOfMemory,
    /// There is no permission to open a device.
    NoPermission,
    /// Somebody uses the port.
    InUse,
    /// The reader of standard output is gone.
    BrokenPipe,
}

/// The exit statuses, as the help of each program shows them.
pub const STATUSES: &str = "\
Exit status of each program:
  0  done
  1  the script is refused, the trace strays, something was found in the
     recording, or no handler is in time: a line says where, or why
  2  the command line is wrong, a file or a port failed, an output cannot be
     written, or what was read is no trace or no recording
  3  out of memory
  4  no permission to open the device of ports
  5  the port is in use";

impl Status {
    /// Returns the exit status.
    pub fn number(self) -> u8 {
        match self {
            Status::Refused => 1,
            Status::Failed => 2,
            Status::OutOfMemory => 3,
            Status::NoPermission => 4,
            Status::InUse => 5,
            // What a shell shows of a program that the signal SIGPIPE has ended: 128, and the number
            // of the signal. The standard library ignores that signal, and writes fail instead.
            Status::BrokenPipe => 128 + 13,
        }
    }
}

/// How a program ends that does not do what was requested, and the line that says why, if it is not
/// printed yet.
#[derive(Debug, PartialEq, Eq)]
pub struct End {
    status: Status,
    line: Option<String>,
}

impl End {
    /// Returns an end whose cause is printed already, or that nobody wants to know more about.
    pub fn told(status: Status) -> Self {
        End { status, line: None }
    }

    /// Returns an end with the line that says why.
    pub fn new(status: Status, line: impl Into<String>) -> Self {
        End {
            status,
            line: Some(line.into()),
        }
    }

    /// Returns the end of a program for which something failed, with the line that says what.
    pub fn failed(line: impl Into<String>) -> Self {
        End::new(Status::Failed, line)
    }

    /// Returns the end of a program that is out of memory.
    pub fn out_of_memory() -> Self {
        End::new(Status::OutOfMemory, "out of memory")
    }

    /// Returns the end of a program that cannot write standard output. That the reader is gone is no
    /// news for anyone who is left.
    // Any other failed write is a failure, even one of the help: whoever called the program would
    // take an output that was cut off for the whole.
    pub fn unwritten(cause: io::Error) -> Self {
        match cause.kind() {
            ErrorKind::BrokenPipe => End::told(Status::BrokenPipe),
            _ => End::failed(format!("standard output cannot be written: {cause}")),
        }
    }

    /// Returns the end of a program that cannot read this file.
    pub fn unread(file: impl fmt::Display, cause: io::Error) -> Self {
        match cause.kind() {
            ErrorKind::OutOfMemory => End::out_of_memory(),
            _ => End::failed(format!("{file} cannot be read: {cause}")),
        }
    }

    /// Returns the end of a program that reads text, for a file that is none.
    pub fn encoded(file: impl fmt::Display, encoding: Encoding) -> Self {
        End::failed(format!("{file}: {encoding}"))
    }

    /// Returns how the program ends.
    pub fn status(&self) -> Status {
        self.status
    }

    /// Returns the line that says why, if it is not printed yet.
    pub fn line(&self) -> Option<&str> {
        self.line.as_deref()
    }

    /// Prints why the program ends, as a line on standard error, and returns how it ends.
    ///
    /// If standard error cannot be written, nothing is printed, and the exit status says what
    /// happened.
    pub fn report(self) -> Status {
        if let Some(line) = self.line {
            let _ = writeln!(io::stderr(), "{line}");
        }
        self.status
    }
}

impl From<AllocError> for End {
    fn from(_: AllocError) -> Self {
        End::out_of_memory()
    }
}

/// Prints why a program ends, if it did not do what was requested, and returns the exit code.
pub fn ended(outcome: Result<(), End>) -> ExitCode {
    match outcome {
        Ok(()) => ExitCode::SUCCESS,
        Err(end) => ExitCode::from(end.report().number()),
    }
}

#[cfg(test)]
mod tests {
    use super::*;

    #[test]
    fn each_end_has_its_status_and_line() {
        let no_space = io::Error::from_raw_os_error(28);
        let gone = io::Error::from(ErrorKind::BrokenPipe);
        let no_memory = io::Error::from(ErrorKind::OutOfMemory);
        let rows = [
            (End::told(Status::Refused), 1, None),
            (
                End::unwritten(no_space),
                2,
                Some("standard output cannot be written: No space left on device (os error 28)"),
            ),
            (End::unwritten(gone), 141, None),
            (End::unread("a", no_memory), 3, Some("out of memory")),
            (End::new(Status::NoPermission, "no"), 4, Some("no")),
        ];
        for (end, number, line) in rows {
            assert_eq!((end.status().number(), end.line()), (number, line));
        }
    }
}
