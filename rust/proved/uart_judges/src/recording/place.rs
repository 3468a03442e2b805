//! How far a recording is read, and what its next line says there.

use crate::recording::cause::RecordingFault;
use crate::recording::entry::{Entry, Happening};
use crate::recording::lines::{RecordingLine, line_in};
use uart_spec::access::Access;

/// How far a recording is read.
#[derive(Clone, Copy, Debug, PartialEq, Eq)]
pub struct Place {
    /// The number of lines that were read.
    pub number: u64,
    /// What happened last.
    pub last: Option<Entry>,
}

// Returns a read so many times more, at the line with this number, or `None` if what happened is no
// read. A repeat says nothing about time and level.
fn repeated(entry: Entry, line: u64, times: u64) -> Option<Entry> {
    match entry.happening {
        Happening::Access(Access::Read(_, _)) => Some(Entry {
            times,
            line,
            time: None,
            interrupt: None,
            ..entry
        }),
        _ => None,
    }
}

impl Place {
    /// Returns the place before the first line.
    #[must_use]
    pub fn new() -> Self {
        Place {
            number: 0,
            last: None,
        }
    }

    /// Reads the next line. Returns what happened there, if something did: a line that repeats a
    /// read is that read, so many times.
    ///
    /// # Errors
    ///
    /// What is wrong with the line. It is counted.
    pub fn read(&mut self, line: &[u8]) -> Result<Option<Entry>, RecordingFault> {
        self.number += 1;
        match line_in(self.number, line)? {
            RecordingLine::Blank => Ok(None),
            RecordingLine::Entry(entry) => {
                self.last = Some(entry);
                Ok(Some(entry))
            }
            RecordingLine::Again(times) => {
                let number = self.number;
                let again = self.last.and_then(|entry| repeated(entry, number, times));
                let entry = again.ok_or(RecordingFault::NoReadBefore)?;
                self.last = Some(entry);
                Ok(Some(entry))
            }
        }
    }
}
