//! A recording of a census: how one is written, and a chip that answers as one says.

use super::battery::{Chip, Noted};
use crate::judging::Stop;
use std::fmt;
use std::io::Read;
use uart_judges::recording::{Entry, Happening, Recording};
use uart_spec::access::Access;

/// Writes an access as the lines of a recording that say it.
impl fmt::Display for Noted {
    fn fmt(&self, f: &mut fmt::Formatter<'_>) -> fmt::Result {
        let (kind, offset, value) = match self.access {
            Access::Read(offset, value) => ('r', offset, value),
            Access::Write(offset, value) => ('w', offset, value),
        };
        writeln!(f, "{kind} {offset} {value:02x} 2 @{}", self.time)?;
        match self.more {
            0 => Ok(()),
            more => writeln!(f, "x {more}"),
        }
    }
}

/// Why a recording is none of a census.
#[derive(Debug)]
pub enum Stray {
    /// It cannot be read to its end.
    Unread(Stop),
    /// It ends before the census does, behind this line.
    Ends(u64),
    /// A line says no time, or is behind a later one.
    Untimed(u64),
    /// A line has something else than what the census would do.
    Differs {
        /// The line.
        line: u64,
        /// What the census would do there, or `None` if it was over.
        wanted: Option<String>,
    },
}

/// A chip that answers as a recording says.
pub struct Replayed<R> {
    recording: Recording<R>,
    // What comes next. Of repeats those that are left.
    next: Option<Entry>,
    last_time: Option<u64>,
    last_line: u64,
}

impl<R: Read> Replayed<R> {
    /// Returns the chip of this recording.
    pub fn new(recording: Recording<R>) -> Self {
        Replayed {
            recording,
            next: None,
            last_time: None,
            last_line: 0,
        }
    }

    // Returns what comes next, if anything does.
    fn peek(&mut self) -> Result<Option<Entry>, Stray> {
        while self.next.is_none() {
            let read = self.recording.next_entry();
            let Some(entry) = read.map_err(|cause| Stray::Unread(cause.into()))? else {
                return Ok(None);
            };
            self.last_line = entry.line;
            self.next = Some(entry).filter(|entry| entry.times > 0);
        }
        Ok(self.next)
    }

    // Takes what comes next, if the census would do that too.
    fn take(&mut self, is_wanted: impl Fn(Access) -> bool, wanted: &str) -> Result<Access, Stray> {
        let entry = self.peek()?.ok_or(Stray::Ends(self.last_line))?;
        match entry.happening {
            Happening::Access(access) if is_wanted(access) => {
                let times = entry.times - 1;
                self.next = (times > 0).then_some(Entry { times, ..entry });
                Ok(access)
            }
            _ => Err(Stray::Differs {
                line: entry.line,
                wanted: Some(wanted.into()),
            }),
        }
    }

    /// Ends the reading.
    ///
    /// # Errors
    ///
    /// Something is left.
    pub fn end(mut self) -> Result<(), Stray> {
        match self.peek()? {
            None => Ok(()),
            Some(entry) => Err(Stray::Differs {
                line: entry.line,
                wanted: None,
            }),
        }
    }
}

impl<R: Read> Chip for Replayed<R> {
    type Fault = Stray;

    fn read(&mut self, offset: usize) -> Result<u8, Stray> {
        let is_wanted = |access| matches!(access, Access::Read(of, _) if of == offset);
        match self.take(is_wanted, &format!("r {offset}"))? {
            Access::Read(_, value) | Access::Write(_, value) => Ok(value),
        }
    }

    fn write(&mut self, offset: usize, value: u8) -> Result<(), Stray> {
        let is_wanted = |access| access == Access::Write(offset, value);
        self.take(is_wanted, &format!("w {offset} {value:02x}"))?;
        Ok(())
    }

    // A wait without an access ended when the next access was made, so the time of that is what the clock showed. A line of repeats says
    // none, and needs none: no read of it ended a wait.
    fn now(&mut self) -> Result<u64, Stray> {
        let entry = self.peek()?.ok_or(Stray::Ends(self.last_line))?;
        match (entry.time, self.last_time) {
            (Some(time), last) if last.is_none_or(|last| time >= last) => {
                self.last_time = Some(time);
                Ok(time)
            }
            (None, Some(last)) => Ok(last),
            _ => Err(Stray::Untimed(entry.line)),
        }
    }
}
