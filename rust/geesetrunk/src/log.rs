//! A log that a command reads as a recording, and how the program ends if it cannot be read to its end.

use crate::end::End;
use crate::import::{Import, Kind, Opened, Refused, Unopened, open_log};
use crate::judging::Stop;
use crate::refused_line::refused_line;
use crate::streams::{Output, Watched};
use crate::terminal::Style;
use crate::text::counted;
use std::cell::RefCell;
use std::io::{self, Read, Write};
use uart_judges::recording::RecordingError;
use uart_judges::recording::limits::MOST_LINE_BYTES;

// How much of what was read last is kept: whoever reads a line has at most one of the longest lines ahead of it.
const KEPT: usize = 2 * (MOST_LINE_BYTES + 1);

// What was read last, to show a line of it.
#[derive(Debug, Default)]
struct Tail {
    bytes: Vec<u8>,
    // How many lines have ended in all.
    ended: u64,
}

impl Tail {
    fn push(&mut self, bytes: &[u8]) {
        self.ended += ends_in(bytes);
        let surplus = (self.bytes.len() + bytes.len()).saturating_sub(KEPT);
        if surplus >= self.bytes.len() {
            self.bytes.clear();
            self.bytes
                .extend_from_slice(&bytes[bytes.len().saturating_sub(KEPT)..]);
        } else {
            self.bytes.drain(..surplus);
            self.bytes.extend_from_slice(bytes);
        }
    }

    // Returns the line with this number, as far as it is kept.
    fn line(&self, number: u64) -> Option<&[u8]> {
        // The last line has no end so far.
        let back = usize::try_from((self.ended + 1).checked_sub(number)?).ok()?;
        self.bytes.rsplit(|&byte| byte == b'\n').nth(back)
    }
}

// Returns how many lines end in these bytes. Of so few bytes at a time a byte can hold the count: so many are counted at once.
pub(crate) fn ends_in(bytes: &[u8]) -> u64 {
    const AT_ONCE: usize = 128;
    let ends = |part: &[u8]| part.iter().map(|&byte| u8::from(byte == b'\n')).sum::<u8>();
    bytes
        .chunks(AT_ONCE)
        .map(|part| u64::from(ends(part)))
        .sum()
}

/// A log that is read as a recording.
pub struct Log<'a> {
    file: &'a str,
    opened: Opened<'a>,
    tail: Tail,
}

impl<'a> Log<'a> {
    /// Opens a log of any kind, whose progress is shown behind this word.
    ///
    /// # Errors
    ///
    /// How a program ends that cannot read it.
    pub fn open<W: Write>(
        file: &'a str,
        word: &str,
        import: &Import,
        output: &'a RefCell<Output<W>>,
    ) -> Result<Self, End> {
        let reader = Watched::open(file, word, output).map_err(|cause| End::unread(file, cause))?;
        Log::over(file, reader, import)
    }

    /// Opens a log of any kind that this reader has. The name of its file is only a name here.
    ///
    /// # Errors
    ///
    /// How a program ends that cannot read it.
    pub fn over(file: &'a str, reader: impl Read + 'a, import: &Import) -> Result<Self, End> {
        Ok(Log {
            file,
            opened: open_log(reader, import).map_err(|cause| unopened(file, cause))?,
            tail: Tail::default(),
        })
    }

    /// Returns its kind.
    pub fn kind(&self) -> Kind {
        self.opened.kind
    }

    /// Returns what a log of another kind was read as, for people, or `None` for a recording.
    pub fn read_as(&self) -> Option<String> {
        let kind = self.kind();
        if kind == Kind::Recording {
            return None;
        }
        let seen = self.opened.seen.borrow();
        let guess = self.opened.guess.map_or(String::new(), |guess| {
            format!(" (a guess, by {guess}; --format says it)")
        });
        let of_chip = counted(seen.of_chip, "line");
        let left_out = match seen.left_out {
            count @ 1.. if kind.has_others() => format!(", {count} left out"),
            _ => String::new(),
        };
        Some(format!(
            "read as {kind}{guess}, with {of_chip} of the chip{left_out}"
        ))
    }

    /// Ends the reading. If the kind is only a guess, a line on standard error says so: what was printed has no place for it.
    pub fn close(self) {
        if let (Some(_), Some(read_as)) = (self.opened.guess, self.read_as()) {
            // If standard error cannot be written, nobody is there to be told.
            let _ = writeln!(io::stderr(), "{}: {read_as}", self.file);
        }
    }

    /// Returns how a program ends that could not read it to its end.
    pub fn ended(&self, stop: Stop) -> End {
        let file = self.file;
        let style = Style::of(&io::stderr());
        match stop {
            Stop::Recording(RecordingError::Faulty { line, fault }) => {
                let shown = self.tail.line(line).unwrap_or_default();
                End::failed(refused_line(line, shown, fault).text(file, style))
            }
            Stop::Recording(RecordingError::Unread(cause)) => {
                match cause.get_ref().and_then(|cause| cause.downcast_ref()) {
                    Some(refused @ Refused { .. }) => End::failed(refused.text(file, style)),
                    None => End::unread(file, cause),
                }
            }
            Stop::NoAccess => {
                let others = self.opened.seen.borrow().others();
                End::failed(format!(
                    "{file}: no line of it is an access of a driver, so nothing was judged{others}"
                ))
            }
            Stop::NoLine { line, lines } => {
                let lines = counted(lines, "line");
                End::failed(format!("{file} has {lines}: line {line} is behind its end"))
            }
            Stop::Output(cause) => End::unwritten(cause),
            Stop::OutOfMemory => End::out_of_memory(),
        }
    }
}

// Returns how a program ends that cannot open a log.
fn unopened(file: &str, cause: Unopened) -> End {
    match cause {
        Unopened::Unread(cause) => End::unread(file, cause),
        Unopened::Encoded(encoding) => End::encoded(file, encoding),
        Unopened::Unsure(guess) => End::failed(format!(
            "{file}: {guess} are accesses in words, which is too few for a guess. Say by --format what it is, as --format words"
        )),
    }
}

impl Read for Log<'_> {
    fn read(&mut self, slots: &mut [u8]) -> io::Result<usize> {
        let count = self.opened.reader.read(slots)?;
        self.tail.push(&slots[..count]);
        Ok(count)
    }
}

#[cfg(test)]
mod tests {
    use super::*;

    #[test]
    fn the_lines_that_were_read_last_are_kept() {
        let mut tail = Tail::default();
        tail.push(b"one\ntwo\nth");
        assert_eq!(tail.line(1), Some(&b"one"[..]));
        assert_eq!(tail.line(3), Some(&b"th"[..]));
        assert_eq!(tail.line(4), None);
        tail.push(b"ree\n");
        assert_eq!(tail.line(3), Some(&b"three"[..]));
        for _ in 0..10 {
            tail.push(&[b'x'; KEPT]);
        }
        tail.push(b"\nlast");
        assert_eq!(tail.line(5), Some(&b"last"[..]));
        assert_eq!(tail.line(1), None);
    }
}
