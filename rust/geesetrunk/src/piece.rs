//! A piece of a recording: where it begins, and whether one process made it.
//!
//! A recording is cut anywhere, so its first lines may repeat a read that is not in it. And a log of QEMU may have the lines of two
//! processes, whose chips are two.

use geesetrunk_kit::ArrayVec;
use std::error::Error;
use std::fmt;
use std::io::{self, BufRead, ErrorKind, Read};
use uart_judges::recording::{RecordingLine, line_in};

// The most bytes of a line that is looked at: one that repeats a read, and an access in a log, are much shorter. They are kept without
// other memory, which could be refused.
const LONGEST: usize = 512;

// The most digits of a process.
const LONGEST_PROCESS: usize = 20;

// What is behind the process.
const MARK: u8 = b'@';

/// An access of another process than the first one's.
#[derive(Clone, Debug, PartialEq, Eq)]
pub struct TwoProcesses {
    /// The number of its line, counted from 1.
    pub line: u64,
    /// The process of the accesses before it.
    pub first: String,
    /// The process of this one.
    pub other: String,
}

impl fmt::Display for TwoProcesses {
    fn fmt(&self, f: &mut fmt::Formatter<'_>) -> fmt::Result {
        let TwoProcesses { line, first, other } = self;
        write!(
            f,
            "line {line} is an access of process {other}, and those before are of process {first}. Judge each chip by \
             itself: the lines of the first begin with {first}@"
        )
    }
}

impl Error for TwoProcesses {}

/// Reads a piece of a recording, for who takes it for a whole one.
///
/// First lines that repeat a read are read as comments: what was read is not in the piece, so nothing is said about it, and the numbers of
/// lines stay.
///
/// It is an error, with [`TwoProcesses`] as its source, if a second process makes an access: two chips would be judged as one.
#[derive(Debug)]
pub struct Piece<R> {
    reader: R,
    // A first line, and how much of it was given. Behind these lines there is none.
    first: ArrayVec<u8, LONGEST>,
    given: usize,
    is_at_first: bool,
    processes: Processes,
}

impl<R: Read> Piece<R> {
    /// Returns the piece that this reader has.
    pub fn new(reader: R) -> Self {
        Piece {
            reader,
            first: ArrayVec::new(),
            given: 0,
            is_at_first: true,
            processes: Processes::default(),
        }
    }

    // Goes on to the next first line, if there is one more. It is read byte by byte, so that no byte behind it is kept here.
    fn next_first(&mut self) -> io::Result<()> {
        self.first = ArrayVec::new();
        self.given = 0;
        let mut slot = [0];
        while !self.first.is_full() && self.reader.read(&mut slot)? == 1 {
            self.first.push(slot[0]);
            if slot == *b"\n" {
                break;
            }
        }
        let line = self.first.strip_suffix(b"\n").unwrap_or(&self.first);
        match line_in(1, line) {
            Ok(RecordingLine::Again(_)) => self.first = as_comment(&self.first),
            Ok(RecordingLine::Blank) if !self.first.is_empty() && !self.first.is_full() => {}
            _ => {
                self.is_at_first = false;
                // A log has the process in each line, or in none: then no byte of it is looked at for that.
                self.processes.is_in_log = line.first().is_some_and(u8::is_ascii_digit);
            }
        }
        Ok(())
    }
}

// Returns a line as a comment of the same length.
fn as_comment(line: &[u8]) -> ArrayVec<u8, LONGEST> {
    let mut comment = ArrayVec::new();
    comment.push(b'#');
    line.iter().skip(1).for_each(|byte| comment.push(*byte));
    comment
}

impl<R: Read> Read for Piece<R> {
    fn read(&mut self, slots: &mut [u8]) -> io::Result<usize> {
        if self.is_at_first && self.given == self.first.len() {
            self.next_first()?;
        }
        let mut rest = self.first.get(self.given..).unwrap_or_default();
        let count = if rest.is_empty() {
            self.reader.read(slots)?
        } else {
            rest.read(slots)?
        };
        self.given = self.first.len().min(self.given + count);
        self.processes.look_at(&slots[..count]);
        match self.processes.found.take() {
            Some(found) => Err(io::Error::new(ErrorKind::InvalidData, found)),
            None => Ok(count),
        }
    }
}

/// Whether the accesses of a log are those of one process: QEMU writes the process in front of a line, as in
/// `13@17.000125:serial_read`.
#[derive(Debug)]
struct Processes {
    // Whether lines may begin with a process.
    is_in_log: bool,
    // The number of the line, and what is there of its beginning: the digits of a process, if it begins so.
    line: u64,
    digits: ArrayVec<u8, LONGEST_PROCESS>,
    is_at_digits: bool,
    // A line of another process, up to its end: it counts if it is an access. One that is too long is none.
    whole: Option<ArrayVec<u8, LONGEST>>,
    first: Option<ArrayVec<u8, LONGEST_PROCESS>>,
    found: Option<TwoProcesses>,
}

impl Default for Processes {
    fn default() -> Self {
        Processes {
            is_in_log: true,
            line: 1,
            digits: ArrayVec::new(),
            is_at_digits: true,
            whole: None,
            first: None,
            found: None,
        }
    }
}

impl Processes {
    fn look_at(&mut self, mut bytes: &[u8]) {
        if !self.is_in_log {
            return;
        }
        while let (Some(&byte), None) = (bytes.first(), &self.found) {
            if self.is_at_digits {
                bytes = self.begin(byte, bytes);
                continue;
            }
            let line = bytes;
            // This finds the end of a line much faster than a look at each byte.
            let _count = bytes.skip_until(b'\n');
            let here = &line[..line.len() - bytes.len()];
            let text = here.strip_suffix(b"\n");
            if let Some(whole) = &mut self.whole
                && whole.try_extend_from_slice(text.unwrap_or(here)).is_err()
            {
                self.whole = None;
            }
            if text.is_some() {
                self.end_line();
            }
        }
    }

    // Takes the process at the beginning of a line, or a byte of it. Returns what is left.
    fn begin<'a>(&mut self, byte: u8, bytes: &'a [u8]) -> &'a [u8] {
        // Most lines begin as the first one did.
        let first = self.first.as_ref().filter(|_| self.digits.is_empty());
        let behind = first.and_then(|first| bytes.strip_prefix(first.as_slice()));
        if let Some([MARK, rest @ ..]) = behind {
            self.is_at_digits = false;
            return rest;
        }
        match byte {
            b'0'..=b'9' if !self.digits.is_full() => self.digits.push(byte),
            MARK if !self.digits.is_empty() => {
                self.is_at_digits = false;
                if self.first.as_ref() != Some(&self.digits) {
                    let mut line = ArrayVec::new();
                    self.digits.iter().for_each(|digit| line.push(*digit));
                    line.push(MARK);
                    self.whole = Some(line);
                }
            }
            b'\n' => self.end_line(),
            _ => self.is_at_digits = false,
        }
        &bytes[1..]
    }

    fn end_line(&mut self) {
        if self.whole.is_some() {
            self.judge_whole();
        }
        self.line += 1;
        self.digits = ArrayVec::new();
        self.is_at_digits = true;
    }

    // Takes the process of a line for the first one, or for another one, if the line is an access.
    fn judge_whole(&mut self) {
        let line = self.whole.take().unwrap_or_default();
        if !matches!(line_in(1, &line), Ok(RecordingLine::Entry(_))) {
            return;
        }
        match &self.first {
            None => self.first = Some(self.digits),
            Some(first) => {
                let text = |digits: &[u8]| String::from_utf8_lossy(digits).into_owned();
                self.found = Some(TwoProcesses {
                    line: self.line,
                    first: text(first),
                    other: text(&self.digits),
                });
            }
        }
    }
}

#[cfg(test)]
mod tests {
    use super::*;

    fn all_of(bytes: &[u8], at_a_time: usize) -> Result<Vec<u8>, TwoProcesses> {
        let mut piece = Piece::new(bytes);
        let (mut all, mut slots) = (Vec::new(), vec![0; at_a_time]);
        loop {
            match piece.read(&mut slots) {
                Ok(0) => return Ok(all),
                Ok(count) => all.extend(&slots[..count]),
                Err(cause) => return Err(cause.downcast().unwrap()),
            }
        }
    }

    #[test]
    fn first_repeats_are_comments_and_nothing_else_changes() {
        for (piece, read) in [
            ("x 3\nr 5 60\nx 2\n", "# 3\nr 5 60\nx 2\n"),
            ("# a\n\nx 3\nX 1\nr 5 60\n", "# a\n\n# 3\n# 1\nr 5 60\n"),
            ("x 3", "# 3"),
            ("x\nr 5 60\n", "x\nr 5 60\n"),
            ("x 3 4\n", "x 3 4\n"),
            ("x 999999999\n", "x 999999999\n"),
            ("w 0 41\nx 3\n", "w 0 41\nx 3\n"),
            ("", ""),
        ] {
            for at_a_time in [1, 3, 100] {
                let expected = Ok(read.as_bytes().to_vec());
                assert_eq!(all_of(piece.as_bytes(), at_a_time), expected, "{piece}");
            }
        }
    }

    #[test]
    fn a_second_process_is_found_where_it_makes_an_access() {
        let one = "13@1.000001:serial_read addr 0x05 val 0x60\n";
        let other = "14@1.000002:serial_read addr 0x05 val 0x60\n";
        let event = "15@1.000001:kvm_pio_write at 0x3f8\n";
        let long = format!(
            "{}@1.000001:serial_read addr 0x05 val 0x60\n",
            "9".repeat(30)
        );
        for (lines, found) in [
            (vec![one, one], None),
            (vec![event, one, event, one], None),
            (vec![&long, one], None),
            (
                vec!["r 5 60\n", one, "serial_read addr 0x05 val 0x60\n", one],
                None,
            ),
            (vec!["# 14@\n", one, event, other, one], Some(4)),
        ] {
            let log = lines.concat();
            for at_a_time in [1, 7, 1000] {
                let expected = match found {
                    None => Ok(log.clone().into_bytes()),
                    Some(line) => Err(TwoProcesses {
                        line,
                        first: "13".into(),
                        other: "14".into(),
                    }),
                };
                assert_eq!(all_of(log.as_bytes(), at_a_time), expected, "{log}");
            }
        }
    }
}
