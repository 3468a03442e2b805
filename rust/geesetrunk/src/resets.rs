//! Where a recording says that the chip was reset: the line `z`, with a time behind it or none.
//!
//! The proved reader has no such line, and needs none: what is behind a reset is a recording by itself, and each judge begins anew there.
//! So the line is read here, the proved reader is given a comment in its place, and who reads entries is told where they are cut.

use crate::heap;
use crate::log::ends_in;
use crate::piece::Piece;
use geesetrunk_kit::alloc::AllocError;
use std::cell::RefCell;
use std::collections::VecDeque;
use std::io::{self, ErrorKind, Read};
use uart_judges::recording::{Entry, Recording, RecordingError};

// The most bytes of the line of a reset, with its end: a letter, a time and a comment. A line that is longer is none.
const LONGEST: usize = 64;

/// What is next in a recording.
#[derive(Clone, Copy, Debug, PartialEq, Eq)]
pub enum Next {
    /// An entry.
    Entry(Entry),
    /// The chip was reset, at the line with this number.
    Reset(u64),
}

/// The numbers of the lines of resets that are read, and not told so far. What is read ahead is bounded, and so are these.
#[derive(Debug, Default)]
pub struct Resets(RefCell<VecDeque<u64>>);

impl Resets {
    // Takes down a line. Memory that is refused is an error of the reader.
    fn push(&self, line: u64) -> io::Result<()> {
        let mut lines = self.0.borrow_mut();
        lines
            .try_reserve(1)
            .map_err(|_| io::Error::from(ErrorKind::OutOfMemory))?;
        lines.push_back(line);
        Ok(())
    }

    // Takes the reset before this line, if there is one.
    fn before(&self, line: u64) -> Option<u64> {
        let mut lines = self.0.borrow_mut();
        let reset = lines.front().copied().filter(|reset| *reset < line)?;
        lines.pop_front();
        Some(reset)
    }
}

/// The entries of a piece of a recording, with the resets between them.
pub struct Entries<'a, R> {
    recording: Recording<Commented<'a, Piece<R>>>,
    resets: &'a Resets,
    // An entry that is read, with a reset before it that is to be told first.
    ahead: Option<Entry>,
}

impl<'a, R: Read> Entries<'a, R> {
    /// Returns the entries of what this reader has. It takes down there which resets it has read.
    ///
    /// # Errors
    ///
    /// Memory could not be allocated.
    pub fn new(reader: R, resets: &'a Resets) -> Result<Self, AllocError> {
        let commented = Commented::new(Piece::new(reader), resets);
        Ok(Entries {
            recording: Recording::new(heap(), commented)?,
            resets,
            ahead: None,
        })
    }

    /// Returns the next entry or reset, or `None` at the end.
    ///
    /// # Errors
    ///
    /// A line is no line of a recording, or the reader failed.
    pub fn read_next(&mut self) -> Result<Option<Next>, RecordingError> {
        let entry = match self.ahead.take() {
            Some(entry) => Some(entry),
            None => self.recording.next_entry()?,
        };
        let line = entry.map_or(u64::MAX, |entry| entry.line);
        if let Some(reset) = self.resets.before(line) {
            self.ahead = entry;
            return Ok(Some(Next::Reset(reset)));
        }
        Ok(entry.map(Next::Entry))
    }

    /// Returns how many lines were read.
    pub fn lines(&self) -> u64 {
        self.recording.lines()
    }
}

// Reads the lines of resets as comments of the same length, and takes down their numbers.
#[derive(Debug)]
struct Commented<'a, R> {
    reader: R,
    resets: &'a Resets,
    // The lines that have ended, and whether the next byte begins one.
    ended: u64,
    is_at_line: bool,
    // The bytes of a line that may be that of a reset, how many there are, and how many of them were given. It was cut by the end of what
    // was read at a time.
    held: [u8; LONGEST],
    count: usize,
    given: usize,
}

// Returns whether a line, without its end, says that the chip was reset.
fn is_reset(line: &[u8]) -> bool {
    let line = line.split(|&byte| byte == b'#').next().unwrap_or_default();
    match line.trim_ascii_end() {
        [b'z' | b'Z'] => true,
        [b'z' | b'Z', b' ', b'@', time @ ..] => {
            let digits = str::from_utf8(time).unwrap_or_default();
            digits.parse::<u64>().is_ok() && time.iter().all(u8::is_ascii_digit)
        }
        _ => false,
    }
}

fn begins_reset(byte: u8) -> bool {
    matches!(byte, b'z' | b'Z')
}

impl<'a, R: Read> Commented<'a, R> {
    fn new(reader: R, resets: &'a Resets) -> Self {
        Commented {
            reader,
            resets,
            ended: 0,
            is_at_line: true,
            held: [0; LONGEST],
            count: 0,
            given: 0,
        }
    }

    // Makes a whole line a comment, if it is that of a reset.
    fn comment(&mut self, line: &mut [u8]) -> io::Result<()> {
        let text = line.strip_suffix(b"\n").unwrap_or(line);
        if is_reset(text.strip_suffix(b"\r").unwrap_or(text)) {
            line[0] = b'#';
            self.resets.push(self.ended + 1)?;
        }
        Ok(())
    }

    // Looks at each line of what was read. Returns how much of it can be given: a last line that may be that of a reset is held.
    fn look_at(&mut self, bytes: &mut [u8]) -> io::Result<usize> {
        let mut at = 0;
        while at < bytes.len() {
            let rest = &mut bytes[at..];
            let end = rest.iter().position(|&byte| byte == b'\n');
            let may_be_reset = self.is_at_line && begins_reset(rest[0]);
            let Some(end) = end else {
                if may_be_reset && rest.len() < LONGEST {
                    self.held[..rest.len()].copy_from_slice(rest);
                    self.count = rest.len();
                    self.given = 0;
                    return Ok(at);
                }
                self.is_at_line = false;
                return Ok(bytes.len());
            };
            if may_be_reset && end < LONGEST {
                self.comment(&mut rest[..=end])?;
            }
            self.ended += 1;
            self.is_at_line = true;
            at += end + 1;
        }
        Ok(at)
    }

    // Reads on to the end of the line that is held, byte by byte, so that no byte behind it is kept here.
    fn end_held(&mut self) -> io::Result<()> {
        let mut is_at_end = false;
        while self.is_held_open() && !is_at_end {
            let slot = &mut self.held[self.count..=self.count];
            let count = self.reader.read(slot)?;
            self.count += count;
            is_at_end = count == 0;
        }
        // One that is longer than that of a reset goes on behind what is held.
        let is_whole = self.held[..self.count].ends_with(b"\n");
        if is_whole || is_at_end {
            let mut line = self.held;
            self.comment(&mut line[..self.count])?;
            self.held = line;
        }
        self.ended += u64::from(is_whole);
        self.is_at_line = is_whole;
        Ok(())
    }

    // Returns whether the line that is held has no end so far, and there is room for more of it.
    fn is_held_open(&self) -> bool {
        self.count < LONGEST && !self.held[..self.count].ends_with(b"\n")
    }
}

impl<R: Read> Read for Commented<'_, R> {
    fn read(&mut self, slots: &mut [u8]) -> io::Result<usize> {
        if self.given == self.count {
            (self.count, self.given) = (0, 0);
            let count = self.reader.read(slots)?;
            let bytes = &mut slots[..count];
            // Most recordings have no reset, and no other word with this letter: then no line is looked at.
            if !bytes.contains(&b'z') && !bytes.contains(&b'Z') {
                self.ended += ends_in(bytes);
                self.is_at_line = bytes.last().map_or(self.is_at_line, |&last| last == b'\n');
                return Ok(count);
            }
            let given = self.look_at(bytes)?;
            if given > 0 {
                return Ok(given);
            }
        }
        if self.given == 0 {
            self.end_held()?;
        }
        let count = (&self.held[self.given..self.count]).read(slots)?;
        self.given += count;
        Ok(count)
    }
}

#[cfg(test)]
mod tests {
    use super::*;

    // What a reader has, so many bytes at a time.
    struct Slowly<'a>(&'a [u8], usize);

    impl Read for Slowly<'_> {
        fn read(&mut self, slots: &mut [u8]) -> io::Result<usize> {
            let count = self.1.min(slots.len());
            self.0.read(&mut slots[..count])
        }
    }

    fn commented(bytes: &str, at_a_time: usize) -> (String, Vec<u64>) {
        let resets = Resets::default();
        let reader = Slowly(bytes.as_bytes(), at_a_time);
        let mut text = String::new();
        Commented::new(reader, &resets)
            .read_to_string(&mut text)
            .unwrap();
        let lines = resets.0.borrow().iter().copied().collect();
        (text, lines)
    }

    #[test]
    fn lines_of_resets_are_comments() {
        let long = format!("z # {}\n", "a".repeat(100));
        for (recording, read, lines) in [
            (
                "z\nr 5 60\nZ @17\r\nr 5 60\nz",
                "#\nr 5 60\n# @17\r\nr 5 60\n#",
                &[1, 3, 5][..],
            ),
            ("r 5 60\nz # once\nx 3\n", "r 5 60\n# # once\nx 3\n", &[2]),
            (
                "z @\nzz\nz 1\nz @+1\nz @99999999999999999999\n z\n",
                "z @\nzz\nz 1\nz @+1\nz @99999999999999999999\n z\n",
                &[],
            ),
            ("# a zebra\nr 5 60 # z\n", "# a zebra\nr 5 60 # z\n", &[]),
            (&long, &long, &[]),
        ] {
            for at_a_time in [1, 2, 3, 5, 7, 1000] {
                let told = (read.to_string(), lines.to_vec());
                assert_eq!(
                    commented(recording, at_a_time),
                    told,
                    "{recording:?}, {at_a_time}"
                );
            }
        }
    }

    #[test]
    fn resets_are_told_between_entries() {
        let recording = "z\nz\nr 5 60\nr 5 60\nz\n# a\nw 0 41\nz\n";
        for at_a_time in [1, 4, 1000] {
            let resets = Resets::default();
            let reader = Slowly(recording.as_bytes(), at_a_time);
            let mut entries = Entries::new(reader, &resets).unwrap();
            let mut told = Vec::new();
            while let Some(next) = entries.read_next().unwrap() {
                told.push(match next {
                    Next::Entry(entry) => ("entry", entry.line),
                    Next::Reset(line) => ("reset", line),
                });
            }
            let (entry, reset) = ("entry", "reset");
            assert_eq!(
                told,
                [
                    (reset, 1),
                    (reset, 2),
                    (entry, 3),
                    (entry, 4),
                    (reset, 5),
                    (entry, 7),
                    (reset, 8)
                ],
                "{at_a_time}"
            );
            assert_eq!(entries.lines(), 8);
        }
    }
}
