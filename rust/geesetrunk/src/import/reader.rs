//! Opens a log, finds out its kind, and reads it as a recording.

use super::csv::Csv;
use super::detect::{Detector, Guess, Shown};
use super::encoding::{BYTE_ORDER_MARK, Encoding, has_carriage_returns};
use super::json::Json;
use super::kvm::Kvm;
use super::plain::{self, Plain};
use super::qemu::Memory;
use super::refusal::{Refusal, Refused};
use super::sigrok::Sigrok;
use super::words::Words;
use super::{Format, Import, Kind, Seen};
use std::cell::RefCell;
use std::io::{self, Cursor, ErrorKind, Read};
use std::rc::Rc;
use uart_judges::recording::limits::MOST_LINE_BYTES;

// How much is read at a time, and how much is looked at to find out the kind.
const CHUNK: usize = 65_536;

/// A log that is read as a recording.
pub struct Imported<R> {
    reader: R,
    format: Box<dyn Format>,
    // What is read of a line that has no end so far.
    rest: Vec<u8>,
    chunk: Vec<u8>,
    number: u64,
    seen: Rc<RefCell<Seen>>,
    is_at_end: bool,
    // The lines of the recording, and how much of them was given.
    out: Vec<u8>,
    given: usize,
    // The first line that is refused. What is before it is given first.
    failure: Option<Refused>,
}

impl<R: Read> Imported<R> {
    fn new(reader: R, format: Box<dyn Format>, seen: Rc<RefCell<Seen>>) -> Self {
        Imported {
            reader,
            format,
            rest: Vec::new(),
            chunk: vec![0; CHUNK],
            number: 0,
            seen,
            is_at_end: false,
            out: Vec::new(),
            given: 0,
            failure: None,
        }
    }

    // Writes a line again. Its number is that of the log.
    fn rewrite(&mut self, line: &[u8]) {
        self.number += 1;
        let line = match line.strip_suffix(b"\r") {
            Some(line) => line,
            None => line,
        };
        let before = self.out.len();
        let outcome = if line.len() > MOST_LINE_BYTES {
            let wants = "a line of at most 65535 bytes";
            Err(Refusal::at(
                line,
                &line[MOST_LINE_BYTES..],
                "too long",
                wants,
            ))
        } else {
            self.format.rewrite(line, &mut self.out)
        };
        if let Err(refusal) = outcome {
            self.out.truncate(before);
            self.failure = Some(Refused::new(self.number, line, refusal));
            return;
        }
        if self.out.len() == before && !line.is_empty() && !line.starts_with(b"#") {
            self.seen.borrow_mut().left_out += 1;
        }
        self.out.push(b'\n');
    }

    // Reads on, up to lines that can be given.
    fn fill(&mut self) -> io::Result<()> {
        self.out.clear();
        self.given = 0;
        while self.out.is_empty() && self.failure.is_none() && !self.is_at_end {
            let count = self.reader.read(&mut self.chunk)?;
            if count == 0 {
                self.is_at_end = true;
                let line = std::mem::take(&mut self.rest);
                if !line.is_empty() {
                    self.rewrite(&line);
                }
                continue;
            }
            let chunk = std::mem::take(&mut self.chunk);
            self.rewrite_lines(&chunk[..count]);
            self.chunk = chunk;
        }
        Ok(())
    }

    fn rewrite_lines(&mut self, mut bytes: &[u8]) {
        while self.failure.is_none() {
            let Some(end) = bytes.iter().position(|&byte| byte == b'\n') else {
                break;
            };
            let (line, rest) = (&bytes[..end], &bytes[end + 1..]);
            if self.rest.is_empty() {
                self.rewrite(line);
            } else {
                let mut whole = std::mem::take(&mut self.rest);
                whole.extend_from_slice(line);
                self.rewrite(&whole);
                whole.clear();
                self.rest = whole;
            }
            bytes = rest;
        }
        // Of a line that is too long enough is kept to be refused.
        let room = (MOST_LINE_BYTES + 2).saturating_sub(self.rest.len());
        self.rest.extend_from_slice(&bytes[..bytes.len().min(room)]);
    }
}

impl<R: Read> Read for Imported<R> {
    fn read(&mut self, slots: &mut [u8]) -> io::Result<usize> {
        if self.given == self.out.len() {
            self.fill()?;
        }
        let mut rest = &self.out[self.given..];
        if let Some(refused) = self.failure.as_ref().filter(|_| rest.is_empty()) {
            return Err(io::Error::new(ErrorKind::InvalidData, refused.clone()));
        }
        let count = rest.read(slots)?;
        self.given += count;
        Ok(count)
    }
}

/// A log that is open.
pub struct Opened<'a> {
    /// What reads it as a recording.
    pub reader: Box<dyn Read + 'a>,
    /// Its kind.
    pub kind: Kind,
    /// What its kind rests on, if that is only guessed.
    pub guess: Option<Guess>,
    /// What was seen in it so far. Of a recording nothing is counted.
    pub seen: Rc<RefCell<Seen>>,
}

/// Why a log is not opened.
#[derive(Debug)]
pub enum Unopened {
    /// Its reader failed.
    Unread(io::Error),
    /// It is no text, or in another encoding.
    Encoded(Encoding),
    /// Some lines are accesses in words, and too few for a guess.
    Unsure(Guess),
}

impl From<io::Error> for Unopened {
    fn from(cause: io::Error) -> Self {
        Unopened::Unread(cause)
    }
}

// What is read of a log before its kind is known.
struct Head {
    bytes: Vec<u8>,
    shown: Shown,
}

// Reads up to the first line that shows what it is.
fn head_of(reader: &mut impl Read) -> io::Result<Head> {
    let mut bytes = Vec::new();
    let mut detector = Detector::new();
    let mut looked = 0;
    let mut chunk = vec![0; CHUNK];
    loop {
        let count = match reader.read(&mut chunk) {
            Ok(count) => count,
            Err(cause) if cause.kind() == ErrorKind::Interrupted => continue,
            Err(cause) => return Err(cause),
        };
        bytes.extend_from_slice(&chunk[..count]);
        if looked == 0 && bytes.starts_with(BYTE_ORDER_MARK) {
            bytes.drain(..BYTE_ORDER_MARK.len());
        }
        let mut is_decided = false;
        while !is_decided {
            let rest = &bytes[looked..];
            let end = rest.iter().position(|&byte| byte == b'\n');
            let line = match end {
                Some(end) => &rest[..end],
                // The last line has no end.
                None if count == 0 && !rest.is_empty() => rest,
                None => break,
            };
            is_decided = detector.look_at(line);
            looked += end.map_or(rest.len(), |end| end + 1);
        }
        if is_decided || count == 0 || bytes.len() >= CHUNK {
            let shown = detector.shown();
            return Ok(Head { bytes, shown });
        }
    }
}

/// Opens a log of any kind, which is read as a recording. Without a kind it is recognised by its first lines, and if none shows what it
/// is, it is taken for a recording.
///
/// # Errors
///
/// The error of the reader, what the log is if it is no text, or what speaks for a guess that is too weak.
pub fn open_log<'a>(mut reader: impl Read + 'a, import: &Import) -> Result<Opened<'a>, Unopened> {
    let head = head_of(&mut reader)?;
    if let Some(encoding) = Encoding::of(&head.bytes) {
        return Err(Unopened::Encoded(encoding));
    }
    let (kind, guess) = match (import.kind, head.shown) {
        (Some(kind), _) | (None, Shown::Exact(kind)) => (kind, None),
        (None, Shown::Words(guess)) => (Kind::Words, Some(guess)),
        (None, Shown::Unsure(guess)) => return Err(Unopened::Unsure(guess)),
        (None, Shown::Nothing) => (Kind::Recording, None),
    };
    // A log of QEMU may have processors that are reset, wherever it was cut.
    let is_rewritten = head
        .bytes
        .split(|&byte| byte == b'\n')
        .any(|line| plain::without_time(line).0.is_some() || plain::is_of_qemu(line));
    let is_as_is = kind == Kind::Recording && !has_carriage_returns(&head.bytes) && !is_rewritten;
    let seen = Rc::new(RefCell::new(Seen::default()));
    let whole = Cursor::new(head.bytes).chain(reader);
    let (window, counted) = (import.window, Rc::clone(&seen));
    let format: Box<dyn Format> = match kind {
        // The proved crates read such lines as they are.
        Kind::Recording if is_as_is => {
            return Ok(Opened {
                reader: Box::new(whole),
                kind,
                guess,
                seen,
            });
        }
        Kind::Recording => Box::new(Plain::default()),
        Kind::Memory => Box::new(Memory::new(window, counted)),
        Kind::Kvm => Box::new(Kvm::new(window, counted)),
        Kind::Csv => Box::new(Csv::new(window, counted)),
        Kind::Json => Box::new(Json::new(window, counted)),
        Kind::Sigrok => Box::new(Sigrok::new(window, counted)),
        Kind::Words => Box::new(Words::new(window, counted)),
    };
    Ok(Opened {
        reader: Box::new(Imported::new(whole, format, Rc::clone(&seen))),
        kind,
        guess,
        seen,
    })
}

#[cfg(test)]
mod tests {
    use super::*;

    fn import(log: &[u8]) -> (Kind, Result<String, Refused>) {
        let mut opened = open_log(log, &Import::default()).unwrap();
        let mut text = String::new();
        let outcome = opened.reader.read_to_string(&mut text);
        (
            opened.kind,
            outcome
                .map(|_| text)
                .map_err(|cause| cause.downcast().unwrap()),
        )
    }

    #[test]
    fn what_is_around_lines_is_taken_away() {
        let (kind, text) = import(b"\xef\xbb\xbf# a\r\nr 5 60\r\n\r\nw 0 41\r\n");
        assert_eq!(kind, Kind::Recording);
        assert_eq!(text.unwrap(), "# a\nr 5 60\n\nw 0 41\n");
        let (_, text) = import(b"r 5 60\nw 0 41");
        assert_eq!(text.unwrap(), "r 5 60\nw 0 41");
    }

    #[test]
    fn each_line_keeps_its_place() {
        let (kind, text) = import(b"hello\nread addr=5 val=0x60\nbye\nwrite addr=0 val=41\n");
        assert_eq!(kind, Kind::Words);
        assert_eq!(text.unwrap(), "\nr 5 60\n\nw 0 41\n");
    }

    #[test]
    fn a_refused_line_is_named_behind_those_before_it() {
        let mut opened = open_log(&b"r 0x5 0x60\nr 0x9 0x60\n"[..], &Import::default()).unwrap();
        let mut slots = [0; 100];
        assert_eq!(opened.reader.read(&mut slots).unwrap(), 7);
        let refused: Refused = opened
            .reader
            .read(&mut slots)
            .unwrap_err()
            .downcast()
            .unwrap();
        assert_eq!((refused.number, refused.refusal.column), (2, 3));
    }

    #[test]
    fn a_line_without_an_end_is_refused_when_it_is_too_long() {
        let mut log = b"r 0x5 0x60\n".to_vec();
        log.extend(vec![b'r'; 300_000]);
        let (_, refused) = import(&log);
        assert_eq!(refused.unwrap_err().refusal.cause, "too long");
    }

    #[test]
    fn lines_that_say_nothing_are_counted() {
        let log = b"read addr=5 val=0x60\n\n# a\nbye\nwrite addr=0 val=41\nbye\n";
        let mut opened = open_log(&log[..], &Import::default()).unwrap();
        opened.reader.read_to_end(&mut Vec::new()).unwrap();
        let seen = opened.seen.borrow();
        assert_eq!((seen.of_chip, seen.left_out), (2, 2));
    }

    #[test]
    fn what_is_no_text_is_named() {
        for (log, encoding) in [
            (&b"\x1f\x8b\x08\0"[..], Encoding::Gzip),
            (b"\xff\xfer\0 \0", Encoding::Utf16),
        ] {
            let outcome = open_log(log, &Import::default()).err();
            assert!(
                matches!(outcome, Some(Unopened::Encoded(known)) if known == encoding),
                "{outcome:?}"
            );
        }
    }

    #[test]
    fn a_weak_guess_is_refused_unless_it_is_named() {
        let log = b"hello\nread addr=5 val=0x60\nbye\n";
        let outcome = open_log(&log[..], &Import::default()).err();
        assert!(matches!(outcome, Some(Unopened::Unsure(_))), "{outcome:?}");
        let named = Import {
            kind: Some(Kind::Words),
            ..Import::default()
        };
        assert!(open_log(&log[..], &named).is_ok());
    }

    #[test]
    fn a_log_that_says_nothing_is_a_recording() {
        for log in [&b""[..], b"\n\n", b"hello\n", b"# a"] {
            assert_eq!(import(log).0, Kind::Recording);
        }
    }
}
