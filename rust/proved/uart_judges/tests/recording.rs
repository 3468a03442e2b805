//! How an entry is printed, and that it is read back; and a recording that is read in pieces.

use geesetrunk_kit::alloc::Global;
use proved_uart_judges::recording::limits::MOST_LINE_BYTES;
use proved_uart_judges::recording::{RecordingFault, RecordingLine, Recording, RecordingError, line_in};
use std::fmt::Write;
use std::io::{self, Read};

/// Returns the line that an entry is printed as, or that a line is no entry.
fn printed(line: &str) -> String {
    match line_in(7, line.as_bytes()) {
        Ok(RecordingLine::Entry(entry)) => entry.to_string(),
        _ => "no entry".into(),
    }
}

#[test]
fn events_are_printed_and_read_back() {
    for (line, expected) in [
        ("r 5 60", "r 5 60"),
        ("W 0 0A 2", "w 0 0a"),
        ("w 7 5a 0", "w 7 5a 0"),
        ("R 3 03 1 @48297627", "r 3 03 1 @48297627"),
        ("r 3 03 @0048", "r 3 03 @48"),
        ("a 1c 41 # with all errors", "a 1c 41"),
        (
            "A 00 7f 1 @9999999999999999999",
            "a 00 7f 1 @9999999999999999999",
        ),
        ("i 0", "i 0"),
        ("I 1 @5", "i 1 @5"),
        ("m f0", "m f0"),
        ("serial_read addr 0x05 val 0x60", "r 5 60"),
        (
            "13@17.000125:serial_write write addr 0x00 val 0x41",
            "w 0 41 @17000125000",
        ),
        (
            "1@9999999999.999999:serial_read read addr 0x07 val 0xff",
            "r 7 ff @9999999999999999000",
        ),
    ] {
        assert_eq!(printed(line), expected);
        let again = line_in(7, expected.as_bytes());
        assert!(again == line_in(7, line.as_bytes()), "{line}");
    }
}

/// A reader that is interrupted before each read that gives bytes, and gives at most so many at
/// once.
struct Pieces<'a> {
    is_interrupted: bool,
    most: usize,
    bytes: &'a [u8],
}

impl Read for Pieces<'_> {
    fn read(&mut self, buf: &mut [u8]) -> io::Result<usize> {
        self.is_interrupted = !self.is_interrupted;
        if self.is_interrupted {
            return Err(io::ErrorKind::Interrupted.into());
        }
        let most = self.most.min(buf.len());
        self.bytes.read(&mut buf[..most])
    }
}

/// Returns a recording from this reader.
fn recording<R: Read>(reader: R) -> Recording<R> {
    Recording::new(Global::heap(), reader).expect("there is memory")
}

/// Returns the line and the text of each entry, and how the recording ends.
fn all_of(reader: impl Read) -> String {
    let mut text = String::new();
    let mut recording = recording(reader);
    for _ in 0..100 {
        match recording.next_entry() {
            Ok(Some(entry)) => write!(text, "{}: {entry}; ", entry.line).unwrap(),
            Ok(None) => return format!("{text}{} lines", recording.lines()),
            Err(error) => return format!("{text}{error}"),
        }
    }
    panic!("the recording goes on: {text}");
}

#[test]
fn lines_of_a_reader() {
    let bytes = b"r 5 60\n\nx 3\n# nothing\nw 0 41\nserial_tx 5\nr 0 41";
    for most in [1, 2, 7, 1000] {
        let reader = Pieces {
            is_interrupted: false,
            most,
            bytes,
        };
        assert_eq!(
            all_of(reader),
            "1: r 5 60; 3: x 3; 5: w 0 41; 7: r 0 41; 7 lines"
        );
    }
    assert_eq!(
        all_of(b"r 5 60\nw 0 41\nx 1\n".as_slice()),
        "1: r 5 60; 2: w 0 41; line 3: no read before it"
    );
}

#[test]
fn the_longest_line() {
    let mut bytes = [vec![b'#'; MOST_LINE_BYTES], b"\nr 5 60\n".to_vec()].concat();
    assert_eq!(all_of(bytes.as_slice()), "2: r 5 60; 2 lines");
    bytes.insert(0, b'#');
    assert!(matches!(
        recording(bytes.as_slice()).next_entry(),
        Err(RecordingError::Faulty {
            line: 1,
            fault: RecordingFault::TooLong
        })
    ));
}
