//! Readers and writers that fail, one call later each time, and scripts that are cut off.

use crate::streams::{OUTPUT, SCRIPT};
use crate::{played, told};
use proved_uart_machine::script::{Cause, PlayError};
use std::io::{self, ErrorKind, Read, Write};

/// Returns at most a piece of the text for each read, and fails once no reads are left.
struct Reader<'a> {
    text: &'a [u8],
    piece: usize,
    reads: usize,
}

impl Read for Reader<'_> {
    fn read(&mut self, buffer: &mut [u8]) -> io::Result<usize> {
        self.reads = self.reads.checked_sub(1).ok_or(ErrorKind::Other)?;
        let most = self.piece.min(buffer.len());
        self.text.read(&mut buffer[..most])
    }
}

/// Accepts at most a piece of the bytes for each write, and fails once no writes are left.
struct Writer {
    taken: Vec<u8>,
    piece: usize,
    writes: usize,
}

impl Writer {
    fn new(piece: usize, writes: usize) -> Self {
        Writer {
            taken: Vec::new(),
            piece,
            writes,
        }
    }
}

impl Write for Writer {
    fn write(&mut self, bytes: &[u8]) -> io::Result<usize> {
        self.writes = self.writes.checked_sub(1).ok_or(ErrorKind::Other)?;
        let count = self.piece.min(bytes.len());
        self.taken.extend_from_slice(&bytes[..count]);
        Ok(count)
    }

    fn flush(&mut self) -> io::Result<()> {
        Ok(())
    }
}

/// Returns the outcome of a text by a reader that fails after this number of reads, and what is written.
fn read_by(text: &[u8], piece: usize, reads: usize) -> (Result<(), PlayError>, Vec<u8>) {
    let mut output = Vec::new();
    let result = played(Reader { text, piece, reads }, &mut output);
    (result, output)
}

/// Returns the script with blank lines behind it, so that it has this many bytes.
fn padded(length: usize) -> Vec<u8> {
    let mut text = SCRIPT.to_vec();
    text.resize(length, b'\n');
    text
}

#[test]
fn a_reader_fails_at_each_read() {
    // A text, the piece, and the reads up to its end, the one that finds the end included.
    let cases: [(&[u8], usize, usize); 4] = [
        (SCRIPT, 1, 68),
        (SCRIPT, 7, 11),
        (SCRIPT, 512, 2),
        (&padded(1024), 512, 3),
    ];
    for (text, piece, enough) in cases {
        for reads in 0..enough {
            assert_eq!(
                read_by(text, piece, reads),
                (Err(PlayError::ReadFault), vec![]),
                "{reads} reads of {piece}"
            );
        }
        assert_eq!(
            read_by(text, piece, enough),
            (Ok(()), OUTPUT.to_vec()),
            "{enough} reads of {piece}"
        );
    }
}

// 65,536 bytes are 128 reads, and the next one finds a byte too many. No further read is made, so
// none fails.
#[test]
fn a_long_script_is_not_read_to_its_end() {
    let text = padded(70_000);
    let too_long = PlayError::Refused {
        line: 0,
        cause: Cause::TooLong,
    };
    for (reads, want) in [(128, PlayError::ReadFault), (129, too_long)] {
        assert_eq!(
            read_by(&text, 512, reads),
            (Err(want), vec![]),
            "{reads} reads"
        );
    }
}

#[test]
fn a_writer_fails_at_each_write() {
    // The piece, and the writes that take the whole output.
    for (piece, enough) in [(1, 41), (7, 6), (512, 1)] {
        for writes in 0..=enough {
            let mut writer = Writer::new(piece, writes);
            let result = played(SCRIPT, &mut writer);
            let want = if writes < enough {
                Err(PlayError::WriteFault)
            } else {
                Ok(())
            };
            assert_eq!(result, want, "{writes} writes of {piece}");
            let length = (piece * writes).min(OUTPUT.len());
            assert_eq!(
                writer.taken,
                &OUTPUT[..length],
                "{writes} writes of {piece}"
            );
        }
    }
}

#[test]
fn a_writer_takes_nothing() {
    let mut writer = Writer::new(0, 1);
    assert_eq!(played(SCRIPT, &mut writer), Err(PlayError::WriteFault));
    assert_eq!(writer.taken, []);
    assert_eq!(writer.writes, 0);
}

const OVERRUN: &[u8] = b"chip 16450 4 64
limit 200
init off 9600 nocts 00 8
next
arrive 41
arrive 42
receive 4
lsr
";

/// Returns the number of the last line: of what follows the last line feed, if there is anything, else of the line before it.
fn last_line(text: &[u8]) -> usize {
    let whole = text.strip_suffix(b"\n").unwrap_or(text);
    whole.split(|&byte| byte == b'\n').count()
}

// Of each line but the first two only the whole is a line; a number may be cut off.
#[test]
fn a_script_is_cut_off() {
    let mut accepted = Vec::new();
    for length in 0..=OVERRUN.len() {
        let text = &OVERRUN[..length];
        let answer = told(text);
        if answer == "a script" {
            accepted.push(length);
        } else {
            let front = format!("line {}: ", last_line(text));
            assert!(answer.starts_with(&front), "{length} bytes: {answer}");
        }
    }
    assert_eq!(
        accepted,
        [
            14, 15, 16, 23, 24, 25, 26, 50, 51, 55, 56, 65, 66, 75, 76, 85, 86, 89, 90,
        ]
    );
}
