//! Scripts from a reader to a writer.

use crate::played;
use proved_uart_machine::script::PlayError;
use std::io::{self, ErrorKind, Write};

/// Accepts at most three bytes for each write, and fails once it has ten.
struct FailsAfterTen(Vec<u8>);

impl Write for FailsAfterTen {
    fn write(&mut self, bytes: &[u8]) -> io::Result<usize> {
        let most = bytes.len().min(3).min(10 - self.0.len());
        if most == 0 {
            return Err(ErrorKind::Other.into());
        }
        self.0.extend_from_slice(&bytes[..most]);
        Ok(most)
    }

    fn flush(&mut self) -> io::Result<()> {
        Ok(())
    }
}

/// A script of 67 bytes.
pub const SCRIPT: &[u8] =
    b"chip 16450 4 64\nlimit 200\ninit off 9600 nocts 00 8\nsend 48656c6c6f\n";

/// Its output, of 41 bytes.
pub const OUTPUT: &[u8] = b"ok\nok 1\nwire -\nheld 48\nwaiting -\nmarks -\n";

#[test]
fn plays_from_a_reader_to_a_writer() {
    let mut output = Vec::new();
    assert_eq!(played(SCRIPT, &mut output), Ok(()));
    assert_eq!(output, OUTPUT);
}

#[test]
fn a_failing_writer_is_told() {
    let mut writer = FailsAfterTen(Vec::new());
    assert_eq!(played(SCRIPT, &mut writer), Err(PlayError::WriteFault));
    assert_eq!(writer.0, b"ok\nok 1\nwi");
}

#[test]
fn a_writer_that_takes_nothing_has_failed() {
    let mut room = [0; 4];
    let result = played(SCRIPT, room.as_mut_slice());
    assert_eq!(result, Err(PlayError::WriteFault));
    assert_eq!(room, *b"ok\no");
}
