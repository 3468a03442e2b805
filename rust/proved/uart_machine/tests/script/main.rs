//! Scripts, from their text to what is printed: what each word means, limits, texts of errors and answers, and streams that fail.

mod faults;
mod language;
mod limits;
mod output;
mod streams;

use geesetrunk_kit::alloc::Global;
use proved_uart_machine::script::{PlayError, Std, play};
use std::io::{Read, Write};

/// A first line, of 16 bytes.
const HEADER: &str = "chip 16450 4 64\n";

/// Plays what is read, and writes its output.
fn played(reader: impl Read, writer: impl Write) -> Result<(), PlayError> {
    play(Global::heap(), &mut Std::new(reader), &mut Std::new(writer))
}

/// Returns what is reported for a text that is played, or `a script`.
fn told(text: impl AsRef<[u8]>) -> String {
    let mut output = Vec::new();
    match played(text.as_ref(), &mut output) {
        Ok(()) => "a script".to_string(),
        Err(_) if !output.is_empty() => "written at a refusal".to_string(),
        Err(error) => error.to_string(),
    }
}

/// Asserts that each of these lines is reported so, after a beginning.
#[track_caller]
fn assert_told(front: &str, rows: &[(&str, &str)]) {
    for &(lines, want) in rows {
        assert_eq!(told(format!("{front}{lines}")), want, "at {lines}");
    }
}
