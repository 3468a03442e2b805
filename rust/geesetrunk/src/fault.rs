//! A refused script, explained: the place of the fault, the line, and what is accepted there.

use crate::grammar::{Field, fields_after, form_of, words_of_lines};
use crate::import::{Refusal, Refused};
use crate::near::nearest;
use crate::ring_language::{is_ring_line, rings_at};
use crate::terminal::{Paint, Style};
use crate::text::{line_at, printable, words};
use std::fmt;
use uart_language::Cause;

// What is expected where a word is empty.
const ONE_SPACE: &str = "exactly one space between two words, and none at the end";

/// Why a script is refused, for people.
#[derive(Debug, PartialEq, Eq)]
pub struct Explanation<'a> {
    /// The name of the file.
    pub file: &'a str,
    /// What is wrong.
    pub cause: Cause,
    /// The line with the fault. A script with too many bytes has none.
    pub line: Option<Refused>,
}

// Returns the column in which a word of the line starts, counted from 1. A word after the last would
// start after the line.
fn column_of(line: &[u8], word: usize) -> usize {
    1 + words(line)
        .take(word)
        .map(|before| before.len() + 1)
        .sum::<usize>()
}

fn first_word(line: &[u8]) -> &[u8] {
    words(line).next().unwrap_or_default()
}

// Returns the index of the first field whose word is refused, by the language's own functions: so no
// second parser has to agree with the first.
fn refused_field(line: &[u8], fields: &[Field]) -> usize {
    words(line)
        .skip(1)
        .zip(fields)
        .position(|(word, field)| !field.accepts(word))
        .unwrap_or(0)
}

fn bad_byte(line: &[u8]) -> (usize, String) {
    let is_bad = |&byte: &u8| !matches!(byte, b' '..=b'~');
    let index = line.iter().position(is_bad).unwrap_or(0);
    let byte = line.get(index).copied().unwrap_or(0);
    (
        index + 1,
        format!("printable ASCII, and not the byte {byte:02x}"),
    )
}

fn misplaced(number: u32, line: &[u8], rings: Option<u32>) -> &'static str {
    if number > 1 && first_word(line) == b"rings" && rings == Some(4) {
        "rings is on line 4, behind fifo-size, and on no other line"
    } else if number > 1 && first_word(line) == b"rings" {
        "rings is on line 2, or on line 3 and not on line 2"
    } else if number > 1 && is_ring_line(line) {
        "the words of the rings come after the line of rings"
    } else if number == 1 {
        "the first line names the chip: chip NAME T W [cut]"
    } else if first_word(line) == b"limit" {
        "only line 2 may set the limit"
    } else if first_word(line) == b"fifo-size" {
        "only line 2, or line 3 behind limit, may set the size of the FIFOs"
    } else {
        "only line 1 names the chip"
    }
}

fn unknown_word(line: &[u8], has_rings: bool) -> String {
    if line.starts_with(b" ") {
        return "a line begins with a word, and not with a space".into();
    }
    if is_ring_line(line) {
        return "a script with rings has this word: line 2, or 3 behind limit, is rings T R".into();
    }
    let word = printable(first_word(line));
    if has_rings && word == "text" {
        return "a word that needs no terminal: there is none over the rings".into();
    }
    match nearest(&word, words_of_lines(has_rings)) {
        Some(near) => format!("a word of the language: perhaps {near}"),
        None => "a word of the language, as in docs/SCRIPTS.md".into(),
    }
}

fn wrong_count(line: &[u8]) -> (usize, String) {
    if let Some(empty) = words(line).position(<[u8]>::is_empty) {
        return (column_of(line, empty), ONE_SPACE.into());
    }
    let word = first_word(line);
    let place = words(line).count().min(fields_after(word).len() + 1);
    let usage = match form_of(word) {
        Some(form) => form.usage.into(),
        None => printable(word),
    };
    (column_of(line, place), format!("the line is: {usage}"))
}

fn bad_field(line: &[u8]) -> (usize, String) {
    let fields = fields_after(first_word(line));
    let index = refused_field(line, fields);
    let wants = match words(line).nth(index + 1) {
        Some(b"") => ONE_SPACE,
        _ => fields.get(index).map_or("", |field| field.wants()),
    };
    (column_of(line, index + 1), wants.into())
}

// Returns the column of a fault, and what is accepted there. The line with the number `rings` starts with `rings`.
fn place_of(number: u32, line: &[u8], cause: Cause, rings: Option<u32>) -> (usize, String) {
    match cause {
        Cause::BadByte => bad_byte(line),
        Cause::Misplaced => (1, misplaced(number, line, rings).into()),
        Cause::UnknownWord => (1, unknown_word(line, rings.is_some())),
        Cause::WrongCount => wrong_count(line),
        Cause::TooLong => (1, "a script has at most 4096 lines".into()),
        _ => bad_field(line),
    }
}

impl<'a> Explanation<'a> {
    /// Returns the explanation of the fault that `parse` reports for a script: its line, which is 0
    /// if the script has too many bytes, and its cause.
    pub fn new(file: &'a str, script: &[u8], number: u32, cause: Cause) -> Self {
        let line = number.checked_sub(1).map(|index| {
            let line = line_at(script, index as usize);
            let (column, wants) = place_of(number, line, cause, rings_at(script));
            let cause = cause.text();
            let refusal = Refusal {
                column,
                cause,
                wants,
            };
            Refused::new(number.into(), line, refusal)
        });
        Explanation { file, cause, line }
    }

    /// Writes the explanation in this style: `FILE:LINE:COLUMN: cause`, the line, and a caret with
    /// what is accepted there.
    ///
    /// # Errors
    ///
    /// The error of the writer.
    pub fn write(&self, out: &mut impl fmt::Write, style: Style) -> fmt::Result {
        if let Some(line) = &self.line {
            return writeln!(out, "{}", line.text(self.file, style));
        }
        let cause = style.painted(Paint::Fault, self.cause.text());
        let place = style.painted(Paint::Place, self.file);
        writeln!(out, "{place}: {cause}: a script has at most 65536 bytes")
    }
}

impl fmt::Display for Explanation<'_> {
    fn fmt(&self, f: &mut fmt::Formatter<'_>) -> fmt::Result {
        self.write(f, Style::PLAIN)
    }
}

#[cfg(test)]
mod tests {
    use super::*;

    #[test]
    fn a_caret_is_at_the_first_field_that_is_refused() {
        let script = b"chip 16550a 4 64\ninit 14 0 nocts 00 8\n";
        let explanation = Explanation::new("a.script", script, 2, Cause::BadNumber);
        assert_eq!(
            explanation.to_string(),
            "a.script:2:9: bad number\n\
             init 14 0 nocts 00 8\n        \
             ^ a baud rate: a number from 1 to 4294967295\n"
        );
    }

    #[test]
    fn a_caret_is_where_words_are_missing_or_too_many() {
        for (line, column) in [(&b"lsr 1 2"[..], 5), (b"tick", 6), (b"tick 1 2", 8)] {
            let (found, wants) = wrong_count(line);
            assert_eq!(found, column, "{wants}");
            assert!(wants.starts_with("the line is: "));
        }
    }

    #[test]
    fn a_word_of_rings_is_near_in_a_script_with_rings() {
        for (second, wanted) in [("rings 4 4", "perhaps queue"), ("limit 9", "SCRIPTS.md")] {
            let script = format!("chip 16550a 4 64\n{second}\nqueu 41\n");
            let explanation = Explanation::new("-", script.as_bytes(), 3, Cause::UnknownWord);
            let text = explanation.to_string();
            assert!(text.contains(wanted), "{text}");
        }
    }

    #[test]
    fn too_many_bytes_have_no_line() {
        assert_eq!(
            Explanation::new("-", b"", 0, Cause::TooLong).to_string(),
            "-: too long: a script has at most 65536 bytes\n"
        );
    }
}
