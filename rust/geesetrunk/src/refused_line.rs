//! A line that is no line of a recording, explained: the place of the fault, and what is accepted there.
//!
//! The proved crates decide which lines are accepted. Here a field is tried by itself, in a line of which the rest is right: so no second
//! reader has to agree with the first.

use crate::import::{Refusal, Refused};
use crate::text::words;
use uart_judges::recording::limits::MOST_LINE_BYTES;
use uart_judges::recording::{RecordingFault, line_in};
use uart_language::Cause;

// What is expected where a word is empty.
const ONE_SPACE: &str = "exactly one space between two words, and none at the end";

/// What the second word of an access is.
pub const OFFSET: &str = "the offset of a register: a digit from 0 to 7, without 0x";
/// What the third word of an access is.
pub const BYTE: &str = "a byte: two hexadecimal digits, without 0x";
const LEVEL: &str =
    "the level of the interrupt line: 0, 1, or 2 if it is unknown; or a time behind @";
const TIME: &str = "a time: @ and nanoseconds";
const LOG: &str = "addr 0xHH val 0xHH, with an offset from 00 to 07";

// A form of a line: its first word, how it is written, and its fields.
struct Form {
    word: &'static str,
    usage: &'static str,
    // What each word behind the first one has to be, and a word that is.
    fields: &'static [(&'static str, &'static str)],
}

const FORMS: [Form; 6] = [
    Form {
        word: "r",
        usage: "r OFFSET VALUE [LEVEL] [@TIME]",
        fields: &[(OFFSET, "0"), (BYTE, "00")],
    },
    Form {
        word: "w",
        usage: "w OFFSET VALUE [LEVEL] [@TIME]",
        fields: &[(OFFSET, "0"), (BYTE, "00")],
    },
    Form {
        word: "a",
        usage: "a ERRORS VALUE [LEVEL] [@TIME]",
        fields: &[
            (
                "the errors: 00, or a sum of parity 04, framing 08 and break 10",
                "00",
            ),
            (BYTE, "00"),
        ],
    },
    Form {
        word: "m",
        usage: "m LINES [LEVEL] [@TIME]",
        fields: &[(
            "the modem inputs: a sum of CTS 10, DSR 20, RI 40 and CD 80, in two hexadecimal digits",
            "00",
        )],
    },
    Form {
        word: "i",
        usage: "i LEVEL [@TIME]",
        fields: &[("the level of the interrupt line: 0 or 1", "1")],
    },
    Form {
        word: "x",
        usage: "x N",
        fields: &[("how many times more: a number from 0 to 100000000", "1")],
    },
];

// Returns whether a line is accepted.
fn is_accepted(line: &str) -> bool {
    line_in(1, line.as_bytes()).is_ok()
}

impl Form {
    // Returns whether a word is accepted at this place of such a line.
    fn accepts(&self, place: usize, word: &[u8]) -> bool {
        let word = String::from_utf8_lossy(word);
        let fields: Vec<_> = self.fields.iter().map(|field| field.1).collect();
        let mut words = vec![self.word];
        words.extend(&fields);
        if place < words.len() {
            words[place] = &word;
        } else {
            // A time stands behind a level, or alone.
            words.push(&word);
        }
        is_accepted(&words.join(" "))
    }

    fn wants(&self, place: usize, word: &[u8]) -> &'static str {
        match self.fields.get(place - 1) {
            Some(field) => field.0,
            None if word.starts_with(b"@") => TIME,
            None => LEVEL,
        }
    }
}

fn form_of(word: &[u8]) -> Option<&'static Form> {
    FORMS
        .iter()
        .find(|form| form.word.as_bytes().eq_ignore_ascii_case(word))
}

// Returns a line without its remark, as it is read.
fn without_remark(line: &[u8]) -> &[u8] {
    let end = line.iter().position(|&byte| byte == b'#');
    let line = &line[..end.unwrap_or(line.len())];
    match end {
        Some(_) => line.strip_suffix(b" ").unwrap_or(line),
        None => line,
    }
}

fn bad_byte(line: &[u8], cause: &'static str) -> Refusal {
    let is_bad = |byte: &u8| !matches!(byte, b' '..=b'~');
    let index = line.iter().position(is_bad).unwrap_or(0);
    let byte = line.get(index).copied().unwrap_or(0);
    let wants = match byte {
        b'\r' => {
            "a line that ends here: this one ends in a carriage return, and those before it do not"
                .into()
        }
        byte => format!("printable ASCII, and not the byte {byte:02x}"),
    };
    Refusal {
        column: index + 1,
        cause,
        wants,
    }
}

fn bad_field(line: &[u8], cause: &'static str) -> Refusal {
    let mut parts = words(line);
    let first = parts.next().unwrap_or_default();
    let Some(form) = form_of(first) else {
        return bad_log(line, first, cause);
    };
    let mut count = 0;
    for (index, word) in parts.enumerate() {
        let place = index + 1;
        if word.is_empty() {
            return Refusal::at(line, word, cause, ONE_SPACE).or_behind(line, place);
        }
        if place > form.fields.len() + 2 || !form.accepts(place, word) {
            let wants = match place {
                place if place > form.fields.len() + 2 => format!("the line is: {}", form.usage),
                place => form.wants(place, word).into(),
            };
            return Refusal::at(line, word, cause, wants);
        }
        count = place;
    }
    let wants = match form.fields.get(count) {
        Some(field) => field.0.into(),
        None => format!("the line is: {}", form.usage),
    };
    Refusal::at(line, b"", cause, wants)
}

impl Refusal {
    // Returns the refusal of an empty word, which has no place of its own in memory behind the last byte.
    fn or_behind(mut self, line: &[u8], place: usize) -> Self {
        let before: usize = words(line).take(place).map(|word| word.len() + 1).sum();
        self.column = before + 1;
        self
    }
}

// Returns the first word of a line of QEMU's log that is refused.
fn bad_log(line: &[u8], first: &[u8], cause: &'static str) -> Refusal {
    let name = String::from_utf8_lossy(first);
    if !is_accepted(&format!("{name} addr 0x00 val 0x00")) {
        let wants = "process and time, as in 13@17.000125, before the name of an event";
        return Refusal::at(line, first, cause, wants);
    }
    let mut parts = words(line).skip(1).peekable();
    parts.next_if(|word| matches!(*word, b"read" | b"write"));
    let wanted = ["addr", "0x00", "val", "0x00"];
    for (index, usual) in wanted.iter().enumerate() {
        let Some(word) = parts.next() else {
            return Refusal::at(line, b"", cause, LOG);
        };
        let text = String::from_utf8_lossy(word);
        let mut tried = wanted;
        tried[index] = &text;
        if !is_accepted(&format!("serial_read {}", tried.join(" "))) || word.is_empty() {
            return Refusal::at(line, word, cause, LOG);
        }
        let _ = usual;
    }
    match parts.next() {
        Some(word) => Refusal::at(line, word, cause, "no more words"),
        None => Refusal::at(line, first, cause, LOG),
    }
}

fn unknown_word(line: &[u8], cause: &'static str) -> Refusal {
    let wants = if line.starts_with(b" ") {
        "a line begins with a word, and not with a space; --format says another kind of log"
    } else if line.starts_with(b"chip ") {
        "a recording, which this is not: it is a script. timeline draws one without --recording, --line and --last"
    } else {
        "r, w, x, a, m, i or z, or an event of QEMU's log; --format says another kind of log"
    };
    Refusal::at(line, line, cause, wants)
}

/// Returns why the line with this number is refused, with its place.
pub fn refused_line(number: u64, line: &[u8], fault: RecordingFault) -> Refused {
    let said = without_remark(line);
    let refusal = match fault {
        RecordingFault::TooLong => Refusal {
            column: MOST_LINE_BYTES + 1,
            cause: "too long",
            wants: format!("a line of at most {MOST_LINE_BYTES} bytes"),
        },
        RecordingFault::NoReadBefore => Refusal::at(
            said,
            said,
            "no read before it",
            "x repeats a read: there is none before it",
        ),
        RecordingFault::Line(cause) => match cause {
            Cause::BadByte => bad_byte(said, cause.text()),
            Cause::UnknownWord => unknown_word(said, cause.text()),
            cause => bad_field(said, cause.text()),
        },
    };
    Refused::new(number, line, refusal)
}

#[cfg(test)]
mod tests {
    use super::*;
    use crate::terminal::Style;

    fn refused(line: &str) -> (usize, String) {
        let fault = line_in(1, line.as_bytes()).expect_err(line);
        let refused = refused_line(1, line.as_bytes(), fault);
        (refused.refusal.column, refused.refusal.wants)
    }

    #[test]
    fn the_caret_is_at_the_first_word_that_is_refused() {
        for (line, column, wants) in [
            ("r 0x5 60", 3, OFFSET),
            ("r 5 0x60", 5, BYTE),
            ("r 8 60", 3, OFFSET),
            ("r 5 6", 5, BYTE),
            ("r 5", 4, BYTE),
            ("r 5 60 3", 8, LEVEL),
            ("r 5 60 0 @x", 10, TIME),
            (
                "r 5 60 0 @1 2",
                13,
                "the line is: r OFFSET VALUE [LEVEL] [@TIME]",
            ),
            ("r  5 60", 3, ONE_SPACE),
            (
                "a 20 41",
                3,
                "the errors: 00, or a sum of parity 04, framing 08 and break 10",
            ),
            ("i", 2, "the level of the interrupt line: 0 or 1"),
            (
                "x -1",
                3,
                "how many times more: a number from 0 to 100000000",
            ),
            (
                " r 5 60",
                1,
                "a line begins with a word, and not with a space; --format says another kind of log",
            ),
            ("r\t5 60", 2, "printable ASCII, and not the byte 09"),
            ("serial_read addr 5 val 0x60", 18, LOG),
            ("serial_read addr 0x05 val", 26, LOG),
            ("serial_read addr 0x05 vol 0x60", 23, LOG),
            (
                "13@x:serial_read addr 0x05 val 0x60",
                1,
                "process and time, as in 13@17.000125, before the name of an event",
            ),
        ] {
            assert_eq!(refused(line), (column, wants.into()), "{line}");
        }
        assert!(refused("chip 16550a 4 64").1.contains("script"));
    }

    #[test]
    fn a_remark_is_left_out_and_still_shown() {
        let line = b"r 9 60 # note";
        let fault = line_in(1, line).unwrap_err();
        let text = refused_line(4, line, fault).text("a", Style::PLAIN);
        assert_eq!(
            text,
            format!("a:4:3: bad number\nr 9 60 # note\n  ^ {OFFSET}")
        );
    }
}
