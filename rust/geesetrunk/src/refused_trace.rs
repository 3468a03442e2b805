//! A line of a trace that strays, or is no line of a trace: its place, and what is expected there.
//!
//! The proved crates decide which line that is. Here its column is found.

use crate::fault::Explanation;
use crate::import::{Refusal, Refused};
use crate::refused_line::{BYTE, OFFSET};
use crate::text::{line_at, words};
use uart_judges::traces::{TraceFault, before_remark, offset_in};
use uart_language::Cause;

const OF_TRACE: &str = "a call of the driver, its accesses, its answer behind =, or fresh";
const OF_ACCESS: &str = "the line is: r OFFSET VALUE, or w OFFSET VALUE";

// Returns the refusal of an access: each word is tried by itself.
fn bad_access(line: &[u8], cause: Cause) -> Refusal {
    let mut parts = words(line).skip(1);
    let (offset, byte) = (parts.next(), parts.next());
    let (part, wants) = match (cause, offset, byte, parts.next()) {
        (Cause::WrongCount, .., Some(more)) => (more, OF_ACCESS),
        (Cause::WrongCount, ..) => (&b""[..], OF_ACCESS),
        (_, Some(offset), ..) if offset_in(offset).is_err() => (offset, OFFSET),
        (_, _, Some(byte), _) => (byte, BYTE),
        _ => (line, OF_ACCESS),
    };
    Refusal::at(line, part, cause.text(), wants)
}

// Returns the refusal of a line of no form that a trace has. A call is explained as in a script.
fn bad_line(number: u32, line: &[u8], trace: &[u8], cause: Cause) -> Refusal {
    match (line, cause) {
        (_, Cause::Misplaced) => Refusal::at(line, line, cause.text(), OF_TRACE),
        ([b'r' | b'w', b' ', ..], Cause::WrongCount | Cause::BadNumber | Cause::BadHex) => {
            bad_access(line, cause)
        }
        _ => match Explanation::new("", trace, number, cause).line {
            Some(refused) => refused.refusal,
            None => Refusal::at(line, line, cause.text(), OF_TRACE),
        },
    }
}

/// Returns why the line with this number is no line of this trace, with its place.
pub fn refused_in_trace(trace: &[u8], number: usize, fault: TraceFault) -> Refused {
    let line = line_at(trace, number.saturating_sub(1));
    let said = before_remark(line);
    let refusal = match fault {
        TraceFault::Line(cause) => {
            let number = u32::try_from(number).unwrap_or(u32::MAX);
            bad_line(number, said, trace, cause)
        }
        TraceFault::NoDriverCall => Refusal::at(said, said, "no call of the driver", OF_TRACE),
        TraceFault::NoCallBefore => Refusal::at(
            said,
            said,
            "no call before it",
            "a call, which stands before its accesses and its answer",
        ),
        TraceFault::NoAnswer => Refusal::at(
            said,
            said,
            "the call has no answer",
            "a call whose answer follows, on a line that begins with =",
        ),
    };
    Refused::new(number as u64, line, refusal)
}

/// Returns where a trace strays, with the first word of the line that is not the driver's. The text is that of the proved crates behind the
/// number of the line: what is found there, and what the driver does.
pub fn stray_in_trace(trace: &[u8], number: u64, text: &str) -> Refused {
    let index = usize::try_from(number.saturating_sub(1)).unwrap_or(usize::MAX);
    let line = line_at(trace, index);
    let (_, wants) = text.split_once(" strays: ").unwrap_or(("", text));
    let made = wants.split_once('\'').map_or("", |(_, made)| made);
    let made = made.trim_end_matches('\'').as_bytes();
    let mut pairs = words(before_remark(line)).zip(words(made));
    let part = pairs.find(|(found, made)| found != made);
    let part = part.map_or(&b""[..], |(found, _)| found);
    Refused::new(
        number,
        line,
        Refusal::at(before_remark(line), part, "strays", wants),
    )
}

#[cfg(test)]
mod tests {
    use super::*;
    use crate::terminal::Style;
    use uart_judges::traces::{TraceError, parse};

    #[test]
    fn the_caret_is_at_the_first_word_that_is_refused() {
        for (trace, text) in [
            ("lsr\nr 9 60\n= ok 60\n", format!("a:2:3: bad number\nr 9 60\n  ^ {OFFSET}")),
            ("lsr\nr 5 6\n", format!("a:2:5: bad hex\nr 5 6\n    ^ {BYTE}")),
            ("lsr\nr 5\n", format!("a:2:4: wrong count\nr 5\n   ^ {OF_ACCESS}")),
            ("lsr\nr 5 60 1\n", format!("a:2:8: wrong count\nr 5 60 1\n       ^ {OF_ACCESS}")),
            ("# no call\nr 5 60\n", "a:2:1: no call before it\nr 5 60\n^ a call, which stands before its accesses and its answer".into()),
            ("lsr\nr 5 60\n", "a:1:1: the call has no answer\nlsr\n^ a call whose answer follows, on a line that begins with =".into()),
            ("send 4 # four\n", "a:1:6: bad hex\nsend 4 # four\n     ^ at most 64 bytes: pairs of hexadecimal digits, or -".into()),
        ] {
            let Err(TraceError::NoTrace { line, fault }) = parse(crate::heap(), trace.as_bytes()) else {
                panic!("{trace}")
            };
            let refused = refused_in_trace(trace.as_bytes(), line, fault);
            assert_eq!(refused.text("a", Style::PLAIN), text, "{trace}");
        }
    }

    #[test]
    fn the_caret_is_at_the_first_word_that_is_not_the_drivers() {
        for (line, text, column) in [
            (
                "w 0 42 # a note",
                "'w 0 42' strays: the driver makes 'w 0 41'",
                5,
            ),
            ("r 5 60", "'r 5 60' strays: the driver makes 'w 0 41'", 1),
            (
                "= ok 60",
                "'= ok 60' strays: the driver returns '= ok 62'",
                6,
            ),
            ("= ok", "'= ok' strays: the driver returns '= ok 62'", 5),
        ] {
            let found = stray_in_trace(line.as_bytes(), 1, text);
            assert_eq!(found.refusal.column, column, "{text}");
        }
    }
}
