//! Scripts with rings: the words of the rings beside those of the script language.
//!
//! A script has rings if its second or third line starts with `rings`, or its fourth behind `fifo-size`. Without the lines of the rings it
//! is a script of the language, whose parser is proved, and whose chip, limit, size of FIFOs and events are its own. What a line of the
//! rings means is plain Rust.

use crate::heap;
use crate::text::{line_at, lines, words};
use uart_language::fields::{byte_in, bytes_in, count_in, interrupts_in, number_in};
use uart_language::limits::{MOST_BYTES, MOST_LIMIT, MOST_LINES};
use uart_language::{Cause, Item, Place, Script, ScriptError, has_bad_byte, item_at};
use uart_ring::{MAX_CAPACITY, ReceiveMarks};
use uart_ring_runs::RingCall;

/// How many bytes the rings have room for.
#[derive(Clone, Copy, Debug, PartialEq, Eq)]
pub struct Capacities {
    /// The room of the transmit ring.
    pub transmit: usize,
    /// The room of the receive ring.
    pub receive: usize,
}

/// A call of a script with rings.
#[derive(Debug, PartialEq)]
pub enum ScriptCall {
    /// One that runs of ring calls have too.
    OfRun(RingCall),
    /// `take_with_errors` into so many slots. Runs have it not: it is of rings over notes of errors, which those of a script are.
    TakeWithErrors(usize),
}

/// A script with rings: a script, how many bytes the rings have room for, and the calls that are made, those of the rings and those of
/// the driver under them.
pub struct RingScript {
    plain: Script,
    capacities: Capacities,
    calls: Vec<ScriptCall>,
}

impl RingScript {
    /// Returns the script without the lines of the rings. Its chip, its limit, its size of FIFOs and its events are those of the script
    /// with rings.
    pub fn plain(&self) -> &Script {
        &self.plain
    }

    /// Returns how many bytes the rings have room for.
    pub fn capacities(&self) -> Capacities {
        self.capacities
    }

    /// Returns the calls, in the order of the script.
    pub fn calls(&self) -> &[ScriptCall] {
        &self.calls
    }
}

/// A script that was read.
pub enum AnyScript {
    /// A script without rings.
    Plain(Script),
    /// A script with rings.
    Rings(RingScript),
}

impl AnyScript {
    /// Returns the script without the lines of the rings. Its chip, its limit, its size of FIFOs and its events are those of the script.
    pub fn plain(&self) -> &Script {
        match self {
            AnyScript::Plain(script) => script,
            AnyScript::Rings(script) => script.plain(),
        }
    }
}

// The words that only a script with rings has, and how many words a line of each has.
const WORDS: [(&str, usize); 22] = [
    ("rings", 3),
    ("queue", 2),
    ("resume-transmit", 1),
    ("take", 2),
    ("take-with-errors", 2),
    ("service", 1),
    ("handle", 2),
    ("retrigger", 1),
    ("take-line", 1),
    ("take-modem", 1),
    ("hold-transmit", 1),
    ("release-transmit", 1),
    ("queue-urgent", 2),
    ("clear-transmit", 1),
    ("clear-receive", 1),
    ("set-low-mark", 2),
    ("take-low", 1),
    ("try-handle", 3),
    ("restart", 2),
    ("adjust-rts", 3),
    ("adjust-xoff", 3),
    ("obey-xoff", 1),
];

fn word(line: &[u8], index: usize) -> &[u8] {
    words(line).nth(index).unwrap_or_default()
}

// Returns the word of the rings that a line starts with, and how many words such a line has.
fn ring_word(line: &[u8]) -> Option<(&'static str, usize)> {
    let first = word(line, 0);
    WORDS.into_iter().find(|(name, _)| name.as_bytes() == first)
}

/// Returns whether a line starts with a word of the rings.
pub fn is_ring_line(line: &[u8]) -> bool {
    ring_word(line).is_some()
}

// Returns the first word of the line with this number.
fn first_word_of(text: &[u8], number: u32) -> &[u8] {
    word(line_at(text, number as usize - 1), 0)
}

/// Returns the number of the line that starts with `rings`, if it is the second or the third, or the fourth behind `fifo-size`: then the
/// script has rings.
pub fn rings_at(text: &[u8]) -> Option<u32> {
    let last = match first_word_of(text, 3) {
        b"fifo-size" => 4,
        _ => 3,
    };
    (2..=last).find(|&number| first_word_of(text, number) == b"rings")
}

fn capacities_in(line: &[u8]) -> Result<Capacities, Cause> {
    let capacity = |index| number_in(1, MAX_CAPACITY as u64, word(line, index));
    Ok(Capacities {
        transmit: capacity(1)? as usize,
        receive: capacity(2)? as usize,
    })
}

// Returns the call of the words of a line of the rings, if it makes one: `rings` makes none.
fn ring_call(name: &str, line: &[u8]) -> Result<Option<ScriptCall>, Cause> {
    let limit = |index| number_in(0, MOST_LIMIT, word(line, index));
    let mark = |index| number_in(0, MAX_CAPACITY as u64, word(line, index));
    let marks = || -> Result<ReceiveMarks, Cause> {
        Ok(ReceiveMarks {
            hold: mark(1)? as usize,
            release: mark(2)? as usize,
        })
    };
    let field = word(line, 1);
    let call = match name {
        "rings" => {
            capacities_in(line)?;
            return Ok(None);
        }
        "take-with-errors" => return Ok(Some(ScriptCall::TakeWithErrors(count_in(field)?))),
        "queue" => RingCall::Queue(bytes_in(field)?),
        "resume-transmit" => RingCall::ResumeTransmit,
        "take" => RingCall::Take(count_in(field)?),
        "service" => RingCall::Service,
        "handle" => RingCall::Handle(limit(1)? as usize),
        "retrigger" => RingCall::Retrigger,
        "take-line" => RingCall::TakeLine,
        "take-modem" => RingCall::TakeModem,
        "hold-transmit" => RingCall::HoldTransmit,
        "release-transmit" => RingCall::ReleaseTransmit,
        "queue-urgent" => RingCall::QueueUrgent(byte_in(field)?),
        "clear-transmit" => RingCall::ClearTransmit,
        "clear-receive" => RingCall::ClearReceive,
        "set-low-mark" => RingCall::SetLowMark(mark(1)? as usize),
        "take-low" => RingCall::TakeLow,
        "try-handle" => RingCall::TryHandle(limit(1)? as usize, limit(2)? as u32),
        "restart" => RingCall::Restart(interrupts_in(field)?),
        "adjust-rts" => RingCall::AdjustRts(marks()?),
        "adjust-xoff" => RingCall::AdjustXoff(marks()?),
        "obey-xoff" => RingCall::ObeyXoff,
        _ => return Err(Cause::UnknownWord),
    };
    Ok(Some(ScriptCall::OfRun(call)))
}

// Returns whether a line starts with a word that no script with rings has: there is no terminal over the rings.
fn is_of_terminal(line: &[u8]) -> bool {
    word(line, 0) == b"text"
}

// Returns the call of a line that starts with no word of the rings, if it makes one.
fn driver_call_at(place: Place, line: &[u8]) -> Result<Option<ScriptCall>, Cause> {
    if is_of_terminal(line) && !has_bad_byte(line) {
        return Err(Cause::UnknownWord);
    }
    match item_at(place, line)? {
        Item::Next => Ok(Some(ScriptCall::OfRun(RingCall::Next))),
        Item::Call(call) => Ok(Some(ScriptCall::OfRun(RingCall::Driver(call)))),
        Item::Blank | Item::Limit(_) | Item::FifoSize(_) | Item::Event(_) => Ok(None),
    }
}

/// Returns the call of a line after the first, if it makes one. The line with the number `at` starts with `rings`, and line 2 starts with
/// `limit` or not.
///
/// # Errors
///
/// What is wrong with the line.
pub fn call_at(
    at: u32,
    is_limited: bool,
    number: u32,
    line: &[u8],
) -> Result<Option<ScriptCall>, Cause> {
    let Some((name, count)) = ring_word(line) else {
        return driver_call_at(Place::of(is_limited, number), line);
    };
    let is_placed = if name == "rings" {
        number == at
    } else {
        number > at
    };
    if has_bad_byte(line) {
        return Err(Cause::BadByte);
    }
    if !is_placed {
        return Err(Cause::Misplaced);
    }
    if words(line).count() != count {
        return Err(Cause::WrongCount);
    }
    ring_call(name, line)
}

// Returns a script with an empty line in place of each line whose word a script has only with rings, or only without. So the other lines
// keep their numbers.
fn without_rings(text: &[u8]) -> Vec<u8> {
    let is_kept = |line: &[u8]| !is_ring_line(line) && !is_of_terminal(line);
    let kept = lines(text).map(|line| if is_kept(line) { line } else { &[] });
    kept.collect::<Vec<_>>().join(&b'\n')
}

// Returns the calls of the lines after the first.
fn calls_of(at: u32, text: &[u8]) -> Result<Vec<ScriptCall>, ScriptError> {
    let is_limited = first_word_of(text, 2) == b"limit";
    let mut calls = Vec::new();
    for (number, line) in (1..).zip(lines(text)).skip(1) {
        // A line of the rings at the end may be one too many, and without it the script has none too many.
        let call = if number > MOST_LINES && !line.is_empty() {
            Err(Cause::TooLong)
        } else {
            call_at(at, is_limited, number, line)
        };
        match call {
            Ok(call) => calls.extend(call),
            Err(cause) => {
                return Err(ScriptError::Refused {
                    line: number,
                    cause,
                });
            }
        }
    }
    Ok(calls)
}

// Reads a script whose line with the number `at` starts with `rings`.
fn parse_rings(at: u32, text: &[u8]) -> Result<RingScript, ScriptError> {
    let plain = uart_language::parse(heap(), &without_rings(text));
    let calls = calls_of(at, text);
    let line_of = |error: &ScriptError| match error {
        ScriptError::Refused { line, .. } => *line,
        ScriptError::OutOfMemory => u32::MAX,
    };
    // The first fault is reported, whichever of the two finds it.
    let (plain, calls) = match (plain, calls) {
        (Ok(plain), Ok(calls)) => (plain, calls),
        (Err(first), Err(second)) if line_of(&second) < line_of(&first) => return Err(second),
        (Err(error), _) | (_, Err(error)) => return Err(error),
    };
    let capacities = capacities_in(line_at(text, at as usize - 1))
        .map_err(|cause| ScriptError::Refused { line: at, cause })?;
    Ok(RingScript {
        plain,
        capacities,
        calls,
    })
}

/// Reads a script, which may have rings.
///
/// # Errors
///
/// - `Refused`, with the first faulty line and what is wrong with it, if the bytes are not a script.
/// - `OutOfMemory` if memory for the script could not be allocated.
pub fn parse(text: &[u8]) -> Result<AnyScript, ScriptError> {
    match rings_at(text) {
        // A text that is too long is refused as such, whatever it has.
        Some(at) if text.len() <= MOST_BYTES => Ok(AnyScript::Rings(parse_rings(at, text)?)),
        _ => Ok(AnyScript::Plain(uart_language::parse(heap(), text)?)),
    }
}

#[cfg(test)]
mod tests {
    use super::*;
    use uart_calls::Call;

    // Returns the first faulty line of a script that begins so, and what is wrong with it.
    fn fault(script: &str) -> Option<(u32, Cause)> {
        match parse(script.as_bytes()) {
            Err(ScriptError::Refused { line, cause }) => Some((line, cause)),
            _ => None,
        }
    }

    #[test]
    fn the_first_fault_is_reported_whichever_line_has_it() {
        let rows = [
            ("rings 4 4\nqueue 41\n", None),
            ("limit 9\nrings 4096 1\n\nlsr\ntake 64", None),
            ("\nrings 4 4\n", None),
            ("queue 41\nrings 4 4\n", Some((2, Cause::Misplaced))),
            ("rings 4 4\nrings 4 4\n", Some((3, Cause::Misplaced))),
            ("rings 4 4\nlimit 9\n", Some((3, Cause::Misplaced))),
            ("fifo-size 64\nrings 4 4\nqueue 41\n", None),
            ("limit 9\nfifo-size 64\nrings 4 4\nqueue 41\n", None),
            ("rings 4 4\nfifo-size 64\n", Some((3, Cause::Misplaced))),
            (
                "limit 9\nrings 4 4\nfifo-size 64\n",
                Some((4, Cause::Misplaced)),
            ),
            ("\nfifo-size 64\nrings 4 4\n", Some((3, Cause::Misplaced))),
            (
                "fifo-size 64\nlsr\nrings 4 4\n",
                Some((4, Cause::UnknownWord)),
            ),
            ("lsr\nlsr\nrings 4 4\n", Some((4, Cause::UnknownWord))),
            ("rings 0 4\nsing\n", Some((2, Cause::BadNumber))),
            ("rings 4 4097\n", Some((2, Cause::BadNumber))),
            ("rings 4\n", Some((2, Cause::WrongCount))),
            ("rings 4 4\nqueue 4\nsing\n", Some((3, Cause::BadHex))),
            ("rings 4 4\nsing\nqueue 4\n", Some((3, Cause::UnknownWord))),
            ("rings 4 4\ntake 65\n", Some((3, Cause::BadNumber))),
            (
                "rings 4 4\ntake-with-errors 65\n",
                Some((3, Cause::BadNumber)),
            ),
            (
                "rings 4 4\ntake-with-errors\n",
                Some((3, Cause::WrongCount)),
            ),
            ("rings 4 4\nservice 1\n", Some((3, Cause::WrongCount))),
            ("rings 4 4\nservice\t\n", Some((3, Cause::BadByte))),
            ("rings 4 4\ntake 1\t\n", Some((3, Cause::BadByte))),
            (
                "rings 4 4\nadjust-rts 1 4097\n",
                Some((3, Cause::BadNumber)),
            ),
            ("rings 4 4\ntext 41\n", Some((3, Cause::UnknownWord))),
            ("rings 4 4\ntext 4\n", Some((3, Cause::UnknownWord))),
            ("rings 4 4\ntext 41\t\n", Some((3, Cause::BadByte))),
        ];
        for (script, wanted) in rows {
            let script = format!("chip 16550a 4 64\n{script}");
            assert_eq!(fault(&script), wanted, "{script}");
        }
        assert_eq!(fault("chip\nrings 0 4\n"), Some((1, Cause::WrongCount)));
    }

    #[test]
    fn a_script_has_its_lines_and_bytes_in_their_limits() {
        let head = "chip 16550a 4 64\nrings 4 4\n";
        let most = format!("{head}{}", "service\n".repeat(4094));
        assert_eq!(fault(&most), None);
        let too_long = Some((4097, Cause::TooLong));
        assert_eq!(fault(&format!("{most}service")), too_long);
        assert_eq!(fault(&format!("{most}sing\nqueue 4\n")), too_long);
        let blanks = format!("{head}{}", "\n".repeat(65_536));
        assert_eq!(fault(&blanks), Some((0, Cause::TooLong)));
    }

    #[test]
    fn calls_are_those_of_the_lines_in_order() {
        let text =
            b"chip 16550a 4 64\nrings 8 2\nadjust-rts 1 2\ntick 5\nnext\nlsr\ntake-with-errors 7\n";
        let Ok(AnyScript::Rings(script)) = parse(text) else {
            panic!("a script with rings");
        };
        let (hold, release) = (1, 2);
        let wanted = [
            ScriptCall::OfRun(RingCall::AdjustRts(ReceiveMarks { hold, release })),
            ScriptCall::OfRun(RingCall::Next),
            ScriptCall::OfRun(RingCall::Driver(Call::Lsr)),
            ScriptCall::TakeWithErrors(7),
        ];
        assert_eq!(script.calls(), wanted);
        let (transmit, receive) = (8, 2);
        assert_eq!(script.capacities(), Capacities { transmit, receive });
        assert_eq!(script.plain().events().len(), 2);
    }
}
