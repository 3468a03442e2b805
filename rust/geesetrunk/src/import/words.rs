//! Words and numbers of a monitor's own, in any of the usual ways to print an access:
//!
//! ```text
//! [   12.345678] uart: write addr=0x3f8 val=0x41
//! 2024-05-06T07:08:09.123456Z read offset 5 value 0x60
//! r 0x5 0x60
//! ```
//!
//! A word says whether it is a read or a write. A number behind a name is what the name says; of numbers without a name the first is
//! the register, and the second the byte. All are hexadecimal, with or without `0x`, as they are in a recording. Without a name and
//! without `0x` a number counts right behind the verb alone: in `read error 5 from 60` nothing is accessed.

use super::address::Seen;
use super::fields::{Fields, Role, Space, Verb, Writer};
use super::numbers::{hexadecimal, seconds};
use super::plain::without_time;
use super::refusal::Refusal;
use super::{Format, Window};
use std::cell::RefCell;
use std::rc::Rc;

/// What reads lines of words.
#[derive(Debug)]
pub(super) struct Words {
    writer: Writer,
}

// Returns the words of a line: what is between spaces, commas and brackets. An equals sign and a colon at the end part a name from its
// number.
fn words(line: &[u8]) -> impl Iterator<Item = &[u8]> {
    line.split(|byte| {
        matches!(
            byte,
            b' ' | b'\t' | b',' | b';' | b'(' | b')' | b'[' | b']' | b'=' | b'<' | b'>'
        )
    })
    .map(|word| word.strip_suffix(b":").unwrap_or(word))
    .filter(|word| !word.is_empty())
}

// Returns a time in front of a line, in brackets or before a colon, as a kernel and a monitor have it. One has a point: a number
// without a point is something else.
fn seconds_in(word: &[u8]) -> Option<i128> {
    if word.contains(&b'.') {
        seconds(word)
    } else {
        None
    }
}

// Returns a number of hexadecimal digits. Letters alone may be a word, as `add`: they are a number only where one of a byte is due.
fn number_in(word: &[u8], is_byte_due: bool) -> Option<u64> {
    const MOST_DIGITS: usize = 2;
    let has_digit = word.iter().any(u8::is_ascii_digit);
    hexadecimal(word).filter(|_| has_digit || is_byte_due && word.len() <= MOST_DIGITS)
}

// Returns what a line says, or where it is refused. A line without a verb says nothing.
fn fields_in(line: &[u8]) -> Result<Option<Fields<'_>>, Refusal> {
    let (time, rest) = without_time(line);
    let mut fields = Fields {
        time,
        ..Fields::default()
    };
    let mut role = None;
    // Whether another word stands between the verb and what follows.
    let mut is_apart = false;
    for word in words(rest) {
        if fields.verb.is_none() {
            fields.verb = Verb::named(word);
            if fields.time.is_none() {
                fields.time = seconds_in(word);
            }
            continue;
        }
        if let Some(named) = Role::named(word) {
            role = Some(named);
            continue;
        }
        if let [b'@', digits @ ..] = word {
            fields.time = super::numbers::decimal(digits).map(i128::from);
            continue;
        }
        let taken = role.take();
        let is_byte_due =
            taken == Some(Role::Value) || fields.address.is_some() && fields.value.is_none();
        let Some(number) = number_in(word, is_byte_due) else {
            if matches!(taken, Some(Role::Address | Role::Value)) {
                let wants = "a hexadecimal number, with or without 0x";
                return Err(Refusal::at(line, word, "bad number", wants));
            }
            is_apart |= word.iter().any(u8::is_ascii_alphanumeric);
            continue;
        };
        if taken.is_none() && is_apart && !has_prefix(word) {
            continue;
        }
        match taken {
            Some(Role::Address) => fields.address = Some((number, word)),
            Some(Role::Value) => fields.value = Some((number, word)),
            Some(Role::Level) => fields.level = Some(number != 0),
            Some(_) => {}
            None => place(number, word, &mut fields),
        }
    }
    Ok(fields.verb.map(|_| fields))
}

// Takes a number without a name: the register of an access is first, and then its byte. A character has a byte, and an interrupt a
// level.
fn place<'a>(number: u64, word: &'a [u8], fields: &mut Fields<'a>) {
    let is_access = matches!(fields.verb, Some(Verb::Read | Verb::Write));
    if fields.verb == Some(Verb::Interrupt) {
        fields.level = Some(number != 0);
    } else if is_access && fields.address.is_none() {
        fields.address = Some((number, word));
    } else if fields.value.is_none() {
        fields.value = Some((number, word));
    }
}

fn has_prefix(word: &[u8]) -> bool {
    word.starts_with(b"0x") || word.starts_with(b"0X")
}

// Returns a byte of a line that no terminal should get. A tab parts words.
fn control_in(line: &[u8]) -> Option<usize> {
    line.iter()
        .position(|byte| byte.is_ascii_control() && *byte != b'\t')
}

// Returns whether a line has what its verb needs.
fn is_whole(fields: &Fields<'_>) -> bool {
    match fields.verb {
        Some(Verb::Read | Verb::Write) => fields.address.is_some() && fields.value.is_some(),
        Some(Verb::Interrupt) => fields.level.is_some(),
        Some(_) => fields.value.is_some(),
        None => false,
    }
}

// Returns whether the first word of a line is its verb. A time may stand before it.
fn begins_with_verb(line: &[u8]) -> bool {
    let (_, rest) = without_time(line);
    let mut words = words(rest).skip_while(|word| seconds_in(word).is_some());
    words.next().is_some_and(|word| Verb::named(word).is_some())
}

/// Returns whether this line is an access beyond doubt: it has all that an access needs, and a name or `0x` says which number is the
/// register and which the byte. Two bare numbers may be anything.
pub(super) fn is_certain(line: &[u8]) -> bool {
    let Ok(Some(fields)) = fields_in(line) else {
        return false;
    };
    let is_access = matches!(fields.verb, Some(Verb::Read | Verb::Write)) && is_whole(&fields);
    let is_named = words(line).any(|word| {
        has_prefix(word) || matches!(Role::named(word), Some(Role::Address | Role::Value))
    });
    is_access && is_named && control_in(line).is_none()
}

impl Words {
    /// Returns what reads the lines of a chip with these addresses.
    pub(super) fn new(window: Window, seen: Rc<RefCell<Seen>>) -> Self {
        Words {
            writer: Writer::new(window, seen),
        }
    }
}

impl Format for Words {
    fn rewrite(&mut self, line: &[u8], out: &mut Vec<u8>) -> Result<(), Refusal> {
        if line.starts_with(b"#") {
            return Ok(());
        }
        let Some(fields) = fields_in(line)? else {
            return Ok(());
        };
        // Another line of a monitor may have such a word too: 'booted in 5 seconds', 'write of a file'. Unless the word is the first one
        // and has a number, a line that does not have all of it is no access.
        let has_number =
            fields.address.is_some() || fields.value.is_some() || fields.level.is_some();
        let is_access = is_whole(&fields) || has_number && begins_with_verb(line);
        if !is_access {
            return Ok(());
        }
        if let Some(place) = control_in(line) {
            let wants = format!("printable text, and not the byte {:02x}", line[place]);
            return Err(Refusal::at(line, &line[place..], "bad byte", wants));
        }
        self.writer.write(Space::Any, line, &fields, out)
    }
}

#[cfg(test)]
mod tests {
    use super::*;

    fn rewritten(port: Option<u64>, line: &str) -> Result<String, Refusal> {
        let window = Window {
            port,
            ..Window::default()
        };
        let mut out = Vec::new();
        Words::new(window, Rc::default()).rewrite(line.as_bytes(), &mut out)?;
        Ok(String::from_utf8(out).unwrap())
    }

    #[test]
    fn usual_ways_to_print_an_access() {
        for (line, said) in [
            ("r 0x5 0x60", "r 5 60"),
            ("r 5 60 @17", "r 5 60 @17"),
            ("w 3 d", "w 3 0d"),
            ("w 3 fe", "w 3 fe"),
            ("serial: outb(5, d)", "w 5 0d"),
            ("write of a bad file", ""),
            (
                "[   12.345678] uart: write addr=0x3f8 val=0x41",
                "w 0 41 @12345678000",
            ),
            (
                "1970-01-01T00:00:01Z read offset 3fd value 0x60",
                "r 5 60 @1000000000",
            ),
            ("vcpu0: OUT(0x3f8, 0x41)", "w 0 41"),
            ("pio_write port: 0x3f8 data: 41 size: 1", "w 0 41"),
            ("in 0x3fd -> 0x60", "r 5 60"),
            ("the guest has booted", ""),
            ("booted in 5 seconds", ""),
            ("write addr=0x70 val=0x41", ""),
            ("sshd[33]: read error 5 from 60", ""),
            ("cron[44]: write failed 2 07", ""),
        ] {
            let port = (line.contains("3f") || line.contains("0x70")).then_some(0x3f8);
            assert_eq!(rewritten(port, line).unwrap(), said, "{line}");
        }
    }

    #[test]
    fn lines_that_are_refused() {
        for (line, cause, column) in [
            ("r 5", "something is missing", 4),
            ("r 9 60", "bad offset", 3),
            ("read addr=five val=0x60", "bad number", 11),
            ("w 0 0x141", "bad byte", 5),
            ("r 5 \x07 60", "bad byte", 5),
        ] {
            let refusal = rewritten(None, line).unwrap_err();
            assert_eq!((refusal.cause, refusal.column), (cause, column), "{line}");
        }
    }
}
