//! An object of JSON in each line: `{"time":0.5,"op":"read","offset":5,"value":96}`.
//!
//! The members are named as [`Role`] does. A number in quotes may be hexadecimal, behind `0x`.

use super::address::Seen;
use super::fields::{Fields, Role, Space, Writer};
use super::numbers::{iso_time, number, seconds};
use super::refusal::Refusal;
use super::{Format, Window};
use std::cell::RefCell;
use std::rc::Rc;
use uart_spec::registers::LSR;

/// What reads lines of JSON.
#[derive(Debug)]
pub(super) struct Json {
    writer: Writer,
}

/// Returns whether this line may be an object of JSON.
pub(super) fn is_line(line: &[u8]) -> bool {
    matches!(line.trim_ascii(), [b'{', .., b'}'] | [b'{', .., b'}', b','])
}

// What is left of a line.
struct Rest<'a> {
    line: &'a [u8],
    rest: &'a [u8],
}

impl<'a> Rest<'a> {
    fn skip_spaces(&mut self) {
        self.rest = self.rest.trim_ascii_start();
    }

    fn refused(&self, wants: &str) -> Refusal {
        Refusal::at(self.line, self.rest, "bad JSON", wants)
    }

    // Takes a byte, if it is the next one.
    fn takes(&mut self, byte: u8) -> bool {
        self.skip_spaces();
        match self.rest {
            [first, rest @ ..] if *first == byte => {
                self.rest = rest;
                true
            }
            _ => false,
        }
    }

    fn expect(&mut self, byte: u8) -> Result<(), Refusal> {
        if self.takes(byte) {
            Ok(())
        } else {
            Err(self.refused(&char::from(byte).to_string()))
        }
    }

    fn take(&mut self, count: usize) -> &'a [u8] {
        let (taken, rest) = self.rest.split_at(count);
        self.rest = rest;
        taken
    }

    // Takes a text. What is escaped stays so: no name and no number has that.
    fn text(&mut self) -> Result<&'a [u8], Refusal> {
        self.expect(b'"')?;
        let mut is_escaped = false;
        let end = self.rest.iter().position(|&byte| {
            let is_end = byte == b'"' && !is_escaped;
            is_escaped = byte == b'\\' && !is_escaped;
            is_end
        });
        let Some(end) = end else {
            return Err(self.refused("a text, with its quote at the end"));
        };
        let text = self.take(end);
        self.take(1);
        Ok(text)
    }

    // Takes a value: a text without its quotes, or what stands there up to the next member. Objects and lists are taken whole.
    fn value(&mut self) -> Result<&'a [u8], Refusal> {
        self.skip_spaces();
        if let [b'"', ..] = self.rest {
            return self.text();
        }
        let mut depth = 0u32;
        let end = self.rest.iter().position(|byte| match byte {
            b'{' | b'[' => {
                depth += 1;
                false
            }
            b'}' | b']' if depth > 0 => {
                depth -= 1;
                false
            }
            b',' | b'}' => depth == 0,
            _ => false,
        });
        match end.unwrap_or(self.rest.len()) {
            0 => Err(self.refused("a value")),
            end => Ok(self.take(end).trim_ascii_end()),
        }
    }
}

impl Json {
    /// Returns what reads the objects of a chip with these addresses.
    pub(super) fn new(window: Window, seen: Rc<RefCell<Seen>>) -> Self {
        Json {
            writer: Writer::new(window, seen),
        }
    }
}

// Takes a member into the fields.
fn add<'a>(
    line: &'a [u8],
    role: Role,
    value: &'a [u8],
    fields: &mut Fields<'a>,
) -> Result<(), Refusal> {
    let refused = |cause, wants: &str| Refusal::at(line, value, cause, wants);
    if value == b"null" {
        return Ok(());
    }
    match role {
        Role::Verb => fields.say_verb(line, value),
        Role::Address | Role::Value | Role::Errors => {
            let wants = "a number, or \"0xHH\"";
            let number = number(value).ok_or_else(|| refused("bad number", wants))?;
            match role {
                Role::Address => fields.address = Some((number, value)),
                Role::Value => fields.value = Some((number, value)),
                _ => fields.errors = number as u8 & LSR::CHARACTER_ERRORS.bits(),
            }
        }
        Role::Level => {
            fields.level = match value {
                b"0" | b"false" => Some(false),
                b"1" | b"true" => Some(true),
                _ => {
                    return Err(refused(
                        "bad level",
                        "the level of the interrupt line: 0 or 1",
                    ));
                }
            }
        }
        Role::Time(unit) => {
            let number = seconds(value).map(|time| time * i128::from(unit) / 1_000_000_000);
            let time = iso_time(value).or(number);
            let wants = "a time: a number with or without a fraction, or one of ISO 8601";
            fields.time = Some(time.ok_or_else(|| refused("bad time", wants))?);
        }
    }
    Ok(())
}

/// Takes each member of an object of JSON in a line: its name and its value. A text has no quotes, and what is escaped in it stays so.
///
/// # Errors
///
/// Where the line is no object, or why a member is refused.
pub fn each_member<'a>(
    line: &'a [u8],
    mut take: impl FnMut(&'a [u8], &'a [u8]) -> Result<(), Refusal>,
) -> Result<(), Refusal> {
    let mut rest = Rest { line, rest: line };
    rest.expect(b'{')?;
    if rest.takes(b'}') {
        return Ok(());
    }
    loop {
        let name = rest.text()?;
        rest.expect(b':')?;
        take(name, rest.value()?)?;
        if !rest.takes(b',') {
            return rest.expect(b'}');
        }
    }
}

impl Format for Json {
    fn rewrite(&mut self, line: &[u8], out: &mut Vec<u8>) -> Result<(), Refusal> {
        // A list of objects has its brackets in lines of their own.
        if matches!(line.trim_ascii(), b"" | b"[" | b"]" | b"],") || line.starts_with(b"#") {
            return Ok(());
        }
        let mut fields = Fields::default();
        each_member(line, |name, value| match Role::named(name) {
            Some(role) => add(line, role, value, &mut fields),
            None => Ok(()),
        })?;
        if fields.is_other_event() {
            return Ok(());
        }
        self.writer.write(Space::Any, line, &fields, out)
    }
}

#[cfg(test)]
mod tests {
    use super::*;

    fn rewritten(line: &str) -> Result<String, Refusal> {
        let window = Window {
            port: Some(0x3f8),
            ..Window::default()
        };
        let mut out = Vec::new();
        Json::new(window, Rc::default()).rewrite(line.as_bytes(), &mut out)?;
        Ok(String::from_utf8(out).unwrap())
    }

    #[test]
    fn objects() {
        for (line, said) in [
            (
                r#"{"time":0.5,"op":"read","port":"0x3fd","value":96,"level":0}"#,
                "r 5 60 0 @500000000",
            ),
            (
                r#"{"ns": 7, "dir": "out", "port": 1016, "data": "0x41", "cpu": {"n": [1, 2]}},"#,
                "w 0 41 @7",
            ),
            (r#"{"event":"irq","level":true}"#, "i 1"),
            (r#"{"message":"hello \"you\"","vcpu":3}"#, ""),
            (r#"{"op":"w","port":752,"value":1}"#, ""),
            ("[", ""),
            ("{}", ""),
        ] {
            assert_eq!(rewritten(line).unwrap(), said, "{line}");
        }
    }

    #[test]
    fn objects_that_are_refused() {
        for (line, cause, column) in [
            (r#"{"op":"read","port":1017"#, "bad JSON", 25),
            (r#"{"op":"reads","value":1}"#, "bad word", 8),
            (r#"{"op":"read" "value":1}"#, "bad JSON", 14),
            (r#"{"op":"read","value":x}"#, "bad number", 22),
            (r#"{"op":"read","value":1}"#, "something is missing", 24),
            ("hello", "bad JSON", 1),
        ] {
            let refusal = rewritten(line).unwrap_err();
            assert_eq!((refusal.cause, refusal.column), (cause, column), "{line}");
        }
    }
}
