//! What a line of a log says in fields, and the line of a recording that says the same.

use super::address::{Reached, Seen, Window};
use super::refusal::Refusal;
use std::cell::RefCell;
use std::io::Write;
use std::rc::Rc;

/// What happened.
#[derive(Clone, Copy, Debug, PartialEq, Eq)]
pub enum Verb {
    /// A register was read.
    Read,
    /// A register was written.
    Write,
    /// A character arrived.
    Arrive,
    /// The modem inputs changed.
    Lines,
    /// The interrupt line changed.
    Interrupt,
}

impl Verb {
    /// Returns what a word says, in the words that logs have for it.
    pub fn named(word: &[u8]) -> Option<Self> {
        const WORDS: [(&str, Verb); 26] = [
            ("r", Verb::Read),
            ("rd", Verb::Read),
            ("read", Verb::Read),
            ("readb", Verb::Read),
            ("in", Verb::Read),
            ("inb", Verb::Read),
            ("load", Verb::Read),
            ("pio_read", Verb::Read),
            ("mmio_read", Verb::Read),
            ("w", Verb::Write),
            ("wr", Verb::Write),
            ("write", Verb::Write),
            ("writeb", Verb::Write),
            ("out", Verb::Write),
            ("outb", Verb::Write),
            ("store", Verb::Write),
            ("pio_write", Verb::Write),
            ("mmio_write", Verb::Write),
            ("a", Verb::Arrive),
            ("arrive", Verb::Arrive),
            ("rx", Verb::Arrive),
            ("m", Verb::Lines),
            ("modem", Verb::Lines),
            ("i", Verb::Interrupt),
            ("irq", Verb::Interrupt),
            ("interrupt", Verb::Interrupt),
        ];
        let mut words = WORDS.iter();
        words
            .find(|(name, _)| name.as_bytes().eq_ignore_ascii_case(word))
            .map(|(_, verb)| *verb)
    }
}

/// What a field of a line says.
#[derive(Clone, Copy, Debug, PartialEq, Eq)]
pub enum Role {
    /// What happened.
    Verb,
    /// An offset, an address or a port.
    Address,
    /// The byte.
    Value,
    /// The errors of a character, as bits of LSR.
    Errors,
    /// The level of the interrupt line.
    Level,
    /// The time, in a number of these nanoseconds, or of ISO 8601.
    Time(u64),
}

impl Role {
    /// Returns what a field of this name says.
    pub fn named(name: &[u8]) -> Option<Self> {
        const SECOND: Role = Role::Time(1_000_000_000);
        const NAMES: [(&str, Role); 36] = [
            ("op", Role::Verb),
            ("kind", Role::Verb),
            ("access", Role::Verb),
            ("direction", Role::Verb),
            ("dir", Role::Verb),
            ("rw", Role::Verb),
            ("r/w", Role::Verb),
            ("type", Role::Verb),
            ("event", Role::Verb),
            ("offset", Role::Address),
            ("reg", Role::Address),
            ("register", Role::Address),
            ("addr", Role::Address),
            ("address", Role::Address),
            ("port", Role::Address),
            ("gpa", Role::Address),
            ("at", Role::Address),
            ("value", Role::Value),
            ("val", Role::Value),
            ("data", Role::Value),
            ("byte", Role::Value),
            ("errors", Role::Errors),
            ("level", Role::Level),
            ("irq", Role::Level),
            ("line", Role::Level),
            ("time", SECOND),
            ("time [s]", SECOND),
            ("timestamp", SECOND),
            ("ts", SECOND),
            ("seconds", SECOND),
            ("ms", Role::Time(1_000_000)),
            ("time_ms", Role::Time(1_000_000)),
            ("us", Role::Time(1_000)),
            ("time_us", Role::Time(1_000)),
            ("ns", Role::Time(1)),
            ("time_ns", Role::Time(1)),
        ];
        let mut names = NAMES.iter();
        names
            .find(|(role, _)| role.as_bytes().eq_ignore_ascii_case(name))
            .map(|(_, role)| *role)
    }
}

/// What a line says. A part that it does not have is `None`.
#[derive(Clone, Debug, Default, PartialEq, Eq)]
pub struct Fields<'a> {
    /// What happened.
    pub verb: Option<Verb>,
    /// A word that stands in the place of a verb, and is none.
    pub other_verb: Option<Refusal>,
    /// The address, and where the line has it.
    pub address: Option<(u64, &'a [u8])>,
    /// The byte, and where the line has it.
    pub value: Option<(u64, &'a [u8])>,
    /// The errors of a character.
    pub errors: u8,
    /// The level of the interrupt line.
    pub level: Option<bool>,
    /// The time in nanoseconds.
    pub time: Option<i128>,
}

impl Fields<'_> {
    /// Takes a word for what happened. One that is none is refused when the fields are written.
    pub fn say_verb(&mut self, line: &[u8], word: &[u8]) {
        self.verb = Verb::named(word);
        if self.verb.is_none() {
            let wants = "r or w, read or write, a, m or i";
            self.other_verb = Some(Refusal::at(line, word, "bad word", wants));
        }
    }

    /// Returns whether this is another event of whoever writes the log, which has neither a register nor a byte.
    pub fn is_other_event(&self) -> bool {
        self.verb.is_none() && self.address.is_none() && self.value.is_none()
    }
}

/// Whether an address is one of memory, an I/O port, or what the command line says.
#[derive(Clone, Copy, Debug, PartialEq, Eq)]
pub enum Space {
    /// Memory.
    Memory,
    /// I/O ports.
    Ports,
    /// It is not known: an offset, unless the command line says where the chip is.
    Any,
    /// The offset of a register.
    Offset,
}

/// What writes fields as lines of a recording.
#[derive(Debug)]
pub struct Writer {
    window: Window,
    seen: Rc<RefCell<Seen>>,
    // What is added to each time, so that none is negative: it is that of the first line.
    shift: Option<i128>,
}

impl Writer {
    /// Returns what writes the lines of a chip with these addresses.
    pub fn new(window: Window, seen: Rc<RefCell<Seen>>) -> Self {
        Writer {
            window,
            seen,
            shift: None,
        }
    }

    /// Writes what fields say as a line of a recording. An access of another device is left out, and counted.
    ///
    /// # Errors
    ///
    /// Where a field is refused, and why.
    pub fn write(
        &mut self,
        space: Space,
        line: &[u8],
        fields: &Fields<'_>,
        out: &mut Vec<u8>,
    ) -> Result<(), Refusal> {
        let missing = |wants: &str| Refusal::at(line, b"", "something is missing", wants);
        let verb = fields.verb.ok_or_else(|| {
            let other = fields.other_verb.clone();
            other.unwrap_or_else(|| missing("whether it is a read or a write"))
        })?;
        let before = out.len();
        match verb {
            Verb::Read | Verb::Write => {
                let (address, word) = fields
                    .address
                    .ok_or_else(|| missing("the offset or the address of the register"))?;
                let Some(offset) = self.offset(space, line, address, word)? else {
                    return Ok(());
                };
                let value = fields.value.ok_or_else(|| missing("the byte"))?;
                let value = byte_of(line, value)?;
                let letter = if verb == Verb::Read { 'r' } else { 'w' };
                // A text in memory takes everything, here and below.
                let _ = write!(out, "{letter} {offset} {value:02x}");
            }
            Verb::Arrive => {
                let value = fields.value.ok_or_else(|| missing("the byte"))?;
                let value = byte_of(line, value)?;
                let _ = write!(out, "a {:02x} {value:02x}", fields.errors);
            }
            Verb::Lines => {
                let value = fields.value.ok_or_else(|| missing("the modem inputs"))?;
                let value = byte_of(line, value)?;
                let _ = write!(out, "m {value:02x}");
            }
            Verb::Interrupt => {
                if fields.level.is_none() {
                    return Err(missing("the level of the interrupt line: 0 or 1"));
                }
                let _ = write!(out, "i");
            }
        }
        self.write_stamp(fields, out);
        if out.len() > before {
            self.seen.borrow_mut().of_chip += 1;
        }
        Ok(())
    }

    fn write_stamp(&mut self, fields: &Fields<'_>, out: &mut Vec<u8>) {
        if let Some(level) = fields.level {
            let _ = write!(out, " {}", u8::from(level));
        }
        if let Some(time) = fields.time {
            let shift = *self.shift.get_or_insert((-time).max(0));
            let time = (time + shift).clamp(0, u64::MAX.into());
            let _ = write!(out, " @{time}");
        }
    }

    // Returns the register of an address, or `None` if it is another device's.
    fn offset(
        &self,
        space: Space,
        line: &[u8],
        address: u64,
        word: &[u8],
    ) -> Result<Option<usize>, Refusal> {
        let reached = match space {
            Space::Memory => self.window.memory(address),
            Space::Ports => self.window.port(address),
            Space::Any => self.window.any(address),
            Space::Offset => Window::default().any(address),
        };
        match reached {
            Reached::Register(offset) => Ok(Some(offset)),
            Reached::Between => Err(Refusal::at(
                line,
                word,
                "bad address",
                "an address of a register: this one is between two of them, by --base and --stride",
            )),
            Reached::Other if space == Space::Any && self.window.is_unknown() => Err(Refusal::at(
                line,
                word,
                "bad offset",
                "an offset from 0 to 7; if it is an address, say where the chip is by --port or --base",
            )),
            Reached::Other => {
                self.seen.borrow_mut().count_other(address);
                Ok(None)
            }
        }
    }
}

/// Returns a value as a byte.
fn byte_of(line: &[u8], (value, word): (u64, &[u8])) -> Result<u8, Refusal> {
    u8::try_from(value)
        .map_err(|_| Refusal::at(line, word, "bad byte", "a byte: a register has eight bits"))
}

#[cfg(test)]
mod tests {
    use super::*;

    #[test]
    fn verbs_and_roles_have_several_words() {
        assert_eq!(Verb::named(b"OUTB"), Some(Verb::Write));
        assert_eq!(Verb::named(b"reads"), None);
        assert_eq!(Role::named(b"Time [s]"), Some(Role::Time(1_000_000_000)));
        assert_eq!(Role::named(b"colour"), None);
    }

    #[test]
    fn times_before_a_trigger_are_moved() {
        let mut writer = Writer::new(Window::default(), Rc::default());
        let mut fields = Fields {
            verb: Some(Verb::Arrive),
            value: Some((0x41, b"")),
            time: Some(-500),
            ..Fields::default()
        };
        let mut out = Vec::new();
        writer.write(Space::Any, b"", &fields, &mut out).unwrap();
        fields.time = Some(700);
        out.push(b'\n');
        writer.write(Space::Any, b"", &fields, &mut out).unwrap();
        assert_eq!(out, b"a 00 41 @0\na 00 41 @1200");
    }
}
