//! What was seen at the port of a chip.

use bitflags::Flags;
use std::fmt;
use uart_spec::access::Access;
use uart_spec::registers::{LSR, MSR};

/// What happened at the port of a chip.
#[derive(Clone, Copy, Debug, PartialEq, Eq)]
pub enum Happening {
    /// The driver accessed a register, whose offset is less than `NUM_REGISTERS`.
    Access(Access),
    /// A character arrived from the remote, with these errors: parity, framing and break.
    Arrive {
        /// The byte.
        byte: u8,
        /// Its errors, which are among `LSR::CHARACTER_ERRORS`.
        errors: LSR,
    },
    /// The interrupt line got this level, without an access.
    Interrupt {
        /// Whether the line is raised.
        is_raised: bool,
    },
    /// The modem inputs became these: CTS, DSR, RI and CD, which are `MSR::LINES`.
    Lines(MSR),
}

/// Something that happened, and where a recording says so.
#[derive(Clone, Copy, Debug, PartialEq, Eq)]
pub struct Entry {
    /// What happened.
    pub happening: Happening,
    /// How many times in turn it happened: once, but for a read that is repeated.
    pub times: u64,
    /// The number of its line, counted from 1.
    pub line: u64,
    /// When it happened, in nanoseconds, if the line says so.
    pub time: Option<u64>,
    /// Whether the interrupt line was raised after it, if the line says so.
    pub interrupt: Option<bool>,
}

impl fmt::Display for Happening {
    fn fmt(&self, f: &mut fmt::Formatter<'_>) -> fmt::Result {
        match self {
            Happening::Access(Access::Read(offset, answer)) => write!(f, "r {offset} {answer:02x}"),
            Happening::Access(Access::Write(offset, value)) => write!(f, "w {offset} {value:02x}"),
            Happening::Arrive { byte, errors } => write!(f, "a {:02x} {byte:02x}", errors.bits()),
            Happening::Interrupt { .. } => write!(f, "i"),
            Happening::Lines(inputs) => write!(f, "m {:02x}", inputs.bits()),
        }
    }
}

/// Writes the line of a recording that means this entry, in the project's own format. A read that
/// is not made once is written as a repeat, which means the same behind the entry that it repeats.
impl fmt::Display for Entry {
    fn fmt(&self, f: &mut fmt::Formatter<'_>) -> fmt::Result {
        if self.times != 1 {
            return write!(f, "x {}", self.times);
        }
        write!(f, "{}", self.happening)?;
        match self.interrupt {
            Some(true) => write!(f, " 1")?,
            Some(false) => write!(f, " 0")?,
            None => {}
        }
        match self.time {
            Some(time) => write!(f, " @{time}"),
            None => Ok(()),
        }
    }
}
