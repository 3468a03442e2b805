//! A read whose value the chip could not have returned.
use crate::replay::rule::Rule;
use std::fmt;
use uart_spec::registers::offsets;

/// A read whose value the chip could not have returned, whatever the time that passed, and whatever
/// came from outside.
#[derive(Clone, Copy, Debug, PartialEq, Eq)]
pub struct Difference {
    /// The offset of the register that was read.
    pub offset: usize,
    /// What the read returned.
    pub recorded: u8,
    /// Why the chip could not have returned it.
    pub rule: Rule,
}

/// What is reported for equal reads in turn.
#[derive(Clone, Copy, Debug, PartialEq, Eq)]
pub struct Reported {
    /// For the first of them.
    pub first: Option<Difference>,
    /// For each of the others.
    pub others: Option<Difference>,
}

// Returns the name of the register that is read at this offset.
fn register(offset: usize) -> &'static str {
    match offset {
        offsets::DATA => "offset 0",
        offsets::IER => "offset 1",
        offsets::ISR => "ISR",
        offsets::LCR => "LCR",
        offsets::MCR => "MCR",
        offsets::LSR => "LSR",
        offsets::MSR => "MSR",
        _ => "SCR",
    }
}

impl fmt::Display for Difference {
    fn fmt(&self, f: &mut fmt::Formatter<'_>) -> fmt::Result {
        let register = register(self.offset);
        write!(f, "{register} reads {:02x}: {}", self.recorded, self.rule)
    }
}
