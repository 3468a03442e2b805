//! The moments of a run or of a recording: what happens at one time.

use uart_spec::access::Access;
use uart_spec::registers::{LSR, offsets};

/// An access, with the name of its register.
#[derive(Clone, Copy, Debug, PartialEq)]
pub struct Seen {
    /// The access.
    pub access: Access,
    /// The name of the register.
    pub register: &'static str,
}

/// A byte that arrived.
#[derive(Clone, Copy, Debug, PartialEq)]
pub struct Arrival {
    /// The byte.
    pub byte: u8,
    /// Its errors.
    pub errors: LSR,
    /// The number of the arrival in the schedule, counted from 0.
    pub number: usize,
}

impl Arrival {
    /// Returns the letters of its errors, as a script has them: `p` for parity, `f` for framing,
    /// `b` for break.
    pub fn letters(self) -> &'static str {
        let has_parity = self.errors.contains(LSR::PARITY_ERROR);
        let has_framing = self.errors.contains(LSR::FRAMING_ERROR);
        let is_break = self.errors.contains(LSR::BREAK_INTERRUPT);
        match (has_parity, has_framing, is_break) {
            (false, false, false) => "",
            (true, false, false) => "p",
            (false, true, false) => "f",
            (false, false, true) => "b",
            (true, true, false) => "pf",
            (true, false, true) => "pb",
            (false, true, true) => "fb",
            (true, true, true) => "pfb",
        }
    }
}

/// What happens at one time, up to an access if there is one.
#[derive(Clone, Copy, Debug, Default, PartialEq)]
pub struct Happened {
    /// The byte that was sent.
    pub sent: Option<u8>,
    /// The byte that arrived.
    pub arrival: Option<Arrival>,
    /// The new modem lines, as bits of MSR.
    pub lines: Option<u8>,
    /// The access.
    pub access: Option<Seen>,
    /// Whether the audit of a recording warns of it.
    pub is_wrong: bool,
    /// Whether it is the latest read of what waits. Only a recording says so.
    pub is_latest: bool,
    /// The new level of the interrupt line. Only a recording says so.
    pub interrupt: Option<bool>,
}

impl Happened {
    /// Returns whether nothing but a read happened.
    pub fn is_read_alone(&self) -> bool {
        let is_read = |seen: &Seen| matches!(seen.access, Access::Read(..));
        let read = Happened {
            access: self.access.filter(is_read),
            ..Happened::default()
        };
        read.access.is_some() && *self == read
    }
}

/// A tick of a run at which something happened, or a line of a recording.
#[derive(Clone, Copy, Debug, Default, PartialEq)]
pub struct Moment {
    /// The tick, counted from power-on, or the number of the line.
    pub time: u64,
    /// What happened.
    pub happened: Happened,
    /// The number of bytes in the transmitter after that.
    pub held: usize,
    /// The number of bytes in the receiver after that.
    pub waiting: usize,
}

/// Returns the letter, the offset and the value of an access: `r` for a read, with what the read
/// returned, and `w` for a write.
pub fn parts(access: Access) -> (char, usize, u8) {
    match access {
        Access::Read(offset, value) => ('r', offset, value),
        Access::Write(offset, value) => ('w', offset, value),
    }
}

/// Returns the name of the register of an access.
pub fn register_of(access: Access, is_dlab_set: bool) -> &'static str {
    let (letter, offset, _) = parts(access);
    match offset {
        offsets::DLL if is_dlab_set => "DLL",
        offsets::DLM if is_dlab_set => "DLM",
        offsets::DATA => "DATA",
        offsets::IER => "IER",
        offsets::ISR if letter == 'r' => "ISR",
        offsets::FCR => "FCR",
        offsets::LCR => "LCR",
        offsets::MCR => "MCR",
        offsets::LSR => "LSR",
        offsets::MSR => "MSR",
        _ => "SPR",
    }
}
