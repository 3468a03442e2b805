//! What an entry of a recording does.

use crate::recording::Happening;
use bitflags::Flags;
use uart_spec::access::Access;
use uart_spec::registers::{FCR, IER, ISR, LCR, LSR, MCR, MSR, offsets};

/// What an entry of a recording does, or shows, if the chip is a 16550.
#[derive(Clone, Copy, Debug, PartialEq, Eq)]
pub enum Action {
    /// A read of DATA takes this byte from the receiver.
    Receives(u8),
    /// A write of DATA gives this byte to the transmitter.
    Sends(u8),
    /// A read of a byte of the divisor.
    ReadsDivisor,
    /// A write of the low byte of the divisor.
    SetsDivisorLow(u8),
    /// A write of the high byte of the divisor.
    SetsDivisorHigh(u8),
    /// A read of IER.
    ShowsInterrupts(IER),
    /// A write of IER.
    EnablesInterrupts(IER),
    /// A read of ISR.
    IdentifiesInterrupt(ISR),
    /// A write of FCR.
    ControlsFifo(FCR),
    /// A read of LCR.
    ReadsLine(LCR),
    /// A write of LCR.
    SetsLine(LCR),
    /// A read of MCR.
    ReadsModem(MCR),
    /// A write of MCR.
    SetsModem(MCR),
    /// A read of LSR.
    LooksAtLine(LSR),
    /// A read of MSR.
    LooksAtModem(MSR),
    /// A character arrives, with these errors.
    Arrives(u8, LSR),
    /// The modem inputs become these.
    ChangesLines(MSR),
    /// A read of offset 0 while DLAB is not known, which may take a byte from the receiver.
    MayReceive,
    /// A write of offset 0 while DLAB is not known, which may give a byte to the transmitter.
    MaySend,
    /// A write of offset 1 while DLAB is not known, which may enable interrupts or disable them.
    MayEnable,
    /// Something that no finding is about, or a read of offset 1 while DLAB is not known.
    Other,
}

// Returns what a read of offset 0 does. What it does depends on DLAB.
fn data_read(is_open: Option<bool>, answer: u8) -> Action {
    match is_open {
        None => Action::MayReceive,
        Some(true) => Action::ReadsDivisor,
        Some(false) => Action::Receives(answer),
    }
}

// Returns what a read of offset 1 does.
fn ier_read(is_open: Option<bool>, answer: u8) -> Action {
    match is_open {
        None => Action::Other,
        Some(true) => Action::ReadsDivisor,
        Some(false) => Action::ShowsInterrupts(IER::from_bits_retain(answer)),
    }
}

// Returns what a write of offset 0 does.
fn data_written(is_open: Option<bool>, value: u8) -> Action {
    match is_open {
        None => Action::MaySend,
        Some(true) => Action::SetsDivisorLow(value),
        Some(false) => Action::Sends(value),
    }
}

// Returns what a write of offset 1 does.
fn ier_written(is_open: Option<bool>, value: u8) -> Action {
    match is_open {
        None => Action::MayEnable,
        Some(true) => Action::SetsDivisorHigh(value),
        Some(false) => Action::EnablesInterrupts(IER::from_bits_retain(value)),
    }
}

// Returns what a read does.
fn read_action(is_open: Option<bool>, offset: usize, answer: u8) -> Action {
    match offset {
        offsets::DATA => data_read(is_open, answer),
        offsets::IER => ier_read(is_open, answer),
        offsets::ISR => Action::IdentifiesInterrupt(ISR::from_bits_retain(answer)),
        offsets::LCR => Action::ReadsLine(LCR::from_bits_retain(answer)),
        offsets::MCR => Action::ReadsModem(MCR::from_bits_retain(answer)),
        offsets::LSR => Action::LooksAtLine(LSR::from_bits_retain(answer)),
        offsets::MSR => Action::LooksAtModem(MSR::from_bits_retain(answer)),
        _ => Action::Other,
    }
}

// Returns what a write does.
fn write_action(is_open: Option<bool>, offset: usize, value: u8) -> Action {
    match offset {
        offsets::DATA => data_written(is_open, value),
        offsets::IER => ier_written(is_open, value),
        offsets::FCR => Action::ControlsFifo(FCR::from_bits_retain(value)),
        offsets::LCR => Action::SetsLine(LCR::from_bits_retain(value)),
        offsets::MCR => Action::SetsModem(MCR::from_bits_retain(value)),
        _ => Action::Other,
    }
}

impl Action {
    /// Returns what happens, while the divisor latch is open or not, or while that is not known.
    #[must_use]
    pub fn new(is_open: Option<bool>, happening: Happening) -> Self {
        match happening {
            Happening::Access(Access::Read(offset, answer)) => read_action(is_open, offset, answer),
            Happening::Access(Access::Write(offset, value)) => write_action(is_open, offset, value),
            Happening::Arrive { byte, errors } => Action::Arrives(byte, errors),
            Happening::Lines(inputs) => Action::ChangesLines(inputs),
            Happening::Interrupt { .. } => Action::Other,
        }
    }
}
