//! What holds of a value that is read, whatever the time that passed.
//!
//! A rule judges a read by what was known before it, and unknown means any state. So a first `r 2
//! 0c` is not reported, though it contradicts itself: bits 6 and 7 show that the FIFOs are off, and
//! without them there is no timeout. The next such read is reported.

use crate::replay::known::{Known, Sender};
use bitflags::Flags;
use std::fmt;
use uart_chip::{flag, identification};
use uart_spec::registers::{IER, ISR, InterruptType, LSR, MCR, MSR, offsets};

/// Why the chip cannot return a value: what holds instead, whatever the time that passed.
#[derive(Clone, Copy, Debug, PartialEq, Eq)]
pub enum Rule {
    /// The register keeps what is written to it, which was this.
    Keeps(u8),
    /// Bits 6 and 7 of ISR are both set while the FIFOs are on, and else clear.
    FifoBits,
    /// ISR shows no interrupt, or one that IER enables; a reception timeout only while the FIFOs
    /// are on.
    Interrupt,
    /// The transmitter is empty only if THR is.
    EmptyBits,
    /// No error of a character is reported while none waits, once LSR was read.
    ErrorAlone,
    /// Bit 7 of LSR is clear while the FIFOs are off.
    FifoError,
    /// A character waits until DATA is read or the receiver is reset.
    StillWaits,
    /// THR stays empty until DATA is written.
    ThrStaysEmpty,
    /// The transmitter stays empty until DATA is written.
    StaysIdle,
    /// In loopback the lines are the outputs of MCR.
    LoopedLines,
    /// In loopback a byte that is read was written, and those behind it in the same order.
    LoopedData,
}

impl fmt::Display for Rule {
    fn fmt(&self, f: &mut fmt::Formatter<'_>) -> fmt::Result {
        match self {
            Rule::Keeps(kept) => write!(f, "the register keeps what is written to it, {kept:02x}"),
            Rule::FifoBits => {
                write!(
                    f,
                    "bits 6 and 7 are both set while the FIFOs are on, and else clear"
                )
            }
            Rule::Interrupt => write!(f, "no interrupt that is enabled and possible has this code"),
            Rule::EmptyBits => write!(f, "bit 6 is set only with bit 5"),
            Rule::ErrorAlone => write!(f, "an error of a character is set, but no character waits"),
            Rule::FifoError => write!(f, "bit 7 is clear while the FIFOs are off"),
            Rule::StillWaits => write!(f, "the character that waited was neither read nor reset"),
            Rule::ThrStaysEmpty => write!(f, "THR was empty, and nothing was written since"),
            Rule::StaysIdle => write!(
                f,
                "the transmitter was empty, and nothing was written since"
            ),
            Rule::LoopedLines => write!(f, "in loopback bits 4 to 7 are the outputs of MCR"),
            Rule::LoopedData => write!(
                f,
                "in loopback what was written comes back, in order, and this byte was not next"
            ),
        }
    }
}

// Returns whether the bits of ISR that show the FIFO are not as the FIFO is, or not alike.
fn breaks_fifo_bits(fifo: Option<bool>, value: u8) -> bool {
    let isr = ISR::from_bits_retain(value);
    let on = match fifo {
        None => isr.intersects(ISR::FIFOS_ENABLED),
        Some(on) => on,
    };
    isr.intersection(ISR::FIFOS_ENABLED) != flag(on, ISR::FIFOS_ENABLED)
}

// Returns the rule that a register breaks that keeps what is written to it.
fn broken_latch(kept: Option<u8>, value: u8) -> Option<Rule> {
    match kept {
        Some(kept) if value != kept => Some(Rule::Keeps(kept)),
        _ => None,
    }
}

// Returns whether some of these interrupts may be enabled.
fn may_be_enabled(ier: Option<u8>, interrupts: IER) -> bool {
    match ier {
        None => true,
        Some(ier) => IER::from_bits_retain(ier).intersects(interrupts),
    }
}

// Returns whether this may be the interrupt that is shown.
fn may_be_pending(known: &Known, pending: Option<InterruptType>) -> bool {
    let ier = known.latches.ier;
    match pending {
        None => true,
        Some(InterruptType::ReceiverLineStatus) => may_be_enabled(ier, IER::RECEIVER_LINE_STATUS),
        Some(InterruptType::ReceivedDataReady) => may_be_enabled(ier, IER::DATA_READY),
        Some(InterruptType::ReceptionTimeout) => {
            may_be_enabled(ier, IER::DATA_READY) && known.may_have_fifo()
        }
        Some(InterruptType::TransmitterHoldingRegisterEmpty) => {
            may_be_enabled(ier, IER::THR_EMPTY)
        }
        Some(InterruptType::ModemStatus) => may_be_enabled(ier, IER::MODEM_STATUS),
        Some(_) => false,
    }
}

// Returns whether ISR has this value while this interrupt is shown, which it may be.
fn may_show(known: &Known, value: u8, pending: Option<InterruptType>) -> bool {
    let on = ISR::from_bits_retain(value).intersects(ISR::FIFOS_ENABLED);
    let shown = identification(pending).union(flag(on, ISR::FIFOS_ENABLED));
    shown.bits() == value && may_be_pending(known, pending)
}

// Returns whether ISR may have this value.
fn is_explained(known: &Known, value: u8) -> bool {
    may_show(known, value, None)
        || may_show(known, value, Some(InterruptType::ReceiverLineStatus))
        || may_show(known, value, Some(InterruptType::ReceivedDataReady))
        || may_show(known, value, Some(InterruptType::ReceptionTimeout))
        || may_show(
            known,
            value,
            Some(InterruptType::TransmitterHoldingRegisterEmpty),
        )
        || may_show(known, value, Some(InterruptType::ModemStatus))
}

// Returns the first rule that a value of ISR breaks.
fn broken_isr(known: &Known, value: u8) -> Option<Rule> {
    if breaks_fifo_bits(known.fifo, value) {
        Some(Rule::FifoBits)
    } else if !is_explained(known, value) {
        Some(Rule::Interrupt)
    } else {
        None
    }
}

// Returns whether an error of a character is shown, and none waits.
fn has_error_alone(lsr: LSR) -> bool {
    let errors = LSR::CHARACTER_ERRORS.union(LSR::FIFO_DATA_ERROR);
    !lsr.intersects(LSR::DATA_READY) && lsr.intersects(errors)
}

// Returns the first rule that the receiver's bits of a value of LSR break.
fn broken_receiver(known: &Known, lsr: LSR) -> Option<Rule> {
    if known.is_looked && has_error_alone(lsr) {
        Some(Rule::ErrorAlone)
    } else if lsr.intersects(LSR::FIFO_DATA_ERROR) && !known.may_have_fifo() {
        Some(Rule::FifoError)
    } else if known.waits && !lsr.intersects(LSR::DATA_READY) {
        Some(Rule::StillWaits)
    } else {
        None
    }
}

// Returns the first rule that the transmitter's bits of a value of LSR break.
fn broken_sender(sender: Sender, lsr: LSR) -> Option<Rule> {
    match sender {
        Sender::Idle if !lsr.intersects(LSR::TRANSMITTER_EMPTY) => Some(Rule::StaysIdle),
        Sender::ThrEmpty if !lsr.intersects(LSR::THR_EMPTY) => Some(Rule::ThrStaysEmpty),
        _ => None,
    }
}

// Returns the first rule that a value of LSR breaks.
fn broken_lsr(known: &Known, lsr: LSR) -> Option<Rule> {
    if lsr.intersects(LSR::TRANSMITTER_EMPTY) && !lsr.intersects(LSR::THR_EMPTY) {
        return Some(Rule::EmptyBits);
    }
    match broken_receiver(known, lsr) {
        None => broken_sender(known.sender, lsr),
        broken => broken,
    }
}

// Returns the lines that MSR shows in loopback.
fn looped_lines(mcr: MCR) -> MSR {
    let cts = flag(mcr.intersects(MCR::RTS), MSR::CTS);
    let dsr = flag(mcr.intersects(MCR::DTR), MSR::DSR);
    let ri = flag(mcr.intersects(MCR::OUT_1), MSR::RI);
    let cd = flag(mcr.intersects(MCR::OUT_2_INT_ENABLE), MSR::CD);
    cts.union(dsr).union(ri.union(cd))
}

// Returns the rule that a value of MSR breaks.
fn broken_msr(mcr: Option<u8>, msr: MSR) -> Option<Rule> {
    let mcr = MCR::from_bits_retain(mcr?);
    if mcr.intersects(MCR::LOOP_BACK) && msr.intersection(MSR::LINES) != looped_lines(mcr) {
        Some(Rule::LoopedLines)
    } else {
        None
    }
}

// Returns the rule that a value of offset 0 breaks.
fn broken_data(known: &Known, value: u8) -> Option<Rule> {
    if known.takes() && known.looped.excludes(value) {
        Some(Rule::LoopedData)
    } else {
        broken_latch(known.latches.shown(offsets::DATA), value)
    }
}

/// Returns the first rule that a value breaks if a read of this register returns it.
#[must_use]
pub fn broken(known: &Known, offset: usize, value: u8) -> Option<Rule> {
    match offset {
        offsets::DATA => broken_data(known, value),
        offsets::ISR => broken_isr(known, value),
        offsets::LSR => broken_lsr(known, LSR::from_bits_retain(value)),
        offsets::MSR => broken_msr(known.latches.mcr, MSR::from_bits_retain(value)),
        _ => broken_latch(known.latches.shown(offset), value),
    }
}
