//! The set-up of a chip, as far as it is known.

use crate::audit::action::Action;
use crate::audit::shows::level_of;
use bitflags::Flags;
use std::fmt;
use uart_chip::receiving::characters_of;
use uart_spec::FifoSize;
use uart_spec::registers::{FCR, FifoTriggerLevel, IER, ISR, LCR, MCR, Parity};

/// The bytes of the divisor, as far as they were written.
#[derive(Clone, Copy, Debug, PartialEq, Eq)]
pub struct DivisorBytes {
    /// The low byte.
    pub low: Option<u8>,
    /// The high byte.
    pub high: Option<u8>,
}

/// The set-up of a chip, as far as it was written, or shown by a read.
#[derive(Clone, Copy, Debug, PartialEq, Eq)]
pub struct Setup {
    /// The divisor.
    pub divisor: DivisorBytes,
    /// The format of a character.
    pub line: Option<LCR>,
    /// Whether the FIFOs are on.
    pub has_fifo: Option<bool>,
    /// The trigger level of the receiver FIFO.
    pub trigger: Option<FifoTriggerLevel>,
    /// The interrupts that are enabled.
    pub interrupts: Option<IER>,
    /// The modem outputs, and loopback.
    pub modem: Option<MCR>,
    /// Whether the divisor latch is open: DLAB, where LCR was seen. Else it is taken for closed
    /// once LSR was read, since no driver polls while it sets the divisor.
    pub is_open: Option<bool>,
}

// Returns whether both are unknown, or both are one number.
fn is_same_byte(a: Option<u8>, b: Option<u8>) -> bool {
    match (a, b) {
        (None, None) => true,
        (Some(a), Some(b)) => a == b,
        (None, Some(_)) | (Some(_), None) => false,
    }
}

fn line_bits(line: Option<LCR>) -> Option<u8> {
    match line {
        Some(lcr) => Some(lcr.bits()),
        None => None,
    }
}

fn fifo_number(has_fifo: Option<bool>) -> Option<u8> {
    match has_fifo {
        Some(true) => Some(1),
        Some(false) => Some(0),
        None => None,
    }
}

fn trigger_number(trigger: Option<FifoTriggerLevel>) -> Option<u8> {
    match trigger {
        Some(level) => Some(characters_of(FifoSize::Sixteen, level)),
        None => None,
    }
}

fn interrupt_bits(interrupts: Option<IER>) -> Option<u8> {
    match interrupts {
        Some(ier) => Some(ier.bits() | IER::THR_EMPTY.bits()),
        None => None,
    }
}

impl Setup {
    // Returns the set-up of which nothing is known.
    pub(crate) fn unknown() -> Setup {
        Setup {
            divisor: DivisorBytes {
                low: None,
                high: None,
            },
            line: None,
            has_fifo: None,
            trigger: None,
            interrupts: None,
            modem: None,
            is_open: None,
        }
    }

    // Returns the set-up after an action.
    pub(crate) fn after(self, action: Action) -> Setup {
        let mut after = self;
        match action {
            Action::SetsDivisorLow(value) => after.divisor.low = Some(value),
            Action::SetsDivisorHigh(value) => after.divisor.high = Some(value),
            Action::SetsLine(lcr) | Action::ReadsLine(lcr) => {
                after.line = Some(lcr);
                after.is_open = Some(lcr.contains(LCR::DLAB));
            }
            Action::LooksAtLine(_) => after.is_open = Some(self.is_open.unwrap_or(false)),
            Action::EnablesInterrupts(ier) | Action::ShowsInterrupts(ier) => {
                after.interrupts = Some(ier);
            }
            Action::SetsModem(mcr) | Action::ReadsModem(mcr) => after.modem = Some(mcr),
            Action::IdentifiesInterrupt(isr) => {
                after.has_fifo = Some(isr.contains(ISR::FIFOS_ENABLED));
            }
            Action::ControlsFifo(fcr) => {
                let is_on = fcr.contains(FCR::FIFO_ENABLE);
                after.has_fifo = Some(is_on);
                if is_on {
                    after.trigger = Some(level_of(fcr));
                }
            }
            _ => {}
        }
        after
    }

    // Returns whether two set-ups are the same, the THR_EMPTY interrupt apart, which drivers turn
    // on and off as they send.
    pub(crate) fn is_same(self, other: Setup) -> bool {
        if !is_same_byte(self.divisor.low, other.divisor.low) {
            return false;
        }
        if !is_same_byte(self.divisor.high, other.divisor.high) {
            return false;
        }
        if !is_same_byte(line_bits(self.line), line_bits(other.line)) {
            return false;
        }
        if !is_same_byte(fifo_number(self.has_fifo), fifo_number(other.has_fifo)) {
            return false;
        }
        if !is_same_byte(trigger_number(self.trigger), trigger_number(other.trigger)) {
            return false;
        }
        is_same_byte(
            interrupt_bits(self.interrupts),
            interrupt_bits(other.interrupts),
        )
    }
}

/// The clock's rate of bits at divisor 1: 1.8432 MHz, of which 16 periods are one bit.
const RATE_AT_ONE: u32 = 115_200;

impl fmt::Display for Setup {
    fn fmt(&self, f: &mut fmt::Formatter<'_>) -> fmt::Result {
        self.write_rate(f)?;
        self.write_frame(f)?;
        self.write_fifo(f)?;
        self.write_interrupts(f)
    }
}

impl Setup {
    fn write_rate(&self, f: &mut fmt::Formatter<'_>) -> fmt::Result {
        let (Some(low), Some(high)) = (self.divisor.low, self.divisor.high) else {
            return f.write_str("divisor not seen");
        };
        let divisor = u32::from(u16::from_le_bytes([low, high]));
        if divisor == 0 {
            return f.write_str("divisor 0");
        }
        write!(
            f,
            "divisor {divisor} ({} baud at 1.8432 MHz)",
            RATE_AT_ONE / divisor
        )
    }

    fn write_frame(&self, f: &mut fmt::Formatter<'_>) -> fmt::Result {
        let Some(line) = self.line else {
            return f.write_str(", frame not seen");
        };
        write!(f, ", {} data bits, ", line.word_length().to_integer())?;
        f.write_str(match line.parity() {
            Parity::Disabled => "no parity",
            Parity::Odd => "odd parity",
            Parity::Even => "even parity",
            Parity::Forced1 => "parity bit 1",
            Parity::Forced0 => "parity bit 0",
        })?;
        f.write_str(if line.contains(LCR::MORE_STOP_BITS) {
            ", more than 1 stop bit"
        } else {
            ", 1 stop bit"
        })
    }

    fn write_fifo(&self, f: &mut fmt::Formatter<'_>) -> fmt::Result {
        match (self.has_fifo, self.trigger) {
            (Some(true), Some(level)) => {
                write!(
                    f,
                    ", FIFOs on with trigger level {}",
                    characters_of(FifoSize::Sixteen, level)
                )
            }
            (Some(true), None) => f.write_str(", FIFOs on"),
            (Some(false), _) => f.write_str(", FIFOs off"),
            (None, _) => f.write_str(", FIFOs not seen"),
        }
    }

    fn write_interrupts(&self, f: &mut fmt::Formatter<'_>) -> fmt::Result {
        let Some(enabled) = self.interrupts else {
            return f.write_str(", interrupts not seen");
        };
        f.write_str(", interrupts:")?;
        let mut has_one = false;
        for (bit, name) in [
            (IER::DATA_READY, " DATA_READY"),
            (IER::THR_EMPTY, " THR_EMPTY"),
            (IER::RECEIVER_LINE_STATUS, " RECEIVER_LINE_STATUS"),
            (IER::MODEM_STATUS, " MODEM_STATUS"),
        ] {
            if enabled.contains(bit) {
                has_one = true;
                f.write_str(name)?;
            }
        }
        if has_one {
            Ok(())
        } else {
            f.write_str(" none")
        }
    }
}
