//! One entry of a recording, beside what is known of the set-up before it.

use crate::audit::action::Action;
use crate::audit::setup::{DivisorBytes, Setup};
use bitflags::Flags;
use uart_spec::FIFO_SIZE;
use uart_spec::registers::{FCR, IER, InterruptType, MCR, MSR};

/// One entry of a recording, beside what is known of the set-up before it.
#[derive(Clone, Copy, Debug, PartialEq, Eq)]
pub struct Step {
    /// The set-up before it.
    pub setup: Setup,
    /// What happens.
    pub action: Action,
    /// Whether that is an access of the driver.
    pub is_access: bool,
    /// The number of its line.
    pub line: u64,
    /// When it happens, in nanoseconds, if the recording says so.
    pub time: Option<u64>,
    /// Whether the interrupt line is up after it, if the recording says so.
    pub level: Option<bool>,
    /// Whether by the recording's time everything that was sent has gone out before it.
    pub has_rested: bool,
}

/// The nanoseconds that a character of 12 bits takes at divisor 1 and 1.8432 MHz, rounded up. No
/// character has more bits.
pub const CHARACTER_TIME: u64 = 104_167;

/// The divisor that is taken where none was seen: 115,200 baud at 1.8432 MHz. No rate is faster, so
/// what is still going out then is still going out at any rate.
pub const LEAST_DIVISOR: u64 = 1;

/// The most characters that a transmitter holds: those in the FIFO, and one on its way.
pub const MOST_HELD: u64 = 17;

// Returns the divisor, or the least one if it was not seen.
fn divisor(bytes: DivisorBytes) -> u64 {
    match (bytes.low, bytes.high) {
        (Some(low), Some(high)) => u64::from(high) * 256 + u64::from(low),
        _ => LEAST_DIVISOR,
    }
}

// Returns whether so many characters go out between these times.
pub(crate) fn has_rested(
    bytes: DivisorBytes,
    sent: u64,
    last: Option<u64>,
    now: Option<u64>,
) -> bool {
    match (last, now) {
        (Some(last), Some(now)) => {
            let held = sent.min(MOST_HELD);
            divisor(bytes) * CHARACTER_TIME * held <= now.saturating_sub(last)
        }
        _ => false,
    }
}

// Returns whether the FIFOs were known to be on and are turned off, or the other way round.
fn toggles(has_fifo: Option<bool>, fcr: FCR) -> bool {
    match has_fifo {
        Some(true) => !fcr.contains(FCR::FIFO_ENABLE),
        Some(false) => fcr.contains(FCR::FIFO_ENABLE),
        None => false,
    }
}

// Returns whether a write of FCR empties the receiver, or the transmitter.
fn empties(reset: FCR, has_fifo: Option<bool>, fcr: FCR) -> bool {
    if toggles(has_fifo, fcr) {
        return true;
    }
    if fcr.contains(FCR::FIFO_ENABLE) {
        return fcr.contains(reset);
    }
    false
}

impl Setup {
    // Returns how many bytes fit into an empty transmitter, at most. What is not known is not held
    // against the driver.
    pub(crate) fn depth(self) -> u8 {
        match self.has_fifo {
            Some(false) => 1,
            _ => FIFO_SIZE as u8,
        }
    }

    // Returns how many bytes fit into an empty receiver, at least.
    pub(crate) fn least_depth(self) -> u8 {
        match self.has_fifo {
            Some(true) => FIFO_SIZE as u8,
            _ => 1,
        }
    }

    // Returns whether loopback is on.
    pub(crate) fn loops_back(self) -> bool {
        match self.modem {
            Some(mcr) => mcr.contains(MCR::LOOP_BACK),
            None => false,
        }
    }

    // Returns whether loopback is known to be off, so that what arrives is received.
    pub(crate) fn is_on_line(self) -> bool {
        match self.modem {
            Some(mcr) => !mcr.contains(MCR::LOOP_BACK),
            None => false,
        }
    }

    // Returns whether this interrupt is enabled.
    pub(crate) fn enables(self, interrupt: IER) -> bool {
        match self.interrupts {
            Some(ier) => ier.contains(interrupt),
            None => false,
        }
    }
}

impl Step {
    // Returns whether a write of FCR empties this, for certain.
    pub(crate) fn empties(self, reset: FCR) -> bool {
        match self.action {
            Action::ControlsFifo(fcr) => empties(reset, self.setup.has_fifo, fcr),
            _ => false,
        }
    }

    // Returns whether a write of FCR may empty this: also if it is not known whether it turns the
    // FIFOs on or off.
    pub(crate) fn may_empty(self, reset: FCR) -> bool {
        if self.action.controls_fifo() && self.setup.has_fifo.is_none() {
            return true;
        }
        self.empties(reset)
    }

    // Returns whether the transmitter has room for as many bytes as it holds.
    pub(crate) fn shows_room(self) -> bool {
        if self.has_rested {
            return true;
        }
        self.action.shows_thr_empty() || self.may_empty(FCR::TX_FIFO_RESET)
    }

    // Returns whether nothing is going out.
    pub(crate) fn shows_idle(self) -> bool {
        self.has_rested || self.action.shows_idle()
    }

    // Returns whether the errors of the next character are looked at: in LSR; or by ISR, if they
    // interrupt; or by somebody who reads the recording.
    pub(crate) fn looks_for_errors(self) -> bool {
        match self.action {
            Action::IdentifiesInterrupt(_) => self.setup.enables(IER::RECEIVER_LINE_STATUS),
            Action::LooksAtLine(_) | Action::Arrives(_, _) => true,
            _ => false,
        }
    }

    // Returns whether interrupts are seen to reach the processor.
    pub(crate) fn signals(self) -> bool {
        self.action.identified().is_some() || self.is_line_up()
    }

    // Returns whether the interrupt line is up after this.
    pub(crate) fn is_line_up(self) -> bool {
        match self.level {
            Some(is_up) => is_up,
            None => false,
        }
    }

    // Returns whether a byte is sent in loopback.
    pub(crate) fn loops(self) -> bool {
        self.action.sends() && self.setup.loops_back()
    }

    // Returns whether MSR shows that the remote is ready, outside of loopback.
    pub(crate) fn shows_cts(self) -> bool {
        match self.action {
            Action::LooksAtModem(msr) => msr.contains(MSR::CTS) && !self.setup.loops_back(),
            _ => false,
        }
    }

    // Returns whether this does what the interrupt asks for, or disables it. Only the interrupt of
    // an empty transmitter is acknowledged by the read of ISR. A driver that looks for a received
    // byte and sees none has served that interrupt too.
    pub(crate) fn serves(self, interrupt: InterruptType) -> bool {
        match interrupt {
            InterruptType::ReceiverLineStatus => {
                self.action.looks_at_line() || self.action.may_disable(IER::RECEIVER_LINE_STATUS)
            }
            InterruptType::ReceivedDataReady | InterruptType::ReceptionTimeout => {
                self.takes_or_looks() || self.may_empty(FCR::RX_FIFO_RESET)
            }
            InterruptType::ModemStatus => {
                self.action.looks_at_modem() || self.action.may_disable(IER::MODEM_STATUS)
            }
            InterruptType::TransmitterHoldingRegisterEmpty
            | InterruptType::DmaReceptionEndOfTransfer
            | InterruptType::DmaTransmissionEndOfTransfer => true,
        }
    }

    // Returns whether a byte is taken, or LSR read, or the interrupt of received data disabled; or
    // whether that may be so.
    fn takes_or_looks(self) -> bool {
        if self.action.may_receive() {
            return true;
        }
        self.action.looks_at_line() || self.action.may_disable(IER::DATA_READY)
    }
}
