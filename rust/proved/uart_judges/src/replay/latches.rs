//! What is known of the registers that keep what is written to them.

use crate::replay::known::Start;
use bitflags::Flags;
use uart_chip::{kept_interrupts, kept_modem_control};
use uart_spec::registers::{IER, LCR, MCR, offsets};

/// The registers that keep what is written to them, as bytes, as far as they are known.
#[derive(Clone, Copy, Debug, PartialEq, Eq)]
pub struct KnownLatches {
    /// The interrupt enable register.
    pub ier: Option<u8>,
    /// The line control register.
    pub lcr: Option<u8>,
    /// The modem control register.
    pub mcr: Option<u8>,
    /// The scratch register.
    pub scr: Option<u8>,
    /// The low byte of the divisor latch.
    pub dll: Option<u8>,
    /// The high byte of the divisor latch.
    pub dlm: Option<u8>,
}

impl KnownLatches {
    /// Returns what is known at the start of a recording: at power-on all are clear.
    #[must_use]
    pub fn new(start: Start) -> Self {
        let each = match start {
            Start::Reset => Some(0),
            Start::InUse => None,
        };
        Self {
            ier: each,
            lcr: each,
            mcr: each,
            scr: each,
            dll: each,
            dlm: each,
        }
    }

    /// Returns whether offsets 0 and 1 are the divisor latch.
    #[must_use]
    pub fn dlab(&self) -> Option<bool> {
        match self.lcr {
            None => None,
            Some(lcr) => Some(LCR::from_bits_retain(lcr).intersects(LCR::DLAB)),
        }
    }

    // Returns the one or the other latch: what a read under DLAB returns, or one without.
    fn under_dlab(&self, on: Option<u8>, off: Option<u8>) -> Option<u8> {
        match self.dlab() {
            None => None,
            Some(true) => on,
            Some(false) => off,
        }
    }

    /// Returns what a read of this register returns, if it keeps what is written to it and that is
    /// known.
    #[must_use]
    pub fn shown(&self, offset: usize) -> Option<u8> {
        match offset {
            offsets::DATA => self.under_dlab(self.dll, None),
            offsets::IER => self.under_dlab(self.dlm, self.ier),
            offsets::LCR => self.lcr,
            offsets::MCR => self.mcr,
            offsets::SPR => self.scr,
            _ => None,
        }
    }

    /// Returns what is known after a read of this register that returned this value.
    #[must_use]
    pub fn after_read(self, offset: usize, value: u8) -> Self {
        let known = Some(value);
        match (offset, self.dlab()) {
            (offsets::DATA, Some(true)) => Self { dll: known, ..self },
            (offsets::IER, Some(true)) => Self { dlm: known, ..self },
            (offsets::IER, Some(false)) => Self { ier: known, ..self },
            (offsets::LCR, _) => Self { lcr: known, ..self },
            (offsets::MCR, _) => Self { mcr: known, ..self },
            (offsets::SPR, _) => Self { scr: known, ..self },
            _ => self,
        }
    }

    /// Returns what is known after this value was written to this register: what the register keeps
    /// is known as after a read. If DLAB is not known, what may have been written is forgotten.
    #[must_use]
    pub fn after_write(self, offset: usize, value: u8) -> Self {
        match (offset, self.dlab()) {
            (offsets::DATA, None) => Self { dll: None, ..self },
            (offsets::IER, None) => Self {
                dlm: None,
                ier: None,
                ..self
            },
            (offsets::IER, Some(false)) => Self {
                ier: Some(kept_interrupts(IER::from_bits_retain(value)).bits()),
                ..self
            },
            (offsets::MCR, _) => Self {
                mcr: Some(kept_modem_control(MCR::from_bits_retain(value)).bits()),
                ..self
            },
            _ => self.after_read(offset, value),
        }
    }
}
