//! What is known of a chip from the accesses to it.

use crate::audit::is_cut;
use crate::replay::latches::KnownLatches;
use crate::replay::looped::Looped;
use bitflags::Flags;
use uart_chip::Chip;
use uart_spec::registers::{FCR, ISR, LCR, LSR, MCR, offsets};

/// Where a recording begins.
#[derive(Clone, Copy, Debug, PartialEq, Eq)]
pub enum Start {
    /// At power-on.
    Reset,
    /// Anywhere: there may have been accesses before.
    InUse,
}

/// What is known of the transmitter, if no DATA is written.
#[derive(Clone, Copy, Debug, PartialEq, Eq)]
pub enum Sender {
    /// Nothing.
    Unknown,
    /// No character waits to be sent. One may be on its way.
    ThrEmpty,
    /// No character waits to be sent, and none is on its way.
    Idle,
}

/// What is known of a chip, whatever happened between the accesses. `None` stands for what is not
/// known.
#[derive(Clone, Copy, Debug, PartialEq, Eq)]
pub struct Known {
    /// The model.
    pub model: Chip,
    /// The registers that keep what is written to them.
    pub latches: KnownLatches,
    /// Whether the FIFOs are on.
    pub fifo: Option<bool>,
    /// The transmitter.
    pub sender: Sender,
    /// Whether a received character waits for certain.
    pub waits: bool,
    /// Whether LSR was read, and since then neither DATA was read nor FCR written. The read cleared
    /// the errors of a character. A real chip may show them until then, even if the character was
    /// read.
    pub is_looked: bool,
    /// What comes back in loopback.
    pub looped: Looped,
}

// Returns whether the FIFOs are on at the start, if it is known: a 16450 has none.
fn first_fifo(model: Chip, start: Start) -> Option<bool> {
    match (model, start) {
        (Chip::Uart16550A, Start::InUse) => None,
        _ => Some(false),
    }
}

// Returns whether the FIFOs are on after a write of FCR. A 16450 ignores it.
fn fifo_after(model: Chip, fcr: u8, fifo: Option<bool>) -> Option<bool> {
    match model {
        Chip::Uart16550A => Some(FCR::from_bits_retain(fcr).intersects(FCR::FIFO_ENABLE)),
        Chip::Uart16450 => fifo,
    }
}

// Returns what is known of the transmitter at the start.
fn first_sender(start: Start) -> Sender {
    match start {
        Start::Reset => Sender::Idle,
        Start::InUse => Sender::Unknown,
    }
}

// Returns what is known of the transmitter after a read of LSR.
fn sender_shown(lsr: LSR, sender: Sender) -> Sender {
    if lsr.intersects(LSR::TRANSMITTER_EMPTY) {
        Sender::Idle
    } else if lsr.intersects(LSR::THR_EMPTY) {
        Sender::ThrEmpty
    } else {
        sender
    }
}

// Returns what is known of the transmitter after a write of offset 0: under DLAB it stays.
fn sender_after(dlab: Option<bool>, sender: Sender) -> Sender {
    match dlab {
        Some(true) => sender,
        _ => Sender::Unknown,
    }
}

// Returns whether a character waits for certain after a read of offset 0: under DLAB that stays.
fn waits_after(dlab: Option<bool>, waits: bool) -> bool {
    match dlab {
        Some(true) => waits,
        _ => false,
    }
}

// Returns whether offset 0 is certainly the data.
fn is_data(dlab: Option<bool>) -> bool {
    matches!(dlab, Some(false))
}

// Returns whether LSR shows that nothing waits, and nothing is left to be sent.
fn is_empty(lsr: LSR) -> bool {
    !lsr.intersects(LSR::DATA_READY) && lsr.intersects(LSR::TRANSMITTER_EMPTY)
}

impl Known {
    /// Returns what is known at the start of a recording.
    #[must_use]
    pub fn new(model: Chip, start: Start) -> Self {
        Self {
            model,
            latches: KnownLatches::new(start),
            fifo: first_fifo(model, start),
            sender: first_sender(start),
            waits: false,
            is_looked: false,
            looped: Looped::unknown(),
        }
    }

    /// Returns whether the FIFOs may be on.
    #[must_use]
    pub fn may_have_fifo(&self) -> bool {
        match self.fifo {
            None => true,
            Some(on) => on,
        }
    }

    /// Returns whether a read of DATA certainly takes a character.
    #[must_use]
    pub fn takes(&self) -> bool {
        self.waits && is_data(self.latches.dlab())
    }

    // Returns whether loopback is certainly on.
    fn loops_back(&self) -> bool {
        match self.latches.mcr {
            None => false,
            Some(mcr) => MCR::from_bits_retain(mcr).intersects(MCR::LOOP_BACK),
        }
    }

    // Returns whether this write of FCR leaves nothing that can come back: it empties the receiver,
    // and nothing is left to be sent.
    fn is_emptied(&self, fcr: FCR) -> bool {
        match (self.model, self.sender) {
            (Chip::Uart16550A, Sender::Idle) => {
                fcr.intersects(FCR::FIFO_ENABLE)
                    && fcr.intersects(FCR::RX_FIFO_RESET)
                    && self.loops_back()
            }
            _ => false,
        }
    }

    // Returns what comes back after a write of offset 0: a byte that fits into a character, as it
    // was written.
    fn looped_sent(&self, byte: u8) -> Looped {
        match self.latches.lcr {
            None => Looped::unknown(),
            Some(lcr) => {
                let lcr = LCR::from_bits_retain(lcr);
                if lcr.intersects(LCR::DLAB) {
                    self.looped
                } else if is_cut(lcr, byte) {
                    Looped::unknown()
                } else {
                    self.looped.and(byte)
                }
            }
        }
    }

    // Returns whether a character waits for certain after a read of offset 0.
    fn waits_after_data(&self) -> bool {
        waits_after(self.latches.dlab(), self.waits)
    }

    /// Returns what is known after a read of this register that returned this value.
    #[must_use]
    pub fn after_read(self, offset: usize, value: u8) -> Self {
        let mut known = self;
        known.latches = self.latches.after_read(offset, value);
        match offset {
            offsets::DATA => {
                known.waits = self.waits_after_data();
                known.is_looked = false;
                if self.takes() {
                    known.looped = self.looped.after(value);
                }
            }
            offsets::ISR => {
                known.fifo = Some(ISR::from_bits_retain(value).intersects(ISR::FIFOS_ENABLED));
            }
            offsets::LSR => {
                known.sender = sender_shown(LSR::from_bits_retain(value), self.sender);
                known.waits = LSR::from_bits_retain(value).intersects(LSR::DATA_READY);
                known.is_looked = true;
                let is_empty = is_empty(LSR::from_bits_retain(value)) && self.loops_back();
                known.looped = self.looped.begun(is_empty);
            }
            _ => {}
        }
        known
    }

    /// Returns what is known after a read of this register, whatever it returned.
    #[must_use]
    pub fn after_asking(self, offset: usize) -> Self {
        match offset {
            offsets::DATA => Self {
                waits: self.waits_after_data(),
                is_looked: false,
                ..self
            },
            _ => self,
        }
    }

    /// Returns what is known after this value was written to this register.
    #[must_use]
    pub fn after_write(self, offset: usize, value: u8) -> Self {
        let mut known = self;
        known.latches = self.latches.after_write(offset, value);
        match offset {
            offsets::DATA => {
                known.sender = sender_after(self.latches.dlab(), self.sender);
                known.looped = self.looped_sent(value);
            }
            offsets::FCR => {
                known.fifo = fifo_after(self.model, value, self.fifo);
                known.waits = false;
                known.is_looked = false;
                if self.is_emptied(FCR::from_bits_retain(value)) {
                    known.looped = Looped::nothing();
                }
            }
            offsets::MCR => {
                if !MCR::from_bits_retain(value).intersects(MCR::LOOP_BACK) {
                    known.looped = Looped::unknown();
                }
            }
            _ => {}
        }
        known
    }
}
