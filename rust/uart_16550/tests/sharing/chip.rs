//! A chip at the end of a cable: what it sends goes onto a wire when a test lets time pass, and its line rises when an interrupt is
//! pending.
#![allow(dead_code)]

use std::collections::VecDeque;
use std::sync::{Arc, Mutex, MutexGuard};
use uart_16550::native::backend::Backend;
use uart_16550::spec::registers::{IER, LCR, LSR, offsets};

const NO_INTERRUPT: u8 = 0xc1;
const THR_EMPTY_INTERRUPT: u8 = 0xc2;
const DATA_INTERRUPT: u8 = 0xc4;

#[derive(Default)]
pub struct Chip {
    pub received: VecDeque<u8>,
    pub transmit: VecDeque<u8>,
    pub wire: Vec<u8>,
    cells: [u8; 8],
    is_empty_due: bool,
    /// What ISR always shows, if the chip is broken.
    pub shown: Option<u8>,
    /// Whether the next read of ISR panics, as of a bus that failed.
    pub panics: bool,
}

impl Chip {
    fn is_enabled(&self, interrupt: IER) -> bool {
        self.cells[offsets::IER] & interrupt.bits() != 0
    }

    // ISR without acknowledging.
    fn isr(&self) -> u8 {
        if let Some(shown) = self.shown {
            shown
        } else if self.is_enabled(IER::DATA_READY) && !self.received.is_empty() {
            DATA_INTERRUPT
        } else if self.is_enabled(IER::THR_EMPTY) && self.is_empty_due {
            THR_EMPTY_INTERRUPT
        } else {
            NO_INTERRUPT
        }
    }

    pub fn is_interrupting(&self) -> bool {
        self.isr() != NO_INTERRUPT && self.is_enabled(IER::all())
    }

    /// Lets the transmitter send what it holds.
    pub fn send_all(&mut self) {
        self.is_empty_due |= !self.transmit.is_empty();
        self.wire.extend(self.transmit.drain(..));
    }
}

/// The way to a chip, which tests share.
#[derive(Clone, Default)]
pub struct Cable(Arc<Mutex<Chip>>);

impl Cable {
    pub fn chip(&self) -> MutexGuard<'_, Chip> {
        self.0
            .lock()
            .unwrap_or_else(|poisoned| poisoned.into_inner())
    }
}

impl Backend for Cable {
    fn read(&mut self, register_offset: u8) -> u8 {
        let mut chip = self.chip();
        match usize::from(register_offset) {
            offsets::DATA => chip.received.pop_front().unwrap_or(0),
            offsets::ISR => {
                assert!(!std::mem::take(&mut chip.panics), "the bus failed");
                let isr = chip.isr();
                chip.is_empty_due &= isr != THR_EMPTY_INTERRUPT;
                isr
            }
            offsets::LSR => {
                let mut lsr = LSR::empty();
                lsr.set(LSR::DATA_READY, !chip.received.is_empty());
                lsr.set(
                    LSR::THR_EMPTY | LSR::TRANSMITTER_EMPTY,
                    chip.transmit.is_empty(),
                );
                lsr.bits()
            }
            offset => chip.cells[offset],
        }
    }

    fn write(&mut self, register_offset: u8, value: u8) {
        let mut chip = self.chip();
        match usize::from(register_offset) {
            offsets::DATA if chip.cells[offsets::LCR] & LCR::DLAB.bits() != 0 => {}
            offsets::DATA => {
                chip.transmit.push_back(value);
                chip.is_empty_due = false;
            }
            offset => {
                let was_enabled = chip.is_enabled(IER::THR_EMPTY);
                chip.cells[offset] = value;
                let is_new = !was_enabled && chip.is_enabled(IER::THR_EMPTY);
                chip.is_empty_due |= is_new && chip.transmit.is_empty();
            }
        }
    }
}
