//! Faults: a chip that does not take what it is told.

use crate::fault::DesignWareFault;
use crate::registers::DesignWareRegisters;
use crate::state::DesignWare;
use bitflags::Flags;
use uart_spec::registers::{LCR, offsets};

impl<R: DesignWareRegisters> DesignWare<R> {
    // Turns the chip's interrupts off, until LCR was written and taken. While DLAB is set, IER
    // cannot be reached.
    pub(crate) fn begin_fault(&mut self, fault: DesignWareFault) {
        self.fault = Some(fault);
        if !LCR::from_bits_retain(self.load(offsets::LCR)).contains(LCR::DLAB) {
            self.store(offsets::IER, 0);
        }
    }

    // Gives IER back what the driver wrote to it.
    pub(crate) fn end_fault(&mut self) {
        if self.fault.is_some() && !self.line.contains(LCR::DLAB) {
            self.fault = None;
            let interrupts = self.interrupts;
            self.store(offsets::IER, interrupts.bits());
        }
    }

    // Returns whether the chip has DLAB otherwise than the driver takes it to have, so that offsets
    // 0 and 1 are something else than the driver means.
    pub(crate) fn is_mistaken(&mut self) -> bool {
        let Some(DesignWareFault::LineControlIgnored) = self.fault else {
            return false;
        };
        let shown = LCR::from_bits_retain(self.load(offsets::LCR));
        shown.contains(LCR::DLAB) != self.line.contains(LCR::DLAB)
    }
}
