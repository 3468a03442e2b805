//! The reads and writes of the driver.

use crate::fault::DesignWareFault;
use crate::registers::DesignWareRegisters;
use crate::state::DesignWare;
use bitflags::Flags;
use uart_spec::backend::Backend;
use uart_spec::registers::{FCR, IER, LCR, LSR, offsets};

// The low four bits of ISR: none is pending, received data, busy detect, reception timeout.
pub(crate) const CAUSE: u8 = 0x0f;

pub(crate) const NONE: u8 = 0x01;

pub(crate) const DATA: u8 = 0x04;

pub(crate) const BUSY_DETECT: u8 = 0x07;

pub(crate) const TIMEOUT: u8 = 0x0c;

// How often in one read of ISR an interrupt is ended that the driver cannot serve. One is enough on
// a chip that works, and a second one may come meanwhile.
pub(crate) const ROUNDS: usize = 4;

// Returns what ISR shows without the cause, and with this one.
fn with_cause(isr: u8, cause: u8) -> u8 {
    isr & !CAUSE | cause
}

// Returns what a look at LSR shows of the line, without the errors, which are saved.
fn line_state(lsr: LSR, is_mistaken: bool) -> LSR {
    let state = lsr.difference(LSR::LINE_ERRORS);
    if !is_mistaken {
        return state;
    }
    // Neither data nor THR can be reached, so there is none and no room.
    let reach = LSR::DATA_READY
        .union(LSR::THR_EMPTY)
        .union(LSR::TRANSMITTER_EMPTY);
    state.difference(reach)
}

impl<R: DesignWareRegisters> DesignWare<R> {
    // Returns whether this offset is of the divisor latch, as the driver takes it.
    fn is_latch(&self, offset: usize) -> bool {
        offset <= offsets::DLM && self.line.contains(LCR::DLAB)
    }

    // Reads DATA.
    fn read_data(&mut self) -> u8 {
        let Some(character) = self.kept.pop() else {
            return self.load(offsets::DATA);
        };
        // What LSR has not shown of it is shown next.
        self.cleared.insert(character.errors);
        character.byte
    }

    // Returns LSR for the character that the driver reads next, from what a look at LSR showed of
    // the line.
    fn show(&mut self, state: LSR) -> LSR {
        let Some(errors) = self.kept.take_errors() else {
            let cleared = self.cleared;
            self.cleared = LSR::from_bits_retain(0);
            return state.union(cleared);
        };
        // The chip shows the errors of a character behind those that are kept. An overrun is of
        // none.
        let overrun = self.cleared.intersection(LSR::OVERRUN_ERROR);
        self.cleared.remove(overrun);
        state.union(LSR::DATA_READY).union(overrun).union(errors)
    }

    // Reads LSR.
    fn read_lsr(&mut self) -> LSR {
        let lsr = self.look();
        let is_mistaken = self.is_mistaken();
        self.show(line_state(lsr, is_mistaken))
    }

    // Returns whether LSR shows neither data nor a break.
    fn shows_no_data(&mut self) -> bool {
        let shown = LSR::DATA_READY.union(LSR::BREAK_INTERRUPT);
        !self.look().intersects(shown)
    }

    // Returns whether there is nothing to read.
    fn is_without_data(&mut self) -> bool {
        if !self.kept.is_empty() {
            return false;
        }
        if self.is_mistaken() {
            return false;
        }
        self.shows_no_data()
    }

    // Ends a reception timeout if there is nothing to read, and returns whether that is so.
    fn end_timeout(&mut self) -> bool {
        if !self.is_without_data() {
            return false;
        }
        self.load(offsets::DATA);
        true
    }

    // Ends the interrupt that ISR shows if the driver cannot serve it, and returns whether it is
    // such a one.
    fn end_interrupt(&mut self, isr: u8) -> bool {
        let cause = isr & CAUSE;
        if cause == BUSY_DETECT {
            self.read_usr();
            return true;
        }
        if cause == TIMEOUT {
            return self.end_timeout();
        }
        false
    }

    // Returns ISR as the driver gets it. Nothing is pending in the chip for data that are kept
    // here.
    fn shown_isr(&self, isr: u8) -> u8 {
        let is_due = !self.kept.is_empty() && self.interrupts.contains(IER::DATA_READY);
        if isr & CAUSE == NONE && is_due {
            with_cause(isr, DATA)
        } else {
            isr
        }
    }

    // Returns ISR once it shows what the driver can serve.
    fn read_isr(&mut self) -> u8 {
        let mut isr = NONE;
        for _round in 0..ROUNDS {
            isr = self.load(offsets::ISR);
            if !self.end_interrupt(isr) {
                return self.shown_isr(isr);
            }
        }
        self.begin_fault(DesignWareFault::InterruptWithoutEnd);
        with_cause(isr, NONE)
    }

    // Returns whether a register is something else than the driver means.
    fn is_out_of_reach(&mut self, offset: usize) -> bool {
        if offset > offsets::IER {
            return false;
        }
        self.is_mistaken()
    }

    // Reads a register that is not of the latch.
    fn read_plain(&mut self, offset: usize) -> u8 {
        if offset == offsets::DATA {
            return self.read_data();
        }
        if offset == offsets::LSR {
            let lsr = self.read_lsr();
            return lsr.bits();
        }
        if offset == offsets::ISR {
            return self.read_isr();
        }
        self.load(offset)
    }

    // Reads a register that is what the driver means.
    fn read_meant(&mut self, offset: usize) -> u8 {
        if self.is_latch(offset) {
            self.load(offset)
        } else {
            self.read_plain(offset)
        }
    }

    // Returns whether this offset is that of IER, and not of the latch.
    fn is_interrupts(&self, offset: usize) -> bool {
        offset == offsets::IER && !self.is_latch(offsets::IER)
    }

    // Writes IER.
    fn write_interrupts(&mut self, interrupts: IER) {
        self.interrupts = interrupts;
        if self.fault.is_none() {
            self.store(offsets::IER, interrupts.bits());
        }
    }

    // Returns whether a write of FCR empties the chip's receiver: a reset, and a change of the
    // FIFOs' switch.
    fn empties(&self, control: FCR) -> bool {
        let is_switched = control
            .symmetric_difference(self.fifo_control)
            .contains(FCR::FIFO_ENABLE);
        is_switched || control.contains(FCR::RX_FIFO_RESET)
    }

    // Drops what is kept if a write of FCR empties the chip's receiver.
    fn empty_kept(&mut self, control: FCR) {
        if !self.empties(control) {
            return;
        }
        self.kept.clear();
    }

    // Writes FCR.
    fn write_fifo_control(&mut self, control: FCR) {
        self.empty_kept(control);
        // The bits that reset do not stay.
        let resets = FCR::RX_FIFO_RESET.union(FCR::TX_FIFO_RESET);
        self.fifo_control = control.difference(resets);
        self.store(offsets::FCR, control.bits());
    }

    // Writes a register that is not IER.
    fn write_plain(&mut self, offset: usize, value: u8) {
        if offset == offsets::FCR {
            self.write_fifo_control(FCR::from_bits_retain(value));
            return;
        }
        if offset == offsets::LCR {
            self.write_line(LCR::from_bits_retain(value));
            return;
        }
        self.store(offset, value);
    }

    // Writes a register, if it is what the driver means.
    fn write_meant(&mut self, offset: usize, value: u8) {
        if self.is_out_of_reach(offset) {
            return;
        }
        self.write_plain(offset, value);
    }
}

impl<R: DesignWareRegisters> Backend for DesignWare<R> {
    fn read(&mut self, register_offset: u8) -> u8 {
        let offset = register_offset as usize;
        if self.is_out_of_reach(offset) {
            return 0;
        }
        self.read_meant(offset)
    }

    fn write(&mut self, register_offset: u8, value: u8) {
        let offset = register_offset as usize;
        if self.is_interrupts(offset) {
            self.write_interrupts(IER::from_bits_retain(value));
            return;
        }
        self.write_meant(offset, value);
    }
}
