//! A 16550A in which time passes, with one fault or with none.

use std::collections::VecDeque;
use uart_16550::native::backend::{Backend, DesignWareRegisters};
use uart_16550::spec::registers::{FCR, IER, LCR, LSR, MCR, MSR, offsets};

/// What is wrong with a chip.
#[derive(Clone, Copy, Debug, PartialEq, Eq)]
pub enum Fault {
    /// A DesignWare UART: it ignores writes of LCR while it is busy, and interrupts for that until its
    /// register USR is read.
    IgnoresLcrWhileBusy,
    /// A DesignWare UART: it interrupts for a reception timeout while no data wait, until RBR is read.
    TimesOutWithoutData,
    /// ISR shows bit 7 alone: the FIFO is on, and does not work.
    BrokenFifo,
    /// THR_EMPTY comes when the transmitter becomes empty, and not when it is enabled on one that is.
    SilentWhenEnabled,
    /// ISR has a bit for each cause: where THR_EMPTY and received data are due together it shows 06, a
    /// line status, and the read acknowledges THR_EMPTY.
    JoinsCauses,
    /// ISR shows this in its low four bits, as long as an interrupt is enabled.
    Stuck(u8),
    /// ISR shows this whatever is enabled, so that the line never falls.
    StuckForGood(u8),
    /// There is no scratch register: it reads as 0.
    NoScratch,
    /// A register keeps these bits alone of what is written to it.
    Keeps { offset: usize, bits: u8 },
}

// How many accesses a character takes on the line.
const CHARACTER: u32 = 8;
const FIFO_SIZE: usize = 16;

// What ISR shows in its low four bits.
const NONE: u8 = 0x01;
const MODEM: u8 = 0x00;
const THR_EMPTY: u8 = 0x02;
const DATA: u8 = 0x04;
const BUSY: u8 = 0x07;
const TIMEOUT: u8 = 0x0c;

/// The chip. All of its state can be seen and set.
#[derive(Debug, Default)]
pub struct Chip {
    pub fault: Option<Fault>,
    /// What left on the line.
    pub sent: Vec<u8>,
    /// What waits to be received.
    pub received: VecDeque<u8>,
    /// The divisor latch, low byte first.
    pub latch: [u8; 2],
    /// IER, LCR, MCR and SPR, by their offsets.
    pub cells: [u8; 8],
    /// What MSR shows.
    pub msr: u8,
    pub is_fifo_on: bool,
    /// The interrupt of a transmitter that has become empty.
    pub is_empty_due: bool,
    /// A reception timeout.
    pub is_timed_out: bool,
    /// LCR was written while the chip was busy.
    pub is_busy_detected: bool,
    /// Bytes that were written while there was no room.
    pub lost: usize,
    /// What the remote will send, a byte each so many accesses, unless that is 0.
    pub arriving: VecDeque<u8>,
    pub arrives_every: u32,
    /// Bytes that were in the receiver when it was reset.
    pub discarded: usize,
    passed: u32,
    waiting: VecDeque<u8>,
    shifting: Option<u8>,
    left: u32,
}

impl Chip {
    pub fn new(fault: Option<Fault>) -> Self {
        Chip {
            fault,
            latch: [0xaa, 0xbb],
            msr: (MSR::CTS | MSR::DSR | MSR::CD).bits(),
            ..Chip::default()
        }
    }

    /// Puts a character on the line that takes this many accesses more.
    pub fn send_for(&mut self, byte: u8, accesses: u32) {
        self.shifting = Some(byte);
        self.left = accesses;
    }

    /// Whether the chip sends, or has received data.
    pub fn is_busy(&self) -> bool {
        self.shifting.is_some() || !self.received.is_empty()
    }

    /// Reads USR of a DesignWare UART, which is beyond the eight registers.
    pub fn read_usr(&mut self) -> bool {
        self.is_busy_detected = false;
        self.is_busy()
    }

    /// Lets the transmitter send all that it has.
    pub fn rest(&mut self) {
        while self.shifting.is_some() {
            self.pass();
        }
    }

    /// Whether the chip's interrupt line is high.
    pub fn is_interrupting(&self) -> bool {
        self.interrupt() != NONE
    }

    // Lets the time of one access pass.
    fn pass(&mut self) {
        self.passed += 1;
        if self.arrives_every > 0 && self.passed % self.arrives_every == 0 {
            self.received.extend(self.arriving.pop_front());
        }
        let Some(byte) = self.shifting else { return };
        self.left -= 1;
        if self.left > 0 {
            return;
        }
        if self.has(offsets::MCR, MCR::LOOP_BACK.bits()) {
            self.received.push_back(byte);
        } else {
            self.sent.push(byte);
        }
        self.shifting = None;
        self.shift();
    }

    // Moves the next character to the line, if the line is free.
    fn shift(&mut self) {
        if self.shifting.is_some() {
            return;
        }
        if let Some(byte) = self.waiting.pop_front() {
            self.send_for(byte, CHARACTER);
            self.is_empty_due |= self.waiting.is_empty();
        }
    }

    fn has(&self, offset: usize, bits: u8) -> bool {
        self.cells[offset] & bits != 0
    }

    fn enables(&self, interrupt: IER) -> bool {
        self.has(offsets::IER, interrupt.bits())
    }

    fn is_latched(&self, offset: usize) -> bool {
        offset <= offsets::DLM && self.has(offsets::LCR, LCR::DLAB.bits())
    }

    // The low four bits of ISR, in the order of their priorities.
    fn interrupt(&self) -> u8 {
        let has_data = self.enables(IER::DATA_READY) && !self.received.is_empty();
        let is_empty = self.enables(IER::THR_EMPTY) && self.is_empty_due;
        let is_timed_out = self.fault == Some(Fault::TimesOutWithoutData) && self.is_timed_out;
        match self.fault {
            Some(Fault::StuckForGood(shown)) => shown,
            Some(Fault::Stuck(shown)) if self.enables(IER::all()) => shown,
            _ if self.enables(IER::DATA_READY) && is_timed_out => TIMEOUT,
            Some(Fault::JoinsCauses) if has_data && is_empty => DATA | THR_EMPTY,
            _ if has_data => DATA,
            _ if is_empty => THR_EMPTY,
            _ if self.enables(IER::MODEM_STATUS) && self.msr & 0x0f != 0 => MODEM,
            _ if self.is_busy_detected => BUSY,
            _ => NONE,
        }
    }

    fn isr(&mut self) -> u8 {
        let interrupt = self.interrupt();
        self.is_empty_due &= interrupt != THR_EMPTY && interrupt != DATA | THR_EMPTY;
        match self.fault {
            _ if !self.is_fifo_on => interrupt,
            Some(Fault::BrokenFifo) => 0x80 | interrupt,
            _ => 0xc0 | interrupt,
        }
    }

    fn lsr(&self) -> u8 {
        let mut lsr = LSR::empty();
        lsr.set(LSR::DATA_READY, !self.received.is_empty());
        lsr.set(LSR::THR_EMPTY, self.waiting.is_empty());
        lsr.set(
            LSR::TRANSMITTER_EMPTY,
            self.waiting.is_empty() && self.shifting.is_none(),
        );
        lsr.bits()
    }

    fn load(&mut self, offset: usize) -> u8 {
        match offset {
            _ if self.is_latched(offset) => self.latch[offset],
            offsets::DATA => {
                self.is_timed_out = false;
                self.received.pop_front().unwrap_or(0)
            }
            offsets::ISR => self.isr(),
            offsets::LSR => self.lsr(),
            offsets::MSR => {
                let lines = self.msr & 0xf0;
                std::mem::replace(&mut self.msr, lines)
            }
            offsets::SPR if self.fault == Some(Fault::NoScratch) => 0,
            _ => self.cells[offset],
        }
    }

    fn transmit(&mut self, byte: u8) {
        let has_fifo = self.is_fifo_on && self.fault != Some(Fault::BrokenFifo);
        let room = if has_fifo { FIFO_SIZE } else { 1 };
        if self.waiting.len() == room {
            self.lost += 1;
            return;
        }
        self.waiting.push_back(byte);
        self.is_empty_due = false;
        self.shift();
    }

    fn enable(&mut self, interrupts: u8) {
        let was_enabled = self.enables(IER::THR_EMPTY);
        self.cells[offsets::IER] = interrupts & IER::all().bits();
        let is_raised = self.enables(IER::THR_EMPTY) && !was_enabled && self.waiting.is_empty();
        if is_raised {
            // One that is silent forgets what came while the interrupt was disabled, too.
            self.is_empty_due = self.fault != Some(Fault::SilentWhenEnabled);
        }
    }

    fn control(&mut self, control: FCR) {
        let is_on = control.contains(FCR::FIFO_ENABLE);
        if is_on != self.is_fifo_on || (is_on && control.contains(FCR::RX_FIFO_RESET)) {
            self.discarded += self.received.len();
            self.received.clear();
        }
        self.is_fifo_on = is_on;
    }

    fn store(&mut self, offset: usize, value: u8) {
        let value = match self.fault {
            Some(Fault::Keeps { offset: of, bits }) if of == offset => value & bits,
            _ => value,
        };
        match offset {
            _ if self.is_latched(offset) => self.latch[offset] = value,
            offsets::DATA => self.transmit(value),
            offsets::IER => self.enable(value),
            offsets::FCR => self.control(FCR::from_bits_retain(value)),
            offsets::LCR if self.fault == Some(Fault::IgnoresLcrWhileBusy) && self.is_busy() => {
                self.is_busy_detected = true;
            }
            offsets::LSR | offsets::MSR => {}
            _ => self.cells[offset] = value,
        }
    }
}

impl Backend for Chip {
    fn read(&mut self, register_offset: u8) -> u8 {
        let value = self.load(register_offset.into());
        self.pass();
        value
    }

    fn write(&mut self, register_offset: u8, value: u8) {
        self.store(register_offset.into(), value);
        self.pass();
    }
}

impl DesignWareRegisters for Chip {
    fn read_usr(&mut self) -> u8 {
        let is_busy = Chip::read_usr(self);
        self.pass();
        u8::from(is_busy)
    }
}
