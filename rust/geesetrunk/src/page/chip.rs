//! A chip without a schedule, of which all can be seen: its registers as a read would show them, its queues and its shift register.

use crate::heap;
use crate::page::state::State;
use geesetrunk_kit::alloc::AllocError;
use uart_chip::controlling::ChipParts;
use uart_chip::receiving::{ReceiverParts, characters_of};
use uart_chip::transmitting::TransmitterParts;
use uart_chip::{Character, Modem, Uart};
use uart_language::fields::ChipKind;
use uart_spec::registers::{LSR, MSR, offsets};

/// The chip. It has FIFOs of any size, and what a 16750 has beyond a 16550A, if it is one.
pub struct SeenChip {
    chip: Uart,
    // The modem lines of the chip, which does what is done here with its own: they can be asked without a read of MSR.
    modem: Modem,
}

impl SeenChip {
    fn of(chip: Uart) -> Self {
        SeenChip {
            chip,
            modem: Modem::new(),
        }
    }

    /// Returns a chip after power-on, whose wire has room for so many bytes, and which cuts characters to the word length or not.
    ///
    /// # Errors
    ///
    /// `AllocError` if out of memory.
    pub fn new(kind: ChipKind, ticks: u16, room: usize, cuts: bool) -> Result<Self, AllocError> {
        let chip = Uart::new_sized(heap(), kind.model, kind.size, ticks, room, 0, cuts)?;
        Ok(SeenChip::of(match kind.auto_flow {
            true => chip.with_auto_flow(),
            false => chip,
        }))
    }

    /// Returns a 16750 after power-on: its FIFOs have 16 characters until FCR switches them to 64.
    ///
    /// # Errors
    ///
    /// `AllocError` if out of memory.
    pub fn new_16750(ticks: u16, room: usize) -> Result<Self, AllocError> {
        Uart::new_16750(heap(), ticks, room, 0, false).map(SeenChip::of)
    }

    /// Reads a register.
    pub fn read(&mut self, offset: u8) -> u8 {
        if usize::from(offset) == offsets::MSR {
            self.modem.read();
        }
        self.chip.read(offset)
    }

    /// Writes a register.
    pub fn write(&mut self, offset: u8, value: u8) {
        self.chip.write(offset, value);
        if usize::from(offset) == offsets::MCR {
            self.modem.renew(self.chip.mcr());
        }
    }

    /// Lets time pass.
    pub fn ticks(&mut self, count: u16) {
        self.chip.ticks(count);
    }

    /// Lets a character arrive with these errors, as bits of LSR. In loopback it is lost.
    pub fn arrive(&mut self, byte: u8, errors: LSR) {
        let errors = errors & LSR::CHARACTER_ERRORS;
        self.chip.arrive_live(byte, errors.bits());
    }

    /// Sets the modem inputs.
    pub fn set_lines(&mut self, inputs: MSR) {
        let inputs = inputs & (MSR::CTS | MSR::DSR | MSR::RI | MSR::CD);
        self.modem.change_inputs(self.chip.mcr(), inputs);
        self.chip.change_lines(inputs.bits());
    }

    /// Takes what was sent.
    pub fn take_wire(&mut self) -> Vec<u8> {
        let sent = self.chip.transmitter().wire().to_vec();
        self.chip.take_wire(sent.len());
        sent
    }

    // Returns what a read of LSR would show.
    fn lsr(&self) -> LSR {
        let (receiver, transmitter) = (self.chip.receiver(), self.chip.transmitter());
        let behind = match self.chip.fifo() && receiver.has_unreported_errors() {
            true => LSR::FIFO_DATA_ERROR,
            false => LSR::empty(),
        };
        receiver.status() | transmitter.status() | behind
    }

    // Returns what a read of ISR would show. The read may acknowledge an interrupt, and nothing else: so it is made, and that taken back.
    fn isr(&mut self) -> u8 {
        let is_pending = self.chip.transmitter().is_thr_pending();
        let value = self.chip.read(offsets::ISR as u8);
        self.chip.transmitter_mut().set_thr_pending(is_pending);
        value
    }

    // Returns the characters in the receiver: each is taken from the front and put behind the others, until all were.
    fn waiting(&mut self) -> Vec<Character> {
        let receiver = self.chip.receiver_mut();
        let shown = receiver.status() & LSR::CHARACTER_ERRORS;
        let mut waiting = Vec::new();
        for _ in 0..receiver.queue_len() {
            if let Some(front) = receiver.pop() {
                waiting.push(front);
                receiver.put(front);
            }
        }
        // LSR has shown the errors of the front if it shows them no more.
        let is_reported = waiting.first().is_some_and(Character::has_errors) && shown.is_empty();
        receiver.set_front_reported(is_reported);
        waiting
    }

    // Returns the bytes in the queue of the transmitter.
    fn held(&self) -> Vec<u8> {
        let transmitter = self.chip.transmitter();
        let shifting = usize::from(transmitter.shifting().is_some());
        (shifting..transmitter.held_len())
            .filter_map(|index| transmitter.held_at(index))
            .collect()
    }

    /// Returns how the chip is. It is the same afterwards.
    pub fn state(&mut self) -> State {
        let (isr, waiting) = (self.isr(), self.waiting());
        let (receiver, transmitter) = (self.chip.receiver(), self.chip.transmitter());
        State {
            latches: self.chip.latches(),
            isr,
            lsr: self.lsr().bits(),
            msr: Modem::from_data(self.modem.data()).read().bits(),
            has_fifo_on: self.chip.fifo(),
            size: receiver.size().characters(),
            trigger: characters_of(receiver.size(), receiver.trigger()),
            held: self.held(),
            shifting: transmitter.shifting(),
            waiting,
            is_interrupting: self.chip.is_interrupting(),
            asks: self.chip.rts_output(),
            overflows: transmitter.overflows(),
        }
    }
}
