//! The chip: its registers, its transmitter, its receiver and its modem lines.

use crate::capabilities::{Capabilities, ChosenCapabilities};
use crate::controlling::{
    ChipParts, advance, arrive_live, change_lines, cut, divisor, is_dlab_set, is_interrupting,
    is_loopback, read, receive_room, rts_output, tick, write,
};
use crate::fifo::{Fifo, HeapFifo};
use crate::journal::{Journal, Marks};
use crate::modem::{Modem, ModemData};
use crate::receiver::{Character, Receiver, ReceiverData};
use crate::receiving::{expire_timeout, is_timed_out};
use crate::sending::{send_at_once, sends_at_once};
use crate::transmitter::{Transmitter, TransmitterData};
use crate::wire::{HeapWire, Wire, send};
use bitflags::Flags;
use std::alloc::{AllocError, Global};
use uart_events::{Chip, Event};
use uart_spec::FifoSize;
use uart_spec::registers::{DLL, DLM, IER, LCR, MCR, MSR, SPR};

/// The registers that keep what is written to them.
#[derive(Clone, Copy)]
pub struct Latches {
    /// The interrupt enable register.
    pub ier: IER,
    /// The line control register.
    pub lcr: LCR,
    /// The modem control register.
    pub mcr: MCR,
    /// The scratch register.
    pub scr: SPR,
    /// The low byte of the divisor latch.
    pub dll: DLL,
    /// The high byte of the divisor latch.
    pub dlm: DLM,
}

/// A chip without a schedule as plain data, without the bytes on its wire.
pub struct ChipData {
    /// The model.
    pub model: Chip,
    /// The registers that keep what is written to them.
    pub latches: Latches,
    /// Whether the FIFOs are on.
    pub fifo: bool,
    /// The transmitter.
    pub transmitter: TransmitterData,
    /// The receiver.
    pub receiver: ReceiverData,
    /// The modem lines.
    pub modem: ModemData,
    /// Whether characters are cut to the word length.
    pub cuts: bool,
}

/// A chip of either model, without a schedule. `Device16550` puts it under one.
// The chip is written once, over queues, wires and journals of any kind: a machine allocates them
// (the defaults), and a live chip has them in arrays. What happens in it is in `controlling`,
// `transmitting` and `receiving`, over traits of its parts, which the structs for C have too.
pub struct Uart<
    B: Fifo<u8> = HeapFifo<u8>,
    W: Wire = HeapWire,
    C: Fifo<Character> = HeapFifo<Character>,
    J: Journal = Marks,
    E: Capabilities = ChosenCapabilities,
> {
    model: Chip,
    latches: Latches,
    fifo: bool,
    transmitter: Transmitter<B, W>,
    receiver: Receiver<C, J>,
    modem: Modem,
    cuts: bool,
    capabilities: E,
}

impl<
    B: Fifo<u8>,
    W: Wire,
    C: Fifo<Character>,
    J: Journal,
    E: Capabilities,
> Uart<B, W, C, J, E> {
    /// Returns a chip after power-on, over empty queues of one size and an empty wire, with this
    /// journal, and with nothing beyond a 16550A.
    ///
    /// A character takes `char_ticks` ticks to be sent, and characters are cut to the word length
    /// if `cuts` is set.
    #[must_use]
    pub fn with_parts(
        bytes: B,
        wire: W,
        characters: C,
        journal: J,
        model: Chip,
        char_ticks: u16,
        cuts: bool,
    ) -> Self {
        Self {
            model,
            latches: Latches {
                ier: IER::empty(),
                lcr: LCR::empty(),
                mcr: MCR::empty(),
                scr: 0,
                dll: 0,
                dlm: 0,
            },
            fifo: false,
            transmitter: Transmitter::new(bytes, wire, char_ticks),
            receiver: Receiver::new(characters, journal, char_ticks),
            modem: Modem::new(),
            cuts,
            capabilities: E::none(),
        }
    }

    /// Returns the chip with these data, over empty queues of 16 and a wire that holds its bytes,
    /// without a schedule, and with nothing beyond a 16550A.
    #[must_use]
    pub fn from_parts(bytes: B, wire: W, characters: C, journal: J, saved: &ChipData) -> Self {
        let receiver = Receiver::from_data(
            characters,
            journal,
            saved.transmitter.char_ticks,
            &saved.receiver,
        );
        Self {
            model: saved.model,
            latches: saved.latches,
            fifo: saved.fifo,
            transmitter: Transmitter::from_data(bytes, wire, &saved.transmitter),
            receiver,
            modem: Modem::from_data(saved.modem),
            cuts: saved.cuts,
            capabilities: E::none(),
        }
    }

    /// Returns the chip as plain data, without the bytes on its wire and without its schedule. The
    /// data are those of a chip with FIFOs of 16 that has nothing beyond a 16550A.
    #[must_use]
    pub fn data(&self) -> ChipData {
        ChipData {
            model: self.model,
            latches: self.latches,
            fifo: self.fifo,
            transmitter: self.transmitter.data(),
            receiver: self.receiver.data(),
            modem: self.modem.data(),
            cuts: self.cuts,
        }
    }

    /// Returns the transmitter.
    #[must_use]
    pub fn transmitter(&self) -> &Transmitter<B, W> {
        &self.transmitter
    }

    /// Returns the receiver.
    #[must_use]
    pub fn receiver(&self) -> &Receiver<C, J> {
        &self.receiver
    }

    /// Returns whether the FIFOs are on.
    #[must_use]
    pub fn fifo(&self) -> bool {
        self.fifo
    }

    /// Returns whether what is sent comes back to the receiver.
    #[must_use]
    pub fn is_loopback(&self) -> bool {
        is_loopback(self)
    }

    /// Returns whether DATA and IER are the divisor latch.
    #[must_use]
    pub fn is_dlab_set(&self) -> bool {
        is_dlab_set(self)
    }

    /// Returns whether the chip asks the other end to send, by its output RTS.
    #[must_use]
    pub fn rts_output(&self) -> bool {
        rts_output(self)
    }

    /// Returns the divisor in the divisor latch.
    #[must_use]
    pub fn divisor(&self) -> u16 {
        divisor(self)
    }

    /// Lets one tick pass.
    pub fn tick(&mut self) {
        tick(self);
    }

    /// Lets `n` ticks pass, and returns the number of jumps that this took.
    ///
    /// A jump ends at the tick in which a character enters or leaves the shift register, or takes
    /// all ticks that are left. So its cost does not grow with the number of ticks.
    pub fn ticks(&mut self, n: u16) -> usize {
        advance(self, n)
    }

    fn arrive(&mut self, byte: u8, errors: u8) {
        let loopback = is_loopback(self);
        let byte = cut(self, byte);
        self.receiver.arrive(loopback, self.fifo, byte, errors);
    }

    /// Receives a character without a schedule, with these error bits. In loopback the character is
    /// lost.
    pub fn arrive_live(&mut self, byte: u8, errors: u8) {
        arrive_live(self, byte, errors);
    }

    /// Returns whether a reception timeout is due.
    #[must_use]
    pub fn is_timed_out(&self) -> bool {
        is_timed_out(&self.receiver, self.fifo)
    }

    /// Makes a reception timeout due if the FIFO is on and has a character.
    pub fn expire_timeout(&mut self) {
        expire_timeout(&mut self.receiver);
    }

    /// Returns how many characters can be received before one is lost. In loopback that is 0.
    #[must_use]
    pub fn receive_room(&self) -> usize {
        receive_room(self)
    }

    /// Removes this number of bytes from the front of the wire, or all if there are fewer.
    pub fn take_wire(&mut self, count: usize) {
        self.transmitter.take_wire(count);
    }

    /// Sets the inputs of the modem, as bits of MSR.
    pub fn change_lines(&mut self, inputs: u8) {
        change_lines(self, inputs);
    }

    /// Performs an event of the schedule. `Access` and `Mark` do nothing by themselves.
    pub fn perform(&mut self, event: Event) {
        match event {
            Event::Ticks(n) => {
                self.ticks(n);
            }
            Event::Arrive { byte, errors } => self.arrive(byte, errors),
            Event::Lines(inputs) => self.change_lines(inputs),
            Event::Access | Event::Mark => {}
        }
    }

    /// Returns whether an interrupt is enabled and pending: whether the interrupt output is active.
    #[must_use]
    pub fn is_interrupting(&self) -> bool {
        is_interrupting(self)
    }

    /// Reads the register at this offset: returns its value, and has the effect of the read on the
    /// chip.
    #[inline]
    pub fn read(&mut self, offset: u8) -> u8 {
        read(self, offset)
    }

    /// Writes a value to the register at this offset.
    pub fn write(&mut self, offset: u8, value: u8) {
        write(self, offset, value);
    }

    /// Returns whether a byte that is written to DATA can go onto the wire at once: outside of
    /// loopback, with nothing in the transmitter, which is not held off, and with room on the wire.
    #[must_use]
    pub fn sends_at_once(&self) -> bool {
        sends_at_once(self)
    }

    /// Puts a byte that is written to DATA onto the wire. The caller must have asked
    /// `sends_at_once`.
    pub fn send_at_once(&mut self, value: u8) {
        send_at_once(self, value);
    }
}

impl<
    B: Fifo<u8>,
    W: Wire,
    C: Fifo<Character>,
    J: Journal,
    E: Capabilities,
> ChipParts for Uart<B, W, C, J, E> {
    type Transmitter = Transmitter<B, W>;

    type Receiver = Receiver<C, J>;

    fn model(&self) -> Chip {
        self.model
    }

    fn cuts(&self) -> bool {
        self.cuts
    }

    fn has_auto_flow(&self) -> bool {
        self.capabilities.has_auto_flow()
    }

    fn has_size_switch(&self) -> bool {
        self.capabilities.has_size_switch() && B::can_resize() && C::can_resize()
    }

    fn transmitter(&self) -> &Transmitter<B, W> {
        &self.transmitter
    }

    fn transmitter_mut(&mut self) -> &mut Transmitter<B, W> {
        &mut self.transmitter
    }

    fn receiver(&self) -> &Receiver<C, J> {
        &self.receiver
    }

    fn receiver_mut(&mut self) -> &mut Receiver<C, J> {
        &mut self.receiver
    }

    fn fifo(&self) -> bool {
        self.fifo
    }

    fn turn_fifo(&mut self, on: bool) {
        self.fifo = on;
    }

    fn resize(&mut self, size: FifoSize) {
        if self.has_size_switch() {
            self.transmitter.resize(size);
            self.receiver.resize(size);
        }
    }

    fn renew_modem(&mut self, mcr: MCR) {
        self.modem.renew(mcr);
    }

    fn change_inputs(&mut self, mcr: MCR, inputs: u8) {
        self.modem.change_inputs(mcr, MSR::from_bits_retain(inputs));
    }

    fn read_modem(&mut self) -> u8 {
        self.modem.read().bits()
    }

    fn has_modem_changes(&self) -> bool {
        self.modem.has_changes()
    }

    fn is_clear_to_send(&self) -> bool {
        self.modem.is_clear_to_send()
    }

    fn ier(&self) -> IER {
        self.latches.ier
    }

    fn lcr(&self) -> LCR {
        self.latches.lcr
    }

    fn mcr(&self) -> MCR {
        self.latches.mcr
    }

    fn latches(&self) -> Latches {
        self.latches
    }

    fn set_latches(&mut self, latches: Latches) {
        self.latches = latches;
    }
}

impl Uart<HeapFifo<u8>, HeapWire, HeapFifo<Character>, Marks, ChosenCapabilities> {
    /// Returns a chip after power-on, for a schedule with this number of arrivals. Allocates all of
    /// its memory.
    ///
    /// A character takes `char_ticks` ticks to be sent, the wire has room for `capacity` bytes, and
    /// characters are cut to the word length if `cuts` is set.
    ///
    /// # Errors
    ///
    /// `AllocError` if memory could not be allocated.
    pub fn new(
        alloc: Global,
        model: Chip,
        char_ticks: u16,
        capacity: usize,
        arrivals: usize,
        cuts: bool,
    ) -> Result<Self, AllocError> {
        Self::new_sized(
            alloc,
            model,
            FifoSize::Sixteen,
            char_ticks,
            capacity,
            arrivals,
            cuts,
        )
    }

    /// Returns a chip as [`Uart::new`] does, whose FIFOs have this size.
    ///
    /// # Errors
    ///
    /// `AllocError` if memory could not be allocated.
    pub fn new_sized(
        alloc: Global,
        model: Chip,
        size: FifoSize,
        char_ticks: u16,
        capacity: usize,
        arrivals: usize,
        cuts: bool,
    ) -> Result<Self, AllocError> {
        let bytes = HeapFifo::new(alloc, size)?;
        let wire = HeapWire::new(alloc, capacity)?;
        let characters = HeapFifo::new(alloc, size)?;
        let journal = Marks::new(alloc, arrivals)?;
        Ok(Uart::with_parts(bytes, wire, characters, journal, model, char_ticks, cuts))
    }

    /// Returns a 16750 after power-on: a 16550A with automatic flow control and FIFOs of 16, which
    /// its size switch makes 64. Allocates all of its memory: a switch needs none.
    ///
    /// # Errors
    ///
    /// `AllocError` if memory could not be allocated.
    pub fn new_16750(
        alloc: Global,
        char_ticks: u16,
        capacity: usize,
        arrivals: usize,
        cuts: bool,
    ) -> Result<Self, AllocError> {
        let uart = Self::new(
            alloc,
            Chip::Uart16550A,
            char_ticks,
            capacity,
            arrivals,
            cuts,
        )?;
        Ok(uart.into_16750())
    }

    // Returns the same chip with what a 16750 has beyond a 16550A.
    pub(crate) fn into_16750(self) -> Self {
        let capabilities = ChosenCapabilities {
            auto_flow: true,
            size_switch: true,
        };
        Self {
            capabilities,
            ..self
        }
    }

    /// Returns the same chip with automatic flow control: MCR then keeps bit 5.
    #[must_use]
    pub fn with_auto_flow(self) -> Self {
        let capabilities = ChosenCapabilities {
            auto_flow: true,
            ..self.capabilities
        };
        Self {
            capabilities,
            ..self
        }
    }

    /// Returns the chip with these data, and with these bytes on its wire. Allocates all of its
    /// memory.
    ///
    /// # Errors
    ///
    /// `AllocError` if memory could not be allocated.
    pub fn from_data(alloc: Global, saved: &ChipData, wire: &[u8]) -> Result<Self, AllocError> {
        let bytes = HeapFifo::new(alloc, FifoSize::Sixteen)?;
        let mut sent = HeapWire::new(alloc, saved.transmitter.wire_capacity)?;
        send(&mut sent, wire);
        let characters = HeapFifo::new(alloc, FifoSize::Sixteen)?;
        let journal = Marks::new(alloc, 0)?;
        Ok(Uart::from_parts(bytes, sent, characters, journal, saved))
    }
}
