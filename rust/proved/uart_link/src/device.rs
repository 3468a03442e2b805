//! The chip at one end of a cable.

use std::{Vec};

use crate::call::{CALL_MOMENTS, Moment};
use bitflags::Flags;
use std::alloc::Global;
use uart_chip::controlling::ChipParts;
use uart_chip::{ArrivalMark, BuildError, Chip, Event, Uart, arrivals, refusal};
use uart_spec::FifoSize;
use uart_spec::backend::Backend;
use uart_spec::registers::{MCR, MSR, flag};

/// The chip at one end of a cable, as a backend of the driver.
///
/// It is a chip under a schedule, as `Device16550` is, but its schedule becomes known call by call:
/// which characters arrive, and what the modem lines are, depends on the other end.
// Clauses see a machine whose schedule has what is known, and then, behind a mark, as many blanks
// as characters may still come. So the definitions and laws of a chip under a schedule apply as
// they are.
pub struct CabledChip {
    uart: Uart,
    // What is known of the schedule. No event of it is a mark.
    events: Vec<Event>,
    cursor: usize,
    // How many characters may arrive after these events. The journal of the chip is made for a
    // number of them.
    remaining: usize,
}

// Returns the modem lines at one end by the outputs of the other.
fn lines_joined(rts: bool, dtr: bool) -> MSR {
    let cts = flag(rts, MSR::CTS);
    let dsr = flag(dtr, MSR::DSR);
    let cd = flag(dtr, MSR::CD);
    cts.union(dsr.union(cd))
}

// Appends the event of a moment to a list with room for it, if it has one, and returns which
// character is the next one on the cable then. `next` is the next one before.
fn put_event(
    events: &mut Vec<Event>,
    moment: Moment,
    cable: &[u8],
    next: usize,
    lines: MSR,
) -> usize {
    match moment {
        Moment::Ticks(n) => {
            events.push(Event::Ticks(n)).unwrap();
            next
        }
        Moment::Arrives => {
            if next < cable.len() {
                let byte = cable[next];
                events.push(Event::Arrive { byte, errors: 0 }).unwrap();
                return next + 1;
            }
            next
        }
        Moment::Lines => {
            events.push(Event::Lines(lines.bits())).unwrap();
            next
        }
        Moment::Access => {
            events.push(Event::Access).unwrap();
            next
        }
    }
}

// Appends the events of these moments to an empty list with room for them: each character that
// arrives is the next one of `cable`.
fn put_events(events: &mut Vec<Event>, moments: &[Moment], cable: &[u8], lines: MSR) {
    let mut next = 0;
    for moment in moments {
        next = put_event(events, *moment, cable, next, lines);
    }
}

// Leaves this event alone in a list with room for it.
fn put_alone(events: &mut Vec<Event>, event: Event) {
    events.clear();
    events.push(event).unwrap();
}

// Returns whether this event may happen at a cable, if so many characters may still come.
fn may_happen(event: Event, to_come: usize) -> bool {
    match event {
        Event::Arrive { errors, .. } => errors == 0 && to_come > 0,
        Event::Lines(inputs) => {
            let inputs = MSR::from_bits_retain(inputs);
            inputs.intersection(MSR::LINES) == inputs
        }
        Event::Mark => false,
        _ => true,
    }
}

impl CabledChip {
    /// Returns a chip after power-on, at a cable on which nothing has been sent yet.
    ///
    /// A character takes `char_ticks` ticks in the shift register. The wire has room for
    /// `wire_capacity` bytes, which are all that the chip ever sends: when so many have left the
    /// chip, the transmitter keeps what it holds. At most `arrivals` characters arrive, and those
    /// behind them stay on the cable. Bytes are sent and received whole, whatever the word length
    /// is. All memory is allocated here; no later call allocates.
    ///
    /// # Errors
    ///
    /// The first of these.
    ///
    /// - `BadTicks` if `char_ticks` is 0 or more than 1000.
    /// - `BadWire` if `wire_capacity` is more than 65,536.
    /// - `OutOfMemory` if memory could not be allocated.
    ///
    /// # Examples
    ///
    /// ```text
    /// let machine = CabledChip::new(rt.alloc(), Chip::Uart16550A, 4, 64, 64)?;
    /// let mut uart = Uart16550::new_with_backend(machine);
    /// uart.init(Config::DEFAULT)?;
    /// ```
    pub fn new(
        alloc: Global,
        chip: Chip,
        char_ticks: u16,
        wire_capacity: usize,
        arrivals: usize,
    ) -> Result<Self, BuildError> {
        Self::new_sized(
            alloc,
            chip,
            FifoSize::Sixteen,
            char_ticks,
            wire_capacity,
            arrivals,
            false,
        )
    }

    /// Returns a chip as [`CabledChip::new`] does, whose FIFOs have this size, and which cuts each
    /// character to the word length of LCR if `cuts` is set.
    ///
    /// The size is that from the start, and no access changes it. The four trigger levels are those
    /// of a chip with FIFOs of this size. A 16450 has no FIFO, so the size changes nothing that it
    /// does.
    ///
    /// # Errors
    ///
    /// Those of [`CabledChip::new`], in the same order.
    ///
    /// # Examples
    ///
    /// ```text
    /// // As a 16750 that has been switched to 64.
    /// let chip = Chip::Uart16550A;
    /// let size = FifoSize::SixtyFour;
    /// let machine = CabledChip::new_sized(rt.alloc(), chip, size, 4, 64, 64, false)?;
    /// let mut uart = Uart16550::new_with_backend(machine.with_auto_flow());
    /// uart.init(Config::DEFAULT)?;
    /// ```
    pub fn new_sized(
        alloc: Global,
        chip: Chip,
        size: FifoSize,
        char_ticks: u16,
        wire_capacity: usize,
        arrivals: usize,
        cuts: bool,
    ) -> Result<Self, BuildError> {
        if let Some(reason) = refusal(char_ticks, wire_capacity, &[]) {
            return Err(reason);
        }
        let Ok(uart) = Uart::new_sized(alloc, chip, size, char_ticks, wire_capacity, arrivals, cuts)
        else {
            return Err(BuildError::OutOfMemory);
        };
        let Ok(events) = Vec::with_capacity(alloc, CALL_MOMENTS) else {
            return Err(BuildError::OutOfMemory);
        };
        Ok(Self {
            uart,
            events,
            cursor: 0,
            remaining: arrivals,
        })
    }

    /// Returns the same chip with automatic flow control, as a 16750 and a 16950 have it.
    ///
    /// MCR then keeps bit 5. While it is set, the transmitter takes no next character while CTS is
    /// off, and with the FIFO on the RTS output is off while as many characters wait as the trigger
    /// level.
    ///
    /// # Examples
    ///
    /// ```text
    /// let machine = CabledChip::new(rt.alloc(), Chip::Uart16550A, 4, 64, 64)?.with_auto_flow();
    /// let mut uart = Uart16550::new_with_backend(machine);
    /// uart.init(Config::DEFAULT)?;
    /// ```
    #[must_use]
    pub fn with_auto_flow(self) -> Self {
        Self {
            uart: self.uart.with_auto_flow(),
            ..self
        }
    }

    // Performs the events before an access.
    fn reach_access(&mut self) {
        while self.cursor < self.events.len() {
            match self.events[self.cursor] {
                Event::Access => {
                    self.cursor += 1;
                    return;
                }
                event => {
                    self.uart.perform(event);
                    self.cursor += 1;
                }
            }
        }
        self.uart.tick();
    }

    /// Lets all that is known of the schedule happen.
    pub(crate) fn settle(&mut self) {
        while self.cursor < self.events.len() {
            self.uart.perform(self.events[self.cursor]);
            self.cursor += 1;
        }
    }

    /// Lets all that is known of the schedule happen, and puts these moments into it. The
    /// characters that arrive are those that have left the chip at the other end, and the modem
    /// lines are those that it gives.
    pub(crate) fn arrange(&mut self, moments: &[Moment], there: &CabledChip) {
        self.settle();
        let wire = there.wire();
        let arrived = self.arrivals() - self.remaining;
        let first = arrived.min(wire.len());
        let past = first + self.remaining.min(wire.len() - first);
        self.cursor = 0;
        self.events.clear();
        put_events(&mut self.events, moments, &wire[first..past], there.lines());
        self.remaining -= arrivals(&self.events);
    }

    // Lets all that is known of the schedule happen, and puts this event into it.
    fn expect(&mut self, event: Event) {
        self.settle();
        self.cursor = 0;
        put_alone(&mut self.events, event);
        self.remaining -= arrivals(&self.events);
    }

    // Returns whether this event may happen, once all that is known of the schedule has.
    fn may_happen(&self, event: Event) -> bool {
        may_happen(event, self.remaining)
    }

    /// Lets all that is known of the schedule happen, and then this event, and returns true. An
    /// `Access` lies ahead then: there the next register access takes place, without the tick that
    /// passes elsewhere.
    ///
    /// This is for a cable that a program plays itself, from moment to moment. [`run_link`] brings
    /// what has left the other end, from call to call.
    ///
    /// Returns false, and nothing happens, if the event cannot be at a cable: an arrival with
    /// errors or behind the last one that the chip was made for, lines with bits outside of 0xf0,
    /// and a `Mark`.
    ///
    /// # Examples
    ///
    /// ```text
    /// chip.perform(Event::Ticks(1));
    /// let arrives = chip.perform(Event::Arrive { byte, errors: 0 });
    /// ```
    ///
    /// [`run_link`]: crate::run_link
    pub fn perform(&mut self, event: Event) -> bool {
        if !self.may_happen(event) {
            return false;
        }
        self.expect(event);
        match event {
            Event::Access => {}
            _ => self.settle(),
        }
        true
    }

    /// Returns the modem lines that this chip gives to the other end: its RTS is CTS there, and its
    /// DTR is DSR and CD. In loopback its outputs are off.
    #[must_use]
    pub fn lines(&self) -> MSR {
        if self.uart.is_loopback() {
            MSR::empty()
        } else {
            lines_joined(self.uart.rts_output(), self.uart.mcr().intersects(MCR::DTR))
        }
    }

    /// Returns whether nothing has come over the cable yet: no character has arrived, and no moment
    /// lies ahead.
    ///
    /// # Examples
    ///
    /// ```text
    /// assert!(rt; CabledChip::new(rt.alloc(), Chip::Uart16550A, 4, 64, 64)?.is_untouched());
    /// ```
    #[must_use]
    pub fn is_untouched(&self) -> bool {
        if self.cursor < self.events.len() {
            return false;
        }
        self.remaining == self.uart.receiver().arrivals()
    }

    /// Returns the chip.
    #[must_use]
    pub fn chip(&self) -> &Uart {
        &self.uart
    }

    /// Returns the bytes that have left the chip, in order.
    #[must_use]
    pub fn wire(&self) -> &[u8] {
        self.uart.transmitter().wire()
    }

    /// Returns the number of bytes in the transmitter, which are still to be sent.
    #[must_use]
    pub fn held_len(&self) -> usize {
        self.uart.transmitter().held_len()
    }

    /// Returns the number of received bytes that have not been read.
    #[must_use]
    pub fn waiting_len(&self) -> usize {
        self.uart.receiver().waiting_len()
    }

    /// Returns the number of characters that may arrive at this chip, past and future.
    #[must_use]
    pub fn arrivals(&self) -> usize {
        self.uart.receiver().arrivals()
    }

    /// Returns what became of an arrival. Arrivals are counted from 0. `None` if no more can
    /// arrive.
    #[must_use]
    pub fn mark(&self, i: usize) -> Option<ArrivalMark> {
        self.uart.receiver().mark(i)
    }
}

impl Backend for CabledChip {
    fn read(&mut self, register_offset: u8) -> u8 {
        self.reach_access();
        self.uart.read(register_offset)
    }

    fn write(&mut self, register_offset: u8, value: u8) {
        self.reach_access();
        self.uart.write(register_offset, value);
    }
}
