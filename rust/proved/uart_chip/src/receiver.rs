//! The receiver: a queue of characters, and what became of each arrival.

use crate::characters::Characters;
use crate::fifo::{Fifo, items_of};
use crate::flag;
use crate::journal::{Journal, Marks};
use crate::receiving::{ReceiverParts, enter};
use arrayvec::ArrayVec;
use bitflags::Flags;
use uart_events::ArrivalMark;
use uart_spec::registers::{FifoTriggerLevel, LSR};
use uart_spec::{FIFO_SIZE, FifoSize};

/// Where a character is from.
#[derive(Clone, Copy, Default)]
pub enum Origin {
    /// The arrival of the schedule with this number.
    Arrived(usize),
    /// Sent by the chip itself, in loopback.
    #[default]
    Looped,
    /// Received without a schedule. It has neither a number nor a mark, so the proofs about
    /// characters that come back in loopback serve for it too.
    Live,
}

/// A received character that has not been read.
#[derive(Clone, Copy, Default)]
pub struct Character {
    /// The byte.
    pub byte: u8,
    /// Its errors, as bits of LSR.
    pub errors: u8,
    /// Where it is from.
    pub origin: Origin,
}

/// The ticks towards a reception timeout.
#[derive(Clone, Copy)]
pub struct Timeout {
    /// The ticks since a character was received or read, counted up to the limit.
    pub ticks: u16,
    /// The number of ticks after which the timeout is due.
    pub limit: u16,
}

/// The receiver: received characters are in its queue until DATA is read.
// It has a model of its own, and so has the transmitter: each body is proved over its own record.
pub struct Receiver<Q: Fifo<Character>, J: Journal> {
    queue: Characters<Q>,
    status: LSR,
    is_overrun: bool,
    is_front_reported: bool,
    last_byte: u8,
    timeout: Timeout,
    trigger: FifoTriggerLevel,
    arrived: usize,
    journal: J,
    is_unscheduled_lost: bool,
}

impl Timeout {
    /// Returns whether the timeout is due.
    #[must_use]
    pub fn is_due(self) -> bool {
        self.ticks == self.limit
    }
}

impl Character {
    // Returns the errors that LSR shows of the character at the front.
    fn shown_errors(&self) -> LSR {
        LSR::from_bits_retain(self.errors).intersection(LSR::CHARACTER_ERRORS)
    }

    /// Returns whether the character has a parity error or a framing error, or is a break.
    #[must_use]
    pub fn has_errors(&self) -> bool {
        LSR::from_bits_retain(self.errors).intersects(LSR::CHARACTER_ERRORS)
    }

    /// Returns 1 if the character has errors, else 0.
    #[must_use]
    pub fn error_weight(&self) -> usize {
        if self.has_errors() { 1 } else { 0 }
    }
}

// Returns what LSR shows of a receiver, but for the errors behind the front.
fn status_of<Q: Fifo<Character>>(queue: &Q, is_overrun: bool, is_front_reported: bool) -> LSR {
    let data_ready = flag(!queue.is_empty(), LSR::DATA_READY);
    let overrun = flag(is_overrun, LSR::OVERRUN_ERROR);
    let errors = match queue.get(0) {
        Some(front) if !is_front_reported => front.shown_errors(),
        _ => LSR::empty(),
    };
    data_ready.union(overrun).union(errors)
}

/// A receiver without a schedule, as plain data.
pub struct ReceiverData {
    /// The characters that have not been read, from the front.
    pub queue: ArrayVec<Character, FIFO_SIZE>,
    /// Whether a character was lost since the last read of LSR.
    pub is_overrun: bool,
    /// Whether a read of LSR has reported the errors of the front.
    pub is_front_reported: bool,
    /// The byte that was read last, which a read of an empty receiver returns.
    pub last_byte: u8,
    /// The ticks since a character was received or read, counted up to the timeout.
    pub timeout_ticks: u16,
    /// The trigger level of the FIFO.
    pub trigger: FifoTriggerLevel,
}

impl<Q: Fifo<Character>, J: Journal> Receiver<Q, J> {
    /// Returns a receiver that has received nothing, over an empty queue, with this journal.
    #[must_use]
    pub fn new(queue: Q, journal: J, char_ticks: u16) -> Self {
        Self {
            queue: Characters::new(queue),
            is_overrun: false,
            is_front_reported: false,
            last_byte: 0,
            timeout: Timeout {
                ticks: 0,
                limit: 4 * char_ticks,
            },
            trigger: FifoTriggerLevel::One,
            arrived: 0,
            journal,
            is_unscheduled_lost: false,
            status: LSR::empty(),
        }
    }

    /// Returns the receiver with these data, over an empty queue of 16, with this journal. None of
    /// its arrivals has arrived.
    #[must_use]
    pub fn from_data(queue: Q, journal: J, char_ticks: u16, saved: &ReceiverData) -> Self {
        let queue = Characters::filled(queue, &saved.queue);
        let status = status_of(&queue, saved.is_overrun, saved.is_front_reported);
        Self {
            queue,
            is_overrun: saved.is_overrun,
            is_front_reported: saved.is_front_reported,
            last_byte: saved.last_byte,
            timeout: Timeout {
                ticks: saved.timeout_ticks,
                limit: 4 * char_ticks,
            },
            trigger: saved.trigger,
            arrived: 0,
            journal,
            is_unscheduled_lost: false,
            status,
        }
    }

    /// Returns the receiver as plain data, without its marks. The data are those of one with a FIFO
    /// of 16.
    #[must_use]
    pub fn data(&self) -> ReceiverData {
        ReceiverData {
            queue: items_of(&self.queue),
            is_overrun: self.is_overrun,
            is_front_reported: self.is_front_reported,
            last_byte: self.last_byte,
            timeout_ticks: self.timeout.ticks,
            trigger: self.trigger,
        }
    }

    /// Receives the next arrival of the schedule. In loopback it is discarded.
    pub fn arrive(&mut self, loopback: bool, fifo: bool, byte: u8, errors: u8) {
        let origin = Origin::Arrived(self.arrived);
        if self.arrived < self.journal.len() {
            self.arrived += 1;
        }
        if loopback {
            self.journal.set_mark(origin, ArrivalMark::Discarded);
        } else {
            enter(
                self,
                fifo,
                Character {
                    byte,
                    errors,
                    origin,
                },
            );
        }
    }

    /// Empties the queue, and makes it that of a FIFO of this size. The caller must show that it
    /// can be, and that the size is at most 64.
    pub fn resize(&mut self, size: FifoSize) {
        self.queue.resize(size);
        self.status = flag(self.is_overrun, LSR::OVERRUN_ERROR);
    }

    /// Returns the number of received bytes that have not been read.
    #[must_use]
    pub fn waiting_len(&self) -> usize {
        self.queue.len()
    }

    /// Returns the received byte with this index, from the front.
    #[must_use]
    pub fn waiting_at(&self, i: usize) -> Option<u8> {
        self.queue.get(i).map(|character| character.byte)
    }

    /// Returns the number of arrivals of the schedule, past and future.
    #[must_use]
    pub fn arrivals(&self) -> usize {
        self.journal.len()
    }
}

impl<Q: Fifo<Character>> Receiver<Q, Marks> {
    /// Returns what became of the arrival with this number.
    #[must_use]
    pub fn mark(&self, i: usize) -> Option<ArrivalMark> {
        self.journal.get(i)
    }
}

impl<Q: Fifo<Character>, J: Journal> ReceiverParts for Receiver<Q, J> {
    fn size(&self) -> FifoSize {
        self.queue.size()
    }

    fn queue_len(&self) -> usize {
        self.queue.len()
    }

    fn put(&mut self, new: Character) {
        if self.queue.is_empty() {
            self.is_front_reported = false;
            self.status = self.status.union(LSR::DATA_READY).union(new.shown_errors());
        }
        self.queue.push(new);
    }

    fn pop(&mut self) -> Option<Character> {
        let front = self.queue.pop()?;
        self.is_front_reported = false;
        self.status = status_of(&self.queue, self.is_overrun, false);
        Some(front)
    }

    fn clear_queue(&mut self) {
        self.queue.clear();
        self.status = flag(self.is_overrun, LSR::OVERRUN_ERROR);
    }

    fn set_mark(&mut self, origin: Origin, mark: ArrivalMark) {
        self.journal.set_mark(origin, mark);
    }

    fn discard(&mut self) {
        self.journal.discard(&self.queue);
    }

    fn set_unscheduled_lost(&mut self, on: bool) {
        self.is_unscheduled_lost = on;
    }

    fn set_overrun(&mut self, on: bool) {
        self.is_overrun = on;
        self.status = status_of(&self.queue, on, self.is_front_reported);
    }

    fn set_front_reported(&mut self, on: bool) {
        self.is_front_reported = on;
        self.status = status_of(&self.queue, self.is_overrun, on);
    }

    fn status(&self) -> LSR {
        self.status
    }

    fn has_errors(&self) -> bool {
        self.queue.has_errors()
    }

    fn has_unreported_errors(&self) -> bool {
        self.queue.has_unreported_errors(self.is_front_reported)
    }

    fn last_byte(&self) -> u8 {
        self.last_byte
    }

    fn set_last_byte(&mut self, byte: u8) {
        self.last_byte = byte;
    }

    fn timeout(&self) -> Timeout {
        self.timeout
    }

    fn set_timeout_ticks(&mut self, ticks: u16) {
        self.timeout.ticks = ticks;
    }

    fn trigger(&self) -> FifoTriggerLevel {
        self.trigger
    }

    fn set_trigger(&mut self, trigger: FifoTriggerLevel) {
        self.trigger = trigger;
    }
}
