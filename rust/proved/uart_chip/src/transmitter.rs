//! The transmitter: a queue, the shift register, and the wire.

use crate::fifo::{Fifo, fill, items_of};
use crate::transmitting::{TransmitterParts, held_len};
use crate::wire::Wire;
use arrayvec::ArrayVec;
use bitflags::Flags;
use uart_spec::registers::LSR;
use uart_spec::{FIFO_SIZE, FifoSize};

/// The character in the shift register.
#[derive(Clone, Copy)]
pub struct Shifting {
    /// The byte.
    pub byte: u8,
    /// The ticks until it has left.
    pub ticks_left: u16,
}

/// The transmitter: bytes that are written to DATA are first in the queue, then in the shift
/// register, and then on the wire.
pub struct Transmitter<Q: Fifo<u8>, W: Wire> {
    queue: Q,
    shift_register: Option<Shifting>,
    wire: W,
    char_ticks: u16,
    overflows: u64,
    is_thr_pending: bool,
    status: LSR,
}

/// A transmitter as plain data, without the bytes on its wire.
pub struct TransmitterData {
    /// The bytes in the FIFO or in THR, from the front.
    pub queue: ArrayVec<u8, FIFO_SIZE>,
    /// The character in the shift register.
    pub shift_register: Option<Shifting>,
    /// The number of bytes that the wire has room for.
    pub wire_capacity: usize,
    /// The ticks that a character takes to be sent.
    pub char_ticks: u16,
    /// How many bytes were written while there was no room. The count saturates.
    pub overflows: u64,
    /// Whether a `THR_EMPTY` interrupt is pending.
    pub is_thr_pending: bool,
}

// Returns what LSR shows of a transmitter with this queue and this shift register.
fn status_of<Q: Fifo<u8>>(queue: &Q, shift_register: Option<Shifting>) -> LSR {
    if !queue.is_empty() {
        LSR::empty()
    } else if shift_register.is_some() {
        LSR::THR_EMPTY
    } else {
        LSR::THR_EMPTY.union(LSR::TRANSMITTER_EMPTY)
    }
}

impl<Q: Fifo<u8>, W: Wire> Transmitter<Q, W> {
    /// Returns a transmitter that has sent nothing, over an empty queue and an empty wire.
    #[must_use]
    pub fn new(queue: Q, wire: W, char_ticks: u16) -> Self {
        Self {
            queue,
            shift_register: None,
            wire,
            char_ticks,
            overflows: 0,
            is_thr_pending: false,
            status: LSR::THR_EMPTY.union(LSR::TRANSMITTER_EMPTY),
        }
    }

    /// Returns the transmitter with these data, over an empty queue of 16 and a wire that holds its
    /// bytes.
    #[must_use]
    pub fn from_data(mut queue: Q, wire: W, saved: &TransmitterData) -> Self {
        fill(&mut queue, &saved.queue);
        let status = status_of(&queue, saved.shift_register);
        Self {
            queue,
            shift_register: saved.shift_register,
            wire,
            char_ticks: saved.char_ticks,
            overflows: saved.overflows,
            is_thr_pending: saved.is_thr_pending,
            status,
        }
    }

    /// Returns the transmitter as plain data, without the bytes on its wire. The data are those of
    /// one with a FIFO of 16.
    #[must_use]
    pub fn data(&self) -> TransmitterData {
        TransmitterData {
            queue: items_of(&self.queue),
            shift_register: self.shift_register,
            wire_capacity: self.wire.capacity(),
            char_ticks: self.char_ticks,
            overflows: self.overflows,
            is_thr_pending: self.is_thr_pending,
        }
    }

    /// Empties the queue, and makes it that of a FIFO of this size. The caller must show that it
    /// can be, and that the size is at most 64.
    pub fn resize(&mut self, size: FifoSize) {
        self.queue.resize(size);
        self.status = status_of(&self.queue, self.shift_register);
    }

    /// Returns the bytes on the wire, from the first that was sent.
    #[must_use]
    pub fn wire(&self) -> &[u8] {
        self.wire.as_slice()
    }

    /// Removes this number of bytes from the front of the wire, or all if there are fewer.
    pub fn take_wire(&mut self, count: usize) {
        self.wire.take(count);
    }

    /// Returns how many more bytes the wire has room for.
    #[must_use]
    pub fn wire_room(&self) -> usize {
        self.wire.room()
    }

    /// Returns how many bytes were written while there was no room. The count saturates.
    #[must_use]
    pub fn overflows(&self) -> u64 {
        self.overflows
    }

    /// Returns the number of bytes that are still to be sent.
    #[must_use]
    pub fn held_len(&self) -> usize {
        held_len(self)
    }

    /// Returns the byte with this index among those that are still to be sent: first the shift
    /// register, then the queue.
    #[must_use]
    pub fn held_at(&self, i: usize) -> Option<u8> {
        match self.shift_register {
            None => self.queue.get(i),
            Some(shifting) if i == 0 => Some(shifting.byte),
            Some(_) => self.queue.get(i - 1),
        }
    }
}

impl<Q: Fifo<u8>, W: Wire> TransmitterParts for Transmitter<Q, W> {
    fn size(&self) -> FifoSize {
        self.queue.size()
    }

    fn queue_len(&self) -> usize {
        self.queue.len()
    }

    fn put(&mut self, byte: u8) {
        self.queue.push(byte);
        self.status = LSR::empty();
    }

    fn pop(&mut self) -> Option<u8> {
        let front = self.queue.pop();
        self.status = status_of(&self.queue, self.shift_register);
        front
    }

    fn clear_queue(&mut self) {
        self.queue.clear();
        self.status = status_of(&self.queue, self.shift_register);
    }

    fn count_overflow(&mut self) {
        self.overflows = self.overflows.saturating_add(1);
    }

    fn char_ticks(&self) -> u16 {
        self.char_ticks
    }

    fn shifting(&self) -> Option<Shifting> {
        self.shift_register
    }

    fn set_shifting(&mut self, shifting: Option<Shifting>) {
        self.shift_register = shifting;
        self.status = status_of(&self.queue, shifting);
    }

    fn has_room(&self) -> bool {
        self.wire.room() > 0
    }

    fn send(&mut self, byte: u8) {
        self.wire.push(byte);
    }

    fn status(&self) -> LSR {
        self.status
    }

    fn is_thr_pending(&self) -> bool {
        self.is_thr_pending
    }

    fn set_thr_pending(&mut self, on: bool) {
        self.is_thr_pending = on;
    }
}
