//! What happens in a transmitter, over its parts.

use crate::transmitter::Shifting;
use uart_spec::FifoSize;
use uart_spec::registers::LSR;

/// What a transmitter is made of: a queue, the shift register, a wire, and how each is read and
/// changed.
pub trait TransmitterParts {
    /// Returns the size of the FIFO.
    fn size(&self) -> FifoSize;

    /// Returns the number of bytes in the queue.
    fn queue_len(&self) -> usize;

    /// Appends a byte to the queue. The caller must show that there is room.
    fn put(&mut self, byte: u8);

    /// Removes the front of the queue, and returns it.
    fn pop(&mut self) -> Option<u8>;

    /// Empties the queue.
    fn clear_queue(&mut self);

    /// Counts a byte that was written while there was no room. The count saturates.
    fn count_overflow(&mut self);

    /// Returns the ticks that a character takes to be sent.
    fn char_ticks(&self) -> u16;

    /// Returns the character in the shift register.
    fn shifting(&self) -> Option<Shifting>;

    /// Sets the character in the shift register.
    fn set_shifting(&mut self, shifting: Option<Shifting>);

    /// Returns whether the wire has room for a byte.
    fn has_room(&self) -> bool;

    /// Appends a byte to the wire. The caller must show that there is room.
    fn send(&mut self, byte: u8);

    /// Returns what LSR shows of the transmitter.
    fn status(&self) -> LSR;

    /// Returns whether a `THR_EMPTY` interrupt is pending.
    fn is_thr_pending(&self) -> bool;

    /// Sets whether a `THR_EMPTY` interrupt is pending.
    fn set_thr_pending(&mut self, on: bool);
}

// Lets one tick pass in the shift register, and returns the byte that loopback returns in it. If
// the wire is full, the byte waits in the shift register at its last tick, so none is lost.
fn shift<T: TransmitterParts>(parts: &mut T, loopback: bool) -> Option<u8> {
    let Some(shifting) = parts.shifting() else {
        return None;
    };
    if shifting.ticks_left > 1 {
        parts.set_shifting(Some(Shifting {
            byte: shifting.byte,
            ticks_left: shifting.ticks_left - 1,
        }));
        return None;
    }
    if loopback {
        parts.set_shifting(None);
        return Some(shifting.byte);
    }
    if parts.has_room() {
        parts.send(shifting.byte);
        parts.set_shifting(None);
    }
    None
}

// Moves the front of the queue into an empty shift register.
fn refill<T: TransmitterParts>(parts: &mut T) {
    if parts.shifting().is_some() {
        return;
    }
    if let Some(byte) = parts.pop() {
        let ticks_left = parts.char_ticks();
        parts.set_shifting(Some(Shifting { byte, ticks_left }));
        if parts.queue_len() == 0 {
            parts.set_thr_pending(true);
        }
    }
}

/// Lets one tick pass, and returns the byte that loopback returns in it. A transmitter that is held
/// off takes no next character from its queue; the one that it shifts out goes on.
pub fn tick<T: TransmitterParts>(parts: &mut T, loopback: bool, held_off: bool) -> Option<u8> {
    let looped = shift(parts, loopback);
    if !held_off {
        refill(parts);
    }
    looped
}

/// Returns the ticks until a character enters or leaves the shift register: `None` if none can, as
/// with a full wire.
#[must_use]
pub fn next_move<T: TransmitterParts>(parts: &T, loopback: bool, held_off: bool) -> Option<u16> {
    match parts.shifting() {
        None if held_off || parts.queue_len() == 0 => None,
        None => Some(1),
        Some(shifting) if loopback || parts.has_room() => Some(shifting.ticks_left.max(1)),
        Some(_) => None,
    }
}

/// Lets ticks pass in which no character enters or leaves the shift register.
pub fn count_down<T: TransmitterParts>(parts: &mut T, ticks: u16) {
    if let Some(shifting) = parts.shifting() {
        let ticks_left = if ticks < shifting.ticks_left {
            shifting.ticks_left - ticks
        } else {
            shifting.ticks_left.min(1)
        };
        parts.set_shifting(Some(Shifting {
            byte: shifting.byte,
            ticks_left,
        }));
    }
}

/// Takes a byte that is written to DATA. If there is no room, the FIFO loses it, and THR loses the
/// byte that it held.
// A write clears a pending THR_EMPTY interrupt even if there is no room.
pub fn load<T: TransmitterParts>(parts: &mut T, fifo: bool, byte: u8) {
    if fifo {
        if parts.queue_len() < parts.size().characters() {
            parts.put(byte);
        } else {
            parts.count_overflow();
        }
    } else {
        if parts.queue_len() > 0 {
            parts.clear_queue();
            parts.count_overflow();
        }
        parts.put(byte);
    }
    parts.set_thr_pending(false);
}

/// Returns the number of bytes that are still to be sent.
#[must_use]
pub fn held_len<T: TransmitterParts>(parts: &T) -> usize {
    match parts.shifting() {
        None => parts.queue_len(),
        Some(_) => parts.queue_len() + 1,
    }
}
