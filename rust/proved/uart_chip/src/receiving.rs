//! What happens in a receiver, over its parts.

use crate::fifo::room_of;
use crate::receiver::{Character, Origin, Timeout};
use uart_events::ArrivalMark;
use uart_spec::FifoSize;
use uart_spec::registers::{FifoTriggerLevel, LSR};

/// What a receiver is made of: a queue of characters and what is known of them, and how each is
/// read and changed.
pub trait ReceiverParts {
    /// Returns the size of the FIFO.
    fn size(&self) -> FifoSize;

    /// Returns the number of characters in the queue.
    fn queue_len(&self) -> usize;

    /// Appends a character to the queue. The errors of one that is at the front have not been
    /// reported. The caller must show that there is room, and that the character has a place.
    fn put(&mut self, new: Character);

    /// Removes the front of the queue, and returns it. The errors of the next one have not been
    /// reported.
    fn pop(&mut self) -> Option<Character>;

    /// Empties the queue.
    fn clear_queue(&mut self);

    /// Sets the mark of an arrival. An unscheduled character has none.
    fn set_mark(&mut self, origin: Origin, mark: ArrivalMark);

    /// Marks the characters of the queue as discarded.
    fn discard(&mut self);

    /// Sets whether an unscheduled character was lost since the last one. The caller must show that
    /// the parts can say so.
    fn set_unscheduled_lost(&mut self, on: bool);

    /// Sets whether a character was lost since the last read of LSR.
    fn set_overrun(&mut self, on: bool);

    /// Sets whether a read of LSR has reported the errors of the front.
    fn set_front_reported(&mut self, on: bool);

    /// Returns what LSR shows of the receiver, but for the errors behind the front.
    fn status(&self) -> LSR;

    /// Returns whether a character has errors.
    fn has_errors(&self) -> bool;

    /// Returns whether a character has errors that were not reported.
    fn has_unreported_errors(&self) -> bool;

    /// Returns the byte that was read last.
    fn last_byte(&self) -> u8;

    /// Sets the byte that was read last.
    fn set_last_byte(&mut self, byte: u8);

    /// Returns the ticks towards a reception timeout, and their limit.
    fn timeout(&self) -> Timeout;

    /// Sets the ticks since a character was received or read.
    fn set_timeout_ticks(&mut self, ticks: u16);

    /// Returns the trigger level.
    fn trigger(&self) -> FifoTriggerLevel;

    /// Sets the trigger level.
    fn set_trigger(&mut self, trigger: FifoTriggerLevel);
}

impl Origin {
    // Returns whether the character is not an arrival of the schedule.
    fn is_unscheduled(&self) -> bool {
        match self {
            Origin::Looped | Origin::Live => true,
            Origin::Arrived(_) => false,
        }
    }
}

// Returns one of four numbers, for the lowest trigger level to the highest.
fn by_level(first: u8, second: u8, third: u8, fourth: u8, level: FifoTriggerLevel) -> u8 {
    match level {
        FifoTriggerLevel::One => first,
        FifoTriggerLevel::Four => second,
        FifoTriggerLevel::Eight => third,
        FifoTriggerLevel::Fourteen => fourth,
    }
}

// Returns the number of characters of a trigger level, for a FIFO of 16.
// Apart from `by_level`: of constants a compiler makes a table, and of numbers that are passed one
// test for each level, which in C takes five instructions more for each look at the interrupts.
fn characters_of_16(level: FifoTriggerLevel) -> u8 {
    match level {
        FifoTriggerLevel::One => 1,
        FifoTriggerLevel::Four => 4,
        FifoTriggerLevel::Eight => 8,
        FifoTriggerLevel::Fourteen => 14,
    }
}

/// Returns the number of characters of a trigger level, for a FIFO of this size.
// The levels have the names of their numbers for a 16550.
#[must_use]
pub fn characters_of(size: FifoSize, level: FifoTriggerLevel) -> u8 {
    match size {
        FifoSize::Sixteen => characters_of_16(level),
        FifoSize::ThirtyTwo => by_level(8, 16, 24, 28, level),
        FifoSize::SixtyFour => by_level(1, 16, 32, 56, level),
        FifoSize::OneHundredTwentyEight => by_level(16, 32, 112, 120, level),
        FifoSize::TwoHundredFiftySix => by_level(1, 64, 128, 254, level),
    }
}

/// Puts a character into the queue. If there is no room, the FIFO loses it, and the single register
/// loses the one that it held.
#[inline(always)]
pub fn enter<R: ReceiverParts>(parts: &mut R, fifo: bool, new: Character) {
    if parts.queue_len() < room_of(fifo, parts.size()) {
        parts.put(new);
        parts.set_mark(new.origin, ArrivalMark::Waiting);
    } else if fifo {
        parts.set_overrun(true);
        parts.set_mark(new.origin, ArrivalMark::Dropped);
    } else {
        replace(parts, new);
        return;
    }
    parts.set_timeout_ticks(0);
    if new.origin.is_unscheduled() {
        parts.set_unscheduled_lost(false);
    }
}

// Replaces the character in the receiver, which is dropped.
#[inline(never)]
fn replace<R: ReceiverParts>(parts: &mut R, new: Character) {
    let Some(old) = parts.pop() else {
        return;
    };
    parts.clear_queue();
    parts.put(new);
    parts.set_overrun(true);
    parts.set_timeout_ticks(0);
    parts.set_mark(old.origin, ArrivalMark::Dropped);
    parts.set_mark(new.origin, ArrivalMark::Waiting);
    if new.origin.is_unscheduled() {
        parts.set_unscheduled_lost(false);
    } else if old.origin.is_unscheduled() {
        parts.set_unscheduled_lost(true);
    }
}

/// Lets one tick pass, with the byte that loopback returned in it.
pub fn tick<R: ReceiverParts>(parts: &mut R, fifo: bool, looped: Option<u8>) {
    if let Some(byte) = looped {
        enter(
            parts,
            fifo,
            Character {
                byte,
                errors: 0,
                origin: Origin::Looped,
            },
        );
    }
    count_up(parts, 1);
}

/// Lets ticks pass in which no character is received or read.
pub fn count_up<R: ReceiverParts>(parts: &mut R, ticks: u16) {
    if ticks > 0 {
        let timeout = parts.timeout();
        let counted = timeout.ticks.saturating_add(ticks);
        parts.set_timeout_ticks(counted.min(timeout.limit));
    }
}

/// Receives a character without a schedule. In loopback it is lost.
pub fn arrive_live<R: ReceiverParts>(
    parts: &mut R,
    loopback: bool,
    fifo: bool,
    byte: u8,
    errors: u8,
) {
    if !loopback {
        enter(
            parts,
            fifo,
            Character {
                byte,
                errors,
                origin: Origin::Live,
            },
        );
    }
}

/// Takes the front if there is one, and returns the byte that was taken last.
// A read of an empty receiver changes nothing, and not the ticks towards a timeout either.
pub fn take_front<R: ReceiverParts>(parts: &mut R) -> u8 {
    if let Some(front) = parts.pop() {
        parts.set_timeout_ticks(0);
        parts.set_last_byte(front.byte);
        parts.set_mark(front.origin, ArrivalMark::Read);
    }
    parts.last_byte()
}

/// Does what a read of LSR does: clears the overrun and the errors of the front.
pub fn report<R: ReceiverParts>(parts: &mut R) {
    parts.set_overrun(false);
    if parts.queue_len() > 0 {
        parts.set_front_reported(true);
    }
}

/// Empties the queue. Its characters are discarded.
pub fn clear<R: ReceiverParts>(parts: &mut R) {
    parts.discard();
    parts.clear_queue();
}

/// Makes a reception timeout due if the FIFO is on and has a character: counts the ticks towards it
/// to their end.
pub fn expire_timeout<R: ReceiverParts>(parts: &mut R) {
    let limit = parts.timeout().limit;
    parts.set_timeout_ticks(limit);
}

/// Returns whether there are as many characters as the trigger level, or without FIFO any.
#[must_use]
pub fn is_data_pending<R: ReceiverParts>(parts: &R, fifo: bool) -> bool {
    let waiting = parts.queue_len();
    // Mostly none wait, and each level is at least one character.
    if !fifo || waiting == 0 {
        return waiting > 0;
    }
    // The level first: then a compiler goes straight from the size to its numbers.
    let level = parts.trigger();
    let trigger = characters_of(parts.size(), level) as usize;
    trigger <= waiting
}

/// Returns whether there are characters in the FIFO, and none was received or read for four
/// character times.
#[must_use]
pub fn is_timed_out<R: ReceiverParts>(parts: &R, fifo: bool) -> bool {
    fifo && parts.queue_len() > 0 && parts.timeout().is_due()
}

/// Returns how many characters can be received before one is lost.
#[must_use]
pub fn receive_room<R: ReceiverParts>(parts: &R, fifo: bool) -> usize {
    room_of(fifo, parts.size()).saturating_sub(parts.queue_len())
}
