//! A backend that plays a recorded list back, access by access.

use bitflags::Flags;
use uart_16550::backend::Backend;
use uart_spec::access::Access;
use uart_spec::registers::{LSR, MSR, offsets};

/// An access as its owner keeps it: [`Access`], or a struct of another language.
pub trait Recorded: Copy {
    /// Returns the access.
    fn to_access(self) -> Access;
}

impl Recorded for Access {
    fn to_access(self) -> Access {
        self
    }
}

/// What a driver requests from a device.
#[derive(Clone, Copy, Debug, PartialEq, Eq)]
pub enum Request {
    /// To read the register at this offset.
    Read(usize),
    /// To write this byte to the register at this offset.
    Write(usize, u8),
}

// A tape holds whole accesses, and not only what the reads returned. Over these bytes alone a
// driver would make some list, which would have to be compared with the recorded one, although
// contracts do not say that two replays agree.

/// A list of recorded accesses as a device.
///
/// A read returns what the list has, as long as the accesses are those of the list. The first
/// request that is not is kept. What reads return from then on is from no chip, and lets every wait
/// of a driver end after two polls: the transmitter is empty, CTS is asserted, and every other read
/// of LSR shows data.
pub struct Tape<'a, R: Recorded> {
    left: &'a [R],
    asked: Option<Request>,
    filler: u8,
}

// Returns the request of this access.
fn request_of(access: Access) -> Request {
    match access {
        Access::Read(offset, _) => Request::Read(offset),
        Access::Write(offset, value) => Request::Write(offset, value),
    }
}

// Returns the byte that was read or written.
fn byte_of(access: Access) -> u8 {
    match access {
        Access::Read(_, answer) => answer,
        Access::Write(_, value) => value,
    }
}

impl<'a, R: Recorded> Tape<'a, R> {
    /// Returns a tape that plays this list, from its first access on.
    #[must_use]
    pub fn new(accesses: &'a [R]) -> Self {
        Tape {
            left: accesses,
            asked: None,
            filler: LSR::THR_EMPTY.bits() | LSR::TRANSMITTER_EMPTY.bits() | MSR::CTS.bits(),
        }
    }

    /// Returns how many accesses of the list were not made.
    #[must_use]
    pub fn left(&self) -> usize {
        self.left.len()
    }

    /// Returns the first request that is not the next access of the list, if there was one.
    #[must_use]
    pub fn asked(&self) -> Option<Request> {
        self.asked
    }

    // Keeps the request if it is the first, and returns some byte.
    fn stray(&mut self, request: Request) -> u8 {
        if self.asked.is_none() {
            self.asked = Some(request);
        }
        // Each kind of wait ends with these answers, so a list that strays costs two polls a wait,
        // and not the spin limit. No clause says so: it would need a lemma for each language of the
        // driver over these answers, which no caller needs. A test makes each kind of call at the
        // largest limit.
        //
        // At reads of LSR alone: a drain reads DATA between them, and must see its end too.
        if request == Request::Read(offsets::LSR) {
            self.filler ^= LSR::DATA_READY.bits();
        }
        self.filler
    }

    // Goes on in the list if its next access has this request; else keeps the request if it is the
    // first.
    fn turn(&mut self, request: Request) -> u8 {
        match self.left {
            [one, rest @ ..] if self.asked.is_none() && request_of(one.to_access()) == request => {
                self.left = rest;
                byte_of(one.to_access())
            }
            _ => self.stray(request),
        }
    }
}

impl<R: Recorded> Backend for Tape<'_, R> {
    fn read(&mut self, register_offset: u8) -> u8 {
        self.turn(Request::Read(register_offset as usize))
    }

    fn write(&mut self, register_offset: u8, value: u8) {
        let _ = self.turn(Request::Write(register_offset as usize, value));
    }
}
