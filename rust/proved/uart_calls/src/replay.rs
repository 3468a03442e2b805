//! A backend that plays back what reads returned, and keeps the accesses that are made.
//!
//! The accesses of a call are determined by the driver's fields and by what its reads return. So a
//! driver over a `Replay` is a function from these to the one list of accesses that the call may
//! make: over any other backend, a call with the same fields whose reads return the same bytes
//! makes the same accesses ([`replays_repeat_calls`](crate::laws::replays_repeat_calls)). So no
//! second program is needed that computes a call's list.

use arrayvec::ArrayVec;
use uart_16550::backend::Backend;
use uart_spec::access::Access;

/// The number of accesses that a `Replay` keeps. No access may allocate, so there is a limit, and a
/// replay tells if there were more.
pub const REPLAY_ROOM: usize = 512;

/// A backend whose reads return the bytes of a list in turn, and then 0, whatever the register. It
/// keeps the accesses until there is no more room.
pub struct Replay<'a> {
    answers: &'a [u8],
    accesses: ArrayVec<Access, REPLAY_ROOM>,
    is_whole: bool,
}

impl<'a> Replay<'a> {
    /// Returns a replay of these bytes, over which no access was made.
    ///
    /// # Examples
    ///
    /// ```text
    /// let mut uart = Uart16550::new_with_backend(Replay::new(&[0x1e, 0x60, 0x0f]));
    /// ```
    #[must_use]
    pub fn new(answers: &'a [u8]) -> Self {
        Replay {
            answers,
            accesses: ArrayVec::new(),
            is_whole: true,
        }
    }

    /// Returns the accesses that were made, or `None` if there were more than `REPLAY_ROOM`.
    #[must_use]
    pub fn accesses(&self) -> Option<&[Access]> {
        if self.is_whole {
            Some(self.accesses.as_slice())
        } else {
            None
        }
    }

    // Keeps an access.
    fn keep(&mut self, access: Access) {
        if self.accesses.try_push(access).is_err() {
            self.is_whole = false;
        }
    }
}

impl Backend for Replay<'_> {
    fn read(&mut self, register_offset: u8) -> u8 {
        let answer = match self.answers {
            [first, rest @ ..] => {
                self.answers = rest;
                *first
            }
            [] => 0,
        };
        self.keep(Access::Read(register_offset as usize, answer));
        answer
    }

    fn write(&mut self, register_offset: u8, value: u8) {
        self.keep(Access::Write(register_offset as usize, value));
    }
}
