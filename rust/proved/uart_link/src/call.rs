//! Calls of a link as data: which end makes a call, and what happens at that end meanwhile.

use arrayvec::ArrayVec;
use uart_ring_runs::RingCall;

/// The most moments that a call has.
pub const CALL_MOMENTS: usize = 64;

/// An end of the cable.
#[derive(Clone, Copy, Debug, PartialEq, Eq)]
pub enum Side {
    /// The left end.
    Left,
    /// The right end.
    Right,
}

/// What happens at an end of the cable.
#[derive(Clone, Copy, Debug, Default, PartialEq, Eq)]
pub enum Moment {
    /// This number of ticks passes.
    Ticks(u16),
    /// The character arrives that is the first on the cable. If none is on its way, nothing
    /// happens.
    Arrives,
    /// The modem lines become what the other end's outputs are: CTS is its RTS, and DSR and CD are
    /// its DTR.
    Lines,
    /// The next register access takes place here, without the tick that passes elsewhere.
    #[default]
    Access,
}

/// A call of the rings at one end, and what happens at that end from this call to its next one.
#[derive(Debug, PartialEq)]
pub struct LinkCall {
    /// The end.
    pub side: Side,
    /// What happens at that end, in order: what comes before the last access of the call happens
    /// during the call, and the rest before the next call of this end.
    pub moments: ArrayVec<Moment, CALL_MOMENTS>,
    /// The call, which is no `Driver`. In a link, `Next` makes no access and lets all of the
    /// moments happen.
    pub call: RingCall,
}

impl LinkCall {
    /// Returns whether the call can be made: there are at most [`uart_calls::CALL_BYTES`] slots,
    /// and the call is one of the rings themselves.
    #[must_use]
    pub fn is_runnable(&self) -> bool {
        self.call.is_runnable() && self.call.is_of_rings()
    }
}
