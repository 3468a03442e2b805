//! Calls of the rings, and their answers, as data, and how one is made.

use arrayvec::ArrayVec;
use uart_16550::backend::Backend;
use uart_calls::{Answer, CALL_BYTES, Call, perform_on_driver};
use uart_ring::{Handled, ReceiveMarks, StuckError, Uart16550Ring};
use uart_spec::registers::{IER, LSR, MSR};

/// A call of the rings as data.
///
/// Each case is the call of that name, except for `Driver`, which is a call of the driver under the
/// rings, and `Next`, which is one of the device.
#[derive(Debug, PartialEq)]
pub enum RingCall {
    /// `queue` of these bytes.
    Queue(ArrayVec<u8, CALL_BYTES>),
    /// `resume_transmit`.
    ResumeTransmit,
    /// `take` into this number of slots, at most [`CALL_BYTES`].
    Take(usize),
    /// `service`.
    Service,
    /// `handle` of at most this number of interrupts.
    Handle(usize),
    /// `retrigger`.
    Retrigger,
    /// `take_line`.
    TakeLine,
    /// `take_modem`.
    TakeModem,
    /// `hold_transmit`.
    HoldTransmit,
    /// `release_transmit`.
    ReleaseTransmit,
    /// `queue_urgent` of this byte.
    QueueUrgent(u8),
    /// `clear_transmit`.
    ClearTransmit,
    /// `clear_receive`.
    ClearReceive,
    /// `set_low_mark` to this mark.
    SetLowMark(usize),
    /// `take_low`.
    TakeLow,
    /// `try_handle` of at most so many interrupts, and of so many unfinished rounds in a row.
    TryHandle(usize, u32),
    /// `restart` with these interrupts.
    Restart(IER),
    /// `adjust_rts` at these marks.
    AdjustRts(ReceiveMarks),
    /// `adjust_xoff` at these marks.
    AdjustXoff(ReceiveMarks),
    /// `obey_xoff`.
    ObeyXoff,
    /// This call of the driver, through `inner_mut`: any but [`Call::Next`], which is one of the
    /// device, and [`Call::Text`], which is one of a terminal.
    Driver(Call),
    /// `Device16550::next`: goes on to the next mark of the schedule.
    Next,
}

// Returns whether this is a call of a driver, and not of a device or a terminal.
fn is_of_driver(call: &Call) -> bool {
    !matches!(call, Call::Next | Call::Text(_))
}

impl RingCall {
    /// Returns whether the call can be made: there are at most [`CALL_BYTES`] slots, and a call of
    /// the driver is one that can be made through `inner_mut`.
    #[must_use]
    pub fn is_runnable(&self) -> bool {
        match self {
            RingCall::Take(slots) => *slots <= CALL_BYTES,
            RingCall::Driver(call) => is_of_driver(call) && call.is_runnable(),
            _ => true,
        }
    }

    /// Returns whether the call is one of the rings themselves, and not of the driver under them.
    #[must_use]
    pub fn is_of_rings(&self) -> bool {
        !matches!(self, RingCall::Driver(_))
    }
}

/// The answer of a call of the rings.
#[derive(Debug, PartialEq)]
pub enum RingAnswer {
    /// The number of bytes that were queued or dropped, or of interrupts that were served.
    Count(usize),
    /// The bytes that were taken.
    Bytes(ArrayVec<u8, CALL_BYTES>),
    /// What `handle` returned.
    Handled(Handled),
    /// What `take_line` returned.
    Line(LSR),
    /// What `take_modem` returned.
    Modem(MSR),
    /// The urgent byte that was replaced.
    Replaced(Option<u8>),
    /// What `adjust_xoff` told the other end, or what it told `obey_xoff`.
    Told(Option<u8>),
    /// What `take_low` returned.
    Low(bool),
    /// What `try_handle` returned.
    Tried(Result<Handled, StuckError>),
    /// The answer of the driver's call.
    Driver(Answer),
    /// The call returned nothing.
    Done,
}

// Takes into these slots.
fn take<B: Backend>(ring: &mut Uart16550Ring<B>, slots: &mut [u8]) -> RingAnswer {
    let count = ring.take(slots);
    let mut bytes = ArrayVec::new();
    let _ = bytes.try_extend_from_slice(&slots[..count]);
    RingAnswer::Bytes(bytes)
}

/// Makes one ring call, over any backend, and returns its answer. Allocates no memory.
///
/// For [`RingCall::Next`] this makes no access and returns `Done`, since a real chip has no
/// schedule. If the device has one, the caller must make that call itself.
///
/// # Examples
///
/// ```text
/// perform_ring(ring, &RingCall::Retrigger)
/// ```
pub fn perform_ring<B: Backend>(ring: &mut Uart16550Ring<B>, call: &RingCall) -> RingAnswer {
    match call {
        RingCall::Queue(bytes) => RingAnswer::Count(ring.queue(bytes.as_slice())),
        RingCall::ResumeTransmit => {
            ring.resume_transmit();
            RingAnswer::Done
        }
        RingCall::Take(slots) => take(ring, &mut [0; CALL_BYTES][..*slots]),
        RingCall::Service => RingAnswer::Count(ring.service()),
        RingCall::Handle(limit) => RingAnswer::Handled(ring.handle(*limit)),
        RingCall::Retrigger => {
            ring.retrigger();
            RingAnswer::Done
        }
        RingCall::TakeLine => RingAnswer::Line(ring.take_line()),
        RingCall::TakeModem => RingAnswer::Modem(ring.take_modem()),
        RingCall::HoldTransmit => {
            ring.hold_transmit();
            RingAnswer::Done
        }
        RingCall::ReleaseTransmit => {
            ring.release_transmit();
            RingAnswer::Done
        }
        RingCall::QueueUrgent(byte) => RingAnswer::Replaced(ring.queue_urgent(*byte)),
        RingCall::ClearTransmit => RingAnswer::Count(ring.clear_transmit()),
        RingCall::ClearReceive => RingAnswer::Count(ring.clear_receive()),
        RingCall::SetLowMark(mark) => {
            ring.set_low_mark(*mark);
            RingAnswer::Done
        }
        RingCall::TakeLow => RingAnswer::Low(ring.take_low()),
        RingCall::TryHandle(limit, rounds) => RingAnswer::Tried(ring.try_handle(*limit, *rounds)),
        RingCall::Restart(interrupts) => {
            ring.restart(*interrupts);
            RingAnswer::Done
        }
        RingCall::AdjustRts(marks) => {
            ring.adjust_rts(*marks);
            RingAnswer::Done
        }
        RingCall::AdjustXoff(marks) => RingAnswer::Told(ring.adjust_xoff(*marks)),
        RingCall::ObeyXoff => RingAnswer::Told(ring.obey_xoff()),
        RingCall::Driver(call) => RingAnswer::Driver(perform_on_driver(ring.inner_mut(), call)),
        RingCall::Next => RingAnswer::Done,
    }
}
