//! Ring calls at one end of a cable.

use crate::device::CabledChip;
use uart_ring::Uart16550Ring;
use uart_ring_runs::{RingAnswer, RingCall, perform_ring};

/// Makes one ring call. `Next` lets all moments happen, and makes no access.
pub fn make_ring_call(ring: &mut Uart16550Ring<CabledChip>, call: &RingCall) -> RingAnswer {
    match call {
        RingCall::Next => {
            ring.inner_mut().backend_mut().settle();
            RingAnswer::Done
        }
        _ => perform_ring(ring, call),
    }
}
