//! A byte that goes onto the wire at once, without queue, shift register and time.

use crate::controlling::{ChipParts, cut, is_held_off, is_loopback};
use crate::transmitting::TransmitterParts;
use bitflags::Flags;
use uart_spec::registers::LCR;

// Returns whether a transmitter holds nothing, and its wire has room.
fn is_ready<T: TransmitterParts>(parts: &T) -> bool {
    parts.queue_len() == 0 && (!parts.shifting().is_some() && parts.has_room())
}

/// Returns whether a byte that is written to DATA can go onto the wire at once: outside of
/// loopback, with nothing in the transmitter, which is not held off, and with room on the wire.
#[must_use]
pub fn sends_at_once<P: ChipParts>(parts: &P) -> bool {
    !parts.lcr().intersects(LCR::DLAB)
        && (!is_loopback(parts) && (!is_held_off(parts) && is_ready(parts.transmitter())))
}

// Puts a byte onto the wire. THR is as empty as before, and that counts as a new interrupt.
fn put_on_wire<T: TransmitterParts>(parts: &mut T, byte: u8) {
    parts.send(byte);
    parts.set_thr_pending(true);
}

/// Puts a byte that is written to DATA onto the wire, cut to the word length if the chip does so.
/// The caller must have asked `sends_at_once`.
pub fn send_at_once<P: ChipParts>(parts: &mut P, value: u8) {
    assert!(sends_at_once(parts), "the transmitter is not idle");
    let byte = cut(parts, value);
    put_on_wire(parts.transmitter_mut(), byte);
}
