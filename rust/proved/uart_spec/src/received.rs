//! A received byte with its errors.
use crate::registers::LSR;

/// A received byte, and the line errors that LSR showed with it.
///
/// The default value is the byte 0 without an error, for slots that are not filled yet.
#[derive(Clone, Copy, Debug, Default, PartialEq, Eq, Hash)]
pub struct Received {
    /// The byte, as the chip returned it. For a break it is 0.
    pub byte: u8,
    /// Of `PARITY_ERROR`, `FRAMING_ERROR` and `BREAK_INTERRUPT` those of this byte; and
    /// `OVERRUN_ERROR` if the look before this byte reported that a character was lost.
    ///
    /// With the FIFO on, all that waited then came before the lost one: it was lost right behind as
    /// many characters from this byte on as the FIFO holds, or one fewer, so with a FIFO of 16
    /// behind the 15th or the 16th. With the FIFO off, it came before this byte.
    pub errors: LSR,
}
