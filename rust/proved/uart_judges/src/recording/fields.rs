//! Reads the fields of a line.

use crate::recording::limits::{MOST_REPEATS, MOST_SECONDS};
use uart_language::limits::MOST_DIGITS;
use uart_language::{Cause, byte_in, number_of};
use uart_spec::NUM_REGISTERS;

/// The nanoseconds of a second.
pub const SECOND: u64 = 1_000_000_000;

/// The nanoseconds of a microsecond.
pub const MICROSECOND: u64 = 1_000;

/// The most microseconds that QEMU's log writes behind the seconds.
pub const MOST_MICROSECONDS: u64 = 999_999;

/// Reads a byte of two hexadecimal digits that has no other bits than these.
pub fn bits_in(mask: u8, word: &[u8]) -> Result<u8, Cause> {
    let bits = byte_in(word)?;
    if bits & mask == bits {
        Ok(bits)
    } else {
        Err(Cause::BadHex)
    }
}

// Reads a number up to `most`.
fn number_in(most: u64, word: &[u8]) -> Result<u64, Cause> {
    number_of(MOST_DIGITS, 0, most, word)
}

/// Reads how often a read is repeated.
pub fn repeats_in(word: &[u8]) -> Result<u64, Cause> {
    number_in(MOST_REPEATS, word)
}

/// Reads the level of the interrupt line, or that it was not recorded.
pub fn level_in(word: &[u8]) -> Result<Option<bool>, Cause> {
    match word {
        b"0" => Ok(Some(false)),
        b"1" => Ok(Some(true)),
        b"2" => Ok(None),
        _ => Err(Cause::BadNumber),
    }
}

/// Reads a time in nanoseconds, behind an `@`.
pub fn time_in(word: &[u8]) -> Result<u64, Cause> {
    match word {
        [b'@', digits @ ..] => number_in(u64::MAX, digits),
        _ => Err(Cause::BadNumber),
    }
}

/// Reads a byte of two hexadecimal digits behind `0x`.
pub fn log_byte_in(word: &[u8]) -> Result<u8, Cause> {
    match word {
        [b'0', b'x', digits @ ..] => byte_in(digits),
        _ => Err(Cause::BadHex),
    }
}

/// Reads the offset of a register, two hexadecimal digits behind `0x`.
pub fn log_offset_in(word: &[u8]) -> Result<usize, Cause> {
    let offset = usize::from(log_byte_in(word)?);
    if offset < NUM_REGISTERS {
        Ok(offset)
    } else {
        Err(Cause::BadNumber)
    }
}

// Returns where the first such byte is, or the length.
fn end_before(byte: u8, word: &[u8]) -> usize {
    word.iter()
        .position(|found| *found == byte)
        .unwrap_or(word.len())
}

/// Returns what is before the first such byte, or all.
#[must_use]
pub fn before(byte: u8, word: &[u8]) -> &[u8] {
    &word[..end_before(byte, word)]
}

/// Returns what is behind the first such byte, or nothing.
#[must_use]
pub fn after(byte: u8, word: &[u8]) -> &[u8] {
    match &word[end_before(byte, word)..] {
        [_, rest @ ..] => rest,
        [] => &[],
    }
}

/// Reads the time in front of a line of QEMU's log, as in `1234@1699999999.123456`. Returns
/// nanoseconds.
pub fn log_time_in(word: &[u8]) -> Result<u64, Cause> {
    let time = after(b'@', word);
    let _process = number_in(u64::MAX, before(b'@', word))?;
    let seconds = number_in(MOST_SECONDS, before(b'.', time))?;
    let microseconds = number_in(MOST_MICROSECONDS, after(b'.', time))?;
    Ok(seconds * SECOND + microseconds * MICROSECOND)
}
