//! The meaning of a line of a trace.

use crate::traces::cause::TraceFault;
use uart_calls::Call;
use uart_language::{Cause, Item, Place, byte_in, has_bad_byte, item_at, word_at, word_count};
use uart_spec::access::Access;

/// The meaning of a line of a trace.
pub enum TraceLine<'a> {
    /// A blank line, which means nothing.
    Blank,
    /// The driver is new from here on.
    Fresh,
    /// A call.
    Call(Call),
    /// An access.
    Access(Access),
    /// What the call returned, as it is printed.
    Answer(&'a [u8]),
}

// Returns these bytes without the spaces at their end.
fn without_end(bytes: &[u8]) -> &[u8] {
    let mut rest = bytes;
    while let Some((last, before)) = rest.split_last() {
        if *last != b' ' {
            return rest;
        }
        rest = before;
    }
    rest
}

// Returns where the remark of a line begins, or its length.
fn remark_start(line: &[u8]) -> usize {
    line.iter()
        .position(|byte| *byte == b'#')
        .unwrap_or(line.len())
}

/// Returns a line without its remark, and without spaces at its end.
#[must_use]
pub fn before_remark(line: &[u8]) -> &[u8] {
    without_end(&line[..remark_start(line)])
}

/// Reads the offset of a register, which is one digit.
pub fn offset_in(word: &[u8]) -> Result<usize, Cause> {
    match word {
        [digit] if b'0' <= *digit && *digit <= b'7' => Ok(usize::from(*digit - b'0')),
        _ => Err(Cause::BadNumber),
    }
}

// Reads the offset and the byte of an access.
fn access_in(line: &[u8]) -> Result<(usize, u8), Cause> {
    if word_count(line) != 3 {
        return Err(Cause::WrongCount);
    }
    let offset = offset_in(word_at(line, 1))?;
    let byte = byte_in(word_at(line, 2))?;
    Ok((offset, byte))
}

// Returns the driver's call of a line, as in a script.
fn call_in(line: &[u8]) -> Result<TraceLine<'_>, TraceFault> {
    // Neither the first line of a script nor a setting of its driver is a call.
    match item_at(Place::Later, line)? {
        Item::Call(call) => Ok(TraceLine::Call(call)),
        Item::Blank | Item::Limit(_) | Item::FifoSize(_) | Item::Event(_) | Item::Next => {
            Err(TraceFault::NoDriverCall)
        }
    }
}

// Returns the meaning of `fresh`, which is a line of its own.
fn fresh_in(line: &[u8]) -> Result<TraceLine<'_>, TraceFault> {
    if word_count(line) == 1 {
        Ok(TraceLine::Fresh)
    } else {
        Err(TraceFault::Line(Cause::WrongCount))
    }
}

// Returns the answer of a line, which follows `= `.
fn answer_in(line: &[u8]) -> Result<TraceLine<'_>, TraceFault> {
    match line {
        [_, _, answer @ ..] => Ok(TraceLine::Answer(answer)),
        _ => Err(TraceFault::Line(Cause::WrongCount)),
    }
}

// Returns the meaning of a line that begins with this word.
fn line_by<'a>(word: &[u8], line: &'a [u8]) -> Result<TraceLine<'a>, TraceFault> {
    match word {
        b"fresh" => fresh_in(line),
        b"=" => answer_in(line),
        b"r" => {
            let (offset, answer) = access_in(line)?;
            Ok(TraceLine::Access(Access::Read(offset, answer)))
        }
        b"w" => {
            let (offset, value) = access_in(line)?;
            Ok(TraceLine::Access(Access::Write(offset, value)))
        }
        _ => call_in(line),
    }
}

// Returns the meaning of a line without its remark.
fn plain_line(line: &[u8]) -> Result<TraceLine<'_>, TraceFault> {
    if has_bad_byte(line) {
        return Err(TraceFault::Line(Cause::BadByte));
    }
    if line.is_empty() {
        return Ok(TraceLine::Blank);
    }
    line_by(word_at(line, 0), line)
}

/// Returns the meaning of a line. A remark, from `#` on, means nothing. A call that is returned can
/// be run.
pub fn line_in(line: &[u8]) -> Result<TraceLine<'_>, TraceFault> {
    plain_line(before_remark(line))
}
