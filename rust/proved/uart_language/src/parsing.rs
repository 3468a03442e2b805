//! The meaning of a whole script.

use std::{Vec};

use super::cause::{Cause, ScriptError};
use super::items::{Header, Item, header_at, item_at};
use super::limits::{DEFAULT_LIMIT, MOST_BYTES, MOST_LINES};
use super::text::{first_line, word_at};
use super::words::{Place, Word, is_named};
use std::alloc::{AllocError, Global};
use std::num::NonZeroU64;
use uart_call::Call;
use uart_events::{Chip, Event};
use uart_spec::FifoSize;

/// A script: a chip, what happens to it, and the calls that are made.
pub struct Script {
    header: Header,
    limit: NonZeroU64,
    driver_fifo_size: FifoSize,
    events: Vec<Event>,
    calls: Vec<Call>,
}

impl Script {
    /// Returns the model of the chip.
    #[must_use]
    pub fn chip(&self) -> Chip {
        self.header.chip.model
    }

    /// Returns the size of the chip's FIFOs. Of a 16450 it is of no account. The driver takes them
    /// for those of [`driver_fifo_size`](Script::driver_fifo_size).
    #[must_use]
    pub fn fifo_size(&self) -> FifoSize {
        self.header.chip.size
    }

    /// Returns whether the chip has automatic flow control.
    #[must_use]
    pub fn has_auto_flow(&self) -> bool {
        self.header.chip.auto_flow
    }

    /// Returns the number of ticks that the chip takes to send a character.
    #[must_use]
    pub fn ticks(&self) -> u16 {
        self.header.ticks
    }

    /// Returns the number of bytes that the wire has room for.
    #[must_use]
    pub fn wire_capacity(&self) -> usize {
        self.header.wire_capacity
    }

    /// Returns the spin limit of the driver: how many unsuccessful polls in a row end a wait.
    #[must_use]
    pub fn limit(&self) -> NonZeroU64 {
        self.limit
    }

    /// Returns the size that the driver takes the FIFOs for: 16, or what a line sets. The chip's
    /// may be another one.
    #[must_use]
    pub fn driver_fifo_size(&self) -> FifoSize {
        self.driver_fifo_size
    }

    /// Returns whether the chip cuts characters to the word length.
    #[must_use]
    pub fn cut(&self) -> bool {
        self.header.cuts
    }

    /// Returns the events that happen to the chip, in the order of the script.
    #[must_use]
    pub fn events(&self) -> &[Event] {
        &self.events
    }

    /// Returns the calls, in the order of the script.
    #[must_use]
    pub fn calls(&self) -> &[Call] {
        &self.calls
    }

    fn add(&mut self, item: Item) -> Result<(), AllocError> {
        match item {
            Item::Blank => {}
            Item::Limit(limit) => self.limit = limit,
            Item::FifoSize(size) => self.driver_fifo_size = size,
            Item::Event(event) => self.events.push(event)?,
            Item::Call(call) => self.calls.push(call)?,
            Item::Next => {
                self.events.push(Event::Mark)?;
                self.calls.push(Call::Next)?;
            }
        }
        Ok(())
    }
}

/// Returns whether the first of the lines after the first, which is line 2, starts with `limit`.
fn is_limited(bytes: &[u8]) -> bool {
    if bytes.is_empty() {
        return false;
    }
    let (line, _) = first_line(bytes);
    is_named(Word::Limit, word_at(line, 0))
}

/// Returns the meaning of the first of some lines, and the lines after it.
fn next_item(is_limited: bool, number: u32, bytes: &[u8]) -> Result<(Item, &[u8]), ScriptError> {
    if number > MOST_LINES {
        return Err(ScriptError::Refused {
            line: number,
            cause: Cause::TooLong,
        });
    }
    let (line, rest) = first_line(bytes);
    match item_at(Place::of(is_limited, number), line) {
        Ok(item) => Ok((item, rest)),
        Err(cause) => Err(ScriptError::Refused {
            line: number,
            cause,
        }),
    }
}

/// Checks the lines after the first for a fault.
fn check(bytes: &[u8]) -> Result<(), ScriptError> {
    let limited = is_limited(bytes);
    let mut number = 2;
    let mut rest = bytes;
    while !rest.is_empty() {
        let (_, after) = next_item(limited, number, rest)?;
        rest = after;
        number += 1;
    }
    Ok(())
}

/// Returns the script of a header and the lines after it.
fn build(alloc: Global, header: Header, bytes: &[u8]) -> Result<Script, ScriptError> {
    let mut script = Script {
        header,
        limit: NonZeroU64::new(DEFAULT_LIMIT).unwrap(),
        driver_fifo_size: FifoSize::Sixteen,
        events: Vec::new(alloc),
        calls: Vec::new(alloc),
    };
    let limited = is_limited(bytes);
    let mut number = 2;
    let mut rest = bytes;
    while !rest.is_empty() {
        let (item, after) = next_item(limited, number, rest)?;
        script.add(item)?;
        rest = after;
        number += 1;
    }
    Ok(script)
}

/// Returns the meaning of the first line, and the lines after it.
fn first_item(bytes: &[u8]) -> Result<(Header, &[u8]), ScriptError> {
    if bytes.len() > MOST_BYTES {
        return Err(ScriptError::Refused {
            line: 0,
            cause: Cause::TooLong,
        });
    }
    if bytes.is_empty() {
        return Err(ScriptError::Refused {
            line: 1,
            cause: Cause::Misplaced,
        });
    }
    let (line, rest) = first_line(bytes);
    match header_at(line) {
        Ok(header) => Ok((header, rest)),
        Err(cause) => Err(ScriptError::Refused { line: 1, cause }),
    }
}

/// Reads a script.
///
/// Every line is checked before any memory is allocated. So bytes that are not a script are refused
/// as such, however little memory there is.
///
/// # Errors
///
/// - `Refused`, with the first faulty line and what is wrong with it, if the bytes are not a
///   script.
/// - `OutOfMemory` if memory for the script could not be allocated.
///
/// # Examples
///
/// ```text
/// let script = parse(alloc, script)?;
/// Ok(script.calls().len())
/// ```
pub fn parse(alloc: Global, bytes: &[u8]) -> Result<Script, ScriptError> {
    let (header, rest) = first_item(bytes)?;
    // Every line is looked at before anything is allocated. So bytes that are no script are refused
    // as such, however little memory there is.
    check(rest)?;
    build(alloc, header, rest)
}
