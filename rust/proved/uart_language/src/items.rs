//! The meaning of a line.

use super::cause::Cause;
use super::fields::{
    ChipKind, byte_in, bytes_in, char_ticks_in, check_in, chip_in, count_in, cts_in, cut_in,
    dump_in, errors_in, fifos_in, interrupts_in, level_in, limit_in, lines_in, outputs_in, rate_in,
    size_in, switch_in, text_in, ticks_in, trigger_in, wait_in, wire_capacity_in, word_length_in,
};
use super::text::{has_bad_byte, word_at, word_count};
use super::words::{Place, Word, has_count, is_placed, word_of};
use std::num::NonZeroU64;
use uart_call::Call;
use uart_events::Event;
use uart_spec::registers::WordLength;
use uart_spec::{BaudRate, Config, FifoSize, Setup};

/// The meaning of a line after the first.
pub enum Item {
    /// A blank line, which means nothing.
    Blank,
    /// The spin limit of the driver.
    Limit(NonZeroU64),
    /// The size that the driver takes the FIFOs for.
    FifoSize(FifoSize),
    /// An event of the schedule.
    Event(Event),
    /// A call.
    Call(Call),
    /// A mark of the schedule, and the call that goes on to it.
    Next,
}

/// The meaning of the first line.
#[derive(Clone, Copy, Debug, PartialEq, Eq)]
pub struct Header {
    /// The kind of chip.
    pub chip: ChipKind,
    /// The number of ticks that a character takes to be sent.
    pub ticks: u16,
    /// The number of bytes that the wire has room for.
    pub wire_capacity: usize,
    /// Whether the chip cuts characters to the word length.
    pub cuts: bool,
}

fn config_in(line: &[u8]) -> Result<Config, Cause> {
    Ok(Config {
        fifo_trigger_level: level_in(word_at(line, 1))?,
        baud_rate: rate_in(word_at(line, 2))?,
        check_cts_before_sending: cts_in(word_at(line, 3))?,
        interrupts: interrupts_in(word_at(line, 4))?,
        data_bits: word_length_in(word_at(line, 5))?,
        ..Config::DEFAULT
    })
}

fn setup_in(line: &[u8]) -> Result<Setup, Cause> {
    Ok(Setup {
        checks_presence: check_in(word_at(line, 6))?,
        wait: wait_in(word_at(line, 7))?,
        outputs: outputs_in(word_at(line, 8))?,
    })
}

fn framed(baud_rate: BaudRate, data_bits: WordLength) -> Config {
    Config {
        baud_rate,
        data_bits,
        ..Config::DEFAULT
    }
}

fn arrival_in(line: &[u8]) -> Result<Event, Cause> {
    let byte = byte_in(word_at(line, 1))?;
    let errors = if word_count(line) == 3 {
        errors_in(word_at(line, 2))?
    } else {
        0
    };
    Ok(Event::Arrive { byte, errors })
}

/// Returns the call of a line.
fn call_of(word: Word, line: &[u8]) -> Result<Call, Cause> {
    Ok(match word {
        Word::Init => Call::Init(config_in(line)?),
        Word::InitWith => Call::InitWith(config_in(line)?, setup_in(line)?),
        Word::SetFrame => Call::SetFrame(framed(
            rate_in(word_at(line, 1))?,
            word_length_in(word_at(line, 2))?,
        )),
        Word::SetFrameWhenIdle => Call::SetFrameWhenIdle(framed(
            rate_in(word_at(line, 1))?,
            word_length_in(word_at(line, 2))?,
        )),
        Word::SetTriggerLevel => Call::SetTriggerLevel(trigger_in(word_at(line, 1))?),
        Word::Attach => Call::Attach,
        Word::SetBreak => Call::SetBreak(switch_in(word_at(line, 1))?),
        Word::SetModemControl => Call::SetModemControl(outputs_in(word_at(line, 1))?),
        Word::SetRts => Call::SetRts(switch_in(word_at(line, 1))?),
        Word::SetDtr => Call::SetDtr(switch_in(word_at(line, 1))?),
        Word::Quiesce => {
            let outputs = outputs_in(word_at(line, 1))?;
            Call::Quiesce(outputs, fifos_in(word_at(line, 2))?)
        }
        Word::Restore => Call::Restore(dump_in(word_at(line, 1))?),
        Word::CheckConfigured => Call::CheckConfigured(outputs_in(word_at(line, 1))?),
        Word::PeekModem => Call::PeekModem,
        Word::IsIdle => Call::IsIdle,
        Word::RetriggerInterrupts => Call::RetriggerInterrupts,
        Word::Loopback => Call::TestLoopback,
        Word::Present => Call::CheckPresent,
        Word::Connected => Call::CheckConnected,
        Word::ReadyReceive => Call::ReadyToReceive,
        Word::ReadySend => Call::ReadyToSend,
        Word::TryReceive => Call::TryReceive,
        Word::Flush => Call::Flush,
        Word::ReadReady => Call::ReadReady,
        Word::WriteReady => Call::WriteReady,
        Word::Ier => Call::Ier,
        Word::Isr => Call::Isr,
        Word::Lcr => Call::Lcr,
        Word::Mcr => Call::Mcr,
        Word::Lsr => Call::Lsr,
        Word::Msr => Call::Msr,
        Word::Spr => Call::Spr,
        Word::DllDlm => Call::DllDlm,
        Word::Fifo => Call::FifoEnabled,
        Word::Dump => Call::Dump,
        Word::TrySend => Call::TrySend(byte_in(word_at(line, 1))?),
        Word::Enable => Call::Enable(interrupts_in(word_at(line, 1))?),
        Word::Disable => Call::Disable(interrupts_in(word_at(line, 1))?),
        Word::Receive => Call::Receive(count_in(word_at(line, 1))?),
        Word::ReceiveExact => Call::ReceiveExact(count_in(word_at(line, 1))?),
        Word::ReceiveWithErrors => Call::ReceiveWithErrors(count_in(word_at(line, 1))?),
        Word::Read => Call::Read(count_in(word_at(line, 1))?),
        Word::Send => Call::Send(bytes_in(word_at(line, 1))?),
        Word::SendExact => Call::SendExact(bytes_in(word_at(line, 1))?),
        Word::Write => Call::Write(bytes_in(word_at(line, 1))?),
        Word::Text => Call::Text(text_in(word_at(line, 1))?),
        _ => return Err(Cause::UnknownWord),
    })
}

/// Returns the meaning of the words of a line after the first.
fn item_of(word: Word, line: &[u8]) -> Result<Item, Cause> {
    match word {
        Word::Limit => Ok(Item::Limit(limit_in(word_at(line, 1))?)),
        Word::FifoSize => Ok(Item::FifoSize(size_in(word_at(line, 1))?)),
        Word::Tick => Ok(Item::Event(Event::Ticks(ticks_in(word_at(line, 1))?))),
        Word::Arrive => Ok(Item::Event(arrival_in(line)?)),
        Word::Lines => Ok(Item::Event(Event::Lines(lines_in(word_at(line, 1))?))),
        Word::Access => Ok(Item::Event(Event::Access)),
        Word::Next => Ok(Item::Next),
        _ => Ok(Item::Call(call_of(word, line)?)),
    }
}

/// Returns the first word of a line, if it is at a place where it may be, and the line has a number
/// of words that it may have.
fn first_word(place: Place, line: &[u8]) -> Result<Word, Cause> {
    if has_bad_byte(line) {
        return Err(Cause::BadByte);
    }
    let word = word_of(word_at(line, 0));
    if !is_placed(place, word) {
        return Err(Cause::Misplaced);
    }
    let Some(word) = word else {
        return Err(Cause::UnknownWord);
    };
    if !has_count(word, word_count(line)) {
        return Err(Cause::WrongCount);
    }
    Ok(word)
}

/// Returns the meaning of a line after the first, at its place.
pub fn item_at(place: Place, line: &[u8]) -> Result<Item, Cause> {
    if line.is_empty() {
        return Ok(Item::Blank);
    }
    let word = first_word(place, line)?;
    item_of(word, line)
}

fn header_in(line: &[u8]) -> Result<Header, Cause> {
    let chip = chip_in(word_at(line, 1))?;
    let ticks = char_ticks_in(word_at(line, 2))?;
    let wire_capacity = wire_capacity_in(word_at(line, 3))?;
    let cuts = if word_count(line) == 5 {
        cut_in(word_at(line, 4))?
    } else {
        false
    };
    Ok(Header {
        chip,
        ticks,
        wire_capacity,
        cuts,
    })
}

/// Returns the meaning of the first line.
pub fn header_at(line: &[u8]) -> Result<Header, Cause> {
    first_word(Place::First, line)?;
    header_in(line)
}
