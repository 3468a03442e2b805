//! Reads the fields of a line.

use super::cause::Cause;
use super::limits::{MOST_LIMIT, MOST_RATE, MOST_TICKS, SCRIPT_DIGITS};
use super::numbers::number_of;
use arrayvec::{ArrayString, ArrayVec};
use bitflags::Flags;
use std::num::NonZeroU64;
use uart_call::CALL_BYTES;
use uart_events::{Chip, MAX_CHAR_TICKS, MAX_WIRE_CAPACITY};
use uart_spec::registers::{FifoTriggerLevel, IER, ISR, LCR, LSR, MCR, MSR, WordLength};
use uart_spec::{BaudRate, ConfigRegisterDump, FifoAction, FifoSize, TransmitterWait};

/// A kind of chip that a script can name.
#[derive(Clone, Copy, Debug, PartialEq, Eq)]
pub struct ChipKind {
    /// The model. A chip with larger FIFOs or with automatic flow control is a 16550A in all else.
    pub model: Chip,
    /// The size of its two FIFOs. A 16450 has none, and this is of no account.
    pub size: FifoSize,
    /// Whether it has automatic flow control, which MCR bit 5 turns on.
    pub auto_flow: bool,
}

/// Reads a number of a script, from `least` to `most`.
pub fn number_in(least: u64, most: u64, word: &[u8]) -> Result<u64, Cause> {
    number_of(SCRIPT_DIGITS, least, most, word)
}

/// Returns the value of a hexadecimal digit.
fn digit_value(digit: u8) -> u8 {
    match digit {
        b'0'..=b'9' => digit - b'0',
        b'A'..=b'F' => digit - b'A' + 10,
        _ => digit - b'a' + 10,
    }
}

/// Reads a byte of two hexadecimal digits.
pub fn byte_in(word: &[u8]) -> Result<u8, Cause> {
    match word {
        [high, low] if high.is_ascii_hexdigit() && low.is_ascii_hexdigit() => {
            Ok(16 * digit_value(*high) + digit_value(*low))
        }
        _ => Err(Cause::BadHex),
    }
}

/// Reads the modem lines as one hexadecimal digit.
pub fn lines_in(word: &[u8]) -> Result<u8, Cause> {
    match word {
        [digit] if digit.is_ascii_hexdigit() => Ok(16 * digit_value(*digit)),
        _ => Err(Cause::BadHex),
    }
}

/// Returns whether a word has one or more pairs of hexadecimal digits and nothing else.
fn is_pairs(word: &[u8]) -> bool {
    !word.is_empty() && word.len() % 2 == 0 && all_hex(word)
}

fn all_hex(word: &[u8]) -> bool {
    word.iter().all(|digit| digit.is_ascii_hexdigit())
}

/// Returns the bytes that are written in pairs of digits.
fn pairs_of(word: &[u8]) -> ArrayVec<u8, CALL_BYTES> {
    let mut bytes = ArrayVec::new();
    let mut rest = word;
    while let [high, low, after @ ..] = rest {
        bytes.push(16 * digit_value(*high) + digit_value(*low));
        rest = after;
    }
    bytes
}

/// Reads bytes, at most those of a call.
pub fn bytes_in(word: &[u8]) -> Result<ArrayVec<u8, CALL_BYTES>, Cause> {
    if word == b"-".as_slice() {
        return Ok(ArrayVec::new());
    }
    if !is_pairs(word) {
        return Err(Cause::BadHex);
    }
    if word.len() / 2 > CALL_BYTES {
        return Err(Cause::TooManyBytes);
    }
    Ok(pairs_of(word))
}

/// Reads a text, of at most the bytes of a call.
pub fn text_in(word: &[u8]) -> Result<ArrayString<CALL_BYTES>, Cause> {
    let bytes = bytes_in(word)?;
    match str::from_utf8(&bytes) {
        Ok(text) => {
            let mut string = ArrayString::new();
            string.push_str(text);
            Ok(string)
        }
        Err(_) => Err(Cause::BadText),
    }
}

/// Reads the error bits of an arrival.
pub fn errors_in(word: &[u8]) -> Result<u8, Cause> {
    match word {
        b"p" => Ok(LSR::PARITY_ERROR.bits()),
        b"f" => Ok(LSR::FRAMING_ERROR.bits()),
        b"b" => Ok(LSR::BREAK_INTERRUPT.bits()),
        b"pf" => Ok(LSR::PARITY_ERROR.union(LSR::FRAMING_ERROR).bits()),
        b"pb" => Ok(LSR::PARITY_ERROR.union(LSR::BREAK_INTERRUPT).bits()),
        b"fb" => Ok(LSR::FRAMING_ERROR.union(LSR::BREAK_INTERRUPT).bits()),
        b"pfb" => Ok(LSR::CHARACTER_ERRORS.bits()),
        _ => Err(Cause::BadWord),
    }
}

/// Reads the number of slots of a call.
pub fn count_in(word: &[u8]) -> Result<usize, Cause> {
    let count = number_in(0, CALL_BYTES as u64, word)?;
    Ok(count as usize)
}

/// Reads the spin limit of the driver.
pub fn limit_in(word: &[u8]) -> Result<NonZeroU64, Cause> {
    let limit = number_in(1, MOST_LIMIT, word)?;
    NonZeroU64::new(limit).ok_or(Cause::BadNumber)
}

/// Reads the number of ticks of an event.
pub fn ticks_in(word: &[u8]) -> Result<u16, Cause> {
    let ticks = number_in(0, MOST_TICKS, word)?;
    Ok(ticks as u16)
}

/// Reads the number of ticks that a character takes to be sent.
pub fn char_ticks_in(word: &[u8]) -> Result<u16, Cause> {
    let ticks = number_in(1, MAX_CHAR_TICKS as u64, word)?;
    Ok(ticks as u16)
}

/// Reads the number of bytes that the wire has room for.
pub fn wire_capacity_in(word: &[u8]) -> Result<usize, Cause> {
    let capacity = number_in(0, MAX_WIRE_CAPACITY as u64, word)?;
    Ok(capacity as usize)
}

/// Reads the kind of chip.
pub fn chip_in(word: &[u8]) -> Result<ChipKind, Cause> {
    let (model, size, auto_flow) = if word == b"16550a".as_slice() {
        (Chip::Uart16550A, FifoSize::Sixteen, false)
    } else if word == b"16450".as_slice() {
        (Chip::Uart16450, FifoSize::Sixteen, false)
    } else if word == b"16650".as_slice() {
        (Chip::Uart16550A, FifoSize::ThirtyTwo, false)
    } else if word == b"16750".as_slice() {
        (Chip::Uart16550A, FifoSize::SixtyFour, true)
    } else if word == b"16850".as_slice() {
        (Chip::Uart16550A, FifoSize::OneHundredTwentyEight, false)
    } else if word == b"16950".as_slice() {
        (Chip::Uart16550A, FifoSize::OneHundredTwentyEight, true)
    } else if word == b"16550a-256".as_slice() {
        (Chip::Uart16550A, FifoSize::TwoHundredFiftySix, false)
    } else {
        return Err(Cause::BadWord);
    };
    Ok(ChipKind {
        model,
        size,
        auto_flow,
    })
}

/// Reads the size that the driver takes the FIFOs for.
pub fn size_in(word: &[u8]) -> Result<FifoSize, Cause> {
    match word {
        b"16" => Ok(FifoSize::Sixteen),
        b"32" => Ok(FifoSize::ThirtyTwo),
        b"64" => Ok(FifoSize::SixtyFour),
        b"128" => Ok(FifoSize::OneHundredTwentyEight),
        b"256" => Ok(FifoSize::TwoHundredFiftySix),
        _ => Err(Cause::BadWord),
    }
}

/// Reads the option that may end the first line.
pub fn cut_in(word: &[u8]) -> Result<bool, Cause> {
    if word == b"cut".as_slice() {
        Ok(true)
    } else {
        Err(Cause::BadWord)
    }
}

/// Reads the trigger level of the receiver FIFO.
pub fn level_in(word: &[u8]) -> Result<Option<FifoTriggerLevel>, Cause> {
    match word {
        b"off" => Ok(None),
        b"1" => Ok(Some(FifoTriggerLevel::One)),
        b"4" => Ok(Some(FifoTriggerLevel::Four)),
        b"8" => Ok(Some(FifoTriggerLevel::Eight)),
        b"14" => Ok(Some(FifoTriggerLevel::Fourteen)),
        _ => Err(Cause::BadWord),
    }
}

/// Reads the baud rate, in bits per second.
pub fn rate_in(word: &[u8]) -> Result<BaudRate, Cause> {
    let rate = number_in(1, MOST_RATE, word)?;
    Ok(BaudRate::from_integer(rate as u32))
}

/// Reads whether the driver checks CTS.
pub fn cts_in(word: &[u8]) -> Result<bool, Cause> {
    if word == b"cts".as_slice() {
        Ok(true)
    } else if word == b"nocts".as_slice() {
        Ok(false)
    } else {
        Err(Cause::BadWord)
    }
}

/// Reads the bits of IER.
pub fn interrupts_in(word: &[u8]) -> Result<IER, Cause> {
    Ok(IER::from_bits_retain(byte_in(word)?))
}

/// Reads the number of data bits of a character.
pub fn word_length_in(word: &[u8]) -> Result<WordLength, Cause> {
    let bits = number_in(5, 8, word)?;
    Ok(WordLength::from_integer(bits as u8))
}

/// Reads the bits of MCR.
pub fn outputs_in(word: &[u8]) -> Result<MCR, Cause> {
    Ok(MCR::from_bits_retain(byte_in(word)?))
}

/// Reads a trigger level of FIFOs that are on.
pub fn trigger_in(word: &[u8]) -> Result<FifoTriggerLevel, Cause> {
    match word {
        b"1" => Ok(FifoTriggerLevel::One),
        b"4" => Ok(FifoTriggerLevel::Four),
        b"8" => Ok(FifoTriggerLevel::Eight),
        b"14" => Ok(FifoTriggerLevel::Fourteen),
        _ => Err(Cause::BadWord),
    }
}

/// Reads whether a break or an output is on.
pub fn switch_in(word: &[u8]) -> Result<bool, Cause> {
    match word {
        b"on" => Ok(true),
        b"off" => Ok(false),
        _ => Err(Cause::BadWord),
    }
}

/// Reads whether the scratch register is tested.
pub fn check_in(word: &[u8]) -> Result<bool, Cause> {
    if word == b"check".as_slice() {
        Ok(true)
    } else if word == b"nocheck".as_slice() {
        Ok(false)
    } else {
        Err(Cause::BadWord)
    }
}

/// Reads when to wait until the transmitter is empty.
pub fn wait_in(word: &[u8]) -> Result<TransmitterWait, Cause> {
    match word {
        b"first" => Ok(TransmitterWait::First),
        b"last" => Ok(TransmitterWait::Last),
        b"never" => Ok(TransmitterWait::Never),
        _ => Err(Cause::BadWord),
    }
}

/// Reads what becomes of the FIFOs.
pub fn fifos_in(word: &[u8]) -> Result<FifoAction, Cause> {
    if word == b"keep".as_slice() {
        Ok(FifoAction::Keep)
    } else if word == b"reset".as_slice() {
        Ok(FifoAction::Reset)
    } else if word == b"disable".as_slice() {
        Ok(FifoAction::Disable)
    } else {
        Err(Cause::BadWord)
    }
}

// Returns the registers in the order in which `dump` prints them, with DLL and DLM at the end.
fn registers_of(bytes: &[u8]) -> Result<ConfigRegisterDump, Cause> {
    match bytes {
        [ier, isr, lcr, mcr, lsr, msr, spr, dll, dlm] => Ok(ConfigRegisterDump {
            ier: IER::from_bits_retain(*ier),
            isr: ISR::from_bits_retain(*isr),
            lcr: LCR::from_bits_retain(*lcr),
            mcr: MCR::from_bits_retain(*mcr),
            lsr: LSR::from_bits_retain(*lsr),
            msr: MSR::from_bits_retain(*msr),
            spr: *spr,
            dll: *dll,
            dlm: *dlm,
        }),
        _ => Err(Cause::BadHex),
    }
}

/// Reads the registers of a dump, which are nine bytes.
pub fn dump_in(word: &[u8]) -> Result<ConfigRegisterDump, Cause> {
    registers_of(bytes_in(word)?.as_slice())
}
