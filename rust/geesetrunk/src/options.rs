//! What the options of the command line say about a log and its chip.

use crate::command_line::{Given, Reply};
use crate::commands::GEESETRUNK;
use crate::end::End;
use crate::grammar::Field;
use crate::import::{Import, Kind, MOST_STRIDE, Window};
use crate::known::{Fifo, Known, MOST_FIFO};
use std::num::NonZeroU64;
use uart_language::fields::chip_in;

/// Returns what options of `geesetrunk audit` say about a log and its chip. They are words with spaces between them.
///
/// # Errors
///
/// How the program would end.
///
/// # Examples
///
/// ```
/// use geesetrunk::options::options_in;
///
/// let (import, known) = options_in("--base 0x10000000 --clock 24000000").unwrap();
/// assert_eq!(import.window.base, Some(0x1000_0000));
/// assert_eq!(known.clock.unwrap().get(), 24_000_000);
/// let wrong = options_in("--clock").unwrap_err();
/// assert_eq!(wrong.line(), Some("a value is required for '--clock <HZ>' but none was supplied"));
/// ```
pub fn options_in(text: &str) -> Result<(Import, Known), End> {
    let words = text.split_whitespace().map(str::to_owned);
    match GEESETRUNK.read(std::iter::once("audit".to_owned()).chain(words)) {
        Ok((_, given)) => Ok((import_of(&given)?, known_of(&given)?)),
        Err(Reply::Text(_)) => Err(End::failed(
            "these words ask for a text, and say nothing about a log",
        )),
        // What is behind its first line is for a terminal.
        Err(Reply::Wrong(cause)) => {
            let first = cause.lines().next().unwrap_or_default();
            Err(End::failed(first.trim_start_matches("error: ")))
        }
    }
}

/// Returns the number that a word writes in decimal digits, without a sign.
pub fn number_in(word: &str) -> Option<u64> {
    if word.starts_with('+') {
        None
    } else {
        word.parse().ok()
    }
}

// Returns the number that a word writes in decimal digits, or in hexadecimal ones behind 0x.
fn address_in(word: &str) -> Option<u64> {
    let digits = word.strip_prefix("0x").or_else(|| word.strip_prefix("0X"));
    match digits {
        Some(digits) if !digits.starts_with('+') => u64::from_str_radix(digits, 16).ok(),
        _ => number_in(word),
    }
}

/// Returns the value of a flag, read by a function that is `None` for what it refuses.
///
/// # Errors
///
/// How a program ends that refuses it: it says what is wanted.
pub fn value_of<T>(
    given: &Given,
    flag: &str,
    read: impl Fn(&str) -> Option<T>,
    wants: &str,
) -> Result<Option<T>, End> {
    given
        .value(flag)
        .map(|word| read(word).ok_or_else(|| End::failed(format!("--{flag} must be {wants}"))))
        .transpose()
}

/// Returns what the command line says about a log.
///
/// # Errors
///
/// How a program ends that refuses it.
pub fn import_of(given: &Given) -> Result<Import, End> {
    let names: Vec<_> = Kind::ALL.iter().map(|kind| kind.name()).collect();
    let kind = value_of(
        given,
        "format",
        Kind::named,
        &format!("one of {}", names.join(", ")),
    )?;
    let address = "an address: decimal digits, or hexadecimal ones behind 0x";
    let base = value_of(given, "base", address_in, address)?;
    let port = value_of(given, "port", address_in, address)?;
    let stride = |word: &str| number_in(word).filter(|stride| (1..=MOST_STRIDE).contains(stride));
    let wants = format!("a number of bytes from 1 to {MOST_STRIDE}");
    let stride = value_of(given, "stride", stride, &wants)?;
    let interrupt = value_of(given, "irq", number_in, "a number")?;
    if stride.is_some() && base.is_none() && port.is_none() && kind == Some(Kind::Kvm) {
        return Err(End::failed(
            "--stride says nothing without --base: a port has one byte",
        ));
    }
    Ok(Import {
        kind,
        window: Window {
            base,
            stride,
            port,
            interrupt,
        },
    })
}

/// Returns what the command line says about the chip.
///
/// # Errors
///
/// How a program ends that refuses it.
pub fn known_of(given: &Given) -> Result<Known, End> {
    let clock = |word: &str| number_in(word).and_then(NonZeroU64::new);
    let divisor = |word: &str| {
        number_in(word)?
            .try_into()
            .ok()
            .filter(|divisor| *divisor > 0u16)
    };
    let fifo = |word: &str| match word {
        "off" => Some(Fifo::Off),
        word => number_in(word)?
            .try_into()
            .ok()
            .filter(|size| (1..=MOST_FIFO).contains(size))
            .map(Fifo::Bytes),
    };
    let chip = |word: &str| chip_in(word.as_bytes()).ok();
    Ok(Known {
        clock: value_of(given, "clock", clock, "a number of hertz, as 1843200")?,
        divisor: value_of(given, "divisor", divisor, "a number from 1 to 65535")?,
        fifo: value_of(
            given,
            "fifo",
            fifo,
            &format!("off, or a number of bytes from 1 to {MOST_FIFO}"),
        )?,
        chip: value_of(given, "chip", chip, Field::Chip.wants())?.unwrap_or(Known::default().chip),
    })
}
