//! Reads decimal numbers.

use super::cause::Cause;
use super::limits::MOST_DIGITS;

// Returns whether a word has 1 to so many decimal digits and nothing else.
fn is_number(digits: usize, word: &[u8]) -> bool {
    !word.is_empty() && word.len() <= digits && all_decimal(word)
}

// Returns whether a word has decimal digits alone.
fn all_decimal(word: &[u8]) -> bool {
    word.iter().all(|digit| digit.is_ascii_digit())
}

// Returns the value of a decimal digit.
fn decimal_digit(digit: u8) -> u8 {
    digit - b'0'
}

// Returns the number that is written in decimal digits.
fn decimal(word: &[u8]) -> u64 {
    let mut value = 0u64;
    for digit in word {
        value = value * 10 + u64::from(decimal_digit(*digit));
    }
    value
}

/// Reads a number from `least` to `most` that has at most so many digits.
pub fn number_of(digits: usize, least: u64, most: u64, word: &[u8]) -> Result<u64, Cause> {
    if !is_number(digits, word) {
        return Err(Cause::BadNumber);
    }
    let value = decimal(word);
    if least <= value && value <= most {
        Ok(value)
    } else {
        Err(Cause::BadNumber)
    }
}
