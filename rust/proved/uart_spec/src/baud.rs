//! Clock frequency, divisor and baud rate: each of the three from the other two.

use crate::errors::{InvalidDivisorError, NonIntegerBaudRateError, NonIntegerDivisorError};

/// The usual frequency of the clock that drives the baud rate generator, in hertz: 16 clock ticks
/// per bit at 115,200 baud.
pub const CLK_FREQUENCY_HZ: u32 = 1_843_200;

/// The number of characters that a FIFO of a 16550 holds.
pub const FIFO_SIZE: usize = 16;

/// The number of registers that a 16550 shows at a time, at offsets 0 to 7.
pub const NUM_REGISTERS: usize = 8;

/// Returns the clock frequency in hertz at which a divisor gives a baud rate.
///
/// The generator divides the clock by 16, by the divisor, and by the prescaler division factor plus
/// 1. The factor is between 0 and 15; `None` counts as 0.
///
/// # Panics
///
/// If the baud rate or the divisor is 0, if the prescaler division factor is above 15, or if the frequency does
/// not fit into 32 bits.
///
/// # Examples
///
/// ```
/// # use uart_16550::native::{*, spec::*};
/// assert_eq!(calc_frequency(9_600, 12, None), 1_843_200);
/// ```
#[must_use]
///
/// # Proved
///
/// If `0 < baud_rate`, and `0 < divisor`, and `prescaler prescaler_division_factor ≤ 15` (the prescaler division factor, 0 if there is none), and `frequency_of baud_rate divisor prescaler_division_factor < 2 ^ 32` (the clock frequency at which a divisor gives a baud rate: 16 times the prescaler plus 1, times rate, times divisor):
///
/// - Returns [`frequency_of`](crate::proved::baud#frequency_of) `baud_rate divisor prescaler_division_factor`.
///
/// <details><summary>The clauses</summary>
///
/// [How to read them](crate::proved):
///
/// ```text
/// requires baud_rate { 0 < baud_rate }
/// requires divisor { 0 < divisor }
/// requires prescaler { prescaler prescaler_division_factor ≤ 15 }
/// requires fits { frequency_of baud_rate divisor prescaler_division_factor < 2 ^ 32 }
/// ensures { result ≡ frequency_of baud_rate divisor prescaler_division_factor }
/// ```
///
/// </details>
pub fn calc_frequency(baud_rate: u32, divisor: u32, prescaler_division_factor: Option<u32>) -> u32 {
    assert!(
        baud_rate != 0
            && divisor != 0
            && prescaler_division_factor.is_none_or(|factor| factor <= 15)
            && (16 * (prescaler_division_factor.unwrap_or(0) + 1))
                .checked_mul(baud_rate)
                .is_some_and(|ticks| ticks.checked_mul(divisor).is_some()),
        "a baud rate or divisor of 0, a prescaler division factor above 15, or too high a frequency"
    );
    16 * (prescaler_division_factor.unwrap_or(0) + 1) * baud_rate * divisor
}

/// Returns the baud rate that a divisor gives at a clock frequency in hertz. Nothing is rounded.
///
/// # Errors
///
/// `NonIntegerBaudRateError`, with the arguments, if the baud rate is not a whole number.
///
/// # Panics
///
/// If the frequency or the divisor is 0, or if the prescaler division factor is above 15.
///
/// # Examples
///
/// ```
/// # use uart_16550::native::{*, spec::*};
/// assert_eq!(calc_baud_rate(1_843_200, 12, None), Ok(9_600));
/// ```
///
/// # Proved
///
/// If `0 < frequency`, and `0 < divisor`, and `prescaler prescaler_division_factor ≤ 15` (the prescaler division factor, 0 if there is none):
///
/// - [Returns the one value for which](crate::proved::bits#IsOnly) [`IsBaudRateAnswer`](crate::proved::baud#IsBaudRateAnswer) `frequency divisor prescaler_division_factor`: the baud rate that this divisor gives exactly; or an error with the arguments, if it gives no whole one.
///
/// <details><summary>The clauses</summary>
///
/// [How to read them](crate::proved):
///
/// ```text
/// requires frequency { 0 < frequency }
/// requires divisor { 0 < divisor }
/// requires prescaler { prescaler prescaler_division_factor ≤ 15 }
/// ensures { IsOnly (IsBaudRateAnswer frequency divisor prescaler_division_factor) result }
/// ```
///
/// </details>
pub fn calc_baud_rate(
    frequency: u32,
    divisor: u32,
    prescaler_division_factor: Option<u32>,
) -> Result<u32, NonIntegerBaudRateError> {
    assert!(
        frequency != 0
            && divisor != 0
            && prescaler_division_factor.is_none_or(|factor| factor <= 15),
        "a frequency or divisor of 0, or a prescaler division factor above 15"
    );
    match other_factor(frequency, divisor, prescaler_division_factor) {
        Some(baud_rate) => Ok(baud_rate),
        None => Err(NonIntegerBaudRateError {
            frequency,
            divisor,
            prescaler_division_factor,
        }),
    }
}

/// Returns the divisor that gives a baud rate at a clock frequency in hertz. Nothing is rounded.
///
/// # Errors
///
/// - `NonInteger`, with the arguments, if no whole divisor gives exactly this baud rate. At the
///   usual clock that is the case for 110 baud.
/// - `OutOfRange`, with the divisor, if one does, but it does not fit into the divisor latch of 16
///   bits.
///
/// # Panics
///
/// If the frequency or the baud rate is 0, or if the prescaler division factor is above 15.
///
/// # Examples
///
/// ```
/// # use uart_16550::native::{*, spec::*};
/// assert_eq!(calc_divisor(1_843_200, 9_600, None), Ok(12));
/// ```
///
/// # Proved
///
/// If `prescaler prescaler_division_factor ≤ 15` (the prescaler division factor, 0 if there is none), and `0 < frequency`, and `0 < baud_rate`:
///
/// - [Returns the one value for which](crate::proved::bits#IsOnly) [`IsDivisorAnswer`](crate::proved::baud#IsDivisorAnswer) `frequency baud_rate prescaler_division_factor`: the divisor that gives exactly this baud rate, if it fits into the divisor latch; an error with the divisor if it does not fit; an error with the arguments if no whole divisor does.
///
/// <details><summary>The clauses</summary>
///
/// [How to read them](crate::proved):
///
/// ```text
/// requires prescaler { prescaler prescaler_division_factor ≤ 15 }
/// requires frequency { 0 < frequency }
/// requires baud_rate { 0 < baud_rate }
/// ensures { IsOnly (IsDivisorAnswer frequency baud_rate prescaler_division_factor) result }
/// ```
///
/// </details>
pub fn calc_divisor(
    frequency: u32,
    baud_rate: u32,
    prescaler_division_factor: Option<u32>,
) -> Result<u16, InvalidDivisorError> {
    assert!(
        frequency != 0
            && baud_rate != 0
            && prescaler_division_factor.is_none_or(|factor| factor <= 15),
        "a frequency or baud rate of 0, or a prescaler division factor above 15"
    );
    match other_factor(frequency, baud_rate, prescaler_division_factor) {
        None => Err(InvalidDivisorError::NonInteger(NonIntegerDivisorError {
            frequency,
            baud_rate,
            prescaler_division_factor,
        })),
        Some(divisor) if divisor <= u16::MAX as u32 => Ok(divisor as u16),
        Some(divisor) => Err(InvalidDivisorError::OutOfRange { divisor }),
    }
}

// Returns the divisor for a baud rate, or the baud rate for a divisor: the two are factors of one
// product. So both errors have one relation, 'this result and no other', over one equation that is
// a product, while the code divides.
//
// The ticks are computed in 64 bits: they reach 16 * 16 * (2^32 - 1).
fn other_factor(frequency: u32, factor: u32, prescaler_division_factor: Option<u32>) -> Option<u32> {
    let ticks = 16 * (prescaler_division_factor.unwrap_or(0) as u64 + 1) * factor as u64;
    whole_quotient(frequency, ticks)
}

// Returns the quotient if there is no remainder.
fn whole_quotient(dividend: u32, divisor: u64) -> Option<u32> {
    let dividend = dividend as u64;
    if dividend % divisor == 0 {
        Some((dividend / divisor) as u32)
    } else {
        None
    }
}

// Returns how many clock ticks a bit has at divisor 1.
pub(crate) fn ticks_of(baud_rate: u32, prescaler_division_factor: Option<u32>) -> u64 {
    16 * (prescaler_division_factor.unwrap_or(0) as u64 + 1) * baud_rate as u64
}

// Returns the factor, at least 1, at which the rate is nearest to the one that is wanted, if the
// clock has this frequency, and if the factor 1 is exact at this number of ticks. If two are
// equally near, it is the larger one.
//
// A factor gives the rate `frequency / factor`, and the wanted one is `ticks`. Rates are not spaced
// as their factors are: between two neighbours the rates are equally far off where the frequency
// divided by the ticks is the harmonic mean of the two, which is below the middle.
pub(crate) fn nearest_factor(frequency: u64, ticks: u64) -> u64 {
    let below = frequency / ticks;
    let above = below + 1;
    let product = ticks * below * above;
    if 2 * product <= frequency * (below + above) {
        above
    } else {
        below
    }
}
