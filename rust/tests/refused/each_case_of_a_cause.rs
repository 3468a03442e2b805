//! The original may get more cases of this error, so its programs have one for all others.
#![forbid(unsafe_code)]

use uart_16550::compat::spec::{InvalidDivisorError, calc_divisor};

fn main() {
    let name = |error| match error { InvalidDivisorError::NonInteger(_) => 1, InvalidDivisorError::OutOfRange { .. } => 2 }; // E0004
    println!("{:?}", calc_divisor(0, 0, None).map_err(name));
}
