//! The original may get more cases of this error, so its programs have one for all others.
#![forbid(unsafe_code)]

use uart_16550::compat::InitError;

fn main() {
    let name = |error| match error { InitError::DeviceNotPresent => 1, InitError::InvalidBaudRate(_) => 2 }; // E0004
    println!("{}", name(InitError::DeviceNotPresent));
}
