//! An access by a copy of a driver's backend.
#![forbid(unsafe_code)]

use uart_16550::compat::backend::Backend;

fn main() {
    let uart = board::port();
    let mut copy = *uart.backend();
    println!("{}", copy.read(5)); // E0133
}
