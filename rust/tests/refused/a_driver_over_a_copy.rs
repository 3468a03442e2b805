//! A second driver over a copy of the first one's backend.
#![forbid(unsafe_code)]

use uart_16550::compat::Uart16550;

fn main() {
    let uart = board::port();
    let mut second = Uart16550::new_with_backend(*uart.backend()); // E0133
    println!("{:?} {:?}", second.lsr(), uart.config());
}
