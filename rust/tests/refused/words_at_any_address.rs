//! Registers of 32 bits at an address for which nobody promised anything.
#![forbid(unsafe_code)]

use std::num::NonZeroUsize;
use uart_16550::native::backend::{Backend, RegisterLayout, WideMemory};

fn main() {
    let base = NonZeroUsize::new(0x1000).unwrap();
    let registers = WideMemory::from_address(base, RegisterLayout::WORDS); // E0133
    println!("{}", registers.unwrap().read(5));
}
