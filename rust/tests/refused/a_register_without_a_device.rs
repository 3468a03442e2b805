//! An access to a register at an address for which nobody promised anything.
#![forbid(unsafe_code)]

use uart_16550::native::backend::{ByteOrder, RegisterWidth, load_register};

fn main() {
    let address = std::ptr::without_provenance(0x1000);
    let value = load_register(address, RegisterWidth::Bits32, ByteOrder::NATIVE); // E0133
    println!("{value}");
}
