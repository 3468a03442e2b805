//! A backend whose address nobody tested.
#![forbid(unsafe_code)]

use std::num::NonZeroU8;
use std::ptr::NonNull;
use uart_16550::compat::backend::MmioBackend;

fn main() {
    let (base, stride) = (NonNull::<u8>::dangling(), NonZeroU8::MIN);
    let backend = MmioBackend { base, stride }; // E0451
    println!("{backend:?}");
}
