//! A backend that leads nowhere in the place of a driver's own: outside of its crate nobody makes one.
#![forbid(unsafe_code)]

fn main() {
    let mut uart = board::pointed();
    *uart.backend_mut() = board::Pointed(std::ptr::null_mut()); // E0603
    println!("{:?}", uart.lsr());
}
