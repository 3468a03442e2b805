//! A second way to the registers of a driver's own interface.
#![forbid(unsafe_code)]

fn main() {
    let memory = board::memory();
    let second = memory.clone(); // E0599
    println!("{memory:?} {second:?}");
}
