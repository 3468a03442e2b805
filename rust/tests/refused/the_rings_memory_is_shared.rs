//! Memory of rings that two threads take from.
#![forbid(unsafe_code)]

use uart_16550::ring::Memory;

fn main() {
    let memory = Memory::new(Box::leak(Box::new([0; 256])));
    std::thread::scope(|scope| {
        scope.spawn(|| drop(memory.global())); // E0277
    });
}
