//! A driver that two threads look at.
#![forbid(unsafe_code)]

use uart_16550::native::Uart16550;

fn main() {
    let uart = Uart16550::new_with_backend(board::memory());
    std::thread::scope(|scope| {
        scope.spawn(|| println!("{:?}", uart.config())); // E0277
    });
}
