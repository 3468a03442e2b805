//! One device for two threads: a driver over a copy of another one's backend, each on a thread.
#![forbid(unsafe_code)]

use uart_16550::compat::Uart16550;

fn main() {
    let mut one = board::port();
    let mut two = Uart16550::new_with_backend(*one.backend_mut()); // E0133
    std::thread::scope(|scope| {
        scope.spawn(move || (0..1_000_000).for_each(|_| one.send_bytes_exact(b"1")));
        scope.spawn(move || (0..1_000_000).for_each(|_| two.send_bytes_exact(b"2")));
    });
}
