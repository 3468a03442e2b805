//! An access by what a terminal's driver lends.
#![forbid(unsafe_code)]

use uart_16550::compat::backend::Backend;

fn main() {
    let mut terminal = board::terminal();
    terminal.inner_mut().backend_mut().write(0, b'x'); // E0133
    println!("{:?}", terminal.inner_mut().lsr());
}
