//! A call of the rings may get more ends, so its users have a case for all others.
#![forbid(unsafe_code)]
// over the own interface

use uart_16550::ring::HandleEnd;

fn main() {
    let name = |end| match end { HandleEnd::Idle => 1, HandleEnd::Unknown => 2, HandleEnd::Limit => 3 }; // E0004
    println!("{}", name(HandleEnd::Idle));
}
