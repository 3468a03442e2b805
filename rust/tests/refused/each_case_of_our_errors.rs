//! The driver may get more cases of this error, so its users have one for all others.
#![forbid(unsafe_code)]
// over the own interface

use uart_16550::AttachError;

fn main() {
    use AttachError as E;
    let name = |error| match error { E::DivisorLatchOpen => 1, E::Loopback => 2, E::NoDivisor => 3 }; // E0004
    println!("{}", name(AttachError::Loopback));
}
