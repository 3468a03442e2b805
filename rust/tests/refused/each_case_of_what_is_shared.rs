//! Shared rings may get more errors, so their users have a case for all others.
#![forbid(unsafe_code)]
// over the own interface

use uart_16550::shared::SharedError::{GaveUp, InUse, NoRings, Stuck, Unnoted};

fn main() {
    let name = |error| match error { NoRings => 1, InUse => 2, GaveUp => 3, Stuck(_) => 4, Unnoted(_) => 5 }; // E0004
    println!("{}", name(InUse));
}
