//! Runs one body of a crate over a backend of memory cells, for `measure-rust.sh` to count its
//! instructions.
//!
//! `measure_rust BODY BACKEND COUNT`: the bodies are in `bodies.rs`, the backends in `cells.rs`.

mod bodies;
mod cells;
mod counted;

use bodies::Body;
use cells::{Called, Folding, Volatile};
use std::env::args;
use std::process::ExitCode;

/// What LSR shows: the transmitter is empty, and for `receive` a byte waits too.
const EMPTY: u8 = 0x60;
const EMPTY_AND_READY: u8 = 0x61;

/// Runs a body over the backend of this name, and returns the digest of what its accesses left.
fn measured(body: Body, backend: &str, count: u64) -> Option<u64> {
    let filling = (count % 256) as u8;
    let lsr = if body == Body::Receive {
        EMPTY_AND_READY
    } else {
        EMPTY
    };
    let digest = match backend {
        "folding" => body.run(count, Folding::new(filling, lsr)),
        "folding-called" => body.run(count, Called(Folding::new(filling, lsr))),
        "volatile" => body.run(count, Volatile::new(filling, lsr)),
        "volatile-called" => body.run(count, Called(Volatile::new(filling, lsr))),
        _ => return None,
    };
    Some(digest)
}

/// Reads the words of the command line, and runs what they name.
fn run() -> Option<u64> {
    let mut words = args().skip(1);
    let body = Body::of_name(&words.next()?)?;
    let backend = words.next()?;
    let count = words.next()?.parse().ok()?;
    measured(body, &backend, count)
}

fn main() -> ExitCode {
    match run() {
        Some(digest) => {
            println!("{digest:016x}");
            ExitCode::SUCCESS
        }
        None => {
            eprintln!("give the name of a body, a backend, and a count");
            ExitCode::FAILURE
        }
    }
}
