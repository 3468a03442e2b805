//! What the two programs share: a serial device of vm-superio 0.7, and the rounds of a body.
//!
//! In the program `inlined` the device's code is part of each body; in `called` it is reached through functions that are not inlined, as
//! over a library. They are two programs, since what the compiler inlines depends on how many places call it.

use std::arch::asm;
use std::convert::Infallible;
use std::io::{sink, Sink};
use vm_superio::serial::{Error, NoEvents, SerialState};
use vm_superio::{Serial, Trigger};

pub const DATA: u8 = 0;
pub const IER: u8 = 1;
pub const ISR: u8 = 2;
pub const MCR: u8 = 4;
pub const LSR: u8 = 5;

/// How many calls a round makes.
pub const EACH: usize = 16;

/// How many characters wait in a snapshot.
pub const WAITING_IN_SNAPSHOT: usize = 5;

/// An interrupt line that leads nowhere.
pub struct Line;

impl Trigger for Line {
    type E = Infallible;

    fn trigger(&self) -> Result<(), Infallible> {
        Ok(())
    }
}

/// The device; what it sends goes nowhere.
pub type Device = Serial<Line, NoEvents, Sink>;

/// A device, a snapshot of it, and what was read, so that no call can be left out. What was read is also what is written.
pub struct Bench {
    pub device: Device,
    pub state: SerialState,
    pub digest: u8,
}

impl Bench {
    /// Adds what was read.
    #[inline(always)]
    pub fn add(&mut self, value: u8) {
        self.digest = self.digest.wrapping_add(value);
    }
}

/// A device in the state.
#[inline(always)]
pub fn device_in(state: &SerialState) -> Result<Device, Error<Infallible>> {
    Serial::from_state(state, Line, NoEvents, sink())
}

/// After this the compiler does not know what is in memory. It is no instruction.
#[inline(always)]
pub fn obscure<T>(place: &mut T) {
    // SAFETY: nothing is executed.
    unsafe { asm!("/* {0} */", in(reg) place, options(nostack, preserves_flags)) }
}

/// A body: its name, how many characters wait before it, and one round of it.
pub type Body = (&'static str, usize, fn(&mut Bench));

/// Makes as many rounds of a body as the arguments say.
fn rounds(bodies: &[Body]) -> Option<u8> {
    let mut arguments = std::env::args().skip(1);
    let name = arguments.next()?;
    let count: u32 = arguments.next()?.parse().ok()?;
    let (_, waiting, round) = bodies.iter().find(|body| body.0 == name)?;
    let state = SerialState {
        in_buffer: vec![b'x'; *waiting],
        ..SerialState::default()
    };
    let mut bench = Bench {
        device: device_in(&state).ok()?,
        state,
        digest: 0,
    };
    for _ in 0..count {
        round(&mut bench);
    }
    Some(bench.digest)
}

/// The program.
pub fn run(bodies: &[Body]) {
    match rounds(bodies) {
        Some(digest) => println!("{digest}"),
        None => {
            eprintln!("usage: called|inlined BODY COUNT");
            std::process::exit(1);
        }
    }
}
