//! What the two programs share: a chip, a device over one, and the rounds of a body.
//!
//! In the program `inlined` the code of the chip is part of each body; in `called` it is reached through functions that are not
//! inlined, as over a library. They are two programs, since what the compiler inlines depends on how many places call it.

use std::arch::asm;
use std::convert::Infallible;
use uart_16550_chip::registers::LSR;
use uart_16550_chip::{Chip, LiveChip, NoEvents, Output, Serial, Trigger};

pub const DATA_OFFSET: u8 = 0;
pub const IER_OFFSET: u8 = 1;
pub const ISR_OFFSET: u8 = 2;
pub const MCR_OFFSET: u8 = 4;
pub const LSR_OFFSET: u8 = 5;

/// How many calls a round makes.
pub const EACH: usize = 16;

const FCR_OFFSET: u8 = 2;
const FIFO_ON: u8 = 0x01;
/// How many bytes the wire has room for.
pub const WIRE_ROOM: usize = 64;
/// The ticks in which 16 bytes leave, if each takes one.
const TICKS_OF_A_ROUND: u16 = 17;

/// An interrupt line that leads nowhere.
pub struct Line;

impl Trigger for Line {
    type E = Infallible;

    fn trigger(&self) -> Result<(), Infallible> {
        Ok(())
    }
}

/// An output that takes everything and cannot fail. If it could, what drops the error would be counted with each write.
pub struct Nowhere;

impl Output for Nowhere {
    type Error = Infallible;

    fn write_bytes(&mut self, bytes: &[u8]) -> Result<usize, Infallible> {
        Ok(bytes.len())
    }
}

/// The device; what it sends goes nowhere.
pub type Device = Serial<Line, NoEvents, Nowhere>;

/// A chip, a device, and what was read, so that no call can be left out. What was read is also what is written.
pub struct Bench {
    pub chip: LiveChip,
    pub device: Device,
    pub digest: u8,
}

impl Bench {
    /// Adds what was read.
    #[inline(always)]
    pub fn add(&mut self, value: u8) {
        self.digest = self.digest.wrapping_add(value);
    }

    /// Puts a byte on the wire. This is not counted.
    pub fn send(&mut self, byte: u8) {
        self.chip.write(DATA_OFFSET, byte);
        self.chip.ticks(TICKS_OF_A_ROUND);
    }

    /// Empties the transmitter and the wire. This is not counted.
    pub fn drain(&mut self) {
        self.chip.ticks(TICKS_OF_A_ROUND);
        self.chip.take_wire(WIRE_ROOM);
    }
}

/// After this the compiler does not know what is in memory. It is no instruction.
#[inline(always)]
pub fn obscure<T>(place: &mut T) {
    // SAFETY: nothing is executed.
    unsafe { asm!("/* {0} */", in(reg) place, options(nostack, preserves_flags)) }
}

/// What is set before a body.
#[derive(Clone, Copy)]
pub struct Setting {
    /// How many characters wait.
    pub waiting: u8,
    /// The interrupts that are enabled.
    pub interrupts: u8,
}

/// Nothing waits, and no interrupt is enabled.
pub const IDLE: Setting = Setting {
    waiting: 0,
    interrupts: 0,
};

/// A body: its name, its setting, and one round of it.
pub type Body = (&'static str, Setting, fn(&mut Bench));

/// Makes as many rounds of a body as the arguments say.
fn rounds(bodies: &[Body]) -> Option<u8> {
    let mut arguments = std::env::args().skip(1);
    let name = arguments.next()?;
    let count: u32 = arguments.next()?.parse().ok()?;
    let (_, setting, round) = bodies.iter().find(|body| body.0 == name)?;
    let mut bench = Bench {
        chip: LiveChip::new(Chip::Uart16550A, 1, WIRE_ROOM).ok()?,
        device: Serial::new(Line, Nowhere),
        digest: 0,
    };
    for (offset, value) in [(FCR_OFFSET, FIFO_ON), (IER_OFFSET, setting.interrupts)] {
        bench.chip.write(offset, value);
        bench.device.write(offset, value).ok()?;
    }
    for byte in 0..setting.waiting {
        bench.chip.arrive(byte, LSR::empty()).ok()?;
        bench.device.enqueue_raw_bytes(&[byte]).ok()?;
    }
    for _ in 0..count {
        round(&mut bench);
    }
    Some(bench.digest)
}

/// The program.
pub fn run(bodies: &[Body]) {
    match rounds(bodies) {
        Some(digest) => println!("{digest}"),
        None => {
            eprintln!("usage: called|inlined BODY COUNT");
            std::process::exit(1);
        }
    }
}
