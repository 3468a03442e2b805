//! The guest: a program in real mode, and what it looks for in memory.

use std::arch::global_asm;
use std::fmt;

/// Where the program is loaded, and begins.
pub const LOAD: u16 = 0x8000;
/// A write to this port ends the guest.
pub const END: u16 = 0xf4;
/// What the guest sends when it is ready for input.
pub const PROMPT: u8 = b'>';
/// How the program serves its port, as a byte.
const MODE: usize = 0x500;
/// How many bytes it sends before it ends, as 32 bits.
const COUNT: usize = 0x504;

/// How the guest does its input and output.
#[derive(Clone, Copy, Debug, PartialEq, Eq)]
pub enum Mode {
    Polled,
    /// By interrupts, whose line has edges.
    Edges,
    /// By interrupts, whose line has levels.
    Levels,
}

impl fmt::Display for Mode {
    fn fmt(&self, f: &mut fmt::Formatter<'_>) -> fmt::Result {
        f.write_str(match self {
            Mode::Polled => "polled",
            Mode::Edges => "by interrupts",
            Mode::Levels => "by interrupts with levels",
        })
    }
}

global_asm!(
    ".pushsection .rodata.guest, \"a\"",
    include_str!("guest.s"),
    ".popsection",
    options(att_syntax)
);

unsafe extern "C" {
    static guest_start: u8;
    static guest_end: u8;
}

/// Returns the program.
fn program() -> &'static [u8] {
    let (start, end) = (&raw const guest_start, &raw const guest_end);
    // SAFETY: both labels are in the section above, the end after the start, with initialised bytes between them that nobody writes.
    unsafe { std::slice::from_raw_parts(start, end.addr() - start.addr()) }
}

/// Returns memory of this size, in which the program lies ready to answer so many bytes.
pub fn memory(size: usize, mode: Mode, count: u32) -> Vec<u8> {
    let mut memory = vec![0; size];
    let load = usize::from(LOAD);
    memory[load..load + program().len()].copy_from_slice(program());
    memory[MODE] = mode as u8;
    memory[COUNT..COUNT + 4].copy_from_slice(&count.to_le_bytes());
    memory
}

/// Returns what the guest sends for a byte that it received.
pub fn answer(byte: u8) -> u8 {
    !byte
}
