//! The interrupts of the RISC-V board `virt`: the PLIC, which detects levels, and the processor's machine mode.

use core::arch::{asm, global_asm};

const PLIC: usize = 0x0c00_0000;
const PRIORITY: usize = PLIC;
const ENABLED: usize = PLIC + 0x2000;
const THRESHOLD: usize = PLIC + 0x20_0000;
const CLAIM: usize = PLIC + 0x20_0004;

// The serial chip's number at the PLIC.
const SERIAL: usize = 10;

const MACHINE_EXTERNAL: usize = 1 << 11;

#[cfg(target_arch = "riscv32")]
macro_rules! word {
    (load) => {
        "lw"
    };
    (store) => {
        "sw"
    };
    (size) => {
        "4"
    };
}
#[cfg(target_arch = "riscv64")]
macro_rules! word {
    (load) => {
        "ld"
    };
    (store) => {
        "sd"
    };
    (size) => {
        "8"
    };
}

// Saves what a function may change.
global_asm!(
    ".section .text",
    concat!(".set WORD, ", word!(size)),
    ".balign 4",
    "trap:",
    "addi sp, sp, -16 * WORD",
    concat!(word!(store), " ra, 0 * WORD(sp)"),
    concat!(word!(store), " t0, 1 * WORD(sp)"),
    concat!(word!(store), " t1, 2 * WORD(sp)"),
    concat!(word!(store), " t2, 3 * WORD(sp)"),
    concat!(word!(store), " t3, 4 * WORD(sp)"),
    concat!(word!(store), " t4, 5 * WORD(sp)"),
    concat!(word!(store), " t5, 6 * WORD(sp)"),
    concat!(word!(store), " t6, 7 * WORD(sp)"),
    concat!(word!(store), " a0, 8 * WORD(sp)"),
    concat!(word!(store), " a1, 9 * WORD(sp)"),
    concat!(word!(store), " a2, 10 * WORD(sp)"),
    concat!(word!(store), " a3, 11 * WORD(sp)"),
    concat!(word!(store), " a4, 12 * WORD(sp)"),
    concat!(word!(store), " a5, 13 * WORD(sp)"),
    concat!(word!(store), " a6, 14 * WORD(sp)"),
    concat!(word!(store), " a7, 15 * WORD(sp)"),
    "call handle_interrupt",
    concat!(word!(load), " ra, 0 * WORD(sp)"),
    concat!(word!(load), " t0, 1 * WORD(sp)"),
    concat!(word!(load), " t1, 2 * WORD(sp)"),
    concat!(word!(load), " t2, 3 * WORD(sp)"),
    concat!(word!(load), " t3, 4 * WORD(sp)"),
    concat!(word!(load), " t4, 5 * WORD(sp)"),
    concat!(word!(load), " t5, 6 * WORD(sp)"),
    concat!(word!(load), " t6, 7 * WORD(sp)"),
    concat!(word!(load), " a0, 8 * WORD(sp)"),
    concat!(word!(load), " a1, 9 * WORD(sp)"),
    concat!(word!(load), " a2, 10 * WORD(sp)"),
    concat!(word!(load), " a3, 11 * WORD(sp)"),
    concat!(word!(load), " a4, 12 * WORD(sp)"),
    concat!(word!(load), " a5, 13 * WORD(sp)"),
    concat!(word!(load), " a6, 14 * WORD(sp)"),
    concat!(word!(load), " a7, 15 * WORD(sp)"),
    "addi sp, sp, 16 * WORD",
    "mret",
);

unsafe extern "C" {
    fn trap();
}

fn write(register: usize, value: u32) {
    let register = core::ptr::with_exposed_provenance_mut::<u32>(register);
    // SAFETY: the board has its PLIC there.
    unsafe { register.write_volatile(value) }
}

/// Lets the console's interrupt in, as soon as interrupts are on.
pub fn set_up() {
    write(PRIORITY + 4 * SERIAL, 1);
    write(ENABLED, 1 << SERIAL);
    write(THRESHOLD, 0);
    let entry = trap as *const () as usize;
    // SAFETY: the entry saves what it changes.
    unsafe { asm!("csrw mtvec, {}", "csrs mie, {}", in(reg) entry, in(reg) MACHINE_EXTERNAL) }
}

pub fn interrupts_on() {
    // SAFETY: the handler uses what is shared while interrupts are off elsewhere.
    unsafe { asm!("csrsi mstatus, 8") }
}

pub fn interrupts_off() {
    // SAFETY: nothing else is changed.
    unsafe { asm!("csrci mstatus, 8") }
}

/// Takes the interrupt from the controller, and returns its number there.
pub fn claim() -> u32 {
    let register = core::ptr::with_exposed_provenance::<u32>(CLAIM);
    // SAFETY: the board has its PLIC there.
    unsafe { register.read_volatile() }
}

/// Tells the controller that the interrupt was served.
pub fn complete(claimed: u32) {
    write(CLAIM, claimed);
}
