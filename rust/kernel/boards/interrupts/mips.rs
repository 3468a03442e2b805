//! The interrupt of the second serial chip of the MIPS board `malta`, which is an input of the processor itself.

use core::arch::global_asm;

// The vector of interrupts, not cached.
const VECTOR: usize = 0xa000_0180;
const VECTOR_WORDS: usize = 4;

// Saves what a function may change.
global_asm!(
    ".section .text",
    ".set noreorder",
    ".set noat",
    "vector:",
    "lui $26, %hi(entry)",
    "addiu $26, $26, %lo(entry)",
    "jr $26",
    "nop",
    "entry:",
    "addiu $29, $29, -144",
    "sw $1, 16($29)",
    "sw $2, 20($29)",
    "sw $3, 24($29)",
    "sw $4, 28($29)",
    "sw $5, 32($29)",
    "sw $6, 36($29)",
    "sw $7, 40($29)",
    "sw $8, 44($29)",
    "sw $9, 48($29)",
    "sw $10, 52($29)",
    "sw $11, 56($29)",
    "sw $12, 60($29)",
    "sw $13, 64($29)",
    "sw $14, 68($29)",
    "sw $15, 72($29)",
    "sw $24, 76($29)",
    "sw $25, 80($29)",
    "sw $31, 84($29)",
    "mfhi $8",
    "mflo $9",
    "sw $8, 88($29)",
    "sw $9, 92($29)",
    "jal handle_interrupt",
    "nop",
    "lw $8, 88($29)",
    "lw $9, 92($29)",
    "mthi $8",
    "mtlo $9",
    "lw $1, 16($29)",
    "lw $2, 20($29)",
    "lw $3, 24($29)",
    "lw $4, 28($29)",
    "lw $5, 32($29)",
    "lw $6, 36($29)",
    "lw $7, 40($29)",
    "lw $8, 44($29)",
    "lw $9, 48($29)",
    "lw $10, 52($29)",
    "lw $11, 56($29)",
    "lw $12, 60($29)",
    "lw $13, 64($29)",
    "lw $14, 68($29)",
    "lw $15, 72($29)",
    "lw $24, 76($29)",
    "lw $25, 80($29)",
    "lw $31, 84($29)",
    "addiu $29, $29, 144",
    "eret",
    // Input 4 and the switch of all interrupts on; the vectors of the firmware, and what an exception sets, off.
    "interrupts_are_on:",
    "mfc0 $2, $12",
    "li $8, 0x1001",
    "or $2, $2, $8",
    "li $8, ~0x00400006",
    "and $2, $2, $8",
    "mtc0 $2, $12",
    "jr $31",
    "nop",
    "interrupts_are_off:",
    "di",
    "ehb",
    "jr $31",
    "nop",
);

unsafe extern "C" {
    fn vector();
    safe fn interrupts_are_on();
    safe fn interrupts_are_off();
}

/// Lets the console's interrupt in, as soon as interrupts are on.
pub fn set_up() {
    let from = (vector as *const ()).cast::<u32>();
    let to = core::ptr::with_exposed_provenance_mut::<u32>(VECTOR);
    for index in 0..VECTOR_WORDS {
        // SAFETY: the vector has so many words, and its place belongs to this program.
        unsafe { to.add(index).write_volatile(from.add(index).read()) }
    }
}

pub fn interrupts_on() {
    interrupts_are_on();
}

pub fn interrupts_off() {
    interrupts_are_off();
}

/// Nothing is owed: the chip's line is the processor's.
pub fn claim() {}

pub fn complete(_claimed: ()) {}
