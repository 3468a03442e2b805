//! The interrupt of COM1 of a PC, at the 8259, which detects edges.

#[allow(dead_code)]
#[path = "../../x86_64/machine.rs"]
mod machine;

use core::arch::asm;

/// Lets the console's interrupt in, as soon as interrupts are on.
pub fn set_up() {
    machine::set_up_interrupts();
}

pub fn interrupts_on() {
    // SAFETY: the handler uses what is shared while interrupts are off elsewhere.
    unsafe { asm!("sti", "nop") }
}

pub fn interrupts_off() {
    // SAFETY: nothing else is changed.
    unsafe { asm!("cli") }
}

/// Nothing is owed before the end of the interrupt.
pub fn claim() {}

/// Tells the controller that the interrupt was served.
pub fn complete(_claimed: ()) {
    machine::end_of_interrupt();
}
