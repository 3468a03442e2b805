//! A PC's I/O APIC, and the processor's own part of it, the local APIC. Which kind of line an input has, edges or levels, is set for
//! each.

use super::{PAGE_ADDRESS, Shared};
use core::arch::asm;

const IO_APIC: usize = 0xfec0_0000;
const SELECT: usize = IO_APIC;
const WINDOW: usize = IO_APIC + 0x10;

// The low half of the first input's entry. Each input has two registers.
const FIRST_ENTRY: u32 = 0x10;

const LEVELS: u32 = 1 << 15;
const MASKED: u32 = 1 << 16;

const LOCAL_APIC: usize = 0xfee0_0000;
const NUMBER: usize = LOCAL_APIC + 0x20;
const END_OF_INTERRUPT: usize = LOCAL_APIC + 0xb0;
const SPURIOUS: usize = LOCAL_APIC + 0xf0;
const ENABLED: u32 = 1 << 8;
const SPURIOUS_VECTOR: u32 = 0xff;
const COMMAND: usize = LOCAL_APIC + 0x300;
const COMMAND_TARGET: usize = LOCAL_APIC + 0x310;
const RESET: u32 = 0x4500;
const BEGIN_AT_PAGE: u32 = 0x4600;

// Where the number of a processor is, in a register of either part.
const NUMBER_SHIFT: u32 = 24;

fn write(register: usize, value: u32) {
    let register = core::ptr::with_exposed_provenance_mut::<u32>(register);
    // SAFETY: a PC has its controllers there, and `map` has made the addresses usable.
    unsafe { register.write_volatile(value) }
}

fn write_entry(input: u8, half: u32, value: u32) {
    write(SELECT, FIRST_ENTRY + 2 * u32::from(input) + half);
    write(WINDOW, value);
}

#[repr(align(4096))]
struct Pages([u64; 512]);

static PAGES: Shared<Pages> = Shared::new(Pages([0; 512]));

// Maps the fourth GiB to itself, where the controllers are: the kernel begins with the first GiB alone.
fn map() {
    const PRESENT_WRITABLE: u64 = 0x03;
    // 2 MiB, present, writable. What a device answers is not cached.
    const LARGE_DEVICE_PAGE: u64 = 0x9b;
    const LARGE_PAGE_SIZE: u64 = 0x20_0000;
    const GIB: u64 = 1 << 30;
    let pages = PAGES.alone();
    for (entry, base) in pages
        .0
        .iter_mut()
        .zip((3 * GIB..).step_by(LARGE_PAGE_SIZE as usize))
    {
        *entry = base | LARGE_DEVICE_PAGE;
    }
    let address = (&raw const pages.0).expose_provenance() as u64;
    // SAFETY: the root's first entry has the table of the first 512 GiB, whose fourth entry is free. All of it is mapped to itself.
    unsafe {
        let root: usize;
        asm!("mov {}, cr3", out(reg) root, options(nomem, nostack, preserves_flags));
        let root = core::ptr::with_exposed_provenance::<u64>(root);
        let gibs = (root.read() & PAGE_ADDRESS) as usize;
        let gibs = core::ptr::with_exposed_provenance_mut::<u64>(gibs);
        gibs.add(3).write(address | PRESENT_WRITABLE);
        asm!("mov {0}, cr3", "mov cr3, {0}", out(reg) _, options(nostack, preserves_flags));
    }
}

/// Lets an input in as this vector, on its level or on its edges.
pub fn set_up(input: u8, vector: u8, on_levels: bool) {
    map();
    enable_for_this_processor();
    send_to(input, 0);
    let kind = if on_levels { LEVELS } else { 0 };
    write_entry(input, 0, u32::from(vector) | kind);
}

/// Lets an input in no more, or again. An edge that comes while the input is masked is forgotten.
pub fn set_masked(input: u8, vector: u8, on_levels: bool, is_masked: bool) {
    let kind = if on_levels { LEVELS } else { 0 };
    let mask = if is_masked { MASKED } else { 0 };
    write_entry(input, 0, u32::from(vector) | kind | mask);
}

/// Tells the processor's part that an interrupt was served.
pub fn end_of_interrupt() {
    write(END_OF_INTERRUPT, 0);
}

/// Lets interrupts reach this processor.
pub fn enable_for_this_processor() {
    write(SPURIOUS, ENABLED | SPURIOUS_VECTOR);
}

/// Has the input interrupt the processor with this number from now on.
pub fn send_to(input: u8, processor: u8) {
    write_entry(input, 1, u32::from(processor) << NUMBER_SHIFT);
}

/// Returns the number of this processor.
pub fn this_processor() -> u8 {
    let register = core::ptr::with_exposed_provenance::<u32>(NUMBER);
    // SAFETY: a processor has its part there, and `map` has made the addresses usable.
    (unsafe { register.read_volatile() } >> NUMBER_SHIFT) as u8
}

/// Resets the processor with this number, and has it begin at this page of the first MiB.
pub fn begin(processor: u8, page: u8, wait: impl Fn()) {
    for command in [RESET, BEGIN_AT_PAGE | u32::from(page)] {
        write(COMMAND_TARGET, u32::from(processor) << NUMBER_SHIFT);
        write(COMMAND, command);
        wait();
    }
}
