//! What the kernels need of a PC beside its console: the end of the machine, interrupts, and values that their handler shares. Each
//! kernel needs a part.
#![allow(dead_code)]

#[path = "io_apic.rs"]
mod io_apic;

use core::arch::asm;
use core::cell::UnsafeCell;

/// How the machine ends, as the emulator's port for it gets it. The emulator's status is twice this and one.
#[derive(Clone, Copy)]
#[repr(u8)]
pub enum End {
    Done = 0x10,
    NoConsole = 0x20,
    NoRings = 0x21,
    NotSent = 0x22,
    NoInterrupts = 0x23,
    Stuck = 0x24,
    Storm = 0x25,
    NobodyTypes = 0x26,
    Panic = 0x3f,
}

const EXIT_PORT: u16 = 0xf4;

// The two interrupt controllers, each a port for commands and behind it one for data.
const PRIMARY: u16 = 0x20;
const SECONDARY: u16 = 0xa0;

const END_OF_INTERRUPT: u8 = 0x20;

// COM1's line of the first controller and of the I/O APIC, and the vector of line 0.
const COM1_LINE: usize = 4;
const FIRST_VECTOR: usize = 0x20;

const VECTORS: usize = 256;
const CODE_SEGMENT: u64 = 8;
const INTERRUPT_GATE: u64 = 0x8e;

fn write_port(port: u16, value: u8) {
    // SAFETY: the kernel alone uses the ports of this file, and none of them changes memory.
    unsafe {
        asm!("out dx, al", in("dx") port, in("al") value, options(nomem, nostack, preserves_flags))
    }
}

/// Ends the machine.
pub fn end(how: End) -> ! {
    write_port(EXIT_PORT, how as u8);
    loop {
        // SAFETY: nothing is left to do.
        unsafe { asm!("cli", "hlt") }
    }
}

/// Sleeps for good, and serves interrupts.
pub fn sleep() -> ! {
    loop {
        // SAFETY: nothing is changed.
        unsafe { asm!("hlt") }
    }
}

// The bits of a page table's entry that say where a page is.
const PAGE_ADDRESS: u64 = 0x000f_ffff_ffff_f000;

/// The controller that COM1's line is at, and what of the line that detects.
#[derive(Clone, Copy, PartialEq, Eq)]
pub enum Controller {
    /// The first 8259. It detects edges, and remembers one that comes while the line is masked.
    I8259,
    /// The I/O APIC, which detects edges, and forgets one that comes while the line is masked.
    IoApicEdges,
    /// The I/O APIC, which detects levels.
    IoApicLevels,
}

static CONTROLLER: Shared<Controller> = Shared::new(Controller::I8259);

const COM1_VECTOR: u8 = (FIRST_VECTOR + COM1_LINE) as u8;

/// Tells the interrupt controller that an interrupt was served. The handler calls this.
pub fn end_of_interrupt() {
    match CONTROLLER.copied() {
        Controller::I8259 => write_port(PRIMARY, END_OF_INTERRUPT),
        Controller::IoApicEdges | Controller::IoApicLevels => io_apic::end_of_interrupt(),
    }
}

/// Lets COM1's interrupt in no more, or again. Interrupts are off, or the handler calls this.
pub fn set_masked(is_masked: bool) {
    let controller = CONTROLLER.copied();
    match controller {
        Controller::I8259 => write_port(PRIMARY + 1, if is_masked { 0xff } else { ALL_BUT_COM1 }),
        Controller::IoApicEdges | Controller::IoApicLevels => io_apic::set_masked(
            COM1_LINE as u8,
            COM1_VECTOR,
            controller == Controller::IoApicLevels,
            is_masked,
        ),
    }
}

/// Lets interrupts in from now on.
pub fn let_interrupts_in() {
    // SAFETY: what the handler shares is used in `without_interrupts` alone.
    unsafe { asm!("sti") }
}

/// Calls the function with interrupts off, and leaves them as they were.
pub fn without_interrupts<R>(call: impl FnOnce() -> R) -> R {
    let flags: u64;
    // SAFETY: the stack is as before, and the function is called between the two.
    unsafe { asm!("pushfq", "pop {}", "cli", out(reg) flags) };
    let result = call();
    // SAFETY: the flags are those that were found.
    unsafe { asm!("push {}", "popfq", in(reg) flags) };
    result
}

/// Sleeps until an interrupt was served, unless the function returns true. Interrupts are off during the call, and on afterwards.
pub fn sleep_unless(is_awake: impl FnOnce() -> bool) {
    // SAFETY: the two instructions behind the look are one step, so that no interrupt comes between the look and the sleep.
    unsafe {
        asm!("cli");
        if is_awake() {
            asm!("sti");
        } else {
            asm!("sti", "hlt");
        }
    }
}

unsafe extern "C" {
    fn interrupt_entry();
    fn fault_entry();
    fn processor_entry();
    fn processor_entry_end();
}

// A page of the first MiB that nobody uses, where another processor begins.
const ENTRY_PAGE: u8 = 0x08;
const PAGE_SIZE: usize = 0x1000;

/// Has the second processor call `processor_main`. The I/O APIC is set up, since that is where processors are told to begin.
pub fn start_second_processor() {
    let (entry, end) = (
        processor_entry as *const u8,
        processor_entry_end as *const u8,
    );
    let page = core::ptr::with_exposed_provenance_mut::<u8>(usize::from(ENTRY_PAGE) * PAGE_SIZE);
    // SAFETY: the page is memory that nobody uses, and the entry is shorter.
    unsafe { page.copy_from_nonoverlapping(entry, end.addr() - entry.addr()) };
    io_apic::begin(SECOND, ENTRY_PAGE, wait_ten_milliseconds);
}

/// The number of the second processor.
pub const SECOND: u8 = 1;

// As long as a processor needs for its reset. Nothing is at this port, and an access takes about a microsecond.
fn wait_ten_milliseconds() {
    const NOTHING: u16 = 0x80;
    for _ in 0..10_000 {
        write_port(NOTHING, 0);
    }
}

/// Returns the number of this processor, once the I/O APIC is set up.
pub fn this_processor() -> u8 {
    io_apic::this_processor()
}

/// Lets interrupts of the I/O APIC reach this processor too, as soon as its interrupts are on.
pub fn join_interrupts() {
    use_table();
    io_apic::enable_for_this_processor();
}

/// Has COM1's line at the I/O APIC interrupt this processor from now on.
pub fn send_interrupts_to(processor: u8) {
    io_apic::send_to(COM1_LINE as u8, processor);
}

/// A value that the interrupt handler shares with the rest of a kernel that has one processor.
pub struct Shared<T>(UnsafeCell<T>);

// SAFETY: it is used with interrupts off alone.
unsafe impl<T> Sync for Shared<T> {}

impl<T: Copy> Shared<T> {
    /// Returns the value, of one that does not change while interrupts are on.
    pub fn copied(&self) -> T {
        // SAFETY: nobody changes it meanwhile, on no processor.
        unsafe { *self.0.get() }
    }
}

impl<T> Shared<T> {
    pub const fn new(value: T) -> Self {
        Self(UnsafeCell::new(value))
    }

    /// Calls the function, with interrupts off as they were.
    pub fn in_handler(&self, call: impl FnOnce(&mut T)) {
        // SAFETY: interrupts are off in the handler, and it does not call itself.
        call(unsafe { &mut *self.0.get() });
    }

    /// Calls the function with interrupts off. If it returns false, sleeps until an interrupt was served.
    pub fn or_sleep(&self, call: impl FnOnce(&mut T) -> bool) {
        // SAFETY: with interrupts off nobody else uses the value. The two instructions at the end are one step, so that no
        // interrupt comes between the look and the sleep.
        unsafe {
            asm!("cli");
            if call(&mut *self.0.get()) {
                asm!("sti", "nop", "cli");
            } else {
                asm!("sti", "hlt", "cli");
            }
        }
    }

    /// Changes the value before interrupts are on for the first time, or after they are off for good.
    pub fn alone(&self) -> &mut T {
        // SAFETY: interrupts are on within `or_sleep` alone, and there is one processor.
        unsafe { &mut *self.0.get() }
    }
}

// The descriptor of an interrupt: where its code is.
fn gate(entry: unsafe extern "C" fn()) -> [u64; 2] {
    let entry = entry as usize as u64;
    let low =
        entry & 0xffff | CODE_SEGMENT << 16 | INTERRUPT_GATE << 40 | (entry >> 16 & 0xffff) << 48;
    [low, entry >> 32]
}

#[repr(C, packed)]
struct TablePointer {
    limit: u16,
    base: *const [[u64; 2]; VECTORS],
}

static TABLE: Shared<[[u64; 2]; VECTORS]> = Shared::new([[0; 2]; VECTORS]);

// Has this processor use the table.
fn use_table() {
    let pointer = TablePointer {
        limit: (size_of::<[[u64; 2]; VECTORS]>() - 1) as u16,
        base: TABLE.0.get(),
    };
    // SAFETY: the table is there for good.
    unsafe {
        asm!("lidt [{}]", in(reg) &raw const pointer, options(readonly, nostack, preserves_flags))
    };
}

// What the first 8259 masks if COM1's line is at it.
const ALL_BUT_COM1: u8 = !(1 << COM1_LINE);

/// Lets COM1's interrupt in at the 8259, as soon as interrupts are on, and no other.
pub fn set_up_interrupts() {
    set_up_interrupts_at(Controller::I8259);
}

/// Lets COM1's interrupt in at this controller, as soon as interrupts are on, and no other.
pub fn set_up_interrupts_at(controller: Controller) {
    *CONTROLLER.alone() = controller;
    let table = TABLE.alone();
    *table = [gate(fault_entry); VECTORS];
    table[FIRST_VECTOR + COM1_LINE] = gate(interrupt_entry);
    use_table();
    // Edges, two 8259, their vectors, how they are connected, their mode, and which lines are masked.
    let let_in = match controller {
        Controller::I8259 => ALL_BUT_COM1,
        Controller::IoApicEdges | Controller::IoApicLevels => 0xff,
    };
    for (port, data) in [
        (PRIMARY, [FIRST_VECTOR as u8, 1 << 2, 1, let_in]),
        (SECONDARY, [FIRST_VECTOR as u8 + 8, 2, 1, 0xff]),
    ] {
        write_port(port, 0x11);
        for byte in data {
            write_port(port + 1, byte);
        }
    }
    if controller != Controller::I8259 {
        io_apic::set_up(
            COM1_LINE as u8,
            COM1_VECTOR,
            controller == Controller::IoApicLevels,
        );
    }
}
