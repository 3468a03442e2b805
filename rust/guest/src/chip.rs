//! QEMU's own chip at COM1, by calls. The guest of the machine does nothing then.

use std::ffi::{c_char, c_int, c_uint, c_void};
use std::fs::File;
use std::io;
use std::io::Read;
use std::path::Path;
use std::sync::atomic::{AtomicBool, Ordering};

use crate::qemu::{BASE, Opaque, interrupt_line};

unsafe extern "C" {
    fn cpu_inb(port: u32) -> u8;
    fn cpu_outb(port: u32, value: u8);
    fn qemu_chr_find(name: *const c_char) -> *mut Opaque;
    fn qemu_chr_be_write(terminal: *mut Opaque, bytes: *const u8, count: c_int);
    fn qemu_chr_be_event(terminal: *mut Opaque, event: c_uint);
    fn qemu_irq_intercept_in(
        line: *const *mut Opaque,
        handler: extern "C" fn(*mut c_void, c_int, c_int),
        count: c_int,
    );
}

const BREAK: c_uint = 0;

/// The interrupt line, as QEMU's chip sets it.
static IS_UP: AtomicBool = AtomicBool::new(false);

extern "C" fn line_is_set(_: *mut c_void, _: c_int, level: c_int) {
    IS_UP.store(level != 0, Ordering::Relaxed);
}

/// The chip.
#[derive(Debug)]
pub struct QemuChip {
    terminal: *mut Opaque,
    output: File,
}

// SAFETY: the terminal is one of QEMU's that it never frees, and is used with its lock held.
unsafe impl Send for QemuChip {}

impl QemuChip {
    /// Takes the chip, whose terminal has the name `terminal` and writes to this file. To be called once QEMU runs, and once.
    ///
    /// # Errors
    ///
    /// If the file cannot be opened.
    pub fn new(output: &Path) -> io::Result<Self> {
        let line = interrupt_line();
        // SAFETY: the name ends with 0. The line is one of the machine's, and what it is passed on to is left as it is: QEMU keeps a copy.
        let terminal = unsafe {
            qemu_irq_intercept_in(&raw const line, line_is_set, 1);
            qemu_chr_find(c"terminal".as_ptr())
        };
        if terminal.is_null() {
            return Err(io::Error::other("QEMU has no terminal of this name"));
        }
        Ok(QemuChip {
            terminal,
            output: File::open(output)?,
        })
    }

    /// Reads a register.
    pub fn read(&mut self, offset: u8) -> u8 {
        // SAFETY: QEMU's lock is held, and the port is one of the chip's.
        unsafe { cpu_inb(BASE as u32 + u32::from(offset)) }
    }

    /// Writes a register.
    pub fn write(&mut self, offset: u8, value: u8) {
        // SAFETY: as above.
        unsafe { cpu_outb(BASE as u32 + u32::from(offset), value) }
    }

    /// Receives characters.
    pub fn receive(&mut self, bytes: &[u8]) {
        let count = c_int::try_from(bytes.len()).expect("a chip takes few at a time");
        // SAFETY: so many bytes are there.
        unsafe { qemu_chr_be_write(self.terminal, bytes.as_ptr(), count) }
    }

    /// Receives a break.
    pub fn receive_break(&mut self) {
        // SAFETY: the number is that of a break.
        unsafe { qemu_chr_be_event(self.terminal, BREAK) }
    }

    /// Returns the level of the interrupt line.
    #[must_use]
    pub fn level(&self) -> bool {
        IS_UP.load(Ordering::Relaxed)
    }

    /// Returns what was sent since the last call.
    ///
    /// # Errors
    ///
    /// If the file cannot be read.
    pub fn sent(&mut self) -> io::Result<Vec<u8>> {
        let mut bytes = Vec::new();
        self.output.read_to_end(&mut bytes)?;
        Ok(bytes)
    }
}
