//! Memory cells instead of a device.

use std::ptr;
use uart_16550::spec::registers::offsets;

/// A cell for each register.
pub trait Cells {
    /// Reads the cell of the register at this offset.
    fn load(&mut self, register_offset: u8) -> u8;

    /// Writes it.
    fn store(&mut self, register_offset: u8, value: u8);

    /// Returns a number that depends on every access that counts.
    fn digest(&self) -> u64;
}

/// A cell for each register, in ordinary memory, and a digest of all bytes that were read and
/// written.
///
/// A write to LSR leaves its cell alone. Without the digest the compiler would remove the accesses.
pub struct Folding {
    cells: [u8; 8],
    digest: u64,
}

impl Folding {
    pub fn new(filling: u8, lsr: u8) -> Self {
        Folding {
            cells: filled(filling, lsr),
            digest: 0,
        }
    }

    #[inline(always)]
    fn fold(&mut self, value: u8) {
        self.digest = self.digest.rotate_left(5) ^ u64::from(value);
    }
}

/// Cells with this filling, except for the one of LSR.
fn filled(filling: u8, lsr: u8) -> [u8; 8] {
    let mut cells = [filling; 8];
    cells[offsets::LSR] = lsr;
    cells
}

impl Cells for Folding {
    #[inline(always)]
    fn load(&mut self, register_offset: u8) -> u8 {
        let value = self.cells[register_offset as usize];
        self.fold(value);
        value
    }

    #[inline(always)]
    fn store(&mut self, register_offset: u8, value: u8) {
        if register_offset as usize != offsets::LSR {
            self.cells[register_offset as usize] = value;
        }
        self.fold(value);
    }

    fn digest(&self) -> u64 {
        self.digest
    }
}

/// A cell for each register: an access is one volatile load or store.
pub struct Volatile {
    cells: [u8; 8],
}

impl Volatile {
    pub fn new(filling: u8, lsr: u8) -> Self {
        Volatile {
            cells: filled(filling, lsr),
        }
    }
}

impl Cells for Volatile {
    #[inline(always)]
    fn load(&mut self, register_offset: u8) -> u8 {
        let cell = &raw const self.cells[register_offset as usize];
        // SAFETY: the cell is one of this object's.
        unsafe { ptr::read_volatile(cell) }
    }

    #[inline(always)]
    fn store(&mut self, register_offset: u8, value: u8) {
        let cell = &raw mut self.cells[register_offset as usize];
        // SAFETY: the cell is one of this object's.
        unsafe { ptr::write_volatile(cell, value) }
    }

    fn digest(&self) -> u64 {
        u64::from_le_bytes(self.cells)
    }
}

/// Cells whose accesses stay calls in the built program, as those of a device behind a library.
pub struct Called<C>(pub C);

impl<C: Cells> Cells for Called<C> {
    #[inline(never)]
    fn load(&mut self, register_offset: u8) -> u8 {
        self.0.load(register_offset)
    }

    #[inline(never)]
    fn store(&mut self, register_offset: u8, value: u8) {
        self.0.store(register_offset, value);
    }

    fn digest(&self) -> u64 {
        self.0.digest()
    }
}
