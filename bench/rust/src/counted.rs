//! The crate that is counted: this repository's, or with the feature `original` one with the
//! signatures of the original crate. The bodies are the same for both.

use crate::cells::Cells;
use uart_16550::Uart16550;
use uart_16550::backend::Backend;

/// Cells as a backend of the crate.
pub struct Reached<C>(pub C);

#[cfg(not(feature = "original"))]
impl<C: Cells> Backend for Reached<C> {
    #[inline(always)]
    fn read(&mut self, register_offset: u8) -> u8 {
        self.0.load(register_offset)
    }

    #[inline(always)]
    fn write(&mut self, register_offset: u8, value: u8) {
        self.0.store(register_offset, value);
    }
}

#[cfg(feature = "original")]
impl<C: Cells> Backend for Reached<C> {
    #[inline(always)]
    unsafe fn read(&mut self, register_offset: u8) -> u8 {
        self.0.load(register_offset)
    }

    #[inline(always)]
    unsafe fn write(&mut self, register_offset: u8, value: u8) {
        self.0.store(register_offset, value);
    }
}

/// Returns a driver over cells.
#[cfg(not(feature = "original"))]
pub fn driver<C: Cells>(cells: C) -> Uart16550<Reached<C>> {
    Uart16550::new_with_backend(Reached(cells))
}

/// Returns a driver over cells.
#[cfg(feature = "original")]
pub fn driver<C: Cells>(cells: C) -> Uart16550<Reached<C>> {
    // SAFETY: cells may be accessed, at each offset.
    unsafe { Uart16550::new_with_backend(Reached(cells)) }
}

/// What a call returns, where one of the two crates may return nothing.
pub trait Ended {
    /// Returns whether the call did all that it was asked for.
    fn well(self) -> bool;
}

impl Ended for () {
    #[inline(always)]
    fn well(self) -> bool {
        true
    }
}

impl<T, E> Ended for Result<T, E> {
    #[inline(always)]
    fn well(self) -> bool {
        self.is_ok()
    }
}
