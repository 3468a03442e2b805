//! What a board's crate has: drivers and backends that are made with every promise kept. The programs
//! beside this file use it under `forbid(unsafe_code)`.
#![allow(missing_docs)]

use std::ptr::NonNull;
use uart_16550::compat::backend::{Backend, MmioBackend};
use uart_16550::compat::{Config, Uart16550, Uart16550Tty};
use uart_16550::native;

/// Memory that a pointer leads to. Each is over registers of its own, and they are not copied: that is what the
/// constructor of a driver asks for, since safe code may put one in the place of another.
#[derive(Debug)]
pub struct Pointed(*mut u8);

impl Backend for Pointed {
    unsafe fn read(&mut self, register_offset: u8) -> u8 {
        // SAFETY: by the promise of the caller.
        unsafe { self.0.add(register_offset.into()).read_volatile() }
    }

    unsafe fn write(&mut self, register_offset: u8, value: u8) {
        // SAFETY: by the promise of the caller.
        unsafe { self.0.add(register_offset.into()).write_volatile(value) }
    }
}

fn registers() -> NonNull<u8> {
    // LSR shows an empty transmitter and a byte that waits.
    NonNull::from(Box::leak(Box::new([0_u8, 0, 0xc1, 0, 0, 0x61, 0xb0, 0]))).cast()
}

/// Returns a driver over registers of its own.
pub fn pointed() -> Uart16550<Pointed> {
    // SAFETY: nothing else has these registers.
    unsafe { Uart16550::new_with_backend(Pointed(registers().as_ptr())) }
}

/// Returns a driver over registers of its own.
pub fn port() -> Uart16550<MmioBackend> {
    // SAFETY: nothing else has these registers.
    unsafe { Uart16550::new_mmio(registers(), 1) }.unwrap()
}

/// Returns a terminal over registers of its own.
pub fn terminal() -> Uart16550Tty<Pointed> {
    let mut driver = pointed();
    driver.init(Config::default()).unwrap();
    Uart16550Tty::from_inner(driver)
}

/// Returns the access to registers of its own.
pub fn memory() -> native::backend::VolatileMemory {
    // SAFETY: nothing else has these registers.
    unsafe { native::backend::VolatileMemory::new(registers(), 1) }.unwrap()
}
