#[allow(unused_imports)]
use crate::runtime::{AllocGlobal, HostRuntime, assert, assert_eq};
#[allow(unused_imports)]
use geesetrunk_kit::Vec;
// Devices for tests.

use geesetrunk_kit::ArrayVec;
use uart_16550::backend::Backend;
use uart_spec::registers::offsets;

// A device whose reads all return this byte.
pub struct Constant(pub u8);

impl Backend for Constant {

    fn read(&mut self, _register_offset: u8) -> u8 {
        self.0
    }

    fn write(&mut self, _register_offset: u8, _value: u8) {}
}

// A device whose registers keep what is written to them, and whose transmitter is always idle.
pub struct RegisterFile {
    fifos: bool,
    registers: [u8; 8],
    latch: [u8; 2],
    // The bytes that were sent.
    pub sent: ArrayVec<u8, 64>,
}

impl RegisterFile {
    // Returns a device with or without FIFOs, to which nothing was written.
    pub fn new(fifos: bool) -> Self {
        let mut registers = [0; 8];
        registers[offsets::ISR] = 0x01;
        registers[offsets::LSR] = 0x60;
        RegisterFile {
            fifos,
            registers,
            latch: [0; 2],
            sent: ArrayVec::new(),
        }
    }

    // Returns whether the register is the divisor latch now.
    fn is_latch(&self, offset: usize) -> bool

    {
        offset < 2 && self.registers[offsets::LCR] & 0x80 == 0x80
    }
}

impl Backend for RegisterFile {

    fn read(&mut self, register_offset: u8) -> u8 {
        let offset = register_offset as usize;
        if self.is_latch(offset) {
            return self.latch[offset];
        }
        self.registers[offset]
    }

    fn write(&mut self, register_offset: u8, value: u8) {
        let offset = register_offset as usize;
        if self.is_latch(offset) {
            self.latch[offset] = value;
            return;
        }
        match offset {
            offsets::DATA => {
                let _ = self.sent.try_push(value);
            }
            offsets::FCR => {
                let is_on = self.fifos && value & 0x01 == 0x01;
                self.registers[offsets::ISR] = if is_on { 0xc1 } else { 0x01 };
            }
            offsets::LSR => {}
            _ => self.registers[offset] = value,
        }
    }
}
