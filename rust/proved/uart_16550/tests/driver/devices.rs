//! Devices for tests.

use crate::lists::Access::{Read, Write};
use crate::lists::Accesses;
use proved_uart_16550::Uart16550;
use proved_uart_16550::backend::{Backend, ByteAccess, PortAccess};
use std::num::NonZeroU64;
use uart_spec::registers::offsets;

/// A device whose accesses are recorded.
pub struct Recorder<D> {
    /// The device.
    pub device: D,
    /// Its accesses.
    pub log: Accesses,
}

impl<D> Recorder<D> {
    /// Returns the device, with no access recorded.
    pub fn new(device: D) -> Self {
        Recorder {
            device,
            log: Accesses::default(),
        }
    }
}

impl<D: Backend> Backend for Recorder<D> {
    fn read(&mut self, register_offset: u8) -> u8 {
        let answer = self.device.read(register_offset);
        self.log.push(Read(register_offset as usize, answer));
        answer
    }

    fn write(&mut self, register_offset: u8, value: u8) {
        self.device.write(register_offset, value);
        self.log.push(Write(register_offset as usize, value));
    }
}

impl<D: ByteAccess> ByteAccess for Recorder<D> {
    fn load(&mut self, address: usize) -> u8 {
        let answer = self.device.load(address);
        self.log.push(Read(address, answer));
        answer
    }

    fn store(&mut self, address: usize, value: u8) {
        self.device.store(address, value);
        self.log.push(Write(address, value));
    }
}

// A port is a place, as an address is.
impl<D: ByteAccess> PortAccess for Recorder<D> {
    fn port_in(&mut self, port: u16) -> u8 {
        self.load(port as usize)
    }

    fn port_out(&mut self, port: u16, value: u8) {
        self.store(port as usize, value);
    }
}

/// A device whose reads all return this byte.
#[derive(Clone, Debug, PartialEq, Eq, PartialOrd, Hash)]
pub struct Constant(pub u8);

impl Backend for Constant {
    fn read(&mut self, _: u8) -> u8 {
        self.0
    }

    fn write(&mut self, _: u8, _: u8) {}
}

impl PortAccess for Constant {
    fn port_in(&mut self, _: u16) -> u8 {
        self.0
    }

    fn port_out(&mut self, _: u16, _: u8) {}
}

impl ByteAccess for Constant {
    fn load(&mut self, _: usize) -> u8 {
        self.0
    }

    fn store(&mut self, _: usize, _: u8) {}
}

/// A device whose reads return the bytes of a list in turn, and then 0.
pub struct Listed(pub &'static [u8]);

impl Listed {
    /// Returns the byte of the next read.
    fn next(&mut self) -> u8 {
        let Some((&first, rest)) = self.0.split_first() else {
            return 0;
        };
        self.0 = rest;
        first
    }
}

impl Backend for Listed {
    fn read(&mut self, _: u8) -> u8 {
        self.next()
    }

    fn write(&mut self, _: u8, _: u8) {}
}

impl ByteAccess for Listed {
    fn load(&mut self, _: usize) -> u8 {
        self.next()
    }

    fn store(&mut self, _: usize, _: u8) {}
}

/// A device whose registers keep what is written to them, and whose transmitter is always idle.
pub struct RegisterFile {
    fifos: bool,
    registers: [u8; 8],
    latch: [u8; 2],
    /// The bytes that were sent.
    pub sent: Vec<u8>,
}

impl RegisterFile {
    /// Returns a device with or without FIFOs, to which nothing was written.
    pub fn new(fifos: bool) -> Self {
        let mut registers = [0; 8];
        registers[offsets::ISR] = 0x01;
        registers[offsets::LSR] = 0x60;
        RegisterFile {
            fifos,
            registers,
            latch: [0; 2],
            sent: Vec::new(),
        }
    }

    /// Returns whether the register is the divisor latch now.
    fn is_latch(&self, offset: usize) -> bool {
        offset < 2 && self.registers[offsets::LCR] & 0x80 == 0x80
    }
}

impl Backend for RegisterFile {
    fn read(&mut self, register_offset: u8) -> u8 {
        let offset = register_offset as usize;
        if self.is_latch(offset) {
            return self.latch[offset];
        }
        self.registers[offset]
    }

    fn write(&mut self, register_offset: u8, value: u8) {
        let offset = register_offset as usize;
        if self.is_latch(offset) {
            self.latch[offset] = value;
            return;
        }
        match offset {
            offsets::DATA => self.sent.push(value),
            offsets::FCR => {
                let is_on = self.fifos && value & 0x01 == 0x01;
                self.registers[offsets::ISR] = if is_on { 0xc1 } else { 0x01 };
            }
            offsets::LSR => {}
            _ => self.registers[offset] = value,
        }
    }
}

/// Returns a driver for a device whose accesses are recorded.
pub fn driver<D: Backend>(device: D) -> Uart16550<Recorder<D>> {
    Uart16550::new_with_backend(Recorder::new(device))
}

/// Returns a driver for a device whose accesses are recorded, with a spin limit of 3.
pub fn impatient<D: Backend>(device: D) -> Uart16550<Recorder<D>> {
    let mut uart = driver(device);
    uart.set_spin_limit(NonZeroU64::new(3).unwrap());
    uart
}
