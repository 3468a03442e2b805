// What the examples of the documentation share. Each includes this file; the crate itself does not.
#[allow(unused_imports)]
use core::fmt::Write as _;
#[allow(unused_imports)]
use core::num::{NonZeroU64, NonZeroUsize};
#[allow(unused_imports)]
use facade::native::backend::{Backend, ByteAccess, PortAccess};
#[allow(unused_imports)]
use facade::native::embedded_io::{Read as _, Write as _};
#[allow(unused_imports)]
use facade::native::*;
#[allow(unused_imports)]
use facade::native::spec::registers::*;

/// Eight registers that keep what is written to them.
#[derive(Debug)]
#[allow(dead_code)]
struct Device {
    registers: [u8; 8],
    shown: Vec<u8>,
}

#[allow(dead_code)]
fn device() -> Device {
    Device { registers: [0; 8], shown: Vec::new() }
}

impl Backend for Device {
    fn read(&mut self, register_offset: u8) -> u8 {
        self.registers[register_offset as usize]
    }

    fn write(&mut self, register_offset: u8, value: u8) {
        self.registers[register_offset as usize] = value;
    }
}

impl PortAccess for Device {
    fn port_in(&mut self, port: u16) -> u8 {
        self.registers[(port % 8) as usize]
    }

    fn port_out(&mut self, port: u16, value: u8) {
        self.registers[(port % 8) as usize] = value;
    }
}

impl ByteAccess for Device {
    fn load(&mut self, address: usize) -> u8 {
        self.registers[address / 4 % 8]
    }

    fn store(&mut self, address: usize, value: u8) {
        self.registers[address / 4 % 8] = value;
    }
}

#[allow(dead_code)]
type Outcome<T = ()> = Result<T, Box<dyn std::error::Error>>;
