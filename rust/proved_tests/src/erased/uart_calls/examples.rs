#[allow(unused_imports)]
use crate::runtime::{AllocGlobal, HostRuntime, assert, assert_eq};
#[allow(unused_imports)]
use geesetrunk_kit::Vec;
// A device of each kind, and a driver for it.

use geesetrunk_kit::ArrayVec;
use std::num::NonZeroUsize;
use crate::runtime::Fail;
use uart_16550::Uart16550;
use uart_16550::backend::{Backend, ByteAccess, PortAccess};
use uart_spec::registers::offsets;
use uart_spec::{BaudRate, Config, StalledError};

// The ports of an emulated machine, of which eight belong to a serial device.
pub struct Ports {
    // The byte at each of the eight ports.
    pub registers: [u8; 8],
}

impl PortAccess for Ports {
    // Nothing is promised about what a port returns.

    fn port_in(&mut self, port: u16) -> u8 {
        self.registers[port as usize % 8]
    }

    fn port_out(&mut self, port: u16, value: u8) {
        self.registers[port as usize % 8] = value;
    }
}

#[test]
fn a_device_at_ports() -> Result<(), Fail> {
    let ports = Ports {
        registers: [0, 0, 0, 0, 0, 0x60, 0, 0],
    };
    let mut uart = Uart16550::new_port(0x3f8, ports)?;
    uart.init(Config::DEFAULT)?;
    uart.send_bytes_exact(b"hello")?;
    Ok(())
}

// Memory in which a device shows its registers.
pub struct Memory(pub [u8; 32]);

impl ByteAccess for Memory {
    // A load returns the cell of its address, and a store sets it.

    fn load(&mut self, address: usize) -> u8 {
        self.0[address % 32]
    }

    fn store(&mut self, address: usize, value: u8) {
        self.0[address % 32] = value;
    }
}

#[test]
fn a_device_in_memory() -> Result<(), Fail> {
    let mut cells = [0; 32];
    cells[4 * offsets::LSR] = 0x60;
    let base = NonZeroUsize::new(0x1000).unwrap();
    let mut uart = Uart16550::new_mmio(base, 4, Memory(cells))?;
    uart.init(Config {
        baud_rate: BaudRate::Baud38400,
        ..Config::DEFAULT
    })?;
    uart.send_bytes_exact(b"hello")?;
    Ok(())
}

// A console that is always ready, and shows what it is sent.
pub struct Console {
    shown: ArrayVec<u8, 64>,
}

impl Backend for Console {
    // LSR shows that the transmitter is idle, and what is written to DATA is shown.

    fn read(&mut self, register_offset: u8) -> u8 {
        match register_offset as usize {
            offsets::LSR => 0x60,
            _ => 0,
        }
    }

    fn write(&mut self, register_offset: u8, value: u8) {
        if register_offset as usize == offsets::DATA {
            let _ = self.shown.try_push(value);
        }
    }
}

// Every access that this makes is a step of the console, and together they are a list of
// `send_bytes_exact`.
fn greet(uart: &mut Uart16550<Console>) -> Result<(), StalledError>

{
    uart.send_bytes_exact(b"hello")
}

#[test]
fn a_backend_of_ones_own() -> Result<(), Fail> {
    let rt = HostRuntime;
    let mut uart = Uart16550::new_with_backend(Console {
        shown: ArrayVec::new(),
    });
    greet(&mut uart)?;
    assert_eq!(rt; uart.backend().shown.as_slice(), b"hello".as_slice());
    Ok(())
}
