//! A chip at the I/O ports of a machine.

use super::battery::Chip;
use crate::port::DeviceFile;
use std::io;
use std::time::Instant;
use uart_port::PortFile;
use uart_spec::registers::offsets::{IER, LCR};

const DLAB: u8 = 0x80;
// The four causes that IER enables.
const ENABLED: u8 = 0x0f;

/// A chip whose first port is `base`, in a file with a byte for each port.
pub(super) struct PortChip {
    file: DeviceFile,
    base: u16,
    begin: Instant,
}

impl PortChip {
    pub(super) fn new(file: DeviceFile, base: u16) -> Self {
        PortChip {
            file,
            base,
            begin: Instant::now(),
        }
    }

    // The base is such that all eight ports exist.
    fn port(&self, offset: usize) -> u16 {
        self.base + offset as u16
    }

    // Returns whether interrupts are enabled. Then a driver has opened the port, also for a process that still waits for a carrier and so
    // has nothing open. The register is DLM while DLAB is set, and FF where nobody is: the census finds both.
    pub(super) fn is_served(&mut self) -> io::Result<bool> {
        Ok(self.read(LCR)? & DLAB == 0 && self.read(IER)? & ENABLED != 0)
    }
}

impl Chip for PortChip {
    type Fault = io::Error;

    fn read(&mut self, offset: usize) -> io::Result<u8> {
        self.file.read(self.port(offset))
    }

    fn write(&mut self, offset: usize, value: u8) -> io::Result<()> {
        self.file.write(self.port(offset), value)
    }

    fn now(&mut self) -> io::Result<u64> {
        // In 584 years it does not fit.
        Ok(self.begin.elapsed().as_nanos() as u64)
    }
}
