//! A test bench: a driver over the chip in software.

use uart_16550::backend::Backend;
use uart_16550_chip::LiveChip;

/// A chip as a device, for which a tick passes before each access.
pub struct Bench(pub LiveChip);

impl Backend for Bench {
    fn read(&mut self, offset: u8) -> u8 {
        self.0.ticks(1);
        self.0.read(offset)
    }

    fn write(&mut self, offset: u8, value: u8) {
        self.0.ticks(1);
        self.0.write(offset, value);
    }
}
