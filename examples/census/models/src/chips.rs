//! The chips of this project that are asked.

use std::io::{self, Write};

use uart_16550_chip::{NoEvents, Serial, Trigger};
use uart_events::Chip;
use uart_live::LiveChipWith;

use crate::Model;

/// A character of a live chip takes so many ticks.
const CHARACTER_TICKS: u16 = 1000;
/// A tick in thirds of a nanosecond, so that a character has its length at 9,600 baud.
const TICK_IN_THIRDS: u64 = 3125;

/// The proved live chip, with the time that passes at its registers.
struct Live<const FIFO: usize> {
    chip: LiveChipWith<FIFO>,
    thirds_left: u64,
}

impl<const FIFO: usize> Live<FIFO> {
    fn boxed(chip: Chip) -> Box<dyn Model> {
        let chip = LiveChipWith::<FIFO>::new(chip, CHARACTER_TICKS, 64).unwrap();
        Box::new(Self { chip, thirds_left: 0 })
    }
}

impl<const FIFO: usize> Model for Live<FIFO> {
    fn read(&mut self, offset: u8) -> u8 {
        self.chip.read(offset)
    }

    fn write(&mut self, offset: u8, value: u8) {
        self.chip.write(offset, value);
    }

    fn pass(&mut self, ns: u64) {
        self.thirds_left += 3 * ns;
        while self.thirds_left >= TICK_IN_THIRDS {
            self.thirds_left -= TICK_IN_THIRDS;
            self.chip.ticks(1);
        }
        assert!(self.chip.wire().is_empty(), "{:02x?} left on the line", self.chip.wire());
    }
}

#[derive(Clone, Copy)]
struct NoInterrupt;

impl Trigger for NoInterrupt {
    type E = io::Error;

    fn trigger(&self) -> io::Result<()> {
        Ok(())
    }
}

/// In loopback nothing leaves.
struct NoLine;

impl Write for NoLine {
    fn write(&mut self, bytes: &[u8]) -> io::Result<usize> {
        panic!("{bytes:02x?} left on the line");
    }

    fn flush(&mut self) -> io::Result<()> {
        Ok(())
    }
}

/// The device for monitors, which has no clock.
struct Device(Serial<NoInterrupt, NoEvents, NoLine>);

impl Model for Device {
    fn read(&mut self, offset: u8) -> u8 {
        self.0.read(offset)
    }

    fn write(&mut self, offset: u8, value: u8) {
        self.0.write(offset, value).unwrap();
    }

    fn pass(&mut self, _ns: u64) {}
}

/// The names of the chips that [`model`] makes.
pub const MODELS: [&str; 4] = ["live", "live-64", "live-16450", "device"];

/// The chip of this name.
pub fn model(name: &str) -> Option<Box<dyn Model>> {
    match name {
        "live" => Some(Live::<16>::boxed(Chip::Uart16550A)),
        "live-64" => Some(Live::<64>::boxed(Chip::Uart16550A)),
        "live-16450" => Some(Live::<16>::boxed(Chip::Uart16450)),
        "device" => Some(Box::new(Device(Serial::new(NoInterrupt, NoLine)))),
        _ => None,
    }
}
