//! The serial device of vm-superio 0.7, as COM1 of a machine of QEMU.

use std::convert::Infallible;

use guest::wire::Wire;
use guest::{Device, Interrupt};
use vm_superio::serial::SerialEvents;
use vm_superio::{Serial, Trigger};

struct Line(Interrupt);

impl Trigger for Line {
    type E = Infallible;

    fn trigger(&self) -> Result<(), Infallible> {
        self.0.trigger();
        Ok(())
    }
}

struct Events(Wire);

impl SerialEvents for Events {
    fn buffer_read(&self) {}

    fn out_byte(&self) {}

    fn tx_lost_byte(&self) {
        self.0.lost();
    }

    fn in_buffer_empty(&self) {
        self.0.has_room();
    }
}

struct Port(Serial<Line, Events, Wire>);

impl Device for Port {
    fn new(interrupt: Interrupt, wire: Wire) -> Self {
        Port(Serial::with_events(
            Line(interrupt),
            Events(wire.clone()),
            wire,
        ))
    }

    fn read(&mut self, offset: u8) -> u8 {
        self.0.read(offset)
    }

    fn write(&mut self, offset: u8, value: u8) {
        self.0.write(offset, value).expect("it is written");
    }

    fn room(&self) -> usize {
        self.0.fifo_capacity()
    }

    fn receive(&mut self, bytes: &[u8]) {
        let count = self.0.enqueue_raw_bytes(bytes).expect("there is room");
        assert_eq!(count, bytes.len(), "there is room for all");
    }
}

guest::when_made!(guest::run::<Port>);
