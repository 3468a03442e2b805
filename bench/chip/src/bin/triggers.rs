//! Counts how often the device over the port triggers the interrupt under Linux's driver.

#[path = "../../../linux.rs"]
mod linux;

use linux::{Device, Signals};
use std::convert::Infallible;
use std::io::{Sink, sink};
use uart_16550_chip::{Serial, SerialEvents, Trigger};

struct Line(Signals);

impl Trigger for Line {
    type E = Infallible;

    fn trigger(&self) -> Result<(), Infallible> {
        self.0.trigger();
        Ok(())
    }
}

struct Events(Signals);

impl SerialEvents for Events {
    fn buffer_read(&self) {}

    fn out_byte(&self) {}

    fn tx_lost_byte(&self) {}

    fn in_buffer_empty(&self) {
        self.0.tell_room();
    }
}

struct Port<const FIFO: usize>(Console<FIFO>);

impl<const FIFO: usize> Device for Port<FIFO> {
    fn read(&mut self, offset: u8) -> u8 {
        self.0.read(offset)
    }

    fn write(&mut self, offset: u8, value: u8) {
        self.0.write(offset, value).expect("it is written");
    }

    fn room(&self) -> usize {
        self.0.fifo_capacity()
    }

    fn receive(&mut self, bytes: &[u8]) {
        let count = self.0.enqueue_raw_bytes(bytes).expect("it is received");
        assert_eq!(count, bytes.len());
    }

    fn pass_time(&mut self) {
        self.0.timeout_passed().expect("it is triggered");
    }
}

type Console<const FIFO: usize> = Serial<Line, Events, Sink, FIFO>;

fn device<const FIFO: usize>(signals: Signals) -> Console<FIFO> {
    Serial::try_with_events(Line(signals.clone()), Events(signals), sink())
        .expect("there are FIFOs of this size")
}

fn plain<const FIFO: usize>(signals: Signals) -> Port<FIFO> {
    Port(device(signals))
}

fn drained<const FIFO: usize>(signals: Signals) -> Port<FIFO> {
    let mut serial = device(signals);
    serial
        .set_handler_drains(true)
        .expect("the trigger does not fail");
    Port(serial)
}

fn clocked<const FIFO: usize>(signals: Signals) -> Port<FIFO> {
    let mut serial = device(signals);
    serial.set_clock(true).expect("the trigger does not fail");
    Port(serial)
}

fn main() {
    linux::run("Serial", plain::<16>);
    linux::run("drained", drained::<16>);
    linux::run("with clock", clocked::<16>);
    linux::run("of 64", plain::<64>);
    linux::run("of 64, drained", drained::<64>);
    linux::run("of 64, with clock", clocked::<64>);
}
