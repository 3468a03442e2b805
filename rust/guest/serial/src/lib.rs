//! The device over the proved chip, as COM1 of a machine of QEMU.

#![cfg(all(target_os = "linux", target_arch = "x86_64"))]

use std::convert::Infallible;
use std::env;

use guest::wire::{Settings, Wire};
use guest::{Device, Interrupt};
use uart_16550_chip::registers::MSR;
use uart_16550_chip::{Serial, SerialEvents, SerialState, Trigger};

struct Line(Interrupt);

impl Trigger for Line {
    type E = Infallible;

    fn trigger(&self) -> Result<(), Infallible> {
        self.0.trigger();
        Ok(())
    }

    fn set_level(&self, level: bool) -> Result<(), Infallible> {
        self.0.set_level(level);
        Ok(())
    }
}

struct Events(Wire);

impl SerialEvents for Events {
    fn buffer_read(&self) {}

    fn out_byte(&self) {}

    fn tx_lost_byte(&self) {
        self.0.lost();
    }

    fn in_buffer_empty(&self) {
        self.0.has_room();
    }

    fn tx_held(&self) {
        self.0.is_held();
    }

    fn tx_overflow(&self) {
        self.0.lost();
    }

    fn timeout_to_come(&self) {
        self.0.awaits_time();
    }

    fn out_break(&self, begins: bool) {
        if begins {
            self.0.breaks();
        }
    }
}

struct Port(Serial<Line, Events, Wire>);

/// The lines of a terminal that is ready.
fn lines(is_ready: bool) -> MSR {
    let present = MSR::DSR | MSR::CD;
    if is_ready {
        present | MSR::CTS
    } else {
        present
    }
}

/// Whether the monitor has a clock: `GUEST_CLOCK`.
fn has_clock() -> bool {
    env::var_os("GUEST_CLOCK").is_some()
}

impl Device for Port {
    fn new(interrupt: Interrupt, wire: Wire) -> Self {
        let mut serial = Serial::with_events(Line(interrupt), Events(wire.clone()), wire);
        serial.set_lines(lines(true)).expect("nothing fails here");
        serial.set_clock(has_clock()).expect("nothing fails here");
        Port(serial)
    }

    fn read(&mut self, offset: u8) -> u8 {
        self.0.read(offset)
    }

    fn write(&mut self, offset: u8, value: u8) {
        self.0.write(offset, value).expect("nothing fails here");
    }

    fn room(&self) -> usize {
        self.0.fifo_capacity()
    }

    fn receive(&mut self, bytes: &[u8]) {
        let count = self.0.enqueue_raw_bytes(bytes).expect("there is room");
        assert_eq!(count, bytes.len(), "there is room for all");
    }

    fn write_output(&mut self) {
        self.0.write_output().expect("nothing fails here");
    }

    fn pass_time(&mut self) {
        self.0.timeout_passed().expect("nothing fails here");
    }

    fn receive_break(&mut self) {
        self.0.enqueue_break().expect("nothing fails here");
    }

    fn set_ready(&mut self, is_ready: bool) {
        self.0
            .set_lines(lines(is_ready))
            .expect("nothing fails here");
    }

    fn settings(&self) -> Settings {
        let latches = self.0.state().chip.latches;
        Settings {
            divisor: u16::from_le_bytes([latches.dll, latches.dlm]),
            line_control: latches.lcr.bits(),
            modem_control: latches.mcr.bits(),
        }
    }

    fn save(&self) -> Vec<u8> {
        self.0.state().to_bytes().to_vec()
    }

    fn restore(state: &[u8], interrupt: Interrupt, wire: Wire) -> Result<Self, String> {
        let state = SerialState::from_bytes(state).map_err(|refused| refused.to_string())?;
        Serial::from_state(&state, Line(interrupt), Events(wire.clone()), wire)
            .map(|mut serial| {
                serial.set_clock(has_clock()).expect("nothing fails here");
                Port(serial)
            })
            .map_err(|refused| refused.to_string())
    }
}

guest::when_made!(guest::run::<Port>);
