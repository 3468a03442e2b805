// What the examples of `Serial` share. Each includes this file; the crate itself does not.
use std::cell::Cell;
use std::convert::Infallible;
#[allow(unused_imports)]
use uart_16550_chip::registers::{LSR, MSR};
#[allow(unused_imports)]
use uart_16550_chip::serial::{NoEvents, Output, Serial, SerialEvents, SerialState, Trigger};

/// Counts interrupts. A monitor signals an event here.
#[derive(Debug, Default)]
struct Interrupts(Cell<u32>);

impl Trigger for Interrupts {
    type E = Infallible;

    fn trigger(&self) -> Result<(), Infallible> {
        self.0.set(self.0.get() + 1);
        Ok(())
    }
}

/// Takes what the guest sends, while it is open.
#[derive(Debug)]
#[allow(dead_code)]
struct Terminal {
    shown: Vec<u8>,
    is_open: bool,
}

impl Output for Terminal {
    type Error = Infallible;

    fn write_bytes(&mut self, bytes: &[u8]) -> Result<usize, Infallible> {
        if !self.is_open {
            return Ok(0);
        }
        self.shown.extend(bytes);
        Ok(bytes.len())
    }
}

#[allow(dead_code)]
fn terminal() -> Terminal {
    Terminal { shown: Vec::new(), is_open: true }
}

#[allow(dead_code)]
fn device() -> Serial<Interrupts, NoEvents, Terminal> {
    Serial::new(Interrupts::default(), terminal())
}
