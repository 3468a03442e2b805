//! vm-superio's own example of its device. The crate vmm-sys-util is no package of Debian, so its `EventFd` is a socket here.

use std::io::{Error, Result, Write, sink};
use std::ops::Deref;
use std::os::unix::net::UnixStream as EventFd;
use vm_superio::Serial;
use vm_superio::Trigger;

struct EventFdTrigger(EventFd);

impl Trigger for EventFdTrigger {
    type E = Error;

    fn trigger(&self) -> Result<()> {
        (&self.0).write_all(&[1])
    }
}

impl Deref for EventFdTrigger {
    type Target = EventFd;

    fn deref(&self) -> &Self::Target {
        &self.0
    }
}

impl EventFdTrigger {
    fn new() -> Self {
        EventFdTrigger(EventFd::pair().unwrap().0)
    }

    fn try_clone(&self) -> Self {
        EventFdTrigger((**self).try_clone().unwrap())
    }
}

fn main() {
    let intr_evt = EventFdTrigger::new();
    let mut serial = Serial::new(intr_evt.try_clone(), Vec::new());
    // std::io::Sink can be used if user is not interested in guest's output.
    let _serial_with_sink = Serial::new(intr_evt, sink());

    // Write 0x01 to THR register.
    serial.write(0, 0x01).unwrap();
    // Read from RBR register.
    let value = serial.read(0);

    // Send more bytes to the guest in one shot.
    let input = &[b'a', b'b', b'c'];
    // Before enqueuing bytes we first check if there is enough free space
    // in the FIFO.
    if serial.fifo_capacity() >= input.len() {
        serial.enqueue_raw_bytes(input).unwrap();
    }
    println!("{value} {}", serial.read(0));
}
