//! The serial port: the device of `uart_16550_chip` with what it needs of this monitor.

use std::io;
use std::os::unix::net::UnixStream;
use std::sync::Arc;

use uart_16550_chip::{Serial, Trigger};
use uart_16550_vmm::{Both, Counters, EventFd, Room};

use crate::kvm::Machine;

/// The first port of COM1.
pub const BASE: u16 = 0x3f8;
/// Its interrupt line.
const LINE: u32 = 4;

/// What is counted, and what wakes the thread that has the input. The counters outlive the machine.
pub type Events = Both<Arc<Counters>, Room>;
/// The serial port of a machine.
pub type SerialPort = Serial<Interrupt, Events, UnixStream>;

/// Raises the guest's interrupt, by the event of an irqfd.
#[derive(Debug)]
pub struct Interrupt {
    /// Each signal is an edge. With `resample` it takes the line up instead.
    event: EventFd,
    /// Is signalled when the guest ends an interrupt and the line is taken down for that, if the line has levels.
    pub resample: Option<Arc<EventFd>>,
}

impl Interrupt {
    pub fn new(has_levels: bool) -> io::Result<Self> {
        let resample = if has_levels {
            Some(Arc::new(EventFd::new()?))
        } else {
            None
        };
        Ok(Interrupt {
            event: EventFd::new()?,
            resample,
        })
    }

    /// Connects the machine's line.
    pub fn connect(&self, machine: &Machine) -> io::Result<()> {
        machine.connect(LINE, &self.event, self.resample.as_deref())
    }
}

impl Trigger for Interrupt {
    type E = io::Error;

    fn trigger(&self) -> io::Result<()> {
        self.event.signal()
    }
}
