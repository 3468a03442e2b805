//! Access to the I/O ports of a file, which ends at the first fault.

use std::io;
use uart_16550::backend::PortAccess;

/// What a read returns if nothing is at the port.
pub const FLOATING: u8 = 0xff;

/// A file that has a byte for each I/O port, as Linux shows them in `/dev/port`.
///
/// An implementation defines a step relation: which attempts at a port lead from which state to
/// which state.
pub trait PortFile {
    /// Reads one byte from a port, and returns it.
    fn read(&mut self, port: u16) -> io::Result<u8>;

    /// Writes one byte to a port.
    fn write(&mut self, port: u16, value: u8) -> io::Result<()>;
}

/// The first access that failed.
#[derive(Debug)]
pub struct PortFault {
    /// The port.
    pub port: u16,
    /// The error of the file.
    pub cause: io::Error,
}

/// Access to the ports of a file, until an access fails.
///
/// A backend returns no error, so the first fault is kept. After it no access is made, and each
/// read returns [`FLOATING`].
pub struct GuardedPorts<F> {
    file: F,
    fault: Option<PortFault>,
}

impl<F: PortFile> GuardedPorts<F> {
    /// Returns access to the ports of this file, of which none has failed.
    #[must_use]
    pub fn new(file: F) -> Self {
        GuardedPorts { file, fault: None }
    }

    /// Returns the first access that failed, if any did.
    #[must_use]
    pub fn fault(&self) -> Option<&PortFault> {
        self.fault.as_ref()
    }
}

impl<F: PortFile> PortAccess for GuardedPorts<F> {
    fn port_in(&mut self, port: u16) -> u8 {
        if self.fault.is_some() {
            return FLOATING;
        }
        match self.file.read(port) {
            Ok(value) => value,
            Err(cause) => {
                self.fault = Some(PortFault { port, cause });
                FLOATING
            }
        }
    }

    fn port_out(&mut self, port: u16, value: u8) {
        if self.fault.is_some() {
            return;
        }
        if let Err(cause) = self.file.write(port, value) {
            self.fault = Some(PortFault { port, cause });
        }
    }
}
