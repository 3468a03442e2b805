//! Ports whose accesses are written to a trace.

use crate::ports::PortFile;
use crate::trace::Trace;
use std::io;
use std::io::Write;
use uart_spec::NUM_REGISTERS;

// The number of ports of a chip.
const PORTS: u16 = NUM_REGISTERS as u16;

/// The ports of a file, whose accesses are written to a trace if there is one.
///
/// An access that cannot be written to the trace counts as failed.
pub struct NotedPorts<F, W> {
    file: F,
    base: u16,
    trace: Option<Trace<W>>,
}

impl<F: PortFile, W: Write> NotedPorts<F, W> {
    /// Returns the ports of this file. A trace has offsets from the base.
    #[must_use]
    pub fn new(file: F, base: u16, trace: Option<Trace<W>>) -> Self {
        NotedPorts { file, base, trace }
    }

    // Returns the offset of the register at a port, which is the distance from the base.
    fn offset(&self, port: u16) -> u8 {
        (port.saturating_sub(self.base) % PORTS) as u8
    }
}

impl<F: PortFile, W: Write> PortFile for NotedPorts<F, W> {
    fn read(&mut self, port: u16) -> io::Result<u8> {
        let byte = self.file.read(port)?;
        let offset = self.offset(port);
        if let Some(trace) = &mut self.trace {
            trace.read(offset, byte)?;
        }
        Ok(byte)
    }

    fn write(&mut self, port: u16, value: u8) -> io::Result<()> {
        self.file.write(port, value)?;
        let offset = self.offset(port);
        if let Some(trace) = &mut self.trace {
            trace.write(offset, value)?;
        }
        Ok(())
    }
}
