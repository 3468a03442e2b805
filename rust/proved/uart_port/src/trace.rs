//! A run as text: each call, its accesses, and its answer.

use std::io;
use std::io::Write;
use std::num::NonZeroU64;
use uart_language::hex_digit;
use uart_spec::FifoSize;

/// The length of the line of an access, with its end.
const ACCESS_LINE: usize = 7;

/// A trace, which is written line by line during the run.
///
/// Nothing is buffered, so everything up to a fault or a crash is written.
#[derive(Clone, Copy)]
pub struct Trace<W> {
    output: W,
}

impl<W: Write> Trace<W> {
    /// Returns a trace that is written to this output.
    #[must_use]
    pub fn new(output: W) -> Self {
        Trace { output }
    }

    /// Writes that the driver is new, with its spin limit in a remark. If it takes the FIFOs for
    /// another size than 16, another remark has that size.
    pub fn begin(&mut self, limit: NonZeroU64, fifo_size: FifoSize) -> io::Result<()> {
        writeln!(self.output, "fresh")?;
        writeln!(self.output, "# limit {}", limit.get())?;
        match fifo_size {
            FifoSize::Sixteen => Ok(()),
            _ => writeln!(self.output, "# fifo-size {}", fifo_size.characters()),
        }
    }

    /// Writes that a call is made, as its line of the script.
    pub fn call(&mut self, text: &[u8]) -> io::Result<()> {
        self.output.write_all(text)?;
        self.output.write_all(b"\n")
    }

    /// Writes that the register at this offset was read, and what the read returned.
    pub fn read(&mut self, offset: u8, answer: u8) -> io::Result<()> {
        self.output.write_all(&lettered(b'r', offset, answer))
    }

    /// Writes that this value was written to the register at this offset.
    pub fn write(&mut self, offset: u8, value: u8) -> io::Result<()> {
        self.output.write_all(&lettered(b'w', offset, value))
    }

    /// Writes that the call returned, with its answer as it is printed.
    pub fn answer(&mut self, text: &[u8]) -> io::Result<()> {
        self.output.write_all(b"= ")?;
        self.output.write_all(text)?;
        self.output.write_all(b"\n")
    }
}

// Returns a letter, an offset and a byte as the line of an access.
fn lettered(letter: u8, offset: u8, byte: u8) -> [u8; ACCESS_LINE] {
    [
        letter,
        b' ',
        hex_digit(offset),
        b' ',
        hex_digit(byte / 16),
        hex_digit(byte % 16),
        b'\n',
    ]
}
