//! `census_vm_superio` takes the census of the serial device of vm-superio, and prints rows and recording.

use std::io::{self, Write};
use std::process::ExitCode;

use census_models::{Model, take};
use vm_superio::serial::NoEvents;
use vm_superio::{Serial, Trigger};

#[derive(Clone, Copy)]
struct NoInterrupt;

impl Trigger for NoInterrupt {
    type E = io::Error;

    fn trigger(&self) -> io::Result<()> {
        Ok(())
    }
}

/// In loopback nothing leaves.
struct NoLine;

impl Write for NoLine {
    fn write(&mut self, bytes: &[u8]) -> io::Result<usize> {
        panic!("{bytes:02x?} left on the line");
    }

    fn flush(&mut self) -> io::Result<()> {
        Ok(())
    }
}

struct Superio(Serial<NoInterrupt, NoEvents, NoLine>);

impl Model for Superio {
    fn read(&mut self, offset: u8) -> u8 {
        self.0.read(offset)
    }

    fn write(&mut self, offset: u8, value: u8) {
        // In loopback its queue may be full. Then the byte is lost, which the census sees, and the write is an error.
        let _ = self.0.write(offset, value);
    }

    /// It has no clock.
    fn pass(&mut self, _ns: u64) {}
}

fn main() -> ExitCode {
    let census = take(&mut Superio(Serial::new(NoInterrupt, NoLine)));
    match io::stdout().write_all(census.text.as_bytes()) {
        Ok(()) => ExitCode::SUCCESS,
        Err(error) => {
            eprintln!("census_vm_superio: {error}");
            ExitCode::from(2)
        }
    }
}
