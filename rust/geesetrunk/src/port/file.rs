//! The file of a machine's I/O ports.

use std::fs::File;
use std::io;
use std::os::unix::fs::FileExt;
use uart_port::PortFile;

/// A file that has a byte for each I/O port, as Linux shows them in `/dev/port`.
#[derive(Debug)]
pub struct DeviceFile(File);

impl DeviceFile {
    /// Opens a file of ports.
    ///
    /// # Errors
    ///
    /// The error of the file.
    pub fn open(path: &str) -> io::Result<Self> {
        File::options()
            .read(true)
            .write(true)
            .open(path)
            .map(DeviceFile)
    }
}

impl PortFile for DeviceFile {
    fn read(&mut self, port: u16) -> io::Result<u8> {
        let mut byte = [0];
        self.0.read_exact_at(&mut byte, port.into())?;
        Ok(byte[0])
    }

    fn write(&mut self, port: u16, value: u8) -> io::Result<()> {
        self.0.write_all_at(&[value], port.into())
    }
}

#[cfg(test)]
mod tests {
    use super::*;
    use std::fs;
    use std::io::ErrorKind;
    use uart_16550::backend::PortAccess;
    use uart_port::{FLOATING, GuardedPorts, NotedPorts, Trace};

    // Four ports from 0 on, of a chip whose first port is 1.
    #[test]
    fn a_file_that_is_too_short_fails_at_its_end() {
        let path = std::env::temp_dir().join(format!("uart_port-{}", std::process::id()));
        fs::write(&path, b"\x11\x22\x33\x44").unwrap();
        let file = DeviceFile::open(path.to_str().unwrap()).unwrap();
        let mut notes = Vec::new();
        let trace = Some(Trace::new(&mut notes));
        let mut ports = GuardedPorts::new(NotedPorts::new(file, 1, trace));
        assert_eq!(ports.port_in(3), 0x44);
        ports.port_out(2, 0xab);
        assert!(ports.fault().is_none());
        assert_eq!(ports.port_in(5), FLOATING);
        ports.port_out(1, 0xcd);
        assert_eq!(ports.port_in(3), FLOATING);
        let fault = ports.fault().unwrap();
        assert_eq!(
            (fault.port, fault.cause.kind()),
            (5, ErrorKind::UnexpectedEof)
        );
        drop(ports);
        assert_eq!(fs::read(&path).unwrap(), b"\x11\x22\xab\x44");
        assert_eq!(notes, b"r 2 44\nw 1 ab\n");
        fs::remove_file(&path).unwrap();
    }
}
