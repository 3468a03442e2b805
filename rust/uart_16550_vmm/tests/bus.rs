//! The device on a bus: at ports, and in memory.

use std::cell::Cell;
use std::convert::Infallible;
use std::io;
use std::num::NonZeroUsize;
use uart_16550_chip::registers::MSR;
use uart_16550_chip::serial::{Error, NoEvents, Output};
use uart_16550_chip::{Serial, Trigger};
use uart_16550_vmm::{BusSerial, TriggerBy};

const DATA: u64 = 0;
const IER: u64 = 1;
const LCR: u64 = 3;
const LSR: u64 = 5;
const SPR: u64 = 7;

fn nobody() -> impl Trigger<E = Infallible> {
    TriggerBy(|| Ok(()))
}

#[test]
fn a_string_of_bytes_goes_to_one_port() {
    let mut com1 = BusSerial::at_ports(Serial::new(nobody(), Vec::new()));
    com1.write(DATA, b"abc");
    com1.write(DATA, b"");
    assert_eq!(com1.serial().writer(), b"abc");
    com1.write(2, &[0x01]);
    com1.serial_mut().enqueue_raw_bytes(b"xyz").unwrap();
    let mut read = [0; 3];
    com1.read(DATA, &mut read);
    assert_eq!(&read, b"xyz");
    com1.read(LSR, &mut read[..1]);
    assert_eq!(read[0], 0x60);
    assert_eq!(com1.into_serial().writer(), b"abc");
}

/// Notes how many bytes each write has.
struct Writes(Vec<usize>);

impl Output for Writes {
    type Error = Infallible;

    fn write_bytes(&mut self, bytes: &[u8]) -> Result<usize, Infallible> {
        self.0.push(bytes.len());
        Ok(bytes.len())
    }
}

/// One exit of the guest is one write of the host.
#[test]
fn a_string_of_bytes_is_one_write() {
    let mut com1 = BusSerial::at_ports(Serial::new(nobody(), Writes(Vec::new())));
    com1.write(DATA, &[b'x'; 16]);
    com1.write(DATA, &[b'x'; 4]);
    com1.write_sized(DATA, NonZeroUsize::MIN, &[b'x'; 16]);
    assert_eq!(com1.serial().writer().0, [16, 4, 16]);
}

/// `outw` to the first port sets a divisor, and `inw` reads it: the high byte is of the next port.
#[test]
fn a_wide_access_is_of_as_many_ports() {
    let word = NonZeroUsize::new(2).unwrap();
    let mut com1 = BusSerial::at_ports(Serial::new(nobody(), Vec::new()));
    com1.write(LCR, &[0x83]);
    com1.write(DATA, &[0x34, 0x12]);
    let latches = com1.serial().state().chip.latches;
    assert_eq!((latches.dll, latches.dlm), (0x34, 0x12));
    let mut read = [0; 4];
    com1.read(DATA, &mut read[..2]);
    assert_eq!(read[..2], [0x34, 0x12]);
    // LCR and MCR, and so DLAB is no longer set.
    com1.write(LCR, &[0x03, 0x0b]);
    com1.read(IER, &mut read);
    assert_eq!(read, [0x00, 0x01, 0x03, 0x0b]);
    // At DATA the same bytes are what is sent, unless the bus says how large an access is.
    com1.write(DATA, b"ab");
    com1.write_sized(DATA, word, &[b'c', 0x00, b'd', 0x05]);
    assert_eq!(com1.serial().writer(), b"abcd");
    com1.serial_mut().enqueue_raw_bytes(b"x").unwrap();
    com1.read_sized(DATA, word, &mut read[..2]);
    assert_eq!(read[..2], [b'x', 0x05]);
    // Behind the last register, and behind all ports, there is nothing.
    com1.write_sized(SPR, word, &[0x5a, 0x77]);
    com1.read(SPR, &mut read[..2]);
    assert_eq!(read[..2], [0x5a, 0x00]);
    com1.write(u64::MAX, &[1, 2]);
    com1.read(u64::MAX, &mut read);
    assert_eq!(read, [0; 4]);
    // Three bytes are no access of any processor, and a string is read and written port by port.
    com1.write(SPR, &[1, 2, 3]);
    com1.read(SPR, &mut read[..3]);
    assert_eq!(read[..3], [3; 3]);
}

#[test]
fn in_memory_each_access_is_to_one_register() {
    let word = NonZeroUsize::new(2).unwrap();
    let mut uart = BusSerial::in_memory(Serial::new(nobody(), Vec::new()), 2);
    uart.write_sized(DATA, NonZeroUsize::MIN, b"abc");
    uart.write_sized(DATA, word, &[b'd', 0, b'e', 0]);
    assert_eq!(uart.serial().writer(), b"abcde");
    uart.write(SPR << 2, &[0x5a]);
    let mut read = [0xff; 4];
    uart.read_sized(SPR << 2, word, &mut read);
    assert_eq!(read, [0x5a, 0, 0x5a, 0]);
}

#[test]
fn beyond_the_registers_nothing_happens() {
    let mut com1 = BusSerial::at_ports(Serial::new(nobody(), Vec::new()));
    for offset in [8, 255, 256, 257, u64::MAX] {
        let mut read = [1];
        com1.write(offset, b"x");
        com1.read(offset, &mut read);
        assert_eq!(read, [0], "{offset}");
    }
    assert_eq!(com1.serial().writer(), b"");
}

#[test]
fn in_memory_an_access_is_to_one_register() {
    for shift in 0..=3 {
        let mut uart = BusSerial::in_memory(Serial::new(nobody(), Vec::new()), shift);
        uart.write(SPR << shift, &[0x5a, 0x01, 0x02, 0x03]);
        for len in 1..=8 {
            let mut read = [0xff; 8];
            uart.read(SPR << shift, &mut read[..len]);
            assert_eq!((read[0], &read[1..len]), (0x5a, &[0; 7][..len - 1]));
        }
        uart.write(DATA, &[0x41, 0x42]);
        uart.write(8 << shift, &[0x43]);
        uart.write(DATA, &[]);
        uart.read(SPR << shift, &mut []);
        assert_eq!(uart.serial().writer(), b"A");
    }
}

#[test]
fn between_two_registers_nothing_happens() {
    let mut uart = BusSerial::in_memory(Serial::new(nobody(), Vec::new()), 2);
    uart.write(SPR << 2, &[0x5a]);
    for offset in [1, 2, 3, 29, 30, 31] {
        let mut read = [0xff; 4];
        uart.write(offset, &[0x11]);
        uart.read(offset, &mut read);
        assert_eq!(read, [0; 4], "{offset}");
    }
    let mut read = [0];
    uart.read(SPR << 2, &mut read);
    assert_eq!((read, uart.serial().writer().len()), ([0x5a], 0));
    // A distance beyond all addresses leaves the first register.
    let mut uart = BusSerial::in_memory(Serial::new(nobody(), Vec::new()), 64);
    uart.write(1, b"x");
    uart.write(0, b"y");
    assert_eq!(uart.serial().writer(), b"y");
}

/// A host that is gone.
#[derive(Debug)]
struct Gone;

impl Output for Gone {
    type Error = io::Error;

    fn write_bytes(&mut self, _bytes: &[u8]) -> io::Result<usize> {
        Err(io::ErrorKind::BrokenPipe.into())
    }
}

#[test]
fn failures_are_kept_for_the_monitor() {
    let is_broken = Cell::new(true);
    let trigger = TriggerBy(|| {
        if is_broken.get() {
            Err("broken")
        } else {
            Ok(())
        }
    });
    let mut com1 = BusSerial::at_ports(Serial::with_events(trigger, NoEvents, Gone));
    assert!(com1.take_failure().is_none());
    com1.write(DATA, b"x");
    assert!(matches!(com1.take_failure(), Some(Error::IOError(_))));
    assert!(com1.take_failure().is_none());
    // The empty transmitter interrupts, and nobody can be told.
    com1.write(1, &[0x02]);
    match com1.take_failure() {
        Some(Error::Trigger(failed)) => assert_eq!(failed.cause, "broken"),
        other => panic!("{other:?}"),
    }
    // Of two failures the last one is kept. The device tells again in its next call what it could not tell.
    com1.write(DATA, b"x");
    com1.write(1, &[0x02]);
    assert!(matches!(com1.take_failure(), Some(Error::Trigger(_))));
    is_broken.set(false);
    com1.serial_mut().set_lines(MSR::CTS).unwrap();
    assert!(com1.take_failure().is_none());
}

#[derive(Debug)]
struct Line;

impl Trigger for Line {
    type E = Infallible;

    fn trigger(&self) -> Result<(), Infallible> {
        Ok(())
    }
}

#[test]
fn what_is_shown_says_whether_a_write_failed() {
    let mut com1 = BusSerial::at_ports(Serial::new(Line, Gone));
    let shown = format!("{com1:?}");
    assert!(shown.contains("place: Ports, has_failed: false"), "{shown}");
    com1.write(DATA, b"x");
    let shown = format!("{com1:?}");
    assert!(shown.contains("place: Ports, has_failed: true"), "{shown}");
}

#[cfg(feature = "vm-device")]
mod with_vm_device {
    use super::*;
    use vm_device::bus::{MmioAddress, PioAddress};
    use vm_device::{MutDeviceMmio, MutDevicePio};

    #[test]
    fn the_traits_of_vm_device_do_the_same() {
        let mut com1 = BusSerial::at_ports(Serial::new(nobody(), Vec::new()));
        let mut read = [0; 2];
        com1.pio_write(PioAddress(0x3f8), 0, b"abc");
        com1.pio_write(PioAddress(0x3f8), 7, &[0x5a]);
        com1.pio_read(PioAddress(0x3f8), 7, &mut read);
        assert_eq!(
            (&com1.serial().writer()[..], read),
            (&b"abc"[..], [0x5a, 0])
        );
        let mut uart = BusSerial::in_memory(Serial::new(nobody(), Vec::new()), 2);
        uart.mmio_write(MmioAddress(0x4000_0000), 28, &[0x77, 0, 0, 0]);
        uart.mmio_read(MmioAddress(0x4000_0000), 28, &mut read);
        assert_eq!(read, [0x77, 0]);
    }
}
