//! A device that holds what the guest sends until its monitor says that the guest waits.

#![cfg(feature = "std")]

use std::cell::Cell;
use std::convert::Infallible;
use std::rc::Rc;
use uart_16550_chip::serial::Error;
use uart_16550_chip::{NoEvents, Output, Serial, SerialEvents, Trigger, WIRE_ROOM};

const DATA: u8 = 0;
const IER: u8 = 1;
const LCR: u8 = 3;
const LSR: u8 = 5;

const SET_BREAK: u8 = 0x40;
const TRANSMITTER_EMPTY: u8 = 0x60;

#[derive(Debug)]
struct Line;

impl Trigger for Line {
    type E = Infallible;

    fn trigger(&self) -> Result<(), Infallible> {
        Ok(())
    }
}

/// A terminal: what it was given in each write. One that is broken fails, and one that is full takes nothing.
#[derive(Clone, Copy, Debug, PartialEq, Eq)]
enum Mood {
    Open,
    Full,
    Broken,
}

#[derive(Debug)]
struct Terminal {
    writes: Vec<Vec<u8>>,
    mood: Mood,
}

impl Output for Terminal {
    type Error = ();

    fn write_bytes(&mut self, bytes: &[u8]) -> Result<usize, ()> {
        match self.mood {
            Mood::Open => {
                self.writes.push(bytes.to_vec());
                Ok(bytes.len())
            }
            Mood::Full => Ok(0),
            Mood::Broken => Err(()),
        }
    }
}

fn terminal() -> Terminal {
    Terminal {
        writes: Vec::new(),
        mood: Mood::Open,
    }
}

/// A device that holds bursts.
fn device() -> Serial<Line, NoEvents, Terminal> {
    let mut serial = Serial::new(Line, terminal());
    serial.set_bursts(true).unwrap();
    serial
}

fn print<EV: SerialEvents>(serial: &mut Serial<Line, EV, Terminal>, text: &[u8]) {
    for byte in text {
        serial.write(DATA, *byte).unwrap();
    }
}

#[test]
fn what_is_printed_between_two_waits_is_one_write() {
    let mut serial = device();
    print(&mut serial, b"login: ");
    assert!(serial.writer().writes.is_empty());
    assert_eq!(serial.output(), b"login: ");
    // The guest sees a transmitter that is empty.
    assert_eq!(serial.read(LSR), TRANSMITTER_EMPTY);
    assert_eq!(serial.write_output().unwrap(), 7);
    assert_eq!(serial.write_output().unwrap(), 0);
    print(&mut serial, b"root");
    serial.write_bytes(DATA, b"\r\n").unwrap();
    serial.write_output().unwrap();
    assert_eq!(serial.writer().writes, [&b"login: "[..], b"root\r\n"]);
}

/// A guest that never waits: what is held is bounded.
#[test]
fn what_fills_the_device_is_written() {
    let mut serial = device();
    let text: Vec<u8> = (0..200).collect();
    print(&mut serial, &text);
    let writes = &serial.writer().writes;
    assert_eq!(writes.concat(), &text[..3 * WIRE_ROOM]);
    assert_eq!(writes.len(), 3);
    assert_eq!(serial.output(), &text[3 * WIRE_ROOM..]);
    // An exit of many bytes fills it too.
    serial.write_bytes(DATA, &text).unwrap();
    assert_eq!(serial.writer().writes.concat().len(), 384);
    serial.write_output().unwrap();
    assert_eq!(serial.writer().writes.concat(), [&text[..], &text].concat());
    assert_eq!(serial.overflows(), 0);
}

#[test]
fn without_bursts_each_byte_is_written_at_once() {
    let mut serial = Serial::new(Line, terminal());
    print(&mut serial, b"ab");
    assert_eq!(serial.writer().writes, [b"a", b"b"]);
    serial.set_bursts(true).unwrap();
    print(&mut serial, b"cd");
    // What is held when bursts end is written.
    serial.set_bursts(false).unwrap();
    print(&mut serial, b"e");
    assert_eq!(serial.writer().writes, [&b"a"[..], b"b", b"cd", b"e"]);
}

/// A state has what is held, and a device that continues from it begins without bursts.
#[test]
fn a_state_has_what_is_held() {
    let mut serial = device();
    print(&mut serial, b"saved");
    let state = serial.state();
    let Ok(mut again) = Serial::from_state(&state, Line, NoEvents, terminal()) else {
        panic!("a state of a device");
    };
    again.write(DATA, b'!').unwrap();
    assert_eq!(again.writer().writes, [b"saved!"]);
    let (Line, NoEvents, terminal) = serial.into_parts();
    assert_eq!(terminal.writes, [b"saved"]);
}

/// A host that takes nothing holds the guest back as without bursts, and nothing is lost.
#[test]
fn a_host_that_stops_holds_the_guest_back() {
    let mut serial = device();
    serial.writer_mut().mood = Mood::Full;
    let text: Vec<u8> = (0..200).collect();
    let mut sent = 0;
    while sent < text.len() && serial.read(LSR) & 0x20 != 0 {
        serial.write(DATA, text[sent]).unwrap();
        sent += 1;
    }
    assert_eq!(sent, 66);
    assert_eq!(serial.write_output().unwrap(), 0);
    serial.writer_mut().mood = Mood::Open;
    assert_eq!(serial.write_output().unwrap(), 66);
    print(&mut serial, &text[sent..]);
    serial.write_output().unwrap();
    assert_eq!(serial.writer().writes.concat(), text);
}

#[test]
fn a_terminal_that_breaks_is_told_when_it_is_written_to() {
    let mut serial = device();
    serial.writer_mut().mood = Mood::Broken;
    print(&mut serial, b"lost");
    assert!(matches!(serial.write_output(), Err(Error::IOError(()))));
    assert!(serial.output().is_empty());
    print(&mut serial, b"more");
    assert!(matches!(serial.set_bursts(false), Err(Error::IOError(()))));
    serial.writer_mut().mood = Mood::Open;
    print(&mut serial, b"x");
    assert_eq!(serial.writer().writes, [b"x"]);
}

/// In which order breaks and bytes came.
#[derive(Clone, Default)]
struct Order(Rc<Cell<[u32; 2]>>);

impl SerialEvents for Order {
    fn buffer_read(&self) {}
    fn out_byte(&self) {
        let [bytes, breaks] = self.0.get();
        self.0.set([bytes + 1, breaks]);
    }
    fn tx_lost_byte(&self) {}
    fn in_buffer_empty(&self) {}
    fn out_break(&self, _begins: bool) {
        let [bytes, breaks] = self.0.get();
        self.0.set([bytes, breaks * 10 + bytes]);
    }
}

/// A monitor that passes breaks on has what was sent before one.
#[test]
fn what_is_held_goes_before_a_break() {
    let order = Order::default();
    let mut serial = Serial::with_events(Line, order.clone(), terminal());
    serial.set_bursts(true).unwrap();
    print(&mut serial, b"abc");
    serial.write(LCR, SET_BREAK).unwrap();
    print(&mut serial, b"d");
    serial.write(LCR, 0).unwrap();
    // Three bytes came before the first, and four before the second.
    assert_eq!(order.0.get(), [4, 34]);
}

/// What the guest is told does not depend on bursts.
#[test]
fn a_guest_is_interrupted_as_without_bursts() {
    let mut serial = device();
    let mut other = Serial::new(Line, terminal());
    for device in [&mut serial, &mut other] {
        device.write(IER, 0x02).unwrap();
    }
    for byte in 0..200 {
        serial.write(DATA, byte).unwrap();
        other.write(DATA, byte).unwrap();
        for offset in [2, LSR] {
            assert_eq!(serial.read(offset), other.read(offset));
        }
        assert_eq!(serial.level(), other.level());
    }
}
