//! Input that waits for room.

use std::collections::VecDeque;
use std::convert::Infallible;
use std::io;
use std::io::{ErrorKind, Read};
use uart_16550_chip::{NoEvents, Serial, SerialState, Trigger};
use uart_16550_vmm::{BusSerial, Input, TriggerBy};

type Device<T> = Serial<T, NoEvents, Vec<u8>>;

/// A line that leads nowhere.
#[derive(Debug)]
struct Line;

impl Trigger for Line {
    type E = Infallible;

    fn trigger(&self) -> Result<(), Infallible> {
        Ok(())
    }
}

fn device() -> Device<Line> {
    Serial::new(Line, Vec::new())
}

fn restored(state: &SerialState) -> Device<Line> {
    Serial::from_state(state, Line, NoEvents, Vec::new()).expect("a state of a device")
}

/// A source that answers each read as it is told, and then would block.
#[derive(Default)]
struct Source(VecDeque<Result<Vec<u8>, ErrorKind>>);

impl Read for Source {
    fn read(&mut self, room: &mut [u8]) -> io::Result<usize> {
        let bytes = self.0.pop_front().unwrap_or(Err(ErrorKind::WouldBlock))?;
        room[..bytes.len()].copy_from_slice(&bytes);
        Ok(bytes.len())
    }
}

/// A device takes as much at once as its FIFO holds, and so does its place on a bus.
#[test]
fn larger_fifos_take_more_at_once() {
    let serial = Serial::<_, _, _, 64>::try_with_events(Line, NoEvents, Vec::new()).unwrap();
    let mut com1 = BusSerial::at_ports(serial);
    com1.write(2, &[0x01]);
    let mut input = Input::new(&[b'x'; 100][..]);
    assert_eq!(input.offer(com1.serial_mut()).unwrap(), 64);
    let mut value = [0];
    com1.read(0, &mut value);
    assert_eq!(
        (value, input.offer(com1.serial_mut()).unwrap()),
        ([b'x'], 1)
    );
}

#[test]
fn input_goes_on_as_there_is_room() {
    let mut serial = device();
    serial.write(2, 0x01).unwrap();
    let typed: Vec<u8> = (0..=255).chain(0..100).collect();
    let mut input = Input::new(&typed[..]);
    assert!(!input.is_at_end());
    let mut read = Vec::new();
    assert_eq!(input.offer(&mut serial).unwrap(), 16);
    assert_eq!(input.offer(&mut serial).unwrap(), 0);
    while serial.read(5) & 0x01 != 0 {
        read.push(serial.read(0));
        input.offer(&mut serial).unwrap();
    }
    assert_eq!(read, typed);
    assert!(input.is_at_end());
}

/// A machine that is saved goes on with its port's state and the same host, and nothing else: all that the port has not got is there.
#[test]
fn nothing_is_kept_that_a_state_has_not_got() {
    let typed: Vec<u8> = (0..200).collect();
    for is_fifo_on in [0, 1] {
        let mut serial = device();
        serial.write(2, is_fifo_on).unwrap();
        let mut source = &typed[..];
        Input::new(&mut source).offer(&mut serial).unwrap();
        let mut read = Vec::new();
        while serial.read(5) & 0x01 != 0 {
            let saved = SerialState::from_bytes(&serial.state().to_bytes()).unwrap();
            serial = restored(&saved);
            read.push(serial.read(0));
            Input::new(&mut source).offer(&mut serial).unwrap();
        }
        assert_eq!(read, typed);
    }
}

/// No more is asked for than there is room for.
#[test]
fn a_source_is_asked_for_no_more_than_there_is_room_for() {
    /// Has always more, and notes how much is asked for.
    struct Endless(Vec<usize>);

    impl Read for Endless {
        fn read(&mut self, room: &mut [u8]) -> io::Result<usize> {
            self.0.push(room.len());
            Ok(room.len().min(10))
        }
    }

    let mut serial = device();
    let mut source = Endless(Vec::new());
    assert_eq!(Input::new(&mut source).offer(&mut serial).unwrap(), 1);
    serial.write(2, 0x03).unwrap();
    assert_eq!(Input::new(&mut source).offer(&mut serial).unwrap(), 16);
    serial.read(0);
    assert_eq!(Input::new(&mut source).offer(&mut serial).unwrap(), 1);
    assert_eq!(source.0, [1, 16, 6, 1]);
}

/// One that says that it read more than that is not believed.
#[test]
fn a_source_that_lies_ends_no_monitor() {
    struct Liar;

    impl Read for Liar {
        fn read(&mut self, _: &mut [u8]) -> io::Result<usize> {
            Ok(1000)
        }
    }

    assert_eq!(Input::new(Liar).offer(&mut device()).unwrap(), 1);
}

#[test]
fn in_loopback_nothing_is_read_from_the_host() {
    let mut serial = device();
    serial.write(4, 0x10).unwrap();
    let mut input = Input::new(&b"abc"[..]);
    assert_eq!(input.offer(&mut serial).unwrap(), 0);
    serial.write(4, 0).unwrap();
    assert_eq!(input.offer(&mut serial).unwrap(), 1);
    assert!(!input.is_at_end());
}

#[test]
fn a_source_may_have_nothing_be_interrupted_fail_and_end() {
    let mut serial = device();
    serial.write(2, 0x01).unwrap();
    let mut input = Input::new(Source(
        [
            Err(ErrorKind::WouldBlock),
            Err(ErrorKind::Interrupted),
            Ok(vec![1, 2]),
            Err(ErrorKind::WouldBlock),
            Err(ErrorKind::BrokenPipe),
            Ok(vec![3]),
            Ok(vec![]),
            Ok(vec![4]),
        ]
        .into(),
    ));
    assert_eq!(input.offer(&mut serial).unwrap(), 0);
    assert_eq!(input.offer(&mut serial).unwrap(), 2);
    let failed = input.offer(&mut serial).unwrap_err();
    assert_eq!(failed.kind(), ErrorKind::BrokenPipe);
    assert!(!input.is_at_end());
    assert_eq!(input.offer(&mut serial).unwrap(), 1);
    assert!(input.is_at_end());
    // A file that grows is a source that goes on.
    assert_eq!(input.offer(&mut serial).unwrap(), 1);
    assert!(!input.is_at_end());
    assert_eq!([0; 5].map(|_: i32| serial.read(0)), [1, 2, 3, 4, 4]);
}

#[test]
fn a_source_that_is_always_interrupted_is_given_up() {
    let mut serial = device();
    let interrupted = |times| {
        let interruptions = (0..times).map(|_| Err(ErrorKind::Interrupted));
        Source(interruptions.chain([Ok(vec![1])]).collect())
    };
    let mut input = Input::new(interrupted(15));
    assert_eq!(input.offer(&mut serial).unwrap(), 1);
    serial.read(0);
    let mut input = Input::new(interrupted(16));
    let failed = input.offer(&mut serial).unwrap_err();
    assert_eq!(failed.kind(), ErrorKind::Interrupted);
    assert_eq!(input.offer(&mut serial).unwrap(), 1);
}

/// What was received although the interrupt failed is not offered again.
#[test]
fn an_interrupt_that_fails_loses_no_input() {
    let mut serial: Device<_> = Serial::new(TriggerBy(|| Err::<(), ()>(())), Vec::new());
    serial.write(2, 0x01).unwrap();
    serial.write(1, 0x01).unwrap();
    let mut input = Input::new(&b"abc"[..]);
    assert_eq!(input.offer(&mut serial).unwrap(), 3);
    assert_eq!([0; 3].map(|_: i32| serial.read(0)), *b"abc");
}
