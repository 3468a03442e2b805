//! What real guests and monitors found in the first version of the device, one test for each. Each of them failed on that version.

#![cfg(feature = "std")]

use std::cell::{Cell, RefCell};
use std::collections::VecDeque;
use std::convert::Infallible;
use std::io::{self, Write};
use std::rc::Rc;
use uart_16550_chip::registers::{LSR, MSR};
use uart_16550_chip::serial::{BadState, Error};
use uart_16550_chip::{
    Chip, LiveChip, NoEvents, Serial, SerialEvents, SerialState, Shifting, Trigger, WIRE_ROOM,
};

const DATA: u8 = 0;
const IER: u8 = 1;
const ISR: u8 = 2;
const FCR: u8 = 2;
const MCR: u8 = 4;
const LSR_OFFSET: u8 = 5;

const DATA_READY: u8 = 0x01;
const THR_EMPTY: u8 = 0x02;
/// FIFOs on and emptied, with trigger level 8.
const FIFOS: u8 = 0x87;
const RECEIVED: u8 = 0x01;
const CAN_SEND: u8 = 0x20;
const NONE_PENDING: u8 = 0x01;

/// An interrupt controller of a PC: it keeps one edge, and delivers it when the guest is not in its handler.
#[derive(Clone, Default)]
struct Edges {
    is_latched: Rc<Cell<bool>>,
    count: Rc<Cell<u32>>,
}

impl Trigger for Edges {
    type E = Infallible;

    fn trigger(&self) -> Result<(), Infallible> {
        self.is_latched.set(true);
        self.count.set(self.count.get() + 1);
        Ok(())
    }
}

/// Whether the monitor was told to go on with its input.
#[derive(Clone, Default)]
struct GoOn(Rc<Cell<bool>>);

impl SerialEvents for GoOn {
    fn buffer_read(&self) {}

    fn out_byte(&self) {}

    fn tx_lost_byte(&self) {}

    fn in_buffer_empty(&self) {
        self.0.set(true);
    }
}

/// A monitor as most are: it reads its input until there is no room, and goes on when it is told.
struct Monitor {
    serial: Serial<Edges, GoOn, Vec<u8>>,
    edges: Edges,
    go_on: GoOn,
    input: VecDeque<u8>,
}

impl Monitor {
    fn new(input: &[u8]) -> Self {
        let edges = Edges::default();
        let go_on = GoOn(Rc::new(Cell::new(true)));
        Monitor {
            serial: Serial::with_events(edges.clone(), go_on.clone(), Vec::new()),
            edges,
            go_on,
            input: input.iter().copied().collect(),
        }
    }

    /// Offers input, if the monitor was told that there is room. It asks for the capacity first, and offers no more.
    fn offer(&mut self) {
        if !self.go_on.0.take() {
            return;
        }
        while !self.input.is_empty() && self.serial.fifo_capacity() > 0 {
            let count = self.serial.fifo_capacity().min(self.input.len());
            let bytes: Vec<u8> = self.input.iter().copied().take(count).collect();
            let received = self.serial.enqueue_raw_bytes(&bytes).unwrap();
            self.input.drain(..received);
        }
        if self.input.is_empty() {
            self.go_on.0.set(true);
        }
    }

    fn read(&mut self, offset: u8) -> u8 {
        let value = self.serial.read(offset);
        self.offer();
        value
    }

    fn write(&mut self, offset: u8, value: u8) {
        self.serial.write(offset, value).unwrap();
        self.offer();
    }

    /// Runs this handler as long as an edge is latched, and returns what it read.
    fn interrupts(&mut self, mut handler: impl FnMut(&mut Self, &mut Vec<u8>)) -> Vec<u8> {
        let mut read = Vec::new();
        for _ in 0..10_000 {
            if !self.edges.is_latched.take() {
                return read;
            }
            handler(self, &mut read);
        }
        panic!("interrupts without end");
    }
}

/// The handler of Linux: it drains what LSR shows, until ISR shows none.
fn linux(monitor: &mut Monitor, read: &mut Vec<u8>) {
    while monitor.read(ISR) & NONE_PENDING == 0 {
        while monitor.read(LSR_OFFSET) & RECEIVED != 0 {
            read.push(monitor.read(DATA));
        }
    }
}

#[test]
fn one_input_goes_on_after_the_fifo_is_enabled_and_after_loopback() {
    for typed in [2, 51] {
        let text: Vec<u8> = (0..typed).collect();
        let mut monitor = Monitor::new(&text);
        monitor.offer();
        // The guest boots: it tests the chip in loopback, and empties its FIFOs.
        monitor.write(MCR, 0x1b);
        monitor.write(MCR, 0x0b);
        monitor.write(FCR, FIFOS);
        monitor.write(IER, DATA_READY);
        let read = monitor.interrupts(linux);
        assert!(monitor.input.is_empty(), "{typed} characters typed before");
        assert_eq!(read.last(), text.last());
        // What is typed then is read.
        monitor.input.push_back(b'x');
        monitor.offer();
        assert_eq!(monitor.interrupts(linux), b"x");
    }
}

#[test]
fn two_no_edge_is_lost_when_the_monitor_tops_up() {
    let mut monitor = Monitor::new(&[]);
    monitor.write(FCR, FIFOS);
    monitor.write(IER, DATA_READY);
    monitor.serial.enqueue_raw_bytes(&[1; 16]).unwrap();
    assert!(monitor.edges.is_latched.take());
    // The handler drains, leaves, and only then is the FIFO topped up: the line never fell.
    monitor.read(ISR);
    for _ in 0..4 {
        monitor.read(DATA);
    }
    monitor.serial.enqueue_raw_bytes(&[2; 4]).unwrap();
    assert!(monitor.edges.is_latched.get());
}

#[test]
fn two_no_edge_is_lost_when_the_line_falls_and_rises_in_a_read() {
    let mut monitor = Monitor::new(&[]);
    monitor.write(FCR, FIFOS);
    monitor.write(IER, DATA_READY);
    monitor.serial.enqueue_raw_bytes(&[7; 12]).unwrap();
    // A handler that reads as many characters as the trigger level, and no more, comes again for the others.
    let read = monitor.interrupts(|monitor, read| {
        let cause = monitor.read(ISR) & 0x0f;
        for _ in 0..[8, 1][usize::from(cause == 0x0c)] {
            read.push(monitor.read(DATA));
        }
    });
    assert_eq!(read, [7; 12]);
}

#[test]
fn three_a_burst_of_16_is_one_trigger() {
    let mut monitor = Monitor::new(&[]);
    monitor.write(FCR, FIFOS);
    monitor.write(IER, THR_EMPTY);
    assert_eq!(monitor.read(ISR) & 0x0f, 0x02);
    let before = monitor.edges.count.get();
    for byte in 0..16 {
        monitor.write(DATA, byte);
    }
    assert_eq!(monitor.edges.count.get() - before, 1);
}

/// A pipe that is full after some bytes, until somebody reads from it.
#[derive(Clone, Default)]
struct Pipe(Rc<RefCell<(Vec<u8>, usize)>>);

impl Write for Pipe {
    fn write(&mut self, bytes: &[u8]) -> io::Result<usize> {
        let mut pipe = self.0.borrow_mut();
        let count = pipe.1.min(bytes.len());
        if count == 0 {
            return Err(io::ErrorKind::WouldBlock.into());
        }
        pipe.1 -= count;
        pipe.0.extend(&bytes[..count]);
        Ok(count)
    }

    fn flush(&mut self) -> io::Result<()> {
        Ok(())
    }
}

#[test]
fn four_a_slow_host_loses_nothing() {
    let pipe = Pipe::default();
    let mut serial = Serial::new(Edges::default(), pipe.clone());
    serial.write(FCR, FIFOS).unwrap();
    let text: Vec<u8> = (0..1000_u32).map(|number| number as u8).collect();
    let mut left = text.iter();
    for turn in 0..10_000 {
        // The guest sends while LSR shows room, and the host reads three bytes now and then.
        if serial.read(LSR_OFFSET) & CAN_SEND != 0 {
            if let Some(byte) = left.next() {
                serial.write(DATA, *byte).unwrap();
            }
        }
        if turn % 5 == 0 {
            pipe.0.borrow_mut().1 += 3;
            serial.write_output().unwrap();
        }
    }
    assert!(
        pipe.0.borrow().0 == text,
        "what came out is not what was sent"
    );
    assert_eq!(serial.overflows(), 0);
}

/// States that no device has.
fn bad_states() -> Vec<SerialState> {
    let good = SerialState::default();
    let with = |change: fn(&mut SerialState)| {
        let mut state = good;
        change(&mut state);
        state
    };
    vec![
        with(|state| state.chip.model = Chip::Uart16450),
        with(|state| state.chip.transmitter.queue.push(1)),
        with(|state| {
            state.chip.transmitter.shift_register = Some(Shifting {
                byte: 1,
                ticks_left: 1,
            });
        }),
        with(|state| state.chip.receiver.timeout_ticks = 0),
        with(|state| state.chip.transmitter.char_ticks = 2),
        with(|state| state.chip.transmitter.wire_capacity = 63),
        with(|state| state.chip.cuts = true),
        with(|state| {
            state.chip = LiveChip::new(Chip::Uart16550A, 1, WIRE_ROOM)
                .unwrap()
                .data()
        }),
    ]
}

#[test]
fn five_a_state_of_no_device_is_refused() {
    for state in bad_states() {
        let refused = Serial::from_state(&state, Edges::default(), NoEvents, Vec::new());
        let reason = refused.map(|_| ()).unwrap_err().reason;
        assert!(matches!(reason, BadState::Chip(_)), "{state:?}");
    }
}

/// A trigger that can be broken.
#[derive(Debug, Default)]
struct Switch(Cell<bool>);

#[derive(Debug, PartialEq)]
struct Broken;

impl Trigger for &Switch {
    type E = Broken;

    fn trigger(&self) -> Result<(), Broken> {
        if self.0.get() { Err(Broken) } else { Ok(()) }
    }
}

#[test]
fn six_a_trigger_that_fails_says_how_much_was_taken_and_everything_is_given_back() {
    let switch = Switch::default();
    let mut serial = Serial::new(&switch, Vec::new());
    serial.write(FCR, FIFOS).unwrap();
    serial.write(IER, DATA_READY).unwrap();
    switch.0.set(true);
    match serial.enqueue_raw_bytes(&[1; 20]) {
        Err(Error::Trigger(failed)) => assert_eq!((failed.cause, failed.taken), (Broken, 16)),
        other => panic!("{other:?}"),
    }
    let mut state = serial.state();
    state.chip.cuts = true;
    let refused = Serial::from_state(&state, &switch, NoEvents, vec![1, 2]).unwrap_err();
    assert_eq!((refused.trigger.0.get(), refused.out), (true, vec![1, 2]));
}

/// A line of a level-triggered controller, with the count of each event.
#[derive(Clone, Default)]
struct Level {
    is_high: Rc<Cell<bool>>,
    overruns: Rc<Cell<u32>>,
    failures: Rc<Cell<u32>>,
    is_broken: Rc<Cell<bool>>,
}

impl Trigger for Level {
    type E = Broken;

    fn trigger(&self) -> Result<(), Broken> {
        Ok(())
    }

    fn set_level(&self, level: bool) -> Result<(), Broken> {
        if self.is_broken.get() {
            return Err(Broken);
        }
        self.is_high.set(level);
        Ok(())
    }
}

impl SerialEvents for Level {
    fn buffer_read(&self) {}

    fn out_byte(&self) {}

    fn tx_lost_byte(&self) {}

    fn in_buffer_empty(&self) {}

    fn rx_overrun(&self) {
        self.overruns.set(self.overruns.get() + 1);
    }

    fn trigger_failed(&self) {
        self.failures.set(self.failures.get() + 1);
    }
}

#[test]
fn seven_breaks_errors_overruns_levels_and_counters() {
    let line = Level::default();
    let mut serial = Serial::with_events(line.clone(), line.clone(), Vec::new());
    serial.write(IER, 0x0f).unwrap();
    serial.read(ISR);
    assert!(!line.is_high.get());
    serial.enqueue_break().unwrap();
    assert!(line.is_high.get());
    assert_eq!((serial.read(ISR), serial.read(LSR_OFFSET)), (0x06, 0x71));
    serial.enqueue_with_errors(b'a', LSR::PARITY_ERROR).unwrap();
    assert_eq!((line.overruns.get(), serial.read(LSR_OFFSET)), (1, 0x67));
    assert_eq!(serial.read(DATA), b'a');
    assert!(!line.is_high.get());
    // A level that could not be set is set by the next call.
    line.is_broken.set(true);
    assert!(serial.set_lines(MSR::DSR).is_err());
    line.is_broken.set(false);
    assert_eq!((line.failures.get(), line.is_high.get()), (1, false));
    serial.read(LSR_OFFSET);
    assert!(line.is_high.get());
    // At the end of an interrupt the controller takes the line down, and the device sets it again.
    line.is_high.set(false);
    serial.resample().unwrap();
    assert!(line.is_high.get());
}

/// A wrapper as monitors write it: the device, its input, and a state that is kept with others.
mod eight {
    use super::*;
    use std::io::Read;
    use std::sync::Arc;
    use uart_16550_chip::serial::FromStateError;

    struct SerialWrapper<T: Trigger, EV: SerialEvents, I: Read, W: Write> {
        serial: Serial<T, EV, W>,
        input: Option<I>,
    }

    #[derive(Debug)]
    #[allow(dead_code)]
    enum RawIOError {
        Serial(Error<io::Error>),
        IO(io::Error),
    }

    impl<EV: SerialEvents, I: Read, W: Write> SerialWrapper<EventFd, EV, I, W> {
        fn enqueue_raw_bytes(&mut self, data: &[u8]) -> Result<usize, RawIOError> {
            self.serial
                .enqueue_raw_bytes(data)
                .map_err(RawIOError::Serial)
        }

        fn recv_bytes(&mut self) -> Result<usize, RawIOError> {
            let mut out = vec![0; self.serial.fifo_capacity()];
            let Some(input) = self.input.as_mut() else {
                return Ok(0);
            };
            let count = input.read(&mut out).map_err(RawIOError::IO)?;
            self.enqueue_raw_bytes(&out[..count])
        }
    }

    struct EventFd;

    impl Trigger for EventFd {
        type E = io::Error;

        fn trigger(&self) -> io::Result<()> {
            Ok(())
        }
    }

    /// States of devices, as a monitor keeps them.
    #[derive(Clone, Debug, Default, PartialEq)]
    struct States {
        serial: SerialState,
        others: Vec<u8>,
    }

    #[test]
    fn a_wrapper_compiles_with_one_type_changed() {
        let mut wrapper = SerialWrapper {
            serial: Serial::with_events(EventFd, Arc::new(NoEvents), io::sink()),
            input: Some(&b"ab"[..]),
        };
        assert_eq!(wrapper.recv_bytes().unwrap(), 1);
        let states = States {
            serial: wrapper.serial.state(),
            ..States::default()
        };
        assert_ne!(states, States::default());
        let restored: Result<_, FromStateError<_, _, _>> =
            Serial::from_state(&states.serial, EventFd, NoEvents, io::sink());
        assert_eq!(restored.unwrap().read(DATA), b'a');
    }
}
