//! What a monitor is told, and what the short ways and the long ways of a call have in common.

use std::cell::{Cell, RefCell};
use uart_16550_chip::serial::Error;
use uart_16550_chip::{Output, Serial, SerialEvents, Trigger};

const DATA: u8 = 0;
const IER: u8 = 1;
const FCR: u8 = 2;
const LSR: u8 = 5;
const SPR: u8 = 7;

const DATA_READY: u8 = 0x01;

/// An interrupt line: the levels that were set, in order, and how often it was triggered.
#[derive(Default)]
struct Line {
    levels: RefCell<Vec<bool>>,
    count: Cell<usize>,
    is_broken: Cell<bool>,
}

#[derive(Clone, Copy, Debug, PartialEq)]
struct Broken;

impl Trigger for &Line {
    type E = Broken;

    fn trigger(&self) -> Result<(), Broken> {
        self.count.set(self.count.get() + 1);
        if self.is_broken.get() {
            Err(Broken)
        } else {
            Ok(())
        }
    }

    fn set_level(&self, level: bool) -> Result<(), Broken> {
        self.levels.borrow_mut().push(level);
        Ok(())
    }
}

/// An output that takes so many bytes, and then is broken or full.
struct Screen {
    room: usize,
    is_broken: bool,
}

impl Output for Screen {
    type Error = Broken;

    fn write_bytes(&mut self, bytes: &[u8]) -> Result<usize, Broken> {
        let count = bytes.len().min(self.room);
        if count == 0 && self.is_broken {
            return Err(Broken);
        }
        self.room -= count;
        Ok(count)
    }
}

const FULL: Screen = Screen {
    room: 0,
    is_broken: false,
};

/// The events, by their letters.
#[derive(Default)]
struct Log(RefCell<String>);

impl Log {
    fn add(&self, letter: char) {
        self.0.borrow_mut().push(letter);
    }

    fn take(&self) -> String {
        self.0.take()
    }
}

impl SerialEvents for Log {
    fn buffer_read(&self) {
        self.add('r');
    }

    fn out_byte(&self) {
        self.add('o');
    }

    fn tx_lost_byte(&self) {
        self.add('l');
    }

    fn in_buffer_empty(&self) {
        self.add('e');
    }

    fn tx_held(&self) {
        self.add('h');
    }

    fn out_break(&self, begins: bool) {
        self.add(if begins { 'b' } else { 'B' });
    }

    fn tx_overflow(&self) {
        self.add('O');
    }

    fn rx_overrun(&self) {
        self.add('R');
    }

    fn triggered(&self) {
        self.add('t');
    }

    fn trigger_failed(&self) {
        self.add('f');
    }
}

/// Events that are lent.
struct Lent<'a>(&'a Log);

impl SerialEvents for Lent<'_> {
    fn buffer_read(&self) {
        self.0.buffer_read();
    }

    fn out_byte(&self) {
        self.0.out_byte();
    }

    fn tx_lost_byte(&self) {
        self.0.tx_lost_byte();
    }

    fn in_buffer_empty(&self) {
        self.0.in_buffer_empty();
    }

    fn tx_held(&self) {
        self.0.tx_held();
    }

    fn tx_overflow(&self) {
        self.0.tx_overflow();
    }

    fn rx_overrun(&self) {
        self.0.rx_overrun();
    }

    fn triggered(&self) {
        self.0.triggered();
    }

    fn trigger_failed(&self) {
        self.0.trigger_failed();
    }
}

/// Whether the guest polls or has interrupts on, a read of DATA is told, and room when nothing waits any more.
#[test]
fn reads_of_data_are_told_whatever_the_guest_enabled() {
    for interrupts in [0, DATA_READY] {
        let (line, log) = (Line::default(), Log::default());
        let mut serial = Serial::with_events(&line, Lent(&log), FULL);
        serial.write(FCR, 0x01).unwrap();
        serial.write(IER, interrupts).unwrap();
        serial.enqueue_raw_bytes(b"abc").unwrap();
        log.take();
        let told = [(); 3].map(|()| {
            serial.read(DATA);
            log.take().replace('t', "")
        });
        assert_eq!(told, ["r", "r", "re"], "IER {interrupts:02x}");
    }
}

#[test]
fn a_new_device_tells_the_level_when_it_changes() {
    let (line, log) = (Line::default(), Log::default());
    let mut serial = Serial::with_events(&line, Lent(&log), FULL);
    serial.read(SPR);
    serial.read(LSR);
    serial.write(SPR, 1).unwrap();
    assert_eq!((line.levels.borrow().len(), &*log.take()), (0, ""));
    serial.write(IER, DATA_READY).unwrap();
    serial.enqueue_raw_bytes(b"a").unwrap();
    assert_eq!(line.levels.borrow().last(), Some(&true));
    serial.read(DATA);
    assert_eq!(line.levels.borrow().last(), Some(&false));
}

#[test]
fn a_break_is_a_character_0() {
    let line = Line::default();
    let mut serial = Serial::new(&line, FULL);
    serial.enqueue_break().unwrap();
    assert_eq!((serial.read(LSR), serial.read(DATA)), (0x71, 0));
}

/// A byte that is not alone takes the long way, and the output that fails there is told too.
#[test]
fn an_output_that_fails_behind_other_bytes_is_told() {
    let (line, log) = (Line::default(), Log::default());
    let mut serial = Serial::with_events(&line, Lent(&log), FULL);
    serial.write(DATA, b'a').unwrap();
    assert_eq!(log.take(), "h");
    serial.writer_mut().is_broken = true;
    assert!(matches!(
        serial.write(DATA, b'b'),
        Err(Error::IOError(Broken))
    ));
    assert_eq!(log.take(), "ll");
    assert!(serial.output().is_empty());
}

/// Everything is passed on to what is behind an `Arc`.
#[cfg(feature = "std")]
#[test]
// A log is of one thread alone, and so is its `Arc` here: what counts is that the calls are passed on.
#[allow(clippy::arc_with_non_send_sync)]
fn events_behind_an_arc_are_those_of_what_is_behind_it() {
    type Call = fn(&std::sync::Arc<Log>);
    let events = std::sync::Arc::new(Log::default());
    let calls: [(char, Call); 10] = [
        ('r', |events| SerialEvents::buffer_read(events)),
        ('o', |events| SerialEvents::out_byte(events)),
        ('l', |events| SerialEvents::tx_lost_byte(events)),
        ('e', |events| SerialEvents::in_buffer_empty(events)),
        ('h', |events| SerialEvents::tx_held(events)),
        ('b', |events| SerialEvents::out_break(events, true)),
        ('O', |events| SerialEvents::tx_overflow(events)),
        ('R', |events| SerialEvents::rx_overrun(events)),
        ('t', |events| SerialEvents::triggered(events)),
        ('f', |events| SerialEvents::trigger_failed(events)),
    ];
    for (letter, call) in calls {
        call(&events);
        assert_eq!(events.take(), letter.to_string());
    }
}
