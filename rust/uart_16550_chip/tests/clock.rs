//! A device whose monitor has a clock, beside one whose monitor has none: each signal of the second is given by the first too, or put off
//! until time passes, or the line has fallen since.

#![cfg(feature = "std")]

use std::cell::Cell;
use std::io::{Sink, sink};
use uart_16550_chip::registers::{LSR, MSR};
use uart_16550_chip::{Serial, SerialEvents, Trigger};

const DATA: u8 = 0;
const IER: u8 = 1;
const ISR: u8 = 2;
const FCR: u8 = 2;
const MCR: u8 = 4;
const LSR_OFFSET: u8 = 5;

/// A line, which can be broken, how often it was triggered, and its level.
#[derive(Default)]
struct Line {
    count: Cell<u32>,
    level: Cell<bool>,
    is_broken: Cell<bool>,
}

impl Trigger for &Line {
    type E = ();

    fn trigger(&self) -> Result<(), ()> {
        if self.is_broken.get() {
            return Err(());
        }
        self.count.set(self.count.get() + 1);
        Ok(())
    }

    fn set_level(&self, level: bool) -> Result<(), ()> {
        if self.is_broken.get() {
            return Err(());
        }
        self.level.set(level);
        Ok(())
    }
}

/// How often an interrupt was put off.
#[derive(Default)]
struct PutOff(Cell<u32>);

impl SerialEvents for &PutOff {
    fn buffer_read(&self) {}
    fn out_byte(&self) {}
    fn tx_lost_byte(&self) {}
    fn in_buffer_empty(&self) {}
    fn timeout_to_come(&self) {
        self.0.set(self.0.get() + 1);
    }
}

type Device<'a> = Serial<&'a Line, &'a PutOff, Sink>;

/// Pseudorandom numbers: xorshift.
struct Random(u64);

impl Random {
    fn below(&mut self, end: usize) -> usize {
        self.0 ^= self.0 << 13;
        self.0 ^= self.0 >> 7;
        self.0 ^= self.0 << 17;
        (self.0 % end as u64) as usize
    }

    fn byte(&mut self) -> u8 {
        self.below(256) as u8
    }
}

/// Makes the same random call of both. Most are those of a guest that receives.
fn any_call(devices: &mut [Device; 2], random: &mut Random) {
    let (kind, byte, length) = (random.below(20), random.byte(), random.below(20));
    let offset = random.below(8) as u8;
    let mut values = Vec::new();
    for serial in devices {
        match kind {
            0..8 => values.push(serial.read(DATA)),
            8..11 => values.push(serial.read(offset)),
            11..15 => _ = serial.enqueue_raw_bytes(&vec![byte; length]),
            15 => _ = serial.write(FCR, [0x81, 0xc1, 0x01 | byte & 0xc6][length % 3]),
            16 => _ = serial.write(IER, [0x01, 0x05, byte & 0x0f][length % 3]),
            // Loopback now and then
            17 => _ = serial.write(MCR, byte & [0x0f, 0x1f][usize::from(length == 0)]),
            18 => _ = serial.write(DATA, byte),
            _ => {
                let errors = LSR::from_bits_retain(byte) & LSR::CHARACTER_ERRORS;
                _ = serial.enqueue_with_errors(byte, errors);
                _ = serial.set_lines(MSR::from_bits_retain(byte));
            }
        }
    }
    assert!(values.len() < 2 || values[0] == values[1]);
}

#[test]
fn each_signal_is_given_or_put_off() {
    let put_off = PutOff::default();
    let mut passed = 0;
    for seed in 1..=50 {
        let lines = [Line::default(), Line::default()];
        let mut random = Random(seed);
        let mut devices =
            [&lines[0], &lines[1]].map(|line| Serial::with_events(line, &put_off, sink()));
        for serial in &mut devices {
            serial.write(FCR, 0x81).unwrap();
            serial.write(IER, 0x01).unwrap();
        }
        devices[1].set_clock(true).unwrap();
        let mut counts = [0, 0];
        // A signal that the device with a clock did not give, though the line is up since.
        let mut is_owed = false;
        for _call in 0..2000 {
            any_call(&mut devices, &mut random);
            let gave = [0, 1].map(|at| lines[at].count.get() != counts[at]);
            is_owed = (is_owed || gave[0]) && !gave[1] && devices[1].level();
            assert_eq!(devices[0].level(), devices[1].level());
            assert!(!gave[1] || gave[0]);
            assert!(!devices[0].is_timeout_to_come());
            assert_eq!(devices[1].is_timeout_to_come(), is_owed);
            if random.below(10) == 0 {
                let count = lines[1].count.get();
                devices[1].timeout_passed().unwrap();
                assert_eq!(lines[1].count.get(), count + u32::from(is_owed));
                passed += u32::from(is_owed);
                is_owed = false;
            }
            counts = [0, 1].map(|at| lines[at].count.get());
        }
    }
    let count = put_off.0.get();
    assert!(count > 1000 && passed > 100, "{count} {passed}");
}

#[test]
fn a_timeout_that_cannot_be_triggered_is_tried_again() {
    let (line, put_off) = (Line::default(), PutOff::default());
    let mut serial: Device = Serial::with_events(&line, &put_off, sink());
    serial.set_clock(true).unwrap();
    serial.write(FCR, 0x81).unwrap();
    serial.write(IER, 0x01).unwrap();
    serial.enqueue_raw_bytes(&[0; 12]).unwrap();
    (0..5).for_each(|_| _ = serial.read(DATA));
    assert_eq!((line.count.get(), put_off.0.get()), (1, 1));
    line.is_broken.set(true);
    serial.timeout_passed().unwrap_err();
    line.is_broken.set(false);
    serial.timeout_passed().unwrap();
    serial.timeout_passed().unwrap();
    assert_eq!(line.count.get(), 2);
}

/// What could not be triggered is told in the next call, even if that asks for a signal that can wait.
#[test]
fn what_is_tried_again_is_not_put_off() {
    let (line, put_off) = (Line::default(), PutOff::default());
    let mut serial: Device = Serial::with_events(&line, &put_off, sink());
    serial.set_clock(true).unwrap();
    serial.write(FCR, 0x81).unwrap();
    serial.write(IER, 0x01).unwrap();
    line.is_broken.set(true);
    serial.enqueue_raw_bytes(&[0; 12]).unwrap_err();
    (0..4).for_each(|_| _ = serial.read(DATA));
    line.is_broken.set(false);
    // This one takes the line down, and a timeout takes it up.
    serial.read(DATA);
    assert_eq!((line.count.get(), put_off.0.get()), (1, 0));
    assert!(!serial.is_timeout_to_come());
}

/// A transmitter that is empty again is no news while the guest may still be in its handler. The level waits with the signal.
#[test]
fn what_a_write_brings_waits_too() {
    let (line, put_off) = (Line::default(), PutOff::default());
    let mut serial: Device = Serial::with_events(&line, &put_off, sink());
    serial.set_clock(true).unwrap();
    serial.write(FCR, 0x81).unwrap();
    // The guest enables the interrupt: that is no access of DATA.
    serial.write(IER, 0x02).unwrap();
    assert_eq!((line.count.get(), line.level.get()), (1, true));
    assert_eq!(serial.read(ISR), 0xc2);
    assert!(!line.level.get());
    serial.write(DATA, b'x').unwrap();
    assert!(serial.level() && serial.is_timeout_to_come());
    assert_eq!((line.count.get(), line.level.get()), (1, false));
    serial.timeout_passed().unwrap();
    assert_eq!((line.count.get(), line.level.get()), (2, true));
    // A second byte, after which the guest disables the interrupt: nothing is left to be told.
    assert_eq!(serial.read(ISR), 0xc2);
    serial.write(DATA, b'y').unwrap();
    serial.write(IER, 0x00).unwrap();
    assert!(!serial.is_timeout_to_come());
    serial.timeout_passed().unwrap();
    assert_eq!((line.count.get(), line.level.get()), (2, false));
}

/// A monitor that has no clock any more calls `timeout_passed` no more. So what is put off is told by the call that says so.
#[test]
fn a_clock_that_stops_loses_nothing() {
    let (line, put_off) = (Line::default(), PutOff::default());
    let mut serial: Device = Serial::with_events(&line, &put_off, sink());
    serial.set_clock(true).unwrap();
    serial.write(IER, 0x02).unwrap();
    serial.read(ISR);
    serial.write(DATA, b'x').unwrap();
    assert_eq!((line.count.get(), serial.is_timeout_to_come()), (1, true));
    // A clock that is there already changes nothing.
    serial.set_clock(true).unwrap();
    assert_eq!(line.count.get(), 1);
    line.is_broken.set(true);
    serial.set_clock(false).unwrap_err();
    line.is_broken.set(false);
    serial.set_clock(false).unwrap();
    assert_eq!((line.count.get(), line.level.get()), (2, true));
    serial.set_clock(false).unwrap();
    assert_eq!(line.count.get(), 2);
    // From now on nothing is put off.
    serial.read(ISR);
    serial.write(DATA, b'y').unwrap();
    assert_eq!((line.count.get(), put_off.0.get()), (3, 1));
}

/// A read of DATA that brings a character with an error to the front raises the line. That is no timeout, and not put off.
#[test]
fn a_rise_in_a_read_of_data_is_signalled_at_once() {
    let (line, put_off) = (Line::default(), PutOff::default());
    let mut serial: Device = Serial::with_events(&line, &put_off, sink());
    serial.set_clock(true).unwrap();
    serial.write(FCR, 0x81).unwrap();
    serial.write(IER, 0x04).unwrap();
    serial.enqueue_raw_bytes(b"a").unwrap();
    serial.enqueue_with_errors(b'b', LSR::PARITY_ERROR).unwrap();
    assert_eq!((line.count.get(), serial.level()), (0, false));
    assert_eq!(serial.read(DATA), b'a');
    assert_eq!((line.count.get(), serial.level()), (1, true));
    assert!(!serial.is_timeout_to_come());
}

/// A state has nothing that is put off. A device that continues from it interrupts the guest if its line is up.
#[test]
fn what_is_put_off_is_not_lost_with_a_state() {
    let (line, put_off) = (Line::default(), PutOff::default());
    let mut serial: Device = Serial::with_events(&line, &put_off, sink());
    serial.set_clock(true).unwrap();
    serial.write(FCR, 0x81).unwrap();
    serial.write(IER, 0x01).unwrap();
    serial.enqueue_raw_bytes(&[0; 12]).unwrap();
    (0..5).for_each(|_| _ = serial.read(DATA));
    assert!(serial.is_timeout_to_come());
    let state = serial.state();
    let restored = Line::default();
    let Ok(serial) = Serial::from_state(&state, &restored, &put_off, sink()) else {
        panic!("a state of a device");
    };
    assert_eq!(restored.count.get(), 1);
    assert!(!serial.is_timeout_to_come());
}

/// A FIFO of input, and Linux's handler, while another processor prints so many bytes by polling before each read of DATA.
fn triggers_of_a_fifo(drains: bool, printed: usize) -> u32 {
    let (line, put_off) = (Line::default(), PutOff::default());
    let mut serial: Device = Serial::with_events(&line, &put_off, sink());
    serial.set_handler_drains(drains).unwrap();
    serial.write(FCR, 0x81).unwrap();
    serial.write(IER, 0x01).unwrap();
    assert_eq!(serial.enqueue_raw_bytes(&[b'x'; 16]).unwrap(), 16);
    while serial.read(ISR) & 0x01 == 0 {
        while serial.read(LSR_OFFSET) & 0x01 != 0 {
            (0..printed).for_each(|_| serial.write(DATA, b'>').unwrap());
            assert_eq!(serial.read(DATA), b'x');
        }
    }
    assert!(!serial.level() && !serial.is_timeout_to_come());
    assert_eq!(put_off.0.get(), 0);
    line.count.get()
}

#[test]
fn a_fifo_of_input_is_one_signal_for_a_handler_that_drains() {
    for printed in 0..=15 {
        assert_eq!(triggers_of_a_fifo(true, printed), 1, "{printed} printed");
    }
}

/// A handler that drains looks after each read. What it writes may be the last that it does, so nothing of that waits.
#[test]
fn a_handler_that_drains_waits_for_nothing_that_it_writes() {
    let (line, put_off) = (Line::default(), PutOff::default());
    let mut serial: Device = Serial::with_events(&line, &put_off, sink());
    serial.set_handler_drains(true).unwrap();
    serial.write(IER, 0x02).unwrap();
    assert_eq!(serial.read(ISR), 0x02);
    serial.write(DATA, b'x').unwrap();
    assert_eq!((line.count.get(), line.level.get()), (2, true));
    assert_eq!(put_off.0.get(), 0);
}

/// A monitor may learn that another guest runs now. What was put off for the one before is told then, and from then on nothing waits.
#[test]
fn a_handler_that_drains_no_more_is_told_what_was_put_off() {
    let (line, put_off) = (Line::default(), PutOff::default());
    let mut serial: Device = Serial::with_events(&line, &put_off, sink());
    serial.set_handler_drains(true).unwrap();
    serial.write(FCR, 0x81).unwrap();
    serial.write(IER, 0x01).unwrap();
    serial.enqueue_raw_bytes(&[0; 12]).unwrap();
    (0..5).for_each(|_| _ = serial.read(DATA));
    assert_eq!((line.count.get(), serial.is_timeout_to_come()), (1, true));
    // What is so already changes nothing, and a clock that comes takes over what is put off.
    serial.set_handler_drains(true).unwrap();
    serial.set_clock(true).unwrap();
    serial.set_handler_drains(false).unwrap();
    assert_eq!((line.count.get(), serial.is_timeout_to_come()), (1, true));
    serial.set_clock(false).unwrap();
    assert_eq!((line.count.get(), serial.is_timeout_to_come()), (2, false));

    serial.set_handler_drains(true).unwrap();
    serial.read(ISR);
    // Input that fills the FIFO is signalled.
    serial.enqueue_raw_bytes(&[0; 9]).unwrap();
    (0..9).for_each(|_| _ = serial.read(DATA));
    assert!(serial.is_timeout_to_come());
    line.is_broken.set(true);
    serial.set_handler_drains(false).unwrap_err();
    line.is_broken.set(false);
    serial.set_handler_drains(false).unwrap();
    assert_eq!((line.count.get(), serial.is_timeout_to_come()), (4, false));
}
