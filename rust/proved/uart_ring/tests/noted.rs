//! The errors that are noted beside the rings, over the live chip with the FIFO on: characters with random errors, whoever looks at LSR.

use geesetrunk_kit_of_rings::alloc::Global;
use proved_uart_ring::{ErrorNotes, MAX_CAPACITY, RingError, Uart16550Ring, UnnotedError};
use std::collections::VecDeque;
use uart_16550::Uart16550;
use uart_16550::backend::Backend;
use uart_live::{Chip, LiveChip, WIRE_ROOM};
use uart_spec::registers::{IER, LSR};
use uart_spec::{Config, Received};

const CHAR_TICKS: u16 = 8;

struct Live(LiveChip);

impl Backend for Live {
    fn read(&mut self, register_offset: u8) -> u8 {
        self.0.read(register_offset)
    }

    fn write(&mut self, register_offset: u8, value: u8) {
        self.0.write(register_offset, value);
    }
}

type Ring = Uart16550Ring<ErrorNotes<Live>>;

/// Rings over a chip with its FIFO on, with notes of this many errors.
fn started(receive: usize, noted: usize) -> Ring {
    let chip = LiveChip::new(Chip::Uart16550A, CHAR_TICKS, WIRE_ROOM).expect("in range");
    let Ok(notes) = ErrorNotes::new(Global::heap(), Live(chip), noted) else {
        panic!("no notes");
    };
    let mut uart = Uart16550::new_with_backend(notes);
    let interrupts = IER::DATA_READY | IER::RECEIVER_LINE_STATUS | IER::MODEM_STATUS;
    let config = Config {
        interrupts,
        ..Config::DEFAULT
    };
    assert_eq!(uart.init(config), Ok(()));
    match Uart16550Ring::new(Global::heap(), uart, 16, receive) {
        Ok(ring) => ring,
        Err(refused) => panic!("{refused}"),
    }
}

fn chip(ring: &mut Ring) -> &mut LiveChip {
    &mut ring.inner_mut().backend_mut().backend_mut().0
}

fn arrive(ring: &mut Ring, byte: u8, errors: LSR) {
    assert!(chip(ring).arrive(byte, errors).is_ok());
}

fn taken(ring: &mut Ring, slots: usize) -> Vec<Received> {
    let mut received = vec![Received::default(); slots];
    let count = ring.take_with_errors(&mut received).expect("all are noted");
    received.truncate(count);
    received
}

fn clean(byte: u8) -> Received {
    Received {
        byte,
        errors: LSR::empty(),
    }
}

#[test]
fn a_break_stands_at_its_byte() {
    let mut ring = started(32, 32);
    let hit = Received {
        byte: 0,
        errors: LSR::BREAK_INTERRUPT | LSR::FRAMING_ERROR,
    };
    for byte in b"abcd" {
        arrive(&mut ring, *byte, LSR::empty());
    }
    arrive(&mut ring, hit.byte, hit.errors);
    arrive(&mut ring, b'h', LSR::empty());
    chip(&mut ring).ticks(5 * CHAR_TICKS);
    // The handler serves the line status interrupt before the data, and its read of LSR is the only one that shows the break.
    ring.handle(8);
    assert_eq!(ring.receive_len(), 6);
    assert_eq!(taken(&mut ring, 3), [clean(b'a'), clean(b'b'), clean(b'c')]);
    assert_eq!(taken(&mut ring, 9), [clean(b'd'), hit, clean(b'h')]);
    assert_eq!(taken(&mut ring, 9), []);
    assert!(ring.take_line().contains(hit.errors));
}

#[test]
fn an_overrun_stands_where_a_character_was_lost() {
    let mut ring = started(64, 64);
    for byte in 0..17 {
        arrive(&mut ring, byte, LSR::empty());
    }
    ring.handle(8);
    arrive(&mut ring, 17, LSR::empty());
    chip(&mut ring).ticks(5 * CHAR_TICKS);
    ring.handle(8);
    let received = taken(&mut ring, 64);
    // 16 was lost, right behind the 16th character from the byte with the overrun on.
    let bytes: Vec<u8> = received.iter().map(|one| one.byte).collect();
    assert_eq!(bytes, (0..16).chain([17]).collect::<Vec<u8>>());
    let at = |one: &Received| one.errors.contains(LSR::OVERRUN_ERROR);
    assert_eq!(received.iter().position(at), Some(0));
    assert_eq!(received.iter().filter(|one| at(one)).count(), 1);
}

#[test]
fn other_takes_and_dumps_leave_errors_at_their_bytes() {
    let mut ring = started(64, 64);
    for byte in 0..10 {
        let errors = if byte % 3 == 0 {
            LSR::PARITY_ERROR
        } else {
            LSR::empty()
        };
        arrive(&mut ring, byte, errors);
    }
    chip(&mut ring).ticks(5 * CHAR_TICKS);
    ring.handle(32);
    // Under DLAB the dump reads the divisor latch at the offset of DATA.
    ring.config_register_dump();
    let mut two = [0; 2];
    assert_eq!(ring.take(&mut two), 2);
    for (byte, one) in (2..10).zip(taken(&mut ring, 64)) {
        let errors = if byte % 3 == 0 {
            LSR::PARITY_ERROR
        } else {
            LSR::empty()
        };
        assert_eq!(one, Received { byte, errors });
    }
}

#[test]
fn an_overrun_before_an_init_stands_at_no_byte_after_it() {
    let mut ring = started(8, 8);
    for byte in 0..17 {
        arrive(&mut ring, byte, LSR::empty());
    }
    // The reset of the receiver leaves the chip's overrun flag, and the next look at LSR shows it.
    assert_eq!(ring.inner_mut().init(Config::DEFAULT), Ok(()));
    let interrupts = IER::DATA_READY | IER::RECEIVER_LINE_STATUS;
    ring.inner_mut().enable_interrupts(interrupts);
    arrive(&mut ring, 40, LSR::PARITY_ERROR);
    chip(&mut ring).ticks(5 * CHAR_TICKS);
    ring.handle(8);
    let received = Received {
        byte: 40,
        errors: LSR::PARITY_ERROR,
    };
    assert_eq!(taken(&mut ring, 8), [received]);
}

#[test]
fn a_reset_of_the_receiver_forgets_what_was_shown() {
    let mut ring = started(8, 8);
    arrive(&mut ring, 1, LSR::PARITY_ERROR);
    assert!(ring.take_line().contains(LSR::PARITY_ERROR));
    assert_eq!(ring.inner_mut().init(Config::DEFAULT), Ok(()));
    arrive(&mut ring, 2, LSR::empty());
    let interrupts = IER::DATA_READY | IER::RECEIVER_LINE_STATUS;
    ring.inner_mut().enable_interrupts(interrupts);
    chip(&mut ring).ticks(5 * CHAR_TICKS);
    ring.handle(8);
    assert_eq!(taken(&mut ring, 8), [clean(2)]);
}

#[test]
fn missing_notes_are_told() {
    let mut ring = started(8, 4);
    for byte in 0..6 {
        arrive(&mut ring, byte, LSR::empty());
    }
    chip(&mut ring).ticks(5 * CHAR_TICKS);
    ring.handle(8);
    let mut slots = [clean(0xee); 8];
    assert_eq!(
        ring.take_with_errors(&mut slots),
        Err(UnnotedError { bytes: 2 })
    );
    assert_eq!(slots, [clean(0xee); 8]);
    assert_eq!(ring.receive_len(), 6);
    assert_eq!(ring.take(&mut [0; 2]), 2);
    assert_eq!(taken(&mut ring, 8), [2, 3, 4, 5].map(clean));
    let told = UnnotedError { bytes: 2 }.to_string();
    assert_eq!(
        told,
        "the first 2 bytes of the receive ring have no note of their errors"
    );
}

#[test]
fn notes_are_refused_as_rings_are() {
    for capacity in [0, MAX_CAPACITY + 1] {
        let chip = LiveChip::new(Chip::Uart16550A, CHAR_TICKS, WIRE_ROOM).expect("in range");
        let refused = ErrorNotes::new(Global::heap(), Live(chip), capacity);
        assert!(matches!(refused, Err(refused) if refused.cause == RingError::BadCapacity));
    }
}

/// Pseudorandom numbers: xorshift.
struct Random(u64);

impl Random {
    fn below(&mut self, end: usize) -> usize {
        self.0 ^= self.0 << 13;
        self.0 ^= self.0 >> 7;
        self.0 ^= self.0 << 17;
        (self.0 % end as u64) as usize
    }
}

#[test]
fn each_byte_has_the_errors_of_its_character() {
    let kinds = [
        LSR::empty(),
        LSR::empty(),
        LSR::PARITY_ERROR,
        LSR::FRAMING_ERROR,
        LSR::BREAK_INTERRUPT | LSR::FRAMING_ERROR,
    ];
    let mut random = Random(0x9e37_79b9_7f4a_7c15);
    let mut ring = started(24, 24);
    let mut waiting = VecDeque::new();
    let mut in_chip = 0;
    for _ in 0..50_000 {
        match random.below(12) {
            0..4 => {
                let one = Received {
                    byte: random.below(256) as u8,
                    errors: kinds[random.below(kinds.len())],
                };
                // Nothing is to be lost here.
                if in_chip < 16 {
                    arrive(&mut ring, one.byte, one.errors);
                    waiting.push_back(one);
                }
            }
            4 => {
                chip(&mut ring).ticks(1 + random.below(40) as u16);
            }
            5 => {
                ring.handle(1 + random.below(8));
            }
            6 => {
                ring.take_line();
            }
            7 => {
                let wire = chip(&mut ring).wire().len();
                chip(&mut ring).take_wire(wire);
                ring.queue(b"x");
            }
            8 => {
                ring.config_register_dump();
            }
            9 => {
                let mut slots = [0; 3];
                let count = ring.take(&mut slots);
                for byte in &slots[..count] {
                    assert_eq!(waiting.pop_front().map(|one| one.byte), Some(*byte));
                }
            }
            _ => {
                for one in taken(&mut ring, random.below(30)) {
                    assert_eq!(Some(one), waiting.pop_front());
                }
            }
        }
        in_chip = waiting.len() - ring.receive_len();
    }
}

#[test]
fn bytes_are_copied_with_their_errors_and_stay() {
    let mut ring = started(32, 3);
    arrive(&mut ring, b'a', LSR::empty());
    arrive(&mut ring, b'b', LSR::PARITY_ERROR);
    arrive(&mut ring, b'c', LSR::FRAMING_ERROR);
    chip(&mut ring).ticks(5 * CHAR_TICKS);
    ring.handle(8);
    let hit = |byte, errors| Received { byte, errors };
    let wanted = [
        clean(b'a'),
        hit(b'b', LSR::PARITY_ERROR),
        hit(b'c', LSR::FRAMING_ERROR),
    ];
    // The notes are in the backend here; to the call they are notes that lie anywhere.
    let mut slots = [clean(b'-'); 4];
    assert_eq!(
        ring.copy_with_notes(ring.inner().backend(), &mut slots[..2]),
        Ok(2)
    );
    assert_eq!(slots, [wanted[0], wanted[1], clean(b'-'), clean(b'-')]);
    assert_eq!(
        ring.copy_with_notes(ring.inner().backend(), &mut slots),
        Ok(3)
    );
    assert_eq!(slots[..3], wanted);
    assert_eq!(taken(&mut ring, 4), wanted);
    for byte in b"wxyz" {
        arrive(&mut ring, *byte, LSR::empty());
    }
    chip(&mut ring).ticks(5 * CHAR_TICKS);
    ring.handle(8);
    let refused = ring.copy_with_notes(ring.inner().backend(), &mut slots);
    assert_eq!(refused, Err(UnnotedError { bytes: 1 }));
    assert_eq!(slots[0], wanted[0]);
}
