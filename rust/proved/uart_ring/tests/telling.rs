//! What an operating system tells its rings, and chips that show interrupts for ever, over a
//! replay, with lists of accesses that were written down by hand.

mod lists;

use lists::Step::{Burst, Changed, Read, Received, Write};
use lists::{DATA_READY, EMPTY, FULL, NONE, THR_EMPTY, UNKNOWN, answers_in, assert_made, rings};
use proved_uart_ring::{HandleEnd, Handled, ReceiveMarks, StuckError};
use uart_spec::registers::offsets::{IER, ISR, LSR};
use uart_spec::registers::{self, InterruptType};

/// XON and XOFF.
const XON: u8 = 0x11;
const XOFF: u8 = 0x13;

#[test]
fn a_held_ring() {
    let steps = [
        Burst(b"hello, world! 12"),
        Changed(IER, 0x01, 0x03),
        Read(ISR, THR_EMPTY), // no look follows, since nothing may be sent
        Changed(IER, 0x03, 0x01),
        Read(ISR, NONE),
        Burst(b"\x13"), // the urgent byte alone
        Changed(IER, 0x01, 0x01),
        Changed(IER, 0x01, 0x01), // a queue while the ring is held
        Burst(b"3456+"),
        Changed(IER, 0x01, 0x01),
    ];
    let answers = answers_in(&steps);
    let mut ring = rings(&answers, 32, 4);
    assert_eq!(ring.queue(b"hello, world! 123456"), 20);
    ring.hold_transmit();
    assert!(ring.is_held());
    assert_eq!(ring.service(), 1);
    assert_eq!(ring.queue_urgent(XOFF), None);
    assert_eq!(ring.queue(b"+"), 1);
    assert_eq!(ring.transmit_room(), 27);
    ring.release_transmit();
    assert!(!ring.is_held());
    assert_eq!(ring.transmit_len(), 0);
    assert_made(ring.inner().backend(), &steps);
}

#[test]
fn an_urgent_byte_overtakes() {
    let steps = [
        Burst(b"hello, world! 12"),
        Changed(IER, 0x01, 0x03),
        Read(LSR, FULL),
        Changed(IER, 0x03, 0x03),
        Read(LSR, FULL),
        Changed(IER, 0x03, 0x03),
        Read(ISR, THR_EMPTY),
        Burst(b"\x113456"),
        Changed(IER, 0x03, 0x01),
        Read(ISR, NONE),
    ];
    let answers = answers_in(&steps);
    let mut ring = rings(&answers, 32, 4);
    assert_eq!(ring.queue(b"hello, world! 123456"), 20);
    assert_eq!(ring.queue_urgent(XOFF), None);
    assert_eq!(ring.urgent(), Some(XOFF));
    assert_eq!(ring.queue_urgent(XON), Some(XOFF));
    assert_eq!(ring.service(), 1);
    assert_eq!(ring.urgent(), None);
    assert_made(ring.inner().backend(), &steps);
}

#[test]
fn xoff_follows_the_room() {
    let steps = [
        Read(ISR, DATA_READY), // room for 3, the mark
        Received(b"ABCDE"),
        Read(LSR, EMPTY),
        Read(ISR, NONE),
        Read(ISR, DATA_READY), // room for 2
        Received(b"F"),
        Read(LSR, EMPTY),
        Read(ISR, NONE),
        Burst(b"\x13"),
        Changed(IER, 0x01, 0x01),
        Burst(b"\x11"), // room for 6 again
        Changed(IER, 0x01, 0x01),
    ];
    let answers = answers_in(&steps);
    let mut ring = rings(&answers, 32, 8);
    let marks = ReceiveMarks {
        hold: 3,
        release: 6,
    };
    let mut slots = [0xee; 8];
    ring.hold_transmit(); // it holds no character of flow control
    assert_eq!(ring.adjust_xoff(marks), None);
    assert_eq!(ring.service(), 1);
    assert_eq!(ring.adjust_xoff(marks), None);
    assert_eq!(ring.service(), 1);
    assert_eq!(ring.adjust_xoff(marks), Some(XOFF));
    assert_eq!(ring.adjust_xoff(marks), None);
    assert_eq!(ring.take(&mut slots[..3]), 3);
    assert_eq!(ring.adjust_xoff(marks), None); // room for 5
    assert_eq!(ring.take(&mut slots[..1]), 1);
    assert_eq!(ring.adjust_xoff(marks), Some(XON));
    assert_eq!(ring.adjust_xoff(marks), None);
    assert_made(ring.inner().backend(), &steps);
}

#[test]
fn xoff_waits_for_an_urgent_byte() {
    let steps = [
        Burst(b"hello, world! 12"),
        Changed(IER, 0x01, 0x03),
        Read(LSR, FULL),
        Changed(IER, 0x03, 0x03),
        Read(ISR, THR_EMPTY),
        Burst(b"!3456"),
        Changed(IER, 0x03, 0x01),
        Read(ISR, NONE),
        Read(LSR, FULL),
        Changed(IER, 0x01, 0x03),
        Read(ISR, THR_EMPTY),
        Burst(b"\x13"),
        Changed(IER, 0x03, 0x01),
        Read(ISR, NONE),
    ];
    let answers = answers_in(&steps);
    let mut ring = rings(&answers, 32, 4);
    let (stop, go_on) = (
        ReceiveMarks {
            hold: 5,
            release: 5,
        },
        ReceiveMarks {
            hold: 0,
            release: 0,
        },
    );
    assert_eq!(ring.queue(b"hello, world! 123456"), 20);
    assert_eq!(ring.queue_urgent(b'!'), None);
    assert_eq!(ring.adjust_xoff(stop), None);
    assert_eq!(ring.urgent(), Some(b'!'));
    assert_eq!(ring.service(), 1);
    assert_eq!(ring.adjust_xoff(stop), Some(XOFF));
    assert_eq!(ring.adjust_xoff(go_on), None); // it still waits
    assert_eq!(ring.service(), 1);
    assert_eq!(ring.urgent(), None);
    assert_made(ring.inner().backend(), &steps);
}

#[test]
fn an_xoff_of_the_other_end_is_obeyed() {
    let steps = [
        Burst(b"hello, world! 12"),
        Changed(IER, 0x01, 0x03),
        Read(ISR, DATA_READY),
        Received(b"a\x13b"),
        Read(LSR, EMPTY),
        Read(ISR, NONE),
        Read(ISR, THR_EMPTY), // no look follows, since nothing may be sent
        Changed(IER, 0x03, 0x01),
        Read(ISR, NONE),
        Burst(b"\x13"), // what this end tells goes out all the same
        Changed(IER, 0x01, 0x01),
        Read(ISR, DATA_READY),
        Received(b"\x13c\x11"), // the last one counts
        Read(LSR, EMPTY),
        Read(ISR, NONE),
        Burst(b"3456"),
        Changed(IER, 0x01, 0x01),
    ];
    let answers = answers_in(&steps);
    let mut ring = rings(&answers, 32, 8);
    let full = ReceiveMarks {
        hold: 8,
        release: 8,
    };
    let mut slots = [0xee; 8];
    assert_eq!(ring.obey_xoff(), None);
    assert_eq!(ring.queue(b"hello, world! 123456"), 20);
    assert_eq!(ring.service(), 1);
    assert_eq!(ring.obey_xoff(), Some(XOFF));
    assert_eq!(ring.obey_xoff(), None);
    assert!(ring.is_held());
    assert_eq!(ring.service(), 1);
    assert_eq!(ring.adjust_xoff(full), Some(XOFF));
    assert_eq!(ring.service(), 1);
    assert_eq!(ring.obey_xoff(), Some(XON));
    assert!(!ring.is_held());
    assert_eq!(ring.take(&mut slots), 6);
    assert_eq!(slots, *b"a\x13b\x13c\x11\xee\xee");
    assert_made(ring.inner().backend(), &steps);
}

#[test]
fn a_character_is_obeyed_once_and_not_if_it_was_taken() {
    let steps = [
        Read(ISR, DATA_READY),
        Received(b"\x13x"),
        Read(LSR, EMPTY),
        Read(ISR, NONE),
        Read(ISR, DATA_READY),
        Received(b"\x13y"),
        Read(LSR, EMPTY),
        Read(ISR, NONE),
        Read(ISR, DATA_READY),
        Received(b"\x13"),
        Read(LSR, EMPTY),
        Read(ISR, NONE),
    ];
    let answers = answers_in(&steps);
    let mut ring = rings(&answers, 32, 8);
    let mut slots = [0xee; 8];
    assert_eq!(ring.service(), 1);
    assert_eq!(ring.take(&mut slots[..1]), 1);
    assert_eq!(ring.obey_xoff(), None);
    assert!(!ring.is_held());
    assert_eq!(ring.service(), 1);
    assert_eq!(ring.take(&mut slots[..1]), 1);
    assert_eq!(ring.obey_xoff(), Some(XOFF)); // there were three, and two are left
    assert!(ring.is_held());
    ring.release_transmit(); // by the program itself
    assert_eq!(ring.obey_xoff(), None);
    assert!(!ring.is_held());
    assert_eq!(ring.service(), 1);
    assert_eq!(ring.clear_receive(), 3);
    assert_eq!(ring.obey_xoff(), None);
    assert!(!ring.is_held());
    assert_made(ring.inner().backend(), &steps);
}

#[test]
fn bytes_are_dropped() {
    let steps = [
        Burst(b"hello, world! 12"),
        Changed(IER, 0x01, 0x03),
        Read(ISR, THR_EMPTY), // nothing is left
        Changed(IER, 0x03, 0x01),
        Read(ISR, DATA_READY),
        Received(b"ABCD"),
        Changed(IER, 0x01, 0x00),
        Read(ISR, NONE),
        Changed(IER, 0x00, 0x01), // the pause ends
    ];
    let answers = answers_in(&steps);
    let mut ring = rings(&answers, 32, 4);
    ring.set_low_mark(2);
    assert_eq!(ring.queue(b"hello, world! 123456"), 20);
    assert!(!ring.take_low());
    assert_eq!(ring.clear_transmit(), 4);
    assert!(ring.take_low());
    assert!(!ring.take_low());
    assert_eq!(ring.clear_transmit(), 0);
    assert!(!ring.take_low());
    assert_eq!(ring.service(), 2);
    assert!(ring.is_paused());
    assert_eq!(ring.clear_receive(), 4);
    assert!(!ring.is_paused());
    assert_eq!(ring.clear_receive(), 0);
    assert_made(ring.inner().backend(), &steps);
}

#[test]
fn a_storm_of_unknown_interrupts() {
    let steps = [
        Read(ISR, UNKNOWN),
        Changed(IER, 0x05, 0x00),
        Write(IER, 0x05),
        Read(ISR, UNKNOWN),
        Changed(IER, 0x05, 0x00),
        Write(IER, 0x05),
        Read(ISR, UNKNOWN), // the last look
        Changed(IER, 0x05, 0x00),
        Changed(IER, 0x00, 0x00), // the chip is stuck: a queue hands nothing over
        Changed(IER, 0x01, 0x00), // and each call turns off
        Changed(IER, 0x00, 0x05), // a restart
        Burst(b"ab"),
        Changed(IER, 0x05, 0x05),
    ];
    let answers = answers_in(&steps);
    let mut ring = rings(&answers, 32, 4);
    let unfinished = Handled {
        served: 0,
        end: HandleEnd::Unknown,
    };
    let stuck = StuckError::Unknown(registers::ISR::from_bits_retain(UNKNOWN));
    assert_eq!(ring.try_handle(8, 2), Ok(unfinished));
    assert_eq!(ring.stuck(), None);
    assert_eq!(ring.try_handle(8, 2), Err(stuck));
    assert_eq!(ring.stuck(), Some(stuck));
    assert_eq!(ring.queue(b"ab"), 2);
    assert_eq!(ring.try_handle(8, 2), Err(stuck));
    ring.restart(registers::IER::from_bits_retain(0x05));
    assert_eq!(ring.stuck(), None);
    assert_made(ring.inner().backend(), &steps);
}

#[test]
fn an_interrupt_that_does_not_go_away() {
    // Each round serves six interrupts, though the limit is one. A round in which a byte moves is
    // not counted. At the limit a look shows that none is left, so the chip is not stuck. Then one
    // is.
    let again = [Changed(IER, 0x01, 0x00), Write(IER, 0x01)];
    let moves = [Read(ISR, DATA_READY), Received(b"A"), Read(LSR, 0x60)];
    let moves_none = [Read(ISR, DATA_READY), Read(LSR, 0x60)];
    let steps = [
        &moves[..],
        &moves_none.repeat(5),
        &again,
        &moves_none.repeat(6),
        &again,
        &[Read(ISR, NONE)],
        &moves_none.repeat(6),
        &again,
        &[Read(ISR, DATA_READY), Changed(IER, 0x01, 0x00)],
    ]
    .concat();
    let answers = answers_in(&steps);
    let mut ring = rings(&answers, 32, 4);
    let six = Handled {
        served: 6,
        end: HandleEnd::Limit,
    };
    let stuck = StuckError::Pending(InterruptType::ReceivedDataReady);
    assert_eq!(ring.try_handle(1, 0), Ok(six));
    assert_eq!(ring.try_handle(1, 1), Ok(six));
    assert_eq!(ring.try_handle(1, 0), Err(stuck));
    assert_made(ring.inner().backend(), &steps);
}
