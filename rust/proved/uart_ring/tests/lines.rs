//! The two halves of handling at a port whose interrupt line others share, over a replay, with lists of accesses that were written down by
//! hand.

mod lists;

use lists::Step::{Burst, Changed, Read, Received, Write};
use lists::{DATA_READY, NONE, THR_EMPTY, UNKNOWN, answers_in, assert_made, rings};
use proved_uart_ring::{HandleEnd, Handled, LinePort, Lowered, StuckError, handle_ports};
use uart_spec::registers;
use uart_spec::registers::offsets::{IER, ISR, LSR};

fn idle(served: usize) -> Handled {
    Handled {
        served,
        end: HandleEnd::Idle,
    }
}

#[test]
fn what_was_enabled_is_enabled_again() {
    let steps = [
        Burst(b"0123456789abcdef"),
        Changed(IER, 0x05, 0x07),
        Read(ISR, THR_EMPTY),
        Burst(b"x"),
        Changed(IER, 0x07, 0x05), // nothing is left to send
        Read(ISR, NONE),
        Read(IER, 0x05),
        Changed(IER, 0x05, 0x00),
        Changed(IER, 0x00, 0x05),
    ];
    let answers = answers_in(&steps);
    let mut ring = rings(&answers, 32, 4);
    assert_eq!(ring.queue(b"0123456789abcdefx"), 17);
    let lowered = ring.lower_line(8, 2);
    let enabled = registers::IER::from_bits_retain(0x05);
    assert_eq!(
        lowered,
        Lowered {
            handled: Ok(idle(1)),
            enabled
        }
    );
    ring.raise_line(lowered.enabled);
    assert_made(ring.inner().backend(), &steps);
}

#[test]
fn a_pause_stays_a_pause() {
    let steps = [
        Read(ISR, DATA_READY),
        Received(b"ABCD"), // all that the ring has room for
        Changed(IER, 0x05, 0x04),
        Read(ISR, NONE),
        Read(IER, 0x04),
        Changed(IER, 0x04, 0x00),
        Changed(IER, 0x00, 0x04),
    ];
    let answers = answers_in(&steps);
    let mut ring = rings(&answers, 32, 4);
    let lowered = ring.lower_line(8, 2);
    assert!(ring.is_paused());
    ring.raise_line(lowered.enabled);
    assert_made(ring.inner().backend(), &steps);
}

#[test]
fn a_stuck_chip_stays_off() {
    let steps = [
        Read(ISR, UNKNOWN),
        Changed(IER, 0x05, 0x00),
        Write(IER, 0x05),
        Read(ISR, UNKNOWN), // the last look
        Changed(IER, 0x05, 0x00),
        Read(IER, 0xff), // it shows anything
        Changed(IER, 0xff, 0x00),
        Changed(IER, 0x00, 0x00), // the next time
        Read(IER, 0x00),
        Changed(IER, 0x00, 0x00),
    ];
    let answers = answers_in(&steps);
    let mut ring = rings(&answers, 32, 4);
    let stuck = StuckError::Unknown(registers::ISR::from_bits_retain(UNKNOWN));
    for _round in 0..2 {
        let lowered = ring.lower_line(8, 1);
        assert_eq!(lowered.handled, Err(stuck));
        ring.raise_line(lowered.enabled);
    }
    assert_made(ring.inner().backend(), &steps);
}

#[test]
fn ports_of_a_slice_tell_what_was_handled() {
    let quiet = [
        Read(ISR, NONE),
        Read(IER, 0x05),
        Changed(IER, 0x05, 0x00),
        Changed(IER, 0x00, 0x05),
    ];
    let served = [
        Read(ISR, DATA_READY),
        Received(b"A"),
        Read(LSR, 0x60),
        Read(ISR, NONE),
        Read(IER, 0x01),
        Changed(IER, 0x01, 0x00),
        Changed(IER, 0x00, 0x01),
    ];
    let stuck = [
        Read(ISR, UNKNOWN),
        Changed(IER, 0x05, 0x00),
        Write(IER, 0x05),
        Read(ISR, UNKNOWN),
        Changed(IER, 0x05, 0x00),
        Read(IER, 0x00),
        Changed(IER, 0x00, 0x00),
    ];
    let lists: [&[_]; 3] = [&quiet, &served, &stuck];
    let answers = lists.map(answers_in);
    let mut ports: Vec<_> = answers
        .iter()
        .map(|answers| LinePort::new(rings(answers, 32, 4)))
        .collect();
    assert_eq!(ports[0].handled(), Ok(idle(0)));
    assert!(handle_ports(&mut ports, 8, 1));
    let unknown = registers::ISR::from_bits_retain(UNKNOWN);
    assert_eq!(ports[0].handled(), Ok(idle(0)));
    assert_eq!(ports[1].handled(), Ok(idle(1)));
    assert_eq!(ports[2].handled(), Err(StuckError::Unknown(unknown)));
    for (port, list) in ports.iter().zip(lists) {
        assert_made(port.ring.inner().backend(), list);
    }
    assert!(!handle_ports(&mut ports[..0], 8, 1));
}
