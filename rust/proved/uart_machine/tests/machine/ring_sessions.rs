//! Runs in which what the laws on sessions of rings ask for holds: nothing keeps a call of the driver from its end.

#[path = "../../../uart_run/tests/premises/mod.rs"]
mod premises;

use crate::machines::machine;
use core::num::NonZeroU64;
use geesetrunk_kit_of_rings::alloc::Global;
use premises::{Begin, is_within_session, keeps_checks, keeps_size};
use proved_uart_machine::{Answer, Call, Chip, Device16550, RingAnswer, RingCall, run_ring};
use uart_16550::Uart16550;
use uart_ring::{ReceiveMarks, Uart16550Ring};
use uart_spec::Config;

/// How many ticks a character takes, and the least limit with which a call is not held up: n (t + 1), of which a FIFO of 16 and the
/// shift register hold 17.
const CHAR_TICKS: u16 = 4;
const LIMIT: u64 = 17 * (CHAR_TICKS as u64 + 1);

/// Rings over a driver that has initialised a chip without automatic flow control, whose wire has this much room. One tick comes before
/// each access. Two bytes wait, one of them in the transmit ring.
fn rings(room: usize) -> Uart16550Ring<Device16550> {
    let mut uart = Uart16550::new_with_backend(machine(Chip::Uart16550A, CHAR_TICKS, room, &[]));
    uart.set_spin_limit(NonZeroU64::new(LIMIT).unwrap());
    uart.init(Config {
        fifo_trigger_level: None,
        ..Config::DEFAULT
    })
    .unwrap();
    let Ok(mut ring) = Uart16550Ring::new(Global::heap(), uart, 32, 4) else {
        panic!("no memory");
    };
    assert_eq!(ring.queue(b"ab"), 2);
    assert_eq!(ring.transmit_len(), 1);
    ring
}

fn answers(ring: &mut Uart16550Ring<Device16550>, calls: &[RingCall]) -> Vec<RingAnswer> {
    let mut answers: Vec<_> = calls.iter().map(|_| RingAnswer::Done).collect();
    run_ring(ring, calls, &mut answers);
    answers
}

fn done() -> RingAnswer {
    RingAnswer::Driver(Answer::Done)
}

fn flush() -> RingCall {
    RingCall::Driver(Call::Flush)
}

/// A session that adds 21 bytes, an urgent one and an XOFF to those that wait in the rings, and sends nine by the driver itself.
fn session() -> Vec<RingCall> {
    let mut calls = vec![
        RingCall::Queue([b'q'; 21].as_slice().try_into().unwrap()),
        RingCall::Driver(Call::SendExact(b"overtakes".as_slice().try_into().unwrap())),
        RingCall::QueueUrgent(b'!'),
        RingCall::Driver(Call::SetRts(false)),
        flush(),
        RingCall::Service,
        // A ring of four has no room for five: an XOFF is told.
        RingCall::AdjustXoff(ReceiveMarks {
            hold: 5,
            release: 5,
        }),
    ];
    // Without FIFO a byte goes at each interrupt.
    for _ in 0..24 {
        calls.extend([flush(), RingCall::Service]);
    }
    calls.push(flush());
    calls
}

const ADDED: usize = 21 + 9 + 1 + 1;

/// This holds of each call of the driver among these.
fn of_the_driver(calls: &[RingCall], holds: fn(&Call) -> bool) -> bool {
    calls.iter().all(|call| match call {
        RingCall::Driver(call) => holds(call),
        _ => true,
    })
}

/// Each call goes on with a session that began with a wired machine: those of the rings all do.
fn all_within_ring_session(calls: &[RingCall]) -> bool {
    of_the_driver(calls, is_within_session)
}

fn keeps_ring_size(calls: &[RingCall]) -> bool {
    of_the_driver(calls, keeps_size)
}

fn keeps_ring_checks(calls: &[RingCall]) -> bool {
    of_the_driver(calls, keeps_checks)
}

/// The wire has room for what waits in the rings too, and for so many bytes more.
fn has_ring_room(ring: &mut Uart16550Ring<Device16550>, capacity: usize, more: usize) -> bool {
    let waiting = ring.transmit_len();
    begin(ring, capacity).has_room(waiting + more)
}

fn begin(ring: &mut Uart16550Ring<Device16550>, capacity: usize) -> Begin<'_> {
    Begin {
        driver: ring.inner_mut(),
        char_ticks: CHAR_TICKS,
        capacity,
        ahead: &[],
    }
}

#[test]
fn with_room_for_all_of_it_no_call_of_a_session_of_rings_stalls() {
    let mut ring = rings(2 + ADDED);
    // What the laws ask for.
    let mut start = begin(&mut ring, 2 + ADDED);
    assert!(start.is_unhindered() && start.is_timely() && start.is_unchecked());
    assert!(start.bursts_fit());
    assert!(all_within_ring_session(&session()));
    assert!(keeps_ring_size(&session()) && keeps_ring_checks(&session()));
    assert!(has_ring_room(&mut ring, 2 + ADDED, ADDED));
    assert!(!has_ring_room(&mut ring, 2 + ADDED, ADDED + 1));
    for (call, answer) in session().iter().zip(answers(&mut ring, &session())) {
        if let RingCall::Driver(_) = call {
            assert_eq!(answer, done(), "{call:?}");
        }
    }
    assert_eq!(ring.transmit_len(), 0);
    assert_eq!(ring.inner().backend().wire().len(), 2 + ADDED);
    // What a session asks for still holds, and calls of the driver that end one have not stalled either.
    let behind =
        [Call::TestLoopback, Call::Init(Config::DEFAULT), Call::Flush].map(RingCall::Driver);
    assert_eq!(answers(&mut ring, &behind), [done(), done(), done()]);
}

#[test]
fn with_room_for_one_byte_less_a_session_of_rings_stalls() {
    let mut ring = rings(2 + ADDED - 1);
    let stalled = RingAnswer::Driver(Answer::Stalled(0));
    let of_the_session = answers(&mut ring, &session());
    assert_eq!(of_the_session.last(), Some(&stalled));
}
