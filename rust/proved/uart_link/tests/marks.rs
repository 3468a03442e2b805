//! Which mark is the least with which flow control over a cable loses nothing: two runs that differ in the mark alone. At most one
//! character is on the cable, and at most 14 arrive between two calls of `adjust_rts`. Sixteen more find room in the FIFO of the receiver,
//! and up to 17 still come when RTS goes off: so the ring has to have room for one more than 1 + 14 then.

use geesetrunk_kit::ArrayVec;
use geesetrunk_kit::alloc::Global;
use geesetrunk_kit_of_rings::alloc::Global as GlobalOfRings;
use proved_uart_link::{CabledChip, Link, LinkCall, Moment, Side, run_link};
use uart_16550::Uart16550;
use uart_chip::{ArrivalMark, Chip};
use uart_ring::{ReceiveMarks, Uart16550Ring};
use uart_ring_runs::{RingAnswer, RingCall};
use uart_spec::Config;
use uart_spec::registers::{FifoTriggerLevel, IER};

/// The most characters on the cable, and the most that arrive between two calls of `adjust_rts`.
const ON_CABLE: usize = 1;
const BETWEEN: usize = 14;

fn rings(receive_capacity: usize, check_cts_before_sending: bool) -> Uart16550Ring<CabledChip> {
    let chip = CabledChip::new(Global::heap(), Chip::Uart16550A, 4, 64, 64).unwrap();
    let mut uart = Uart16550::new_with_backend(chip);
    uart.init(Config {
        fifo_trigger_level: Some(FifoTriggerLevel::One),
        interrupts: IER::DATA_READY,
        check_cts_before_sending,
        ..Config::DEFAULT
    })
    .unwrap();
    match Uart16550Ring::new(GlobalOfRings::heap(), uart, 32, receive_capacity) {
        Ok(ring) => ring,
        Err(refused) => panic!("{refused}"),
    }
}

fn listed<T: Copy + Default, const N: usize>(some: &[T]) -> ArrayVec<T, N> {
    let mut list = ArrayVec::new();
    list.try_extend_from_slice(some).unwrap();
    list
}

fn link(room: usize, right_checks: bool) -> Link {
    match Link::new(rings(32, true), rings(room, right_checks)) {
        Ok(link) => link,
        Err(_) => panic!("nothing has arrived yet"),
    }
}

/// Makes these calls, each at its end with its moments, and returns their answers.
fn made(
    link: &mut Link,
    steps: impl IntoIterator<Item = (Side, Vec<Moment>, RingCall)>,
) -> Vec<RingAnswer> {
    let calls: Vec<_> = steps
        .into_iter()
        .map(|(side, moments, call)| LinkCall {
            side,
            moments: listed(&moments),
            call,
        })
        .collect();
    let mut answers: Vec<_> = calls.iter().map(|_| RingAnswer::Done).collect();
    run_link(link, &calls, &mut answers);
    answers
}

/// What becomes of the last of 32 characters that go from the left to the right, whose receive ring has room for so many. The left end is
/// held back as soon as the ring has room for fewer.
fn last_of_32(mut link: Link, room: usize) -> Option<ArrivalMark> {
    let marks = ReceiveMarks {
        hold: room,
        release: room,
    };
    let adjust = || RingCall::AdjustRts(marks);
    // The lines are seen at once, and then no time passes in a call.
    let mut at_once = [Moment::Access; 40];
    at_once[0] = Moment::Lines;
    let mut arrive = [Moment::Arrives; 1 + BETWEEN];
    arrive[0] = Moment::Lines;
    let lines = [Moment::Lines];
    let some = [Moment::Lines, Moment::Ticks(61)];
    let all = [Moment::Lines, Moment::Ticks(100)];
    let bytes = RingCall::Queue(listed(&[b'x'; 32]));
    let steps = [
        (Side::Right, &lines[..], adjust(), RingAnswer::Done),
        (Side::Left, &at_once, bytes, RingAnswer::Count(32)),
        // 15 of a burst of 16 leave the chip.
        (Side::Left, &some, RingCall::Next, RingAnswer::Done),
        (Side::Right, &arrive, RingCall::Next, RingAnswer::Done),
        // RTS is still on. So one character is being sent, and 16 are in the FIFO now.
        (
            Side::Left,
            &at_once,
            RingCall::ResumeTransmit,
            RingAnswer::Done,
        ),
        (Side::Right, &lines, RingCall::Service, RingAnswer::Count(1)),
        (Side::Right, &lines, adjust(), RingAnswer::Done),
        // These 17 and the one on the cable still come.
        (Side::Left, &all, RingCall::Next, RingAnswer::Done),
        (Side::Right, &arrive, RingCall::Next, RingAnswer::Done),
        (Side::Right, &lines, RingCall::Service, RingAnswer::Count(1)),
        (Side::Right, &lines, adjust(), RingAnswer::Done),
        (Side::Right, &arrive, RingCall::Next, RingAnswer::Done),
    ];
    let mut calls = Vec::new();
    let mut expected = Vec::new();
    for (side, moments, call, answer) in steps {
        calls.push((side, moments.to_vec(), call));
        expected.push(answer);
    }
    let answers = made(&mut link, calls);
    assert_eq!(answers, expected);
    link.right.inner().backend().mark(31)
}

#[test]
fn a_mark_above_what_may_come_loses_nothing() {
    let room = ON_CABLE + BETWEEN + 1;
    assert_eq!(
        last_of_32(link(room, true), room),
        Some(ArrivalMark::Waiting)
    );
}

#[test]
fn a_mark_that_is_one_lower_loses_a_character() {
    let room = ON_CABLE + BETWEEN;
    assert_eq!(
        last_of_32(link(room, true), room),
        Some(ArrivalMark::Dropped)
    );
}

/// The right end checks no CTS and never looks at the lines, and the left end never adjusts RTS: the 17th character on this way is dropped,
/// and on the other way none.
#[test]
fn flow_control_may_be_in_one_direction_alone() {
    let room = ON_CABLE + BETWEEN + 1;
    let mut link = link(room, false);
    let ticks = || vec![Moment::Ticks(100)];
    let bytes = RingCall::Queue(listed(&[b'y'; 17]));
    let answers = made(
        &mut link,
        [
            (Side::Right, vec![], bytes),
            (Side::Right, ticks(), RingCall::Next),
            (Side::Right, vec![], RingCall::ResumeTransmit),
            (Side::Right, ticks(), RingCall::Next),
            (Side::Right, vec![], RingCall::Service),
            (Side::Left, vec![Moment::Arrives; 17], RingCall::Next),
        ],
    );
    assert_eq!(answers[0], RingAnswer::Count(17));
    let left = link.left.inner().backend();
    assert_eq!(left.mark(15), Some(ArrivalMark::Waiting));
    assert_eq!(left.mark(16), Some(ArrivalMark::Dropped));
    assert_eq!(last_of_32(link, room), Some(ArrivalMark::Waiting));
}
