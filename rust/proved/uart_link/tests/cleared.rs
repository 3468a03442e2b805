//! What left a receive ring was taken or cleared: three characters come, of which a `clear_receive` drops the first two, and a `take`
//! returns the third.

use geesetrunk_kit::ArrayVec;
use geesetrunk_kit::alloc::Global;
use geesetrunk_kit_of_rings::alloc::Global as GlobalOfRings;
use proved_uart_link::{CabledChip, Link, LinkCall, Moment, Side, run_link};
use uart_16550::Uart16550;
use uart_chip::Chip;
use uart_ring::Uart16550Ring;
use uart_ring_runs::{RingAnswer, RingCall};
use uart_spec::Config;
use uart_spec::registers::{FifoTriggerLevel, IER};

fn rings() -> Uart16550Ring<CabledChip> {
    let chip = CabledChip::new(Global::heap(), Chip::Uart16550A, 4, 64, 64).unwrap();
    let mut uart = Uart16550::new_with_backend(chip);
    uart.init(Config {
        fifo_trigger_level: Some(FifoTriggerLevel::One),
        interrupts: IER::DATA_READY,
        ..Config::DEFAULT
    })
    .unwrap();
    match Uart16550Ring::new(GlobalOfRings::heap(), uart, 32, 32) {
        Ok(ring) => ring,
        Err(refused) => panic!("{refused}"),
    }
}

fn listed<T: Copy + Default, const N: usize>(some: &[T]) -> ArrayVec<T, N> {
    let mut list = ArrayVec::new();
    list.try_extend_from_slice(some).unwrap();
    list
}

#[test]
fn what_was_cleared_is_not_taken() {
    let Ok(mut link) = Link::new(rings(), rings()) else {
        panic!("nothing has arrived yet");
    };
    let one = [Moment::Arrives];
    let two = [Moment::Arrives; 2];
    let ticks = [Moment::Ticks(20)];
    let steps = [
        (
            Side::Left,
            &[][..],
            RingCall::Queue(listed(b"abc")),
            RingAnswer::Count(3),
        ),
        (Side::Left, &ticks, RingCall::Next, RingAnswer::Done),
        (Side::Right, &two, RingCall::Next, RingAnswer::Done),
        (Side::Right, &[], RingCall::Service, RingAnswer::Count(1)),
        // The third is still on the cable.
        (
            Side::Right,
            &[],
            RingCall::ClearReceive,
            RingAnswer::Count(2),
        ),
        (Side::Right, &one, RingCall::Next, RingAnswer::Done),
        (Side::Right, &[], RingCall::Service, RingAnswer::Count(1)),
        (
            Side::Right,
            &[],
            RingCall::Take(8),
            RingAnswer::Bytes(listed(b"c")),
        ),
    ];
    let mut calls = Vec::new();
    let mut expected = Vec::new();
    for (side, moments, call, answer) in steps {
        let moments = listed(moments);
        calls.push(LinkCall {
            side,
            moments,
            call,
        });
        expected.push(answer);
    }
    let mut answers: Vec<_> = calls.iter().map(|_| RingAnswer::Done).collect();
    run_link(&mut link, &calls, &mut answers);
    assert_eq!(answers, expected);
}
