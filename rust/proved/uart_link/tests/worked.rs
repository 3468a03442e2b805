//! Worked examples of calls over a link: each call, made in a run of its own, with the answer that is written beside it.

use geesetrunk_kit::ArrayVec;
use geesetrunk_kit::alloc::Global;
use geesetrunk_kit_of_rings::alloc::Global as GlobalOfRings;
use proved_uart_link::{CabledChip, Link, LinkCall, Moment, Side, run_link};
use uart_16550::Uart16550;
use uart_chip::{ArrivalMark, Chip};
use uart_ring::Uart16550Ring;
use uart_ring_runs::{RingAnswer, RingCall};
use uart_spec::Config;
use uart_spec::registers::{FifoTriggerLevel, IER, LSR, MSR};

fn rings() -> Uart16550Ring<CabledChip> {
    let chip = CabledChip::new(Global::heap(), Chip::Uart16550A, 4, 64, 64).unwrap();
    let mut uart = Uart16550::new_with_backend(chip);
    uart.init(Config {
        fifo_trigger_level: Some(FifoTriggerLevel::One),
        interrupts: IER::DATA_READY,
        ..Config::DEFAULT
    })
    .unwrap();
    match Uart16550Ring::new(GlobalOfRings::heap(), uart, 32, 32) {
        Ok(rings) => rings,
        Err(refused) => panic!("{refused}"),
    }
}

fn link() -> Link {
    match Link::new(rings(), rings()) {
        Ok(link) => link,
        Err(_) => panic!("nothing has arrived yet"),
    }
}

fn listed<T: Copy + Default, const N: usize>(some: &[T]) -> ArrayVec<T, N> {
    let mut list = ArrayVec::new();
    list.try_extend_from_slice(some).unwrap();
    list
}

/// Makes a call at an end with these moments, in a run of its own, and compares its answer.
fn answers(link: &mut Link, side: Side, moments: &[Moment], call: RingCall, want: RingAnswer) {
    let call = LinkCall {
        side,
        moments: listed(moments),
        call,
    };
    let mut answers = [RingAnswer::Done];
    run_link(link, std::slice::from_ref(&call), &mut answers);
    assert_eq!(answers[0], want, "{call:?}");
}

/// Lets moments pass at an end, of which no call tells anything.
fn passes(link: &mut Link, side: Side, moments: &[Moment]) {
    answers(link, side, moments, RingCall::Next, RingAnswer::Done);
}

fn queues(link: &mut Link, some: &[u8]) {
    let all = RingAnswer::Count(some.len());
    answers(link, Side::Left, &[], RingCall::Queue(listed(some)), all);
}

#[test]
fn bytes_cross_the_cable_in_order() {
    let mut link = link();
    let takes = |link: &mut Link, moments: &[Moment], some: &[u8]| {
        let count = RingAnswer::Count(1);
        answers(link, Side::Right, moments, RingCall::Service, count);
        let bytes = RingAnswer::Bytes(listed(some));
        answers(link, Side::Right, &[], RingCall::Take(8), bytes);
    };
    let arrives = [Moment::Arrives, Moment::Ticks(4), Moment::Arrives];
    queues(&mut link, b"abc");
    // Nothing has left the chip yet, so nothing arrives.
    passes(&mut link, Side::Right, &arrives);
    passes(&mut link, Side::Left, &[Moment::Ticks(20)]);
    // Two of three arrive, and the third stays on the cable.
    passes(&mut link, Side::Right, &arrives);
    takes(&mut link, &[], b"ab");
    takes(&mut link, &[Moment::Arrives], b"c");
}

#[test]
fn a_byte_that_overruns_is_told() {
    let mut link = link();
    queues(&mut link, b"0123456789abcdefXY");
    passes(&mut link, Side::Left, &[Moment::Ticks(100)]);
    let resume = RingCall::ResumeTransmit;
    answers(&mut link, Side::Left, &[], resume, RingAnswer::Done);
    passes(&mut link, Side::Left, &[Moment::Ticks(100)]);
    // The FIFO has room for 16, so two are dropped.
    passes(&mut link, Side::Right, &[Moment::Arrives; 18]);
    let line = RingAnswer::Line(LSR::from_bits_retain(0x63));
    answers(&mut link, Side::Right, &[], RingCall::TakeLine, line);
    let chip = link.right.inner().backend();
    assert_eq!(chip.mark(15), Some(ArrivalMark::Waiting));
    assert_eq!(chip.mark(16), Some(ArrivalMark::Dropped));
}

#[test]
fn the_lines_cross_over() {
    let mut link = link();
    // An `init` sets RTS and DTR.
    let up = MSR::CTS | MSR::DSR | MSR::CD;
    let changed = MSR::DELTA_CTS | MSR::DELTA_DSR | MSR::DELTA_CD;
    passes(&mut link, Side::Right, &[Moment::Lines]);
    let modem = RingAnswer::Modem(up | changed);
    answers(&mut link, Side::Right, &[], RingCall::TakeModem, modem);
}
