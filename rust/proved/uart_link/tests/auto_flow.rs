//! Flow control by the chips: runs in which no program does anything for it. With the trigger level 14 of 16 characters up to 3 may be
//! under way after each call of the sender: with a fourth the FIFO would need room for 17. With 56 of 64 up to 9 may.

use geesetrunk_kit::ArrayVec;
use geesetrunk_kit::alloc::Global;
use geesetrunk_kit_of_rings::alloc::Global as GlobalOfRings;
use proved_uart_link::{CabledChip, Link, LinkCall, Moment, Side, run_link};
use uart_16550::Uart16550;
use uart_chip::{ArrivalMark, Chip};
use uart_ring::Uart16550Ring;
use uart_ring_runs::{RingAnswer, RingCall};
use uart_spec::registers::{FifoTriggerLevel, IER, MCR};
use uart_spec::{Config, FIFO_SIZE, FifoSize};

/// How many ticks a character takes.
const CHAR_TICKS: u16 = 4;

fn rings(size: FifoSize) -> Uart16550Ring<CabledChip> {
    let (heap, chip) = (Global::heap(), Chip::Uart16550A);
    let chip = CabledChip::new_sized(heap, chip, size, CHAR_TICKS, 256, 256, false).unwrap();
    let mut uart = Uart16550::new_with_backend(chip.with_auto_flow());
    uart.init(Config {
        fifo_trigger_level: Some(FifoTriggerLevel::Fourteen),
        interrupts: IER::empty(),
        ..Config::DEFAULT
    })
    .unwrap();
    uart.set_modem_control(MCR::from_bits_retain(0x22));
    match Uart16550Ring::new(GlobalOfRings::heap(), uart, 128, 32) {
        Ok(ring) => ring,
        Err(refused) => panic!("{refused}"),
    }
}

fn listed<T: Copy + Default, const N: usize>(some: &[T]) -> ArrayVec<T, N> {
    let mut list = ArrayVec::new();
    list.try_extend_from_slice(some).unwrap();
    list
}

fn make(link: &mut Link, side: Side, moments: &[Moment], call: RingCall) {
    let call = LinkCall {
        side,
        moments: listed(moments),
        call,
    };
    run_link(link, &[call], &mut [RingAnswer::Done]);
}

/// Begins the next character at the left end in so many ticks. The driver takes the FIFOs for 16, and hands over as many as the last of
/// them is begun.
fn begin(link: &mut Link, begun: usize, ticks: u16) {
    let moments = [Moment::Lines, Moment::Ticks(ticks)];
    make(link, Side::Left, &moments, RingCall::Next);
    if begun.is_multiple_of(FIFO_SIZE) {
        make(link, Side::Left, &at_once(), RingCall::ResumeTransmit);
    }
}

fn at_once() -> [Moment; 40] {
    let mut moments = [Moment::Access; 40];
    moments[0] = Moment::Lines;
    moments
}

/// Returns what became of the last character that a FIFO of this size has room for, and of the one behind it, if so many are under way when
/// the right end, in which nothing is read, turns RTS off.
fn last_two(size: FifoSize, level: usize, under_way: usize) -> [Option<ArrivalMark>; 2] {
    let Ok(mut link) = Link::new(rings(size), rings(size)) else {
        panic!("nothing has arrived yet");
    };
    for _ in 0..2 {
        let bytes = RingCall::Queue(listed(&[b'x'; 64]));
        make(&mut link, Side::Left, &at_once(), bytes);
    }
    // The first character is begun, and then each leaves as the next one is begun.
    begin(&mut link, 1, 1);
    for arrived in 1..level {
        begin(&mut link, arrived + 1, CHAR_TICKS);
        make(&mut link, Side::Right, &[Moment::Arrives], RingCall::Next);
    }
    for more in 1..under_way {
        begin(&mut link, level + more, CHAR_TICKS);
    }
    let arrives = [Moment::Arrives; 16];
    make(&mut link, Side::Right, &arrives, RingCall::Next);
    // RTS is off. One character was begun, and no more is.
    let ticks = [Moment::Lines, Moment::Ticks(100)];
    make(&mut link, Side::Left, &ticks, RingCall::Next);
    make(&mut link, Side::Right, &arrives, RingCall::Next);
    let right = link.right.inner().backend();
    [size.characters() - 1, size.characters()].map(|index| right.mark(index))
}

const FITS: [Option<ArrivalMark>; 2] = [Some(ArrivalMark::Waiting), Some(ArrivalMark::Pending)];
const LOSES_ONE: [Option<ArrivalMark>; 2] =
    [Some(ArrivalMark::Waiting), Some(ArrivalMark::Dropped)];

#[test]
fn what_is_under_way_at_the_trigger_level_finds_room() {
    assert_eq!(last_two(FifoSize::Sixteen, 14, 3), FITS);
}

#[test]
fn one_more_under_way_is_lost() {
    assert_eq!(last_two(FifoSize::Sixteen, 14, 4), LOSES_ONE);
}

// The level of 14 of 16 is one of 56 of 64.
#[test]
fn nine_under_way_find_room_in_a_fifo_of_64() {
    assert_eq!(last_two(FifoSize::SixtyFour, 56, 9), FITS);
}

#[test]
fn a_tenth_under_way_is_lost_in_a_fifo_of_64() {
    assert_eq!(last_two(FifoSize::SixtyFour, 56, 10), LOSES_ONE);
}
