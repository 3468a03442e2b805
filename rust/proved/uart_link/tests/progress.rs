//! How many rounds carry all that was queued: one for each byte that waits in the rings, and one more. In a round time passes at the
//! sender, what is on the cable arrives, the receiver's handler runs, its program takes, and the sender goes on to send. Without FIFO a
//! round moves one byte, so that one round fewer leaves a byte.

use geesetrunk_kit::ArrayVec;
use geesetrunk_kit::alloc::Global;
use geesetrunk_kit_of_rings::alloc::Global as GlobalOfRings;
use proved_uart_link::{CabledChip, Link, LinkCall, Moment, Side, run_link};
use uart_16550::Uart16550;
use uart_chip::Chip;
use uart_ring::{HandleEnd, Handled, ReceiveMarks, Uart16550Ring};
use uart_ring_runs::{RingAnswer, RingCall};
use uart_spec::Config;
use uart_spec::registers::IER;

/// The ticks of a character, and those that are enough for all that a transmitter ever holds.
const CHAR_TICKS: u16 = 4;
const ENOUGH_TICKS: u16 = 17 * CHAR_TICKS;

/// Slots for all that comes in these runs.
const SLOTS: usize = 8;

fn rings(check_cts_before_sending: bool) -> Uart16550Ring<CabledChip> {
    let chip = CabledChip::new(Global::heap(), Chip::Uart16550A, CHAR_TICKS, 64, 64).unwrap();
    let mut uart = Uart16550::new_with_backend(chip);
    uart.init(Config {
        fifo_trigger_level: None,
        interrupts: IER::DATA_READY,
        check_cts_before_sending,
        ..Config::DEFAULT
    })
    .unwrap();
    match Uart16550Ring::new(GlobalOfRings::heap(), uart, 32, 32) {
        Ok(ring) => ring,
        Err(refused) => panic!("{refused}"),
    }
}

fn listed<T: Copy + Default, const N: usize>(some: &[T]) -> ArrayVec<T, N> {
    let mut list = ArrayVec::new();
    list.try_extend_from_slice(some).unwrap();
    list
}

/// Makes one call, and returns its answer.
fn made(link: &mut Link, side: Side, some: &[Moment], call: RingCall) -> RingAnswer {
    let calls = [LinkCall {
        side,
        moments: listed(some),
        call,
    }];
    let mut answers = [RingAnswer::Done];
    run_link(link, &calls, &mut answers);
    let [answer] = answers;
    answer
}

/// Returns how many interrupts a run of the handler served, after which none is pending.
fn handled(link: &mut Link, side: Side) -> usize {
    match made(link, side, &[Moment::Lines], RingCall::Handle(SLOTS)) {
        RingAnswer::Handled(Handled {
            served,
            end: HandleEnd::Idle,
        }) => served,
        other => panic!("{other:?}"),
    }
}

/// Makes a round from the left to the right, in which the sender goes on to send like this, and returns what was taken.
fn round(link: &mut Link, goes_on: impl Fn(&mut Link)) -> Vec<u8> {
    let ticks = [Moment::Lines, Moment::Ticks(ENOUGH_TICKS)];
    let arrives = [Moment::Lines, Moment::Arrives];
    made(link, Side::Left, &ticks, RingCall::Next);
    made(link, Side::Right, &arrives, RingCall::Next);
    handled(link, Side::Right);
    let taken = match made(link, Side::Right, &[], RingCall::Take(SLOTS)) {
        RingAnswer::Bytes(bytes) => bytes.as_slice().to_vec(),
        other => panic!("{other:?}"),
    };
    goes_on(link);
    taken
}

/// Three bytes are queued, of which the first goes to the chip at once: so two wait, and three rounds are enough.
fn three_bytes_need_three_rounds(mut link: Link, goes_on: impl Fn(&mut Link)) {
    let queued = made(
        &mut link,
        Side::Left,
        &[Moment::Lines],
        RingCall::Queue(listed(b"abc")),
    );
    assert_eq!(queued, RingAnswer::Count(3));
    assert_eq!(round(&mut link, &goes_on), b"a");
    assert_eq!(round(&mut link, &goes_on), b"b");
    // Two rounds were one too few.
    assert_eq!(round(&mut link, &goes_on), b"c");
    assert_eq!(round(&mut link, &goes_on), b"");
}

fn link(check_cts_before_sending: bool) -> Link {
    let Ok(link) = Link::new(
        rings(check_cts_before_sending),
        rings(check_cts_before_sending),
    ) else {
        panic!("nothing has arrived yet");
    };
    link
}

#[test]
fn a_sender_goes_on_by_resume_transmit() {
    three_bytes_need_three_rounds(link(true), |link| {
        // The receive ring is empty, so that RTS stays on or is turned on.
        let marks = ReceiveMarks {
            hold: 16,
            release: 32,
        };
        made(link, Side::Right, &[], RingCall::AdjustRts(marks));
        made(link, Side::Left, &[Moment::Lines], RingCall::ResumeTransmit);
    });
}

#[test]
fn a_sender_goes_on_by_its_handler() {
    three_bytes_need_three_rounds(link(false), |link| {
        handled(link, Side::Left);
    });
}

#[test]
fn a_sender_that_does_not_go_on_leaves_what_waits() {
    let mut link = link(true);
    made(
        &mut link,
        Side::Left,
        &[Moment::Lines],
        RingCall::Queue(listed(b"abc")),
    );
    assert_eq!(round(&mut link, |_| ()), b"a");
    for _ in 0..3 {
        assert_eq!(round(&mut link, |_| ()), b"");
    }
    let left = made(&mut link, Side::Left, &[], RingCall::ClearTransmit);
    assert_eq!(left, RingAnswer::Count(2));
}

// In the first part of the run bytes cross and come to rest. What was asked for there is not asked for again.
#[test]
fn the_next_part_of_a_run_takes_what_was_queued() {
    let mut link = link(false);
    let goes_on = |link: &mut Link| {
        handled(link, Side::Left);
    };
    let queue = |link: &mut Link| {
        let bytes = RingCall::Queue(listed(b"abc"));
        made(link, Side::Left, &[Moment::Lines], bytes);
    };
    queue(&mut link);
    assert_eq!(round(&mut link, goes_on), b"a");
    // Two bytes of the first part are left, of which one is in the chip, and three are queued behind them: four wait, so five rounds are
    // enough.
    queue(&mut link);
    for byte in [b"b", b"c", b"a", b"b", b"c"] {
        assert_eq!(round(&mut link, goes_on), byte);
    }
}
