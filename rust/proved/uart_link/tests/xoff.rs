//! Which mark is the least with which flow control by XOFF over a cable loses nothing: runs that differ in the mark, or in whether the
//! sender obeys. At most 14 characters arrive between two calls of `adjust_xoff`, and one is on the cable from XOFF on until the sender
//! holds its transmit ring. Sixteen more find room in the FIFO of the receiver, and up to 17 still come then: so the ring has to have room
//! for one more than 14 + 1 when XOFF is told. And both ends agree on the hold, unless the sender takes what it was told before it obeys.

use geesetrunk_kit::ArrayVec;
use geesetrunk_kit::alloc::Global;
use geesetrunk_kit_of_rings::alloc::Global as GlobalOfRings;
use proved_uart_link::{CALL_MOMENTS, CabledChip, Link, LinkCall, Moment, Side, run_link};
use uart_16550::Uart16550;
use uart_chip::{ArrivalMark, Chip};
use uart_ring::{ReceiveMarks, Uart16550Ring};
use uart_ring_runs::{RingAnswer, RingCall};
use uart_spec::Config;
use uart_spec::registers::{FifoTriggerLevel, IER};

/// The most characters that arrive between two calls of `adjust_xoff`, and the most that come or are on the cable from XOFF on until the
/// sender holds.
const BETWEEN: usize = 14;
const UNTIL_HELD: usize = 1;

const XOFF: u8 = 0x13;
const XON: u8 = 0x11;

fn rings(receive_capacity: usize) -> Uart16550Ring<CabledChip> {
    let chip = CabledChip::new(Global::heap(), Chip::Uart16550A, 4, 64, 64).unwrap();
    rings_over(chip, receive_capacity)
}

fn rings_over(chip: CabledChip, receive_capacity: usize) -> Uart16550Ring<CabledChip> {
    let mut uart = Uart16550::new_with_backend(chip);
    uart.init(Config {
        fifo_trigger_level: Some(FifoTriggerLevel::One),
        interrupts: IER::DATA_READY,
        ..Config::DEFAULT
    })
    .unwrap();
    match Uart16550Ring::new(GlobalOfRings::heap(), uart, 48, receive_capacity) {
        Ok(ring) => ring,
        Err(refused) => panic!("{refused}"),
    }
}

fn listed<T: Copy + Default, const N: usize>(some: &[T]) -> ArrayVec<T, N> {
    let mut list = ArrayVec::new();
    list.try_extend_from_slice(some).unwrap();
    list
}

fn link(room: usize) -> Link {
    match Link::new(rings(32), rings(room)) {
        Ok(link) => link,
        Err(_) => panic!("nothing has arrived yet"),
    }
}

/// Makes a call at an end with these moments, and compares its answer.
fn answers(link: &mut Link, side: Side, moments: &[Moment], call: RingCall, want: RingAnswer) {
    let call = LinkCall {
        side,
        moments: listed(moments),
        call,
    };
    let mut answers = [RingAnswer::Done];
    run_link(link, std::slice::from_ref(&call), &mut answers);
    assert_eq!(answers[0], want, "{call:?}");
}

/// Lets moments pass at an end.
fn passes(link: &mut Link, side: Side, moments: &[Moment]) {
    answers(link, side, moments, RingCall::Next, RingAnswer::Done);
}

/// The handler of an end runs at once, and serves so many interrupts.
fn serves(link: &mut Link, side: Side, count: usize) {
    let served = RingAnswer::Count(count);
    answers(link, side, &AT_ONCE, RingCall::Service, served);
}

/// The right end adjusts XOFF at this mark, and tells this.
fn tells(link: &mut Link, mark: usize, told: Option<u8>) {
    let marks = ReceiveMarks {
        hold: mark,
        release: mark,
    };
    let adjust = RingCall::AdjustXoff(marks);
    answers(link, Side::Right, &AT_ONCE, adjust, RingAnswer::Told(told));
}

/// The left end obeys what was told, once it has come.
fn obeys(link: &mut Link, told: u8) {
    passes(link, Side::Right, &[Moment::Ticks(8)]);
    passes(link, Side::Left, &[Moment::Arrives]);
    serves(link, Side::Left, 1);
    let told = RingAnswer::Told(Some(told));
    answers(link, Side::Left, &AT_ONCE, RingCall::ObeyXoff, told);
}

/// No time passes at the accesses of a call.
const AT_ONCE: [Moment; CALL_MOMENTS] = [Moment::Access; CALL_MOMENTS];

/// Queues 40 characters at the left end, and lets the right end tell XOFF once 14 have arrived there. Its receive ring has room for so
/// many, and it tells XOFF as soon as there is room for fewer. Then 8 wait in the ring of the left end, and 17 in its chip.
fn told_xoff(room: usize) -> Link {
    let mut link = link(room);
    tells(&mut link, room, None);
    let bytes = RingCall::Queue(listed(&[b'x'; 40]));
    answers(
        &mut link,
        Side::Left,
        &AT_ONCE,
        bytes,
        RingAnswer::Count(40),
    );
    // 15 of a burst of 16 leave the chip, and one stays on the cable.
    passes(&mut link, Side::Left, &[Moment::Ticks(61)]);
    passes(&mut link, Side::Right, &[Moment::Arrives; BETWEEN]);
    let resume = RingCall::ResumeTransmit;
    answers(&mut link, Side::Left, &AT_ONCE, resume, RingAnswer::Done);
    serves(&mut link, Side::Right, 1);
    tells(&mut link, room, Some(XOFF));
    link
}

/// The left end sends all that it still does, and as much as may comes to the right end between two calls of `adjust_xoff`.
fn sends_on(link: &mut Link, room: usize) {
    for served in [1, 0] {
        passes(link, Side::Left, &[Moment::Ticks(100)]);
        let resume = RingCall::ResumeTransmit;
        answers(link, Side::Left, &AT_ONCE, resume, RingAnswer::Done);
        passes(link, Side::Right, &[Moment::Arrives; BETWEEN]);
        serves(link, Side::Right, served);
        tells(link, room, None);
    }
}

/// What became of the characters from the 32nd on, which was the last one in the left chip when XOFF was told.
fn last_ones(link: &Link) -> Vec<ArrivalMark> {
    let right = link.right.inner().backend();
    (31..40).map(|number| right.mark(number).unwrap()).collect()
}

/// The 32nd character, and then the eight that the left end held.
fn last_of_32(mark: ArrivalMark) -> Vec<ArrivalMark> {
    let mut marks = vec![mark];
    marks.resize(9, ArrivalMark::Pending);
    marks
}

#[test]
fn a_mark_for_xoff_above_what_may_come_loses_nothing() {
    let room = BETWEEN + UNTIL_HELD + 1;
    let mut link = told_xoff(room);
    obeys(&mut link, XOFF);
    sends_on(&mut link, room);
    assert_eq!(last_ones(&link), last_of_32(ArrivalMark::Waiting));
}

#[test]
fn a_mark_for_xoff_that_is_one_lower_loses_a_character() {
    let room = BETWEEN + UNTIL_HELD;
    let mut link = told_xoff(room);
    obeys(&mut link, XOFF);
    sends_on(&mut link, room);
    assert_eq!(last_ones(&link), last_of_32(ArrivalMark::Dropped));
}

/// Without `obey_xoff` the 8 characters of the ring come too, and there is no room for them.
#[test]
fn a_sender_that_does_not_obey_loses_characters() {
    let room = BETWEEN + UNTIL_HELD + 1;
    let mut link = told_xoff(room);
    sends_on(&mut link, room);
    passes(&mut link, Side::Left, &[Moment::Ticks(100)]);
    passes(&mut link, Side::Right, &[Moment::Arrives; 8]);
    let mut marks = vec![ArrivalMark::Dropped; 9];
    marks[0] = ArrivalMark::Waiting;
    assert_eq!(last_ones(&link), marks);
}

/// The right end takes all and tells XON, and then the last 8 come.
#[test]
fn a_sender_that_is_told_xon_goes_on() {
    let room = BETWEEN + UNTIL_HELD + 1;
    let mut link = told_xoff(room);
    obeys(&mut link, XOFF);
    sends_on(&mut link, room);
    // Those of the ring, and then those that waited in the FIFO.
    for served in [1, 0] {
        let bytes = RingAnswer::Bytes(listed(&[b'x'; 16]));
        answers(&mut link, Side::Right, &AT_ONCE, RingCall::Take(16), bytes);
        serves(&mut link, Side::Right, served);
    }
    assert!(link.left.is_held());
    tells(&mut link, room, Some(XON));
    assert!(link.left.is_held());
    obeys(&mut link, XON);
    assert!(!link.left.is_held());
    passes(&mut link, Side::Left, &[Moment::Ticks(40)]);
    passes(&mut link, Side::Right, &[Moment::Arrives; 8]);
    assert_eq!(last_ones(&link)[1..], [ArrivalMark::Waiting; 8]);
}

/// The left end takes the XOFF before it looks at it, and then never holds its ring.
#[test]
fn an_xoff_that_is_taken_first_is_not_obeyed() {
    let mut link = told_xoff(BETWEEN + UNTIL_HELD + 1);
    passes(&mut link, Side::Right, &[Moment::Ticks(8)]);
    passes(&mut link, Side::Left, &[Moment::Arrives]);
    serves(&mut link, Side::Left, 1);
    let bytes = RingAnswer::Bytes(listed(&[XOFF]));
    answers(&mut link, Side::Left, &AT_ONCE, RingCall::Take(8), bytes);
    let none = RingAnswer::Told(None);
    answers(&mut link, Side::Left, &AT_ONCE, RingCall::ObeyXoff, none);
    assert!(!link.left.is_held());
}

/// XOFF goes out behind what the chip holds, and before what waits in the ring, while that is held and when it is not.
#[test]
fn what_is_told_goes_out_next() {
    for is_held in [false, true] {
        let mut link = link(32);
        let bytes = RingCall::Queue(listed(&[b'x'; 40]));
        answers(
            &mut link,
            Side::Right,
            &AT_ONCE,
            bytes,
            RingAnswer::Count(40),
        );
        if is_held {
            let hold = RingCall::HoldTransmit;
            answers(&mut link, Side::Right, &AT_ONCE, hold, RingAnswer::Done);
        }
        tells(&mut link, 33, Some(XOFF));
        for _ in 0..2 {
            passes(&mut link, Side::Right, &[Moment::Ticks(100)]);
            let resume = RingCall::ResumeTransmit;
            answers(&mut link, Side::Right, &AT_ONCE, resume, RingAnswer::Done);
        }
        let mut wire = vec![b'x'; 16];
        wire.push(XOFF);
        if !is_held {
            wire.extend([b'x'; 15]);
        }
        assert_eq!(link.right.inner().backend().wire(), wire);
    }
}

/// Pseudorandom numbers: xorshift.
struct Random(u64);

impl Random {
    fn below(&mut self, end: usize) -> usize {
        self.0 ^= self.0 << 13;
        self.0 ^= self.0 >> 7;
        self.0 ^= self.0 << 17;
        ((self.0 >> 11) % end as u64) as usize
    }
}

/// What is sent on each link.
const SENT: usize = 1_000;

/// More steps than a link ever needs.
const MOST_STEPS: usize = 200_000;

/// Makes a call at once, and returns its answer.
fn made(link: &mut Link, side: Side, call: RingCall) -> RingAnswer {
    let call = LinkCall {
        side,
        moments: listed(&AT_ONCE),
        call,
    };
    let mut answers = [RingAnswer::Done];
    run_link(link, std::slice::from_ref(&call), &mut answers);
    let [answer] = answers;
    answer
}

/// Both programs in random order, at the least mark for random numbers: nothing is dropped, and both ends agree in the end. The left end
/// lets no more characters leave from XOFF on than may, until it holds its ring.
#[test]
fn at_the_least_mark_for_xoff_random_runs_drop_nothing() {
    let mut times_told = 0;
    for seed in 1..=12_u64 {
        let mut random = Random(seed.wrapping_mul(0x9e37_79b9_7f4a_7c15));
        let between = 1 + random.below(16);
        let until_held = 1 + random.below(24);
        let hold = between + until_held + 1;
        let release = hold + random.below(24);
        let capacity = release + random.below(24);
        let mut link = match Link::new(long_rings(32), long_rings(capacity)) {
            Ok(link) => link,
            Err(_) => panic!("nothing has arrived yet"),
        };
        let (mut queued, mut taken): (Vec<u8>, Vec<u8>) = Default::default();
        // How many have arrived; how many had when XOFF was told, if it is; and how many have since the last `adjust_xoff`.
        let (mut arrived, mut told_at, mut since) = (0, None, 0);
        // What was told, and how much of it the left end has looked at.
        let (mut told, mut looked) = (Vec::new(), 0);
        let mut steps = 0;
        while taken.len() < SENT {
            steps += 1;
            assert!(steps < MOST_STEPS, "seed {seed}: bytes are lost");
            let wire = link.left.inner().backend().wire().len();
            match random.below(8) {
                0 => {
                    let count = random.below(33).min(SENT - queued.len());
                    let bytes: Vec<u8> =
                        (0..count).map(|_| b'a' + random.below(26) as u8).collect();
                    let queue = RingCall::Queue(listed(&bytes));
                    let RingAnswer::Count(count) = made(&mut link, Side::Left, queue) else {
                        panic!("the answer of a queue");
                    };
                    queued.extend(&bytes[..count]);
                }
                1 => {
                    made(&mut link, Side::Left, RingCall::ResumeTransmit);
                }
                2 => {
                    // Time, in which no more characters leave than may. The first one may leave after one tick.
                    let mut most = until_held - (wire - arrived);
                    // An XON that was told before the last XOFF would let the left end go on.
                    let goes_on = !link.left.is_held() || told[looked..].contains(&XON);
                    if let Some(at) = told_at
                        && goes_on
                    {
                        most = most.min(at + until_held - wire);
                    }
                    let ticks = random.below((4 * most).saturating_sub(2).max(1));
                    passes(&mut link, Side::Left, &[Moment::Ticks(ticks as u16)]);
                }
                3 => {
                    passes(&mut link, Side::Left, &[Moment::Arrives; 2]);
                    made(&mut link, Side::Left, RingCall::Service);
                    made(&mut link, Side::Left, RingCall::ObeyXoff);
                    if let RingAnswer::Bytes(bytes) =
                        made(&mut link, Side::Left, RingCall::Take(32))
                    {
                        looked += bytes.len();
                    }
                }
                4 => {
                    let ticks = random.below(8) as u16;
                    passes(&mut link, Side::Right, &[Moment::Ticks(ticks)]);
                }
                5 => {
                    let count = random.below(between - since + 1).min(wire - arrived);
                    passes(&mut link, Side::Right, &vec![Moment::Arrives; count]);
                    (arrived, since) = (arrived + count, since + count);
                }
                6 => {
                    let mut slots = RingCall::Take(random.below(9));
                    // Then the handler runs, and XOFF or XON follows the room.
                    for _ in 0..2 {
                        if let RingAnswer::Bytes(bytes) = made(&mut link, Side::Right, slots) {
                            taken.extend(bytes.iter());
                        }
                        slots = RingCall::Service;
                    }
                    made(&mut link, Side::Right, RingCall::ResumeTransmit);
                    // An urgent byte that waits would keep XOFF from being told.
                    if link.right.urgent().is_some() && told_at.is_none() {
                        passes(&mut link, Side::Right, &[Moment::Ticks(8)]);
                        made(&mut link, Side::Right, RingCall::ResumeTransmit);
                    }
                    let adjust = RingCall::AdjustXoff(ReceiveMarks { hold, release });
                    if let RingAnswer::Told(Some(byte)) = made(&mut link, Side::Right, adjust) {
                        told.push(byte);
                        told_at = (byte == XOFF).then_some(arrived);
                    }
                    since = 0;
                }
                _ => {}
            }
        }
        assert_eq!(taken, queued, "seed {seed}");
        // Once the last one has come too, the hold is as it was told.
        made(&mut link, Side::Right, RingCall::ResumeTransmit);
        passes(&mut link, Side::Right, &[Moment::Ticks(100)]);
        passes(&mut link, Side::Left, &[Moment::Arrives; CALL_MOMENTS]);
        made(&mut link, Side::Left, RingCall::Service);
        made(&mut link, Side::Left, RingCall::ObeyXoff);
        assert_eq!(link.left.is_held(), told_at.is_some(), "seed {seed}");
        times_told += told.len();
    }
    assert!(times_told > 60, "{times_told}");
}

/// Rings over chips that send and receive more.
fn long_rings(receive_capacity: usize) -> Uart16550Ring<CabledChip> {
    let chip = CabledChip::new(Global::heap(), Chip::Uart16550A, 4, 4_096, 4_096).unwrap();
    rings_over(chip, receive_capacity)
}
