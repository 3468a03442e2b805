//! Bytes over links under random schedules: a million each way, in a build with optimisation. What was queued at one end is what was
//! taken at the other, less what the receiver dropped, and each drop is told. With flow control by marks nothing is dropped.
//!
//! A chip sends at most 65,536 bytes, so that many links are made, one after the other. Each prints the seed of its numbers.

use geesetrunk_kit::ArrayVec;
use geesetrunk_kit::alloc::Global;
use geesetrunk_kit_of_rings::alloc::Global as GlobalOfRings;
use proved_uart_link::{CALL_MOMENTS, CabledChip, Link, LinkCall, Moment, Side, run_link};
use uart_16550::Uart16550;
use uart_calls::CALL_BYTES;
use uart_chip::{ArrivalMark, Chip};
use uart_ring::{ReceiveMarks, Uart16550Ring};
use uart_ring_runs::{RingAnswer, RingCall};
use uart_spec::Config;
use uart_spec::registers::{FifoTriggerLevel, IER, LSR};

/// All that a chip ever sends.
const WIRE: usize = 65_536;

/// So many links carry a million bytes each way. A build without optimisation carries less, since it is ten times as slow.
const LINKS: u64 = if cfg!(debug_assertions) { 2 } else { 16 };

const CARRIED: usize = LINKS as usize * WIRE;

const SIDES: [Side; 2] = [Side::Left, Side::Right];

/// More steps than a link ever needs.
const MOST_STEPS: usize = 2_000_000;

/// Pseudorandom numbers: xorshift.
struct Random(u64);

impl Random {
    fn of(seed: u64) -> Self {
        Random(seed.wrapping_mul(0x9e37_79b9_7f4a_7c15))
    }

    fn below(&mut self, end: usize) -> usize {
        self.0 ^= self.0 << 13;
        self.0 ^= self.0 >> 7;
        self.0 ^= self.0 << 17;
        ((self.0 >> 11) % end as u64) as usize
    }

    fn is_one_in(&mut self, cases: usize) -> bool {
        self.below(cases) == 0
    }

    fn pick<T: Copy>(&mut self, among: &[T]) -> T {
        among[self.below(among.len())]
    }
}

/// What is known of an end beside its rings.
#[derive(Default)]
struct End {
    queued: Vec<u8>,
    taken: Vec<u8>,
    /// How many bytes the calls that are being chosen are to queue.
    offered: usize,
    /// How many characters have arrived, and how many of them were dropped.
    arrived: usize,
    dropped: usize,
    /// How many of the first ones are no longer in the receiver, and how many of these were dropped.
    settled: usize,
    settled_dropped: usize,
    /// How many were dropped up to the last `take_line`.
    told: usize,
}

/// A link, and what was queued and taken.
struct Run {
    link: Link,
    ends: [End; 2],
    random: Random,
}

/// The rings at an end, with what is chosen for it.
struct Choice {
    chip: Chip,
    config: Config,
    char_ticks: u16,
    transmit: usize,
    receive: usize,
}

fn rings(choice: &Choice) -> Uart16550Ring<CabledChip> {
    let chip = CabledChip::new(Global::heap(), choice.chip, choice.char_ticks, WIRE, WIRE).unwrap();
    let mut uart = Uart16550::new_with_backend(chip);
    uart.init(choice.config.clone()).unwrap();
    let alloc = GlobalOfRings::heap();
    match Uart16550Ring::new(alloc, uart, choice.transmit, choice.receive) {
        Ok(ring) => ring,
        Err(refused) => panic!("{refused}"),
    }
}

fn listed<T: Copy + Default, const N: usize>(some: &[T]) -> ArrayVec<T, N> {
    let mut list = ArrayVec::new();
    list.try_extend_from_slice(some).unwrap();
    list
}

fn at(side: Side, some: &[Moment], call: RingCall) -> LinkCall {
    LinkCall {
        side,
        moments: listed(some),
        call,
    }
}

impl Run {
    fn new(choices: [Choice; 2], seed: u64) -> Self {
        let Ok(link) = Link::new(rings(&choices[0]), rings(&choices[1])) else {
            panic!("nothing has arrived yet");
        };
        Run {
            link,
            ends: Default::default(),
            random: Random(seed),
        }
    }

    fn ring(&self, side: Side) -> &Uart16550Ring<CabledChip> {
        match side {
            Side::Left => &self.link.left,
            Side::Right => &self.link.right,
        }
    }

    fn chip(&self, side: Side) -> &CabledChip {
        self.ring(side).inner().backend()
    }

    /// How many bytes are on the cable to this end.
    fn on_cable(&mut self, side: Side) -> usize {
        self.look(side);
        self.chip(other(side)).wire().len() - self.ends[side as usize].arrived
    }

    /// Some bytes to queue, no more than the chip can still send.
    fn bytes(&mut self, side: Side) -> ArrayVec<u8, CALL_BYTES> {
        let end = &mut self.ends[side as usize];
        let left = WIRE - end.queued.len() - end.offered;
        let count = self.random.below(CALL_BYTES + 1).min(left);
        end.offered += count;
        let bytes: Vec<_> = (0..count).map(|_| self.random.below(256) as u8).collect();
        listed(&bytes)
    }

    /// Looks what became of the characters that have arrived at an end.
    fn look(&mut self, side: Side) {
        let mut end = std::mem::take(&mut self.ends[side as usize]);
        end.arrived = end.settled;
        end.dropped = end.settled_dropped;
        while let Some(mark) = self.chip(side).mark(end.arrived) {
            assert_ne!(mark, ArrivalMark::Discarded, "nothing resets the receiver");
            if mark == ArrivalMark::Pending {
                break;
            }
            // Without FIFO a character that waits is dropped when the next one arrives.
            let is_settled = mark != ArrivalMark::Waiting && end.settled == end.arrived;
            end.arrived += 1;
            end.dropped += usize::from(mark == ArrivalMark::Dropped);
            if is_settled {
                (end.settled, end.settled_dropped) = (end.arrived, end.dropped);
            }
        }
        self.ends[side as usize] = end;
    }

    /// Makes the calls, and notes what was queued and taken. A `take_line` is the last of them.
    fn run(&mut self, calls: &[LinkCall]) {
        assert!(calls.iter().all(LinkCall::is_runnable));
        let mut answers: Vec<_> = calls.iter().map(|_| RingAnswer::Done).collect();
        run_link(&mut self.link, calls, &mut answers);
        for end in &mut self.ends {
            end.offered = 0;
        }
        for (call, answer) in calls.iter().zip(&answers) {
            let end = &mut self.ends[call.side as usize];
            match (&call.call, answer) {
                (RingCall::Queue(bytes), RingAnswer::Count(count)) => {
                    end.queued.extend(&bytes[..*count]);
                }
                (RingCall::Take(_), RingAnswer::Bytes(bytes)) => end.taken.extend(bytes.iter()),
                (RingCall::TakeLine, RingAnswer::Line(line)) => self.tell(call.side, *line),
                (RingCall::TryHandle(..), RingAnswer::Tried(tried)) => {
                    assert!(tried.is_ok(), "the chip is not stuck");
                }
                _ => {}
            }
        }
    }

    /// The line has the overrun flag if, and only if, something was dropped behind the last one.
    fn tell(&mut self, side: Side, line: LSR) {
        self.look(side);
        let end = &mut self.ends[side as usize];
        let is_lost = end.dropped > end.told;
        assert_eq!(line.contains(LSR::OVERRUN_ERROR), is_lost);
        end.told = end.dropped;
    }

    /// Whether all that was queued at the other end has arrived here, and was taken or dropped.
    fn is_done(&mut self, side: Side) -> bool {
        self.look(side);
        self.ends[other(side) as usize].queued.len() == self.ends[side as usize].arrived
            && self.chip(side).waiting_len() == 0
            && self.ring(side).receive_len() == 0
    }

    /// Compares, in one direction, what was taken with what was queued. Returns how many were dropped.
    fn compare(&mut self, side: Side) -> usize {
        let sent = &self.ends[other(side) as usize].queued;
        assert_eq!(self.chip(other(side)).wire(), sent, "all of it was sent");
        let is_read = |i: &usize| self.chip(side).mark(*i) == Some(ArrivalMark::Read);
        let kept: Vec<u8> = (0..sent.len()).filter(is_read).map(|i| sent[i]).collect();
        let end = &self.ends[side as usize];
        assert_eq!(end.taken, kept, "each byte, in order, but those dropped");
        assert_eq!(end.taken.len() + end.dropped, sent.len());
        end.dropped
    }
}

fn other(side: Side) -> Side {
    match side {
        Side::Left => Side::Right,
        Side::Right => Side::Left,
    }
}

const INTERRUPTS: IER = IER::DATA_READY
    .union(IER::RECEIVER_LINE_STATUS)
    .union(IER::MODEM_STATUS);

/// Anything: each chip, with or without its FIFO, with or without a look at CTS.
fn any_choice(random: &mut Random) -> Choice {
    Choice {
        chip: random.pick(&[Chip::Uart16550A, Chip::Uart16550A, Chip::Uart16450]),
        config: Config {
            fifo_trigger_level: random.pick(&[
                None,
                Some(FifoTriggerLevel::One),
                Some(FifoTriggerLevel::Four),
                Some(FifoTriggerLevel::Eight),
                Some(FifoTriggerLevel::Fourteen),
            ]),
            interrupts: INTERRUPTS,
            check_cts_before_sending: random.is_one_in(3),
            ..Config::DEFAULT
        },
        char_ticks: random.pick(&[1, 2, 7]),
        transmit: random.pick(&[16, 64, 500]),
        receive: random.pick(&[4, 16, 64, 500]),
    }
}

/// How wild the schedule of a link is.
#[derive(Clone, Copy)]
struct Pace {
    /// How many moments a call has at most, and how many ticks pass at most in one of them.
    moments: usize,
    ticks: usize,
}

/// Random moments: time, characters, lines and accesses that take none.
fn any_moments(random: &mut Random, pace: Pace) -> Vec<Moment> {
    (0..random.below(pace.moments + 1))
        .map(|_| match random.below(8) {
            0..=2 => Moment::Ticks(random.below(pace.ticks + 1) as u16),
            3..=5 => Moment::Arrives,
            6 => Moment::Lines,
            _ => Moment::Access,
        })
        .collect()
}

/// A random call that keeps the bytes: no urgent byte overtakes others, and nothing is cleared.
fn any_call(run: &mut Run, side: Side) -> RingCall {
    let kind = run.random.below(20);
    if kind < 4 {
        return RingCall::Queue(run.bytes(side));
    }
    let random = &mut run.random;
    match kind {
        4..=7 => RingCall::Take(random.below(CALL_BYTES + 1)),
        8..=9 => RingCall::Service,
        10..=11 => RingCall::Handle(random.below(9)),
        12..=13 => RingCall::TryHandle(1 + random.below(32), u32::MAX),
        14 => RingCall::ResumeTransmit,
        15 => RingCall::Retrigger,
        16 => RingCall::TakeModem,
        17 => random.pick_call(),
        _ => RingCall::Next,
    }
}

impl Random {
    /// A call that moves no byte by itself.
    fn pick_call(&mut self) -> RingCall {
        match self.below(5) {
            0 => RingCall::HoldTransmit,
            1 => RingCall::ReleaseTransmit,
            2 => RingCall::SetLowMark(self.below(64)),
            3 => RingCall::TakeLow,
            _ => RingCall::Restart(INTERRUPTS),
        }
    }
}

#[test]
fn what_is_queued_is_taken_less_what_is_dropped() {
    let (mut carried, mut dropped, mut made) = ([0; 2], 0, 0);
    for seed in 1..=LINKS {
        let mut random = Random::of(seed);
        let choices = [any_choice(&mut random), any_choice(&mut random)];
        let slowest = choices[0].char_ticks.max(choices[1].char_ticks);
        let pace = Pace {
            moments: random.pick(&[8, 16, CALL_MOMENTS]),
            ticks: usize::from(slowest) * random.pick(&[1, 2, 4]),
        };
        let mut run = Run::new(choices, random.0);
        for _ in 0..MOST_STEPS {
            let mut calls = Vec::new();
            if run.ends.iter().all(|end| end.queued.len() == WIRE) {
                if SIDES.into_iter().all(|side| run.is_done(side)) {
                    break;
                }
                // No call to come might let a held ring go on.
                calls.extend(
                    SIDES.map(|side| at(side, &[Moment::Lines], RingCall::ReleaseTransmit)),
                );
                calls
                    .extend(SIDES.map(|side| at(side, &[Moment::Lines], RingCall::ResumeTransmit)));
                calls.extend(SIDES.map(|side| at(side, &[], RingCall::Take(CALL_BYTES))));
            }
            for _ in 0..run.random.below(8) {
                let side = run.random.pick(&SIDES);
                let call = any_call(&mut run, side);
                let some = any_moments(&mut run.random, pace);
                calls.push(at(side, &some, call));
            }
            if run.random.is_one_in(4) {
                let side = run.random.pick(&SIDES);
                let some = any_moments(&mut run.random, pace);
                calls.push(at(side, &some, RingCall::TakeLine));
            }
            made += calls.len();
            run.run(&calls);
        }
        let lost = SIDES.map(|side| {
            assert!(
                run.is_done(side),
                "seed {seed}: bytes are on their way for ever"
            );
            run.compare(side)
        });
        let taken = SIDES.map(|side| run.ends[side as usize].taken.len());
        println!("seed {seed}: taken {taken:?}, dropped {lost:?}");
        for side in SIDES {
            carried[side as usize] += run.ends[side as usize].queued.len();
        }
        dropped += lost[0] + lost[1];
    }
    println!("{made} calls: queued {carried:?}, dropped {dropped}");
    assert_eq!(carried, [CARRIED; 2]);
    // The schedules are such that both happens.
    assert!(dropped > 1_000 && dropped < carried[0]);
}

/// What an end with flow control is made with.
#[derive(Clone, Copy)]
struct Flow {
    /// At most so many characters are on the cable to it, and so many in its chip when its handler runs.
    cable: usize,
    waiting: usize,
    receive: usize,
    release: usize,
}

/// The characters that still come when CTS is off: a FIFO, and one in the shift register.
const BURST: usize = 17;

/// Ticks that a character takes: more than one access.
const CHAR_TICKS: u16 = 8;

impl Flow {
    fn any(random: &mut Random) -> (Self, Choice) {
        let level = random.pick(&[
            FifoTriggerLevel::One,
            FifoTriggerLevel::Four,
            FifoTriggerLevel::Eight,
        ]);
        let mut flow = Flow {
            cable: 4 + random.below(40),
            waiting: 8 + random.below(9),
            receive: 0,
            release: 0,
        };
        flow.release = flow.hold() + 1 + random.below(64);
        flow.receive = flow.release + random.below(64);
        let choice = Choice {
            chip: Chip::Uart16550A,
            config: Config {
                fifo_trigger_level: Some(level),
                interrupts: INTERRUPTS,
                check_cts_before_sending: true,
                ..Config::DEFAULT
            },
            char_ticks: CHAR_TICKS,
            transmit: 64,
            receive: flow.receive,
        };
        (flow, choice)
    }

    /// RTS goes off if there is room for fewer bytes than this.
    fn hold(&self) -> usize {
        BURST + self.cable + self.waiting
    }
}

/// The lines, and then accesses that take no time.
fn at_once() -> [Moment; CALL_MOMENTS] {
    let mut some = [Moment::Access; CALL_MOMENTS];
    some[0] = Moment::Lines;
    some
}

/// The handler of an end: it moves bytes, and then sets RTS by the room that is left.
fn handle(run: &mut Run, side: Side, flow: &Flow) -> bool {
    let marks = ReceiveMarks {
        hold: flow.hold(),
        release: flow.release,
    };
    run.run(&[
        at(side, &at_once(), RingCall::Service),
        at(side, &at_once(), RingCall::ResumeTransmit),
        at(side, &at_once(), RingCall::AdjustRts(marks)),
    ]);
    flow.receive - run.ring(side).receive_len() < flow.hold()
}

#[test]
fn with_flow_control_by_marks_nothing_is_dropped() {
    let (mut carried, mut held) = ([0; 2], 0);
    for seed in 1..=LINKS {
        let mut random = Random::of(seed);
        let (left, of_left) = Flow::any(&mut random);
        let (right, of_right) = Flow::any(&mut random);
        let flows = [left, right];
        let mut run = Run::new([of_left, of_right], random.0);
        let mut steps = 0;
        while !SIDES
            .into_iter()
            .all(|side| run.ends[side as usize].queued.len() == WIRE && run.is_done(side))
        {
            steps += 1;
            assert!(
                steps < MOST_STEPS,
                "seed {seed}: bytes are on their way for ever"
            );
            let side = run.random.pick(&SIDES);
            let flow = &flows[side as usize];
            match run.random.below(8) {
                0 => {
                    let bytes = run.bytes(side);
                    run.run(&[at(side, &at_once(), RingCall::Queue(bytes))]);
                }
                1 => {
                    let count = run.random.below(CALL_BYTES + 1);
                    run.run(&[at(side, &at_once(), RingCall::Take(count))]);
                }
                2..=3 => held += usize::from(handle(&mut run, side, flow)),
                4..=5 => {
                    // Time, in which no more characters leave than the cable to the other end takes. One may
                    // leave for the rest of a character's ticks that have passed before.
                    let room = flows[other(side) as usize].cable - run.on_cable(other(side));
                    let ticks = run.random.below(room.max(1)) * usize::from(CHAR_TICKS);
                    run.run(&[at(side, &[Moment::Ticks(ticks as u16)], RingCall::Next)]);
                }
                _ => {
                    // Characters, no more than the handler is to find in the chip.
                    let room = flow.waiting - run.chip(side).waiting_len();
                    let some = vec![Moment::Arrives; run.random.below(room + 1)];
                    run.run(&[at(side, &some, RingCall::Next)]);
                }
            }
            for side in SIDES {
                assert!(run.on_cable(side) <= flows[side as usize].cable);
            }
        }
        for side in SIDES {
            assert_eq!(run.compare(side), 0, "seed {seed}: a byte was dropped");
            carried[side as usize] += run.ends[side as usize].queued.len();
        }
        println!(
            "seed {seed}: {steps} steps, marks {:?}",
            flows.map(|flow| flow.hold())
        );
    }
    println!("carried {carried:?}, held back {held} times");
    assert_eq!(carried, [CARRIED; 2]);
    assert!(held > 10 * LINKS as usize);
}
