//! An exact judge of loopback: is there a number of ticks before each access with which the chip in software answers each read as it was
//! recorded? In loopback nothing arrives that was not written, so nothing else is unknown.
//!
//! It keeps the set of all states in which the chip may be. A read leaves those that answer it. If none does, that is a difference, and the
//! judge goes on where the chip is known again: at a read of MSR behind a write of FCR, where `begin` of census.c has emptied the chip.
//!
//! A character ends at two moments: it is received, and the transmitter is done with it. A receiver has it within its stop bit, and a
//! transmitter may count its stop bit as it likes. So the two may be up to a bit apart, in either order.
//!
//! Recorded times bound the ticks from above. A look that shows the transmitter at work says how long a character takes at least, so no
//! more characters can be out than that allows. One that shows it to be done says how long a bit takes at most.

use std::collections::BTreeMap;
use std::collections::btree_map::Entry;
use std::fmt;

use crate::chip_in_c::{ChipInC, Key, Kind};

/// More states than that are given up.
const MOST_STATES: usize = 2000;
/// So many accesses in turn say how long one takes. A time may be a microsecond too small.
const RUN: usize = 16;
const NAMES: [&str; 8] = ["DATA", "IER", "ISR", "LCR", "MCR", "LSR", "MSR", "SCR"];
const MCR: u8 = 4;
const LSR: u8 = 5;
const MSR: u8 = 6;
const FCR: u8 = 2;
const LOOPBACK: u8 = 0x10;
const DLAB: u8 = 0x80;
const TRANSMITTER_EMPTY: u8 = 0x40;

/// An access of a recording, or equal reads in turn.
#[derive(Clone, Copy, Debug, PartialEq, Eq)]
struct Access {
    line: usize,
    is_write: bool,
    offset: u8,
    value: u8,
    /// How many more reads are equal.
    more: u32,
    /// When it was begun, in nanoseconds.
    time: Option<u64>,
}

/// A line that is none of a recording.
#[derive(Clone, Debug, PartialEq, Eq)]
pub struct BadLine {
    number: usize,
}

impl fmt::Display for BadLine {
    fn fmt(&self, f: &mut fmt::Formatter<'_>) -> fmt::Result {
        write!(f, "line {} is no access of a recording", self.number)
    }
}

impl std::error::Error for BadLine {}

/// A recording of a chip.
#[derive(Clone, Debug, PartialEq, Eq)]
pub struct Recording {
    accesses: Vec<Access>,
}

impl Recording {
    /// Reads a recording as the census writes it: `r OFFSET VALUE ..@NS`, `w OFFSET VALUE ..@NS`, and `x COUNT` for equal reads more.
    ///
    /// # Errors
    ///
    /// The first line that is neither of them, nor empty, nor a comment.
    pub fn parse(text: &str) -> Result<Self, BadLine> {
        let mut accesses: Vec<Access> = Vec::new();
        for (number, line) in (1..).zip(text.lines()) {
            let words: Vec<&str> = line.split_whitespace().collect();
            let is_read_before = accesses.last().is_some_and(|last| !last.is_write);
            match words[..] {
                [] => {}
                [first, ..] if first.starts_with('#') => {}
                ["x", count] if is_read_before => {
                    let more = count.parse().map_err(|_| BadLine { number })?;
                    accesses.last_mut().ok_or(BadLine { number })?.more = more;
                }
                [kind @ ("r" | "w"), offset, value, ref rest @ ..] => {
                    let byte = |word| u8::from_str_radix(word, 16).map_err(|_| BadLine { number });
                    let (offset, value) = (byte(offset)?, byte(value)?);
                    if offset > 7 {
                        return Err(BadLine { number });
                    }
                    let time = rest.iter().find_map(|word| word.strip_prefix('@')).and_then(|word| word.parse().ok());
                    accesses.push(Access { line: number, is_write: kind == "w", offset, value, more: 0, time });
                }
                _ => return Err(BadLine { number }),
            }
        }
        Ok(Self { accesses })
    }

    /// How long an access takes at least: as in the fastest of all runs of accesses that each have a time.
    fn least_access(&self) -> u64 {
        let runs = self.accesses.windows(RUN + 1).filter(|run| run[..RUN].iter().all(|access| access.more == 0));
        let times = runs.filter_map(|run| run[RUN].time.zip(run[0].time).map(|(to, from)| to.saturating_sub(from) / RUN as u64));
        times.min().unwrap_or(0)
    }

    /// How long characters and bits take, where looks show it: a character was written to an empty transmitter, and they came before
    /// another write.
    fn times(&self) -> Times {
        let least_access = self.least_access();
        let mut times = Times::default();
        let (mut latch, mut lcr, mut is_idle, mut written) = ([0, 0], 0, false, None);
        let ends = self.accesses.iter().skip(1).map(|next| next.time).chain([None]);
        for (access, end) in self.accesses.iter().zip(ends) {
            match (access.is_write, access.offset) {
                (true, 0 | 1) if lcr & DLAB != 0 => latch[usize::from(access.offset)] = access.value,
                (true, 0) => (written, is_idle) = (access.time.filter(|_| is_idle), false),
                (true, 3) => lcr = access.value,
                (false, LSR) => {
                    let is_done = access.value & TRANSMITTER_EMPTY != 0;
                    let (divisor, length) = (u16::from_le_bytes(latch), half_bits(lcr));
                    if let (Some(from), Some(to), false) = (written, access.time, is_done) {
                        let passed = to.saturating_sub(from) + u64::from(access.more) * least_access;
                        let known = times.least.entry((divisor, length)).or_default();
                        // It can begin up to a bit late, and be received a bit early.
                        *known = (*known).max(passed * (length - 2) / (length + 2));
                    }
                    // What was shown was so when the next access began, at the latest.
                    if let (Some(from), Some(to), true) = (written, end, is_done) {
                        let known = times.most.entry(divisor).or_insert(u64::MAX);
                        *known = (*known).min(2 * to.saturating_sub(from) / (length - 2));
                    }
                    (written, is_idle) = (written.filter(|_| !is_done), is_idle || is_done);
                }
                _ => {}
            }
        }
        times
    }
}

/// How many halves of a bit a character has in the frame of LCR.
fn half_bits(lcr: u8) -> u64 {
    let (is_five, has_parity, has_more_stop) = (lcr & 3 == 0, lcr & 8 != 0, lcr & 4 != 0);
    let stop = 2 + u64::from(has_more_stop) * if is_five { 1 } else { 2 };
    2 * (6 + u64::from(lcr & 3) + u64::from(has_parity)) + stop
}

/// What is known of times, in nanoseconds.
#[derive(Default)]
struct Times {
    /// How long a character takes at least until it is received, at a divisor and with so many halves of a bit.
    least: BTreeMap<(u16, u64), u64>,
    /// How long a bit takes at most, at a divisor.
    most: BTreeMap<u16, u64>,
}

/// What a judge found.
#[derive(Clone, Debug, Default, PartialEq, Eq)]
pub struct Verdict {
    /// A line for each difference, and its number in the recording.
    pub differences: Vec<(usize, String)>,
    /// How many reads were held against the chip.
    pub judged: usize,
    /// How many states there were at most.
    pub most: usize,
    /// How often there were more than can be followed.
    pub given_up: usize,
}

/// The first of the two moments at which a character ends.
#[derive(Clone, Copy, PartialEq, Eq, PartialOrd, Ord)]
enum Moment {
    /// It is received, and the transmitter is not done with it.
    Received,
    /// The transmitter is done with this character, and it is not received.
    Sent(u8),
}

/// A character that is at its end, and when it was so at the latest.
#[derive(Clone, Copy)]
struct Ending {
    first: Moment,
    since: u64,
}

/// A chip, the character that is at its end in it, and how long what it sends has been under way: since when, and for how many ticks. An
/// idle chip has 0 of both.
#[derive(Clone)]
struct State {
    chip: ChipInC,
    ending: Option<Ending>,
    since: u64,
    ticks: u64,
}

/// What tells a state from others: the chip, the character at its end, and times.
type StateKey = (Key, Option<Moment>, u64, u64);
type States = BTreeMap<StateKey, State>;

/// Adds a state, and returns whether there is none yet that differs at most in the time since when a character is at its end. The later
/// allows more.
fn keep(states: &mut States, state: State) -> bool {
    match states.entry(state.key()) {
        Entry::Vacant(place) => {
            place.insert(state);
            true
        }
        Entry::Occupied(mut place) => {
            if place.get().ending_since() < state.ending_since() {
                place.insert(state);
            }
            false
        }
    }
}

impl State {
    fn of(chip: ChipInC, ending: Option<Ending>, since: u64, ticks: u64) -> Self {
        let (since, ticks) = if chip.is_idle() { (0, 0) } else { (since, ticks) };
        Self { chip, ending, since, ticks }
    }

    fn key(&self) -> StateKey {
        (self.chip.key(), self.ending.map(|ending| ending.first), self.since, self.ticks)
    }

    fn ending_since(&self) -> Option<u64> {
        self.ending.map(|ending| ending.since)
    }

    /// Whether one more tick can have passed until a time, if a character takes so long at least. The first tick takes a character out of
    /// the FIFO, and each further two send one.
    fn can_tick(&self, until: u64, character: u64) -> bool {
        self.chip.is_idle() || self.ticks < 2 * (until.saturating_sub(self.since) / character) + 2
    }

    /// The state when the character at its end has ended.
    fn ended(&self) -> Self {
        let mut chip = self.chip.clone();
        match self.ending.map(|ending| ending.first) {
            None => {}
            Some(Moment::Received) => chip.end_sending(),
            Some(Moment::Sent(byte)) => chip.receive(byte),
        }
        Self::of(chip, None, self.since, self.ticks)
    }

    /// What follows when half of the time of a character has passed, of which so many ticks count, and an access is made by then: a
    /// character that ends has either moment first.
    fn ticked(&self, made: u64, ticks: u64) -> Vec<Self> {
        let after = |tick: &dyn Fn(&mut ChipInC), first: Option<Moment>| {
            let mut chip = self.chip.clone();
            tick(&mut chip);
            Self::of(chip, first.map(|first| Ending { first, since: made }), self.since, self.ticks + ticks)
        };
        match self.chip.ending() {
            None => vec![after(&|chip| chip.tick(), None)],
            Some(byte) => {
                vec![after(&|chip| chip.receive(byte), Some(Moment::Received)), after(&|chip| chip.end_sending(), Some(Moment::Sent(byte)))]
            }
        }
    }
}

struct Judge {
    kind: Kind,
    times: Times,
    /// What was last written to each register, or read of it: LCR, MCR, IER and SCR keep it. DLL and DLM at 8 and 9.
    known: [u8; 10],
    fcr: Option<u8>,
    states: States,
    verdict: Verdict,
}

impl Judge {
    fn place(&self, offset: u8) -> usize {
        usize::from(if self.known[3] & DLAB != 0 && offset < 2 { offset + 8 } else { offset })
    }

    fn divisor(&self) -> u16 {
        u16::from_le_bytes([self.known[8], self.known[9]])
    }

    /// How long a character takes at least: as long as a shorter one, and as at a smaller divisor.
    fn character(&self) -> Option<u64> {
        let (divisor, length) = (self.divisor(), half_bits(self.known[3]));
        let known = self.times.least.iter().filter(|((of, bits), _)| *of <= divisor && *bits <= length);
        known.map(|(_, time)| *time).max().filter(|time| *time > 0)
    }

    /// How long a bit takes at most, no longer than at a larger divisor.
    fn bit(&self) -> Option<u64> {
        self.times.most.range(self.divisor()..).map(|(_, time)| *time).min()
    }

    /// The states that can follow by time alone from the begin of an access until it is over. A chip in which nothing goes on stays as it
    /// is, so there are few.
    fn pass_time(&self, from: Option<u64>, until: Option<u64>) -> States {
        let (bound, bit) = (until.zip(self.character()), self.bit());
        // When the access is made at the latest: within a bit of its time, and before the next one.
        let within_a_bit = from.zip(bit).map(|(from, bit)| from + bit);
        let made = [until, within_a_bit].into_iter().flatten().min().unwrap_or(u64::MAX);
        let is_over = |ending: Ending| from.zip(bit).is_some_and(|(from, bit)| from.saturating_sub(ending.since) > bit);
        let of_time = |state: &State| if state.ending.is_some_and(is_over) { state.ended() } else { state.clone() };
        let mut left: Vec<State> = self.states.values().map(of_time).collect();
        let mut all = States::new();
        while let Some(state) = left.pop() {
            if !keep(&mut all, state.clone()) {
                continue;
            }
            if state.ending.is_some() {
                left.push(state.ended());
            } else if bound.is_none_or(|(until, character)| state.can_tick(until, character)) {
                left.extend(state.ticked(made, u64::from(bound.is_some())));
            }
        }
        all
    }

    fn start(&mut self) {
        let Some(fcr) = self.fcr.take() else { return };
        let mut chip = ChipInC::new(self.kind);
        let [_, ier, _, lcr, mcr, _, _, scr, dll, dlm] = self.known;
        for (offset, value) in [(3, DLAB), (0, dll), (1, dlm), (3, lcr), (1, ier), (FCR, fcr), (MCR, mcr), (7, scr)] {
            chip.write(offset, value);
        }
        chip.read(MSR);
        let state = State::of(chip, None, 0, 0);
        self.states = States::from([(state.key(), state)]);
    }

    /// Keeps the states that answer a read so. Returns what all of them answer if none is left.
    fn read(&mut self, access: &Access, until: Option<u64>) -> Result<(), Vec<u8>> {
        let Access { offset, value, time, .. } = *access;
        if self.states.is_empty() {
            let place = self.place(offset);
            if [1, 3, 4, 7, 8, 9].contains(&place) {
                self.known[place] = value;
            }
            if offset == MSR && self.known[4] & LOOPBACK != 0 {
                self.start();
            }
            return Ok(());
        }
        let (mut after, mut answers) = (States::new(), Vec::new());
        for mut state in self.pass_time(time, until).into_values() {
            let answer = state.chip.read(offset);
            if answer == value {
                keep(&mut after, state);
            } else {
                answers.push(answer);
            }
        }
        self.verdict.judged += 1;
        self.verdict.most = self.verdict.most.max(after.len());
        self.states = after;
        if self.states.is_empty() { Err(answers) } else { Ok(()) }
    }

    fn write(&mut self, access: &Access, until: Option<u64>) {
        self.known[self.place(access.offset)] = access.value;
        if access.offset == FCR && self.states.is_empty() {
            self.fcr = Some(access.value);
        }
        let mut after = States::new();
        for mut state in self.pass_time(access.time, until).into_values() {
            let since = if state.chip.is_idle() { access.time.unwrap_or(0) } else { state.since };
            state.chip.write(access.offset, access.value);
            keep(&mut after, State::of(state.chip, state.ending, since, state.ticks));
        }
        self.verdict.most = self.verdict.most.max(after.len());
        let is_too_much = after.len() > MOST_STATES;
        self.verdict.given_up += usize::from(is_too_much);
        // Loopback ends: what is on the line from here on nobody knows.
        let is_unknown = is_too_much || access.offset == MCR && access.value & LOOPBACK == 0;
        self.states = if is_unknown { States::new() } else { after };
    }

    /// Judges equal reads in turn.
    fn read_all(&mut self, access: &Access, until: Option<u64>) {
        for _ in 0..=access.more {
            let before: Vec<StateKey> = self.states.keys().cloned().collect();
            if let Err(mut answers) = self.read(access, until) {
                answers.sort_unstable();
                answers.dedup();
                let wanted: Vec<String> = answers.iter().map(|answer| format!("{answer:02x}")).collect();
                let name = NAMES[usize::from(access.offset)];
                let text = format!("{name} reads {:02x}, and never but {}", access.value, wanted.join(" or "));
                self.verdict.differences.push((access.line, text));
                return;
            }
            // A further read would leave the same states.
            if before.iter().eq(self.states.keys()) {
                return;
            }
        }
    }
}

/// Judges the loopback of a recording by a chip of a kind.
pub fn judge(recording: &Recording, kind: Kind) -> Verdict {
    let mut judge = Judge { kind, times: recording.times(), known: [0; 10], fcr: None, states: States::new(), verdict: Verdict::default() };
    let ends = recording.accesses.iter().skip(1).map(|next| next.time).chain([None]);
    for (access, until) in recording.accesses.iter().zip(ends) {
        if access.is_write {
            judge.write(access, until);
        } else {
            judge.read_all(access, until);
        }
    }
    judge.verdict
}

/// The chips that a recording is held against: that with FIFOs of 16 first, which moves whole bytes, and then others.
pub const KINDS: [Kind; 10] = [
    Kind { fifo: Some(16), cuts: false },
    Kind { fifo: Some(16), cuts: true },
    Kind { fifo: None, cuts: false },
    Kind { fifo: None, cuts: true },
    Kind { fifo: Some(32), cuts: false },
    Kind { fifo: Some(32), cuts: true },
    Kind { fifo: Some(64), cuts: false },
    Kind { fifo: Some(64), cuts: true },
    Kind { fifo: Some(128), cuts: false },
    Kind { fifo: Some(128), cuts: true },
];

/// Judges by each kind of chip, and returns the first of those with the fewest differences.
pub fn judge_by_all(recording: &Recording) -> (Kind, Verdict) {
    let mut best: Option<(Kind, Verdict)> = None;
    for kind in KINDS {
        let verdict = judge(recording, kind);
        if best.as_ref().is_none_or(|(_, known)| verdict.differences.len() < known.differences.len()) {
            best = Some((kind, verdict));
        }
        if best.as_ref().is_some_and(|(_, known)| known.differences.is_empty()) {
            break;
        }
    }
    best.expect("there is a kind")
}
