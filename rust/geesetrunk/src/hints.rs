//! Hints: what a driver does that may be meant, and mostly is not.
//!
//! The judge of drivers is proved, and each of its warnings is a fault or what may be one. What is here is plain Rust beside it. A hint
//! is a note: it is true of the recording, it costs no exit status, and it is said once, or once for each line that it is about.

use crate::visits::{Lateness, Unknown, overrun_text};
use std::fmt;
use uart_judges::audit::Action;
use uart_judges::recording::{Entry, Happening};
use uart_spec::access::Access;
use uart_spec::registers::{FCR, IER, ISR, LCR, LSR, MCR, MSR, offsets};

/// How long the interrupt line is up, in nanoseconds, until somebody should have come: a second, as for `line-left-up`.
const PATIENCE: u64 = 1_000_000_000;

/// How many characters arrive while the interrupt line is up, until somebody should have come: a FIFO has room for so many.
const MOST_ARRIVALS: u32 = 16;

/// How many reads in turn are a poll that does not end, if they show a chip at work, and if they show one that is idle: a driver may
/// wait for a key.
const LONG_POLL: u64 = 1_000;
const LONG_IDLE_POLL: u64 = 100_000;

/// How many bytes have a wait of their own until that is said.
const MANY_BYTES: u32 = 64;

/// How many accesses are made with interrupts on, until somebody should have read ISR.
const MANY_ACCESSES: u64 = 1_000;

/// The bits of FCR with a trigger level.
const TRIGGER_LEVEL: u8 = 0xc0;

/// The interrupts of IER.
const INTERRUPTS: u8 = 0x0f;

/// Something that a driver does, and may not mean.
#[derive(Clone, Copy, Debug, PartialEq, Eq)]
pub enum Hint {
    /// FCR was written with a trigger level, and bit 0 clear.
    TriggerWithoutFifo(u8),
    /// IER was written with interrupts at this line, and the divisor after it.
    IerBeforeSetUp(u64),
    /// LSR was written.
    LsrWritten(u8),
    /// MSR was written.
    MsrWritten(u8),
    /// A byte is sent, and CTS was clear at each look, from this line on.
    CtsNeverSet(u64),
    /// So many bytes have been sent since this line, each behind a wait of its own until the transmitter is empty.
    OneByteAWait(u64),
    /// The interrupt line is up since this line, and nobody came.
    LineNotServed {
        /// The line from which on it is up.
        since: u64,
        /// What is to be done about it, as far as is known.
        pending: Pending,
    },
    /// Interrupts are on since this line, and ISR was not read.
    IsrNeverRead(u64),
    /// The recording ends in a poll.
    EndsInPoll {
        /// The offset of the register.
        offset: usize,
        /// What the last read returned.
        answer: u8,
        /// The line of the first read.
        from: u64,
        /// How many reads there are.
        times: u64,
    },
    /// The recording ends while a break is sent.
    EndsInBreak,
    /// DTR and RTS were never set, and bytes were sent or received.
    OutputsNeverRaised,
    /// More bytes are written in loopback than LSR showed room for.
    FloodInLoopback {
        /// How many it showed room for.
        room: u8,
    },
    /// LSR shows that a character was lost: how late the handler was, as far as that is told.
    Overrun(Result<Lateness, Unknown>),
}

/// What the interrupt line is up for.
#[derive(Clone, Copy, Debug, PartialEq, Eq)]
pub enum Pending {
    /// A character arrived.
    Received,
    /// The transmitter is empty, and its interrupt is on.
    ThrEmpty,
    /// It is not known.
    Unknown,
}

impl Hint {
    /// Returns what this kind of hint is called.
    pub fn name(&self) -> &'static str {
        match self {
            Hint::TriggerWithoutFifo(_) => "trigger-without-fifo",
            Hint::IerBeforeSetUp(_) => "ier-before-set-up",
            Hint::LsrWritten(_) => "lsr-written",
            Hint::MsrWritten(_) => "msr-written",
            Hint::CtsNeverSet(_) => "cts-never-set",
            Hint::OneByteAWait(_) => "one-byte-a-wait",
            Hint::LineNotServed { .. } => "line-not-served",
            Hint::IsrNeverRead(_) => "isr-never-read",
            Hint::EndsInPoll { .. } => "ends-in-poll",
            Hint::EndsInBreak => "ends-in-break",
            Hint::OutputsNeverRaised => "dtr-rts-never-set",
            Hint::FloodInLoopback { .. } => "flood-in-loopback",
            Hint::Overrun(_) => "overrun-cause",
        }
    }

    /// Returns the line that it is about, where that is not the line at which it is found.
    pub fn line(&self) -> Option<u64> {
        match self {
            Hint::IerBeforeSetUp(line) | Hint::IsrNeverRead(line) | Hint::OneByteAWait(line) => {
                Some(*line)
            }
            Hint::LineNotServed { since, .. } => Some(*since),
            Hint::EndsInPoll { from, .. } => Some(*from),
            _ => None,
        }
    }
}

// Returns what a poll waits for, by the register and what it returned.
fn awaited(offset: usize, answer: u8) -> &'static str {
    let lsr = LSR::from_bits_retain(answer);
    match offset {
        offsets::LSR if !lsr.contains(LSR::THR_EMPTY) => {
            "bit 5 (THRE) does not come: the transmitter does not become empty. Is the output taken, and is the clock on?"
        }
        offsets::LSR if !lsr.contains(LSR::TRANSMITTER_EMPTY) => {
            "bit 6 (TEMT) does not come: the last character does not go out"
        }
        offsets::LSR if lsr.contains(LSR::DATA_READY) => {
            "a byte waits (bit 0), and the driver waits for something else"
        }
        offsets::LSR => {
            "the chip is idle: no byte comes, or the driver waits for a bit that is not there"
        }
        offsets::MSR => "a modem input does not change: bit 4 is CTS, 5 DSR, 7 CD",
        offsets::ISR => "no interrupt comes, or the one that is pending is not served",
        _ => "the register keeps its value",
    }
}

fn register_name(offset: usize) -> &'static str {
    match offset {
        offsets::LSR => "LSR",
        offsets::MSR => "MSR",
        offsets::ISR => "ISR",
        offsets::IER => "IER",
        offsets::LCR => "LCR",
        offsets::MCR => "MCR",
        offsets::DATA => "DATA",
        _ => "SCR",
    }
}

impl fmt::Display for Hint {
    fn fmt(&self, f: &mut fmt::Formatter<'_>) -> fmt::Result {
        match *self {
            Hint::TriggerWithoutFifo(value) => write!(
                f,
                "FCR was written with the trigger level of {value:02x}, and bit 0 (FIFOs on) is clear: the FIFOs are off, and the level \
                 is not taken. Set bit 0"
            ),
            Hint::IerBeforeSetUp(_) => f.write_str(
                "IER enables interrupts here, and the divisor is set after it: if the driver begins here, an interrupt may come before \
                 the chip is set up. Write IER last",
            ),
            Hint::LsrWritten(value) => write!(
                f,
                "{value:02x} was written to LSR, which is a register to read: chips ignore it, or set its bits for a test. Leave it out"
            ),
            Hint::MsrWritten(value) => write!(
                f,
                "{value:02x} was written to MSR, which is a register to read: chips ignore it, or show changes of modem lines that \
                 were none. Leave it out"
            ),
            Hint::CtsNeverSet(line) => write!(
                f,
                "a byte is sent, and MSR bit 4 (CTS) was clear at each look since line {line}: nobody is at the other end, or the \
                 cable has no CTS. Check the cable, or wait for CTS"
            ),
            Hint::OneByteAWait(_) => write!(
                f,
                "{MANY_BYTES} bytes from here on were sent one at a time, each when LSR showed an empty transmitter again: the FIFO has \
                 room for 16 then, so the throughput may be a sixteenth. Write up to 16 behind one look"
            ),
            Hint::LineNotServed { pending, .. } => {
                f.write_str("the interrupt line is up from here on, and nobody serves it")?;
                f.write_str(match pending {
                    Pending::Received => ": received data waits",
                    Pending::ThrEmpty => ": the transmitter is empty, and IER bit 1 is set",
                    Pending::Unknown => "",
                })?;
                f.write_str(
                    ". The controller masks the line, the handler is another line's, or nobody reads ISR. Unmask it, or clear IER",
                )
            }
            Hint::IsrNeverRead(_) => f.write_str(
                "IER enables interrupts here, and ISR is not read after it: the interrupts do not reach the handler, or the driver \
                 polls and leaves them on. Clear IER where the driver polls",
            ),
            Hint::EndsInPoll {
                offset,
                answer,
                times,
                ..
            } => write!(
                f,
                "the recording ends with {times} reads of {} in turn from here on, the last of which returned {answer:02x}: {}",
                register_name(offset),
                awaited(offset, answer)
            ),
            Hint::EndsInBreak => f.write_str(
                "the recording ends while LCR bit 6 (break) is set: the line stays low, and nothing goes out. Clear it when the break \
                 has lasted long enough",
            ),
            Hint::FloodInLoopback { room } => write!(
                f,
                "more bytes than the {room} that LSR showed room for are written in loopback from here on, and some of them are lost. \
                 None goes onto the line, so a driver that counts what comes back measures the FIFO so"
            ),
            Hint::OutputsNeverRaised => f.write_str(
                "MCR bits 0 (DTR) and 1 (RTS) were never set: an end with flow control sends nothing, and a modem hangs up. Set both",
            ),
            Hint::Overrun(overrun) => f.write_str(&overrun_text(&overrun)),
        }
    }
}

// A poll: reads of one register or of two in turn, which return the same.
#[derive(Clone, Copy, Debug)]
struct Poll {
    reads: [Option<(usize, u8)>; 2],
    last: (usize, u8),
    from: u64,
    times: u64,
}

impl Poll {
    // Returns the poll after a read so many times.
    fn after(poll: Option<Self>, read: (usize, u8), line: u64, times: u64) -> Self {
        let Some(mut poll) = poll else {
            return Poll {
                reads: [Some(read), None],
                last: read,
                from: line,
                times,
            };
        };
        let [first, second] = poll.reads;
        if first != Some(read) && second != Some(read) {
            if second.is_some() {
                return Poll::after(None, read, line, times);
            }
            poll.reads[1] = Some(read);
        }
        poll.last = read;
        poll.times = poll.times.saturating_add(times);
        poll
    }

    // Returns whether it is long enough to be told of.
    fn is_long(&self) -> bool {
        let is_idle = |read: (usize, u8)| {
            let lsr = LSR::from_bits_retain(read.1);
            let (empty, ready) = (
                LSR::THR_EMPTY.union(LSR::TRANSMITTER_EMPTY),
                lsr.contains(LSR::DATA_READY),
            );
            read.0 == offsets::LSR && lsr.contains(empty) && !ready
        };
        let is_idle = self.reads.iter().flatten().any(|read| is_idle(*read));
        let least = if is_idle { LONG_IDLE_POLL } else { LONG_POLL };
        self.times >= least
    }
}

// The interrupt line while it is up.
#[derive(Clone, Copy, Debug)]
struct Up {
    line: u64,
    time: Option<u64>,
    arrivals: u32,
    has_data: bool,
    // Whether ISR was read or IER written, or it was told of.
    is_settled: bool,
}

// Interrupts that are on, and that nobody has asked ISR about.
#[derive(Clone, Copy, Debug)]
struct Unasked {
    line: u64,
    accesses: u64,
}

// Bytes that each have a wait of their own.
#[derive(Clone, Copy, Debug, Default)]
struct Waits {
    // What LSR showed since the last byte.
    has_room: bool,
    has_waited: bool,
    from: u64,
    bytes: u32,
    is_told: bool,
}

// Finds writes that no driver needs.
fn at_write(offset: usize, value: u8) -> Option<Hint> {
    match offset {
        offsets::LSR => Some(Hint::LsrWritten(value)),
        offsets::MSR => Some(Hint::MsrWritten(value)),
        offsets::FCR => {
            let is_off = !FCR::from_bits_retain(value).contains(FCR::FIFO_ENABLE);
            (is_off && value & TRIGGER_LEVEL != 0).then_some(Hint::TriggerWithoutFifo(value))
        }
        _ => None,
    }
}

/// Goes through a recording, and finds hints. It does not grow.
#[derive(Clone, Copy, Debug, Default)]
pub struct Hints {
    is_open: Option<bool>,
    lcr: Option<LCR>,
    mcr: Option<MCR>,
    ier: Option<IER>,
    is_fifo_on: bool,
    // Whether anything was done that is done after the set-up, or as a part of it.
    is_begun: bool,
    early: Option<u64>,
    cts_off: Option<u64>,
    was_cts_set: bool,
    is_cts_told: bool,
    has_outputs: bool,
    has_raised: bool,
    has_moved: bool,
    up: Option<Up>,
    unasked: Option<Unasked>,
    has_asked: bool,
    waits: Waits,
    poll: Option<Poll>,
}

/// The most hints at an entry.
const MOST: usize = 4;

/// The hints at one entry.
pub type Found = [Option<Hint>; MOST];

impl Hints {
    /// Goes on by an entry, and tells the hints at it.
    // Most entries are reads and writes of a driver that sends: what cannot be found at them is not looked for.
    pub fn step(&mut self, entry: &Entry, mut tell: impl FnMut(Hint)) {
        let action = Action::new(self.is_open, entry.happening);
        let mut told = |hint: Option<Hint>| {
            if let Some(hint) = hint {
                tell(hint);
            }
        };
        match entry.happening {
            Happening::Access(Access::Read(offset, answer)) => {
                let read = (offset, answer);
                self.poll = Some(Poll::after(self.poll, read, entry.line, entry.times));
            }
            Happening::Access(Access::Write(offset, value)) => {
                self.poll = None;
                if offset != offsets::DATA {
                    told(at_write(offset, value));
                    told(self.at_set_up(action, entry.line, value));
                }
            }
            _ => {}
        }
        told(self.at_transfer(action, entry.line));
        let is_told_of = matches!(entry.happening, Happening::Interrupt { .. });
        if entry.interrupt.is_some() || self.up.is_some() || is_told_of {
            told(self.at_level(action, entry));
        }
        self.learn(action, entry);
    }

    /// Returns the hints after the last entry.
    pub fn end(&self) -> Found {
        let poll = self.poll.filter(Poll::is_long);
        let is_break = self.lcr.is_some_and(|lcr| lcr.contains(LCR::SET_BREAK));
        let is_silent = self.has_outputs && !self.has_raised && self.has_moved;
        let unasked = self
            .unasked
            .filter(|unasked| unasked.accesses >= MANY_ACCESSES);
        [
            poll.map(|poll| Hint::EndsInPoll {
                offset: poll.last.0,
                answer: poll.last.1,
                from: poll.from,
                times: poll.times,
            }),
            is_break.then_some(Hint::EndsInBreak),
            is_silent.then_some(Hint::OutputsNeverRaised),
            unasked.map(|unasked| Hint::IsrNeverRead(unasked.line)),
        ]
    }

    fn loops_back(&self) -> bool {
        self.mcr.is_some_and(|mcr| mcr.contains(MCR::LOOP_BACK))
    }

    // Finds interrupts that are enabled before the divisor is set.
    fn at_set_up(&mut self, action: Action, line: u64, value: u8) -> Option<Hint> {
        if let Action::EnablesInterrupts(_) | Action::MayEnable = action {
            if value & INTERRUPTS == 0 {
                // A probe writes IER, reads it back, and clears it.
                self.early = None;
            } else if !self.is_begun {
                self.early.get_or_insert(line);
            }
        }
        // What the divisor was set before is nothing that IER came before.
        if let Action::SetsLine(lcr) = action {
            let early = self.early.take().filter(|_| lcr.contains(LCR::DLAB));
            return early.map(Hint::IerBeforeSetUp);
        }
        None
    }

    // Finds what is wrong with how bytes are sent.
    fn at_transfer(&mut self, action: Action, line: u64) -> Option<Hint> {
        match action {
            Action::LooksAtLine(lsr) => {
                let has_room = lsr.contains(LSR::THR_EMPTY);
                self.waits.has_room |= has_room;
                self.waits.has_waited |= !has_room;
                None
            }
            Action::LooksAtModem(msr) if !self.loops_back() => {
                if msr.contains(MSR::CTS) {
                    self.was_cts_set = true;
                } else {
                    self.cts_off.get_or_insert(line);
                }
                None
            }
            Action::ChangesLines(inputs) => {
                self.was_cts_set |= inputs.contains(MSR::CTS);
                None
            }
            Action::Sends(_) => {
                let slow = self.count_wait(line);
                slow.or_else(|| self.cts_at_send())
            }
            _ => None,
        }
    }

    fn cts_at_send(&mut self) -> Option<Hint> {
        if self.was_cts_set || self.is_cts_told || self.loops_back() {
            return None;
        }
        let line = self.cts_off?;
        self.is_cts_told = true;
        Some(Hint::CtsNeverSet(line))
    }

    // Counts a byte that is sent, if it has a wait of its own. A byte for which there was room at once is neither one nor another: what
    // sends slowly need not wait.
    fn count_wait(&mut self, line: u64) -> Option<Hint> {
        let waits = &mut self.waits;
        if !waits.has_room || !self.is_fifo_on {
            waits.bytes = 0;
        } else if waits.has_waited {
            if waits.bytes == 0 {
                waits.from = line;
            }
            waits.bytes = waits.bytes.saturating_add(1);
        }
        (waits.has_room, waits.has_waited) = (false, false);
        if waits.bytes < MANY_BYTES || waits.is_told {
            return None;
        }
        waits.is_told = true;
        Some(Hint::OneByteAWait(waits.from))
    }

    // Finds an interrupt line that is up, and that nobody serves.
    fn at_level(&mut self, action: Action, entry: &Entry) -> Option<Hint> {
        let level = match entry.happening {
            Happening::Interrupt { is_raised } => Some(is_raised),
            _ => entry.interrupt,
        };
        let is_served = matches!(
            action,
            Action::IdentifiesInterrupt(_) | Action::EnablesInterrupts(_) | Action::MayEnable
        );
        match (level, self.up) {
            (Some(false), _) => self.up = None,
            (Some(true), None) => {
                self.up = Some(Up {
                    line: entry.line,
                    time: entry.time,
                    arrivals: 0,
                    has_data: false,
                    // An access that raises it is no service of it.
                    is_settled: false,
                });
            }
            _ => {}
        }
        let is_access = matches!(entry.happening, Happening::Access(_));
        let thr_empty = self.ier.is_some_and(|ier| ier.contains(IER::THR_EMPTY));
        let up = self.up.as_mut()?;
        if is_served && up.line != entry.line {
            up.is_settled = true;
        }
        if is_access {
            up.arrivals = 0;
        }
        if let Action::Arrives(..) = action {
            up.arrivals = up.arrivals.saturating_add(1);
            up.has_data = true;
        }
        let is_late = match (up.time, entry.time) {
            (Some(since), Some(now)) => now.saturating_sub(since) >= PATIENCE,
            _ => false,
        };
        if up.is_settled || !(is_late || up.arrivals > MOST_ARRIVALS) {
            return None;
        }
        up.is_settled = true;
        let pending = match (up.has_data, thr_empty) {
            (true, _) => Pending::Received,
            (false, true) => Pending::ThrEmpty,
            (false, false) => Pending::Unknown,
        };
        Some(Hint::LineNotServed {
            since: up.line,
            pending,
        })
    }

    // Takes down what an entry shows of the chip.
    fn learn(&mut self, action: Action, entry: &Entry) {
        if let Some(unasked) = &mut self.unasked
            && matches!(entry.happening, Happening::Access(_))
        {
            unasked.accesses = unasked.accesses.saturating_add(entry.times);
        }
        match action {
            Action::SetsLine(lcr) | Action::ReadsLine(lcr) => {
                self.lcr = Some(lcr);
                self.is_open = Some(lcr.contains(LCR::DLAB));
            }
            Action::LooksAtLine(_) => {
                self.is_open.get_or_insert(false);
            }
            Action::SetsModem(mcr) | Action::ReadsModem(mcr) => {
                self.mcr = Some(mcr);
                if !mcr.contains(MCR::LOOP_BACK) {
                    self.has_outputs = true;
                    self.has_raised |= mcr.intersects(MCR::DTR.union(MCR::RTS));
                }
            }
            Action::IdentifiesInterrupt(isr) => {
                self.is_fifo_on = isr.contains(ISR::FIFOS_ENABLED);
                self.has_asked = true;
                self.unasked = None;
            }
            Action::ControlsFifo(fcr) => self.is_fifo_on = fcr.contains(FCR::FIFO_ENABLE),
            Action::ShowsInterrupts(ier) => self.ier = Some(ier),
            Action::EnablesInterrupts(ier) => {
                self.ier = Some(ier);
                let is_on = ier.bits() & INTERRUPTS != 0 && !self.has_asked;
                let line = entry.line;
                let first = self.unasked.unwrap_or(Unasked { line, accesses: 0 });
                self.unasked = is_on.then_some(first);
            }
            _ => {}
        }
        if let Action::Sends(_) | Action::Receives(_) = action {
            self.early = None;
            self.has_moved |= !self.loops_back();
        }
        self.is_begun |= matches!(
            action,
            Action::SetsLine(_)
                | Action::SetsDivisorLow(_)
                | Action::SetsDivisorHigh(_)
                | Action::ControlsFifo(_)
                | Action::IdentifiesInterrupt(_)
                | Action::Sends(_)
                | Action::Receives(_)
                | Action::MaySend
                | Action::MayReceive
        );
    }
}

#[cfg(test)]
mod tests {
    use super::*;
    use crate::heap;
    use uart_judges::recording::Recording;

    // Returns the names of the hints of a recording, each with the line that it is about, or at which it is found.
    fn hints(recording: &str) -> Vec<(&'static str, u64)> {
        let mut recording = Recording::new(heap(), recording.as_bytes()).unwrap();
        let mut hints = Hints::default();
        let mut found = Vec::new();
        let name = |hint: Hint, line| (hint.name(), hint.line().unwrap_or(line));
        while let Some(entry) = recording.next_entry().unwrap() {
            let mut here = Vec::new();
            hints.step(&entry, |hint| here.push(hint));
            found.extend(here.into_iter().map(|hint| name(hint, entry.line)));
        }
        let line = recording.lines();
        found.extend(
            hints
                .end()
                .into_iter()
                .flatten()
                .map(|hint| name(hint, line)),
        );
        found
    }

    #[test]
    fn each_hint_is_found_and_its_right_neighbour_is_not() {
        let looks = |look: &str| format!("w 2 01\n{}", format!("{look}w 0 41\n").repeat(64));
        for (recording, wanted) in [
            ("w 2 c0\n", Some(("trigger-without-fifo", 1))),
            ("w 2 c1\nw 2 00\nw 2 06\n", None),
            ("w 1 05\nw 3 83\n", Some(("ier-before-set-up", 1))),
            (
                "r 5 60\nw 1 05\nw 4 0b\nw 3 83\n",
                Some(("ier-before-set-up", 2)),
            ),
            ("w 1 05\nw 1 00\nw 3 83\n", None),
            ("w 1 05\nw 3 03\nw 3 83\n", None),
            ("w 1 02\nr 1 02\nr 2 02\nw 1 00\nw 3 83\n", None),
            (
                "w 3 83\nw 0 01\nw 1 00\nw 3 03\nw 1 05\nw 3 83\nw 3 03\n",
                None,
            ),
            ("r 5 60\nw 0 41\nw 1 05\nw 3 83\nw 3 03\n", None),
            ("r 5 60\nw 5 60\n", Some(("lsr-written", 2))),
            ("w 6 00\n", Some(("msr-written", 1))),
            ("w 7 00\n", None),
            (
                "r 5 60\nr 6 00\nw 0 41\nw 0 42\n",
                Some(("cts-never-set", 3)),
            ),
            ("r 5 60\nr 6 10\nr 6 00\nw 0 41\n", None),
            ("r 5 60\nm 10\nr 6 01\nw 0 41\n", None),
            ("r 5 60\nr 6 00\n", None),
            (&looks("r 5 00\nr 5 60\n"), Some(("one-byte-a-wait", 4))),
            (&looks("r 5 60\n"), None),
            (&looks("r 5 00\nr 5 60\nw 0 41\n"), None),
            (&looks("r 5 00\nr 5 60\n").replace("w 2 01", "w 2 00"), None),
            (
                "i 1 @5\nr 5 60 1 @1000000005\n",
                Some(("line-not-served", 1)),
            ),
            ("i 1 @5\nr 5 60 1 @1000000004\n", None),
            ("i 1 @5\nr 2 c2 1 @6\nr 5 60 1 @1000000005\n", None),
            ("i 1 @5\ni 0 @6\ni 1 @7\nr 5 60 1 @1000000005\n", None),
            (
                &format!("i 1\n{}", "a 00 41\n".repeat(17)),
                Some(("line-not-served", 1)),
            ),
            (&format!("i 1\n{}", "a 00 41\n".repeat(16)), None),
            (
                &format!("r 5 60\nw 1 01\n{}", "r 6 b0\nr 7 00\nr 4 0b\n".repeat(400)),
                Some(("isr-never-read", 2)),
            ),
            (
                &format!(
                    "r 5 60\nr 2 01\nw 1 01\n{}",
                    "r 6 b0\nr 7 00\nr 4 0b\n".repeat(400)
                ),
                None,
            ),
            ("w 0 41\nr 5 00\nx 999\n", Some(("ends-in-poll", 2))),
            ("w 0 41\nr 5 00\nx 998\n", None),
            ("w 0 41\nr 5 00\nx 999\nr 5 60\nw 0 41\n", None),
            ("w 0 41\nr 5 60\nx 9999\n", None),
            (
                "r 5 20\nr 6 b0\nx 500\nr 5 20\nx 500\n",
                Some(("ends-in-poll", 1)),
            ),
            ("w 3 43\n", Some(("ends-in-break", 1))),
            ("w 3 43\nw 3 03\n", None),
            ("w 4 00\nr 5 60\nw 0 41\n", Some(("dtr-rts-never-set", 3))),
            ("w 4 00\n", None),
            ("w 4 00\nr 5 60\nw 0 41\nw 4 02\n", None),
            ("w 4 10\nr 5 60\nw 0 41\n", None),
        ] {
            let wanted: Vec<_> = wanted.into_iter().collect();
            assert_eq!(hints(recording), wanted, "{recording}");
        }
    }

    #[test]
    fn a_hint_is_said_once() {
        let recording = format!("r 5 60\nr 6 00\n{}", "w 0 41\n".repeat(5));
        assert_eq!(hints(&recording), [("cts-never-set", 3)]);
        let late = "i 1 @5\nr 5 60 1 @1000000005\nr 5 60 1 @2000000005\n";
        assert_eq!(hints(late).len(), 1);
    }
}
