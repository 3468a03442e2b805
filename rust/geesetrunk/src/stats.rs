//! What happened in a recording, in numbers: in all, and from one set-up to the next.

use crate::end::End;
use crate::import::Import;
use crate::judging::{DriverJudge, Stop, each_entry};
use crate::kinds::Kind;
use crate::known::Known;
use crate::log::Log;
use crate::meaning::Latch;
use crate::resets::Next;
use crate::streams::{Output, standard_output};
use crate::text::counted;
use crate::visits::Lateness;
use std::cell::RefCell;
use std::collections::VecDeque;
use std::fmt::Write as _;
use std::io::Write as _;
use uart_judges::audit::{Action, Finding};
use uart_judges::recording::{Entry, Happening};
use uart_spec::access::Access;
use uart_spec::registers::ISR;

// The most characters that wait to be read, of which the time is kept: a chip holds seventeen.
const MOST_WAITING: usize = 64;

// The name of the row that says how late what waits was read.
const LATEST: &str = "latest read";

// The longest wait from an arrival to its read.
#[derive(Clone, Copy, Debug, Default, PartialEq, Eq)]
struct Wait {
    nanoseconds: u64,
    line: u64,
}

/// What is counted of a recording, or of a part of it.
#[derive(Clone, Debug, Default, PartialEq, Eq)]
pub struct Counts {
    /// The line at which it begins.
    pub from: u64,
    reads: u64,
    writes: u64,
    sent: u64,
    received: u64,
    arrived: u64,
    // Reads of ISR that identified an interrupt, and that showed none.
    interrupts: u64,
    idle_reads: u64,
    // Reads of LSR that follow a read of LSR with nothing between.
    polls: u64,
    polling: u64,
    first: Option<u64>,
    last: Option<u64>,
    longest: Option<Wait>,
    // The latest read of what waits, and its line.
    latest: Option<(Lateness, u64)>,
}

impl Counts {
    fn from(line: u64) -> Self {
        Counts {
            from: line,
            ..Counts::default()
        }
    }

    // Adds those of a part.
    fn add(&mut self, part: &Counts) {
        self.reads = self.reads.saturating_add(part.reads);
        self.writes = self.writes.saturating_add(part.writes);
        self.sent += part.sent;
        self.received += part.received;
        self.arrived += part.arrived;
        self.interrupts += part.interrupts;
        self.idle_reads += part.idle_reads;
        self.polls = self.polls.saturating_add(part.polls);
        self.polling = self.polling.saturating_add(part.polling);
        self.first = self.first.or(part.first);
        self.last = part.last.or(self.last);
        self.longest = longer(self.longest, part.longest);
        self.latest = Lateness::later(self.latest, part.latest);
    }

    fn rows(&self) -> Vec<(&'static str, String)> {
        let bytes = self.sent + self.received;
        let accesses = self.reads.saturating_add(self.writes);
        let a_byte = |count: u64| match bytes {
            0 => String::new(),
            bytes => format!(", {:.2} a byte", count as f64 / bytes as f64),
        };
        let share = |part: u64, whole: u64| match whole {
            0 => 0.0,
            whole => part as f64 * 100.0 / whole as f64,
        };
        let mut rows = vec![
            ("bytes sent", self.sent.to_string()),
            ("bytes read", self.received.to_string()),
        ];
        if self.arrived > 0 {
            rows.push(("bytes arrived", self.arrived.to_string()));
        }
        rows.push((
            "accesses",
            format!(
                "{accesses} ({}, {}){}",
                counted(self.reads, "read"),
                counted(self.writes, "write"),
                a_byte(accesses)
            ),
        ));
        rows.push((
            "interrupts",
            format!(
                "{} identified by ISR{}",
                self.interrupts,
                a_byte(self.interrupts)
            ),
        ));
        if self.idle_reads > 0 {
            rows.push(("reads of ISR that show none", self.idle_reads.to_string()));
        }
        let of_reads = format!(
            "{} of LSR, {:.1} % of the accesses",
            counted(self.polls, "repeated read"),
            share(self.polls, accesses)
        );
        let time = match (self.first, self.last) {
            (Some(first), Some(last)) if last > first => {
                let whole = last - first;
                rows.push(("time", seconds(whole)));
                if self.sent > 0 || self.received > 0 {
                    let rate = bytes as f64 * 1e9 / whole as f64;
                    rows.push(("bytes a second", format!("{rate:.0}")));
                }
                format!(
                    ", {} and {:.1} % of the time",
                    seconds(self.polling),
                    share(self.polling, whole)
                )
            }
            _ => String::new(),
        };
        rows.push(("polling", of_reads + &time));
        if let Some(wait) = self.longest {
            let text = format!(
                "{}, of the byte that is read at line {}",
                seconds(wait.nanoseconds),
                wait.line
            );
            rows.push(("longest wait from arrival to read", text));
        }
        if let Some((lateness, line)) = self.latest {
            rows.push((LATEST, format!("at line {line}, {lateness}")));
        }
        rows
    }
}

fn longer(a: Option<Wait>, b: Option<Wait>) -> Option<Wait> {
    match (a, b) {
        (Some(a), Some(b)) => Some(if b.nanoseconds > a.nanoseconds { b } else { a }),
        (a, b) => a.or(b),
    }
}

// Returns a time in a unit that fits.
fn seconds(nanoseconds: u64) -> String {
    match nanoseconds {
        0..1_000 => format!("{nanoseconds} ns"),
        1_000..1_000_000 => format!("{:.1} us", nanoseconds as f64 / 1e3),
        1_000_000..1_000_000_000 => format!("{:.1} ms", nanoseconds as f64 / 1e6),
        _ => format!("{:.3} s", nanoseconds as f64 / 1e9),
    }
}

// A phase: what is counted from one set-up to the next.
#[derive(Clone, Debug, PartialEq, Eq)]
struct Phase {
    setup: String,
    counts: Counts,
}

// The most phases that are kept apart. What is behind them is counted in the last one.
const MOST_PHASES: usize = 1_000;

struct Counter {
    driver: DriverJudge,
    known: Known,
    latch: Latch,
    phases: Vec<Phase>,
    // When the characters arrived that wait to be read.
    waiting: VecDeque<u64>,
    // The time of a read of LSR that was the last access.
    looked: Option<Option<u64>>,
}

impl Counter {
    fn new(known: Known) -> Self {
        Counter {
            driver: DriverJudge::new(known),
            known,
            latch: Latch::default(),
            phases: vec![Phase {
                setup: String::new(),
                counts: Counts::from(1),
            }],
            waiting: VecDeque::new(),
            looked: None,
        }
    }

    fn next(&mut self, next: &Next) {
        match next {
            Next::Entry(entry) => self.step(entry),
            Next::Reset(_) => {
                self.driver.reset();
                self.latch = Latch::default();
                self.waiting.clear();
                self.looked = None;
            }
        }
    }

    fn step(&mut self, entry: &Entry) {
        let mut setup = None;
        let known = self.known;
        self.driver.step(entry, |kind, _| match kind {
            Kind::Finding(Finding::SetUp(found)) | Kind::SetUp(found, _) => {
                setup = Some(known.setup_text(&found));
            }
            _ => {}
        });
        if let Some(setup) = setup {
            self.begin_phase(setup, entry.line);
        }
        let action = self.latch.action(entry);
        let waited = self.waited(action, entry);
        let read = self.driver.read().map(|lateness| (lateness, entry.line));
        let polled = self.polled(action, entry);
        let Some(phase) = self.phases.last_mut() else {
            return;
        };
        let counts = &mut phase.counts;
        counts.first = counts.first.or(entry.time);
        counts.last = entry.time.or(counts.last);
        counts.longest = longer(counts.longest, waited);
        counts.latest = Lateness::later(counts.latest, read);
        if let Some((polls, time)) = polled {
            counts.polls = counts.polls.saturating_add(polls);
            counts.polling = counts.polling.saturating_add(time);
        }
        match entry.happening {
            Happening::Access(Access::Read(..)) => {
                counts.reads = counts.reads.saturating_add(entry.times);
            }
            Happening::Access(Access::Write(..)) => counts.writes += 1,
            Happening::Arrive { .. } => counts.arrived += 1,
            _ => {}
        }
        match action {
            Action::Sends(_) => counts.sent += 1,
            Action::Receives(_) => counts.received += entry.times,
            Action::IdentifiesInterrupt(isr) if isr.contains(ISR::INTERRUPT_STATUS) => {
                counts.idle_reads = counts.idle_reads.saturating_add(entry.times);
            }
            Action::IdentifiesInterrupt(_) => {
                counts.interrupts = counts.interrupts.saturating_add(entry.times);
            }
            _ => {}
        }
    }

    // Begins a phase. Before the first byte there is none so far.
    fn begin_phase(&mut self, setup: String, line: u64) {
        let is_first = self.phases.len() == 1 && self.phases[0].setup.is_empty();
        if is_first {
            self.phases[0].setup = setup;
        } else if self.phases.len() < MOST_PHASES {
            self.phases.push(Phase {
                setup,
                counts: Counts::from(line),
            });
        }
    }

    // Returns how long the byte waited that is read.
    fn waited(&mut self, action: Action, entry: &Entry) -> Option<Wait> {
        match action {
            Action::Arrives(..) => {
                if let Some(time) = entry.time
                    && self.waiting.len() < MOST_WAITING
                {
                    self.waiting.push_back(time);
                }
                None
            }
            // What was lost is read no more.
            Action::LooksAtLine(lsr) if !lsr.contains(uart_spec::registers::LSR::DATA_READY) => {
                self.waiting.clear();
                None
            }
            Action::Receives(_) => {
                let arrived = self.waiting.pop_front()?;
                let nanoseconds = entry.time?.saturating_sub(arrived);
                let line = entry.line;
                Some(Wait { nanoseconds, line })
            }
            _ => None,
        }
    }

    // Returns how many reads of LSR are repetitions, and the time since the read before.
    fn polled(&mut self, action: Action, entry: &Entry) -> Option<(u64, u64)> {
        if !matches!(entry.happening, Happening::Access(_)) {
            return None;
        }
        let Action::LooksAtLine(_) = action else {
            self.looked = None;
            return None;
        };
        let before = self.looked.replace(entry.time);
        match before {
            None => (entry.times > 1).then_some((entry.times - 1, 0)),
            Some(before) => {
                let time = match (before, entry.time) {
                    (Some(before), Some(now)) => now.saturating_sub(before),
                    _ => 0,
                };
                Some((entry.times, time))
            }
        }
    }

    // Returns what is counted of the whole.
    fn text_of_whole(&self, file: &str, lines: u64) -> String {
        let mut all = Counts::from(1);
        for phase in &self.phases {
            all.add(&phase.counts);
        }
        let mut text = format!("{file}: {}\n", counted(lines, "line"));
        write_rows(&mut text, &all);
        if all.received > 0 && all.latest.is_none() {
            let _ = match self.driver.lack_of_lateness() {
                Some(lack) => writeln!(text, "  {LATEST}: how late it was is not known: {lack}"),
                None => writeln!(
                    text,
                    "  {LATEST}: as many characters as the trigger level never waited, as far as it is told"
                ),
            };
        }
        text
    }

    // Returns what is counted of the whole, and from set-up to set-up.
    fn text(&self, file: &str, lines: u64) -> String {
        let mut text = self.text_of_whole(file, lines);
        if self.phases.len() > 1 {
            for (index, phase) in self.phases.iter().enumerate() {
                let end = self
                    .phases
                    .get(index + 1)
                    .map_or(lines, |next| next.counts.from - 1);
                let from = phase.counts.from;
                let _ = writeln!(text, "\nlines {from} to {end}: {}", phase.setup);
                write_rows(&mut text, &phase.counts);
            }
        } else if let Some(phase) = self.phases.first().filter(|phase| !phase.setup.is_empty()) {
            let _ = writeln!(text, "  set-up: {}", phase.setup);
        }
        text
    }
}

fn write_rows(text: &mut String, counts: &Counts) {
    for (name, value) in counts.rows() {
        let _ = writeln!(text, "  {name}: {value}");
    }
}

/// Prints what happened in the recording of this name, in numbers: in all, and from set-up to set-up unless the whole is enough.
///
/// # Errors
///
/// How the program ends: the recording cannot be read to its end, or the output cannot be written.
pub fn stats(file: &str, import: &Import, known: &Known, is_whole: bool) -> Result<(), End> {
    let output = RefCell::new(Output::new(standard_output().map_err(End::unwritten)?));
    let mut log = Log::open(file, "stats", import, &output)?;
    let mut counter = Counter::new(*known);
    let outcome = each_entry(&mut log, |next| {
        counter.next(next);
        Ok(())
    });
    let outcome = outcome.and_then(|lines| {
        let text = match is_whole {
            true => counter.text_of_whole(file, lines),
            false => counter.text(file, lines),
        };
        let written = output.borrow_mut().write_all(text.as_bytes());
        written.map_err(Stop::Output)
    });
    let outcome = outcome.map_err(|stop| log.ended(stop));
    log.close();
    output.into_inner().finish().map_err(End::unwritten)?;
    outcome
}

#[cfg(test)]
mod tests {
    use super::*;

    fn counter_of(recording: &str) -> (Counter, u64) {
        let mut counter = Counter::new(Known::default());
        let lines = each_entry(recording.as_bytes(), |next| {
            counter.next(next);
            Ok(())
        });
        (counter, lines.unwrap())
    }

    fn text_of(recording: &str) -> String {
        let (counter, lines) = counter_of(recording);
        counter.text("a", lines)
    }

    #[test]
    fn what_happened_is_counted() {
        let text = text_of(
            "r 5 00 0 @1000\nr 5 60 0 @2000\nw 0 41 0 @3000\na 00 42 1 @4000\nr 2 04 1 @5000\nr 0 42 0 @9000\nr 2 01 0 @9500\n",
        );
        for row in [
            "  bytes sent: 1\n",
            "  bytes read: 1\n",
            "  bytes arrived: 1\n",
            "  accesses: 6 (5 reads, 1 write), 3.00 a byte\n",
            "  interrupts: 1 identified by ISR, 0.50 a byte\n",
            "  reads of ISR that show none: 1\n",
            "  time: 8.5 us\n",
            "  polling: 1 repeated read of LSR, 16.7 % of the accesses, 1.0 us and 11.8 % of the time\n",
            "  longest wait from arrival to read: 5.0 us, of the byte that is read at line 6\n",
        ] {
            assert!(text.contains(row), "{row}{text}");
        }
    }

    #[test]
    fn of_two_waits_as_long_the_first_is_told() {
        let text = text_of("w 3 03 0 @500\na 00 41 1 @1000\nr 0 41 0 @3000\na 00 42 1 @4000\nr 0 42 0 @6000\n");
        let row = "  longest wait from arrival to read: 2.0 us, of the byte that is read at line 3\n";
        assert!(text.contains(row), "{text}");
    }

    #[test]
    fn a_phase_is_from_one_set_up_to_the_next() {
        let text = text_of("r 5 60\nw 3 03\nw 0 41\nw 0 41\nw 3 1b\nw 0 42\n");
        assert!(
            text.contains("\nlines 1 to 5: divisor not seen, 8 data bits, no parity"),
            "{text}"
        );
        assert!(
            text.contains("\nlines 6 to 6: divisor not seen, 8 data bits, even parity"),
            "{text}"
        );
    }

    #[test]
    fn the_whole_can_be_had_alone() {
        let (counter, lines) = counter_of("r 5 60\nw 3 03\nw 0 41\nw 0 41\nw 3 1b\nw 0 42\n");
        let text = counter.text("a", lines);
        let (whole, _) = text.split_once("\n\n").unwrap();
        assert_eq!(counter.text_of_whole("a", lines), format!("{whole}\n"));
    }

    #[test]
    fn one_is_no_plural() {
        let text = text_of("r 5 60\n");
        assert!(text.starts_with("a: 1 line\n"), "{text}");
        assert!(text.contains("accesses: 1 (1 read, 0 writes)"), "{text}");
    }

    #[test]
    fn repeats_are_polls() {
        let text = text_of("r 5 00\nx 99\nr 5 60\nw 0 41\n");
        assert!(text.contains("polling: 100 repeated reads"), "{text}");
    }
}
