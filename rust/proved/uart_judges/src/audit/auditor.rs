//! The judge of a driver.
//!
//! A recording has what the driver accessed and what it was answered. It does not show the inside
//! of the chip, and so mostly not whether a byte was lost. So a driver is blamed for what it did
//! not look at, as room before it sends, and not for what was lost.

use crate::audit::action::Action;
use crate::audit::finding::Finding;
use crate::audit::findings::{
    arrival, change, chip, discard, empty, flow, gate, latch, level, line_up, note, output,
    overrun, room, service, taken,
};
use crate::audit::setup::Setup;
use crate::audit::step::{Step, has_rested};
use crate::audit::unread::Unread;
use crate::recording::{Entry, Happening};
use uart_spec::registers::{InterruptType, LCR, MSR};

/// What was done to the divisor latch.
#[derive(Clone, Copy, Debug, PartialEq, Eq)]
pub struct Latch {
    /// Whether it was opened at any time.
    pub was_opened: bool,
    /// Whether LSR was read since it was opened.
    pub has_looked: bool,
    /// Whether the low byte was written since it was opened.
    pub has_low: bool,
    /// Whether the high byte was written since it was opened.
    pub has_high: bool,
    /// Whether the low byte was written since it was opened or read.
    pub is_low_new: bool,
    /// Whether the high byte was written since it was opened or read.
    pub is_high_new: bool,
}

/// An interrupt that was identified.
#[derive(Clone, Copy, Debug, PartialEq, Eq)]
pub struct Identified {
    /// The interrupt.
    pub interrupt: InterruptType,
    /// The number of the line at which ISR was read.
    pub line: u64,
}

/// An access after which the interrupt line was up.
#[derive(Clone, Copy, Debug, PartialEq, Eq)]
pub struct Mark {
    /// The number of its line.
    pub line: u64,
    /// When it was made, in nanoseconds.
    pub time: u64,
}

/// A judge of a driver and its chip, and what it knows after the entries of a recording that it was
/// given. It does not grow with them.
///
/// # Examples
///
/// ```text
/// let mut auditor = Auditor::new();
/// for finding in auditor.step(&entry).into_iter().flatten() {
///     writeln!(out, "{finding:?}")?;
/// }
/// ```
#[derive(Clone, Copy, Debug, PartialEq, Eq)]
pub struct Auditor {
    /// The set-up.
    pub setup: Setup,
    /// When the latest byte was sent.
    pub sent_at: Option<u64>,
    /// The bytes that were sent since the transmitter was last shown to have room. The count
    /// saturates.
    pub sent: u64,
    /// The bytes that may still be going out. The count saturates.
    pub going_out: u64,
    /// Whether THR was shown to be empty, and nothing was sent since.
    pub is_thr_empty: bool,
    /// Whether ISR identified an empty transmitter, and nothing was sent since.
    pub is_acknowledged: bool,
    /// Whether the interrupt of an empty transmitter was enabled while THR was empty, and no read
    /// of ISR shows it so far.
    pub is_thr_due: bool,
    /// The received bytes that are known to wait, at least.
    pub waiting: u8,
    /// Whether a received byte was seen, by the latest look at LSR or by an arrival since.
    pub ready: Option<bool>,
    /// Whether a byte was read from DATA, and errors were not looked at since.
    pub has_taken: bool,
    /// Whether bytes were sent or received since a register was written that says how the chip
    /// works.
    pub is_at_work: bool,
    /// What arrived and was not read.
    pub unread: Unread,
    /// Whether a character arrived for which there was no room, and LSR was not read since.
    pub is_overrun: bool,
    /// Whether FCR was written since LSR was last read.
    pub is_controlled: bool,
    /// The interrupt of received data that ISR identified, and that nothing served since.
    pub data_interrupt: Option<InterruptType>,
    /// The divisor latch.
    pub latch: Latch,
    /// A value of LCR that was written while bytes were going out, and not read back so far.
    pub busy_line: Option<LCR>,
    /// The interrupt that was identified, and not served so far.
    pub unserved: Option<Identified>,
    /// Whether a handler may be at work: ISR identified an interrupt, and did not show since that
    /// none is pending.
    pub is_handling: bool,
    /// Whether interrupts were seen to reach the processor since MCR was written.
    pub has_signalled: bool,
    /// The latest access after which the interrupt line was up, unless it fell since.
    pub up: Option<Mark>,
    /// Whether a byte was sent in loopback, and none was received since.
    pub has_looped: bool,
    /// What MSR showed of CTS since the latest byte was sent.
    pub cts: Option<bool>,
    /// Whether CTS was set at any time.
    pub was_cts_set: bool,
    /// The modem inputs that the recording has.
    pub lines: Option<MSR>,
    /// The set-up at the latest transfer of a byte.
    pub told: Option<Setup>,
}

/// The findings at one entry, each in its place.
pub type Findings = [Option<Finding>; 16];

impl Auditor {
    /// Returns a judge that was given nothing.
    #[must_use]
    pub fn new() -> Self {
        Auditor {
            setup: Setup::unknown(),
            sent_at: None,
            sent: 0,
            going_out: 0,
            is_thr_empty: false,
            is_acknowledged: false,
            is_thr_due: false,
            waiting: 0,
            ready: None,
            has_taken: false,
            is_at_work: false,
            unread: Unread::unknown(),
            is_overrun: false,
            is_controlled: false,
            data_interrupt: None,
            latch: Latch {
                was_opened: false,
                has_looked: false,
                has_low: false,
                has_high: false,
                is_low_new: false,
                is_high_new: false,
            },
            busy_line: None,
            unserved: None,
            is_handling: false,
            has_signalled: false,
            up: None,
            has_looped: false,
            cts: None,
            was_cts_set: false,
            lines: None,
            told: None,
        }
    }

    // Returns an entry beside what is known before it.
    pub(crate) fn step_of(&self, entry: &Entry) -> Step {
        let level = match entry.happening {
            Happening::Interrupt { is_raised } => Some(is_raised),
            _ => entry.interrupt,
        };
        Step {
            setup: self.setup,
            action: Action::new(self.setup.is_open, entry.happening),
            is_access: matches!(entry.happening, Happening::Access(_)),
            line: entry.line,
            time: entry.time,
            level,
            has_rested: has_rested(self.setup.divisor, self.going_out, self.sent_at, entry.time),
        }
    }

    // Returns the findings at a step.
    fn findings(&self, step: &Step) -> Findings {
        match step.action {
            Action::LooksAtLine(_) => self.found_at_look(step),
            Action::Sends(_) => self.found_at_send(step),
            Action::Receives(_) => self.found_at_receipt(step),
            _ => self.found_at_any(step),
        }
    }

    // Returns the findings at a step, whatever it does.
    fn found_at_any(&self, step: &Step) -> Findings {
        [
            note(self, step),
            room(self, step),
            output(self, step),
            flow(self, step),
            gate(self, step),
            taken(self, step),
            arrival(self, step),
            overrun(self, step),
            empty(self, step),
            latch(self, step),
            change(self, step),
            discard(self, step),
            service(self, step),
            chip(self, step),
            level(self, step),
            line_up(self, step),
        ]
    }

    /// Goes on by one entry of a recording, and returns the findings at it, each in its place.
    pub fn step(&mut self, entry: &Entry) -> Findings {
        let step = self.step_of(entry);
        let findings = self.findings(&step);
        self.go_on(&step);
        findings
    }
}
