//! The judge of a chip: what the judge of a driver finds of the answers of the chip, by itself.
//!
//! It goes on only in what these depend on, so that it takes a fraction of the instructions.

use crate::audit::action::Action;
use crate::audit::auditor::Auditor;
use crate::audit::finding::{Finding, Severity};
use crate::audit::findings::{arrival, chip, empty, level, overrun};
use crate::audit::history::{count, since, waiting_after};
use crate::audit::step::Step;
use crate::recording::Entry;
use uart_spec::registers::LSR;

/// The answers of the chip that a recording contradicts at one entry, each in its place.
pub type Answers = [Option<Finding>; 5];

/// A judge of a chip alone, and what it knows after the entries of a recording that it was given.
/// It finds the answers of the chip that an [`Auditor`] finds, and no other findings.
///
/// # Examples
///
/// ```text
/// let mut auditor = ChipAuditor::new();
/// for finding in auditor.step(&entry).into_iter().flatten() {
///     writeln!(out, "{finding:?}")?;
/// }
/// ```
#[derive(Clone, Copy, Debug, PartialEq, Eq)]
pub struct ChipAuditor {
    /// What is known. What no answer of the chip depends on is as at the beginning.
    pub seen: Auditor,
}

// Returns a finding if it is an answer of the chip.
fn answer_in(found: Option<Finding>) -> Option<Finding> {
    let finding = found?;
    match finding.severity() {
        Severity::Answer => Some(finding),
        _ => None,
    }
}

impl Auditor {
    // Returns the answers at a step.
    fn answers(&self, step: &Step) -> Answers {
        match step.action {
            Action::LooksAtLine(_) => self.answers_at_look(step),
            Action::Sends(_) | Action::Receives(_) => self.answers_at_data(step),
            _ => self.answers_at_any(step),
        }
    }

    // Returns the answers at a step that reads LSR.
    fn answers_at_look(&self, step: &Step) -> Answers {
        [
            answer_in(arrival(self, step)),
            overrun(self, step),
            empty(self, step),
            None,
            None,
        ]
    }

    // Returns the answers at a step that sends a byte, or takes one.
    fn answers_at_data(&self, step: &Step) -> Answers {
        [answer_in(arrival(self, step)), None, None, None, None]
    }

    // Returns the answers at a step, whatever it does.
    fn answers_at_any(&self, step: &Step) -> Answers {
        [
            answer_in(arrival(self, step)),
            overrun(self, step),
            empty(self, step),
            chip(self, step),
            level(self, step),
        ]
    }

    // Goes on by a step that reads LSR.
    fn look_for_chip(&mut self, step: &Step, lsr: LSR) {
        let action = Action::LooksAtLine(lsr);
        self.setup = self.setup.after(action);
        self.going_out = count(self.going_out, step.shows_idle(), false);
        self.is_thr_empty = since(self.is_thr_empty, false, action.shows_thr_empty());
        self.is_acknowledged = since(self.is_acknowledged, false, false);
        self.waiting = waiting_after(self.waiting, *step);
        self.unread.look(lsr);
        self.is_overrun = false;
        self.is_controlled = since(self.is_controlled, true, false);
        self.data_interrupt = None;
    }

    // Goes on by a step that sends a byte.
    fn send_for_chip(&mut self, step: &Step, byte: u8) {
        self.setup = self.setup.after(Action::Sends(byte));
        self.sent_at = step.time;
        self.going_out = count(self.going_out, step.shows_idle(), true);
        self.is_thr_empty = since(self.is_thr_empty, true, false);
        self.is_acknowledged = since(self.is_acknowledged, true, false);
        self.is_thr_due = false;
        self.unread.send(step.setup);
        self.is_controlled = since(self.is_controlled, false, false);
    }

    // Goes on by a step that takes a byte.
    fn receive_for_chip(&mut self, step: &Step, byte: u8) {
        self.setup = self.setup.after(Action::Receives(byte));
        self.going_out = count(self.going_out, step.shows_idle(), false);
        self.is_thr_empty = since(self.is_thr_empty, false, false);
        self.is_acknowledged = since(self.is_acknowledged, false, false);
        self.waiting = self.waiting.saturating_sub(1);
        self.unread = self.unread.after_read(byte);
        self.is_controlled = since(self.is_controlled, false, false);
        self.data_interrupt = None;
    }

    // Goes on by a step, whatever it does.
    fn go_on_by_any(&mut self, step: &Step) {
        let after = self.after(step);
        self.setup = after.setup;
        self.sent_at = after.sent_at;
        self.going_out = after.going_out;
        self.is_thr_empty = after.is_thr_empty;
        self.is_acknowledged = after.is_acknowledged;
        self.is_thr_due = after.is_thr_due;
        self.waiting = after.waiting;
        self.unread = after.unread;
        self.is_overrun = after.is_overrun;
        self.is_controlled = after.is_controlled;
        self.data_interrupt = after.data_interrupt;
        self.busy_line = after.busy_line;
        self.lines = after.lines;
    }

    // Goes on by a step in what the answers of the chip depend on.
    fn go_on_for_chip(&mut self, step: &Step) {
        match step.action {
            Action::LooksAtLine(lsr) => self.look_for_chip(step, lsr),
            Action::Sends(byte) => self.send_for_chip(step, byte),
            Action::Receives(byte) => self.receive_for_chip(step, byte),
            _ => self.go_on_by_any(step),
        }
    }
}

impl ChipAuditor {
    /// Returns a judge that was given nothing.
    #[must_use]
    pub fn new() -> Self {
        ChipAuditor {
            seen: Auditor::new(),
        }
    }

    /// Goes on by one entry of a recording, and returns the answers of the chip that it
    /// contradicts, each in its place: of the findings of an [`Auditor`], those that are answers,
    /// in order.
    pub fn step(&mut self, entry: &Entry) -> Answers {
        let step = self.seen.step_of(entry);
        let answers = self.seen.answers(&step);
        self.seen.go_on_for_chip(&step);
        answers
    }
}
