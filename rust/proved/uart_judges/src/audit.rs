//! What a recording says about its driver and its chip.
//!
//! An [`Auditor`] is given the entries of a recording in turn. [`Auditor::step`] returns the
//! findings at each, and [`Auditor::end`] those after the last. A [`ChipAuditor`] returns those
//! that are about the chip, and no others.
//!
//! A recording begins in use: nothing is held against a driver that the recording does not show. A
//! look that shows room allows as many bytes as the FIFO has room for, or one without FIFO, and
//! stays valid at a later look that shows none. ISR with the interrupt of an empty transmitter is a
//! look too. A data interrupt shows that as many bytes wait as the trigger level says, and a
//! timeout shows one.

mod action;
mod auditor;
mod finding;
mod findings;
mod frequent;
mod history;
mod of_chip;
mod setup;
mod shows;
mod step;
mod unread;

pub use action::Action;
pub use auditor::{Auditor, Findings, Identified, Latch, Mark};
pub use finding::{Finding, Severity};
pub use findings::HANDLER_TIME;
pub use of_chip::{Answers, ChipAuditor};
pub use setup::{DivisorBytes, Setup};
pub use shows::is_cut;
pub use step::{CHARACTER_TIME, LEAST_DIVISOR, MOST_HELD, Step};
pub use unread::{Arrived, MOST_UNREAD, Unread};
