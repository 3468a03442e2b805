//! Both ends of a cable without threads, as where there are none.
//!
//! An end cannot stop in the middle of a call and let the other one go on. So each end is played as a whole, against what the other one
//! sent when it was played last, and in turns until both send the same again. What an end does up to a tick depends on what the other one
//! sent before that tick alone, since nothing is there at once. So there is one outcome, a turn makes more of it right than was, and two
//! ends that no longer change have it: it is the one that threads have.

use super::cable::{Cargo, Line, Ways};
use super::{LinkEnd, Played, Printed, play_end};
use crate::end::End;
use crate::ring_language::AnyScript;
use std::cell::RefCell;
use std::collections::VecDeque;

/// How far an end is played at first, in ticks. One that waits for what the other end did not send so far would else poll up to its limit,
/// in each of its calls.
const FIRST_HORIZON: u64 = 1 << 16;

/// How often the horizon may be doubled, and how many turns there are at each.
const MOST_HORIZONS: u32 = 32;
const MOST_TURNS: u32 = 4096;

// What reaches an end, with the tick at which it is there.
type Coming = VecDeque<(u64, Cargo)>;

// An end that is played against this.
struct Turn {
    ways: RefCell<Ways>,
    horizon: u64,
    parked: RefCell<Option<LinkEnd>>,
}

impl Line for Turn {
    fn send(&self, end: &LinkEnd, cargo: Cargo) {
        let ways = &mut self.ways.borrow_mut();
        ways.send(1 - end.side(), end.time(), cargo);
    }

    fn pass(&self, end: &mut LinkEnd) -> bool {
        if end.time() >= self.horizon {
            return false;
        }
        end.tick(&mut self.ways.borrow_mut());
        true
    }

    fn park(&self, end: LinkEnd) {
        *self.parked.borrow_mut() = Some(end);
    }
}

// An end that was played.
struct Outcome {
    end: LinkEnd,
    printed: Printed,
    // When its calls had all returned.
    returned: u64,
    // What it sent.
    sent: Coming,
}

// Plays an end against what comes to it, and on to the tick at which the other end's calls return.
fn play(
    side: usize,
    scripts: &[AnyScript; 2],
    coming: Coming,
    until: u64,
    turn: (u64, u64),
) -> Result<Outcome, End> {
    let (delay, horizon) = turn;
    let (own, other) = (&scripts[side], &scripts[1 - side]);
    let line = Turn {
        ways: RefCell::new(Ways::with(delay, side, coming)),
        horizon,
        parked: RefCell::new(None),
    };
    let end = LinkEnd::new(side, own.plain(), other.plain().wire_capacity())?;
    let printed = play_end(&line, end, own)?;
    let (mut ways, parked) = (line.ways.into_inner(), line.parked.into_inner());
    let mut end = parked.ok_or_else(|| End::failed("the scripts cannot be played"))?;
    let returned = end.time();
    while end.time() < until.min(horizon) {
        end.tick(&mut ways);
    }
    Ok(Outcome {
        end,
        printed,
        returned,
        sent: ways.into_coming(1 - side),
    })
}

/// Plays both scripts in turns.
///
/// # Errors
///
/// How a program ends that is out of memory, or whose ends do not come to rest.
pub fn play_both(scripts: &[AnyScript; 2], delay: u64) -> Result<Played, End> {
    // What came to the left end when it was played last, and when the calls of the right one returned.
    let (mut coming, mut until) = (Coming::new(), 0);
    for doubled in 0..MOST_HORIZONS {
        let turn = (delay, FIRST_HORIZON << doubled);
        for _ in 0..MOST_TURNS {
            let left = play(0, scripts, coming.clone(), until, turn)?;
            let right = play(1, scripts, left.sent.clone(), left.returned, turn)?;
            let is_settled = right.sent == coming && right.returned == until;
            (coming, until) = (right.sent, right.returned);
            if !is_settled {
                continue;
            }
            // An end at the horizon was stopped there, and not by its script.
            if left.end.time().max(right.end.time()) == turn.1 {
                break;
            }
            let mut ends = [left.end, right.end];
            ends.iter_mut().for_each(LinkEnd::stop);
            return Ok((ends, [left.printed, right.printed]));
        }
    }
    Err(End::failed("the two ends do not come to rest"))
}
