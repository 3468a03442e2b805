//! A null-modem cable: what leaves one end, and when it reaches the other.
//!
//! Each end plays in a thread of its own, and has a clock of its own. An end goes on to a tick when
//! everything that reaches it by then is known. What it meets there does not depend on which thread
//! is faster, so a run has one outcome.

use super::end::End;
use std::collections::VecDeque;
use std::sync::{Condvar, Mutex, MutexGuard, PoisonError};

/// What comes over a cable.
#[derive(Clone, Copy, Debug, PartialEq, Eq)]
pub enum Cargo {
    /// A character.
    Byte(u8),
    /// New modem lines, as bits of MSR.
    Lines(u8),
}

/// What is on its way to each end, with the tick at which it arrives.
#[derive(Debug)]
pub struct Ways {
    delay: u64,
    to: [VecDeque<(u64, Cargo)>; 2],
}

impl Ways {
    /// Returns what is on its way, with nothing sent so far but what reaches this end.
    pub fn with(delay: u64, at: usize, coming: VecDeque<(u64, Cargo)>) -> Self {
        let mut to = [VecDeque::new(), VecDeque::new()];
        to[at] = coming;
        Ways { delay, to }
    }

    /// Returns what was sent to this end, and has not arrived.
    pub fn into_coming(self, at: usize) -> VecDeque<(u64, Cargo)> {
        let [left, right] = self.to;
        if at == 0 { left } else { right }
    }

    /// Sends something to this end at this tick.
    pub fn send(&mut self, to: usize, tick: u64, cargo: Cargo) {
        self.to[to].push_back((tick.saturating_add(self.delay), cargo));
    }

    /// Returns what arrives at this end, if it is there by this tick.
    pub fn arrival(&mut self, at: usize, tick: u64) -> Option<Cargo> {
        let coming = &mut self.to[at];
        coming.front().filter(|(due, _)| *due <= tick)?;
        coming.pop_front().map(|(_, cargo)| cargo)
    }
}

/// How an end goes on, and hands out what leaves it.
pub trait Line {
    /// Sends something to the end on the other side.
    fn send(&self, end: &End, cargo: Cargo);

    /// Lets a tick pass at an end whose calls go on. Returns whether it passed: else the end is played no further.
    fn pass(&self, end: &mut End) -> bool;

    /// Takes an end whose calls have all returned.
    fn park(&self, end: End);
}

struct State {
    ways: Ways,
    // The tick of each end up to which all has happened.
    done: [u64; 2],
    // The ends whose calls have all returned.
    parked: [Option<End>; 2],
}

/// The cable between two ends.
pub struct Cable {
    state: Mutex<State>,
    moved: Condvar,
}

impl Cable {
    /// Returns a cable over which everything takes so many ticks, one or more.
    pub fn new(delay: u64) -> Self {
        let ways = Ways {
            delay,
            to: Default::default(),
        };
        Cable {
            state: Mutex::new(State {
                ways,
                done: [0; 2],
                parked: [None, None],
            }),
            moved: Condvar::new(),
        }
    }

    fn state(&self) -> MutexGuard<'_, State> {
        self.state.lock().unwrap_or_else(PoisonError::into_inner)
    }

    /// Returns both ends, at the same tick, if the calls of both have returned.
    pub fn into_ends(self) -> Option<[End; 2]> {
        let state = self
            .state
            .into_inner()
            .unwrap_or_else(PoisonError::into_inner);
        let State {
            mut ways, parked, ..
        } = state;
        let [Some(mut left), Some(mut right)] = parked else {
            return None;
        };
        while left.time() < right.time() {
            left.tick(&mut ways);
        }
        while right.time() < left.time() {
            right.tick(&mut ways);
        }
        Some([left, right])
    }
}

impl Line for Cable {
    fn send(&self, end: &End, cargo: Cargo) {
        self.state().ways.send(1 - end.side(), end.time(), cargo);
    }

    fn pass(&self, end: &mut End) -> bool {
        let (here, there) = (end.side(), 1 - end.side());
        let mut state = self.state();
        state.done[here] = end.time();
        self.moved.notify_all();
        let next = end.time() + 1;
        loop {
            let State {
                ways, done, parked, ..
            } = &mut *state;
            // Nobody else moves an end whose calls have returned.
            if let Some(other) = &mut parked[there] {
                while other.time() < end.time() {
                    other.tick(ways);
                }
                done[there] = other.time();
            }
            if next <= done[there].saturating_add(ways.delay) {
                break;
            }
            state = self
                .moved
                .wait(state)
                .unwrap_or_else(PoisonError::into_inner);
        }
        end.tick(&mut state.ways);
        true
    }

    fn park(&self, end: End) {
        let mut state = self.state();
        state.done[end.side()] = end.time();
        let here = end.side();
        state.parked[here] = Some(end);
        self.moved.notify_all();
    }
}
