//! The journal of a receiver: what became of each arrival of a schedule.

use std::{Vec};

use crate::fifo::Fifo;
use crate::receiver::{Character, Origin};
use std::alloc::{AllocError, Global};
use uart_events::ArrivalMark;

/// Where a receiver records what becomes of each arrival.
pub trait Journal {
    /// Returns the number of arrivals of the schedule, past and future.
    fn len(&self) -> usize;

    /// Sets the mark of an arrival. An unscheduled character has none.
    fn set_mark(&mut self, origin: Origin, mark: ArrivalMark);

    /// Marks the characters of a queue as discarded.
    fn discard<Q: Fifo<Character>>(&mut self, characters: &Q);
}

/// A journal with a mark for each arrival of a schedule, in memory that is allocated once.
pub struct Marks {
    list: Vec<ArrivalMark>,
}

impl Marks {
    /// Returns the journal of a schedule with this number of arrivals, none of which has arrived
    /// yet. Allocates its memory.
    ///
    /// # Errors
    ///
    /// `AllocError` if memory could not be allocated.
    pub fn new(alloc: Global, arrivals: usize) -> Result<Self, AllocError> {
        let mut list = Vec::with_capacity(alloc, arrivals)?;
        for _ in 0..arrivals {
            list.push(ArrivalMark::Pending)?;
        }
        Ok(Marks { list })
    }

    /// Returns what became of the arrival with this number.
    #[must_use]
    pub fn get(&self, i: usize) -> Option<ArrivalMark> {
        self.list.get(i).copied()
    }
}

impl Journal for Marks {
    fn len(&self) -> usize {
        self.list.len()
    }

    fn set_mark(&mut self, origin: Origin, mark: ArrivalMark) {
        if let Origin::Arrived(number) = origin {
            if number < self.list.len() {
                self.list[number] = mark;
            }
        }
    }

    fn discard<Q: Fifo<Character>>(&mut self, characters: &Q) {
        for i in 0..characters.len() {
            let origin = characters.get(i).unwrap().origin;
            self.set_mark(origin, ArrivalMark::Discarded);
        }
    }
}
