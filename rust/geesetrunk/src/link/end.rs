//! One end of a cable: its chip, its clock, and what happens at it.
//!
//! The chip is the one of which it is proved what a cable carries. There a call finds the lines of the other end as they are when it
//! begins. Here they come in the middle of calls too, some ticks after they have left.

use super::cable::{Cargo, Ways};
use crate::heap;
use crate::moments::{Arrival, Happened, Moment, Seen, register_of};
use crate::repeats::{Merging, Shown};
use geesetrunk_kit::alloc::AllocError;
use std::convert::Infallible;
use uart_16550::backend::Backend;
use uart_chip::{ArrivalMark, Event, Uart};
use uart_language::Script;
use uart_link::CabledChip;
use uart_spec::access::Access;
use uart_spec::registers::LSR;

/// When a call was made, and what happened meanwhile.
#[derive(Clone, Copy, Debug, PartialEq, Eq)]
pub struct Span {
    /// The tick at which it began, and the one at which it returned.
    pub ticks: (u64, u64),
    /// How many of the moments of its end are before it, and how many before what is behind it.
    pub moments: (usize, usize),
}

/// An end of a cable.
pub struct End {
    side: usize,
    chip: CabledChip,
    time: u64,
    // The ticks at which bytes have left the chip, and at which they have arrived.
    sent: Vec<u64>,
    arrived: Vec<u64>,
    // The modem lines that the other end was given last.
    given: u8,
    current: Moment,
    merging: Merging,
    shown: Vec<Shown>,
    // The call that is being made: when it began, and the moments before it.
    begun: (u64, usize),
    spans: Vec<Span>,
}

impl End {
    /// Returns an end with the chip of a script, at which at most so many characters arrive.
    ///
    /// # Errors
    ///
    /// `AllocError` if out of memory.
    pub fn new(side: usize, script: &Script, arrivals: usize) -> Result<Self, AllocError> {
        let chip = CabledChip::new_sized(
            heap(),
            script.chip(),
            script.fifo_size(),
            script.ticks(),
            script.wire_capacity(),
            arrivals,
            script.cut(),
        );
        // A script has no chip that is refused, so memory is what is left.
        let chip = chip.map_err(|_| AllocError)?;
        Ok(End {
            side,
            chip: match script.has_auto_flow() {
                true => chip.with_auto_flow(),
                false => chip,
            },
            time: 0,
            sent: Vec::new(),
            arrived: Vec::new(),
            given: 0,
            current: Moment::default(),
            merging: Merging::default(),
            shown: Vec::new(),
            begun: (0, 0),
            spans: Vec::new(),
        })
    }

    /// Returns 0 for the left end, and 1 for the right one.
    pub fn side(&self) -> usize {
        self.side
    }

    /// Returns how many ticks have passed.
    pub fn time(&self) -> u64 {
        self.time
    }

    /// Returns the chip.
    pub fn chip(&self) -> &Uart {
        self.chip.chip()
    }

    /// Returns what became of each character that has left the other end.
    pub fn marks(&self, left_other: usize) -> impl Iterator<Item = ArrivalMark> {
        (0..left_other).filter_map(|index| self.chip.mark(index))
    }

    /// Returns how many bytes have left the chip by this tick.
    pub fn sent_by(&self, tick: u64) -> usize {
        self.sent.partition_point(|&sent| sent <= tick)
    }

    /// Returns how many bytes have arrived by this tick.
    pub fn arrived_by(&self, tick: u64) -> usize {
        self.arrived.partition_point(|&arrived| arrived <= tick)
    }

    /// Returns the moments, and when each call was made.
    pub fn history(&self) -> (&[Shown], &[Span]) {
        (&self.shown, &self.spans)
    }

    fn count(&mut self) {
        self.current.held = self.chip.held_len();
        self.current.waiting = self.chip.waiting_len();
    }

    // Keeps the current moment if anything happened in it, and starts another.
    fn close(&mut self) {
        if self.current.happened != Happened::default() {
            let shown = &mut self.shown;
            let kept: Result<(), Infallible> = self.merging.push(self.current, &mut |moment| {
                shown.push(moment);
                Ok(())
            });
            let Ok(()) = kept;
            self.current.happened = Happened::default();
        }
    }

    // Keeps the last moments of a call, or of what is between calls.
    fn finish(&mut self) {
        self.close();
        let shown = &mut self.shown;
        let kept: Result<(), Infallible> = self.merging.finish(&mut |moment| {
            shown.push(moment);
            Ok(())
        });
        let Ok(()) = kept;
    }

    /// A call begins.
    pub fn begin(&mut self) {
        self.finish();
        self.begun = (self.time, self.shown.len());
    }

    /// The call has returned.
    pub fn end(&mut self) {
        self.finish();
        let (since, before) = self.begun;
        self.spans.push(Span {
            ticks: (since, self.time),
            moments: (before, self.shown.len()),
        });
    }

    /// No more happens.
    pub fn stop(&mut self) {
        self.finish();
    }

    /// Lets a tick pass. Then what has come over the cable by now arrives.
    pub fn tick(&mut self, ways: &mut Ways) {
        self.close();
        self.time += 1;
        self.current.time = self.time;
        self.chip.perform(Event::Ticks(1));
        if let Some(&byte) = self.chip.wire().get(self.sent.len()) {
            self.sent.push(self.time);
            self.current.happened.sent = Some(byte);
            ways.send(1 - self.side, self.time, Cargo::Byte(byte));
        }
        self.count();
        while let Some(cargo) = ways.arrival(self.side, self.time) {
            self.take(cargo);
        }
        // Automatic flow control may have turned RTS off, without an access.
        if let Some(lines) = self.new_lines() {
            ways.send(1 - self.side, self.time, Cargo::Lines(lines));
        }
    }

    fn take(&mut self, cargo: Cargo) {
        match cargo {
            Cargo::Byte(byte) => {
                if self.current.happened.arrival.is_some() {
                    self.close();
                }
                self.chip.perform(Event::Arrive { byte, errors: 0 });
                self.current.happened.arrival = Some(Arrival {
                    byte,
                    errors: LSR::empty(),
                    number: self.arrived.len(),
                });
                self.arrived.push(self.time);
            }
            Cargo::Lines(lines) => {
                if self.current.happened.lines.is_some() {
                    self.close();
                }
                self.chip.perform(Event::Lines(lines));
                self.current.happened.lines = Some(lines);
            }
        }
        self.count();
    }

    fn note(&mut self, access: Access, is_dlab_set: bool) {
        if self.current.happened.access.is_some() {
            self.close();
        }
        self.count();
        let register = register_of(access, is_dlab_set);
        self.current.happened.access = Some(Seen { access, register });
        self.close();
    }

    // The next access takes place now: its tick has passed. Returns whether DLAB is set.
    fn reach_access(&mut self) -> bool {
        self.chip.perform(Event::Access);
        self.chip().is_dlab_set()
    }

    /// Reads a register.
    pub fn read(&mut self, offset: u8) -> u8 {
        let is_dlab_set = self.reach_access();
        let value = self.chip.read(offset);
        self.note(Access::Read(offset.into(), value), is_dlab_set);
        value
    }

    /// Writes a register.
    pub fn write(&mut self, offset: u8, value: u8) {
        let is_dlab_set = self.reach_access();
        self.chip.write(offset, value);
        self.note(Access::Write(offset.into(), value), is_dlab_set);
    }

    /// Returns the modem lines that the other end is to be given, if they are others than before.
    pub fn new_lines(&mut self) -> Option<u8> {
        let lines = self.chip.lines().bits();
        let is_new = lines != self.given;
        self.given = lines;
        is_new.then_some(lines)
    }
}
