//! A chip that goes beside a run, and of which all can be seen.

use super::SeenChip;
use super::state::State;
use crate::moments::Moment;
use crate::script::kind_of;
use geesetrunk_kit::alloc::AllocError;
use uart_language::Script;
use uart_spec::access::Access;
use uart_spec::registers::MSR;

/// A chip that does what happens in a run.
pub struct Beside {
    chip: SeenChip,
    time: u64,
}

impl Beside {
    /// Returns the chip of a script, before the first tick.
    ///
    /// # Errors
    ///
    /// `AllocError` if out of memory.
    pub fn new(script: &Script) -> Result<Self, AllocError> {
        let (ticks, room) = (script.ticks(), script.wire_capacity());
        let chip = SeenChip::new(kind_of(script), ticks, room, script.cut())?;
        Ok(Beside { chip, time: 0 })
    }

    /// Returns how the chip is.
    pub fn state(&mut self) -> State {
        self.chip.state()
    }

    /// Does what happens in a moment. Returns whether a read returned what it did there.
    pub fn reach(&mut self, moment: &Moment) -> bool {
        self.pass(moment.time - self.time);
        self.time = moment.time;
        let happened = &moment.happened;
        if let Some(arrival) = happened.arrival {
            self.chip.arrive(arrival.byte, arrival.errors);
        }
        if let Some(lines) = happened.lines {
            self.chip.set_lines(MSR::from_bits_retain(lines));
        }
        match happened.access.map(|seen| seen.access) {
            Some(Access::Write(offset, value)) => {
                self.chip.write(offset as u8, value);
                true
            }
            Some(Access::Read(offset, value)) => self.chip.read(offset as u8) == value,
            None => true,
        }
    }

    fn pass(&mut self, ticks: u64) {
        let mut left = ticks;
        while left > 0 {
            // So many fit into one call.
            let some = left.min(u16::MAX.into());
            self.chip.ticks(some as u16);
            left -= some;
        }
    }
}
