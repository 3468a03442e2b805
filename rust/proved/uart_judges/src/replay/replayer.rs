//! Whether a chip answers as the chip that is defined could, read for read.

use crate::replay::difference::{Difference, Reported};
use crate::replay::known::{Known, Start};
use crate::replay::rule::broken;
use uart_chip::Chip;

/// Follows the accesses to a chip, and finds the reads whose value the chip could not have
/// returned.
///
/// Its size is constant. It knows nothing of time, of what arrives and of the modem lines: it
/// reports a difference only if there is one under every schedule.
#[derive(Clone, Copy, Debug, PartialEq, Eq)]
pub struct Replayer {
    known: Known,
}

impl Replayer {
    /// Returns a replayer at the start of a recording of a chip of this model.
    #[must_use]
    pub fn new(model: Chip, start: Start) -> Self {
        Self {
            known: Known::new(model, start),
        }
    }

    /// Follows a read of the register at this offset, which returned this value. Returns a
    /// difference if the chip could not have returned it.
    ///
    /// The value of a read that was reported is then left out: what follows is compared as if it
    /// were not known.
    pub fn read(&mut self, offset: usize, value: u8) -> Option<Difference> {
        match broken(&self.known, offset, value) {
            None => {
                self.known = self.known.after_read(offset, value);
                None
            }
            Some(rule) => {
                // If the value were kept, no machine would explain the recording from here on, and
                // any further report would be right.
                self.known = self.known.after_asking(offset);
                Some(Difference {
                    offset,
                    recorded: value,
                    rule,
                })
            }
        }
    }

    /// Follows so many reads in turn of the register at this offset, which all returned this value.
    /// Returns what [`read`] returns at each of them, in the time of two.
    ///
    /// [`read`]: Replayer::read
    pub fn reads(&mut self, offset: usize, value: u8, times: u64) -> Reported {
        if times == 0 {
            return Reported {
                first: None,
                others: None,
            };
        }
        let first = self.read(offset, value);
        if times == 1 {
            return Reported {
                first,
                others: None,
            };
        }
        let others = self.read(offset, value);
        Reported { first, others }
    }

    /// Follows a write of this value to the register at this offset.
    pub fn write(&mut self, offset: usize, value: u8) {
        self.known = self.known.after_write(offset, value);
    }
}
