//! FIFO control.

use crate::registers::FifoTriggerLevel;

/// FIFO control register (FCR), offset 2, write only.
#[derive(Clone, Copy, PartialEq, Eq, PartialOrd, Ord, Hash, Default)]
pub struct FCR(pub(super) u8);

impl FCR {
    /// Returns the register with this trigger level. No other bit changes.
    ///
    /// # Proved
    ///
    /// - *own*: [`HasTrigger`](crate::proved::fields#HasTrigger) `6 result.0 level`: the two bits from the lowest on are the code of this trigger level.
    /// - *others*: [`SameOutside`](crate::proved::bits#SameOutside) `6 2 self.0 result.0`: the eight bits are the same in both values, except those of a field.
    /// - *bits*: `result.0` is `bit_or (bit_and self.0 0x3F) (64 * trigger_code level)`.
    ///   - [`trigger_code`](crate::proved::fields#trigger_code): the two-bit code of a trigger level.
    ///
    /// <details><summary>The clauses</summary>
    ///
    /// [How to read them](crate::proved):
    ///
    /// ```text
    /// ensures own { HasTrigger 6 result.0 level }
    /// ensures others { SameOutside 6 2 self.0 result.0 }
    /// ensures bits { result.0 ≡ bit_or (bit_and self.0 0x3F) (64 * trigger_code level) }
    /// ```
    ///
    /// </details>
    #[must_use]
    pub const fn set_fifo_trigger_level(self, level: FifoTriggerLevel) -> Self {
        FCR((self.0 & 0b0011_1111) | (level.to_raw_bits() << 6))
    }

    /// Returns the trigger level of the receiver FIFO.
    ///
    /// # Proved
    ///
    /// - [Returns the one value for which](crate::proved::bits#IsOnly) [`HasTrigger`](crate::proved::fields#HasTrigger) `6 self.0`: the two bits from the lowest on are the code of this trigger level.
    ///
    /// <details><summary>The clauses</summary>
    ///
    /// [How to read them](crate::proved):
    ///
    /// ```text
    /// ensures { IsOnly (HasTrigger 6 self.0) result }
    /// ```
    ///
    /// </details>
    #[must_use]
    pub const fn fifo_trigger_level(self) -> FifoTriggerLevel {
        FifoTriggerLevel::from_raw_bits(self.0 >> 6)
    }
}
