//! Line control.

use crate::registers::{Parity, WordLength};

/// Line control register (LCR), offset 3: the format of a character on the line, and the divisor
/// latch access bit.
#[derive(Clone, Copy, PartialEq, Eq, PartialOrd, Ord, Hash, Default)]
pub struct LCR(pub(super) u8);

impl LCR {
    /// Returns the number of data bits of a character.
    ///
    /// # Proved
    ///
    /// - [Returns the one value for which](crate::proved::bits#IsOnly) [`HasWordLength`](crate::proved::fields#HasWordLength) `0 self.0`: the two bits from the lowest on are the code of this word length.
    ///
    /// <details><summary>The clauses</summary>
    ///
    /// [How to read them](crate::proved):
    ///
    /// ```text
    /// ensures { IsOnly (HasWordLength 0 self.0) result }
    /// ```
    ///
    /// </details>
    #[must_use]
    pub const fn word_length(self) -> WordLength {
        WordLength::from_raw_bits(self.0)
    }

    /// Returns the register with this word length. No other bit changes.
    ///
    /// # Proved
    ///
    /// - *own*: [`HasWordLength`](crate::proved::fields#HasWordLength) `0 result.0 length`: the two bits from the lowest on are the code of this word length.
    /// - *others*: [`SameOutside`](crate::proved::bits#SameOutside) `0 2 self.0 result.0`: the eight bits are the same in both values, except those of a field.
    /// - *bits*: `result.0` is `bit_or (bit_and self.0 0xFC) (word_length_code length)`.
    ///   - [`word_length_code`](crate::proved::fields#word_length_code): the two-bit code of a word length.
    ///
    /// <details><summary>The clauses</summary>
    ///
    /// [How to read them](crate::proved):
    ///
    /// ```text
    /// ensures own { HasWordLength 0 result.0 length }
    /// ensures others { SameOutside 0 2 self.0 result.0 }
    /// ensures bits { result.0 ≡ bit_or (bit_and self.0 0xFC) (word_length_code length) }
    /// ```
    ///
    /// </details>
    #[must_use]
    pub const fn set_word_length(self, length: WordLength) -> Self {
        LCR((self.0 & 0b1111_1100) | length.to_raw_bits())
    }

    /// Returns the parity of a character.
    ///
    /// # Proved
    ///
    /// - [Returns the one value for which](crate::proved::bits#IsOnly) [`HasParity`](crate::proved::fields#HasParity) `3 self.0`: the three bits from the lowest on are a code of this parity.
    ///
    /// <details><summary>The clauses</summary>
    ///
    /// [How to read them](crate::proved):
    ///
    /// ```text
    /// ensures { IsOnly (HasParity 3 self.0) result }
    /// ```
    ///
    /// </details>
    #[must_use]
    pub const fn parity(self) -> Parity {
        Parity::from_raw_bits(self.0 >> 3)
    }

    /// Returns the register with this parity. No other bit changes.
    ///
    /// # Proved
    ///
    /// - *own*: [`HasParity`](crate::proved::fields#HasParity) `3 result.0 parity`: the three bits from the lowest on are a code of this parity.
    /// - *others*: [`SameOutside`](crate::proved::bits#SameOutside) `3 3 self.0 result.0`: the eight bits are the same in both values, except those of a field.
    /// - *bits*: `result.0` is `bit_or (bit_and self.0 0xC7) (8 * parity_code parity)`.
    ///   - [`parity_code`](crate::proved::fields#parity_code): the three-bit code of a parity.
    ///
    /// <details><summary>The clauses</summary>
    ///
    /// [How to read them](crate::proved):
    ///
    /// ```text
    /// ensures own { HasParity 3 result.0 parity }
    /// ensures others { SameOutside 3 3 self.0 result.0 }
    /// ensures bits { result.0 ≡ bit_or (bit_and self.0 0xC7) (8 * parity_code parity) }
    /// ```
    ///
    /// </details>
    #[must_use]
    pub const fn set_parity(self, parity: Parity) -> Self {
        LCR((self.0 & 0b1100_0111) | (parity.to_raw_bits() << 3))
    }
}
