//! The format of a character on the line: its word length and its parity.

/// The number of data bits of a character.
#[derive(Clone, Copy, Debug, PartialEq, Eq, PartialOrd, Ord, Hash, Default)]
pub enum WordLength {
    /// Five data bits.
    FiveBits,
    /// Six data bits.
    SixBits,
    /// Seven data bits.
    SevenBits,
    /// Eight data bits.
    #[default]
    EightBits,
}

impl WordLength {
    /// Returns the word length with this number of data bits. A number outside of 5 to 8 gives
    /// `EightBits`.
    ///
    /// # Proved
    ///
    /// - *known*: for each `length`: if `word_length_bits length ≡ bits`: returns `length`.
    ///   - [`word_length_bits`](crate::proved::fields#word_length_bits): the number of data bits of a word length.
    /// - *unknown*: if `bits < 5` or `8 < bits`: returns `EightBits`.
    ///
    /// <details><summary>The clauses</summary>
    ///
    /// [How to read them](crate::proved):
    ///
    /// ```text
    /// ensures known { (length : WordLength) → word_length_bits length ≡ bits → result ≡ length }
    /// ensures unknown { (bits < 5) ⊎ (8 < bits) → result ≡ EightBits }
    /// ```
    ///
    /// </details>
    #[must_use]
    pub const fn from_integer(bits: u8) -> Self {
        match bits {
            5 => WordLength::FiveBits,
            6 => WordLength::SixBits,
            7 => WordLength::SevenBits,
            _ => WordLength::EightBits,
        }
    }

    /// Returns the number of data bits.
    ///
    /// # Proved
    ///
    /// - Returns [`word_length_bits`](crate::proved::fields#word_length_bits) `self`: the number of data bits of a word length.
    ///
    /// <details><summary>The clauses</summary>
    ///
    /// [How to read them](crate::proved):
    ///
    /// ```text
    /// ensures { result ≡ word_length_bits self }
    /// ```
    ///
    /// </details>
    #[must_use]
    pub const fn to_integer(self) -> u32 {
        match self {
            WordLength::FiveBits => 5,
            WordLength::SixBits => 6,
            WordLength::SevenBits => 7,
            WordLength::EightBits => 8,
        }
    }
}

/// The parity bit that follows the data bits of a character.
#[derive(Clone, Copy, Debug, PartialEq, Eq, PartialOrd, Ord, Hash, Default)]
pub enum Parity {
    /// No parity bit is sent or checked.
    #[default]
    Disabled,
    /// The data bits and the parity bit together have an odd number of ones.
    Odd,
    /// The data bits and the parity bit together have an even number of ones.
    Even,
    /// The parity bit is always one, also called mark parity.
    Forced1,
    /// The parity bit is always zero, also called space parity.
    Forced0,
}
