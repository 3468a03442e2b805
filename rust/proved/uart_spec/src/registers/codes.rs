//! The codes of the fields of FCR and LCR.

use crate::registers::{FifoTriggerLevel, Parity, WordLength};

impl FifoTriggerLevel {
    /// Returns the trigger level with this code, which is in the low two bits. Higher bits are
    /// ignored.
    ///
    /// # Proved
    ///
    /// - [Returns the one value for which](crate::proved::bits#IsOnly) [`HasTrigger`](crate::proved::fields#HasTrigger) `0 bits`: the two bits from the lowest on are the code of this trigger level.
    ///
    /// <details><summary>The clauses</summary>
    ///
    /// [How to read them](crate::proved):
    ///
    /// ```text
    /// ensures { IsOnly (HasTrigger 0 bits) result }
    /// ```
    ///
    /// </details>
    #[must_use]
    pub const fn from_raw_bits(bits: u8) -> Self {
        match bits & 0b11 {
            0b00 => FifoTriggerLevel::One,
            0b01 => FifoTriggerLevel::Four,
            0b10 => FifoTriggerLevel::Eight,
            _ => FifoTriggerLevel::Fourteen,
        }
    }

    /// Returns the code of this trigger level, in the low two bits.
    ///
    /// # Proved
    ///
    /// - *code*: returns [`trigger_code`](crate::proved::fields#trigger_code) `self`: the two-bit code of a trigger level.
    /// - *read_back*: [`HasTrigger`](crate::proved::fields#HasTrigger) `0 result self`: the two bits from the lowest on are the code of this trigger level.
    ///
    /// <details><summary>The clauses</summary>
    ///
    /// [How to read them](crate::proved):
    ///
    /// ```text
    /// ensures code { result ≡ trigger_code self }
    /// ensures read_back { HasTrigger 0 result self }
    /// ```
    ///
    /// </details>
    #[must_use]
    pub const fn to_raw_bits(self) -> u8 {
        match self {
            FifoTriggerLevel::One => 0b00,
            FifoTriggerLevel::Four => 0b01,
            FifoTriggerLevel::Eight => 0b10,
            FifoTriggerLevel::Fourteen => 0b11,
        }
    }
}

impl WordLength {
    /// Returns the word length with this code, which is in the low two bits. Higher bits are
    /// ignored.
    ///
    /// # Proved
    ///
    /// - [Returns the one value for which](crate::proved::bits#IsOnly) [`HasWordLength`](crate::proved::fields#HasWordLength) `0 bits`: the two bits from the lowest on are the code of this word length.
    ///
    /// <details><summary>The clauses</summary>
    ///
    /// [How to read them](crate::proved):
    ///
    /// ```text
    /// ensures { IsOnly (HasWordLength 0 bits) result }
    /// ```
    ///
    /// </details>
    #[must_use]
    pub const fn from_raw_bits(bits: u8) -> Self {
        match bits & 0b11 {
            0b00 => WordLength::FiveBits,
            0b01 => WordLength::SixBits,
            0b10 => WordLength::SevenBits,
            _ => WordLength::EightBits,
        }
    }

    /// Returns the code of this word length, in the low two bits.
    ///
    /// # Proved
    ///
    /// - *code*: returns [`word_length_code`](crate::proved::fields#word_length_code) `self`: the two-bit code of a word length.
    /// - *read_back*: [`HasWordLength`](crate::proved::fields#HasWordLength) `0 result self`: the two bits from the lowest on are the code of this word length.
    ///
    /// <details><summary>The clauses</summary>
    ///
    /// [How to read them](crate::proved):
    ///
    /// ```text
    /// ensures code { result ≡ word_length_code self }
    /// ensures read_back { HasWordLength 0 result self }
    /// ```
    ///
    /// </details>
    #[must_use]
    pub const fn to_raw_bits(self) -> u8 {
        match self {
            WordLength::FiveBits => 0b00,
            WordLength::SixBits => 0b01,
            WordLength::SevenBits => 0b10,
            WordLength::EightBits => 0b11,
        }
    }
}

impl Parity {
    /// Returns the parity with this code, which is in the low three bits. Higher bits are ignored,
    /// and each code whose lowest bit is clear is `Disabled`.
    ///
    /// # Proved
    ///
    /// - [Returns the one value for which](crate::proved::bits#IsOnly) [`HasParity`](crate::proved::fields#HasParity) `0 bits`: the three bits from the lowest on are a code of this parity.
    ///
    /// <details><summary>The clauses</summary>
    ///
    /// [How to read them](crate::proved):
    ///
    /// ```text
    /// ensures { IsOnly (HasParity 0 bits) result }
    /// ```
    ///
    /// </details>
    #[must_use]
    pub const fn from_raw_bits(bits: u8) -> Self {
        match bits & 0b111 {
            0b001 => Parity::Odd,
            0b011 => Parity::Even,
            0b101 => Parity::Forced1,
            0b111 => Parity::Forced0,
            _ => Parity::Disabled,
        }
    }

    /// Returns the code of this parity, in the low three bits.
    ///
    /// # Proved
    ///
    /// - *code*: returns [`parity_code`](crate::proved::fields#parity_code) `self`: the three-bit code of a parity.
    /// - *read_back*: [`HasParity`](crate::proved::fields#HasParity) `0 result self`: the three bits from the lowest on are a code of this parity.
    ///
    /// <details><summary>The clauses</summary>
    ///
    /// [How to read them](crate::proved):
    ///
    /// ```text
    /// ensures code { result ≡ parity_code self }
    /// ensures read_back { HasParity 0 result self }
    /// ```
    ///
    /// </details>
    #[must_use]
    pub const fn to_raw_bits(self) -> u8 {
        match self {
            Parity::Disabled => 0b000,
            Parity::Odd => 0b001,
            Parity::Even => 0b011,
            Parity::Forced1 => 0b101,
            Parity::Forced0 => 0b111,
        }
    }
}
