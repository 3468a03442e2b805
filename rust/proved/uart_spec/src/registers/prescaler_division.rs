//! Prescaler division.

/// Prescaler division register (PSD), offset 6 while DLAB is set, on chips that have a prescaler.
#[derive(Clone, Copy, PartialEq, Eq, PartialOrd, Ord, Hash, Default)]
pub struct PSD(pub(super) u8);

impl PSD {
    /// Returns the prescaler division factor, 0 to 15.
    ///
    /// # Proved
    ///
    /// - Returns [`field`](crate::proved::bits#field) `0 4 self.0`: the number in a field, which is given by its lowest bit and its width.
    ///
    /// <details><summary>The clauses</summary>
    ///
    /// [How to read them](crate::proved):
    ///
    /// ```text
    /// ensures { result ≡ field 0 4 self.0 }
    /// ```
    ///
    /// </details>
    #[must_use]
    pub const fn pdf(self) -> u8 {
        self.0 & 0b0000_1111
    }

    /// Returns the register with this prescaler division factor. No other bit changes.
    ///
    /// # Panics
    ///
    /// If the factor is above 15.
    ///
    /// # Proved
    ///
    /// If `pdf ≤ 15`:
    ///
    /// - *own*: `field 0 4 result.0 ≡ pdf`.
    ///   - [`field`](crate::proved::bits#field): the number in a field, which is given by its lowest bit and its width.
    /// - *others*: [`SameOutside`](crate::proved::bits#SameOutside) `0 4 self.0 result.0`: the eight bits are the same in both values, except those of a field.
    /// - *bits*: `result.0` is `bit_or (bit_and self.0 0xF0) pdf`.
    ///
    /// <details><summary>The clauses</summary>
    ///
    /// [How to read them](crate::proved):
    ///
    /// ```text
    /// requires { pdf ≤ 15 }
    /// ensures own { field 0 4 result.0 ≡ pdf }
    /// ensures others { SameOutside 0 4 self.0 result.0 }
    /// ensures bits { result.0 ≡ bit_or (bit_and self.0 0xF0) pdf }
    /// ```
    ///
    /// </details>
    #[must_use]
    pub const fn set_pdf(self, pdf: u8) -> Self {
        assert!(pdf <= 15, "a prescaler division factor above 15");
        PSD((self.0 & 0b1111_0000) | pdf)
    }
}
