//! Line status.

/// Line status register (LSR), offset 5: what the receiver and the transmitter can do. A read
/// clears the error bits.
#[derive(Clone, Copy, PartialEq, Eq, PartialOrd, Ord, Hash, Default)]
pub struct LSR(pub(super) u8);

impl LSR {
    /// Returns whether an error is reported: an overrun, an error of the character at the front, or
    /// one of any character in the receiver FIFO.
    ///
    /// # Proved
    ///
    /// - Returns [`has_any`](crate::proved::bits#has_any) `self.0 LSR.ERRORS.0`: the value has at least one of these bits.
    ///
    /// <details><summary>The clauses</summary>
    ///
    /// [How to read them](crate::proved):
    ///
    /// ```text
    /// ensures { result ≡ has_any self.0 LSR.ERRORS.0 }
    /// ```
    ///
    /// </details>
    #[must_use]
    pub const fn has_error(self) -> bool {
        self.0 & LSR::ERRORS.0 != 0
    }
}
