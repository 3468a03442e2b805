//! Interrupt status.

use crate::registers::InterruptType;
use bitflags::Flags;

/// Interrupt status register (ISR), offset 2, read only. Also called interrupt identification
/// register (IIR).
///
/// A read that identifies a `THR_EMPTY` interrupt acknowledges it.
#[derive(Clone, Copy, PartialEq, Eq, PartialOrd, Ord, Hash, Default)]
pub struct ISR(pub(super) u8);

impl ISR {
    /// Returns the pending interrupt. `None` if none is pending, or if its code is not known.
    ///
    /// # Proved
    ///
    /// - [Returns the one value, if there is one, for which](crate::proved::bits#IsOnlyIfAny) [`Identifies`](crate::proved::fields#Identifies) `self.0`: bit 0 is clear, so an interrupt is pending, and the code is that of this interrupt.
    ///
    /// <details><summary>The clauses</summary>
    ///
    /// [How to read them](crate::proved):
    ///
    /// ```text
    /// ensures { IsOnlyIfAny (Identifies self.0) result }
    /// ```
    ///
    /// </details>
    #[must_use]
    pub const fn interrupt_type(self) -> Option<InterruptType> {
        InterruptType::from_bits(self.0)
    }

    /// Returns whether an interrupt is pending: bit 0 is clear then.
    ///
    /// # Proved
    ///
    /// - Returns `not (has self.0 ISR.INTERRUPT_STATUS.0)`.
    ///   - [`has`](crate::proved::bits#has): whether all of these bits are set in the value.
    ///
    /// <details><summary>The clauses</summary>
    ///
    /// [How to read them](crate::proved):
    ///
    /// ```text
    /// ensures { result ≡ not (has self.0 ISR.INTERRUPT_STATUS.0) }
    /// ```
    ///
    /// </details>
    #[must_use]
    pub const fn has_pending_interrupt(self) -> bool {
        !self.contains(ISR::INTERRUPT_STATUS)
    }

    /// Returns whether the FIFOs are on and work: bits 6 and 7 are both set then.
    ///
    /// # Proved
    ///
    /// - Returns [`has`](crate::proved::bits#has) `self.0 ISR.FIFOS_ENABLED.0`: whether all of these bits are set in the value.
    ///
    /// <details><summary>The clauses</summary>
    ///
    /// [How to read them](crate::proved):
    ///
    /// ```text
    /// ensures { result ≡ has self.0 ISR.FIFOS_ENABLED.0 }
    /// ```
    ///
    /// </details>
    #[must_use]
    pub const fn fifo_enabled(self) -> bool {
        self.contains(ISR::FIFOS_ENABLED)
    }
}
