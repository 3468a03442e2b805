//! Modem status.

use crate::registers::flag;
use bitflags::Flags;

/// Modem status register (MSR), offset 6: the modem lines, and which of them changed. A read clears
/// the four changes, the low bits.
#[derive(Clone, Copy, PartialEq, Eq, PartialOrd, Ord, Hash, Default)]
pub struct MSR(pub(super) u8);

impl MSR {
    // Returns whether this line has changed.
    fn is_changed(self, before: MSR, line: MSR) -> bool {
        before.intersection(line) != self.intersection(line)
    }

    /// Returns the changes of the lines since an earlier reading, as their bits: of RI only its
    /// trailing edge, from set to clear.
    ///
    /// # Proved
    ///
    /// - `result.0` is [`line_changes`](crate::proved::lines#line_changes) `before.0 self.0`: the changes of the lines between two readings, as their bits in MSR: of RI only its trailing edge.
    ///
    /// <details><summary>The clauses</summary>
    ///
    /// [How to read them](crate::proved):
    ///
    /// ```text
    /// ensures { result.0 ≡ spec.line_changes before.0 self.0 }
    /// ```
    ///
    /// </details>
    #[must_use]
    pub fn changes_since(self, before: MSR) -> MSR {
        let cts = flag(self.is_changed(before, MSR::CTS), MSR::DELTA_CTS);
        let dsr = flag(self.is_changed(before, MSR::DSR), MSR::DELTA_DSR);
        let ri = flag(
            before.intersects(MSR::RI) && !self.intersects(MSR::RI),
            MSR::TRAILING_EDGE_RI,
        );
        let cd = flag(self.is_changed(before, MSR::CD), MSR::DELTA_CD);
        cts.union(dsr).union(ri.union(cd))
    }
}
