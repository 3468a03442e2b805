//! The interrupt line of a chip that was left alone for so long that a reception timeout is due.

use bitflags::Flags;
use uart_chip::controlling::ChipParts;
use uart_chip::receiving::ReceiverParts;
use uart_spec::registers::{IER, LSR};

// Returns whether LSR shows an error of the line. The transmitter has no part in that.
fn has_line_errors<P: ChipParts>(parts: &P) -> bool {
    parts.receiver().status().intersects(LSR::LINE_ERRORS)
}

/// Returns whether the interrupt line is up if a reception timeout is due, and a THR-empty
/// interrupt is pending or is not.
///
/// # Proved
///
/// - Returns `is_some (spec.interrupt (when_due is_thr_pending (P.state parts.now)))`.
///   - [`interrupt`](uart_chip::proved::chip#interrupt): the interrupt of the highest priority among those that are enabled and pending.
///   - [`when_due`](crate::proved::quick#when_due): a chip whose reception timeout is due, and whose THR-empty interrupt is pending, or is not.
///
/// <details><summary>The clauses</summary>
///
/// [How to read them](uart_spec::proved):
///
/// ```text
/// ensures { result ≡ is_some (spec.interrupt (when_due is_thr_pending (P.state parts.now))) }
/// ```
///
/// </details>
// Each character that waits is a cause then, so the trigger level and the ticks are not looked at.
#[must_use]
pub fn interrupts_when_due<P: ChipParts>(parts: &P, is_thr_pending: bool) -> bool {
    let enabled = parts.ier();
    if enabled.intersects(IER::DATA_READY) && parts.receiver().queue_len() > 0 {
        return true;
    }
    if enabled.intersects(IER::THR_EMPTY) && is_thr_pending {
        return true;
    }
    if enabled.intersects(IER::RECEIVER_LINE_STATUS) && has_line_errors(parts) {
        return true;
    }
    enabled.intersects(IER::MODEM_STATUS) && parts.has_modem_changes()
}
