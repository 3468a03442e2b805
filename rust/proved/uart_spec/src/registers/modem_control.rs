//! Modem control.

/// Modem control register (MCR), offset 4: the lines that the chip drives, and loopback.
#[derive(Clone, Copy, PartialEq, Eq, PartialOrd, Ord, Hash, Default)]
pub struct MCR(pub(super) u8);
