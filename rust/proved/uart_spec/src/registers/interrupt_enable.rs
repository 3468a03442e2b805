//! Interrupt enable.

/// Interrupt enable register (IER), offset 1 while DLAB is clear: the events that raise an
/// interrupt.
///
/// Every 16550 has the four low bits. A chip without the others ignores them, so a value may read
/// back with fewer bits than were written.
#[derive(Clone, Copy, PartialEq, Eq, PartialOrd, Ord, Hash, Default)]
pub struct IER(pub(super) u8);
