//! What a handler that is refused leaves beside its mark: how its interrupt is to be served.

use core::sync::atomic::{AtomicU32, AtomicUsize, Ordering};

/// The limit and the number of rounds of the last handler that came, also if it was refused.
// why: who serves what is owed counts rounds as the handler does, and ends a storm as it does. A handler may be refused from the first
//   one on, where the section masks nothing, so this is not behind the lock.
pub(super) struct Owed {
    limit: AtomicUsize,
    rounds: AtomicU32,
}

impl Owed {
    pub(super) const fn new() -> Self {
        Self {
            limit: AtomicUsize::new(0),
            rounds: AtomicU32::new(0),
        }
    }

    /// A handler comes. This is called before it asks to be let in: then who finds its mark finds this too.
    #[inline]
    pub(super) fn comes(&self, limit: usize, rounds: u32) {
        self.limit.store(limit, Ordering::Relaxed);
        self.rounds.store(rounds, Ordering::Relaxed);
    }

    /// How what is owed is to be served, as `(limit, rounds)`. Of two handlers that come at once it may have one of each.
    #[inline]
    pub(super) fn terms(&self) -> (usize, u32) {
        (
            self.limit.load(Ordering::Relaxed),
            self.rounds.load(Ordering::Relaxed),
        )
    }
}
