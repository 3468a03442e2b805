//! The places in which tasks wait.

use crate::awaited::{Awaited, Seen};

/// A task that waits.
pub struct Waiter<W> {
    /// What wakes it.
    pub waker: W,
    /// What it waits for.
    pub awaited: Awaited,
}

/// The tasks whose turn it is.
pub struct Due<W> {
    /// The one that waited for received bytes.
    pub receive: Option<Waiter<W>>,
    /// The one that waited at the transmit ring.
    pub transmit: Option<Waiter<W>>,
}

/// The tasks that wait: one for received bytes, and one at the transmit ring.
pub struct Waits<W> {
    receive: Option<Waiter<W>>,
    transmit: Option<Waiter<W>>,
}

// Returns whether a task is to wait no longer. Without rings nothing comes.
fn is_due(seen: Option<Seen>, awaited: Awaited) -> bool {
    match seen {
        Some(seen) => seen.ends_wait(awaited),
        None => true,
    }
}

// Takes a task out of its place if its turn is there.
fn take_if_due<W>(place: &mut Option<Waiter<W>>, seen: Option<Seen>) -> Option<Waiter<W>> {
    match place {
        Some(waiter) if is_due(seen, waiter.awaited) => place.take(),
        _ => None,
    }
}

impl<W> Waits<W> {
    /// Returns places in which nobody waits.
    ///
    /// # Proved
    ///
    /// - *receive*: `receive_of result ≡ None`.
    ///   - [`receive_of`](crate::proved::waits#receive_of): who waits for received bytes.
    /// - *transmit*: `transmit_of result ≡ None`.
    ///   - [`transmit_of`](crate::proved::waits#transmit_of): who waits at the transmit ring.
    ///
    /// <details><summary>The clauses</summary>
    ///
    /// [How to read them](uart_spec::proved):
    ///
    /// ```text
    /// ensures receive { receive_of result ≡ None }
    /// ensures transmit { transmit_of result ≡ None }
    /// ```
    ///
    /// </details>
    #[must_use]
    pub const fn new() -> Self {
        Waits {
            receive: None,
            transmit: None,
        }
    }

    /// Puts a task into the place for what it awaits, and returns the one that was there.
    ///
    /// # Proved
    ///
    /// - [`Registers`](crate::proved::waits#Registers) `waiter result self.old self.new`: a task is registered: it came into the place for what it awaits, and the one that was there is returned.
    ///
    /// <details><summary>The clauses</summary>
    ///
    /// [How to read them](uart_spec::proved):
    ///
    /// ```text
    /// ensures { Registers waiter result self.old self.new }
    /// ```
    ///
    /// </details>
    pub fn register(&mut self, waiter: Waiter<W>) -> Option<Waiter<W>> {
        match waiter.awaited {
            Awaited::ReceivedByte => self.receive.replace(waiter),
            Awaited::TransmitRoom | Awaited::EmptyTransmitRing => self.transmit.replace(waiter),
        }
    }

    /// Takes those out whose turn it is: what they await is there, or does not come, since the chip
    /// is stuck or there are no rings.
    ///
    /// # Proved
    ///
    /// - [`Takes`](crate::proved::waits#Takes) `seen result self.old self.new`: those whose turn it is are taken out, and the others stay.
    ///
    /// <details><summary>The clauses</summary>
    ///
    /// [How to read them](uart_spec::proved):
    ///
    /// ```text
    /// ensures { Takes seen result self.old self.new }
    /// ```
    ///
    /// </details>
    pub fn take_due(&mut self, seen: Option<Seen>) -> Due<W> {
        let receive = take_if_due(&mut self.receive, seen);
        let transmit = take_if_due(&mut self.transmit, seen);
        Due { receive, transmit }
    }
}
