//! What somebody waits for.

use uart_16550::backend::Backend;
use uart_ring::Uart16550Ring;

/// What somebody waits for.
#[derive(Clone, Copy, Debug, PartialEq, Eq)]
pub enum Awaited {
    /// A received byte that can be taken.
    ReceivedByte,
    /// Room for a byte to be sent.
    TransmitRoom,
    /// That no byte waits to be sent.
    EmptyTransmitRing,
}

/// What is to be seen of the rings.
#[derive(Clone, Copy, Debug, PartialEq, Eq)]
pub struct Seen {
    /// How many received bytes can be taken.
    pub received: usize,
    /// How many bytes wait to be sent.
    pub queued: usize,
    /// For how many more there is room.
    pub room: usize,
    /// Whether the chip is stuck, and so nothing comes.
    pub is_stuck: bool,
}

impl Seen {
    /// Returns what is to be seen of these rings. Makes no access.
    ///
    /// # Proved
    ///
    /// - [`IsSeenOf`](crate::proved::awaited#IsSeenOf) `ring.now result`: what is to be seen of these rings: how many bytes can be taken, how many wait to be sent, for how many more there is room, and whether the chip is stuck.
    ///
    /// <details><summary>The clauses</summary>
    ///
    /// [How to read them](uart_spec::proved):
    ///
    /// ```text
    /// ensures { IsSeenOf ring.now result }
    /// ```
    ///
    /// </details>
    #[must_use]
    pub fn of<B: Backend>(ring: &Uart16550Ring<B>) -> Self {
        Seen {
            received: ring.receive_len(),
            queued: ring.transmit_len(),
            room: ring.transmit_room(),
            is_stuck: ring.stuck().is_some(),
        }
    }

    /// Returns whether this is there.
    ///
    /// # Proved
    ///
    /// - Returns [`has`](crate::proved::awaited#has) `self.now awaited`: whether this is there.
    ///
    /// <details><summary>The clauses</summary>
    ///
    /// [How to read them](uart_spec::proved):
    ///
    /// ```text
    /// ensures { result ≡ has self.now awaited }
    /// ```
    ///
    /// </details>
    #[must_use]
    pub fn has(&self, awaited: Awaited) -> bool {
        match awaited {
            Awaited::ReceivedByte => self.received > 0,
            Awaited::TransmitRoom => self.room > 0,
            Awaited::EmptyTransmitRing => self.queued == 0,
        }
    }

    /// Returns whether to wait for this no longer: it is there, or does not come.
    ///
    /// # Proved
    ///
    /// - Returns [`ends_wait`](crate::proved::awaited#ends_wait) `self.now awaited`: whether to wait for it no longer: it is there, or the chip is stuck.
    ///
    /// <details><summary>The clauses</summary>
    ///
    /// [How to read them](uart_spec::proved):
    ///
    /// ```text
    /// ensures { result ≡ ends_wait self.now awaited }
    /// ```
    ///
    /// </details>
    #[must_use]
    pub fn ends_wait(&self, awaited: Awaited) -> bool {
        self.has(awaited) || self.is_stuck
    }
}
