//! The receiver FIFO's trigger level.

/// The number of characters in the receiver FIFO at which a `DATA_READY` interrupt is raised.
///
/// A high level needs fewer interrupts. A low level leaves more time to read before the FIFO
/// overruns.
#[derive(Clone, Copy, Debug, PartialEq, Eq, PartialOrd, Ord, Hash, Default)]
pub enum FifoTriggerLevel {
    /// One character.
    One,
    /// Four characters.
    Four,
    /// Eight characters.
    Eight,
    /// Fourteen characters.
    #[default]
    Fourteen,
}
