//! A stand-in for the crate `vm-superio`: its traits for triggers and for events.

/// Raises an interrupt.
pub trait Trigger {
    /// Why it could not be raised.
    type E: std::fmt::Debug;

    /// Raises it.
    fn trigger(&self) -> Result<(), Self::E>;
}

/// The serial device.
pub mod serial {
    /// What a monitor may want to count.
    pub trait SerialEvents {
        /// The driver reads a byte.
        fn buffer_read(&self);
        /// A byte is written.
        fn out_byte(&self);
        /// A byte is lost.
        fn tx_lost_byte(&self);
        /// No input waits any more.
        fn in_buffer_empty(&self);
    }
}
