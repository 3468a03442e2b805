//! The state of a driver without its backend, as a value.

use super::{DEFAULT_SPIN_LIMIT, Uart16550};
use crate::backend::Backend;
use bitflags::Flags;
use std::num::NonZeroU64;
use uart_spec::registers::{LSR, MSR};
use uart_spec::{Config, FifoSize};

/// The state of a driver without its backend: everything that a driver over another backend needs
/// to continue.
#[derive(Clone, Debug, PartialEq)]
pub struct DriverState {
    /// The configuration, as `Uart16550::config` returns it.
    pub config: Config,
    /// Whether the chip is taken to have a FIFO that is on.
    pub fifo_enabled: bool,
    /// Which size the FIFOs are taken to have, as `Uart16550::fifo_size` returns it.
    pub fifo_size: FifoSize,
    /// The line errors that reads of LSR cleared in the chip, and that no call of `lsr` has
    /// returned.
    pub saved_lsr: LSR,
    /// The changes of modem lines that reads of MSR cleared in the chip, and that no call of `msr`
    /// has returned.
    pub saved_msr: MSR,
    /// How many unsuccessful polls in a row a wait makes before it returns an error.
    pub spin_limit: NonZeroU64,
}

impl DriverState {
    /// Returns the state of a driver that `new_with_backend` has just made.
    ///
    /// # Proved
    ///
    /// - `fields_of result ≡ fresh_fields`.
    ///   - [`fields_of`](crate::proved::state#fields_of): the fields of a driver in this state.
    ///   - [`fresh_fields`](crate::proved::state#fresh_fields): the fields of a new driver.
    ///
    /// <details><summary>The clauses</summary>
    ///
    /// [How to read them](uart_spec::proved):
    ///
    /// ```text
    /// ensures { fields_of result ≡ fresh_fields }
    /// ```
    ///
    /// </details>
    #[must_use]
    pub fn new() -> Self {
        DriverState {
            config: Config::DEFAULT,
            fifo_enabled: true,
            fifo_size: FifoSize::Sixteen,
            saved_lsr: LSR::from_bits_retain(0),
            saved_msr: MSR::from_bits_retain(0),
            spin_limit: NonZeroU64::new(DEFAULT_SPIN_LIMIT).unwrap(),
        }
    }
}

impl<B: Backend> Uart16550<B> {
    /// Returns a driver over this backend that continues from this state. Makes no access.
    ///
    /// # Examples
    ///
    /// ```
    /// # include!(concat!(env!("CARGO_MANIFEST_DIR"), "/examples.rs"));
    /// # fn main() {}
    /// # struct Tape;
    /// # impl Tape { fn new(device: Device) -> Device { device } }
    /// # fn example(state: &DriverState, accesses: Device) -> Outcome<()> {
    /// let mut uart = Uart16550Tty::from_inner(Uart16550::from_state(Tape::new(accesses), state));
    /// # Ok(()) }
    /// ```
    ///
    /// # Proved
    ///
    /// - *backend*: `backend_of result ≡ backend`.
    ///   - [`backend_of`](crate::proved::driver#backend_of): the backend of a driver, which makes its accesses.
    /// - *fields*: `fields result ≡ fields_of state.now`.
    ///   - [`fields`](crate::proved::driver#fields): what this driver holds beside its backend.
    ///   - [`fields_of`](crate::proved::state#fields_of): the fields of a driver in this state.
    ///
    /// <details><summary>The clauses</summary>
    ///
    /// [How to read them](uart_spec::proved):
    ///
    /// ```text
    /// ensures backend { backend_of result ≡ backend }
    /// ensures fields { fields result ≡ fields_of state.now }
    /// ```
    ///
    /// </details>
    #[must_use]
    pub fn from_state(backend: B, state: &DriverState) -> Self {
        Uart16550 {
            backend,
            config: Config { ..state.config },
            fifo_enabled: state.fifo_enabled,
            fifo_size: state.fifo_size,
            saved_lsr: state.saved_lsr,
            saved_msr: state.saved_msr,
            spin_limit: state.spin_limit,
        }
    }

    /// Returns the state of the driver, as a copy. Makes no access.
    ///
    /// # Examples
    ///
    /// ```
    /// # include!(concat!(env!("CARGO_MANIFEST_DIR"), "/examples.rs"));
    /// # fn main() {}
    /// # fn example(uart: &Uart16550Tty<Device>) -> Outcome<()> {
    /// let state = uart.inner().state();
    /// # Ok(()) }
    /// ```
    ///
    /// # Proved
    ///
    /// - `fields_of result ≡ fields self.now`.
    ///   - [`fields_of`](crate::proved::state#fields_of): the fields of a driver in this state.
    ///   - [`fields`](crate::proved::driver#fields): what this driver holds beside its backend.
    ///
    /// <details><summary>The clauses</summary>
    ///
    /// [How to read them](uart_spec::proved):
    ///
    /// ```text
    /// ensures { fields_of result ≡ fields self.now }
    /// ```
    ///
    /// </details>
    #[must_use]
    pub fn state(&self) -> DriverState {
        DriverState {
            config: Config { ..self.config },
            fifo_enabled: self.fifo_enabled,
            fifo_size: self.fifo_size,
            saved_lsr: self.saved_lsr,
            saved_msr: self.saved_msr,
            spin_limit: self.spin_limit,
        }
    }
}
