//! What a bus holds, and the driver under it.

use crate::bus::HalfDuplex;
use crate::direction::Direction;
use uart_16550::Uart16550;
use uart_16550::backend::Backend;

impl<B: Backend> HalfDuplex<B> {
    /// Returns whether the direction is to send. Makes no access.
    ///
    /// # Examples
    ///
    /// ```
    /// # include!(concat!(env!("CARGO_MANIFEST_DIR"), "/examples.rs"));
    /// # fn main() {}
    /// # use facade::{ring::{self, MAX_INTERRUPTS}, rs485::*};
    /// # fn example(bus: &mut HalfDuplex<Device>) -> Outcome<()> {
    /// assert!(!bus.is_sending());
    /// # Ok(()) }
    /// ```
    ///
    /// # Proved
    ///
    /// - Returns `(bus_fields self.now).sends`.
    ///   - [`bus_fields`](crate::proved::bus#bus_fields): what this one holds beside its backend.
    ///
    /// <details><summary>The clauses</summary>
    ///
    /// [How to read them](uart_spec::proved):
    ///
    /// ```text
    /// ensures { result ≡ (bus_fields self.now).sends }
    /// ```
    ///
    /// </details>
    #[must_use]
    pub fn is_sending(&self) -> bool {
        self.is_sending
    }

    /// Returns how the transceiver is switched. Makes no access.
    ///
    /// # Examples
    ///
    /// ```
    /// # include!(concat!(env!("CARGO_MANIFEST_DIR"), "/examples.rs"));
    /// # fn main() {}
    /// # use facade::{ring::{self, MAX_INTERRUPTS}, rs485::*};
    /// # fn example(bus: &mut HalfDuplex<Device>, direction: Direction) -> Outcome<()> {
    /// assert_eq!(bus.direction(), direction);
    /// # Ok(()) }
    /// ```
    ///
    /// # Proved
    ///
    /// - Returns `(bus_fields self.now).direction`.
    ///   - [`bus_fields`](crate::proved::bus#bus_fields): what this one holds beside its backend.
    ///
    /// <details><summary>The clauses</summary>
    ///
    /// [How to read them](uart_spec::proved):
    ///
    /// ```text
    /// ensures { result ≡ (bus_fields self.now).direction }
    /// ```
    ///
    /// </details>
    #[must_use]
    pub fn direction(&self) -> Direction {
        self.direction
    }

    /// Returns the driver, to read its state. Makes no access.
    ///
    /// # Examples
    ///
    /// ```
    /// # include!(concat!(env!("CARGO_MANIFEST_DIR"), "/examples.rs"));
    /// # fn main() {}
    /// # use facade::{ring::{self, MAX_INTERRUPTS}, rs485::*};
    /// # fn example(bus: &mut HalfDuplex<Device>) -> Outcome<()> {
    /// let limit = bus.inner().spin_limit();
    /// # Ok(()) }
    /// ```
    ///
    /// # Proved
    ///
    /// - Returns [`driver_of`](crate::proved::bus#driver_of) `self.now`: the driver at a bus.
    ///
    /// <details><summary>The clauses</summary>
    ///
    /// [How to read them](uart_spec::proved):
    ///
    /// ```text
    /// ensures { result.now ≡ driver_of self.now }
    /// ```
    ///
    /// </details>
    #[must_use]
    pub fn inner(&self) -> &Uart16550<B> {
        &self.uart
    }

    /// Returns the driver. The direction stays as it is, so finish before. Makes no access.
    ///
    /// # Examples
    ///
    /// ```
    /// # include!(concat!(env!("CARGO_MANIFEST_DIR"), "/examples.rs"));
    /// # fn main() {}
    /// # use facade::{ring::{self, MAX_INTERRUPTS}, rs485::*};
    /// # fn example(bus: HalfDuplex<Device>) -> Outcome<()> {
    /// let uart = bus.into_inner();
    /// # Ok(()) }
    /// ```
    ///
    /// # Proved
    ///
    /// - Returns [`driver_of`](crate::proved::bus#driver_of) `self`: the driver at a bus.
    ///
    /// <details><summary>The clauses</summary>
    ///
    /// [How to read them](uart_spec::proved):
    ///
    /// ```text
    /// ensures { result ≡ driver_of self }
    /// ```
    ///
    /// </details>
    #[must_use]
    pub fn into_inner(self) -> Uart16550<B> {
        self.uart
    }
}
