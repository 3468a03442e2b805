//! How a driver reads and writes the registers of its device.

pub use crate::mmio::MmioBackend;
pub use crate::pio::PioBackend;
pub use uart_spec::backend::Backend;

/// Access to I/O ports, for example by the instructions `in` and `out` of x86.
///
/// Pass it to `Uart16550::new_port`, which makes a `PioBackend` of it. In Rattle an implementation
/// also defines a step relation, as a `Backend` does, with the port instead of the offset of the
/// register.
pub trait PortAccess {
    /// Reads one byte from a port, and returns it.
    ///
    /// # To be kept by an implementation
    ///
    /// What the proofs take each implementation to do. Nothing checks it of one that is written in Rust.
    ///
    /// - Makes this one access: `Read port result`.
    ///
    /// <details><summary>The clauses</summary>
    ///
    /// [How to read them](uart_spec::proved):
    ///
    /// ```text
    /// ensures { step self.old (Read port result) self.new }
    /// ```
    ///
    /// </details>
    fn port_in(&mut self, port: u16) -> u8;

    /// Writes one byte to a port.
    ///
    /// # To be kept by an implementation
    ///
    /// What the proofs take each implementation to do. Nothing checks it of one that is written in Rust.
    ///
    /// - Makes this one access: `Write port value`.
    ///
    /// <details><summary>The clauses</summary>
    ///
    /// [How to read them](uart_spec::proved):
    ///
    /// ```text
    /// ensures { step self.old (Write port value) self.new }
    /// ```
    ///
    /// </details>
    fn port_out(&mut self, port: u16, value: u8);
}

/// Access to single bytes of memory, for example by a volatile load and a volatile store.
///
/// Pass it to `Uart16550::new_mmio`, which makes an `MmioBackend` of it. In Rattle an
/// implementation also defines a step relation, as a `Backend` does, with the address instead of
/// the offset of the register.
pub trait ByteAccess {
    /// Loads the byte at an address, and returns it.
    ///
    /// # To be kept by an implementation
    ///
    /// What the proofs take each implementation to do. Nothing checks it of one that is written in Rust.
    ///
    /// - Makes this one access: `Read address result`.
    ///
    /// <details><summary>The clauses</summary>
    ///
    /// [How to read them](uart_spec::proved):
    ///
    /// ```text
    /// ensures { step self.old (Read address result) self.new }
    /// ```
    ///
    /// </details>
    fn load(&mut self, address: usize) -> u8;

    /// Stores a byte at an address.
    ///
    /// # To be kept by an implementation
    ///
    /// What the proofs take each implementation to do. Nothing checks it of one that is written in Rust.
    ///
    /// - Makes this one access: `Write address value`.
    ///
    /// <details><summary>The clauses</summary>
    ///
    /// [How to read them](uart_spec::proved):
    ///
    /// ```text
    /// ensures { step self.old (Write address value) self.new }
    /// ```
    ///
    /// </details>
    fn store(&mut self, address: usize, value: u8);
}
