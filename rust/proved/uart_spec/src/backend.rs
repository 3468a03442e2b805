//! How the registers of a device are read and written.

/// Access to the eight registers of one device.
///
/// `PioBackend` and `MmioBackend` of `uart_16550` implement this trait over I/O ports and over
/// memory. Implement it yourself for an emulated device or for any other kind of access.
///
/// The driver passes offsets of 0 to 7, and in Rattle every caller must. In Rust, whoever is given
/// the backend may pass any offset; `PioBackend` and `MmioBackend` panic for one above 7.
///
/// In Rattle an implementation also defines a step relation: which accesses lead from which state
/// to which state. The driver's contracts are about paths of these steps, so they hold over every
/// backend, whatever its reads return.
pub trait Backend {
    /// Reads the register at an offset of 0 to 7, and returns its value.
    ///
    /// Called once for each read that the driver makes. A read may change the device: one of LSR
    /// clears its error bits.
    ///
    /// # To be kept by an implementation
    ///
    /// What the proofs take each implementation to do. Nothing checks it of one that is written in Rust.
    ///
    /// If `register_offset < NUM_REGISTERS`:
    ///
    /// - Makes this one access: `Read register_offset result`.
    ///
    /// <details><summary>The clauses</summary>
    ///
    /// [How to read them](crate::proved):
    ///
    /// ```text
    /// requires { register_offset < NUM_REGISTERS }
    /// ensures { step self.old (Read register_offset result) self.new }
    /// ```
    ///
    /// </details>
    fn read(&mut self, register_offset: u8) -> u8;

    /// Writes a value to the register at an offset of 0 to 7.
    ///
    /// Called once for each write that the driver makes, in the driver's order.
    ///
    /// # To be kept by an implementation
    ///
    /// What the proofs take each implementation to do. Nothing checks it of one that is written in Rust.
    ///
    /// If `register_offset < NUM_REGISTERS`:
    ///
    /// - Makes this one access: `Write register_offset value`.
    ///
    /// <details><summary>The clauses</summary>
    ///
    /// [How to read them](crate::proved):
    ///
    /// ```text
    /// requires { register_offset < NUM_REGISTERS }
    /// ensures { step self.old (Write register_offset value) self.new }
    /// ```
    ///
    /// </details>
    fn write(&mut self, register_offset: u8, value: u8);
}
