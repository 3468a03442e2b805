//! The backend for a device at I/O ports.

use crate::backend::{Backend, PortAccess};
use uart_spec::InvalidAddressError;
use uart_spec::registers::offsets;

/// A device whose eight registers are at consecutive I/O ports.
///
/// An access to a register is one access to the port `base + offset`, and to no other port.
#[derive(Clone, Debug, PartialEq, Eq, PartialOrd, Hash)]
pub struct PioBackend<P> {
    base: u16,
    access: P,
}

impl<P: PortAccess> PioBackend<P> {
    // Returns the backend from this port on, unless the last register would be beyond the last
    // port. All constructors share this test. The model's invariant is what it found, so no sum of
    // base and offset overflows later.
    pub(crate) fn new(base: u16, access: P) -> Result<Self, InvalidAddressError> {
        if base.checked_add(offsets::SPR as u16).is_none() {
            return Err(InvalidAddressError::InvalidBaseAddress(base as usize));
        }
        Ok(PioBackend { base, access })
    }

    /// Returns the port of the first register.
    ///
    /// # Proved
    ///
    /// - *value*: returns `self.now.base`.
    /// - *in_range*: [`IsPortBase`](crate::proved::pio#IsPortBase) `result`: the port of the last register is one of them.
    ///
    /// <details><summary>The clauses</summary>
    ///
    /// [How to read them](uart_spec::proved):
    ///
    /// ```text
    /// ensures value { result ≡ self.now.base }
    /// ensures in_range { IsPortBase result }
    /// ```
    ///
    /// </details>
    #[must_use]
    pub const fn base(&self) -> u16 {
        self.base
    }

    /// Returns the access object, to read its state. Makes no access.
    ///
    /// # Proved
    ///
    /// - Returns `self.now.access`.
    ///
    /// <details><summary>The clauses</summary>
    ///
    /// [How to read them](uart_spec::proved):
    ///
    /// ```text
    /// ensures { result.now ≡ self.now.access }
    /// ```
    ///
    /// </details>
    #[must_use]
    pub fn access(&self) -> &P {
        &self.access
    }

    /// Returns the access object, for what it can do besides the accesses, such as reporting a
    /// fault. Makes no access itself.
    ///
    /// Accesses by the caller bypass the driver: status bits that they clear are not saved, and the
    /// driver does not notice what they change.
    ///
    /// # Proved
    ///
    /// - *writes_back*: lends a part of it: what is changed there is changed here, and nothing else.
    /// - *value*: returns `self.old.access`.
    ///
    /// <details><summary>The clauses</summary>
    ///
    /// [How to read them](uart_spec::proved):
    ///
    /// ```text
    /// ensures* writes_back { sem 𝓛 (Lends (the_row P.row) P.row self.entry result (λ p. record self.old { access = p })) }
    /// ensures value { result.now ≡ self.old.access }
    /// ```
    ///
    /// </details>
    // An object that counts accesses or remembers a fault is of use only if its owner can reach it.
    pub fn access_mut(&mut self) -> &mut P {
        &mut self.access
    }

    // Returns the port of a register.
    fn port(&self, register_offset: u8) -> u16 {
        assert!(register_offset < 8, "no register has this offset");
        self.base + register_offset as u16
    }
}

impl<P: PortAccess> Backend for PioBackend<P> {
    fn read(&mut self, register_offset: u8) -> u8 {
        let port = self.port(register_offset);
        self.access.port_in(port)
    }

    fn write(&mut self, register_offset: u8, value: u8) {
        let port = self.port(register_offset);
        self.access.port_out(port, value);
    }
}
