//! The backend for a device in memory.

use crate::backend::{Backend, ByteAccess};
use std::num::{NonZeroU8, NonZeroUsize};
use uart_spec::InvalidAddressError;
use uart_spec::registers::offsets;

/// A device whose eight registers are in memory, at equal distances: the stride.
///
/// An access to a register is one access to the byte at `base + offset * stride`, and to no other
/// byte.
#[derive(Clone, Debug, PartialEq, Eq, PartialOrd, Hash)]
pub struct MmioBackend<M> {
    base: NonZeroUsize,
    stride: NonZeroU8,
    access: M,
}

impl<M: ByteAccess> MmioBackend<M> {
    // Returns the backend from this address on with this stride, unless the stride is not a power
    // of two or the last register would be beyond the last address.
    pub(crate) fn new(
        base: NonZeroUsize,
        stride: u8,
        access: M,
    ) -> Result<Self, InvalidAddressError> {
        let stride = NonZeroU8::new(stride)
            .filter(|stride| stride.is_power_of_two())
            .ok_or(InvalidAddressError::InvalidStride(stride))?;
        let last = offsets::SPR * stride.get() as usize;
        if base.get().checked_add(last).is_none() {
            return Err(InvalidAddressError::InvalidBaseAddress(base.get()));
        }
        Ok(MmioBackend {
            base,
            stride,
            access,
        })
    }

    /// Returns the address of the first register.
    ///
    /// # Proved
    ///
    /// - *value*: returns `self.now.base`.
    /// - *in_range*: [`IsMapping`](crate::proved::mmio#IsMapping) `(non_zero_usize_get result) (non_zero_u8_get self.now.stride)`: the stride is a power of two, and the address of the last register is below 2^64.
    ///
    /// <details><summary>The clauses</summary>
    ///
    /// [How to read them](uart_spec::proved):
    ///
    /// ```text
    /// ensures value { result ≡ self.now.base }
    /// ensures in_range { IsMapping (non_zero_usize_get result) (non_zero_u8_get self.now.stride) }
    /// ```
    ///
    /// </details>
    #[must_use]
    pub const fn base(&self) -> NonZeroUsize {
        self.base
    }

    /// Returns the distance between two registers in bytes: a power of two.
    ///
    /// # Proved
    ///
    /// - *value*: returns `self.now.stride`.
    /// - *power*: `IsTrue (is_power_of_two (non_zero_u8_get result))`.
    ///
    /// <details><summary>The clauses</summary>
    ///
    /// [How to read them](uart_spec::proved):
    ///
    /// ```text
    /// ensures value { result ≡ self.now.stride }
    /// ensures power { IsTrue (is_power_of_two (non_zero_u8_get result)) }
    /// ```
    ///
    /// </details>
    #[must_use]
    pub const fn stride(&self) -> NonZeroU8 {
        self.stride
    }

    /// Returns the access object, to read its state. Makes no access.
    ///
    /// # Proved
    ///
    /// - Returns `self.now.access`.
    ///
    /// <details><summary>The clauses</summary>
    ///
    /// [How to read them](uart_spec::proved):
    ///
    /// ```text
    /// ensures { result.now ≡ self.now.access }
    /// ```
    ///
    /// </details>
    #[must_use]
    pub fn access(&self) -> &M {
        &self.access
    }

    /// Returns the access object, for what it can do besides the accesses, such as reporting a
    /// fault. Makes no access itself.
    ///
    /// Accesses by the caller bypass the driver: status bits that they clear are not saved, and the
    /// driver does not notice what they change.
    ///
    /// # Proved
    ///
    /// - *writes_back*: lends a part of it: what is changed there is changed here, and nothing else.
    /// - *value*: returns `self.old.access`.
    ///
    /// <details><summary>The clauses</summary>
    ///
    /// [How to read them](uart_spec::proved):
    ///
    /// ```text
    /// ensures* writes_back { sem 𝓛 (Lends (the_row M.row) M.row self.entry result (λ m. record self.old { access = m })) }
    /// ensures value { result.now ≡ self.old.access }
    /// ```
    ///
    /// </details>
    pub fn access_mut(&mut self) -> &mut M {
        &mut self.access
    }

    // Returns the address of a register.
    fn address(&self, register_offset: u8) -> usize {
        assert!(register_offset < 8, "no register has this offset");
        self.base.get() + register_offset as usize * self.stride.get() as usize
    }
}

impl<M: ByteAccess> Backend for MmioBackend<M> {
    fn read(&mut self, register_offset: u8) -> u8 {
        let address = self.address(register_offset);
        self.access.load(address)
    }

    fn write(&mut self, register_offset: u8, value: u8) {
        let address = self.address(register_offset);
        self.access.store(address, value);
    }
}
