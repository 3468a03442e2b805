//! An access to a register, as data.

/// One access: the offset of the register, and the byte that was read or written.
///
/// Contracts speak of accesses by this type too.
#[derive(Clone, Copy, Debug, PartialEq, Eq)]
pub enum Access {
    /// A read of the register at this offset, which returned this byte.
    Read(usize, u8),
    /// A write of this byte to the register at this offset.
    Write(usize, u8),
}

impl Default for Access {
    fn default() -> Self {
        Access::Read(0, 0)
    }
}
