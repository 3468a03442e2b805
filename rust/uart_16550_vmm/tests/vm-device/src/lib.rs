//! A stand-in for the crate `vm-device`: its traits for devices that are called with `&mut self`, and the addresses in them.

/// Addresses.
pub mod bus {
    /// The number of an I/O port.
    pub struct PioAddress(pub u16);
    /// A difference of such numbers.
    pub type PioAddressOffset = u16;
    /// An address in memory.
    pub struct MmioAddress(pub u64);
    /// A difference of such addresses.
    pub type MmioAddressOffset = u64;
}

use bus::{MmioAddress, MmioAddressOffset, PioAddress, PioAddressOffset};

/// A device at I/O ports.
pub trait MutDevicePio {
    /// The guest reads.
    fn pio_read(&mut self, base: PioAddress, offset: PioAddressOffset, data: &mut [u8]);
    /// The guest writes.
    fn pio_write(&mut self, base: PioAddress, offset: PioAddressOffset, data: &[u8]);
}

/// A device in memory.
pub trait MutDeviceMmio {
    /// The guest reads.
    fn mmio_read(&mut self, base: MmioAddress, offset: MmioAddressOffset, data: &mut [u8]);
    /// The guest writes.
    fn mmio_write(&mut self, base: MmioAddress, offset: MmioAddressOffset, data: &[u8]);
}
