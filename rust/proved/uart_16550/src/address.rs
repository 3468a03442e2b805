//! Constructors of drivers for devices at I/O ports and in memory.

use crate::backend::{ByteAccess, MmioBackend, PioBackend, PortAccess};
use crate::driver::Uart16550;
use std::num::NonZeroUsize;
use uart_spec::{Config, InvalidAddressError};

impl<P: PortAccess> Uart16550<PioBackend<P>> {
    /// Returns a driver for the device whose registers are at eight consecutive I/O ports, from
    /// `base_port` on.
    ///
    /// Makes no access: call `init` before any other call. The configuration is `Config::DEFAULT`
    /// until then. Port 0 is accepted.
    ///
    /// # Errors
    ///
    /// `InvalidBaseAddress`, with the base port, if the last register would be beyond port 65535.
    /// The access object is dropped then.
    ///
    /// # Examples
    ///
    /// ```
    /// # include!(concat!(env!("CARGO_MANIFEST_DIR"), "/examples.rs"));
    /// # fn main() {}
    /// # fn example(ports: Device) -> Outcome<()> {
    /// // `ports` is a `PortAccess`: how this program accesses I/O ports.
    /// let mut uart = Uart16550::new_port(0x3f8, ports)?;
    /// uart.init(Config::DEFAULT)?;
    /// uart.send_bytes_exact(b"hello")?;
    /// # Ok(()) }
    /// ```
    ///
    /// # Proved
    ///
    /// - *fresh*: if it returns `Ok driver`: [`IsFresh`](crate::proved::driver#IsFresh) `driver (backend_of driver) Config.DEFAULT`: a driver over this backend that has made no access: FIFO treated as on, and of 16 characters, nothing saved, limit 1,000,000.
    ///   - [`backend_of`](crate::proved::driver#backend_of): the backend of a driver, which makes its accesses.
    /// - *place*: if it returns `Ok driver`: [`IsAtPorts`](crate::proved::pio#IsAtPorts) `(backend_of driver) base_port access`: the registers are at the ports from this one on, and this object accesses them.
    /// - *refused*: if it returns `Err`, for its value [`IsPortRefusal`](crate::proved::pio#IsPortRefusal) `base_port`: why no registers can be at the ports from this one on: the last of them would be beyond the last port.
    ///
    /// <details><summary>The clauses</summary>
    ///
    /// [How to read them](uart_spec::proved):
    ///
    /// ```text
    /// ensures fresh { IfOk result (λ driver. IsFresh driver (backend_of driver) Config.DEFAULT) }
    /// ensures place { IfOk result (λ driver. IsAtPorts (backend_of driver) base_port access) }
    /// ensures refused { IfErr result (IsPortRefusal base_port) }
    /// ```
    ///
    /// </details>
    pub fn new_port(base_port: u16, access: P) -> Result<Self, InvalidAddressError> {
        Ok(Uart16550::new_with_backend(PioBackend::new(base_port, access)?))
    }
}

impl<M: ByteAccess> Uart16550<MmioBackend<M>> {
    /// Returns a driver for the device whose registers are in memory, from `base_address` on. The
    /// registers are `stride` bytes apart, and each is one byte wide.
    ///
    /// Makes no access: call `init` before any other call. The configuration is `Config::DEFAULT`
    /// until then.
    ///
    /// # Errors
    ///
    /// - `InvalidStride`, with the stride, if it is zero or not a power of two.
    /// - Otherwise `InvalidBaseAddress`, with the base address, if the last register would be
    ///   beyond the last address.
    ///
    /// The access object is dropped then.
    ///
    /// # Examples
    ///
    /// ```
    /// # include!(concat!(env!("CARGO_MANIFEST_DIR"), "/examples.rs"));
    /// # fn main() {}
    /// # struct Memory(Device);
    /// # impl ByteAccess for Memory {
    /// #     fn load(&mut self, address: usize) -> u8 { self.0.load(address) }
    /// #     fn store(&mut self, address: usize, value: u8) { self.0.store(address, value) }
    /// # }
    /// # fn example(cells: Device) -> Outcome<()> {
    /// let base = NonZeroUsize::new(0x1000).unwrap();
    /// let mut uart = Uart16550::new_mmio(base, 4, Memory(cells))?;
    /// # Ok(()) }
    /// ```
    ///
    /// # Proved
    ///
    /// - *fresh*: if it returns `Ok driver`: [`IsFresh`](crate::proved::driver#IsFresh) `driver (backend_of driver) Config.DEFAULT`: a driver over this backend that has made no access: FIFO treated as on, and of 16 characters, nothing saved, limit 1,000,000.
    ///   - [`backend_of`](crate::proved::driver#backend_of): the backend of a driver, which makes its accesses.
    /// - *place*: if it returns `Ok driver`: [`IsInMemory`](crate::proved::mmio#IsInMemory) `(backend_of driver) base_address stride access`: the registers are in memory from this address on, with this distance, and this object accesses them.
    /// - *refused*: if it returns `Err`, for its value [`IsMappingRefusal`](crate::proved::mmio#IsMappingRefusal) `(non_zero_usize_get base_address) stride`: why no registers can be in memory from this address on: the stride is checked first.
    ///
    /// <details><summary>The clauses</summary>
    ///
    /// [How to read them](uart_spec::proved):
    ///
    /// ```text
    /// ensures fresh { IfOk result (λ driver. IsFresh driver (backend_of driver) Config.DEFAULT) }
    /// ensures place { IfOk result (λ driver. IsInMemory (backend_of driver) base_address stride access) }
    /// ensures refused { IfErr result (IsMappingRefusal (non_zero_usize_get base_address) stride) }
    /// ```
    ///
    /// </details>
    pub fn new_mmio(
        base_address: NonZeroUsize,
        stride: u8,
        access: M,
    ) -> Result<Self, InvalidAddressError> {
        Ok(Uart16550::new_with_backend(MmioBackend::new(base_address, stride, access)?))
    }

    /// Does the same as `new_mmio`. Both take the base address as a number, not as a pointer.
    ///
    /// # Errors
    ///
    /// Those of `new_mmio`.
    ///
    /// # Examples
    ///
    /// ```
    /// # include!(concat!(env!("CARGO_MANIFEST_DIR"), "/examples.rs"));
    /// # fn main() {}
    /// # struct Memory(Device);
    /// # impl ByteAccess for Memory {
    /// #     fn load(&mut self, address: usize) -> u8 { self.0.load(address) }
    /// #     fn store(&mut self, address: usize, value: u8) { self.0.store(address, value) }
    /// # }
    /// # fn example(cells: Device) -> Outcome<()> {
    /// let base = NonZeroUsize::new(0x1000).ok_or("base 0")?;
    /// let mut uart = Uart16550::new_mmio_from_address(base, 4, Memory(cells))?;
    /// # Ok(()) }
    /// ```
    ///
    /// # Proved
    ///
    /// - *fresh*: if it returns `Ok driver`: [`IsFresh`](crate::proved::driver#IsFresh) `driver (backend_of driver) Config.DEFAULT`: a driver over this backend that has made no access: FIFO treated as on, and of 16 characters, nothing saved, limit 1,000,000.
    ///   - [`backend_of`](crate::proved::driver#backend_of): the backend of a driver, which makes its accesses.
    /// - *place*: if it returns `Ok driver`: [`IsInMemory`](crate::proved::mmio#IsInMemory) `(backend_of driver) base_address stride access`: the registers are in memory from this address on, with this distance, and this object accesses them.
    /// - *refused*: if it returns `Err`, for its value [`IsMappingRefusal`](crate::proved::mmio#IsMappingRefusal) `(non_zero_usize_get base_address) stride`: why no registers can be in memory from this address on: the stride is checked first.
    ///
    /// <details><summary>The clauses</summary>
    ///
    /// [How to read them](uart_spec::proved):
    ///
    /// ```text
    /// ensures fresh { IfOk result (λ driver. IsFresh driver (backend_of driver) Config.DEFAULT) }
    /// ensures place { IfOk result (λ driver. IsInMemory (backend_of driver) base_address stride access) }
    /// ensures refused { IfErr result (IsMappingRefusal (non_zero_usize_get base_address) stride) }
    /// ```
    ///
    /// </details>
    pub fn new_mmio_from_address(
        base_address: NonZeroUsize,
        stride: u8,
        access: M,
    ) -> Result<Self, InvalidAddressError> {
        Self::new_mmio(base_address, stride, access)
    }
}
