//! The accesses to a device: I/O ports of x86 by `in` and `out`, and memory by volatile loads and stores,
//! with barriers where the architecture needs them.
//!
//! Of this crate, this, `access/ports.rs` and `shared/exclusive.rs` are the files that do something `unsafe`, and no proof covers them;
//! `emergency.rs` has a promise alone. An access object has its base and its stride in itself, tested when it is made, so safe code can
//! make it access nothing else. What is tested then is proved: `uart_spec`, in its module `layout`.
#![allow(unsafe_code)]

#[cfg(any(target_arch = "x86", target_arch = "x86_64"))]
mod ports;

use core::num::{NonZeroU8, NonZeroUsize};
use core::ptr::NonNull;
#[cfg(any(target_arch = "x86", target_arch = "x86_64"))]
pub use ports::X86Ports;
use uart_design_ware::{DesignWareRegisters, USR};
use uart_spec::backend::Backend;
use uart_spec::registers::offsets;
use uart_spec::{
    ByteOrder, InvalidAddressError, InvalidLayoutError, RegisterLayout, RegisterWidth,
    check_layout, check_spacing,
};

/// Eight registers in memory, each of one byte, accessed by volatile loads and stores.
///
/// Accesses are made in the order of the program, and inside of a lock that guards the object: where
/// the architecture does not see to that, there is a barrier before and after each of them.
///
/// It can be sent to another thread, but neither shared nor cloned: one object is the one way to
/// its registers.
///
/// # Panics
///
/// `read` and `write` panic if the register offset is 8 or more. The driver passes none of these.
///
/// # Examples
///
/// ```no_run
/// use core::num::NonZeroUsize;
/// use uart_16550::native::backend::VolatileMemory;
/// use uart_16550::native::{Config, Uart16550};
///
/// let base = NonZeroUsize::new(0x1000_0000).unwrap();
/// // SAFETY: a 16550 is there, its registers one byte apart, and nothing else accesses it.
/// let registers = unsafe { VolatileMemory::from_address(base, 1) }?;
/// let mut uart = Uart16550::new_with_backend(registers);
/// uart.init(Config::DEFAULT)?;
/// # Ok::<(), Box<dyn std::error::Error>>(())
/// ```
#[derive(Debug)]
pub struct VolatileMemory {
    // A pointer is neither sent nor shared, unless it is said below.
    base: NonNull<u8>,
    stride: NonZeroU8,
}

// What a type with the base and the stride of registers of one byte is: it can be sent, and reads and writes them. In the interface of the
// original an access is `unsafe`.
macro_rules! bytes_in_memory {
    ($Memory:ident: $Backend:path; $($unsafe:ident)?) => {
        // SAFETY: the pointer belongs to no thread, and the caller of the constructor promised that the
        // registers may be accessed on each thread to which the object is sent.
        unsafe impl Send for $Memory {}

        impl $Backend for $Memory {
            #[inline]
            $($unsafe)? fn read(&mut self, register_offset: u8) -> u8 {
                let address = address_of(self.base, self.stride.get(), register_offset);
                // SAFETY: the constructor has tested base and stride, and its caller promised that these
                // eight bytes are valid.
                unsafe { load(address) }
            }

            #[inline]
            $($unsafe)? fn write(&mut self, register_offset: u8, value: u8) {
                let address = address_of(self.base, self.stride.get(), register_offset);
                // SAFETY: as for `read`.
                unsafe { store(address, value) }
            }
        }
    };
}

bytes_in_memory! { VolatileMemory: Backend; }

impl VolatileMemory {
    /// Returns the access to eight registers that are `stride` bytes apart, from `base` on. Makes
    /// no access.
    ///
    /// # Errors
    ///
    /// - `InvalidStride`, with the stride, if it is zero or not a power of two.
    /// - Otherwise `InvalidBaseAddress`, with the base address, if the last register would be
    ///   beyond the last address.
    ///
    /// # Safety
    ///
    /// As long as the object lives, and on each thread to which it is sent:
    ///
    /// - Each of the bytes at `base + i * stride`, for `i` from 0 to 7, must be valid for volatile
    ///   loads and stores of one byte. The gaps between them are not accessed, and may be anything.
    /// - The pointer must have the provenance of all eight: it comes from one allocation that has
    ///   them, or they are outside of every allocation that Rust knows of, as a device is.
    /// - A device of the 16550 family must be there, or anything that does no harm if it is
    ///   accessed as one. A mapping of a device must be one for devices, so that accesses are neither
    ///   cached nor joined, and on Arm and x86 keep their order: Device memory, or uncached.
    /// - Nothing else may access these bytes: no reference, no other object, no other thread, no
    ///   handler of interrupts. If several of them need the device, they share this object by a
    ///   lock, and a handler must not wait for a lock that it has interrupted.
    ///
    /// # Examples
    ///
    /// ```
    /// use core::ptr::NonNull;
    /// use uart_16550::native::backend::{Backend, VolatileMemory};
    ///
    /// // Memory in place of a device, as in a test.
    /// let mut cells = [0_u8; 8];
    /// // SAFETY: nothing else accesses these bytes while the object lives.
    /// let mut memory = unsafe { VolatileMemory::new(NonNull::from(&mut cells).cast(), 1) }?;
    /// memory.write(7, 0x5a);
    /// assert_eq!(cells[7], 0x5a);
    /// # Ok::<(), Box<dyn std::error::Error>>(())
    /// ```
    pub unsafe fn new(base: NonNull<u8>, stride: u8) -> Result<Self, InvalidAddressError> {
        let stride = check_spacing(base.addr().get(), stride, LAST_OFFSET)?;
        Ok(VolatileMemory { base, stride })
    }

    /// Does the same as [`new`](Self::new) for an address that is a number. Can be called where a
    /// constant is computed, as for the object of a `static`.
    ///
    /// # Errors
    ///
    /// Those of [`new`](Self::new).
    ///
    /// # Safety
    ///
    /// That of [`new`](Self::new). If the bytes are in an allocation of Rust, a pointer to it must
    /// have been exposed (see [`core::ptr::with_exposed_provenance_mut`]). Do not name the object by
    /// a `const`: each use of the name makes another object.
    ///
    /// # Examples
    ///
    /// ```no_run
    /// use core::num::NonZeroUsize;
    /// use uart_16550::native::backend::VolatileMemory;
    ///
    /// let base = NonZeroUsize::new(0x1000_0000).unwrap();
    /// // SAFETY: a 16550 is there, its registers four bytes apart, and nothing else accesses it.
    /// let registers = unsafe { VolatileMemory::from_address(base, 4) }?;
    /// # Ok::<(), Box<dyn std::error::Error>>(())
    /// ```
    pub const unsafe fn from_address(
        base: NonZeroUsize,
        stride: u8,
    ) -> Result<Self, InvalidAddressError> {
        match check_spacing(base.get(), stride, LAST_OFFSET) {
            Ok(stride) => Ok(VolatileMemory {
                base: pointer_to(base),
                stride,
            }),
            Err(cause) => Err(cause),
        }
    }

    /// Returns the address of the first register.
    ///
    /// # Examples
    ///
    /// ```
    /// # use core::ptr::NonNull;
    /// # use uart_16550::native::backend::VolatileMemory;
    /// let mut cells = [0_u8; 8];
    /// let base = NonNull::from(&mut cells).cast();
    /// // SAFETY: nothing else accesses these bytes while the object lives.
    /// let memory = unsafe { VolatileMemory::new(base, 1) }?;
    /// assert_eq!(memory.base(), base);
    /// # Ok::<(), Box<dyn std::error::Error>>(())
    /// ```
    #[must_use]
    pub const fn base(&self) -> NonNull<u8> {
        self.base
    }

    /// Returns the distance between two registers in bytes.
    ///
    /// # Examples
    ///
    /// ```
    /// # use core::ptr::NonNull;
    /// # use uart_16550::native::backend::VolatileMemory;
    /// let mut cells = [0_u8; 32];
    /// // SAFETY: nothing else accesses these bytes while the object lives.
    /// let memory = unsafe { VolatileMemory::new(NonNull::from(&mut cells).cast(), 4) }?;
    /// assert_eq!(memory.stride().get(), 4);
    /// # Ok::<(), Box<dyn std::error::Error>>(())
    /// ```
    #[must_use]
    pub const fn stride(&self) -> NonZeroU8 {
        self.stride
    }
}

/// Eight registers in memory, each of 8, 16 or 32 bits, accessed by volatile loads and stores of that
/// width.
///
/// Many boards have such a chip. A register's eight bits are in its lowest byte: a read leaves the
/// others aside, and a write sets them to 0. Each access is one load or one store, and accesses are made
/// in the order that [`VolatileMemory`] has. With a width of 8 bits it does what `VolatileMemory` does;
/// that one does not have to look which width it has.
///
/// It can be sent to another thread, but neither shared nor cloned: one object is the one way to
/// its registers.
///
/// # Panics
///
/// `read` and `write` panic if the register offset is 8 or more. The driver passes none of these.
///
/// # Examples
///
/// A console of a board whose chip has registers of 32 bits and a clock of 24 MHz, which gives 115,200
/// baud to 0.16 percent:
///
/// ```no_run
/// use core::num::NonZeroUsize;
/// use uart_16550::native::backend::{RegisterLayout, WideMemory};
/// use uart_16550::native::{BaudRate, Config, Uart16550};
///
/// let base = NonZeroUsize::new(0xff1a_0000).unwrap();
/// // SAFETY: a 16550 is there, with registers of 32 bits, and nothing else accesses it.
/// let registers = unsafe { WideMemory::from_address(base, RegisterLayout::WORDS) }?;
/// let mut uart = Uart16550::new_with_backend(registers);
/// let config = Config {
///     frequency: 24_000_000,
///     baud_rate: BaudRate::Baud115200,
///     ..Config::DEFAULT
/// };
/// uart.init(config.nearest(20)?)?;
/// uart.send_bytes_exact(b"hello\r\n")?;
/// # Ok::<(), Box<dyn std::error::Error>>(())
/// ```
#[derive(Debug)]
pub struct WideMemory {
    // A pointer is neither sent nor shared, unless it is said below.
    base: NonNull<u8>,
    layout: RegisterLayout,
}

// SAFETY: the pointer belongs to no thread, and the caller of the constructor promised that the
// registers may be accessed on each thread to which the object is sent.
unsafe impl Send for WideMemory {}

impl WideMemory {
    /// Returns the access to eight registers that lie as `layout` says, from `base` on. Makes no
    /// access.
    ///
    /// # Errors
    ///
    /// - `InvalidAddress`, with the cause, if [`VolatileMemory::new`] refuses the base or the stride.
    /// - Otherwise `StrideTooSmall` if the stride is less than the width.
    /// - Otherwise `MisalignedBase` if the base is not a multiple of the width.
    ///
    /// # Safety
    ///
    /// That of [`VolatileMemory::new`], where each of the eight registers has as many bytes as the width
    /// says, and they must be valid for volatile loads and stores of that width.
    ///
    /// # Examples
    ///
    /// ```
    /// use core::ptr::NonNull;
    /// use uart_16550::native::backend::{Backend, RegisterLayout, WideMemory};
    ///
    /// // Memory in place of a device, as in a test.
    /// let mut cells = [0_u32; 8];
    /// // SAFETY: nothing else accesses these bytes while the object lives.
    /// let mut memory = unsafe { WideMemory::new(NonNull::from(&mut cells).cast(), RegisterLayout::WORDS) }?;
    /// memory.write(7, 0x5a);
    /// assert_eq!(cells[7], 0x5a);
    /// # Ok::<(), Box<dyn std::error::Error>>(())
    /// ```
    pub unsafe fn new(
        base: NonNull<u8>,
        layout: RegisterLayout,
    ) -> Result<Self, InvalidLayoutError> {
        Self::at(base, base.addr().get(), layout)
    }

    /// Does the same as [`new`](Self::new) for an address that is a number. Can be called where a
    /// constant is computed, as for the object of a `static`.
    ///
    /// # Errors
    ///
    /// Those of [`new`](Self::new).
    ///
    /// # Safety
    ///
    /// That of [`new`](Self::new). If the bytes are in an allocation of Rust, a pointer to it must
    /// have been exposed (see [`core::ptr::with_exposed_provenance_mut`]). Do not name the object by
    /// a `const`: each use of the name makes another object.
    ///
    /// # Examples
    ///
    /// ```no_run
    /// use core::num::NonZeroUsize;
    /// use uart_16550::native::backend::{RegisterLayout, WideMemory};
    ///
    /// let base = NonZeroUsize::new(0xff1a_0000).unwrap();
    /// // SAFETY: a 16550 is there, with registers of 32 bits, and nothing else accesses it.
    /// let registers = unsafe { WideMemory::from_address(base, RegisterLayout::WORDS) }?;
    /// # Ok::<(), Box<dyn std::error::Error>>(())
    /// ```
    pub const unsafe fn from_address(
        base: NonZeroUsize,
        layout: RegisterLayout,
    ) -> Result<Self, InvalidLayoutError> {
        Self::at(pointer_to(base), base.get(), layout)
    }

    // Returns the access at a base of this address.
    const fn at(
        base: NonNull<u8>,
        address: usize,
        layout: RegisterLayout,
    ) -> Result<Self, InvalidLayoutError> {
        match check_layout(address, layout) {
            Ok(_) => Ok(WideMemory { base, layout }),
            Err(cause) => Err(cause),
        }
    }

    /// Returns the address of the first register.
    ///
    /// # Examples
    ///
    /// ```
    /// # use core::ptr::NonNull;
    /// # use uart_16550::native::backend::{RegisterLayout, WideMemory};
    /// let mut cells = [0_u32; 8];
    /// let base = NonNull::from(&mut cells).cast();
    /// // SAFETY: nothing else accesses these bytes while the object lives.
    /// let memory = unsafe { WideMemory::new(base, RegisterLayout::WORDS) }?;
    /// assert_eq!(memory.base(), base);
    /// # Ok::<(), Box<dyn std::error::Error>>(())
    /// ```
    #[must_use]
    pub const fn base(&self) -> NonNull<u8> {
        self.base
    }

    /// Returns how the registers lie in memory.
    ///
    /// # Examples
    ///
    /// ```
    /// # use core::ptr::NonNull;
    /// # use uart_16550::native::backend::{RegisterLayout, WideMemory};
    /// let mut cells = [0_u32; 8];
    /// // SAFETY: nothing else accesses these bytes while the object lives.
    /// let memory = unsafe { WideMemory::new(NonNull::from(&mut cells).cast(), RegisterLayout::WORDS) }?;
    /// assert_eq!(memory.layout(), RegisterLayout::WORDS);
    /// # Ok::<(), Box<dyn std::error::Error>>(())
    /// ```
    #[must_use]
    pub const fn layout(&self) -> RegisterLayout {
        self.layout
    }
}

impl Backend for WideMemory {
    #[inline]
    fn read(&mut self, register_offset: u8) -> u8 {
        let address = address_of(self.base, self.layout.stride, register_offset);
        // SAFETY: the constructor has tested base and layout, and its caller promised that these eight
        // registers are valid for accesses of their width.
        unsafe { load_register(address, self.layout.width, self.layout.byte_order) }
    }

    #[inline]
    fn write(&mut self, register_offset: u8, value: u8) {
        let address = address_of(self.base, self.layout.stride, register_offset);
        // SAFETY: as for `read`.
        unsafe { store_register(address, self.layout.width, self.layout.byte_order, value) }
    }
}

/// The eight registers of a DesignWare UART in memory, and USR, which is the 32nd register from the
/// base.
///
/// Use it by [`DesignWare`](crate::native::backend::DesignWare). Accesses are made as by [`WideMemory`].
///
/// # Panics
///
/// `read` and `write` panic if the register offset is 8 or more. The driver passes none of these.
///
/// # Examples
///
/// Those of [`DesignWare`](crate::native::backend::DesignWare).
#[derive(Debug)]
pub struct DesignWareMemory {
    registers: WideMemory,
}

impl DesignWareMemory {
    /// Returns the access to registers that lie as `layout` says, from `base` on. Makes no access.
    ///
    /// # Errors
    ///
    /// Those of [`WideMemory::new`], and `InvalidAddress` if USR would be beyond the last address.
    ///
    /// # Safety
    ///
    /// That of [`WideMemory::new`], for USR too: it is at `base + 31 * stride`. A DesignWare UART must be
    /// there, or anything that does no harm if it is accessed as one.
    ///
    /// # Examples
    ///
    /// ```
    /// use core::ptr::NonNull;
    /// use uart_16550::native::backend::{DesignWareMemory, DesignWareRegisters, RegisterLayout};
    ///
    /// // Memory in place of a device, as in a test. USR is the 32nd register.
    /// let mut cells = [0_u32; 32];
    /// cells[31] = 1;
    /// let base = NonNull::from(&mut cells).cast();
    /// // SAFETY: nothing else accesses these bytes while the object lives.
    /// let mut registers = unsafe { DesignWareMemory::new(base, RegisterLayout::WORDS) }?;
    /// assert_eq!(registers.read_usr(), 1);
    /// # Ok::<(), Box<dyn std::error::Error>>(())
    /// ```
    pub unsafe fn new(
        base: NonNull<u8>,
        layout: RegisterLayout,
    ) -> Result<Self, InvalidLayoutError> {
        Self::at(base, base.addr().get(), layout)
    }

    /// Does the same as [`new`](Self::new) for an address that is a number. Can be called where a
    /// constant is computed, as for the object of a `static`.
    ///
    /// # Errors
    ///
    /// Those of [`new`](Self::new).
    ///
    /// # Safety
    ///
    /// That of [`new`](Self::new), and of [`WideMemory::from_address`].
    ///
    /// # Examples
    ///
    /// ```no_run
    /// use core::num::NonZeroUsize;
    /// use uart_16550::native::backend::{DesignWareMemory, RegisterLayout};
    ///
    /// let base = NonZeroUsize::new(0xff1a_0000).unwrap();
    /// // SAFETY: a DesignWare UART is there, and nothing else accesses it.
    /// let registers = unsafe { DesignWareMemory::from_address(base, RegisterLayout::WORDS) }?;
    /// # Ok::<(), Box<dyn std::error::Error>>(())
    /// ```
    pub const unsafe fn from_address(
        base: NonZeroUsize,
        layout: RegisterLayout,
    ) -> Result<Self, InvalidLayoutError> {
        Self::at(pointer_to(base), base.get(), layout)
    }

    // Returns the access at a base of this address. USR is the last register.
    const fn at(
        base: NonNull<u8>,
        address: usize,
        layout: RegisterLayout,
    ) -> Result<Self, InvalidLayoutError> {
        let registers = match WideMemory::at(base, address, layout) {
            Ok(registers) => registers,
            Err(cause) => return Err(cause),
        };
        match check_spacing(address, layout.stride, offset_of(USR)) {
            Ok(_) => Ok(DesignWareMemory { registers }),
            Err(cause) => Err(InvalidLayoutError::InvalidAddress(cause)),
        }
    }
}

impl Backend for DesignWareMemory {
    #[inline]
    fn read(&mut self, register_offset: u8) -> u8 {
        self.registers.read(register_offset)
    }

    #[inline]
    fn write(&mut self, register_offset: u8, value: u8) {
        self.registers.write(register_offset, value);
    }
}

impl DesignWareRegisters for DesignWareMemory {
    #[inline]
    fn read_usr(&mut self) -> u8 {
        let WideMemory { base, layout } = self.registers;
        let address = base.as_ptr().wrapping_add(USR * usize::from(layout.stride));
        // SAFETY: the constructor has tested that this address does not wrap around, and its caller
        // promised that USR is there.
        unsafe { load_register(address, layout.width, layout.byte_order) }
    }
}

/// Loads the register at an address, and returns its lowest byte. This is one access, in the order that
/// [`VolatileMemory`] has. For a backend of your own, as one that keeps a register which the chip has
/// not.
///
/// # Safety
///
/// The address must be a multiple of the width, and as many bytes from it on must be valid for a volatile
/// load of that width. Nothing else may access them at the same time.
///
/// # Examples
///
/// ```
/// use uart_16550::native::backend::{ByteOrder, RegisterWidth, load_register};
///
/// let cell = 0x5a_u16.to_be();
/// // SAFETY: these are two bytes that are valid, and aligned for a load of two.
/// let byte = unsafe { load_register((&raw const cell).cast(), RegisterWidth::Bits16, ByteOrder::Big) };
/// assert_eq!(byte, 0x5a);
/// ```
#[inline]
#[allow(
    clippy::must_use_candidate,
    reason = "a load may be made for what it does to the device"
)]
#[allow(
    clippy::cast_possible_truncation,
    reason = "the lowest byte is what is asked for"
)]
pub unsafe fn load_register(address: *const u8, width: RegisterWidth, byte_order: ByteOrder) -> u8 {
    // SAFETY: by the promise of the caller.
    unsafe {
        match (width, byte_order) {
            (RegisterWidth::Bits8, _) => load(address),
            (RegisterWidth::Bits16, ByteOrder::Little) => u16::from_le(load(address.cast())) as u8,
            (RegisterWidth::Bits16, ByteOrder::Big) => u16::from_be(load(address.cast())) as u8,
            (RegisterWidth::Bits32, ByteOrder::Little) => u32::from_le(load(address.cast())) as u8,
            (RegisterWidth::Bits32, ByteOrder::Big) => u32::from_be(load(address.cast())) as u8,
        }
    }
}

/// Stores a byte to the register at an address, and sets the other bits of the register to 0. Otherwise as
/// [`load_register`].
///
/// # Safety
///
/// The address must be a multiple of the width, and as many bytes from it on must be valid for a volatile
/// store of that width. Nothing else may access them at the same time.
///
/// # Examples
///
/// ```
/// use uart_16550::native::backend::{ByteOrder, RegisterWidth, store_register};
///
/// let mut cell = 0_u16;
/// // SAFETY: these are two bytes that are valid, and aligned for a store of two.
/// unsafe { store_register((&raw mut cell).cast(), RegisterWidth::Bits16, ByteOrder::Big, 0x5a) };
/// assert_eq!(cell, 0x5a_u16.to_be());
/// ```
#[inline]
pub unsafe fn store_register(
    address: *mut u8,
    width: RegisterWidth,
    byte_order: ByteOrder,
    value: u8,
) {
    // SAFETY: by the promise of the caller.
    unsafe {
        match (width, byte_order) {
            (RegisterWidth::Bits8, _) => store(address, value),
            (RegisterWidth::Bits16, ByteOrder::Little) => {
                store(address.cast(), u16::from(value).to_le());
            }
            (RegisterWidth::Bits16, ByteOrder::Big) => {
                store(address.cast(), u16::from(value).to_be());
            }
            (RegisterWidth::Bits32, ByteOrder::Little) => {
                store(address.cast(), u32::from(value).to_le());
            }
            (RegisterWidth::Bits32, ByteOrder::Big) => {
                store(address.cast(), u32::from(value).to_be());
            }
        }
    }
}

// The offset of the last of the eight registers.
const LAST_OFFSET: u8 = offset_of(offsets::SPR);

// The offset of a register as a backend takes it, and the number of a register. All are below 32.
#[allow(
    clippy::cast_possible_truncation,
    reason = "no number of a register has more than five bits"
)]
pub(crate) const fn offset_of(register: usize) -> u8 {
    register as u8
}

// Returns the address of a register. Base and stride were tested, so it does not wrap around.
#[inline]
fn address_of(base: NonNull<u8>, stride: u8, register_offset: u8) -> *mut u8 {
    assert!(
        register_offset <= LAST_OFFSET,
        "no register has this offset"
    );
    base.as_ptr()
        .wrapping_add(usize::from(register_offset) * usize::from(stride))
}

// Returns the pointer with this address, with exposed provenance. (The function of `core::ptr` with
// this name is not yet for constants in Rust 1.85.)
const fn pointer_to(address: NonZeroUsize) -> NonNull<u8> {
    // SAFETY: the address is not zero.
    unsafe { NonNull::new_unchecked(address.get() as *mut u8) }
}

// Loads a word of a device. All accesses before this one are made before the load, and all others after
// it. The word must be valid for a volatile load.
#[inline]
unsafe fn load<W: Word>(address: *const W) -> W {
    barrier();
    // SAFETY: by the promise of the caller.
    let value = unsafe { W::load(address) };
    barrier();
    value
}

// Stores a word to a device. All accesses before this one are made before the store, and all others
// after it. The word must be valid for a volatile store.
#[inline]
unsafe fn store<W: Word>(address: *mut W, value: W) {
    barrier();
    // SAFETY: by the promise of the caller.
    unsafe { W::store(address, value) }
    barrier();
}

// Makes the processor finish the accesses before this, to devices and to memory, before it begins those
// after it, where its architecture does not do so by itself.
//
// - On x86 and on Arm accesses to one device are made in the order of the program, if its memory is
//   mapped as a device's, which the caller of a constructor promised. A lock orders them too.
// - On PowerPC a load may pass a store to another address: LSR is read before a byte was written. The
//   barriers of a lock are not for devices.
// - On RISC-V and LoongArch the order within a device depends on its memory's attributes. The barriers
//   of a lock (`fence rw, w` on RISC-V) are not for devices, so an access could leave the lock.
// - Elsewhere the barrier is the strongest that atomics have: `sync` on PowerPC and MIPS, `membar` on
//   SPARC. An architecture without atomics has one processor that keeps the order.
#[inline(always)]
fn barrier() {
    #[cfg(all(any(target_arch = "riscv32", target_arch = "riscv64"), not(miri)))]
    // SAFETY: a barrier changes nothing. It may not be moved over accesses to memory, as it would be with
    // `nomem`.
    unsafe {
        core::arch::asm!("fence iorw, iorw", options(nostack, preserves_flags));
    }
    #[cfg(all(target_arch = "loongarch64", not(miri)))]
    // SAFETY: as above.
    unsafe {
        core::arch::asm!("dbar 0", options(nostack, preserves_flags));
    }
    #[cfg(all(
        target_has_atomic = "ptr",
        not(any(
            target_arch = "x86",
            target_arch = "x86_64",
            target_arch = "arm",
            target_arch = "aarch64",
            target_arch = "riscv32",
            target_arch = "riscv64",
            target_arch = "loongarch64"
        ))
    ))]
    core::sync::atomic::fence(core::sync::atomic::Ordering::SeqCst);
}

// What one access loads or stores: 8, 16 or 32 bits.
trait Word: Copy {
    // Loads a word of a device. The word must be valid for a volatile load.
    unsafe fn load(address: *const Self) -> Self;
    // Stores a word to a device. The word must be valid for a volatile store.
    unsafe fn store(address: *mut Self, value: Self);
}

#[cfg(any(not(any(target_arch = "arm", target_arch = "aarch64")), miri))]
macro_rules! word {
    ($Word:ty, $load:literal, $store:literal) => {
        impl Word for $Word {
            #[inline]
            unsafe fn load(address: *const Self) -> Self {
                // SAFETY: by the promise of the caller.
                unsafe { address.read_volatile() }
            }

            #[inline]
            unsafe fn store(address: *mut Self, value: Self) {
                // SAFETY: by the promise of the caller.
                unsafe { address.write_volatile(value) }
            }
        }
    };
}

// The same, by an instruction that a hypervisor can emulate: one that changes no address register.
// A volatile load may be compiled to another instruction. On 64 bits a register has a name of its own for its
// lower half.
#[cfg(all(any(target_arch = "arm", target_arch = "aarch64"), not(miri)))]
macro_rules! word {
    ($Word:ty, $load:literal, $store:literal) => {
        impl Word for $Word {
            #[inline]
            unsafe fn load(address: *const Self) -> Self {
                let value: u32;
                // SAFETY: by the promise of the caller.
                unsafe {
                    core::arch::asm!(
                        instruction!($load),
                        address = in(reg) address,
                        value = lateout(reg) value,
                        options(nostack, preserves_flags),
                    );
                }
                value as $Word
            }

            #[inline]
            unsafe fn store(address: *mut Self, value: Self) {
                // SAFETY: by the promise of the caller.
                unsafe {
                    core::arch::asm!(
                        instruction!($store),
                        address = in(reg) address,
                        value = in(reg) u32::from(value),
                        options(nostack, preserves_flags),
                    );
                }
            }
        }
    };
}

#[cfg(all(target_arch = "aarch64", not(miri)))]
macro_rules! instruction {
    ($name:literal) => {
        concat!($name, " {value:w}, [{address}]")
    };
}

#[cfg(all(target_arch = "arm", not(miri)))]
macro_rules! instruction {
    ($name:literal) => {
        concat!($name, " {value}, [{address}]")
    };
}

word!(u8, "ldrb", "strb");
word!(u16, "ldrh", "strh");
word!(u32, "ldr", "str");

/// What the interface of the original crate needs in `unsafe` code: its backends, its constructors,
/// and the ways between its types and the driver's.
#[cfg(feature = "compat")]
pub(crate) mod original {
    #[cfg(any(target_arch = "x86", target_arch = "x86_64"))]
    use super::ports::{read_port, write_port};
    use super::{
        LAST_OFFSET, NonNull, NonZeroU8, NonZeroUsize, address_of, check_spacing, load, pointer_to,
        store,
    };
    use crate::compat::{Uart16550Tty, Uart16550TtyError};
    use crate::native::Config;
    use crate::native::{self, InvalidAddressError};
    use core::fmt;
    use core::mem::ManuallyDrop;
    use core::num::NonZeroU64;
    use core::ptr;
    #[cfg(any(target_arch = "x86", target_arch = "x86_64"))]
    use uart_spec::check_ports;

    /// Access to the eight registers of one device.
    pub trait Backend {
        /// Reads the register at an offset, and returns its value.
        ///
        /// # Safety
        ///
        /// - The offset must be less than 8.
        /// - The device must be there, and this program may access it.
        /// - Nothing else may access the device at the same time: no driver, no copy of this
        ///   backend, no other thread, no handler of interrupts.
        unsafe fn read(&mut self, register_offset: u8) -> u8;

        /// Writes a value to the register at an offset.
        ///
        /// # Safety
        ///
        /// That of [`read`](Self::read).
        unsafe fn write(&mut self, register_offset: u8, value: u8);
    }

    /// A device whose eight registers are at consecutive I/O ports.
    ///
    /// `read` and `write` panic if the register offset is 8 or more.
    #[cfg(any(target_arch = "x86", target_arch = "x86_64"))]
    #[derive(Clone, Copy, Debug, PartialEq, Eq, PartialOrd, Hash)]
    pub struct PioBackend {
        base: u16,
    }

    #[cfg(any(target_arch = "x86", target_arch = "x86_64"))]
    impl PioBackend {
        /// Returns the port of the first register.
        #[must_use]
        pub const fn base(&self) -> u16 {
            self.base
        }
    }

    #[cfg(any(target_arch = "x86", target_arch = "x86_64"))]
    impl Backend for PioBackend {
        #[inline]
        unsafe fn read(&mut self, register_offset: u8) -> u8 {
            // SAFETY: the constructor has tested the base, and its caller promised that these ports
            // may be accessed.
            unsafe { read_port(self.base, register_offset) }
        }

        #[inline]
        unsafe fn write(&mut self, register_offset: u8, value: u8) {
            // SAFETY: as for `read`.
            unsafe { write_port(self.base, register_offset, value) }
        }
    }

    /// A device whose eight registers are in memory, at equal distances.
    ///
    /// `read` and `write` panic if the register offset is 8 or more.
    #[derive(Clone, Copy, Debug, PartialEq, Eq, PartialOrd, Hash)]
    pub struct MmioBackend {
        base: NonNull<u8>,
        stride: NonZeroU8,
    }

    bytes_in_memory! { MmioBackend: Backend; unsafe }

    impl MmioBackend {
        /// Returns the address of the first register.
        #[must_use]
        pub const fn base(&self) -> NonNull<u8> {
            self.base
        }

        /// Returns the distance between two registers in bytes.
        #[must_use]
        pub const fn stride(&self) -> NonZeroU8 {
            self.stride
        }
    }

    // A backend of the original kind as one of the driver's, and what `backend_mut` lends of it. The backend
    // is first, as it is in the driver, so a call of it adds nothing to the address.
    #[repr(C)]
    pub struct Adapter<B> {
        backend: B,
        lent: Lent,
    }

    // What `backend_mut` lends to safe code, which may put another value of the type in its place.
    enum Lent {
        // The backend itself. Whoever made the driver promised that each such value may be accessed.
        Itself,
        // A copy of the backend, in a driver whose `B` is this type. Its values are addresses, and safe code
        // has those of other drivers too. So what is put here has no effect on the driver's accesses.
        #[cfg(any(target_arch = "x86", target_arch = "x86_64"))]
        Ports(PioBackend),
        Memory(MmioBackend),
    }

    // SAFETY: a shared reference to it is used for nothing: what is lent is reached by an exclusive one.
    unsafe impl Sync for Lent {}

    impl<B: fmt::Debug> fmt::Debug for Adapter<B> {
        fn fmt(&self, f: &mut fmt::Formatter<'_>) -> fmt::Result {
            self.backend.fmt(f)
        }
    }

    impl<B: Backend> native::backend::Backend for Adapter<B> {
        #[inline]
        fn read(&mut self, register_offset: u8) -> u8 {
            // SAFETY: the driver alone has the adapter, and passes offsets below 8. The caller of
            // the constructor promised that the device is there.
            unsafe { self.backend.read(register_offset) }
        }

        #[inline]
        fn write(&mut self, register_offset: u8, value: u8) {
            // SAFETY: as for `read`.
            unsafe { self.backend.write(register_offset, value) }
        }
    }

    impl<B> Adapter<B> {
        const fn lend(&mut self) -> &mut B {
            match &mut self.lent {
                Lent::Itself => &mut self.backend,
                #[cfg(any(target_arch = "x86", target_arch = "x86_64"))]
                Lent::Ports(copy) => {
                    // SAFETY: `new_port` alone makes this case, in a driver whose `B` is `PioBackend`.
                    unsafe { lend_copy(&self.backend, ptr::from_mut(copy).cast()) }
                }
                Lent::Memory(copy) => {
                    // SAFETY: `new_mmio` and `new_mmio_from_address` alone make this case, in a driver whose
                    // `B` is `MmioBackend`.
                    unsafe { lend_copy(&self.backend, ptr::from_mut(copy).cast()) }
                }
            }
        }
    }

    // Makes `copy` the same as the backend, whatever safe code had put there, and lends it.
    //
    // # Safety
    //
    // `copy` is a `B` that may be written to as long as the result lives, and `B` is `Copy`.
    const unsafe fn lend_copy<'a, B>(backend: &B, copy: *mut B) -> &'a mut B {
        // SAFETY: by the promise of the caller. The two are fields of one struct, so they do not overlap.
        unsafe {
            ptr::copy_nonoverlapping(backend, copy, 1);
            &mut *copy
        }
    }

    /// A driver for one serial chip of the 16550 family, with the calls of the original crate.
    ///
    /// Construct it, and call [`init`](Self::init) before any other call. Its waits do not end
    /// until the device lets them: [`native::Uart16550`] is the driver whose waits have a limit.
    #[repr(transparent)]
    pub struct Uart16550<B: Backend>(pub(crate) native::Uart16550<Adapter<B>>);

    #[cfg(any(target_arch = "x86", target_arch = "x86_64"))]
    impl Uart16550<PioBackend> {
        /// Returns a driver for the device at eight consecutive I/O ports, from `base_port` on.
        /// Makes no access.
        ///
        /// # Errors
        ///
        /// `InvalidBaseAddress` if the last register would be beyond port 65535.
        ///
        /// # Safety
        ///
        /// That of [`X86Ports::new`](native::backend::X86Ports::new), for the driver. A copy of its
        /// backend does nothing by itself: each of its accesses is `unsafe` again.
        pub const unsafe fn new_port(base_port: u16) -> Result<Self, InvalidAddressError> {
            match check_ports(base_port) {
                Ok(()) => {
                    let ports = PioBackend { base: base_port };
                    Ok(Self::over_backend(ports, Lent::Ports(ports)))
                }
                Err(cause) => Err(cause),
            }
        }
    }

    impl Uart16550<MmioBackend> {
        /// Returns a driver for the device in memory, from `base_address` on, with registers that
        /// are `stride` bytes apart. Makes no access.
        ///
        /// # Errors
        ///
        /// - `InvalidStride` if the stride is zero or not a power of two.
        /// - Otherwise `InvalidBaseAddress` if the last register would be beyond the last address.
        ///
        /// # Safety
        ///
        /// That of [`VolatileMemory::new`](native::backend::VolatileMemory::new), for the driver.
        /// A copy of its backend does nothing by itself: each of its accesses is `unsafe` again.
        pub unsafe fn new_mmio(
            base_address: NonNull<u8>,
            stride: u8,
        ) -> Result<Self, InvalidAddressError> {
            let stride = check_spacing(base_address.addr().get(), stride, LAST_OFFSET)?;
            Ok(Self::over_memory(base_address, stride))
        }

        /// Does the same as [`new_mmio`](Self::new_mmio) for an address that is a number.
        ///
        /// # Errors
        ///
        /// Those of [`new_mmio`](Self::new_mmio).
        ///
        /// # Safety
        ///
        /// That of [`VolatileMemory::from_address`](native::backend::VolatileMemory::from_address),
        /// for the driver. A copy of its backend does nothing by itself: each of its accesses is
        /// `unsafe` again.
        pub const unsafe fn new_mmio_from_address(
            base_address: NonZeroUsize,
            stride: u8,
        ) -> Result<Self, InvalidAddressError> {
            match check_spacing(base_address.get(), stride, LAST_OFFSET) {
                Ok(stride) => Ok(Self::over_memory(pointer_to(base_address), stride)),
                Err(cause) => Err(cause),
            }
        }

        const fn over_memory(base: NonNull<u8>, stride: NonZeroU8) -> Self {
            let memory = MmioBackend { base, stride };
            Self::over_backend(memory, Lent::Memory(memory))
        }
    }

    impl<B: Backend> Uart16550<B> {
        /// Returns a driver over a backend. Makes no access.
        ///
        /// # Safety
        ///
        /// As long as the driver lives, and on each thread to which it is sent, it must be sound to
        /// call `read` and `write` with offsets below 8, whatever safe code does meanwhile by
        /// [`backend`](Self::backend) and [`backend_mut`](Self::backend_mut): it must be sound for
        /// this backend, and for each other value of its type that safe code can put in its place.
        ///
        /// So a type whose only values are devices in software meets this, and a type for a device
        /// whose values are made under such a promise alone, and are not copied. A type that has an
        /// address in a public field does not.
        ///
        /// Nor do [`MmioBackend`] and `PioBackend`, of which safe code has copies: their drivers are
        /// made by `new_mmio`, `new_mmio_from_address` and `new_port`.
        pub const unsafe fn new_with_backend(backend: B) -> Self {
            Self::over_backend(backend, Lent::Itself)
        }

        // Returns a driver over a backend, with what `backend_mut` lends.
        const fn over_backend(backend: B, lent: Lent) -> Self {
            let mut driver = native::Uart16550::new_with_backend(Adapter { backend, lent });
            driver.set_spin_limit(NonZeroU64::MAX);
            Uart16550(driver)
        }

        /// Returns the backend, to read its state. Makes no access.
        pub const fn backend(&self) -> &B {
            &self.0.backend().backend
        }

        /// Returns the backend, for raw accesses by the caller, and for the other calls of a backend of
        /// your own. Makes no access itself.
        ///
        /// After raw accesses that changed the setup of the chip, call [`init`](Self::init) again.
        ///
        /// A [`MmioBackend`] and a `PioBackend` are returned as a copy: an access by the copy is one of
        /// this device, and another address that is put in its place does not change the driver.
        ///
        /// # Examples
        ///
        /// ```no_run
        /// use uart_16550::compat::Uart16550;
        /// use uart_16550::compat::backend::{Backend, MmioBackend};
        ///
        /// fn leave_a_mark(uart: &mut Uart16550<MmioBackend>) {
        ///     // SAFETY: the driver's device may be accessed, and the scratch register changes nothing.
        ///     unsafe { uart.backend_mut().write(7, 0x5a) };
        /// }
        /// ```
        pub const fn backend_mut(&mut self) -> &mut B {
            self.0.backend_mut().lend()
        }

        // Returns the driver under this one. A plain move would not do in a constant.
        pub(crate) const fn into_native(self) -> native::Uart16550<Adapter<B>> {
            let this = ManuallyDrop::new(self);
            // SAFETY: the two have the same layout, and the original is not dropped.
            unsafe { ptr::read(ptr::from_ref(&this).cast()) }
        }

        // Returns the driver over this one.
        pub(crate) const fn over(driver: &native::Uart16550<Adapter<B>>) -> &Self {
            // SAFETY: the two have the same layout, and this one promises nothing more.
            unsafe { &*ptr::from_ref(driver).cast() }
        }

        // Returns the driver over this one.
        pub(crate) const fn over_mut(driver: &mut native::Uart16550<Adapter<B>>) -> &mut Self {
            // SAFETY: as for `over`. What safe code puts here is a driver, which was made with the
            // promise of `new_with_backend`.
            unsafe { &mut *ptr::from_mut(driver).cast() }
        }
    }

    // A constructor of a terminal: that of the driver with the same name, whose device is then initialised and tested.
    macro_rules! terminal {
        ($Backend:ident: $(#[$says:meta])* $new:ident($($arg:ident: $Arg:ty),+)) => {
            impl Uart16550Tty<$Backend> {
                $(#[$says])*
                pub unsafe fn $new($($arg: $Arg,)+ config: Config) -> Result<Self, Uart16550TtyError> {
                    // SAFETY: by the promise of the caller.
                    Self::start(unsafe { Uart16550::$new($($arg),+) }, config)
                }
            }
        };
    }

    #[cfg(any(target_arch = "x86", target_arch = "x86_64"))]
    terminal! { PioBackend:
        /// Returns a terminal for the device at eight consecutive I/O ports, from `base_port` on.
        /// Initialises the device and tests it.
        ///
        /// # Errors
        ///
        /// `AddressError` if there is no such address. Otherwise those of
        /// [`new_with_backend`](Self::new_with_backend).
        ///
        /// # Safety
        ///
        /// That of [`Uart16550::new_port`].
        new_port(base_port: u16)
    }

    terminal! { MmioBackend:
        /// Returns a terminal for the device in memory, from `base_address` on, with registers that
        /// are `stride` bytes apart. Initialises the device and tests it.
        ///
        /// # Errors
        ///
        /// `AddressError` if there is no such address. Otherwise those of
        /// [`new_with_backend`](Self::new_with_backend).
        ///
        /// # Safety
        ///
        /// That of [`Uart16550::new_mmio`].
        new_mmio(base_address: NonNull<u8>, stride: u8)
    }

    terminal! { MmioBackend:
        /// Does the same as [`new_mmio`](Self::new_mmio) for an address that is a number.
        ///
        /// # Errors
        ///
        /// Those of [`new_mmio`](Self::new_mmio).
        ///
        /// # Safety
        ///
        /// That of [`Uart16550::new_mmio_from_address`].
        new_mmio_from_address(base_address: NonZeroUsize, stride: u8)
    }

    impl<B: Backend> Uart16550Tty<B> {
        /// Returns a terminal over a backend. Initialises the device and tests it.
        ///
        /// # Errors
        ///
        /// - `InitError` if the initialisation failed.
        /// - `TestError` if it succeeded and the loopback test failed.
        ///
        /// # Safety
        ///
        /// That of [`Uart16550::new_with_backend`].
        pub unsafe fn new_with_backend(
            backend: B,
            config: Config,
        ) -> Result<Self, Uart16550TtyError> {
            // SAFETY: by the promise of the caller.
            Self::start(Ok(unsafe { Uart16550::new_with_backend(backend) }), config)
        }
    }
}
