//! The driver's own interface. It is here whatever features are on.
//!
//! Without the feature `compat` the root of the crate has the same items. A library that uses this
//! crate should name them by this module: then it also builds if another crate of the same program
//! turns `compat` on.

/// The driver of a chip, made over a [`backend`] that knows where the registers are.
///
/// | the registers are | the backend | the driver |
/// |---|---|---|
/// | at I/O ports of x86 | `X86Ports::new(0x3f8)` | [`Uart16550::new_with_backend`] |
/// | in memory, of one byte each | [`VolatileMemory::from_address`](backend::VolatileMemory::from_address) | the same |
/// | in memory, of 8, 16 or 32 bits | [`WideMemory::from_address`](backend::WideMemory::from_address) | the same |
/// | reached by your code | [`PortAccess`](backend::PortAccess), [`ByteAccess`](backend::ByteAccess) | `new_port`, `new_mmio` |
///
#[doc(inline)]
pub use uart_driver::Uart16550;
pub use uart_driver::{
    BaudRate, ByteReceiveError, ByteSendError, Config, ConfigRegisterDump, DEFAULT_SPIN_LIMIT,
    DriverState, InitError, InvalidAddressError, InvalidDivisorError, LoopbackError,
    NonIntegerBaudRateError, NonIntegerDivisorError, Patience, Received, RemoteReadyToReceiveError,
    StalledError, Uart16550Tty, Uart16550TtyError, WaitEnd, WaitError, embedded_io,
};
pub use uart_spec::{
    AttachError, ConfigurationError, FifoAction, FifoSize, FifoSizeError, FifosOffError, FrameError,
    NearestDivisorError, Setup, TransmitterWait,
};

pub mod backend {
    //! How the driver reads and writes the registers of its device.
    //!
    //! | backend | for | `unsafe` |
    //! |---|---|---|
    //! | `X86Ports` | a device at I/O ports of x86 | its constructor |
    //! | [`VolatileMemory`] | a device in memory, with registers of one byte | its constructors |
    //! | [`WideMemory`] | a device in memory, with registers of 8, 16 or 32 bits | its constructors |
    //! | [`PioBackend`] | ports that code of yours accesses: [`PortAccess`] | |
    //! | [`MmioBackend`] | memory that code of yours accesses: [`ByteAccess`] | |
    //! | [`DesignWare`] | a UART of DesignWare, over registers that have USR too | |
    //! | [`DesignWareMemory`] | these registers in memory | its constructors |
    //! | your own | anything with eight registers: implement [`Backend`] | |
    //! | `&mut B` | a device that outlives its driver, and is looked at then | |
    //!
    //! The driver passes offsets of 0 to 7. Other code that gets hold of a backend may pass any, so a
    //! backend that is unsafe inside tests its offset, as the first three do.
    //!
    #![doc = include_str!("../BACKENDS.md")]

    pub use crate::access::VolatileMemory;
    #[cfg(any(target_arch = "x86", target_arch = "x86_64"))]
    pub use crate::access::X86Ports;
    pub use crate::access::{DesignWareMemory, WideMemory, load_register, store_register};
        pub use uart_design_ware::{DesignWare, DesignWareFault, DesignWareRegisters, fifo_size_of};
    pub use uart_driver::backend::{Backend, ByteAccess, MmioBackend, PioBackend, PortAccess};
    pub use uart_spec::{ByteOrder, InvalidLayoutError, RegisterLayout, RegisterWidth};
}

/// Everything about a 16550 that needs no access to it: its registers with their named bits and
/// fields, and the arithmetic of its baud rate generator.
///
/// Bits are numbered from 0, the lowest, to 7. Frequencies are in hertz and baud rates in bits per
/// second. The functions `calc_..` panic for arguments that mean nothing, as a divisor of 0. Each
/// has a form `checked_..` that does not.
pub mod spec {
    pub use uart_spec::{
        CLK_FREQUENCY_HZ, FIFO_SIZE, InvalidDivisorError, NUM_REGISTERS, NonIntegerBaudRateError,
        NonIntegerDivisorError, calc_baud_rate, calc_divisor, calc_frequency, checked_baud_rate,
        checked_divisor, checked_frequency, registers,
    };
}
