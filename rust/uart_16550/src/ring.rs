//! Transmit and receive rings over the driver, for use with interrupts.
//!
//! A [`Uart16550Ring`] keeps bytes until the chip has room for them, and received bytes until they are taken. Call
//! [`Uart16550Ring::handle`] in the interrupt handler, whether the interrupt controller detects edges or levels, and mask the
//! interrupt during all other calls. No call waits.
//!
//! The memory of the rings is given by the caller, as [`Memory`]; with the feature `alloc` it may come from the program's
//! allocator, as `Global::heap()`.
//!
//! # Examples
//!
//! ```
//! use uart_16550::native::backend::Backend;
//! use uart_16550::ring::{MAX_INTERRUPTS, Memory, Uart16550Ring};
//! use uart_16550::spec::registers::IER;
//! use uart_16550::native::{Config, Uart16550};
//!
//! # struct Cells([u8; 8]);
//! # impl Backend for Cells {
//! #     fn read(&mut self, offset: u8) -> u8 {
//! #         match offset {
//! #             2 => 0xc1, // no interrupt is pending, and the FIFO is on
//! #             5 => 0x60, // the transmitter is empty
//! #             _ => self.0[offset as usize],
//! #         }
//! #     }
//! #     fn write(&mut self, offset: u8, value: u8) {
//! #         self.0[offset as usize] = value;
//! #     }
//! # }
//! # let backend = Cells([0; 8]);
//! # let bytes: &'static mut [u8] = Box::leak(Box::new([0; 1024 + 256]));
//! // `bytes` is a `&'static mut [u8]`, and `backend` reaches the device.
//! let memory = Memory::new(bytes);
//! let uart = Uart16550::new_with_backend(backend);
//! let mut ring = Uart16550Ring::new(memory.global(), uart, 1024, 256)?;
//! let interrupts = IER::DATA_READY | IER::RECEIVER_LINE_STATUS;
//! ring.inner_mut().init(Config { interrupts, ..Config::DEFAULT })?;
//! assert_eq!(ring.queue(b"hello"), 5);
//!
//! // in the interrupt handler
//! ring.handle(MAX_INTERRUPTS);
//! # Ok::<(), Box<dyn std::error::Error>>(())
//! ```
//!
#![doc = include_str!("../INTERRUPTS.md")]

pub use geesetrunk_kit_of_rings::alloc::{Global, Memory};
pub use uart_ring::{
    ErrorNotes, HandleEnd, Handled, LinePort, LinePorts, Lowered, MAX_CAPACITY, MAX_INTERRUPTS, ReceiveMarks,
    Refused, RingError, StuckError, Uart16550Ring, UnnotedError, handle_line, handle_ports,
};
