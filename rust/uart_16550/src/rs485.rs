//! A driver at a bus on which one end at a time may send, as RS-485 with two wires.
//!
//! A transceiver between the chip and the bus has two directions, and RTS or DTR switches it. [`HalfDuplex`] is a driver that
//! keeps the direction: no byte is written while it is not to send, and the bus is given back only when the transmitter is
//! empty. That is proved, for every device and for calls in any order (`direction_is_kept` of the crate `uart_rs485`). Delays
//! before the first bit and after the last one are the caller's, by whatever clock it has.
//!
//! # Examples
//!
//! ```
//! use uart_16550::native::backend::Backend;
//! use uart_16550::native::{Config, Setup, Uart16550, WaitEnd};
//! use uart_16550::rs485::{Direction, DirectionLine, HalfDuplex};
//! use uart_16550::spec::registers::MCR;
//!
//! # // A remote that answers with what it was asked, once the transceiver is switched to receive.
//! # #[derive(Default)]
//! # struct Cells {
//! #     cells: [u8; 8],
//! #     asked: std::collections::VecDeque<u8>,
//! # }
//! # impl Backend for Cells {
//! #     fn read(&mut self, offset: u8) -> u8 {
//! #         match offset {
//! #             0 if self.cells[3] & 0x80 == 0 => self.asked.pop_front().unwrap_or(0),
//! #             2 => 0xc1, // no interrupt is pending, and the FIFO is on
//! #             5 => 0x60 | u8::from(self.cells[4] & 2 == 0 && !self.asked.is_empty()), // the transmitter is empty
//! #             _ => self.cells[offset as usize],
//! #         }
//! #     }
//! #     fn write(&mut self, offset: u8, value: u8) {
//! #         match offset {
//! #             0 if self.cells[3] & 0x80 == 0 && self.cells[4] & 2 != 0 => self.asked.push_back(value),
//! #             _ => self.cells[offset as usize] = value,
//! #         }
//! #     }
//! # }
//! # let backend = Cells::default();
//! # let time = std::cell::Cell::new(0_u64);
//! # let wait = |microseconds: u64| time.set(time.get() + microseconds);
//! # let now = || { wait(1); time.get() };
//! // The transceiver sends while the bit RTS is set.
//! let direction = Direction { line: DirectionLine::Rts, sends_when_set: true };
//!
//! // `backend` reaches the device. It is set up with the transceiver switched to receive, else it would hold the bus.
//! let mut uart = Uart16550::new_with_backend(backend);
//! let setup = Setup { outputs: direction.receiving(MCR::READY), ..Setup::DEFAULT };
//! uart.init_with(Config::DEFAULT, &setup)?;
//! let mut bus = HalfDuplex::new(uart, direction)?;
//!
//! // A question. `wait` waits by a clock of this program, and `now` tells its time, in microseconds.
//! bus.start_sending();
//! wait(10);
//! bus.send_bytes_exact(b"question")?;
//! bus.flush()?;
//! wait(208); // two bits at 9,600 baud
//! bus.try_finish()?;
//!
//! // And its answer, which has 50 milliseconds to come.
//! let end = now() + 50_000;
//! let mut answer = [0; 8];
//! bus.receive_bytes_while(&mut answer, &mut || now() < end)?;
//! assert_eq!(&answer, b"question");
//!
//! // No other comes: the wait ends in time, with how many bytes there were, and says that the clock ended it.
//! let end = now() + 50_000;
//! let none = bus.receive_bytes_while(&mut answer, &mut || now() < end).unwrap_err();
//! assert_eq!((none.done, none.ended_by), (0, WaitEnd::Patience));
//! # Ok::<(), Box<dyn std::error::Error>>(())
//! ```
//!
//! A transceiver that hears itself puts what is sent into the receiver: `receive_echo` takes it out behind each `send_bytes`,
//! and tells if it is another. A transmitter that never gets empty would hold the bus for ever: `give_up` gives it back.
//!
//! [`HalfDuplexRing`] is such a bus over [rings](crate::ring): an interrupt handler sends and receives, and a timer of the
//! program gives the bus back. Behind a kernel's lock, for tasks and threads that wait, it is a
//! `SharedBus` of the module `shared`.

pub use uart_ring::Refused;
pub use uart_rs485::{BusyError, Direction, DirectionLine, EchoError, HalfDuplex, HalfDuplexRing, NotSendingError, SendError};
