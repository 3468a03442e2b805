#![doc = include_str!("../README.md")]
#![deny(unsafe_code)]
#![deny(missing_docs)]

mod bus;
mod counters;
mod events;
mod input;
mod limited;
#[cfg(target_os = "linux")]
mod linux;
mod lossy;
mod superio;
mod trigger;

pub use bus::BusSerial;
pub use counters::{Counters, Counts};
pub use events::Both;
pub use input::Input;
pub use limited::Limited;
#[cfg(target_os = "linux")]
pub use linux::{Epoll, EventFd, Room, Timer};
pub use lossy::Lossy;
pub use superio::{SuperioState, TooManyWaitError};
#[cfg(feature = "vm-superio")]
pub use trigger::FromSuperio;
pub use trigger::TriggerBy;
pub use uart_16550_chip;
