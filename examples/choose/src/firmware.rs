//! Firmware: a board with registers of 32 bits, whose clock gives the baud rate only nearly.

use core::num::NonZeroUsize;
use uart_16550::backend::{RegisterLayout, WideMemory};
use uart_16550::{BaudRate, Config, Uart16550};

/// Returns a driver at 115,200 baud, or `None` if no chip works there.
///
/// # Safety
///
/// A 16550 is at this address, with eight registers of 32 bits, one behind the other, and a clock of
/// 24 MHz. Nothing else accesses it.
pub unsafe fn console(base: NonZeroUsize) -> Option<Uart16550<WideMemory>> {
    // SAFETY: the caller promises it.
    let registers = unsafe { WideMemory::from_address(base, RegisterLayout::WORDS) }.ok()?;
    let mut uart = Uart16550::new_with_backend(registers);
    let config = Config {
        frequency: 24_000_000,
        baud_rate: BaudRate::Baud115200,
        ..Config::DEFAULT
    };
    // The divisor would have to be 13.02. The one that is nearest may be 20 thousandths off.
    uart.init(config.nearest(20).ok()?).ok()?;
    Some(uart)
}
