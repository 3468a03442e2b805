//! A boot loader: a port that firmware has set up, and that a kernel will have.

use uart_16550::backend::Backend;
use uart_16550::embedded_io::Write;
use uart_16550::spec::registers::MCR;
use uart_16550::{BaudRate, Config, FifoAction, InitError, Uart16550};

/// Takes the port as the firmware left it, and sets it up for 115,200 baud if the firmware did not.
pub fn take<B: Backend>(registers: B) -> Result<Uart16550<B>, InitError> {
    let mut uart = Uart16550::new_with_backend(registers);
    if uart.attach().is_err() {
        uart.init(Config {
            baud_rate: BaudRate::Baud115200,
            ..Config::DEFAULT
        })?;
    }
    Ok(uart)
}

/// Leaves the port to the kernel: what was sent is on the line, and the chip interrupts nobody.
pub fn leave<B: Backend>(uart: &mut Uart16550<B>) {
    // A chip that is stuck is left all the same.
    let _ = uart.flush();
    uart.quiesce(MCR::DTR | MCR::RTS, FifoAction::Keep);
}
