//! Programs for firmware, of which `measure-size` counts the bytes. A feature says which one is built, over this repository's crate or,
//! with the feature `original`, over one with the original's signatures. With `clock` the chip's clock is an argument of the program.
#![no_std]

use core::num::NonZeroUsize;
use uart_16550::{Config, Uart16550};

#[cfg(feature = "original")]
type Registers = uart_16550::backend::MmioBackend;
#[cfg(not(feature = "original"))]
type Registers = uart_16550::backend::VolatileMemory;

const BASE: NonZeroUsize = NonZeroUsize::new(0x1000_0000).unwrap();

#[panic_handler]
fn panic(_info: &core::panic::PanicInfo<'_>) -> ! {
    loop {}
}

// Returns a driver for the board's chip.
#[cfg(feature = "original")]
fn driver() -> Option<Uart16550<Registers>> {
    // SAFETY: this runs on no board. On one, a 16550 would be there, and nothing else would access it.
    unsafe { Uart16550::new_mmio_from_address(BASE, 1) }.ok()
}

// Returns a driver for the board's chip.
#[cfg(not(feature = "original"))]
fn driver() -> Option<Uart16550<Registers>> {
    // SAFETY: this runs on no board. On one, a 16550 would be there, and nothing else would access it.
    let registers = unsafe { Registers::from_address(BASE, 1) }.ok()?;
    Some(Uart16550::new_with_backend(registers))
}

// Returns the configuration, for a clock that is known when the program is built, or for one that it is told.
fn configuration(clock: u32) -> Config {
    let mut config = Config::default();
    if cfg!(feature = "clock") {
        config.frequency = clock;
    }
    config
}

// Returns the driver, initialised.
fn start(clock: u32) -> Option<Uart16550<Registers>> {
    let mut uart = driver()?;
    uart.init(configuration(clock)).ok()?;
    Some(uart)
}

/// Initialises the chip, and sends a text.
#[cfg(feature = "init")]
#[unsafe(no_mangle)]
extern "C" fn program(clock: u32) -> bool {
    let Some(mut uart) = start(clock) else {
        return false;
    };
    _ = uart.send_bytes_exact(b"hello\r\n");
    true
}

/// Sends back what comes, in pieces of so many bytes.
#[cfg(feature = "echo")]
#[unsafe(no_mangle)]
extern "C" fn program(clock: u32, length: usize) -> bool {
    let Some(mut uart) = start(clock) else {
        return false;
    };
    let mut room = [0; 256];
    let Some(piece) = room.get_mut(..length) else {
        return false;
    };
    loop {
        _ = uart.receive_bytes_exact(piece);
        _ = uart.send_bytes_exact(piece);
    }
}

/// Sends back what comes, byte by byte, without a wait of the driver.
#[cfg(feature = "try")]
#[unsafe(no_mangle)]
extern "C" fn program(clock: u32) -> bool {
    let Some(mut uart) = start(clock) else {
        return false;
    };
    loop {
        if let Ok(byte) = uart.try_receive_byte() {
            while uart.try_send_byte(byte).is_err() {}
        }
    }
}

/// Sends back what comes, as soon as it comes.
#[cfg(feature = "poll")]
#[unsafe(no_mangle)]
extern "C" fn program(clock: u32) -> bool {
    let Some(mut uart) = start(clock) else {
        return false;
    };
    let mut piece = [0; 16];
    loop {
        let count = uart.receive_bytes(&mut piece);
        _ = uart.send_bytes_exact(&piece[..count]);
    }
}

/// Formats a number onto a terminal.
#[cfg(feature = "text")]
#[unsafe(no_mangle)]
extern "C" fn program(clock: u32, answer: u32) -> bool {
    let Some(uart) = start(clock) else {
        return false;
    };
    told(uart, answer)
}

/// Does the same behind a loopback test.
#[cfg(feature = "terminal")]
#[unsafe(no_mangle)]
extern "C" fn program(clock: u32, answer: u32) -> bool {
    let Some(mut uart) = start(clock) else {
        return false;
    };
    uart.test_loopback().is_ok() && told(uart, answer)
}

#[cfg(any(feature = "text", feature = "terminal"))]
fn told(uart: Uart16550<Registers>, answer: u32) -> bool {
    use core::fmt::Write;
    let mut terminal = uart_16550::Uart16550Tty::from_inner(uart);
    writeln!(terminal, "the answer is {answer}").is_ok()
}
