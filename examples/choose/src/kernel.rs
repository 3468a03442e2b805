//! A kernel: a console from the first line on, and then by interrupts.

use uart_16550::backend::Backend;
use uart_16550::{BaudRate, Config, Uart16550, Uart16550Tty};

/// Returns the console, or `None` if no chip works there. On a PC the registers are
/// `X86Ports::new(0x3f8)?`, and on a board `VolatileMemory::from_address(base, stride)?`.
pub fn console<B: Backend>(registers: B) -> Option<Uart16550Tty<B>> {
    let mut uart = Uart16550::new_with_backend(registers);
    let config = Config {
        baud_rate: BaudRate::Baud115200,
        ..Config::DEFAULT
    };
    // Finds out whether a chip is there, and sets it up: 115,200 baud, 8 data bits, FIFOs on.
    uart.init(config).ok()?;
    uart.test_loopback().ok()?;
    Some(Uart16550Tty::from_inner(uart))
}

use uart_16550::ring::{MAX_INTERRUPTS, Memory};
use uart_16550::shared::{CriticalSection, Shared};
use uart_16550::spec::registers::IER;

/// The lock of a kernel with one processor: how it masks interrupts, and restores them.
pub struct Masked {
    pub mask: fn() -> bool,
    pub restore: fn(bool),
}

impl CriticalSection for Masked {
    fn run<R>(&self, call: impl FnOnce() -> R) -> R {
        let were_masked = (self.mask)();
        let result = call();
        (self.restore)(were_masked);
        result
    }
}

/// The port of a kernel, as a `static PORT: Port<X86Ports> = Shared::new(Masked { mask, restore })`.
pub type Port<B> = Shared<Masked, B>;

/// Puts the console into two rings, in memory of 1,280 bytes, and enables its interrupts.
pub fn serve<B: Backend>(
    port: &Port<B>,
    console: Uart16550Tty<B>,
    bytes: &'static mut [u8],
) -> Option<()> {
    let memory = Memory::new(bytes);
    port.start(memory.global(), console.into_inner(), 1024, 256)
        .ok()?;
    port.with(|ring| ring.restart(IER::DATA_READY | IER::RECEIVER_LINE_STATUS))
        .ok()
}

/// The handler of the port's interrupt. The controller is told of its end behind this.
pub fn handle<B: Backend>(port: &Port<B>) {
    // After 100 rounds that came to nothing the chip is stuck: its interrupts are off then.
    let _handled = port.try_handle(4 * MAX_INTERRUPTS, 100);
}
