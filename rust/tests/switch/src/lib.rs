//! The console of a kernel, as it would be written for the crate `uart_16550` 0.9: a terminal in a
//! static, macros that print, an echo, a handler of interrupts, and errors that are matched case by
//! case. Nothing in this file knows which crate it is built over.
#![no_std]
#![deny(unreachable_patterns)]

use core::cell::UnsafeCell;
use core::fmt::{self, Write};
use core::num::NonZeroUsize;
use core::ptr::NonNull;
use core::sync::atomic::{AtomicBool, Ordering};
use uart_16550::backend::{Backend, MmioBackend};
use uart_16550::spec::registers::{FifoTriggerLevel, IER, InterruptType, LSR, Parity, WordLength};
use uart_16550::spec::{CLK_FREQUENCY_HZ, FIFO_SIZE, InvalidDivisorError, calc_divisor};
use uart_16550::{
    BaudRate, ByteReceiveError, ByteSendError, Config, InitError, InvalidAddressError,
    LoopbackError, RemoteReadyToReceiveError, Uart16550, Uart16550Tty, Uart16550TtyError,
};

/// A value that one user has at a time.
pub struct Lock<T> {
    taken: AtomicBool,
    value: UnsafeCell<T>,
}

// SAFETY: `with` lets one thread in at a time, so the value is only sent.
unsafe impl<T: Send> Sync for Lock<T> {}

impl<T> Lock<T> {
    /// Returns a lock around a value.
    pub const fn new(value: T) -> Self {
        Lock {
            taken: AtomicBool::new(false),
            value: UnsafeCell::new(value),
        }
    }

    /// Waits for the value and calls the function with it.
    pub fn with<R>(&self, call: impl FnOnce(&mut T) -> R) -> R {
        while self.taken.swap(true, Ordering::Acquire) {
            core::hint::spin_loop();
        }
        // SAFETY: nobody else got `false`.
        let result = call(unsafe { &mut *self.value.get() });
        self.taken.store(false, Ordering::Release);
        result
    }
}

/// How the console is set up.
pub fn config() -> Config {
    Config {
        interrupts: IER::DATA_READY | IER::RECEIVER_LINE_STATUS,
        frequency: CLK_FREQUENCY_HZ,
        fifo_trigger_level: Some(FifoTriggerLevel::Fourteen),
        baud_rate: BaudRate::Baud115200,
        data_bits: WordLength::EightBits,
        parity: Parity::Disabled,
        ..Config::default()
    }
}

#[cfg(any(target_arch = "x86", target_arch = "x86_64"))]
mod pc {
    use super::{Config, Lock, Uart16550, Uart16550Tty, Uart16550TtyError, fmt};
    use core::fmt::Write;
    use uart_16550::backend::PioBackend;

    /// The console of a PC.
    pub static COM1: Lock<Option<Uart16550Tty<PioBackend>>> = Lock::new(None);

    /// A port that nobody has set up: a constant.
    pub static COM2: Lock<Option<Uart16550<PioBackend>>> = {
        // SAFETY: nothing else uses the ports of COM2.
        match unsafe { Uart16550::new_port(0x2f8) } {
            Ok(uart) => Lock::new(Some(uart)),
            Err(_) => Lock::new(None),
        }
    };

    /// Sets the console up.
    ///
    /// # Safety
    ///
    /// The caller may access the ports of COM1, and nothing else does.
    pub unsafe fn open(config: Config) -> Result<(), Uart16550TtyError> {
        // SAFETY: by the promise of the caller.
        let tty = unsafe { Uart16550Tty::new_port(0x3f8, config) }?;
        COM1.with(|console| *console = Some(tty));
        Ok(())
    }

    /// Prints to the console. Does nothing before it is open.
    pub fn print(text: fmt::Arguments<'_>) {
        COM1.with(|console| {
            if let Some(tty) = console {
                tty.write_fmt(text).expect("a serial port takes all text");
            }
        });
    }

    /// Prints a line to the console.
    #[macro_export]
    macro_rules! println {
        ($($text:tt)*) => { $crate::print(format_args!("{}\n", format_args!($($text)*))) };
    }
}
#[cfg(any(target_arch = "x86", target_arch = "x86_64"))]
pub use pc::{COM1, COM2, open, print};

/// The console of a board, with registers in memory.
pub struct Board {
    tty: Uart16550Tty<MmioBackend>,
}

impl Board {
    /// Sets the console at an address up.
    ///
    /// # Safety
    ///
    /// A 16550 is at this address, and nothing else accesses it.
    pub unsafe fn at(address: NonZeroUsize, stride: u8) -> Result<Self, Uart16550TtyError> {
        // SAFETY: by the promise of the caller.
        let tty = unsafe { Uart16550Tty::new_mmio_from_address(address, stride, config()) }?;
        Ok(Board { tty })
    }

    /// Takes a device that is mapped, and has no loopback.
    ///
    /// # Safety
    ///
    /// A 16550 is there, and nothing else accesses it.
    pub unsafe fn mapped(base: NonNull<u8>, stride: u8) -> Result<Self, Refused> {
        // SAFETY: by the promise of the caller.
        let mut uart = unsafe { Uart16550::new_mmio(base, stride) }.map_err(Refused::Address)?;
        uart.init(config()).map_err(Refused::Init)?;
        Ok(Board {
            tty: Uart16550Tty::from_inner(uart),
        })
    }

    /// The registers, as the board's firmware table has them.
    pub fn place(&self) -> (NonNull<u8>, u8) {
        let backend = self.tty.inner().backend();
        (backend.base(), backend.stride().get())
    }

    /// Prints text.
    pub fn print(&mut self, text: &str) -> fmt::Result {
        self.tty.write_str(text)
    }
}

/// Why there is no console.
#[derive(Debug)]
pub enum Refused {
    /// The address.
    Address(InvalidAddressError),
    /// The device.
    Init(InitError),
    /// The chip.
    Loopback(LoopbackError),
    /// The cable.
    Cable(RemoteReadyToReceiveError),
}

/// What to tell the person at the machine.
pub fn advice(refused: &Refused) -> &'static str {
    match refused {
        Refused::Address(InvalidAddressError::InvalidBaseAddress(_)) => "choose another address",
        Refused::Address(InvalidAddressError::InvalidStride(_)) => "choose 1, 2, 4 or 8",
        Refused::Init(InitError::DeviceNotPresent) => "look for another port",
        Refused::Init(InitError::InvalidBaudRate(InvalidDivisorError::OutOfRange { .. })) => {
            "choose a higher rate"
        }
        Refused::Init(InitError::InvalidBaudRate(InvalidDivisorError::NonInteger(_))) => {
            "choose another rate"
        }
        // The original's errors may get more cases, so a program has to have these.
        Refused::Init(InitError::InvalidBaudRate(_)) => "choose the rate of the firmware",
        Refused::Init(_) => "ask the board's maker",
        Refused::Loopback(LoopbackError::SendError(ByteSendError::NoCapacity)) => "wait",
        Refused::Loopback(LoopbackError::SendError(ByteSendError::RemoteNotClearToSend)) => "wait",
        Refused::Loopback(LoopbackError::UnexpectedLoopbackByte { .. }) => "replace the chip",
        Refused::Loopback(LoopbackError::UnexpectedLoopbackMsg { .. }) => "replace the chip",
        Refused::Cable(RemoteReadyToReceiveError::NoRemoteConnectedNoDSR) => "plug the cable in",
        Refused::Cable(RemoteReadyToReceiveError::NoRemoteConnectedNoCD) => "plug the cable in",
        Refused::Cable(RemoteReadyToReceiveError::RemoteNotClearToSend) => "ask again",
    }
}

/// Sets a port up, and tests the chip and the cable.
pub fn bring_up<B: Backend>(uart: &mut Uart16550<B>) -> Result<(), Refused> {
    uart.init(config()).map_err(Refused::Init)?;
    uart.test_loopback().map_err(Refused::Loopback)?;
    uart.check_connected().map_err(Refused::Cable)
}

/// Sends back what comes, until nothing is there. Returns how many bytes.
pub fn echo<B: Backend>(uart: &mut Uart16550<B>) -> usize {
    let mut count = 0;
    let mut slots = [0; FIFO_SIZE];
    loop {
        let received = uart.receive_bytes(&mut slots);
        if received == 0 {
            return count;
        }
        uart.send_bytes_exact(&slots[..received]);
        count += received;
    }
}

/// Asks, and waits for an answer of this length.
pub fn ask<B: Backend>(uart: &mut Uart16550<B>, question: &[u8], answer: &mut [u8]) {
    uart.send_bytes_exact(question);
    uart.receive_bytes_exact(answer);
}

/// Types as fast as the chip takes it, one byte at a time.
pub fn type_in<B: Backend>(uart: &mut Uart16550<B>, bytes: &[u8]) -> usize {
    let taken = bytes
        .iter()
        .take_while(|byte| uart.try_send_byte(**byte).is_ok());
    taken.count()
}

/// Serves one interrupt. Returns the byte that came, if one did.
pub fn serve<B: Backend>(uart: &mut Uart16550<B>, errors: &mut u32) -> Option<u8> {
    match uart.isr().interrupt_type()? {
        InterruptType::ReceivedDataReady | InterruptType::ReceptionTimeout => {
            let byte: Result<u8, ByteReceiveError> = uart.try_receive_byte();
            byte.ok()
        }
        InterruptType::ReceiverLineStatus => {
            *errors += u32::from(
                uart.lsr()
                    .intersects(LSR::OVERRUN_ERROR | LSR::FRAMING_ERROR),
            );
            None
        }
        InterruptType::TransmitterHoldingRegisterEmpty => {
            uart.disable_interrupts(IER::THR_EMPTY);
            None
        }
        _ => None,
    }
}

/// Writes a report on the port's setup.
pub fn report<B: Backend>(uart: &mut Uart16550<B>, to: &mut impl Write) -> fmt::Result {
    let dump = uart.config_register_dump();
    let rate = dump.baud_rate(uart.config());
    writeln!(to, "{} baud, divisor {}", rate.to_integer(), dump.divisor())?;
    writeln!(to, "{:?} {:?}", dump.ier, dump.lsr)?;
    let divisor = calc_divisor(uart.config().frequency, 9_600, None);
    writeln!(to, "for 9600 baud {divisor:?}")
}
