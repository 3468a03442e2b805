//! A kernel for a PC that panics in the middle of a call of its driver. What is typed first says in which. Then its last words come out,
//! and it ends the machine.
#![no_std]
#![no_main]

mod machine;

use core::fmt::Write;
use core::num::NonZeroU64;
use machine::{End, end};
use uart_16550::emergency::EmergencyConsole;
use uart_16550::native::backend::{Backend, X86Ports};
use uart_16550::native::embedded_io::Write as _;
use uart_16550::native::spec::registers::offsets;
use uart_16550::native::{BaudRate, Config, Uart16550};

const COM1: u16 = 0x3f8;
const PATIENCE: NonZeroU64 = NonZeroU64::new(1_000_000).unwrap();

// More than a quarter of an hour.
const FOR_SOMEBODY_WHO_TYPES: NonZeroU64 = NonZeroU64::new(1_000_000_000).unwrap();

const CONFIG: Config = Config {
    baud_rate: BaudRate::Baud115200,
    ..Config::DEFAULT
};

fn ports() -> X86Ports {
    // SAFETY: the kernel may access the ports. There are two objects for them only when a panic has ended the use of the first one.
    match unsafe { X86Ports::new(COM1) } {
        Ok(ports) => ports,
        Err(_) => end(End::NoConsole),
    }
}

/// COM1, at whose register the kernel panics once that is wanted.
struct Ports {
    ports: X86Ports,
    panics_at: Option<usize>,
}

impl Ports {
    fn panic_if_wanted(&self, register_offset: u8) {
        assert!(self.panics_at != Some(register_offset.into()), "no memory");
    }
}

impl Backend for Ports {
    fn read(&mut self, register_offset: u8) -> u8 {
        self.panic_if_wanted(register_offset);
        self.ports.read(register_offset)
    }

    fn write(&mut self, register_offset: u8, value: u8) {
        self.panic_if_wanted(register_offset);
        self.ports.write(register_offset, value);
    }
}

#[panic_handler]
fn panic(info: &core::panic::PanicInfo<'_>) -> ! {
    // SAFETY: this is the only processor, interrupts are off, and nobody goes on with the call that panicked.
    let console = unsafe { EmergencyConsole::take_over(ports(), PATIENCE) };
    let Ok(mut console) = console else {
        end(End::NoConsole)
    };
    if console.set_frame(&CONFIG).is_err()
        || writeln!(console, "\n{}", info.message()).is_err()
        || console.flush().is_err()
    {
        end(End::NotSent)
    }
    end(End::Panic)
}

/// No interrupt is let in.
#[unsafe(no_mangle)]
extern "C" fn handle_interrupt() {
    end(End::NoInterrupts)
}

#[unsafe(no_mangle)]
extern "C" fn kernel_main() -> ! {
    let mut uart = Uart16550::new_with_backend(Ports {
        ports: ports(),
        panics_at: None,
    });
    let mut typed = [0];
    uart.set_spin_limit(FOR_SOMEBODY_WHO_TYPES);
    if uart.init(CONFIG).is_err()
        || uart
            .send_bytes_exact(b"where is the kernel to panic?\r\n")
            .is_err()
        || uart.flush().is_err()
        || uart.receive_bytes_exact(&mut typed).is_err()
    {
        end(End::NoConsole)
    }
    // Each of these accesses DATA, or what has its offset, when the chip is not as a text needs it.
    uart.backend_mut().panics_at = Some(offsets::DATA);
    match &typed {
        b"s" => {
            uart.send_bytes(b"text");
        }
        b"d" => {
            uart.dll_dlm();
        }
        b"l" => {
            let _ = uart.test_loopback();
        }
        b"i" => {
            let _ = uart.init(Config::DEFAULT);
        }
        _ => {}
    }
    end(End::Done)
}
