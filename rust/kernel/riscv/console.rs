//! A program for the RISC-V board `virt` of QEMU, without an operating system: the driver on its serial chip in memory. A
//! banner, and an echo by polling. Then it ends the machine.
#![no_std]
#![no_main]

use core::fmt::Write;
use core::num::{NonZeroU64, NonZeroUsize};
use uart_16550::native::backend::VolatileMemory;
use uart_16550::native::embedded_io::{Read as _, Write as _};
use uart_16550::native::{BaudRate, Config, Uart16550, Uart16550Tty};

// What the board has, and where: its device tree says so.
const SERIAL_BASE: NonZeroUsize = NonZeroUsize::new(0x1000_0000).unwrap();
const SERIAL_STRIDE: u8 = 1;
const SERIAL_FREQUENCY: u32 = 3_686_400;
const FINISHER: usize = 0x10_0000;

// What the finisher takes: the end of all, or a failure with a number above it.
const FINISHED: u32 = 0x5555;
const FAILED: u32 = 0x3333;

const TYPED: usize = 10_000;

// How many polls in a row a wait makes: more than a quarter of an hour, for somebody who types.
const PATIENCE: NonZeroU64 = NonZeroU64::new(1_000_000_000).unwrap();

core::arch::global_asm!(
    ".section .text.start, \"ax\"",
    ".globl start",
    "start:",
    "la sp, stack_end",
    "call console_main",
    "1: j 1b",
    ".section .bss",
    ".balign 16",
    ".skip 65536",
    "stack_end:",
);

/// Why the program failed.
#[derive(Clone, Copy)]
#[repr(u8)]
enum Failure {
    NoConsole = 1,
    NotSent = 2,
    Panic = 3,
}

fn end(how: Result<(), Failure>) -> ! {
    let word = how.map_or_else(|failure| (failure as u32) << 16 | FAILED, |()| FINISHED);
    let finisher = core::ptr::with_exposed_provenance_mut::<u32>(FINISHER);
    loop {
        // SAFETY: the board has its finisher there.
        unsafe { finisher.write_volatile(word) }
    }
}

#[panic_handler]
fn panic(_info: &core::panic::PanicInfo<'_>) -> ! {
    end(Err(Failure::Panic))
}

type Console = Uart16550Tty<VolatileMemory>;

fn start() -> Option<Console> {
    // SAFETY: the chip is there, and this program alone uses it.
    let registers = unsafe { VolatileMemory::from_address(SERIAL_BASE, SERIAL_STRIDE) }.ok()?;
    let config = Config {
        frequency: SERIAL_FREQUENCY,
        baud_rate: BaudRate::Baud115200,
        ..Config::DEFAULT
    };
    let mut driver = Uart16550::new_with_backend(registers);
    driver.init(config).ok()?;
    driver.test_loopback().ok()?;
    driver.set_spin_limit(PATIENCE);
    Some(Uart16550Tty::from_inner(driver))
}

// Says something on the console, sends back what is received, and says something else.
fn echo(console: &mut Console) -> Option<()> {
    writeln!(console, "console in memory: loopback ok").ok()?;
    let mut left = TYPED;
    let mut slots = [0; 64];
    while left > 0 {
        let driver = console.inner_mut();
        let wanted = slots.len().min(left);
        let count = driver.read(&mut slots[..wanted]).ok()?;
        driver.send_bytes_exact(&slots[..count]).ok()?;
        left -= count;
    }
    let errors = console.inner_mut().lsr().has_error();
    writeln!(console, "\n{TYPED} bytes by polling, errors {errors}").ok()?;
    console.inner_mut().flush().ok()
}

#[unsafe(no_mangle)]
extern "C" fn console_main() -> ! {
    let Some(mut console) = start() else {
        end(Err(Failure::NoConsole))
    };
    end(echo(&mut console).ok_or(Failure::NotSent))
}
