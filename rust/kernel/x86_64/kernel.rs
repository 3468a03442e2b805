//! A kernel for a PC whose console is the driver on COM1: a banner, an echo by polling, an echo by interrupts with rings. Then
//! it ends the machine.
#![no_std]
#![no_main]

mod echo;
mod machine;

use core::fmt::Write;
use core::num::NonZeroU64;
use echo::{Echoed, Exclusion, Trial};
use machine::{Controller, End, end};
use uart_16550::native::backend::X86Ports;
use uart_16550::native::embedded_io::{Read as _, Write as _};
use uart_16550::native::{BaudRate, Config, Uart16550, Uart16550Tty};

type Ports = X86Ports;
type Driver = Uart16550<Ports>;

const COM1: u16 = 0x3f8;
const TYPED: usize = 10_000;

// How many polls in a row a wait makes: more than a quarter of an hour, for somebody who types.
const PATIENCE: NonZeroU64 = NonZeroU64::new(1_000_000_000).unwrap();

#[panic_handler]
fn panic(_info: &core::panic::PanicInfo<'_>) -> ! {
    end(End::Panic)
}

// Says something on the console, and waits until it is sent.
fn say(console: &mut Uart16550Tty<Ports>, line: core::fmt::Arguments<'_>) {
    if writeln!(console, "{line}").is_err() || console.inner_mut().flush().is_err() {
        end(End::NotSent)
    }
}

fn start() -> Uart16550Tty<Ports> {
    // SAFETY: the kernel may access the ports, and nothing else does.
    let Ok(ports) = (unsafe { X86Ports::new(COM1) }) else {
        end(End::NoConsole)
    };
    let mut driver = Uart16550::new_with_backend(ports);
    let config = Config {
        baud_rate: BaudRate::Baud115200,
        ..Config::DEFAULT
    };
    if driver.init(config).is_err() || driver.test_loopback().is_err() {
        end(End::NoConsole)
    }
    driver.set_spin_limit(PATIENCE);
    Uart16550Tty::from_inner(driver)
}

// Sends back what is received, by polling.
fn echo_by_polling(driver: &mut Driver) {
    let mut left = TYPED;
    let mut slots = [0; 64];
    while left > 0 {
        let wanted = slots.len().min(left);
        let Ok(count) = driver.read(&mut slots[..wanted]) else {
            end(End::NobodyTypes)
        };
        if driver.send_bytes_exact(&slots[..count]).is_err() {
            end(End::NotSent)
        }
        left -= count;
    }
}

#[unsafe(no_mangle)]
extern "C" fn kernel_main() -> ! {
    let mut console = start();
    say(&mut console, format_args!("console on COM1: loopback ok"));
    echo_by_polling(console.inner_mut());
    say(&mut console, format_args!("\n{TYPED} bytes by polling"));
    let ring = echo::rings(console.into_inner());
    let trial = Trial {
        serve: echo::serve,
        controller: Controller::I8259,
        exclusion: Exclusion::Processor,
    };
    let (echoed, mut ring) = echo::by_interrupts(ring, TYPED, trial);
    match echoed {
        Echoed::All(line) => {
            let errors = line.bits();
            echo::say(
                &mut ring,
                format_args!("{TYPED} bytes by interrupts, errors {errors:02x}"),
            );
            end(End::Done)
        }
        Echoed::Stuck(cause) => {
            echo::say(&mut ring, format_args!("COM1 is stuck: {cause}"));
            end(End::Stuck)
        }
    }
}
