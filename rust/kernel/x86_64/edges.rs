//! A kernel for a PC that shows what an interrupt controller asks of a handler: an echo of many bytes, by interrupts with rings. What
//! is typed first says what the handler does, at which controller, and what is wrong with the chip. A chip that is stuck is mended, and
//! started again. Then it ends the machine.
#![no_std]
#![no_main]

mod echo;
mod machine;

use core::num::NonZeroU64;
use echo::{Echoed, Exclusion, Ring, Serve, Trial};
use machine::{Controller, End, end};
use uart_16550::native::backend::{Backend, X86Ports};
use uart_16550::native::embedded_io::Write as _;
use uart_16550::native::spec::FIFO_SIZE;
use uart_16550::native::spec::registers::{FifoTriggerLevel, offsets};
use uart_16550::native::{BaudRate, Config, Uart16550};

const COM1: u16 = 0x3f8;
const TYPED: usize = 300_000;
const TYPED_AFTERWARDS: usize = 10_000;

// How many polls in a row a wait makes: minutes, for somebody who types.
const PATIENCE: NonZeroU64 = NonZeroU64::new(100_000_000).unwrap();

// How many accesses are made before each read, to nothing, so that it takes as long as on a real bus. The other end refills the
// FIFO meanwhile.
const SLOWNESS: u32 = 10;

// What ISR shows of a chip that is broken, with the FIFO on.
const NO_NAME: u8 = 0xc8;
const THR_EMPTY: u8 = 0xc2;
const LINE_STATUS: u8 = 0xc6;
const MODEM_STATUS: u8 = 0xc0;

/// COM1. If it is broken, its ISR always shows the same.
struct Ports {
    ports: X86Ports,
    shown: Option<u8>,
}

impl Backend for Ports {
    fn read(&mut self, register_offset: u8) -> u8 {
        for _ in 0..SLOWNESS {
            self.ports.read(offsets::SPR as u8);
        }
        let value = self.ports.read(register_offset);
        match self.shown {
            Some(shown) if usize::from(register_offset) == offsets::ISR => shown,
            _ => value,
        }
    }

    fn write(&mut self, register_offset: u8, value: u8) {
        self.ports.write(register_offset, value);
    }
}

#[panic_handler]
fn panic(_info: &core::panic::PanicInfo<'_>) -> ! {
    end(End::Panic)
}

fn start() -> Uart16550<Ports> {
    // SAFETY: the kernel may access the ports, and nothing else does.
    let Ok(ports) = (unsafe { X86Ports::new(COM1) }) else {
        end(End::NoConsole)
    };
    let mut driver = Uart16550::new_with_backend(Ports { ports, shown: None });
    let config = Config {
        baud_rate: BaudRate::Baud115200,
        fifo_trigger_level: Some(FifoTriggerLevel::One),
        ..Config::DEFAULT
    };
    if driver.init(config).is_err() {
        end(End::NoConsole)
    }
    driver.set_spin_limit(PATIENCE);
    driver
}

// Serves one interrupt each time, so that each further one is left to the next edge. No round of one interrupt ends with `Idle`, so none
// is counted.
fn handle_one(ring: &mut Ring) {
    ring.handle(1);
}

// Serves as a handler does that does not care for edges: if it ends at its limit, the interrupt line may stay high for ever.
fn service_once(ring: &mut Ring) {
    ring.service();
}

// Returns what the handler does, and what ISR of the chip always shows, if it is broken.
fn handler(typed: u8) -> (Serve, Option<u8>) {
    match typed {
        b'h' => (echo::serve, None),
        b'1' => (handle_one, None),
        b's' => (service_once, None),
        b'b' => (echo::serve, Some(NO_NAME)),
        b't' => (echo::serve, Some(THR_EMPTY)),
        b'l' => (echo::serve, Some(LINE_STATUS)),
        b'm' => (echo::serve, Some(MODEM_STATUS)),
        _ => end(End::NoConsole),
    }
}

fn controller(typed: u8) -> (Controller, Exclusion) {
    match typed {
        b'p' => (Controller::I8259, Exclusion::Processor),
        b'e' => (Controller::IoApicEdges, Exclusion::Processor),
        b'l' => (Controller::IoApicLevels, Exclusion::Processor),
        b'm' => (Controller::IoApicEdges, Exclusion::MaskAndRetrigger),
        b'f' => (Controller::IoApicEdges, Exclusion::MaskAlone),
        b'q' => (Controller::I8259, Exclusion::MaskAlone),
        _ => end(End::NoConsole),
    }
}

// Waits until two characters are typed, and returns what they ask for. If they ask for a broken chip, it is broken from now on.
fn choice(driver: &mut Uart16550<Ports>) -> Trial {
    let mut typed = [0; 2];
    if driver.receive_bytes_exact(&mut typed).is_err() {
        end(End::NoConsole)
    }
    let (serve, shown) = handler(typed[0]);
    driver.backend_mut().shown = shown;
    let (controller, exclusion) = controller(typed[1]);
    Trial {
        serve,
        controller,
        exclusion,
    }
}

// Mends the chip, and drops what has raised the interrupt.
fn mend(ring: &mut Ring) {
    ring.clear_receive();
    let driver = ring.inner_mut();
    driver.backend_mut().shown = None;
    driver.receive_bytes(&mut [0; FIFO_SIZE]);
}

#[unsafe(no_mangle)]
extern "C" fn kernel_main() -> ! {
    let mut driver = start();
    if driver
        .send_bytes_exact(b"what is the handler to do?\r\n")
        .is_err()
        || driver.flush().is_err()
    {
        end(End::NotSent)
    }
    let trial = choice(&mut driver);
    let mut ring = echo::rings(driver);
    let mut typed = TYPED;
    // A chip that is mended is not stuck once more.
    for _part in 0..2 {
        let (echoed, returned) = echo::by_interrupts(ring, typed, trial);
        ring = returned;
        match echoed {
            Echoed::All(line) => {
                let errors = line.bits();
                echo::say(
                    &mut ring,
                    format_args!("{typed} bytes by interrupts, errors {errors:02x}"),
                );
                end(End::Done)
            }
            Echoed::Stuck(cause) => {
                // Before the line is said: the other end types when it has read that.
                mend(&mut ring);
                echo::say(&mut ring, format_args!("COM1 is stuck: {cause}"));
                typed = TYPED_AFTERWARDS;
            }
        }
    }
    end(End::Stuck)
}
