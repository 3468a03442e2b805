//! How many accesses a call makes over an idle chip, and how many unsuccessful polls it takes.

use geesetrunk_kit::Vec;
use geesetrunk_kit::alloc::Global;
use proved_uart_16550::Uart16550;
use proved_uart_16550::backend::Backend;
use std::num::NonZeroU64;
use uart_chip::{Chip, Device16550};
use uart_spec::registers::{FifoTriggerLevel, IER};
use uart_spec::{Config, LoopbackError};

/// A machine whose accesses are counted.
struct Counter {
    machine: Device16550,
    accesses: usize,
}

impl Backend for Counter {
    fn read(&mut self, register_offset: u8) -> u8 {
        self.accesses += 1;
        self.machine.read(register_offset)
    }

    fn write(&mut self, register_offset: u8, value: u8) {
        self.accesses += 1;
        self.machine.write(register_offset, value);
    }
}

/// Returns a driver for an idle chip, which it has initialised.
fn idle(chip: Chip, char_ticks: u16, level: Option<FifoTriggerLevel>) -> Uart16550<Counter> {
    let alloc = Global::heap();
    let nothing_happens = Vec::new(alloc);
    let machine = Device16550::new(alloc, chip, char_ticks, 64, nothing_happens);
    let mut uart = Uart16550::new_with_backend(Counter {
        machine: machine.expect("a machine is built"),
        accesses: 0,
    });
    let config = Config {
        fifo_trigger_level: level,
        ..Config::DEFAULT
    };
    assert_eq!(uart.init(config), Ok(()));
    uart.backend_mut().accesses = 0;
    uart
}

/// Returns how many accesses a call makes over an idle chip with its FIFO on.
fn accesses_of<T>(call: impl FnOnce(&mut Uart16550<Counter>) -> T) -> usize {
    let mut uart = idle(Chip::Uart16550A, 4, Some(FifoTriggerLevel::Fourteen));
    call(&mut uart);
    uart.backend().accesses
}

#[test]
fn small_calls() {
    assert_eq!(accesses_of(Uart16550::check_present), 6);
    assert_eq!(accesses_of(Uart16550::dll_dlm), 5);
    assert_eq!(accesses_of(Uart16550::config_register_dump), 12);
    let interrupt = IER::DATA_READY;
    assert_eq!(accesses_of(|uart| uart.enable_interrupts(interrupt)), 2);
    assert_eq!(accesses_of(|uart| uart.disable_interrupts(interrupt)), 2);
    assert_eq!(accesses_of(Uart16550::lsr), 1);
}

const CHAR_TICKS: [u16; 8] = [1, 2, 3, 4, 5, 16, 100, 1000];

/// Of a chip and a level, the accesses of a loopback test for each of these.
const LOOPBACK_TESTS: [(Chip, Option<FifoTriggerLevel>, [usize; 8]); 4] = [
    (
        Chip::Uart16550A,
        Some(FifoTriggerLevel::Fourteen),
        [67, 68, 72, 89, 106, 293, 1721, 17021],
    ),
    (
        Chip::Uart16550A,
        None,
        [97, 114, 131, 148, 165, 352, 1780, 17080],
    ),
    (
        Chip::Uart16450,
        None,
        [97, 114, 131, 148, 165, 352, 1780, 17080],
    ),
    (
        Chip::Uart16450,
        Some(FifoTriggerLevel::Fourteen),
        [98, 115, 132, 149, 166, 353, 1781, 17081],
    ),
];

/// Returns what a loopback test under a spin limit returns, and its accesses.
fn tested(
    chip: Chip,
    char_ticks: u16,
    level: Option<FifoTriggerLevel>,
    limit: NonZeroU64,
) -> (Result<(), LoopbackError>, usize) {
    let mut uart = idle(chip, char_ticks, level);
    uart.set_spin_limit(limit);
    (uart.test_loopback(), uart.backend().accesses)
}

/// The least spin limit is a poll for each tick of a character, and one more.
#[test]
fn loopback_tests() {
    for (chip, level, counts) in LOOPBACK_TESTS {
        for (char_ticks, accesses) in CHAR_TICKS.into_iter().zip(counts) {
            let row = format!("of {chip:?} with {char_ticks} ticks");
            let ticks = NonZeroU64::new(char_ticks.into()).unwrap();
            let enough = ticks.saturating_add(1);
            let succeeded = tested(chip, char_ticks, level, enough);
            assert_eq!(succeeded, (Ok(()), accesses), "{row}");
            let (answer, _) = tested(chip, char_ticks, level, ticks);
            assert_eq!(answer, Err(LoopbackError::Stalled), "{row}");
        }
    }
}
