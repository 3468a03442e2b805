//! Machines, drivers over them, and the offsets of registers.

use geesetrunk_kit::alloc::Global;
use proved_uart_machine::{Chip, Device16550, Event};
use uart_16550::Uart16550;
use uart_spec::Config;
use uart_spec::registers::{FifoTriggerLevel, offsets};

pub const DATA: u8 = offsets::DATA as u8;
pub const IER: u8 = offsets::IER as u8;
pub const ISR: u8 = offsets::ISR as u8;
pub const FCR: u8 = offsets::FCR as u8;
pub const LCR: u8 = offsets::LCR as u8;
pub const MCR: u8 = offsets::MCR as u8;
pub const LSR: u8 = offsets::LSR as u8;
pub const MSR: u8 = offsets::MSR as u8;
pub const SPR: u8 = offsets::SPR as u8;

pub const WITHOUT_FIFO: Config = Config {
    fifo_trigger_level: None,
    ..Config::DEFAULT
};

/// Returns a machine under this schedule.
pub fn machine(
    chip: Chip,
    char_ticks: u16,
    wire_capacity: usize,
    schedule: &[Event],
) -> Device16550 {
    let schedule = schedule.to_vec().into();
    Device16550::new(Global::heap(), chip, char_ticks, wire_capacity, schedule).unwrap()
}

/// Returns a 16550A to which nothing happens.
pub fn fresh() -> Device16550 {
    machine(Chip::Uart16550A, 4, 64, &[])
}

/// Returns a new driver over a machine to which nothing happens.
pub fn new_driver(chip: Chip, char_ticks: u16) -> Uart16550<Device16550> {
    Uart16550::new_with_backend(machine(chip, char_ticks, 64, &[]))
}

/// Returns a driver that has initialised a machine to which nothing happens, with this level and the rest as by default.
pub fn initialised(
    chip: Chip,
    fifo_trigger_level: Option<FifoTriggerLevel>,
) -> Uart16550<Device16550> {
    let mut uart = new_driver(chip, 4);
    let config = Config {
        fifo_trigger_level,
        ..Config::DEFAULT
    };
    uart.init(config).unwrap();
    uart
}

/// A character that arrives without errors.
pub fn arrive(byte: u8) -> Event {
    Event::Arrive { byte, errors: 0 }
}
