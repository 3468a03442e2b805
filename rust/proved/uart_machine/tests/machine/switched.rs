//! The driver over a 16750, whose FIFOs hold 16 characters until they are told to hold 64.

use crate::machines::{DATA, MCR, WITHOUT_FIFO, initialised};
use geesetrunk_kit::alloc::Global;
use proved_uart_machine::{Chip, Device16550};
use uart_16550::Uart16550;
use uart_16550::backend::Backend;
use uart_spec::registers::{FifoTriggerLevel, IER};
use uart_spec::{Config, FifoSize, FifoSizeError};

/// Returns a driver that has initialised a 16750 to which nothing happens.
fn initialised_16750() -> Uart16550<Device16550> {
    let schedule = Vec::new().into();
    let machine = Device16550::new_16750(Global::heap(), 4, 1024, schedule, false).unwrap();
    let mut uart = Uart16550::new_with_backend(machine);
    uart.init(Config::DEFAULT).unwrap();
    uart
}

/// Puts a byte into the receiver, in loopback.
fn loop_back(uart: &mut Uart16550<Device16550>) {
    for mcr in [0x1b, 0x0b] {
        uart.backend_mut().write(MCR, mcr);
        uart.backend_mut().write(DATA, 0x55);
        uart.backend_mut().idle(10);
    }
    assert_eq!(uart.backend().waiting_at(0), Some(0x55));
}

#[test]
fn bursts_of_64_go_out_whole() {
    let mut uart = initialised_16750();
    uart.enable_interrupts(IER::DATA_READY);
    assert_eq!(uart.find_fifo_size(), Ok(FifoSize::Sixteen));
    assert_eq!(uart.send_bytes(b"hello"), 5);
    assert_eq!(uart.enable_64_byte_fifos(), Ok(true));
    // What was sent before has gone out, and the driver was told nothing.
    assert_eq!(uart.backend().wire(), b"hello");
    assert_eq!((uart.lcr().bits(), uart.ier().bits()), (0x03, 0x01));
    assert_eq!(uart.fifo_size(), FifoSize::Sixteen);
    uart.set_fifo_size(FifoSize::SixtyFour);
    let overflows = uart.backend().overflows();
    assert_eq!(uart.send_bytes(&[7; 100]), 64);
    uart.backend_mut().idle(1_000);
    assert_eq!(uart.backend().wire().len(), 5 + 64);
    assert_eq!(uart.backend().overflows(), overflows);
    // No later call ends it.
    uart.set_trigger_level(FifoTriggerLevel::Eight).unwrap();
    uart.test_loopback().unwrap();
    uart.init(WITHOUT_FIFO).unwrap();
    uart.init(Config::DEFAULT).unwrap();
    assert_eq!(uart.find_fifo_size(), Ok(FifoSize::SixtyFour));
    assert_eq!(uart.enable_64_byte_fifos(), Ok(true));
}

#[test]
fn what_waits_is_lost_if_the_size_changes() {
    let mut uart = initialised_16750();
    loop_back(&mut uart);
    assert_eq!(uart.enable_64_byte_fifos(), Ok(true));
    assert_eq!(uart.backend().waiting_len(), 0);
    loop_back(&mut uart);
    assert_eq!(uart.enable_64_byte_fifos(), Ok(true));
    assert_eq!(uart.backend().waiting_len(), 1);
    let mut uart = initialised(Chip::Uart16550A, Some(FifoTriggerLevel::Fourteen));
    loop_back(&mut uart);
    assert_eq!(uart.enable_64_byte_fifos(), Ok(false));
    assert_eq!(uart.backend().waiting_len(), 1);
    assert_eq!(uart.find_fifo_size(), Ok(FifoSize::Sixteen));
}

#[test]
fn a_chip_of_one_size_is_no_16750() {
    for size in [FifoSize::Sixteen, FifoSize::SixtyFour] {
        let (schedule, chip) = (Vec::new().into(), Chip::Uart16550A);
        let machine =
            Device16550::new_sized(Global::heap(), chip, size, 4, 1024, schedule, false).unwrap();
        let mut uart = Uart16550::new_with_backend(machine);
        uart.init(Config::DEFAULT).unwrap();
        assert_eq!(uart.enable_64_byte_fifos(), Ok(false));
        assert_eq!(uart.find_fifo_size(), Ok(size));
    }
    let mut uart = initialised(Chip::Uart16450, Some(FifoTriggerLevel::Fourteen));
    let off = Err(FifoSizeError::FifosOff);
    assert_eq!(uart.enable_64_byte_fifos(), off);
}

#[test]
fn a_transmitter_that_is_not_empty_keeps_its_size() {
    let mut uart = initialised_16750();
    assert_eq!(uart.send_bytes(&[7; 16]), 16);
    uart.set_spin_limit(3.try_into().unwrap());
    let stall = Err(FifoSizeError::Stalled);
    assert_eq!(uart.enable_64_byte_fifos(), stall);
    uart.backend_mut().idle(1_000);
    assert_eq!(uart.backend().wire(), [7; 16]);
    uart.set_spin_limit(10_000.try_into().unwrap());
    assert_eq!(uart.find_fifo_size(), Ok(FifoSize::Sixteen));
}
