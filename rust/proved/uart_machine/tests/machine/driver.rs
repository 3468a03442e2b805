//! The driver over a chip that raw accesses left in some state.

use crate::machines::{DATA, LCR, MCR, WITHOUT_FIFO, initialised, new_driver};
use proved_uart_machine::Chip;
use uart_16550::backend::Backend;
use uart_spec::registers::{FifoTriggerLevel, IER, LSR};
use uart_spec::{Config, FifoSize, FifoSizeError};

#[test]
fn a_looped_byte_comes_back_late() {
    for (char_ticks, waiting) in [(15, Some(0x55)), (14, None)] {
        let mut uart = new_driver(Chip::Uart16450, char_ticks);
        uart.backend_mut().write(MCR, 0x10);
        uart.backend_mut().write(DATA, 0x55);
        uart.init(WITHOUT_FIFO).unwrap();
        let place = format!("with {char_ticks} ticks");
        assert_eq!(uart.backend().waiting_at(0), waiting, "{place}");
        assert_eq!(uart.try_receive_byte().ok(), waiting, "{place}");
    }
}

#[test]
fn init_clears_the_divisor_latch_access() {
    let mut uart = new_driver(Chip::Uart16550A, 4);
    uart.backend_mut().write(LCR, 0x83);
    uart.init(Config::DEFAULT).unwrap();
    let dump = uart.config_register_dump();
    assert_eq!(dump.lcr.bits(), 0x03);
    assert_eq!(dump.divisor(), 12);
}

#[test]
fn init_leaves_what_is_configured() {
    let mut uart = initialised(Chip::Uart16550A, Some(FifoTriggerLevel::Eight));
    assert!(uart.fifo_enabled());
    assert!(uart.backend().fifo_enabled());
    assert_eq!(uart.mcr().bits(), 0x0b);
    assert_eq!(uart.ier().bits(), 0x00);
    assert_eq!(uart.backend().divisor(), 12);
}

#[test]
fn a_chip_without_fifo_takes_one_byte() {
    let mut uart = initialised(Chip::Uart16450, Some(FifoTriggerLevel::Fourteen));
    assert!(!uart.fifo_enabled());
    assert_eq!(uart.send_bytes(&[0x48, 0x65, 0x6c]), 1);
}

// A 16550A holds 16, whatever the shift register takes while the transmitter is flooded: with one
// tick for a character it sends all of the bytes, with many only the first of them.
#[test]
fn the_size_of_the_fifos_is_found_in_loopback() {
    for char_ticks in [1, 2, 4, 15, 100, 300] {
        let mut uart = new_driver(Chip::Uart16550A, char_ticks);
        uart.init(Config::DEFAULT).unwrap();
        uart.enable_interrupts(IER::DATA_READY);
        assert_eq!(uart.send_bytes(b"hello"), 5);
        let found = uart.find_fifo_size();
        let place = format!("with {char_ticks} ticks");
        assert_eq!(found, Ok(FifoSize::Sixteen), "{place}");
        // What was sent before has gone out, and nothing else. The overrun was the call's own.
        uart.backend_mut().idle(10_000);
        assert_eq!(uart.backend().wire(), b"hello", "{place}");
        assert_eq!(uart.backend().waiting_len(), 0, "{place}");
        assert!(!uart.lsr().intersects(LSR::LINE_ERRORS), "{place}");
        assert_eq!((uart.mcr().bits(), uart.ier().bits()), (0x0b, 0x01));
        assert!(uart.fifo_enabled() && uart.backend().fifo_enabled());
        assert_eq!(uart.send_burst(&[1; 20], FifoSize::Sixteen), 16);
        uart.backend_mut().idle(10_000);
        assert_eq!(uart.backend().wire().len(), 5 + 16, "{place}");
    }
}

#[test]
fn a_chip_without_fifos_has_no_size() {
    for (chip, level) in [
        (Chip::Uart16450, Some(FifoTriggerLevel::Fourteen)),
        (Chip::Uart16550A, None),
    ] {
        let mut uart = initialised(chip, level);
        let off = Err(FifoSizeError::FifosOff);
        assert_eq!(uart.find_fifo_size(), off, "of {chip:?}");
    }
    // A new driver takes the FIFOs to be on. So the call floods a 16450, which keeps one byte.
    let mut uart = new_driver(Chip::Uart16450, 4);
    let few = Err(FifoSizeError::TooFew { returned: 1 });
    assert_eq!(uart.find_fifo_size(), few);
    assert!(!uart.fifo_enabled());
    uart.backend_mut().idle(100);
    assert_eq!(uart.backend().wire(), []);
}

// The wait ends long before the characters do. Of those that are left at most one goes out, which
// has begun.
#[test]
fn a_flood_that_stalls_stays_inside() {
    let mut uart = initialised(Chip::Uart16550A, Some(FifoTriggerLevel::Fourteen));
    uart.set_spin_limit(5.try_into().unwrap());
    assert_eq!(uart.find_fifo_size(), Err(FifoSizeError::Stalled));
    uart.backend_mut().idle(1_000);
    assert!(uart.backend().wire().len() <= 1);
    assert_eq!(uart.mcr().bits(), 0x0b);
    // At once, the next call finds the size.
    uart.set_spin_limit(1_000.try_into().unwrap());
    assert_eq!(uart.find_fifo_size(), Ok(FifoSize::Sixteen));
}

#[test]
fn bytes_from_before_are_lost_and_not_counted() {
    let mut uart = initialised(Chip::Uart16550A, Some(FifoTriggerLevel::Fourteen));
    for mcr in [0x1b, 0x0b] {
        uart.backend_mut().write(MCR, mcr);
        uart.backend_mut().write(DATA, 0x55);
        uart.backend_mut().idle(10);
    }
    assert_eq!(uart.backend().waiting_at(0), Some(0x55));
    assert_eq!(uart.find_fifo_size(), Ok(FifoSize::Sixteen));
    assert_eq!(uart.backend().waiting_len(), 0);
    assert_eq!(uart.backend().wire(), [0x55]);
}
