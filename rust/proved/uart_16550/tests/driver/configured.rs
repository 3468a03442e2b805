//! Whether the chip shows what was written to it, and bursts of a size that the caller names: whole
//! lists, with the datasheet's numbers.

use crate::devices::{Listed, driver};
use crate::lists::{Accesses, list};
use uart_spec::registers::{IER, LCR, MCR, offsets};
use uart_spec::{ConfigurationError, FifoSize};

/// Makes a row: a new driver, which takes the chip to have 9,600 baud, eight data bits, no interrupts, and FIFOs
/// that are on, checks a device whose reads return these bytes.
fn row(answers: &'static [u8], found: Result<(), ConfigurationError>, accesses: &Accesses) {
    let mut uart = driver(Listed(answers));
    assert_eq!(uart.check_configured(MCR::READY), found);
    assert_eq!(uart.backend().log.entries(), accesses.entries());
}

/// Returns the error of an LCR.
fn line(expected: u8, shown: u8) -> ConfigurationError {
    ConfigurationError::LineControl {
        expected: LCR::from_bits_retain(expected),
        shown: LCR::from_bits_retain(shown),
    }
}

/// Returns reads of LCR, MCR and IER as they are expected, and LCR once more.
fn looked() -> Accesses {
    list()
        .read(offsets::LCR, 0x03)
        .read(offsets::MCR, 0x0b)
        .read(offsets::IER, 0x00)
        .read(offsets::LCR, 0x03)
}

/// Returns those, and the latch opened, read, and closed.
fn latched(dll: u8, dlm: u8) -> Accesses {
    let opened = looked().write(offsets::LCR, 0x83).read(offsets::LCR, 0x83);
    opened
        .read(offsets::DLL, dll)
        .read(offsets::DLM, dlm)
        .write(offsets::LCR, 0x03)
}

/// Returns all of it, with this ISR.
fn whole(isr: u8) -> Accesses {
    let closed = latched(12, 0).read(offsets::LCR, 0x03);
    closed
        .write(offsets::IER, 0x00)
        .read(offsets::ISR, isr)
        .write(offsets::IER, 0x00)
}

#[test]
fn what_is_shown_is_checked() {
    let all = &[0x03, 0x0b, 0x00, 0x03, 0x83, 12, 0, 0x03, 0xc1];
    row(all, Ok(()), &whole(0xc1));
    let off = &[0x03, 0x0b, 0x00, 0x03, 0x83, 12, 0, 0x03, 0x01];
    let fifos = ConfigurationError::Fifos {
        expected: true,
        shown: false,
    };
    row(off, Err(fifos), &whole(0x01));
}

#[test]
fn a_register_that_differs_is_told() {
    let frame = Err(line(0x03, 0x07));
    row(&[0x07], frame, &list().read(offsets::LCR, 0x07));
    let outputs = ConfigurationError::ModemControl {
        expected: MCR::READY,
        shown: MCR::from_bits_retain(0x1b),
    };
    let control = list().read(offsets::LCR, 0x03).read(offsets::MCR, 0x1b);
    row(&[0x03, 0x1b], Err(outputs), &control);
    let interrupts = ConfigurationError::Interrupts {
        expected: IER::from_bits_retain(0),
        shown: IER::THR_EMPTY,
    };
    let enabled = list()
        .read(offsets::LCR, 0x43)
        .read(offsets::MCR, 0x0b)
        .read(offsets::IER, 0x02);
    row(&[0x43, 0x0b, 0x02], Err(interrupts), &enabled);
    // LCR is ignored: the latch is not read.
    let ignored = looked()
        .write(offsets::LCR, 0x83)
        .read(offsets::LCR, 0x03)
        .write(offsets::LCR, 0x03);
    row(
        &[0x03, 0x0b, 0x00, 0x03, 0x03],
        Err(line(0x83, 0x03)),
        &ignored,
    );
    // The latch stays open, and that is told before the divisor.
    row(
        &[0x03, 0x0b, 0x00, 0x03, 0x83, 13, 1, 0x83],
        Err(line(0x03, 0x83)),
        &latched(13, 1).read(offsets::LCR, 0x83),
    );
    let divisor = ConfigurationError::Divisor {
        expected: 12,
        shown: 269,
    };
    row(
        &[0x03, 0x0b, 0x00, 0x03, 0x83, 13, 1, 0x03],
        Err(divisor),
        &latched(13, 1).read(offsets::LCR, 0x03),
    );
}

#[test]
fn bursts_of_other_sizes() {
    let sizes = [
        (FifoSize::Sixteen, 16),
        (FifoSize::ThirtyTwo, 32),
        (FifoSize::SixtyFour, 64),
        (FifoSize::OneHundredTwentyEight, 128),
        (FifoSize::TwoHundredFiftySix, 256),
    ];
    for (size, characters) in sizes {
        assert_eq!(size.characters(), characters);
        let mut uart = driver(Listed(&[0x60, 0x60, 0x00]));
        assert_eq!(uart.send_burst(&[7; 300], size), characters);
        assert_eq!(uart.send_burst(b"hello", size), 5);
        assert_eq!(uart.send_burst(b"hello", size), 0);
        assert_eq!(uart.send_burst(b"", size), 0);
    }
}
