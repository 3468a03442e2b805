//! How FIFOs of 64 are turned on: the whole list of accesses for each answer and each refusal, and
//! what each leaves behind.

use crate::devices::{Constant, Listed, Recorder, RegisterFile, driver};
use crate::lists::{Accesses, list};
use proved_uart_16550::{DriverState, Uart16550};
use uart_spec::FifoSizeError::{self, FifosOff, Stalled};
use uart_spec::registers::{FifoTriggerLevel, LSR, offsets};
use uart_spec::{Config, FifoSize};

/// The state of a new driver, with a spin limit of 3.
fn new_state() -> DriverState {
    DriverState {
        spin_limit: 3.try_into().unwrap(),
        ..DriverState::new()
    }
}

/// Returns the accesses before the wait.
fn begun(lcr: u8, ier: u8) -> Accesses {
    list().read(offsets::LCR, lcr).read(offsets::IER, ier)
}

/// Appends what follows the wait: FCR is written under DLAB with bit 5 set, without DLAB with bit 5 clear, and ISR shows this.
fn asked(
    accesses: Accesses,
    [lcr, opened]: [u8; 2],
    [with_64, control]: [u8; 2],
    isr: u8,
    ier: u8,
) -> Accesses {
    accesses
        .write(offsets::IER, 0x00)
        .write(offsets::LCR, opened)
        .write(offsets::FCR, with_64)
        .write(offsets::LCR, lcr)
        .fifo(control, isr)
        .write(offsets::IER, ier)
}

/// Makes a row: a driver in this state, over a device whose reads return what the list has. Returns its state afterwards.
fn row(
    before: &DriverState,
    enabled: Result<bool, FifoSizeError>,
    accesses: &Accesses,
) -> DriverState {
    let answers = accesses.answers().to_vec().leak();
    let mut uart = Uart16550::from_state(Recorder::new(Listed(answers)), before);
    assert_eq!(uart.enable_64_byte_fifos(), enabled);
    assert_eq!(uart.backend().log.entries(), accesses.entries());
    uart.state()
}

#[test]
fn the_upper_bits_of_isr_are_the_answer() {
    for isr in 0..=u8::MAX {
        let on = (0xe0..=0xef).contains(&isr);
        let waited = begun(0x03, 0x05).looks(2, 0x00).look(0x60);
        let all = asked(waited, [0x03, 0x83], [0xe1, 0xc1], isr, 0x05);
        assert_eq!(row(&new_state(), Ok(on), &all), new_state());
    }
}

#[test]
fn a_bus_where_nobody_answers_holds_no_64() {
    for bus in 0..=u8::MAX {
        let mut uart = Uart16550::from_state(Constant(bus), &new_state());
        let enabled = uart.enable_64_byte_fifos();
        // The transmitter is not empty for ever, or ISR does not show FIFOs of 64.
        let is_empty = LSR::from_bits_retain(bus).contains(LSR::TRANSMITTER_EMPTY);
        // A bus of E0 to EF looks as a 16750 does in each register that the call reads.
        let looks_so = (0xe0..=0xef).contains(&bus);
        assert_eq!(enabled, if is_empty { Ok(looks_so) } else { Err(Stalled) }, "{bus:02x}");
    }
}

#[test]
fn the_size_that_is_set_stays() {
    let before = DriverState {
        fifo_size: FifoSize::ThirtyTwo,
        ..new_state()
    };
    let waited = begun(0x03, 0x0f).look(0x40);
    let all = asked(waited, [0x03, 0x83], [0xe1, 0xc1], 0xe1, 0x0f);
    assert_eq!(row(&before, Ok(true), &all), before);
}

#[test]
fn the_frame_is_kept_with_one_stop_bit() {
    // With two stop bits the third row would be BF, which on later chips shows other registers.
    for (lcr, opened) in [(0x1f, 0x9b), (0x00, 0x80), (0x3f, 0xbb), (0x7f, 0xfb)] {
        let waited = begun(lcr, 0x00).look(0x40);
        let all = asked(waited, [lcr, opened], [0xe1, 0xc1], 0xe1, 0x00);
        row(&new_state(), Ok(true), &all);
    }
}

#[test]
fn the_level_is_that_of_the_configuration() {
    let with = |fifo_trigger_level| DriverState {
        config: Config {
            fifo_trigger_level,
            ..Config::DEFAULT
        },
        ..new_state()
    };
    for (level, controls) in [
        // As on a port that was taken by `attach`.
        (None, [0x21, 0x01]),
        (Some(FifoTriggerLevel::One), [0x21, 0x01]),
        (Some(FifoTriggerLevel::Four), [0x61, 0x41]),
        (Some(FifoTriggerLevel::Eight), [0xa1, 0x81]),
        (Some(FifoTriggerLevel::Fourteen), [0xe1, 0xc1]),
    ] {
        let waited = begun(0x03, 0x05).look(0x40);
        let all = asked(waited, [0x03, 0x83], controls, 0xe1, 0x05);
        assert_eq!(row(&with(level), Ok(true), &all), with(level));
    }
}

#[test]
fn fifos_that_are_off_stay_off() {
    let off = DriverState {
        fifo_enabled: false,
        ..new_state()
    };
    assert_eq!(row(&off, Err(FifosOff), &list()), off);
    let mut uart = driver(RegisterFile::new(false));
    uart.init(Config::DEFAULT).unwrap();
    let before = uart.backend().log.count();
    assert_eq!(uart.enable_64_byte_fifos(), Err(FifosOff));
    assert_eq!(uart.backend().log.count(), before);
}

#[test]
fn the_wait_before_64_stalls() {
    // Nothing was written, and what the polls saw is saved.
    let polled = begun(0x03, 0x05).look(0x02).look(0x30).look(0x04);
    let expected = DriverState {
        saved_lsr: LSR::from_bits_retain(0x16),
        ..new_state()
    };
    assert_eq!(row(&new_state(), Err(Stalled), &polled), expected);
}

#[test]
fn errors_from_before_stay_saved() {
    let noted = DriverState {
        saved_lsr: LSR::from_bits_retain(0x02),
        ..new_state()
    };
    let waited = begun(0x03, 0x05).look(0x05).look(0x48);
    let all = asked(waited, [0x03, 0x83], [0xe1, 0xc1], 0xc1, 0x05);
    let expected = DriverState {
        saved_lsr: LSR::from_bits_retain(0x0e),
        ..new_state()
    };
    assert_eq!(row(&noted, Ok(false), &all), expected);
}
