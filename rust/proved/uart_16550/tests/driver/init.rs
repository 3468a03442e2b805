//! The initialisation: its whole list of accesses, each error, and what each leaves behind.

use crate::devices::{RegisterFile, driver};
use crate::driving::Start::New;
use crate::driving::{Left, NOTHING, init, read_back, row, then};
use crate::lists::{Accesses, list};
use uart_calls::Answer::{Done, InitRefused, NoData};
use uart_calls::Call::{self, ReadyToReceive};
use uart_spec::BaudRate::{Baud300, Baud9600, Baud38400, Custom};
use uart_spec::InitError::{DeviceNotPresent, InvalidBaudRate, Stalled};
use uart_spec::registers::FifoTriggerLevel::{Eight, Four, Fourteen, One};
use uart_spec::registers::{IER, Parity, WordLength, offsets};
use uart_spec::{Config, InvalidDivisorError, NonIntegerDivisorError};

/// What an initialisation at 9600 baud with level Fourteen leaves behind, over a device with a FIFO.
const SET_UP: Left = Left {
    ier: Some(0x00),
    fcr: Some(0xc7),
    lcr: Some(0x03),
    mcr: Some(0x0b),
    ..NOTHING
};

/// Returns the accesses from the presence check to the FIFO step, at 9600 baud with level Fourteen.
fn begun(isr: u8) -> Accesses {
    list().present(0xa5).line(0x0c, 0x00, 0x03).fifo(0xc7, isr)
}

#[test]
fn init_makes_its_list() {
    // One byte was received, the transmitter is empty at the second poll, and the last reads show
    // errors and changes.
    let drained = begun(0xc1).hit(0x55).look(0x00).write(offsets::MCR, 0x0b);
    let all = drained.look(0x22).look(0x60).end(0x1e, 0xc1, 0x0f, 0x00);
    let terminal = row(New, init(Some(Fourteen), Baud9600), Done, &all);
    assert_eq!(read_back(terminal), SET_UP);
}

#[test]
fn init_with_each_level() {
    for (level, control) in [(One, 0x07), (Four, 0x47), (Eight, 0x87), (Fourteen, 0xc7)] {
        let line = list().present(0xa5).line(0x0c, 0x00, 0x03);
        let all = line.fifo(control, 0xc1).undisturbed(0x00, 0x00);
        row(New, init(Some(level), Baud9600), Done, &all);
    }
}

#[test]
fn init_takes_the_fifo_to_be_on_where_isr_shows_both_bits() {
    for (isr, fifo_enabled) in [(0xc0, true), (0xbf, false), (0x7f, false), (0x01, false)] {
        let all = begun(isr).undisturbed(0x00, 0x00);
        let terminal = row(New, init(Some(Fourteen), Baud9600), Done, &all);
        assert_eq!(terminal.inner().fifo_enabled(), fifo_enabled);
    }
}

#[test]
fn init_without_level() {
    // ISR is not read, whatever it would show.
    let line = list().present(0xa5).line(0x80, 0x01, 0x03);
    let all = line.write(offsets::FCR, 0x06).undisturbed(0xc1, 0x00);
    let terminal = row(New, init(None, Baud300), Done, &all);
    let left = Left {
        baud_rate: Baud300,
        level: None,
        fifo_enabled: false,
        fcr: Some(0x06),
        ..SET_UP
    };
    assert_eq!(read_back(terminal), left);
}

#[test]
fn init_with_another_frame() {
    let call = Call::Init(Config {
        interrupts: IER::DATA_READY | IER::RECEIVER_LINE_STATUS,
        fifo_trigger_level: None,
        baud_rate: Baud38400,
        data_bits: WordLength::SevenBits,
        extra_stop_bits: true,
        parity: Parity::Even,
        ..Config::DEFAULT
    });
    let line = list().present(0xa5).line(0x03, 0x00, 0x1e);
    let all = line.write(offsets::FCR, 0x06).undisturbed(0x00, 0x05);
    row(New, call, Done, &all);
}

#[test]
fn init_drains_17_bytes_at_the_most() {
    // After the 17th byte the drain ends without a check: the next poll is that of the wait.
    let drained = begun(0xc1).hits(b"abcdefghijklmnopq");
    let waited = drained.write(offsets::MCR, 0x0b).look(0x41);
    let all = waited.end(0x01, 0x00, 0x00, 0x00);
    row(New, init(Some(Fourteen), Baud9600), Done, &all);
}

#[test]
fn init_counts_its_accesses() {
    for (has_fifos, level, accesses, sent) in [
        (true, Some(Fourteen), 22, 5),
        (true, None, 21, 1),
        (false, Some(Fourteen), 22, 1),
        (false, None, 21, 1),
    ] {
        let mut uart = driver(RegisterFile::new(has_fifos));
        let config = Config {
            fifo_trigger_level: level,
            ..Config::DEFAULT
        };
        assert_eq!(uart.init(config), Ok(()));
        assert_eq!(uart.backend().log.count(), accesses);
        assert_eq!(uart.fifo_enabled(), sent == 5);
        assert_eq!(uart.send_bytes(b"hello"), sent);
    }
}

#[test]
fn init_finds_no_device() {
    // The configuration is the new one; the FIFO is taken to be on and the saved bits stay, as
    // before.
    let absent = || InitRefused(DeviceNotPresent);
    let left = || Left {
        baud_rate: Baud38400,
        level: None,
        saved_lsr: 0x02,
        ..NOTHING
    };
    let first_kept = list().read(offsets::SPR, 0xa5).write(offsets::SPR, 0x42);
    let second_kept = list().read(offsets::SPR, 0xa5).write(offsets::SPR, 0x42);
    let second_kept = second_kept
        .read(offsets::SPR, 0x42)
        .write(offsets::SPR, 0x73);
    for (accesses, shown) in [(first_kept, 0xa5), (second_kept, 0x42)] {
        let all = accesses.read(offsets::SPR, shown).write(offsets::SPR, 0xa5);
        let looked = list().look(0x02);
        let mut terminal = row(New, ReadyToReceive, NoData, &looked);
        then(&mut terminal, init(None, Baud38400), absent(), &all);
        assert_eq!(read_back(terminal), left());
    }
}

#[test]
fn init_refuses_a_rate_without_divisor() {
    let out_of_range = InvalidDivisorError::OutOfRange { divisor: 115_200 };
    let not_whole = InvalidDivisorError::NonInteger(NonIntegerDivisorError {
        frequency: 1_843_200,
        baud_rate: 7211,
        prescaler_division_factor: None,
    });
    for (rate, cause) in [(1, out_of_range), (7211, not_whole)] {
        let refusal = InitRefused(InvalidBaudRate(cause));
        let nothing = list();
        let terminal = row(New, init(None, Custom(rate)), refusal, &nothing);
        assert_eq!(read_back(terminal), NOTHING);
    }
}

#[test]
fn init_stalls() {
    let stalled = || InitRefused(Stalled);
    // 20 accesses. The polls are saved; the drain, which saw a framing error, is not.
    let drained = begun(0xc1).look(0x08).write(offsets::MCR, 0x0b);
    let polled = drained.look(0x02).look(0x20).look(0x04);
    assert_eq!(polled.count(), 20);
    let terminal = row(New, init(Some(Fourteen), Baud9600), stalled(), &polled);
    let left = Left {
        saved_lsr: 0x06,
        ..SET_UP
    };
    assert_eq!(read_back(terminal), left);
    // A device without FIFO. The driver has the new configuration.
    let line = list().present(0x00).line(0x03, 0x00, 0x03);
    let drained = line.fifo(0xc7, 0x00).look(0x00).write(offsets::MCR, 0x0b);
    let polled = drained.looks(3, 0x00);
    let terminal = row(New, init(Some(Fourteen), Baud38400), stalled(), &polled);
    let left = Left {
        baud_rate: Baud38400,
        fifo_enabled: false,
        ..SET_UP
    };
    assert_eq!(read_back(terminal), left);
}
