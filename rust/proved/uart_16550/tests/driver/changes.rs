//! Initialisations otherwise than by `init`, and the calls that change a port, leave it and put it
//! back: each with its whole list of accesses.

use crate::driving::Start::{New, NoFifo};
use crate::driving::{dump, read_back, row};
use crate::lists::{Accesses, list};
use uart_calls::Answer::{Done, FifosOff, FrameWhenIdleRefused, InitRefused, NotConfigured};
use uart_calls::Call::{
    self, CheckConfigured, InitWith, Quiesce, Restore, SetFrameWhenIdle, SetTriggerLevel,
};
use uart_spec::FifoAction::{Disable, Keep, Reset};
use uart_spec::registers::FifoTriggerLevel::{Eight, Four, Fourteen, One};
use uart_spec::registers::{MCR, offsets};
use uart_spec::{
    BaudRate, Config, ConfigurationError, FrameError, InitError, InvalidDivisorError, Setup,
    TransmitterWait,
};

/// Returns an initialisation with the default configuration.
fn init_with(checks_presence: bool, wait: TransmitterWait, outputs: u8) -> Call {
    let setup = Setup {
        checks_presence,
        wait,
        outputs: MCR::from_bits_retain(outputs),
    };
    InitWith(Config::DEFAULT, setup)
}

/// Returns the accesses from the line on, up to the outputs.
fn placed(before: Accesses, outputs: u8) -> Accesses {
    let set = before.line(0x0c, 0x00, 0x03).fifo(0xc7, 0xc1);
    set.look(0x00).write(offsets::MCR, outputs)
}

#[test]
fn init_with_the_default_is_init() {
    let set = list().present(0xa5).line(0x0c, 0x00, 0x03).fifo(0xc7, 0xc1);
    let call = InitWith(Config::DEFAULT, Setup::DEFAULT);
    row(New, call, Done, &set.undisturbed(0x00, 0x00));
}

#[test]
fn init_with_other_waits() {
    let first = placed(list().look(0x20).look(0x40), 0x08).end(0x00, 0x00, 0x00, 0x00);
    let call = init_with(false, TransmitterWait::First, 0x08);
    row(New, call, Done, &first);
    // Loopback is left out of the outputs.
    let never = placed(list().present(0xa5), 0x0f).end(0x20, 0x00, 0x00, 0x00);
    let call = init_with(true, TransmitterWait::Never, 0x1f);
    row(New, call, Done, &never);
}

#[test]
fn init_with_is_refused() {
    let call = init_with(true, TransmitterWait::First, 0x0b);
    let absent = InitRefused(InitError::DeviceNotPresent);
    row(New, call, absent, &list().absent(0xff));
    // A wait that comes first ends before anything but the scratch register is written.
    let call = init_with(true, TransmitterWait::First, 0x0b);
    let stalled = list().present(0xa5).looks(3, 0x20);
    row(New, call, InitRefused(InitError::Stalled), &stalled);
    let call = init_with(false, TransmitterWait::Last, 0x0b);
    let stalled = placed(list(), 0x0b).looks(3, 0x20);
    row(New, call, InitRefused(InitError::Stalled), &stalled);
}

/// Returns a change of the frame to this rate.
fn when_idle(baud_rate: BaudRate) -> Call {
    SetFrameWhenIdle(Config {
        baud_rate,
        ..Config::DEFAULT
    })
}

#[test]
fn frame_once_the_transmitter_is_empty() {
    let waited = list().look(0x00).look(0x20).look(0x60);
    let framed = waited.write(offsets::LCR, 0x83).write(offsets::DLL, 0x03);
    let framed = framed.write(offsets::DLM, 0x00).write(offsets::LCR, 0x03);
    let terminal = row(New, when_idle(BaudRate::Baud38400), Done, &framed);
    assert_eq!(read_back(terminal).baud_rate, BaudRate::Baud38400);
    // The rate of a frame that was not set is not stored.
    let refused = FrameWhenIdleRefused(FrameError::Stalled);
    let stalled = list().looks(3, 0x3f);
    let terminal = row(New, when_idle(BaudRate::Baud38400), refused, &stalled);
    assert_eq!(read_back(terminal).baud_rate, BaudRate::Baud9600);
    let divisor = InvalidDivisorError::OutOfRange { divisor: 115_200 };
    let refused = FrameWhenIdleRefused(FrameError::InvalidBaudRate(divisor));
    row(New, when_idle(BaudRate::Custom(1)), refused, &list());
}

#[test]
fn trigger_levels() {
    for (level, control) in [(One, 0x01), (Four, 0x41), (Eight, 0x81), (Fourteen, 0xc1)] {
        let written = list().write(offsets::FCR, control);
        let terminal = row(New, SetTriggerLevel(level), Done, &written);
        assert_eq!(read_back(terminal).level, Some(level));
    }
    row(NoFifo, SetTriggerLevel(Eight), FifosOff, &list());
}

#[test]
fn ports_are_left() {
    let quiet = || list().write(offsets::IER, 0x00).write(offsets::MCR, 0x08);
    for (start, fifos, accesses, fifo_enabled) in [
        (New, Keep, quiet(), true),
        (NoFifo, Keep, quiet(), false),
        (New, Reset, quiet().write(offsets::FCR, 0xc7), true),
        (NoFifo, Reset, quiet().write(offsets::FCR, 0x06), false),
        (New, Disable, quiet().write(offsets::FCR, 0x06), false),
    ] {
        let call = Quiesce(MCR::from_bits_retain(0x18), fifos);
        let terminal = row(start, call, Done, &accesses);
        assert_eq!(terminal.inner().fifo_enabled(), fifo_enabled);
    }
}

#[test]
fn ports_are_put_back() {
    // DLAB and loopback are left out, and the interrupts come last.
    let set = || list().line(0x03, 0x01, 0x1b);
    let last = |set: Accesses| {
        let outputs = set.write(offsets::MCR, 0x0b).write(offsets::SPR, 0xa5);
        outputs.write(offsets::IER, 0x05)
    };
    for (isr, accesses, fifo_enabled) in [
        (0xc1, last(set().fifo(0xc7, 0xc1)), true),
        (0xc1, last(set().fifo(0xc7, 0x01)), false),
        (0x01, last(set().write(offsets::FCR, 0x06)), false),
    ] {
        let dump = dump([0x05, isr, 0x9b, 0x1b, 0x60, 0xb0, 0xa5], 0x03, 0x01);
        let terminal = row(New, Restore(dump), Done, &accesses);
        assert_eq!(terminal.inner().fifo_enabled(), fifo_enabled);
        assert_eq!(read_back(terminal).interrupts, 0x05);
    }
}

#[test]
fn a_check_is_a_call() {
    let looked = list()
        .read(offsets::LCR, 0x03)
        .read(offsets::MCR, 0x0b)
        .read(offsets::IER, 0x00)
        .read(offsets::LCR, 0x03)
        .write(offsets::LCR, 0x83)
        .read(offsets::LCR, 0x83)
        .read(offsets::DLL, 12)
        .read(offsets::DLM, 0)
        .write(offsets::LCR, 0x03)
        .read(offsets::LCR, 0x03)
        .write(offsets::IER, 0x00)
        .read(offsets::ISR, 0xc1)
        .write(offsets::IER, 0x00);
    // Loopback is left out of the outputs that are expected.
    let outputs = MCR::READY | MCR::LOOP_BACK;
    row(New, CheckConfigured(outputs), Done, &looked);
    let fifos = ConfigurationError::Fifos {
        expected: false,
        shown: true,
    };
    row(NoFifo, CheckConfigured(outputs), NotConfigured(fifos), &looked);
    let control = ConfigurationError::ModemControl {
        expected: MCR::DTR,
        shown: MCR::READY,
    };
    let differs = list().read(offsets::LCR, 0x03).read(offsets::MCR, 0x0b);
    row(New, CheckConfigured(MCR::DTR), NotConfigured(control), &differs);
}
