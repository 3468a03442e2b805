//! The constructors of terminals: an initialisation and then a loopback test, each with its whole
//! list, up to the error.

use crate::devices::{Constant, Listed, Recorder};
use crate::lists::{Access, Accesses, list};
use proved_uart_16550::backend::Backend;
use proved_uart_16550::{Uart16550, Uart16550Tty};
use std::cell::RefCell;
use std::num::NonZeroUsize;
use uart_spec::Uart16550TtyError::{AddressError, InitError, TestError};
use uart_spec::{
    BaudRate, Config, InitError as Refusal, InvalidAddressError, InvalidDivisorError,
    LoopbackError, Uart16550TtyError,
};

/// An initialisation and a test that succeed with the FIFO on.
const LOOPING: [u8; 52] = [
    0xa5, 0x42, 0x73, 0xc1, 0x00, 0x40, 0x00, 0x00, 0x00, // init
    0x0b, 0x00, 0x40, 0x00, 0xc1, 0x00, // up to the drain
    0x20, 0x01, 0x42, 0x20, // the byte, and room for the message
    0x01, b'h', 0x01, b'e', 0x01, b'l', 0x01, b'l', 0x01, b'o', 0x01, b' ', 0x01, b'w', 0x01, b'o',
    0x01, b'r', 0x01, b'l', 0x01, b'd', 0x01, b'!', 0x01, b'1', 0x01, b'3', 0x01, b'3', 0x01, b'7',
    0x00,
];

/// Returns the accesses of that initialisation.
fn initialised() -> Accesses {
    let begun = list().present(0xa5).line(0x0c, 0x00, 0x03).fifo(0xc7, 0xc1);
    begun.undisturbed(0x00, 0x00)
}

/// Returns the accesses of the test after it, up to the test byte.
fn looping() -> Accesses {
    let entered = initialised().enter(0x0b, 0x00, 0x40, 0x00).fifo(0xc7, 0xc1);
    entered.look(0x00).burst(b"B")
}

fn tested() -> Accesses {
    let exchanged = looping()
        .hit(b'B')
        .burst(b"hello world!1337")
        .hits(b"hello world!1337");
    exchanged.leave(0x03, 0x00, 0x0b, 0x00)
}

#[test]
fn terminals_are_set_up() -> Result<(), Uart16550TtyError> {
    let device = || Recorder::new(Listed(&LOOPING));
    let tty = Uart16550Tty::new_with_backend(device(), Config::DEFAULT)?;
    assert_eq!(tty.inner().backend().log.entries(), tested().entries());
    let tty = Uart16550Tty::new_port(0x3f8, device(), Config::DEFAULT)?;
    let list = tested().placed(0x3f8, 1);
    assert_eq!(tty.inner().backend().access().log.entries(), list.entries());
    let base = NonZeroUsize::new(0x1000).unwrap();
    let list = tested().placed(0x1000, 4);
    let tty = Uart16550Tty::new_mmio(base, 4, device(), Config::DEFAULT)?;
    assert_eq!(tty.inner().backend().access().log.entries(), list.entries());
    let tty = Uart16550Tty::new_mmio_from_address(base, 4, device(), Config::DEFAULT)?;
    assert_eq!(tty.inner().backend().access().log.entries(), list.entries());
    Ok(())
}

/// A device whose accesses are recorded elsewhere, so that they are known after it was dropped.
struct Watched<'a> {
    device: Listed,
    log: &'a RefCell<Accesses>,
}

impl Backend for Watched<'_> {
    fn read(&mut self, register_offset: u8) -> u8 {
        let answer = self.device.read(register_offset);
        let access = Access::Read(register_offset as usize, answer);
        self.log.borrow_mut().push(access);
        answer
    }

    fn write(&mut self, register_offset: u8, value: u8) {
        let access = Access::Write(register_offset as usize, value);
        self.log.borrow_mut().push(access);
    }
}

/// Returns why there is no terminal over a device whose reads return these bytes, and the accesses
/// that were made before.
fn refusal(answers: &'static [u8], config: Config) -> (Option<Uart16550TtyError>, Accesses) {
    let log = RefCell::new(list());
    let device = Watched {
        device: Listed(answers),
        log: &log,
    };
    let cause = Uart16550Tty::new_with_backend(device, config).err();
    (cause, log.into_inner())
}

#[test]
fn terminals_are_refused_by_init() {
    let (cause, accesses) = refusal(&[0xa5, 0xa5], Config::DEFAULT);
    assert_eq!(cause, Some(InitError(Refusal::DeviceNotPresent)));
    let absent = list().absent(0xa5);
    assert_eq!(accesses.entries(), absent.entries());
    let config = Config {
        baud_rate: BaudRate::Custom(1),
        ..Config::DEFAULT
    };
    let (cause, accesses) = refusal(&[], config);
    let divisor = InvalidDivisorError::OutOfRange { divisor: 115_200 };
    assert_eq!(cause, Some(InitError(Refusal::InvalidBaudRate(divisor))));
    assert_eq!(accesses.count(), 0);
}

#[test]
fn terminals_are_refused_by_the_test() {
    let answers = &[
        0xa5, 0x42, 0x73, 0xc1, 0x00, 0x40, 0x00, 0x00, 0x00, // init
        0x0b, 0x00, 0x40, 0x00, 0xc1, 0x00, 0x20, 0x01, 0x43,
    ];
    let (cause, accesses) = refusal(answers, Config::DEFAULT);
    let byte = LoopbackError::UnexpectedLoopbackByte {
        expected: 0x42,
        actual: 0x43,
    };
    assert_eq!(cause, Some(TestError(byte)));
    let list = looping().hit(0x43).leave(0x03, 0x00, 0x0b, 0x00);
    assert_eq!(accesses.entries(), list.entries());
}

#[test]
fn terminals_stall() {
    // In the wait of `init`, and in each part of the test: the spin limit is that of a new driver.
    let refused = Uart16550Tty::new_with_backend(Listed(&[0x00, 0x42, 0x73]), Config::DEFAULT);
    assert_eq!(refused.err(), Some(InitError(Refusal::Stalled)));
    for answers in [
        &[0x00, 0x42, 0x73, 0xc1, 0x00, 0x40][..],
        &[
            0x00, 0x42, 0x73, 0xc1, 0x00, 0x40, 0x00, 0x00, 0x00, 0x0b, 0x00, 0x40, 0x00, 0xc1,
            0x00, 0x20,
        ],
    ] {
        let refused = Uart16550Tty::new_with_backend(Listed(answers), Config::DEFAULT);
        assert_eq!(refused.err(), Some(TestError(LoopbackError::Stalled)));
    }
}

#[test]
fn terminals_are_refused_at_an_address() {
    let beyond = InvalidAddressError::InvalidBaseAddress(65529);
    let refused = Uart16550Tty::new_port(65529, Constant(0xff), Config::DEFAULT);
    assert_eq!(refused.err(), Some(AddressError(beyond)));
    let stride = InvalidAddressError::InvalidStride(3);
    let refused = Uart16550Tty::new_mmio(NonZeroUsize::MAX, 3, Constant(0xff), Config::DEFAULT);
    assert_eq!(refused.err(), Some(AddressError(stride)));
    let refused = Uart16550Tty::new_port(0x3f8, Constant(0xff), Config::DEFAULT);
    assert_eq!(refused.err(), Some(InitError(Refusal::DeviceNotPresent)));
}

#[test]
fn drivers_and_terminals_have_debug_texts() {
    let uart = Uart16550::new_with_backend(Constant(0xff));
    let driver = "Uart16550 { backend: Constant(255), config: Config { interrupts: IER(0x0), \
        frequency: 1843200, prescaler_division_factor: None, fifo_trigger_level: Some(Fourteen), \
        baud_rate: Baud9600, data_bits: EightBits, extra_stop_bits: false, parity: Disabled, \
        check_cts_before_sending: false }, fifo_enabled: true, fifo_size: Sixteen, saved_lsr: LSR(0x0), \
        saved_msr: MSR(0x0), spin_limit: 1000000 }";
    assert_eq!(format!("{uart:?}"), driver);
    let terminal = Uart16550Tty::from_inner(uart);
    assert_eq!(
        format!("{terminal:?}"),
        format!("Uart16550Tty {{ inner: {driver} }}")
    );
}
