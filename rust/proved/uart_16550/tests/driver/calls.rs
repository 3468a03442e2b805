//! The calls of a driver that is initialised, and of one that is not.

use crate::devices::{RegisterFile, driver};
use crate::driving::dump;
use crate::lists::{Accesses, list};
use proved_uart_16550::Uart16550;
use proved_uart_16550::backend::{Backend, ByteAccess};
use std::error::Error;
use std::num::NonZeroUsize;
use uart_calls::replay::Replay;
use uart_spec::registers::{IER, LSR, Parity, WordLength, offsets};
use uart_spec::{BaudRate, Config, Received};

#[test]
fn send_bytes_exact_sends_all() {
    for has_fifos in [true, false] {
        let mut uart = driver(RegisterFile::new(has_fifos));
        assert_eq!(uart.init(Config::DEFAULT), Ok(()));
        assert_eq!(uart.send_bytes_exact(b"hello"), Ok(()));
        assert_eq!(uart.backend().device.sent, b"hello");
    }
}

#[test]
fn a_frame_that_is_set_is_kept() {
    let config = Config {
        data_bits: WordLength::SevenBits,
        parity: Parity::Even,
        ..Config::DEFAULT
    };
    let mut uart = driver(RegisterFile::new(true));
    assert_eq!(uart.init(Config::DEFAULT), Ok(()));
    assert_eq!(uart.set_frame(&config), Ok(()));
    assert_eq!(uart.config(), &config);
}

#[test]
fn registers_are_shown() {
    let mut uart = driver(RegisterFile::new(true));
    uart.backend_mut().write(offsets::SPR as u8, 0x5a);
    assert!(uart.check_present());
    assert_eq!(uart.init(Config::DEFAULT), Ok(()));
    let shown = dump([0x00, 0xc1, 0x03, 0x0b, 0x60, 0x00, 0x5a], 12, 0);
    assert_eq!(uart.config_register_dump(), shown);
    assert_eq!(shown.divisor(), 12);
    assert_eq!(uart.dll_dlm(), (12, 0));
    assert_eq!(uart.ier(), shown.ier);
    assert_eq!(uart.isr(), shown.isr);
    assert_eq!(uart.lcr(), shown.lcr);
    assert_eq!(uart.mcr(), shown.mcr);
    assert_eq!(uart.lsr(), shown.lsr);
    assert_eq!(uart.msr(), shown.msr);
    assert_eq!(uart.spr(), shown.spr);
    assert_eq!(uart.ready_to_send(), Ok(()));
    assert_eq!(uart.try_send_byte(b'h'), Ok(()));
    assert!(uart.ready_to_receive().is_err());
}

#[test]
fn interrupts_are_enabled_and_disabled() {
    let mut uart = driver(RegisterFile::new(true));
    let config = Config {
        interrupts: IER::DATA_READY,
        ..Config::DEFAULT
    };
    assert_eq!(uart.init(config), Ok(()));
    uart.enable_interrupts(IER::THR_EMPTY);
    assert_eq!(uart.config().interrupts, IER::DATA_READY | IER::THR_EMPTY);
    uart.disable_interrupts(IER::DATA_READY);
    assert_eq!(uart.ier(), IER::THR_EMPTY);
    assert_eq!(uart.config().interrupts, IER::THR_EMPTY);
}

/// Memory in which a device shows its registers.
struct Memory([u8; 32]);

impl ByteAccess for Memory {
    fn load(&mut self, address: usize) -> u8 {
        self.0[address % 32]
    }

    fn store(&mut self, address: usize, value: u8) {
        self.0[address % 32] = value;
    }
}

#[test]
fn plain_memory_shows_the_divisor() -> Result<(), Box<dyn Error>> {
    for stride in [4, 1] {
        let mut cells = [0; 32];
        cells[offsets::LSR * usize::from(stride)] = 0x40;
        let base = NonZeroUsize::new(0x1000).unwrap();
        let mut uart = Uart16550::new_mmio(base, stride, Memory(cells))?;
        uart.init(Config {
            baud_rate: BaudRate::Baud38400,
            ..Config::DEFAULT
        })?;
        assert_eq!(uart.config_register_dump().dll, 3);
    }
    Ok(())
}

#[test]
fn lines_are_switched() {
    let changes = [
        (offsets::MCR, 0x19, 0x0b),
        (offsets::MCR, 0x0b, 0x09),
        (offsets::MCR, 0x09, 0x08),
        (offsets::LCR, 0x03, 0x43),
        (offsets::LCR, 0x43, 0x03),
    ];
    let changed = |list: Accesses, (offset, from, to)| list.read(offset, from).write(offset, to);
    let list = changes.into_iter().fold(list(), changed);
    let mut uart = Uart16550::new_with_backend(Replay::new(list.answers()));
    uart.set_rts(true);
    uart.set_rts(false);
    uart.set_dtr(false);
    uart.set_break(true);
    uart.set_break(false);
    assert_eq!(uart.backend().accesses(), Some(list.entries()));
}

#[test]
fn bytes_are_received_with_their_errors() {
    // A good byte, one with a parity error, a break after an overrun, and no more.
    let answers = [0x61, 0x41, 0xe5, 0x42, 0xf3, 0x00, 0x60];
    let mut uart = Uart16550::new_with_backend(Replay::new(&answers));
    let received = |byte, errors| Received {
        byte,
        errors: LSR::from_bits_retain(errors),
    };
    let mut slots = [received(0xee, 0x00); 4];
    assert_eq!(uart.receive_with_errors(&mut slots), 3);
    assert_eq!(
        slots,
        [
            received(0x41, 0x00),
            received(0x42, 0x04),
            received(0x00, 0x12),
            received(0xee, 0x00),
        ]
    );
    // They are in the next `lsr` too, as after each look.
    assert_eq!(uart.lsr().bits(), 0x16);
}
