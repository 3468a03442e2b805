//! The terminal, and the baud rate of a dump.

use crate::devices::{RegisterFile, driver};
use proved_uart_16550::{ConfigRegisterDump, Uart16550Tty};
use std::fmt::Write as _;
use std::num::NonZeroU64;
use uart_spec::{BaudRate, Config};

#[test]
fn a_line_ends_as_terminals_expect() {
    let mut uart = driver(RegisterFile::new(true));
    assert_eq!(uart.init(Config::DEFAULT), Ok(()));
    let mut terminal = Uart16550Tty::from_inner(uart);
    assert!(writeln!(terminal, "hello").is_ok());
    assert_eq!(terminal.write_text("\x7f"), Ok(()));
    let sent = &terminal.inner().backend().device.sent;
    assert_eq!(sent, b"hello\r\n\x08 \x08");
}

#[test]
fn a_terminal_gives_its_driver_back() {
    let mut uart = driver(RegisterFile::new(true));
    uart.set_spin_limit(NonZeroU64::new(7).unwrap());
    assert_eq!(uart.init(Config::DEFAULT), Ok(()));
    let mut terminal = Uart16550Tty::from_inner(uart);
    assert_eq!(terminal.write_text("hi"), Ok(()));
    let uart = terminal.into_inner();
    assert_eq!((uart.spin_limit().get(), uart.fifo_enabled()), (7, true));
    assert_eq!(uart.config(), &Config::DEFAULT);
    assert_eq!(uart.backend().device.sent, b"hi");
}

#[test]
fn a_dump_tells_its_baud_rate() {
    let without_divisor = ConfigRegisterDump::default();
    assert!(without_divisor.baud_rate(&Config::DEFAULT).is_err());
    let dump = ConfigRegisterDump {
        dll: 12,
        ..without_divisor
    };
    assert_eq!(dump.baud_rate(&Config::DEFAULT), Ok(BaudRate::Baud9600));
}
