#[allow(unused_imports)]
use crate::runtime::{AllocGlobal, HostRuntime, assert, assert_eq};
#[allow(unused_imports)]
use geesetrunk_kit::Vec;
// Generic code over a writer, which relies on the contract of the trait alone.

use super::assert_equal;
use crate::erased::uart_calls::devices::{Constant, RegisterFile};
use std::num::NonZeroU64;
use uart_16550::Uart16550;
use uart_16550::embedded_io::Write;
use uart_spec::{Config, StalledError};

// Sends all of the bytes by repeated `write`.
fn send_all<W: Write>(writer: &mut W, bytes: &[u8]) -> Result<(), W::Error>

{
    let mut done = 0;
    while done < bytes.len() {
        match writer.write(&bytes[done..]) {
            Ok(count) => done += count,
            Err(error) => return Err(error),
        }
    }
    Ok(())
}

#[test]
fn a_driver_is_a_writer() {
    let rt = HostRuntime;
    let mut uart = Uart16550::new_with_backend(RegisterFile::new(false));
    assert_equal(&rt, uart.init(Config::DEFAULT), Ok(()));
    assert_equal(&rt, send_all(&mut uart, b"hello"), Ok(()));
    assert_equal(&rt, uart.backend().sent.as_slice(), b"hello".as_slice());
    let mut stalled = Uart16550::new_with_backend(Constant(0));
    stalled.set_spin_limit(NonZeroU64::new(3).unwrap());
    assert_equal(
        &rt,
        send_all(&mut stalled, b"hello"),
        Err(StalledError { done: 0 }),
    );
}
