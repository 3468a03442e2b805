//! The bodies. Each is a function of its own in the built program, so that callgrind can identify
//! it.

use crate::cells::Cells;
use crate::counted::{Ended, driver};
use std::fmt::Write;
use std::hint::black_box;
use uart_16550::backend::Backend;
use uart_16550::spec::registers::{FifoTriggerLevel, LSR, MSR};
use uart_16550::{Config, ConfigRegisterDump, Uart16550, Uart16550Tty};

/// How many bytes one call sends, receives or prints.
const BYTES: usize = 1 << 20;

/// What a body calls.
#[derive(Clone, Copy, PartialEq, Eq)]
pub enum Body {
    SendFifo,
    SendSingle,
    Receive,
    InitFifo,
    InitSingle,
    Lsr,
    Msr,
    Dump,
    Text,
}

#[inline(never)]
fn send<B: Backend>(uart: &mut Uart16550<B>, bytes: &[u8]) -> bool {
    uart.send_bytes_exact(bytes).well()
}

#[inline(never)]
fn receive<B: Backend>(uart: &mut Uart16550<B>, buffer: &mut [u8]) -> bool {
    uart.receive_bytes_exact(buffer).well()
}

#[inline(never)]
fn init<B: Backend>(uart: &mut Uart16550<B>, config: Config) -> bool {
    uart.init(config).is_ok()
}

#[inline(never)]
fn lsr<B: Backend>(uart: &mut Uart16550<B>) -> LSR {
    uart.lsr()
}

#[inline(never)]
fn msr<B: Backend>(uart: &mut Uart16550<B>) -> MSR {
    uart.msr()
}

#[inline(never)]
fn dump<B: Backend>(uart: &mut Uart16550<B>) -> ConfigRegisterDump {
    uart.config_register_dump()
}

#[inline(never)]
fn text<B: Backend>(terminal: &mut Uart16550Tty<B>, line: &str) -> bool {
    terminal.write_str(line).is_ok()
}

/// The default configuration with this trigger level. The compiler does not know what is in it.
fn config_with(level: Option<FifoTriggerLevel>) -> Config {
    black_box(Config {
        fifo_trigger_level: level,
        ..Config::default()
    })
}

impl Body {
    /// Returns the body of this name.
    pub fn of_name(name: &str) -> Option<Self> {
        Some(match name {
            "send-fifo" => Body::SendFifo,
            "send-single" => Body::SendSingle,
            "receive" => Body::Receive,
            "init-fifo" => Body::InitFifo,
            "init-single" => Body::InitSingle,
            "lsr" => Body::Lsr,
            "msr" => Body::Msr,
            "dump" => Body::Dump,
            "text" => Body::Text,
            _ => return None,
        })
    }

    /// Runs the body `count` times, and returns the digest of the cells.
    pub fn run<C: Cells>(self, count: u64, cells: C) -> u64 {
        let mut buffer = vec![b'U'; BYTES];
        let letters = "U".repeat(BYTES);
        let mut uart = driver(cells);
        if self == Body::SendSingle {
            init(&mut uart, config_with(None));
        }
        let mut terminal = Uart16550Tty::from_inner(uart);
        for _turn in 0..count {
            let uart = black_box(terminal.inner_mut());
            match self {
                Body::SendFifo | Body::SendSingle => _ = black_box(send(uart, &buffer)),
                Body::Receive => _ = black_box(receive(uart, &mut buffer)),
                Body::InitFifo => {
                    _ = black_box(init(uart, config_with(Some(FifoTriggerLevel::Fourteen))))
                }
                Body::InitSingle => _ = black_box(init(uart, config_with(None))),
                Body::Lsr => _ = black_box(lsr(uart)),
                Body::Msr => _ = black_box(msr(uart)),
                Body::Dump => _ = black_box(dump(uart)),
                Body::Text => _ = black_box(text(&mut terminal, &letters)),
            }
        }
        terminal.inner().backend().0.digest()
    }
}
