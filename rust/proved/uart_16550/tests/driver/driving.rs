//! The rows of tables: how a driver is set up, the call that it makes, what that returns, and each
//! of its accesses.

use crate::devices::impatient;
use crate::lists::{Accesses, last_write};
use geesetrunk_kit::{ArrayString, ArrayVec};
use proved_uart_16550::backend::Backend;
use proved_uart_16550::{ConfigRegisterDump, Uart16550, Uart16550Tty};
use std::fmt::{self, Write as _};
use std::num::NonZeroU64;
use uart_calls::replay::Replay;
use uart_calls::{Answer, CALL_BYTES, Call, perform};
use uart_spec::access::Access;
use uart_spec::registers::{FifoTriggerLevel, IER, ISR, LCR, LSR, MCR, MSR, offsets};
use uart_spec::{BaudRate, Config, Received};

/// A driver under a terminal, over a device whose reads return listed bytes.
pub type Replaying<'a> = Uart16550Tty<Replay<'a>>;

/// Returns these bytes, for a call or an answer.
pub fn bytes(slice: &[u8]) -> ArrayVec<u8, CALL_BYTES> {
    let mut bytes = ArrayVec::new();
    bytes
        .try_extend_from_slice(slice)
        .expect("no more than fit");
    bytes
}

/// Returns these bytes with their errors, for an answer.
pub fn with_errors(items: &[(u8, u8)]) -> ArrayVec<Received, CALL_BYTES> {
    let mut received = ArrayVec::new();
    for &(byte, errors) in items {
        received.push(Received {
            byte,
            errors: LSR::from_bits_retain(errors),
        });
    }
    received
}

/// Returns `write_text` of this text.
pub fn text(text: &str) -> Call {
    let mut copy = ArrayString::new();
    copy.try_push_str(text).expect("no more than fits");
    Call::Text(copy)
}

/// Returns an initialisation with this level and rate, and the rest as by default.
pub fn init(fifo_trigger_level: Option<FifoTriggerLevel>, baud_rate: BaudRate) -> Call {
    Call::Init(Config {
        fifo_trigger_level,
        baud_rate,
        ..Config::DEFAULT
    })
}

/// Returns a dump that shows these registers, from IER to SPR, and this divisor latch.
pub fn dump(registers: [u8; 7], dll: u8, dlm: u8) -> ConfigRegisterDump {
    let [ier, isr, lcr, mcr, lsr, msr, spr] = registers;
    ConfigRegisterDump {
        ier: IER::from_bits_retain(ier),
        isr: ISR::from_bits_retain(isr),
        lcr: LCR::from_bits_retain(lcr),
        mcr: MCR::from_bits_retain(mcr),
        lsr: LSR::from_bits_retain(lsr),
        msr: MSR::from_bits_retain(msr),
        spr,
        dll,
        dlm,
    }
}

/// How a driver is set up before the call of a row. Each has a spin limit of 3.
#[derive(Clone, Copy, Debug)]
pub enum Start {
    /// A new driver: it takes the FIFO to be on, and does not check CTS.
    New,
    /// Initialised without FIFO.
    NoFifo,
    /// Initialised with a FIFO and CTS checking.
    Checking,
    /// Initialised without FIFO, with CTS checking.
    CheckingNoFifo,
}

impl Start {
    /// Returns the configuration, and what the reads of its initialisation return before zeros;
    /// `None` if there is none.
    fn setup(self) -> Option<(Config, &'static [u8])> {
        let (fifo_trigger_level, check_cts_before_sending) = match self {
            Start::New => return None,
            Start::NoFifo => (None, false),
            Start::Checking => (Config::DEFAULT.fifo_trigger_level, true),
            Start::CheckingNoFifo => (None, true),
        };
        let config = Config {
            fifo_trigger_level,
            check_cts_before_sending,
            ..Config::DEFAULT
        };
        let answers = match fifo_trigger_level {
            None => [0x00, 0x42, 0x73, 0x00, 0x40].as_slice(),
            Some(_) => &[0x00, 0x42, 0x73, 0xc1, 0x00, 0x40],
        };
        Some((config, answers))
    }
}

/// Returns a driver that is set up like this, over a device whose reads return these bytes and then
/// zeros.
pub fn started(start: Start, answers: &[u8]) -> Replaying<'_> {
    let mut uart = Uart16550::new_with_backend(Replay::new(answers));
    uart.set_spin_limit(NonZeroU64::new(3).unwrap());
    if let Some((config, first)) = start.setup() {
        *uart.backend_mut() = Replay::new(first);
        assert_eq!(uart.init(config), Ok(()));
        *uart.backend_mut() = Replay::new(answers);
    }
    Uart16550Tty::from_inner(uart)
}

/// Makes the call.
fn make<B: Backend>(terminal: &mut Uart16550Tty<B>, call: &Call) -> Answer {
    assert!(call.is_runnable());
    perform(terminal, call)
}

/// Returns the accesses of the last call.
pub fn made<'a>(terminal: &'a Replaying<'_>) -> &'a [Access] {
    let accesses = terminal.inner().backend().accesses();
    accesses.expect("a replay keeps all of them")
}

/// Makes one row: a driver that is set up like this makes a call, over a device whose reads return
/// what the list has. The call returns this answer, and these are its accesses. Returns the driver
/// after the call.
pub fn row(start: Start, call: Call, answer: Answer, list: &Accesses) -> Replaying<'_> {
    let mut terminal = started(start, list.answers());
    then(&mut terminal, call, answer, list);
    terminal
}

/// Makes the next call of the same driver.
pub fn then<'a>(terminal: &mut Replaying<'a>, call: Call, answer: Answer, list: &'a Accesses) {
    *terminal.inner_mut().backend_mut() = Replay::new(list.answers());
    assert_eq!(make(terminal, &call), answer, "{call:?}");
    assert_eq!(made(terminal), list.entries(), "{call:?}");
}

/// Makes a row of `write_str`.
pub fn writing<'a>(
    start: Start,
    text: &str,
    came: fmt::Result,
    list: &'a Accesses,
) -> Replaying<'a> {
    let mut terminal = started(start, list.answers());
    assert_eq!(terminal.write_str(text), came, "{text:?}");
    assert_eq!(made(&terminal), list.entries(), "{text:?}");
    terminal
}

/// Makes a row over any other device: a new driver makes the call.
pub fn over<D: Backend>(device: D, call: Call, answer: Answer, list: Accesses) {
    let mut terminal = Uart16550Tty::from_inner(impatient(device));
    assert_eq!(make(&mut terminal, &call), answer, "{call:?}");
    let log = &terminal.inner().backend().log;
    assert_eq!(log.entries(), list.entries(), "{call:?}");
}

/// What a call left: the driver's fields, and the last write to each register.
#[derive(Debug, PartialEq)]
pub struct Left {
    /// The configured baud rate.
    pub baud_rate: BaudRate,
    /// The configured interrupts.
    pub interrupts: u8,
    /// The configured trigger level.
    pub level: Option<FifoTriggerLevel>,
    /// Whether CTS is checked before sending.
    pub checks_cts: bool,
    /// Whether the driver takes the FIFO to be on.
    pub fifo_enabled: bool,
    /// The saved errors.
    pub saved_lsr: u8,
    /// The saved changes.
    pub saved_msr: u8,
    /// The last write to IER, if any.
    pub ier: Option<u8>,
    /// The last write to FCR, if any.
    pub fcr: Option<u8>,
    /// The last write to LCR, if any.
    pub lcr: Option<u8>,
    /// The last write to MCR, if any.
    pub mcr: Option<u8>,
}

/// A new driver, over a device to which nothing was written.
pub const NOTHING: Left = Left {
    baud_rate: BaudRate::Baud9600,
    interrupts: 0,
    level: Some(FifoTriggerLevel::Fourteen),
    checks_cts: false,
    fifo_enabled: true,
    saved_lsr: 0,
    saved_msr: 0,
    ier: None,
    fcr: None,
    lcr: None,
    mcr: None,
};

/// Returns what the last call left. The saved bits are those that `lsr` and `msr` return over a
/// device that shows none, as the listed device does after its last answer.
pub fn read_back(mut terminal: Replaying<'_>) -> Left {
    let written = [offsets::IER, offsets::FCR, offsets::LCR, offsets::MCR];
    let [ier, fcr, lcr, mcr] = written.map(|offset| last_write(made(&terminal), offset));
    let uart = terminal.inner_mut();
    Left {
        baud_rate: uart.config().baud_rate,
        interrupts: uart.config().interrupts.bits(),
        level: uart.config().fifo_trigger_level,
        checks_cts: uart.config().check_cts_before_sending,
        fifo_enabled: uart.fifo_enabled(),
        saved_lsr: uart.lsr().bits(),
        saved_msr: uart.msr().bits(),
        ier,
        fcr,
        lcr,
        mcr,
    }
}
