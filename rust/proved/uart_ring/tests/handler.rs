//! The interrupt handler of the documentation for one port: over a replay, with each access, and over chips that are broken.
#![allow(dead_code)]

mod lists;

use geesetrunk_kit_of_rings::alloc::Global;
use lists::Step::{self, Burst, Changed, Read, Received, Sent, Write};
use lists::{
    DATA_READY, EMPTY, LINE_STATUS, MODEM_STATUS, NONE, THR_EMPTY, TIMEOUT, UNKNOWN, answers_in,
    assert_made,
};
use proved_uart_ring::{
    HandleEnd, Handled, LinePort, MAX_INTERRUPTS, RingError, StuckError, Uart16550Ring,
    handle_ports,
};
use uart_16550::Uart16550;
use uart_16550::backend::Backend;
use uart_calls::replay::Replay;
use uart_spec::registers::{IER, ISR, InterruptType, LSR, MSR, offsets};
use uart_spec::{Config, InitError};

include!("served/port.rs");

/// An `init` of an idle chip with this configuration.
const INIT: [Step; 22] = [
    Read(offsets::SPR, 0xa5),
    Write(offsets::SPR, 0x42),
    Read(offsets::SPR, 0x42),
    Write(offsets::SPR, 0x73),
    Read(offsets::SPR, 0x73),
    Write(offsets::SPR, 0xa5),
    Write(offsets::LCR, 0x00),
    Write(offsets::IER, 0x00),
    Write(offsets::LCR, 0x80),
    Write(offsets::DLL, 0x0c),
    Write(offsets::DLM, 0x00),
    Write(offsets::LCR, 0x00),
    Write(offsets::LCR, 0x03),
    Write(offsets::FCR, 0xc7),
    Read(offsets::ISR, 0xc1),
    Read(offsets::LSR, 0x00),
    Write(offsets::MCR, 0x0b),
    Read(offsets::LSR, 0x40),
    Read(offsets::LSR, 0x00),
    Read(offsets::ISR, 0xc1),
    Read(offsets::MSR, 0x00),
    Write(offsets::IER, 0x0d),
];

/// A write of five bytes is held back, and THR_EMPTY enabled.
const HELD: [Step; 4] = [
    Read(offsets::LSR, EMPTY),
    Read(offsets::MCR, 0x0b),
    Read(offsets::MSR, 0x00),
    Changed(offsets::IER, 0x0d, 0x0f),
];

/// Returns what a call has handled that served so many interrupts, and then none was pending.
fn idle_after(served: usize) -> Result<Handled, StuckError> {
    Ok(Handled {
        served,
        end: HandleEnd::Idle,
    })
}

#[test]
fn a_port_that_is_served_by_interrupts() {
    let served = [
        // CTS came back: the bytes are sent, and THR_EMPTY is disabled.
        Read(offsets::ISR, MODEM_STATUS),
        Read(offsets::MSR, 0x11),
        Read(offsets::ISR, NONE),
        Read(offsets::LSR, EMPTY),
        Read(offsets::MSR, 0x10),
        Read(offsets::LSR, EMPTY),
        Read(offsets::MCR, 0x0b),
        Read(offsets::MSR, 0x10),
        Sent(b"hello"),
        Changed(offsets::IER, 0x0f, 0x0d),
        // Two characters are received, and an overrun is noted.
        Read(offsets::ISR, LINE_STATUS),
        Read(offsets::LSR, 0x63),
        Read(offsets::ISR, DATA_READY),
        Received(b"ok"),
        Read(offsets::LSR, EMPTY),
        Read(offsets::ISR, NONE),
        Read(offsets::LSR, EMPTY),
        Read(offsets::MSR, 0x10),
    ];
    let steps = [&INIT[..], &HELD, &served].concat();
    let answers = answers_in(&steps);
    let mut port = Port::start(Global::heap(), Replay::new(&answers)).unwrap();
    assert_eq!(port.write(b"hello"), 5);
    assert_eq!(port.ring.transmit_len(), 5);
    assert_eq!(port.on_interrupt(), idle_after(1));
    assert_eq!(port.ring.transmit_len(), 0);
    assert_eq!(port.on_interrupt(), idle_after(2));
    let mut slots = [0; 4];
    assert_eq!(port.read(&mut slots), 2);
    assert_eq!(slots, *b"ok\0\0");
    assert_eq!((port.overruns, port.bad_characters), (1, 0));
    assert_made(port.ring.inner().backend(), &steps);
}

#[test]
fn a_port_that_is_configured_again() {
    // Without CTS checking the bytes are sent after the `init`.
    let sent = [
        Changed(offsets::IER, 0x0d, 0x0d),
        Burst(b"hello"),
        Changed(offsets::IER, 0x0d, 0x0d),
    ];
    let steps = [&INIT[..], &HELD, &INIT, &sent].concat();
    let answers = answers_in(&steps);
    let mut port = Port::start(Global::heap(), Replay::new(&answers)).unwrap();
    assert_eq!(port.write(b"hello"), 5);
    let unchecked = Config {
        check_cts_before_sending: false,
        ..config()
    };
    port.configure(unchecked).unwrap();
    assert_eq!(port.ring.transmit_len(), 0);
    assert_made(port.ring.inner().backend(), &steps);
}

/// A chip that always shows the same ISR, an empty transmitter, and a remote that is clear to send. Its other registers return what was
/// written to them.
struct StuckChip {
    isr: u8,
    registers: [u8; 8],
}

impl StuckChip {
    fn new(isr: u8) -> Self {
        StuckChip {
            isr,
            registers: [0; 8],
        }
    }

    /// It raises the interrupt line if any interrupt is enabled.
    fn is_line_high(&self) -> bool {
        self.registers[offsets::IER] != 0
    }
}

impl Backend for StuckChip {
    fn read(&mut self, register_offset: u8) -> u8 {
        match register_offset as usize {
            offsets::ISR => self.isr,
            offsets::LSR => EMPTY,
            offsets::MSR => MSR::CTS.bits(),
            offset => self.registers.get(offset).copied().unwrap_or(0),
        }
    }

    fn write(&mut self, register_offset: u8, value: u8) {
        if let Some(register) = self.registers.get_mut(register_offset as usize) {
            *register = value;
        }
    }
}

/// Returns what the ISR of a broken chip always shows, and why it is then stuck.
fn storms() -> [(u8, StuckError); 6] {
    let unknown = StuckError::Unknown(ISR::from_bits_retain(UNKNOWN));
    let empty = InterruptType::TransmitterHoldingRegisterEmpty;
    [
        (UNKNOWN, unknown),
        (THR_EMPTY, StuckError::Pending(empty)),
        (
            DATA_READY,
            StuckError::Pending(InterruptType::ReceivedDataReady),
        ),
        (
            TIMEOUT,
            StuckError::Pending(InterruptType::ReceptionTimeout),
        ),
        (
            LINE_STATUS,
            StuckError::Pending(InterruptType::ReceiverLineStatus),
        ),
        (
            MODEM_STATUS,
            StuckError::Pending(InterruptType::ModemStatus),
        ),
    ]
}

#[test]
fn a_storm_of_each_kind_ends() {
    for (isr, cause) in storms() {
        let mut port = Port::start(Global::heap(), StuckChip::new(isr)).unwrap();
        for _round in 1..MAX_UNFINISHED_ROUNDS {
            assert!(port.on_interrupt().is_ok());
            assert!(port.ring.inner().backend().is_line_high());
        }
        assert_eq!(port.on_interrupt(), Err(cause));
        assert_eq!(port.stuck(), Some(cause));
        assert!(!port.ring.inner().backend().is_line_high());
        // It stays so, whatever is written, and if another device interrupts.
        assert_eq!(port.write(b"hello"), 5);
        assert_eq!(port.on_interrupt(), Err(cause));
        assert!(!port.ring.inner().backend().is_line_high());
        port.restart();
        assert_eq!(port.stuck(), None);
        assert!(port.ring.inner().backend().is_line_high());
        assert_eq!(port.ring.transmit_len(), 0);
    }
}

#[test]
fn a_chip_that_is_configured_again_is_not_stuck() {
    let mut port = Port::start(Global::heap(), StuckChip::new(UNKNOWN)).unwrap();
    for _round in 0..MAX_UNFINISHED_ROUNDS {
        let _handled = port.on_interrupt();
    }
    assert!(port.stuck().is_some());
    port.configure(config()).unwrap();
    assert_eq!(port.stuck(), None);
    assert!(port.ring.inner().backend().is_line_high());
}

#[test]
fn an_idle_round_starts_the_count_again() {
    let mut port = Port::start(Global::heap(), StuckChip::new(UNKNOWN)).unwrap();
    for isr in [UNKNOWN, NONE, UNKNOWN] {
        port.ring.inner_mut().backend_mut().isr = isr;
        for _round in 1..MAX_UNFINISHED_ROUNDS {
            let _handled = port.on_interrupt();
        }
        assert_eq!(port.stuck(), None);
    }
    assert!(port.on_interrupt().is_err());
}

/// Every register of a device that is gone reads so, and in ISR that is no interrupt.
const GONE: u8 = 0xff;

#[test]
fn a_chip_that_is_gone_has_no_interrupt() {
    let mut port = Port::start(Global::heap(), StuckChip::new(GONE)).unwrap();
    for _round in 0..2 * MAX_UNFINISHED_ROUNDS {
        assert_eq!(port.on_interrupt(), idle_after(0));
    }
}
