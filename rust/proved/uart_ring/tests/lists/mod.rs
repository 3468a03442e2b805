//! Rings over a replay, what the reads of a chip return, and lists of accesses as tests write them. Each test program needs a part.
#![allow(dead_code)]

use geesetrunk_kit_of_rings::alloc::Global;
use proved_uart_ring::Uart16550Ring;
use uart_16550::Uart16550;
use uart_calls::replay::Replay;
use uart_spec::access::Access;
use uart_spec::registers::offsets;

/// LSR: the transmitter is empty.
pub const EMPTY: u8 = 0x60;

/// LSR: the transmitter has no room.
pub const FULL: u8 = 0x00;

/// LSR: the transmitter is empty, and a character waits to be read.
pub const WAITS: u8 = 0x61;

/// ISR: no interrupt is pending, with the FIFO on.
pub const NONE: u8 = 0xc1;

/// ISR: a line status interrupt.
pub const LINE_STATUS: u8 = 0xc6;

/// ISR: received data is ready.
pub const DATA_READY: u8 = 0xc4;

/// ISR: a reception timeout.
pub const TIMEOUT: u8 = 0xcc;

/// ISR: THR is empty.
pub const THR_EMPTY: u8 = 0xc2;

/// ISR: a modem status interrupt.
pub const MODEM_STATUS: u8 = 0xc0;

/// ISR: the end of a DMA reception.
pub const DMA_RECEPTION: u8 = 0xce;

/// ISR: the end of a DMA transmission.
pub const DMA_TRANSMISSION: u8 = 0xca;

/// ISR: an interrupt is pending whose code has no name.
pub const UNKNOWN: u8 = 0xc8;

/// One access, or those of a burst.
#[derive(Clone, Copy)]
pub enum Step {
    /// The register is read, and returns this.
    Read(usize, u8),
    /// This is written to the register.
    Write(usize, u8),
    /// The register is read, and then written.
    Changed(usize, u8, u8),
    /// Each byte is written to DATA.
    Sent(&'static [u8]),
    /// LSR shows that the transmitter is empty, and each byte is written to DATA.
    Burst(&'static [u8]),
    /// For each byte LSR shows that one waits, and DATA is read.
    Received(&'static [u8]),
}

impl Step {
    /// Returns the accesses.
    fn accesses(&self) -> Vec<Access> {
        match *self {
            Step::Read(offset, answer) => vec![Access::Read(offset, answer)],
            Step::Write(offset, value) => vec![Access::Write(offset, value)],
            Step::Changed(offset, from, to) => {
                vec![Access::Read(offset, from), Access::Write(offset, to)]
            }
            Step::Sent(bytes) => {
                let sent = |&byte| Access::Write(offsets::DATA, byte);
                bytes.iter().map(sent).collect()
            }
            Step::Burst(bytes) => {
                let mut burst = vec![Access::Read(offsets::LSR, EMPTY)];
                burst.extend(Step::Sent(bytes).accesses());
                burst
            }
            Step::Received(bytes) => {
                let received = |&byte| {
                    let look = Access::Read(offsets::LSR, WAITS);
                    [look, Access::Read(offsets::DATA, byte)]
                };
                bytes.iter().flat_map(received).collect()
            }
        }
    }
}

/// Returns the accesses of these steps.
fn accesses_of(steps: &[Step]) -> Vec<Access> {
    steps.iter().flat_map(Step::accesses).collect()
}

/// Returns what the reads among these accesses return.
pub fn answers_in(steps: &[Step]) -> Vec<u8> {
    let answer = |access| match access {
        Access::Read(_, answer) => Some(answer),
        Access::Write(_, _) => None,
    };
    accesses_of(steps).into_iter().filter_map(answer).collect()
}

/// Asserts that these accesses were made, and no others.
pub fn assert_made(replay: &Replay<'_>, steps: &[Step]) {
    assert_eq!(replay.accesses(), Some(accesses_of(steps).as_slice()));
}

/// A call of the rings, with what it returns.
#[derive(Clone, Copy)]
pub enum Call {
    /// `queue` of these bytes accepts this number of them.
    Queue(&'static [u8], usize),
    /// How many bytes wait in the transmit ring.
    Left(usize),
    /// `resume_transmit`.
    Resume,
    /// `service` serves this number of interrupts.
    Service(usize),
}

/// Returns rings over a new driver, whose reads return these bytes in turn.
pub fn rings(answers: &[u8], tx_capacity: usize, rx_capacity: usize) -> Uart16550Ring<Replay<'_>> {
    let uart = Uart16550::new_with_backend(Replay::new(answers));
    match Uart16550Ring::new(Global::heap(), uart, tx_capacity, rx_capacity) {
        Ok(ring) => ring,
        Err(refused) => panic!("{refused}"),
    }
}

/// Asserts that new rings return this from these calls, which make these accesses and no others.
pub fn play(tx_capacity: usize, calls: &[Call], steps: &[Step]) {
    let answers = answers_in(steps);
    let mut ring = rings(&answers, tx_capacity, 4);
    for call in calls {
        match *call {
            Call::Queue(bytes, accepted) => assert_eq!(ring.queue(bytes), accepted),
            Call::Left(count) => assert_eq!(ring.transmit_len(), count),
            Call::Resume => ring.resume_transmit(),
            Call::Service(count) => assert_eq!(ring.service(), count),
        }
    }
    assert_made(ring.inner().backend(), steps);
}
