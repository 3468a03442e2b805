//! Rings at a bus of two wires behind a lock: tasks, who is refused, a storm, errors byte by byte, and a transmitter that is stuck.

#[path = "sharing/chip.rs"]
mod chip;

use chip::Cable;
use std::pin::pin;
use std::sync::atomic::{AtomicU8, Ordering};
use std::sync::{Arc, Mutex};
use std::task::{Context, Poll, Waker};
use uart_16550::native::backend::Backend;
use uart_16550::native::embedded_io::{Read, Write};
use uart_16550::native::spec::registers::MCR;
use uart_16550::native::{Config, Received, Setup, Uart16550};
use uart_16550::ring::{
    ErrorNotes, MAX_INTERRUPTS, Memory, StuckError, Uart16550Ring, UnnotedError,
};
use uart_16550::rs485::{BusyError, Direction, DirectionLine, HalfDuplexRing, NotSendingError};
use uart_16550::shared::{CriticalSection, SharedBus, SharedError, StartError, Wait};
use uart_16550::spec::registers::{IER, ISR, LSR, offsets};

const CAPACITY: usize = 32;
const MAX_UNFINISHED_ROUNDS: u32 = 3;
const UNKNOWN: u8 = 0xc8;
const INTERRUPTS: IER = IER::DATA_READY.union(IER::RECEIVER_LINE_STATUS);
const DIRECTION: Direction = Direction {
    line: DirectionLine::Rts,
    sends_when_set: true,
};

/// A section that keeps nobody out, since nobody else is there.
struct Alone;

impl CriticalSection for Alone {
    fn run<R>(&self, call: impl FnOnce() -> R) -> R {
        call()
    }
}

/// The way to a chip at a bus, on which a byte is written only while the transceiver sends.
#[derive(Clone, Default)]
struct AtBus {
    cable: Cable,
    outputs: Arc<AtomicU8>,
    /// Line errors that the next look at LSR shows and clears.
    errors: Arc<Mutex<LSR>>,
}

impl AtBus {
    fn sends(&self) -> bool {
        MCR::from_bits_retain(self.outputs.load(Ordering::SeqCst)).contains(MCR::RTS)
    }
}

impl Backend for AtBus {
    fn read(&mut self, register_offset: u8) -> u8 {
        let value = self.cable.read(register_offset);
        if usize::from(register_offset) == offsets::LSR {
            value | std::mem::replace(&mut *self.errors.lock().unwrap(), LSR::empty()).bits()
        } else {
            value
        }
    }

    fn write(&mut self, register_offset: u8, value: u8) {
        let is_latch = self.cable.clone().read(3) & 0x80 != 0;
        match usize::from(register_offset) {
            offsets::DATA => assert!(is_latch || self.sends(), "a byte in the wrong direction"),
            offsets::MCR => self.outputs.store(value, Ordering::SeqCst),
            _ => {}
        }
        self.cable.write(register_offset, value);
    }
}

fn memory() -> Memory {
    Memory::new(vec![0; 3 * CAPACITY].leak())
}

fn rings<B: Backend>(memory: &Memory, backend: B) -> Uart16550Ring<B> {
    let mut uart = Uart16550::new_with_backend(backend);
    let setup = Setup {
        outputs: DIRECTION.receiving(MCR::READY),
        ..Setup::DEFAULT
    };
    uart.init_with(Config::DEFAULT, &setup).unwrap();
    Uart16550Ring::new(memory.global(), uart, CAPACITY, CAPACITY)
        .map_err(|refused| refused.cause)
        .unwrap()
}

fn at_bus<B: Backend>(ring: Uart16550Ring<B>) -> HalfDuplexRing<B> {
    let bus = HalfDuplexRing::new(ring, DIRECTION);
    bus.map_err(|refused| refused.cause).unwrap()
}

type Bus = SharedBus<Alone, AtBus>;

/// A bus that is shared, and the way to its chip.
fn start() -> (Bus, AtBus) {
    let (bus, way) = (Bus::new(Alone), AtBus::default());
    let started = bus.start_with(at_bus(rings(&memory(), way.clone())));
    started.map_err(|refused| refused.cause).unwrap();
    bus.with(|bus| bus.restart(INTERRUPTS)).unwrap();
    (bus, way)
}

fn handle(bus: &Bus) -> Result<usize, SharedError> {
    bus.try_handle(MAX_INTERRUPTS, MAX_UNFINISHED_ROUNDS)
        .map(|handled| handled.served)
}

fn poll<F: Future>(task: F) -> Poll<F::Output> {
    pin!(task).poll(&mut Context::from_waker(Waker::noop()))
}

/// A thread that lets the transmitter send, so many times.
struct Sends(u32, Cable);

impl Wait for Sends {
    fn wait(&mut self, _is_there: impl FnMut() -> bool) -> bool {
        self.1.chip().send_all();
        self.0 = self.0.saturating_sub(1);
        self.0 > 0
    }
}

#[test]
fn a_question_is_asked_and_an_answer_taken() {
    let (bus, way) = start();
    bus.with(|bus| bus.start_sending()).unwrap();
    assert!(way.sends());
    assert_eq!(poll(bus.write(b"question")), Poll::Ready(Ok(8)));
    assert_eq!(bus.with(|bus| bus.try_finish()), Ok(Err(BusyError)));
    assert_eq!(bus.blocking(Sends(9, way.cable.clone())).flush(), Ok(()));
    assert_eq!(bus.with(|bus| bus.try_finish()), Ok(Ok(())));
    assert!(!way.sends());
    assert_eq!(way.cable.chip().wire, b"question");
    // A handler that comes in the middle of a call is served at its end.
    let refused = bus.with(|_bus| {
        way.cable.chip().received.extend(b"answer");
        handle(&bus)
    });
    assert_eq!(refused, Ok(Err(SharedError::InUse)));
    let mut slots = [0; 8];
    assert_eq!(poll(bus.read(&mut slots)), Poll::Ready(Ok(6)));
    assert_eq!(&slots[..6], b"answer");
    assert!(poll(bus.read(&mut slots)).is_pending());
}

#[test]
fn nothing_is_queued_while_the_direction_is_not_to_send() {
    let (bus, way) = start();
    assert_eq!(bus.with(|bus| bus.queue(b"a")), Ok(Err(NotSendingError)));
    assert_eq!(
        poll(bus.write(b"a")),
        Poll::Ready(Err(SharedError::NotSending))
    );
    let mut thread = bus.blocking(Sends(9, way.cable.clone()));
    assert_eq!(thread.write(b"a"), Err(SharedError::NotSending));
    assert_eq!(thread.write(b""), Ok(0));
    assert_eq!(thread.read(&mut [0]), Err(SharedError::GaveUp));
    assert_eq!(bus.with(|bus| bus.inner().transmit_len()), Ok(0));
    let text = SharedError::NotSending.to_string();
    assert_eq!(text, NotSendingError.to_string());
}

#[test]
fn a_storm_at_a_bus_ends_and_what_waits_is_sent_after_a_restart() {
    let (bus, way) = start();
    way.cable.chip().shown = Some(UNKNOWN);
    let stuck = StuckError::Unknown(ISR::from_bits_retain(UNKNOWN));
    for _round in 1..MAX_UNFINISHED_ROUNDS {
        assert_eq!(handle(&bus), Ok(0));
    }
    assert_eq!(handle(&bus), Err(SharedError::Stuck(stuck)));
    assert!(!way.cable.chip().is_interrupting());
    assert_eq!(
        poll(bus.read(&mut [0])),
        Poll::Ready(Err(SharedError::Stuck(stuck)))
    );
    bus.with(|bus| bus.start_sending()).unwrap();
    assert_eq!(bus.with(|bus| bus.queue(b"later")), Ok(Ok(5)));
    way.cable.chip().shown = None;
    bus.with(|bus| bus.restart(INTERRUPTS)).unwrap();
    way.cable.chip().send_all();
    assert_eq!(way.cable.chip().wire, b"later");
}

#[test]
fn each_byte_at_a_bus_has_its_errors() {
    let (memory, way) = (memory(), AtBus::default());
    let notes = ErrorNotes::new(memory.global(), way.clone(), CAPACITY);
    let notes = notes.map_err(|refused| refused.cause).unwrap();
    let bus = SharedBus::new(Alone);
    let started = bus.start_with(at_bus(rings(&memory, notes)));
    started.map_err(|refused| refused.cause).unwrap();
    bus.with(|bus| bus.restart(INTERRUPTS)).unwrap();
    // The first look is behind: what it shows of an overrun is of no byte.
    let _line = bus.with(|bus| bus.take_line());
    for (byte, errors) in [(b'a', LSR::empty()), (b'b', LSR::FRAMING_ERROR)] {
        way.cable.chip().received.push_back(byte);
        *way.errors.lock().unwrap() = errors;
        let handled = bus.try_handle(MAX_INTERRUPTS, MAX_UNFINISHED_ROUNDS);
        assert_eq!(handled.map(|handled| handled.served), Ok(1));
    }
    let mut slots = [Received::default(); 4];
    assert_eq!(poll(bus.read_with_errors(&mut slots)), Poll::Ready(Ok(2)));
    let taken = slots.map(|received| (received.byte, received.errors));
    assert_eq!(
        taken[..2],
        [(b'a', LSR::empty()), (b'b', LSR::FRAMING_ERROR)]
    );
    assert!(poll(bus.read_with_errors(&mut slots)).is_pending());
    let empty: Result<Result<usize, UnnotedError>, _> =
        bus.with(|bus| bus.take_with_errors(&mut slots));
    assert_eq!(empty, Ok(Ok(0)));
}

#[test]
fn a_bus_whose_transmitter_is_stuck_is_given_up() {
    let (bus, way) = start();
    bus.with(|bus| bus.start_sending()).unwrap();
    assert_eq!(bus.with(|bus| bus.queue(&[b'x'; 20])), Ok(Ok(20)));
    assert_eq!(bus.with(|bus| bus.try_finish()), Ok(Err(BusyError)));
    let (ring, status) = bus.stop().unwrap().give_up();
    assert!(!way.sends());
    assert!(!status.contains(LSR::TRANSMITTER_EMPTY));
    assert_eq!(ring.transmit_len(), 0);
    // The bus begins again once the chip is empty, and what waited is not sent.
    let refused = HalfDuplexRing::new(ring, DIRECTION)
        .map(|_bus| ())
        .unwrap_err();
    assert_eq!(refused.cause, BusyError);
    let ring = refused.given;
    way.cable.chip().send_all();
    assert!(bus.start_with(at_bus(ring)).is_ok());
    assert_eq!(handle(&bus), Ok(1));
    way.cable.chip().send_all();
    assert_eq!(way.cable.chip().wire.len(), 16);
}

#[test]
fn a_bus_that_was_started_gives_other_rings_back() {
    let (bus, way) = start();
    let refused = bus.start_with(at_bus(rings(&memory(), way))).unwrap_err();
    assert_eq!(refused.cause, StartError::Started);
    let within = bus.with(|_bus| {
        let started = bus.start_with(refused.given);
        started.map_err(|refused| refused.cause)
    });
    assert_eq!(within, Ok(Err(StartError::InUse)));
    assert_eq!(
        format!("{bus:?}"),
        "Shared { transmit_len: 0, receive_len: 0, stuck: None, .. }"
    );
}
