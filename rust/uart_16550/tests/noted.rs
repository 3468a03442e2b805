//! Received bytes with their errors through shared rings: by a section, by a thread that waits, and by a task.

use std::future::Future;
use std::pin::pin;
use std::task::{Context, Poll, Waker};
use uart_16550::native::backend::Backend;
use uart_16550::native::spec::registers::{IER, LSR, offsets};
use uart_16550::native::{Config, Received, Uart16550};
use uart_16550::ring::{ErrorNotes, Memory, RingError, UnnotedError};
use uart_16550::shared::{CriticalSection, Shared, SharedError, Wait};

/// A chip in which characters with errors wait.
#[derive(Debug, Default)]
struct Chip {
    received: std::collections::VecDeque<Received>,
    /// Whether LSR has shown the errors of the first.
    is_shown: bool,
    cells: [u8; 8],
}

impl Backend for Chip {
    fn read(&mut self, offset: u8) -> u8 {
        match usize::from(offset) {
            offsets::DATA => {
                self.is_shown = false;
                self.received.pop_front().map_or(0, |one| one.byte)
            }
            offsets::ISR if self.received.is_empty() => 0xc1,
            offsets::ISR => match self.received.front() {
                Some(one) if !one.errors.is_empty() && !self.is_shown => 0xc6,
                _ => 0xc4,
            },
            offsets::LSR => match self.received.front() {
                Some(one) => {
                    let errors = if self.is_shown {
                        LSR::empty()
                    } else {
                        one.errors
                    };
                    self.is_shown = true;
                    (LSR::DATA_READY | LSR::THR_EMPTY | LSR::TRANSMITTER_EMPTY | errors).bits()
                }
                None => (LSR::THR_EMPTY | LSR::TRANSMITTER_EMPTY).bits(),
            },
            offset => self.cells[offset],
        }
    }

    fn write(&mut self, offset: u8, value: u8) {
        self.cells[usize::from(offset)] = value;
    }
}

/// There is one thread.
#[derive(Debug)]
struct Alone;

impl CriticalSection for Alone {
    fn run<R>(&self, call: impl FnOnce() -> R) -> R {
        call()
    }
}

type Port = Shared<Alone, ErrorNotes<Chip>>;

fn started(noted: usize) -> Port {
    let memory = Memory::new(Box::leak(vec![0; 16 + 32 + noted].into_boxed_slice()));
    let Ok(notes) = ErrorNotes::new(memory.global(), Chip::default(), noted) else {
        panic!("no notes");
    };
    let port = Shared::new(Alone);
    let uart = Uart16550::new_with_backend(notes);
    assert!(port.start(memory.global(), uart, 16, 32).is_ok());
    let interrupts = IER::DATA_READY | IER::RECEIVER_LINE_STATUS;
    let config = Config {
        interrupts,
        ..Config::DEFAULT
    };
    assert_eq!(port.with(|ring| ring.inner_mut().init(config)), Ok(Ok(())));
    port
}

const CHARACTERS: [Received; 3] = [
    Received {
        byte: b'a',
        errors: LSR::empty(),
    },
    Received {
        byte: 0,
        errors: LSR::BREAK_INTERRUPT,
    },
    Received {
        byte: b'h',
        errors: LSR::PARITY_ERROR,
    },
];

/// The characters arrive, and the handler runs.
fn arrive(port: &Port) {
    let served = port.with(|ring| {
        let chip = ring.inner_mut().backend_mut().backend_mut();
        chip.received.extend(CHARACTERS);
        ring.handle(32)
    });
    assert!(served.is_ok());
}

struct Arrives<'a>(&'a Port, u32);

impl Wait for Arrives<'_> {
    fn wait(&mut self, _is_there: impl FnMut() -> bool) -> bool {
        let Some(left) = self.1.checked_sub(1) else {
            return false;
        };
        self.1 = left;
        arrive(self.0);
        true
    }
}

#[test]
fn a_section_takes_bytes_with_errors() {
    let port = started(32);
    arrive(&port);
    let mut slots = [Received::default(); 4];
    assert_eq!(port.with(|ring| ring.take_with_errors(&mut slots)), Ok(Ok(3)));
    assert_eq!(slots[..3], CHARACTERS);
}

#[test]
fn a_thread_waits_for_bytes_with_errors() {
    let port = started(32);
    let mut blocking = port.blocking(Arrives(&port, 1));
    let mut slots = [Received::default(); 4];
    assert_eq!(blocking.read_with_errors(&mut []), Ok(0));
    assert_eq!(blocking.read_with_errors(&mut slots), Ok(3));
    assert_eq!(slots[..3], CHARACTERS);
    assert_eq!(
        blocking.read_with_errors(&mut slots),
        Err(SharedError::GaveUp)
    );
}

#[test]
fn a_task_waits_for_bytes_with_errors() {
    let port = started(32);
    let mut slots = [Received::default(); 4];
    let mut context = Context::from_waker(Waker::noop());
    {
        let mut read = pin!(port.read_with_errors(&mut slots));
        assert_eq!(read.as_mut().poll(&mut context), Poll::Pending);
        arrive(&port);
        assert_eq!(read.as_mut().poll(&mut context), Poll::Ready(Ok(3)));
    }
    assert_eq!(slots[..3], CHARACTERS);
    let none = port.poll_read_with_errors(&mut context, &mut []);
    assert_eq!(none, Poll::Ready(Ok(0)));
}

#[test]
fn missing_notes_are_told() {
    let port = started(2);
    arrive(&port);
    let missing = UnnotedError { bytes: 1 };
    let mut slots = [Received::default(); 4];
    let mut context = Context::from_waker(Waker::noop());
    let told = Err(SharedError::Unnoted(missing));
    assert_eq!(
        port.poll_read_with_errors(&mut context, &mut slots),
        Poll::Ready(told)
    );
    let mut blocking = port.blocking(Arrives(&port, 0));
    assert_eq!(blocking.read_with_errors(&mut slots), told);
    assert_eq!(SharedError::Unnoted(missing).to_string(), format!("no bytes were taken: {missing}"));
    assert_eq!(slots, [Received::default(); 4]);
}

#[test]
fn memory_for_notes_is_refused_as_that_of_rings() {
    for (size, capacity, wanted) in [
        (0, 0, RingError::BadCapacity),
        (8, 4097, RingError::BadCapacity),
        (7, 8, RingError::OutOfMemory),
    ] {
        let memory = Memory::new(Box::leak(vec![0; size].into_boxed_slice()));
        let refused = ErrorNotes::new(memory.global(), Chip::default(), capacity);
        assert!(matches!(refused, Err(refused) if refused.cause == wanted));
    }
}
