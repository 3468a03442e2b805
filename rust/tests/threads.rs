//! Threads over drivers, for tools that find data races and accesses outside of memory: two threads with a device each, a driver
//! that goes from thread to thread, rings behind a lock with a thread as their interrupt handler, rings in a `Shared` whose section
//! keeps nobody out, and rings of one `Memory` on threads of their own.
//!
//! With the name of a fault it makes this fault and ends. What runs it has to find the fault, or else finds nothing in the tests
//! either: `one-device`, two objects for one device; `no-lock`, the rings without their lock; `outside`, a device that is larger
//! than its memory.
//!
//! The lock is the one of INTERRUPTS.md, and not that of `std`, whose code is not built for such a tool and so would hide from it
//! which access comes first.

use std::cell::UnsafeCell;
use std::collections::VecDeque;
use std::process::ExitCode;
use std::ptr::NonNull;
use std::sync::atomic::{AtomicBool, AtomicUsize, Ordering};
use std::thread;
use uart_16550::native::backend::{Backend, VolatileMemory};
use uart_16550::native::spec::registers::{IER, LSR, offsets};
use uart_16550::native::{Config, Uart16550};
use uart_16550::ring::{Global, MAX_INTERRUPTS, Memory, Uart16550Ring};
use uart_16550::shared::{CriticalSection, Shared, SharedError};

const MESSAGES: usize = 50;
const MESSAGE: usize = 100;
const CAPACITY: usize = 64;

/// In which a test has to come to its end.
const TURNS: usize = 1_000_000;

/// The text of message `n`.
fn message(n: usize) -> [u8; MESSAGE] {
    std::array::from_fn(|index| (n + index) as u8)
}

// ---- devices in memory

/// Cells that look like a device that is ready for everything, and stay when the test ends.
fn cells() -> NonNull<u8> {
    let mut cells = Box::new([0; 8]);
    cells[offsets::LSR] = (LSR::DATA_READY | LSR::THR_EMPTY | LSR::TRANSMITTER_EMPTY).bits();
    NonNull::from(Box::leak(cells)).cast()
}

/// A driver over these cells, with a stride.
///
/// # Safety
///
/// That of `VolatileMemory::new`, but for the faults.
unsafe fn driver(cells: NonNull<u8>, stride: u8) -> Uart16550<VolatileMemory> {
    // SAFETY: the caller promises it.
    let memory = unsafe { VolatileMemory::new(cells, stride) };
    Uart16550::new_with_backend(memory.expect("cells have an address"))
}

fn own_driver() -> Uart16550<VolatileMemory> {
    // SAFETY: these are eight cells, and nobody else has them.
    unsafe { driver(cells(), 1) }
}

/// Sets the driver up, and sends and receives over it.
fn use_driver(mut uart: Uart16550<VolatileMemory>) -> Uart16550<VolatileMemory> {
    uart.init(Config::DEFAULT).expect("cells keep patterns");
    for n in 0..MESSAGES {
        uart.send_bytes_exact(&message(n)).expect("there is room");
        uart.receive_bytes_exact(&mut [0; MESSAGE])
            .expect("a byte waits");
    }
    uart
}

/// Two threads have a driver each, and afterwards the driver of the other one.
fn test_own() {
    let mut drivers = [own_driver(), own_driver()];
    for _turn in 0..2 {
        let [one, two] = drivers;
        let threads = [two, one].map(|uart| thread::spawn(|| use_driver(uart)));
        drivers = threads.map(|thread| thread.join().expect("no panic"));
    }
}

// ---- rings behind a lock

/// A value that one thread uses at a time.
struct Locked<T> {
    is_taken: AtomicBool,
    value: UnsafeCell<T>,
}

// SAFETY: `with` lets one user in at a time, so the value is sent, and not shared.
unsafe impl<T: Send> Sync for Locked<T> {}

impl<T> Locked<T> {
    const fn new(value: T) -> Self {
        Self {
            is_taken: AtomicBool::new(false),
            value: UnsafeCell::new(value),
        }
    }

    fn with<R>(&self, call: impl FnOnce(&mut T) -> R) -> R {
        while self.is_taken.swap(true, Ordering::Acquire) {
            thread::yield_now();
        }
        // SAFETY: the value was free, and is taken until the call has returned.
        let result = call(unsafe { &mut *self.value.get() });
        self.is_taken.store(false, Ordering::Release);
        thread::yield_now();
        result
    }

    /// # Safety
    ///
    /// There is no other user. This is the fault that is to be found.
    unsafe fn without_lock<R>(&self, call: impl FnOnce(&mut T) -> R) -> R {
        // SAFETY: the caller promises it.
        call(unsafe { &mut *self.value.get() })
    }
}

/// A device whose cable leads back to it.
struct Looped {
    cells: [u8; 8],
    cable: VecDeque<u8>,
    is_empty_due: bool,
}

impl Looped {
    const fn new() -> Self {
        Self {
            cells: [0; 8],
            cable: VecDeque::new(),
            is_empty_due: false,
        }
    }

    fn has(&self, interrupt: IER) -> bool {
        self.cells[offsets::IER] & interrupt.bits() != 0
    }

    // ISR without acknowledging.
    fn isr(&self) -> u8 {
        if self.has(IER::DATA_READY) && !self.cable.is_empty() {
            0xc4
        } else if self.has(IER::THR_EMPTY) && self.is_empty_due {
            0xc2
        } else {
            0xc1
        }
    }

    fn is_interrupting(&self) -> bool {
        self.isr() != 0xc1
    }
}

impl Backend for Looped {
    fn read(&mut self, register_offset: u8) -> u8 {
        match usize::from(register_offset) {
            offsets::DATA => self.cable.pop_front().unwrap_or(0),
            offsets::ISR => {
                let isr = self.isr();
                self.is_empty_due &= isr != 0xc2;
                isr
            }
            offsets::LSR => 0x60 | u8::from(!self.cable.is_empty()),
            offset => self.cells[offset],
        }
    }

    fn write(&mut self, register_offset: u8, value: u8) {
        let is_latched = self.cells[offsets::LCR] & 0x80 != 0;
        match usize::from(register_offset) {
            offsets::DATA if is_latched => {}
            offsets::DATA => {
                self.cable.push_back(value);
                self.is_empty_due = true;
            }
            offset => {
                let was_enabled = self.has(IER::THR_EMPTY);
                self.cells[offset] = value;
                self.is_empty_due |= !was_enabled && self.has(IER::THR_EMPTY);
            }
        }
    }
}

type Ring = Uart16550Ring<Looped>;

/// Rings whose driver is set up.
fn ring(global: Global<'_>) -> Ring {
    let uart = Uart16550::new_with_backend(Looped::new());
    let made = Ring::new(global, uart, CAPACITY, CAPACITY);
    let mut ring = made.expect("there is memory");
    set_up(&mut ring);
    ring
}

fn set_up(ring: &mut Ring) {
    let interrupts = IER::DATA_READY | IER::RECEIVER_LINE_STATUS;
    let config = Config {
        interrupts,
        ..Config::DEFAULT
    };
    ring.inner_mut().init(config).expect("cells keep patterns");
}

fn memory(rings: usize) -> Memory {
    Memory::new(vec![0; rings * 2 * CAPACITY].leak())
}

/// The interrupt handler.
fn handle(ring: &mut Ring) {
    if ring.inner().backend().is_interrupting() {
        ring.handle(MAX_INTERRUPTS);
    }
}

/// Sends a message by the rings, and takes it back.
fn echo(n: usize, mut with: impl FnMut(&mut dyn FnMut(&mut Ring))) {
    let sent = message(n);
    let mut back = [0; MESSAGE];
    let (mut queued, mut taken) = (0, 0);
    for _turn in 0..TURNS {
        with(&mut |ring| {
            queued += ring.queue(&sent[queued..]);
            taken += ring.take(&mut back[taken..]);
        });
        if taken == MESSAGE {
            break;
        }
    }
    assert_eq!(back, sent, "message {n} did not come back");
}

struct Port {
    ring: Ring,
    is_over: bool,
}

static PORT: Locked<Option<Port>> = Locked::new(None);

fn open_port() {
    PORT.with(|port| {
        let ring = ring(memory(1).global());
        *port = Some(Port {
            ring,
            is_over: false,
        });
    });
}

/// Lets the interrupt handler end, also if the sender panics.
struct Over;

impl Drop for Over {
    fn drop(&mut self) {
        PORT.with(|port| port.as_mut().expect("the port is there").is_over = true);
    }
}

/// One thread sends and takes, and another is the interrupt handler.
fn test_shared() {
    open_port();
    // It goes on for as long as the sender, which has its own bound: a busy machine may let it make any number of turns before that
    // makes one. Each gives way to the other.
    let handler = thread::spawn(|| {
        while !PORT.with(|port| {
            let port = port.as_mut().expect("the port is there");
            handle(&mut port.ring);
            port.is_over
        }) {
            thread::yield_now();
        }
    });
    let over = Over;
    for n in 0..MESSAGES {
        echo(n, |call| {
            PORT.with(|port| call(&mut port.as_mut().expect("the port is there").ring));
            thread::yield_now();
        });
    }
    drop(over);
    handler.join().expect("no panic");
}

// ---- rings in a `Shared`

/// A section that keeps nobody out. So what orders the threads' accesses is the sign in `Shared` alone, that somebody is in.
struct Open;

impl CriticalSection for Open {
    fn run<R>(&self, call: impl FnOnce() -> R) -> R {
        call()
    }
}

static RINGS: Shared<Open, Looped> = Shared::new(Open);

/// Calls the function over the rings, as soon as nobody else is in.
fn enter(call: &mut dyn FnMut(&mut Ring)) {
    for _turn in 0..TURNS {
        let entered = RINGS.with(&mut *call);
        thread::yield_now();
        match entered {
            Ok(()) => return,
            Err(SharedError::InUse) => {}
            Err(other) => panic!("{other}"),
        }
    }
    panic!("somebody else is always in");
}

/// One thread sends and takes, and another is the interrupt handler, as above.
fn test_refusals() {
    let uart = Uart16550::new_with_backend(Looped::new());
    let started = RINGS.start(memory(1).global(), uart, CAPACITY, CAPACITY);
    started
        .expect("there is memory");
    enter(&mut set_up);
    let handler = thread::spawn(|| {
        while !IS_OVER.load(Ordering::Relaxed) {
            enter(&mut handle);
        }
    });
    for n in 0..MESSAGES {
        echo(n, |call| enter(call));
    }
    IS_OVER.store(true, Ordering::Relaxed);
    handler.join().expect("no panic");
}

// Says nothing about the rings, and so orders no access to them.
static IS_OVER: AtomicBool = AtomicBool::new(false);

// ---- rings of one memory

/// Uses rings alone: the handler is called in turn.
fn use_ring(mut ring: Ring) {
    for n in 0..MESSAGES {
        echo(n, |call| {
            call(&mut ring);
            handle(&mut ring);
        });
    }
}

/// Two rings of one memory are used by two threads, while a third thread makes a third ring of it.
fn test_memory() {
    let memory = memory(3);
    let rings = [ring(memory.global()), ring(memory.global())];
    let threads = rings.map(|ring| thread::spawn(|| use_ring(ring)));
    let third = thread::spawn(move || use_ring(ring(memory.global())));
    for thread in threads.into_iter().chain([third]) {
        thread.join().expect("no panic");
    }
}

/// The same with the program's allocator: each ring is made by one thread, and dropped by another.
fn test_heap() {
    let threads = [(), ()].map(|()| {
        let ring = ring(Global::heap());
        thread::spawn(|| use_ring(ring))
    });
    for thread in threads {
        thread.join().expect("no panic");
    }
}

// ---- faults

static BEGUN: AtomicUsize = AtomicUsize::new(0);

/// Calls this on two threads at a time: the thread sanitiser may take a thread that begins after another one's end for the same. That
/// both have begun orders none of their accesses.
fn on_two_threads<T: Send + 'static>(values: [T; 2], call: impl Fn(T) + Copy + Send + 'static) {
    let threads = values.map(|value| {
        thread::spawn(move || {
            BEGUN.fetch_add(1, Ordering::Relaxed);
            for _turn in 0..TURNS {
                if BEGUN.load(Ordering::Relaxed) == 2 {
                    break;
                }
                thread::yield_now();
            }
            call(value);
        })
    });
    for thread in threads {
        thread.join().expect("no panic");
    }
}

/// Two objects for one device, and so again with many devices: the sanitiser may miss accesses at the very same time, and those that are
/// long ago.
fn one_device() {
    let cells = [(); MESSAGES].map(|()| cells());
    // SAFETY: there is none: both are for the same cells. That is the fault.
    let drivers = [(); 2].map(|()| cells.map(|cells| unsafe { driver(cells, 1) }));
    on_two_threads(drivers, |drivers| {
        for mut uart in drivers {
            // Each disturbs the other's test of the scratch register.
            let _may_fail = uart.init(Config::DEFAULT);
        }
    });
}

fn no_lock() {
    open_port();
    on_two_threads([(), ()], |()| {
        // SAFETY: there is none: both threads do it. That is the fault.
        unsafe { PORT.without_lock(|port| port.as_mut().map(|port| port.ring.queue(b"x"))) };
    });
}

fn outside() {
    // SAFETY: there is none: with this stride the last cell is behind the eight. That is the fault.
    use_driver(unsafe { driver(cells(), 2) });
}

fn main() -> ExitCode {
    match std::env::args().nth(1).as_deref() {
        Some("one-device") => one_device(),
        Some("no-lock") => no_lock(),
        Some("outside") => outside(),
        Some(other) => {
            eprintln!("no fault is called {other}");
            return ExitCode::from(2);
        }
        None => {
            test_own();
            test_shared();
            test_refusals();
            test_memory();
            test_heap();
            println!("{MESSAGES} messages on each of nine drivers");
        }
    }
    ExitCode::SUCCESS
}
