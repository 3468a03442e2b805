//! Rings that are shared: who is refused, what a wait returns, and that no wake is lost, wherever an interrupt comes.

#[path = "sharing/chip.rs"]
mod chip;

use chip::Cable;
use std::future::Future;
use std::hint::spin_loop;
use std::pin::pin;
use std::sync::atomic::{AtomicBool, AtomicUsize, Ordering};
use std::sync::{Arc, Mutex, OnceLock};
use std::task::{Context, Poll, Wake, Waker};
use std::thread;
use std::time::{Duration, Instant};
use uart_16550::native::embedded_io::{Read, ReadReady, Write, WriteReady};
use uart_16550::native::{Config, Uart16550};
use uart_16550::ring::{MAX_INTERRUPTS, Memory, RingError, StuckError};
use uart_16550::shared::{
    Blocking, CriticalSection, Shared, SharedError, StartError, Unfinished, Wait,
};
use uart_16550::spec::registers::{IER, ISR};

const CAPACITY: usize = 32;
const MAX_UNFINISHED_ROUNDS: u32 = 100;

fn memory() -> Memory {
    Memory::new(vec![0; 2 * CAPACITY].leak())
}

/// Starts a port over this cable.
fn start<S: CriticalSection>(port: &Shared<S, Cable>, cable: &Cable) {
    let uart = Uart16550::new_with_backend(cable.clone());
    let started = port.start(memory().global(), uart, CAPACITY, CAPACITY);
    started.unwrap();
    let config = Config {
        interrupts: IER::DATA_READY | IER::RECEIVER_LINE_STATUS,
        ..Config::DEFAULT
    };
    port.with(|ring| ring.inner_mut().init(config))
        .unwrap()
        .unwrap();
}

/// The handler, if the chip's line is high.
fn handle<S: CriticalSection>(port: &Shared<S, Cable>, cable: &Cable) {
    if cable.chip().is_interrupting() {
        let _handled = port
            .with(|ring| ring.try_handle(MAX_INTERRUPTS, MAX_UNFINISHED_ROUNDS))
            .unwrap();
    }
}

/// The chip shows an interrupt without a name until it is given up. Returns what waits then get.
fn make_stuck<S: CriticalSection>(port: &Shared<S, Cable>, cable: &Cable) -> SharedError {
    const UNKNOWN: u8 = 0xc8;
    cable.chip().shown = Some(UNKNOWN);
    for _round in 0..MAX_UNFINISHED_ROUNDS {
        handle(port, cable);
    }
    assert!(!cable.chip().is_interrupting());
    cable.chip().shown = None;
    SharedError::Stuck(StuckError::Unknown(ISR::from_bits_retain(UNKNOWN)))
}

/// A section that keeps nobody out, since nobody else is there.
struct Alone;

impl CriticalSection for Alone {
    fn run<R>(&self, call: impl FnOnce() -> R) -> R {
        call()
    }
}

/// A lock of several processors, each of which knows that it is the owner.
struct ProcessorLock {
    owner: AtomicUsize,
}

const NOBODY: usize = 0;

thread_local! {
    // An address for each thread, which is no other thread's and not 0.
    static PROCESSOR: u8 = const { 0 };
}

fn this_processor() -> usize {
    PROCESSOR.with(|place| std::ptr::from_ref(place).addr())
}

impl ProcessorLock {
    const fn new() -> Self {
        Self {
            owner: AtomicUsize::new(NOBODY),
        }
    }
}

impl CriticalSection for ProcessorLock {
    fn run<R>(&self, call: impl FnOnce() -> R) -> R {
        let this = this_processor();
        if self.owner.load(Ordering::Relaxed) == this {
            return call();
        }
        while self
            .owner
            .compare_exchange(NOBODY, this, Ordering::Acquire, Ordering::Relaxed)
            .is_err()
        {
            thread::yield_now();
        }
        let result = call();
        self.owner.store(NOBODY, Ordering::Release);
        thread::yield_now();
        result
    }
}

// ---- who is refused

#[test]
fn rings_come_and_go() {
    let (port, cable) = (Shared::new(Alone), Cable::default());
    assert_eq!(port.with(|_ring| ()), Err(SharedError::NoRings));
    assert_eq!(port.stop().err(), Some(SharedError::NoRings));
    let uart = Uart16550::new_with_backend(cable.clone());
    let refused = port.start(memory().global(), uart, 0, 1).unwrap_err();
    assert_eq!(refused.cause, StartError::NoRings(RingError::BadCapacity));
    start(&port, &cable);
    let uart = Uart16550::new_with_backend(cable.clone());
    let refused = port.start(memory().global(), uart, 1, 1).unwrap_err();
    assert_eq!(refused.cause, StartError::Started);
    let within = port
        .with(|_ring| port.start(memory().global(), refused.given, 1, 1))
        .unwrap();
    assert_eq!(within.unwrap_err().cause, StartError::InUse);
    assert_eq!(port.with(|ring| ring.queue(b"abc")), Ok(3));
    assert_eq!(port.stop().unwrap().transmit_len(), 0);
    assert_eq!(port.with(|_ring| ()), Err(SharedError::NoRings));
    cable.chip().send_all();
    start(&port, &cable);
}

#[test]
fn a_call_in_a_call_is_refused_and_the_outer_one_goes_on() {
    let (port, cable) = (Shared::new(ProcessorLock::new()), Cable::default());
    start(&port, &cable);
    let within = port.with(|ring| {
        assert_eq!(
            port.with(|ring| ring.queue(b"inner")),
            Err(SharedError::InUse)
        );
        assert_eq!(port.stop().err(), Some(SharedError::InUse));
        assert_eq!(port.blocking(Turns(9)).write(b"x"), Err(SharedError::InUse));
        let mut context = Context::from_waker(Waker::noop());
        let polled = pin!(port.read(&mut [0])).poll(&mut context);
        assert_eq!(polled, Poll::Ready(Err(SharedError::InUse)));
        ring.queue(b"outer")
    });
    assert_eq!(within, Ok(5));
    cable.chip().send_all();
    assert_eq!(cable.chip().wire, b"outer");
}

#[test]
fn a_call_that_unwinds_leaves_the_rings_to_others() {
    let (port, cable) = (Shared::new(Alone), Cable::default());
    start(&port, &cable);
    let call = std::panic::AssertUnwindSafe(|| port.with(|_ring| panic!("on purpose")));
    assert!(std::panic::catch_unwind(call).is_err());
    assert_eq!(port.with(|ring| ring.queue(b"x")), Ok(1));
}

#[test]
fn a_section_that_keeps_nobody_out_makes_refusals_and_no_races() {
    static PORT: Shared<Alone, Cable> = Shared::new(Alone);
    static INSIDE: AtomicUsize = AtomicUsize::new(0);
    start(&PORT, &Cable::default());
    let refused = thread::scope(|scope| {
        let threads = [(); 2].map(|()| {
            scope.spawn(|| {
                let calls = (0..10_000).map(|_call| {
                    PORT.with(|_ring| {
                        assert_eq!(INSIDE.fetch_add(1, Ordering::SeqCst), 0);
                        spin_loop();
                        INSIDE.fetch_sub(1, Ordering::SeqCst);
                    })
                });
                calls
                    .filter(|call| *call == Err(SharedError::InUse))
                    .count()
            })
        });
        threads.map(|thread| thread.join().unwrap())
    });
    assert!(refused.iter().all(|count| *count <= 10_000));
}

/// The handler that is called at an edge, which does not come again.
fn edge<S: CriticalSection>(port: &Shared<S, Cable>) -> Result<usize, SharedError> {
    port.try_handle(MAX_INTERRUPTS, MAX_UNFINISHED_ROUNDS)
        .map(|handled| handled.served)
}

#[test]
fn a_handler_in_the_middle_of_a_call_is_served_at_its_end() {
    let (port, cable) = (Shared::new(Alone), Cable::default());
    start(&port, &cable);
    assert_eq!(edge(&port), Ok(0));
    let refused = port.with(|ring| {
        cable.chip().received.extend(b"abc");
        let refused = edge(&port);
        // It is served when the call is done, and not in its middle.
        assert_eq!(ring.receive_len(), 0);
        refused
    });
    assert_eq!(refused, Ok(Err(SharedError::InUse)));
    assert_eq!(port.with(|ring| ring.receive_len()), Ok(3));
    // Another call that is refused leaves no mark.
    let within = port.with(|_ring| {
        cable.chip().received.extend(b"d");
        port.with(|ring| ring.receive_len())
    });
    assert_eq!(within, Ok(Err(SharedError::InUse)));
    assert_eq!(port.with(|ring| ring.receive_len()), Ok(3));
    assert_eq!(edge(&port), Ok(1));
    assert_eq!(port.with(|ring| ring.receive_len()), Ok(4));
}

#[test]
fn a_task_is_woken_by_a_handler_that_was_refused() {
    let (port, cable, pair) = (Shared::new(Alone), Cable::default(), Pair::new());
    start(&port, &cable);
    let [mut reader, _] = pair.contexts();
    assert!(port.poll_read(&mut reader, &mut [0]).is_pending());
    let refused = port.with(|_ring| {
        cable.chip().received.extend(b"a");
        edge(&port)
    });
    assert_eq!(refused, Ok(Err(SharedError::InUse)));
    assert_eq!(pair.woken(), [1, 0]);
}

#[test]
fn a_call_that_unwinds_leaves_the_mark_to_the_next_one() {
    let (port, cable) = (Shared::new(Alone), Cable::default());
    start(&port, &cable);
    let call = std::panic::AssertUnwindSafe(|| {
        port.with(|_ring| {
            cable.chip().received.extend(b"a");
            assert_eq!(edge(&port), Err(SharedError::InUse));
            panic!("on purpose");
        })
    });
    assert!(std::panic::catch_unwind(call).is_err());
    assert_eq!(port.with(|ring| ring.receive_len()), Ok(0));
    assert_eq!(port.with(|ring| ring.receive_len()), Ok(1));
}

#[test]
fn a_task_is_woken_although_the_bus_fails_when_an_owed_handler_is_served() {
    let (port, cable, pair) = (Shared::new(Alone), Cable::default(), Pair::new());
    start(&port, &cable);
    let [mut reader, _] = pair.contexts();
    assert!(port.poll_read(&mut reader, &mut [0]).is_pending());
    let call = std::panic::AssertUnwindSafe(|| {
        port.with(|ring| {
            cable.chip().received.push_back(b'a');
            assert_eq!(edge(&port), Err(SharedError::InUse));
            // The byte is there when the call is done, so the task is taken out of its place. Then the handler is served.
            ring.handle(MAX_INTERRUPTS);
            cable.chip().panics = true;
        })
    });
    assert!(std::panic::catch_unwind(call).is_err());
    assert_eq!(pair.woken(), [1, 0]);
}

/// Whether this becomes true. The limit is for one step, which takes a slow machine milliseconds.
fn comes(is_there: impl Fn() -> bool) -> bool {
    const LIMIT: Duration = Duration::from_secs(60);
    let begin = Instant::now();
    while !is_there() {
        if begin.elapsed() > LIMIT {
            return false;
        }
        thread::yield_now();
    }
    true
}

#[test]
fn handlers_of_another_thread_are_all_served() {
    static PORT: Shared<Alone, Cable> = Shared::new(Alone);
    static IS_IN_CALL: AtomicBool = AtomicBool::new(false);
    static COME: AtomicUsize = AtomicUsize::new(0);
    static TAKEN: AtomicUsize = AtomicUsize::new(0);
    static IS_DONE: AtomicBool = AtomicBool::new(false);
    const EDGES: usize = 200;
    let cable = Cable::default();
    start(&PORT, &cable);
    let (edges, refused) = thread::scope(|scope| {
        // It uses the rings, and never looks at the chip.
        scope.spawn(|| {
            while !IS_DONE.load(Ordering::SeqCst) {
                let before = TAKEN.load(Ordering::SeqCst);
                let taken = PORT.with(|ring| {
                    IS_IN_CALL.store(true, Ordering::SeqCst);
                    // Each second edge comes in the middle of this call, and the others come anywhere.
                    if before % 2 == 0 {
                        comes(|| {
                            COME.load(Ordering::SeqCst) > before || IS_DONE.load(Ordering::SeqCst)
                        });
                    }
                    IS_IN_CALL.store(false, Ordering::SeqCst);
                    ring.take(&mut [0; CAPACITY])
                });
                TAKEN.fetch_add(taken.unwrap_or(0), Ordering::SeqCst);
                thread::yield_now();
            }
        });
        // Each edge is of one byte, and comes once.
        let mut refused = 0;
        let mut is_served = |edge_number: usize| {
            if edge_number % 2 == 0 && !comes(|| IS_IN_CALL.load(Ordering::SeqCst)) {
                return false;
            }
            cable.chip().received.push_back(0);
            refused += usize::from(edge(&PORT).is_err());
            COME.fetch_add(1, Ordering::SeqCst);
            comes(|| TAKEN.load(Ordering::SeqCst) > edge_number)
        };
        let edges = (0..EDGES)
            .take_while(|edge_number| is_served(*edge_number))
            .count();
        IS_DONE.store(true, Ordering::SeqCst);
        (edges, refused)
    });
    assert_eq!(edges, EDGES, "an edge is lost");
    assert!(
        refused >= EDGES / 2,
        "only {refused} edges came in the middle of a call"
    );
}

// ---- threads that wait

/// A thread that waits so many times.
struct Turns(u32);

impl Wait for Turns {
    fn wait(&mut self, _is_there: impl FnMut() -> bool) -> bool {
        self.0 = self.0.saturating_sub(1);
        self.0 > 0
    }
}

/// A thread that calls this for each wait, and goes on.
struct Each<F>(F);

impl<F: FnMut()> Wait for Each<F> {
    fn wait(&mut self, _is_there: impl FnMut() -> bool) -> bool {
        self.0();
        true
    }
}

/// A thread that waits until the function returns true, at most so many looks, and lets time pass for the chip.
struct Looks<'a> {
    port: &'a Shared<Alone, Cable>,
    cable: &'a Cable,
    left: u32,
}

impl Wait for Looks<'_> {
    fn wait(&mut self, mut is_there: impl FnMut() -> bool) -> bool {
        while self.left > 0 && !is_there() {
            self.left -= 1;
            self.cable.chip().send_all();
            handle(self.port, self.cable);
        }
        self.left > 0
    }
}

fn waiting<'a>(
    port: &'a Shared<Alone, Cable>,
    cable: &'a Cable,
) -> Blocking<'a, Alone, Cable, Looks<'a>> {
    let left = 1000;
    port.blocking(Looks { port, cable, left })
}

#[test]
fn a_thread_waits_for_room_and_for_the_end() {
    let (port, cable) = (Shared::new(Alone), Cable::default());
    start(&port, &cable);
    let text: Vec<u8> = (0..=255).collect();
    let mut blocking = waiting(&port, &cable);
    assert_eq!(blocking.send_bytes_exact(&text), Ok(()));
    assert!(cable.chip().wire.len() < text.len());
    // The looks of `flush` for the chip let no time pass, so they end.
    cable.chip().send_all();
    assert_eq!(blocking.write(&[]), Ok(0));
    while port.with(|ring| ring.transmit_len()) != Ok(0) {
        cable.chip().send_all();
        handle(&port, &cable);
    }
    cable.chip().send_all();
    assert_eq!(blocking.flush(), Ok(()));
    assert_eq!(cable.chip().wire, text);
}

#[test]
fn a_wait_that_is_given_up_loses_nothing() {
    let (port, cable) = (Shared::new(Alone), Cable::default());
    start(&port, &cable);
    let text = [b'x'; 100];
    let unfinished = port.blocking(Turns(3)).send_bytes_exact(&text).unwrap_err();
    // 16 bytes are in the chip, and the ring is full.
    let done = 16 + CAPACITY;
    let cause = SharedError::GaveUp;
    assert_eq!(unfinished, Unfinished { done, cause });
    assert_eq!(port.blocking(Turns(3)).write_ready(), Ok(false));
    assert_eq!(port.blocking(Turns(3)).flush(), Err(cause));
    assert_eq!(
        waiting(&port, &cable).send_bytes_exact(&text[done..]),
        Ok(())
    );
    assert_eq!(port.blocking(Turns(3)).read_ready(), Ok(false));
    assert_eq!(port.blocking(Turns(3)).read(&mut [0]), Err(cause));
    // One byte is enough.
    cable.chip().received.extend(b"a");
    handle(&port, &cable);
    assert_eq!(port.blocking(Turns(3)).read_ready(), Ok(true));
    cable.chip().received.extend(b"bc");
    handle(&port, &cable);
    let mut slots = [0; 4];
    let unfinished = port
        .blocking(Turns(3))
        .receive_bytes_exact(&mut slots)
        .unwrap_err();
    assert_eq!(
        (unfinished, &slots),
        (Unfinished { done: 3, cause }, b"abc\0")
    );
    assert_eq!(unfinished.to_string(), "waiting was given up after 3 bytes");
    assert_eq!(port.blocking(Turns(3)).read(&mut []), Ok(0));
}

#[test]
fn a_thread_is_told_that_the_chip_is_stuck() {
    let (port, cable) = (Shared::new(Alone), Cable::default());
    start(&port, &cable);
    cable.chip().received.push_back(b'a');
    handle(&port, &cable);
    let cause = make_stuck(&port, &cable);
    let mut blocking = waiting(&port, &cable);
    let mut slots = [0; 2];
    // What is there, and what there is room for, is no wait.
    let unfinished = Unfinished { done: 1, cause };
    assert_eq!(blocking.receive_bytes_exact(&mut slots), Err(unfinished));
    let done = CAPACITY;
    let unfinished = Unfinished { done, cause };
    assert_eq!(blocking.send_bytes_exact(&[b'x'; 100]), Err(unfinished));
    assert_eq!(blocking.write_ready(), Ok(false));
    assert_eq!(blocking.flush(), Err(cause));
    assert_eq!(port.with(|ring| ring.restart(IER::DATA_READY)), Ok(()));
    cable.chip().received.push_back(b'b');
    assert_eq!(blocking.read(&mut slots), Ok(1));
    assert_eq!(blocking.send_bytes_exact(&[b'x'; 68]), Ok(()));
    assert_eq!(blocking.flush(), Err(SharedError::GaveUp));
    cable.chip().send_all();
    assert_eq!(cable.chip().wire, [b'x'; 100]);
}

#[test]
fn a_flush_ends_when_the_chip_never_empties() {
    let (port, cable) = (Shared::new(Alone), Cable::default());
    start(&port, &cable);
    let limit = 5.try_into().unwrap();
    port.with(|ring| ring.inner_mut().set_spin_limit(limit))
        .unwrap();
    port.with(|ring| ring.queue(b"x")).unwrap();
    assert_eq!(waiting(&port, &cable).flush(), Err(SharedError::GaveUp));
    // It looks as many times as the limit, and waits after each look.
    let mut count = 0;
    let counted = || count += 1;
    assert_eq!(
        port.blocking(Each(counted)).flush(),
        Err(SharedError::GaveUp)
    );
    assert_eq!(count, 5);
    // The third wait empties the chip, so the fourth look ends it.
    let mut waits = 0;
    let emptied = || {
        waits += 1;
        if waits == 3 {
            cable.chip().send_all();
        }
    };
    assert_eq!(port.blocking(Each(emptied)).flush(), Ok(()));
    assert_eq!(waits, 3);
    port.with(|ring| ring.queue(b"x")).unwrap();
    let mut context = Context::from_waker(Waker::noop());
    let mut flush = pin!(port.flush());
    for _look in 0..5 {
        assert!(flush.as_mut().poll(&mut context).is_pending());
    }
    assert_eq!(
        flush.poll(&mut context),
        Poll::Ready(Err(SharedError::GaveUp))
    );
}

/// A thread that looks by the function after something happened, and goes on no more. It keeps what the function returned.
struct LooksOnce<'a, F> {
    happens: F,
    is_there: &'a mut Option<bool>,
}

impl<F: FnMut(&mut dyn FnMut() -> bool) -> bool> Wait for LooksOnce<'_, F> {
    fn wait(&mut self, mut is_there: impl FnMut() -> bool) -> bool {
        *self.is_there = Some((self.happens)(&mut is_there));
        false
    }
}

/// What happens at a port while a thread looks whether what it waits for is there.
type Look = fn(&Shared<Alone, Cable>, &mut dyn FnMut() -> bool) -> bool;

/// A thread that slept on would wait for what never comes.
#[test]
fn a_thread_does_not_sleep_where_no_call_would_wait() {
    let looks: [Look; 3] = [
        |_port, is_there| is_there(),
        |port, is_there| port.stop().is_ok() && is_there(),
        |port, is_there| port.with(|_ring| is_there()).unwrap(),
    ];
    for (look, expected) in looks.into_iter().zip([false, true, true]) {
        let (port, cable) = (Shared::new(Alone), Cable::default());
        start(&port, &cable);
        let mut is_there = None;
        let wait = LooksOnce {
            happens: |is_there: &mut dyn FnMut() -> bool| look(&port, is_there),
            is_there: &mut is_there,
        };
        assert_eq!(port.blocking(wait).read(&mut [0]), Err(SharedError::GaveUp));
        assert_eq!(is_there, Some(expected));
    }
}

#[test]
fn a_flush_that_is_given_up_is_given_up_even_if_the_chip_then_empties() {
    let (port, cable) = (Shared::new(Alone), Cable::default());
    start(&port, &cable);
    port.with(|ring| ring.queue(b"x")).unwrap();
    let mut is_there = None;
    let wait = LooksOnce {
        happens: |is_there: &mut dyn FnMut() -> bool| {
            cable.chip().send_all();
            is_there()
        },
        is_there: &mut is_there,
    };
    assert_eq!(port.blocking(wait).flush(), Err(SharedError::GaveUp));
    // For the chip no interrupt comes, so there is nothing to sleep for.
    assert_eq!(is_there, Some(true));
}

// ---- no wake is lost

/// What happens at the other end of the cable.
#[derive(Clone, Copy)]
enum Event {
    Arrival(u8),
    Sent,
}

/// A processor whose interrupts come at given moments: around each section, and around each poll, clone and wake.
struct World {
    cable: Cable,
    is_masked: AtomicBool,
    moments: AtomicUsize,
    events: Mutex<Vec<(usize, Event)>>,
    is_woken: AtomicBool,
    port: OnceLock<Shared<Interrupted, Cable>>,
}

struct Interrupted(Arc<World>);

impl CriticalSection for Interrupted {
    fn run<R>(&self, call: impl FnOnce() -> R) -> R {
        self.0.pass();
        let was_masked = self.0.is_masked.swap(true, Ordering::SeqCst);
        let result = call();
        self.0.is_masked.store(was_masked, Ordering::SeqCst);
        self.0.pass();
        result
    }
}

impl Wake for World {
    fn wake(self: Arc<Self>) {
        self.pass();
        // Outside of the section: so a waker may come back here.
        assert_ne!(self.port().with(|_ring| ()), Err(SharedError::InUse));
        self.is_woken.store(true, Ordering::SeqCst);
        self.pass();
    }
}

impl World {
    fn new(events: Vec<(usize, Event)>) -> Arc<Self> {
        let world = Arc::new(Self {
            cable: Cable::default(),
            is_masked: AtomicBool::new(false),
            moments: AtomicUsize::new(0),
            events: Mutex::new(Vec::new()),
            is_woken: AtomicBool::new(false),
            port: OnceLock::new(),
        });
        let port = Shared::new(Interrupted(world.clone()));
        start(&port, &world.cable);
        assert!(world.port.set(port).is_ok());
        world.moments.store(0, Ordering::SeqCst);
        *world.events.lock().unwrap() = events;
        world
    }

    fn port(&self) -> &Shared<Interrupted, Cable> {
        self.port.get().unwrap()
    }

    /// A moment: what is to happen now happens, and the handler runs if it may.
    fn pass(&self) {
        let now = self.moments.fetch_add(1, Ordering::SeqCst);
        let due = {
            let mut events = self.events.lock().unwrap();
            let is_due = |(moment, _): &(usize, Event)| *moment <= now;
            let (due, rest): (Vec<_>, _) = events.iter().copied().partition(is_due);
            *events = rest;
            due
        };
        due.into_iter().for_each(|(_, event)| self.happen(event));
        self.interrupt();
    }

    fn happen(&self, event: Event) {
        match event {
            Event::Arrival(byte) => self.cable.chip().received.push_back(byte),
            Event::Sent => self.cable.chip().send_all(),
        }
    }

    fn interrupt(&self) {
        if self.port.get().is_none() {
            return;
        }
        if self.cable.chip().is_interrupting() && !self.is_masked.swap(true, Ordering::SeqCst) {
            handle(self.port(), &self.cable);
            self.is_masked.store(false, Ordering::SeqCst);
        }
    }

    /// Sleeps until the next event. Returns false if there is none.
    fn sleep(&self) -> bool {
        let next = {
            let mut events = self.events.lock().unwrap();
            (!events.is_empty()).then(|| events.remove(0))
        };
        let is_some = next.is_some();
        next.into_iter().for_each(|(_, event)| self.happen(event));
        self.interrupt();
        is_some
    }
}

/// Runs a task. It fails if the task sleeps, and nothing is to come that would wake it.
fn block_on<F: Future>(world: &Arc<World>, task: F) -> F::Output {
    let waker = Waker::from(world.clone());
    let mut context = Context::from_waker(&waker);
    let mut task = pin!(task);
    for _turn in 0..1000 {
        world.is_woken.store(false, Ordering::SeqCst);
        world.pass();
        if let Poll::Ready(output) = task.as_mut().poll(&mut context) {
            return output;
        }
        world.pass();
        while !world.is_woken.load(Ordering::SeqCst) {
            assert!(world.sleep(), "a wake is lost");
        }
    }
    panic!("the task is woken again and again")
}

// More moments than a task comes through that finds nothing at first.
const MOMENTS: usize = 24;

/// Calls the function with each pair of moments.
fn each_two_moments(call: impl Fn(usize, usize)) {
    for first in 0..MOMENTS {
        for second in first..MOMENTS {
            call(first, second);
        }
    }
}

#[test]
fn a_reader_is_woken_wherever_a_byte_arrives() {
    each_two_moments(|first, second| {
        let events = vec![
            (first, Event::Arrival(b'a')),
            (second, Event::Arrival(b'b')),
        ];
        let world = World::new(events);
        let got = block_on(&world, async {
            let (mut got, mut slots) = (Vec::<u8>::new(), [0; 4]);
            while got.len() < 2 {
                let count = world.port().read(&mut slots).await.unwrap();
                got.extend(&slots[..count]);
            }
            got
        });
        assert_eq!(
            got, b"ab",
            "bytes arrive at the moments {first} and {second}"
        );
    });
}

#[test]
fn a_writer_is_woken_wherever_the_chip_empties() {
    let text: Vec<u8> = (0..70).collect();
    each_two_moments(|first, second| {
        let later = (0..9).map(|_event| (usize::MAX, Event::Sent));
        let events = [(first, Event::Sent), (second, Event::Sent)]
            .into_iter()
            .chain(later);
        let world = World::new(events.collect());
        block_on(&world, async {
            let mut rest = &text[..];
            while !rest.is_empty() {
                rest = &rest[world.port().write(rest).await.unwrap()..];
            }
        });
        block_on(&world, async {
            let mut flush = pin!(world.port().flush());
            // Time passes at each look.
            std::future::poll_fn(|context| {
                world.cable.chip().send_all();
                world.interrupt();
                flush.as_mut().poll(context)
            })
            .await
            .unwrap();
        });
        assert_eq!(
            world.cable.chip().wire,
            text,
            "sent at the moments {first} and {second}"
        );
    });
}

#[test]
fn a_flush_is_woken_wherever_the_ring_empties() {
    each_two_moments(|first, second| {
        let later = (0..9).map(|_event| (usize::MAX, Event::Sent));
        let events = [(first, Event::Sent), (second, Event::Sent)]
            .into_iter()
            .chain(later);
        let world = World::new(events.collect());
        let limit = 3.try_into().unwrap();
        world
            .port()
            .with(|ring| ring.inner_mut().set_spin_limit(limit))
            .unwrap();
        assert_eq!(world.port().with(|ring| ring.queue(&[1; 30])), Ok(30));
        // The last bytes may be in the chip still, for which no interrupt comes.
        let flushed = block_on(&world, world.port().flush());
        assert!(matches!(flushed, Ok(()) | Err(SharedError::GaveUp)));
        assert_eq!(world.port().with(|ring| ring.transmit_len()), Ok(0));
    });
}

#[test]
fn a_task_that_is_cancelled_loses_nothing() {
    let world = World::new(Vec::new());
    let waker = Waker::from(world.clone());
    let mut context = Context::from_waker(&waker);
    let mut slots = [0; 4];
    {
        let mut read = pin!(world.port().read(&mut slots));
        assert!(read.as_mut().poll(&mut context).is_pending());
        world.happen(Event::Arrival(b'a'));
        world.interrupt();
        assert!(world.is_woken.swap(false, Ordering::SeqCst));
        // It is dropped here, after it was woken.
    }
    assert_eq!(block_on(&world, world.port().read(&mut slots)), Ok(1));
    assert_eq!(slots, *b"a\0\0\0");
    // 16 of them are in the chip, and one more than the ring holds is left.
    assert_eq!(block_on(&world, world.port().write(&[b'x'; 16])), Ok(16));
    assert_eq!(
        block_on(&world, world.port().write(&[b'x'; CAPACITY])),
        Ok(CAPACITY)
    );
    assert!(
        pin!(world.port().write(b"y"))
            .poll(&mut context)
            .is_pending()
    );
    for _sent in 0..9 {
        world.happen(Event::Sent);
        world.interrupt();
    }
    assert_eq!(world.cable.chip().wire, [b'x'; 16 + CAPACITY]);
}

#[test]
fn a_task_that_waits_when_the_rings_go_is_told() {
    let world = World::new(Vec::new());
    let waker = Waker::from(world.clone());
    let mut context = Context::from_waker(&waker);
    let mut slots = [0];
    let mut read = pin!(world.port().read(&mut slots));
    assert!(read.as_mut().poll(&mut context).is_pending());
    assert!(world.port().stop().is_ok());
    assert!(world.is_woken.load(Ordering::SeqCst));
    assert_eq!(
        read.poll(&mut context),
        Poll::Ready(Err(SharedError::NoRings))
    );
}

#[test]
fn a_task_is_told_that_the_chip_is_stuck() {
    let world = World::new(Vec::new());
    let waker = Waker::from(world.clone());
    let mut context = Context::from_waker(&waker);
    let mut slots = [0];
    let mut read = pin!(world.port().read(&mut slots));
    assert!(read.as_mut().poll(&mut context).is_pending());
    let cause = make_stuck(world.port(), &world.cable);
    assert!(world.is_woken.load(Ordering::SeqCst));
    assert_eq!(read.poll(&mut context), Poll::Ready(Err(cause)));
    // There is room for some.
    let written = block_on(&world, world.port().write(&[b'x'; 100]));
    assert_eq!(written, Ok(CAPACITY));
    assert_eq!(block_on(&world, world.port().write(b"x")), Err(cause));
    assert_eq!(block_on(&world, world.port().flush()), Err(cause));
    let restarted = world.port().with(|ring| ring.restart(IER::DATA_READY));
    assert_eq!(restarted, Ok(()));
    assert_eq!(block_on(&world, world.port().write(b"x")), Ok(1));
}

/// A waker that counts.
#[derive(Default)]
struct Count(AtomicUsize);

impl Wake for Count {
    fn wake(self: Arc<Self>) {
        self.0.fetch_add(1, Ordering::SeqCst);
    }
}

#[test]
fn of_two_tasks_that_wait_for_the_same_none_is_forgotten() {
    let (port, cable) = (Shared::new(Alone), Cable::default());
    start(&port, &cable);
    let counts = [(); 2].map(|()| Arc::new(Count::default()));
    let wakers = counts.clone().map(Waker::from);
    let poll = |task: usize| {
        let mut slots = [0];
        let read = pin!(port.read(&mut slots));
        read.poll(&mut Context::from_waker(&wakers[task]))
    };
    let woken = || {
        counts
            .clone()
            .map(|count| count.0.swap(0, Ordering::SeqCst))
    };
    assert!(poll(0).is_pending());
    assert!(poll(0).is_pending());
    assert_eq!(woken(), [0, 0]);
    // The second one takes the place, so the first one looks again, and takes the place in its turn.
    assert!(poll(1).is_pending());
    assert_eq!(woken(), [1, 0]);
    assert!(poll(0).is_pending());
    assert_eq!(woken(), [0, 1]);
    cable.chip().received.extend(b"a");
    handle(&port, &cable);
    assert_eq!(woken(), [1, 0]);
    assert_eq!(poll(0), Poll::Ready(Ok(1)));
}

/// Two tasks that wait, one at each end, with how often each was woken since the last look.
struct Pair {
    counts: [Arc<Count>; 2],
    wakers: [Waker; 2],
}

impl Pair {
    fn new() -> Self {
        let counts = [(); 2].map(|()| Arc::new(Count::default()));
        let wakers = counts.clone().map(Waker::from);
        Self { counts, wakers }
    }

    fn contexts(&self) -> [Context<'_>; 2] {
        self.wakers.each_ref().map(Context::from_waker)
    }

    fn woken(&self) -> [usize; 2] {
        self.counts
            .each_ref()
            .map(|count| count.0.swap(0, Ordering::SeqCst))
    }
}

/// Both tasks wait: the reader for a byte, and the writer for room.
fn both_wait(port: &Shared<Alone, Cable>, pair: &Pair) {
    let [mut reader, mut writer] = pair.contexts();
    assert_eq!(port.with(|ring| ring.queue(&[0; 16])), Ok(16));
    assert_eq!(port.with(|ring| ring.queue(&[0; CAPACITY])), Ok(CAPACITY));
    assert!(port.poll_read(&mut reader, &mut [0]).is_pending());
    assert!(port.poll_write(&mut writer, b"x").is_pending());
    assert_eq!(pair.woken(), [0, 0]);
}

#[test]
fn a_reader_and_a_writer_do_not_wake_each_other() {
    let (port, cable, pair) = (Shared::new(Alone), Cable::default(), Pair::new());
    start(&port, &cable);
    both_wait(&port, &pair);
    cable.chip().received.extend(b"a");
    handle(&port, &cable);
    assert_eq!(pair.woken(), [1, 0]);
    cable.chip().send_all();
    handle(&port, &cable);
    assert_eq!(pair.woken(), [0, 1]);
}

#[test]
fn two_tasks_whose_turn_comes_in_one_call_are_both_woken() {
    let (port, cable, pair) = (Shared::new(Alone), Cable::default(), Pair::new());
    start(&port, &cable);
    both_wait(&port, &pair);
    cable.chip().received.push_back(b'a');
    cable.chip().send_all();
    // One interrupt, whose handler finds a byte and an empty transmitter.
    handle(&port, &cable);
    assert_eq!(pair.woken(), [1, 1]);
}

/// A waker that panics.
struct Panics;

impl Wake for Panics {
    fn wake(self: Arc<Self>) {
        panic!("on purpose");
    }
}

/// Both tasks are due in one call, and the waker of the first or of the second one panics. Returns how often each other one was woken.
fn woken_beside_a_panic(panics: usize) -> [usize; 2] {
    let (port, cable, mut pair) = (Shared::new(Alone), Cable::default(), Pair::new());
    start(&port, &cable);
    pair.wakers[panics] = Waker::from(Arc::new(Panics));
    both_wait(&port, &pair);
    cable.chip().received.push_back(b'a');
    cable.chip().send_all();
    let call = std::panic::AssertUnwindSafe(|| handle(&port, &cable));
    assert!(std::panic::catch_unwind(call).is_err());
    // The rings go on, and nobody is woken twice.
    let woken = pair.woken();
    handle(&port, &cable);
    assert_eq!(pair.woken(), [0, 0]);
    woken
}

#[test]
fn a_waker_that_panics_does_not_lose_the_wake_of_the_other_task() {
    assert_eq!(woken_beside_a_panic(0), [0, 1]);
    assert_eq!(woken_beside_a_panic(1), [1, 0]);
}

#[test]
fn two_tasks_that_wait_when_the_rings_go_are_both_told() {
    let (port, cable, pair) = (Shared::new(Alone), Cable::default(), Pair::new());
    start(&port, &cable);
    both_wait(&port, &pair);
    assert!(port.stop().is_ok());
    assert_eq!(pair.woken(), [1, 1]);
}

#[test]
fn a_flush_does_not_take_the_place_of_a_reader() {
    let (port, cable, pair) = (Shared::new(Alone), Cable::default(), Pair::new());
    start(&port, &cable);
    let [mut reader, mut flusher] = pair.contexts();
    assert_eq!(port.with(|ring| ring.queue(&[0; 16 + 1])), Ok(16 + 1));
    assert!(port.poll_read(&mut reader, &mut [0]).is_pending());
    let mut flush = pin!(port.flush());
    assert!(flush.as_mut().poll(&mut flusher).is_pending());
    // The reader would be woken if the flush had its place.
    assert_eq!(pair.woken(), [0, 0]);
    cable.chip().received.push_back(b'a');
    handle(&port, &cable);
    assert_eq!(pair.woken(), [1, 0]);
    assert_eq!(port.poll_read(&mut reader, &mut [0]), Poll::Ready(Ok(1)));
    cable.chip().send_all();
    handle(&port, &cable);
    assert_eq!(pair.woken(), [0, 1]);
    cable.chip().send_all();
    assert_eq!(flush.poll(&mut flusher), Poll::Ready(Ok(())));
}

// ---- tasks on threads

// How many bytes go round.
const COUNT: usize = 10_000;

// How often a task is woken at most: some times for each byte. A wait that never sleeps is found by it within seconds.
const WAKES: usize = 100 * COUNT;

// How long a thread sleeps at most, where a wake is due in microseconds. A busy machine may take any time, so this is only there so
// that a wake which is lost ends the test.
const PATIENCE: Duration = Duration::from_secs(600);

/// A thread that sleeps until it is woken.
struct Parked(thread::Thread);

impl Wake for Parked {
    fn wake(self: Arc<Self>) {
        self.0.unpark();
    }
}

fn park_on<F: Future>(task: F) -> F::Output {
    let waker = Waker::from(Arc::new(Parked(thread::current())));
    let mut task = pin!(task);
    for _wake in 0..WAKES {
        if let Poll::Ready(output) = task.as_mut().poll(&mut Context::from_waker(&waker)) {
            return output;
        }
        let begun = Instant::now();
        thread::park_timeout(PATIENCE);
        assert!(begun.elapsed() < PATIENCE, "a wake is lost");
    }
    panic!("the task is woken again and again")
}

async fn write_all(port: &Shared<ProcessorLock, Cable>, mut bytes: &[u8]) {
    while !bytes.is_empty() {
        bytes = &bytes[port.write(bytes).await.unwrap()..];
    }
}

#[test]
fn two_threads_of_tasks_and_a_handler_lose_no_byte() {
    static PORT: Shared<ProcessorLock, Cable> = Shared::new(ProcessorLock::new());
    let cable = Cable::default();
    start(&PORT, &cable);
    let text: Vec<u8> = (0..COUNT).map(|index| (index % 251) as u8).collect();
    let is_over = AtomicBool::new(false);
    thread::scope(|scope| {
        // The handler, and the other end, which sends back what comes. They go on for as long as the tasks, which have their own
        // bounds: a busy machine may let these two make any number of turns before it lets a task make one.
        scope.spawn(|| {
            while !is_over.load(Ordering::SeqCst) {
                {
                    let mut chip = cable.chip();
                    chip.send_all();
                    let back: Vec<u8> = std::mem::take(&mut chip.wire);
                    chip.received.extend(back);
                }
                handle(&PORT, &cable);
                thread::yield_now();
            }
        });
        scope.spawn(|| park_on(write_all(&PORT, &text)));
        let read = scope.spawn(|| {
            park_on(async {
                let (mut got, mut slots) = (Vec::<u8>::new(), [0; 7]);
                while got.len() < COUNT {
                    let count = PORT.read(&mut slots).await.unwrap();
                    got.extend_from_slice(&slots[..count]);
                }
                got
            })
        });
        let got = read.join();
        is_over.store(true, Ordering::SeqCst);
        assert!(got.unwrap() == text);
    });
}
