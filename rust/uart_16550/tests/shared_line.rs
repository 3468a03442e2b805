//! Ports that share one interrupt line, behind one lock: who is refused, what a handler finds out, and that a chip which is stuck is off
//! alone.

#[path = "sharing/chip.rs"]
mod chip;

use chip::Cable;
use std::fmt::Write as _;
use std::sync::Arc;
use std::sync::atomic::{AtomicUsize, Ordering};
use std::task::{Context, Poll, Wake, Waker};
use uart_16550::native::spec::FIFO_SIZE;
use uart_16550::native::{Config, Uart16550};
use uart_16550::ring::{HandleEnd, MAX_INTERRUPTS, Memory, RingError, StuckError};
use uart_16550::shared::{CriticalSection, SharedError, SharedLine, StartError, Wait};
use uart_16550::spec::registers::{IER, ISR, InterruptType};

const CAPACITY: usize = 32;
const LIMIT: usize = 4 * MAX_INTERRUPTS;
const MAX_UNFINISHED_ROUNDS: u32 = 3;
const INTERRUPTS: IER = IER::DATA_READY.union(IER::RECEIVER_LINE_STATUS);

/// A section that keeps nobody out, since nobody else is there.
struct Alone;

impl CriticalSection for Alone {
    fn run<R>(&self, call: impl FnOnce() -> R) -> R {
        call()
    }
}

type Line = SharedLine<Alone, Cable, 3>;

fn memory() -> Memory {
    Memory::new(vec![0; 2 * CAPACITY].leak())
}

fn uart(cable: &Cable) -> Uart16550<Cable> {
    Uart16550::new_with_backend(cable.clone())
}

/// Starts a port over this cable.
fn start(line: &Line, port: usize, cable: &Cable) {
    let started = line.start(port, memory().global(), uart(cable), CAPACITY, CAPACITY);
    started.unwrap();
    let config = Config {
        interrupts: INTERRUPTS,
        ..Config::DEFAULT
    };
    line.with_port(port, |ring| ring.inner_mut().init(config))
        .unwrap()
        .unwrap();
}

fn handle(line: &Line) -> Result<bool, SharedError> {
    line.handle(LIMIT, MAX_UNFINISHED_ROUNDS)
}

fn ier(line: &Line, port: usize) -> IER {
    line.with_port(port, |ring| ring.inner_mut().ier()).unwrap()
}

#[test]
fn a_line_shows_how_many_bytes_wait_and_not_which() {
    let (line, cable) = (Line::new(Alone), Cable::default());
    start(&line, 1, &cable);
    let bytes = [b's'; FIFO_SIZE + 6];
    assert_eq!(
        line.with_port(1, |ring| ring.queue(&bytes)),
        Ok(FIFO_SIZE + 6)
    );
    assert_eq!(
        format!("{line:?}"),
        "SharedLine { ports: [None, Some(Waiting { transmit_len: 6, receive_len: 0 }), None], .. }"
    );
    let within = line.with_port(1, |_ring| format!("{line:?}"));
    assert_eq!(within.unwrap(), "SharedLine { ports: InUse, .. }");
}

#[test]
fn ports_come_and_go() {
    let (line, cable) = (Line::new(Alone), Cable::default());
    assert_eq!(handle(&line), Ok(false));
    for port in [0, 2, 3, usize::MAX] {
        assert_eq!(line.with_port(port, |_ring| ()), Err(SharedError::NoRings));
        assert_eq!(line.handled(port), Err(SharedError::NoRings));
        assert_eq!(line.stop(port).err(), Some(SharedError::NoRings));
    }
    let refused = |port, tx| {
        let refused = line.start(port, memory().global(), uart(&cable), tx, 1);
        refused.unwrap_err().cause
    };
    assert_eq!(refused(0, 0), StartError::NoRings(RingError::BadCapacity));
    assert_eq!(refused(3, 1), StartError::NoPlace);
    start(&line, 2, &cable);
    assert_eq!(refused(2, 1), StartError::Started);
    assert_eq!(
        line.with_port(2, |_ring| refused(0, 1)),
        Ok(StartError::InUse)
    );
    assert_eq!(line.with_port(2, |ring| ring.queue(b"abc")), Ok(3));
    assert_eq!(line.stop(2).unwrap().transmit_len(), 0);
    assert_eq!(line.with_port(2, |_ring| ()), Err(SharedError::NoRings));
    cable.chip().send_all();
    start(&line, 2, &cable);
    assert_eq!(
        StartError::NoPlace.to_string(),
        "the line has no such place"
    );
}

#[test]
fn a_call_within_a_call_is_refused_at_each_port() {
    let (line, cables) = (Line::new(Alone), [Cable::default(), Cable::default()]);
    start(&line, 0, &cables[0]);
    start(&line, 1, &cables[1]);
    for port in [0, 1, 2] {
        let within = line.with_port(0, |_ring| line.with_port(port, |_ring| ()));
        assert_eq!(within, Ok(Err(SharedError::InUse)));
        let within = line.with_port(0, |_ring| line.handled(port));
        assert_eq!(within, Ok(Err(SharedError::InUse)));
    }
    assert_eq!(
        line.with_port(1, |_ring| handle(&line)),
        Ok(Err(SharedError::InUse))
    );
}

#[test]
fn each_port_is_served_and_keeps_its_interrupts() {
    let (line, cables) = (Line::new(Alone), [Cable::default(), Cable::default()]);
    start(&line, 0, &cables[0]);
    start(&line, 2, &cables[1]);
    cables[0].chip().received.extend(b"a");
    cables[1].chip().received.extend([b'b'; 20]);
    assert_eq!(handle(&line), Ok(true));
    for (port, cable, bytes) in [(0, &cables[0], 1), (2, &cables[1], 20)] {
        let handled = line.handled(port).unwrap();
        assert_eq!((handled.end, handled.served > 0), (HandleEnd::Idle, true));
        assert_eq!(line.with_port(port, |ring| ring.receive_len()), Ok(bytes));
        assert_eq!(ier(&line, port), INTERRUPTS);
        assert!(!cable.chip().is_interrupting());
    }
    assert_eq!(handle(&line), Ok(false));
    assert_eq!(line.handled(2).map(|handled| handled.served), Ok(0));

    // What the rings enable themselves stays so.
    assert_eq!(line.with_port(2, |ring| ring.queue(&[b'c'; 20])), Ok(20));
    assert_eq!(ier(&line, 2), INTERRUPTS | IER::THR_EMPTY);
    assert_eq!(handle(&line), Ok(false));
    assert_eq!(ier(&line, 2), INTERRUPTS | IER::THR_EMPTY);
    cables[1].chip().send_all();
    assert_eq!(handle(&line), Ok(true));
    assert_eq!(line.with_port(2, |ring| ring.transmit_len()), Ok(0));
    assert_eq!(ier(&line, 2), INTERRUPTS);
}

#[test]
fn a_chip_that_is_stuck_is_off_alone() {
    let (line, cables) = (Line::new(Alone), [Cable::default(), Cable::default()]);
    start(&line, 0, &cables[0]);
    start(&line, 1, &cables[1]);
    for (shown, cause) in [
        (0xc8, StuckError::Unknown(ISR::from_bits_retain(0xc8))),
        (0xcc, StuckError::Pending(InterruptType::ReceptionTimeout)),
    ] {
        cables[0].chip().shown = Some(shown);
        for _round in 0..MAX_UNFINISHED_ROUNDS {
            cables[1].chip().received.push_back(b'a');
            assert_eq!(handle(&line), Ok(true));
        }
        assert_eq!(line.handled(0), Err(SharedError::Stuck(cause)));
        assert_eq!(ier(&line, 0), IER::empty());
        assert!(!cables[0].chip().is_interrupting());
        assert_eq!(line.handled(1).map(|handled| handled.served), Ok(1));
        assert_eq!(ier(&line, 1), INTERRUPTS);
        assert_eq!(handle(&line), Ok(false));
        cables[0].chip().shown = None;
        line.with_port(0, |ring| ring.restart(INTERRUPTS)).unwrap();
        assert_eq!(handle(&line), Ok(false));
        assert_eq!(line.handled(0).map(|handled| handled.served), Ok(0));
        assert_eq!(ier(&line, 0), INTERRUPTS);
    }
}

// ---- tasks and threads at a port of a line

/// A waker that counts, and panics if it is to.
#[derive(Default)]
struct Count {
    woken: AtomicUsize,
    panics: bool,
}

impl Wake for Count {
    fn wake(self: Arc<Self>) {
        self.woken.fetch_add(1, Ordering::SeqCst);
        assert!(!self.panics, "on purpose");
    }
}

/// Starts two ports, whose tasks wait: a reader at each end, and a writer for room. Returns how often each was woken, in this order.
fn tasks_wait(line: &Line, cables: &[Cable; 2], panics: Option<usize>) -> [Arc<Count>; 4] {
    let counts = [0, 1, 2, 3].map(|task| {
        Arc::new(Count {
            panics: panics == Some(task),
            ..Count::default()
        })
    });
    for (number, cable) in cables.iter().enumerate() {
        start(line, number, cable);
        let port = line.port(number);
        assert_eq!(port.with(|ring| ring.queue(&[0; FIFO_SIZE])), Ok(FIFO_SIZE));
        assert_eq!(port.with(|ring| ring.queue(&[0; CAPACITY])), Ok(CAPACITY));
        let wakers = [0, 1].map(|end| Waker::from(Arc::clone(&counts[2 * number + end])));
        let [mut reader, mut writer] = wakers.each_ref().map(Context::from_waker);
        assert!(port.poll_read(&mut reader, &mut [0]).is_pending());
        assert!(port.poll_write(&mut writer, b"x").is_pending());
    }
    counts
}

fn woken(counts: &[Arc<Count>; 4]) -> [usize; 4] {
    counts.each_ref().map(|count| count.woken.swap(0, Ordering::SeqCst))
}

#[test]
fn the_tasks_of_each_port_are_woken_by_what_comes_there() {
    let (line, cables) = (Line::new(Alone), <[Cable; 2]>::default());
    let counts = tasks_wait(&line, &cables, None);
    assert_eq!(woken(&counts), [0; 4]);
    cables[1].chip().received.extend(b"hi");
    assert_eq!(handle(&line), Ok(true));
    assert_eq!(woken(&counts), [0, 0, 1, 0]);
    let mut slots = [0; 4];
    let mut context = Context::from_waker(Waker::noop());
    let polled = line.port(1).poll_read(&mut context, &mut slots);
    assert_eq!(polled, Poll::Ready(Ok(2)));
    assert_eq!(&slots[..2], b"hi");
    cables[0].chip().send_all();
    assert_eq!(handle(&line), Ok(true));
    assert_eq!(woken(&counts), [0, 1, 0, 0]);
    // The tasks of a port that goes are told.
    assert!(line.stop(0).is_ok());
    assert_eq!(woken(&counts), [1, 0, 0, 0]);
    let gone = line.port(0).poll_read(&mut context, &mut slots);
    assert_eq!(gone, Poll::Ready(Err(SharedError::NoRings)));
    let never = line.port(3).poll_write(&mut context, b"x");
    assert_eq!(never, Poll::Ready(Err(SharedError::NoRings)));
}

#[test]
fn a_waker_that_panics_loses_no_wake_at_any_port() {
    for panics in 0..4 {
        let (line, cables) = (Line::new(Alone), <[Cable; 2]>::default());
        let counts = tasks_wait(&line, &cables, Some(panics));
        for cable in &cables {
            cable.chip().received.push_back(b'a');
            cable.chip().send_all();
        }
        let call = std::panic::AssertUnwindSafe(|| handle(&line));
        assert!(std::panic::catch_unwind(call).is_err());
        assert_eq!(woken(&counts), [1; 4], "task {panics} panics");
        assert!(handle(&line).is_ok());
        assert_eq!(woken(&counts), [0; 4]);
    }
}

#[test]
fn a_handler_in_the_middle_of_a_call_at_a_line_is_served_at_its_end() {
    let (line, cables) = (Line::new(Alone), <[Cable; 2]>::default());
    for (port, cable) in cables.iter().enumerate() {
        start(&line, port, cable);
    }
    let refused = line.with_port(0, |ring| {
        // Both chips hold the line high, and a controller that detects edges saw one edge.
        cables[0].chip().received.extend(b"a");
        cables[1].chip().received.extend(b"bc");
        let refused = handle(&line);
        assert_eq!(ring.receive_len(), 0);
        refused
    });
    assert_eq!(refused, Ok(Err(SharedError::InUse)));
    let waiting = [0, 1].map(|port| line.with_port(port, |ring| ring.receive_len()));
    assert_eq!(waiting, [Ok(1), Ok(2)]);
    assert!(cables.iter().all(|cable| !cable.chip().is_interrupting()));
}

/// A thread that waits so many times, and lets the chip send and the handler run meanwhile.
struct Turns<'a> {
    line: &'a Line,
    cable: &'a Cable,
    left: u32,
}

impl Wait for Turns<'_> {
    fn wait(&mut self, _is_there: impl FnMut() -> bool) -> bool {
        self.cable.chip().send_all();
        let _served = handle(self.line);
        self.left = self.left.saturating_sub(1);
        self.left > 0
    }
}

#[test]
fn a_thread_waits_at_a_port_of_a_line() {
    let (line, cable) = (Line::new(Alone), Cable::default());
    start(&line, 2, &cable);
    let turns = |left| Turns {
        line: &line,
        cable: &cable,
        left,
    };
    let mut port = line.port(2).blocking(turns(1000));
    let text = [b't'; 5 * CAPACITY];
    assert_eq!(port.send_bytes_exact(&text), Ok(()));
    assert_eq!(writeln!(port, "{}", 1), Ok(()));
    assert_eq!(port.flush(), Ok(()));
    assert_eq!(cable.chip().wire, [text.as_slice(), b"1\n"].concat());
    cable.chip().received.extend(b"abc");
    let mut slots = [0; 4];
    let taken = line.port(2).blocking(turns(20)).receive_bytes_exact(&mut slots);
    assert_eq!(taken.map_err(|unfinished| unfinished.done), Err(3));
    assert_eq!(&slots[..3], b"abc");
    let nowhere = line.port(0).blocking(turns(2)).send_bytes_exact(b"x");
    assert_eq!(nowhere.map_err(|unfinished| unfinished.cause), Err(SharedError::NoRings));
}
