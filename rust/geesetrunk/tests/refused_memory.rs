//! Refuses each request for memory in turn: each call of a proved crate reports it, or needs less, and
//! none ends the process.

use geesetrunk::heap;
use geesetrunk::judging::{Judge, judge_recording};
use geesetrunk::known::Known;
use geesetrunk_kit::Vec as List;
use geesetrunk_kit::alloc::AllocError;
use geesetrunk_kit_of_rings::alloc::Global;
use std::alloc::{GlobalAlloc, Layout, System};
use std::cell::Cell;
use std::fmt::Debug;
use std::num::NonZeroU64;
use std::ptr;
use uart_16550::Uart16550;
use uart_16550::backend::Backend;
use uart_calls::replay::Replay;
use uart_chip::{BuildError, Chip, Device16550, Event};
use uart_judges::findings;
use uart_language::ScriptError;
use uart_play::{PlayError, Std, play};
use uart_ring::{ErrorNotes, Refused, RingError, Uart16550Ring};
use uart_spec::access::Access;
use uart_spec::registers::offsets;
use uart_spec::{Config, FifoSize};
use uart_trace::{Listener, Remarks, plain, tell, trace};

thread_local! {
    // How many requests are granted before one is refused, and whether one was. Of this thread alone: what runs the test asks for
    // memory in another one meanwhile.
    static LEFT: Cell<usize> = const { Cell::new(usize::MAX) };
    static HAS_REFUSED: Cell<bool> = const { Cell::new(false) };
}

struct Refusing;

fn is_refused() -> bool {
    let left = LEFT.get();
    if left == usize::MAX {
        return false;
    }
    LEFT.set(left.wrapping_sub(1));
    if left == 0 {
        HAS_REFUSED.set(true);
    }
    left == 0
}

// SAFETY: each request is one to `System`, or returns null, as a refused request does.
unsafe impl GlobalAlloc for Refusing {
    unsafe fn alloc(&self, layout: Layout) -> *mut u8 {
        if is_refused() {
            return ptr::null_mut();
        }
        // SAFETY: the caller keeps what `GlobalAlloc` requires, which is what `System` requires.
        unsafe { System.alloc(layout) }
    }

    unsafe fn realloc(&self, old: *mut u8, layout: Layout, size: usize) -> *mut u8 {
        if is_refused() {
            return ptr::null_mut();
        }
        // SAFETY: as above, and `old` is from `System`.
        unsafe { System.realloc(old, layout, size) }
    }

    unsafe fn dealloc(&self, old: *mut u8, layout: Layout) {
        // SAFETY: as above, and `old` is from `System`.
        unsafe { System.dealloc(old, layout) }
    }
}

#[global_allocator]
static ALLOCATOR: Refusing = Refusing;

// Makes a call with each of its requests refused in turn.
fn each<T: PartialEq + Debug>(name: &str, refusal: T, call: impl Fn() -> T) {
    let expected = call();
    for granted in 0.. {
        HAS_REFUSED.set(false);
        LEFT.set(granted);
        let result = call();
        LEFT.set(usize::MAX);
        if !HAS_REFUSED.get() {
            assert_eq!(result, expected, "{name}");
            println!("{name}: {granted} requests refused");
            return;
        }
        assert!(result == refusal, "{name}, refused {granted}: {result:?}");
    }
}

const SCRIPT: &[u8] = include_bytes!("../../../examples/several-errors.script");
const TRACE: &[u8] = include_bytes!("../../../examples/traces/forgets-an-overrun.trace");
const RECORDING: &[u8] = include_bytes!("../../../examples/recordings/wrong-driver.recording");

// Counts the accesses of a run.
struct Counter(u64);

impl Listener for Counter {
    fn begin(&mut self) {}

    fn hear(&mut self, _access: Access) {
        self.0 += 1;
    }

    fn end(&mut self) {}
}

// A trace without comments.
struct Silent;

impl Remarks for Silent {
    fn call(&mut self) -> Result<(), AllocError> {
        Ok(())
    }

    fn access(
        &mut self,
        _access: Access,
        _before: &mut List<u8>,
        _beside: &mut List<u8>,
    ) -> Result<(), AllocError> {
        Ok(())
    }

    fn returned(&mut self, _after: &mut List<u8>) -> Result<(), AllocError> {
        Ok(())
    }
}

// A schedule of so many arrivals. Its memory is granted.
fn schedule() -> List<Event> {
    let left = LEFT.replace(usize::MAX);
    let mut events = List::new(heap());
    events.push(Event::Mark).unwrap();
    for byte in 1..=9 {
        events.push(Event::Arrive { byte, errors: 0 }).unwrap();
    }
    LEFT.set(left);
    events
}

// What a machine has come to that was made: a byte that is written to DATA is held, all characters arrive, and each waits.
fn used(
    built: Result<Device16550, BuildError>,
) -> Result<(Option<u8>, usize, Option<u8>), BuildError> {
    built.map(|mut machine| {
        machine.write(offsets::DATA as u8, 0xff);
        machine.next();
        machine.next();
        (
            machine.held_at(0),
            machine.arrivals(),
            machine.waiting_at(0),
        )
    })
}

// A driver whose spin limit was set, and that has saved errors.
fn used_driver() -> Uart16550<Replay<'static>> {
    let mut uart = Uart16550::new_with_backend(Replay::new(&[0x1e, 0x60, 0x0f]));
    uart.set_spin_limit(NonZeroU64::new(7).unwrap());
    let _ = uart.ready_to_receive();
    uart
}

// Whether it is still that driver: its settings, its only access so far, the errors that it saved, and what its reads will return.
fn is_unchanged(mut uart: Uart16550<Replay<'static>>) -> bool {
    uart.config() == &Config::DEFAULT
        && uart.fifo_enabled()
        && uart.spin_limit().get() == 7
        && uart.backend().accesses() == Some(&[Access::Read(offsets::LSR, 0x1e)])
        && (uart.lsr().bits(), uart.msr().bits()) == (0x7e, 0x0f)
}

// Makes rings over that driver. Whether they are made or refused, the driver is the same.
fn rings() -> (Result<usize, RingError>, bool) {
    match Uart16550Ring::new(Global::heap(), used_driver(), 64, 16) {
        Ok(ring) => (
            Ok(ring.transmit_len() + ring.receive_len()),
            is_unchanged(ring.into_inner()),
        ),
        Err(refused) => (Err(refused.cause), is_unchanged(refused.given)),
    }
}

// Makes notes of errors over a backend of which one read was made. If they are refused, that backend comes back.
fn notes() -> (Result<u8, RingError>, bool) {
    let is_used_once =
        |backend: &Replay<'_>| backend.accesses() == Some(&[Access::Read(offsets::LSR, 0x1e)]);
    let mut backend = Replay::new(&[0x1e, 0x60]);
    let _ = backend.read(offsets::LSR as u8);
    match ErrorNotes::new(Global::heap(), backend, 16) {
        Ok(mut notes) => {
            let is_kept = is_used_once(notes.backend());
            (Ok(notes.read(offsets::LSR as u8)), is_kept)
        }
        Err(Refused {
            given: mut backend,
            cause,
        }) => {
            let is_kept = is_used_once(&backend);
            (
                Err(cause),
                is_kept && backend.read(offsets::LSR as u8) == 0x60,
            )
        }
    }
}

// Each maker of a machine. The first and the last are of a chip that cuts no character, and the second of one that does.
fn each_machine() {
    type Make = fn() -> Result<Device16550, BuildError>;
    let makers: [(&str, u8, Make); 4] = [
        ("new", 0xff, || {
            Device16550::new(heap(), Chip::Uart16550A, 4, 64, schedule())
        }),
        ("new_cut", 0x1f, || {
            Device16550::new_cut(heap(), Chip::Uart16550A, 4, 64, schedule())
        }),
        ("new_sized", 0xff, || {
            let size = FifoSize::SixtyFour;
            Device16550::new_sized(heap(), Chip::Uart16550A, size, 4, 64, schedule(), false)
        }),
        ("new_16750", 0xff, || {
            Device16550::new_16750(heap(), 4, 64, schedule(), false)
        }),
    ];
    for (name, held, make) in makers {
        assert_eq!(used(make()), Ok((Some(held), 9, Some(9))), "{name}");
        each(name, Err(BuildError::OutOfMemory), || used(make()));
    }
}

// One test, since the allocator is one.
#[test]
fn each_request_for_memory() {
    each("play", (Err(PlayError::OutOfMemory), [0; 512]), || {
        let mut room = [0u8; 512];
        let mut output = Std::new(&mut room[..]);
        (play(heap(), &mut Std::new(SCRIPT), &mut output), room)
    });
    each("parse", None, || {
        let script = uart_language::parse(heap(), SCRIPT).ok()?;
        Some(script.calls().len())
    });
    each(
        "the accesses of a run",
        Err(ScriptError::OutOfMemory),
        || tell(heap(), SCRIPT, Counter(0)).map(|counter| counter.0),
    );
    each("trace", None, || {
        let mut room = [0u8; 4096];
        let output = Std::new(&mut room[..]);
        trace(heap(), SCRIPT, b"", Silent, output).ok()?;
        Some(room)
    });
    each("a script without its comments", None, || {
        Some(plain(heap(), b"chip 16450 4 64\n# lsr\n").ok()?.len())
    });
    each("verify", None, || {
        let line = findings::verify(heap(), TRACE, NonZeroU64::MIN, FifoSize::Sixteen).ok()?;
        Some(line.len())
    });
    each_machine();
    assert_eq!((rings(), notes()), ((Ok(0), true), (Ok(0x60), true)));
    each("rings", (Err(RingError::OutOfMemory), true), rings);
    each(
        "notes of errors",
        (Err(RingError::OutOfMemory), true),
        notes,
    );
    for judge in [Judge::Audit, Judge::Replay] {
        each("a recording", None, || {
            judge_recording(judge, &Known::default(), RECORDING, |_| Ok(())).ok()
        });
    }
}
