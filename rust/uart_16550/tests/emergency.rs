//! Last words, after a driver that stopped at each access of each of its calls, on chips that are stuck, and where none is.

use std::collections::VecDeque;
use std::fmt::Write;
use std::num::NonZeroU64;
use std::panic::{AssertUnwindSafe, catch_unwind, resume_unwind};
use std::sync::{Arc, Mutex, MutexGuard};
use uart_16550::emergency::EmergencyConsole;
use uart_16550::native::backend::Backend;
use uart_16550::native::{AttachError, BaudRate, Config, StalledError, Uart16550};
use uart_16550::ring::{Memory, Uart16550Ring};
use uart_16550::rs485::{Direction, DirectionLine, HalfDuplexRing};
use uart_16550::shared::{CriticalSection, Shared, SharedBus, SharedLine};
use uart_16550::spec::registers::{IER, LCR, LSR, MCR, offsets};

// After how many accesses a character has left the transmitter.
const ACCESSES_FOR_A_CHARACTER: usize = 4;

const PATIENCE: NonZeroU64 = NonZeroU64::new(200).unwrap();

const CONFIG: Config = Config {
    baud_rate: BaudRate::Baud38400,
    interrupts: IER::DATA_READY,
    ..Config::DEFAULT
};
const DIVISOR: u16 = 3;

// What is in the transmitter when a call begins.
const BEFORE: &[u8] = b"before, ";

/// A character on the line, with the divisor and the frame with which it was sent.
type Sent = (u8, u16, u8);

#[derive(Default)]
struct Chip {
    cells: [u8; 8],
    latch: [u8; 2],
    transmit: VecDeque<u8>,
    received: VecDeque<u8>,
    line: Vec<Sent>,
    accesses: usize,
    /// The accesses after which its user stops.
    stops_after: Option<usize>,
    is_stuck: bool,
    /// It ignores writes to LCR as long as it sends.
    is_busy_while_sending: bool,
    /// It has room for one character, and loses what is written beyond that.
    has_no_fifo: bool,
}

impl Chip {
    fn is_in_loopback(&self) -> bool {
        self.cells[offsets::MCR] & MCR::LOOP_BACK.bits() != 0
    }

    fn lcr(&self) -> LCR {
        LCR::from_bits_retain(self.cells[offsets::LCR])
    }

    // An access takes time.
    fn pass(&mut self) {
        self.accesses += 1;
        let holds = self.is_stuck || self.latch == [0, 0];
        if holds || self.accesses % ACCESSES_FOR_A_CHARACTER != 0 {
            return;
        }
        let Some(byte) = self.transmit.pop_front() else {
            return;
        };
        if self.is_in_loopback() {
            self.received.push_back(byte);
        } else if !self.lcr().contains(LCR::SET_BREAK) {
            let frame = self.lcr().difference(LCR::DLAB).bits();
            self.line
                .push((byte, u16::from_le_bytes(self.latch), frame));
        }
    }

    fn read(&mut self, offset: usize) -> u8 {
        self.pass();
        let is_latched = self.lcr().contains(LCR::DLAB);
        match offset {
            offsets::DATA | offsets::IER if is_latched => self.latch[offset],
            offsets::DATA => self.received.pop_front().unwrap_or(0),
            offsets::ISR => 0xc1,
            offsets::LSR => {
                let mut lsr = LSR::empty();
                lsr.set(LSR::DATA_READY, !self.received.is_empty());
                lsr.set(
                    LSR::THR_EMPTY | LSR::TRANSMITTER_EMPTY,
                    self.transmit.is_empty(),
                );
                lsr.bits()
            }
            offset => self.cells[offset],
        }
    }

    fn write(&mut self, offset: usize, value: u8) {
        self.pass();
        let is_latched = self.lcr().contains(LCR::DLAB);
        let is_busy = self.is_busy_while_sending && !self.transmit.is_empty();
        match offset {
            offsets::DATA | offsets::IER if is_latched => self.latch[offset] = value,
            offsets::DATA if self.has_no_fifo && !self.transmit.is_empty() => {}
            offsets::DATA => self.transmit.push_back(value),
            offsets::FCR => {}
            offsets::LCR if is_busy => {}
            offset => self.cells[offset] = value,
        }
    }

    /// What was sent with the right divisor and eight data bits, as bytes.
    fn text(&self) -> Vec<u8> {
        let right = LCR::from_bits_retain(0x03).bits();
        let is_right = |sent: &&Sent| sent.1 == DIVISOR && sent.2 == right;
        self.line
            .iter()
            .filter(is_right)
            .map(|sent| sent.0)
            .collect()
    }
}

/// The way to a chip. Its user stops as if it had panicked, and never goes on.
#[derive(Clone, Default)]
struct Cable(Arc<Mutex<Chip>>);

struct Stopped;

impl Cable {
    fn chip(&self) -> MutexGuard<'_, Chip> {
        self.0.lock().unwrap()
    }

    fn stop_if_due(&self) {
        let is_due = {
            let chip = self.chip();
            chip.stops_after.is_some_and(|limit| chip.accesses >= limit)
        };
        if is_due {
            resume_unwind(Box::new(Stopped));
        }
    }
}

impl Backend for Cable {
    fn read(&mut self, register_offset: u8) -> u8 {
        self.stop_if_due();
        self.chip().read(register_offset.into())
    }

    fn write(&mut self, register_offset: u8, value: u8) {
        self.stop_if_due();
        self.chip().write(register_offset.into(), value);
    }
}

fn take_over(cable: &Cable) -> Result<EmergencyConsole<Cable>, AttachError> {
    // SAFETY: the driver before has stopped.
    unsafe { EmergencyConsole::take_over(cable.clone(), PATIENCE) }
}

type Call = fn(&mut Uart16550<Cable>);

const CALLS: [(&str, Call); 6] = [
    ("send_bytes", |uart| {
        uart.send_bytes(b"sent before");
    }),
    ("send_bytes_exact", |uart| {
        let _ = uart.send_bytes_exact(b"sent before, and longer");
    }),
    ("init", |uart| {
        let _ = uart.init(CONFIG);
    }),
    ("set_frame", |uart| {
        let other = Config {
            baud_rate: BaudRate::Baud9600,
            ..CONFIG
        };
        let _ = uart.set_frame(&other);
    }),
    ("dll_dlm", |uart| {
        uart.dll_dlm();
    }),
    ("test_loopback", |uart| {
        let _ = uart.test_loopback();
    }),
];

/// Stops the call at this access. Returns the chip, or nothing if the call makes no more accesses.
fn stopped_at(call: Call, access: usize, is_busy_while_sending: bool) -> Option<Cable> {
    let cable = Cable::default();
    cable.chip().is_busy_while_sending = is_busy_while_sending;
    let mut uart = Uart16550::new_with_backend(cable.clone());
    uart.init(CONFIG).unwrap();
    if is_busy_while_sending {
        uart.send_bytes(BEFORE);
    }
    let stops_after = cable.chip().accesses + access;
    cable.chip().stops_after = Some(stops_after);
    let ended = catch_unwind(AssertUnwindSafe(|| call(&mut uart)));
    cable.chip().stops_after = None;
    match ended {
        Ok(()) => None,
        Err(cause) if cause.is::<Stopped>() => Some(cable),
        Err(cause) => resume_unwind(cause),
    }
}

/// Calls the function with a chip for each access of each call.
fn each_stop(is_busy_while_sending: bool, check: impl Fn(&str, usize, &Cable)) {
    for (name, call) in CALLS {
        let mut access = 0;
        while let Some(cable) = stopped_at(call, access, is_busy_while_sending) {
            check(name, access, &cable);
            access += 1;
            assert!(access < 10_000, "{name} has no end");
        }
        assert!(access > 0, "{name} was not stopped");
    }
}

#[test]
fn the_text_arrives_after_a_stop_at_each_access_of_each_call() {
    for is_busy_while_sending in [false, true] {
        each_stop(is_busy_while_sending, |name, access, cable| {
            let before = cable.chip().accesses;
            let mut console = take_over(cable).unwrap();
            assert_eq!(console.set_frame(&CONFIG), Ok(()));
            let what = "memory";
            assert!(writeln!(console, "no {what}").is_ok());
            assert_eq!(console.send_bytes(b"\xff"), Ok(()));
            assert_eq!(console.flush(), Ok(()));
            let chip = cable.chip();
            let text = chip.text();
            assert!(
                text.ends_with(b"no memory\r\n\xff"),
                "{name} stopped at {access}: {:?}",
                chip.line
            );
            assert_eq!(chip.cells[offsets::IER], 0);
            assert!(chip.accesses - before < 500);
        });
    }
}

#[test]
fn a_port_that_ran_keeps_its_frame_and_what_it_sent() {
    each_stop(false, |name, access, cable| {
        if ["init", "set_frame"].contains(&name) {
            return;
        }
        let mut console = take_over(cable).unwrap();
        assert!(console.write_str("last").is_ok());
        assert_eq!(console.flush(), Ok(()));
        let text = cable.chip().text();
        assert!(text.ends_with(b"last"), "{name} stopped at {access}");
        if name.starts_with("send") {
            let sent = &text[..text.len() - 4];
            assert!(
                b"sent before, and longer".starts_with(sent),
                "{name} stopped at {access}"
            );
        }
    });
}

#[test]
fn a_break_ends_as_soon_as_the_chip_lets_it() {
    let cable = Cable::default();
    cable.chip().is_busy_while_sending = true;
    let mut uart = Uart16550::new_with_backend(cable.clone());
    uart.init(CONFIG).unwrap();
    uart.set_break(true);
    // What is sent in a break is lost, and LCR cannot be written until it is.
    uart.send_bytes(BEFORE);
    let mut console = take_over(&cable).unwrap();
    assert_eq!(console.send_bytes(b"after"), Ok(()));
    assert_eq!(console.flush(), Ok(()));
    assert_eq!(cable.chip().text(), b"after");
}

/// A 16450 has none, and an `init` that a panic ended may have switched them off.
#[test]
fn no_byte_is_lost_where_fifos_are_off() {
    const BYTES: &[u8] = b"more than a FIFO of 16 holds";
    let cable = Cable::default();
    let mut uart = Uart16550::new_with_backend(cable.clone());
    uart.init(CONFIG).unwrap();
    cable.chip().has_no_fifo = true;
    let mut console = take_over(&cable).unwrap();
    assert_eq!(console.send_bytes(BYTES), Ok(()));
    assert_eq!(console.write_raw_text(BYTES), Ok(()));
    assert_eq!(console.flush(), Ok(()));
    let mut uart = console.into_inner();
    assert_eq!(uart.send_bytes_exact(BYTES), Ok(()));
    while !cable.chip().transmit.is_empty() {
        cable.chip().pass();
    }
    assert_eq!(cable.chip().text(), [BYTES, BYTES, BYTES].concat());
}

/// A chip whose LCR keeps these bits set.
struct KeepsBits(LCR);

impl Backend for KeepsBits {
    fn read(&mut self, register_offset: u8) -> u8 {
        if usize::from(register_offset) == offsets::LCR {
            self.0.bits()
        } else {
            0
        }
    }

    fn write(&mut self, _register_offset: u8, _value: u8) {}
}

#[test]
fn a_break_or_a_latch_that_does_not_end_is_refused() {
    for kept in [LCR::SET_BREAK, LCR::DLAB, LCR::SET_BREAK | LCR::DLAB] {
        let keeps = KeepsBits(kept | LCR::WORD_LENGTH);
        // SAFETY: nobody else has it.
        let refused = unsafe { EmergencyConsole::take_over(keeps, PATIENCE) }.err();
        assert_eq!(refused, Some(AttachError::DivisorLatchOpen), "{kept:?}");
    }
}

/// The general outputs may be wired to anything, as to the gate of a PC's interrupt line: they stay. Loopback and the chip's flow
/// control end, and the remote may send and receive.
#[test]
fn outputs_of_the_board_stay_as_they_are() {
    const FLOW_CONTROL: MCR = MCR::from_bits_retain(0x20);
    let outputs = [MCR::empty(), MCR::OUT_1, MCR::OUT_2_INT_ENABLE];
    for kept in outputs
        .into_iter()
        .chain([MCR::OUT_1 | MCR::OUT_2_INT_ENABLE])
    {
        for others in [MCR::empty(), MCR::LOOP_BACK | FLOW_CONTROL | MCR::DTR] {
            let cable = Cable::default();
            cable.chip().cells[offsets::MCR] = (kept | others).bits();
            assert!(take_over(&cable).is_ok());
            let left = MCR::from_bits_retain(cable.chip().cells[offsets::MCR]);
            assert_eq!(left, kept | MCR::DTR | MCR::RTS);
        }
    }
}

#[test]
fn what_was_sent_before_keeps_its_frame() {
    let cable = Cable::default();
    let mut uart = Uart16550::new_with_backend(cable.clone());
    uart.init(CONFIG).unwrap();
    uart.send_bytes(BEFORE);
    let slower = Config {
        baud_rate: BaudRate::Baud9600,
        ..CONFIG
    };
    let mut console = take_over(&cable).unwrap();
    assert_eq!(console.set_frame(&slower), Ok(()));
    assert_eq!(console.send_bytes(b"after"), Ok(()));
    assert_eq!(console.flush(), Ok(()));
    assert_eq!(cable.chip().text(), BEFORE);
    assert_eq!(cable.chip().line.len(), BEFORE.len() + 5);
}

#[test]
fn a_chip_that_is_stuck_ends_the_text_and_not_the_machine() {
    let cable = Cable::default();
    let mut uart = Uart16550::new_with_backend(cable.clone());
    uart.init(CONFIG).unwrap();
    uart.send_bytes(b"x");
    cable.chip().is_stuck = true;
    let mut console = take_over(&cable).unwrap();
    let before = cable.chip().accesses;
    for _line in 0..100 {
        assert!(writeln!(console, "a long text that nobody gets").is_err());
    }
    let accesses = cable.chip().accesses - before;
    assert!(accesses < 600, "{accesses} accesses");
    assert_eq!(console.send_bytes(b"abc"), Err(StalledError { done: 0 }));
    // So it is if the first text that nobody gets is raw.
    let mut console = take_over(&cable).unwrap();
    let before = cable.chip().accesses;
    for _line in 0..100 {
        assert!(
            console
                .write_raw_text(b"a long text that nobody gets")
                .is_err()
        );
    }
    let accesses = cable.chip().accesses - before;
    assert!(accesses < 600, "{accesses} accesses");
    cable.chip().is_stuck = false;
    while !cable.chip().transmit.is_empty() {
        cable.chip().pass();
    }
    // The first byte finds room, and the second one waits no longer.
    assert_eq!(console.send_bytes(b"a"), Ok(()));
    assert_eq!(console.send_bytes(b"bc"), Ok(()));
    assert_eq!(console.flush(), Ok(()));
    assert_eq!(cable.chip().text(), b"xabc");
}

// ---- what waited in rings

const CAPACITY: usize = 256;
const FIFO_SIZE: usize = 16;

/// A section that keeps nobody out, since nobody else is there.
struct Alone;

impl CriticalSection for Alone {
    fn run<R>(&self, call: impl FnOnce() -> R) -> R {
        call()
    }
}

/// The lines before a panic: 250 bytes.
fn lines() -> Vec<u8> {
    (0..25)
        .flat_map(|number| {
            format!("line {number:03}\n")
                .into_bytes()
                .into_iter()
                .chain([b' '])
        })
        .collect()
}

fn memory() -> Memory {
    Memory::new(vec![0; 2 * CAPACITY].leak())
}

fn start(cable: &Cable) -> Shared<Alone, Cable> {
    let port = Shared::new(Alone);
    let uart = Uart16550::new_with_backend(cable.clone());
    let started = port.start(memory().global(), uart, CAPACITY, CAPACITY);
    started.map_err(|refused| refused.cause).unwrap();
    port.with(|ring| ring.inner_mut().init(CONFIG))
        .unwrap()
        .unwrap();
    port
}

/// What a panic handler does. Returns whether what was queued and the last words were sent.
fn last_words(cable: &Cable, port: &Shared<Alone, Cable>) -> [bool; 2] {
    let mut console = take_over(cable).unwrap();
    let _ = console.set_frame(&CONFIG);
    // SAFETY: nobody goes on with a call over the port.
    let queued = unsafe { console.send_queued(port) };
    let words = write!(console, "no memory");
    let _ = console.flush();
    [queued.is_ok(), words.is_ok()]
}

#[test]
fn what_was_queued_goes_out_in_order_before_the_last_words() {
    for is_in_a_call in [false, true] {
        let cable = Cable::default();
        let port = start(&cable);
        let sent = if is_in_a_call {
            // The panic handler runs over the call in whose middle the panic came, and never returns there.
            let call = || {
                port.with(|ring| {
                    assert_eq!(ring.queue(&lines()), 250);
                    resume_unwind(Box::new(last_words(&cable, &port)));
                })
            };
            let ended = catch_unwind(AssertUnwindSafe(call)).unwrap_err();
            *ended.downcast::<[bool; 2]>().unwrap()
        } else {
            assert_eq!(port.with(|ring| ring.queue(&lines())), Ok(250));
            last_words(&cable, &port)
        };
        assert_eq!(sent, [true, true]);
        assert_eq!(cable.chip().text(), [&lines()[..], b"no memory"].concat());
        assert_eq!(cable.chip().cells[offsets::IER], 0);
    }
}

#[test]
fn what_was_queued_goes_out_after_a_stop_at_each_access() {
    let mut access = 0;
    loop {
        let cable = Cable::default();
        let port = start(&cable);
        let stops_after = cable.chip().accesses + access;
        cable.chip().stops_after = Some(stops_after);
        let ended = catch_unwind(AssertUnwindSafe(|| port.with(|ring| ring.queue(&lines()))));
        cable.chip().stops_after = None;
        if ended.is_ok() {
            break;
        }
        assert_eq!(last_words(&cable, &port), [true, true]);
        let text = cable.chip().text();
        // The bytes of the burst in which it stopped may be there twice.
        let twice = |burst: usize| [&lines()[..burst], &lines()[..], b"no memory"].concat();
        assert!(
            (0..=FIFO_SIZE).any(|burst| text == twice(burst)) || text == twice(0),
            "stopped at {access}: {:?}",
            String::from_utf8_lossy(&text)
        );
        access += 1;
    }
    assert!(access > FIFO_SIZE);
}

#[test]
fn what_is_held_or_wraps_in_the_ring_goes_out_too() {
    let cable = Cable::default();
    let port = start(&cable);
    let first = vec![b'.'; 200];
    port.with(|ring| assert_eq!(ring.queue(&first), 200))
        .unwrap();
    while port.with(|ring| ring.transmit_len()).unwrap() > 0 {
        port.with(|ring| ring.resume_transmit()).unwrap();
    }
    port.with(|ring| {
        ring.hold_transmit();
        assert_eq!(ring.queue(&lines()), 250);
        assert!(!ring.queued().1.is_empty());
    })
    .unwrap();
    assert_eq!(last_words(&cable, &port), [true, true]);
    assert_eq!(
        cable.chip().text(),
        [&first, &lines()[..], b"no memory"].concat()
    );
}

#[test]
fn a_chip_that_is_stuck_ends_what_was_queued() {
    let cable = Cable::default();
    let port = start(&cable);
    cable.chip().is_stuck = true;
    assert_eq!(port.with(|ring| ring.queue(&lines())), Ok(250));
    let before = cable.chip().accesses;
    assert_eq!(last_words(&cable, &port), [false, false]);
    let accesses = cable.chip().accesses - before;
    assert!(accesses < 1000, "{accesses} accesses");
    // Each error tells how many bytes were sent.
    let mut console = take_over(&cable).unwrap();
    // SAFETY: nobody goes on with a call over the port.
    let stalled = unsafe { console.send_queued(&port) };
    assert_eq!(stalled, Err(StalledError { done: 0 }));
}

#[test]
fn lines_and_buses_have_their_last_words_too() {
    let cable = Cable::default();
    let line = SharedLine::<_, _, 2>::new(Alone);
    let started = line.start(
        1,
        memory().global(),
        Uart16550::new_with_backend(cable.clone()),
        CAPACITY,
        CAPACITY,
    );
    started.map_err(|refused| refused.cause).unwrap();
    line.with_port(1, |ring| ring.hold_transmit()).unwrap();
    assert_eq!(line.with_port(1, |ring| ring.queue(b"line, ")), Ok(6));

    let ring = Uart16550Ring::new(
        memory().global(),
        Uart16550::new_with_backend(Cable::default()),
        CAPACITY,
        CAPACITY,
    );
    let direction = Direction {
        line: DirectionLine::Rts,
        sends_when_set: true,
    };
    let bus = HalfDuplexRing::new(ring.map_err(|refused| refused.cause).unwrap(), direction);
    let shared = SharedBus::new(Alone);
    assert!(
        shared
            .start_with(bus.map_err(|refused| refused.cause).unwrap())
            .is_ok()
    );
    shared.with(|bus| bus.start_sending()).unwrap();
    assert_eq!(shared.with(|bus| bus.queue(&lines())), Ok(Ok(250)));

    let mut console = take_over(&cable).unwrap();
    assert_eq!(console.set_frame(&CONFIG), Ok(()));
    // SAFETY: nobody goes on with a call over any of them.
    unsafe {
        assert_eq!(console.send_queued(&line.port(0)), Ok(()));
        assert_eq!(console.send_queued(&line.port(7)), Ok(()));
        assert_eq!(console.send_queued(&Shared::<_, Cable>::new(Alone)), Ok(()));
        assert_eq!(console.send_queued(&line.port(1)), Ok(()));
        assert_eq!(console.send_queued(&shared), Ok(()));
    }
    assert_eq!(console.flush(), Ok(()));
    let text = cable.chip().text();
    assert_eq!(text, [b"line, ", &lines()[FIFO_SIZE..]].concat());
}

/// What is at an address where nothing is.
struct Nothing;

impl Backend for Nothing {
    fn read(&mut self, _register_offset: u8) -> u8 {
        0xff
    }

    fn write(&mut self, _register_offset: u8, _value: u8) {}
}

/// A chip whose MCR does not change.
struct LoopedForEver;

impl Backend for LoopedForEver {
    fn read(&mut self, register_offset: u8) -> u8 {
        if usize::from(register_offset) == offsets::MCR {
            0x10
        } else {
            0
        }
    }

    fn write(&mut self, _register_offset: u8, _value: u8) {}
}

#[test]
fn what_is_no_device_is_refused() {
    // SAFETY: nobody else has them.
    let (nothing, looped) = unsafe {
        (
            EmergencyConsole::take_over(Nothing, PATIENCE).err(),
            EmergencyConsole::take_over(LoopedForEver, PATIENCE).err(),
        )
    };
    assert_eq!(nothing, Some(AttachError::DivisorLatchOpen));
    assert_eq!(looped, Some(AttachError::Loopback));
    let not_computable = Config {
        frequency: 0,
        ..CONFIG
    };
    let cable = Cable::default();
    assert!(
        take_over(&cable)
            .unwrap()
            .set_frame(&not_computable)
            .is_err()
    );
}
