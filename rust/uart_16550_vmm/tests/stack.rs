//! The whole of a serial port as a monitor builds it, in random machines: bus, `Both`, `Counters`, `Input`, `Lossy`, a clock, bursts,
//! string I/O and wide accesses, a host that stops, fails and is interrupted, triggers that fail, and new processes that go on from a
//! snapshot.
//!
//! A monitor does something only when it was told to. So a guest or a host that waits for ever is found; and each byte is compared.

#![allow(
    clippy::arc_with_non_send_sync,
    reason = "whether an `Arc` passes events on is tried in one thread"
)]

use std::cell::{Cell, RefCell};
use std::collections::VecDeque;
use std::fmt;
use std::io;
use std::io::{ErrorKind, Read, Write};
use std::num::NonZeroUsize;
use std::rc::Rc;
use std::sync::Arc;
use uart_16550_chip::serial::{Error, Output};
use uart_16550_chip::{Serial, SerialEvents, SerialState, Trigger};
use uart_16550_vmm::{Both, BusSerial, Counters, Input, Lossy};

const DATA: u64 = 0;
const IER: u64 = 1;
const ISR: u64 = 2;
const FCR: u64 = 2;
const LCR: u64 = 3;
const MCR: u64 = 4;
const LSR: u64 = 5;
const MSR: u64 = 6;

const NONE_PENDING: u8 = 0x01;
const RECEIVED: u8 = 0x01;
const CAN_SEND: u8 = 0x20;
/// The interrupt for received data in IER, and that for an empty transmitter.
const TELL_RECEIVED: u8 = 0x01;
const TELL_EMPTY: u8 = 0x02;
const FIFO: usize = 16;

/// More interruptions than these are an error of a call.
const TRIES: usize = 16;
/// How many machines there are, and how much happens to each.
const MACHINES: u64 = 300;
const STEPS: usize = 60;
/// How many rounds a machine has at most in which it ends what was begun. A round in which nothing moves is the last.
const ROUNDS: usize = 100_000;
/// How many times a handler looks at most for what there is to be done.
const LOOKS: usize = 1000;

/// So many machines, or as many as `GEESETRUNK_MACHINES` says.
fn machines() -> u64 {
    std::env::var("GEESETRUNK_MACHINES").map_or(MACHINES, |machines| {
        machines.parse().expect("a number of machines")
    })
}

/// Pseudorandom numbers: xorshift.
struct Random(u64);

impl Random {
    fn below(&mut self, end: usize) -> usize {
        self.0 ^= self.0 << 13;
        self.0 ^= self.0 >> 7;
        self.0 ^= self.0 << 17;
        ((self.0 >> 11) % end as u64) as usize
    }

    fn one_in(&mut self, count: usize) -> bool {
        self.below(count) == 0
    }

    fn bytes(&mut self, most: usize) -> Vec<u8> {
        (0..=self.below(most))
            .map(|_| self.below(256) as u8)
            .collect()
    }
}

// ---- the host

/// A terminal. It stays where it is if a machine goes on in another process.
#[derive(Default)]
struct Terminal {
    typed: VecDeque<u8>,
    shown: Vec<u8>,
    /// How many bytes it takes, and whether it is there at all.
    budget: usize,
    is_gone: bool,
    /// So many calls are interrupted by a signal.
    interruptions: usize,
    /// How many writes it has taken bytes by.
    writes: usize,
}

impl Terminal {
    /// Fails as a call of a host may.
    fn fail(&mut self) -> io::Result<()> {
        if self.interruptions != 0 {
            self.interruptions -= 1;
            return Err(ErrorKind::Interrupted.into());
        }
        Ok(())
    }
}

#[derive(Clone, Default)]
struct Screen(Rc<RefCell<Terminal>>);

impl Write for Screen {
    fn write(&mut self, bytes: &[u8]) -> io::Result<usize> {
        let mut terminal = self.0.borrow_mut();
        terminal.fail()?;
        if terminal.is_gone {
            return Err(ErrorKind::BrokenPipe.into());
        }
        let taken = bytes.len().min(terminal.budget);
        if taken == 0 {
            return Err(ErrorKind::WouldBlock.into());
        }
        terminal.budget -= taken;
        terminal.writes += 1;
        terminal.shown.extend(&bytes[..taken]);
        Ok(taken)
    }

    fn flush(&mut self) -> io::Result<()> {
        Ok(())
    }
}

struct Keyboard(Rc<RefCell<Terminal>>);

impl Read for Keyboard {
    fn read(&mut self, room: &mut [u8]) -> io::Result<usize> {
        let mut terminal = self.0.borrow_mut();
        terminal.fail()?;
        // What was typed comes in pieces.
        let count = room.len().min(terminal.typed.len()).min(100);
        if count == 0 {
            return Err(ErrorKind::WouldBlock.into());
        }
        for (place, byte) in room.iter_mut().zip(terminal.typed.drain(..count)) {
            *place = byte;
        }
        Ok(count)
    }
}

/// Where the output of a device goes.
trait Host: Output<Error = io::Error> {
    fn of(screen: Screen) -> Self;
    fn dropped(&self) -> u64;
}

impl Host for Screen {
    fn of(screen: Screen) -> Self {
        screen
    }

    fn dropped(&self) -> u64 {
        0
    }
}

impl Host for Lossy<Screen> {
    fn of(screen: Screen) -> Self {
        Lossy::new(screen)
    }

    fn dropped(&self) -> u64 {
        Lossy::dropped(self)
    }
}

// ---- what a process of the monitor is told

/// What the device of a process has told, and nobody has looked at yet.
#[derive(Default)]
struct Told {
    has_room: Cell<bool>,
    timer_runs: Cell<bool>,
    /// An edge at the guest's interrupt controller.
    is_latched: Cell<bool>,
    level: Cell<bool>,
    is_broken: Cell<bool>,
}

/// What was counted beside `Counters`.
#[derive(Default)]
struct Counted {
    triggers: Cell<u64>,
    timeouts: Cell<u64>,
}

fn count(cell: &Cell<u64>) {
    cell.set(cell.get() + 1);
}

/// The guest's interrupt: each call is an edge, or the level is set at a pin that detects edges.
struct Pin {
    told: Rc<Told>,
    counted: Rc<Counted>,
    has_levels: bool,
}

impl Trigger for Pin {
    type E = io::Error;

    fn trigger(&self) -> io::Result<()> {
        if self.told.is_broken.get() {
            return Err(ErrorKind::Other.into());
        }
        count(&self.counted.triggers);
        if !self.has_levels {
            self.told.is_latched.set(true);
        }
        Ok(())
    }

    fn set_level(&self, level: bool) -> io::Result<()> {
        if self.told.is_broken.get() {
            return Err(ErrorKind::Other.into());
        }
        if !self.told.level.replace(level) && level && self.has_levels {
            self.told.is_latched.set(true);
        }
        Ok(())
    }
}

/// Wakes who has the input.
struct Room(Rc<Told>);

impl SerialEvents for Room {
    fn buffer_read(&self) {}
    fn out_byte(&self) {}
    fn tx_lost_byte(&self) {}
    fn in_buffer_empty(&self) {
        self.0.has_room.set(true);
    }
}

/// Starts the timer.
struct Timer(Rc<Told>, Rc<Counted>);

impl SerialEvents for Timer {
    fn buffer_read(&self) {}
    fn out_byte(&self) {}
    fn tx_lost_byte(&self) {}
    fn in_buffer_empty(&self) {}
    fn timeout_to_come(&self) {
        self.0.timer_runs.set(true);
        count(&self.1.timeouts);
    }
}

/// How a monitor puts its events together.
trait Wiring {
    type Events: SerialEvents;

    fn events(counters: Arc<Counters>, room: Room, timer: Timer) -> Self::Events;
}

struct CountersFirst;

impl Wiring for CountersFirst {
    type Events = Both<Arc<Counters>, Both<Room, Timer>>;

    fn events(counters: Arc<Counters>, room: Room, timer: Timer) -> Self::Events {
        Both(counters, Both(room, timer))
    }
}

struct TimerFirst;

impl Wiring for TimerFirst {
    type Events = Arc<Both<Both<Timer, Room>, Arc<Counters>>>;

    fn events(counters: Arc<Counters>, room: Room, timer: Timer) -> Self::Events {
        Arc::new(Both(Both(timer, room), counters))
    }
}

// ---- the guest

/// How a guest uses its port.
#[derive(Clone, Copy, Debug, PartialEq, Eq)]
enum Kind {
    /// Goes by ISR until there is no cause, and enables the interrupt for an empty transmitter while it has something to send.
    Linux,
    /// Never reads ISR, goes by LSR, and enables the interrupt for received data alone.
    Xv6,
    /// Goes by ISR until the transmitter is empty, sends four bytes, and waits for the next interrupt.
    LeavesEarly,
    /// Enables no interrupt.
    Polls,
}

/// What a guest has in its memory, and in its interrupt controller.
struct Guest {
    kind: Kind,
    /// Another processor prints by polling, while this one receives. The one that receives sends nothing then.
    has_printer: bool,
    /// How many bytes its driver takes the transmitter's FIFO for.
    fifo: usize,
    to_send: VecDeque<u8>,
    sent: Vec<u8>,
    received: Vec<u8>,
    ier: u8,
}

// ---- the machine

/// A machine, its monitor and its terminal.
struct Machine<W: Wiring, H: Host> {
    seed: u64,
    random: Random,
    terminal: Rc<RefCell<Terminal>>,
    typed: Vec<u8>,
    guest: Guest,
    counters: Arc<Counters>,
    counted: Rc<Counted>,
    told: Rc<Told>,
    has_levels: bool,
    has_clock: bool,
    has_bursts: bool,
    /// The monitor knows that the guest's handler reads ISR until it shows no interrupt.
    is_known: bool,
    /// The terminal can be read or written, where it could not before.
    has_news: bool,
    /// What an output or a trigger failed to do may be reported.
    may_fail: bool,
    dropped: u64,
    bus: BusSerial<Pin, W::Events, H>,
    input: Input<Keyboard>,
}

type Device<W, H> = Serial<Pin, <W as Wiring>::Events, H>;

impl<W: Wiring, H: Host> fmt::Display for Machine<W, H> {
    fn fmt(&self, f: &mut fmt::Formatter<'_>) -> fmt::Result {
        write!(
            f,
            "machine {}: {:?}, a printer {}, levels {}, a clock {}, bursts {}, known {}; sent {} shown {}, typed {} received {}",
            self.seed,
            self.guest.kind,
            self.guest.has_printer,
            self.has_levels,
            self.has_clock,
            self.has_bursts,
            self.is_known,
            self.guest.sent.len(),
            self.terminal.borrow().shown.len(),
            self.typed.len(),
            self.guest.received.len(),
        )
    }
}

impl<W: Wiring, H: Host> Machine<W, H> {
    fn new(seed: u64) -> Self {
        let mut random = Random(seed.wrapping_mul(0x9e37_79b9_7f4a_7c15) | 1);
        let terminal = Rc::new(RefCell::new(Terminal {
            budget: usize::MAX,
            ..Terminal::default()
        }));
        let (counters, counted, told) = (Arc::default(), Rc::default(), Rc::default());
        let has_levels = random.one_in(3);
        let serial = Serial::with_events(
            Self::pin(&told, &counted, has_levels),
            Self::events(&counters, &told, &counted),
            H::of(Screen(Rc::clone(&terminal))),
        );
        let kinds = [Kind::Linux, Kind::Xv6, Kind::LeavesEarly, Kind::Polls];
        let kind = kinds[random.below(kinds.len())];
        let guest = Guest {
            kind,
            has_printer: random.one_in(4),
            fifo: 1,
            to_send: VecDeque::new(),
            sent: Vec::new(),
            received: Vec::new(),
            ier: 0,
        };
        Machine {
            seed,
            bus: BusSerial::at_ports(serial),
            input: Input::new(Keyboard(Rc::clone(&terminal))),
            random,
            terminal,
            typed: Vec::new(),
            guest,
            counters,
            counted,
            told,
            has_levels,
            has_clock: false,
            has_bursts: false,
            is_known: false,
            has_news: false,
            may_fail: false,
            dropped: 0,
        }
    }

    fn pin(told: &Rc<Told>, counted: &Rc<Counted>, has_levels: bool) -> Pin {
        Pin {
            told: Rc::clone(told),
            counted: Rc::clone(counted),
            has_levels,
        }
    }

    fn events(counters: &Arc<Counters>, told: &Rc<Told>, counted: &Rc<Counted>) -> W::Events {
        W::events(
            Arc::clone(counters),
            Room(Rc::clone(told)),
            Timer(Rc::clone(told), Rc::clone(counted)),
        )
    }

    // ---- the monitor

    /// A call of the device may fail only if its trigger or its output did.
    fn look_at<R>(&self, result: Result<R, Error<io::Error>>) {
        if let Err(cause) = result {
            assert!(self.may_fail, "{cause}: {self}");
        }
    }

    /// What the monitor does when it was told of room, or its terminal can be read or written: as LIVE has it.
    fn serve(&mut self) -> bool {
        let is_woken = self.told.has_room.take() | std::mem::take(&mut self.has_news);
        if is_woken {
            let written = self.bus.serial_mut().write_output().map(drop);
            self.look_at(written);
            let offered = self.input.offer(self.bus.serial_mut());
            assert!(offered.is_ok(), "{self}");
        }
        is_woken
    }

    /// The timer has run out, if it runs.
    fn pass_time(&mut self) -> bool {
        let has_run_out = self.told.timer_runs.take();
        if has_run_out {
            let passed = self.bus.serial_mut().timeout_passed();
            self.look_at(passed);
        }
        has_run_out
    }

    fn set_clock(&mut self, has_clock: bool) {
        self.has_clock = has_clock;
        if !has_clock {
            // A monitor without a clock has no timer.
            self.told.timer_runs.set(false);
        }
        let set = self.bus.serial_mut().set_clock(has_clock);
        self.look_at(set);
    }

    fn set_bursts(&mut self, has_bursts: bool) {
        self.has_bursts = has_bursts;
        let set = self.bus.serial_mut().set_bursts(has_bursts);
        self.look_at(set);
    }

    /// The monitor may know how the guest's handler goes on, if it is one of those that look until there is no cause.
    fn set_known(&mut self, is_known: bool) {
        self.is_known = is_known && self.guest.kind == Kind::Linux;
        let set = self.bus.serial_mut().set_handler_drains(self.is_known);
        self.look_at(set);
    }

    /// The guest waits for an interrupt: that ends a burst.
    fn wait(&mut self) {
        if self.has_bursts {
            let written = self.bus.serial_mut().write_output().map(drop);
            self.look_at(written);
        }
    }

    /// The machine is saved, and goes on in a new process: that has the bytes of the port's state, and the terminal. Neither what the old
    /// process was told, nor its timer, nor an edge on its way to the guest is there.
    fn move_on(&mut self) {
        let saved = self.bus.serial().state().to_bytes();
        self.dropped += self.bus.serial().writer().dropped();
        self.told = Rc::default();
        let state = SerialState::from_bytes(&saved).expect("bytes of a state");
        let restored: Result<Device<W, H>, _> = Serial::from_state(
            &state,
            Self::pin(&self.told, &self.counted, self.has_levels),
            Self::events(&self.counters, &self.told, &self.counted),
            H::of(Screen(Rc::clone(&self.terminal))),
        );
        self.bus = BusSerial::at_ports(restored.unwrap_or_else(|_| panic!("a state: {self}")));
        self.input = Input::new(Keyboard(Rc::clone(&self.terminal)));
        self.set_clock(self.has_clock);
        self.set_bursts(self.has_bursts);
        self.set_known(self.is_known);
        // A process that begins looks at everything.
        self.has_news = true;
        self.serve();
    }

    // ---- accesses of the guest

    fn read(&mut self, offset: u64) -> u8 {
        let mut value = [0];
        self.bus.read(offset, &mut value);
        self.after_access();
        value[0]
    }

    fn write(&mut self, offset: u64, values: &[u8]) {
        let (writes, is_empty) = {
            let terminal = self.terminal.borrow();
            let is_ready = !terminal.is_gone && terminal.interruptions == 0 && terminal.budget > 64;
            (
                terminal.writes,
                is_ready && self.bus.serial().output().is_empty(),
            )
        };
        self.bus.write(offset, values);
        if is_empty && values.len() <= FIFO {
            let writes = self.terminal.borrow().writes - writes;
            assert!(writes <= 1, "{writes} writes for an exit: {self}");
        }
        if let Some(cause) = self.bus.take_failure() {
            assert!(self.may_fail, "{cause}: {self}");
        }
        self.after_access();
    }

    /// Between any two accesses the other thread of the monitor may run, and the machine may be saved.
    fn after_access(&mut self) {
        if self.random.one_in(8) {
            self.serve();
        }
        if self.random.one_in(40) {
            self.pass_time();
        }
        if self.random.one_in(200) {
            self.move_on();
        }
        if self.guest.has_printer && self.random.one_in(6) {
            self.print();
        }
    }

    // ---- the guest

    /// The guest begins. Some take over the baud rate that they find, as a kernel without firmware may, and others set one.
    fn boot(&mut self) {
        let line_control = self.read(LCR);
        self.write(LCR, &[line_control | 0x80]);
        let found = u16::from_le_bytes([self.read(DATA), self.read(IER)]);
        assert!(115_200_u32.checked_div(found.into()).is_some(), "{self}");
        let divisor = 1 + self.random.below(0xffff) as u16;
        let bytes = divisor.to_le_bytes();
        match self.random.below(3) {
            0 => self.write(DATA, &bytes),
            1 => {
                let word = NonZeroUsize::new(2).expect("it is 2");
                self.bus.write_sized(DATA, word, &bytes);
            }
            _ => {
                self.write(DATA, &bytes[..1]);
                self.write(IER, &bytes[1..]);
            }
        }
        let set = u16::from_le_bytes([self.read(DATA), self.read(IER)]);
        assert_eq!(set, divisor, "{self}");
        self.write(LCR, &[0x03]);
        self.write(MCR, &[0x0b]);
        if self.random.below(4) != 0 {
            let level = [0x07, 0x47, 0x87, 0xc7][self.random.below(4)];
            self.write(FCR, &[level]);
            self.guest.fifo = FIFO;
        }
        match self.guest.kind {
            Kind::Polls => {}
            _ if self.guest.has_printer => self.enable(TELL_RECEIVED),
            Kind::Linux | Kind::Xv6 => self.enable(TELL_RECEIVED),
            Kind::LeavesEarly => self.enable(TELL_RECEIVED | TELL_EMPTY),
        }
    }

    fn enable(&mut self, ier: u8) {
        self.guest.ier = ier;
        self.write(IER, &[ier]);
    }

    /// Receives at most so many characters, and returns what LSR shows then.
    fn receive(&mut self, most: usize) -> u8 {
        let mut status = self.read(LSR);
        for _ in 0..most {
            if status & RECEIVED == 0 {
                break;
            }
            let byte = self.read(DATA);
            self.guest.received.push(byte);
            status = self.read(LSR);
        }
        status
    }

    /// Sends at most so many bytes after LSR has shown that the transmitter is empty: by one instruction, or one by one.
    fn send(&mut self, most: usize) {
        let count = most.min(self.guest.fifo).min(self.guest.to_send.len());
        let bytes: Vec<u8> = self.guest.to_send.drain(..count).collect();
        self.guest.sent.extend(&bytes);
        if self.random.one_in(2) && !bytes.is_empty() {
            self.write(DATA, &bytes);
        } else {
            bytes.iter().for_each(|byte| self.write(DATA, &[*byte]));
        }
    }

    /// The other processor prints a byte, if there is room. Nobody else writes DATA, so there still is.
    fn print(&mut self) {
        if self.guest.to_send.is_empty() {
            return;
        }
        let mut status = [0];
        self.bus.read(LSR, &mut status);
        if status[0] & CAN_SEND != 0 {
            let byte = self
                .guest
                .to_send
                .pop_front()
                .into_iter()
                .collect::<Vec<_>>();
            self.guest.sent.extend(&byte);
            self.bus.write(DATA, &byte);
        }
    }

    /// The guest has something to send.
    fn start_to_send(&mut self, bytes: &[u8]) {
        self.guest.to_send.extend(bytes);
        if self.guest.has_printer {
            return;
        }
        match self.guest.kind {
            Kind::Linux => self.enable(TELL_RECEIVED | TELL_EMPTY),
            Kind::Xv6 | Kind::Polls => self.send_by_lsr(),
            Kind::LeavesEarly => {
                self.enable(TELL_RECEIVED);
                self.enable(TELL_RECEIVED | TELL_EMPTY);
            }
        }
    }

    fn send_by_lsr(&mut self) {
        for _ in 0..LOOKS {
            if self.guest.to_send.is_empty() || self.read(LSR) & CAN_SEND == 0 {
                break;
            }
            self.send(FIFO);
        }
    }

    /// The guest is interrupted, if an edge is latched.
    fn interrupt(&mut self) -> bool {
        let is_interrupted = self.told.is_latched.take();
        if is_interrupted {
            match self.guest.kind {
                Kind::Linux => self.linux(),
                Kind::Xv6 => _ = self.receive(LOOKS),
                Kind::LeavesEarly => self.leave_early(),
                Kind::Polls => panic!("an interrupt that is not enabled: {self}"),
            }
        }
        is_interrupted
    }

    fn linux(&mut self) {
        for _ in 0..LOOKS {
            if self.read(ISR) & NONE_PENDING != 0 {
                return;
            }
            let status = self.receive(LOOKS);
            self.read(MSR);
            if status & CAN_SEND != 0 && self.guest.ier & TELL_EMPTY != 0 {
                self.send(FIFO);
                if self.guest.to_send.is_empty() {
                    self.enable(TELL_RECEIVED);
                }
            }
        }
        panic!("a cause without end: {self}");
    }

    fn leave_early(&mut self) {
        for _ in 0..LOOKS {
            match self.read(ISR) & 0x0f {
                0x04 | 0x0c => _ = self.receive(LOOKS),
                0x02 => return self.send(4),
                _ => return,
            }
        }
        panic!("a cause without end: {self}");
    }

    /// What a guest does that looks by itself. Returns whether anything moved.
    fn poll(&mut self) -> bool {
        let before = (self.guest.received.len(), self.guest.to_send.len());
        if self.guest.has_printer {
            self.print();
        }
        if self.guest.kind == Kind::Polls {
            self.receive(LOOKS);
        }
        if matches!(self.guest.kind, Kind::Polls | Kind::Xv6) && !self.guest.has_printer {
            self.send_by_lsr();
        }
        before != (self.guest.received.len(), self.guest.to_send.len())
    }

    // ---- what happens

    fn step(&mut self) {
        match self.random.below(16) {
            0..3 => {
                let typed = self.random.bytes(60);
                self.typed.extend(&typed);
                self.terminal.borrow_mut().typed.extend(&typed);
                self.has_news = true;
            }
            3..6 => {
                let bytes = self.random.bytes(40);
                self.start_to_send(&bytes);
            }
            6 => {
                let budget = [0, 1, 5, 30, usize::MAX][self.random.below(5)];
                self.terminal.borrow_mut().budget = budget;
                self.has_news = true;
            }
            7 => self.terminal.borrow_mut().interruptions = self.random.below(TRIES),
            8 if self.random.one_in(8) => {
                let is_gone = self.random.one_in(2);
                self.terminal.borrow_mut().is_gone = is_gone;
                self.may_fail |= is_gone;
                self.has_news = true;
            }
            9 if self.random.one_in(4) => {
                self.told.is_broken.set(true);
                self.may_fail = true;
            }
            10 => {
                let has_clock = self.random.one_in(2);
                self.set_clock(has_clock);
            }
            11 => {
                let has_bursts = self.random.one_in(3);
                self.set_bursts(has_bursts);
            }
            12 => self.move_on(),
            13 => _ = self.pass_time(),
            14 => self.mend(),
            15 => {
                let is_known = self.random.one_in(2);
                self.set_known(is_known);
            }
            _ => {}
        }
        if self.random.one_in(2) {
            self.serve();
        }
        if self.random.one_in(2) {
            self.interrupt();
            self.poll();
            self.wait();
        }
    }

    /// The trigger works again, and the monitor tries it.
    fn mend(&mut self) {
        self.has_news |= self.told.is_broken.take();
    }

    /// Nobody types or sends anything more, and the host takes all. What was begun ends without anybody doing more than what he is told to.
    fn end(&mut self) {
        {
            let mut terminal = self.terminal.borrow_mut();
            terminal.budget = usize::MAX;
            terminal.interruptions = 0;
            terminal.is_gone = false;
        }
        self.mend();
        // What was put off is told by whoever stops the clock, since nothing else may come.
        if self.random.one_in(2) {
            self.set_clock(false);
        }
        self.has_news = true;
        for _ in 0..ROUNDS {
            let is_served = self.serve();
            let is_polled = self.poll();
            let is_interrupted = self.interrupt();
            self.wait();
            if !(is_served | is_polled | is_interrupted) && !self.pass_time() {
                return;
            }
        }
        panic!("no end: {self}");
    }

    /// Nothing waits, and nothing is lost that nobody says is lost.
    fn compare(&self) {
        assert_eq!(self.guest.received, self.typed, "{self}");
        assert!(self.guest.to_send.is_empty(), "{self}");
        let serial = self.bus.serial();
        assert!(serial.output().is_empty(), "{self}");
        let terminal = self.terminal.borrow();
        let counts = self.counters.counts();
        let dropped = self.dropped + serial.writer().dropped();
        let lost = (dropped + counts.lost_bytes) as usize;
        assert_eq!(terminal.shown.len() + lost, self.guest.sent.len(), "{self}");
        let mut sent = self.guest.sent.iter();
        let is_in_order = terminal
            .shown
            .iter()
            .all(|shown| sent.any(|sent| sent == shown));
        assert!(is_in_order, "{self}");
        assert!(self.may_fail || counts.lost_bytes == 0, "{self}");
        assert_eq!(
            (counts.overflows, counts.overruns, counts.breaks),
            (0, 0, 0),
            "{self}"
        );
        assert_eq!(
            counts.out_bytes + counts.lost_bytes,
            self.guest.sent.len() as u64,
            "{self}"
        );
        assert_eq!(
            (counts.triggers, counts.timeouts),
            (self.counted.triggers.get(), self.counted.timeouts.get()),
            "{self}"
        );
    }

    fn run(seed: u64) -> Self {
        let mut machine = Self::new(seed);
        machine.boot();
        for _ in 0..STEPS {
            machine.step();
        }
        machine.end();
        machine.compare();
        machine
    }
}

/// How many machines did what may go wrong, so that none of it is left out.
#[derive(Default)]
struct Tried {
    timeouts: u64,
    lost: u64,
    dropped: u64,
    held: u64,
    failed_triggers: u64,
}

impl Tried {
    fn note<W: Wiring, H: Host>(&mut self, machine: &Machine<W, H>) {
        let counts = machine.counters.counts();
        self.timeouts += counts.timeouts;
        self.lost += counts.lost_bytes;
        self.dropped += machine.dropped;
        self.held += counts.held;
        self.failed_triggers += counts.failed_triggers;
    }
}

#[test]
fn nobody_waits_for_ever_and_nothing_is_lost() {
    let mut tried = Tried::default();
    for seed in 1..=machines() {
        match seed % 4 {
            0 => tried.note(&Machine::<CountersFirst, Screen>::run(seed)),
            1 => tried.note(&Machine::<TimerFirst, Screen>::run(seed)),
            2 => tried.note(&Machine::<CountersFirst, Lossy<Screen>>::run(seed)),
            _ => tried.note(&Machine::<TimerFirst, Lossy<Screen>>::run(seed)),
        }
    }
    let Tried {
        timeouts,
        lost,
        dropped,
        held,
        failed_triggers,
    } = tried;
    let all = [timeouts, lost, dropped, held, failed_triggers];
    assert!(all.iter().all(|count| *count != 0), "{all:?}");
}
