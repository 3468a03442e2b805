//! How late a handler may be, without flow control: at the bound of `uart_latency` no character is lost, and one tick later one is. So it
//! is with line errors, which are told before the first byte is read, and at a line that another port shares, which is served first.

use geesetrunk_kit_of_rings::alloc::Global;
use proved_uart_ring::{HandleEnd, LinePort, Uart16550Ring, handle_ports};
use std::cell::RefCell;
use std::rc::Rc;
use uart_16550::Uart16550;
use uart_16550::backend::Backend;
use uart_live::{Chip, LiveChipWith, WIRE_ROOM};
use uart_spec::registers::{FifoTriggerLevel, IER, LSR};
use uart_spec::{BaudRate, Config, FifoSize};

/// How many characters come in a run.
const CHARACTERS: u64 = 300;

/// A chip at which characters come one behind the other, and before each access of which some ticks pass.
struct Registers<const FIFO: usize> {
    chip: LiveChipWith<FIFO>,
    access: u64,
    character: u64,
    /// What each character arrives with.
    errors: LSR,
    /// When the next one comes: none does before the rings stand.
    next: Option<u64>,
    now: u64,
    came: u64,
    lost: u64,
    /// How many accesses were made.
    made: usize,
    /// When as many waited last as this level.
    level: usize,
    reached: u64,
}

impl<const FIFO: usize> Registers<FIFO> {
    /// A chip at which nothing comes yet.
    fn new(level: FifoTriggerLevel, pace: Pace, errors: LSR) -> Self {
        let char_ticks = u16::try_from(pace.character).expect("a short character");
        Registers {
            chip: LiveChipWith::<FIFO>::new(Chip::Uart16550A, char_ticks, WIRE_ROOM).expect("in range"),
            access: pace.access,
            character: pace.character,
            errors,
            next: None,
            now: 0,
            came: 0,
            lost: 0,
            made: 0,
            level: level.characters(fifo(FIFO)),
            reached: 0,
        }
    }

    fn waiting(&self) -> usize {
        FIFO - self.chip.receive_room()
    }

    fn pass(&mut self, ticks: u64) {
        for _ in 0..ticks {
            self.now += 1;
            self.chip.ticks(1);
            if self.next == Some(self.now) {
                self.lost += u64::from(self.chip.receive_room() == 0);
                self.came += 1;
                self.next = Some(self.now + self.character);
                assert!(self.chip.arrive(0x55, self.errors).is_ok());
                if self.waiting() == self.level {
                    self.reached = self.now;
                }
            }
        }
    }
}

impl<const FIFO: usize> Backend for Registers<FIFO> {
    fn read(&mut self, register_offset: u8) -> u8 {
        self.pass(self.access);
        self.made += 1;
        self.chip.read(register_offset)
    }

    fn write(&mut self, register_offset: u8, value: u8) {
        self.pass(self.access);
        self.made += 1;
        self.chip.write(register_offset, value);
    }
}

/// A line at which a character takes so many ticks, and an access so many.
#[derive(Clone, Copy)]
struct Pace {
    character: u64,
    access: u64,
}

/// At 115,200 baud a character takes 87 microseconds, and at 921,600 baud 11.
const PACES: [Pace; 4] = [
    Pace { character: 87, access: 1 },
    Pace { character: 87, access: 3 },
    Pace { character: 11, access: 1 },
    Pace { character: 24, access: 5 },
];

/// Rings over these registers, with an interrupt for what is received, and for line errors.
fn listening<B: Backend>(backend: B, level: FifoTriggerLevel) -> Uart16550Ring<B> {
    let mut uart = Uart16550::new_with_backend(backend);
    let interrupts = IER::DATA_READY | IER::RECEIVER_LINE_STATUS;
    let config = Config { interrupts, fifo_trigger_level: Some(level), ..Config::DEFAULT };
    assert_eq!(uart.init(config), Ok(()));
    let Ok(ring) = Uart16550Ring::new(Global::heap(), uart, 16, 1024) else {
        panic!("no memory");
    };
    ring
}

/// How many characters are lost if the handler begins so many ticks after as many wait as the level, and each visit ends with `Idle`.
fn lost<const FIFO: usize>(level: FifoTriggerLevel, pace: Pace, errors: LSR, late: u64) -> u64 {
    let seen = visits::<FIFO>(level, pace, errors, late);
    assert!(!seen.has_limit);
    seen.lost
}

/// What is seen of the visits of a handler.
struct Seen {
    lost: u64,
    /// Whether one of them ended with its limit.
    has_limit: bool,
    /// The most accesses of one that were for no byte: one that reads DATA is for one, and so is the look at LSR before it.
    others: usize,
}

/// What is seen if each visit begins so late.
fn visits<const FIFO: usize>(level: FifoTriggerLevel, pace: Pace, errors: LSR, late: u64) -> Seen {
    let mut ring = listening(Registers::<FIFO>::new(level, pace, errors), level);
    let registers = ring.inner_mut().backend_mut();
    registers.next = Some(registers.now + pace.character);
    let mut seen = Seen { lost: 0, has_limit: false, others: 0 };
    while ring.inner().backend().came < CHARACTERS {
        // Of an error the line is up before.
        while ring.inner().backend().waiting() < ring.inner().backend().level {
            ring.inner_mut().backend_mut().pass(1);
        }
        assert!(ring.inner().backend().chip.is_interrupting());
        ring.inner_mut().backend_mut().pass(late);
        ring.inner_mut().backend_mut().made = 0;
        let end = ring.handle(32).end;
        assert!(matches!(end, HandleEnd::Idle | HandleEnd::Limit));
        seen.has_limit |= end == HandleEnd::Limit;
        let made = ring.inner().backend().made;
        seen.others = seen.others.max(made - 2 * ring.take(&mut [0; 1024]));
    }
    Seen { lost: ring.inner().backend().lost, ..seen }
}

fn fifo(characters: usize) -> FifoSize {
    FifoSize::largest_up_to(characters).expect("a size")
}

/// The FIFO has taken all that it can once the level and the rest are there, and the character behind them comes as many characters after
/// the interrupt. The first byte is read with this access.
fn bound(size: usize, level: FifoTriggerLevel, pace: Pace, access: u64) -> u64 {
    let beyond = size - level.characters(fifo(size)) + 1;
    beyond as u64 * pace.character - access * pace.access - 1
}

/// Compares each level of a FIFO at the bound and one tick beyond.
fn compare<const FIFO: usize>(errors: LSR, access: u64) {
    use FifoTriggerLevel::{Eight, Four, Fourteen, One};
    for pace in PACES {
        for level in [One, Four, Eight, Fourteen] {
            let late = bound(FIFO, level, pace, access);
            let what = format!("{level:?} of {FIFO}, {} and {} ticks", pace.character, pace.access);
            assert_eq!(lost::<FIFO>(level, pace, errors, late), 0, "{what}");
            assert!(lost::<FIFO>(level, pace, errors, late + 1) > 0, "{what}");
        }
    }
}

/// It is read behind ISR and LSR.
#[test]
fn a_handler_at_the_bound_loses_nothing_and_a_tick_later_it_does() {
    compare::<16>(LSR::empty(), 3);
    compare::<64>(LSR::empty(), 3);
}

/// It is read behind ISR, LSR, which tells the error of the character in front, ISR, and LSR: two accesses later, as the law has it.
#[test]
fn with_line_errors_the_bound_is_two_accesses_less() {
    for errors in [LSR::PARITY_ERROR, LSR::FRAMING_ERROR] {
        compare::<16>(errors, 5);
        compare::<64>(errors, 5);
    }
}

/// With a tick for a clock of the chip's input, at 115,200 baud, where a character takes 160 of them, and an access a microsecond.
#[test]
fn a_handler_at_its_budget_loses_nothing_and_a_clock_later_it_does() {
    use FifoTriggerLevel::{Eight, Four, Fourteen, One};
    for level in [One, Four, Eight, Fourteen] {
        let config = Config { baud_rate: BaudRate::Baud115200, fifo_trigger_level: Some(level), ..Config::DEFAULT };
        let character = config.character_clocks().expect("a divisor");
        let access = config.clocks_covering(1_000).expect("in 64 bits");
        let pace = Pace { character, access };
        let budget = config.handler_budget(FifoSize::Sixteen, access, 0).expect("a divisor").expect("some time");
        // The access to ISR takes time too, before it finds the handler so late.
        let late = budget - access;
        assert_eq!(lost::<16>(level, pace, LSR::FRAMING_ERROR, late), 0, "{level:?}");
        assert!(lost::<16>(level, pace, LSR::FRAMING_ERROR, late + 1) > 0, "{level:?}");
    }
}

/// A receiver looks at one stop bit, so an end that is set to two also hears one that sends one: that is faster than this end counts.
#[test]
fn an_end_that_is_faster_than_configured_takes_more_than_the_budget() {
    let [config, other] = [true, false].map(|extra_stop_bits| Config {
        baud_rate: BaudRate::Baud115200,
        fifo_trigger_level: Some(FifoTriggerLevel::Eight),
        extra_stop_bits,
        ..Config::DEFAULT
    });
    let [two, one] = [&config, &other].map(|config| config.character_clocks().expect("a divisor"));
    let access = config.clocks_covering(1_000).expect("in 64 bits");
    let budget = config.handler_budget(FifoSize::Sixteen, access, 0).expect("a divisor").expect("some time");
    let at_budget = |character| lost::<16>(FifoTriggerLevel::Eight, Pace { character, access }, LSR::empty(), budget - access);
    assert_eq!(at_budget(two), 0);
    assert!(at_budget(one) > 0);
}

/// There is a budget, but each character that comes during a visit may be an interrupt of its own: then the visit ends with its limit, and
/// characters are lost. Where an access takes half a character that is so at each level, also if the handler begins at once.
#[test]
fn characters_are_lost_within_the_budget_where_no_visit_catches_up() {
    use FifoTriggerLevel::{Eight, Four, Fourteen, One};
    // How many accesses a character takes, and whether the handler begins at once.
    for (level, accesses, is_at_once) in [(One, 4, false), (One, 2, true), (Four, 2, true), (Eight, 2, true), (Fourteen, 2, true)] {
        let config = Config { baud_rate: BaudRate::Baud115200, fifo_trigger_level: Some(level), ..Config::DEFAULT };
        let character = config.character_clocks().expect("a divisor");
        let access = character / accesses;
        let budget = config.handler_budget(FifoSize::Sixteen, access, 0).expect("a divisor").expect("some time");
        let late = if is_at_once { 0 } else { budget - access };
        let seen = visits::<16>(level, Pace { character, access }, LSR::empty(), late);
        assert!(seen.lost > 0 && seen.has_limit, "{level:?}, {accesses}");
        assert!(seen.others > if accesses == 4 { 60 } else { 30 }, "{level:?}, {accesses}: {}", seen.others);
    }
}

/// Two chips at one line and one processor: an access at the one takes time at the other. Characters come at the second.
struct Shared {
    ports: [Registers<16>; 2],
    /// The accesses at the first since the handler began, before the first at the second.
    before: u64,
    has_begun: bool,
}

impl Shared {
    fn pass(&mut self, ticks: u64) {
        for port in &mut self.ports {
            port.pass(ticks);
        }
    }

    fn pass_an_access(&mut self, at: usize) {
        self.has_begun |= at == 1;
        self.before += u64::from(!self.has_begun);
        self.pass(self.ports[at].access);
    }
}

struct End {
    shared: Rc<RefCell<Shared>>,
    at: usize,
}

impl Backend for End {
    fn read(&mut self, register_offset: u8) -> u8 {
        let mut shared = self.shared.borrow_mut();
        shared.pass_an_access(self.at);
        shared.ports[self.at].chip.read(register_offset)
    }

    fn write(&mut self, register_offset: u8, value: u8) {
        let mut shared = self.shared.borrow_mut();
        shared.pass_an_access(self.at);
        shared.ports[self.at].chip.write(register_offset, value);
    }
}

/// How many characters are lost at the second port if the handler of the line begins so late, and how many accesses at the first one were
/// made before each visit at the second.
fn lost_at_a_line(level: FifoTriggerLevel, pace: Pace, late: u64) -> (u64, u64) {
    let ports = [0, 1].map(|_| Registers::<16>::new(level, pace, LSR::empty()));
    let shared = Rc::new(RefCell::new(Shared { ports, before: 0, has_begun: false }));
    let mut ports = [0, 1].map(|at| {
        let shared = Rc::clone(&shared);
        LinePort::new(listening(End { shared, at }, level))
    });
    let start = shared.borrow().ports[1].now + pace.character;
    shared.borrow_mut().ports[1].next = Some(start);
    let mut most = 0;
    while shared.borrow().ports[1].came < CHARACTERS {
        while !shared.borrow().ports[1].chip.is_interrupting() {
            shared.borrow_mut().pass(1);
        }
        let due = shared.borrow().ports[1].reached + late;
        let now = shared.borrow().ports[1].now;
        shared.borrow_mut().pass(due.saturating_sub(now));
        shared.borrow_mut().before = 0;
        shared.borrow_mut().has_begun = false;
        handle_ports(&mut ports, 32, 100);
        most = most.max(shared.borrow().before);
        let _ = ports[1].ring.take(&mut [0; 1024]);
    }
    let lost = shared.borrow().ports[1].lost;
    (lost, most)
}

/// What is served first takes as many accesses of the second port's bound as it makes: here four, since nothing comes at the first port.
///
/// The time runs from the moment at which as many wait as the level. At such a line that may be before the interrupt: a port has its
/// interrupts off from the end of its visit to the end of the handler.
#[test]
fn a_port_that_is_served_second_loses_nothing_at_its_bound_and_a_tick_later_it_does() {
    use FifoTriggerLevel::{Eight, Four, Fourteen, One};
    for pace in PACES {
        for level in [One, Four, Eight, Fourteen] {
            let what = format!("{level:?}, {} and {} ticks", pace.character, pace.access);
            let (_, before) = lost_at_a_line(level, pace, 0);
            assert_eq!(before, 4, "{what}");
            let late = bound(16, level, pace, before + 3);
            assert_eq!(lost_at_a_line(level, pace, late), (0, before), "{what}");
            assert!(lost_at_a_line(level, pace, late + 1).0 > 0, "{what}");
        }
    }
}
