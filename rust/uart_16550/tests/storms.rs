//! A chip that shows an interrupt for ever, at a controller that detects edges: its storm ends, whether a section masks the interrupt, or
//! masks nothing and a handler comes into the middle of a call.

use std::cell::{Cell, RefCell};
use std::rc::Rc;
use uart_16550::native::Uart16550;
use uart_16550::native::backend::Backend;
use uart_16550::ring::{Memory, StuckError};
use uart_16550::shared::{CriticalSection, Shared, SharedLine};
use uart_16550::spec::registers::{IER, ISR, LSR, offsets};

const CAPACITY: usize = 16;
const LIMIT: usize = 32;
const MAX_UNFINISHED_ROUNDS: u32 = 100;
/// No interrupt has this name.
const UNKNOWN: u8 = 0xc8;
/// A round makes two accesses for its look at the chip, three to make a new edge, and some at a line of several ports.
const MOST_ACCESSES: u32 = 20 * MAX_UNFINISHED_ROUNDS;

/// A chip, a processor and its controller, whose handler is called at each edge while the interrupt is not masked.
struct World {
    cells: RefCell<[u8; 8]>,
    accesses: Cell<u32>,
    has_edge: Cell<bool>,
    is_masked: Cell<bool>,
    section_masks: bool,
    handler: RefCell<Option<Rc<dyn Fn()>>>,
}

impl World {
    fn new(section_masks: bool) -> Rc<Self> {
        Rc::new(Self {
            cells: RefCell::default(),
            accesses: Cell::new(0),
            has_edge: Cell::new(false),
            is_masked: Cell::new(false),
            section_masks,
            handler: RefCell::new(None),
        })
    }

    fn count(&self) {
        self.accesses.set(self.accesses.get() + 1);
        assert!(self.accesses.get() < MOST_ACCESSES, "no end");
    }

    fn call_handler(&self) {
        while self.has_edge.get() && !self.is_masked.get() {
            self.has_edge.set(false);
            // A processor masks its interrupts while it handles one.
            self.masked(|| {
                let handler = self.handler.borrow().clone();
                if let Some(handler) = handler {
                    handler();
                }
            });
        }
    }

    fn masked<R>(&self, call: impl FnOnce() -> R) -> R {
        let was_masked = self.is_masked.replace(true);
        let result = call();
        self.is_masked.set(was_masked);
        result
    }
}

#[derive(Clone)]
struct Broken(Rc<World>);

impl Backend for Broken {
    fn read(&mut self, register_offset: u8) -> u8 {
        self.0.count();
        let cells = self.0.cells.borrow();
        match usize::from(register_offset) {
            offsets::ISR if cells[offsets::IER] != 0 => UNKNOWN,
            offsets::ISR => 0xc1,
            offsets::LSR => (LSR::THR_EMPTY | LSR::TRANSMITTER_EMPTY).bits(),
            offset => cells[offset],
        }
    }

    fn write(&mut self, register_offset: u8, value: u8) {
        self.0.count();
        let offset = usize::from(register_offset);
        let before = std::mem::replace(&mut self.0.cells.borrow_mut()[offset], value);
        if offset == offsets::IER && before == 0 && value != 0 {
            self.0.has_edge.set(true);
            self.0.call_handler();
        }
    }
}

struct Section(Rc<World>);

impl CriticalSection for Section {
    fn run<R>(&self, call: impl FnOnce() -> R) -> R {
        if !self.0.section_masks {
            return call();
        }
        let result = self.0.masked(call);
        self.0.call_handler();
        result
    }
}

fn memory() -> Memory {
    Memory::new(vec![0; 2 * CAPACITY].leak())
}

fn uart(world: &Rc<World>) -> Uart16550<Broken> {
    Uart16550::new_with_backend(Broken(world.clone()))
}

fn is_found(stuck: Option<StuckError>) -> bool {
    stuck == Some(StuckError::Unknown(ISR::from_bits_retain(UNKNOWN)))
}

#[test]
fn a_storm_at_shared_rings_ends_with_and_without_a_mask() {
    for section_masks in [true, false] {
        let world = World::new(section_masks);
        let port = Rc::new(Shared::new(Section(world.clone())));
        let started = port.start(memory().global(), uart(&world), CAPACITY, CAPACITY);
        started.map_err(|refused| refused.cause).unwrap();
        let of_handler = port.clone();
        *world.handler.borrow_mut() = Some(Rc::new(move || {
            let _handled = of_handler.try_handle(LIMIT, MAX_UNFINISHED_ROUNDS);
        }));
        port.with(|ring| ring.restart(IER::DATA_READY)).unwrap();
        assert!(port.with(|ring| is_found(ring.stuck())).unwrap());
        assert_eq!(world.cells.borrow()[offsets::IER], 0);
    }
}

#[test]
fn a_storm_at_a_shared_line_ends_with_and_without_a_mask() {
    for section_masks in [true, false] {
        let world = World::new(section_masks);
        let line = Rc::new(SharedLine::<_, _, 1>::new(Section(world.clone())));
        let started = line.start(0, memory().global(), uart(&world), CAPACITY, CAPACITY);
        started.map_err(|refused| refused.cause).unwrap();
        let of_handler = line.clone();
        *world.handler.borrow_mut() = Some(Rc::new(move || {
            let _handled = of_handler.handle(LIMIT, MAX_UNFINISHED_ROUNDS);
        }));
        line.with_port(0, |ring| ring.restart(IER::DATA_READY))
            .unwrap();
        assert!(line.with_port(0, |ring| is_found(ring.stuck())).unwrap());
        assert_eq!(world.cells.borrow()[offsets::IER], 0);
    }
}
