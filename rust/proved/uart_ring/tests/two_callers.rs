//! Two callers at one chip without a lock: what is lost. A task makes a call through a driver of its own, and between two of its accesses
//! the handler of rings over the same chip comes. With whole calls in turn, as a lock has it, nothing is lost.

use geesetrunk_kit_of_rings::alloc::Global;
use proved_uart_ring::Uart16550Ring;
use std::cell::{Cell, RefCell};
use std::rc::Rc;
use uart_16550::Uart16550;
use uart_16550::backend::Backend;
use uart_live::{Chip, LiveChip, WIRE_ROOM};
use uart_spec::Config;
use uart_spec::registers::{IER, LSR};

const CHAR_TICKS: u16 = 8;
const RING_SIZE: usize = 64;
const LIMIT: usize = 32;

/// The registers of the chip that both share. Behind an access of the task the other caller may come.
struct Registers {
    chip: Rc<RefCell<LiveChip>>,
    /// Behind how many accesses more it comes: behind none, if this is nothing.
    left: Rc<Cell<Option<usize>>>,
    other: Option<Rc<RefCell<Rings>>>,
}

type Rings = Uart16550Ring<Registers>;

impl Registers {
    fn then(&mut self) {
        let left = self.left.get();
        self.left.set(left.and_then(|left| left.checked_sub(1)));
        if let (Some(0), Some(rings)) = (left, &self.other) {
            rings.borrow_mut().handle(LIMIT);
        }
    }
}

impl Backend for Registers {
    fn read(&mut self, register_offset: u8) -> u8 {
        let value = self.chip.borrow_mut().read(register_offset);
        self.then();
        value
    }

    fn write(&mut self, register_offset: u8, value: u8) {
        self.chip.borrow_mut().write(register_offset, value);
        self.then();
    }
}

/// A chip with two callers: a task with a driver of its own, and rings.
struct Port {
    chip: Rc<RefCell<LiveChip>>,
    left: Rc<Cell<Option<usize>>>,
    task: Uart16550<Registers>,
    rings: Rc<RefCell<Rings>>,
}

impl Port {
    fn new() -> Self {
        let chip = LiveChip::new(Chip::Uart16550A, CHAR_TICKS, WIRE_ROOM).expect("in range");
        let (chip, left) = (Rc::new(RefCell::new(chip)), Rc::new(Cell::new(None)));
        let registers = |other| Registers {
            chip: chip.clone(),
            left: left.clone(),
            other,
        };
        let config = || Config {
            interrupts: IER::DATA_READY,
            ..Config::DEFAULT
        };
        let mut uart = Uart16550::new_with_backend(registers(None));
        assert_eq!(uart.init(config()), Ok(()));
        let Ok(rings) = Uart16550Ring::new(Global::heap(), uart, RING_SIZE, RING_SIZE) else {
            panic!("memory");
        };
        let rings = Rc::new(RefCell::new(rings));
        let mut task = Uart16550::new_with_backend(registers(Some(rings.clone())));
        assert_eq!(task.init(config()), Ok(()));
        Self {
            chip,
            left,
            task,
            rings,
        }
    }

    /// All that is in the transmitter goes out.
    fn pass(&self) -> Vec<u8> {
        let mut chip = self.chip.borrow_mut();
        chip.ticks(40 * CHAR_TICKS);
        let sent = chip.wire().to_vec();
        chip.take_wire(sent.len());
        sent
    }
}

/// Sixteen bytes of the rings have just gone out, and sixteen more wait. The task sends sixteen bytes, and the handler comes behind so many
/// of its accesses, or behind its call. How many of those that were reported are on the wire, of how many?
fn sent_and_reported(behind: Option<usize>) -> (usize, usize) {
    let mut port = Port::new();
    let queued = port.rings.borrow_mut().queue(&[b'r'; 32]);
    let mut sent = port.pass().len();
    port.left.set(behind);
    let reported = port.task.send_bytes(&[b't'; 16]);
    for _ in 0..4 {
        port.rings.borrow_mut().handle(LIMIT);
        sent += port.pass().len();
    }
    (sent, queued + reported)
}

#[test]
fn a_handler_within_a_send_loses_what_is_reported() {
    let (sent, reported) = sent_and_reported(None);
    assert_eq!((sent, reported), (48, 48));
    // Behind the look at LSR, which showed room for a whole FIFO.
    let (sent, reported) = sent_and_reported(Some(0));
    assert_eq!((sent, reported), (32, 48));
}

/// A byte has arrived. The task receives, and the handler comes behind so many of its accesses, or behind its call. How often was the byte
/// received?
fn received(behind: Option<usize>) -> usize {
    let mut port = Port::new();
    assert_eq!(port.chip.borrow_mut().arrive(b'x', LSR::empty()), Ok(()));
    port.chip.borrow_mut().ticks(5 * CHAR_TICKS);
    port.left.set(behind);
    let by_the_task = usize::from(port.task.try_receive_byte() == Ok(b'x'));
    port.rings.borrow_mut().handle(LIMIT);
    by_the_task + port.rings.borrow_mut().take(&mut [0; 8])
}

#[test]
fn a_handler_within_a_receive_doubles_a_byte() {
    assert_eq!(received(None), 1);
    assert_eq!(received(Some(0)), 2);
}

/// The task enables an interrupt while the rings have nothing to send, or they begin to send between its two accesses of IER. How many of
/// forty bytes go out?
fn goes_out(is_within: bool) -> usize {
    let mut port = Port::new();
    let rings = port.rings.clone();
    let mut ier = IER::empty();
    if is_within {
        // What `enable_interrupts` does, with another caller between its read and its write.
        ier = port.task.ier();
    }
    assert_eq!(rings.borrow_mut().queue(&[b'r'; 40]), 40);
    if is_within {
        let both = ier | IER::RECEIVER_LINE_STATUS;
        port.task.backend_mut().write(1, both.bits());
    } else {
        port.task.enable_interrupts(IER::RECEIVER_LINE_STATUS);
    }
    let mut sent = 0;
    for _ in 0..10 {
        sent += port.pass().len();
        if port.chip.borrow().is_interrupting() {
            rings.borrow_mut().handle(LIMIT);
        }
    }
    sent
}

#[test]
fn a_caller_within_a_change_of_interrupts_leaves_rings_asleep() {
    assert_eq!(goes_out(false), 40);
    assert_eq!(goes_out(true), 16);
}
