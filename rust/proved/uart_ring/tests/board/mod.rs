//! Ports over chips in software that share one interrupt line, at a controller that detects edges.

// Not each test uses all of it.
#![allow(dead_code)]

use geesetrunk_kit_of_rings::alloc::Global;
use proved_uart_ring::{LinePort, Uart16550Ring};
use std::cell::RefCell;
use std::rc::Rc;
use uart_16550::Uart16550;
use uart_16550::backend::Backend;
use uart_live::{Chip, LiveChip, WIRE_ROOM};
use uart_spec::Config;
use uart_spec::registers::{IER, LSR};

const CHAR_TICKS: u16 = 8;

/// How many interrupts the handler of the documents serves of a port each time, and how many rounds it may leave unfinished.
pub const LIMIT: usize = 32;
pub const MAX_UNFINISHED_ROUNDS: u32 = 100;

/// Pseudorandom numbers: xorshift.
pub struct Random(pub u64);

impl Random {
    pub fn below(&mut self, end: usize) -> usize {
        self.0 ^= self.0 << 13;
        self.0 ^= self.0 >> 7;
        self.0 ^= self.0 << 17;
        (self.0 % end as u64) as usize
    }
}

/// The chips, and the controller.
pub struct Board {
    pub chips: Vec<LiveChip>,
    pub random: Random,
    /// Whether time passes before each access.
    pub is_running: bool,
    /// Whether characters still arrive then.
    pub is_busy: bool,
    is_line_high: bool,
    /// An edge that the handler was not yet called for.
    edge: bool,
}

impl Board {
    pub fn new(ports: usize, seed: u64) -> Self {
        let chip = |_| LiveChip::new(Chip::Uart16550A, CHAR_TICKS, WIRE_ROOM).expect("in range");
        Board {
            chips: (0..ports).map(chip).collect(),
            random: Random(seed),
            is_running: true,
            is_busy: true,
            is_line_high: false,
            edge: false,
        }
    }

    /// The controller notes that the line rose.
    pub fn look(&mut self) {
        let is_high = self.chips.iter().any(LiveChip::is_interrupting);
        self.edge |= is_high && !self.is_line_high;
        self.is_line_high = is_high;
    }

    /// A character arrives at this port.
    pub fn arrive(&mut self, at: usize) {
        let arrived = self.chips[at].arrive(0x55, LSR::empty());
        assert!(arrived.is_ok());
        self.look();
    }

    /// A character arrives at this port, and so much time passes there that its reception timeout is due.
    pub fn arrive_and_wait(&mut self, at: usize) {
        self.arrive(at);
        self.chips[at].ticks(5 * CHAR_TICKS);
        self.look();
    }

    /// Some ticks pass, one after the other, and perhaps a character arrives at some port.
    pub fn pass(&mut self) {
        if !self.is_running {
            return;
        }
        for _ in 0..self.random.below(4) {
            for at in 0..self.chips.len() {
                self.chips[at].ticks(1);
                let sent = self.chips[at].wire().len();
                self.chips[at].take_wire(sent);
                self.look();
            }
        }
        if self.is_busy && self.random.below(6) == 0 {
            let at = self.random.below(self.chips.len());
            self.arrive(at);
        }
    }

    /// Whether the controller has an edge. It is noted once.
    pub fn take_edge(&mut self) -> bool {
        std::mem::take(&mut self.edge)
    }

    /// Whether the line is high and no edge is to come: nobody is ever called again.
    pub fn is_asleep(&self) -> bool {
        self.is_line_high && !self.edge
    }
}

/// The registers of one chip. Time passes before each access.
pub struct Registers {
    board: Rc<RefCell<Board>>,
    at: usize,
}

impl Registers {
    pub fn new(board: &Rc<RefCell<Board>>, at: usize) -> Self {
        Registers {
            board: board.clone(),
            at,
        }
    }
}

impl Backend for Registers {
    fn read(&mut self, register_offset: u8) -> u8 {
        let board = &mut *self.board.borrow_mut();
        board.pass();
        let value = board.chips[self.at].read(register_offset);
        board.look();
        value
    }

    fn write(&mut self, register_offset: u8, value: u8) {
        let board = &mut *self.board.borrow_mut();
        board.pass();
        board.chips[self.at].write(register_offset, value);
        board.look();
    }
}

pub type Port = LinePort<Registers>;

/// Starts a port over each chip, with these interrupts, and with rings of this size in both directions.
pub fn started(board: &Rc<RefCell<Board>>, interrupts: IER, ring_size: usize) -> Vec<Port> {
    let start = |at| {
        let mut uart = Uart16550::new_with_backend(Registers::new(board, at));
        let config = Config {
            interrupts,
            ..Config::DEFAULT
        };
        assert_eq!(uart.init(config), Ok(()));
        match Uart16550Ring::new(Global::heap(), uart, ring_size, ring_size) {
            Ok(ring) => LinePort::new(ring),
            Err(refused) => panic!("{refused}"),
        }
    };
    let ports = board.borrow().chips.len();
    (0..ports).map(start).collect()
}

/// How many runs there are: so many, and each night as many as GEESETRUNK_RUNS says.
pub fn runs(usual: u64) -> u64 {
    std::env::var("GEESETRUNK_RUNS").map_or(usual, |runs| runs.parse().expect("a number of runs"))
}
