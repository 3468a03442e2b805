//! Several ports on one interrupt line that a controller detects by its edges, as ISA cards share one. Each port is the driver with
//! rings over a chip. The line is high as long as one of the chips interrupts, so it does not fall for one port that was served while
//! another one waits.

mod board;

use board::{Board, LIMIT, Registers, runs, started};
use geesetrunk_kit_of_rings::alloc::Global;
use proved_uart_ring::{
    HandleEnd, Handled, LinePort, MAX_INTERRUPTS, RingError, StuckError, Uart16550Ring, handle_ports,
};
use std::cell::RefCell;
use std::rc::Rc;
use uart_16550::Uart16550;
use uart_16550::backend::Backend;
use uart_spec::registers::{IER, LSR, MSR};
use uart_spec::{Config, InitError};

include!("served/port.rs");

const PORTS: usize = 4;
const STEPS: usize = 2_000;
const RING_SIZE: usize = 64;

/// More rounds than the handlers that go round need.
const ROUNDS: usize = 64;

/// Goes round until a whole round in which no port had an interrupt.
fn serve_until_quiet(ports: &mut [LinePort<Registers>]) {
    for _ in 0..ROUNDS {
        let mut is_quiet = true;
        for port in ports.iter_mut() {
            let handled = port.ring.handle(LIMIT);
            is_quiet &= handled.served == 0 && handled.end == HandleEnd::Idle;
        }
        if is_quiet {
            return;
        }
    }
    panic!("the rounds end");
}

/// A handler that is right for one port alone: each port is served once.
fn serve_once(ports: &mut [LinePort<Registers>]) {
    for port in ports {
        port.ring.handle(LIMIT);
    }
}

/// Lowers the line of each port, and raises it at once: no two are low at one time.
fn serve_port_by_port(ports: &mut [LinePort<Registers>]) {
    for port in ports {
        port.lower(LIMIT, MAX_UNFINISHED_ROUNDS);
        port.raise();
    }
}

/// Runs programs that queue and take at random. Returns whether the handler was called as long as there was anything to do.
fn runs_on(seed: u64, serve: fn(&mut [LinePort<Registers>])) -> bool {
    let board = Rc::new(RefCell::new(Board::new(PORTS, seed)));
    let mut ports = started(&board, IER::DATA_READY | IER::RECEIVER_LINE_STATUS, RING_SIZE);
    for step in 0..STEPS {
        board.borrow_mut().is_busy = step < STEPS / 2;
        board.borrow_mut().pass();
        let (at, what) = {
            let random = &mut board.borrow_mut().random;
            (random.below(PORTS), random.below(8))
        };
        // The handler is masked during these, and the controller notes edges.
        match what {
            0 if step < STEPS / 2 => {
                ports[at].ring.queue(b"some bytes to send");
            }
            1 => {
                ports[at].ring.take(&mut [0; 40]);
            }
            _ => {}
        }
        while board.borrow_mut().take_edge() {
            serve(&mut ports);
        }
        if board.borrow().is_asleep() {
            return false;
        }
    }
    ports.iter().all(|port| port.ring.transmit_len() == 0)
}

/// How many runs fall asleep.
fn asleep(serve: fn(&mut [LinePort<Registers>])) -> usize {
    (1..=runs(10)).filter(|&seed| !runs_on(seed, serve)).count()
}

#[test]
fn falling_at_once_loses_no_edge() {
    let serve = |ports: &mut [LinePort<Registers>]| {
        serve_line(ports);
    };
    assert_eq!(asleep(serve), 0);
}

/// A round in which every port is idle is no proof that all lines were low at once: a reception timeout is withdrawn when a character
/// arrives, so a line may fall by itself behind the back of the handler, after the line of a port that it looked at before has risen.
#[test]
fn a_quiet_round_loses_edges() {
    assert_ne!(asleep(serve_until_quiet), 0);
}

#[test]
fn one_call_for_each_port_loses_edges() {
    assert_ne!(asleep(serve_once), 0);
}

#[test]
fn falling_port_by_port_loses_edges() {
    assert_ne!(asleep(serve_port_by_port), 0);
}

/// The port of the page, with a line of its own.
#[test]
fn the_port_of_the_page_loses_no_edge() {
    let without_lines = || Config {
        interrupts: IER::DATA_READY | IER::RECEIVER_LINE_STATUS,
        ..Config::DEFAULT
    };
    for seed in 1..=runs(10) {
        let board = Rc::new(RefCell::new(Board::new(1, seed)));
        let registers = Registers::new(&board, 0);
        let mut port = Port::start(Global::heap(), registers).expect("a port");
        // The lines of this chip are clear, so CTS is not checked.
        assert_eq!(port.configure(without_lines()), Ok(()));
        for step in 0..STEPS {
            board.borrow_mut().is_busy = step < STEPS / 2;
            board.borrow_mut().pass();
            let what = board.borrow_mut().random.below(8);
            match what {
                0 if step < STEPS / 2 => {
                    port.write(b"byte");
                }
                1 => {
                    port.read(&mut [0; 40]);
                }
                _ => {}
            }
            while board.borrow_mut().take_edge() {
                assert!(port.on_interrupt().is_ok());
            }
            assert!(!board.borrow().is_asleep());
        }
        assert_eq!((port.ring.transmit_len(), port.stuck()), (0, None));
        port.restart();
    }
}
