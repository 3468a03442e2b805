//! Two processors, and two ports on one interrupt line that a controller detects by its edges: which lock do the handler and the other
//! calls take? Between two sections of the handler the other processor takes the lock that is free.

mod board;

use board::{Board, LIMIT, MAX_UNFINISHED_ROUNDS, Port, runs, started};
use proved_uart_ring::handle_ports;
use std::cell::RefCell;
use std::rc::Rc;
use uart_spec::registers::{IER, MSR};

const A: usize = 0;
const B: usize = 1;
const PORTS: usize = 2;

type Between<'a> = &'a mut dyn FnMut(&mut [Port]);
type Handler = fn(&mut [Port], Between);

/// The handler with a lock for each port: what is done at a port, and at the next one, are sections of their own.
fn with_a_lock_each(ports: &mut [Port], between: Between) {
    for at in 0..PORTS {
        // A port that is stuck tells so by `stuck`.
        let _handled = ports[at].ring.try_handle(LIMIT, MAX_UNFINISHED_ROUNDS);
        between(ports);
    }
    let mut enabled = [IER::empty(); PORTS];
    for (at, enabled) in enabled.iter_mut().enumerate() {
        let uart = ports[at].ring.inner_mut();
        *enabled = uart.ier();
        uart.disable_interrupts(IER::all());
        between(ports);
    }
    for (at, enabled) in enabled.into_iter().enumerate() {
        ports[at].ring.inner_mut().enable_interrupts(enabled);
        between(ports);
    }
}

/// The handler with one lock for the line: it is one section.
fn with_the_lock_of_the_line(ports: &mut [Port], between: Between) {
    handle_ports(ports, LIMIT, MAX_UNFINISHED_ROUNDS);
    between(ports);
}

const RING_OF_FOUR: usize = 4;

const INTERRUPTS: IER = IER::DATA_READY
    .union(IER::RECEIVER_LINE_STATUS)
    .union(IER::MODEM_STATUS);

/// Whether both processors wait for ever after this.
///
/// Port A is paused: its receive ring is full, so DATA_READY is disabled, and a character waits in its chip. A character at B calls the
/// handler. Behind its first section CTS changes at A, and behind its second another character comes to B. Then another processor takes
/// a byte at A, in the first section in which it is let in once A has fallen.
fn sleeps_by_the_schedule(handler: Handler) -> bool {
    let board = Rc::new(RefCell::new(Board::new(PORTS, 1)));
    board.borrow_mut().is_running = false;
    let mut ports = started(&board, INTERRUPTS, RING_OF_FOUR);
    for _ in 0..=RING_OF_FOUR {
        board.borrow_mut().arrive_and_wait(A);
        while board.borrow_mut().take_edge() {
            handler(&mut ports, &mut |_ports| {});
        }
    }
    assert!(ports[A].ring.is_paused() && board.borrow().chips[A].waiting_len() == 1);

    board.borrow_mut().arrive_and_wait(B);
    assert!(board.borrow_mut().take_edge());
    let mut section = 0;
    let mut between = |ports: &mut [Port]| {
        match section {
            0 => {
                let board = &mut *board.borrow_mut();
                assert_eq!(board.chips[A].set_lines(MSR::CTS), Ok(()));
                board.look();
            }
            1 => board.borrow_mut().arrive_and_wait(B),
            2 => {
                ports[A].ring.take(&mut [0; 1]);
            }
            _ => {}
        }
        section += 1;
    };
    handler(&mut ports, &mut between);
    while board.borrow_mut().take_edge() {
        handler(&mut ports, &mut between);
    }
    board.borrow().is_asleep()
}

#[test]
fn with_a_lock_for_each_port_both_processors_sleep() {
    assert!(sleeps_by_the_schedule(with_a_lock_each));
}

#[test]
fn with_the_lock_of_the_line_neither_sleeps() {
    assert!(!sleeps_by_the_schedule(with_the_lock_of_the_line));
}

const STEPS: usize = 400;
const RING_SIZE: usize = 8;

/// Whether both processors wait for ever in a run at random: time passes before each access, and the other processor queues, takes or
/// does nothing behind each section.
fn sleeps_at_random(seed: u64, handler: Handler) -> bool {
    let board = Rc::new(RefCell::new(Board::new(PORTS, seed)));
    let mut ports = started(&board, INTERRUPTS, RING_SIZE);
    let mut between = |ports: &mut [Port]| {
        let (at, what) = {
            let board = &mut *board.borrow_mut();
            let at = board.random.below(PORTS);
            if board.random.below(8) == 0 {
                let lines = [MSR::empty(), MSR::CTS][board.random.below(2)];
                assert_eq!(board.chips[at].set_lines(lines), Ok(()));
                board.look();
            }
            (at, board.random.below(8))
        };
        match what {
            0 => {
                ports[at].ring.queue(b"bytes");
            }
            1..4 => {
                ports[at].ring.take(&mut [0; RING_SIZE]);
            }
            _ => {}
        }
    };
    for _ in 0..STEPS {
        board.borrow_mut().pass();
        between(&mut ports);
        while board.borrow_mut().take_edge() {
            handler(&mut ports, &mut between);
        }
        if board.borrow().is_asleep() {
            return true;
        }
    }
    false
}

fn asleep(handler: Handler) -> usize {
    (1..=runs(100))
        .filter(|&seed| sleeps_at_random(seed, handler))
        .count()
}

#[test]
fn at_random_a_lock_for_each_port_lets_some_sleep() {
    assert_ne!(asleep(with_a_lock_each), 0);
}

#[test]
fn at_random_the_lock_of_the_line_lets_none_sleep() {
    assert_eq!(asleep(with_the_lock_of_the_line), 0);
}
