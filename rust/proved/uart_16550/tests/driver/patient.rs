//! The calls whose waits end when their caller says so: each with its whole list of accesses, and
//! with how often the caller was asked.

use crate::devices::{Listed, RegisterFile, driver, impatient};
use crate::lists::{Accesses, list};
use proved_uart_16550::{Patience, WaitEnd, WaitError};
use uart_spec::Config;
use uart_spec::registers::LSR;

/// The two ends of a wait in vain.
const PATIENCE: WaitEnd = WaitEnd::Patience;

const SPIN_LIMIT: WaitEnd = WaitEnd::SpinLimit;

/// More than one burst of 16 bytes: that, and the rest.
const LONG: &[u8] = b"hello, world! 123";

const FIRST: &[u8] = b"hello, world! 12";

const REST: &[u8] = b"3";

/// A caller who keeps waiting so many times, and counts how often it is asked.
struct Times {
    left: usize,
    asked: usize,
}

impl Patience for Times {
    fn keep_waiting(&mut self) -> bool {
        self.asked += 1;
        let keeps = self.left > 0;
        self.left = self.left.saturating_sub(1);
        keeps
    }
}

/// Returns the error of a wait that this ended after so many bytes.
fn wait_error((done, ended_by): (usize, WaitEnd)) -> WaitError {
    WaitError { done, ended_by }
}

/// Makes a row: a new driver, with FIFOs that are taken to be on and a spin limit of 3, sends the bytes to a device whose reads return
/// these answers. Its caller keeps waiting so many times. Returns how often it was asked.
fn asked(
    answers: &'static [u8],
    bytes: &[u8],
    left: usize,
    done: Result<(), (usize, WaitEnd)>,
    accesses: &Accesses,
) -> usize {
    let mut uart = impatient(Listed(answers));
    let mut caller = Times { left, asked: 0 };
    let sent = uart.send_bytes_while(bytes, &mut caller);
    assert_eq!(sent, done.map_err(wait_error));
    assert_eq!(uart.backend().log.entries(), accesses.entries());
    caller.asked
}

/// Makes a row as `asked` does, of a call that receives into as many slots as there are bytes in `came`: those that are not EE are to come.
/// Returns how often its caller was asked.
fn asked_for(
    answers: &'static [u8],
    came: &[u8],
    left: usize,
    done: Result<(), (usize, WaitEnd)>,
    accesses: &Accesses,
) -> usize {
    let mut uart = impatient(Listed(answers));
    let mut caller = Times { left, asked: 0 };
    let mut slots = vec![0xee; came.len()];
    let received = uart.receive_bytes_while(&mut slots, &mut caller);
    assert_eq!(received, done.map_err(wait_error));
    assert_eq!(slots, came);
    assert_eq!(uart.backend().log.entries(), accesses.entries());
    caller.asked
}

#[test]
fn a_caller_is_asked_after_each_check_that_fails() {
    assert_eq!(asked(&[], b"", 0, Ok(()), &list()), 0);
    let at_once = list().burst(FIRST).burst(REST);
    assert_eq!(asked(&[0x20, 0x20], LONG, 0, Ok(()), &at_once), 0);
    let late = list().looks(2, 0x00).burst(FIRST).look(0x00).burst(REST);
    let answers = &[0x00, 0x00, 0x20, 0x00, 0x20];
    assert_eq!(asked(answers, LONG, 3, Ok(()), &late), 3);
}

#[test]
fn no_check_follows_the_answer_to_wait_no_longer() {
    let at_first = Err((0, PATIENCE));
    assert_eq!(asked(&[], LONG, 0, at_first, &list().look(0x00)), 1);
    assert_eq!(asked(&[], LONG, 1, at_first, &list().looks(2, 0x00)), 2);
    // The answers count over all of the waits: here the second wait ends at its first check.
    let second = list().look(0x00).burst(FIRST).look(0x00);
    let answers = &[0x00, 0x20, 0x00, 0x20];
    assert_eq!(asked(answers, LONG, 1, Err((16, PATIENCE)), &second), 2);
}

#[test]
fn the_spin_limit_ends_a_wait_too() {
    let limit = list().looks(3, 0x00);
    let stalled = Err((0, SPIN_LIMIT));
    assert_eq!(asked(&[], LONG, usize::MAX, stalled, &limit), 3);
    assert_eq!(asked(&[], LONG, 3, stalled, &limit), 3);
    // At the check that reaches the limit the caller is asked too, and its answer decides.
    assert_eq!(asked(&[], LONG, 2, Err((0, PATIENCE)), &limit), 3);
}

#[test]
fn without_a_fifo_each_byte_has_its_wait() {
    // ISR shows no FIFO. The transmitter is empty, so `init` does not wait.
    let mut uart = driver(RegisterFile::new(false));
    uart.init(Config::DEFAULT).unwrap();
    let before = uart.backend().log.count();
    assert_eq!(uart.send_bytes_while(b"abc", &mut || false), Ok(()));
    let one_by_one = b"abc"
        .iter()
        .fold(list(), |list, &byte| list.look(0x60).data(&[byte]));
    assert_eq!(
        &uart.backend().log.entries()[before..],
        one_by_one.entries()
    );
}

#[test]
fn errors_that_the_checks_clear_are_saved() {
    let mut uart = impatient(Listed(&[0x02, 0x20]));
    let mut asked = 0;
    let kept = &mut || {
        asked += 1;
        true
    };
    assert_eq!(uart.send_bytes_while(b"a", kept), Ok(()));
    assert_eq!(asked, 1);
    assert_eq!(uart.lsr(), LSR::OVERRUN_ERROR);
}

#[test]
fn who_receives_is_asked_after_each_poll_that_fails() {
    assert_eq!(asked_for(&[], b"", 0, Ok(()), &list()), 0);
    let at_once = list().hits(b"AB");
    assert_eq!(
        asked_for(&[1, 0x41, 1, 0x42], b"AB", 0, Ok(()), &at_once),
        0
    );
    // Two polls in a row before each byte, and no third: the limit counts each wait by itself.
    let late = list().looks(2, 0x00).hit(0x41).looks(2, 0x00).hit(0x42);
    let answers = &[0, 0, 1, 0x41, 0, 0, 1, 0x42];
    assert_eq!(asked_for(answers, b"AB", 4, Ok(()), &late), 4);
}

#[test]
fn no_poll_follows_the_answer_to_wait_no_longer() {
    let one = list().look(0x00);
    let at_first = Err((0, PATIENCE));
    assert_eq!(asked_for(&[0, 1, 0x41], &[0xee; 2], 0, at_first, &one), 1);
    let two = list().looks(2, 0x00);
    let answers = &[0, 0, 1, 0x41];
    assert_eq!(asked_for(answers, &[0xee; 2], 1, at_first, &two), 2);
    // The answers count over all of the waits: here the second wait ends at its first poll.
    let second = list().look(0x00).hit(0x41).look(0x00);
    let answers = &[0, 1, 0x41, 0, 1, 0x42];
    assert_eq!(
        asked_for(answers, &[0x41, 0xee, 0xee], 1, Err((1, PATIENCE)), &second),
        2
    );
}

#[test]
fn the_spin_limit_ends_a_wait_for_a_byte_too() {
    let limit = list().hit(0x41).looks(3, 0x00);
    let came = [0x41, 0xee];
    let stalled = Err((1, SPIN_LIMIT));
    assert_eq!(asked_for(&[1, 0x41], &came, usize::MAX, stalled, &limit), 3);
    assert_eq!(asked_for(&[1, 0x41], &came, 3, stalled, &limit), 3);
    // At the poll that reaches the limit the caller is asked too, and its answer decides.
    let ended = Err((1, PATIENCE));
    assert_eq!(asked_for(&[1, 0x41], &came, 2, ended, &limit), 3);
}

#[test]
fn errors_that_the_polls_clear_are_saved() {
    // An overrun at a poll without data, and a parity error with the byte.
    let mut uart = impatient(Listed(&[0x02, 0x05, 0x41, 0x08]));
    let mut slots = [0xee; 2];
    let mut turns = 1;
    let once = &mut || {
        turns -= 1;
        turns == 0
    };
    let ended = Err(wait_error((1, PATIENCE)));
    assert_eq!(uart.receive_bytes_while(&mut slots, once), ended);
    assert_eq!(slots, [0x41, 0xee]);
    let shown = LSR::OVERRUN_ERROR | LSR::PARITY_ERROR | LSR::FRAMING_ERROR;
    assert_eq!(uart.lsr(), shown);
}

/// Makes a row as `asked` does, of a call that waits for an empty transmitter.
fn asked_for_empty(
    answers: &'static [u8],
    left: usize,
    done: Result<(), (usize, WaitEnd)>,
    accesses: &Accesses,
) -> usize {
    let mut uart = impatient(Listed(answers));
    let mut caller = Times { left, asked: 0 };
    let flushed = uart.flush_while(&mut caller);
    assert_eq!(flushed, done.map_err(wait_error));
    assert_eq!(uart.backend().log.entries(), accesses.entries());
    caller.asked
}

#[test]
fn who_flushes_is_asked_after_each_poll_that_fails() {
    assert_eq!(asked_for_empty(&[0x40], 0, Ok(()), &list().look(0x40)), 0);
    // An empty holding register is not enough.
    let late = list().look(0x00).look(0x20).look(0x60);
    assert_eq!(asked_for_empty(&[0x00, 0x20, 0x60], 2, Ok(()), &late), 2);
    let ended = list().look(0x00).look(0xbf);
    let no_longer = Err((0, PATIENCE));
    let answers = &[0x00, 0xbf, 0x40];
    assert_eq!(asked_for_empty(answers, 1, no_longer, &ended), 2);
    let limit = list().look(0x00).look(0x20).look(0xbf);
    let answers = &[0x00, 0x20, 0xbf, 0x40];
    let stalled = Err((0, SPIN_LIMIT));
    assert_eq!(asked_for_empty(answers, usize::MAX, stalled, &limit), 3);
    assert_eq!(asked_for_empty(answers, 3, stalled, &limit), 3);
    // At the poll that reaches the limit the caller is asked too, and its answer decides.
    assert_eq!(asked_for_empty(answers, 2, no_longer, &limit), 3);
}

#[test]
fn errors_that_a_flush_clears_are_saved() {
    let mut uart = impatient(Listed(&[0x0a, 0x40]));
    assert_eq!(uart.flush_while(&mut || true), Ok(()));
    assert_eq!(uart.lsr(), LSR::OVERRUN_ERROR | LSR::FRAMING_ERROR);
}
