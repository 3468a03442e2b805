//! Runs in which what the laws on sessions ask for holds: nothing keeps a call from its end; an `init` leaves the room that there was; and
//! calls of the driver do what a run of them does, also those that stand for another one.

mod premises;

use core::num::NonZeroU64;
use geesetrunk_kit::alloc::Global;
use premises::{Begin, is_within_session, keeps_checks, keeps_size};
use proved_uart_run::run;
use uart_16550::{Patience, Uart16550, Uart16550Tty};
use uart_calls::{Answer, Call, perform};
use uart_chip::{Chip, Device16550, Event};
use uart_spec::registers::{LSR, MCR};
use uart_spec::{Config, FifoSize, Received};

/// How many ticks a character takes, and the least limit with which a call is not held up: n (t + 1), of which a FIFO of 16 and the
/// shift register hold 17.
const CHAR_TICKS: u16 = 4;
const LIMIT: u64 = 17 * (CHAR_TICKS as u64 + 1);

/// A driver over a new chip without automatic flow control, whose wire has this much room. Where the schedule has no events, one tick
/// comes before each access.
fn driver(room: usize, events: &[Event]) -> Uart16550<Device16550> {
    let schedule = events.to_vec().into();
    let device =
        Device16550::new(Global::heap(), Chip::Uart16550A, CHAR_TICKS, room, schedule).unwrap();
    let mut driver = Uart16550::new_with_backend(device);
    driver.set_spin_limit(NonZeroU64::new(LIMIT).unwrap());
    driver
}

fn terminal(room: usize) -> Uart16550Tty<Device16550> {
    Uart16550Tty::from_inner(driver(room, &[]))
}

/// What these calls answer.
fn answers(uart: &mut Uart16550Tty<Device16550>, calls: &[Call]) -> Vec<Answer> {
    let mut answers: Vec<_> = calls.iter().map(|_| Answer::Done).collect();
    run(uart, calls, &mut answers);
    answers
}

fn exactly(bytes: &[u8]) -> Call {
    Call::SendExact(bytes.try_into().unwrap())
}

/// The calls of a session that wait, and what else may come between them: 64 bytes, 7, and 5 of a text with its carriage return.
fn session() -> [Call; 6] {
    [
        exactly(&[0x55; 64]),
        Call::Lsr,
        Call::Write(b"seventh".as_slice().try_into().unwrap()),
        Call::Text("four\n".try_into().unwrap()),
        Call::SetRts(false),
        Call::Flush,
    ]
}

const SENT: usize = 64 + 7 + 6;

#[test]
fn with_room_for_all_of_it_no_call_of_a_session_stalls() {
    let mut uart = terminal(10 + SENT);
    // The session begins in the middle of a run, behind an `init` and ten bytes, some of which still wait in the chip.
    let before = answers(
        &mut uart,
        &[Call::Init(Config::DEFAULT), exactly(b"0123456789")],
    );
    assert_eq!(before, [Answer::Done, Answer::Done]);
    assert!(uart.inner().backend().held_len() > 0);
    // What the laws ask for. The looks that this takes are accesses, in which some of the ten bytes may go out.
    let mut begin = Begin {
        driver: uart.inner_mut(),
        char_ticks: CHAR_TICKS,
        capacity: 10 + SENT,
        ahead: &[],
    };
    assert!(begin.is_unhindered() && begin.is_timely() && begin.is_unchecked());
    assert!(begin.has_room(SENT) && !begin.has_room(SENT + 1));
    let all_within_session = session().iter().all(is_within_session);
    assert!(all_within_session);
    assert!(session().iter().all(keeps_size) && session().iter().all(keeps_checks));

    for (call, answer) in session().iter().zip(answers(&mut uart, &session())) {
        match call {
            Call::Lsr => assert!(matches!(answer, Answer::Register(_))),
            Call::Write(bytes) => assert!(matches!(answer, Answer::Count(n) if n <= bytes.len())),
            _ => assert_eq!(answer, Answer::Done, "{call:?}"),
        }
    }
    // What a session asks for still holds, so one more begins, and calls that end one end too.
    let behind = [
        Call::SetFrameWhenIdle(Config::DEFAULT),
        Call::TestLoopback,
        Call::Init(Config::DEFAULT),
        Call::Flush,
    ];
    assert_eq!(answers(&mut uart, &behind), [const { Answer::Done }; 4]);
}

#[test]
fn with_room_for_one_byte_less_a_session_stalls() {
    let mut uart = terminal(SENT - 1);
    answers(&mut uart, &[Call::Init(Config::DEFAULT)]);
    let of_the_session = answers(&mut uart, &session());
    assert!(matches!(of_the_session.last(), Some(Answer::Stalled(_))));
}

#[test]
fn an_init_leaves_the_room_that_there_was() {
    let mut uart = terminal(8);
    let begin = Begin {
        driver: uart.inner_mut(),
        char_ticks: CHAR_TICKS,
        capacity: 8,
        ahead: &[],
    };
    assert!(begin.is_ticked() && begin.has_room(8) && !begin.has_room(9));
    let calls = [
        Call::Init(Config::DEFAULT),
        exactly(b"abc"),
        Call::Flush,
        Call::Init(Config::DEFAULT),
        exactly(b"defgh"),
        Call::Flush,
        exactly(b"i"),
        Call::Flush,
    ];
    let mut done: Vec<_> = calls.iter().map(|_| Answer::Done).collect();
    // There were eight places: the ninth byte stays in the chip.
    done[7] = Answer::Stalled(0);
    assert_eq!(answers(&mut uart, &calls), done);
    assert_eq!(uart.inner().backend().wire(), b"abcdefgh");
}

/// Characters that come behind a mark, one of them with a parity error.
fn arrivals() -> Vec<Event> {
    let come = |byte, errors: LSR| {
        [
            Event::Ticks(9),
            Event::Arrive {
                byte,
                errors: errors.bits(),
            },
        ]
    };
    let few = [
        come(b'x', LSR::empty()),
        come(b'y', LSR::PARITY_ERROR),
        come(b'z', LSR::empty()),
    ];
    [&[Event::Mark], few.as_flattened()].concat()
}

/// All that can be seen of a chip behind its calls, and the driver's saved errors.
fn seen(driver: &mut Uart16550<Device16550>) -> (Vec<u8>, Vec<Option<u8>>, Vec<Option<u8>>, u8) {
    let lsr = driver.lsr().bits();
    let chip = driver.backend();
    let held = (0..chip.held_len()).map(|i| chip.held_at(i)).collect();
    let waiting = (0..chip.waiting_len())
        .map(|i| chip.waiting_at(i))
        .collect();
    (chip.wire().to_vec(), held, waiting, lsr)
}

/// Makes a call by itself.
fn make(uart: &mut Uart16550Tty<Device16550>, call: &Call) -> Answer {
    if *call == Call::Next {
        uart.inner_mut().backend_mut().next();
    }
    perform(uart, call)
}

#[test]
fn calls_in_turn_do_what_a_run_does() {
    let calls = || {
        let mut calls = vec![Call::Init(Config::DEFAULT), Call::Next];
        calls.extend(session());
        calls.extend([
            Call::Receive(2),
            Call::Msr,
            Call::ReceiveWithErrors(4),
            Call::TryReceive,
        ]);
        calls
    };
    let mut in_a_run = Uart16550Tty::from_inner(driver(200, &arrivals()));
    let mut in_turn = Uart16550Tty::from_inner(driver(200, &arrivals()));
    let of_the_run = answers(&mut in_a_run, &calls());
    let of_the_calls: Vec<_> = calls()
        .iter()
        .map(|call| make(&mut in_turn, call))
        .collect();
    assert_eq!(of_the_run, of_the_calls);
    assert_eq!(seen(in_a_run.inner_mut()), seen(in_turn.inner_mut()));
    // The calls received something, and not all of it without errors.
    assert!(
        of_the_run
            .iter()
            .any(|one| matches!(one, Answer::Bytes(bytes) if !bytes.is_empty()))
    );
}

/// Makes a call, and the one that it stands for, over equal chips, and compares all that can be seen.
fn compare<T: core::fmt::Debug + PartialEq>(
    own: impl Fn(&mut Uart16550<Device16550>) -> T,
    other: impl Fn(&mut Uart16550<Device16550>) -> T,
) {
    let mut pair = [driver(64, &arrivals()), driver(64, &arrivals())];
    for one in &mut pair {
        assert_eq!(one.init(Config::DEFAULT), Ok(()));
        one.backend_mut().next();
    }
    let [here, there] = &mut pair;
    for _ in 0..3 {
        assert_eq!(own(here), other(there));
        assert_eq!(seen(here), seen(there));
    }
}

fn of_a_terminal<T>(
    driver: &mut Uart16550<Device16550>,
    call: impl Fn(&mut Uart16550Tty<Device16550>) -> T,
) -> T {
    let mut terminal = Uart16550Tty::from_inner(core::mem::replace(driver, self::driver(0, &[])));
    let result = call(&mut terminal);
    *driver = terminal.into_inner();
    result
}

#[test]
fn calls_that_stand_for_another_one_do_what_it_does() {
    compare(
        |one| one.try_receive_with_errors().ok(),
        |one| {
            let mut slot = [Received {
                byte: 0,
                errors: LSR::empty(),
            }];
            (one.receive_with_errors(&mut slot) == 1).then_some(slot[0])
        },
    );
    compare(
        |one| one.send_gathered(Some(b'!'), b"ab", b"c"),
        |one| one.send_bytes(b"!abc"),
    );
    // A size that is no larger than is set: as many bytes as it holds.
    compare(
        |one| one.send_burst(&[7; 40], FifoSize::Sixteen),
        |one| one.send_bytes(&[7; 16]),
    );
    compare(Uart16550::is_gone, |one| {
        one.mcr() == MCR::from_bits_retain(0xff)
    });
    compare(
        |one| of_a_terminal(one, |tty| tty.write_raw_text(b"a\n")),
        |one| of_a_terminal(one, |tty| tty.write_text("a\n")),
    );
    compare(
        |one| one.checked_init(Config::DEFAULT),
        |one| one.init(Config::DEFAULT),
    );
    compare(
        |one| one.checked_set_frame(&Config::DEFAULT),
        |one| one.set_frame(&Config::DEFAULT),
    );
    compare(
        |one| one.checked_set_frame_when_idle(&Config::DEFAULT),
        |one| one.set_frame_when_idle(&Config::DEFAULT),
    );
    // A form is refused, or makes its call: this configuration has no clock.
    let without_clock = || Config {
        frequency: 0,
        ..Config::DEFAULT
    };
    compare(|one| one.checked_init(without_clock()).is_err(), |_| true);
}

/// A caller that waits for so many questions.
struct Questions(usize);

impl Patience for Questions {
    fn keep_waiting(&mut self) -> bool {
        self.0 = self.0.saturating_sub(1);
        self.0 > 0
    }
}

/// Asks until something is there, or the caller has had enough, or the spin limit is reached.
fn in_turn<T>(questions: &mut Questions, mut ask: impl FnMut() -> Option<T>) -> Option<T> {
    for _ in 0..LIMIT {
        if let Some(found) = ask() {
            return Some(found);
        }
        if !questions.keep_waiting() {
            return None;
        }
    }
    None
}

#[test]
fn calls_that_stand_for_others_in_turn_do_what_these_do() {
    for most in [0, 1, 3, 20, 200] {
        compare(
            |one| {
                one.send_bytes_while(&[7; 40], &mut Questions(most))
                    .map_err(|stall| stall.done)
            },
            |one| {
                let (mut done, mut questions) = (0, Questions(most));
                while done < 40 {
                    let sent = |count| (count > 0).then_some(count);
                    let left = &[7; 40][done..];
                    done += in_turn(&mut questions, || sent(one.send_bytes(left))).ok_or(done)?;
                }
                Ok(())
            },
        );
        compare(
            |one| {
                let mut slots = [0; 3];
                let stalled = one.receive_bytes_while(&mut slots, &mut Questions(most));
                (stalled.map_err(|stall| stall.done), slots)
            },
            |one| {
                let (mut slots, mut questions) = ([0; 3], Questions(most));
                for done in 0..3 {
                    match in_turn(&mut questions, || one.try_receive_byte().ok()) {
                        Some(byte) => slots[done] = byte,
                        None => return (Err(done), slots),
                    }
                }
                (Ok(()), slots)
            },
        );
        compare(
            |one| {
                one.send_bytes(&[7; 3]);
                one.flush_while(&mut Questions(most)).is_ok()
            },
            |one| {
                one.send_bytes(&[7; 3]);
                in_turn(&mut Questions(most), || one.is_idle().then_some(())).is_some()
            },
        );
    }
    // A text that is longer than a call's. It has room for 64 bytes, so that it stalls.
    let text = "0123456789".repeat(8);
    compare(
        |one| of_a_terminal(one, |tty| tty.write_text(&text)).map_err(|stall| stall.done),
        |one| {
            for (done, byte) in text.bytes().enumerate() {
                let sent = |count: usize| (count > 0).then_some(());
                let is_there =
                    in_turn(&mut Questions(usize::MAX), || sent(one.send_bytes(&[byte])));
                is_there.ok_or(done)?;
            }
            Ok(())
        },
    );
}
