//! Each call over a replay, with lists of accesses that were written down by hand.

use proved_uart_rs485::{
    BusyError, Direction, DirectionLine, EchoError, HalfDuplex, NotSendingError, SendError,
};
use std::num::NonZeroU64;
use uart_16550::{Uart16550, WaitEnd, WaitError};
use uart_calls::replay::Replay;
use uart_ring::Refused;
use uart_spec::access::Access::{self, Read, Write};
use uart_spec::registers::offsets::{DATA, LSR, MCR};
use uart_spec::registers::{self, MCR as Outputs};
use uart_spec::{ByteReceiveError, Received, StalledError};

/// LSR: the transmitter is empty.
const EMPTY: u8 = 0x60;

/// LSR: there is room, and a byte is in the shift register.
const ROOM: u8 = 0x20;

/// LSR: there is no room.
const FULL: u8 = 0x00;

const RTS: Direction = Direction {
    line: DirectionLine::Rts,
    sends_when_set: true,
};

/// Returns what the reads among these accesses return.
fn answers_in(accesses: &[Access]) -> Vec<u8> {
    let answer = |access: &Access| match *access {
        Read(_, answer) => Some(answer),
        Write(_, _) => None,
    };
    accesses.iter().filter_map(answer).collect()
}

/// A driver whose reads return these bytes.
fn driver(answers: &[u8]) -> Uart16550<Replay<'_>> {
    Uart16550::new_with_backend(Replay::new(answers))
}

/// Asserts that these calls at a bus that is new make these accesses behind those of `new`, and no others.
fn play(direction: Direction, new: &[Access], calls: &[Access], made: impl FnOnce(&mut HalfDuplex<Replay<'_>>)) {
    let accesses = [new, calls].concat();
    let answers = answers_in(&accesses);
    let Ok(mut bus) = HalfDuplex::new(driver(&answers), direction) else {
        panic!("the transmitter is empty");
    };
    made(&mut bus);
    assert_eq!(bus.inner().backend().accesses(), Some(accesses.as_slice()));
}

/// What `new` does with MCR as an `init` leaves it, if RTS set is to send.
const NEW: [Access; 3] = [Read(LSR, EMPTY), Read(MCR, 0x0b), Write(MCR, 0x09)];

#[test]
fn a_question_is_sent_and_the_bus_given_back() {
    let calls = [
        Read(MCR, 0x09),
        Write(MCR, 0x0b),
        Read(LSR, EMPTY),
        Write(DATA, b'h'),
        Write(DATA, b'i'),
        Read(LSR, ROOM),
        Read(LSR, ROOM),
        Read(LSR, FULL),
        Read(LSR, EMPTY),
        Read(LSR, EMPTY),
        Read(MCR, 0x0b),
        Write(MCR, 0x09),
    ];
    play(RTS, &NEW, &calls, |bus| {
        assert!(!bus.is_sending());
        bus.start_sending();
        assert!(bus.is_sending());
        assert_eq!(bus.send_bytes(b"hi"), Ok(2));
        assert!(!bus.is_idle());
        assert_eq!(bus.try_finish(), Err(BusyError));
        assert!(bus.is_sending());
        assert_eq!(bus.flush(), Ok(()));
        assert_eq!(bus.try_finish(), Ok(()));
        assert!(!bus.is_sending());
    });
}

#[test]
fn each_line_and_each_level() {
    // The other outputs stay, and loopback is off. MCR is 0x1b at first, with loopback.
    let rows = [
        (DirectionLine::Rts, true, 0x09, 0x0b),
        (DirectionLine::Rts, false, 0x0b, 0x09),
        (DirectionLine::Dtr, true, 0x0a, 0x0b),
        (DirectionLine::Dtr, false, 0x0b, 0x0a),
    ];
    for (line, sends_when_set, receives, sends) in rows {
        let direction = Direction {
            line,
            sends_when_set,
        };
        let new = [Read(LSR, EMPTY), Read(MCR, 0x1b), Write(MCR, receives)];
        let calls = [
            Read(MCR, receives),
            Write(MCR, sends),
            Read(LSR, EMPTY),
            Read(MCR, sends),
            Write(MCR, receives),
        ];
        play(direction, &new, &calls, |bus| {
            assert_eq!(bus.direction(), direction);
            bus.start_sending();
            assert_eq!(bus.try_finish(), Ok(()));
        });
        let outputs = direction.receiving(Outputs::from_bits_retain(0x0b));
        assert_eq!(outputs.bits(), receives);
    }
}

#[test]
fn nothing_is_written_while_the_direction_is_not_to_send() {
    play(RTS, &NEW, &[], |bus| {
        assert_eq!(bus.send_bytes(b"hi"), Err(NotSendingError));
        assert_eq!(bus.send_bytes(b""), Err(NotSendingError));
        assert_eq!(bus.send_bytes_exact(b"hi"), Err(SendError::NotSending));
    });
}

#[test]
fn a_busy_transmitter_keeps_the_driver() {
    let Err(Refused { given: mut uart, cause: busy }) = HalfDuplex::new(driver(&[0x2a, EMPTY]), RTS) else {
        panic!("the transmitter is not empty");
    };
    assert_eq!(busy, BusyError);
    assert_eq!(uart.backend().accesses(), Some([Read(LSR, 0x2a)].as_slice()));
    // What the look cleared in the chip is told.
    assert_eq!(uart.lsr().bits(), EMPTY | 0x0a);
}

#[test]
fn calls_twice_in_a_row() {
    // `start_sending` switches again, and so does `try_finish`.
    let calls = [
        Read(MCR, 0x09),
        Write(MCR, 0x0b),
        Read(MCR, 0x0b),
        Write(MCR, 0x0b),
        Read(LSR, EMPTY),
        Read(MCR, 0x0b),
        Write(MCR, 0x09),
        Read(LSR, EMPTY),
        Read(MCR, 0x09),
        Write(MCR, 0x09),
    ];
    play(RTS, &NEW, &calls, |bus| {
        bus.start_sending();
        bus.start_sending();
        assert_eq!(bus.try_finish(), Ok(()));
        assert_eq!(bus.try_finish(), Ok(()));
    });
}

#[test]
fn waits_end_at_the_limit() {
    let limit = NonZeroU64::new(2).unwrap();
    let answers = [EMPTY, 0x09, 0x09, EMPTY, FULL, FULL, ROOM, ROOM];
    let mut uart = driver(&answers);
    uart.set_spin_limit(limit);
    let Ok(mut bus) = HalfDuplex::new(uart, RTS) else {
        panic!("the transmitter is empty");
    };
    bus.start_sending();
    let stalled = Err(SendError::Stalled(StalledError { done: 16 }));
    assert_eq!(bus.send_bytes_exact(b"hello, world! 123"), stalled);
    assert_eq!(bus.flush(), Err(StalledError { done: 0 }));
    assert!(bus.is_sending());
    let made = bus.inner().backend().accesses().map(<[Access]>::len);
    assert_eq!(made, Some(3 + 2 + 17 + 2 + 2));
}

#[test]
fn errors_are_passed_on() {
    // A framing error at a look for the transmitter, an overrun at one for a byte.
    let calls = [
        Read(LSR, 0x68),
        Read(LSR, 0x63),
        Read(DATA, b'a'),
        Read(LSR, 0x65),
        Read(DATA, b'b'),
        Read(LSR, EMPTY),
        Read(LSR, EMPTY),
        Read(LSR, EMPTY),
    ];
    play(RTS, &NEW, &calls, |bus| {
        assert!(bus.is_idle());
        let mut byte = [0xee];
        assert_eq!(bus.receive_bytes(&mut byte), 1);
        assert_eq!(byte, *b"a");
        let mut slots = [Received::default(); 2];
        assert_eq!(bus.receive_with_errors(&mut slots), 1);
        let errors = registers::LSR::PARITY_ERROR;
        assert_eq!(slots[0], Received { byte: b'b', errors });
        assert_eq!(bus.lsr().bits(), EMPTY | 0x08 | 0x02 | 0x04);
        assert_eq!(bus.lsr().bits(), EMPTY);
    });
}

/// LSR: the transmitter is empty, and a byte is available.
const DATA_READY: u8 = 0x61;

#[test]
fn an_answer_is_waited_for() {
    let calls = [
        Read(LSR, EMPTY),
        Read(LSR, DATA_READY),
        Read(DATA, b'o'),
        Read(LSR, DATA_READY),
        Read(DATA, b'k'),
        Read(LSR, EMPTY),
        Read(LSR, DATA_READY),
        Read(DATA, b'!'),
        Read(LSR, EMPTY),
        Read(LSR, EMPTY),
    ];
    play(RTS, &NEW, &calls, |bus| {
        let mut slots = [0xee; 2];
        assert_eq!(bus.receive_bytes_exact(&mut slots), Ok(()));
        assert_eq!(slots, *b"ok");
        // Two polls more are in the time that there is.
        let mut asked = 0;
        let mut slots = [0xee; 3];
        let answer = bus.receive_bytes_while(&mut slots, &mut || {
            asked += 1;
            asked < 3
        });
        assert_eq!(answer, Err(WaitError { done: 1, ended_by: WaitEnd::Patience }));
        assert_eq!(slots, [b'!', 0xee, 0xee]);
        assert_eq!(asked, 3);
        assert!(!bus.is_sending());
    });
}

#[test]
fn an_answer_that_does_not_come_ends_at_the_limit() {
    let answers = [EMPTY, 0x09, DATA_READY, b'a', EMPTY, EMPTY];
    let mut uart = driver(&answers);
    uart.set_spin_limit(NonZeroU64::new(2).unwrap());
    let Ok(mut bus) = HalfDuplex::new(uart, RTS) else {
        panic!("the transmitter is empty");
    };
    let mut slots = [0xee; 3];
    assert_eq!(bus.receive_bytes_exact(&mut slots), Err(StalledError { done: 1 }));
    assert_eq!(slots, [b'a', 0xee, 0xee]);
    assert_eq!(bus.inner().backend().accesses().map(<[Access]>::len), Some(3 + 4));
}

#[test]
fn one_byte_is_received_if_it_is_there() {
    let calls = [
        Read(LSR, EMPTY),
        Read(LSR, 0x6b),
        Read(LSR, DATA_READY),
        Read(DATA, b'a'),
        Read(LSR, EMPTY),
        Read(LSR, 0x65),
        Read(DATA, b'b'),
        Read(LSR, EMPTY),
        Read(LSR, EMPTY),
    ];
    play(RTS, &NEW, &calls, |bus| {
        assert_eq!(bus.ready_to_receive(), Err(ByteReceiveError));
        assert_eq!(bus.ready_to_receive(), Ok(()));
        assert_eq!(bus.try_receive_byte(), Ok(b'a'));
        assert_eq!(bus.try_receive_byte(), Err(ByteReceiveError));
        let errors = registers::LSR::PARITY_ERROR;
        assert_eq!(bus.try_receive_with_errors(), Ok(Received { byte: b'b', errors }));
        assert_eq!(bus.try_receive_with_errors(), Err(ByteReceiveError));
        assert_eq!(bus.lsr().bits(), EMPTY | 0x0a | 0x04);
    });
}

#[test]
fn an_echo_is_compared() {
    let calls = [
        Read(MCR, 0x09),
        Write(MCR, 0x0b),
        Read(LSR, EMPTY),
        Write(DATA, b'h'),
        Write(DATA, b'i'),
        Read(LSR, ROOM),
        Read(LSR, DATA_READY),
        Read(DATA, b'h'),
        Read(LSR, DATA_READY),
        Read(DATA, b'i'),
        Read(LSR, DATA_READY),
        Read(DATA, b'h'),
        Read(LSR, DATA_READY),
        Read(DATA, b'o'),
    ];
    play(RTS, &NEW, &calls, |bus| {
        bus.start_sending();
        assert_eq!(bus.send_bytes(b"hi"), Ok(2));
        assert_eq!(bus.receive_echo(b"hi"), Ok(()));
        assert_eq!(bus.receive_echo(b""), Ok(()));
        let differs = EchoError::Differs {
            done: 1,
            heard: b'o',
        };
        // What follows is left where it is.
        assert_eq!(bus.receive_echo(b"hi!"), Err(differs));
    });
    let answers = [EMPTY, 0x09, DATA_READY, b'h', EMPTY, EMPTY];
    let mut uart = driver(&answers);
    uart.set_spin_limit(NonZeroU64::new(2).unwrap());
    let Ok(mut bus) = HalfDuplex::new(uart, RTS) else {
        panic!("the transmitter is empty");
    };
    assert_eq!(bus.receive_echo(b"hi"), Err(EchoError::Silent { done: 1 }));
}

#[test]
fn a_stuck_transmitter_is_given_up() {
    for (status, waits) in [(EMPTY, false), (ROOM, true), (FULL, true)] {
        let new = [EMPTY, 0x0b, 0x09, 0x6a, status, status, 0x1b];
        let Ok(mut bus) = HalfDuplex::new(driver(&new), RTS) else {
            panic!("the transmitter is empty");
        };
        bus.start_sending();
        // What this look clears is told in the end.
        assert!(bus.is_idle());
        assert_eq!(bus.is_idle(), !waits);
        let (uart, shown) = bus.give_up();
        assert_eq!(shown.bits(), status | 0x0a);
        let made = uart.backend().accesses().expect("no other access");
        assert_eq!(made[made.len() - 3..], [Read(LSR, status), Read(MCR, 0x1b), Write(MCR, 0x09)]);
        assert_eq!(made.len(), 3 + 2 + 2 + 3);
    }
}

#[test]
fn the_driver_is_given_back_as_it_is() {
    let answers = [EMPTY, 0x0b, 0x09];
    let Ok(mut bus) = HalfDuplex::new(driver(&answers), RTS) else {
        panic!("the transmitter is empty");
    };
    bus.start_sending();
    let uart = bus.into_inner();
    let made = [Read(LSR, EMPTY), Read(MCR, 0x0b), Write(MCR, 0x09), Read(MCR, 0x09), Write(MCR, 0x0b)];
    assert_eq!(uart.backend().accesses(), Some(made.as_slice()));
}
