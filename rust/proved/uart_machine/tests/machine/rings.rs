//! Worked examples of ring calls over a machine.

use crate::machines::{arrive, machine};
use geesetrunk_kit::ArrayVec;
use geesetrunk_kit_of_rings::alloc::Global;
use proved_uart_machine::{
    Answer, ArrivalMark, Call, Chip, Device16550, Event, RingAnswer, RingCall, run_ring,
};
use std::slice;
use uart_16550::{Received, Uart16550};
use uart_ring::{HandleEnd, Handled, Uart16550Ring};
use uart_spec::Config;
use uart_spec::registers::{FifoTriggerLevel, IER, LSR, MSR};

type Rings = Uart16550Ring<Device16550>;

/// Returns rings of these capacities over an initialised driver of a machine with this schedule.
fn rings(
    (chip, schedule): (Chip, &[Event]),
    (fifo_trigger_level, interrupts): (Option<FifoTriggerLevel>, IER),
    (tx_capacity, rx_capacity): (usize, usize),
) -> Rings {
    let config = Config {
        fifo_trigger_level,
        interrupts,
        ..Config::DEFAULT
    };
    let mut uart = Uart16550::new_with_backend(machine(chip, 4, 64, schedule));
    uart.init(config).unwrap();
    match Uart16550Ring::new(Global::heap(), uart, tx_capacity, rx_capacity) {
        Ok(ring) => ring,
        Err(refused) => panic!("{refused}"),
    }
}

/// Returns rings, the one that transmits of this capacity, over a machine that is given time to send only between two marks.
fn slow_rings(tx_capacity: usize) -> Rings {
    let schedule = [Event::Mark, Event::Ticks(100), Event::Mark];
    let set = (Some(FifoTriggerLevel::Fourteen), IER::empty());
    rings((Chip::Uart16550A, &schedule), set, (tx_capacity, 4))
}

fn bytes(some: &[u8]) -> ArrayVec<u8, 64> {
    some.try_into().unwrap()
}

/// Makes a call in a run of its own, and compares its answer, and whether receiving is paused after it.
#[track_caller]
fn answers(ring: &mut Rings, call: &RingCall, want: &RingAnswer, is_paused: bool) {
    assert!(call.is_runnable());
    let mut answers = [RingAnswer::Done];
    run_ring(ring, slice::from_ref(call), &mut answers);
    assert_eq!(&answers[0], want, "{call:?}");
    assert_eq!(ring.is_paused(), is_paused, "after {call:?}");
}

/// Makes one call after the other. Receiving is not paused after any of them.
#[track_caller]
fn made(ring: &mut Rings, steps: &[(RingCall, RingAnswer)]) {
    for (call, want) in steps {
        answers(ring, call, want, false);
    }
}

/// Resumes full rings over an empty chip. All bytes move to the chip, and one more is accepted, which moves at the interrupt.
#[track_caller]
fn resumed(ring: &mut Rings) {
    let steps = [
        (RingCall::ResumeTransmit, RingAnswer::Done),
        (RingCall::Queue(bytes(b"i")), RingAnswer::Count(1)),
        (RingCall::Next, RingAnswer::Done),
        (RingCall::Next, RingAnswer::Done),
        (RingCall::Service, RingAnswer::Count(1)),
    ];
    made(ring, &steps);
    assert_eq!(ring.transmit_len(), 0);
}

const SENT: [u8; 20] = [
    1, 2, 3, 4, 5, 6, 7, 8, 9, 10, 11, 12, 13, 14, 15, 16, 17, 18, 19, 20,
];

#[test]
fn bytes_that_wait_are_sent_at_the_interrupt() {
    let mut ring = slow_rings(32);
    let steps = [
        (RingCall::Queue(bytes(&SENT)), RingAnswer::Count(20)),
        (RingCall::Service, RingAnswer::Count(0)),
        (RingCall::Next, RingAnswer::Done),
        (RingCall::Next, RingAnswer::Done),
        (RingCall::Service, RingAnswer::Count(1)),
    ];
    made(&mut ring, &steps);
    assert_eq!(ring.transmit_len(), 0);
    let machine = ring.inner().backend();
    assert_eq!(machine.wire(), &SENT[..17]);
    assert_eq!(machine.held_len(), 3);
    for (place, byte) in [(0, 18), (1, 19), (2, 20)] {
        assert_eq!(machine.held_at(place), Some(byte));
    }
}

#[test]
fn a_look_at_isr_takes_the_interrupt_away() {
    let mut ring = slow_rings(32);
    // The FIFO is on, and THR is empty.
    let thr_empty = RingAnswer::Driver(Answer::Register(0xc2));
    let asleep = [
        (RingCall::Queue(bytes(&SENT)), RingAnswer::Count(20)),
        (RingCall::Next, RingAnswer::Done),
        (RingCall::Next, RingAnswer::Done),
        (RingCall::Driver(Call::Isr), thr_empty),
        (RingCall::Service, RingAnswer::Count(0)),
    ];
    made(&mut ring, &asleep);
    assert_eq!(ring.transmit_len(), 4);
    made(&mut ring, &[(RingCall::ResumeTransmit, RingAnswer::Done)]);
    assert_eq!(ring.transmit_len(), 0);
}

#[test]
fn a_full_ring_goes_on_after_an_init() {
    let mut ring = slow_rings(4);
    // Four bytes in the chip, and a full ring behind them.
    let full = [
        (RingCall::Queue(bytes(b"abcd")), RingAnswer::Count(4)),
        (RingCall::Queue(bytes(b"efgh")), RingAnswer::Count(4)),
    ];
    made(&mut ring, &full);
    assert_eq!(ring.transmit_len(), 4);
    ring.inner_mut().init(Config::DEFAULT).unwrap();
    let asleep = [
        // It is asleep: no byte is accepted, and no interrupt is shown.
        (RingCall::Queue(bytes(b"i")), RingAnswer::Count(0)),
        (RingCall::Service, RingAnswer::Count(0)),
    ];
    made(&mut ring, &asleep);
    resumed(&mut ring);
    let machine = ring.inner().backend();
    assert_eq!(machine.wire(), b"abcdefgh");
    assert_eq!(machine.held_at(0), Some(b'i'));
}

#[test]
fn a_full_ring_goes_on_when_cts_comes_back() {
    // CTS falls while four bytes are on their way, and comes back after they have gone out.
    let schedule = [
        Event::Lines(MSR::CTS.bits()),
        Event::Mark,
        Event::Lines(0),
        Event::Mark,
        Event::Ticks(100),
        Event::Mark,
        Event::Mark,
        Event::Lines(MSR::CTS.bits()),
        Event::Mark,
        Event::Mark,
        Event::Ticks(100),
        Event::Mark,
    ];
    let set = (Some(FifoTriggerLevel::Fourteen), IER::MODEM_STATUS);
    let mut ring = rings((Chip::Uart16550A, &schedule), set, (4, 4));
    let config = Config {
        interrupts: IER::MODEM_STATUS,
        check_cts_before_sending: true,
        ..Config::DEFAULT
    };
    ring.inner_mut().init(config).unwrap();
    let fell = RingAnswer::Modem(MSR::DELTA_CTS);
    let came_back = RingAnswer::Modem(MSR::DELTA_CTS | MSR::CTS);
    let steps = [
        (RingCall::Queue(bytes(b"abcd")), RingAnswer::Count(4)),
        (RingCall::Next, RingAnswer::Done),
        (RingCall::Queue(bytes(b"efgh")), RingAnswer::Count(4)),
        (RingCall::Next, RingAnswer::Done),
        (RingCall::Next, RingAnswer::Done),
        // The chip is empty, CTS is clear, and nothing else is to come.
        (RingCall::Service, RingAnswer::Count(1)),
        (RingCall::TakeModem, fell),
        (RingCall::Queue(bytes(b"i")), RingAnswer::Count(0)),
        (RingCall::Service, RingAnswer::Count(0)),
        // CTS comes back.
        (RingCall::Next, RingAnswer::Done),
        (RingCall::Next, RingAnswer::Done),
        (RingCall::Service, RingAnswer::Count(1)),
        (RingCall::TakeModem, came_back),
        (RingCall::Queue(bytes(b"i")), RingAnswer::Count(0)),
    ];
    made(&mut ring, &steps);
    resumed(&mut ring);
    assert_eq!(ring.inner().backend().wire(), b"abcdefgh");
}

#[test]
fn a_handler_stops_before_all_are_served() {
    let interrupts = IER::DATA_READY | IER::MODEM_STATUS;
    let set = (Some(FifoTriggerLevel::One), interrupts);
    let mut ring = rings((Chip::Uart16550A, &[Event::Mark]), set, (4, 4));
    let handled = |served, end| RingAnswer::Handled(Handled { served, end });
    let idle = [
        (RingCall::Handle(0), handled(0, HandleEnd::Limit)),
        (RingCall::Handle(8), handled(0, HandleEnd::Idle)),
        (RingCall::Retrigger, RingAnswer::Done),
    ];
    made(&mut ring, &idle);
    // A byte and a change of CTS wait. The second is served by the next handler.
    let schedule = [
        Event::Mark,
        arrive(0x41),
        Event::Lines(MSR::CTS.bits()),
        Event::Mark,
    ];
    let mut ring = rings((Chip::Uart16550A, &schedule), set, (4, 4));
    let changed = RingAnswer::Modem(MSR::CTS | MSR::DELTA_CTS);
    let busy = [
        (RingCall::Next, RingAnswer::Done),
        (RingCall::Next, RingAnswer::Done),
        (RingCall::Handle(1), handled(1, HandleEnd::Limit)),
        (RingCall::Handle(8), handled(1, HandleEnd::Idle)),
        (RingCall::Take(4), RingAnswer::Bytes(bytes(b"A"))),
        (RingCall::TakeModem, changed),
    ];
    made(&mut ring, &busy);
}

#[test]
fn bytes_have_their_errors() {
    let parity = LSR::PARITY_ERROR.bits();
    let framing = LSR::FRAMING_ERROR.bits();
    let schedule = [
        Event::Mark,
        Event::Arrive {
            byte: 0x41,
            errors: parity,
        },
        arrive(0x42),
        Event::Arrive {
            byte: 0x43,
            errors: framing,
        },
        Event::Mark,
    ];
    let none = Received {
        byte: 0,
        errors: LSR::empty(),
    };
    // A look before shows the errors of the first byte, and these are in the next `lsr` alone.
    for (looks, first) in [(false, parity), (true, 0)] {
        let set = (Some(FifoTriggerLevel::One), IER::empty());
        let mut uart = rings((Chip::Uart16550A, &schedule), set, (4, 4)).into_inner();
        uart.backend_mut().next();
        uart.backend_mut().next();
        if looks {
            assert_eq!(uart.ready_to_receive(), Ok(()));
        }
        let mut slots = [none; 4];
        assert_eq!(uart.receive_with_errors(&mut slots), 3);
        let received = slots.map(|slot| (slot.byte, slot.errors.bits()));
        assert_eq!(received[..3], [(0x41, first), (0x42, 0), (0x43, framing)]);
        assert_eq!(uart.lsr().bits(), 0x60 | parity | framing);
    }
}

#[test]
fn a_full_ring_leaves_bytes_in_the_chip() {
    let schedule = [Event::Mark, arrive(0x41), arrive(0x42), arrive(0x43)];
    let set = (Some(FifoTriggerLevel::One), IER::DATA_READY);
    let mut ring = rings((Chip::Uart16550A, &schedule), set, (32, 2));
    made(&mut ring, &[(RingCall::Next, RingAnswer::Done)]);
    answers(&mut ring, &RingCall::Service, &RingAnswer::Count(1), true);
    let steps = [
        (RingCall::Take(8), RingAnswer::Bytes(bytes(b"AB"))),
        (RingCall::Service, RingAnswer::Count(1)),
        (RingCall::Take(8), RingAnswer::Bytes(bytes(b"C"))),
    ];
    made(&mut ring, &steps);
    for arrival in 0..3 {
        let mark = ring.inner().backend().mark(arrival);
        assert_eq!(mark, Some(ArrivalMark::Read));
    }
}

#[test]
fn an_overrun_is_told_once() {
    let schedule = [Event::Mark, arrive(0x41), arrive(0x42)];
    let set = (None, IER::DATA_READY | IER::RECEIVER_LINE_STATUS);
    let mut ring = rings((Chip::Uart16450, &schedule), set, (32, 4));
    let line = LSR::from_bits_retain(0x60);
    let overrun = line | LSR::OVERRUN_ERROR;
    let steps = [
        (RingCall::Next, RingAnswer::Done),
        (RingCall::Service, RingAnswer::Count(2)),
        (RingCall::TakeLine, RingAnswer::Line(overrun)),
        (RingCall::TakeLine, RingAnswer::Line(line)),
        (RingCall::Take(8), RingAnswer::Bytes(bytes(b"B"))),
    ];
    made(&mut ring, &steps);
    let machine = ring.inner().backend();
    assert_eq!(machine.mark(0), Some(ArrivalMark::Dropped));
    assert_eq!(machine.mark(1), Some(ArrivalMark::Read));
}

/// Rings that are made over a driver which an `init` has just set up, with their calls: a session that begins with empty rings.
#[test]
fn rings_from_an_init() {
    let mut ring = slow_rings(256);
    assert_eq!((ring.transmit_len(), ring.receive_len()), (0, 0));
    let calls = [RingCall::Next, RingCall::ResumeTransmit];
    assert!(calls.iter().all(RingCall::is_of_rings));
    let mut answers = [RingAnswer::Count(1), RingAnswer::Count(1)];
    run_ring(&mut ring, &calls, &mut answers);
    assert_eq!(answers, [RingAnswer::Done, RingAnswer::Done]);
}
