//! Raw accesses of a machine, and what it takes to build one.

use crate::machines::{DATA, FCR, IER, ISR, LSR, MCR, MSR, SPR, arrive, fresh, machine};
use geesetrunk_kit::alloc::Global;
use proved_uart_machine::{ArrivalMark, BuildError, Chip, Device16550, Event};
use uart_16550::backend::Backend;

#[test]
fn registers_one_by_one() {
    for (chip, fifo_on) in [(Chip::Uart16550A, 0xc1), (Chip::Uart16450, 0x01)] {
        for (written, value, read, mask, want) in [
            (IER, 0x0f, IER, 0xff, 0x0f),
            (MCR, 0x1a, MSR, 0xf0, 0x90),
            (FCR, 0x01, ISR, 0xff, fifo_on),
            (FCR, 0xc7, ISR, 0xff, fifo_on),
            (FCR, 0x00, ISR, 0xff, 0x01),
            (SPR, 0xa5, SPR, 0xff, 0xa5),
        ] {
            let mut machine = machine(chip, 4, 64, &[]);
            machine.write(written, value);
            assert_eq!(machine.read(read) & mask, want, "{chip:?}, register {read}");
        }
    }
}

#[test]
fn thr_empty_is_told_again() {
    let mut machine = fresh();
    machine.write(IER, 0x02);
    assert_eq!(machine.read(ISR), 0x02);
    machine.write(IER, 0x00);
    machine.write(IER, 0x02);
    assert_eq!(machine.read(ISR), 0x02);
    machine.write(IER, 0x00);
    machine.write(IER, 0x02);
    assert_eq!(machine.read(LSR), 0x60);
    assert_eq!(machine.read(ISR), 0x02);
}

#[test]
fn builds_up_to_the_limits() {
    let good: &[_] = &[
        Event::Arrive {
            byte: 0xff,
            errors: 0x1c,
        },
        Event::Lines(0xf0),
    ];
    let bad_errors: &[_] = &[
        Event::Lines(0x01),
        Event::Arrive {
            byte: 0,
            errors: 0x02,
        },
    ];
    let bad_lines: &[_] = &[Event::Mark, Event::Lines(0x08)];
    let bad_error_last: &[_] = &[Event::Arrive {
        byte: 0,
        errors: 0x20,
    }];
    for (char_ticks, wire_capacity, events, want) in [
        (1, 0, good, None),
        (1000, 65_536, good, None),
        (0, 65_537, bad_errors, Some(BuildError::BadTicks)),
        (1001, 0, good, Some(BuildError::BadTicks)),
        (1, 65_537, bad_errors, Some(BuildError::BadWire)),
        (1, 0, bad_errors, Some(BuildError::BadErrors(1))),
        (1, 0, bad_error_last, Some(BuildError::BadErrors(0))),
        (1, 0, bad_lines, Some(BuildError::BadLines(1))),
    ] {
        let schedule = events.to_vec().into();
        let built = Device16550::new(
            Global::heap(),
            Chip::Uart16450,
            char_ticks,
            wire_capacity,
            schedule,
        );
        assert_eq!(
            built.err(),
            want,
            "{char_ticks} ticks, room for {wire_capacity}"
        );
    }
}

#[test]
fn texts() {
    for (error, text) in [
        (BuildError::BadTicks, "a character takes 1 to 1000 ticks"),
        (
            BuildError::BadWire,
            "the wire has room for at most 65536 bytes",
        ),
        (
            BuildError::BadErrors(3),
            "event 3: an arrival has other error bits than parity, framing and break",
        ),
        (
            BuildError::BadLines(0),
            "event 0: a change of lines has other bits than CTS, DSR, RI and CD",
        ),
        (BuildError::OutOfMemory, "out of memory"),
    ] {
        assert_eq!(error.to_string(), text);
    }
}

/// Writes each byte as soon as the THR is empty, with 200 looks at most for all of them.
fn send(machine: &mut Device16550, bytes: &[u8]) {
    let mut left = bytes.iter();
    for _ in 0..200 {
        if machine.read(LSR) & 0x20 != 0 {
            let Some(&byte) = left.next() else { return };
            machine.write(DATA, byte);
        }
    }
}

#[test]
fn a_full_wire_keeps_the_rest() {
    let mut machine = machine(Chip::Uart16450, 1, 2, &[]);
    send(&mut machine, &[1, 2, 3, 4, 5]);
    assert_eq!(machine.wire(), [1, 2]);
    assert_eq!(machine.held_len(), 2);
    assert_eq!(machine.held_at(0), Some(3));
    assert_eq!(machine.held_at(1), Some(4));
    assert_eq!(machine.held_at(2), None);
    assert_eq!(machine.overflows(), 0);
}

#[test]
fn a_gated_access_takes_no_tick() {
    let mut machine = machine(Chip::Uart16450, 4, 64, &[Event::Access, Event::Access]);
    machine.write(DATA, 0x41);
    machine.write(DATA, 0x42);
    assert_eq!(machine.held_at(0), Some(0x42));
    assert_eq!(machine.overflows(), 1);
}

#[test]
fn without_fifo_the_new_character_stays() {
    let mut machine = machine(Chip::Uart16450, 4, 64, &[arrive(0x41), arrive(0x42)]);
    assert_eq!(machine.mark(1), Some(ArrivalMark::Pending));
    assert_eq!(machine.read(LSR), 0x63);
    assert_eq!(machine.waiting_len(), 1);
    assert_eq!(machine.read(DATA), 0x42);
    assert_eq!(machine.arrivals(), 2);
    assert_eq!(machine.mark(0), Some(ArrivalMark::Dropped));
    assert_eq!(machine.mark(1), Some(ArrivalMark::Read));
    assert_eq!(machine.mark(2), None);
}

#[test]
fn a_full_fifo_drops_the_new_character() {
    let mut schedule = vec![Event::Mark];
    schedule.extend((1..=17).map(arrive));
    let mut machine = machine(Chip::Uart16550A, 4, 64, &schedule);
    machine.write(FCR, 0xc7);
    assert!(machine.fifo_enabled());
    machine.next();
    assert_eq!(machine.read(LSR), 0x63);
    for byte in 1..=16 {
        assert_eq!(machine.read(DATA), byte);
    }
    assert_eq!(machine.read(LSR), 0x60);
    assert_eq!(machine.mark(15), Some(ArrivalMark::Read));
    assert_eq!(machine.mark(16), Some(ArrivalMark::Dropped));
}

#[test]
fn an_error_is_reported_once() {
    let parity_error = Event::Arrive {
        byte: 0x41,
        errors: 0x04,
    };
    let mut machine = machine(Chip::Uart16550A, 4, 64, &[Event::Mark, parity_error]);
    machine.write(FCR, 0xc7);
    machine.next();
    assert_eq!(machine.read(LSR), 0xe5);
    assert_eq!(machine.read(LSR), 0x61);
    assert_eq!(machine.read(DATA), 0x41);
}

#[test]
fn a_reset_discards_what_waits() {
    let mut machine = machine(Chip::Uart16550A, 4, 64, &[Event::Mark, arrive(0x41)]);
    machine.write(FCR, 0xc7);
    machine.next();
    assert_eq!(machine.read(LSR), 0x61);
    machine.write(FCR, 0xc7);
    assert_eq!(machine.waiting_at(0), None);
    assert_eq!(machine.mark(0), Some(ArrivalMark::Discarded));
}

#[test]
fn modem_lines() {
    let undone = [Event::Lines(0x10), Event::Lines(0x00)];
    let mut undone = machine(Chip::Uart16450, 4, 64, &undone);
    assert_eq!(undone.read(MSR), 0x01);
    assert_eq!(undone.read(MSR), 0x00);
    let rings = [Event::Lines(0x40), Event::Mark, Event::Lines(0x00)];
    let mut rings = machine(Chip::Uart16450, 4, 64, &rings);
    assert_eq!(rings.read(MSR), 0x40);
    rings.next();
    assert_eq!(rings.read(MSR), 0x04);
}
