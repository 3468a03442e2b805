//! What the auditor finds that no recording of the examples has: its bounds, and what it knows.

use proved_uart_judges::audit::{
    Arrived, Auditor, CHARACTER_TIME, Finding, HANDLER_TIME, MOST_UNREAD, Severity,
};
use proved_uart_judges::recording::{Entry, Happening};
use uart_spec::access::Access::{self, Read, Write};
use uart_spec::registers::LSR;
use uart_spec::registers::offsets::{DATA, FCR, IER, ISR, LCR, LSR as STATUS, MCR};

/// Returns an entry without level and time.
fn entry(happening: Happening) -> Entry {
    Entry {
        happening,
        times: 1,
        line: 1,
        time: None,
        interrupt: None,
    }
}

/// Returns what is found at these entries, without the set-up.
fn found(entries: impl IntoIterator<Item = Entry>) -> Vec<Finding> {
    let mut auditor = Auditor::new();
    let steps = entries.into_iter().flat_map(|entry| auditor.step(&entry));
    let mut found: Vec<_> = steps.flatten().collect();
    found.retain(|finding| !matches!(finding, Finding::SetUp(_)));
    found
}

fn access(access: Access) -> Entry {
    entry(Happening::Access(access))
}

fn arrival(byte: u8) -> Entry {
    let errors = LSR::from_bits_retain(0);
    entry(Happening::Arrive { byte, errors })
}

/// FIFOs that are on, and a look that shows an empty chip.
const BEGUN: [Access; 3] = [Write(FCR, 0x07), Read(ISR, 0xc1), Read(STATUS, 0x60)];

#[test]
fn as_many_bytes_as_fit() {
    let sent = |count| {
        let bytes = std::iter::repeat_n(Write(DATA, b'a'), count);
        found(BEGUN.into_iter().chain(bytes).map(access))
    };
    assert_eq!(sent(16), []);
    let beyond = |sent| Finding::SentBeyondRoom { sent, room: 16 };
    assert_eq!(sent(18), [beyond(17), beyond(18)]);
    let one = [Write(FCR, 0x00), Read(STATUS, 0x60), Write(DATA, b'a')];
    let two = one.into_iter().chain([Write(DATA, b'b')]).map(access);
    assert_eq!(found(two), [Finding::SentBeyondRoom { sent: 2, room: 1 }]);
}

// Interrupts are enabled, and OUT2 is clear: a driver that looks before it sends needs none of them.
#[test]
fn a_look_that_shows_room_is_in_place_of_an_interrupt() {
    let set_up = [Write(LCR, 0x03), Write(MCR, 0x03), Write(IER, 0x02)];
    let sent = |looks: bool, count| {
        let look = looks.then_some(Read(STATUS, 0x60));
        let bytes = std::iter::repeat_n(Write(DATA, b'a'), count);
        let begun = [Write(FCR, 0x07), Read(ISR, 0xc1)]
            .into_iter()
            .chain(set_up);
        found(begun.chain(look).chain(bytes).map(access))
    };
    assert_eq!(sent(true, 1), []);
    assert_eq!(sent(true, 16), []);
    assert_eq!(sent(false, 1), [Finding::InterruptsCutOff]);
    // The others go out beside the first one, about which it is said.
    assert_eq!(sent(false, 16), [Finding::InterruptsCutOff]);
    let beyond = Finding::SentBeyondRoom { sent: 17, room: 16 };
    assert_eq!(sent(true, 17), [beyond, Finding::InterruptsCutOff]);
    let received = set_up
        .into_iter()
        .chain([Read(STATUS, 0x61), Read(DATA, b'a')]);
    assert_eq!(found(received.map(access)), [Finding::InterruptsCutOff]);
}

#[test]
fn sixteen_bytes_wait_and_the_next_is_lost() {
    let arrivals = |count: u8| (0..count).map(arrival);
    let look = |lsr| access(Read(STATUS, lsr));
    let begun = || BEGUN.into_iter().map(access);
    assert_eq!(MOST_UNREAD, 16);
    let full = begun().chain(arrivals(16)).chain([look(0x61)]);
    assert_eq!(found(full), []);
    let overrun = begun().chain(arrivals(17)).chain([look(0x61)]);
    assert_eq!(found(overrun), [Finding::OverrunHidden]);
    let read = (0..17).flat_map(|byte| [look(0x61), access(Read(DATA, byte))]);
    let read = begun()
        .chain(arrivals(16))
        .chain(read.take(32))
        .chain([look(0x60)]);
    assert_eq!(found(read), []);
}

#[test]
fn what_arrived_is_kept_in_order() {
    let arrived = |byte| Arrived {
        byte,
        errors: LSR::from_bits_retain(0),
    };
    let mut auditor = Auditor::new();
    for entry in BEGUN.into_iter().map(access).chain((1..4).map(arrival)) {
        auditor.step(&entry);
    }
    auditor.step(&access(Read(DATA, 1)));
    let unread = auditor.unread;
    assert!(unread.is_known);
    let characters = [Some(arrived(2)), Some(arrived(3)), None];
    assert_eq!(unread.characters[..3], characters);
    assert_eq!(unread.characters[15], None);
}

#[test]
fn seventeen_characters_take_so_much_time() {
    // At divisor 12: 17 characters of 12 bits at 9600 baud.
    let at = |happening, time| Entry {
        time: Some(time),
        ..entry(Happening::Access(happening))
    };
    let changed = |time| {
        let set = [
            at(Write(LCR, 0x83), 1),
            at(Write(DATA, 12), 2),
            at(Write(IER, 0), 3),
            at(Write(LCR, 0x03), 4),
            at(Write(FCR, 0x07), 5),
            at(Read(STATUS, 0x60), 6),
        ];
        let bytes = (0..16).map(|_| at(Write(DATA, b'a'), 10));
        let change = at(Write(LCR, 0x02), time);
        found(set.into_iter().chain(bytes).chain([change]))
    };
    let rest = 10 + 12 * CHARACTER_TIME * 16;
    assert_eq!(changed(rest), []);
    assert_eq!(changed(rest - 1), [Finding::FrameChangedWhileSending]);
}

// No rate is faster than that of divisor 1. So a byte that would be on its way even then is on its way.
#[test]
fn without_a_divisor_characters_take_at_least_so_much_time() {
    let at = |happening, time| Entry {
        time: Some(time),
        ..entry(Happening::Access(happening))
    };
    let emptied = |time| {
        let begun = [at(Read(LCR, 0x03), 1), at(Read(STATUS, 0x60), 2)];
        let bytes = (0..3).map(|_| at(Write(DATA, b'a'), 10));
        found(
            begun
                .into_iter()
                .chain(bytes)
                .chain([at(Write(FCR, 0x07), time)]),
        )
    };
    let rest = 10 + CHARACTER_TIME * 3;
    assert_eq!(emptied(rest), []);
    assert_eq!(emptied(rest - 1), [Finding::ResetWhileSending]);
}

#[test]
fn a_handler_has_so_much_time() {
    let at = |happening, time, interrupt| Entry {
        time: Some(time),
        interrupt: Some(interrupt),
        line: 7,
        ..entry(Happening::Access(happening))
    };
    let left = |time| {
        found([
            at(Read(STATUS, 0x61), 1, true),
            at(Write(IER, 0x01), 2, true),
            at(Read(ISR, 0xc4), 3, true),
            Entry {
                time: Some(3 + time),
                ..arrival(b'a')
            },
        ])
    };
    assert_eq!(left(HANDLER_TIME - 1), []);
    assert_eq!(left(HANDLER_TIME), [Finding::LeftWithLineUp(7)]);
}

#[test]
fn whose_fault_it_is() {
    assert_eq!(Finding::LatchLeftOpen.severity(), Severity::Note);
    assert_eq!(Finding::ZeroDivisor.severity(), Severity::Warning);
    assert_eq!(Finding::OverrunHidden.severity(), Severity::Answer);
}

#[test]
fn a_set_up_in_words() {
    let mut auditor = Auditor::new();
    for happening in [
        Write(LCR, 0x83),
        Write(DATA, 0x0c),
        Write(IER, 0x00),
        Write(LCR, 0x03),
        Write(FCR, 0xc7),
        Write(IER, 0x05),
        Read(STATUS, 0x60),
    ] {
        auditor.step(&access(happening));
    }
    let Some(Finding::SetUp(setup)) = auditor.step(&access(Write(DATA, b'a')))[0] else {
        panic!("no set-up");
    };
    assert_eq!(
        setup.to_string(),
        "divisor 12 (9600 baud at 1.8432 MHz), 8 data bits, no parity, 1 stop bit, FIFOs on with \
         trigger level 14, interrupts: DATA_READY RECEIVER_LINE_STATUS"
    );
    assert_eq!(auditor.step(&access(Write(DATA, b'b')))[0], None);
}
