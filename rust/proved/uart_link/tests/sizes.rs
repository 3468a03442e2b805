//! Chips at a cable with FIFOs of each size, and what a program may bring to one from moment to moment.

use geesetrunk_kit::alloc::Global;
use proved_uart_link::CabledChip;
use uart_16550::backend::Backend;
use uart_chip::{ArrivalMark, BuildError, Chip, Event};
use uart_spec::FifoSize;
use uart_spec::registers::{FCR, LCR, LSR, MCR, MSR, offsets};

const SIZES: [FifoSize; 5] = [
    FifoSize::Sixteen,
    FifoSize::ThirtyTwo,
    FifoSize::SixtyFour,
    FifoSize::OneHundredTwentyEight,
    FifoSize::TwoHundredFiftySix,
];

fn chip(size: FifoSize, arrivals: usize, cuts: bool) -> CabledChip {
    let chip = Chip::Uart16550A;
    CabledChip::new_sized(Global::heap(), chip, size, 4, 64, arrivals, cuts).unwrap()
}

fn arrives(byte: u8) -> Event {
    Event::Arrive { byte, errors: 0 }
}

#[test]
fn a_chip_of_each_size_holds_as_many() {
    for size in SIZES {
        let holds = size.characters();
        let mut chip = chip(size, holds + 1, false);
        chip.write(offsets::FCR as u8, FCR::FIFO_ENABLE.bits());
        for _ in 0..=holds {
            assert!(chip.perform(arrives(b'x')));
        }
        assert_eq!(chip.waiting_len(), holds);
        assert_eq!(chip.mark(holds - 1), Some(ArrivalMark::Waiting));
        assert_eq!(chip.mark(holds), Some(ArrivalMark::Dropped));
    }
}

#[test]
fn what_is_asked_for_is_refused_in_the_order_of_the_other_chips() {
    let refused = |ticks, wire| {
        let size = FifoSize::SixtyFour;
        let chip = Chip::Uart16550A;
        CabledChip::new_sized(Global::heap(), chip, size, ticks, wire, 1, false).err()
    };
    assert_eq!(refused(0, 65_537), Some(BuildError::BadTicks));
    assert_eq!(refused(1001, 1), Some(BuildError::BadTicks));
    assert_eq!(refused(4, 65_537), Some(BuildError::BadWire));
    assert_eq!(refused(4, 65_536), None);
}

#[test]
fn characters_are_cut_if_it_is_asked_for() {
    for (cuts, read) in [(false, 0xff), (true, 0x1f)] {
        let mut chip = chip(FifoSize::Sixteen, 1, cuts);
        chip.write(offsets::LCR as u8, LCR::empty().bits());
        chip.perform(arrives(0xff));
        assert_eq!(chip.read(offsets::DATA as u8), read);
    }
}

#[test]
fn what_cannot_be_at_a_cable_changes_nothing() {
    let mut chip = chip(FifoSize::Sixteen, 1, false);
    assert!(!chip.perform(Event::Arrive {
        byte: 1,
        errors: LSR::PARITY_ERROR.bits()
    }));
    assert!(!chip.perform(Event::Lines(0x0f)));
    assert!(!chip.perform(Event::Mark));
    assert!(chip.is_untouched() && chip.waiting_len() == 0);
    // The journal is made for one arrival.
    assert!(chip.perform(arrives(b'a')));
    assert!(!chip.perform(arrives(b'b')));
    assert_eq!(chip.waiting_len(), 1);
}

#[test]
fn what_happens_is_there_at_once() {
    let mut chip = chip(FifoSize::Sixteen, 1, false);
    chip.write(offsets::DATA as u8, b'x');
    // The tick before the write has passed, and one begins the character.
    assert!(chip.perform(Event::Ticks(1)));
    assert!(chip.perform(Event::Ticks(3)));
    assert_eq!(chip.wire(), b"");
    assert!(chip.perform(Event::Ticks(1)));
    assert_eq!(chip.wire(), b"x");
    assert!(chip.perform(Event::Lines(MSR::CTS.bits())));
    assert_eq!(
        chip.read(offsets::MSR as u8),
        (MSR::CTS | MSR::DELTA_CTS).bits()
    );
}

#[test]
fn an_access_takes_place_where_it_was_put() {
    for (is_put, sent) in [(true, b"".as_slice()), (false, b"x")] {
        let mut chip = chip(FifoSize::Sixteen, 1, false);
        chip.write(offsets::DATA as u8, b'x');
        chip.perform(Event::Ticks(4));
        if is_put {
            assert!(chip.perform(Event::Access));
        }
        chip.read(offsets::LSR as u8);
        assert_eq!(chip.wire(), sent);
    }
}

#[test]
fn the_lines_are_those_of_the_outputs() {
    let mut chip = chip(FifoSize::Sixteen, 1, false);
    for (mcr, lines) in [
        (MCR::RTS, MSR::CTS),
        (MCR::DTR, MSR::DSR | MSR::CD),
        (MCR::RTS | MCR::DTR | MCR::LOOP_BACK, MSR::empty()),
    ] {
        chip.write(offsets::MCR as u8, mcr.bits());
        assert_eq!(chip.lines(), lines);
    }
}
