//! Characters that are cut to the word length.

use crate::machines::{DATA, FCR, IER, LCR, MCR, arrive, fresh};
use geesetrunk_kit::alloc::Global;
use proved_uart_machine::{Chip, Device16550, Event};
use uart_16550::backend::Backend;

const DLAB: u8 = 0x80;

fn cutting(schedule: &[Event]) -> Device16550 {
    let schedule = schedule.to_vec().into();
    Device16550::new_cut(Global::heap(), Chip::Uart16550A, 4, 64, schedule).unwrap()
}

#[test]
fn bytes_are_cut_as_they_are_written_and_as_they_arrive() {
    for (lcr, want) in [(0x00, 0x1f), (0x01, 0x3f), (0x02, 0x7f), (0x03, 0xff)] {
        let mut machine = cutting(&[Event::Mark, arrive(0xff)]);
        machine.write(FCR, 0x01);
        machine.write(LCR, lcr);
        machine.write(DATA, 0xff);
        assert_eq!(machine.held_at(0), Some(want));
        machine.next();
        assert_eq!(machine.read(DATA), want);
    }
}

#[test]
fn the_divisor_latch_is_not_cut() {
    let mut machine = cutting(&[]);
    machine.write(LCR, DLAB);
    machine.write(DATA, 0xff);
    machine.write(IER, 0xfe);
    assert_eq!(machine.divisor(), 0xfeff);
}

// It was cut when it was written, to the word length of that moment.
#[test]
fn a_looped_character_is_not_cut_again() {
    for (written, read, want) in [(0x03, 0x00, 0xff), (0x00, 0x03, 0x1f)] {
        let mut machine = cutting(&[]);
        machine.write(MCR, 0x10);
        machine.write(LCR, written);
        machine.write(DATA, 0xff);
        machine.write(LCR, read);
        machine.idle(10);
        assert_eq!(machine.read(DATA), want);
    }
}

#[test]
fn without_the_option_nothing_is_cut() {
    let mut machine = fresh();
    machine.write(DATA, 0xff);
    assert_eq!(machine.held_at(0), Some(0xff));
}
