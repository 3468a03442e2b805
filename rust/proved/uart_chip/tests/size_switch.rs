//! A 16750, whose FIFOs a write of FCR under DLAB switches between 16 and 64 characters. A character takes 4 ticks.

use geesetrunk_kit::alloc::Global;
use proved_uart_chip::{ArrivalMark, Chip, Event, Uart};
use uart_spec::FifoSize;

const DATA: u8 = 0;
const ISR: u8 = 2;
const FCR: u8 = 2;
const LCR: u8 = 3;
const DLAB: u8 = 0x80;
// On, with the highest trigger level; and the same with bit 5.
const ASKS_16: u8 = 0xc1;
const ASKS_64: u8 = 0xe1;

fn chip() -> Uart {
    Uart::new_16750(Global::heap(), 4, 64, 300, false).unwrap()
}

// Writes FCR under this LCR, and leaves LCR without DLAB.
fn write_under(chip: &mut Uart, lcr: u8, fcr: u8) {
    chip.write(LCR, lcr);
    chip.write(FCR, fcr);
    chip.write(LCR, 0x03);
}

fn arrive(chip: &mut Uart, count: u8) {
    (0..count).for_each(|byte| chip.perform(Event::Arrive { byte, errors: 0 }));
}

// How many characters the receiver takes more.
fn room(chip: &Uart) -> usize {
    chip.receive_room()
}

#[test]
fn a_16750_begins_with_16() {
    let mut chip = chip();
    assert_eq!(chip.read(ISR), 0x01);
    chip.write(FCR, ASKS_64);
    assert_eq!(chip.read(ISR), 0xc1);
    assert_eq!(room(&chip), 16);
    // MCR keeps bit 5, as that of each chip with automatic flow control.
    chip.write(4, 0xff);
    assert_eq!(chip.read(4), 0x3f);
}

#[test]
fn fcr_switches_the_size_under_dlab_alone() {
    let mut chip = chip();
    write_under(&mut chip, 0x83, ASKS_64);
    assert_eq!(chip.read(ISR), 0xe1);
    assert_eq!(room(&chip), 64);
    // Without DLAB it is as before, whatever bit 5 is.
    write_under(&mut chip, 0x03, ASKS_16);
    assert_eq!(chip.read(ISR), 0xe1);
    write_under(&mut chip, 0x83, ASKS_16);
    assert_eq!(chip.read(ISR), 0xc1);
    assert_eq!(room(&chip), 16);
    write_under(&mut chip, 0x03, ASKS_64);
    assert_eq!(chip.read(ISR), 0xc1);
}

#[test]
fn bit_5_counts_only_with_bit_0() {
    let mut chip = chip();
    write_under(&mut chip, DLAB, ASKS_64 & !1);
    assert_eq!(chip.read(ISR), 0x01);
    chip.write(FCR, ASKS_16);
    assert_eq!((chip.read(ISR), room(&chip)), (0xc1, 16));
    write_under(&mut chip, DLAB, ASKS_64);
    // FIFOs that are off have their size still, and ISR shows it again once they are on.
    write_under(&mut chip, DLAB, 0);
    assert_eq!(chip.read(ISR), 0x01);
    chip.write(FCR, ASKS_16);
    assert_eq!((chip.read(ISR), room(&chip)), (0xe1, 64));
}

#[test]
fn a_switch_empties_both_fifos() {
    let mut chip = chip();
    write_under(&mut chip, DLAB, ASKS_64);
    arrive(&mut chip, 20);
    (0..20).for_each(|byte| chip.write(DATA, byte));
    // The size that it has already: nothing is lost.
    write_under(&mut chip, DLAB, ASKS_64);
    assert_eq!((chip.receiver().waiting_len(), chip.transmitter().held_len()), (20, 20));
    // The byte in the shift register goes out.
    chip.ticks(1);
    write_under(&mut chip, DLAB, ASKS_16);
    assert_eq!((chip.receiver().waiting_len(), chip.transmitter().held_len()), (0, 1));
    assert_eq!(chip.receiver().mark(19), Some(ArrivalMark::Discarded));
    chip.ticks(100);
    assert_eq!(chip.transmitter().wire(), &[0]);
}

#[test]
fn the_trigger_level_is_that_of_the_size() {
    let mut chip = chip();
    chip.write(1, 0x01);
    for (fcr, level) in [(ASKS_64, 56), (ASKS_16, 14), (ASKS_64, 56)] {
        write_under(&mut chip, DLAB, fcr);
        arrive(&mut chip, level - 1);
        assert!(!chip.is_interrupting(), "{fcr:02x}");
        arrive(&mut chip, 1);
        assert!(chip.is_interrupting(), "{fcr:02x}");
    }
}

#[test]
fn other_chips_have_no_switch() {
    for size in [FifoSize::Sixteen, FifoSize::SixtyFour] {
        let built = Uart::new_sized(Global::heap(), Chip::Uart16550A, size, 4, 64, 64, false);
        let mut chip = built.unwrap().with_auto_flow();
        for fcr in [ASKS_64, ASKS_16] {
            write_under(&mut chip, DLAB, fcr);
            assert_eq!(chip.read(ISR), 0xc1);
            assert_eq!(room(&chip), size.characters());
        }
    }
}
