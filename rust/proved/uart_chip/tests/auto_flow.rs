//! A chip with automatic flow control: what MCR keeps, when the transmitter is held off, and when RTS falls. A character takes 4 ticks.

use geesetrunk_kit::alloc::Global;
use proved_uart_chip::{Chip, Event, Uart};
use uart_spec::FifoSize;

const CTS: u8 = 0x10;
const RTS: u8 = 0x02;
const AUTO_FLOW: u8 = 0x20;
const LOOPBACK: u8 = 0x10;

fn chip(size: FifoSize) -> Uart {
    Uart::new_sized(Global::heap(), Chip::Uart16550A, size, 4, 64, 64, false).unwrap()
}

fn arrive(chip: &mut Uart, count: u8) {
    (0..count).for_each(|byte| chip.perform(Event::Arrive { byte, errors: 0 }));
}

#[test]
fn mcr_keeps_bit_5_with_automatic_flow_control_alone() {
    let mut with = chip(FifoSize::SixtyFour).with_auto_flow();
    with.write(4, 0xff);
    assert_eq!(with.read(4), 0x3f);
    let mut without = chip(FifoSize::SixtyFour);
    without.write(4, 0xff);
    assert_eq!(without.read(4), 0x1f);
}

#[test]
fn a_transmitter_that_is_held_off_sends_what_it_has_begun() {
    let mut chip = chip(FifoSize::SixtyFour).with_auto_flow();
    chip.write(4, AUTO_FLOW);
    chip.write(2, 0x01);
    chip.write(0, 0x41);
    chip.write(0, 0x42);
    chip.ticks(100);
    assert_eq!(chip.transmitter().wire(), &[]);
    // The first tick takes 41 into the shift register, and it leaves at the fifth.
    chip.perform(Event::Lines(CTS));
    chip.ticks(1);
    chip.perform(Event::Lines(0));
    chip.ticks(100);
    assert_eq!(chip.transmitter().wire(), &[0x41]);
    assert_eq!(chip.transmitter().held_len(), 1);
    chip.perform(Event::Lines(CTS));
    chip.ticks(4);
    assert_eq!(chip.transmitter().wire(), &[0x41]);
    chip.tick();
    assert_eq!(chip.transmitter().wire(), &[0x41, 0x42]);
}

#[test]
fn a_transmitter_goes_on_without_bit_5_or_in_loopback_with_rts() {
    let mut off = chip(FifoSize::Sixteen).with_auto_flow();
    off.write(4, RTS);
    off.write(0, 0x41);
    off.ticks(5);
    assert_eq!(off.transmitter().wire(), &[0x41]);
    // In loopback MSR shows RTS as CTS.
    for (mcr, came_back) in [(AUTO_FLOW | LOOPBACK | RTS, 1), (AUTO_FLOW | LOOPBACK, 0)] {
        let mut looped = chip(FifoSize::Sixteen).with_auto_flow();
        looped.write(4, mcr);
        looped.write(0, 0x41);
        looped.ticks(5);
        assert_eq!(looped.receiver().waiting_len(), came_back, "{mcr:02x}");
    }
}

#[test]
fn rts_is_off_from_the_trigger_level_on() {
    let mut chip = chip(FifoSize::SixtyFour).with_auto_flow();
    chip.write(4, AUTO_FLOW | RTS);
    // The second level of a FIFO of 64 is 16 characters.
    chip.write(2, 0x41);
    arrive(&mut chip, 15);
    assert!(chip.rts_output());
    arrive(&mut chip, 1);
    assert!(!chip.rts_output());
    chip.read(0);
    assert!(chip.rts_output());
    arrive(&mut chip, 1);
    assert!(!chip.rts_output());
    // MCR's own bit alone counts without bit 5.
    chip.write(4, RTS);
    assert!(chip.rts_output());
}

#[test]
fn rts_is_that_of_mcr_without_a_fifo_and_without_automatic_flow_control() {
    let mut without = chip(FifoSize::SixtyFour);
    without.write(4, AUTO_FLOW | RTS);
    without.write(2, 0x01);
    arrive(&mut without, 64);
    assert!(without.rts_output());
    let mut one = chip(FifoSize::SixtyFour).with_auto_flow();
    one.write(4, AUTO_FLOW | RTS);
    arrive(&mut one, 1);
    assert!(one.rts_output());
    one.write(4, AUTO_FLOW);
    assert!(!one.rts_output());
}
