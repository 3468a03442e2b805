//! Machines with FIFOs of each size.

use crate::machines::{DATA, FCR, IER, ISR, LSR, arrive};
use geesetrunk_kit::alloc::Global;
use proved_uart_machine::{ArrivalMark, Chip, Device16550, Event};
use uart_16550::backend::Backend;
use uart_spec::FifoSize;

// Each size, with the characters of its trigger levels, by the datasheets.
const SIZES: [(FifoSize, usize, [usize; 4]); 5] = [
    (FifoSize::Sixteen, 16, [1, 4, 8, 14]),
    (FifoSize::ThirtyTwo, 32, [8, 16, 24, 28]),
    (FifoSize::SixtyFour, 64, [1, 16, 32, 56]),
    (FifoSize::OneHundredTwentyEight, 128, [16, 32, 112, 120]),
    (FifoSize::TwoHundredFiftySix, 256, [1, 64, 128, 254]),
];

const FIFO_ENABLE: u8 = 0x01;

// Returns a machine under this schedule, of which a character takes one tick.
fn sized(chip: Chip, size: FifoSize, schedule: &[Event]) -> Device16550 {
    let schedule = schedule.to_vec().into();
    Device16550::new_sized(Global::heap(), chip, size, 1, 1024, schedule, false).unwrap()
}

// Accesses between which no time passes.
fn accesses(count: usize) -> Vec<Event> {
    vec![Event::Access; count]
}

// Characters that arrive, each with an access behind it.
fn arrivals(count: usize) -> Vec<Event> {
    (0..count)
        .flat_map(|i| [arrive(i as u8), Event::Access])
        .collect()
}

#[test]
fn a_transmitter_takes_as_many_as_its_fifo_holds() {
    for (size, count, _) in SIZES {
        let mut machine = sized(Chip::Uart16550A, size, &accesses(count + 3));
        machine.write(FCR, FIFO_ENABLE);
        let bytes: Vec<u8> = (0..count).map(|i| i as u8).collect();
        for byte in &bytes {
            machine.write(DATA, *byte);
        }
        assert_eq!((machine.held_len(), machine.overflows()), (count, 0));
        machine.write(DATA, 0xee);
        machine.write(DATA, 0xee);
        assert_eq!((machine.held_len(), machine.overflows()), (count, 2));
        assert!(machine.idle(1000) <= count + 2);
        assert_eq!((machine.wire(), machine.held_len()), (&bytes[..], 0));
    }
}

#[test]
fn a_receiver_loses_what_its_fifo_has_no_room_for() {
    for (size, count, _) in SIZES {
        let schedule = [accesses(1), arrivals(count + 1), accesses(count + 1)].concat();
        let mut machine = sized(Chip::Uart16550A, size, &schedule);
        machine.write(FCR, FIFO_ENABLE);
        for waiting in 1..=count {
            assert_eq!(machine.read(LSR) & 0x03, 0x01);
            assert_eq!(machine.waiting_len(), waiting);
        }
        assert_eq!(machine.read(LSR) & 0x03, 0x03);
        assert_eq!(machine.waiting_len(), count);
        assert_eq!(machine.mark(count - 1), Some(ArrivalMark::Waiting));
        assert_eq!(machine.mark(count), Some(ArrivalMark::Dropped));
        assert_eq!(machine.read(LSR) & 0x03, 0x01);
        for i in 0..count {
            assert_eq!(machine.read(DATA), i as u8);
        }
        assert_eq!(machine.waiting_len(), 0);
    }
}

#[test]
fn data_is_pending_from_the_trigger_level_of_the_size_on() {
    for (size, count, levels) in SIZES {
        for (code, least) in (0u8..).zip(levels) {
            let schedule = [accesses(2), arrivals(count)].concat();
            let mut machine = sized(Chip::Uart16550A, size, &schedule);
            machine.write(FCR, code << 6 | FIFO_ENABLE);
            machine.write(IER, 0x01);
            for waiting in 1..=count {
                let cause = if waiting >= least { 0x04 } else { 0x01 };
                assert_eq!(machine.read(ISR), 0xc0 | cause);
            }
        }
    }
}

#[test]
fn without_fifo_there_is_room_for_one() {
    for (size, _, _) in SIZES {
        for (chip, fcr) in [(Chip::Uart16550A, 0), (Chip::Uart16450, FIFO_ENABLE)] {
            let schedule = [accesses(3), arrivals(2), accesses(1)].concat();
            let mut machine = sized(chip, size, &schedule);
            machine.write(FCR, fcr);
            machine.write(DATA, 1);
            machine.write(DATA, 2);
            assert_eq!((machine.held_len(), machine.overflows()), (1, 1));
            assert_eq!(machine.held_at(0), Some(2));
            assert_eq!(machine.read(LSR) & 0x03, 0x01);
            assert_eq!(machine.read(LSR) & 0x03, 0x03);
            assert_eq!((machine.waiting_len(), machine.read(DATA)), (1, 1));
        }
    }
}

#[test]
fn each_size_may_cut_characters() {
    for (size, _, _) in SIZES {
        let chip = Chip::Uart16550A;
        let schedule = accesses(2).into();
        let mut machine =
            Device16550::new_sized(Global::heap(), chip, size, 1, 1024, schedule, true).unwrap();
        machine.write(FCR, FIFO_ENABLE);
        machine.write(DATA, 0xff);
        assert_eq!(machine.held_at(0), Some(0x1f));
    }
}
