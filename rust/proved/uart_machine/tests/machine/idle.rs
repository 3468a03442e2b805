//! Time that passes outside of the schedule, and in how many jumps.

use crate::machines::{DATA, FCR, IER, ISR, MCR, arrive, machine};
use proved_uart_machine::{ArrivalMark, Chip, Event};
use uart_16550::backend::Backend;

/// The event of the schedule before each access, and how many ticks a character takes. An access behind `Access` lets no tick pass, so all
/// characters that are written stay in the queue.
type Pace = (Event, u16);

const UNGATED: Pace = (Event::Access, 5);
const TICKING: Pace = (Event::Lines(0), 1000);

/// Lets ticks pass on a machine to which characters were written. Returns in how many jumps they pass, and how many characters are sent
/// and held then.
fn idled(
    (gate, char_ticks): Pace,
    (characters, wire_capacity, ticks): (usize, usize, u16),
    mcr: u8,
) -> (usize, usize, usize) {
    let mut chip = machine(Chip::Uart16550A, char_ticks, wire_capacity, &[gate; 20]);
    chip.write(FCR, 0x01);
    chip.write(MCR, mcr);
    for _ in 0..characters {
        chip.write(DATA, 0x55);
    }
    let jumps = chip.idle(ticks);
    (jumps, chip.wire().len(), chip.held_len())
}

#[test]
fn jumps_pass_the_ticks() {
    for (pace, given, mcr, want) in [
        // Each move of a character ends a jump, and so does the last tick. A character of 5 ticks
        // enters the free shift register in the first tick and leaves it in the sixth.
        (UNGATED, (0, 64, 0), 0x00, (0, 0, 0)),
        (UNGATED, (0, 64, 1), 0x00, (1, 0, 0)),
        (UNGATED, (0, 64, 65_535), 0x00, (1, 0, 0)),
        (UNGATED, (1, 64, 0), 0x00, (0, 0, 1)),
        (UNGATED, (1, 64, 1), 0x00, (1, 0, 1)),
        (UNGATED, (1, 64, 5), 0x00, (2, 0, 1)),
        (UNGATED, (1, 64, 6), 0x00, (2, 1, 0)),
        (UNGATED, (1, 64, 7), 0x00, (3, 1, 0)),
        (UNGATED, (1, 64, 65_535), 0x00, (3, 1, 0)),
        (UNGATED, (16, 64, 80), 0x00, (17, 15, 1)),
        (UNGATED, (16, 64, 81), 0x00, (17, 16, 0)),
        (UNGATED, (16, 64, 82), 0x00, (18, 16, 0)),
        // Seventeen characters take at most 18 jumps. The first has 985 of its 1,000 ticks left
        // when the last is written.
        (TICKING, (17, 64, 0), 0x00, (0, 0, 17)),
        (TICKING, (17, 64, 984), 0x00, (1, 0, 17)),
        (TICKING, (17, 64, 985), 0x00, (1, 1, 16)),
        (TICKING, (17, 64, 16_984), 0x00, (17, 16, 1)),
        (TICKING, (17, 64, 16_985), 0x00, (17, 17, 0)),
        (TICKING, (17, 64, 65_535), 0x00, (18, 17, 0)),
        // A full wire takes no jumps: the character in the shift register waits there, and those
        // behind it. In loopback no wire is needed.
        (TICKING, (17, 0, 65_535), 0x00, (1, 0, 17)),
        (TICKING, (17, 1, 65_535), 0x00, (2, 1, 16)),
        (TICKING, (17, 16, 65_535), 0x00, (17, 16, 1)),
        (UNGATED, (1, 0, 65_535), 0x00, (2, 0, 1)),
        (UNGATED, (16, 0, 81), 0x10, (17, 0, 0)),
    ] {
        assert_eq!(idled(pace, given, mcr), want, "{given:?}");
    }
}

// A reception timeout is due after four character times, of which the read itself takes the last
// tick.
#[test]
fn idle_ticks_count_towards_a_timeout() {
    for (idle, jumps, shown) in [(18, 1, 0xc1), (19, 1, 0xcc), (u16::MAX, 1, 0xcc)] {
        let mut chip = machine(Chip::Uart16550A, 5, 64, &[Event::Mark, arrive(0x41)]);
        chip.write(FCR, 0xc1);
        chip.write(IER, 0x01);
        chip.next();
        chip.next();
        assert_eq!(chip.idle(idle), jumps);
        assert_eq!(chip.read(ISR), shown, "{idle} ticks");
    }
}

#[test]
fn idle_leaves_the_schedule_alone() {
    let mut chip = machine(Chip::Uart16450, 5, 64, &[Event::Mark, arrive(0x41)]);
    assert_eq!(chip.idle(100), 1);
    assert_eq!(chip.mark(0), Some(ArrivalMark::Pending));
    chip.next();
    assert_eq!(chip.mark(0), Some(ArrivalMark::Pending));
    chip.next();
    assert_eq!(chip.mark(0), Some(ArrivalMark::Waiting));
}
