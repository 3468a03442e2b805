//! Rings over machines with FIFOs of each size: how many interrupts the same bytes take.

#[path = "../../../../../bench/interrupts/src/counting.rs"]
mod counting;

use counting::{BYTES, SIZES, received, rows, sent};
use geesetrunk_kit::alloc::Global;
use proved_uart_machine::{Chip, Device16550};
use uart_16550::Uart16550;
use uart_ring::{MAX_CAPACITY, Uart16550Ring};
use uart_spec::{Config, FifoSize};

const README: &str = include_str!("../../../../../bench/README.md");

// `queue` sends the first burst, and each interrupt one more. Of 16 characters the highest trigger
// level is 14, and of 64 it is 56; the last ones come to the reception timeout.
#[test]
fn larger_fifos_take_fewer_interrupts() {
    let (sixteen, larger) = (FifoSize::Sixteen, FifoSize::SixtyFour);
    assert_eq!(sent(sixteen, sixteen), BYTES / 16 - 1);
    assert_eq!(sent(larger, larger), BYTES / 64 - 1);
    assert_eq!(received(sixteen, sixteen), BYTES.div_ceil(14));
    assert_eq!(received(larger, larger), BYTES.div_ceil(56));
    // A driver that was not told of the size sends as for 16.
    assert_eq!(sent(larger, sixteen), BYTES / 16 - 1);
    assert_eq!(received(larger, sixteen), BYTES / 16);
}

#[test]
fn the_table_of_bench_is_what_is_counted() {
    for row in rows() {
        assert!(README.contains(&row), "bench/README.md has no row {row}");
    }
}

/// Queues this number of bytes at once, over a machine whose FIFOs have one size and which the
/// driver takes to have another. Returns how many the machine holds then, and how many were lost.
fn queued(chip: FifoSize, told: FifoSize, count: usize) -> (usize, u64) {
    let machine = Device16550::new_sized(
        Global::heap(),
        Chip::Uart16550A,
        chip,
        1000,
        MAX_CAPACITY,
        Vec::new().into(),
        false,
    );
    let mut uart = Uart16550::new_with_backend(machine.unwrap());
    uart.init(Config::DEFAULT).unwrap();
    uart.set_fifo_size(told);
    let alloc = geesetrunk_kit_of_rings::alloc::Global::heap();
    let Ok(mut ring) = Uart16550Ring::new(alloc, uart, MAX_CAPACITY, 1) else {
        panic!("the rings are not made");
    };
    assert_eq!(ring.queue(&vec![0x55; count]), count);
    let machine = ring.inner().backend();
    (machine.held_len(), machine.overflows())
}

// A chip with room for as many takes them all: the first is in the shift register at once, so a
// burst leaves room for one. A smaller one loses the others, and nothing tells.
#[test]
fn the_size_is_taken_on_trust() {
    for size in SIZES {
        let characters = size.characters();
        assert_eq!(queued(size, size, 1000), (characters, 0));
        for smaller in SIZES.into_iter().filter(|one| one < &size) {
            let (held, lost) = queued(smaller, size, 1000);
            assert_eq!(held + lost as usize, characters, "{smaller:?}");
            assert!(lost as usize >= characters - smaller.characters() - 1);
            assert_eq!(queued(size, smaller, 1000), (smaller.characters(), 0));
        }
    }
}
