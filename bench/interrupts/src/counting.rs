//! How many interrupts the rings take for the same bytes, over the chip in software with FIFOs of each size.
//!
//! The program beside this file prints them, and a test of `geesetrunk-proved-uart_machine` compares them with the table of
//! `bench/README.md`. An interrupt is a call of the handler that finds one pending.

use geesetrunk_kit::alloc::Global;
use proved_uart_machine::{Chip, Device16550, Event};
use uart_16550::Uart16550;
use uart_ring::{HandleEnd, Uart16550Ring};
use uart_spec::registers::IER;
use uart_spec::{Config, FifoSize};

pub const SIZES: [FifoSize; 5] = [
    FifoSize::Sixteen,
    FifoSize::ThirtyTwo,
    FifoSize::SixtyFour,
    FifoSize::OneHundredTwentyEight,
    FifoSize::TwoHundredFiftySix,
];

/// How many bytes go over one machine, whose wire has room for no more.
pub const BYTES: usize = 65_536;

/// How many machines a megabyte takes.
pub const MACHINES: usize = 1_048_576 / BYTES;

/// As many ticks as a character takes: so long that none is sent, and none is too late, while a handler runs.
const CHAR_TICKS: u16 = 1000;

/// How many bytes each ring holds.
const CAPACITY: usize = 4096;

/// The most interrupts that a call of the handler serves.
const LIMIT: usize = 64;

type Rings = Uart16550Ring<Device16550>;

/// Returns rings over a machine under this schedule. Its FIFOs have one size, and the driver takes them to have another.
fn rings(chip: FifoSize, told: FifoSize, schedule: Vec<Event>, interrupts: IER) -> Rings {
    let schedule = schedule.into();
    let machine = Device16550::new_sized(
        Global::heap(),
        Chip::Uart16550A,
        chip,
        CHAR_TICKS,
        BYTES,
        schedule,
        false,
    );
    let mut uart = Uart16550::new_with_backend(machine.expect("a machine is built"));
    // The trigger level is the highest: 14 of 16, and as much of larger FIFOs as such a chip has there.
    uart.init(Config {
        interrupts,
        ..Config::DEFAULT
    })
    .expect("the chip works");
    uart.set_fifo_size(told);
    match Uart16550Ring::new(
        geesetrunk_kit_of_rings::alloc::Global::heap(),
        uart,
        CAPACITY,
        CAPACITY,
    ) {
        Ok(ring) => ring,
        Err(refused) => panic!("{refused}"),
    }
}

/// Calls the handler. Returns whether it served an interrupt; if so all that were pending.
fn is_interrupted(ring: &mut Rings) -> bool {
    let handled = ring.handle(LIMIT);
    assert_eq!(handled.end, HandleEnd::Idle);
    handled.served > 0
}

/// Returns the bytes that are sent or received.
fn stream() -> Vec<u8> {
    (0..BYTES).map(|place| (place % 251) as u8).collect()
}

/// Sends the bytes, and returns how many interrupts that took. The writer fills the ring behind each handler, and each interrupt comes when
/// the transmitter is empty.
pub fn sent(chip: FifoSize, told: FifoSize) -> usize {
    let bytes = stream();
    let mut ring = rings(chip, told, Vec::new(), IER::empty());
    let mut queued = 0;
    let mut interrupts = 0;
    loop {
        queued += ring.queue(&bytes[queued..]);
        while ring.inner().backend().held_len() > 0 {
            ring.inner_mut().backend_mut().idle(u16::MAX);
        }
        if !is_interrupted(&mut ring) {
            break;
        }
        interrupts += 1;
    }
    assert!(
        ring.inner().backend().wire() == bytes,
        "other bytes were sent"
    );
    interrupts
}

/// Receives the bytes, and returns how many interrupts that took. The handler runs as soon as one is pending, and no character comes while
/// it does.
pub fn received(chip: FifoSize, told: FifoSize) -> usize {
    let bytes = stream();
    let arrives = |&byte| [Event::Arrive { byte, errors: 0 }, Event::Mark];
    let schedule = [Event::Mark]
        .into_iter()
        .chain(bytes.iter().flat_map(arrives));
    let mut ring = rings(chip, told, schedule.collect(), IER::DATA_READY);
    let mut came = Vec::new();
    let mut slots = [0; CAPACITY];
    let mut interrupts = 0;
    for place in 0.. {
        let machine = ring.inner_mut().backend_mut();
        if place <= bytes.len() {
            machine.next();
        } else {
            // The last ones are fewer than the trigger level, and come to the reception timeout.
            machine.idle(5 * CHAR_TICKS);
        }
        while is_interrupted(&mut ring) {
            interrupts += 1;
        }
        let count = ring.take(&mut slots);
        came.extend_from_slice(&slots[..count]);
        if came.len() == bytes.len() {
            break;
        }
    }
    assert!(came == bytes, "other bytes were received");
    interrupts
}

/// Returns the rows of the table: for FIFOs of each size how many interrupts a megabyte takes that is sent, and that is received, while the
/// driver takes them to hold 16 characters, and when it was told their size.
pub fn rows() -> Vec<String> {
    let row = |size: FifoSize| {
        let counts = [sent, received].map(|count| {
            [FifoSize::Sixteen, size].map(|told| grouped(MACHINES * count(size, told)))
        });
        let [[sent_by_sixteen, sent], [received_by_sixteen, received]] = counts;
        format!(
            "| {} | {sent_by_sixteen} | {sent} | {received_by_sixteen} | {received} |",
            size.characters()
        )
    };
    SIZES.map(row).into()
}

/// Returns a number with a comma before each three digits.
fn grouped(number: usize) -> String {
    let digits = number.to_string();
    let first = (digits.len() - 1) % 3 + 1;
    let (first, rest) = digits.split_at(first);
    rest.as_bytes()
        .chunks(3)
        .fold(first.to_owned(), |text, three| {
            text + "," + &String::from_utf8_lossy(three)
        })
}
