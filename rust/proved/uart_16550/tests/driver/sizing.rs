//! How the size of the FIFOs is found: the whole list of accesses for each count of bytes that come
//! back, each refusal, and what each leaves behind.

use crate::devices::{Listed, Recorder, RegisterFile, driver};
use crate::lists::{Accesses, list};
use proved_uart_16550::{DriverState, Uart16550};
use std::iter::repeat_n;
use uart_spec::FifoSize::{
    OneHundredTwentyEight, Sixteen, SixtyFour, ThirtyTwo, TwoHundredFiftySix,
};
use uart_spec::FifoSizeError::{FifosOff, Stalled, TooFew};
use uart_spec::registers::{FifoTriggerLevel, IER, LSR, MSR, offsets};
use uart_spec::{Config, FifoSize, FifoSizeError};

/// The most bytes that can come back: one more than the largest FIFO holds.
const FLOOD: usize = 257;

/// The state of a new driver, with a spin limit of 3.
fn new_state() -> DriverState {
    DriverState {
        spin_limit: 3.try_into().unwrap(),
        ..DriverState::new()
    }
}

/// Returns the accesses from the first to the FIFO step, if the transmitter is empty at once.
fn entered() -> Accesses {
    list().enter(0x0b, 0x05, 0x40, 0xd0).fifo(0xc7, 0xc1)
}

/// Appends the burst, after a look that shows no byte from before.
fn flooded(accesses: Accesses) -> Accesses {
    let burst = [0x42; FLOOD];
    accesses.look(0x00).data(&burst)
}

/// Appends the second FIFO step and the last four accesses. RI and CD are clear by then.
fn left(accesses: Accesses) -> Accesses {
    accesses.fifo(0xc7, 0xc1).leave(0x03, 0x13, 0x0b, 0x05)
}

/// Appends looks that show so many bytes, each of which is taken, and one that shows none, if there is one.
fn taken(accesses: Accesses, count: usize) -> Accesses {
    let bytes: Vec<u8> = repeat_n(0x42, count).collect();
    let taken = accesses.hits(&bytes);
    if count < FLOOD { taken.look(0x00) } else { taken }
}

/// Makes a row: a driver in this state, over a device whose reads return what the list has. Returns its state afterwards.
fn row(
    before: &DriverState,
    found: Result<FifoSize, FifoSizeError>,
    accesses: &Accesses,
) -> DriverState {
    let answers = accesses.answers().to_vec().leak();
    let mut uart = Uart16550::from_state(Recorder::new(Listed(answers)), before);
    assert_eq!(uart.find_fifo_size(), found);
    assert_eq!(uart.backend().log.entries(), accesses.entries());
    uart.state()
}

#[test]
fn a_count_gives_the_largest_size_of_no_more() {
    for (count, size) in [
        (16, Sixteen),
        (17, Sixteen),
        (31, Sixteen),
        (32, ThirtyTwo),
        (63, ThirtyTwo),
        (64, SixtyFour),
        (127, SixtyFour),
        (128, OneHundredTwentyEight),
        (255, OneHundredTwentyEight),
        (256, TwoHundredFiftySix),
        (257, TwoHundredFiftySix),
    ] {
        // The transmitter needs a while, and LSR shows the overrun then.
        let waited = flooded(entered()).looks(2, 0x01).look(0x63);
        let after = row(&new_state(), Ok(size), &left(taken(waited, count)));
        let expected = DriverState {
            saved_msr: MSR::from_bits_retain(0x0c),
            ..new_state()
        };
        assert_eq!(after, expected);
        assert_eq!(FifoSize::largest_up_to(count), Some(size));
    }
    assert_eq!(FifoSize::largest_up_to(0), None);
    assert_eq!(FifoSize::largest_up_to(15), None);
    assert_eq!(FifoSize::largest_up_to(usize::MAX), Some(TwoHundredFiftySix));
}

#[test]
fn too_few_come_back() {
    for returned in [0, 1, 15] {
        let all = left(taken(flooded(entered()).look(0x60), returned));
        row(&new_state(), Err(TooFew { returned }), &all);
    }
}

#[test]
fn fifos_that_are_off_are_not_looked_at() {
    let off = DriverState {
        fifo_enabled: false,
        ..new_state()
    };
    assert_eq!(row(&off, Err(FifosOff), &list()), off);
    let mut uart = driver(RegisterFile::new(false));
    uart.init(Config::DEFAULT).unwrap();
    let before = uart.backend().log.count();
    assert_eq!(uart.find_fifo_size(), Err(FifosOff));
    assert_eq!(uart.backend().log.count(), before);
}

#[test]
fn the_first_wait_stalls() {
    // Nothing was written, and what the polls saw is saved.
    let begun = list().read(offsets::MCR, 0x0b).read(offsets::IER, 0x05);
    let polled = begun.look(0x02).look(0x30).look(0x04);
    let after = row(&new_state(), Err(Stalled), &polled);
    let expected = DriverState {
        saved_lsr: LSR::from_bits_retain(0x16),
        ..new_state()
    };
    assert_eq!(after, expected);
}

#[test]
fn the_drain_stalls() {
    // After the third byte, without another poll, and without the burst.
    row(&new_state(), Err(Stalled), &left(entered().hits(b"abc")));
}

#[test]
fn a_burst_that_does_not_end_is_discarded() {
    // The FIFOs are reset before loopback is left. So what is still in the transmitter stays inside.
    let polled = flooded(entered()).looks(3, 0x21);
    row(&new_state(), Err(Stalled), &left(polled));
}

#[test]
fn bytes_and_errors_from_before() {
    // An overrun that was noted before, and a parity error that the first wait shows, stay noted. A byte from before is taken and not
    // counted, and its framing error goes with it.
    let noted = DriverState {
        saved_lsr: LSR::from_bits_retain(0x02),
        ..new_state()
    };
    let begun = list().read(offsets::MCR, 0x0b).read(offsets::IER, 0x05);
    let waited = begun.look(0x05).look(0x40).read(offsets::MSR, 0xd0);
    let looping = waited.write(offsets::IER, 0x00).write(offsets::MCR, 0x10);
    let drained = looping.fifo(0xc7, 0xc1).look(0x09).read(offsets::DATA, 0x55);
    let all = left(taken(flooded(drained).look(0x42), 16));
    let expected = DriverState {
        saved_lsr: LSR::from_bits_retain(0x06),
        saved_msr: MSR::from_bits_retain(0x0c),
        ..new_state()
    };
    assert_eq!(row(&noted, Ok(Sixteen), &all), expected);
}

#[test]
fn fifos_of_which_no_level_is_known_stay_on() {
    // As on a port that was taken by `attach`: the level is one byte. ISR tells whether they are on in the end.
    let attached = |fifo_enabled| DriverState {
        config: Config {
            fifo_trigger_level: None,
            interrupts: IER::from_bits_retain(0x05),
            ..Config::DEFAULT
        },
        fifo_enabled,
        ..new_state()
    };
    for (isr, on) in [(0xc1, true), (0x01, false)] {
        let entered = list().enter(0x0b, 0x05, 0x40, 0x10).fifo(0x07, 0xc1);
        let counted = taken(flooded(entered).look(0x60), 16).fifo(0x07, isr);
        let all = counted.leave(0x03, 0x10, 0x0b, 0x05);
        assert_eq!(row(&attached(true), Ok(Sixteen), &all), attached(on));
    }
    // Another level is written both times.
    let eight = DriverState {
        config: Config {
            fifo_trigger_level: Some(FifoTriggerLevel::Eight),
            ..Config::DEFAULT
        },
        ..new_state()
    };
    let entered = list().enter(0x0b, 0x05, 0x40, 0x10).fifo(0x87, 0xc1);
    let counted = taken(flooded(entered).look(0x60), 16).fifo(0x87, 0xc1);
    let all = counted.leave(0x03, 0x10, 0x0b, 0x05);
    assert_eq!(row(&eight, Ok(Sixteen), &all), eight);
}
