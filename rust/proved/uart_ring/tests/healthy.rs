//! Chips that work, under `try_handle`: none is declared stuck, whatever its limit is, and none that has more to do than a round serves.

use geesetrunk_kit_of_rings::alloc::Global;
use proved_uart_ring::{HandleEnd, StuckError, Uart16550Ring};
use uart_16550::Uart16550;
use uart_16550::backend::Backend;
use uart_live::{Chip, LiveChip, WIRE_ROOM};
use uart_spec::Config;
use uart_spec::registers::{IER, LSR, MSR};

/// Pseudorandom numbers: xorshift.
struct Random(u64);

impl Random {
    fn below(&mut self, end: usize) -> usize {
        self.0 ^= self.0 << 13;
        self.0 ^= self.0 >> 7;
        self.0 ^= self.0 << 17;
        (self.0 % end as u64) as usize
    }
}

/// A chip whose wire somebody reads, with time that passes at each access.
struct Registers {
    chip: LiveChip,
    ticks: u16,
}

impl Registers {
    fn pass(&mut self, ticks: u16) {
        self.chip.ticks(ticks);
        self.chip.take_wire(self.chip.wire().len());
    }
}

impl Backend for Registers {
    fn read(&mut self, register_offset: u8) -> u8 {
        self.pass(self.ticks);
        self.chip.read(register_offset)
    }

    fn write(&mut self, register_offset: u8, value: u8) {
        self.pass(self.ticks);
        self.chip.write(register_offset, value);
    }
}

type Port = Uart16550Ring<Registers>;

fn port(char_ticks: u16, ticks: u16, capacity: usize, config: Config) -> Port {
    let chip = LiveChip::new(Chip::Uart16550A, char_ticks, WIRE_ROOM).expect("in range");
    let mut uart = Uart16550::new_with_backend(Registers { chip, ticks });
    assert_eq!(uart.init(config), Ok(()));
    match Uart16550Ring::new(Global::heap(), uart, capacity, capacity) {
        Ok(ring) => ring,
        Err(refused) => panic!("{refused}"),
    }
}

fn all() -> Config {
    Config {
        interrupts: IER::DATA_READY | IER::RECEIVER_LINE_STATUS | IER::MODEM_STATUS,
        ..Config::DEFAULT
    }
}

fn chip(ring: &mut Port) -> &mut LiveChip {
    &mut ring.inner_mut().backend_mut().chip
}

fn interrupts(ring: &Port) -> bool {
    ring.inner().backend().chip.is_interrupting()
}

/// Serves as a controller asks for it: as long as the line is high. Returns why the chip was declared stuck.
fn serve(ring: &mut Port, limit: usize, rounds: u32) -> Result<(), StuckError> {
    while interrupts(ring) {
        ring.try_handle(limit, rounds)?;
    }
    Ok(())
}

/// How many of some runs end with a chip that is declared stuck: one or two things happen at a time, and then the line is low for long.
fn stuck_runs(runs: u64, limit: usize, rounds: u32) -> u64 {
    let mut stuck = 0;
    for seed in 1..=runs {
        let mut random = Random(seed.wrapping_mul(0x9e37_79b9_7f4a_7c15));
        let mut ring = port(8, 1, 64, all());
        let outcome = (0..5_000).try_for_each(|_| {
            ring.inner_mut().backend_mut().pass(2_000);
            for _ in 0..=random.below(2) {
                match random.below(4) {
                    0 => assert!(chip(&mut ring).arrive(0x55, LSR::PARITY_ERROR).is_ok()),
                    1 => assert!(chip(&mut ring).set_lines(MSR::CTS).is_ok()),
                    2 => assert!(chip(&mut ring).set_lines(MSR::empty()).is_ok()),
                    _ => drop((ring.queue(b"byte"), ring.take(&mut [0; 64]))),
                }
            }
            ring.inner_mut().backend_mut().pass(2_000);
            serve(&mut ring, limit, rounds)
        });
        stuck += u64::from(outcome.is_err());
    }
    stuck
}

/// Of 200 such runs 196 ended so while each round counted that did not end with `Idle`.
#[test]
fn a_slow_chip_is_not_stuck_at_any_limit() {
    for (limit, rounds) in [(1, 100), (1, 1_000), (2, 100), (8, 100), (32, 100)] {
        assert_eq!(stuck_runs(20, limit, rounds), 0, "{rounds} rounds of {limit}");
    }
}

/// 4,096 bytes go out one at a time, as fast as they are written: 128 rounds of 32, more than there may be in a row without a byte.
#[test]
fn a_large_ring_goes_out_in_more_rounds_than_are_allowed() {
    let config = Config {
        fifo_trigger_level: None,
        ..all()
    };
    let mut ring = port(1, 2, 4_096, config);
    assert_eq!(ring.queue(&[0x55; 4_096]), 4_096);
    let mut calls = 0;
    while ring.transmit_len() > 0 {
        assert!(interrupts(&ring));
        let handled = ring.try_handle(32, 100).expect("a chip that works");
        calls += 1;
        assert!(handled.end == HandleEnd::Limit || ring.transmit_len() == 0);
    }
    assert!(calls > 100, "{calls}");
}

/// A receiver that is full, so that each further character is an overrun, and no byte moves.
fn full_port() -> Port {
    let mut ring = port(8, 1, 16, all());
    for _ in 0..32 {
        assert!(chip(&mut ring).arrive(0x55, LSR::empty()).is_ok());
        assert_eq!(serve(&mut ring, 32, 100), Ok(()));
    }
    assert!(ring.is_paused());
    ring
}

/// Overruns, or changes of a modem line, or both at once, and the handler runs after each.
fn status_news(
    limit: usize,
    rounds: u32,
    has_overruns: bool,
    has_changes: bool,
) -> Result<(), StuckError> {
    let mut ring = full_port();
    (0..1_000).try_for_each(|change| {
        ring.inner_mut().backend_mut().pass(2_000);
        if has_overruns {
            assert!(chip(&mut ring).arrive(0x55, LSR::empty()).is_ok());
        }
        if has_changes {
            let lines = if change % 2 == 0 { MSR::CTS } else { MSR::empty() };
            assert!(chip(&mut ring).set_lines(lines).is_ok());
        }
        serve(&mut ring, limit, rounds)
    })
}

/// One a round is not enough: the last round looks once more, and sees none.
#[test]
fn status_news_one_at_a_time_are_not_enough() {
    for limit in [1, 2, 6, 32] {
        assert_eq!(status_news(limit, 100, true, false), Ok(()), "{limit}");
        assert_eq!(status_news(limit, 100, false, true), Ok(()), "{limit}");
    }
}

/// A round of a single interrupt never ends with `Idle`. So with such rounds two news at a time stop this chip.
#[test]
fn two_at_a_time_are_not_enough() {
    for limit in [0, 1, 2, 6, 32] {
        assert_eq!(status_news(limit, 99, true, true), Ok(()), "{limit}");
    }
}

/// The last access of a round raises THR_EMPTY again, and CTS holds back what it is for. With rounds of a single interrupt that stops this
/// chip.
#[test]
fn a_clear_cts_is_not_enough() {
    let held_back = |limit| -> Result<(), StuckError> {
        let config = Config {
            check_cts_before_sending: true,
            ..all()
        };
        let mut ring = port(8, 1, 64, config);
        ring.queue(b"held back");
        (0..1_000).try_for_each(|_| {
            ring.inner_mut().backend_mut().pass(2_000);
            if interrupts(&ring) {
                ring.try_handle(limit, 100)?;
            }
            Ok(())
        })
    };
    for limit in [0, 1, 2, 6, 32] {
        assert_eq!(held_back(limit), Ok(()), "{limit}");
    }
}

/// How many of some runs stop a chip that works: all news come between the rounds, and however many, none while a round is served.
fn stopped_runs(runs: u64, limit: usize) -> usize {
    let stops = |seed: u64| {
        let mut random = Random(seed.wrapping_mul(0x9e37_79b9_7f4a_7c15));
        let mut ring = port(8, 1, 4, all());
        let rounds = 1 + random.below(4) as u32;
        (0..100).any(|_| {
            for _ in 0..random.below(8) {
                match random.below(5) {
                    0 => drop(chip(&mut ring).arrive(0x55, LSR::PARITY_ERROR)),
                    1 => drop(chip(&mut ring).set_lines(MSR::CTS)),
                    2 => drop(chip(&mut ring).set_lines(MSR::empty())),
                    3 => drop(ring.queue(b"byte")),
                    _ => drop(ring.take(&mut [0; 2])),
                }
                ring.inner_mut().backend_mut().pass(random.below(32) as u16);
            }
            ring.try_handle(limit, rounds).is_err()
        })
    };
    (1..=runs).filter(|&seed| stops(seed)).count()
}

/// While a round served no more than its limit, 320 of these 500 runs stopped a chip at a limit of 1, and 75 at 2.
#[test]
fn no_limit_stops_a_chip_that_works() {
    for limit in 0..10 {
        assert_eq!(stopped_runs(500, limit), 0, "{limit}");
    }
}

/// At a limit of six a round without a byte ends with `Idle`, whatever waits at its start, if nothing arrives meanwhile.
#[test]
fn what_waits_at_the_start_of_a_round_is_served_in_it() {
    let mut random = Random(1);
    for _ in 0..2_000 {
        let mut ring = port(8, 1, 16, all());
        for _ in 0..random.below(60) {
            match random.below(4) {
                0 => drop(chip(&mut ring).arrive(0x55, LSR::FRAMING_ERROR)),
                1 => drop(chip(&mut ring).set_lines(MSR::CTS)),
                2 => drop(chip(&mut ring).set_lines(MSR::empty())),
                _ => drop(ring.queue(b"a")),
            }
            ring.inner_mut().backend_mut().pass(random.below(64) as u16);
            if random.below(8) == 0 {
                ring.handle(1);
            }
        }
        let before = (ring.transmit_len(), ring.receive_len());
        let handled = ring.handle(6);
        let is_still = before == (ring.transmit_len(), ring.receive_len());
        assert!(!is_still || handled.end == HandleEnd::Idle);
    }
}
