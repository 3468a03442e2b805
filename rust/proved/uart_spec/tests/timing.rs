//! How long a character takes, and how late a handler may be: worked out by hand, in clocks of the chip's input.

use core::time::Duration;
use proved_uart_spec::registers::{FifoTriggerLevel, Parity, WordLength};
use proved_uart_spec::{BaudRate, Config, FifoSize, InvalidDivisorError};

#[test]
fn how_long_a_character_takes() {
    // A start bit, eight data bits and a stop bit, each of 12 times 16 clocks.
    assert_eq!(Config::DEFAULT.character_clocks(), Ok(1_920));
    // A start bit, five data bits, a parity bit, and one and a half stop bits.
    let config = Config {
        data_bits: WordLength::FiveBits,
        parity: Parity::Even,
        extra_stop_bits: true,
        ..Config::DEFAULT
    };
    assert_eq!(config.character_clocks(), Ok(1_632));
    // Six data bits have two stop bits.
    let config = Config {
        data_bits: WordLength::SixBits,
        extra_stop_bits: true,
        ..Config::DEFAULT
    };
    assert_eq!(config.character_clocks(), Ok(9 * 192));
    // The most: twelve bits.
    let config = Config {
        parity: Parity::Forced0,
        extra_stop_bits: true,
        ..Config::DEFAULT
    };
    assert_eq!(config.character_clocks(), Ok(2_304));
    // A prescaler that divides by 2, at twice the frequency.
    let config = Config {
        frequency: 3_686_400,
        prescaler_division_factor: Some(1),
        ..Config::DEFAULT
    };
    assert_eq!(config.character_clocks(), Ok(3_840));
}

#[test]
fn a_configuration_without_a_divisor_has_no_times() {
    let config = Config {
        frequency: 0,
        ..Config::DEFAULT
    };
    let refused = Err(InvalidDivisorError::OutOfRange { divisor: 0 });
    assert_eq!(config.character_clocks(), refused);
    assert_eq!(config.handler_clocks(FifoSize::Sixteen), refused);
    let config = Config {
        baud_rate: BaudRate::Baud110,
        ..Config::DEFAULT
    };
    assert!(matches!(config.character_clocks(), Err(InvalidDivisorError::NonInteger(_))));
    let config = Config {
        prescaler_division_factor: Some(16),
        ..Config::DEFAULT
    };
    assert!(matches!(config.handler_clocks(FifoSize::Sixteen), Err(InvalidDivisorError::NonInteger(_))));
}

#[test]
fn how_late_a_handler_may_be() {
    let at = |level| Config {
        baud_rate: BaudRate::Baud115200,
        fifo_trigger_level: level,
        ..Config::DEFAULT
    };
    let clocks = |level, size| at(Some(level)).handler_clocks(size);
    // A character is 160 clocks, and one clock less than 16, 13, 9 and 3 of them is not too late.
    assert_eq!(clocks(FifoTriggerLevel::One, FifoSize::Sixteen), Ok(2_559));
    assert_eq!(clocks(FifoTriggerLevel::Four, FifoSize::Sixteen), Ok(2_079));
    assert_eq!(clocks(FifoTriggerLevel::Eight, FifoSize::Sixteen), Ok(1_439));
    assert_eq!(clocks(FifoTriggerLevel::Fourteen, FifoSize::Sixteen), Ok(479));
    // 56 of 64 leave as many as 8 of 16.
    assert_eq!(clocks(FifoTriggerLevel::Fourteen, FifoSize::SixtyFour), Ok(1_439));
    // Without FIFOs the next one is too much.
    assert_eq!(at(None).handler_clocks(FifoSize::Sixteen), Ok(159));
}

/// A port at 115,200 baud, where a character takes 160 clocks.
fn quick(level: FifoTriggerLevel) -> Config {
    Config { baud_rate: BaudRate::Baud115200, fifo_trigger_level: Some(level), ..Config::DEFAULT }
}

#[test]
fn what_is_left_for_a_handler() {
    let budget = |level, access, before| quick(level).handler_budget(FifoSize::Sixteen, access, before);
    // Of 9, 3 and 16 characters without a clock: nothing, or the time of four accesses, or of others.
    assert_eq!(budget(FifoTriggerLevel::Eight, 0, 0), Ok(Some(1_439)));
    assert_eq!(budget(FifoTriggerLevel::Eight, 2, 0), Ok(Some(1_431)));
    assert_eq!(budget(FifoTriggerLevel::Fourteen, 2, 0), Ok(Some(471)));
    assert_eq!(budget(FifoTriggerLevel::One, 80, 1_000), Ok(Some(2_559 - 320 - 1_000)));
    // Just enough, and one clock too much.
    assert_eq!(budget(FifoTriggerLevel::Fourteen, 2, 471), Ok(Some(0)));
    assert_eq!(budget(FifoTriggerLevel::Fourteen, 2, 472), Ok(None));
    assert_eq!(budget(FifoTriggerLevel::Fourteen, 2, u64::MAX), Ok(None));
    // Two accesses of 81 clocks take longer than a character.
    assert_eq!(budget(FifoTriggerLevel::One, 81, 0), Ok(None));
    assert_eq!(budget(FifoTriggerLevel::One, u64::MAX, 0), Ok(None));
    // Without FIFO the next character is the one that is lost.
    let config = Config { fifo_trigger_level: None, ..quick(FifoTriggerLevel::One) };
    assert_eq!(config.handler_budget(FifoSize::Sixteen, 2, 0), Ok(Some(151)));
    // A larger FIFO: 9 of 64 are as many as 9 of 16.
    assert_eq!(quick(FifoTriggerLevel::Fourteen).handler_budget(FifoSize::SixtyFour, 2, 0), Ok(Some(1_431)));
}

#[test]
fn what_characters_take() {
    let config = quick(FifoTriggerLevel::Eight);
    assert_eq!(config.characters_in(0), Ok(1));
    assert_eq!(config.characters_in(159), Ok(1));
    assert_eq!(config.characters_in(160), Ok(2));
    // A handler that is done within half a millisecond: 921.6 clocks.
    assert_eq!(config.characters_in(922), Ok(6));
    assert_eq!(config.characters_in(u64::MAX), Ok(u64::MAX / 160 + 1));
    assert_eq!(config.drain_clocks(FifoSize::Sixteen), Ok(17 * 160));
    assert_eq!(config.drain_clocks(FifoSize::TwoHundredFiftySix), Ok(257 * 160));
    assert_eq!(config.timeout_clocks(), Ok(640));
    // 80 looks of 2 clocks, and one more: for each of 17 characters. Of 3 clocks they are 54, of which the last begins before it ends.
    assert_eq!(config.spin_limit_for(FifoSize::Sixteen, 2), Ok(Some(17 * 81)));
    assert_eq!(config.spin_limit_for(FifoSize::Sixteen, 3), Ok(Some(17 * 55)));
    assert_eq!(config.spin_limit_for(FifoSize::SixtyFour, 1_000), Ok(Some(65 * 2)));
    assert_eq!(config.spin_limit_for(FifoSize::Sixteen, 0), Ok(None));
}

#[test]
fn nanoseconds_are_rounded_to_the_safe_side() {
    let config = Config::DEFAULT;
    assert_eq!(config.nanoseconds_within(160), Some(86_805));
    assert_eq!(config.nanoseconds_covering(160), Some(86_806));
    assert_eq!(config.clocks_within(1_000), Some(1));
    assert_eq!(config.clocks_covering(1_000), Some(2));
    // A whole number is rounded to neither side: a second, and its clocks.
    assert_eq!(config.nanoseconds_within(1_843_200), Some(1_000_000_000));
    assert_eq!(config.nanoseconds_covering(1_843_200), Some(1_000_000_000));
    assert_eq!(config.clocks_within(1_000_000_000), Some(1_843_200));
    assert_eq!(config.clocks_covering(1_000_000_000), Some(1_843_200));
    assert_eq!(config.nanoseconds_within(0), Some(0));
    assert_eq!(config.clocks_covering(0), Some(0));
    // The most that fits, and one clock more.
    assert_eq!(config.nanoseconds_within(34_001_038_676_661_445), Some(18_446_744_073_709_551_323));
    assert_eq!(config.nanoseconds_within(34_001_038_676_661_446), None);
    assert_eq!(config.nanoseconds_within(u64::MAX), None);
    assert_eq!(config.nanoseconds_covering(u64::MAX), None);
    let fast = Config { frequency: u32::MAX, ..Config::DEFAULT };
    assert_eq!(fast.clocks_within(u64::MAX), None);
    assert_eq!(fast.clocks_covering(u64::MAX), None);
    assert_eq!(fast.nanoseconds_covering(u64::MAX), Some(4_294_967_297_000_000_000));
    // A clock of a nanosecond.
    let second = Config { frequency: 1_000_000_000, ..Config::DEFAULT };
    assert_eq!(second.nanoseconds_within(u64::MAX), Some(u64::MAX));
    assert_eq!(second.nanoseconds_covering(u64::MAX), Some(u64::MAX));
    let none = Config { frequency: 0, ..Config::DEFAULT };
    assert_eq!(none.nanoseconds_within(1), None);
    assert_eq!(none.nanoseconds_covering(0), None);
    assert_eq!(none.clocks_within(u64::MAX), Some(0));
}

#[test]
fn durations_are_these_nanoseconds() {
    let config = Config::DEFAULT;
    assert_eq!(config.duration_within(160), Some(Duration::from_nanos(86_805)));
    assert_eq!(config.duration_covering(160), Some(Duration::from_nanos(86_806)));
    assert_eq!(config.clocks_within_duration(Duration::from_micros(1)), Some(1));
    assert_eq!(config.clocks_covering_duration(Duration::from_micros(1)), Some(2));
    // Seconds and their fraction count.
    assert_eq!(config.duration_within(3_686_400), Some(Duration::from_secs(2)));
    assert_eq!(config.clocks_within_duration(Duration::new(2, 500_000_000)), Some(4_608_000));
    assert_eq!(config.duration_covering(0), Some(Duration::ZERO));
    assert_eq!(config.clocks_covering_duration(Duration::ZERO), Some(0));
    assert_eq!(config.clocks_covering_duration(Duration::from_nanos(1)), Some(1));
    // The longest duration in nanoseconds of 64 bits, and one nanosecond more.
    let longest = Duration::from_nanos(u64::MAX);
    assert_eq!(config.clocks_within_duration(longest), config.clocks_within(u64::MAX));
    assert_eq!(config.clocks_within_duration(longest), Some(34_001_038_676_661_445));
    assert_eq!(config.clocks_covering_duration(longest), Some(34_001_038_676_661_446));
    for longer in [longest + Duration::from_nanos(1), Duration::MAX] {
        assert_eq!(config.clocks_within_duration(longer), None);
        assert_eq!(config.clocks_covering_duration(longer), None);
    }
    assert_eq!(config.duration_within(34_001_038_676_661_445), Some(Duration::from_nanos(18_446_744_073_709_551_323)));
    assert_eq!(config.duration_within(34_001_038_676_661_446), None);
    assert_eq!(config.duration_covering(u64::MAX), None);
    let none = Config { frequency: 0, ..Config::DEFAULT };
    assert_eq!(none.duration_within(1), None);
    assert_eq!(none.duration_covering(0), None);
    let fast = Config { frequency: u32::MAX, ..Config::DEFAULT };
    assert_eq!(fast.clocks_within_duration(longest), None);
}

/// The same by numbers of 128 bits, for frequencies and times of all sizes.
#[test]
fn nanoseconds_are_quotients() {
    let fitting = |number: u128| u64::try_from(number).ok();
    let mut state = 1_u64;
    let mut next = || {
        state ^= state << 13;
        state ^= state >> 7;
        state ^= state << 17;
        state
    };
    for _ in 0..100_000 {
        let frequency = u32::try_from(next() >> 32).expect("32 bits") >> (next() % 32);
        let value = next() >> (next() % 64);
        let config = Config { frequency, ..Config::DEFAULT };
        let (clocks, hertz, second) = (u128::from(value), u128::from(frequency), 1_000_000_000_u128);
        let nanoseconds = clocks * second;
        assert_eq!(config.nanoseconds_within(value), nanoseconds.checked_div(hertz).and_then(fitting));
        let above = if frequency == 0 { None } else { fitting(nanoseconds.div_ceil(hertz)) };
        assert_eq!(config.nanoseconds_covering(value), above);
        assert_eq!(config.clocks_within(value), fitting(clocks * hertz / second));
        assert_eq!(config.clocks_covering(value), fitting((clocks * hertz).div_ceil(second)));
    }
}

#[test]
fn without_a_divisor_there_is_no_budget() {
    let config = Config { frequency: 0, ..Config::DEFAULT };
    let refused = InvalidDivisorError::OutOfRange { divisor: 0 };
    assert_eq!(config.handler_budget(FifoSize::Sixteen, 0, 0), Err(refused));
    assert_eq!(config.characters_in(1), Err(refused));
    assert_eq!(config.drain_clocks(FifoSize::Sixteen), Err(refused));
    assert_eq!(config.timeout_clocks(), Err(refused));
    assert_eq!(config.spin_limit_for(FifoSize::Sixteen, 0), Err(refused));
}
