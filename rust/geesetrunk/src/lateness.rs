//! How late a handler may be, without flow control, so that no character is dropped: what the law of `uart_latency` says of a
//! configuration.

use uart_spec::registers::FifoTriggerLevel;
use uart_spec::{Config, FifoSize, InvalidDivisorError};

/// The trigger levels, from the earliest interrupt to the latest.
pub const LEVELS: [FifoTriggerLevel; 4] = [
    FifoTriggerLevel::One,
    FifoTriggerLevel::Four,
    FifoTriggerLevel::Eight,
    FifoTriggerLevel::Fourteen,
];

/// The sizes of FIFOs, from the smallest on.
pub const SIZES: [FifoSize; 5] = [
    FifoSize::Sixteen,
    FifoSize::ThirtyTwo,
    FifoSize::SixtyFour,
    FifoSize::OneHundredTwentyEight,
    FifoSize::TwoHundredFiftySix,
];

// How many accesses of a visit that only receives are for no byte: ISR and LSR tell a line error, ISR the byte, LSR that no
// other one waits, and ISR that no other interrupt is pending.
const OF_RECEIVING: u128 = 5;

/// How the port is served. Times are in clocks of the chip's input.
#[derive(Clone, Debug, PartialEq, Eq)]
pub struct Service {
    /// The configuration of the chip.
    pub config: Config,
    /// How many characters its FIFOs have room for, if they are on.
    pub size: FifoSize,
    /// How long an access takes at most, with what passes before it.
    pub access: u64,
    /// How long others on the same interrupt line are served before.
    pub before: u64,
}

/// What a handler may take, in clocks.
#[derive(Clone, Copy, Debug, PartialEq, Eq)]
pub struct Allowance {
    /// How many may pass from the rise of the interrupt line to the moment at which the handler begins.
    pub late: u64,
    /// How many accesses it may make that are for no byte, or `None` if that is any number.
    pub others: Option<u64>,
}

/// Why there is no time that a handler may take.
#[derive(Clone, Debug, PartialEq, Eq)]
pub enum NoAllowance {
    /// There is no divisor for the baud rate.
    Divisor(InvalidDivisorError),
    /// A byte takes two accesses, and these take longer than a character.
    SlowReads,
    /// Nothing is left: the receiver is full before the first byte is read, or before the rest is done.
    NothingLeft,
}

impl From<InvalidDivisorError> for NoAllowance {
    fn from(cause: InvalidDivisorError) -> Self {
        NoAllowance::Divisor(cause)
    }
}

impl Service {
    /// Returns how many characters wait when the interrupt comes. Without a FIFO that is one.
    #[must_use]
    pub fn level(&self) -> usize {
        let level = self.config.fifo_trigger_level;
        level.map_or(1, |level| level.characters(self.size))
    }

    // Returns how many characters the receiver has room for.
    fn room(&self) -> usize {
        let is_on = self.config.fifo_trigger_level.is_some();
        if is_on { self.size.characters() } else { 1 }
    }

    /// Returns what a handler may take.
    ///
    /// # Errors
    ///
    /// Why there is no such time.
    ///
    /// # Examples
    ///
    /// ```
    /// use geesetrunk::lateness::Service;
    /// use uart_spec::registers::FifoTriggerLevel;
    /// use uart_spec::{BaudRate, Config, FifoSize};
    ///
    /// let service = Service {
    ///     config: Config {
    ///         baud_rate: BaudRate::Baud115200,
    ///         fifo_trigger_level: Some(FifoTriggerLevel::Eight),
    ///         ..Config::DEFAULT
    ///     },
    ///     size: FifoSize::Sixteen,
    ///     access: 2,
    ///     before: 0,
    /// };
    /// // From the interrupt on 8 more find room, and the one behind them comes as nine have taken their time.
    /// assert_eq!(service.allowance().unwrap().late, 9 * 160 - 4 * 2 - 1);
    /// ```
    pub fn allowance(&self) -> Result<Allowance, NoAllowance> {
        let character = self.config.character_clocks()?;
        let budget = self
            .config
            .handler_budget(self.size, self.access, self.before)?;
        let Some(late) = budget else {
            let is_slow = 2 * u128::from(self.access) > u128::from(character);
            return Err(if is_slow {
                NoAllowance::SlowReads
            } else {
                NoAllowance::NothingLeft
            });
        };
        let others = self.others(character, late);
        if others.is_some_and(|others| others < OF_RECEIVING) {
            return Err(NoAllowance::NothingLeft);
        }
        let others = others.map(|others| u64::try_from(others).unwrap_or(u64::MAX));
        Ok(Allowance { late, others })
    }

    // Returns how many accesses for no byte a visit may make that begins so late: `others` and `more` of `IsQuickHandle`, with
    // the largest `d` that `IsEarly` allows.
    fn others(&self, character: u64, late: u64) -> Option<u128> {
        let [character, access, late, before] =
            [character, self.access, late, self.before].map(u128::from);
        let room = self.room() as u128;
        let latest = (room - self.level() as u128 + 1) * character - 1;
        let given_back = room * (character - 2 * access);
        let begins = late + before;
        let once_empty = latest.checked_div(access)?.saturating_sub(2);
        let once_full = ((latest + given_back - begins) / access).saturating_sub(4);
        Some(once_empty.min(once_full))
    }
}

#[cfg(test)]
mod tests {
    use super::*;
    use uart_spec::BaudRate;

    // The conditions of the law, each as it stands there: `d` is less than the time in which the receiver fills up.
    fn is_allowed(service: &Service, late: u64, others: u64) -> bool {
        let t = service.config.character_clocks().unwrap();
        let (e, b) = (service.access, late + service.before);
        let size = service.room() as u64;
        let d = (size - service.level() as u64 + 1) * t - 1;
        let first = b + 4 * e <= d;
        let each = 2 * e <= t;
        let rest = (others + 2) * e <= d;
        let more = b + (others + 4) * e + 2 * size * e <= d + size * t;
        first && each && rest && more
    }

    fn service(divisor: u32, level: Option<FifoTriggerLevel>, access: u64, before: u64) -> Service {
        let config = Config {
            frequency: 16 * divisor,
            baud_rate: BaudRate::Custom(1),
            fifo_trigger_level: level,
            ..Config::DEFAULT
        };
        let size = FifoSize::SixtyFour;
        Service {
            config,
            size,
            access,
            before,
        }
    }

    #[test]
    fn the_allowance_is_the_most_that_the_law_allows() {
        for level in LEVELS.map(Some).into_iter().chain([None]) {
            for access in 0..200 {
                for before in [0, 1, 100, 1_000, 20_000] {
                    let service = service(1, level, access, before);
                    match service.allowance() {
                        Ok(Allowance { late, others }) => {
                            assert!(is_allowed(&service, late, others.unwrap_or(1 << 40)));
                            assert!(!is_allowed(&service, late + 1, 5));
                            if let Some(others) = others {
                                assert!(others >= 5);
                                assert!(!is_allowed(&service, late, others + 1));
                            }
                        }
                        Err(NoAllowance::SlowReads) => assert!(2 * access > 160),
                        Err(NoAllowance::NothingLeft) => {
                            let most = service
                                .config
                                .handler_budget(service.size, access, before)
                                .unwrap();
                            assert!(most.is_none_or(|most| !is_allowed(&service, most, 5)));
                        }
                        Err(NoAllowance::Divisor(cause)) => panic!("{cause}"),
                    }
                }
            }
        }
    }

    #[test]
    fn without_a_divisor_there_is_no_time() {
        let service = Service {
            config: Config {
                baud_rate: BaudRate::Custom(7_000),
                ..Config::DEFAULT
            },
            ..service(1, None, 0, 0)
        };
        assert!(matches!(service.allowance(), Err(NoAllowance::Divisor(_))));
    }
}
