//! Clocks as durations, and durations as clocks, over the calls that have them of nanoseconds.

use crate::Config;
use core::time::Duration;

impl Config {
    /// Returns the duration of so many clocks in whole nanoseconds, rounded down, as a time that may be used up: what
    /// [`nanoseconds_within`](Config::nanoseconds_within) returns.
    ///
    /// `None` if the nanoseconds do not fit into 64 bits, which are 584 years, or the frequency is 0.
    ///
    /// # Examples
    ///
    /// The time that a handler has, of the accesses that take at most a microsecond each.
    ///
    /// ```
    /// # use uart_16550::native::{*, spec::*};
    /// # use core::time::Duration;
    /// let config = Config::DEFAULT;
    /// let access = config.clocks_covering_duration(Duration::from_micros(1)).expect("it fits");
    /// let budget = config.handler_budget(FifoSize::Sixteen, access, 0)?.expect("there is time");
    /// assert_eq!(config.duration_within(budget), Some(Duration::from_nanos(3_120_117)));
    /// # Ok::<(), Box<dyn std::error::Error>>(())
    /// ```
    #[must_use]
    pub fn duration_within(&self, clocks: u64) -> Option<Duration> {
        self.nanoseconds_within(clocks).map(Duration::from_nanos)
    }

    /// Returns the shortest duration in whole nanoseconds that covers so many clocks, as a time to wait: what
    /// [`nanoseconds_covering`](Config::nanoseconds_covering) returns.
    ///
    /// `None` if the nanoseconds do not fit into 64 bits, which are 584 years, or the frequency is 0.
    ///
    /// # Examples
    ///
    /// The time in which the transmitter has sent all that it holds.
    ///
    /// ```
    /// # use uart_16550::native::{*, spec::*};
    /// # use core::time::Duration;
    /// let config = Config::DEFAULT;
    /// let clocks = config.drain_clocks(FifoSize::Sixteen)?;
    /// assert_eq!(config.duration_covering(clocks), Some(Duration::from_nanos(17_708_334)));
    /// # Ok::<(), Box<dyn std::error::Error>>(())
    /// ```
    #[must_use]
    pub fn duration_covering(&self, clocks: u64) -> Option<Duration> {
        self.nanoseconds_covering(clocks).map(Duration::from_nanos)
    }

    /// Returns the whole clocks within a duration, rounded down, as the least that a look takes: what
    /// [`clocks_within`](Config::clocks_within) returns for its nanoseconds.
    ///
    /// `None` if the clocks do not fit into 64 bits, or the nanoseconds do not, as those of `Duration::MAX`.
    ///
    /// # Examples
    ///
    /// ```
    /// # use uart_16550::native::{*, spec::*};
    /// # use core::time::Duration;
    /// assert_eq!(Config::DEFAULT.clocks_within_duration(Duration::from_micros(1)), Some(1));
    /// ```
    #[must_use]
    pub fn clocks_within_duration(&self, duration: Duration) -> Option<u64> {
        self.clocks_within(nanoseconds(duration)?)
    }

    /// Returns the fewest clocks that cover a duration, as the most that an access takes, or a handler is late: what
    /// [`clocks_covering`](Config::clocks_covering) returns for its nanoseconds.
    ///
    /// `None` if the clocks do not fit into 64 bits, or the nanoseconds do not, as those of `Duration::MAX`.
    ///
    /// # Examples
    ///
    /// ```
    /// # use uart_16550::native::{*, spec::*};
    /// # use core::time::Duration;
    /// assert_eq!(Config::DEFAULT.clocks_covering_duration(Duration::from_micros(1)), Some(2));
    /// ```
    #[must_use]
    pub fn clocks_covering_duration(&self, duration: Duration) -> Option<u64> {
        self.clocks_covering(nanoseconds(duration)?)
    }
}

fn nanoseconds(duration: Duration) -> Option<u64> {
    u64::try_from(duration.as_nanos()).ok()
}
