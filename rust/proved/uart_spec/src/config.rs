//! The configuration of a device.

use crate::baud::{CLK_FREQUENCY_HZ, nearest_factor, ticks_of};
use crate::errors::NearestDivisorError;
use crate::registers::{FifoTriggerLevel, IER, Parity, WordLength};
use std::cmp::Ordering;

/// A baud rate, in bits per second.
///
/// Baud rates are ordered by their number. If two have the same number, the one with a name comes
/// before `Custom`. So `Baud9600` and `Custom(9600)` are different values; `from_integer` returns
/// the one with a name.
///
/// # Examples
///
/// ```
/// # use uart_16550::native::{*, spec::*};
/// assert_eq!(BaudRate::from_integer(9600), BaudRate::Baud9600);
/// assert!(BaudRate::Baud9600 < BaudRate::Custom(9600));
/// ```
#[derive(Clone, Copy, Debug, PartialEq, Eq, Hash, Default)]
pub enum BaudRate {
    /// 115,200 baud.
    Baud115200,
    /// 57,600 baud.
    Baud57600,
    /// 38,400 baud.
    Baud38400,
    /// 9,600 baud.
    #[default]
    Baud9600,
    /// 4,800 baud.
    Baud4800,
    /// 2,400 baud.
    Baud2400,
    /// 1,200 baud.
    Baud1200,
    /// 600 baud.
    Baud600,
    /// 300 baud.
    Baud300,
    /// 150 baud.
    Baud150,
    /// 110 baud. `Uart16550::init` refuses it at the usual clock, since 110 does not divide
    /// 115,200.
    Baud110,
    /// Any other baud rate, by its number. Zero is not computable.
    Custom(u32),
}

impl BaudRate {
    /// Returns the number of bits per second.
    ///
    /// # Examples
    ///
    /// ```
    /// # include!(concat!(env!("CARGO_MANIFEST_DIR"), "/examples.rs"));
    /// # fn main() {}
    /// # use uart_16550::native::spec::{CLK_FREQUENCY_HZ, calc_divisor};
    /// # fn example(baud_rate: BaudRate) -> Outcome<Result<u16, InvalidDivisorError>> {
    /// # Ok({
    /// calc_divisor(CLK_FREQUENCY_HZ, baud_rate.to_integer(), None)
    /// # }) }
    /// ```
    ///
    /// # Proved
    ///
    /// - Returns [`to_integer`](crate::proved::baud_rate#to_integer) `self`: the number of bits per second.
    ///
    /// <details><summary>The clauses</summary>
    ///
    /// [How to read them](crate::proved):
    ///
    /// ```text
    /// ensures { result ≡ to_integer self }
    /// ```
    ///
    /// </details>
    #[must_use]
    pub const fn to_integer(self) -> u32 {
        match self {
            BaudRate::Baud115200 => 115_200,
            BaudRate::Baud57600 => 57_600,
            BaudRate::Baud38400 => 38_400,
            BaudRate::Baud9600 => 9_600,
            BaudRate::Baud4800 => 4_800,
            BaudRate::Baud2400 => 2_400,
            BaudRate::Baud1200 => 1_200,
            BaudRate::Baud600 => 600,
            BaudRate::Baud300 => 300,
            BaudRate::Baud150 => 150,
            BaudRate::Baud110 => 110,
            BaudRate::Custom(rate) => rate,
        }
    }

    /// Returns the baud rate with this number of bits per second: the case with a name if there is
    /// one, else `Custom`.
    ///
    /// # Examples
    ///
    /// ```
    /// # use uart_16550::native::{*, spec::*};
    /// assert_eq!(BaudRate::from_integer(9600), BaudRate::Baud9600);
    /// assert_eq!(BaudRate::from_integer(9601).to_integer(), 9601);
    /// ```
    ///
    /// # Proved
    ///
    /// - *number*: `to_integer result ≡ value`.
    ///   - [`to_integer`](crate::proved::baud_rate#to_integer): the number of bits per second.
    /// - *named*: for each `rate`: if [`IsNamed`](crate::proved::baud_rate#IsNamed) `rate`, and `to_integer rate ≡ value`: returns `rate`.
    ///   - [`IsNamed`](crate::proved::baud_rate#IsNamed): the case has a name: it is not `Custom`.
    ///
    /// <details><summary>The clauses</summary>
    ///
    /// [How to read them](crate::proved):
    ///
    /// ```text
    /// ensures number { to_integer result ≡ value }
    /// ensures named { (rate : BaudRate) → IsNamed rate → to_integer rate ≡ value → result ≡ rate }
    /// ```
    ///
    /// </details>
    #[must_use]
    pub const fn from_integer(value: u32) -> Self {
        match value {
            115_200 => BaudRate::Baud115200,
            57_600 => BaudRate::Baud57600,
            38_400 => BaudRate::Baud38400,
            9_600 => BaudRate::Baud9600,
            4_800 => BaudRate::Baud4800,
            2_400 => BaudRate::Baud2400,
            1_200 => BaudRate::Baud1200,
            600 => BaudRate::Baud600,
            300 => BaudRate::Baud300,
            150 => BaudRate::Baud150,
            110 => BaudRate::Baud110,
            _ => BaudRate::Custom(value),
        }
    }

    // Returns 0 for a case with a name, 1 for `Custom`: the order of two rates with the same
    // number. So two rates compare as equal only if they are equal.
    fn rank(self) -> u8 {
        match self {
            BaudRate::Custom(_) => 1,
            _ => 0,
        }
    }
}

impl Ord for BaudRate {
    fn cmp(&self, other: &BaudRate) -> Ordering {
        self.to_integer()
            .cmp(&other.to_integer())
            .then(self.rank().cmp(&other.rank()))
    }
}

impl PartialOrd for BaudRate {
    fn partial_cmp(&self, other: &BaudRate) -> Option<Ordering> {
        Some(self.cmp(other))
    }
}

/// The configuration of a device: clock and baud rate, the format of a character, FIFOs and
/// interrupts.
///
/// Pass it to `Uart16550::init`, which requires that it is computable (`Config::is_computable`).
/// Start from `Config::DEFAULT`, and set what differs.
///
/// # Examples
///
/// ```
/// # include!(concat!(env!("CARGO_MANIFEST_DIR"), "/examples.rs"));
/// # fn main() {}
/// # fn example(uart: &mut Uart16550<Device>) -> Outcome<()> {
/// uart.init(Config {
///     baud_rate: BaudRate::Baud38400,
///     ..Config::DEFAULT
/// })?;
/// # Ok(()) }
/// ```
#[derive(Clone, Debug, PartialEq, Eq, PartialOrd, Ord, Hash)]
pub struct Config {
    /// The interrupts that are enabled at the end of the initialisation. One may be pending before
    /// `init` returns, so call it with the processor's interrupts masked.
    pub interrupts: IER,
    /// The frequency of the clock that drives the baud rate generator, in hertz. Not zero.
    pub frequency: u32,
    /// The prescaler division factor, between 0 and 15, if the chip has a prescaler. `None` counts
    /// as 0.
    ///
    /// It takes part in the computation of the divisor. `init` does not write it to the chip.
    pub prescaler_division_factor: Option<u32>,
    /// The trigger level of the receiver FIFO. `None` leaves the FIFOs off, and bytes are then sent
    /// one at a time; some versions of QEMU were reported to stall in this mode. A chip without
    /// FIFOs ignores the level.
    pub fifo_trigger_level: Option<FifoTriggerLevel>,
    /// The baud rate. The clock must give exactly this rate, or `init` refuses it.
    pub baud_rate: BaudRate,
    /// The number of data bits of a character.
    pub data_bits: WordLength,
    /// Whether a character ends with more than one stop bit: two, or one and a half after five data
    /// bits.
    pub extra_stop_bits: bool,
    /// The parity of a character.
    pub parity: Parity,
    /// Whether bytes are sent only while the remote asserts clear to send (CTS). Enable it only for
    /// a remote that drives this line: many cables do not, and nothing is sent then.
    pub check_cts_before_sending: bool,
}

impl Config {
    /// 9,600 baud at the usual clock, eight data bits, no parity, one stop bit, FIFOs with a
    /// trigger level of fourteen, no interrupts, and no CTS check before sending.
    ///
    /// The level is that of the original crate. It takes the fewest interrupts, and leaves their
    /// handler the least time: 3.1 ms at 9,600 baud, but 260 us at 115,200. There level 8 leaves
    /// 781 us, for 131,072 interrupts a megabyte in place of 74,912 (`handler_budget`).
    pub const DEFAULT: Config = Config {
        interrupts: IER::NONE,
        frequency: CLK_FREQUENCY_HZ,
        prescaler_division_factor: None,
        fifo_trigger_level: Some(FifoTriggerLevel::Fourteen),
        baud_rate: BaudRate::Baud9600,
        data_bits: WordLength::EightBits,
        extra_stop_bits: false,
        parity: Parity::Disabled,
        check_cts_before_sending: false,
    };

    /// Returns whether the arithmetic of the baud rate accepts this configuration, as
    /// `Uart16550::init` requires: the frequency and the baud rate are not zero, and the prescaler
    /// division factor is `None` or at most 15.
    ///
    /// `init` may still refuse the baud rate, if its divisor is not a whole number or does not fit
    /// into the divisor latch.
    ///
    /// # Examples
    ///
    /// ```
    /// # use uart_16550::native::{*, spec::*};
    /// # let config = Config::DEFAULT;
    /// assert!(config.is_computable());
    /// ```
    ///
    /// # Proved
    ///
    /// - It returns `true` exactly if [`IsComputable`](crate::proved::config#IsComputable) `self.now`: frequency and baud rate are not zero, and the prescaler division factor is absent or at most 15.
    ///
    /// <details><summary>The clauses</summary>
    ///
    /// [How to read them](crate::proved):
    ///
    /// ```text
    /// ensures { IsTrue result ↔ IsComputable self.now }
    /// ```
    ///
    /// </details>
    #[must_use]
    pub fn is_computable(&self) -> bool {
        self.frequency != 0
            && self.baud_rate.to_integer() != 0
            && self
                .prescaler_division_factor
                .is_none_or(|factor| factor <= 15)
    }

    /// Returns the configuration for the divisor whose rate is nearest to the configured one, if it
    /// is near enough. Use it for a clock that gives no exact divisor, since `init` and `set_frame`
    /// round nothing.
    ///
    /// In the result only `frequency` differs: it is the one, in hertz, at which the nearest
    /// divisor gives the configured baud rate exactly. So `init` accepts the result, and writes
    /// this divisor. If two divisors are equally near, it is the larger one.
    ///
    /// The rate on the line differs from the configured one by at most `per_mille` thousandths of
    /// the configured one: 20 are two per cent, 0 takes an exact divisor alone. A receiver looks at
    /// the last of ten bits nine and a half bit times after the start of the character. So the two
    /// sides together may be some 45 thousandths apart, and 20 for each side is a usual choice.
    ///
    /// # Errors
    ///
    /// - `OutOfRange`, with the nearest divisor, if it is above 65,535, or its frequency needs more
    ///   than 32 bits.
    /// - `TooFar`, with the nearest divisor, if it is in range, and the rate differs by more. Then
    ///   the rate of each divisor does.
    ///
    /// # Panics
    ///
    /// If the configuration is not computable (`Config::is_computable`).
    ///
    /// # Examples
    ///
    /// ```
    /// # include!(concat!(env!("CARGO_MANIFEST_DIR"), "/examples.rs"));
    /// # fn main() {}
    /// # fn example(uart: &mut Uart16550<Device>) -> Outcome<()> {
    /// let config = Config {
    ///     frequency: 24_000_000,
    ///     baud_rate: BaudRate::Baud115200,
    ///     ..Config::DEFAULT
    /// };
    /// uart.init(config.nearest(20)?)?;
    /// # Ok(()) }
    /// ```
    ///
    /// # Proved
    ///
    /// If [`IsComputable`](crate::proved::config#IsComputable) `self` (frequency and baud rate are not zero, and the prescaler division factor is absent or at most 15):
    ///
    /// - *answer*: [`IsNearestAnswer`](crate::proved::config#IsNearestAnswer) `self per_mille result`: the configuration with the frequency at which the nearest divisor is exact, so that it is the one that the exact arithmetic computes, and the rate is near enough; or the nearest divisor, which does not fit, or fits and is too far off, as each other divisor then is.
    /// - *computable*: if it returns `Ok`, for its value [`IsComputable`](crate::proved::config#IsComputable).
    ///
    /// <details><summary>The clauses</summary>
    ///
    /// [How to read them](crate::proved):
    ///
    /// ```text
    /// requires { IsComputable self }
    /// ensures answer { IsNearestAnswer self per_mille result }
    /// ensures computable { IfOk result IsComputable }
    /// ```
    ///
    /// </details>
    pub fn nearest(self, per_mille: u32) -> Result<Config, NearestDivisorError> {
        assert!(self.is_computable(), "a configuration that is not computable");
        let frequency = self.frequency as u64;
        let ticks = ticks_of(self.baud_rate.to_integer(), self.prescaler_division_factor);
        let divisor = nearest_factor(frequency, ticks);
        let exact = ticks * divisor;
        if divisor > u16::MAX as u64 || exact > u32::MAX as u64 {
            return Err(NearestDivisorError::OutOfRange { divisor });
        }
        if 1000 * exact.abs_diff(frequency) > per_mille as u64 * exact {
            return Err(NearestDivisorError::TooFar { divisor });
        }
        Ok(Config {
            frequency: exact as u32,
            ..self
        })
    }
}

impl Default for Config {
    fn default() -> Config {
        Config::DEFAULT
    }
}
