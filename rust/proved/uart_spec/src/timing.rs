//! How long a character takes on the line, and how late a handler may be.
//!
//! Times are in clocks of the chip's input, of which a second has `Config::frequency`. So nothing
//! is rounded.

use crate::checked::checked_divisor;
use crate::config::Config;
use crate::errors::InvalidDivisorError;
use crate::registers::{FifoTriggerLevel, Parity, WordLength};
use crate::setup::FifoSize;

const NANOSECONDS_PER_SECOND: u32 = 1_000_000_000;

impl FifoTriggerLevel {
    /// Returns how many characters wait in a FIFO of this size when the level is reached: the
    /// number of its name in one of 16, and other numbers in larger ones.
    ///
    /// They are those of a 16550, a 16650, a 16750 and a 16950, and those of DesignWare for 256:
    /// one, a quarter, a half, and two less than full.
    ///
    /// # Examples
    ///
    /// ```
    /// # use uart_16550::native::{*, spec::*};
    /// # use uart_16550::native::spec::registers::FifoTriggerLevel;
    /// assert_eq!(FifoTriggerLevel::Fourteen.characters(FifoSize::SixtyFour), 56);
    /// ```
    ///
    /// # Proved
    ///
    /// - *number*: returns [`characters_at`](crate::proved::timing#characters_at) `size self`: how many characters wait in a FIFO of this size when its trigger level is reached: the levels have the names that they have for 16; those of larger FIFOs are as the chips have them.
    /// - *some*: `1 ≤ result`.
    /// - *fits*: `result ≤ characters size`.
    ///   - [`characters`](crate::proved::fifo_size#characters): the number of characters of a FIFO of this size.
    ///
    /// <details><summary>The clauses</summary>
    ///
    /// [How to read them](crate::proved):
    ///
    /// ```text
    /// ensures number { result ≡ characters_at size self }
    /// ensures some { 1 ≤ result }
    /// ensures fits { result ≤ characters size }
    /// ```
    ///
    /// </details>
    #[must_use]
    pub fn characters(self, size: FifoSize) -> usize {
        let levels = match size {
            FifoSize::Sixteen => [1, 4, 8, 14],
            FifoSize::ThirtyTwo => [8, 16, 24, 28],
            FifoSize::SixtyFour => [1, 16, 32, 56],
            FifoSize::OneHundredTwentyEight => [16, 32, 112, 120],
            FifoSize::TwoHundredFiftySix => [1, 64, 128, 254],
        };
        match self {
            FifoTriggerLevel::One => levels[0],
            FifoTriggerLevel::Four => levels[1],
            FifoTriggerLevel::Eight => levels[2],
            FifoTriggerLevel::Fourteen => levels[3],
        }
    }
}

// Returns how many halves of bits a character has, with its start bit and its stop bits.
fn halves(config: &Config) -> u64 {
    let parity = match config.parity {
        Parity::Disabled => 0,
        _ => 2,
    };
    let stop = match config.data_bits {
        _ if !config.extra_stop_bits => 2,
        WordLength::FiveBits => 3,
        _ => 4,
    };
    2 + 2 * config.data_bits.to_integer() as u64 + parity + stop
}

// Returns how many characters more the receiver takes, once as many wait as the trigger level.
fn spare(config: &Config, size: FifoSize) -> u32 {
    match config.fifo_trigger_level {
        None => 0,
        Some(level) => (size.characters() - level.characters(size)) as u32,
    }
}

// Returns `(value * times + more) / per`, if there is one and it fits. No step of it overflows:
// what `value` has above a multiple of `per` is below it.
fn scaled(value: u64, times: u32, per: u32, more: u32) -> Option<u64> {
    if per == 0 {
        return None;
    }
    let whole = (value / per as u64).checked_mul(times as u64)?;
    let rest = (value % per as u64) * times as u64 + more as u64;
    whole.checked_add(rest / per as u64)
}

impl Config {
    /// Returns how many clocks of the chip's input a character takes on the line: its start bit,
    /// data bits, parity bit and stop bits, with one and a half stop bits exact.
    ///
    /// # Errors
    ///
    /// Those of `checked_divisor`, if there is no divisor for the baud rate.
    ///
    /// # Examples
    ///
    /// ```
    /// # use uart_16550::native::{*, spec::*};
    /// // 9,600 baud: ten bits of 12 times 16 clocks.
    /// assert_eq!(Config::DEFAULT.character_clocks(), Ok(1_920));
    /// ```
    ///
    /// # Proved
    ///
    /// - *answer*: [`IsCharacterAnswer`](crate::proved::timing#IsCharacterAnswer) `self.now result`: the time of a character, if there is a divisor for the baud rate; otherwise why there is none.
    /// - *some*: if it returns `Ok clocks`: `1 ≤ clocks`.
    /// - *least*: if it returns `Ok clocks`: `112 ≤ clocks`.
    /// - *few*: if it returns `Ok clocks`: `clocks < 2 ^ 32`.
    ///
    /// <details><summary>The clauses</summary>
    ///
    /// [How to read them](crate::proved):
    ///
    /// ```text
    /// ensures answer { IsCharacterAnswer self.now result }
    /// ensures some { IfOk result (λ clocks. 1 ≤ clocks) }
    /// ensures least { IfOk result (λ clocks. 112 ≤ clocks) }
    /// ensures few { IfOk result (λ clocks. clocks < 2 ^ 32) }
    /// ```
    ///
    /// </details>
    pub fn character_clocks(&self) -> Result<u64, InvalidDivisorError> {
        let factor = self.prescaler_division_factor;
        let rate = self.baud_rate.to_integer();
        let divisor = checked_divisor(self.frequency, rate, factor)?;
        Ok(8 * (factor.unwrap_or(0) as u64 + 1) * divisor as u64 * halves(self))
    }

    /// Returns the most clocks of the chip's input that a handler may be late, so that no character
    /// is dropped without flow control, in a FIFO of this size.
    ///
    /// They pass from the moment at which as many characters wait as the trigger level, to the
    /// first read of DATA. One clock more, and a character that comes as soon as it can finds the
    /// receiver full. With the FIFOs off, and of a chip without FIFOs, it is one clock less than a
    /// character takes.
    ///
    /// # Errors
    ///
    /// Those of `checked_divisor`, if there is no divisor for the baud rate.
    ///
    /// # Examples
    ///
    /// ```
    /// # use uart_16550::native::{*, spec::*};
    /// # use uart_16550::native::spec::registers::FifoTriggerLevel;
    /// // Level 8 of 16, at 115,200 baud: nine characters of 160 clocks, or 781 microseconds.
    /// let config = Config {
    ///     baud_rate: BaudRate::Baud115200,
    ///     fifo_trigger_level: Some(FifoTriggerLevel::Eight),
    ///     ..Config::DEFAULT
    /// };
    /// assert_eq!(config.handler_clocks(FifoSize::Sixteen), Ok(1_439));
    /// ```
    ///
    /// # Proved
    ///
    /// - [`IsHandlerAnswer`](crate::proved::timing#IsHandlerAnswer) `self.now size result`: one clock less than the time in which the receiver fills up from there, and one more character comes.
    ///
    /// <details><summary>The clauses</summary>
    ///
    /// [How to read them](crate::proved):
    ///
    /// ```text
    /// ensures { IsHandlerAnswer self.now size result }
    /// ```
    ///
    /// </details>
    pub fn handler_clocks(&self, size: FifoSize) -> Result<u64, InvalidDivisorError> {
        let character = self.character_clocks()?;
        Ok((spare(self, size) as u64 + 1) * character - 1)
    }

    /// Returns the most clocks that may pass from the receiver's interrupt to the handler's read of
    /// ISR, so that no character is dropped without flow control; or `None` if nothing is left.
    ///
    /// An access takes at most `access_clocks`. At a line that several ports share those before
    /// this one are served first, for at most `before_clocks`: the result is then what is left for
    /// the first read of ISR of the whole handler. At a line of its own this is 0. If a line error
    /// is told first, the first byte is read four accesses after ISR. Nothing is left either if two
    /// accesses, as each byte needs, take longer than a character.
    ///
    /// A character takes as long as this configuration says. The other end must be no faster, also
    /// by its stop bits: an end that sends one takes less time than two, and this end sees no
    /// difference.
    ///
    /// The result counts no other accesses of a visit of the handler. If one takes a quarter of a
    /// character or more, a visit may meet each character that comes meanwhile as an interrupt of
    /// its own, and end by its limit and not with `Idle`. Then characters are lost in spite of the
    /// result, and at half a character even if the handler comes at once.
    ///
    /// # Errors
    ///
    /// Those of `checked_divisor`, if there is no divisor for the baud rate.
    ///
    /// # Examples
    ///
    /// ```
    /// # use uart_16550::native::{*, spec::*};
    /// # use uart_16550::native::spec::registers::FifoTriggerLevel;
    /// // Level 8 of 16, at 115,200 baud, with a microsecond for each access: 776 whole
    /// // microseconds.
    /// let config = Config {
    ///     baud_rate: BaudRate::Baud115200,
    ///     fifo_trigger_level: Some(FifoTriggerLevel::Eight),
    ///     ..Config::DEFAULT
    /// };
    /// assert_eq!(config.clocks_covering(1_000), Some(2));
    /// assert_eq!(config.handler_budget(FifoSize::Sixteen, 2, 0), Ok(Some(1_431)));
    /// assert_eq!(config.nanoseconds_within(1_431), Some(776_367));
    /// ```
    ///
    /// # Proved
    ///
    /// - [`IsHandlerBudget`](crate::proved::timing#IsHandlerBudget) `self.now size access_clocks before_clocks result`: how late it may begin where an access takes e clocks, and the others at its line are served first: an access reads ISR, and the first byte is read four accesses later if a line error is told before it. It is in time if something is left, and no character comes while another one is read, by two accesses.
    ///
    /// <details><summary>The clauses</summary>
    ///
    /// [How to read them](crate::proved):
    ///
    /// ```text
    /// ensures { IsHandlerBudget self.now size access_clocks before_clocks result }
    /// ```
    ///
    /// </details>
    pub fn handler_budget(
        &self,
        size: FifoSize,
        access_clocks: u64,
        before_clocks: u64,
    ) -> Result<Option<u64>, InvalidDivisorError> {
        let character = self.character_clocks()?;
        if access_clocks > character / 2 {
            return Ok(None);
        }
        let most = (spare(self, size) as u64 + 1) * character - 1;
        let taken = before_clocks.saturating_add(4 * access_clocks);
        Ok(most.checked_sub(taken))
    }

    /// Returns the most characters that can arrive within so many clocks.
    ///
    /// That is what a mark of flow control has to leave room for: what is under way on a cable with
    /// such a delay, or comes until a handler runs that is so late.
    ///
    /// # Errors
    ///
    /// Those of `checked_divisor`, if there is no divisor for the baud rate.
    ///
    /// # Examples
    ///
    /// ```
    /// # use uart_16550::native::{*, spec::*};
    /// // A character takes 1,920 clocks. One may end at once.
    /// assert_eq!(Config::DEFAULT.characters_in(0), Ok(1));
    /// assert_eq!(Config::DEFAULT.characters_in(1_919), Ok(1));
    /// assert_eq!(Config::DEFAULT.characters_in(1_920), Ok(2));
    /// ```
    ///
    /// # Proved
    ///
    /// - [`IsCharactersAnswer`](crate::proved::timing#IsCharactersAnswer) `self.now clocks result`: the most characters that end within so many clocks: one ends at once, and each other a character's time later.
    ///
    /// <details><summary>The clauses</summary>
    ///
    /// [How to read them](crate::proved):
    ///
    /// ```text
    /// ensures { IsCharactersAnswer self.now clocks result }
    /// ```
    ///
    /// </details>
    pub fn characters_in(&self, clocks: u64) -> Result<u64, InvalidDivisorError> {
        Ok(clocks / self.character_clocks()? + 1)
    }

    /// Returns the clocks after which a full transmitter has sent all that it holds: the FIFO, of
    /// this size, and the shift register.
    ///
    /// So long at most does a `flush` take, if the other end does not hold the chip off.
    ///
    /// # Errors
    ///
    /// Those of `checked_divisor`, if there is no divisor for the baud rate.
    ///
    /// # Examples
    ///
    /// ```
    /// # use uart_16550::native::{*, spec::*};
    /// assert_eq!(Config::DEFAULT.drain_clocks(FifoSize::Sixteen), Ok(17 * 1_920));
    /// ```
    ///
    /// # Proved
    ///
    /// - [`IsTimeOf`](crate::proved::timing#IsTimeOf) `self.now (characters size + 1) result`: the time of so many characters.
    ///   - [`characters`](crate::proved::fifo_size#characters): the number of characters of a FIFO of this size.
    ///
    /// <details><summary>The clauses</summary>
    ///
    /// [How to read them](crate::proved):
    ///
    /// ```text
    /// ensures { IsTimeOf self.now (characters size + 1) result }
    /// ```
    ///
    /// </details>
    pub fn drain_clocks(&self, size: FifoSize) -> Result<u64, InvalidDivisorError> {
        Ok((size.characters() as u64 + 1) * self.character_clocks()?)
    }

    /// Returns the clocks after which the chip's reception timeout interrupts, if fewer characters
    /// wait than the trigger level: the time of four characters, in which none came and none was
    /// read.
    ///
    /// # Errors
    ///
    /// Those of `checked_divisor`, if there is no divisor for the baud rate.
    ///
    /// # Examples
    ///
    /// ```
    /// # use uart_16550::native::{*, spec::*};
    /// assert_eq!(Config::DEFAULT.timeout_clocks(), Ok(4 * 1_920));
    /// ```
    ///
    /// # Proved
    ///
    /// - [`IsTimeOf`](crate::proved::timing#IsTimeOf) `self.now 4 result`: the time of so many characters.
    ///
    /// <details><summary>The clauses</summary>
    ///
    /// [How to read them](crate::proved):
    ///
    /// ```text
    /// ensures { IsTimeOf self.now 4 result }
    /// ```
    ///
    /// </details>
    pub fn timeout_clocks(&self) -> Result<u64, InvalidDivisorError> {
        Ok(4 * self.character_clocks()?)
    }

    /// Returns the spin limit with which no wait for a working transmitter gives up, of a FIFO of
    /// this size: if each look takes at least so many clocks, and the other end does not hold the
    /// chip off. `None` if a look takes none.
    ///
    /// A wait gives up after at most as many looks in a row as the limit, so after the limit times
    /// the clocks of a look.
    ///
    /// # Errors
    ///
    /// Those of `checked_divisor`, if there is no divisor for the baud rate.
    ///
    /// # Examples
    ///
    /// ```
    /// # use uart_16550::native::{*, spec::*};
    /// // A character takes 960 looks of two clocks, and 17 of them may be in the transmitter.
    /// let limit = Config::DEFAULT.spin_limit_for(FifoSize::Sixteen, 2);
    /// assert_eq!(limit, Ok(Some(17 * 961)));
    /// ```
    ///
    /// # Proved
    ///
    /// - [`IsSpinLimit`](crate::proved::timing#IsSpinLimit) `self.now size access_clocks result`: The limit with which no wait for a full transmitter gives up, of a FIFO and the shift register, if each look takes at least e clocks. A character is so many looks, of which the last may begin before it ends; and one look more finds that the next character has begun.
    ///
    /// <details><summary>The clauses</summary>
    ///
    /// [How to read them](crate::proved):
    ///
    /// ```text
    /// ensures { IsSpinLimit self.now size access_clocks result }
    /// ```
    ///
    /// </details>
    pub fn spin_limit_for(
        &self,
        size: FifoSize,
        access_clocks: u64,
    ) -> Result<Option<u64>, InvalidDivisorError> {
        let character = self.character_clocks()?;
        if access_clocks == 0 {
            return Ok(None);
        }
        let looks = (character - 1) / access_clocks + 1;
        Ok(Some((size.characters() as u64 + 1) * (looks + 1)))
    }

    /// Returns the whole nanoseconds within so many clocks: rounded down, as a time that may be
    /// used up. `None` if they do not fit, or the frequency is 0.
    ///
    /// # Examples
    ///
    /// ```
    /// # use uart_16550::native::{*, spec::*};
    /// // A character at 115,200 baud.
    /// assert_eq!(Config::DEFAULT.nanoseconds_within(160), Some(86_805));
    /// ```
    ///
    /// # Proved
    ///
    /// - `IsWithin clocks 1_000_000_000 self.now.frequency result`.
    ///   - [`IsWithin`](crate::proved::timing#IsWithin): the whole part of value \* times / per, if there is one that fits into 64 bits.
    ///
    /// <details><summary>The clauses</summary>
    ///
    /// [How to read them](crate::proved):
    ///
    /// ```text
    /// ensures { IsWithin clocks 1_000_000_000 self.now.frequency result }
    /// ```
    ///
    /// </details>
    #[must_use]
    pub fn nanoseconds_within(&self, clocks: u64) -> Option<u64> {
        scaled(clocks, NANOSECONDS_PER_SECOND, self.frequency, 0)
    }

    /// Returns the fewest whole nanoseconds that cover so many clocks: rounded up, as a time to
    /// wait. `None` if they do not fit, or the frequency is 0.
    ///
    /// # Examples
    ///
    /// ```
    /// # use uart_16550::native::{*, spec::*};
    /// assert_eq!(Config::DEFAULT.nanoseconds_covering(160), Some(86_806));
    /// ```
    ///
    /// # Proved
    ///
    /// - `IsCovering clocks 1_000_000_000 self.now.frequency result`.
    ///   - [`IsCovering`](crate::proved::timing#IsCovering): the same rounded up.
    ///
    /// <details><summary>The clauses</summary>
    ///
    /// [How to read them](crate::proved):
    ///
    /// ```text
    /// ensures { IsCovering clocks 1_000_000_000 self.now.frequency result }
    /// ```
    ///
    /// </details>
    #[must_use]
    pub fn nanoseconds_covering(&self, clocks: u64) -> Option<u64> {
        let more = self.frequency.saturating_sub(1);
        scaled(clocks, NANOSECONDS_PER_SECOND, self.frequency, more)
    }

    /// Returns the whole clocks within so many nanoseconds: rounded down, as the least that a look
    /// takes. `None` if they do not fit.
    ///
    /// # Examples
    ///
    /// ```
    /// # use uart_16550::native::{*, spec::*};
    /// assert_eq!(Config::DEFAULT.clocks_within(1_000), Some(1));
    /// ```
    ///
    /// # Proved
    ///
    /// - `IsWithin nanoseconds self.now.frequency 1_000_000_000 result`.
    ///   - [`IsWithin`](crate::proved::timing#IsWithin): the whole part of value \* times / per, if there is one that fits into 64 bits.
    ///
    /// <details><summary>The clauses</summary>
    ///
    /// [How to read them](crate::proved):
    ///
    /// ```text
    /// ensures { IsWithin nanoseconds self.now.frequency 1_000_000_000 result }
    /// ```
    ///
    /// </details>
    #[must_use]
    pub fn clocks_within(&self, nanoseconds: u64) -> Option<u64> {
        scaled(nanoseconds, self.frequency, NANOSECONDS_PER_SECOND, 0)
    }

    /// Returns the fewest clocks that cover so many nanoseconds: rounded up, as the most that an
    /// access takes, or a handler is late. `None` if they do not fit.
    ///
    /// # Examples
    ///
    /// ```
    /// # use uart_16550::native::{*, spec::*};
    /// assert_eq!(Config::DEFAULT.clocks_covering(1_000), Some(2));
    /// ```
    ///
    /// # Proved
    ///
    /// - `IsCovering nanoseconds self.now.frequency 1_000_000_000 result`.
    ///   - [`IsCovering`](crate::proved::timing#IsCovering): the same rounded up.
    ///
    /// <details><summary>The clauses</summary>
    ///
    /// [How to read them](crate::proved):
    ///
    /// ```text
    /// ensures { IsCovering nanoseconds self.now.frequency 1_000_000_000 result }
    /// ```
    ///
    /// </details>
    #[must_use]
    pub fn clocks_covering(&self, nanoseconds: u64) -> Option<u64> {
        scaled(
            nanoseconds,
            self.frequency,
            NANOSECONDS_PER_SECOND,
            NANOSECONDS_PER_SECOND - 1,
        )
    }
}
