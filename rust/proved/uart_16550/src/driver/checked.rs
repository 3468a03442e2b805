//! Calls that return an error for a configuration at which the call they are a form of panics.
//!
//! In Rattle a caller is proved to give a computable configuration. In Rust nobody does that, so
//! the call tests it and panics; these calls test it before, and require nothing.

use super::Uart16550;
use crate::backend::Backend;
use uart_spec::{
    Config, FrameError, InitError, InvalidDivisorError, Setup, accepted, checked_divisor,
};

impl<B: Backend> Uart16550<B> {
    /// Does the same as `init`, but returns `InvalidBaudRate` if that would panic: if the
    /// configuration is not computable.
    ///
    /// # Errors
    ///
    /// Those of `init`. The cause of a refused baud rate is that of `checked_divisor`. No access
    /// was made then, and nothing changed.
    ///
    /// # Examples
    ///
    /// ```
    /// # include!(concat!(env!("CARGO_MANIFEST_DIR"), "/examples.rs"));
    /// # fn main() {}
    /// # fn example(uart: &mut Uart16550<Device>) -> Outcome<()> {
    /// let clock = 0;
    /// let refused = uart.checked_init(Config {
    ///     frequency: clock,
    ///     ..Config::DEFAULT
    /// });
    /// assert!(matches!(refused, Err(InitError::InvalidBaudRate(_))));
    /// # Ok(()) }
    /// ```
    ///
    /// # Proved
    ///
    /// - [Does as](crate::proved::driver#Did) [`IfComputable`](crate::proved::checked#IfComputable): a call does this for a configuration that is computable. For another one it does nothing, and its result tells why there is no divisor.
    ///   - [`Inits`](crate::proved::init#Inits): the configuration is stored, the scratch register tested, divisor, frame and FIFO are set, the receiver is drained, and MCR is written; after a wait for an empty transmitter the statuses are read, and IER is written. Or nothing is done, if there is no divisor; or all up to the test that fails, or to the wait that reaches the limit.
    ///
    /// <details><summary>The clauses</summary>
    ///
    /// [How to read them](uart_spec::proved):
    ///
    /// ```text
    /// ensures { Did B.step (IfComputable config (λ cause. Err (init_error.InvalidBaudRate cause)) result (Inits config result)) self.old self.new }
    /// ```
    ///
    /// </details>
    pub fn checked_init(&mut self, config: Config) -> Result<(), InitError> {
        // The rest of `init` takes the divisor, so that the configuration is not tested twice.
        let baud_rate = config.baud_rate.to_integer();
        let prescaler = config.prescaler_division_factor;
        match checked_divisor(config.frequency, baud_rate, prescaler) {
            Ok(divisor) => self.set_up(config, divisor),
            Err(cause) => Err(InitError::InvalidBaudRate(cause)),
        }
    }

    /// Does the same as `init_with`, but returns `InvalidBaudRate` if that would panic: if the
    /// configuration is not computable.
    ///
    /// # Errors
    ///
    /// Those of `init_with`. The cause of a refused baud rate is that of `checked_divisor`. No
    /// access was made then, and nothing changed.
    ///
    /// # Examples
    ///
    /// ```
    /// # include!(concat!(env!("CARGO_MANIFEST_DIR"), "/examples.rs"));
    /// # fn main() {}
    /// # fn example(uart: &mut Uart16550<Device>) -> Outcome<()> {
    /// // A clock of 0 is not computable.
    /// let config = Config {
    ///     frequency: 0,
    ///     ..Config::DEFAULT
    /// };
    /// let refused = uart.checked_init_with(config, &Setup::DEFAULT);
    /// assert!(matches!(refused, Err(InitError::InvalidBaudRate(_))));
    /// # Ok(()) }
    /// ```
    ///
    /// # Proved
    ///
    /// - [Does as](crate::proved::driver#Did) [`IfComputable`](crate::proved::checked#IfComputable): a call does this for a configuration that is computable. For another one it does nothing, and its result tells why there is no divisor.
    ///   - [`InitsWith`](crate::proved::setup#InitsWith): as `init`, with the test, the wait and the outputs of this setup. The configuration is stored; the test and the wait that is to be first are made; divisor, frame and FIFO are set, the receiver is drained, and MCR is written; the wait that is to be last is made; the statuses are read, and IER is written. Or nothing is done, if there is no divisor; or all up to the test that fails, or to the wait that reaches the limit.
    ///
    /// <details><summary>The clauses</summary>
    ///
    /// [How to read them](uart_spec::proved):
    ///
    /// ```text
    /// ensures { Did B.step (IfComputable config (λ cause. Err (init_error.InvalidBaudRate cause)) result (InitsWith setup.now config result)) self.old self.new }
    /// ```
    ///
    /// </details>
    pub fn checked_init_with(&mut self, config: Config, setup: &Setup) -> Result<(), InitError> {
        let baud_rate = config.baud_rate.to_integer();
        let prescaler = config.prescaler_division_factor;
        match checked_divisor(config.frequency, baud_rate, prescaler) {
            Ok(divisor) => self.set_up_with(config, setup, divisor),
            Err(cause) => Err(InitError::InvalidBaudRate(cause)),
        }
    }

    /// Does the same as `set_frame`, but also returns an error if that would panic: if the
    /// configuration is not computable.
    ///
    /// # Errors
    ///
    /// Those of `checked_divisor`. No access was made then, and nothing changed.
    ///
    /// # Examples
    ///
    /// ```
    /// # include!(concat!(env!("CARGO_MANIFEST_DIR"), "/examples.rs"));
    /// # fn main() {}
    /// # fn example(uart: &mut Uart16550<Device>) -> Outcome<()> {
    /// // A clock of 0 is not computable.
    /// let config = Config {
    ///     frequency: 0,
    ///     ..Config::DEFAULT
    /// };
    /// assert!(uart.checked_set_frame(&config).is_err());
    /// # Ok(()) }
    /// ```
    ///
    /// # Proved
    ///
    /// - [Does as](crate::proved::driver#Did) [`IfComputable`](crate::proved::checked#IfComputable) `config.now (λ cause. Err cause) result (SetsFrame config.now result)`: a call does this for a configuration that is computable. For another one it does nothing, and its result tells why there is no divisor.
    ///   - [`SetsFrame`](crate::proved::frame#SetsFrame): clock, baud rate and frame are stored, and written to the divisor latch and to LCR; or there is no divisor, and nothing is done.
    ///
    /// <details><summary>The clauses</summary>
    ///
    /// [How to read them](uart_spec::proved):
    ///
    /// ```text
    /// ensures { Did B.step (IfComputable config.now (λ cause. Err cause) result (SetsFrame config.now result)) self.old self.new }
    /// ```
    ///
    /// </details>
    pub fn checked_set_frame(&mut self, config: &Config) -> Result<(), InvalidDivisorError> {
        let baud_rate = config.baud_rate.to_integer();
        match accepted(
            config.frequency,
            baud_rate,
            config.prescaler_division_factor,
        ) {
            Ok(_) => self.set_frame(config),
            Err(cause) => Err(cause),
        }
    }

    /// Does the same as `set_frame_when_idle`, but also returns `InvalidBaudRate` if that would
    /// panic: if the configuration is not computable.
    ///
    /// # Errors
    ///
    /// Those of `set_frame_when_idle`. The cause of a refused baud rate is that of
    /// `checked_divisor`. No access was made then, and nothing changed.
    ///
    /// # Examples
    ///
    /// ```
    /// # include!(concat!(env!("CARGO_MANIFEST_DIR"), "/examples.rs"));
    /// # fn main() {}
    /// # fn example(uart: &mut Uart16550<Device>) -> Outcome<()> {
    /// // A clock of 0 is not computable.
    /// let config = Config {
    ///     frequency: 0,
    ///     ..Config::DEFAULT
    /// };
    /// let refused = uart.checked_set_frame_when_idle(&config);
    /// assert!(matches!(refused, Err(FrameError::InvalidBaudRate(_))));
    /// # Ok(()) }
    /// ```
    ///
    /// # Proved
    ///
    /// - [Does as](crate::proved::driver#Did) [`IfComputable`](crate::proved::checked#IfComputable): a call does this for a configuration that is computable. For another one it does nothing, and its result tells why there is no divisor.
    ///   - [`SetsFrameWhenIdle`](crate::proved::setup#SetsFrameWhenIdle): after a wait for an empty transmitter all is as in `set_frame`; or there is no divisor, and nothing is done; or the wait reaches the limit, and nothing is written.
    ///
    /// <details><summary>The clauses</summary>
    ///
    /// [How to read them](uart_spec::proved):
    ///
    /// ```text
    /// ensures { Did B.step (IfComputable config.now (λ cause. Err (frame_error.InvalidBaudRate cause)) result (SetsFrameWhenIdle config.now result)) self.old self.new }
    /// ```
    ///
    /// </details>
    pub fn checked_set_frame_when_idle(&mut self, config: &Config) -> Result<(), FrameError> {
        let baud_rate = config.baud_rate.to_integer();
        match accepted(
            config.frequency,
            baud_rate,
            config.prescaler_division_factor,
        ) {
            Ok(_) => self.set_frame_when_idle(config),
            Err(cause) => Err(FrameError::InvalidBaudRate(cause)),
        }
    }
}
