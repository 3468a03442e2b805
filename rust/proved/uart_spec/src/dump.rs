//! The values of the registers, read one after another.

use crate::baud::calc_baud_rate;
use crate::config::{BaudRate, Config};
use crate::errors::NonIntegerBaudRateError;
use crate::registers::{DLL, DLM, IER, ISR, LCR, LSR, MCR, MSR, SPR};

/// The values of the registers of a device, read one after another by
/// `Uart16550::config_register_dump`.
///
/// In the default value all bits are clear.
#[derive(Clone, Debug, Default, PartialEq, Eq, PartialOrd, Ord, Hash)]
pub struct ConfigRegisterDump {
    /// The interrupt enable register.
    pub ier: IER,
    /// The interrupt status register, also called IIR.
    pub isr: ISR,
    /// The line control register.
    pub lcr: LCR,
    /// The modem control register.
    pub mcr: MCR,
    /// The line status register, joined with the bits that the driver has saved.
    pub lsr: LSR,
    /// The modem status register, joined with the bits that the driver has saved.
    pub msr: MSR,
    /// The scratch register.
    pub spr: SPR,
    /// The low byte of the divisor latch.
    pub dll: DLL,
    /// The high byte of the divisor latch.
    pub dlm: DLM,
}

impl ConfigRegisterDump {
    /// Returns the divisor in the divisor latch, 0 to 65535.
    ///
    /// # Examples
    ///
    /// ```
    /// # include!(concat!(env!("CARGO_MANIFEST_DIR"), "/examples.rs"));
    /// # fn main() {}
    /// # fn example(shown: &ConfigRegisterDump) -> Outcome<()> {
    /// assert_eq!(shown.divisor(), 12);
    /// # Ok(()) }
    /// ```
    ///
    /// # Proved
    ///
    /// - Returns [`divisor_of`](crate::proved::dump#divisor_of) `self.now`: the divisor that a dump shows.
    ///
    /// <details><summary>The clauses</summary>
    ///
    /// [How to read them](crate::proved):
    ///
    /// ```text
    /// ensures { result ≡ divisor_of self.now }
    /// ```
    ///
    /// </details>
    #[must_use]
    pub const fn divisor(&self) -> u16 {
        256 * self.dlm as u16 + self.dll as u16
    }

    /// Returns the baud rate that the divisor gives at the configuration's frequency and prescaler
    /// division factor: the case with a name if there is one, else `Custom`.
    ///
    /// The configuration's own baud rate does not matter. Its frequency must not be 0, and its
    /// prescaler division factor must be `None` or at most 15.
    ///
    /// # Errors
    ///
    /// `NonIntegerBaudRateError` if the divisor is 0, or if the baud rate is not a whole number.
    ///
    /// # Panics
    ///
    /// If the divisor is not 0, and the frequency is 0 or the prescaler division factor is above 15.
    ///
    /// # Examples
    ///
    /// ```
    /// # use uart_16550::native::*;
    /// let dump = ConfigRegisterDump {
    ///     dll: 12,
    ///     ..ConfigRegisterDump::default()
    /// };
    /// assert_eq!(dump.baud_rate(&Config::DEFAULT), Ok(BaudRate::Baud9600));
    /// ```
    ///
    /// # Proved
    ///
    /// If `0 < config.now.frequency`, and `prescaler config.now.prescaler_division_factor ≤ 15` (the prescaler division factor, 0 if there is none):
    ///
    /// - [`IsDumpRate`](crate::proved::dump#IsDumpRate) `config.now self.now result`: the baud rate that a dump's divisor gives, with its name if it has one; or an error if it is not a whole number.
    ///
    /// <details><summary>The clauses</summary>
    ///
    /// [How to read them](crate::proved):
    ///
    /// ```text
    /// requires frequency { 0 < config.now.frequency }
    /// requires prescaler { prescaler config.now.prescaler_division_factor ≤ 15 }
    /// ensures { IsDumpRate config.now self.now result }
    /// ```
    ///
    /// </details>
    pub fn baud_rate(&self, config: &Config) -> Result<BaudRate, NonIntegerBaudRateError> {
        let frequency = config.frequency;
        let prescaler_division_factor = config.prescaler_division_factor;
        let divisor = self.divisor() as u32;
        if divisor == 0 {
            return Err(NonIntegerBaudRateError {
                frequency,
                divisor,
                prescaler_division_factor,
            });
        }
        match calc_baud_rate(frequency, divisor, prescaler_division_factor) {
            Ok(rate) => Ok(BaudRate::from_integer(rate)),
            Err(error) => Err(error),
        }
    }
}
