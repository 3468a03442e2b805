//! The values of registers as the original has them.

use uart_spec::registers::{DLL, DLM, IER, ISR, LCR, LSR, MCR, MSR, SPR};
use uart_spec::{BaudRate, Config, checked_baud_rate};

/// The values of the registers of a device, read one after another by
/// `Uart16550::config_register_dump`.
#[derive(Clone, Debug, Default, PartialEq, Eq, PartialOrd, Ord, Hash)]
pub struct ConfigRegisterDump {
    /// The interrupt enable register.
    pub ier: IER,
    /// The interrupt status register.
    pub isr: ISR,
    /// The line control register.
    pub lcr: LCR,
    /// The modem control register.
    pub mcr: MCR,
    /// The line status register.
    pub lsr: LSR,
    /// The modem status register.
    pub msr: MSR,
    /// The scratch register.
    pub spr: SPR,
    /// The low byte of the divisor latch.
    pub dll: DLL,
    /// The high byte of the divisor latch.
    pub dlm: DLM,
}

impl From<uart_spec::ConfigRegisterDump> for ConfigRegisterDump {
    #[inline]
    fn from(dump: uart_spec::ConfigRegisterDump) -> Self {
        ConfigRegisterDump {
            ier: dump.ier,
            isr: dump.isr,
            lcr: dump.lcr,
            mcr: dump.mcr,
            lsr: dump.lsr,
            msr: dump.msr,
            spr: dump.spr,
            dll: dump.dll,
            dlm: dump.dlm,
        }
    }
}

impl ConfigRegisterDump {
    /// Returns the divisor in the divisor latch.
    ///
    /// # Proved
    ///
    /// - Returns [`divisor_of`](uart_spec::proved::dump#divisor_of) `(driver_dump self.now)`: the divisor that a dump shows.
    ///   - [`driver_dump`](crate::proved::original#driver_dump): a dump as the driver has it: the same registers.
    ///
    /// <details><summary>The clauses</summary>
    ///
    /// [How to read them](uart_spec::proved):
    ///
    /// ```text
    /// ensures { result ≡ divisor_of (driver_dump self.now) }
    /// ```
    ///
    /// </details>
    #[must_use]
    pub const fn divisor(&self) -> u16 {
        256 * self.dlm as u16 + self.dll as u16
    }

    /// Returns the baud rate that the divisor gives at the frequency and the prescaler division
    /// factor of the configuration. It has to be a whole number.
    ///
    /// # Panics
    ///
    /// If that is not a whole number, and if it cannot be computed: if the divisor or the frequency is 0, or the factor
    /// above 15.
    ///
    /// # Proved
    ///
    /// If [`HasBaudRate`](crate::proved::original#HasBaudRate) `config.now (driver_dump self.now)` (the divisor of a dump gives a whole baud rate) (a dump as the driver has it: the same registers):
    ///
    /// - [`IsCheckedDumpRate`](uart_spec::proved::checked#IsCheckedDumpRate) `config.now (driver_dump self.now) (Ok result)`: the baud rate of a dump, as `IsCheckedRate` says it of the divisor there, with its name if it has one.
    ///
    /// <details><summary>The clauses</summary>
    ///
    /// [How to read them](uart_spec::proved):
    ///
    /// ```text
    /// requires { HasBaudRate config.now (driver_dump self.now) }
    /// ensures { IsCheckedDumpRate config.now (driver_dump self.now) (Ok result) }
    /// ```
    ///
    /// </details>
    #[must_use]
    pub fn baud_rate(&self, config: &Config) -> BaudRate {
        assert!(
            checked_baud_rate(
                config.frequency,
                u32::from(self.divisor()),
                config.prescaler_division_factor
            )
            .is_ok(),
            "the baud rate is not a whole number"
        );
        let divisor = self.divisor() as u32;
        match checked_baud_rate(config.frequency, divisor, config.prescaler_division_factor) {
            Ok(rate) => BaudRate::from_integer(rate),
            Err(_) => unreachable!(),
        }
    }
}
