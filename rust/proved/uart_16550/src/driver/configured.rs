//! Whether the chip shows what was written to it.

use super::Uart16550;
use super::init::frame_of;
use crate::backend::Backend;
use bitflags::Flags;
use uart_spec::registers::{IER, LCR, MCR, offsets};
use uart_spec::{ConfigurationError, calc_divisor};

impl<B: Backend> Uart16550<B> {
    // Returns the divisor of the configuration, if it has one.
    fn configured_divisor(&self) -> Option<u16> {
        if !self.config.is_computable() {
            return None;
        }
        let baud_rate = self.config.baud_rate.to_integer();
        let prescaler = self.config.prescaler_division_factor;
        match calc_divisor(self.config.frequency, baud_rate, prescaler) {
            Ok(divisor) => Some(divisor),
            Err(_cause) => None,
        }
    }

    // Checks the frame. A break is no part of it: `set_break` does not store one.
    fn check_frame(&mut self, expected: LCR) -> Result<(), ConfigurationError> {
        let shown = self.lcr();
        if shown.difference(LCR::SET_BREAK) != expected {
            return Err(ConfigurationError::LineControl { expected, shown });
        }
        Ok(())
    }

    // Checks the outputs to the modem.
    fn check_outputs(&mut self, expected: MCR) -> Result<(), ConfigurationError> {
        let shown = self.mcr();
        if shown != expected {
            return Err(ConfigurationError::ModemControl { expected, shown });
        }
        Ok(())
    }

    // Checks the interrupts that are enabled.
    fn check_interrupts(&mut self, expected: IER) -> Result<(), ConfigurationError> {
        let shown = self.ier();
        if shown != expected {
            return Err(ConfigurationError::Interrupts { expected, shown });
        }
        Ok(())
    }

    // Writes LCR, and checks that the chip took it.
    fn keep_line(&mut self, expected: LCR) -> Result<(), ConfigurationError> {
        self.write_register(offsets::LCR, expected.bits());
        let shown = self.lcr();
        if shown != expected {
            return Err(ConfigurationError::LineControl { expected, shown });
        }
        Ok(())
    }

    // Checks the divisor latch, and leaves it closed.
    fn check_divisor(&mut self, expected: u16) -> Result<(), ConfigurationError> {
        let lcr = self.lcr();
        // If DLAB was not taken, offset 0 is still the receiver, and a read takes a byte from it.
        if let Err(ignored) = self.keep_line(lcr.union(LCR::DLAB)) {
            self.write_register(offsets::LCR, lcr.bits());
            return Err(ignored);
        }
        let dll = self.read_register(offsets::DLL);
        let dlm = self.read_register(offsets::DLM);
        // While DLAB is still set, neither data nor IER can be reached, so that is told before a
        // wrong divisor.
        self.keep_line(lcr)?;
        let shown = 256 * dlm as u16 + dll as u16;
        if shown != expected {
            return Err(ConfigurationError::Divisor { expected, shown });
        }
        Ok(())
    }

    // Checks whether the FIFOs are on.
    fn check_fifos(&mut self, interrupts: IER) -> Result<(), ConfigurationError> {
        let expected = self.fifo_enabled;
        // With no interrupt enabled ISR shows none, so its read acknowledges no THR_EMPTY. If that
        // is enabled and the transmitter is empty, the last write raises it again.
        self.write_register(offsets::IER, 0);
        let shown = self.isr().fifo_enabled();
        self.write_register(offsets::IER, interrupts.bits());
        if shown != expected {
            return Err(ConfigurationError::Fifos { expected, shown });
        }
        Ok(())
    }

    // Checks the registers in turn.
    fn check_registers(
        &mut self,
        frame: LCR,
        outputs: MCR,
        interrupts: IER,
        divisor: u16,
    ) -> Result<(), ConfigurationError> {
        // LCR comes first, since its DLAB says what other offsets are. What is only read comes
        // before what has to be written for it.
        self.check_frame(frame)?;
        self.check_outputs(outputs)?;
        self.check_interrupts(interrupts)?;
        self.check_divisor(divisor)?;
        self.check_fifos(interrupts)
    }

    /// Checks, register by register, whether the chip shows what was written to it: the frame, the
    /// outputs to the modem and the interrupts, the divisor, and whether the FIFOs are on.
    ///
    /// What is expected is the configuration of the driver (`config`), these outputs, which after
    /// `init` are `MCR::READY`, and the FIFOs as `fifo_enabled` says. `LOOP_BACK` is left out of
    /// the outputs. A break may be on.
    ///
    /// Call it after `init`, `init_with`, `set_frame` or `set_frame_when_idle` on a chip that may
    /// ignore a write: these calls do not read back what they wrote. A DesignWare UART ignores LCR
    /// while it sends, receives, or has received data. After `attach` and `restore` the driver does
    /// not know the divisor, so a difference does not tell much.
    ///
    /// Does not wait: makes at most 13 accesses. To read the divisor it sets DLAB, as `dll_dlm`
    /// does, but reads offset 0 only if LCR shows that DLAB is set. To read ISR it writes 0 to IER,
    /// and writes the interrupts back: so no interrupt is acknowledged, and the interrupt output
    /// falls and rises as in `retrigger_interrupts`. No received byte is read, and nothing that is
    /// saved for `lsr` or `msr` changes.
    ///
    /// # Errors
    ///
    /// The first difference, in this order:
    ///
    /// - `NoDivisor` if the configuration has no divisor, or is not computable
    ///   (`Config::is_computable`). No access was made.
    /// - `LineControl` if LCR shows another frame, or DLAB. LCR alone was read.
    /// - `ModemControl` if MCR shows other outputs, or loopback. Nothing was written.
    /// - `Interrupts` if IER shows other interrupts. Nothing was written.
    /// - `LineControl` if LCR does not show DLAB after that was set, and then LCR was written as it
    ///   was before; or if LCR does not show that DLAB was cleared again.
    /// - `Divisor` if the divisor latch shows another divisor. DLAB is clear again.
    /// - `Fifos` if ISR shows FIFOs that are on where the driver takes them to be off, or the other
    ///   way round.
    ///
    /// # Examples
    ///
    /// ```
    /// # include!(concat!(env!("CARGO_MANIFEST_DIR"), "/examples.rs"));
    /// # fn main() {}
    /// # fn example(uart: &mut Uart16550<Device>) -> Outcome<()> {
    /// uart.init(Config::DEFAULT)?;
    /// uart.check_configured(MCR::READY)?;
    /// # Ok(()) }
    /// ```
    ///
    /// # Proved
    ///
    /// - [Makes accesses as](crate::proved::driver#Made) [`ChecksConfigured`](crate::proved::configured#ChecksConfigured) `(fields self.old).config outputs.0 result`: the registers show the configuration and these outputs, without loopback; or one does not, and the error has what was asked for and what it shows; or the configuration has no divisor, and no access was made.
    ///   - [`fields`](crate::proved::driver#fields): what this driver holds beside its backend.
    ///
    /// <details><summary>The clauses</summary>
    ///
    /// [How to read them](uart_spec::proved):
    ///
    /// ```text
    /// ensures { Made B.step (ChecksConfigured (fields self.old).config outputs.0 result) self.old self.new }
    /// ```
    ///
    /// </details>
    pub fn check_configured(&mut self, outputs: MCR) -> Result<(), ConfigurationError> {
        let Some(divisor) = self.configured_divisor() else {
            return Err(ConfigurationError::NoDivisor);
        };
        let frame = frame_of(&self.config);
        let interrupts = self.config.interrupts;
        let outputs = outputs.difference(MCR::LOOP_BACK);
        self.check_registers(frame, outputs, interrupts, divisor)
    }
}
