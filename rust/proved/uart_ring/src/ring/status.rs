//! Line errors and changes of the modem lines: noted when their interrupts are served, and taken by
//! the caller. And all registers at once.

use super::Uart16550Ring;
use bitflags::Flags;
use uart_16550::backend::Backend;
use uart_spec::ConfigRegisterDump;
use uart_spec::registers::{LSR, MSR};

impl<B: Backend> Uart16550Ring<B> {
    // Notes the errors that LSR shows, and those that the driver has saved. Returns both with the
    // other bits of LSR.
    pub(super) fn note_line(&mut self) -> LSR {
        let status = self.uart.lsr();
        self.line.insert(status.intersection(LSR::LINE_ERRORS));
        status
    }

    // Notes the changes that MSR shows, and those that the driver has saved.
    pub(super) fn note_modem(&mut self) {
        let status = self.uart.msr();
        self.modem.insert(status.intersection(MSR::CHANGES));
    }

    /// Reads LSR once. Returns it joined with the errors that were noted when interrupts were
    /// served, and with those that the driver has saved. Both are then forgotten.
    ///
    /// # Examples
    ///
    /// ```
    /// # include!(concat!(env!("CARGO_MANIFEST_DIR"), "/examples.rs"));
    /// # fn main() {}
    /// # use facade::ring::{self, *};
    /// # struct Port { ring: Uart16550Ring<Device>, overruns: u32 }
    /// # impl Port {
    /// # fn example(&mut self) {
    /// let line = self.ring.take_line();
    /// if line.contains(LSR::OVERRUN_ERROR) {
    ///     self.overruns = self.overruns.saturating_add(1);
    /// }
    /// # } }
    /// ```
    ///
    /// # Proved
    ///
    /// - [Does as](crate::proved::ring#RingDid) [`TakesLine`](crate::proved::status#TakesLine) `result.0`: `lsr`, joined with what was noted, after which nothing is noted.
    ///
    /// <details><summary>The clauses</summary>
    ///
    /// [How to read them](uart_spec::proved):
    ///
    /// ```text
    /// ensures { RingDid B.step (TakesLine result.0) self.old self.new }
    /// ```
    ///
    /// </details>
    pub fn take_line(&mut self) -> LSR {
        let line = self.uart.lsr().union(self.line);
        self.line = LSR::from_bits_retain(0);
        line
    }

    /// Reads MSR once. Returns it joined with the changes that were noted when interrupts were
    /// served, and with those that the driver has saved. Both are then forgotten.
    ///
    /// # Examples
    ///
    /// ```
    /// # include!(concat!(env!("CARGO_MANIFEST_DIR"), "/examples.rs"));
    /// # fn main() {}
    /// # use facade::ring::{self, *};
    /// # struct Port { ring: Uart16550Ring<Device>, overruns: u32 }
    /// # impl Port {
    /// # fn example(&mut self) {
    /// let modem = self.ring.take_modem();
    /// let came_back = modem.contains(MSR::DELTA_CTS.union(MSR::CTS));
    /// # } }
    /// ```
    ///
    /// # Proved
    ///
    /// - [Does as](crate::proved::ring#RingDid) [`TakesModem`](crate::proved::status#TakesModem) `result.0`: `msr`, joined with what was noted, after which nothing is noted.
    ///
    /// <details><summary>The clauses</summary>
    ///
    /// [How to read them](uart_spec::proved):
    ///
    /// ```text
    /// ensures { RingDid B.step (TakesModem result.0) self.old self.new }
    /// ```
    ///
    /// </details>
    pub fn take_modem(&mut self) -> MSR {
        let modem = self.uart.msr().union(self.modem);
        self.modem = MSR::from_bits_retain(0);
        modem
    }

    /// Reads all registers, as the driver's `config_register_dump` does, and then sends bytes that
    /// wait, as `resume_transmit` does.
    ///
    /// ISR is among the registers, and a read of it that shows `THR_EMPTY` acknowledges that
    /// interrupt. So after the driver's own call, through `inner_mut`, bytes in the transmit ring
    /// may wait for ever. After this call they do not.
    ///
    /// `take_line` and `take_modem` still return what the reads of LSR and MSR have cleared.
    ///
    /// Does not wait. Under DLAB, which is set meanwhile, the divisor latch is read in place of
    /// DATA and IER: mask the interrupt, as for every call.
    ///
    /// # Examples
    ///
    /// ```
    /// # include!(concat!(env!("CARGO_MANIFEST_DIR"), "/examples.rs"));
    /// # fn main() {}
    /// # use facade::ring::{self, *};
    /// # struct Port { ring: Uart16550Ring<Device>, overruns: u32 }
    /// # impl Port {
    /// # fn example(&mut self) {
    /// let dump = self.ring.config_register_dump();
    /// # } }
    /// ```
    ///
    /// # Proved
    ///
    /// - [Does as](crate::proved::ring#RingDid) [`DumpsRegisters`](crate::proved::status#DumpsRegisters) `result`: the dump of the driver, whose read of ISR may acknowledge THR\_EMPTY; and then sending resumes.
    ///
    /// <details><summary>The clauses</summary>
    ///
    /// [How to read them](uart_spec::proved):
    ///
    /// ```text
    /// ensures { RingDid B.step (DumpsRegisters result) self.old self.new }
    /// ```
    ///
    /// </details>
    pub fn config_register_dump(&mut self) -> ConfigRegisterDump {
        let dump = self.uart.config_register_dump();
        // Behind the dump, since what it acknowledges never comes again. A `retrigger` would raise
        // the interrupt again on a chip that does so whenever THR_EMPTY is enabled while THR is
        // empty; to send what waits needs nothing of the chip.
        self.resume_transmit();
        dump
    }
}
