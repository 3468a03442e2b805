//! The register calls.

use super::Uart16550;
use crate::backend::Backend;
use bitflags::Flags;
use uart_spec::registers::{DLL, DLM, IER, ISR, LCR, LSR, MCR, MSR, SPR, offsets};
use uart_spec::{ConfigRegisterDump, RemoteReadyToReceiveError};

// What a read shows if no device is there to drive the lines of the bus: all bits set.
const UNDRIVEN: u8 = 0xff;

impl<B: Backend> Uart16550<B> {
    /// Reads and returns the interrupt enable register (IER). Reading it changes nothing.
    ///
    /// # Examples
    ///
    /// ```
    /// # include!(concat!(env!("CARGO_MANIFEST_DIR"), "/examples.rs"));
    /// # fn main() {}
    /// # fn example(uart: &mut Uart16550<Device>) -> Outcome<()> {
    /// assert_eq!(uart.ier(), IER::THR_EMPTY);
    /// # Ok(()) }
    /// ```
    ///
    /// # Proved
    ///
    /// - [Makes accesses as](crate::proved::driver#Made) [`Only`](crate::proved::grammar#Only) `(Read offsets.IER result.0 ∷ [])`: these accesses in this order, and no other.
    ///
    /// <details><summary>The clauses</summary>
    ///
    /// [How to read them](uart_spec::proved):
    ///
    /// ```text
    /// ensures { Made B.step (Only (Read offsets.IER result.0 ∷ [])) self.old self.new }
    /// ```
    ///
    /// </details>
    pub fn ier(&mut self) -> IER {
        IER::from_bits_retain(self.read_register(offsets::IER))
    }

    /// Reads and returns the interrupt status register (ISR), which the datasheet also calls IIR.
    ///
    /// A read that shows a `THR_EMPTY` interrupt acknowledges it.
    ///
    /// # Examples
    ///
    /// ```
    /// # include!(concat!(env!("CARGO_MANIFEST_DIR"), "/examples.rs"));
    /// # fn main() {}
    /// # struct Port { uart: Uart16550<Device> }
    /// # impl Port {
    /// # fn example(&mut self) -> Option<InterruptType> {
    /// self.uart.isr().interrupt_type()
    /// # } }
    /// ```
    ///
    /// # Proved
    ///
    /// - [Makes accesses as](crate::proved::driver#Made) [`Only`](crate::proved::grammar#Only) `(Read offsets.ISR result.0 ∷ [])`: these accesses in this order, and no other.
    ///
    /// <details><summary>The clauses</summary>
    ///
    /// [How to read them](uart_spec::proved):
    ///
    /// ```text
    /// ensures { Made B.step (Only (Read offsets.ISR result.0 ∷ [])) self.old self.new }
    /// ```
    ///
    /// </details>
    pub fn isr(&mut self) -> ISR {
        ISR::from_bits_retain(self.read_register(offsets::ISR))
    }

    /// Reads and returns the line control register (LCR). Reading it changes nothing.
    ///
    /// # Examples
    ///
    /// ```
    /// # include!(concat!(env!("CARGO_MANIFEST_DIR"), "/examples.rs"));
    /// # fn main() {}
    /// # fn example(uart: &mut Uart16550<Device>, shown: &ConfigRegisterDump) -> Outcome<()> {
    /// assert_eq!(uart.lcr(), shown.lcr);
    /// # Ok(()) }
    /// ```
    ///
    /// # Proved
    ///
    /// - [Makes accesses as](crate::proved::driver#Made) [`Only`](crate::proved::grammar#Only) `(Read offsets.LCR result.0 ∷ [])`: these accesses in this order, and no other.
    ///
    /// <details><summary>The clauses</summary>
    ///
    /// [How to read them](uart_spec::proved):
    ///
    /// ```text
    /// ensures { Made B.step (Only (Read offsets.LCR result.0 ∷ [])) self.old self.new }
    /// ```
    ///
    /// </details>
    pub fn lcr(&mut self) -> LCR {
        LCR::from_bits_retain(self.read_register(offsets::LCR))
    }

    /// Reads and returns the modem control register (MCR). Reading it changes nothing.
    ///
    /// # Examples
    ///
    /// ```
    /// # include!(concat!(env!("CARGO_MANIFEST_DIR"), "/examples.rs"));
    /// # fn main() {}
    /// # fn example(uart: &mut Uart16550<Device>, shown: &ConfigRegisterDump) -> Outcome<()> {
    /// assert_eq!(uart.mcr(), shown.mcr);
    /// # Ok(()) }
    /// ```
    ///
    /// # Proved
    ///
    /// - [Makes accesses as](crate::proved::driver#Made) [`Only`](crate::proved::grammar#Only) `(Read offsets.MCR result.0 ∷ [])`: these accesses in this order, and no other.
    ///
    /// <details><summary>The clauses</summary>
    ///
    /// [How to read them](uart_spec::proved):
    ///
    /// ```text
    /// ensures { Made B.step (Only (Read offsets.MCR result.0 ∷ [])) self.old self.new }
    /// ```
    ///
    /// </details>
    pub fn mcr(&mut self) -> MCR {
        MCR::from_bits_retain(self.read_register(offsets::MCR))
    }

    /// Returns whether the chip is gone, as one that was unplugged: whether MCR shows FF, which is
    /// what most buses show where nobody answers.
    ///
    /// Then LSR shows FF too: a byte waits, and the transmitter is empty. So each call that
    /// receives finds bytes, all of them FF, and each call that sends succeeds. Call this after
    /// bytes of FF, or now and then.
    ///
    /// Does not wait: reads MCR once, which changes nothing. A chip that is there does not show FF:
    /// a 16550 has no bits 5 to 7 in MCR, and on later chips all bits would be set only together
    /// with `LOOP_BACK`, which the driver leaves off. A bus that shows something else where nobody
    /// answers is not told from a chip: with 0 each wait stalls, and with 7F bytes of 7F arrive.
    /// `check_present`, which writes SPR, tells those too.
    ///
    /// # Examples
    ///
    /// ```
    /// # include!(concat!(env!("CARGO_MANIFEST_DIR"), "/examples.rs"));
    /// # fn main() {}
    /// # fn example(uart: &mut Uart16550<Device>) -> Outcome<()> {
    /// assert!(!uart.is_gone());
    /// # Ok(()) }
    /// ```
    ///
    /// # Proved
    ///
    /// - [Makes accesses as](crate::proved::driver#Made) [`ShowsGone`](crate::proved::status#ShowsGone) `result`: one read of MCR, which shows all bits set, as a bus does that nobody drives, exactly if the result is `true`.
    ///
    /// <details><summary>The clauses</summary>
    ///
    /// [How to read them](uart_spec::proved):
    ///
    /// ```text
    /// ensures { Made B.step (ShowsGone result) self.old self.new }
    /// ```
    ///
    /// </details>
    pub fn is_gone(&mut self) -> bool {
        // MCR, and no other register: a read of DATA, LSR, MSR or ISR changes a chip that is there
        // after all, IER is the divisor latch under DLAB, and LCR and SPR may be FF.
        self.mcr().contains(MCR::from_bits_retain(UNDRIVEN))
    }

    /// Reads the line status register (LSR). Returns it joined with the error bits that earlier
    /// reads by this driver cleared in the chip, and that are saved. Afterwards no error bits of
    /// LSR are saved.
    ///
    /// Call it to find out whether received bytes had errors or were lost. Does not wait.
    /// `has_error` of the result also counts bit 7, an error somewhere in the FIFO, which is not
    /// saved.
    ///
    /// # Examples
    ///
    /// ```
    /// # include!(concat!(env!("CARGO_MANIFEST_DIR"), "/examples.rs"));
    /// # fn main() {}
    /// # fn example(uart: &mut Uart16550<Device>, shown: &ConfigRegisterDump) -> Outcome<()> {
    /// assert_eq!(uart.lsr(), shown.lsr);
    /// # Ok(()) }
    /// ```
    ///
    /// # Proved
    ///
    /// - [Does as](crate::proved::driver#Did) [`TakesLsr`](crate::proved::status#TakesLsr) `result.0`: one read of LSR, which is returned joined with the saved bits, of which none are left.
    ///
    /// <details><summary>The clauses</summary>
    ///
    /// [How to read them](uart_spec::proved):
    ///
    /// ```text
    /// ensures { Did B.step (TakesLsr result.0) self.old self.new }
    /// ```
    ///
    /// </details>
    pub fn lsr(&mut self) -> LSR {
        let lsr = self.read_lsr().union(self.saved_lsr);
        self.saved_lsr = LSR::from_bits_retain(0);
        lsr
    }

    /// Reads the modem status register (MSR). Returns it joined with the changes that earlier reads
    /// by this driver cleared in the chip, and that are saved. Afterwards no changes are saved.
    ///
    /// Call it to find out which modem lines changed. Does not wait.
    ///
    /// # Examples
    ///
    /// ```
    /// # include!(concat!(env!("CARGO_MANIFEST_DIR"), "/examples.rs"));
    /// # fn main() {}
    /// # fn example(uart: &mut Uart16550<Device>, shown: &ConfigRegisterDump) -> Outcome<()> {
    /// assert_eq!(uart.msr(), shown.msr);
    /// # Ok(()) }
    /// ```
    ///
    /// # Proved
    ///
    /// - [Does as](crate::proved::driver#Did) [`TakesMsr`](crate::proved::status#TakesMsr) `result.0`: one read of MSR, which is returned joined with the saved bits, of which none are left.
    ///
    /// <details><summary>The clauses</summary>
    ///
    /// [How to read them](uart_spec::proved):
    ///
    /// ```text
    /// ensures { Did B.step (TakesMsr result.0) self.old self.new }
    /// ```
    ///
    /// </details>
    pub fn msr(&mut self) -> MSR {
        let msr = self.read_msr().union(self.saved_msr);
        self.saved_msr = MSR::from_bits_retain(0);
        msr
    }

    /// Reads and returns the modem status register (MSR) as it is now. The changes that this clears
    /// in the chip are saved for the next `msr`.
    ///
    /// Call it to find out how the modem lines are. Does not wait. Like each read of MSR it clears
    /// a modem status interrupt that is pending, so no handler is called for it any more: call
    /// `msr` afterwards, which tells the change.
    ///
    /// # Examples
    ///
    /// ```
    /// # include!(concat!(env!("CARGO_MANIFEST_DIR"), "/examples.rs"));
    /// # fn main() {}
    /// # fn example(uart: &mut Uart16550<Device>) -> Outcome<()> {
    /// assert!(uart.peek_modem().contains(MSR::CTS));
    /// # Ok(()) }
    /// ```
    ///
    /// # Proved
    ///
    /// - [Makes accesses as](crate::proved::driver#Made) [`Only`](crate::proved::grammar#Only) `(Read offsets.MSR result.0 ∷ [])`: these accesses in this order, and no other.
    ///
    /// <details><summary>The clauses</summary>
    ///
    /// [How to read them](uart_spec::proved):
    ///
    /// ```text
    /// ensures { Made B.step (Only (Read offsets.MSR result.0 ∷ [])) self.old self.new }
    /// ```
    ///
    /// </details>
    pub fn peek_modem(&mut self) -> MSR {
        self.read_msr()
    }

    /// Reads and returns the scratch register (SPR), which the chip does not use.
    ///
    /// # Examples
    ///
    /// ```
    /// # include!(concat!(env!("CARGO_MANIFEST_DIR"), "/examples.rs"));
    /// # fn main() {}
    /// # fn example(uart: &mut Uart16550<Device>, shown: &ConfigRegisterDump) -> Outcome<()> {
    /// assert_eq!(uart.spr(), shown.spr);
    /// # Ok(()) }
    /// ```
    ///
    /// # Proved
    ///
    /// - [Makes accesses as](crate::proved::driver#Made) [`Only`](crate::proved::grammar#Only) `(Read offsets.SPR result ∷ [])`: these accesses in this order, and no other.
    ///
    /// <details><summary>The clauses</summary>
    ///
    /// [How to read them](uart_spec::proved):
    ///
    /// ```text
    /// ensures { Made B.step (Only (Read offsets.SPR result ∷ [])) self.old self.new }
    /// ```
    ///
    /// </details>
    pub fn spr(&mut self) -> SPR {
        self.read_register(offsets::SPR)
    }

    /// Checks whether a remote is present and ready to receive: whether MSR shows DSR and CTS.
    ///
    /// Does not wait: reads MSR once. The changes that this clears are saved for the next `msr`.
    /// Many cables never assert DSR or CTS, so sending may work even if this call fails. Call it
    /// again after a modem status interrupt.
    ///
    /// # Errors
    ///
    /// - `NoRemoteConnectedNoDSR` if DSR is clear.
    /// - `RemoteNotClearToSend` if DSR is set and CTS is clear.
    ///
    /// `NoRemoteConnectedNoCD` is never returned.
    ///
    /// # Examples
    ///
    /// ```
    /// # include!(concat!(env!("CARGO_MANIFEST_DIR"), "/examples.rs"));
    /// # fn main() {}
    /// # fn example(uart: &mut Uart16550<Device>) -> Outcome<()> {
    /// uart.check_connected()?;
    /// # Ok(()) }
    /// ```
    ///
    /// # Proved
    ///
    /// - [Makes accesses as](crate::proved::driver#Made) [`Connects`](crate::proved::status#Connects) `result`: one read of MSR, which shows DSR and CTS; or which does not show the one that the error names.
    ///
    /// <details><summary>The clauses</summary>
    ///
    /// [How to read them](uart_spec::proved):
    ///
    /// ```text
    /// ensures { Made B.step (Connects result) self.old self.new }
    /// ```
    ///
    /// </details>
    pub fn check_connected(&mut self) -> Result<(), RemoteReadyToReceiveError> {
        let msr = self.read_msr();
        if !msr.contains(MSR::DSR) {
            return Err(RemoteReadyToReceiveError::NoRemoteConnectedNoDSR);
        }
        if !msr.contains(MSR::CTS) {
            return Err(RemoteReadyToReceiveError::RemoteNotClearToSend);
        }
        Ok(())
    }

    /// Enables these interrupts in addition to those that are enabled: reads IER, adds them, stores
    /// the result in the configuration, and writes it.
    ///
    /// Bits that the chip does not keep read as clear, so they vanish from `config().interrupts` at
    /// the next such call. Not every device raises an interrupt if `THR_EMPTY` is enabled while the
    /// transmitter is already empty: send the first bytes directly, and the rest on interrupts.
    ///
    /// # Examples
    ///
    /// ```
    /// # include!(concat!(env!("CARGO_MANIFEST_DIR"), "/examples.rs"));
    /// # fn main() {}
    /// # fn example(uart: &mut Uart16550<Device>) -> Outcome<()> {
    /// uart.enable_interrupts(IER::THR_EMPTY);
    /// # Ok(()) }
    /// ```
    ///
    /// # Proved
    ///
    /// - [Does as](crate::proved::driver#Did) [`Enables`](crate::proved::status#Enables) `interrupts.0`: IER is read; what it shows, with these bits added, is stored in the configuration and written.
    ///
    /// <details><summary>The clauses</summary>
    ///
    /// [How to read them](uart_spec::proved):
    ///
    /// ```text
    /// ensures { Did B.step (Enables interrupts.0) self.old self.new }
    /// ```
    ///
    /// </details>
    pub fn enable_interrupts(&mut self, interrupts: IER) {
        let enabled = self.ier().union(interrupts);
        self.store_interrupts(enabled);
    }

    /// Disables these interrupts and leaves the others: reads IER, removes them, stores the result
    /// in the configuration, and writes it.
    ///
    /// # Examples
    ///
    /// ```
    /// # include!(concat!(env!("CARGO_MANIFEST_DIR"), "/examples.rs"));
    /// # fn main() {}
    /// # fn example(uart: &mut Uart16550<Device>) -> Outcome<()> {
    /// uart.disable_interrupts(IER::DATA_READY);
    /// assert_eq!(uart.ier(), IER::THR_EMPTY);
    /// # Ok(()) }
    /// ```
    ///
    /// # Proved
    ///
    /// - [Does as](crate::proved::driver#Did) [`Disables`](crate::proved::status#Disables) `interrupts.0`: IER is read; what it shows, without these bits, is stored in the configuration and written.
    ///
    /// <details><summary>The clauses</summary>
    ///
    /// [How to read them](uart_spec::proved):
    ///
    /// ```text
    /// ensures { Did B.step (Disables interrupts.0) self.old self.new }
    /// ```
    ///
    /// </details>
    pub fn disable_interrupts(&mut self, interrupts: IER) {
        let enabled = self.ier().difference(interrupts);
        self.store_interrupts(enabled);
    }

    // Stores the interrupts in the configuration, and writes them.
    fn store_interrupts(&mut self, enabled: IER) {
        self.config.interrupts = enabled;
        self.write_register(offsets::IER, enabled.bits());
    }

    /// Makes the interrupt output fall, and rise again if an interrupt is enabled and pending:
    /// reads IER, writes 0, and writes back what it read.
    ///
    /// An interrupt controller that detects edges sees no new edge while the output stays high.
    /// Call this at the end of an interrupt handler that leaves before ISR has shown that no
    /// interrupt is pending, and after the interrupt was masked at a controller that forgets edges
    /// meanwhile.
    ///
    /// If `THR_EMPTY` is enabled and the transmitter is empty, the chip raises that interrupt
    /// again. Does not wait: makes three accesses. The interrupts of `config` are not used, and not
    /// changed.
    ///
    /// # Examples
    ///
    /// ```
    /// # include!(concat!(env!("CARGO_MANIFEST_DIR"), "/examples.rs"));
    /// # fn main() {}
    /// # fn example(uart: &mut Uart16550<Device>) -> Outcome<()> {
    /// uart.retrigger_interrupts();
    /// # Ok(()) }
    /// ```
    ///
    /// # Proved
    ///
    /// - [Makes accesses as](crate::proved::driver#Made) [`Retriggers`](crate::proved::status#Retriggers): IER is read, then 0 is written to it, and then what was read.
    ///
    /// <details><summary>The clauses</summary>
    ///
    /// [How to read them](uart_spec::proved):
    ///
    /// ```text
    /// ensures { Made B.step Retriggers self.old self.new }
    /// ```
    ///
    /// </details>
    pub fn retrigger_interrupts(&mut self) {
        let enabled = self.read_register(offsets::IER);
        // With no interrupt enabled the output is low. What was pending stays so in the chip, and
        // no read of ISR acknowledges it.
        self.write_register(offsets::IER, 0);
        self.write_register(offsets::IER, enabled);
    }

    /// Reads and returns the divisor latch, low byte first.
    ///
    /// Sets DLAB in LCR for the two reads, and then writes LCR back. In between offsets 0 and 1 are
    /// the latch, so nothing else may access the chip: neither data nor IER can be reached.
    ///
    /// # Examples
    ///
    /// ```
    /// # include!(concat!(env!("CARGO_MANIFEST_DIR"), "/examples.rs"));
    /// # fn main() {}
    /// # fn example(uart: &mut Uart16550<Device>) -> Outcome<()> {
    /// assert_eq!(uart.dll_dlm(), (12, 0));
    /// # Ok(()) }
    /// ```
    ///
    /// # Proved
    ///
    /// - [Makes accesses as](crate::proved::driver#Made) [`ReadsDivisor`](crate::proved::status#ReadsDivisor) `result.0 result.1`: LCR is read, and written with DLAB; the divisor latch is read, its low byte first; and LCR is written back.
    ///
    /// <details><summary>The clauses</summary>
    ///
    /// [How to read them](uart_spec::proved):
    ///
    /// ```text
    /// ensures { Made B.step (ReadsDivisor result.0 result.1) self.old self.new }
    /// ```
    ///
    /// </details>
    pub fn dll_dlm(&mut self) -> (DLL, DLM) {
        let lcr = self.read_register(offsets::LCR);
        self.write_register(offsets::LCR, lcr | LCR::DLAB.bits());
        let dll = self.read_register(offsets::DLL);
        let dlm = self.read_register(offsets::DLM);
        self.write_register(offsets::LCR, lcr);
        (dll, dlm)
    }

    /// Reads the divisor latch and then IER, ISR, LCR, MCR, LSR, MSR and SPR, and returns them. It
    /// is meant for debugging.
    ///
    /// LSR and MSR are returned joined with the saved bits, which stay saved. The read of ISR
    /// acknowledges a `THR_EMPTY` interrupt, and DLAB is set for a moment, as by `dll_dlm`. Does
    /// not wait: makes 12 accesses.
    ///
    /// # Examples
    ///
    /// ```
    /// # include!(concat!(env!("CARGO_MANIFEST_DIR"), "/examples.rs"));
    /// # fn main() {}
    /// # fn example(uart: &mut Uart16550<Device>) -> Outcome<()> {
    /// assert_eq!(uart.config_register_dump().dll, 3);
    /// # Ok(()) }
    /// ```
    ///
    /// # Proved
    ///
    /// - [Does as](crate::proved::driver#Did) [`Dumps`](crate::proved::status#Dumps) `result`: the divisor latch and the seven other registers are read. LSR and MSR are returned joined with the saved bits, and all of these stay saved.
    ///
    /// <details><summary>The clauses</summary>
    ///
    /// [How to read them](uart_spec::proved):
    ///
    /// ```text
    /// ensures { Did B.step (Dumps result) self.old self.new }
    /// ```
    ///
    /// </details>
    pub fn config_register_dump(&mut self) -> ConfigRegisterDump {
        // The result is written field by field, so that no value waits in a register for the
        // others.
        let mut dump = ConfigRegisterDump::default();
        let (dll, dlm) = self.dll_dlm();
        dump.dll = dll;
        dump.dlm = dlm;
        dump.ier = self.ier();
        dump.isr = self.isr();
        dump.lcr = self.lcr();
        dump.mcr = self.mcr();
        dump.lsr = self.read_lsr().union(self.saved_lsr);
        dump.msr = self.read_msr().union(self.saved_msr);
        dump.spr = self.spr();
        dump
    }
}
