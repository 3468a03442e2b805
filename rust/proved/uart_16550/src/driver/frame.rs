//! The calls that change the frame or the outputs to the modem, and that take a port as it is.

use super::Uart16550;
use super::init::frame_of;
use crate::backend::Backend;
use bitflags::Flags;
use uart_spec::registers::{DLL, DLM, LCR, LSR, MCR, offsets};
use uart_spec::{AttachError, Config, InvalidDivisorError, calc_divisor};

// Returns LCR with a break or without.
fn break_of(lcr: LCR, on: bool) -> LCR {
    if on {
        lcr.union(LCR::SET_BREAK)
    } else {
        lcr.difference(LCR::SET_BREAK)
    }
}

// Returns MCR with an output asserted or clear.
fn outputs_of(mcr: MCR, output: MCR, on: bool) -> MCR {
    if on {
        mcr.union(output)
    } else {
        mcr.difference(output)
    }
}

impl<B: Backend> Uart16550<B> {
    /// Changes the baud rate and the frame to those of this configuration, which must be computable
    /// (`Config::is_computable`), and stores them in the driver's configuration.
    ///
    /// Writes LCR, DLL, DLM and LCR, and nothing else. So the FIFOs, the outputs to the modem and
    /// the interrupts stay as they are, no byte is discarded, and a break ends. Does not wait.
    ///
    /// A character that is on the line meanwhile is corrupted, since its rest has the new rate and
    /// frame: one that goes out, and one that comes in. Bytes that wait in the transmitter are sent
    /// in the new frame. So wait before, until `is_idle` is true or with `flush`.
    ///
    /// While DLAB is set, offsets 0 and 1 are the latch, as in `dll_dlm`, so nothing else may
    /// access the chip. Of the configuration `interrupts`, `fifo_trigger_level` and
    /// `check_cts_before_sending` are not used.
    ///
    /// # Errors
    ///
    /// - `NonInteger` if the divisor is not a whole number: `Config::nearest` finds the nearest.
    /// - `OutOfRange` if it does not fit into the divisor latch.
    ///
    /// No access was made then, and nothing changed.
    ///
    /// # Panics
    ///
    /// If the configuration is not computable (`Config::is_computable`). No access was made then.
    ///
    /// # Examples
    ///
    /// ```
    /// # include!(concat!(env!("CARGO_MANIFEST_DIR"), "/examples.rs"));
    /// # fn main() {}
    /// # fn example(uart: &mut Uart16550<Device>) -> Outcome<()> {
    /// uart.flush()?;
    /// uart.set_frame(&Config {
    ///     baud_rate: BaudRate::Baud38400,
    ///     ..Config::DEFAULT
    /// })?;
    /// # Ok(()) }
    /// ```
    ///
    /// # Proved
    ///
    /// If [`IsComputable`](uart_spec::proved::config#IsComputable) `config.now` (frequency and baud rate are not zero, and the prescaler division factor is absent or at most 15):
    ///
    /// - [Does as](crate::proved::driver#Did) [`SetsFrame`](crate::proved::frame#SetsFrame) `config.now result`: clock, baud rate and frame are stored, and written to the divisor latch and to LCR; or there is no divisor, and nothing is done.
    ///
    /// <details><summary>The clauses</summary>
    ///
    /// [How to read them](uart_spec::proved):
    ///
    /// ```text
    /// requires { IsComputable config.now }
    /// ensures { Did B.step (SetsFrame config.now result) self.old self.new }
    /// ```
    ///
    /// </details>
    pub fn set_frame(&mut self, config: &Config) -> Result<(), InvalidDivisorError> {
        let baud_rate = config.baud_rate.to_integer();
        let prescaler = config.prescaler_division_factor;
        let divisor = match calc_divisor(config.frequency, baud_rate, prescaler) {
            Ok(divisor) => divisor,
            Err(cause) => return Err(cause),
        };
        self.store_frame(config);
        self.write_frame(divisor, frame_of(config));
        Ok(())
    }

    // Stores the clock, the baud rate and the frame. The other fields of the configuration are for
    // registers that a change of the frame does not write.
    pub(super) fn store_frame(&mut self, config: &Config) {
        self.config.frequency = config.frequency;
        self.config.prescaler_division_factor = config.prescaler_division_factor;
        self.config.baud_rate = config.baud_rate;
        self.config.data_bits = config.data_bits;
        self.config.extra_stop_bits = config.extra_stop_bits;
        self.config.parity = config.parity;
    }

    // Sets the divisor and the frame.
    pub(super) fn write_frame(&mut self, divisor: u16, frame: LCR) {
        // The frame goes in together with DLAB, so that LCR never has a third one in between.
        self.write_register(offsets::LCR, frame.union(LCR::DLAB).bits());
        self.write_register(offsets::DLL, (divisor % 256) as u8);
        self.write_register(offsets::DLM, (divisor / 256) as u8);
        self.write_register(offsets::LCR, frame.bits());
    }

    /// Returns whether the transmitter is empty, both its FIFO and its shift register: whether all
    /// that was sent is on the line. `flush` waits for that.
    ///
    /// Does not wait: reads LSR once. This clears the error bits in the chip; they are saved for
    /// the next `lsr`.
    ///
    /// # Examples
    ///
    /// ```
    /// # include!(concat!(env!("CARGO_MANIFEST_DIR"), "/examples.rs"));
    /// # fn main() {}
    /// # fn example(uart: &mut Uart16550<Device>) -> Outcome<()> {
    /// assert!(uart.is_idle());
    /// # Ok(()) }
    /// ```
    ///
    /// # Proved
    ///
    /// - [Makes accesses as](crate::proved::driver#Made) [`ShowsIdle`](crate::proved::frame#ShowsIdle) `result`: one read of LSR, which shows whether the transmitter is empty.
    ///
    /// <details><summary>The clauses</summary>
    ///
    /// [How to read them](uart_spec::proved):
    ///
    /// ```text
    /// ensures { Made B.step (ShowsIdle result) self.old self.new }
    /// ```
    ///
    /// </details>
    pub fn is_idle(&mut self) -> bool {
        self.read_lsr().contains(LSR::TRANSMITTER_EMPTY)
    }

    /// Begins or ends a break: reads LCR, and writes it with `SET_BREAK` set or cleared, the other
    /// bits as they were.
    ///
    /// In a break the line is held at 0, whatever the transmitter sends. So a character that is
    /// going out is lost: wait until `is_idle` is true. The remote sees a break once the line was 0
    /// for a whole character. Does not wait: the caller ends the break after that time.
    ///
    /// # Examples
    ///
    /// ```
    /// # include!(concat!(env!("CARGO_MANIFEST_DIR"), "/examples.rs"));
    /// # fn main() {}
    /// # fn example(uart: &mut Uart16550<Device>) -> Outcome<()> {
    /// uart.set_break(true);
    /// # Ok(()) }
    /// ```
    ///
    /// # Proved
    ///
    /// - [Makes accesses as](crate::proved::driver#Made) [`SetsBreak`](crate::proved::frame#SetsBreak) `on`: LCR is read, and written with the break set or cleared.
    ///
    /// <details><summary>The clauses</summary>
    ///
    /// [How to read them](uart_spec::proved):
    ///
    /// ```text
    /// ensures { Made B.step (SetsBreak on) self.old self.new }
    /// ```
    ///
    /// </details>
    pub fn set_break(&mut self, on: bool) {
        let switched = break_of(self.lcr(), on);
        self.write_register(offsets::LCR, switched.bits());
    }

    /// Writes MCR: the outputs to the modem are as these bits say, and loopback is off.
    ///
    /// `OUT_2_INT_ENABLE` gates the interrupt line on a PC, and `init` sets it. So leave it in the
    /// bits if interrupts are used.
    ///
    /// # Examples
    ///
    /// ```
    /// # include!(concat!(env!("CARGO_MANIFEST_DIR"), "/examples.rs"));
    /// # fn main() {}
    /// # fn example(uart: &mut Uart16550<Device>) -> Outcome<()> {
    /// uart.set_modem_control(MCR::DTR.union(MCR::OUT_2_INT_ENABLE));
    /// # Ok(()) }
    /// ```
    ///
    /// # Proved
    ///
    /// - [Makes accesses as](crate::proved::driver#Made) [`SetsControl`](crate::proved::frame#SetsControl) `outputs.0`: these bits are written to MCR, without loopback.
    ///
    /// <details><summary>The clauses</summary>
    ///
    /// [How to read them](uart_spec::proved):
    ///
    /// ```text
    /// ensures { Made B.step (SetsControl outputs.0) self.old self.new }
    /// ```
    ///
    /// </details>
    pub fn set_modem_control(&mut self, outputs: MCR) {
        // In loopback the outputs are inactive at the pins, whatever MCR has, so the remote would
        // not see what was asked for. The driver itself never leaves the chip in loopback.
        self.write_register(offsets::MCR, outputs.difference(MCR::LOOP_BACK).bits());
    }

    /// Asserts or clears RTS: reads MCR, and writes it with this bit so, the other outputs as they
    /// were, and loopback off, as in `set_modem_control`.
    ///
    /// # Examples
    ///
    /// ```
    /// # include!(concat!(env!("CARGO_MANIFEST_DIR"), "/examples.rs"));
    /// # fn main() {}
    /// # fn example(uart: &mut Uart16550<Device>) -> Outcome<()> {
    /// uart.set_rts(false);
    /// # Ok(()) }
    /// ```
    ///
    /// # Proved
    ///
    /// - [Makes accesses as](crate::proved::driver#Made) [`SetsOutput`](crate::proved::frame#SetsOutput) `MCR.RTS.0 on`: MCR is read, and written with this bit set or cleared, without loopback.
    ///
    /// <details><summary>The clauses</summary>
    ///
    /// [How to read them](uart_spec::proved):
    ///
    /// ```text
    /// ensures { Made B.step (SetsOutput MCR.RTS.0 on) self.old self.new }
    /// ```
    ///
    /// </details>
    pub fn set_rts(&mut self, on: bool) {
        self.set_output(MCR::RTS, on);
    }

    /// Asserts or clears DTR: reads MCR, and writes it with this bit so, the other outputs as they
    /// were, and loopback off, as in `set_modem_control`.
    ///
    /// # Examples
    ///
    /// ```
    /// # include!(concat!(env!("CARGO_MANIFEST_DIR"), "/examples.rs"));
    /// # fn main() {}
    /// # fn example(uart: &mut Uart16550<Device>) -> Outcome<()> {
    /// uart.set_dtr(false);
    /// # Ok(()) }
    /// ```
    ///
    /// # Proved
    ///
    /// - [Makes accesses as](crate::proved::driver#Made) [`SetsOutput`](crate::proved::frame#SetsOutput) `MCR.DTR.0 on`: MCR is read, and written with this bit set or cleared, without loopback.
    ///
    /// <details><summary>The clauses</summary>
    ///
    /// [How to read them](uart_spec::proved):
    ///
    /// ```text
    /// ensures { Made B.step (SetsOutput MCR.DTR.0 on) self.old self.new }
    /// ```
    ///
    /// </details>
    pub fn set_dtr(&mut self, on: bool) {
        self.set_output(MCR::DTR, on);
    }

    // Asserts or clears one output.
    fn set_output(&mut self, output: MCR, on: bool) {
        let switched = outputs_of(self.mcr(), output, on);
        self.set_modem_control(switched);
    }

    /// Takes a port as it was set up, for example by firmware, in place of `init`: finds out
    /// whether the FIFOs are on, and returns the divisor latch, low byte first. It is not 0.
    ///
    /// Reads LCR and MCR, then the divisor latch as `dll_dlm` does, which writes LCR and restores
    /// it, and then ISR. Nothing else is written. The read of ISR acknowledges a `THR_EMPTY`
    /// interrupt. Afterwards `fifo_enabled` is as ISR showed. `config` is not changed, since the
    /// clock of the chip is not known: it does not say what the chip has.
    ///
    /// # Errors
    ///
    /// - `DivisorLatchOpen` if DLAB is set.
    /// - `Loopback` if DLAB is clear, and the chip is in loopback.
    /// - `NoDivisor` if neither is so, and the divisor latch reads as 0: no port is set up there,
    ///   or there is none. So a bus where all registers read as 0 is refused.
    ///
    /// ISR was not read then, so no interrupt was acknowledged, and the driver is unchanged. For
    /// the first two only LCR and MCR were read, and nothing was written. For `NoDivisor` DLAB was
    /// set for the look at the latch, and LCR written back.
    ///
    /// # Examples
    ///
    /// ```
    /// # include!(concat!(env!("CARGO_MANIFEST_DIR"), "/examples.rs"));
    /// # fn main() {}
    /// # fn example(uart: &mut Uart16550<Device>) -> Outcome<()> {
    /// // In place of `init`, on a port that firmware has set up.
    /// let (dll, dlm) = uart.attach()?;
    /// uart.send_bytes_exact(b"hello")?;
    /// # Ok(()) }
    /// ```
    ///
    /// # Proved
    ///
    /// - [Does as](crate::proved::driver#Did) [`Attaches`](crate::proved::attach#Attaches) `result`: LCR shows that DLAB is off, MCR that loopback is off, the divisor latch a divisor, and ISR whether the FIFOs are on, which the driver takes them to be; or these are read up to the one that the error is about, and the driver stays as it was.
    ///
    /// <details><summary>The clauses</summary>
    ///
    /// [How to read them](uart_spec::proved):
    ///
    /// ```text
    /// ensures { Did B.step (Attaches result) self.old self.new }
    /// ```
    ///
    /// </details>
    pub fn attach(&mut self) -> Result<(DLL, DLM), AttachError> {
        // LCR comes first, since its DLAB says what other offsets are: on later chips some of its
        // values show further registers in place of MCR and ISR. ISR comes last, after the latch
        // too, since its read may acknowledge an interrupt, and a refusal is to change nothing.
        if self.lcr().contains(LCR::DLAB) {
            return Err(AttachError::DivisorLatchOpen);
        }
        if self.mcr().contains(MCR::LOOP_BACK) {
            return Err(AttachError::Loopback);
        }
        let (dll, dlm) = self.dll_dlm();
        // No port is set up so, and where nothing answers all registers may read as 0.
        if dll == 0 && dlm == 0 {
            return Err(AttachError::NoDivisor);
        }
        self.fifo_enabled = self.isr().fifo_enabled();
        Ok((dll, dlm))
    }
}
