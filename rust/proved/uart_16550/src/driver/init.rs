//! The presence check and the initialisation.

use super::Uart16550;
use crate::backend::Backend;
use bitflags::Flags;
use uart_spec::registers::{FCR, FifoTriggerLevel, ISR, LCR, LSR, MCR, MSR, offsets};
use uart_spec::{Config, FIFO_SIZE, InitError, calc_divisor};

// The patterns that are written to the scratch register. Where no chip is, a read returns something
// too, often 0xff. A place that always returns the first pattern fails the second.
const FIRST_PATTERN: u8 = 0x42;

const SECOND_PATTERN: u8 = 0x73;

// The number of characters in a full FIFO and the shift register.
const MOST_WAITING: usize = FIFO_SIZE + 1;

// Returns LCR for a configuration.
pub(super) fn frame_of(config: &Config) -> LCR {
    let mut frame = LCR::from_bits_retain(0)
        .set_word_length(config.data_bits)
        .set_parity(config.parity);
    if config.extra_stop_bits {
        frame.insert(LCR::MORE_STOP_BITS);
    }
    frame
}

// Returns FCR for a trigger level.
pub(super) fn fifo_control_of(level: Option<FifoTriggerLevel>) -> FCR {
    let resets = FCR::RX_FIFO_RESET.union(FCR::TX_FIFO_RESET);
    // Without a level the enable bit is clear. That turns the FIFOs off, and so empties them. If
    // they were off already, a chip ignores the reset bits.
    match level {
        None => resets,
        Some(level) => resets.union(FCR::FIFO_ENABLE).set_fifo_trigger_level(level),
    }
}

impl<B: Backend> Uart16550<B> {
    // Writes a pattern to the scratch register, and returns whether it reads back.
    fn keeps(&mut self, pattern: u8) -> bool {
        self.write_register(offsets::SPR, pattern);
        self.read_register(offsets::SPR) == pattern
    }

    fn keeps_patterns(&mut self) -> bool {
        if !self.keeps(FIRST_PATTERN) {
            return false;
        }
        self.keeps(SECOND_PATTERN)
    }

    /// Returns whether a device is present: whether its scratch register (SPR) keeps what is
    /// written to it.
    ///
    /// Reads SPR, writes a pattern and reads it back, tries a second pattern if the first was kept,
    /// and restores SPR. Nothing else changes in the chip. Does not wait: makes 4 or 6 accesses.
    /// `init` makes the same check.
    ///
    /// # Examples
    ///
    /// ```
    /// # include!(concat!(env!("CARGO_MANIFEST_DIR"), "/examples.rs"));
    /// # fn main() {}
    /// # fn example(uart: &mut Uart16550<Device>) -> Outcome<()> {
    /// assert!(uart.check_present());
    /// # Ok(()) }
    /// ```
    ///
    /// # Proved
    ///
    /// - [Makes accesses as](crate::proved::driver#Made) [`ChecksPresence`](crate::proved::init#ChecksPresence) `result`: the scratch register is read, tested with the patterns, and restored.
    ///
    /// <details><summary>The clauses</summary>
    ///
    /// [How to read them](uart_spec::proved):
    ///
    /// ```text
    /// ensures { Made B.step (ChecksPresence result) self.old self.new }
    /// ```
    ///
    /// </details>
    pub fn check_present(&mut self) -> bool {
        let old = self.read_register(offsets::SPR);
        let present = self.keeps_patterns();
        self.write_register(offsets::SPR, old);
        present
    }

    // Turns interrupts off, and sets the divisor and the frame. A character that is going out has
    // the new ones from then on, so the remote gets it corrupted. No wait of `init` prevents that:
    // call `flush` before, if it matters.
    pub(super) fn set_line(&mut self, divisor: u16, frame: LCR) {
        // DLAB may still be set from before. Then the write of IER would go to the divisor.
        self.write_register(offsets::LCR, 0);
        // Interrupts are off from here on, until the last write of `init`. A handler would find a
        // chip that is half set up, and while DLAB is set it could reach neither data nor IER.
        self.write_register(offsets::IER, 0);
        self.write_register(offsets::LCR, LCR::DLAB.bits());
        self.write_register(offsets::DLL, (divisor % 256) as u8);
        self.write_register(offsets::DLM, (divisor / 256) as u8);
        // The frame clears DLAB too. The original driver makes this write, and `init` follows it.
        self.write_register(offsets::LCR, 0);
        self.write_register(offsets::LCR, frame.bits());
    }

    // Resets the FIFOs, enables them if there is a level, and returns whether they are on then.
    pub(crate) fn set_fifo(&mut self, level: Option<FifoTriggerLevel>) -> bool {
        self.write_register(offsets::FCR, fifo_control_of(level).bits());
        // A chip without FIFOs ignores FCR. Only ISR tells whether 16 bytes may follow a look, or
        // one. The other bytes of a burst would be lost on such a chip.
        match level {
            Some(_) => self.isr().fifo_enabled(),
            None => false,
        }
    }

    // Discards received bytes until none is available, or as many as the receiver can hold. More
    // are not discarded: a remote that never stops sending must not hold `init` for ever. What the
    // reads clear is not saved, since those errors are of bytes that nobody gets.
    pub(super) fn drain(&mut self) {
        for _turn in 0..MOST_WAITING {
            let lsr = LSR::from_bits_retain(self.read_plain(offsets::LSR));
            if !lsr.contains(LSR::DATA_READY) {
                return;
            }
            self.read_plain(offsets::DATA);
        }
    }

    // Reads the statuses without saving them, and enables the configured interrupts.
    pub(super) fn finish_init(&mut self) {
        // These reads come last, just before the interrupts are enabled: errors, changes of modem
        // lines and a pending THR_EMPTY that were left over would interrupt at once. Some arise in
        // `init` itself: the write of MCR may have ended a loopback, and that changes modem lines.
        // The read of ISR matters on a chip that shows THR_EMPTY while IER is 0.
        self.read_plain(offsets::LSR);
        self.read_plain(offsets::ISR);
        self.read_plain(offsets::MSR);
        self.saved_lsr = LSR::from_bits_retain(0);
        self.saved_msr = MSR::from_bits_retain(0);
        let interrupts = self.config.interrupts;
        self.write_register(offsets::IER, interrupts.bits());
    }

    /// Initialises the device with this configuration, which must be computable
    /// (`Config::is_computable`).
    ///
    /// A configuration that is not computable is no error of this call. Where it comes from
    /// elsewhere, call `checked_init`, which returns an error for it.
    ///
    /// Call it before any other call, again after raw accesses that changed the setup of the chip,
    /// and to change the configuration. Call it with the processor's interrupts masked: an
    /// interrupt may be pending before it returns.
    ///
    /// In this order it
    ///
    /// - computes the divisor, and checks that a device is present as `check_present` does;
    /// - disables all interrupts, writes the divisor to DLL and DLM, and the frame to LCR;
    /// - resets both FIFOs by FCR and, if a trigger level is configured, turns them on and reads
    ///   from ISR whether they are. ISR with bit 7 alone, as one known broken chip returns it,
    ///   counts as no FIFO;
    /// - discards received bytes, at most 17;
    /// - sets DTR, RTS and OUT2 in MCR, and clears loopback;
    /// - waits until LSR shows `TRANSMITTER_EMPTY`, at most `spin_limit` polls;
    /// - reads LSR, ISR and MSR to clear them, and writes the configured interrupts to IER.
    ///
    /// Afterwards no status bits are saved, `config` returns the new configuration, and
    /// `fifo_enabled` whether the FIFOs are on. SPR is unchanged. Bytes that were in the
    /// transmitter FIFO may be lost by the reset.
    ///
    /// A character in the shift register is not waited for before divisor and frame change, so the
    /// other end may receive it broken. One that is arriving may be received broken here, after
    /// `init` has returned. On a line that is in use call `init_with` with
    /// `TransmitterWait::First`, which waits before it writes them.
    ///
    /// Without a trigger level the FIFOs are off, and bytes are sent one at a time. Some versions
    /// of QEMU were reported to stall in this mode.
    ///
    /// A prescaler division factor takes part in the divisor alone: PSD is not written, so the chip
    /// has to divide its clock by the factor plus one already. `None` is as 0, which divides by
    /// one, and `Some(15)` divides by 16. A larger one is not computable.
    ///
    /// # Errors
    ///
    /// - `InvalidBaudRate` if the divisor is not a whole number, or does not fit into the divisor
    ///   latch. No access was made, and nothing changed.
    /// - `DeviceNotPresent` if SPR does not keep a pattern. SPR was written back, and the driver
    ///   has the new configuration. Saved bits and `fifo_enabled` are unchanged.
    /// - `Stalled` if the transmitter was not empty after `spin_limit` polls. The interrupts of the
    ///   device are disabled, the driver has the new configuration, and the status bits that the
    ///   polls cleared are saved.
    ///
    /// # Panics
    ///
    /// If the configuration is not computable (`Config::is_computable`). No access was made then.
    ///
    /// # Examples
    ///
    /// ```
    /// # include!(concat!(env!("CARGO_MANIFEST_DIR"), "/examples.rs"));
    /// # fn main() {}
    /// # fn example(uart: &mut Uart16550<Device>) -> Outcome<()> {
    /// uart.init(Config {
    ///     baud_rate: BaudRate::Baud38400,
    ///     ..Config::DEFAULT
    /// })?;
    /// # Ok(()) }
    /// ```
    ///
    /// # Proved
    ///
    /// If [`IsComputable`](uart_spec::proved::config#IsComputable) `config` (frequency and baud rate are not zero, and the prescaler division factor is absent or at most 15):
    ///
    /// - [Does as](crate::proved::driver#Did) [`Inits`](crate::proved::init#Inits) `config result`: the configuration is stored, the scratch register tested, divisor, frame and FIFO are set, the receiver is drained, and MCR is written; after a wait for an empty transmitter the statuses are read, and IER is written. Or nothing is done, if there is no divisor; or all up to the test that fails, or to the wait that reaches the limit.
    ///
    /// <details><summary>The clauses</summary>
    ///
    /// [How to read them](uart_spec::proved):
    ///
    /// ```text
    /// requires { IsComputable config }
    /// ensures { Did B.step (Inits config result) self.old self.new }
    /// ```
    ///
    /// </details>
    pub fn init(&mut self, config: Config) -> Result<(), InitError> {
        // The divisor comes before the first access, so that a configuration which cannot be had
        // changes nothing.
        let baud_rate = config.baud_rate.to_integer();
        let prescaler = config.prescaler_division_factor;
        match calc_divisor(config.frequency, baud_rate, prescaler) {
            Ok(divisor) => self.set_up(config, divisor),
            Err(cause) => Err(InitError::InvalidBaudRate(cause)),
        }
    }

    // Initialises the device with this configuration, whose divisor this is. This is a function of
    // its own for callers that have tested the configuration already, and so have its divisor.
    pub(crate) fn set_up(&mut self, config: Config, divisor: u16) -> Result<(), InitError> {
        // The configuration is stored first and then read in place. So it is copied once, and as a
        // whole. A copy that is read before it is stored is copied field by field.
        self.config = config;
        let frame = frame_of(&self.config);
        let level = self.config.fifo_trigger_level;
        if !self.check_present() {
            return Err(InitError::DeviceNotPresent);
        }
        self.set_line(divisor, frame);
        self.fifo_enabled = self.set_fifo(level);
        // FCR has emptied a FIFO. Without FIFO its reset does nothing, and an old byte would be the
        // first of the new session. The old bytes must be gone before MCR is written: DTR and RTS
        // tell the remote that we are ready, and what the remote sends then is not to be discarded.
        self.drain();
        // On a PC the gate of the interrupt line is open while OUT2 is set.
        let modem_control = MCR::DTR.union(MCR::RTS).union(MCR::OUT_2_INT_ENABLE);
        self.write_register(offsets::MCR, modem_control.bits());
        // FCR does not stop the character in the shift register, and without FIFO another may be
        // behind it. After the wait no old byte goes out among those of the new session. At 110
        // baud a character takes a tenth of a second.
        //
        // If the wait stalls, what its polls have cleared stays saved. The drain saved nothing, and
        // the saved bits are reset only at the end.
        if !self.wait_for(LSR::TRANSMITTER_EMPTY) {
            return Err(InitError::Stalled);
        }
        self.finish_init();
        Ok(())
    }
}
