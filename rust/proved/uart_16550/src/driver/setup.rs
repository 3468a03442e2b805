//! Initialisation otherwise than by `init`, and changes of the trigger level and of the frame that
//! lose nothing.

use super::Uart16550;
use super::init::{fifo_control_of, frame_of};
use crate::backend::Backend;
use bitflags::Flags;
use uart_spec::registers::{FCR, FifoTriggerLevel, IER, LCR, LSR, MCR, offsets};
use uart_spec::{
    Config, ConfigRegisterDump, FifoAction, FifosOffError, FrameError, InitError, Setup,
    TransmitterWait, calc_divisor,
};

// Returns FCR for FIFOs that are on and stay on. Without the reset bits the bytes in them stay.
pub(super) fn level_control_of(level: FifoTriggerLevel) -> FCR {
    FCR::FIFO_ENABLE.set_fifo_trigger_level(level)
}

fn is_first(wait: TransmitterWait) -> bool {
    matches!(wait, TransmitterWait::First)
}

fn is_last(wait: TransmitterWait) -> bool {
    matches!(wait, TransmitterWait::Last)
}

impl<B: Backend> Uart16550<B> {
    /// Sets the trigger level of the receiver FIFO, and stores it in the driver's configuration.
    ///
    /// Writes FCR once, without a reset: the bytes in both FIFOs stay. Does not wait.
    ///
    /// # Errors
    ///
    /// `FifosOffError` if the FIFOs are off (`fifo_enabled`). No access was made, and nothing
    /// changed: a write that turns the FIFOs on empties them, which `init` does.
    ///
    /// # Examples
    ///
    /// ```
    /// # include!(concat!(env!("CARGO_MANIFEST_DIR"), "/examples.rs"));
    /// # fn main() {}
    /// # fn example(uart: &mut Uart16550<Device>) -> Outcome<()> {
    /// uart.set_trigger_level(FifoTriggerLevel::One)?;
    /// # Ok(()) }
    /// ```
    ///
    /// # Proved
    ///
    /// - [Does as](crate::proved::driver#Did) [`SetsTrigger`](crate::proved::setup#SetsTrigger) `level result`: with the FIFOs on, the level is stored and written to FCR; with them off, nothing is done, and the result is the error.
    ///
    /// <details><summary>The clauses</summary>
    ///
    /// [How to read them](uart_spec::proved):
    ///
    /// ```text
    /// ensures { Did B.step (SetsTrigger level result) self.old self.new }
    /// ```
    ///
    /// </details>
    pub fn set_trigger_level(&mut self, level: FifoTriggerLevel) -> Result<(), FifosOffError> {
        if !self.fifo_enabled {
            return Err(FifosOffError);
        }
        self.config.fifo_trigger_level = Some(level);
        // On a chip whose FIFOs are off this write would turn them on, and so empty them.
        self.write_register(offsets::FCR, level_control_of(level).bits());
        Ok(())
    }

    /// Waits until all that was sent is on the line, and then changes the baud rate and the frame,
    /// as `set_frame` does. The configuration must be computable (`Config::is_computable`).
    ///
    /// Polls LSR at most `spin_limit` times; error bits are saved for the next `lsr`. So no
    /// character is broken that goes out. One that comes in meanwhile is: agree with the remote
    /// when to change.
    ///
    /// # Errors
    ///
    /// - `InvalidBaudRate` if the divisor is not a whole number, or does not fit into the divisor
    ///   latch. No access was made, and nothing changed.
    /// - `Stalled` if the transmitter was not empty after `spin_limit` polls. Nothing was written,
    ///   and the driver's configuration is as it was.
    ///
    /// # Panics
    ///
    /// If the configuration is not computable (`Config::is_computable`). No access was made then.
    ///
    /// # Examples
    ///
    /// ```
    /// # include!(concat!(env!("CARGO_MANIFEST_DIR"), "/examples.rs"));
    /// # fn main() {}
    /// # fn example(uart: &mut Uart16550<Device>) -> Outcome<()> {
    /// uart.set_frame_when_idle(&Config {
    ///     baud_rate: BaudRate::Baud38400,
    ///     ..Config::DEFAULT
    /// })?;
    /// # Ok(()) }
    /// ```
    ///
    /// # Proved
    ///
    /// If [`IsComputable`](uart_spec::proved::config#IsComputable) `config.now` (frequency and baud rate are not zero, and the prescaler division factor is absent or at most 15):
    ///
    /// - [Does as](crate::proved::driver#Did) [`SetsFrameWhenIdle`](crate::proved::setup#SetsFrameWhenIdle) `config.now result`: after a wait for an empty transmitter all is as in `set_frame`; or there is no divisor, and nothing is done; or the wait reaches the limit, and nothing is written.
    ///
    /// <details><summary>The clauses</summary>
    ///
    /// [How to read them](uart_spec::proved):
    ///
    /// ```text
    /// requires { IsComputable config.now }
    /// ensures { Did B.step (SetsFrameWhenIdle config.now result) self.old self.new }
    /// ```
    ///
    /// </details>
    pub fn set_frame_when_idle(&mut self, config: &Config) -> Result<(), FrameError> {
        let baud_rate = config.baud_rate.to_integer();
        let prescaler = config.prescaler_division_factor;
        // The divisor comes before the wait, so that a refusal makes no access.
        let divisor = match calc_divisor(config.frequency, baud_rate, prescaler) {
            Ok(divisor) => divisor,
            Err(cause) => return Err(FrameError::InvalidBaudRate(cause)),
        };
        if !self.wait_for(LSR::TRANSMITTER_EMPTY) {
            return Err(FrameError::Stalled);
        }
        self.store_frame(config);
        self.write_frame(divisor, frame_of(config));
        Ok(())
    }

    // Checks that a device is present, if that is asked for.
    fn is_present(&mut self, asked: bool) -> bool {
        !asked || self.check_present()
    }

    // Waits until the transmitter is empty, if that is asked for.
    fn is_emptied(&mut self, asked: bool) -> bool {
        !asked || self.wait_for(LSR::TRANSMITTER_EMPTY)
    }

    /// Initialises the device with this configuration, which must be computable
    /// (`Config::is_computable`), otherwise than `init` does: without the check of the scratch
    /// register, with the wait for the transmitter first or not at all, or with other outputs.
    ///
    /// What it does is in the order of `init`, except for the wait if it comes first: it comes then
    /// between the check and the first write. With `Setup::DEFAULT` it makes the accesses of
    /// `init`.
    ///
    /// # Errors
    ///
    /// - `InvalidBaudRate` as for `init`. No access was made, and nothing changed.
    /// - `DeviceNotPresent` as for `init`, if the check is asked for.
    /// - `Stalled` if the transmitter was not empty after `spin_limit` polls, if a wait is asked
    ///   for. The driver has the new configuration, and the status bits that the polls cleared are
    ///   saved. If the wait came first, nothing was written except the scratch register, and the
    ///   interrupts of the device are as they were; else they are disabled.
    ///
    /// # Panics
    ///
    /// If the configuration is not computable (`Config::is_computable`). No access was made then.
    ///
    /// # Examples
    ///
    /// ```
    /// # include!(concat!(env!("CARGO_MANIFEST_DIR"), "/examples.rs"));
    /// # fn main() {}
    /// # fn example(uart: &mut Uart16550<Device>) -> Outcome<()> {
    /// // A chip without a scratch register, at the clock of its board.
    /// let setup = Setup {
    ///     checks_presence: false,
    ///     ..Setup::DEFAULT
    /// };
    /// uart.init_with(Config::DEFAULT, &setup)?;
    /// # Ok(()) }
    /// ```
    ///
    /// # Proved
    ///
    /// If [`IsComputable`](uart_spec::proved::config#IsComputable) `config` (frequency and baud rate are not zero, and the prescaler division factor is absent or at most 15):
    ///
    /// - [Does as](crate::proved::driver#Did) [`InitsWith`](crate::proved::setup#InitsWith) `setup.now config result`: as `init`, with the test, the wait and the outputs of this setup. The configuration is stored; the test and the wait that is to be first are made; divisor, frame and FIFO are set, the receiver is drained, and MCR is written; the wait that is to be last is made; the statuses are read, and IER is written. Or nothing is done, if there is no divisor; or all up to the test that fails, or to the wait that reaches the limit.
    ///
    /// <details><summary>The clauses</summary>
    ///
    /// [How to read them](uart_spec::proved):
    ///
    /// ```text
    /// requires { IsComputable config }
    /// ensures { Did B.step (InitsWith setup.now config result) self.old self.new }
    /// ```
    ///
    /// </details>
    pub fn init_with(&mut self, config: Config, setup: &Setup) -> Result<(), InitError> {
        let baud_rate = config.baud_rate.to_integer();
        let prescaler = config.prescaler_division_factor;
        match calc_divisor(config.frequency, baud_rate, prescaler) {
            Ok(divisor) => self.set_up_with(config, setup, divisor),
            Err(cause) => Err(InitError::InvalidBaudRate(cause)),
        }
    }

    // Initialises the device with this configuration, whose divisor this is, as `setup` asks.
    pub(crate) fn set_up_with(
        &mut self,
        config: Config,
        setup: &Setup,
        divisor: u16,
    ) -> Result<(), InitError> {
        self.config = config;
        let frame = frame_of(&self.config);
        let level = self.config.fifo_trigger_level;
        if !self.is_present(setup.checks_presence) {
            return Err(InitError::DeviceNotPresent);
        }
        if !self.is_emptied(is_first(setup.wait)) {
            return Err(InitError::Stalled);
        }
        self.set_line(divisor, frame);
        self.fifo_enabled = self.set_fifo(level);
        self.drain();
        self.set_modem_control(setup.outputs);
        if !self.is_emptied(is_last(setup.wait)) {
            return Err(InitError::Stalled);
        }
        self.finish_init();
        Ok(())
    }

    // Returns the trigger level for FIFOs that are on: the configured one, or one byte if none is
    // configured, as on a port that was taken by `attach`.
    pub(super) fn fifo_level(&self) -> FifoTriggerLevel {
        self.config
            .fifo_trigger_level
            .unwrap_or(FifoTriggerLevel::One)
    }

    // Returns the trigger level for FIFOs that are on, and none for FIFOs that are off.
    pub(super) fn level_of(&self, on: bool) -> Option<FifoTriggerLevel> {
        if on { Some(self.fifo_level()) } else { None }
    }

    // Writes FCR as is asked for, and returns whether the FIFOs are on then.
    fn change_fifos(&mut self, action: FifoAction) -> bool {
        let on = self.fifo_enabled;
        match action {
            FifoAction::Keep => on,
            FifoAction::Reset => {
                let control = fifo_control_of(self.level_of(on));
                self.write_register(offsets::FCR, control.bits());
                on
            }
            FifoAction::Disable => {
                self.write_register(offsets::FCR, fifo_control_of(None).bits());
                false
            }
        }
    }

    /// Leaves the port, so that the chip interrupts nobody: disables all interrupts, writes the
    /// outputs to the modem, and does with the FIFOs what is asked for.
    ///
    /// Does not wait: what is still in the transmitter goes out, if the FIFOs are kept. `LOOP_BACK`
    /// is left out of the outputs. Afterwards the driver's configuration has no interrupts. `init`,
    /// or `restore` with a dump that was made before, takes the port up again.
    ///
    /// Reads no received byte. Some chips show `DATA_READY` behind a reset of the FIFOs, or after
    /// they were turned off: a receive behind this call may return a byte from before, or one that
    /// never arrived. `init` discards it.
    ///
    /// # Examples
    ///
    /// ```
    /// # include!(concat!(env!("CARGO_MANIFEST_DIR"), "/examples.rs"));
    /// # fn main() {}
    /// # fn example(uart: &mut Uart16550<Device>) -> Outcome<()> {
    /// uart.flush()?;
    /// uart.quiesce(MCR::from_bits_retain(0), FifoAction::Disable);
    /// # Ok(()) }
    /// ```
    ///
    /// # Proved
    ///
    /// - [Does as](crate::proved::driver#Did) [`Quiesces`](crate::proved::setup#Quiesces) `outputs.0 fifos`: all interrupts are disabled, the outputs are written to MCR, without loopback, and then FCR, if the FIFOs are to be reset or disabled.
    ///
    /// <details><summary>The clauses</summary>
    ///
    /// [How to read them](uart_spec::proved):
    ///
    /// ```text
    /// ensures { Did B.step (Quiesces outputs.0 fifos) self.old self.new }
    /// ```
    ///
    /// </details>
    pub fn quiesce(&mut self, outputs: MCR, fifos: FifoAction) {
        self.config.interrupts = IER::from_bits_retain(0);
        // The interrupts come first, so that none is raised by what the outputs change.
        self.write_register(offsets::IER, 0);
        self.set_modem_control(outputs);
        self.fifo_enabled = self.change_fifos(fifos);
    }

    /// Writes to the chip what a dump of its registers shows, for example after it was without
    /// power: the divisor, the frame, the FIFOs, the outputs, the scratch register, and in the end
    /// the interrupts, which are stored in the driver's configuration.
    ///
    /// Both FIFOs are emptied. If they were on, they get the level of the configuration, since a
    /// chip does not show its own, and ISR tells whether they are on now (`fifo_enabled`). `DLAB`
    /// and `LOOP_BACK` are left out. Does not wait, and discards nothing that is saved for the next
    /// `lsr` or `msr`. The other fields of the configuration stay as they are.
    ///
    /// Reads no received byte. On a chip that shows `DATA_READY` behind the reset of its FIFOs the
    /// next receive may return a byte from before, or one that never arrived: receive what waits,
    /// and discard it.
    ///
    /// # Examples
    ///
    /// ```
    /// # include!(concat!(env!("CARGO_MANIFEST_DIR"), "/examples.rs"));
    /// # fn main() {}
    /// # fn example(uart: &mut Uart16550<Device>) -> Outcome<()> {
    /// let before = uart.config_register_dump();
    /// uart.restore(&before);
    /// # Ok(()) }
    /// ```
    ///
    /// # Proved
    ///
    /// - [Does as](crate::proved::driver#Did) [`Restores`](crate::proved::setup#Restores) `dump.now`: divisor and frame, the FIFOs, and then MCR without loopback, SPR and IER are written as the dump has them. If it has the FIFOs on, ISR shows whether they are.
    ///
    /// <details><summary>The clauses</summary>
    ///
    /// [How to read them](uart_spec::proved):
    ///
    /// ```text
    /// ensures { Did B.step (Restores dump.now) self.old self.new }
    /// ```
    ///
    /// </details>
    pub fn restore(&mut self, dump: &ConfigRegisterDump) {
        self.config.interrupts = dump.ier;
        self.set_line(dump.divisor(), dump.lcr.difference(LCR::DLAB));
        let level = self.level_of(dump.isr.fifo_enabled());
        let on = self.set_fifo(level);
        self.set_modem_control(dump.mcr);
        self.write_register(offsets::SPR, dump.spr);
        // `set_line` has disabled all interrupts. They come back last, when a handler finds all
        // else as it was.
        self.write_register(offsets::IER, dump.ier.bits());
        self.fifo_enabled = on;
    }
}
