//! A console for last words: it works from any state of the chip, also after a call that somebody else will never finish.
//!
//! A panic may come in the middle of a call: of `send_bytes`, of an `init`, of a loopback test. Whoever made it does not go on, so its
//! driver is in use for ever, and the chip may have DLAB set, be in loopback, or have half of a divisor. An [`EmergencyConsole`] is a
//! new driver over the same registers. It trusts no state, and each of its waits ends.
//!
//! [The guide of interrupts](crate::ring#when-the-program-panics) has a table of the accesses that it makes.
//!
//! FIFOs are not reset, and nothing received is read: what was on its way goes out first. One byte at a time goes out, since the FIFOs
//! may be off. Without `set_frame`, LCR keeps its frame, and the divisor latch its divisor.
//!
//! Its calls are those of the proved driver, but for the writes of `take_over`. What they come to together is tested: with a driver
//! that stops at each access of each of its calls.

use crate::access::offset_of;
#[cfg(target_has_atomic = "8")]
use crate::shared::{AllStopped, Rings};
use crate::native::backend::Backend;
use crate::native::embedded_io::Write as _;
use crate::native::spec::registers::{LCR, MCR, offsets};
use crate::native::{
    AttachError, Config, DriverState, InvalidDivisorError, StalledError, Uart16550, Uart16550Tty,
};
use core::fmt;
use core::num::NonZeroU64;

// What `take_over` leaves of MCR. The rest would hold text back: loopback, and a flow control by the chip.
const GENERAL_OUTPUTS: MCR = MCR::OUT_1.union(MCR::OUT_2_INT_ENABLE);

// What of LCR keeps text from going out as text.
const NO_TEXT: LCR = LCR::DLAB.union(LCR::SET_BREAK);

/// A console for last words.
///
/// Text goes out as on a terminal: a line feed as carriage return and line feed.
///
/// After a wait that came to its end, the next text waits no longer: each byte that finds no room at once ends it. So a chip that is
/// stuck takes little more time than the patience, however long the text is. A text that is sent brings the patience back.
///
/// # Examples
///
/// ```
/// use core::fmt::Write;
/// use core::num::NonZeroU64;
/// use uart_16550::emergency::EmergencyConsole;
/// use uart_16550::native::Config;
/// # include!(concat!(env!("CARGO_MANIFEST_DIR"), "/tests/common/board.rs"));
/// # fn handle_interrupt() { unreachable!() }
///
/// /// In polls: about a second.
/// const PATIENCE: NonZeroU64 = NonZeroU64::new(1_000_000).unwrap();
///
/// fn last_words(text: core::fmt::Arguments<'_>) -> ! {
///     board::mask_interrupts();
///     board::stop_other_processors();
///     // SAFETY: this processor returns to no call, and the others have stopped. So nothing else accesses
///     // the device from here on.
///     let console = unsafe { EmergencyConsole::take_over(board::registers(), PATIENCE) };
///     if let Ok(mut console) = console {
///         let _ = console.set_frame(&Config::DEFAULT);
///         let _ = console.write_fmt(text);
///         let _ = console.flush();
///     }
///     board::halt()
/// }
/// # fn main() {
/// #     board::chip().cells[3] = 0x83; // the panic came while DLAB was on
/// #     let ended = std::panic::catch_unwind(|| last_words(format_args!("\nno {}", "memory")));
/// #     assert!(ended.is_err());
/// #     assert_eq!(board::chip().sent, b"\r\nno memory");
/// # }
/// ```
#[derive(Debug)]
pub struct EmergencyConsole<B> {
    terminal: Uart16550Tty<B>,
    patience: NonZeroU64,
}

impl<B: Backend> EmergencyConsole<B> {
    /// Takes a port over, and brings it into a state in which text goes out. `patience` is how many polls in a row a wait makes.
    ///
    /// # Errors
    ///
    /// - `DivisorLatchOpen` if DLAB or the break is still set after `patience` writes: there is no device, or it is broken.
    /// - `Loopback` if the chip is still in loopback.
    ///
    /// # Safety
    ///
    /// Whoever accessed the device before does not go on: no call over another driver for it is finished, on no processor, and
    /// none is begun. That makes true what the constructor of the backend was promised, that nothing else accesses the registers,
    /// though another object for them is still there.
    ///
    /// # Examples
    ///
    /// Those of the type.
    // A declaration alone: nothing unsafe is done here. The promise is about two objects for one device.
    #[allow(unsafe_code)]
    pub unsafe fn take_over(backend: B, patience: NonZeroU64) -> Result<Self, AttachError> {
        // Nobody knows whether the FIFOs are on: the chip may have none, or an `init` that a panic ended has switched them off. So
        // each byte waits for the one before it. The second of a burst would be lost.
        let state = DriverState {
            fifo_enabled: false,
            spin_limit: patience,
            ..DriverState::new()
        };
        let mut uart = Uart16550::from_state(backend, &state);
        close_latch(&mut uart, patience)?;
        uart.backend_mut().write(offset_of(offsets::IER), 0);
        leave_loopback(&mut uart)?;
        Ok(Self {
            terminal: Uart16550Tty::from_inner(uart),
            patience,
        })
    }

    /// Waits until the transmitter is empty, at most as long as the patience, and sets baud rate and frame, as
    /// [`Uart16550::set_frame`] does.
    ///
    /// # Errors
    ///
    /// Those of [`Uart16550::set_frame`], and they too if the configuration is not computable. Nothing changed then.
    ///
    /// # Examples
    ///
    /// Those of the type.
    pub fn set_frame(&mut self, config: &Config) -> Result<(), InvalidDivisorError> {
        // If it does not become empty, the rate may be why: an `init` that stopped has left a divisor of 0.
        let _is_empty = self.flush();
        self.terminal.inner_mut().checked_set_frame(config)
    }

    /// Sends text that need not be UTF-8, with ends of lines as terminals expect them.
    ///
    /// # Errors
    ///
    /// `StalledError`, with how many bytes of what goes out were sent, if a wait came to its end.
    ///
    /// # Examples
    ///
    /// ```
    /// # use core::num::NonZeroU64;
    /// # use uart_16550::emergency::EmergencyConsole;
    /// # include!(concat!(env!("CARGO_MANIFEST_DIR"), "/tests/common/board.rs"));
    /// # fn handle_interrupt() { unreachable!() }
    /// # fn main() {
    /// # let patience = NonZeroU64::MIN;
    /// # let mut console = unsafe { EmergencyConsole::take_over(board::registers(), patience) }.unwrap();
    /// assert_eq!(console.write_raw_text(b"caf\xe9\n"), Ok(()));
    /// # assert_eq!(board::chip().sent, b"caf\xe9\r\n");
    /// # }
    /// ```
    pub fn write_raw_text(&mut self, text: &[u8]) -> Result<(), StalledError> {
        let sent = self.terminal.write_raw_text(text);
        self.be_patient_if(sent.is_ok());
        sent
    }

    /// Sends bytes as they are.
    ///
    /// # Errors
    ///
    /// `StalledError`, with how many bytes were sent, if a wait came to its end.
    ///
    /// # Examples
    ///
    /// ```
    /// # use core::num::NonZeroU64;
    /// # use uart_16550::emergency::EmergencyConsole;
    /// # include!(concat!(env!("CARGO_MANIFEST_DIR"), "/tests/common/board.rs"));
    /// # fn handle_interrupt() { unreachable!() }
    /// # fn main() {
    /// # let patience = NonZeroU64::MIN;
    /// # let mut console = unsafe { EmergencyConsole::take_over(board::registers(), patience) }.unwrap();
    /// assert_eq!(console.send_bytes(b"\xff\r\n"), Ok(()));
    /// # }
    /// ```
    pub fn send_bytes(&mut self, bytes: &[u8]) -> Result<(), StalledError> {
        let sent = self.terminal.inner_mut().send_bytes_exact(bytes);
        self.be_patient_if(sent.is_ok());
        sent
    }

    /// Sends what waits in the transmit ring of these shared rings, the oldest byte first: the lines before the panic, which a write
    /// has put there. The rings may be in use by the call in which the panic came. They are read, and not changed, and no lock is
    /// taken. It is all the same whether the rings are held or stuck.
    ///
    /// Call it after [`set_frame`](Self::set_frame), before the last words. Bytes of the burst in which the panic came are still in
    /// the ring, so they may be sent twice: at most as many as the FIFO holds. An urgent byte is not sent. Without rings it sends
    /// nothing.
    ///
    /// # Errors
    ///
    /// `StalledError`, with how many bytes were sent, if a wait came to its end.
    ///
    /// # Safety
    ///
    /// Nobody who was in a call over these rings goes on with it, on no processor, and no call over them is begun.
    ///
    /// # Examples
    ///
    /// ```
    /// # use core::fmt::Write;
    /// # use core::num::NonZeroU64;
    /// # use uart_16550::emergency::EmergencyConsole;
    /// # include!(concat!(env!("CARGO_MANIFEST_DIR"), "/tests/common/shared.rs"));
    /// # fn main() {
    /// # start();
    /// # let patience = NonZeroU64::MIN;
    /// # PORT.with(|ring| { ring.hold_transmit(); ring.queue(b"a line before. ") }).unwrap();
    /// # let mut console = unsafe { EmergencyConsole::take_over(board::registers(), patience) }.unwrap();
    /// // SAFETY: as of `take_over`, this processor returns to no call, and the others have stopped.
    /// let _ = unsafe { console.send_queued(&PORT) };
    /// let _ = console.write_str("no memory");
    /// # assert_eq!(board::chip().sent, b"a line before. no memory");
    /// # }
    /// ```
    #[cfg(target_has_atomic = "8")]
    #[allow(unsafe_code)]
    pub unsafe fn send_queued(&mut self, rings: &impl Rings) -> Result<(), StalledError> {
        // SAFETY: the caller promises it.
        let stopped = unsafe { AllStopped::new() };
        let Some(rings) = rings.seize(stopped) else {
            return Ok(());
        };
        let (first, second) = rings.queued();
        self.send_bytes(first)?;
        self.send_bytes(second).map_err(|stalled| StalledError {
            done: first.len() + stalled.done,
        })
    }

    /// Waits until all is on the line, at most as long as the patience.
    ///
    /// # Errors
    ///
    /// `StalledError` if it came to its end.
    ///
    /// # Examples
    ///
    /// Those of the type.
    pub fn flush(&mut self) -> Result<(), StalledError> {
        self.terminal.inner_mut().flush()
    }

    /// Returns the driver. Makes no access.
    ///
    /// # Examples
    ///
    /// ```
    /// # use uart_16550::emergency::EmergencyConsole;
    /// # use uart_16550::native::Uart16550;
    /// # fn example<B: uart_16550::native::backend::Backend>(console: EmergencyConsole<B>) -> Uart16550<B> {
    /// console.into_inner()
    /// # }
    /// ```
    pub fn into_inner(self) -> Uart16550<B> {
        self.terminal.into_inner()
    }

    // Waits as long as at first, or no longer.
    fn be_patient_if(&mut self, is_sent: bool) {
        let limit = if is_sent {
            self.patience
        } else {
            NonZeroU64::MIN
        };
        self.terminal.inner_mut().set_spin_limit(limit);
    }
}

impl<B: Backend> fmt::Write for EmergencyConsole<B> {
    fn write_str(&mut self, text: &str) -> fmt::Result {
        let sent = self.terminal.write_str(text);
        self.be_patient_if(sent.is_ok());
        sent
    }
}

// Writes LCR until DLAB and the break are off.
fn close_latch<B: Backend>(
    uart: &mut Uart16550<B>,
    patience: NonZeroU64,
) -> Result<(), AttachError> {
    for _write in 0..patience.get() {
        let lcr = uart.lcr();
        if !lcr.intersects(NO_TEXT) {
            return Ok(());
        }
        uart.backend_mut()
            .write(offset_of(offsets::LCR), lcr.difference(NO_TEXT).bits());
    }
    // The last write may have done it.
    if uart.lcr().intersects(NO_TEXT) {
        return Err(AttachError::DivisorLatchOpen);
    }
    Ok(())
}

// Takes the chip out of loopback, and lets the other end send and receive.
fn leave_loopback<B: Backend>(uart: &mut Uart16550<B>) -> Result<(), AttachError> {
    let kept = uart.mcr().intersection(GENERAL_OUTPUTS);
    uart.set_modem_control(kept.union(MCR::DTR).union(MCR::RTS));
    if uart.mcr().contains(MCR::LOOP_BACK) {
        return Err(AttachError::Loopback);
    }
    Ok(())
}
