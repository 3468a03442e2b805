//! The state of a device of vm-superio.

use std::error;
use std::fmt;
use uart_16550_chip::registers::{LCR, MCR, MSR, offsets};
use uart_16550_chip::{Chip, SerialState, VirtualPort};

/// How many characters wait at most in a device of vm-superio.
const MOST_WAITING: usize = 64;
/// Linux's trigger level, 8. That device does not keep what the guest wrote to FCR.
const FIFO_AT_8: u8 = 0x81;
const LINES: MSR = MSR::CTS.union(MSR::DSR).union(MSR::CD);

/// The state of a device of the crate `vm-superio`, so that a machine that was saved with that device goes on with this one.
///
/// The fields are those of its `SerialState`, by their names. What else it has follows from these: LSR, ISR, and that the FIFO is on, which
/// its ISR always shows.
///
/// # Examples
///
/// ```
/// use std::convert::Infallible;
/// use std::io::Read;
/// use uart_16550_vmm::uart_16550_chip::{NoEvents, Serial};
/// use uart_16550_vmm::{Input, SuperioState, TriggerBy};
///
/// // As it was saved.
/// let theirs = SuperioState {
///     baud_divisor_low: 12,
///     baud_divisor_high: 0,
///     interrupt_enable: 0x05,
///     line_control: 0x03,
///     modem_control: 0x0b,
///     modem_status: 0xb0,
///     scratch: 0,
///     in_buffer: b"a line that is longer than a FIFO\n",
/// };
/// let (state, rest) = theirs.to_state()?;
/// let trigger = TriggerBy(|| Ok::<(), Infallible>(()));
/// let mut serial = Serial::from_state(&state, trigger, NoEvents, Vec::new())?;
///
/// // The guest reads what was received, and then the rest comes, before what the host has now.
/// let terminal = std::io::empty();
/// let mut input = Input::new(rest.chain(terminal));
/// let mut line = Vec::new();
/// while serial.read(5) & 0x01 != 0 {
///     line.push(serial.read(0));
///     input.offer(&mut serial)?;
/// }
/// assert_eq!(line, theirs.in_buffer);
/// # Ok::<(), Box<dyn std::error::Error>>(())
/// ```
#[derive(Clone, Copy, Debug, PartialEq, Eq)]
pub struct SuperioState<'a> {
    /// DLL.
    pub baud_divisor_low: u8,
    /// DLM.
    pub baud_divisor_high: u8,
    /// IER.
    pub interrupt_enable: u8,
    /// LCR.
    pub line_control: u8,
    /// MCR.
    pub modem_control: u8,
    /// MSR.
    pub modem_status: u8,
    /// The scratch register.
    pub scratch: u8,
    /// The characters that wait, at most 64.
    pub in_buffer: &'a [u8],
}

/// More characters wait than a device of vm-superio has room for.
#[derive(Clone, Copy, Debug, PartialEq, Eq)]
pub struct TooManyWaitError(
    /// How many.
    pub usize,
);

impl fmt::Display for TooManyWaitError {
    fn fmt(&self, f: &mut fmt::Formatter<'_>) -> fmt::Result {
        write!(
            f,
            "{} characters wait, and a device of vm-superio has room for {MOST_WAITING}",
            self.0
        )
    }
}

impl error::Error for TooManyWaitError {}

impl<'a> SuperioState<'a> {
    /// Returns the state of a device that goes on, and the characters for which that has no room: its FIFO holds 16. Give it those as
    /// input before any other, and keep them in the machine's own state until they are received.
    ///
    /// The FIFO is on, with Linux's trigger level. [`Serial::from_state`](uart_16550_chip::Serial::from_state) triggers the interrupt if
    /// the line is up, so none is lost.
    ///
    /// # Errors
    ///
    /// If more than 64 characters wait.
    pub fn to_state(&self) -> Result<(SerialState, &'a [u8]), TooManyWaitError> {
        if self.in_buffer.len() > MOST_WAITING {
            return Err(TooManyWaitError(self.in_buffer.len()));
        }
        let mut port = VirtualPort::new(Chip::Uart16550A);
        let is_set = port.set_lines(self.lines());
        debug_assert!(is_set.is_ok());
        let mut write = |register: usize, value| _ = port.write(register as u8, value);
        write(offsets::FCR, FIFO_AT_8);
        write(offsets::LCR, LCR::DLAB.bits());
        write(offsets::DLL, self.baud_divisor_low);
        write(offsets::DLM, self.baud_divisor_high);
        write(offsets::LCR, 0);
        write(offsets::IER, self.interrupt_enable);
        write(offsets::SPR, self.scratch);
        // Before the guest's loopback, in which nothing comes.
        let taken = port.receive(self.in_buffer).count;
        port.write(offsets::LCR as u8, self.line_control);
        port.write(offsets::MCR as u8, self.modem_control);
        // No change of the lines is new to the guest.
        port.read(offsets::MSR as u8);
        Ok((SerialState::of_port(&port), &self.in_buffer[taken..]))
    }

    /// The lines of the host. In loopback MSR shows the guest's own outputs in their place.
    fn lines(&self) -> MSR {
        if MCR::from_bits_retain(self.modem_control).contains(MCR::LOOP_BACK) {
            LINES
        } else {
            MSR::from_bits_retain(self.modem_status) & MSR::LINES
        }
    }
}
