//! The state of a device as plain data, and back.

use super::after_firmware;
use crate::{ArrayVec, Chip, ChipData, LiveChip, RestoreError, Restored, VirtualPort, WIRE_ROOM};
use core::error;
use core::fmt;

/// The state of a device: its chip as plain data, and the output that the host has not taken.
///
/// It travels as bytes: [`to_bytes`](SerialState::to_bytes) and [`from_bytes`](SerialState::from_bytes). What the trigger was told is not
/// in it: it is told anew when the device is restored.
///
/// # Examples
///
/// A port is saved as bytes, and restored:
///
/// ```
/// use uart_16550_chip::{Chip, SerialState, VirtualPort};
///
/// let mut port = VirtualPort::new(Chip::Uart16550A);
/// port.write(0, b'>');
/// let bytes = SerialState::of_port(&port).to_bytes();
///
/// let state = SerialState::from_bytes(&bytes)?;
/// let restored = VirtualPort::from_data(&state.chip, &state.output)?;
/// assert_eq!(restored.port.output(), b">");
/// # Ok::<(), Box<dyn std::error::Error>>(())
/// ```
#[derive(Clone, Copy, Debug, PartialEq, Eq)]
#[non_exhaustive]
pub struct SerialState {
    /// The chip.
    pub chip: ChipData,
    /// What the output has not taken.
    pub output: ArrayVec<u8, WIRE_ROOM>,
}

impl SerialState {
    /// Returns the state of a port.
    #[must_use]
    pub fn of_port(port: &VirtualPort) -> Self {
        Self::of_parts(port.data(), port.output())
    }

    /// Returns the state of a chip. The output is what is on its wire.
    #[must_use]
    pub fn of_chip(chip: &LiveChip) -> Self {
        Self::of_parts(chip.data(), chip.wire())
    }

    /// The state with a chip, and what it has sent.
    #[allow(clippy::large_types_passed_by_value, reason = "it is kept")]
    fn of_parts(chip: ChipData, sent: &[u8]) -> Self {
        // A wire has room for at most so many bytes.
        let output = ArrayVec::try_from(sent).unwrap_or_default();
        debug_assert_eq!(output.as_slice(), sent);
        SerialState { chip, output }
    }

    /// The port of a device with this state, and what has to be done.
    pub(super) fn port(&self) -> Result<Restored, BadState> {
        // A device has a 16550A, which cuts nothing: no call makes it another.
        if self.chip.model != Chip::Uart16550A || self.chip.cuts {
            return Err(BadState::Chip(RestoreError::BadData));
        }
        VirtualPort::from_data(&self.chip, &self.output).map_err(BadState::Chip)
    }
}

/// The state of a device that [`Serial::new`](super::Serial::new) returns.
impl Default for SerialState {
    fn default() -> Self {
        Self::of_port(&after_firmware(VirtualPort::new(Chip::Uart16550A)))
    }
}

/// Why a state is that of no device, or bytes are those of no state.
#[derive(Clone, Copy, Debug, PartialEq, Eq)]
#[non_exhaustive]
pub enum BadState {
    /// The bytes do not begin as those of a state do.
    NoState,
    /// The bytes have a version that this release does not know.
    Version(u16),
    /// There are fewer bytes than belong here, or more: of all of them if the offset is that of their length, else of a part.
    Length {
        /// Where.
        offset: usize,
    },
    /// A later release has added a part without which a device would not be the same.
    UnknownPart {
        /// Its kind.
        kind: u8,
    },
    /// A part is not there.
    MissingPart {
        /// Its kind.
        kind: u8,
    },
    /// A byte is none that its field can have.
    Value {
        /// Where it is.
        offset: usize,
    },
    /// Its chip, with its output, is that of no device.
    Chip(RestoreError),
}

impl fmt::Display for BadState {
    fn fmt(&self, f: &mut fmt::Formatter<'_>) -> fmt::Result {
        match self {
            BadState::NoState => f.write_str("the bytes are those of no state"),
            BadState::Version(version) => write!(f, "states of version {version} are not known"),
            BadState::Length { offset } => {
                write!(
                    f,
                    "at offset {offset} the state has too few bytes, or too many"
                )
            }
            BadState::UnknownPart { kind } => {
                write!(
                    f,
                    "the state has a part of the kind {kind}, which is not known"
                )
            }
            BadState::MissingPart { kind } => write!(f, "the state has no part of the kind {kind}"),
            BadState::Value { offset } => {
                write!(
                    f,
                    "at offset {offset} the state has a byte that cannot be there"
                )
            }
            BadState::Chip(reason) => reason.fmt(f),
        }
    }
}

impl error::Error for BadState {}

/// Why no device was restored, with what was passed to it.
pub struct FromStateError<T, EV, W> {
    /// Why the state is refused.
    pub reason: BadState,
    /// What raises the interrupt.
    pub trigger: T,
    /// The events.
    pub events: EV,
    /// The output.
    pub out: W,
}

impl<T, EV, W> fmt::Debug for FromStateError<T, EV, W> {
    fn fmt(&self, f: &mut fmt::Formatter<'_>) -> fmt::Result {
        f.debug_struct("FromStateError")
            .field("reason", &self.reason)
            .finish_non_exhaustive()
    }
}

impl<T, EV, W> fmt::Display for FromStateError<T, EV, W> {
    fn fmt(&self, f: &mut fmt::Formatter<'_>) -> fmt::Result {
        self.reason.fmt(f)
    }
}

impl<T, EV, W> error::Error for FromStateError<T, EV, W> {}
