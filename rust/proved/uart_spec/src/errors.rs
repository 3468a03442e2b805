//! The errors of the baud rate arithmetic and of the driver.
use crate::registers::{IER, LCR, MCR};
use std::fmt;
use std::fmt::Write as _;

/// A clock frequency and a divisor that give no whole baud rate.
#[derive(Clone, Debug, Default, PartialEq, Eq, PartialOrd, Hash)]
pub struct NonIntegerBaudRateError {
    /// The clock frequency, in hertz.
    pub frequency: u32,
    /// The divisor.
    pub divisor: u32,
    /// The prescaler division factor.
    pub prescaler_division_factor: Option<u32>,
}

#[automatically_derived]
impl std::fmt::Display for NonIntegerBaudRateError {
    fn fmt(&self, f: &mut std::fmt::Formatter<'_>) -> std::fmt::Result {
        match self {
            Self {
                frequency,
                divisor,
                prescaler_division_factor,
            } => {
                ({
                    (f.write_fmt(format_args!(
                        "Input values do not result in even (integer representable) baud rate! frequency={frequency}, divisor={divisor}, prescaler_division_factor={prescaler_division_factor:?}"
                    )))
                })
            }
        }
    }
}

#[automatically_derived]
impl std::error::Error for NonIntegerBaudRateError {}

/// A clock frequency and a baud rate for which there is no whole divisor.
#[derive(Clone, Debug, Default, PartialEq, Eq, PartialOrd, Hash)]
pub struct NonIntegerDivisorError {
    /// The clock frequency, in hertz.
    pub frequency: u32,
    /// The baud rate, in bits per second.
    pub baud_rate: u32,
    /// The prescaler division factor.
    pub prescaler_division_factor: Option<u32>,
}

#[automatically_derived]
impl std::fmt::Display for NonIntegerDivisorError {
    fn fmt(&self, f: &mut std::fmt::Formatter<'_>) -> std::fmt::Result {
        match self {
            Self {
                frequency,
                baud_rate,
                prescaler_division_factor,
            } => {
                ({
                    (f.write_fmt(format_args!(
                        "input values do not result in even (integer representable) baud rate! frequency={frequency}, baud_rate={baud_rate}, prescaler_division_factor={prescaler_division_factor:?}"
                    )))
                })
            }
        }
    }
}

#[automatically_derived]
impl std::error::Error for NonIntegerDivisorError {}

/// Why a port cannot be taken as it is.
#[cfg_attr(not(feature = "exhaustive"), non_exhaustive)]
#[derive(Clone, Copy, Debug, PartialEq, Eq, PartialOrd, Hash)]
pub enum AttachError {
    /// DLAB is set: offsets 0 and 1 are the divisor latch.
    DivisorLatchOpen,
    /// The chip is in loopback.
    Loopback,
    /// The divisor latch reads as 0: no port is set up there, or there is none.
    NoDivisor,
}

#[automatically_derived]
impl std::fmt::Display for AttachError {
    fn fmt(&self, f: &mut std::fmt::Formatter<'_>) -> std::fmt::Result {
        match self {
            Self::DivisorLatchOpen => {
                ({ (f.write_fmt(format_args!("the divisor latch was left open"))) })
            }
            Self::Loopback => { ({ (f.write_fmt(format_args!("the chip was left in loopback"))) }) }
            Self::NoDivisor => { ({ (f.write_fmt(format_args!("the port has no divisor"))) }) }
        }
    }
}

#[automatically_derived]
impl std::error::Error for AttachError {}

/// The FIFOs are off, so they have no trigger level.
#[derive(Clone, Copy, Debug, PartialEq, Eq, PartialOrd, Hash)]
pub struct FifosOffError;

#[automatically_derived]
impl std::fmt::Display for FifosOffError {
    fn fmt(&self, f: &mut std::fmt::Formatter<'_>) -> std::fmt::Result {
        match self {
            Self => { ({ (f.write_fmt(format_args!("the FIFOs are off"))) }) }
        }
    }
}

#[automatically_derived]
impl std::error::Error for FifosOffError {}

/// Why a change of the frame that waits for an empty transmitter failed.
#[cfg_attr(not(feature = "exhaustive"), non_exhaustive)]
#[derive(Clone, Debug, PartialEq, Eq, Hash)]
pub enum FrameError {
    /// There is no divisor for the baud rate. No access was made, and nothing changed.
    InvalidBaudRate(InvalidDivisorError),
    /// The transmitter did not become empty within the spin limit. Nothing was written.
    Stalled,
}

#[automatically_derived]
impl std::fmt::Display for FrameError {
    fn fmt(&self, f: &mut std::fmt::Formatter<'_>) -> std::fmt::Result {
        match self {
            Self::InvalidBaudRate(_0) => {
                ({ (f.write_fmt(format_fields!("invalid baud rate: {0}", _0))) })
            }
            Self::Stalled => { ({ (f.write_fmt(format_args!("the device stalled"))) }) }
        }
    }
}

/// What a chip shows in place of what was written to it. The first difference is told, in the order
/// of the cases.
#[cfg_attr(not(feature = "exhaustive"), non_exhaustive)]
#[derive(Clone, Copy, Debug, PartialEq, Eq, Hash)]
pub enum ConfigurationError {
    /// The configuration of the driver has no divisor, so no chip can be set up so. No access was
    /// made.
    NoDivisor,
    /// LCR shows another frame; or DLAB, which is set to reach the divisor latch, was not set or
    /// not cleared. A DesignWare UART ignores LCR while it is busy.
    LineControl {
        /// What was written to LCR.
        expected: LCR,
        /// What LCR shows.
        shown: LCR,
    },
    /// MCR shows other outputs, or loopback.
    ModemControl {
        /// What was written to MCR.
        expected: MCR,
        /// What MCR shows.
        shown: MCR,
    },
    /// IER shows other interrupts.
    Interrupts {
        /// The interrupts that were enabled.
        expected: IER,
        /// What IER shows.
        shown: IER,
    },
    /// The divisor latch has another divisor.
    Divisor {
        /// The divisor for the baud rate.
        expected: u16,
        /// What the divisor latch shows.
        shown: u16,
    },
    /// ISR shows FIFOs that are on where the driver takes them to be off, or the other way round.
    Fifos {
        /// Whether the driver takes the FIFOs to be on.
        expected: bool,
        /// Whether ISR shows that they are on.
        shown: bool,
    },
}

#[automatically_derived]
impl std::fmt::Display for ConfigurationError {
    fn fmt(&self, f: &mut std::fmt::Formatter<'_>) -> std::fmt::Result {
        match self {
            Self::NoDivisor => {
                ({ (f.write_fmt(format_args!("there is no divisor for the baud rate"))) })
            }
            Self::LineControl { expected, shown } => {
                ({ (f.write_fmt(format_args!("LCR shows {shown:?}, and not {expected:?}"))) })
            }
            Self::ModemControl { expected, shown } => {
                ({ (f.write_fmt(format_args!("MCR shows {shown:?}, and not {expected:?}"))) })
            }
            Self::Interrupts { expected, shown } => {
                ({ (f.write_fmt(format_args!("IER shows {shown:?}, and not {expected:?}"))) })
            }
            Self::Divisor { expected, shown } => {
                ({
                    (f.write_fmt(format_args!(
                        "the divisor latch shows {shown}, and not {expected}"
                    )))
                })
            }
            Self::Fifos { expected, shown } => {
                ({
                    (f.write_fmt(format_args!(
                        "the FIFOs are on: ISR shows {shown}, and not {expected}"
                    )))
                })
            }
        }
    }
}

#[automatically_derived]
impl std::error::Error for ConfigurationError {}

/// Why the nearest divisor for a baud rate cannot be used. `OutOfRange` comes first.
#[cfg_attr(not(feature = "exhaustive"), non_exhaustive)]
#[derive(Clone, Debug, PartialEq, Eq, PartialOrd, Hash)]
pub enum NearestDivisorError {
    /// The baud rate that the nearest divisor gives differs by more than the tolerance.
    TooFar {
        /// The nearest divisor.
        divisor: u64,
    },
    /// The nearest divisor does not fit into the divisor latch of 16 bits, or the frequency at
    /// which it is exact not into 32 bits.
    OutOfRange {
        /// The nearest divisor.
        divisor: u64,
    },
}

#[automatically_derived]
impl std::fmt::Display for NearestDivisorError {
    fn fmt(&self, f: &mut std::fmt::Formatter<'_>) -> std::fmt::Result {
        match self {
            Self::TooFar { divisor } => {
                ({
                    (f.write_fmt(format_args!("the nearest divisor {divisor} is not near enough")))
                })
            }
            Self::OutOfRange { divisor } => {
                ({ (f.write_fmt(format_args!("the nearest divisor {divisor} is out of range"))) })
            }
        }
    }
}

#[automatically_derived]
impl std::error::Error for NearestDivisorError {}

/// Why there is no divisor for a baud rate.
#[cfg_attr(not(feature = "exhaustive"), non_exhaustive)]
#[derive(Clone, Debug, PartialEq, Eq, PartialOrd, Hash)]
pub enum InvalidDivisorError {
    /// No whole divisor gives the baud rate.
    NonInteger(NonIntegerDivisorError),
    /// The divisor does not fit into the divisor latch of 16 bits.
    OutOfRange {
        /// The divisor.
        divisor: u32,
    },
}

#[automatically_derived]
impl std::fmt::Display for InvalidDivisorError {
    fn fmt(&self, f: &mut std::fmt::Formatter<'_>) -> std::fmt::Result {
        match self {
            Self::NonInteger(_0) => { ({ (std::fmt::Display::fmt(_0, f)) }) }
            Self::OutOfRange { divisor } => {
                ({ (f.write_fmt(format_args!("divisor {divisor} is out of range (1..=65535)"))) })
            }
        }
    }
}

#[automatically_derived]
impl std::error::Error for InvalidDivisorError {}

/// Why a device cannot be at an address. The stride is checked first.
#[derive(Clone, Debug, PartialEq, Eq, Hash)]
pub enum InvalidAddressError {
    /// The last of the eight registers would be beyond the last address, or beyond port 65535.
    /// Holds the base address, or the base port.
    InvalidBaseAddress(usize),
    /// The distance between two registers is zero, or not a power of two. Holds the stride.
    InvalidStride(u8),
}

#[automatically_derived]
impl std::fmt::Display for InvalidAddressError {
    fn fmt(&self, f: &mut std::fmt::Formatter<'_>) -> std::fmt::Result {
        match self {
            Self::InvalidBaseAddress(_0) => {
                ({ (f.write_fmt(format_fields!("invalid register address: {0:#x}", _0))) })
            }
            Self::InvalidStride(_0) => {
                ({
                    (f.write_fmt(format_fields!(
                        "invalid stride {0}: must be non-zero and a power of two (typically 1, 2, 4, or 8)",
                        _0
                    )))
                })
            }
        }
    }
}

#[automatically_derived]
impl std::error::Error for InvalidAddressError {}

/// Why an initialisation failed.
#[cfg_attr(not(feature = "exhaustive"), non_exhaustive)]
#[derive(Clone, Debug, PartialEq, Eq, Hash)]
pub enum InitError {
    /// The scratch register did not keep what was written to it, so no device is at the address.
    /// The scratch register was written back, and the driver has the new configuration.
    DeviceNotPresent,
    /// There is no divisor for the baud rate. No access was made, and nothing changed.
    InvalidBaudRate(InvalidDivisorError),
    /// The transmitter did not become empty within the spin limit. The device is set up, except
    /// that all of its interrupts are disabled.
    Stalled,
}

#[automatically_derived]
impl std::fmt::Display for InitError {
    fn fmt(&self, f: &mut std::fmt::Formatter<'_>) -> std::fmt::Result {
        match self {
            Self::DeviceNotPresent => {
                ({ (f.write_fmt(format_args!("the device could not be detected"))) })
            }
            Self::InvalidBaudRate(_0) => {
                ({ (f.write_fmt(format_fields!("invalid baud rate: {0}", _0))) })
            }
            Self::Stalled => { ({ (f.write_fmt(format_args!("the device stalled"))) }) }
        }
    }
}

/// No received byte is available: LSR did not show `DATA_READY`.
#[derive(Clone, Debug, PartialEq, Eq, Hash)]
pub struct ByteReceiveError;

#[automatically_derived]
impl std::fmt::Display for ByteReceiveError {
    fn fmt(&self, f: &mut std::fmt::Formatter<'_>) -> std::fmt::Result {
        match self {
            Self => { ({ (f.write_fmt(format_args!("there is no data to read"))) }) }
        }
    }
}

#[automatically_derived]
impl std::error::Error for ByteReceiveError {}

/// Why no byte can be sent at the moment.
#[derive(Clone, Debug, PartialEq, Eq, Hash)]
pub enum ByteSendError {
    /// The transmitter holding register, or the transmitter FIFO, is not empty.
    NoCapacity,
    /// The remote does not assert clear to send (CTS), and the configuration checks CTS before
    /// sending.
    RemoteNotClearToSend,
}

#[automatically_derived]
impl std::fmt::Display for ByteSendError {
    fn fmt(&self, f: &mut std::fmt::Formatter<'_>) -> std::fmt::Result {
        match self {
            Self::NoCapacity => {
                ({
                    (f.write_fmt(format_args!(
                        "device has no capacity to send another byte (the FIFO might be full)"
                    )))
                })
            }
            Self::RemoteNotClearToSend => {
                ({
                    (f.write_fmt(format_args!("the remote didn't raised its clear to send signal")))
                })
            }
        }
    }
}

#[automatically_derived]
impl std::error::Error for ByteSendError {}

/// Why the remote seems not to be connected, or not to be ready.
///
/// Many cables never assert DSR, CD or CTS, so sending may still work. Check again after a modem
/// status interrupt.
#[derive(Clone, Debug, PartialEq, Eq, Hash)]
pub enum RemoteReadyToReceiveError {
    /// Data set ready (DSR) is clear.
    NoRemoteConnectedNoDSR,
    /// Carrier detect (CD) is clear. No call returns this case.
    NoRemoteConnectedNoCD,
    /// Clear to send (CTS) is clear, while DSR is set.
    RemoteNotClearToSend,
}

#[automatically_derived]
impl std::fmt::Display for RemoteReadyToReceiveError {
    fn fmt(&self, f: &mut std::fmt::Formatter<'_>) -> std::fmt::Result {
        match self {
            Self::NoRemoteConnectedNoDSR => {
                ({
                    (f.write_fmt(format_args!(
                        "there is no remote connected: missing Data Set Ready (DSR)"
                    )))
                })
            }
            Self::NoRemoteConnectedNoCD => {
                ({
                    (f.write_fmt(format_args!(
                        "there is no remote connected: missing Carrier Detect (CD)"
                    )))
                })
            }
            Self::RemoteNotClearToSend => {
                ({ (f.write_fmt(format_args!("remote is not (yet) ready to receive more data"))) })
            }
        }
    }
}

#[automatically_derived]
impl std::error::Error for RemoteReadyToReceiveError {}

// How each message of a [`LoopbackError`] begins. It is a constant because `rt` takes an attribute
// with the word `test` for that of a test.
const LOOPBACK: &str = "loopback test failed";

/// Why a loopback test failed.
#[cfg_attr(not(feature = "exhaustive"), non_exhaustive)]
#[derive(Clone, Debug, PartialEq, Eq, Hash)]
pub enum LoopbackError {
    /// The device did not accept the single test byte, although its transmitter had been empty. The
    /// cause is always `NoCapacity`.
    SendError(ByteSendError),
    /// The device returned a byte other than the test byte.
    UnexpectedLoopbackByte {
        /// The byte that was sent, always 0x42.
        expected: u8,
        /// The byte that was received.
        actual: u8,
    },
    /// The device returned bytes other than the test message.
    UnexpectedLoopbackMsg {
        /// The bytes that were sent, always the test message.
        expected: [u8; 16],
        /// The bytes that were received.
        actual: [u8; 16],
    },
    /// The device made no progress within the spin limit. A test byte may still be in its
    /// transmitter, and is then sent after the test.
    Stalled,
}

#[automatically_derived]
impl std::fmt::Display for LoopbackError {
    fn fmt(&self, f: &mut std::fmt::Formatter<'_>) -> std::fmt::Result {
        match self {
            Self::SendError(_0) => {
                ({
                    (f.write_fmt(format_fields!(
                        "{head}: couldn't send data: {0}",
                        _0,
                        head = LOOPBACK
                    )))
                })
            }
            Self::UnexpectedLoopbackByte { expected, actual } => {
                ({
                    (f.write_fmt(format_args!(
                        "{head}: read unexpected byte! expected={expected}, actual={actual}",
                        head = LOOPBACK
                    )))
                })
            }
            Self::UnexpectedLoopbackMsg { expected, actual } => {
                ({
                    (f.write_fmt(format_args!(
                        "{head}: read unexpected string! expected (str)={}, actual (str)={}, actual (bytes)={actual:?}",
                        Message(expected),
                        Message(actual),
                        head = LOOPBACK
                    )))
                })
            }
            Self::Stalled => {
                ({ (f.write_fmt(format_args!("{head}: the device stalled", head = LOOPBACK))) })
            }
        }
    }
}

/// Why the size of the FIFOs was not found or not changed.
#[cfg_attr(not(feature = "exhaustive"), non_exhaustive)]
#[derive(Clone, Debug, PartialEq, Eq, Hash)]
pub enum FifoSizeError {
    /// The FIFOs are off, or the chip has none. No access was made.
    FifosOff,
    /// Fewer bytes came back than the smallest FIFO holds: the FIFOs do not work, the chip has no
    /// loopback, or what it has is off. `enable_64_byte_fifos` does not return this.
    TooFew {
        /// How many bytes came back.
        returned: usize,
    },
    /// The device made no progress within the spin limit.
    Stalled,
}

#[automatically_derived]
impl std::fmt::Display for FifoSizeError {
    fn fmt(&self, f: &mut std::fmt::Formatter<'_>) -> std::fmt::Result {
        match self {
            Self::FifosOff => { ({ (f.write_fmt(format_args!("the FIFOs are off"))) }) }
            Self::TooFew { returned } => {
                ({ (f.write_fmt(format_args!("only {returned} bytes came back in loopback"))) })
            }
            Self::Stalled => { ({ (f.write_fmt(format_args!("the device stalled"))) }) }
        }
    }
}

#[automatically_derived]
impl std::error::Error for FifoSizeError {}

/// A wait ended at the spin limit: that many polls in a row were unsuccessful.
///
/// This is not always a fault. The remote may be slow, or may have nothing to send. At 9,600 baud a
/// full FIFO and shift register take about 17.7 ms to send.
#[derive(Clone, Debug, PartialEq, Eq, Hash)]
pub struct StalledError {
    /// The number of bytes that the call had sent or received before the wait.
    pub done: usize,
}

#[automatically_derived]
impl std::fmt::Display for StalledError {
    fn fmt(&self, f: &mut std::fmt::Formatter<'_>) -> std::fmt::Result {
        match self {
            Self { done } => {
                ({ (f.write_fmt(format_args!("the device stalled after {done} bytes"))) })
            }
        }
    }
}

#[automatically_derived]
impl std::error::Error for StalledError {}

/// Why a terminal could not be set up.
#[cfg_attr(not(feature = "exhaustive"), non_exhaustive)]
#[derive(Clone, Debug, PartialEq, Eq, Hash)]
pub enum Uart16550TtyError {
    /// No device can be at the address. No access was made.
    AddressError(InvalidAddressError),
    /// `Uart16550::init` failed.
    InitError(InitError),
    /// `Uart16550::test_loopback` failed. The device stays initialised, with the interrupts of its
    /// configuration enabled. For a device without loopback use `Uart16550Tty::from_inner`.
    TestError(LoopbackError),
}

#[automatically_derived]
impl std::fmt::Display for Uart16550TtyError {
    fn fmt(&self, f: &mut std::fmt::Formatter<'_>) -> std::fmt::Result {
        match self {
            Self::AddressError(_0) => { ({ (std::fmt::Display::fmt(_0, f)) }) }
            Self::InitError(_0) => {
                ({ (f.write_fmt(format_fields!("error initializing the device: {0}", _0))) })
            }
            Self::TestError(_0) => {
                ({ (f.write_fmt(format_fields!("error testing the device: {0}", _0))) })
            }
        }
    }
}

// A test message as text, if each byte is printable ASCII.
struct Message<'a>(&'a [u8; 16]);

impl fmt::Display for Message<'_> {
    fn fmt(&self, f: &mut fmt::Formatter<'_>) -> fmt::Result {
        let bytes = self.0;
        if !bytes.iter().all(|byte| matches!(byte, 0x20..=0x7e)) {
            return f.write_str("Err(not printable ASCII)");
        }
        f.write_str("Ok(\"")?;
        for byte in bytes {
            if matches!(byte, b'"' | b'\\') {
                f.write_char('\\')?;
            }
            f.write_char(*byte as char)?;
        }
        f.write_str("\")")
    }
}
