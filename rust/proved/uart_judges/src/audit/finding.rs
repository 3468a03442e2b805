//! What is found.

use crate::audit::auditor::Identified;
use crate::audit::setup::Setup;
use crate::audit::unread::Arrived;
use uart_spec::registers::{InterruptType, LCR, LSR, MSR};

/// Whose fault a finding is.
#[derive(Clone, Copy, Debug, PartialEq, Eq)]
pub enum Severity {
    /// Nobody's: a fact that nothing later shows.
    Note,
    /// The driver's: a fault, or what may be one.
    Warning,
    /// The chip's: an answer that the recording contradicts.
    Answer,
}

/// Something that a recording says about its driver or its chip. docs/AUDIT.md has what each means,
/// what it costs and what to do.
#[derive(Clone, Copy, Debug, PartialEq, Eq)]
pub enum Finding {
    /// The set-up of the bytes that are sent and received from here on.
    SetUp(Setup),
    /// A read of LSR returned errors, and cleared them.
    LineErrorsRead(LSR),
    /// A read of MSR returned changes of the modem lines, and cleared them.
    LineChangesRead(MSR),
    /// The divisor latch is open at the end.
    LatchLeftOpen,
    /// Loopback is on at the end.
    LoopbackLeftOn,

    /// More bytes were sent than the transmitter has room for.
    SentBeyondRoom {
        /// The bytes that were sent since LSR showed room, this one too.
        sent: u64,
        /// The bytes that there was room for.
        room: u8,
    },
    /// A byte was written to offset 0 while the divisor latch was open, which changed the divisor.
    SentIntoLatch(u8),
    /// A byte was sent while a break is sent.
    SentInBreak(u8),
    /// A byte was sent in loopback, and the byte before it was not read back.
    SentInLoopback(u8),
    /// A byte has more bits than a character.
    WordTooShort(u8),
    /// A byte was sent although MSR showed that the remote is not ready.
    SentWithoutCts,
    /// Interrupts are enabled, and OUT2 is off.
    InterruptsCutOff,
    /// DATA was read, and LSR had shown that no byte waits.
    ReceivedFromEmpty,
    /// DATA was read again without a look.
    ReceivedWithoutLook,
    /// Bytes that wait were read without a look at their errors.
    ErrorsNotRead,
    /// A character with errors was read before they were.
    ErrorsLost(Arrived),
    /// Offset 0 was read while the divisor latch was open, which returned the divisor.
    ReceivedFromLatch,
    /// What looks like a value of IER was written into the divisor.
    InterruptsIntoLatch(u8),
    /// The low byte of the divisor was written, and the high byte was not.
    HighByteNotSet,
    /// The divisor latch was closed with a divisor of zero.
    ZeroDivisor,
    /// The format of a character was changed while bytes were going out.
    FrameChangedWhileSending,
    /// The divisor was changed while bytes were going out.
    DivisorChangedWhileSending,
    /// The transmitter FIFO was reset while it may have held bytes.
    ResetWhileSending,
    /// A write of FCR discarded received bytes.
    WaitingDiscarded,
    /// An interrupt was identified, and not served before ISR showed it again.
    NotServed(Identified),
    /// The interrupt line stayed up, and nothing was accessed.
    LeftWithLineUp(u64),

    /// DATA returned another byte than the one that arrived.
    OtherByte {
        /// The byte that arrived.
        arrived: u8,
        /// The byte that was read.
        read: u8,
    },
    /// DATA returned the byte behind the oldest one.
    ArrivalSkipped(u8),
    /// LSR shows no byte, but one arrived.
    ArrivalGone(u8),
    /// LSR does not show the errors of the character at the front.
    ErrorsHidden(Arrived),
    /// LSR does not show an overrun.
    OverrunHidden,
    /// An interrupt of received data, and no data.
    InterruptWithoutData(InterruptType),
    /// A byte was gone after a write of FCR that does not reset the receiver.
    GoneAtFcr,
    /// The interrupt of an empty transmitter was enabled, and did not come.
    ThrEmptyNotRaised,
    /// The same, after it was acknowledged.
    ThrEmptyNotRaisedAgain,
    /// LCR was not written, since the chip was busy.
    LineIgnored {
        /// The value that was written.
        written: LCR,
        /// The value that was read.
        read: LCR,
    },
    /// MSR shows other lines than the modem inputs.
    LinesDiffer {
        /// The modem inputs.
        inputs: MSR,
        /// The value that was read.
        shown: MSR,
    },
    /// The interrupt line is not as ISR says.
    LevelDiffers(bool),
}

impl Finding {
    /// Returns whose fault this is.
    #[must_use]
    pub fn severity(self) -> Severity {
        match self {
            Finding::SetUp(_)
            | Finding::LineErrorsRead(_)
            | Finding::LineChangesRead(_)
            | Finding::LatchLeftOpen
            | Finding::LoopbackLeftOn => Severity::Note,
            Finding::OtherByte { .. }
            | Finding::ArrivalSkipped(_)
            | Finding::ArrivalGone(_)
            | Finding::ErrorsHidden(_)
            | Finding::OverrunHidden
            | Finding::InterruptWithoutData(_)
            | Finding::GoneAtFcr
            | Finding::ThrEmptyNotRaised
            | Finding::ThrEmptyNotRaisedAgain
            | Finding::LineIgnored { .. }
            | Finding::LinesDiffer { .. }
            | Finding::LevelDiffers(_) => Severity::Answer,
            _ => Severity::Warning,
        }
    }
}
