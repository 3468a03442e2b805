//! The kinds of findings: what each is called, and what is printed for it. [`crate::explain`] says what
//! each name means.

use crate::has::Has;
use crate::hints::Hint;
use crate::known::Known;
use std::fmt;
use uart_judges::audit::{Finding, Setup, Severity};
use uart_judges::replay::{Difference, Rule};
use uart_spec::registers::InterruptType;

/// Something that was found at a line of a recording.
#[derive(Clone, Copy, Debug, PartialEq, Eq)]
pub enum Kind {
    /// What the accesses before it say.
    Finding(Finding),
    /// A value that the defined chip never returns.
    Difference(Difference),
    /// The set-up, with what else is known of the chip.
    SetUp(Setup, Known),
    /// What a driver does, and may not mean.
    Hint(Hint),
    /// What would be a warning, if the log had what decides it.
    Undecided(Finding, Lack),
    /// What would be a difference, if the log had the resets of the machine.
    AfterReset(Difference),
}

/// What a log does not have, without which a finding is not decided.
#[derive(Clone, Copy, Debug, PartialEq, Eq)]
pub enum Lack {
    /// Times.
    Times,
    /// Levels of the interrupt line.
    Levels,
}

impl Lack {
    /// Returns what is missing to decide a finding in a log that has this so far.
    pub fn of(finding: &Finding, has: &Has) -> Option<Self> {
        match finding {
            // A driver that polls has interrupts enabled, too, and needs none. Only the line shows whether it waits for one.
            Finding::InterruptsCutOff => (!has.levels).then_some(Lack::Levels),
            Finding::FrameChangedWhileSending
            | Finding::DivisorChangedWhileSending
            | Finding::ResetWhileSending => (!has.times).then_some(Lack::Times),
            _ => None,
        }
    }
}

impl fmt::Display for Lack {
    fn fmt(&self, f: &mut fmt::Formatter<'_>) -> fmt::Result {
        f.write_str(match self {
            Lack::Times => "Only times would decide it, and this log has none",
            Lack::Levels => {
                "Only the level of the interrupt line would decide it, and this log has none"
            }
        })
    }
}

impl Kind {
    /// Returns what this kind of finding is called.
    pub fn name(&self) -> &'static str {
        match self {
            Kind::Finding(finding) => name_of(finding),
            Kind::Difference(difference) => rule_name(difference.rule),
            Kind::SetUp(..) => "set-up",
            Kind::Hint(hint) => hint.name(),
            Kind::Undecided(finding, _) => name_of(finding),
            Kind::AfterReset(difference) => rule_name(difference.rule),
        }
    }

    /// Returns whose fault it is: `note`, `warning` or `difference`; or `undecided`, where the log does not show it.
    pub fn severity(&self) -> &'static str {
        match self {
            Kind::Finding(finding) => match finding.severity() {
                Severity::Note => "note",
                Severity::Warning => "warning",
                Severity::Answer => "difference",
            },
            Kind::Difference(_) => "difference",
            Kind::SetUp(..) | Kind::Hint(_) => "note",
            Kind::Undecided(..) | Kind::AfterReset(_) => "undecided",
        }
    }

    /// Returns whether the datasheet leaves open what a chip does there.
    pub fn is_open(&self) -> bool {
        matches!(self, Kind::Finding(Finding::ThrEmptyNotRaisedAgain))
    }

    /// Returns the line that it is about, where that is not the line at which it is found.
    pub fn line(&self) -> Option<u64> {
        match self {
            Kind::Finding(Finding::NotServed(identified)) => Some(identified.line),
            Kind::Finding(Finding::LeftWithLineUp(line)) => Some(*line),
            Kind::Hint(hint) => hint.line(),
            _ => None,
        }
    }
}

fn name_of(finding: &Finding) -> &'static str {
    match finding {
        Finding::SetUp(_) => "set-up",
        Finding::LineErrorsRead(_) => "errors-read",
        Finding::LineChangesRead(_) => "changes-read",
        Finding::LatchLeftOpen => "ends-under-dlab",
        Finding::LoopbackLeftOn => "ends-in-loopback",
        Finding::SentBeyondRoom { .. } => "sent-beyond-room",
        Finding::SentIntoLatch(_) => "sent-into-divisor",
        Finding::SentInBreak(_) => "sent-in-break",
        Finding::SentInLoopback(_) => "sent-in-loopback",
        Finding::WordTooShort(_) => "word-too-short",
        Finding::SentWithoutCts => "cts-ignored",
        Finding::InterruptsCutOff => "out2-off",
        Finding::ReceivedFromEmpty => "read-of-nothing",
        Finding::ReceivedWithoutLook => "read-without-lsr",
        Finding::ErrorsNotRead => "errors-not-read",
        Finding::ErrorsLost(_) => "error-lost",
        Finding::ReceivedFromLatch => "read-from-divisor",
        Finding::InterruptsIntoLatch(_) => "ier-under-dlab",
        Finding::HighByteNotSet => "dlm-not-written",
        Finding::ZeroDivisor => "divisor-zero",
        Finding::FrameChangedWhileSending => "frame-changed",
        Finding::DivisorChangedWhileSending => "divisor-changed",
        Finding::ResetWhileSending => "transmitter-emptied",
        Finding::WaitingDiscarded => "received-discarded",
        Finding::NotServed(_) => "interrupt-not-served",
        Finding::LeftWithLineUp(_) => "line-left-up",
        Finding::OtherByte { .. } => "other-byte",
        Finding::ArrivalSkipped(_) => "byte-skipped",
        Finding::ArrivalGone(_) => "byte-gone",
        Finding::ErrorsHidden(_) => "error-hidden",
        Finding::OverrunHidden => "overrun-hidden",
        Finding::InterruptWithoutData(_) => "interrupt-without-data",
        Finding::GoneAtFcr => "byte-gone-at-fcr",
        Finding::ThrEmptyNotRaised => "thr-empty-not-raised",
        Finding::ThrEmptyNotRaisedAgain => "thr-empty-not-raised-again",
        Finding::LineIgnored { .. } => "lcr-ignored",
        Finding::LinesDiffer { .. } => "other-modem-lines",
        Finding::LevelDiffers(_) => "other-level",
    }
}

fn rule_name(rule: Rule) -> &'static str {
    match rule {
        Rule::Keeps(_) => "not-kept",
        Rule::FifoBits => "fifo-bits",
        Rule::Interrupt => "impossible-interrupt",
        Rule::EmptyBits => "temt-without-thre",
        Rule::ErrorAlone => "error-alone",
        Rule::FifoError => "fifo-error-without-fifo",
        Rule::StillWaits => "character-vanished",
        Rule::ThrStaysEmpty => "thre-cleared",
        Rule::StaysIdle => "temt-cleared",
        Rule::LoopedLines => "looped-lines",
        Rule::LoopedData => "looped-data",
    }
}

// Returns an interrupt in the words of the datasheet.
fn interrupt_text(interrupt: InterruptType) -> &'static str {
    match interrupt {
        InterruptType::ReceiverLineStatus => "receiver line status",
        InterruptType::ReceivedDataReady => "received data",
        InterruptType::ReceptionTimeout => "a reception timeout",
        InterruptType::TransmitterHoldingRegisterEmpty => "THR empty",
        InterruptType::ModemStatus => "modem status",
        InterruptType::DmaReceptionEndOfTransfer | InterruptType::DmaTransmissionEndOfTransfer => {
            "the end of a transfer by DMA"
        }
    }
}

// Returns what a driver has to do about an interrupt.
fn service_text(interrupt: InterruptType) -> &'static str {
    match interrupt {
        InterruptType::ReceiverLineStatus => "Read LSR",
        InterruptType::ReceivedDataReady | InterruptType::ReceptionTimeout => {
            "Read DATA while LSR bit 0 (DR) is set"
        }
        InterruptType::ModemStatus => "Read MSR",
        // A read of ISR is all that these ask for.
        InterruptType::TransmitterHoldingRegisterEmpty
        | InterruptType::DmaReceptionEndOfTransfer
        | InterruptType::DmaTransmissionEndOfTransfer => "Read ISR",
    }
}

fn write_note(finding: &Finding, f: &mut fmt::Formatter<'_>) -> fmt::Result {
    match finding {
        Finding::SetUp(setup) => write!(f, "set-up: {setup}"),
        Finding::LineErrorsRead(lsr) => write!(
            f,
            "LSR read {:02x}: the read cleared its errors, and no later read shows them (bit 1 \
             overrun, 2 parity, 3 framing, 4 break)",
            lsr.bits()
        ),
        Finding::LineChangesRead(msr) => write!(
            f,
            "MSR read {:02x}: the read cleared its changes, and no later read shows them (bit 0 \
             CTS, 1 DSR, 2 the end of RI, 3 CD)",
            msr.bits()
        ),
        Finding::LatchLeftOpen => f.write_str(
            "the recording ends while LCR bit 7 (DLAB) is set: offsets 0 and 1 are the divisor",
        ),
        _ => f.write_str("the recording ends while MCR bit 4 (loopback) is set: nothing goes out"),
    }
}

fn write_sent(finding: &Finding, f: &mut fmt::Formatter<'_>) -> fmt::Result {
    match finding {
        Finding::SentBeyondRoom { sent, room } => write!(
            f,
            "LSR last showed room for {room}, and {sent} were written: this byte may be lost. Wait \
             for LSR bit 5 (THRE) before DATA is written"
        ),
        Finding::SentIntoLatch(byte) => write!(
            f,
            "{byte:02x} is lost: it was written to DLL and changed the divisor, since LCR bit 7 \
             (DLAB) is set. Clear DLAB before DATA is written"
        ),
        Finding::SentInBreak(byte) => write!(
            f,
            "{byte:02x} was sent while LCR bit 6 (break) is set: the line stays low, and the byte is \
             lost. Clear the break first"
        ),
        Finding::SentInLoopback(byte) => write!(
            f,
            "{byte:02x} was sent while MCR bit 4 (loopback) is set, and the bytes before it were not \
             read back: none of them goes out. Clear loopback first"
        ),
        Finding::WordTooShort(byte) => write!(
            f,
            "{byte:02x} has more bits than a character: it is cut. Set the word length, LCR bits 0 \
             and 1, to 8"
        ),
        _ => f.write_str(
            "DATA was written while MSR bit 4 (CTS) was clear: if the other end stops what it \
             receives by CTS, the byte may be lost. Wait for CTS",
        ),
    }
}

fn write_received(finding: &Finding, f: &mut fmt::Formatter<'_>) -> fmt::Result {
    match finding {
        Finding::ReceivedFromEmpty => f.write_str(
            "DATA was read, and LSR bit 0 (DR) was clear: no byte waits, and what the read returned \
             is none. Read DATA only while DR is set",
        ),
        Finding::ReceivedWithoutLook => f.write_str(
            "DATA was read again, and LSR was not read in between: no byte may wait, and what the \
             read returned may be an old one. Read DATA only while LSR bit 0 (DR) is set",
        ),
        Finding::ErrorsNotRead => f.write_str(
            "DATA was read again, and LSR was not read in between: if this byte has an error, it is \
             not seen. Read LSR before each read of DATA",
        ),
        Finding::ErrorsLost(arrived) => write!(
            f,
            "{:02x} arrived with the errors {:02x}, and DATA was read before LSR: they are not seen \
             (bit 2 parity, 3 framing, 4 break). Read LSR before DATA",
            arrived.byte,
            arrived.errors.bits()
        ),
        Finding::WaitingDiscarded => f.write_str(
            "FCR emptied the receiver while a byte waited, which LSR, ISR or its arrival showed: \
             what waited is lost. Read DATA first",
        ),
        _ => f.write_str(
            "offset 0 was read to receive a byte, and returned DLL, since LCR bit 7 (DLAB) is set. \
             Clear DLAB before DATA is read",
        ),
    }
}

fn write_setting(finding: &Finding, f: &mut fmt::Formatter<'_>) -> fmt::Result {
    match finding {
        Finding::InterruptsIntoLatch(value) => write!(
            f,
            "{value:02x} was written to DLM, and may be meant for IER: offset 1 is DLM while LCR bit \
             7 (DLAB) is set. It went into the divisor, and IER stays as it was. Clear DLAB before \
             IER is written"
        ),
        Finding::HighByteNotSet => f.write_str(
            "DLL was written and DLM was not: the divisor keeps the high byte from before. Write \
             both",
        ),
        Finding::ZeroDivisor => {
            f.write_str("the divisor is 0: nothing is sent or received. Write DLL and DLM")
        }
        Finding::FrameChangedWhileSending => f.write_str(
            "LCR was changed while bytes may be going out: they may be garbled. Wait for LSR bit 6 \
             (TEMT)",
        ),
        Finding::DivisorChangedWhileSending => f.write_str(
            "the divisor was changed while bytes may be going out: they may be garbled. Wait for \
             LSR bit 6 (TEMT)",
        ),
        _ => f.write_str(
            "FCR emptied the transmitter while it may hold bytes: they may be lost. Wait for LSR \
             bit 5 (THRE)",
        ),
    }
}

fn write_interrupt(finding: &Finding, f: &mut fmt::Formatter<'_>) -> fmt::Result {
    match finding {
        Finding::InterruptsCutOff => f.write_str(
            "IER enables interrupts, and MCR bit 3 (OUT2) is clear: on a PC no interrupt reaches the \
             processor. Set OUT2",
        ),
        Finding::NotServed(identified) => write!(
            f,
            "ISR showed {} here, and shows it again later: nothing was done about it in between. {}",
            interrupt_text(identified.interrupt),
            service_text(identified.interrupt)
        ),
        _ => f.write_str(
            "the interrupt line was up after this, and nothing was accessed for a second until a byte \
             arrived: a controller that waits for an edge gets none, and the port is dead. Serve \
             interrupts until ISR bit 0 is set",
        ),
    }
}

fn write_answer(finding: &Finding, f: &mut fmt::Formatter<'_>) -> fmt::Result {
    match finding {
        Finding::OtherByte { arrived, read } => write!(
            f,
            "DATA reads {read:02x}: the oldest byte that arrived is {arrived:02x}"
        ),
        Finding::ArrivalSkipped(byte) => write!(
            f,
            "DATA reads the byte behind {byte:02x}: {byte:02x} arrived before it, and is lost"
        ),
        Finding::ArrivalGone(byte) => write!(
            f,
            "LSR bit 0 (DR) is clear: {byte:02x} arrived and was not read, and is lost"
        ),
        Finding::ErrorsHidden(arrived) => write!(
            f,
            "LSR does not show the errors {:02x} with which {:02x} arrived",
            arrived.errors.bits(),
            arrived.byte
        ),
        Finding::OverrunHidden => f.write_str(
            "LSR bit 1 (overrun) is clear: a byte arrived for which there was no room",
        ),
        Finding::InterruptWithoutData(interrupt) => write!(
            f,
            "LSR bit 0 (DR) is clear: ISR showed {}, and no byte was read since",
            interrupt_text(*interrupt)
        ),
        Finding::GoneAtFcr => f.write_str(
            "LSR bit 0 (DR) is clear: a byte waited before FCR was written, which did not reset the \
             receiver",
        ),
        Finding::ThrEmptyNotRaised => f.write_str(
            "ISR shows no interrupt: THR was empty when IER enabled that interrupt. A driver that \
             waits for it never begins to send",
        ),
        Finding::ThrEmptyNotRaisedAgain => f.write_str(
            "ISR shows no interrupt: THR was empty when IER enabled that interrupt again. A driver \
             that waits for it sends no more (the datasheet leaves this open)",
        ),
        Finding::LineIgnored { written, read } => write!(
            f,
            "LCR reads {:02x}: {:02x} was written while bytes were going out, and was ignored",
            read.bits(),
            written.bits()
        ),
        Finding::LinesDiffer { inputs, shown } => write!(
            f,
            "MSR reads {:02x}: the modem inputs are {:02x}",
            shown.bits(),
            inputs.bits()
        ),
        _ => f.write_str("ISR and the interrupt line do not agree"),
    }
}

impl fmt::Display for Kind {
    fn fmt(&self, f: &mut fmt::Formatter<'_>) -> fmt::Result {
        let finding = match self {
            Kind::Difference(difference) => return write!(f, "{difference}"),
            Kind::SetUp(setup, known) => return write!(f, "set-up: {}", known.setup_text(setup)),
            Kind::Hint(hint) => return write!(f, "{hint}"),
            Kind::Undecided(finding, lack) => {
                return write!(f, "{}. {lack}", Kind::Finding(*finding));
            }
            Kind::AfterReset(difference) => {
                return write!(
                    f,
                    "{difference}. A reset of the machine does the same, and no line of a log says it"
                );
            }
            Kind::Finding(finding) => finding,
        };
        match finding {
            Finding::SetUp(_)
            | Finding::LineErrorsRead(_)
            | Finding::LineChangesRead(_)
            | Finding::LatchLeftOpen
            | Finding::LoopbackLeftOn => write_note(finding, f),
            Finding::SentBeyondRoom { .. }
            | Finding::SentIntoLatch(_)
            | Finding::SentInBreak(_)
            | Finding::SentInLoopback(_)
            | Finding::WordTooShort(_)
            | Finding::SentWithoutCts => write_sent(finding, f),
            Finding::ReceivedFromEmpty
            | Finding::ReceivedWithoutLook
            | Finding::ErrorsNotRead
            | Finding::ErrorsLost(_)
            | Finding::WaitingDiscarded
            | Finding::ReceivedFromLatch => write_received(finding, f),
            Finding::InterruptsIntoLatch(_)
            | Finding::HighByteNotSet
            | Finding::ZeroDivisor
            | Finding::FrameChangedWhileSending
            | Finding::DivisorChangedWhileSending
            | Finding::ResetWhileSending => write_setting(finding, f),
            Finding::InterruptsCutOff | Finding::NotServed(_) | Finding::LeftWithLineUp(_) => {
                write_interrupt(finding, f)
            }
            Finding::OtherByte { .. }
            | Finding::ArrivalSkipped(_)
            | Finding::ArrivalGone(_)
            | Finding::ErrorsHidden(_)
            | Finding::OverrunHidden
            | Finding::InterruptWithoutData(_)
            | Finding::GoneAtFcr
            | Finding::ThrEmptyNotRaised
            | Finding::ThrEmptyNotRaisedAgain
            | Finding::LineIgnored { .. }
            | Finding::LinesDiffer { .. } => write_answer(finding, f),
            Finding::LevelDiffers(true) => f.write_str(
                "ISR bit 0 is set, so no interrupt is pending: but the interrupt line is up",
            ),
            Finding::LevelDiffers(false) => f.write_str(
                "ISR shows an interrupt, and MCR bit 3 (OUT2) is set: but the interrupt line is down",
            ),
        }
    }
}
