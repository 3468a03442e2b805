//! What is printed for answers and for the last state of the machine.

use std::{ToStringWith as _, Vec};

use bitflags::Flags;
use std::alloc::{AllocError, Global};
use uart_call::Answer;
use uart_events::ArrivalMark;
use uart_spec::{
    AttachError, ByteSendError, ConfigRegisterDump, ConfigurationError, FrameError, InitError,
    InvalidDivisorError, LoopbackError, Received, RemoteReadyToReceiveError,
};

/// Returns a digit below 16 as text, in lower case.
#[must_use]
pub fn hex_digit(digit: u8) -> u8 {
    if digit < 10 {
        b'0' + digit
    } else {
        b'a' + (digit - 10)
    }
}

fn push_byte(out: &mut Vec<u8>, byte: u8) -> Result<(), AllocError> {
    out.push(hex_digit(byte / 16))?;
    out.push(hex_digit(byte % 16))?;
    Ok(())
}

fn push_bytes(out: &mut Vec<u8>, bytes: &[u8]) -> Result<(), AllocError> {
    for byte in bytes {
        push_byte(out, *byte)?;
    }
    Ok(())
}

/// Appends bytes in hexadecimal digits, or `-` if there are none.
fn push_hex(out: &mut Vec<u8>, bytes: &[u8]) -> Result<(), AllocError> {
    if bytes.is_empty() {
        out.push(b'-')?;
        return Ok(());
    }
    push_bytes(out, bytes)
}

fn push_number(alloc: Global, out: &mut Vec<u8>, number: usize) -> Result<(), AllocError> {
    let text = number.to_string_with(alloc)?;
    out.extend_from_slice(text.as_bytes())
}

fn send_error_name(error: &ByteSendError) -> &'static [u8] {
    match error {
        ByteSendError::NoCapacity => b"NoCapacity",
        ByteSendError::RemoteNotClearToSend => b"RemoteNotClearToSend",
    }
}

/// Appends why there is no divisor.
fn push_divisor_error(
    alloc: Global,
    out: &mut Vec<u8>,
    error: &InvalidDivisorError,
) -> Result<(), AllocError> {
    match error {
        InvalidDivisorError::NonInteger(_) => out.extend_from_slice(b"InvalidBaudRate NonInteger"),
        InvalidDivisorError::OutOfRange { divisor } => {
            out.extend_from_slice(b"InvalidBaudRate OutOfRange ")?;
            push_number(alloc, out, *divisor as usize)
        }
    }
}

fn push_frame_error(alloc: Global, out: &mut Vec<u8>, error: &FrameError) -> Result<(), AllocError> {
    match error {
        FrameError::InvalidBaudRate(cause) => push_divisor_error(alloc, out, cause),
        FrameError::Stalled => out.extend_from_slice(b"Stalled"),
    }
}

/// Returns the name of a refusal.
fn attach_error_name(error: &AttachError) -> &'static [u8] {
    match error {
        AttachError::DivisorLatchOpen => b"DivisorLatchOpen",
        AttachError::Loopback => b"Loopback",
        AttachError::NoDivisor => b"NoDivisor",
    }
}

fn truth(flag: bool) -> &'static [u8] {
    if flag { b"true" } else { b"false" }
}

/// Appends two values of a register.
fn push_registers(out: &mut Vec<u8>, expected: u8, shown: u8) -> Result<(), AllocError> {
    push_register(out, b" expected ", expected)?;
    push_register(out, b" shown ", shown)
}

fn push_divisors(
    alloc: Global,
    out: &mut Vec<u8>,
    expected: u16,
    shown: u16,
) -> Result<(), AllocError> {
    out.extend_from_slice(b" expected ")?;
    push_number(alloc, out, usize::from(expected))?;
    out.extend_from_slice(b" shown ")?;
    push_number(alloc, out, usize::from(shown))
}

fn push_flags(out: &mut Vec<u8>, expected: bool, shown: bool) -> Result<(), AllocError> {
    out.extend_from_slice(b" expected ")?;
    out.extend_from_slice(truth(expected))?;
    out.extend_from_slice(b" shown ")?;
    out.extend_from_slice(truth(shown))
}

/// Appends what a check found wrong.
fn push_configuration_error(
    alloc: Global,
    out: &mut Vec<u8>,
    error: &ConfigurationError,
) -> Result<(), AllocError> {
    match error {
        ConfigurationError::NoDivisor => out.extend_from_slice(b"NoDivisor"),
        ConfigurationError::LineControl { expected, shown } => {
            out.extend_from_slice(b"LineControl")?;
            push_registers(out, expected.bits(), shown.bits())
        }
        ConfigurationError::ModemControl { expected, shown } => {
            out.extend_from_slice(b"ModemControl")?;
            push_registers(out, expected.bits(), shown.bits())
        }
        ConfigurationError::Interrupts { expected, shown } => {
            out.extend_from_slice(b"Interrupts")?;
            push_registers(out, expected.bits(), shown.bits())
        }
        ConfigurationError::Divisor { expected, shown } => {
            out.extend_from_slice(b"Divisor")?;
            push_divisors(alloc, out, *expected, *shown)
        }
        ConfigurationError::Fifos { expected, shown } => {
            out.extend_from_slice(b"Fifos")?;
            push_flags(out, *expected, *shown)
        }
    }
}

fn remote_error_name(error: &RemoteReadyToReceiveError) -> &'static [u8] {
    match error {
        RemoteReadyToReceiveError::NoRemoteConnectedNoDSR => b"NoRemoteConnectedNoDSR",
        RemoteReadyToReceiveError::NoRemoteConnectedNoCD => b"NoRemoteConnectedNoCD",
        RemoteReadyToReceiveError::RemoteNotClearToSend => b"RemoteNotClearToSend",
    }
}

fn push_init_error(alloc: Global, out: &mut Vec<u8>, error: &InitError) -> Result<(), AllocError> {
    match error {
        InitError::DeviceNotPresent => out.extend_from_slice(b"DeviceNotPresent"),
        InitError::InvalidBaudRate(cause) => push_divisor_error(alloc, out, cause),
        InitError::Stalled => out.extend_from_slice(b"Stalled"),
    }
}

/// Appends a name, a number, ` actual ` and a number.
fn push_mismatch(
    alloc: Global,
    out: &mut Vec<u8>,
    expected: u8,
    actual: u8,
) -> Result<(), AllocError> {
    out.extend_from_slice(b"UnexpectedLoopbackByte expected ")?;
    push_number(alloc, out, usize::from(expected))?;
    out.extend_from_slice(b" actual ")?;
    push_number(alloc, out, usize::from(actual))
}

fn push_loopback_error(
    alloc: Global,
    out: &mut Vec<u8>,
    error: &LoopbackError,
) -> Result<(), AllocError> {
    match error {
        LoopbackError::SendError(cause) => {
            out.extend_from_slice(b"SendError ")?;
            out.extend_from_slice(send_error_name(cause))
        }
        LoopbackError::UnexpectedLoopbackByte { expected, actual } => {
            push_mismatch(alloc, out, *expected, *actual)
        }
        LoopbackError::UnexpectedLoopbackMsg { actual, .. } => {
            out.extend_from_slice(b"UnexpectedLoopbackMsg ")?;
            push_hex(out, actual)
        }
        LoopbackError::Stalled => out.extend_from_slice(b"Stalled"),
    }
}

fn push_register(out: &mut Vec<u8>, name: &[u8], byte: u8) -> Result<(), AllocError> {
    out.extend_from_slice(name)?;
    push_byte(out, byte)
}

fn push_received(out: &mut Vec<u8>, received: &Received) -> Result<(), AllocError> {
    push_register(out, b" ", received.byte)?;
    push_register(out, b"/", received.errors.bits())
}

/// Appends bytes with their errors, or `-` if there are none.
fn push_all_received(out: &mut Vec<u8>, items: &[Received]) -> Result<(), AllocError> {
    if items.is_empty() {
        return out.extend_from_slice(b" -");
    }
    for received in items {
        push_received(out, received)?;
    }
    Ok(())
}

fn push_setup(out: &mut Vec<u8>, dump: &ConfigRegisterDump) -> Result<(), AllocError> {
    push_register(out, b" ier ", dump.ier.bits())?;
    push_register(out, b" isr ", dump.isr.bits())?;
    push_register(out, b" lcr ", dump.lcr.bits())?;
    push_register(out, b" mcr ", dump.mcr.bits())
}

fn push_dump(alloc: Global, out: &mut Vec<u8>, dump: &ConfigRegisterDump) -> Result<(), AllocError> {
    push_setup(out, dump)?;
    push_register(out, b" lsr ", dump.lsr.bits())?;
    push_register(out, b" msr ", dump.msr.bits())?;
    push_register(out, b" spr ", dump.spr)?;
    out.extend_from_slice(b" divisor ")?;
    push_number(alloc, out, usize::from(dump.divisor()))
}

/// Appends an answer as it is printed, without the end of its line.
pub fn push_answer(alloc: Global, out: &mut Vec<u8>, answer: &Answer) -> Result<(), AllocError> {
    match answer {
        Answer::Done => out.extend_from_slice(b"ok"),
        Answer::Flag(true) => out.extend_from_slice(b"ok true"),
        Answer::Flag(false) => out.extend_from_slice(b"ok false"),
        Answer::Count(count) => {
            out.extend_from_slice(b"ok ")?;
            push_number(alloc, out, *count)
        }
        Answer::Bytes(bytes) => {
            out.extend_from_slice(b"ok ")?;
            push_hex(out, bytes)
        }
        Answer::BytesWithErrors(received) => {
            out.extend_from_slice(b"ok")?;
            push_all_received(out, received)
        }
        Answer::Register(byte) => push_register(out, b"ok ", *byte),
        Answer::Latch(low, high) => {
            push_register(out, b"ok ", *low)?;
            push_register(out, b" ", *high)
        }
        Answer::Dump(dump) => {
            out.extend_from_slice(b"ok")?;
            push_dump(alloc, out, dump)
        }
        Answer::Stalled(count) => {
            out.extend_from_slice(b"stalled ")?;
            push_number(alloc, out, *count)
        }
        Answer::ReceiveStalled(bytes) => {
            out.extend_from_slice(b"stalled ")?;
            push_number(alloc, out, bytes.len())?;
            out.extend_from_slice(b" ")?;
            push_hex(out, bytes)
        }
        Answer::InitRefused(error) => {
            out.extend_from_slice(b"err ")?;
            push_init_error(alloc, out, error)
        }
        Answer::FrameRefused(error) => {
            out.extend_from_slice(b"err ")?;
            push_divisor_error(alloc, out, error)
        }
        Answer::FrameWhenIdleRefused(error) => {
            out.extend_from_slice(b"err ")?;
            push_frame_error(alloc, out, error)
        }
        Answer::FifosOff => out.extend_from_slice(b"err FifosOffError"),
        Answer::AttachRefused(error) => {
            out.extend_from_slice(b"err ")?;
            out.extend_from_slice(attach_error_name(error))
        }
        Answer::NotConfigured(error) => {
            out.extend_from_slice(b"err ")?;
            push_configuration_error(alloc, out, error)
        }
        Answer::LoopbackRefused(error) => {
            out.extend_from_slice(b"err ")?;
            push_loopback_error(alloc, out, error)
        }
        Answer::NotConnected(error) => {
            out.extend_from_slice(b"err ")?;
            out.extend_from_slice(remote_error_name(error))
        }
        Answer::NoData => out.extend_from_slice(b"err ByteReceiveError"),
        Answer::NotSent(error) => {
            out.extend_from_slice(b"err ")?;
            out.extend_from_slice(send_error_name(error))
        }
    }
}

/// Appends one line for each answer.
fn push_answers(alloc: Global, out: &mut Vec<u8>, answers: &[Answer]) -> Result<(), AllocError> {
    for answer in answers {
        push_answer(alloc, out, answer)?;
        out.push(b'\n')?;
    }
    Ok(())
}

fn push_bytes_line(out: &mut Vec<u8>, name: &[u8], bytes: &[u8]) -> Result<(), AllocError> {
    out.extend_from_slice(name)?;
    push_hex(out, bytes)?;
    out.push(b'\n')?;
    Ok(())
}

fn mark_letter(mark: ArrivalMark) -> u8 {
    match mark {
        ArrivalMark::Pending => b'p',
        ArrivalMark::Waiting => b'w',
        ArrivalMark::Read => b'r',
        ArrivalMark::Discarded => b'd',
        ArrivalMark::Dropped => b'x',
    }
}

/// Appends marks in letters, or `-` if there are none.
fn push_marks(out: &mut Vec<u8>, marks: &[ArrivalMark]) -> Result<(), AllocError> {
    if marks.is_empty() {
        out.push(b'-')?;
        return Ok(());
    }
    for mark in marks {
        out.push(mark_letter(*mark))?;
    }
    Ok(())
}

fn push_marks_line(out: &mut Vec<u8>, marks: &[ArrivalMark]) -> Result<(), AllocError> {
    out.extend_from_slice(b"marks ")?;
    push_marks(out, marks)?;
    out.push(b'\n')?;
    Ok(())
}

/// Returns what is printed: one line for each answer, and four for the last state of the machine,
/// which are the wire, what the transmitter holds, what is in the receiver, and the mark of each
/// arrival.
///
/// Only the crate that plays scripts needs this.
pub fn render(
    alloc: Global,
    answers: &[Answer],
    wire: &[u8],
    held: &[u8],
    waiting: &[u8],
    marks: &[ArrivalMark],
) -> Result<Vec<u8>, AllocError> {
    let mut out = Vec::new(alloc);
    push_answers(alloc, &mut out, answers)?;
    push_bytes_line(&mut out, b"wire ", wire)?;
    push_bytes_line(&mut out, b"held ", held)?;
    push_bytes_line(&mut out, b"waiting ", waiting)?;
    push_marks_line(&mut out, marks)?;
    Ok(out)
}
