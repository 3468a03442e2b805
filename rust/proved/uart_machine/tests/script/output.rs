//! What is printed for each answer, and for what is left at the end.

use geesetrunk_kit::ArrayVec;
use geesetrunk_kit::alloc::Global;
use proved_uart_machine::{Answer, ArrivalMark, CALL_BYTES};
use uart_language::render;
use uart_spec::registers::{IER, ISR, LCR, LSR, MCR, MSR};
use uart_spec::{
    AttachError, ByteSendError, ConfigRegisterDump, ConfigurationError, FrameError, InitError,
    InvalidDivisorError, LoopbackError, NonIntegerDivisorError, Received,
    RemoteReadyToReceiveError,
};

fn bytes(values: &[u8]) -> ArrayVec<u8, CALL_BYTES> {
    values.try_into().unwrap()
}

fn with_errors(items: &[(u8, LSR)]) -> ArrayVec<Received, CALL_BYTES> {
    let mut received = ArrayVec::new();
    for &(byte, errors) in items {
        received.push(Received { byte, errors });
    }
    received
}

fn dump() -> ConfigRegisterDump {
    ConfigRegisterDump {
        ier: IER::empty(),
        isr: ISR::from_bits_retain(0xc1),
        lcr: LCR::from_bits_retain(0x03),
        mcr: MCR::from_bits_retain(0x0b),
        lsr: LSR::from_bits_retain(0x60),
        msr: MSR::empty(),
        spr: 0,
        dll: 0x0c,
        dlm: 0x01,
    }
}

/// Asserts that this line is printed for the answer.
#[track_caller]
fn assert_line(answer: Answer, want: &str) {
    let text = render(Global::heap(), &[answer], &[], &[], &[], &[]).unwrap();
    let wanted = format!("{want}\nwire -\nheld -\nwaiting -\nmarks -\n");
    assert_eq!(String::from_utf8_lossy(&text), wanted);
}

#[test]
fn each_difference_has_its_line() {
    for (error, want) in [
        (ConfigurationError::NoDivisor, "err NoDivisor"),
        (
            ConfigurationError::LineControl {
                expected: LCR::from_bits_retain(0x83),
                shown: LCR::from_bits_retain(0x03),
            },
            "err LineControl expected 83 shown 03",
        ),
        (
            ConfigurationError::ModemControl {
                expected: MCR::from_bits_retain(0x0b),
                shown: MCR::from_bits_retain(0x1b),
            },
            "err ModemControl expected 0b shown 1b",
        ),
        (
            ConfigurationError::Interrupts {
                expected: IER::from_bits_retain(0x05),
                shown: IER::empty(),
            },
            "err Interrupts expected 05 shown 00",
        ),
        (
            ConfigurationError::Divisor {
                expected: 1,
                shown: 65_535,
            },
            "err Divisor expected 1 shown 65535",
        ),
        (
            ConfigurationError::Fifos {
                expected: true,
                shown: false,
            },
            "err Fifos expected true shown false",
        ),
    ] {
        assert_line(Answer::NotConfigured(error), want);
    }
}

#[test]
fn each_answer_has_its_line() {
    let not_whole = NonIntegerDivisorError::default();
    for (answer, want) in [
        (Answer::Done, "ok"),
        (Answer::Flag(true), "ok true"),
        (Answer::Flag(false), "ok false"),
        (Answer::Count(16), "ok 16"),
        (Answer::Bytes(bytes(&[])), "ok -"),
        (Answer::Bytes(bytes(&[0x01, 0x0a, 0xff])), "ok 010aff"),
        (Answer::BytesWithErrors(with_errors(&[])), "ok -"),
        (
            Answer::BytesWithErrors(with_errors(&[
                (0x41, LSR::empty()),
                (0x00, LSR::FRAMING_ERROR | LSR::BREAK_INTERRUPT),
            ])),
            "ok 41/00 00/18",
        ),
        (
            Answer::AttachRefused(AttachError::DivisorLatchOpen),
            "err DivisorLatchOpen",
        ),
        (
            Answer::AttachRefused(AttachError::NoDivisor),
            "err NoDivisor",
        ),
        (
            Answer::FrameWhenIdleRefused(FrameError::InvalidBaudRate(
                InvalidDivisorError::OutOfRange { divisor: 0 },
            )),
            "err InvalidBaudRate OutOfRange 0",
        ),
        (
            Answer::FrameWhenIdleRefused(FrameError::Stalled),
            "err Stalled",
        ),
        (Answer::FifosOff, "err FifosOffError"),
        (Answer::Register(0x62), "ok 62"),
        (Answer::Latch(0x0c, 0x00), "ok 0c 00"),
        (
            Answer::Dump(dump()),
            "ok ier 00 isr c1 lcr 03 mcr 0b lsr 60 msr 00 spr 00 divisor 268",
        ),
        (Answer::Stalled(4), "stalled 4"),
        (Answer::ReceiveStalled(bytes(&[])), "stalled 0 -"),
        (Answer::ReceiveStalled(bytes(&[0x41])), "stalled 1 41"),
        (
            Answer::InitRefused(InitError::DeviceNotPresent),
            "err DeviceNotPresent",
        ),
        (Answer::InitRefused(InitError::Stalled), "err Stalled"),
        (
            Answer::InitRefused(InitError::InvalidBaudRate(InvalidDivisorError::NonInteger(
                not_whole,
            ))),
            "err InvalidBaudRate NonInteger",
        ),
        (
            Answer::InitRefused(InitError::InvalidBaudRate(
                InvalidDivisorError::OutOfRange { divisor: 115_200 },
            )),
            "err InvalidBaudRate OutOfRange 115200",
        ),
        (
            Answer::LoopbackRefused(LoopbackError::SendError(ByteSendError::NoCapacity)),
            "err SendError NoCapacity",
        ),
        (
            Answer::LoopbackRefused(LoopbackError::UnexpectedLoopbackByte {
                expected: 0x42,
                actual: 0x02,
            }),
            "err UnexpectedLoopbackByte expected 66 actual 2",
        ),
        (
            Answer::LoopbackRefused(LoopbackError::UnexpectedLoopbackMsg {
                expected: [0; 16],
                actual: [0xa5; 16],
            }),
            "err UnexpectedLoopbackMsg a5a5a5a5a5a5a5a5a5a5a5a5a5a5a5a5",
        ),
        (
            Answer::LoopbackRefused(LoopbackError::Stalled),
            "err Stalled",
        ),
        (
            Answer::NotConnected(RemoteReadyToReceiveError::NoRemoteConnectedNoDSR),
            "err NoRemoteConnectedNoDSR",
        ),
        (
            Answer::NotConnected(RemoteReadyToReceiveError::RemoteNotClearToSend),
            "err RemoteNotClearToSend",
        ),
        (Answer::NoData, "err ByteReceiveError"),
        (Answer::NotSent(ByteSendError::NoCapacity), "err NoCapacity"),
        (
            Answer::NotSent(ByteSendError::RemoteNotClearToSend),
            "err RemoteNotClearToSend",
        ),
    ] {
        assert_line(answer, want);
    }
}

#[test]
fn what_is_left_has_four_lines() {
    let marks = [
        ArrivalMark::Pending,
        ArrivalMark::Waiting,
        ArrivalMark::Read,
        ArrivalMark::Discarded,
        ArrivalMark::Dropped,
    ];
    let text = render(
        Global::heap(),
        &[],
        &[1, 2, 3],
        &[0x48],
        &[0x41, 0xff],
        &marks,
    )
    .unwrap();
    let want = "wire 010203\nheld 48\nwaiting 41ff\nmarks pwrdx\n";
    assert_eq!(String::from_utf8_lossy(&text), want);
}
