//! Every call over a device whose reads always return FF, over one whose reads always return 00,
//! and over the register file: each on a new driver, with its whole list of accesses.

use crate::devices::{Constant, RegisterFile, driver};
use crate::driving::Start::New;
use crate::driving::{bytes, dump, init, over, row, text, then, with_errors, writing};
use crate::lists::{Accesses, list};
use std::fmt;
use uart_calls::Answer::{
    self, AttachRefused, Bytes, BytesWithErrors, Count, Done, Flag, FrameWhenIdleRefused,
    InitRefused, Latch, LoopbackRefused, NoData, NotConfigured, NotConnected, NotSent,
    ReceiveStalled, Register, Stalled,
};
use uart_calls::Call::{
    self, Attach, CheckConfigured, CheckConnected, CheckPresent, Disable, DllDlm, Dump, Enable,
    FifoEnabled, Flush, InitWith, IsIdle, PeekModem, Quiesce, ReadReady, ReadyToReceive,
    ReadyToSend, Receive, ReceiveExact, ReceiveWithErrors, Restore, RetriggerInterrupts, Send,
    SendExact, SetBreak, SetDtr, SetFrame, SetFrameWhenIdle, SetModemControl, SetRts,
    SetTriggerLevel, TestLoopback, TryReceive, TrySend, Write, WriteReady,
};
use uart_spec::AttachError;
use uart_spec::BaudRate::Baud9600;
use uart_spec::ByteSendError::NoCapacity;
use uart_spec::ConfigurationError::LineControl;
use uart_spec::FifoAction::Keep;
use uart_spec::FrameError;
use uart_spec::InitError::DeviceNotPresent;
use uart_spec::LoopbackError;
use uart_spec::RemoteReadyToReceiveError::NoRemoteConnectedNoDSR;
use uart_spec::registers::{FifoTriggerLevel, IER, LCR, MCR, offsets};
use uart_spec::{Config, Setup, TransmitterWait};

fn default_init() -> Call {
    init(Some(FifoTriggerLevel::Fourteen), Baud9600)
}

/// Makes a call over the register file.
fn filed(call: Call, answer: Answer, accesses: Accesses) {
    over(RegisterFile::new(true), call, answer, accesses);
}

/// Makes the calls that make one check, over a device whose reads always return this byte: each of
/// its lines and flags is on, or each is off.
fn looks_at(byte: u8, ready: bool, [enabled, disabled]: [u8; 2], under_dlab: u8) {
    let unless = |refusal| if ready { Done } else { refusal };
    let connected = unless(NotConnected(NoRemoteConnectedNoDSR));
    let received = unless(NoData);
    let sent = unless(NotSent(NoCapacity));
    let shown = dump([byte; 7], byte, byte);
    let framed = NotConfigured(LineControl {
        expected: LCR::from_bits_retain(0x03),
        shown: LCR::from_bits_retain(byte),
    });
    let ier = || list().read(offsets::IER, byte);
    let latch = || list().latch(byte, under_dlab, byte, byte);
    for (call, answer, accesses) in [
        (CheckPresent, Flag(false), list().absent(byte)),
        (CheckConnected, connected, list().read(offsets::MSR, byte)),
        (ReadyToReceive, received, list().look(byte)),
        (ReadyToSend, sent, list().look(byte)),
        (ReadReady, Flag(ready), list().look(byte)),
        (WriteReady, Flag(ready), list().look(byte)),
        (
            Enable(IER::THR_EMPTY),
            Done,
            ier().write(offsets::IER, enabled),
        ),
        (
            Disable(IER::THR_EMPTY),
            Done,
            ier().write(offsets::IER, disabled),
        ),
        (
            RetriggerInterrupts,
            Done,
            ier().write(offsets::IER, 0).write(offsets::IER, byte),
        ),
        (DllDlm, Latch(byte, byte), latch()),
        (Dump, Answer::Dump(shown), latch().registers([byte; 7])),
        (
            CheckConfigured(MCR::READY),
            framed,
            list().read(offsets::LCR, byte),
        ),
    ] {
        over(Constant(byte), call, answer, accesses);
    }
}

/// Makes the calls that read one register, over a device whose reads always return this byte.
fn registers_at(byte: u8) {
    for (call, offset) in [
        (Call::Ier, offsets::IER),
        (Call::Isr, offsets::ISR),
        (Call::Lcr, offsets::LCR),
        (Call::Mcr, offsets::MCR),
        (Call::Lsr, offsets::LSR),
        (Call::Msr, offsets::MSR),
        (Call::Spr, offsets::SPR),
    ] {
        over(
            Constant(byte),
            call,
            Register(byte),
            list().read(offset, byte),
        );
    }
}

#[test]
fn looks_at_ff_and_00() {
    looks_at(0xff, true, [0xff, 0xfd], 0xff);
    looks_at(0x00, false, [0x02, 0x00], 0x80);
    registers_at(0xff);
    registers_at(0x00);
}

/// Makes the calls that change a port, leave it and put it back, over a device whose reads always
/// return this byte. What is written to LCR and MCR are the byte's bits, with those of the call.
fn changes_at(byte: u8, idle: bool, [broken, ended]: [u8; 2], [rts, dtr]: [u8; 2]) {
    let shown = |offset| list().read(offset, byte);
    let framed = || {
        let set = list().write(offsets::LCR, 0x83).write(offsets::DLL, 0x0c);
        set.write(offsets::DLM, 0x00).write(offsets::LCR, 0x03)
    };
    let kept = dump([0x05, 0xc1, 0x03, 0x0b, 0x60, 0xb0, 0xa5], 0x03, 0x01);
    let put_back = list().line(0x03, 0x01, 0x03).fifo(0xc7, byte);
    let put_back = put_back
        .write(offsets::MCR, 0x0b)
        .write(offsets::SPR, 0xa5)
        .write(offsets::IER, 0x05);
    for (call, answer, accesses) in [
        (FifoEnabled, Flag(true), list()),
        (PeekModem, Register(byte), shown(offsets::MSR)),
        (IsIdle, Flag(idle), list().look(byte)),
        (
            SetBreak(true),
            Done,
            shown(offsets::LCR).write(offsets::LCR, broken),
        ),
        (
            SetBreak(false),
            Done,
            shown(offsets::LCR).write(offsets::LCR, ended),
        ),
        // Loopback is left out of what is written.
        (
            SetModemControl(MCR::from_bits_retain(0x1b)),
            Done,
            list().write(offsets::MCR, 0x0b),
        ),
        (
            SetRts(true),
            Done,
            shown(offsets::MCR).write(offsets::MCR, rts),
        ),
        (
            SetDtr(false),
            Done,
            shown(offsets::MCR).write(offsets::MCR, dtr),
        ),
        (
            SetTriggerLevel(FifoTriggerLevel::Eight),
            Done,
            list().write(offsets::FCR, 0x81),
        ),
        (
            Quiesce(MCR::from_bits_retain(0x18), Keep),
            Done,
            list().write(offsets::IER, 0x00).write(offsets::MCR, 0x08),
        ),
        (Restore(kept), Done, put_back),
        (SetFrame(Config::DEFAULT), Done, framed()),
        (
            InitWith(Config::DEFAULT, Setup::DEFAULT),
            InitRefused(DeviceNotPresent),
            list().absent(byte),
        ),
    ] {
        over(Constant(byte), call, answer, accesses);
    }
}

#[test]
fn changes_over_ff_and_00() {
    changes_at(0xff, true, [0xff, 0xbf], [0xef, 0xee]);
    changes_at(0x00, false, [0x40, 0x00], [0x02, 0x00]);
    // FF is a chip whose DLAB is on and whose transmitter is empty; 00 one that has no divisor, and
    // whose transmitter never becomes empty.
    let idle = list().look(0xff).write(offsets::LCR, 0x83);
    let framed = idle.write(offsets::DLL, 0x0c).write(offsets::DLM, 0x00);
    let framed = framed.write(offsets::LCR, 0x03);
    over(
        Constant(0xff),
        SetFrameWhenIdle(Config::DEFAULT),
        Done,
        framed,
    );
    let refused = FrameWhenIdleRefused(FrameError::Stalled);
    let waited = list().looks(3, 0x00);
    over(
        Constant(0x00),
        SetFrameWhenIdle(Config::DEFAULT),
        refused,
        waited,
    );
    let opened = AttachRefused(AttachError::DivisorLatchOpen);
    over(
        Constant(0xff),
        Attach,
        opened,
        list().read(offsets::LCR, 0xff),
    );
    let looked = list().read(offsets::LCR, 0x00).read(offsets::MCR, 0x00);
    let looked = looked.latch(0x00, 0x80, 0x00, 0x00);
    over(
        Constant(0x00),
        Attach,
        AttachRefused(AttachError::NoDivisor),
        looked,
    );
}

#[test]
fn initialisations_without_looks_over_ff_and_00() {
    let unseen = || {
        let setup = Setup {
            checks_presence: false,
            wait: TransmitterWait::Never,
            outputs: MCR::READY,
        };
        InitWith(Config::DEFAULT, setup)
    };
    // The receiver of FF is never empty: as many bytes are discarded as it can hold.
    let byte = list().look(0xff).read(offsets::DATA, 0xff);
    let set = list().line(0x0c, 0x00, 0x03).fifo(0xc7, 0xff);
    let drained = (0..17).fold(set, |list, _| list.then(&byte));
    let all = drained
        .write(offsets::MCR, 0x0b)
        .end(0xff, 0xff, 0xff, 0x00);
    over(Constant(0xff), unseen(), Done, all);
    let set = list().line(0x0c, 0x00, 0x03).fifo(0xc7, 0x00).look(0x00);
    let all = set.write(offsets::MCR, 0x0b).end(0x00, 0x00, 0x00, 0x00);
    over(Constant(0x00), unseen(), Done, all);
}

#[test]
fn bytes_over_ff() {
    let byte = list().look(0xff).read(offsets::DATA, 0xff);
    let three = || list().then(&byte).then(&byte).then(&byte);
    let burst = || list().look(0xff).data(b"hello, world! 12");
    let long = || bytes(b"hello, world! 123");
    let line = || list().look(0xff).data(b"\r").look(0xff).data(b"\n");
    for (call, answer, accesses) in [
        (TryReceive, Register(0xff), list().then(&byte)),
        (Receive(3), Bytes(bytes(&[0xff; 3])), three()),
        (ReceiveExact(3), Bytes(bytes(&[0xff; 3])), three()),
        (
            ReceiveWithErrors(3),
            BytesWithErrors(with_errors(&[(0xff, 0x1e); 3])),
            three(),
        ),
        (Call::Read(3), Bytes(bytes(&[0xff; 3])), three()),
        (TrySend(b'a'), Done, list().look(0xff).data(b"a")),
        (Send(long()), Count(16), burst()),
        (Write(long()), Count(16), burst()),
        (SendExact(long()), Done, burst().look(0xff).data(b"3")),
        (Flush, Done, list().look(0xff)),
        (text("\n"), Done, line()),
        (
            default_init(),
            InitRefused(DeviceNotPresent),
            list().absent(0xff),
        ),
    ] {
        over(Constant(0xff), call, answer, accesses);
    }
    writing(New, "\n", Ok(()), &line());
}

#[test]
fn what_ff_showed_is_saved() {
    // Three bytes in six accesses; then `lsr` returns FF, also if LSR itself shows nothing any
    // more.
    let byte = list().look(0xff).read(offsets::DATA, 0xff);
    let three = list().then(&byte).then(&byte).then(&byte);
    for (shown, lsr) in [(0xff, 0xff), (0x00, 0x1e)] {
        let looked = list().look(shown);
        let mut terminal = row(New, Receive(3), Bytes(bytes(&[0xff; 3])), &three);
        then(&mut terminal, Call::Lsr, Register(lsr), &looked);
    }
}

#[test]
fn bytes_over_00() {
    let stalled = || list().looks(3, 0x00);
    let none = || bytes(b"");
    let begun = list().read(offsets::MCR, 0x00).read(offsets::IER, 0x00);
    for (call, answer, accesses) in [
        (TryReceive, NoData, list().look(0x00)),
        (Receive(3), Bytes(none()), list().look(0x00)),
        (ReceiveExact(3), ReceiveStalled(none()), stalled()),
        (
            ReceiveWithErrors(3),
            BytesWithErrors(with_errors(&[])),
            list().look(0x00),
        ),
        (Call::Read(3), Stalled(0), stalled()),
        (TrySend(b'a'), NotSent(NoCapacity), list().look(0x00)),
        (Send(bytes(b"hello")), Count(0), list().look(0x00)),
        (SendExact(bytes(b"hello")), Stalled(0), stalled()),
        (Write(bytes(b"hello")), Stalled(0), stalled()),
        (Flush, Stalled(0), stalled()),
        (text("\n"), Stalled(0), stalled()),
        (
            default_init(),
            InitRefused(DeviceNotPresent),
            list().absent(0x00),
        ),
        (
            TestLoopback,
            LoopbackRefused(LoopbackError::Stalled),
            begun.looks(3, 0x00),
        ),
    ] {
        over(Constant(0x00), call, answer, accesses);
    }
    writing(New, "\n", Err(fmt::Error), &stalled());
}

#[test]
fn calls_over_the_register_file() {
    let hello = || list().look(0x60).data(b"hello");
    let lines = list().read(offsets::MSR, 0x00);
    for (call, answer, accesses) in [
        (CheckConnected, NotConnected(NoRemoteConnectedNoDSR), lines),
        (ReadyToReceive, NoData, list().look(0x60)),
        (ReadyToSend, Done, list().look(0x60)),
        (Call::Isr, Register(0x01), list().read(offsets::ISR, 0x01)),
        (TryReceive, NoData, list().look(0x60)),
        (Send(bytes(b"hello")), Count(5), hello()),
        (SendExact(bytes(b"hello")), Done, hello()),
        (Call::Read(3), Stalled(0), list().looks(3, 0x60)),
        (
            ReceiveExact(3),
            ReceiveStalled(bytes(b"")),
            list().looks(3, 0x60),
        ),
        (Flush, Done, list().look(0x60)),
    ] {
        filed(call, answer, accesses);
    }
    let begun = list().look(0x60).data(b"a").look(0x60).data(b"\r");
    filed(text("a\n"), Done, begun.look(0x60).data(b"\n"));
    // FCR shows in ISR; there is no loopback, so the byte does not return.
    let entered = list().enter(0x00, 0x00, 0x60, 0x00).fifo(0xc7, 0xc1);
    let awaited = entered.look(0x60).look(0x60).data(b"B").looks(3, 0x60);
    let all = awaited.leave(0x00, 0x00, 0x00, 0x00);
    filed(TestLoopback, LoopbackRefused(LoopbackError::Stalled), all);
}

#[test]
fn small_calls_over_the_register_file() {
    // The number of accesses of each. DLAB is set only for the divisor latch.
    let ier = || list().read(offsets::IER, 0x00).write(offsets::IER, 0x00);
    let latch = list().latch(0x00, 0x80, 0x00, 0x00);
    for (call, answer, accesses, count) in [
        (CheckPresent, Flag(true), list().present(0x00), 6),
        (DllDlm, Latch(0x00, 0x00), latch, 5),
        (Enable(IER::empty()), Done, ier(), 2),
        (Disable(IER::empty()), Done, ier(), 2),
        (Call::Lsr, Register(0x60), list().look(0x60), 1),
    ] {
        assert_eq!(accesses.count(), count, "{call:?}");
        filed(call, answer, accesses);
    }
    let mut uart = driver(RegisterFile::new(true));
    uart.config_register_dump();
    assert_eq!(uart.backend().log.count(), 12);
}
