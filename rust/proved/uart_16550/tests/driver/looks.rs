//! The calls that look once, and those that read and write single registers: each with its whole
//! list of accesses.

use crate::driving::Start::{Checking, New};
use crate::driving::{dump, row, then, with_errors};
use crate::lists::list;
use uart_calls::Answer::{self, Done, Flag, Latch, NoData, NotConnected, NotSent, Register};
use uart_calls::Call::{
    self, CheckConnected, CheckPresent, DllDlm, Dump, ReadReady, ReadyToReceive, ReadyToSend,
    WriteReady,
};
use uart_spec::ByteSendError::{NoCapacity, RemoteNotClearToSend};
use uart_spec::RemoteReadyToReceiveError::{
    NoRemoteConnectedNoDSR as NoDsr, RemoteNotClearToSend as NoCts,
};
use uart_spec::registers::{IER, MCR, WordLength, offsets};
use uart_spec::{AttachError, BaudRate, Config};

#[test]
fn presence() {
    let begun = || list().read(offsets::SPR, 0xa5).write(offsets::SPR, 0x42);
    let second = begun().read(offsets::SPR, 0x42).write(offsets::SPR, 0x73);
    let second_lost = second.read(offsets::SPR, 0x72).write(offsets::SPR, 0xa5);
    let first_lost = begun().read(offsets::SPR, 0x73).write(offsets::SPR, 0xa5);
    row(New, CheckPresent, Flag(true), &list().present(0xa5));
    row(New, CheckPresent, Flag(false), &second_lost);
    row(New, CheckPresent, Flag(false), &first_lost);
}

#[test]
fn connection() {
    for (lines, answer) in [
        (0x30, Done),
        (0x20, NotConnected(NoCts)),
        (0xdf, NotConnected(NoDsr)),
        (0x00, NotConnected(NoDsr)),
    ] {
        let looked = list().read(offsets::MSR, lines);
        row(New, CheckConnected, answer, &looked);
    }
}

#[test]
fn looks_for_data_and_for_room() {
    for (call, lsr, answer) in [
        (ReadyToReceive, 0x01, Done),
        (ReadyToReceive, 0xfe, NoData),
        (ReadReady, 0x01, Flag(true)),
        (ReadReady, 0xfe, Flag(false)),
        (ReadyToSend, 0x20, Done),
        (ReadyToSend, 0xdf, NotSent(NoCapacity)),
        (WriteReady, 0x20, Flag(true)),
        (WriteReady, 0xdf, Flag(false)),
    ] {
        row(New, call, answer, &list().look(lsr));
    }
}

#[test]
fn looks_for_room_that_check_cts() {
    for (accesses, sent, ready) in [
        (list().check(0xef, 0x10), Done, true),
        (
            list().check(0xef, 0xef),
            NotSent(RemoteNotClearToSend),
            false,
        ),
        // In loopback the lines mean nothing.
        (list().look(0x20).read(offsets::MCR, 0x10), Done, true),
        // Without room they are not looked at.
        (list().look(0xdf), NotSent(NoCapacity), false),
    ] {
        row(Checking, ReadyToSend, sent, &accesses);
        row(Checking, WriteReady, Flag(ready), &accesses);
    }
}

#[test]
fn interrupts() {
    for (call, ier, left) in [
        (Call::Enable(IER::THR_EMPTY), 0xf1, 0xf3),
        (Call::Disable(IER::DATA_READY), 0xf3, 0xf2),
    ] {
        let changed = list().read(offsets::IER, ier).write(offsets::IER, left);
        let terminal = row(New, call, Done, &changed);
        assert_eq!(terminal.inner().config().interrupts.bits(), left);
    }
}

#[test]
fn registers() {
    for (call, offset) in [
        (Call::Ier, offsets::IER),
        (Call::Isr, offsets::ISR),
        (Call::Lcr, offsets::LCR),
        (Call::Mcr, offsets::MCR),
        (Call::Lsr, offsets::LSR),
        (Call::Msr, offsets::MSR),
        (Call::Spr, offsets::SPR),
    ] {
        row(New, call, Register(0xa6), &list().read(offset, 0xa6));
    }
    let latch = list().latch(0x1b, 0x9b, 0x80, 0x01);
    row(New, DllDlm, Latch(0x80, 0x01), &latch);
}

#[test]
fn statuses_are_joined_with_what_was_saved() {
    let (looked, shown) = (list().look(0xfe), list().look(0x60));
    let mut terminal = row(New, ReadyToReceive, NoData, &looked);
    then(&mut terminal, Call::Lsr, Register(0x7e), &shown);
    then(&mut terminal, Call::Lsr, Register(0x60), &shown);
    let looked = list().read(offsets::MSR, 0xff);
    let shown = list().read(offsets::MSR, 0x30);
    let mut terminal = row(New, CheckConnected, Done, &looked);
    then(&mut terminal, Call::Msr, Register(0x3f), &shown);
    then(&mut terminal, Call::Msr, Register(0x30), &shown);
}

#[test]
fn a_dump_shows_what_was_saved_and_keeps_it() {
    let looked = list().look(0xfe);
    let mut terminal = row(New, ReadyToReceive, NoData, &looked);
    let dumped = list()
        .latch(0x03, 0x83, 0x0c, 0x01)
        .registers([0x05, 0xc1, 0x03, 0x0b, 0x60, 0x31, 0xa5]);
    let shown = dump([0x05, 0xc1, 0x03, 0x0b, 0x7e, 0x31, 0xa5], 0x0c, 0x01);
    then(&mut terminal, Dump, Answer::Dump(shown), &dumped);
    let (line, modem) = (list().look(0x60), list().read(offsets::MSR, 0x30));
    then(&mut terminal, Call::Lsr, Register(0x7e), &line);
    then(&mut terminal, Call::Msr, Register(0x31), &modem);
}

#[test]
fn calls_that_change_the_line() {
    let frame = Config {
        baud_rate: BaudRate::Baud38400,
        data_bits: WordLength::SevenBits,
        ..Config::DEFAULT
    };
    let lines = list()
        .write(offsets::LCR, 0x82)
        .write(offsets::DLL, 3)
        .write(offsets::DLM, 0)
        .write(offsets::LCR, 0x02);
    let terminal = row(New, Call::SetFrame(frame), Done, &lines);
    assert_eq!(terminal.inner().config().data_bits, WordLength::SevenBits);
    let near = Config {
        frequency: 24_000_000,
        baud_rate: BaudRate::Baud115200,
        ..Config::DEFAULT
    };
    let lines = list()
        .write(offsets::LCR, 0x83)
        .write(offsets::DLL, 13)
        .write(offsets::DLM, 0)
        .write(offsets::LCR, 0x03);
    let near = near.nearest(2).expect("the divisor 13 is near enough");
    row(New, Call::SetFrame(near), Done, &lines);
    for (call, read, written) in [
        (Call::SetBreak(true), 0x03, 0x43),
        (Call::SetBreak(false), 0x43, 0x03),
    ] {
        let changed = list().read(offsets::LCR, read);
        row(New, call, Done, &changed.write(offsets::LCR, written));
    }
    for (call, read, written) in [
        (Call::SetRts(true), 0x19, 0x0b),
        (Call::SetRts(false), 0x0b, 0x09),
        (Call::SetDtr(false), 0x0b, 0x0a),
    ] {
        let changed = list().read(offsets::MCR, read);
        row(New, call, Done, &changed.write(offsets::MCR, written));
    }
    // A loopback is never entered.
    let outputs = Call::SetModemControl(MCR::LOOP_BACK | MCR::DTR);
    row(New, outputs, Done, &list().write(offsets::MCR, 0x01));
    row(New, Call::IsIdle, Flag(true), &list().look(0x40));
    row(New, Call::IsIdle, Flag(false), &list().look(0xbf));
    let look = list().read(offsets::MSR, 0xff);
    let shown = list().read(offsets::MSR, 0x30);
    let mut terminal = row(New, Call::PeekModem, Register(0xff), &look);
    then(&mut terminal, Call::PeekModem, Register(0x30), &shown);
    then(&mut terminal, Call::Msr, Register(0x3f), &shown);
}

#[test]
fn ports_that_are_attached() {
    let taken = list()
        .read(offsets::LCR, 0x03)
        .read(offsets::MCR, 0x0b)
        .latch(0x03, 0x83, 12, 0)
        .read(offsets::ISR, 0x01);
    let terminal = row(New, Call::Attach, Latch(12, 0), &taken);
    assert!(!terminal.inner().fifo_enabled());
    let bare = list()
        .read(offsets::LCR, 0x03)
        .read(offsets::MCR, 0x0b)
        .latch(0x03, 0x83, 0, 0);
    let refused = Answer::AttachRefused(AttachError::NoDivisor);
    let terminal = row(New, Call::Attach, refused, &bare);
    assert!(terminal.inner().fifo_enabled());
    let opened = Answer::AttachRefused(AttachError::DivisorLatchOpen);
    row(New, Call::Attach, opened, &list().read(offsets::LCR, 0x83));
    let looped = Answer::AttachRefused(AttachError::Loopback);
    let shown = list().read(offsets::LCR, 0x03).read(offsets::MCR, 0x10);
    row(New, Call::Attach, looped, &shown);
}

#[test]
fn bytes_come_with_their_errors() {
    // A parity error, a framing error, and a miss that shows an overrun.
    let looked = list()
        .look(0x05)
        .read(offsets::DATA, 0x41)
        .look(0x09)
        .read(offsets::DATA, 0x42)
        .look(0x62);
    let answer = Answer::BytesWithErrors(with_errors(&[(0x41, 0x04), (0x42, 0x08)]));
    let mut terminal = row(New, Call::ReceiveWithErrors(3), answer, &looked);
    then(&mut terminal, Call::Lsr, Register(0x6e), &list().look(0x60));
}
