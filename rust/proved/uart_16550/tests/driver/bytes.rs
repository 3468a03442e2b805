//! The calls that receive and send, by bytes and by slices: each with its whole list of accesses,
//! and each of their waits to its stall.

use crate::driving::Start::{Checking, CheckingNoFifo, New, NoFifo};
use crate::driving::{Left, NOTHING, bytes, made, read_back, row, started, text, writing};
use crate::lists::{Accesses, list};
use proved_uart_16550::embedded_io::Read;
use std::fmt;
use uart_calls::Answer::{
    Bytes, Count, Done, Flag, NoData, NotSent, ReceiveStalled, Register, Stalled,
};
use uart_calls::Call::{
    self, Flush, ReadReady, ReadyToReceive, ReadyToSend, Receive, ReceiveExact, TryReceive,
    TrySend, WriteReady,
};
use uart_spec::ByteSendError::{NoCapacity, RemoteNotClearToSend};
use uart_spec::StalledError;
use uart_spec::registers::offsets;

/// More than one burst of 16 bytes: that, and the rest.
const LONG: &[u8] = b"hello, world! 123";

const FIRST: &[u8] = b"hello, world! 12";

const REST: &[u8] = b"3";

fn send(slice: &[u8]) -> Call {
    Call::Send(bytes(slice))
}

fn send_exact(slice: &[u8]) -> Call {
    Call::SendExact(bytes(slice))
}

fn write(slice: &[u8]) -> Call {
    Call::Write(bytes(slice))
}

#[test]
fn single_bytes() {
    let full = || NotSent(NoCapacity);
    row(New, TryReceive, Register(0x41), &list().hit(0x41));
    row(New, TryReceive, NoData, &list().look(0xfe));
    row(New, TrySend(b'a'), Done, &list().burst(b"a"));
    row(New, TrySend(b'a'), full(), &list().look(0xdf));
    let clear = list().check(0x0b, 0x10).data(b"a");
    row(Checking, TrySend(b'a'), Done, &clear);
    // It does not report that the remote is not clear to send.
    let not_clear = list().check(0x0b, 0x20);
    row(Checking, TrySend(b'a'), full(), &not_clear);
}

#[test]
fn receive_bytes() {
    for (slots, came, accesses) in [
        (0, &b""[..], list()),
        (3, b"", list().look(0xfe)),
        (3, b"AB", list().hits(b"AB").look(0x00)),
        (2, b"AB", list().hits(b"AB")),
    ] {
        row(New, Receive(slots), Bytes(bytes(came)), &accesses);
    }
}

#[test]
fn slots_beyond_what_came_stay() {
    let mut slots = [0xee; 4];
    let mut terminal = started(New, &[0x01, 0x41, 0x01, 0x42, 0x00, 0x01, 0x43]);
    let uart = terminal.inner_mut();
    assert_eq!(uart.receive_bytes(&mut slots), 2);
    assert_eq!(slots, [0x41, 0x42, 0xee, 0xee]);
    assert_eq!(uart.read(&mut slots[1..]), Ok(1));
    assert_eq!(slots, [0x41, 0x43, 0xee, 0xee]);
    let mut terminal = started(New, &[0x01, 0x44]);
    let stall = StalledError { done: 1 };
    let uart = terminal.inner_mut();
    assert_eq!(uart.receive_bytes_exact(&mut slots), Err(stall));
    assert_eq!(slots, [0x44, 0x43, 0xee, 0xee]);
}

#[test]
fn send_bytes() {
    let clear = || list().check(0x0b, 0x10);
    let looping = list().look(0x20).read(offsets::MCR, 0x1b);
    for (start, slice, sent, accesses) in [
        (New, &b""[..], 0, list()),
        (New, b"hi", 0, list().look(0xdf)),
        (New, b"hi", 2, list().burst(b"hi")),
        (New, LONG, 16, list().burst(FIRST)),
        (NoFifo, LONG, 1, list().burst(b"h")),
        (Checking, b"hi", 2, clear().data(b"hi")),
        (CheckingNoFifo, b"hi", 1, clear().data(b"h")),
        (Checking, b"hi", 0, list().check(0x0b, 0x20)),
        (Checking, b"hi", 2, looping.data(b"hi")),
    ] {
        row(start, send(slice), Count(sent), &accesses);
    }
}

#[test]
fn receive_bytes_exact() {
    row(New, ReceiveExact(0), Bytes(bytes(b"")), &list());
    // Two unsuccessful polls in a row before each byte, and no third.
    let all = list().looks(2, 0x00).hit(0x41).looks(2, 0x00).hit(0x42);
    row(New, ReceiveExact(2), Bytes(bytes(b"AB")), &all);
    let none = list().looks(3, 0x00);
    row(New, ReceiveExact(3), ReceiveStalled(bytes(b"")), &none);
    let some = list().hit(0x41).looks(2, 0x00).hit(0x42).looks(3, 0x00);
    row(New, ReceiveExact(3), ReceiveStalled(bytes(b"AB")), &some);
}

#[test]
fn send_bytes_exact() {
    row(New, send_exact(b""), Done, &list());
    let late = || list().looks(2, 0x00);
    let all = late().burst(FIRST).looks(2, 0x00).burst(REST);
    row(New, send_exact(LONG), Done, &all);
    row(New, send_exact(LONG), Stalled(0), &list().looks(3, 0x00));
    // 22 accesses.
    let some = late().burst(FIRST).looks(3, 0x00);
    assert_eq!(some.count(), 22);
    row(New, send_exact(LONG), Stalled(16), &some);
}

#[test]
fn send_bytes_exact_without_fifo() {
    row(NoFifo, send_exact(b""), Done, &list());
    let first = list().looks(2, 0x00).burst(b"a");
    let all = first.looks(2, 0x00).burst(b"b").burst(b"c");
    row(NoFifo, send_exact(b"abc"), Done, &all);
    let none = list().looks(3, 0x00);
    row(NoFifo, send_exact(b"abc"), Stalled(0), &none);
    let some = list().burst(b"a").look(0x00).burst(b"b").looks(3, 0x00);
    row(NoFifo, send_exact(b"abc"), Stalled(2), &some);
}

#[test]
fn send_bytes_exact_that_checks_cts() {
    // No room, not clear to send, no room: these are three misses in a row.
    let none = list().look(0x00).check(0x0b, 0x20).look(0x00);
    row(Checking, send_exact(LONG), Stalled(0), &none);
    // One burst, and then the remote is not clear to send any more.
    let some = || list().check(0x0b, 0x10);
    let miss = list().check(0x0b, 0x00);
    let burst = some().data(FIRST).then(&miss).then(&miss).then(&miss);
    row(Checking, send_exact(LONG), Stalled(16), &burst);
    let byte = some().data(b"h").then(&miss).then(&miss).then(&miss);
    row(CheckingNoFifo, send_exact(LONG), Stalled(1), &byte);
    let each = some().data(b"a").then(&some()).data(b"b");
    row(CheckingNoFifo, send_exact(b"ab"), Done, &each);
}

#[test]
fn read() {
    row(New, Call::Read(0), Bytes(bytes(b"")), &list());
    let one = list().looks(2, 0x00).hit(0x41).look(0x00);
    row(New, Call::Read(3), Bytes(bytes(b"A")), &one);
    let full = list().look(0x00).hits(b"AB");
    row(New, Call::Read(2), Bytes(bytes(b"AB")), &full);
    row(New, Call::Read(3), Stalled(0), &list().looks(3, 0x00));
}

#[test]
fn writes() {
    let late = || list().looks(2, 0x00);
    let missed = || list().check(0x0b, 0x00);
    let clear = missed().check(0x0b, 0x10).data(b"hi");
    for (start, slice, answer, accesses) in [
        (New, &b""[..], Count(0), list()),
        (New, b"hi", Count(2), late().burst(b"hi")),
        (New, LONG, Count(16), late().burst(FIRST)),
        (NoFifo, LONG, Count(1), late().burst(b"h")),
        (New, b"hi", Stalled(0), list().looks(3, 0x00)),
        (Checking, b"hi", Count(2), clear),
        (
            Checking,
            b"hi",
            Stalled(0),
            missed().look(0x00).then(&missed()),
        ),
    ] {
        row(start, write(slice), answer, &accesses);
    }
}

#[test]
fn flush() {
    // An empty holding register is not enough.
    let waits = || list().look(0x00).look(0x20);
    row(New, Flush, Done, &waits().look(0x40));
    row(New, Flush, Stalled(0), &waits().look(0xbf));
}

#[test]
fn texts() {
    let each = list().burst(b"a").burst(b"\x08").burst(b" ").burst(b"\x08");
    let all = each.burst(b"\r").burst(b"\n");
    row(New, text("a\x7f\n"), Done, &all);
    writing(New, "a\x08\n", Ok(()), &all);
    row(New, text(""), Done, &list());
    // The wait for each byte is its own, with and without FIFO.
    let late = list().looks(2, 0x00).burst(b"\r");
    let late = late.looks(2, 0x00).burst(b"\n");
    row(New, text("\n"), Done, &late);
    row(NoFifo, text("\n"), Done, &late);
}

#[test]
fn texts_stall() {
    let none = list().looks(3, 0x00);
    row(New, text("a\n"), Stalled(0), &none);
    writing(New, "a\n", Err(fmt::Error), &none);
    // After the byte, and in the middle of an expansion.
    let begun = list().burst(b"a").look(0x00).burst(b"\x08");
    let some = begun.burst(b" ").looks(3, 0x00);
    row(New, text("a\x7fb"), Stalled(3), &some);
    row(NoFifo, text("a\x7fb"), Stalled(3), &some);
    writing(New, "a\x7fb", Err(fmt::Error), &some);
    let checked = list().check(0x0b, 0x10).data(b"a");
    let checked = checked.look(0x00).check(0x0b, 0x00).look(0x00);
    row(Checking, text("ab"), Stalled(1), &checked);
}

#[test]
fn long_slices_stall_after_many_bytes() {
    // Slices are sent and received in pieces of 128 bytes.
    let stall = Err(StalledError { done: 129 });
    let each_byte = |one: fn(Accesses) -> Accesses| (0..129).fold(list(), |list, _| one(list));
    let mut terminal = started(NoFifo, &[0x20; 129]);
    let uart = terminal.inner_mut();
    assert_eq!(uart.send_bytes_exact(&[b'a'; 131]), stall);
    let sent = each_byte(|list| list.burst(b"a")).looks(3, 0x00);
    assert_eq!(made(&terminal), sent.entries());
    let mut terminal = started(New, &[0x01; 258]);
    let mut slots = [0xee; 131];
    let uart = terminal.inner_mut();
    assert_eq!(uart.receive_bytes_exact(&mut slots), stall);
    assert_eq!(slots[..129], [0x01; 129]);
    assert_eq!(slots[129..], [0xee; 2]);
    let received = each_byte(|list| list.hit(0x01)).looks(3, 0x00);
    assert_eq!(made(&terminal), received.entries());
}

#[test]
fn refusals_leave_all_but_the_saved_bits() {
    // Three looks, each with another error: a wait makes them all, another call the first.
    let once = list().look(0x02);
    let thrice = list().look(0x02).look(0x04).look(0x08);
    let without_fifo = Left {
        level: None,
        fifo_enabled: false,
        ..NOTHING
    };
    for (start, unchanged) in [(New, NOTHING), (NoFifo, without_fifo)] {
        let left = |saved_lsr| Left {
            saved_lsr,
            ..unchanged
        };
        for (call, answer, looks, saved_lsr) in [
            (ReadyToReceive, NoData, &once, 0x02),
            (ReadyToSend, NotSent(NoCapacity), &once, 0x02),
            (TryReceive, NoData, &once, 0x02),
            (TrySend(b'a'), NotSent(NoCapacity), &once, 0x02),
            (ReadReady, Flag(false), &once, 0x02),
            (WriteReady, Flag(false), &once, 0x02),
            (Receive(3), Bytes(bytes(b"")), &once, 0x02),
            (send(b"hello"), Count(0), &once, 0x02),
            (ReceiveExact(3), ReceiveStalled(bytes(b"")), &thrice, 0x0e),
            (send_exact(b"hello"), Stalled(0), &thrice, 0x0e),
            (Call::Read(3), Stalled(0), &thrice, 0x0e),
            (write(b"hello"), Stalled(0), &thrice, 0x0e),
            (Flush, Stalled(0), &thrice, 0x0e),
            (text("hello"), Stalled(0), &thrice, 0x0e),
        ] {
            let terminal = row(start, call, answer, looks);
            assert_eq!(read_back(terminal), left(saved_lsr));
        }
        let terminal = writing(start, "hello", Err(fmt::Error), &thrice);
        assert_eq!(read_back(terminal), left(0x0e));
    }
}

#[test]
fn refusals_that_check_cts_save_changes_too() {
    // Three checks without CTS, each with another change.
    let look = |lsr, msr| {
        let checked = list().look(lsr).read(offsets::MCR, 0x0b);
        checked.read(offsets::MSR, msr)
    };
    let once = look(0x22, 0x01);
    let thrice = look(0x22, 0x01)
        .then(&look(0x20, 0x02))
        .then(&look(0x24, 0x04));
    let left = |saved_lsr, saved_msr| Left {
        checks_cts: true,
        saved_lsr,
        saved_msr,
        ..NOTHING
    };
    for (call, answer) in [
        (ReadyToSend, NotSent(RemoteNotClearToSend)),
        (TrySend(b'a'), NotSent(NoCapacity)),
        (WriteReady, Flag(false)),
        (send(b"hello"), Count(0)),
    ] {
        let terminal = row(Checking, call, answer, &once);
        assert_eq!(read_back(terminal), left(0x02, 0x01));
    }
    for call in [send_exact(b"hello"), write(b"hello"), text("hello")] {
        let terminal = row(Checking, call, Stalled(0), &thrice);
        assert_eq!(read_back(terminal), left(0x06, 0x07));
    }
    let terminal = writing(Checking, "hello", Err(fmt::Error), &thrice);
    assert_eq!(read_back(terminal), left(0x06, 0x07));
}
