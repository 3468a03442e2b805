//! The loopback test: its whole list of accesses, each refusal, and what each leaves behind.

use crate::driving::Start::{Checking, New, NoFifo};
use crate::driving::{Left, NOTHING, Start, read_back, row};
use crate::lists::{Accesses, list};
use uart_calls::Answer::{self, Done, LoopbackRefused};
use uart_calls::Call::TestLoopback;
use uart_spec::ByteSendError::NoCapacity;
use uart_spec::LoopbackError::{SendError, Stalled, UnexpectedLoopbackByte, UnexpectedLoopbackMsg};
use uart_spec::registers::offsets;

const MESSAGE: &[u8; 16] = b"hello world!1337";

/// What a test leaves behind that read MCR 0B and IER 05, with RI and CD set before it and clear
/// after it.
const RESTORED: Left = Left {
    saved_msr: 0x0c,
    ier: Some(0x05),
    fcr: Some(0xc7),
    mcr: Some(0x0b),
    ..NOTHING
};

const WITHOUT_FIFO: Left = Left {
    fifo_enabled: false,
    ..RESTORED
};

/// Returns the accesses from the first to the FIFO step, if the transmitter is empty at once.
fn entered(isr: u8) -> Accesses {
    list().enter(0x0b, 0x05, 0x40, 0xd0).fifo(0xc7, isr)
}

/// Returns the accesses up to the test byte, which is received at once; no byte is received before
/// the test.
fn exchanged(isr: u8) -> Accesses {
    entered(isr).look(0x00).burst(b"B").hit(b'B')
}

/// Appends the last four accesses. The changes that MSR itself shows are not saved here.
fn left(accesses: Accesses) -> Accesses {
    accesses.leave(0x03, 0x13, 0x0b, 0x05)
}

/// Makes a row of the test, and checks what it leaves behind.
fn tested(start: Start, answer: Answer, accesses: Accesses, state: Left) {
    let terminal = row(start, TestLoopback, answer, &accesses);
    assert_eq!(read_back(terminal), state);
}

/// Makes a row of a new driver whose FIFO is on.
fn stalls_with_fifo(accesses: Accesses) {
    tested(New, LoopbackRefused(Stalled), left(accesses), RESTORED);
}

/// Makes a row of a new driver whose FIFO is off.
fn stalls_without_fifo(accesses: Accesses) {
    tested(New, LoopbackRefused(Stalled), left(accesses), WITHOUT_FIFO);
}

#[test]
fn the_test_succeeds_with_fifo() {
    // The first wait sees an overrun, which stays saved, and the drain a framing error, which does
    // not.
    let begun = list().read(offsets::MCR, 0x0b).read(offsets::IER, 0x05);
    let waited = begun.look(0x02).look(0x40).read(offsets::MSR, 0xd0);
    let looping = waited.write(offsets::IER, 0x00).write(offsets::MCR, 0x10);
    let entered = looping.fifo(0xc7, 0xc1);
    let drained = entered.look(0x09).read(offsets::DATA, 0x55).look(0x00);
    let byte = drained.burst(b"B").look(0x00).hit(b'B');
    let message = byte.look(0x00).burst(MESSAGE).looks(2, 0x00).hits(MESSAGE);
    let state = Left {
        saved_lsr: 0x02,
        ..RESTORED
    };
    tested(New, Done, left(message), state);
}

#[test]
fn the_test_succeeds_without_fifo() {
    // Two misses in a row before the last byte, and before it returns.
    let most = exchanged(0x01).same_echoes(b"hello world!133");
    let all = most.looks(2, 0x00).burst(b"7").looks(2, 0x00).hit(b'7');
    tested(New, Done, left(all), WITHOUT_FIFO);
}

#[test]
fn the_test_of_a_driver_without_level_asks_isr_nothing() {
    let entered = list().enter(0x0b, 0x05, 0x40, 0xd0);
    let drained = entered.write(offsets::FCR, 0x06).look(0x00);
    let byte = drained.burst(b"B").hit(b'B').burst(b"h").hit(b'H');
    let stalled = left(byte.burst(b"e").looks(3, 0x00));
    let state = Left {
        level: None,
        fcr: Some(0x06),
        ..WITHOUT_FIFO
    };
    tested(NoFifo, LoopbackRefused(Stalled), stalled, state);
}

#[test]
fn the_first_wait_stalls() {
    // Nothing was written, and what the polls saw is saved.
    let begun = list().read(offsets::MCR, 0x0b).read(offsets::IER, 0x05);
    let polled = begun.look(0x02).look(0x30).look(0x04);
    let state = Left {
        saved_lsr: 0x16,
        ..NOTHING
    };
    tested(New, LoopbackRefused(Stalled), polled, state);
}

#[test]
fn the_drain_stalls() {
    // After the third byte, without another poll.
    stalls_with_fifo(entered(0xc1).hits(b"abc"));
}

#[test]
fn the_test_byte_is_refused() {
    // There is no room for it, and no wait for room. 0xdf shows errors too, which are forgotten
    // with those of the test.
    let unsent = entered(0x01).look(0x00).look(0xdf);
    let refusal = LoopbackRefused(SendError(NoCapacity));
    tested(New, refusal, left(unsent), WITHOUT_FIFO);
    // It does not return.
    let awaited = entered(0x01).look(0x00).burst(b"B").looks(3, 0x00);
    stalls_without_fifo(awaited);
    // Another one returns.
    let sent = entered(0xc1).look(0x00).burst(b"B");
    let other = left(sent.looks(2, 0x00).hit(0x43));
    let refusal = LoopbackRefused(UnexpectedLoopbackByte {
        expected: 0x42,
        actual: 0x43,
    });
    tested(New, refusal, other, RESTORED);
}

#[test]
fn the_test_byte_is_refused_where_cts_is_checked() {
    // MCR does not show loopback, and MSR no CTS.
    let checked = entered(0xc1).look(0x00).check(0x0b, 0x01);
    let refusal = LoopbackRefused(SendError(NoCapacity));
    let state = Left {
        checks_cts: true,
        saved_msr: 0x0d,
        ..RESTORED
    };
    tested(Checking, refusal, left(checked), state);
    // MCR shows it; then the message stalls.
    let looped = |accesses: Accesses| accesses.look(0x20).read(offsets::MCR, 0x10);
    let byte = looped(entered(0xc1).look(0x00)).data(b"B").hit(b'B');
    let message = looped(byte).data(MESSAGE).looks(3, 0x00);
    let state = Left {
        checks_cts: true,
        ..RESTORED
    };
    tested(Checking, LoopbackRefused(Stalled), left(message), state);
}

#[test]
fn the_message_stalls_with_fifo() {
    // There is no room for it; nothing of it returns; a part returns, whatever it is.
    let sent = || exchanged(0xc1).burst(MESSAGE);
    stalls_with_fifo(exchanged(0xc1).looks(3, 0x00));
    stalls_with_fifo(sent().looks(3, 0x00));
    let some = sent().hit(b'h').looks(2, 0x00).hit(b'E');
    stalls_with_fifo(some.looks(3, 0x00));
}

#[test]
fn the_message_stalls_without_fifo() {
    // There is no room for its first byte, or it does not return.
    stalls_without_fifo(exchanged(0x01).looks(3, 0x00));
    stalls_without_fifo(exchanged(0x01).burst(b"h").looks(3, 0x00));
    // The same of a later byte.
    let later = || exchanged(0x01).burst(b"h").hit(b'h').burst(b"e").hit(b'E');
    stalls_without_fifo(later().looks(3, 0x00));
    stalls_without_fifo(later().burst(b"l").looks(3, 0x00));
}

#[test]
fn another_message_comes_back() {
    let whole = exchanged(0xc1).burst(MESSAGE).hits(&[0x7a; 16]);
    let each = exchanged(0x01).echoes(MESSAGE, 0x7a);
    for (accesses, state) in [(whole, RESTORED), (each, WITHOUT_FIFO)] {
        let refusal = LoopbackRefused(UnexpectedLoopbackMsg {
            expected: *MESSAGE,
            actual: [0x7a; 16],
        });
        tested(New, refusal, left(accesses), state);
    }
}

#[test]
fn worked_rows() {
    // FF always: 18 accesses.
    let entered = list().enter(0xff, 0xff, 0xff, 0xff).fifo(0xc7, 0xff);
    let turn = list().look(0xff).read(offsets::DATA, 0xff);
    let drained = entered.then(&turn).then(&turn).then(&turn);
    let all = drained.leave(0xf7, 0xff, 0xff, 0xff);
    assert_eq!(all.count(), 18);
    let state = Left {
        saved_lsr: 0x1e,
        saved_msr: 0x0f,
        ier: Some(0xff),
        fcr: Some(0xc7),
        mcr: Some(0xff),
        ..NOTHING
    };
    tested(New, LoopbackRefused(Stalled), all, state);
    // 00 00 40 00 01 00 20 01 43: 17 accesses.
    let entered = list().enter(0x00, 0x00, 0x40, 0x00).fifo(0xc7, 0x01);
    let exchanged = entered.look(0x00).burst(b"B").hit(0x43);
    let all = exchanged.leave(0x00, 0x00, 0x00, 0x00);
    let answers = [0x00, 0x00, 0x40, 0x00, 0x01, 0x00, 0x20, 0x01, 0x43, 0x00];
    assert_eq!(all.count(), 17);
    assert_eq!(all.answers(), answers.as_slice());
    let refusal = LoopbackRefused(UnexpectedLoopbackByte {
        expected: 0x42,
        actual: 0x43,
    });
    let state = Left {
        fifo_enabled: false,
        ier: Some(0x00),
        fcr: Some(0xc7),
        mcr: Some(0x00),
        ..NOTHING
    };
    tested(New, refusal, all, state);
}
