//! Each call over a replay, with lists of accesses that were written down by hand.

mod lists;

use geesetrunk_kit_of_rings::alloc::Global;
use lists::Call::{Left, Queue, Resume, Service};
use lists::Step::{self, Burst, Changed, Read, Received, Write};
use lists::{
    DATA_READY, DMA_RECEPTION, DMA_TRANSMISSION, EMPTY, FULL, LINE_STATUS, MODEM_STATUS, NONE,
    THR_EMPTY, TIMEOUT, UNKNOWN, answers_in, assert_made, play, rings,
};
use proved_uart_ring::{
    HandleEnd, Handled, MAX_CAPACITY, MAX_INTERRUPTS, ReceiveMarks, Refused, RingError, Uart16550Ring,
};
use std::num::NonZeroU64;
use uart_16550::Uart16550;
use uart_calls::replay::Replay;
use uart_spec::FifoSize;
use uart_spec::registers;
use uart_spec::registers::offsets::{IER, ISR, LSR, MCR, MSR};

#[test]
fn bytes_are_queued_and_sent() {
    // The FIFO takes 16 bytes, and the interrupt is enabled for the rest. The second burst lies
    // around the end of the ring.
    let calls = [
        Queue(b"hello, world! 123456", 20),
        Left(4),
        Service(1),
        Left(0),
        Queue(b"and once around it", 18),
        Left(18),
        Service(1),
        Left(2),
    ];
    let steps = [
        Burst(b"hello, world! 12"),
        Changed(IER, 0x00, 0x02),
        Read(ISR, THR_EMPTY),
        Burst(b"3456"),
        Changed(IER, 0x02, 0x00),
        Read(ISR, NONE),
        Read(LSR, FULL),
        Changed(IER, 0x00, 0x02),
        Read(ISR, THR_EMPTY),
        Burst(b"and once around "),
        Changed(IER, 0x02, 0x02),
        Read(ISR, NONE),
    ];
    play(32, &calls, &steps);
}

#[test]
fn larger_fifos_are_filled_and_emptied_at_once() {
    // The FIFO takes 32 bytes. The second burst lies around the end of the ring, and the third
    // begins with an urgent byte.
    let all = b"0123456789abcdefghijklmnopqrstuvwxyz";
    let steps = [
        Burst(b"0123456789abcdefghijklmnopqrstuv"),
        Changed(IER, 0x01, 0x03),
        Read(LSR, FULL), // the next bytes are queued
        Changed(IER, 0x03, 0x03),
        Read(ISR, THR_EMPTY),
        Burst(b"wxyz0123456789abcdefghijklmnopqr"),
        Changed(IER, 0x03, 0x03),
        Read(ISR, DATA_READY),
        Received(b"ABCDEFGHIJKLMNOPQRSTUVWXYZABCDEF"), // and no look at LSR behind them
        Read(ISR, NONE),
        Read(LSR, FULL), // the urgent byte waits
        Changed(IER, 0x03, 0x03),
        Read(ISR, THR_EMPTY),
        Burst(b"!stuvwxyz"),
        Changed(IER, 0x03, 0x01),
        Read(ISR, NONE),
    ];
    let answers = answers_in(&steps);
    let mut ring = rings(&answers, 40, 40);
    ring.inner_mut().set_fifo_size(FifoSize::ThirtyTwo);
    assert_eq!(ring.queue(all), 36);
    assert_eq!(ring.transmit_len(), 4);
    assert_eq!(ring.queue(all), 36);
    assert_eq!(ring.service(), 2);
    assert_eq!((ring.transmit_len(), ring.receive_len()), (8, 32));
    assert_eq!(ring.queue_urgent(b'!'), None);
    assert_eq!(ring.service(), 1);
    assert_eq!((ring.transmit_len(), ring.urgent()), (0, None));
    assert_made(ring.inner().backend(), &steps);
}

#[test]
fn a_queue_without_room() {
    // In the end the ring is full: no access is made.
    let calls = [
        Queue(b"", 0),
        Queue(b"abc", 3),
        Queue(b"def", 1),
        Left(4),
        Queue(b"ef", 0),
    ];
    let steps = [
        Read(LSR, FULL),
        Changed(IER, 0x01, 0x03),
        Read(LSR, FULL),
        Changed(IER, 0x03, 0x03),
    ];
    play(4, &calls, &steps);
}

#[test]
fn sending_is_resumed() {
    // Of an empty ring nothing is sent, and no access is made.
    let calls = [
        Resume,
        Queue(b"hello, world! 123456", 20),
        Resume,
        Left(20),
        Resume,
        Left(4),
        Resume,
        Left(0),
        Resume,
    ];
    // IER reads as an `init` left it.
    let steps = [
        Read(LSR, FULL),
        Changed(IER, 0x01, 0x03),
        Read(LSR, FULL),
        Changed(IER, 0x01, 0x03),
        Burst(b"hello, world! 12"),
        Changed(IER, 0x01, 0x03),
        Burst(b"3456"),
        Changed(IER, 0x01, 0x01),
    ];
    play(32, &calls, &steps);
}

#[test]
fn receiving_is_paused_by_a_full_ring() {
    let steps = [
        Read(ISR, DATA_READY),
        Received(b"AB"), // two of three bytes fit
        Changed(IER, 0x01, 0x00),
        Read(ISR, NONE),
        Changed(IER, 0x00, 0x01), // the pause ends
        Read(ISR, TIMEOUT),
        Received(b"C"),
        Read(LSR, EMPTY),
        Read(ISR, NONE),
    ];
    let answers = answers_in(&steps);
    let mut ring = rings(&answers, 32, 2);
    assert_eq!(ring.service(), 1);
    assert_eq!(ring.receive_len(), 2);
    assert!(ring.is_paused());
    let mut slots = [0xee; 8];
    assert_eq!(ring.take(&mut []), 0);
    assert!(ring.is_paused());
    assert_eq!(ring.take(&mut slots), 2);
    assert_eq!(slots, [0x41, 0x42, 0xee, 0xee, 0xee, 0xee, 0xee, 0xee]);
    assert!(!ring.is_paused());
    assert_eq!(ring.service(), 1);
    assert_eq!(ring.take(&mut slots), 1);
    assert_eq!(slots[0], 0x43);
    assert_eq!(ring.take(&mut slots), 0);
    assert_made(ring.inner().backend(), &steps);
}

#[test]
fn rts_follows_the_room() {
    // MCR as an `init` leaves it, with RTS, is 0x0b, and without it 0x09.
    let steps = [
        Read(MCR, 0x0b),          // room for 4, the mark: RTS is on
        Changed(MCR, 0x09, 0x0b), // it was off, and is switched on
        Read(ISR, DATA_READY),    // room for 3: between the marks
        Received(b"A"),
        Read(LSR, EMPTY),
        Read(ISR, NONE),
        Read(ISR, DATA_READY), // room for 1, below the mark
        Received(b"BC"),
        Read(LSR, EMPTY),
        Read(ISR, NONE),
        Changed(MCR, 0x1b, 0x09), // loopback is switched off with it
        Read(MCR, 0x09),          // it is off
        Changed(MCR, 0x09, 0x0b), // room for 4 again
    ];
    let answers = answers_in(&steps);
    let mut ring = rings(&answers, 32, 4);
    let marks = ReceiveMarks {
        hold: 2,
        release: 4,
    };
    let mut slots = [0xee; 8];
    ring.adjust_rts(marks);
    ring.adjust_rts(marks);
    assert_eq!(ring.service(), 1);
    ring.adjust_rts(marks);
    assert_eq!(ring.service(), 1);
    ring.adjust_rts(marks);
    ring.adjust_rts(marks);
    assert_eq!(ring.take(&mut slots[..1]), 1);
    ring.adjust_rts(marks);
    assert_eq!(ring.take(&mut slots), 2);
    ring.adjust_rts(marks);
    assert_made(ring.inner().backend(), &steps);
}

#[test]
fn marks_the_wrong_way_round() {
    // Below `hold` RTS is off, whatever `release` is, and from there on it is on.
    let steps = [
        Read(MCR, 0x0b),
        Read(ISR, DATA_READY), // room for 1
        Received(b"A"),
        Read(LSR, EMPTY),
        Read(ISR, NONE),
        Changed(MCR, 0x0b, 0x09),
        Changed(MCR, 0x09, 0x0b),
    ];
    let answers = answers_in(&steps);
    let mut ring = rings(&answers, 32, 2);
    let marks = ReceiveMarks {
        hold: 2,
        release: 0,
    };
    ring.adjust_rts(marks);
    assert_eq!(ring.service(), 1);
    ring.adjust_rts(marks);
    assert_eq!(ring.clear_receive(), 1);
    ring.adjust_rts(marks);
    assert_made(ring.inner().backend(), &steps);
}

#[test]
fn line_errors_are_noted() {
    // Serving sees an overrun. While bytes are received, a look sees a parity error, which the
    // driver saves.
    let answers = [
        LINE_STATUS,
        0x63,
        DATA_READY,
        0x65,
        0x42,
        EMPTY,
        NONE,
        0x60,
        0x60,
    ];
    let mut ring = rings(&answers, 32, 4);
    assert_eq!(ring.service(), 2);
    assert_eq!(ring.take_line().bits(), 0x66);
    assert_eq!(ring.take_line().bits(), 0x60);
    let mut slots = [0; 8];
    assert_eq!(ring.take(&mut slots), 1);
    assert_eq!(slots[0], 0x42);
}

#[test]
fn modem_changes_are_noted() {
    let steps = [
        Read(ISR, MODEM_STATUS),
        Read(MSR, 0x11),
        Read(ISR, MODEM_STATUS),
        Read(MSR, 0x02),
        Read(ISR, NONE),
        Read(MSR, 0x30),
        Read(MSR, 0x30),
    ];
    let answers = answers_in(&steps);
    let mut ring = rings(&answers, 32, 4);
    assert_eq!(ring.service(), 2);
    assert_eq!(ring.take_modem().bits(), 0x33);
    assert_eq!(ring.take_modem(), registers::MSR::CTS | registers::MSR::DSR);
    assert_made(ring.inner().backend(), &steps);
}

#[test]
fn service_ends() {
    // ISR never stops to show an interrupt.
    let mut ring = rings(&[DMA_RECEPTION; 16], 32, 4);
    assert_eq!(ring.service(), MAX_INTERRUPTS);
    assert_made(ring.inner().backend(), &[Read(ISR, DMA_RECEPTION); 8]);
    // The code 100 names no interrupt, although one is pending.
    let mut ring = rings(&[DMA_TRANSMISSION, UNKNOWN], 32, 4);
    assert_eq!(ring.service(), 1);
    // With an empty ring a pump does not look.
    let steps = [
        Read(ISR, THR_EMPTY),
        Changed(IER, 0x0f, 0x0d),
        Read(ISR, NONE),
    ];
    play(32, &[Service(1)], &steps);
}

#[test]
fn a_handler_ends_with_a_line_that_was_low() {
    // None is pending. ISR shows one for ever. The code 100 names no interrupt, although one is
    // pending.
    let ends: [(usize, &[Step], usize, HandleEnd); 4] = [
        (8, &[Read(ISR, NONE)], 0, HandleEnd::Idle),
        (
            8,
            &[Read(ISR, MODEM_STATUS), Read(MSR, 0x11), Read(ISR, NONE)],
            1,
            HandleEnd::Idle,
        ),
        (
            2,
            &[
                Read(ISR, DMA_RECEPTION),
                Read(ISR, DMA_RECEPTION),
                Read(IER, 0x0d),
                Write(IER, 0x00),
                Write(IER, 0x0d),
            ],
            2,
            HandleEnd::Limit,
        ),
        (
            8,
            &[
                Read(ISR, DMA_TRANSMISSION),
                Read(ISR, UNKNOWN),
                Read(IER, 0x0f),
                Write(IER, 0x00),
                Write(IER, 0x0f),
            ],
            1,
            HandleEnd::Unknown,
        ),
    ];
    for (limit, steps, served, end) in ends {
        let answers = answers_in(steps);
        let mut ring = rings(&answers, 32, 4);
        assert_eq!(ring.handle(limit), Handled { served, end });
        assert_made(ring.inner().backend(), steps);
    }
    let steps = [Read(IER, 0x07), Write(IER, 0x00), Write(IER, 0x07)];
    let answers = answers_in(&steps);
    let mut ring = rings(&answers, 32, 4);
    ring.retrigger();
    assert_made(ring.inner().backend(), &steps);
}

#[test]
fn a_refusal_returns_the_driver() {
    for (tx_capacity, rx_capacity) in [(0, 4), (4, 0), (MAX_CAPACITY + 1, 4), (4, MAX_CAPACITY + 1)]
    {
        let mut uart = Uart16550::new_with_backend(Replay::new(&[0x60]));
        uart.set_spin_limit(NonZeroU64::new(7).unwrap());
        let refused = Uart16550Ring::new(Global::heap(), uart, tx_capacity, rx_capacity);
        let Err(Refused { given: mut uart, cause }) = refused else {
            panic!("made for {tx_capacity} and {rx_capacity} bytes");
        };
        assert_eq!(cause, RingError::BadCapacity);
        assert_eq!(uart.spin_limit().get(), 7);
        assert_eq!(uart.lsr().bits(), 0x60);
    }
}

#[test]
fn the_driver_is_reached() {
    let answers = [0x00, FULL, 0x05];
    let mut ring = rings(&answers, MAX_CAPACITY, 1);
    let received = registers::IER::DATA_READY | registers::IER::RECEIVER_LINE_STATUS;
    ring.inner_mut().enable_interrupts(received);
    assert_eq!(ring.queue(b"lost"), 4);
    assert_eq!(ring.inner().config().interrupts.bits(), 0x07);
    let uart = ring.into_inner();
    let steps = [
        Changed(IER, 0x00, 0x05),
        Read(LSR, FULL),
        Changed(IER, 0x05, 0x07),
    ];
    assert_made(uart.backend(), &steps);
}

#[test]
fn refusals_have_texts() {
    assert_eq!(
        RingError::BadCapacity.to_string(),
        "a ring has room for 1 to 4096 bytes"
    );
    assert_eq!(RingError::OutOfMemory.to_string(), "out of memory");
}
