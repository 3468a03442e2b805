//! The size of the FIFOs as the driver was told it, and bursts of bytes that lie in two parts: whole
//! lists of accesses.

use crate::devices::{Listed, RegisterFile, driver};
use crate::driving::Start::{self, Checking, New, NoFifo};
use crate::driving::{Replaying, made, started};
use crate::lists::{Accesses, list};
use proved_uart_16550::embedded_io::Write;
use proved_uart_16550::{DriverState, Uart16550};
use uart_spec::registers::IER;
use uart_spec::{Config, FifoSize, StalledError};

/// The sizes, and how many bytes a burst has by them.
const SIZES: [(FifoSize, usize); 5] = [
    (FifoSize::Sixteen, 16),
    (FifoSize::ThirtyTwo, 32),
    (FifoSize::SixtyFour, 64),
    (FifoSize::OneHundredTwentyEight, 128),
    (FifoSize::TwoHundredFiftySix, 256),
];

/// Returns more bytes than any FIFO holds, of which no two neighbours are the same.
fn many() -> Vec<u8> {
    (0..300).map(|place| (place % 251) as u8).collect()
}

/// Returns a driver that is set up like this, and was told this size.
fn sized(start: Start, size: FifoSize, answers: &[u8]) -> Replaying<'_> {
    let mut terminal = started(start, answers);
    terminal.inner_mut().set_fifo_size(size);
    terminal
}

#[test]
fn a_new_driver_takes_the_fifos_for_sixteen() {
    let uart = Uart16550::new_with_backend(Listed(&[]));
    assert_eq!(uart.fifo_size(), FifoSize::Sixteen);
    assert_eq!(DriverState::new().fifo_size, FifoSize::Sixteen);
}

#[test]
fn the_size_is_set_and_nothing_else() {
    for (size, _) in SIZES {
        // LSR shows an error at the FIFO's trigger, which is saved.
        let mut terminal = started(New, &[0x02]);
        let uart = terminal.inner_mut();
        assert!(uart.ready_to_receive().is_err());
        let before = uart.state();
        uart.set_fifo_size(size);
        assert_eq!(uart.fifo_size(), size);
        let fifo_size = size;
        assert_eq!(
            uart.state(),
            DriverState {
                fifo_size,
                ..before
            }
        );
        assert_eq!(made(&terminal), list().look(0x02).entries());
    }
}

#[test]
fn other_calls_keep_the_size() {
    let size = FifoSize::SixtyFour;
    let mut uart = driver(RegisterFile::new(true));
    uart.set_fifo_size(size);
    assert_eq!(uart.init(Config::DEFAULT), Ok(()));
    assert_eq!(uart.fifo_size(), size);
    uart.enable_interrupts(IER::THR_EMPTY);
    assert!(uart.attach().is_ok());
    assert_eq!(uart.fifo_size(), size);
    // Nothing comes back in loopback.
    assert!(uart.find_fifo_size().is_err());
    assert_eq!(uart.fifo_size(), size);
    let kept = Uart16550::from_state(Listed(&[]), &uart.state());
    assert_eq!(kept.fifo_size(), size);
}

#[test]
fn a_burst_is_as_large_as_the_fifo() {
    let bytes = many();
    for (size, characters) in SIZES {
        let burst = list().burst(&bytes[..characters]);
        let mut terminal = sized(New, size, burst.answers());
        assert_eq!(terminal.inner_mut().send_bytes(&bytes), characters);
        assert_eq!(made(&terminal), burst.entries());
        let mut terminal = sized(New, size, burst.answers());
        assert_eq!(terminal.inner_mut().write(&bytes), Ok(characters));
        assert_eq!(made(&terminal), burst.entries());
        // No more than there are.
        let few = list().burst(b"hello");
        let mut terminal = sized(New, size, few.answers());
        assert_eq!(terminal.inner_mut().send_bytes(b"hello"), 5);
        assert_eq!(made(&terminal), few.entries());
        // One that is just as large.
        let mut terminal = sized(New, size, burst.answers());
        let whole = &bytes[..characters];
        assert_eq!(terminal.inner_mut().send_bytes(whole), characters);
        assert_eq!(made(&terminal), burst.entries());
    }
}

#[test]
fn without_fifo_a_burst_is_one_byte() {
    for (size, _) in SIZES {
        let byte = list().burst(&[0]);
        let mut terminal = sized(NoFifo, size, byte.answers());
        assert_eq!(terminal.inner_mut().send_bytes(&many()), 1);
        assert_eq!(made(&terminal), byte.entries());
    }
}

/// The more a FIFO holds, the fewer looks are needed for the same bytes.
#[test]
fn exact_sends_are_in_bursts_of_the_size() {
    let bytes = many();
    let looks = [19, 10, 5, 3, 2];
    for ((size, characters), looks) in SIZES.into_iter().zip(looks) {
        let all = bytes.chunks(characters).fold(list(), Accesses::burst);
        assert_eq!(all.answers().len(), looks);
        let mut terminal = sized(New, size, all.answers());
        assert_eq!(terminal.inner_mut().send_bytes_exact(&bytes), Ok(()));
        assert_eq!(made(&terminal), all.entries());
        // The wait for room behind the first burst stalls.
        let first = list().burst(&bytes[..characters]).looks(3, 0x00);
        let mut terminal = sized(New, size, first.answers());
        let stall = StalledError { done: characters };
        let sent = terminal.inner_mut().send_bytes_exact(&bytes);
        assert_eq!(sent, Err(stall));
        assert_eq!(made(&terminal), first.entries());
    }
}

/// The size that a burst of its own names is that of no other burst.
#[test]
fn send_burst_goes_by_its_own_size() {
    let bytes = many();
    let all = list().burst(&bytes[..128]).burst(&bytes[..32]);
    let mut terminal = sized(New, FifoSize::ThirtyTwo, all.answers());
    let uart = terminal.inner_mut();
    let larger = FifoSize::OneHundredTwentyEight;
    assert_eq!(uart.send_burst(&bytes, larger), 128);
    assert_eq!(uart.send_bytes(&bytes), 32);
    assert_eq!(made(&terminal), all.entries());
}

/// Makes a row of `send_gathered`: it returns this count, and these are its accesses.
fn gathered(
    start: Start,
    size: FifoSize,
    (urgent, first, second): (Option<u8>, &[u8], &[u8]),
    count: usize,
    accesses: &Accesses,
) {
    let mut terminal = sized(start, size, accesses.answers());
    let sent = terminal.inner_mut().send_gathered(urgent, first, second);
    let row = format!("{size:?}: {urgent:?}, {first:?}, {second:?}");
    assert_eq!(sent, count, "{row}");
    assert_eq!(made(&terminal), accesses.entries(), "{row}");
}

#[test]
fn bytes_in_two_parts_are_one_burst() {
    use FifoSize::{Sixteen, ThirtyTwo};
    let bytes = many();
    let (ten, twelve) = (&bytes[..10], &bytes[10..22]);
    let some = Some(b'u');
    let urgently = |bytes: &[u8]| [b"u", bytes].concat();
    for (size, parts, count, sent) in [
        // Wherever the parts meet, as many go as a FIFO holds.
        (Sixteen, (None, ten, twelve), 16, bytes[..16].to_vec()),
        (ThirtyTwo, (None, ten, twelve), 22, bytes[..22].to_vec()),
        (
            Sixteen,
            (None, &bytes[..16], twelve),
            16,
            bytes[..16].to_vec(),
        ),
        (
            Sixteen,
            (None, &bytes[..20], twelve),
            16,
            bytes[..16].to_vec(),
        ),
        (
            ThirtyTwo,
            (None, &bytes[..32], twelve),
            32,
            bytes[..32].to_vec(),
        ),
        (
            ThirtyTwo,
            (None, &bytes[..15], &bytes[15..300]),
            32,
            bytes[..32].to_vec(),
        ),
        (Sixteen, (None, ten, &[]), 10, ten.to_vec()),
        (Sixteen, (None, &[], ten), 10, ten.to_vec()),
        // The urgent byte is the first, and one of them.
        (Sixteen, (some, ten, twelve), 16, urgently(&bytes[..15])),
        (ThirtyTwo, (some, ten, twelve), 23, urgently(&bytes[..22])),
        (
            Sixteen,
            (some, &bytes[..40], twelve),
            16,
            urgently(&bytes[..15]),
        ),
        (Sixteen, (some, &[], &[]), 1, urgently(&[])),
    ] {
        gathered(New, size, parts, count, &list().burst(&sent));
    }
}

#[test]
fn bytes_in_two_parts_are_sent_as_send_bytes_sends() {
    let size = FifoSize::ThirtyTwo;
    let parts = (None, &b"ab"[..], &b"cd"[..]);
    let urgent = (Some(b'u'), &b"ab"[..], &b"cd"[..]);
    // Without bytes there is no access, and without room no write.
    gathered(New, size, (None, &[], &[]), 0, &list());
    gathered(New, size, parts, 0, &list().look(0x00));
    gathered(New, size, urgent, 0, &list().look(0x00));
    // Without FIFO it is one byte.
    gathered(NoFifo, size, parts, 1, &list().burst(b"a"));
    gathered(NoFifo, size, urgent, 1, &list().burst(b"u"));
    let long = [7; 40];
    let long = (None, &long[..], &b"cd"[..]);
    gathered(NoFifo, size, long, 1, &list().burst(&[7]));
    // CTS is checked.
    let clear = list().check(0x0b, 0x10);
    gathered(Checking, size, urgent, 5, &clear.data(b"uabcd"));
    gathered(Checking, size, urgent, 0, &list().check(0x0b, 0x20));
}
