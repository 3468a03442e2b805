//! The port in the hands of guests and monitors.

use proved_uart_virtual::{Todo, VirtualPort};
use uart_live::{Chip, InputError, RestoreError, Shifting};
use uart_spec::registers::{LSR, MSR};

const DATA: u8 = 0;

const IER: u8 = 1;

const ISR: u8 = 2;

const FCR: u8 = 2;

const MCR: u8 = 4;

const LINE: u8 = 5;

const MODEM: u8 = 6;

// Room that comes by a write of FCR, and by the end of loopback, is told at once. Room that comes
// by reads of DATA is told when nothing waits.
#[test]
fn room_is_told_whichever_call_gives_it() {
    let mut port = VirtualPort::new(Chip::Uart16550A);
    let received = port.receive(b"ab");
    assert!(received.count == 1 && !received.todo.has_room);
    assert!(!port.read(LINE).todo.has_room);
    assert!(port.write(FCR, 0x07).has_room);
    assert!(!port.write(FCR, 0x07).has_room);
    assert_eq!(port.receive(b"0123456789abcdefg").count, 16);
    for _ in 0..15 {
        assert!(!port.read(DATA).todo.has_room);
    }
    assert!(port.read(DATA).todo.has_room);
    assert!(!port.write(MCR, 0x18).has_room);
    let received = port.receive(b"x");
    assert!(received.count == 0 && !received.todo.has_room);
    assert!(port.write(MCR, 0x08).has_room);
}

// A burst is one signal, and another after the guest looked.
#[test]
fn a_burst_is_one_signal() {
    let mut port = VirtualPort::new(Chip::Uart16550A);
    assert!(!port.write(FCR, 0x07).signal);
    assert!(port.write(IER, 0x02).signal);
    assert_eq!(port.read(ISR).value, 0xc2);
    let mut signals = 0;
    for _ in 0..16 {
        signals += usize::from(port.write(DATA, 0x41).signal);
    }
    assert_eq!(signals, 1);
    assert_eq!(port.output().len(), 16);
    assert_eq!(port.read(ISR).value, 0xc2);
    assert!(port.write(DATA, 0x41).signal);
}

// The guest reads 8 of 12 at trigger 8, and returns.
#[test]
fn a_handler_that_reads_its_trigger_level_comes_again() {
    let mut port = VirtualPort::new(Chip::Uart16550A);
    port.write(FCR, 0x87);
    port.write(IER, 0x01);
    assert!(port.receive(b"0123456789ab").todo.signal);
    assert_eq!(port.read(ISR).value, 0xc4);
    let mut signals = 0;
    for _ in 0..8 {
        signals += usize::from(port.read(DATA).todo.signal);
    }
    assert_eq!(signals, 1);
    assert_eq!(port.read(ISR).value, 0xcc);
}

// Input while the line is up is signalled if it fills the FIFO, once a call.
#[test]
fn a_top_up_is_signalled_when_it_fills_the_fifo() {
    let mut port = VirtualPort::new(Chip::Uart16550A);
    port.write(FCR, 0x87);
    port.write(IER, 0x01);
    assert!(port.receive(b"0123456789abcdef").todo.signal);
    assert!(!port.read(LINE).todo.signal);
    assert!(!port.read(DATA).todo.signal);
    assert!(!port.read(DATA).todo.signal);
    assert!(!port.receive(b"g").todo.signal);
    let todo = port.receive(b"h").todo;
    assert!(todo.signal && todo.level);
    assert!(!port.receive(b"i").todo.signal);
}

// A full output shows a transmitter that is not empty, and what the host takes lets it go on.
#[test]
fn a_full_output_holds_the_guest_back() {
    let mut port = VirtualPort::new(Chip::Uart16550A);
    port.write(FCR, 0x07);
    port.write(IER, 0x02);
    let mut written = 0;
    for byte in 0..200 {
        if port.read(LINE).value & 0x20 != 0 {
            port.write(DATA, byte);
            written += 1;
        }
    }
    assert_eq!((written, port.output().len()), (66, 64));
    assert_eq!(port.read(LINE).value, 0x00);
    assert!(!port.level());
    let todo = port.take_output(60);
    assert!(todo.signal && todo.ready == 6);
    assert_eq!(port.output(), [60, 61, 62, 63, 64, 65].as_slice());
    assert_eq!(port.read(LINE).value, 0x60);
}

// A switch of the FIFOs empties the queue that a full output holds back, and the guest is told.
#[test]
fn a_queue_that_fcr_empties_interrupts() {
    for (before, fcr) in [(0x01, 0x00), (0x00, 0x01), (0x01, 0x05), (0x01, 0x07)] {
        let mut port = VirtualPort::new(Chip::Uart16550A);
        port.write(FCR, before);
        port.write(IER, 0x02);
        for byte in 0..66 {
            port.write(DATA, byte);
        }
        assert!(port.read(LINE).value == 0x00 && !port.level());
        let todo = port.write(FCR, fcr);
        assert!(todo.signal && todo.level && todo.ready == 64);
        assert_eq!(port.read(LINE).value, 0x20);
    }
}

// A break is received as such, and the character after it overruns.
#[test]
fn breaks_and_overruns() {
    let mut port = VirtualPort::new(Chip::Uart16550A);
    port.write(IER, 0x05);
    let todo = port.receive_one(0, LSR::BREAK_INTERRUPT).unwrap();
    assert!(todo.signal);
    assert_eq!(port.read(ISR).value, 0x06);
    assert_eq!(port.read(LINE).value, 0x71);
    port.receive_one(0x68, LSR::empty()).unwrap();
    assert_eq!(port.read(LINE).value, 0x63);
    assert_eq!(port.read(DATA).value, 0x68);
    port.set_lines(MSR::CTS).unwrap();
    assert_eq!(port.read(MODEM).value, 0x11);
    assert_eq!(
        port.read(IER).todo,
        Todo {
            signal: false,
            level: false,
            has_moved: false,
            has_room: false,
            ready: 0
        }
    );
}

#[test]
fn a_new_port_has_nothing_to_do() {
    for (chip, isr) in [(Chip::Uart16550A, 0x01), (Chip::Uart16450, 0x01)] {
        let mut port = VirtualPort::new(chip);
        assert!(!port.level() && port.output().is_empty());
        assert_eq!(port.read(LINE).value, 0x60);
        assert_eq!(port.read(ISR).value, isr);
    }
}

#[test]
fn other_bits_are_refused() {
    let mut port = VirtualPort::new(Chip::Uart16550A);
    assert_eq!(
        port.receive_one(0x41, LSR::OVERRUN_ERROR),
        Err(InputError::BadErrors)
    );
    assert_eq!(port.set_lines(MSR::DELTA_CTS), Err(InputError::BadLines));
    assert!(port.read(LINE).value == 0x60 && port.read(MODEM).value == 0x00);
}

// A guest that never reads ISR is signalled each time that the line falls and rises.
#[test]
fn a_guest_that_never_looks_is_signalled_each_time() {
    let mut port = VirtualPort::new(Chip::Uart16550A);
    port.write(FCR, 0x07);
    assert!(port.write(IER, 0x02).signal);
    assert_eq!(port.read(LINE).value, 0x60);
    assert!(port.write(DATA, 0x41).signal);
    assert!(port.write(DATA, 0x41).signal);
    assert!(port.level());
}

// A signal covers no more than a FIFO: the next byte after 16 is signalled again.
#[test]
fn a_signal_covers_one_fifo() {
    let mut port = VirtualPort::new(Chip::Uart16550A);
    port.write(FCR, 0x07);
    port.write(IER, 0x02);
    assert_eq!(port.read(ISR).value, 0xc2);
    assert!(port.write(DATA, 0x41).signal);
    for _ in 0..15 {
        assert!(!port.write(DATA, 0x41).signal);
    }
    assert!(port.write(DATA, 0x41).signal);
}

// Another processor prints while a handler reads 16 characters: it writes so many bytes between two
// reads. The line stays up in each write, so the second signal covers the rest of the FIFO.
#[test]
fn what_another_processor_prints_takes_nothing_from_a_handler() {
    for (ier, signals) in [(0x01, 2), (0x03, 1)] {
        for bytes in 0..=15 {
            let mut port = VirtualPort::new(Chip::Uart16550A);
            port.write(FCR, 0x87);
            port.write(IER, ier);
            let mut todos = vec![port.receive(b"0123456789abcdef").todo];
            assert_eq!(port.read(ISR).value, 0xc4);
            todos.push(port.read(DATA).todo);
            for _ in 1..16 {
                for _ in 0..bytes {
                    todos.push(port.write(DATA, 0x41));
                    port.take_output(1);
                }
                todos.push(port.read(DATA).todo);
            }
            let count = todos.iter().filter(|todo| todo.signal).count();
            assert_eq!(count, signals, "IER {ier:#04x}, {bytes} bytes");
        }
    }
}

// What comes back in loopback withdraws a timeout that was due, and that is signalled though the
// line is up before and after.
#[test]
fn a_fall_while_time_passes_in_loopback_is_signalled() {
    let mut port = VirtualPort::new(Chip::Uart16550A);
    port.write(FCR, 0xc7);
    port.write(IER, 0x01);
    assert!(port.receive(b"a").todo.signal);
    assert_eq!(port.read(ISR).value, 0xcc);
    assert!(port.write(MCR, 0x18).level);
    let todo = port.write(DATA, 0x41);
    assert!(todo.signal && todo.level);
}

// A port that is restored goes on as the one that was saved, and its monitor is told anew.
#[test]
fn a_restored_port_goes_on() {
    let mut port = VirtualPort::new(Chip::Uart16550A);
    port.write(IER, 0x01);
    port.write(DATA, 0x42);
    port.receive(b"ab");
    let restored = VirtualPort::from_data(&port.data(), port.output()).unwrap();
    let todo = restored.todo;
    assert!(todo.signal && todo.level && !todo.has_room && todo.ready == 1);
    let mut again = restored.port;
    assert_eq!(again.output(), b"B".as_slice());
    let answer = again.read(DATA);
    assert!(answer.value == 0x61 && answer.todo.has_room && !answer.todo.level);
}

// No port holds bytes while its output has room, and none has a character that takes longer.
#[test]
fn data_of_no_port_are_refused() {
    let port = VirtualPort::new(Chip::Uart16550A);
    let mut held = port.data();
    held.transmitter.shift_register = Some(Shifting {
        byte: 0x41,
        ticks_left: 1,
    });
    let mut slow = port.data();
    slow.transmitter.char_ticks = 2;
    let mut early = port.data();
    early.receiver.timeout_ticks = 3;
    for saved in [held, slow, early] {
        let refused = VirtualPort::from_data(&saved, &[]);
        assert!(matches!(refused, Err(RestoreError::BadData)));
    }
}

// Output is taken while the line is up and nothing is held: that is no news for the guest.
#[test]
fn taken_output_is_no_signal_unless_bytes_were_held() {
    let mut port = VirtualPort::new(Chip::Uart16550A);
    assert!(port.write(IER, 0x02).signal);
    assert_eq!(port.write(DATA, 0x41).ready, 1);
    let todo = port.take_output(7);
    assert!(!todo.signal && todo.level && todo.ready == 0);
}
