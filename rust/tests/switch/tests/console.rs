//! The kernel's console over a chip in software.

use std::collections::VecDeque;
use std::num::NonZeroUsize;
use switch::{Board, Refused, advice, ask, bring_up, echo, report, serve, type_in};
use uart_16550::Uart16550;
use uart_16550::backend::Backend;

/// A chip that answers each byte with the next one, and has one interrupt at a time.
#[derive(Default)]
struct Chip {
    cells: [u8; 8],
    latch: [u8; 2],
    received: VecDeque<u8>,
    sent: Vec<u8>,
    interrupt: u8,
    absent: bool,
}

impl Backend for Chip {
    unsafe fn read(&mut self, register_offset: u8) -> u8 {
        let latched = self.cells[3] & 0x80 != 0;
        match register_offset {
            _ if self.absent => 0xff,
            0 | 1 if latched => self.latch[usize::from(register_offset)],
            0 => self.received.pop_front().unwrap_or(0),
            2 => 0xc0 | self.interrupt,
            5 => 0x60 | u8::from(!self.received.is_empty()) | (self.interrupt & 2),
            6 => 0xb0,
            offset => self.cells[usize::from(offset)],
        }
    }

    unsafe fn write(&mut self, register_offset: u8, value: u8) {
        let (latched, loopback) = (self.cells[3] & 0x80 != 0, self.cells[4] & 0x10 != 0);
        match register_offset {
            0 | 1 if latched => self.latch[usize::from(register_offset)] = value,
            0 if loopback => self.received.push_back(value),
            0 => self.sent.push(value),
            offset => self.cells[usize::from(offset)] = value,
        }
    }
}

fn port(chip: Chip) -> Uart16550<Chip> {
    // SAFETY: a chip in software may be accessed.
    unsafe { Uart16550::new_with_backend(chip) }
}

fn chip(uart: &mut Uart16550<Chip>) -> &mut Chip {
    uart.backend_mut()
}

#[test]
fn a_session() {
    let mut uart = port(Chip {
        interrupt: 1,
        ..Chip::default()
    });
    bring_up(&mut uart).unwrap();
    assert_eq!(type_in(&mut uart, b"login: "), 7);
    chip(&mut uart).received.extend(b"root\n1234");
    assert_eq!(echo(&mut uart), 9);
    chip(&mut uart).received.extend(b"yes");
    let mut answer = [0; 3];
    ask(&mut uart, b"sure? ", &mut answer);
    assert_eq!(&answer, b"yes");
    assert_eq!(uart.backend().sent, b"login: root\n1234sure? ");
    let mut text = String::new();
    report(&mut uart, &mut text).unwrap();
    assert_eq!(
        text,
        "115200 baud, divisor 1\n\
         IER(DATA_READY | RECEIVER_LINE_STATUS) LSR(THR_EMPTY | TRANSMITTER_EMPTY)\n\
         for 9600 baud Ok(12)\n"
    );
}

#[test]
fn interrupts() {
    let mut uart = port(Chip {
        interrupt: 1,
        ..Chip::default()
    });
    bring_up(&mut uart).unwrap();
    let mut errors = 0;
    assert_eq!(serve(&mut uart, &mut errors), None);
    chip(&mut uart).received.push_back(b'x');
    chip(&mut uart).interrupt = 4;
    assert_eq!(serve(&mut uart, &mut errors), Some(b'x'));
    chip(&mut uart).interrupt = 6;
    assert_eq!((serve(&mut uart, &mut errors), errors), (None, 1));
}

#[test]
fn refusals() {
    let refused = bring_up(&mut port(Chip {
        absent: true,
        ..Chip::default()
    }))
    .unwrap_err();
    assert!(matches!(refused, Refused::Init(_)));
    assert_eq!(advice(&refused), "look for another port");
    // SAFETY: an address that is refused is not accessed.
    let board = unsafe { Board::at(NonZeroUsize::MAX, 1) };
    assert!(board.is_err_and(|error| error.to_string().contains("invalid register address")));
}

#[test]
fn a_board() {
    let mut cells = [0_u8; 32];
    cells[4 * 5] = 0x60;
    let base = std::ptr::NonNull::from(&mut cells).cast();
    // SAFETY: the registers are in the array, which nothing else accesses in between.
    let mut board = unsafe { Board::mapped(base, 4) }.unwrap();
    assert_eq!(board.place(), (base, 4));
    board.print("ok\n").unwrap();
    assert_eq!(cells[0], b'\n');
}

#[cfg(target_arch = "x86_64")]
#[test]
fn ports() {
    switch::println!("nobody {}", "listens");
    assert!(switch::COM2.with(|port| port.as_ref().unwrap().backend().base()) == 0x2f8);
}
