//! Chips that others left in some state, and an `init` of them.

use crate::machines::{
    DATA, FCR, IER, ISR, LCR, MCR, SPR, WITHOUT_FIFO, initialised, machine, new_driver,
};
use proved_uart_machine::{Chip, Device16550, Event};
use uart_16550::Uart16550;
use uart_16550::backend::Backend;
use uart_spec::Config;
use uart_spec::registers::FifoTriggerLevel;

/// Returns what a dump shows of IER, ISR, LCR, MCR, LSR, MSR and SPR.
fn registers(uart: &mut Uart16550<Device16550>) -> [u8; 7] {
    let dump = uart.config_register_dump();
    [
        dump.ier.bits(),
        dump.isr.bits(),
        dump.lcr.bits(),
        dump.mcr.bits(),
        dump.lsr.bits(),
        dump.msr.bits(),
        dump.spr,
    ]
}

/// Returns whether the FIFO is on, for the driver and in the chip.
fn fifos(uart: &Uart16550<Device16550>) -> (bool, bool) {
    (uart.fifo_enabled(), uart.backend().fifo_enabled())
}

/// A register, and what is written to it.
type Write = (u8, u8);

/// What was written to a chip before the driver was made, and what its scratch register holds then.
const LEFT_BEHIND: &[(&str, &[Write], u8)] = &[
    ("nothing", &[], 0x00),
    ("loopback", &[(MCR, 0x1f)], 0x00),
    (
        "a divisor latch",
        &[(LCR, 0x80), (DATA, 0xff), (IER, 0xff)],
        0x00,
    ),
    ("every bit of LCR", &[(LCR, 0xff)], 0x00),
    (
        "loopback and a divisor latch",
        &[(MCR, 0x1f), (LCR, 0x83), (DATA, 0x01)],
        0x00,
    ),
    ("a FIFO", &[(FCR, 0x01)], 0x00),
    ("a FIFO with a level", &[(FCR, 0x81)], 0x00),
    ("a FIFO switched off", &[(FCR, 0xc7), (FCR, 0x00)], 0x00),
    ("interrupts", &[(IER, 0x0f)], 0x00),
    ("a byte in SPR", &[(SPR, 0xa5)], 0xa5),
];

#[test]
fn an_init_clears_what_was_left() {
    for (chip, isr, room) in [(Chip::Uart16550A, 0xc1, 16), (Chip::Uart16450, 0x01, 1)] {
        for &(left, writes, spr) in LEFT_BEHIND {
            let mut uart = new_driver(chip, 4);
            for &(register, value) in writes {
                uart.backend_mut().write(register, value);
            }
            uart.init(Config::DEFAULT).unwrap();
            let place = format!("{chip:?} with {left}");
            let want = [0x00, isr, 0x03, 0x0b, 0x60, 0x00, spr];
            assert_eq!(registers(&mut uart), want, "{place}");
            assert_eq!(uart.backend().divisor(), 12, "{place}");
            let has_fifo = chip == Chip::Uart16550A;
            assert_eq!(fifos(&uart), (has_fifo, has_fifo), "{place}");
            assert_eq!(uart.backend().wire(), [], "{place}");
            assert_eq!(uart.send_bytes(&[0x55; 20]), room, "{place}");
            assert_eq!(uart.backend().overflows(), 0, "{place}");
        }
    }
}

// A byte in the shift register goes out; an `init` discards what a FIFO still holds by then, and a
// 16450 keeps its one byte.
#[test]
fn an_init_lets_a_byte_go_out() {
    let cases: [(Chip, u16, &[u8], u64); 4] = [
        (Chip::Uart16550A, 4, &[1, 2, 3], 0),
        (Chip::Uart16550A, 1000, &[1], 0),
        (Chip::Uart16450, 4, &[1, 3], 1),
        (Chip::Uart16450, 1000, &[1, 3], 1),
    ];
    for (chip, char_ticks, wire, overflows) in cases {
        let mut uart = new_driver(chip, char_ticks);
        uart.backend_mut().write(FCR, 0x01);
        for byte in 1..=3 {
            uart.backend_mut().write(DATA, byte);
        }
        uart.init(Config::DEFAULT).unwrap();
        let machine = uart.backend();
        let place = format!("{chip:?} with {char_ticks} ticks");
        assert_eq!(machine.wire(), wire, "{place}");
        assert_eq!(machine.held_len(), 0, "{place}");
        assert_eq!(machine.overflows(), overflows, "{place}");
    }
}

// The driver takes the FIFO to be on and writes five bytes at once. The chip has room for one, so
// three are lost.
#[test]
fn a_fifo_is_switched_off_behind_the_driver() {
    let mut uart = initialised(Chip::Uart16550A, Some(FifoTriggerLevel::Fourteen));
    uart.backend_mut().write(FCR, 0x00);
    assert_eq!(fifos(&uart), (true, false));
    assert_eq!(uart.send_bytes(&[1, 2, 3, 4, 5]), 5);
    assert_eq!(uart.backend().overflows(), 3);
    uart.init(Config::DEFAULT).unwrap();
    assert_eq!(fifos(&uart), (true, true));
    assert_eq!(
        registers(&mut uart),
        [0x00, 0xc1, 0x03, 0x0b, 0x60, 0x00, 0x00]
    );
    assert_eq!(uart.backend().wire(), [1, 5]);
    assert_eq!(uart.send_bytes(&[6, 7, 8]), 3);
    uart.backend_mut().idle(100);
    assert_eq!(uart.backend().wire(), [1, 5, 6, 7, 8]);
    assert_eq!(uart.backend().overflows(), 3);
}

#[test]
fn a_fifo_is_switched_on_behind_the_driver() {
    let mut uart = initialised(Chip::Uart16550A, None);
    uart.backend_mut().write(FCR, 0x01);
    assert_eq!(fifos(&uart), (false, true));
    assert_eq!(uart.send_bytes(&[1, 2, 3, 4, 5]), 1);
    uart.init(WITHOUT_FIFO).unwrap();
    assert_eq!(fifos(&uart), (false, false));
    assert_eq!(
        registers(&mut uart),
        [0x00, 0x01, 0x03, 0x0b, 0x60, 0x00, 0x00]
    );
    assert_eq!(uart.backend().wire(), [1]);
    assert_eq!(uart.send_bytes(&[2, 3]), 1);
    assert_eq!(uart.backend().overflows(), 0);
}

// The test puts back what it found, so what is sent after it still comes back, until the next
// `init`.
#[test]
fn a_loopback_test_leaves_loopback_on() {
    let mut uart = initialised(Chip::Uart16550A, Some(FifoTriggerLevel::Fourteen));
    uart.backend_mut().write(MCR, 0x1b);
    uart.test_loopback().unwrap();
    assert_eq!(uart.mcr().bits(), 0x1b);
    assert_eq!(uart.msr().bits(), 0xbb);
    assert_eq!(uart.send_bytes(&[0x55]), 1);
    uart.backend_mut().idle(10);
    assert_eq!(uart.backend().waiting_at(0), Some(0x55));
    uart.init(Config::DEFAULT).unwrap();
    assert_eq!(
        registers(&mut uart),
        [0x00, 0xc1, 0x03, 0x0b, 0x60, 0x00, 0x00]
    );
    assert_eq!(uart.backend().waiting_len(), 0);
    assert_eq!(uart.backend().wire(), []);
}

// A byte that is written withdraws the interrupt. It is due again once the byte moves on, for which
// a tick has to pass.
#[test]
fn thr_empty_is_due_again_after_a_byte() {
    for chip in [Chip::Uart16550A, Chip::Uart16450] {
        let mut machine = machine(chip, 4, 64, &[Event::Access; 6]);
        machine.write(IER, 0x02);
        for want in [0x02, 0x01] {
            assert_eq!(machine.read(ISR), want, "of {chip:?}");
        }
        machine.write(DATA, 0x41);
        machine.write(IER, 0x02);
        for want in [0x01, 0x02, 0x01] {
            assert_eq!(machine.read(ISR), want, "of {chip:?}");
        }
    }
}
