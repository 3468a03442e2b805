//! A transceiver that RTS switches, at a chip whose flow control by itself drives RTS: whatever the receiver holds, the direction is
//! the one that was asked for.

use geesetrunk_kit::alloc::Global;
use proved_uart_rs485::{Direction, DirectionLine, HalfDuplex};
use uart_16550::Uart16550;
use uart_16550::backend::Backend;
use uart_chip::Uart;
use uart_spec::registers::{MCR, MSR};
use uart_spec::{Config, Setup};

/// How long a character takes. Each access takes a tick.
const CHAR_TICKS: u16 = 8;

/// The transceiver sends while RTS is asserted.
const DIRECTION: Direction = Direction {
    line: DirectionLine::Rts,
    sends_when_set: true,
};

/// A chip with automatic flow control, whose receiver hears what it sends, and what the remotes hear.
struct Bus {
    chip: Uart,
    heard: Vec<u8>,
    /// Sent while the transceiver was switched to receive.
    unheard: Vec<u8>,
}

impl Bus {
    fn new() -> Self {
        let mut chip = Uart::new_16750(Global::heap(), CHAR_TICKS, 256, 256, false).expect("memory");
        // Flow control by the chip sends while CTS is asserted, as a transceiver's board has it wired.
        chip.change_lines(MSR::CTS.bits());
        Bus {
            chip,
            heard: Vec::new(),
            unheard: Vec::new(),
        }
    }

    fn tick(&mut self) {
        self.chip.tick();
        for byte in self.chip.transmitter().wire().to_vec() {
            self.chip.take_wire(1);
            // The pin of the output, and not the bit in MCR, switches the transceiver.
            if self.chip.rts_output() {
                self.heard.push(byte);
                self.chip.arrive_live(byte, 0);
            } else {
                self.unheard.push(byte);
            }
        }
    }
}

impl Backend for Bus {
    fn read(&mut self, register_offset: u8) -> u8 {
        let value = self.chip.read(register_offset);
        self.tick();
        value
    }

    fn write(&mut self, register_offset: u8, value: u8) {
        self.chip.write(register_offset, value);
        self.tick();
    }
}

#[test]
fn flow_control_by_the_chip_keeps_the_bus() {
    let mut uart = Uart16550::new_with_backend(Bus::new());
    let setup = Setup {
        outputs: DIRECTION.receiving(MCR::READY),
        ..Setup::DEFAULT
    };
    assert_eq!(uart.init_with(Config::DEFAULT, &setup), Ok(()));
    // Whoever had the port before left flow control by the chip on.
    uart.set_modem_control(MCR::OUT_2_INT_ENABLE.union(MCR::AUTO_FLOW));
    let mut bus = HalfDuplex::new(uart, DIRECTION).unwrap();
    bus.start_sending();
    // More than the receiver holds at its trigger level. Nothing reads the echo meanwhile.
    assert_eq!(bus.send_bytes_exact(b"a question of thirty-two letters"), Ok(()));
    assert_eq!(bus.flush(), Ok(()));
    assert_eq!(bus.try_finish(), Ok(()));
    let uart = bus.into_inner();
    assert_eq!(uart.backend().unheard, b"");
    assert_eq!(uart.backend().heard, b"a question of thirty-two letters");
    assert!(!uart.backend().chip.rts_output());
}

#[test]
fn outputs_to_receive_leave_the_line_to_software() {
    for sends_when_set in [false, true] {
        let rts = Direction {
            line: DirectionLine::Rts,
            sends_when_set,
        };
        let dtr = Direction {
            line: DirectionLine::Dtr,
            ..rts
        };
        let outputs = MCR::READY.union(MCR::AUTO_FLOW);
        assert!(!rts.receiving(outputs).contains(MCR::AUTO_FLOW));
        assert_eq!(rts.receiving(outputs).contains(MCR::RTS), !sends_when_set);
        // The chip's flow control does not drive DTR.
        assert!(dtr.receiving(outputs).contains(MCR::AUTO_FLOW));
    }
}
