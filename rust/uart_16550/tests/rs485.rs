//! The driver at a bus, by the names that users have.

use std::error::Error;
use uart_16550::native::backend::Backend;
use uart_16550::native::{Config, Setup, StalledError, Uart16550};
use uart_16550::rs485::{BusyError, Direction, DirectionLine, EchoError, HalfDuplex, NotSendingError, SendError};
use uart_16550::spec::registers::MCR;

/// Registers of which LSR shows what it is told, and the writes of DATA and MCR.
#[derive(Debug)]
struct Device {
    lsr: u8,
    mcr: u8,
    made: Vec<(u8, u8)>,
}

impl Backend for Device {
    fn read(&mut self, offset: u8) -> u8 {
        match offset {
            2 => 0xc1,
            4 => self.mcr,
            5 => self.lsr,
            7 => self.made.iter().rev().find(|one| one.0 == 7).map_or(0, |one| one.1),
            _ => 0,
        }
    }

    fn write(&mut self, offset: u8, value: u8) {
        if offset == 4 {
            self.mcr = value;
        }
        self.made.push((offset, value));
    }
}

const DIRECTION: Direction = Direction {
    line: DirectionLine::Rts,
    sends_when_set: true,
};

#[test]
fn a_port_that_is_set_up_to_receive() {
    let device = Device {
        lsr: 0x60,
        mcr: 0,
        made: Vec::new(),
    };
    let mut uart = Uart16550::new_with_backend(device);
    let setup = Setup {
        outputs: DIRECTION.receiving(MCR::READY),
        ..Setup::DEFAULT
    };
    assert_eq!(uart.init_with(Config::DEFAULT, &setup), Ok(()));
    // RTS was never set on the way.
    let of_mcr = |made: &[(u8, u8)]| made.iter().filter(|one| one.0 == 4).map(|one| one.1).collect::<Vec<u8>>();
    assert_eq!(of_mcr(&uart.backend().made), [0x09]);
    uart.backend_mut().made.clear();
    let mut bus = HalfDuplex::new(uart, DIRECTION).unwrap();
    assert_eq!(bus.send_bytes(b"x"), Err(NotSendingError));
    bus.start_sending();
    assert_eq!(bus.send_bytes(b"x"), Ok(1));
    assert_eq!(bus.try_finish(), Ok(()));
    assert_eq!(bus.inner().backend().made, [(4, 0x09), (4, 0x0b), (0, b'x'), (4, 0x09)]);
}

#[test]
fn errors_have_texts_and_the_bus_may_go_to_another_thread() {
    fn is_error<T: Error + Send + Sync + 'static>(error: T) -> String {
        error.to_string()
    }
    fn goes_to_a_thread<T: Send>() {}
    assert_eq!(is_error(BusyError), "the transmitter is not empty");
    assert_eq!(is_error(NotSendingError), "the direction is not to send");
    assert_eq!(is_error(SendError::NotSending), "the direction is not to send");
    let stalled = SendError::Stalled(StalledError { done: 3 });
    assert_eq!(is_error(stalled), "not all bytes were sent: the device stalled after 3 bytes");
    assert_eq!(is_error(EchoError::Silent { done: 3 }), "no echo came after 3 bytes");
    let differs = EchoError::Differs {
        done: 3,
        heard: 0x0f,
    };
    assert_eq!(is_error(differs), "the echo has 0x0f after 3 bytes, which was not sent there");
    goes_to_a_thread::<HalfDuplex<Device>>();
    assert!(format!("{DIRECTION:?}").contains("Rts"));
}
