//! The order of accesses over a device that answers anything, whatever calls are made: a judge by hand beside the law that is proved.

use proved_uart_rs485::{Direction, DirectionLine, HalfDuplex};
use std::num::NonZeroU64;
use uart_16550::Uart16550;
use uart_16550::backend::Backend;
use uart_ring::Refused;
use uart_spec::Received;
use uart_spec::access::Access;

/// A device whose reads return random bytes, and the accesses that were made.
struct Anything {
    random: u64,
    made: Vec<Access>,
}

impl Anything {
    fn below(&mut self, limit: u64) -> u64 {
        self.random ^= self.random << 13;
        self.random ^= self.random >> 7;
        self.random ^= self.random << 17;
        (self.random >> 11) % limit
    }
}

impl Backend for Anything {
    fn read(&mut self, register_offset: u8) -> u8 {
        let answer = self.below(256) as u8;
        self.made.push(Access::Read(register_offset.into(), answer));
        answer
    }

    fn write(&mut self, register_offset: u8, value: u8) {
        self.made.push(Access::Write(register_offset.into(), value));
    }
}

/// Panics if a byte is written while this line is not as it is to be to send, or if the line is switched back without a look at LSR
/// before it that showed bit 6, with no byte in between. Returns whether the line is to send in the end.
fn judge(made: &[Access], bit: u8, sends_when_set: bool) -> bool {
    // The first of the accesses are those of `new`, which may find the line in either direction.
    let (mut sends, mut empty) = (true, false);
    for access in made {
        match *access {
            Access::Read(5, lsr) => empty = lsr & 0x40 != 0,
            Access::Read(_, _) => {}
            Access::Write(0, _) => {
                assert!(sends, "a byte in the other direction");
                empty = false;
            }
            Access::Write(4, mcr) => {
                sends = (mcr & bit != 0) == sends_when_set;
                assert!(sends || empty, "the bus was given back too early");
            }
            Access::Write(_, _) => panic!("a write of another register"),
        }
    }
    sends
}

#[test]
fn whatever_is_called_and_answered() {
    let (mut begun, mut written) = (0, 0);
    for seed in 1..3000_u64 {
        let mut device = Anything {
            random: seed.wrapping_mul(0x9e37_79b9_7f4a_7c15),
            made: Vec::new(),
        };
        let (line, bit) = [(DirectionLine::Rts, 2), (DirectionLine::Dtr, 1)][device.below(2) as usize];
        let sends_when_set = device.below(2) == 1;
        let calls = device.below(60);
        let mut uart = Uart16550::new_with_backend(device);
        uart.set_spin_limit(NonZeroU64::new(3).unwrap());
        let direction = Direction {
            line,
            sends_when_set,
        };
        let mut bus = match HalfDuplex::new(uart, direction) {
            Ok(bus) => bus,
            Err(Refused { given: uart, .. }) => {
                assert!(matches!(uart.backend().made[..], [Access::Read(5, _)]));
                continue;
            }
        };
        begun += 1;
        // The device has the random numbers, and the bus has the device.
        let mut choices = Anything {
            random: seed,
            made: Vec::new(),
        };
        for _ in 0..calls {
            let bytes = [0x55; 20];
            match choices.below(14) {
                0 | 1 => bus.start_sending(),
                2 => drop(bus.try_finish()),
                3 => drop(bus.is_idle()),
                4 => drop(bus.flush()),
                5 => drop(bus.lsr()),
                6 => drop(bus.send_bytes(&bytes[..choices.below(20) as usize])),
                7 => drop(bus.send_bytes_exact(&bytes[..choices.below(20) as usize])),
                8 => drop(bus.receive_bytes_exact(&mut [0; 3])),
                9 => drop(bus.receive_bytes_while(&mut [0; 3], &mut || choices.below(3) > 0)),
                10 => drop(bus.receive_echo(&bytes[..3])),
                11 => drop((bus.ready_to_receive(), bus.try_receive_byte(), bus.try_receive_with_errors())),
                _ => {
                    bus.receive_bytes(&mut [0; 2]);
                    bus.receive_with_errors(&mut [Received::default(); 2]);
                }
            }
        }
        let is_sending = bus.is_sending();
        let made = &bus.inner().backend().made;
        assert_eq!(judge(made, bit, sends_when_set), is_sending);
        written += made.iter().filter(|one| matches!(one, Access::Write(0, _))).count();
        // Whatever the device shows, it is switched to receive by `give_up`, which writes no byte.
        let before = made.len();
        let (uart, _status) = bus.give_up();
        let last = &uart.backend().made[before..];
        let [Access::Read(5, _), Access::Read(4, _), Access::Write(4, mcr)] = last[..] else {
            panic!("{last:?}");
        };
        assert_ne!(mcr & bit != 0, sends_when_set);
        assert_eq!(mcr & 0x10, 0);
    }
    // The runs do what they are for.
    assert!(begun > 1000 && written > 10_000, "{begun} {written}");
}
