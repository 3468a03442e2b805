//! A byte that a port passes on while nothing is before it: beside a port that has the byte written to it and its output taken.

use uart_16550_chip::registers::MSR;
use uart_16550_chip::{Chip, VirtualPort};

const DATA: u8 = 0;

/// Pseudorandom numbers: xorshift.
struct Random(u64);

impl Random {
    fn below(&mut self, bound: u8) -> u8 {
        self.0 ^= self.0 << 13;
        self.0 ^= self.0 >> 7;
        self.0 ^= self.0 << 17;
        (self.0 >> 32) as u8 % bound
    }
}

/// Makes a call that is chosen at random, the same on both ports.
fn any_call(ports: &mut [VirtualPort; 2], random: &mut Random) {
    let (call, register, value) = (random.below(5), random.below(8), random.below(255));
    for port in ports {
        match call {
            0 | 1 => _ = port.write(register, value & 0x8f),
            2 => _ = port.read(register),
            3 => _ = port.receive(&[value, 1, 2][..usize::from(1 + value % 3)]),
            _ => _ = port.set_lines(MSR::from_bits_retain(value & 0xf0)),
        }
    }
}

/// A byte that passes can raise the line, which is a signal, and does not take it down. So `Serial` has nothing to tell where there is
/// no signal.
#[test]
fn a_byte_that_passes_does_what_a_write_does_and_never_takes_the_line_down() {
    let (mut passed, mut signals) = (0, 0);
    for seed in 1..=300 {
        let mut ports = [(); 2].map(|()| VirtualPort::new(Chip::Uart16550A));
        let mut random = Random(seed << 20 | seed);
        for _call in 0..300 {
            any_call(&mut ports, &mut random);
            let [port, other] = &mut ports;
            let count = port.output().len();
            port.take_output(count);
            other.take_output(count);
            let value = random.below(255);
            let Some(byte) = port.passing(value) else {
                assert!(port.pass().is_none());
                continue;
            };
            let todo = port.pass().unwrap();
            let written = other.write(DATA, value);
            assert_eq!(other.output(), [byte]);
            let taken = other.take_output(1);
            assert_eq!(todo.signal, written.signal || taken.signal);
            assert_eq!(todo.has_moved, written.has_moved || taken.has_moved);
            assert!(todo.signal || !todo.has_moved);
            assert_eq!(port.data(), other.data());
            passed += 1;
            signals += usize::from(todo.has_moved);
        }
    }
    assert!(passed > 1_000 && signals > 10, "{passed} {signals}");
}
