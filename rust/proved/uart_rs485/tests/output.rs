//! What the output of a chip makes a transceiver do, at each moment of calls in any order, whatever happens to the chip between accesses:
//! ticks, characters that fill its receiver, and changes of CTS.

use geesetrunk_kit::alloc::Global;
use proved_uart_rs485::{Direction, DirectionLine, HalfDuplex};
use uart_16550::Uart16550;
use uart_16550::backend::Backend;
use uart_chip::Uart;
use uart_spec::registers::{LCR, MCR, MSR, offsets};
use uart_spec::{Config, Setup};

/// Random numbers that are the same in each run.
struct Random(u64);

impl Random {
    fn below(&mut self, limit: u64) -> u64 {
        self.0 ^= self.0 << 13;
        self.0 ^= self.0 >> 7;
        self.0 ^= self.0 << 17;
        self.0 % limit
    }
}

/// A chip with automatic flow control, and what it is to do.
struct Watched {
    chip: Uart,
    direction: Direction,
    random: Random,
    /// Whether the next write of MCR is the first at a bus.
    begins: bool,
    /// Whether the transceiver is to send, as MCR was last written; before the bus is begun nothing is said.
    sends: Option<bool>,
    /// At how many moments a character was in the transmitter, and at how many flow control by the chip would have turned RTS off.
    busy: usize,
    full: usize,
}

impl Watched {
    fn check(&mut self) {
        let Some(sends) = self.sends else { return };
        let mcr = MCR::from_bits_retain(self.chip.read(offsets::MCR as u8));
        // In loopback all outputs are off.
        let output = !self.chip.is_loopback()
            && match self.direction.line {
                DirectionLine::Rts => self.chip.rts_output(),
                DirectionLine::Dtr => mcr.contains(MCR::DTR),
            };
        assert_eq!(output == self.direction.sends_when_set, sends);
        let is_busy = self.chip.transmitter().held_len() > 0;
        assert!(sends || !is_busy);
        self.busy += usize::from(is_busy);
        self.full += usize::from(self.chip.receiver().waiting_len() >= 14);
    }

    fn happens(&mut self) {
        for _ in 0..self.random.below(6) {
            match self.random.below(8) {
                0 => self.chip.arrive_live(self.random.below(256) as u8, 0),
                1 => {
                    let inputs = [0, MSR::CTS.bits()][self.random.below(2) as usize];
                    self.chip.change_lines(inputs);
                }
                _ => self.chip.tick(),
            }
            let sent = self.chip.transmitter().wire().len();
            self.chip.take_wire(sent);
            self.check();
        }
    }
}

impl Backend for Watched {
    fn read(&mut self, register_offset: u8) -> u8 {
        self.happens();
        let value = self.chip.read(register_offset);
        self.check();
        value
    }

    fn write(&mut self, register_offset: u8, value: u8) {
        self.happens();
        self.chip.write(register_offset, value);
        if usize::from(register_offset) == offsets::MCR && (self.begins || self.sends.is_some()) {
            let bit = match self.direction.line {
                DirectionLine::Rts => MCR::RTS,
                DirectionLine::Dtr => MCR::DTR,
            };
            let is_set = MCR::from_bits_retain(value).contains(bit);
            self.sends = Some(is_set == self.direction.sends_when_set);
        }
        self.check();
    }
}

/// A bus at a chip that somebody left in any state.
fn bus(direction: Direction, seed: u64) -> HalfDuplex<Watched> {
    let mut uart = Uart16550::new_with_backend(Watched {
        chip: Uart::new_16750(Global::heap(), 3, 256, 0, false).expect("memory"),
        direction,
        random: Random(seed | 1),
        begins: false,
        sends: None,
        busy: 0,
        full: 0,
    });
    assert_eq!(uart.init_with(Config::DEFAULT, &Setup::DEFAULT), Ok(()));
    let left = uart.backend_mut().random.below(256) as u8;
    uart.backend_mut().chip.write(offsets::MCR as u8, left);
    uart.backend_mut().begins = true;
    let bus = HalfDuplex::new(uart, direction).unwrap();
    assert_eq!(bus.inner().backend().sends, Some(false));
    bus
}

#[test]
fn whatever_is_called_the_output_is_as_switched() {
    let lines = [DirectionLine::Rts, DirectionLine::Dtr];
    for (number, line) in (0..400).zip(lines.into_iter().cycle()) {
        let direction = Direction {
            line,
            sends_when_set: number % 4 < 2,
        };
        let mut bus = bus(direction, 0x1234_5678_9abc_def1 ^ (number << 20));
        let mut random = Random(0x0fed_cba9_8765_4321 ^ (number << 20));
        for step in 0..100_u8 {
            match random.below(10) {
                0 | 1 => bus.start_sending(),
                2 | 3 => drop(bus.try_finish()),
                4 => drop(bus.is_idle()),
                5 => drop(bus.lsr()),
                6 => drop(bus.receive_bytes(&mut [0; 2])),
                7 => drop(bus.flush()),
                8 => drop(bus.send_bytes(&[step; 20])),
                _ => drop(bus.send_bytes(&[step])),
            }
            assert_eq!(bus.inner().backend().sends, Some(bus.is_sending()));
        }
        let seen = bus.inner().backend();
        assert!(seen.busy > 0 && seen.full > 0);
    }
}

#[test]
fn a_chip_in_loopback_or_with_an_open_latch_is_no_exception() {
    let direction = Direction {
        line: DirectionLine::Rts,
        sends_when_set: true,
    };
    let mut uart = bus(direction, 7).into_inner();
    let chip = &mut uart.backend_mut().chip;
    chip.write(offsets::LCR as u8, LCR::DLAB.bits());
    let left = MCR::LOOP_BACK.union(MCR::AUTO_FLOW);
    chip.write(offsets::MCR as u8, left.bits());
    uart.backend_mut().sends = None;
    let mut bus = HalfDuplex::new(uart, direction).unwrap();
    bus.start_sending();
    // These go to the divisor latch, and none to the transmitter.
    assert_eq!(bus.send_bytes(b"lost"), Ok(4));
    assert_eq!(bus.try_finish(), Ok(()));
    assert_eq!(bus.inner().backend().sends, Some(false));
}
