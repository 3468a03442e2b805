//! What is said of rings, of random runs: chips with FIFOs of each size, with automatic flow control and without, whatever happens before
//! each access, and calls of the rings in any order. The handler comes only while the chip interrupts.

use geesetrunk_kit::alloc::Global;
use proved_uart_machine::{ArrivalMark, Chip, Event};
use uart_16550::Uart16550;
use uart_16550::backend::Backend;
use uart_chip::Uart;
use uart_ring::Uart16550Ring;
use uart_spec::registers::{FifoTriggerLevel, IER, LSR, MCR, MSR};
use uart_spec::{Config, FifoSize, Setup};

const SIZES: [FifoSize; 5] = [
    FifoSize::Sixteen,
    FifoSize::ThirtyTwo,
    FifoSize::SixtyFour,
    FifoSize::OneHundredTwentyEight,
    FifoSize::TwoHundredFiftySix,
];
const MACHINES: u64 = 600;
const CALLS: usize = 80;
const ARRIVALS: usize = 600;
const LIMIT: usize = 32;
const WIRE: usize = 20_000;

/// Random numbers that are the same in each run.
struct Random(u64);

impl Random {
    fn below(&mut self, limit: usize) -> usize {
        self.0 ^= self.0 << 13;
        self.0 ^= self.0 >> 7;
        self.0 ^= self.0 << 17;
        ((self.0 >> 11) % limit as u64) as usize
    }

    fn byte(&mut self) -> u8 {
        self.below(256) as u8
    }

    fn bytes(&mut self, most: usize) -> Vec<u8> {
        (0..self.below(most)).map(|_| self.byte()).collect()
    }
}

/// A chip, and the bytes that arrived.
struct World {
    chip: Uart,
    random: Random,
    arrived: Vec<u8>,
    is_busy: bool,
}

impl World {
    fn happens(&mut self) {
        for _ in 0..self.random.below(6) {
            match self.random.below(12) {
                0 if self.is_busy && self.arrived.len() < ARRIVALS => {
                    let byte = self.random.byte();
                    self.arrived.push(byte);
                    self.chip.perform(Event::Arrive { byte, errors: 0 });
                }
                1 if self.is_busy => {
                    let lines = self.random.byte() & MSR::LINES.bits();
                    self.chip.perform(Event::Lines(lines));
                }
                _ => self.chip.tick(),
            }
        }
    }

    fn out(&self) -> Vec<u8> {
        let sending = self.chip.transmitter();
        let held = (0..sending.held_len()).filter_map(|i| sending.held_at(i));
        sending.wire().iter().copied().chain(held).collect()
    }

    /// What has been kept of what arrived.
    fn kept(&self) -> Vec<u8> {
        let receiver = self.chip.receiver();
        let is_kept = |number: usize| receiver.mark(number) != Some(ArrivalMark::Dropped);
        let numbers = (0..self.arrived.len()).filter(|&number| is_kept(number));
        numbers.map(|number| self.arrived[number]).collect()
    }

    fn waiting(&self) -> Vec<u8> {
        let receiver = self.chip.receiver();
        (0..receiver.waiting_len())
            .filter_map(|i| receiver.waiting_at(i))
            .collect()
    }
}

impl Backend for World {
    fn read(&mut self, register_offset: u8) -> u8 {
        self.happens();
        self.chip.read(register_offset)
    }

    fn write(&mut self, register_offset: u8, value: u8) {
        self.happens();
        self.chip.write(register_offset, value);
    }
}

type Rings = Uart16550Ring<World>;

/// Rings behind an `init`, over a chip of some size that a driver takes for no larger.
fn rings(number: u64) -> Rings {
    let mut random = Random(number.wrapping_mul(0x9e37_79b9_7f4a_7c15) | 1);
    let (at, ticks) = (random.below(SIZES.len()), 1 + random.below(5) as u16);
    let heap = Global::heap();
    let chip = Uart::new_sized(
        heap,
        Chip::Uart16550A,
        SIZES[at],
        ticks,
        WIRE,
        ARRIVALS,
        false,
    );
    let chip = chip.expect("memory");
    let chip = if random.below(3) == 0 {
        chip.with_auto_flow()
    } else {
        chip
    };
    let told = SIZES[random.below(at + 1)];
    let config = Config {
        interrupts: IER::DATA_READY | IER::RECEIVER_LINE_STATUS | IER::MODEM_STATUS,
        fifo_trigger_level: [
            None,
            Some(FifoTriggerLevel::Four),
            Some(FifoTriggerLevel::Fourteen),
        ][random.below(3)],
        ..Config::DEFAULT
    };
    let capacity = 1 + random.below(60);
    let mut uart = Uart16550::new_with_backend(World {
        chip,
        random,
        arrived: Vec::new(),
        is_busy: false,
    });
    uart.set_fifo_size(told);
    let setup = Setup {
        outputs: MCR::READY | MCR::AUTO_FLOW,
        ..Setup::DEFAULT
    };
    assert_eq!(uart.init_with(config, &setup), Ok(()));
    uart.backend_mut().is_busy = true;
    let alloc = geesetrunk_kit_of_rings::alloc::Global::heap();
    let Ok(rings) = Uart16550Ring::new(alloc, uart, 1 + capacity, capacity) else {
        panic!("memory");
    };
    rings
}

/// What went in and out at the program's side.
#[derive(Default)]
struct Moved {
    queued: Vec<u8>,
    taken: Vec<u8>,
    is_held: bool,
}

/// Makes a call of the rings that lets no byte overtake and drops none.
fn call(rings: &mut Rings, moved: &mut Moved) -> &'static str {
    let is_up = rings.inner().backend().chip.is_interrupting();
    let random = &mut rings.inner_mut().backend_mut().random;
    let (choice, bytes) = (random.below(13), random.bytes(40));
    match choice {
        0..=2 => {
            let count = rings.queue(&bytes);
            moved.queued.extend(&bytes[..count]);
            "queue"
        }
        3..=5 => {
            let mut slots = vec![0; bytes.len()];
            let count = rings.take(&mut slots);
            moved.taken.extend(&slots[..count]);
            "take"
        }
        6 => {
            rings.service();
            "service"
        }
        7 => {
            rings.resume_transmit();
            "resume_transmit"
        }
        8 => {
            moved.is_held = bytes.len() < 10;
            if moved.is_held {
                rings.hold_transmit()
            } else {
                rings.release_transmit()
            }
            "hold_transmit, release_transmit"
        }
        9 => {
            let _line: LSR = rings.take_line();
            let _modem: MSR = rings.take_modem();
            "take_line, take_modem"
        }
        10 => {
            rings.config_register_dump();
            "config_register_dump"
        }
        _ if is_up => {
            rings.handle(LIMIT);
            "handle"
        }
        _ => {
            rings.retrigger();
            "retrigger"
        }
    }
}

#[test]
fn rings_lose_no_byte_and_do_not_fall_asleep_in_random_runs() {
    let (mut sent, mut received, mut dropped) = (0, 0, 0);
    for number in 1..=MACHINES {
        let mut rings = rings(number);
        let mut moved = Moved::default();
        for _ in 0..CALLS {
            let name = call(&mut rings, &mut moved);
            let left = rings.transmit_len();
            let world = rings.inner().backend();
            assert_eq!(world.chip.transmitter().overflows(), 0, "{name}");
            let gone = &moved.queued[..moved.queued.len() - left];
            assert_eq!(world.out(), gone, "what is out, behind {name}");
            let there = rings.receive_len();
            let (kept, waiting) = (world.kept(), world.waiting());
            let came = &kept[..kept.len() - waiting.len() - there];
            assert_eq!(moved.taken, came, "what was taken, behind {name}");
            assert!(kept.ends_with(&waiting), "what waits, behind {name}");
        }
        // Nobody calls any more but the handler, while the chip interrupts. CTS is set.
        if moved.is_held {
            rings.release_transmit();
        }
        rings.inner_mut().backend_mut().is_busy = false;
        rings
            .inner_mut()
            .backend_mut()
            .chip
            .perform(Event::Lines(MSR::CTS.bits()));
        for _ in 0..20_000 {
            let world = rings.inner_mut().backend_mut();
            world.chip.tick();
            if world.chip.is_interrupting() {
                rings.handle(LIMIT);
            }
        }
        assert_eq!(rings.transmit_len(), 0, "rings {number} sleep");
        let mut slots = [0; 64];
        loop {
            let count = rings.take(&mut slots);
            moved.taken.extend(&slots[..count]);
            if count == 0 {
                break;
            }
            rings.service();
        }
        let world = rings.inner().backend();
        assert_eq!(world.out(), moved.queued);
        let kept = world.kept();
        assert_eq!(moved.taken, kept[..kept.len() - world.waiting().len()]);
        (sent, received) = (sent + moved.queued.len(), received + moved.taken.len());
        dropped += world.arrived.len() - kept.len();
    }
    assert!(
        sent > 50_000 && received > 20_000 && dropped > 1_000,
        "{sent} {received} {dropped}"
    );
}
