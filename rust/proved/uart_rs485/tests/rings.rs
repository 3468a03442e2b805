//! Rings at a bus over the live chip: interrupts send and receive, and a timer gives the bus back.

use geesetrunk_kit_of_rings::alloc::Global;
use proved_uart_rs485::{BusyError, Direction, DirectionLine, HalfDuplexRing, NotSendingError};
use uart_16550::Uart16550;
use uart_16550::backend::Backend;
use uart_live::{Chip, LiveChip, WIRE_ROOM};
use uart_ring::{MAX_INTERRUPTS, Refused, Uart16550Ring};
use uart_spec::registers::{IER, LSR, MCR, offsets};
use uart_spec::{Config, Setup};

/// How long a character takes. Each access takes a tick.
const CHAR_TICKS: u16 = 8;

const DIRECTION: Direction = Direction {
    line: DirectionLine::Rts,
    sends_when_set: true,
};

/// A chip and a transceiver, and what the remotes hear.
struct Bus {
    chip: LiveChip,
    /// For how many ticks the transceiver has been switched to send.
    sending: u16,
    heard: Vec<u8>,
    lost: Vec<u8>,
    /// The transmitter never gets empty.
    is_stuck: bool,
}

impl Bus {
    fn new() -> Self {
        Bus {
            chip: LiveChip::new(Chip::Uart16550A, CHAR_TICKS, WIRE_ROOM).expect("in range"),
            sending: 0,
            heard: Vec::new(),
            lost: Vec::new(),
            is_stuck: false,
        }
    }

    fn is_sending(&mut self) -> bool {
        self.chip.read(offsets::MCR as u8) & MCR::RTS.bits() != 0
    }

    fn tick(&mut self) {
        self.sending = if self.is_sending() { self.sending.saturating_add(1) } else { 0 };
        self.chip.ticks(1);
        for byte in self.chip.wire().to_vec() {
            self.chip.take_wire(1);
            if self.sending < CHAR_TICKS { &mut self.lost } else { &mut self.heard }.push(byte);
        }
    }
}

impl Backend for Bus {
    fn read(&mut self, register_offset: u8) -> u8 {
        let mut value = self.chip.read(register_offset);
        if self.is_stuck && usize::from(register_offset) == offsets::LSR {
            value &= !LSR::TRANSMITTER_EMPTY.bits();
        }
        self.tick();
        value
    }

    fn write(&mut self, register_offset: u8, value: u8) {
        self.chip.write(register_offset, value);
        self.tick();
    }
}

fn rings() -> Uart16550Ring<Bus> {
    let uart = Uart16550::new_with_backend(Bus::new());
    let Ok(mut ring) = Uart16550Ring::new(Global::heap(), uart, 64, 64) else {
        panic!("memory");
    };
    let config = Config {
        interrupts: IER::DATA_READY | IER::RECEIVER_LINE_STATUS,
        ..Config::DEFAULT
    };
    let setup = Setup {
        outputs: DIRECTION.receiving(MCR::READY),
        ..Setup::DEFAULT
    };
    assert_eq!(ring.inner_mut().init_with(config, &setup), Ok(()));
    ring
}

fn at_bus(ring: Uart16550Ring<Bus>) -> HalfDuplexRing<Bus> {
    HalfDuplexRing::new(ring, DIRECTION).unwrap()
}

/// Takes the device out of its bus, does this with it, and puts it back.
fn with_device(bus: HalfDuplexRing<Bus>, change: impl FnOnce(&mut Bus)) -> HalfDuplexRing<Bus> {
    let mut ring = bus.into_inner();
    change(ring.inner_mut().backend_mut());
    at_bus(ring)
}

#[test]
fn a_timer_gives_the_bus_back() {
    let mut bus = at_bus(rings());
    assert_eq!(bus.queue(b"x"), Err(NotSendingError));
    bus.start_sending();
    let question = b"a question of more bytes than the FIFO of the chip has";
    assert_eq!(bus.queue(question), Ok(question.len()));
    let mut refused = 0;
    while bus.try_finish() == Err(BusyError) {
        refused += 1;
        assert!(bus.is_sending());
        if bus.inner().inner().backend().chip.is_interrupting() {
            bus.handle(MAX_INTERRUPTS);
        }
        // The timer comes once a character. A look at LSR takes a tick.
        for _ in 1..CHAR_TICKS {
            bus.take_line();
        }
    }
    assert!(!bus.is_sending());
    // It came more often than it had to, and it gave the bus back by itself.
    assert!(refused > question.len() / 2, "{refused}");
    let device = bus.inner().inner().backend();
    assert_eq!(device.heard, question);
    assert_eq!(device.lost, b"");
    // An answer comes by interrupts.
    let mut bus = with_device(bus, |device| {
        for byte in b"answer" {
            assert_eq!(device.chip.arrive(*byte, LSR::empty()), Ok(()));
        }
    });
    assert!(bus.inner().inner().backend().chip.is_interrupting() || bus.take(&mut [0; 1]) == 0);
    for _ in 0..100 {
        bus.take_line();
    }
    bus.handle(MAX_INTERRUPTS);
    let mut slots = [0; 16];
    let count = bus.take(&mut slots);
    assert_eq!(&slots[..count], b"answer");
}

#[test]
fn rings_at_a_stuck_transmitter_are_given_up() {
    let mut bus = at_bus(rings());
    bus.start_sending();
    assert_eq!(bus.queue(&[b'x'; 40]), Ok(40));
    let mut ring = bus.into_inner();
    ring.inner_mut().backend_mut().is_stuck = true;
    let Err(refused) = HalfDuplexRing::new(ring, DIRECTION) else {
        panic!("the transmitter is not empty");
    };
    assert_eq!(refused.cause, BusyError);
    let mut ring = refused.given;
    ring.inner_mut().backend_mut().is_stuck = false;
    assert_eq!(ring.clear_transmit(), 24);
    while !ring.inner_mut().is_idle() {}
    let mut bus = at_bus(ring);
    bus.start_sending();
    assert_eq!(bus.queue(&[b'y'; 40]), Ok(40));
    let (mut ring, status) = bus.give_up();
    // It receives, some of the burst is still in the chip, and what waited is gone: no interrupt sends it later.
    assert!(!ring.inner_mut().backend_mut().is_sending());
    assert!(!status.contains(LSR::TRANSMITTER_EMPTY));
    assert_eq!(ring.transmit_len(), 0);
    let heard = ring.inner().backend().heard.len();
    for _ in 0..40 * CHAR_TICKS {
        ring.handle(MAX_INTERRUPTS);
    }
    assert_eq!(ring.inner().backend().heard.len(), heard);
    assert!(ring.inner().backend().lost.len() <= 17);
    let bus = at_bus(ring);
    assert!(!bus.is_sending());
}

#[test]
fn bytes_that_wait_keep_the_bus() {
    let mut ring = rings();
    ring.hold_transmit();
    assert_eq!(ring.queue(b"held"), 4);
    // Nothing is in the chip, and the ring has bytes that would go out later.
    let Err(Refused { given: ring, cause: BusyError }) = HalfDuplexRing::new(ring, DIRECTION) else {
        panic!("bytes wait");
    };
    assert_eq!(ring.transmit_len(), 4);
    let mut ring = ring;
    assert_eq!(ring.clear_transmit(), 4);
    ring.release_transmit();
    let mut bus = at_bus(ring);
    bus.start_sending();
    assert_eq!(bus.queue(b"x"), Ok(1));
    // The transmitter is busy: the rings come back as they are.
    let Err(Refused { given: ring, cause: BusyError }) = HalfDuplexRing::new(bus.into_inner(), DIRECTION) else {
        panic!("the transmitter is not empty");
    };
    assert_eq!(ring.transmit_len(), 0);
}

/// Random numbers that are the same in each run.
struct Random(u64);

impl Random {
    fn below(&mut self, limit: u64) -> u64 {
        self.0 ^= self.0 << 13;
        self.0 ^= self.0 >> 7;
        self.0 ^= self.0 << 17;
        self.0 % limit
    }
}

#[test]
fn whatever_rings_at_a_bus_are_asked() {
    let mut random = Random(0x1234_5678_9abc_def1);
    let (mut all, mut given_back) = (0, 0);
    for _ in 0..100 {
        let mut bus = at_bus(rings());
        let mut sent = Vec::new();
        for step in 0..600_u16 {
            match random.below(16) {
                0 | 1 => bus.start_sending(),
                2 | 3 => given_back += usize::from(bus.try_finish().is_ok()),
                4 | 5 => {
                    bus.handle(1 + random.below(8) as usize);
                }
                6 | 7 => assert!(bus.try_handle(1 + random.below(8) as usize, 100).is_ok()),
                8 => drop(bus.take(&mut [0; 4])),
                9 => drop(bus.take_line()),
                10 => drop(bus.is_idle()),
                11 => drop(bus.clear_receive()),
                12 => bus.restart(IER::DATA_READY | IER::RECEIVER_LINE_STATUS),
                13 if random.below(8) == 0 => sent.truncate(sent.len() - bus.clear_transmit()),
                _ => {
                    let bytes = [step as u8; 30];
                    if let Ok(count) = bus.queue(&bytes[..random.below(30) as usize]) {
                        sent.extend_from_slice(&bytes[..count]);
                    }
                }
            }
        }
        for _ in 0..5000 {
            if bus.try_finish().is_ok() {
                break;
            }
            bus.handle(MAX_INTERRUPTS);
        }
        assert!(!bus.is_sending());
        let device = bus.inner().inner().backend();
        assert_eq!(device.lost, []);
        assert_eq!(device.heard, sent);
        all += sent.len();
    }
    // The runs do what they are for.
    assert!(all > 5_000 && given_back > 200, "{all} {given_back}");
}
