//! A bus over the live chip: a transceiver passes on what the chip sends only while it is switched to send.

use proved_uart_rs485::{Direction, DirectionLine, HalfDuplex};
use uart_16550::Uart16550;
use uart_16550::backend::Backend;
use uart_live::{Chip, LiveChip, WIRE_ROOM};
use uart_spec::registers::{LSR, MCR, offsets};
use uart_spec::{Config, Setup};

/// How long a character takes. Each access takes a tick.
const CHAR_TICKS: u16 = 8;

const DIRECTION: Direction = Direction {
    line: DirectionLine::Dtr,
    sends_when_set: false,
};

/// A chip and a transceiver, and what the remotes hear.
struct Bus {
    chip: LiveChip,
    /// For how many ticks the transceiver has been switched to send.
    sending: u16,
    /// How many ticks ago the last byte was written.
    busy: u16,
    heard: Vec<u8>,
    /// Characters of which the bus has had a part, or nothing.
    lost: Vec<u8>,
    /// The receiver hears what this end sends.
    echoes: bool,
    /// How many ticks before the end of a character LSR shows an empty transmitter.
    early: u16,
}

impl Bus {
    fn new() -> Self {
        Bus {
            chip: LiveChip::new(Chip::Uart16550A, CHAR_TICKS, WIRE_ROOM).expect("in range"),
            sending: 0,
            busy: 0,
            heard: Vec::new(),
            lost: Vec::new(),
            echoes: false,
            early: 0,
        }
    }

    fn is_sending(&mut self) -> bool {
        // No read of MCR changes a chip.
        self.chip.read(offsets::MCR as u8) & MCR::DTR.bits() == 0
    }

    fn tick(&mut self) {
        self.sending = if self.is_sending() { self.sending.saturating_add(1) } else { 0 };
        self.busy = self.busy.saturating_add(1);
        self.chip.ticks(1);
        for byte in self.chip.wire().to_vec() {
            self.chip.take_wire(1);
            if self.sending < CHAR_TICKS {
                self.lost.push(byte);
                continue;
            }
            self.heard.push(byte);
            if self.echoes {
                assert_eq!(self.chip.arrive(byte, LSR::empty()), Ok(()));
            }
        }
    }
}

impl Backend for Bus {
    fn read(&mut self, register_offset: u8) -> u8 {
        let mut value = self.chip.read(register_offset);
        let is_early = self.early > 0 && self.busy + self.early >= CHAR_TICKS;
        let has_room = value & LSR::THR_EMPTY.bits() != 0;
        if usize::from(register_offset) == offsets::LSR && is_early && has_room {
            value |= LSR::TRANSMITTER_EMPTY.bits();
        }
        self.tick();
        value
    }

    fn write(&mut self, register_offset: u8, value: u8) {
        self.chip.write(register_offset, value);
        if usize::from(register_offset) == offsets::DATA {
            self.busy = 0;
        }
        self.tick();
    }
}

/// A driver over a chip that is set up with this line as it is to be to receive.
fn driver(bus: Bus) -> Uart16550<Bus> {
    let mut uart = Uart16550::new_with_backend(bus);
    let setup = Setup {
        outputs: DIRECTION.receiving(MCR::READY),
        ..Setup::DEFAULT
    };
    assert_eq!(uart.init_with(Config::DEFAULT, &setup), Ok(()));
    uart
}

fn half_duplex(bus: Bus) -> HalfDuplex<Bus> {
    match HalfDuplex::new(driver(bus), DIRECTION) {
        Ok(bus) => bus,
        Err(refused) => panic!("{refused}"),
    }
}

/// Random numbers that are the same in each run.
struct Random(u64);

impl Random {
    fn below(&mut self, limit: u64) -> u64 {
        self.0 ^= self.0 << 13;
        self.0 ^= self.0 >> 7;
        self.0 ^= self.0 << 17;
        self.0 % limit
    }
}

#[test]
fn the_bus_loses_what_is_sent_in_the_other_direction() {
    // The bare driver: nothing switches the transceiver, or it is switched back too early.
    let mut uart = driver(Bus::new());
    assert_eq!(uart.send_bytes_exact(b"unheard"), Ok(()));
    for _ in 0..100 {
        uart.backend_mut().tick();
    }
    assert_eq!(uart.backend().lost, b"unheard");
    uart.set_dtr(false);
    assert_eq!(uart.send_bytes_exact(b"cut off"), Ok(()));
    uart.set_dtr(true);
    for _ in 0..100 {
        uart.backend_mut().tick();
    }
    assert_eq!(uart.backend().heard, b"");
}

#[test]
fn all_of_a_question_is_heard() {
    let mut bus = half_duplex(Bus::new());
    bus.start_sending();
    assert_eq!(bus.send_bytes_exact(b"a question of more than a FIFO"), Ok(()));
    assert!(bus.try_finish().is_err());
    assert_eq!(bus.flush(), Ok(()));
    assert_eq!(bus.try_finish(), Ok(()));
    let mut uart = bus.into_inner();
    assert!(!uart.backend_mut().is_sending());
    assert_eq!(uart.backend().heard, b"a question of more than a FIFO");
    assert_eq!(uart.backend().lost, b"");
}

#[test]
fn a_receiver_that_hears_itself_has_each_byte_once() {
    let mut bus = half_duplex(Bus {
        echoes: true,
        ..Bus::new()
    });
    bus.start_sending();
    let sent = b"what this end sends it hears";
    let (mut done, mut echo) = (0, Vec::new());
    while done < sent.len() {
        done += bus.send_bytes(&sent[done..]).expect("the direction is to send");
        let mut slots = [0; 16];
        let count = bus.receive_bytes(&mut slots);
        echo.extend_from_slice(&slots[..count]);
    }
    assert_eq!(bus.flush(), Ok(()));
    assert_eq!(bus.try_finish(), Ok(()));
    let mut slots = [0; 32];
    let count = bus.receive_bytes(&mut slots);
    echo.extend_from_slice(&slots[..count]);
    assert_eq!(echo, sent);
    assert!(!bus.lsr().contains(LSR::OVERRUN_ERROR));
}

#[test]
fn a_chip_that_shows_an_empty_transmitter_early_needs_the_delay() {
    for (delay, heard) in [(0, b"".as_slice()), (4, b"x")] {
        let mut bus = half_duplex(Bus {
            early: 4,
            ..Bus::new()
        });
        bus.start_sending();
        assert_eq!(bus.send_bytes(b"x"), Ok(1));
        assert_eq!(bus.flush(), Ok(()));
        // The clock of the caller: here a look is a tick.
        for _ in 0..delay {
            assert!(bus.is_idle());
        }
        assert_eq!(bus.try_finish(), Ok(()));
        let mut uart = bus.into_inner();
        for _ in 0..CHAR_TICKS {
            uart.backend_mut().tick();
        }
        assert_eq!(uart.backend().heard, heard);
    }
}

#[test]
fn calls_in_any_order_lose_no_byte() {
    let mut random = Random(0x1234_5678_9abc_def1);
    for _ in 0..200 {
        let mut bus = half_duplex(Bus::new());
        let mut sent = Vec::new();
        for step in 0..200_u8 {
            match random.below(8) {
                0 => bus.start_sending(),
                1 | 2 => drop(bus.try_finish()),
                3 => drop(bus.is_idle()),
                4 => drop(bus.lsr()),
                5 => drop(bus.receive_bytes(&mut [0; 4])),
                6 => {
                    if let Ok(count) = bus.send_bytes(&[step, 0x80 | step]) {
                        sent.extend_from_slice(&[step, 0x80 | step][..count]);
                    }
                }
                _ => {
                    if bus.send_bytes_exact(&[step; 3]).is_ok() {
                        sent.extend_from_slice(&[step; 3]);
                    }
                }
            }
        }
        assert_eq!(bus.flush(), Ok(()));
        assert_eq!(bus.try_finish(), Ok(()));
        let uart = bus.into_inner();
        assert_eq!(uart.backend().lost, []);
        assert_eq!(uart.backend().heard, sent);
        assert!(sent.len() > 20);
    }
}
