//! A live chip that a page plays with, and the driver with its rings, which echoes what arrives.

use geesetrunk::page::SeenChip;
use std::cell::RefCell;
use std::fmt::Write;
use std::rc::Rc;
use uart_16550::Uart16550;
use uart_language::fields::chip_in;
use uart_ring::{MAX_CAPACITY, ReceiveMarks, Uart16550Ring};
use uart_spec::backend::Backend;
use uart_spec::registers::{IER, LSR, MSR};
use uart_spec::{Config, FifoSize};

/// The ticks of a character, as a script may have them.
const TICKS: std::ops::RangeInclusive<u16> = 1..=1000;

/// The chips that the page offers, by the names of scripts.
const CHIPS: [&str; 7] = [
    "16550a",
    "16450",
    "16650",
    "16750",
    "16850",
    "16950",
    "16550a-256",
];

/// Behind them is a 16750 as it is sold: with FIFOs of 16, until FCR switches them to 64.
const SWITCHED: usize = CHIPS.len();

/// The most bytes that are sent between two looks at the wire.
const WIRE: usize = 4096;

/// How the other end is held back.
#[derive(Clone, Copy, Debug, PartialEq, Eq)]
pub enum HeldBy {
    /// It is not: what has no room is dropped.
    Nothing,
    /// By the modem line RTS.
    Rts,
    /// By the characters XOFF and XON.
    Xoff,
}

/// What the driver does with its rings.
#[derive(Clone, Copy, Debug)]
pub struct RingSettings {
    /// For how many bytes the transmit ring has room, once the driver sets the chip up.
    pub transmit: usize,
    /// For how many the receive ring has room.
    pub receive: usize,
    /// How many interrupts a call of the handler serves at most.
    pub limit: usize,
    /// How the other end is held back, at these marks.
    pub held_by: HeldBy,
    /// See `held_by`.
    pub marks: ReceiveMarks,
    /// Whether each call of the handler is followed by one that sends back what came.
    pub echoes: bool,
}

impl Default for RingSettings {
    fn default() -> Self {
        RingSettings {
            transmit: 256,
            receive: 256,
            limit: 8,
            held_by: HeldBy::Nothing,
            marks: ReceiveMarks {
                hold: 32,
                release: 64,
            },
            echoes: true,
        }
    }
}

impl RingSettings {
    // A ring has room for some bytes, and for no more than a script may say.
    fn bounded(self) -> Self {
        RingSettings {
            transmit: self.transmit.clamp(1, MAX_CAPACITY),
            receive: self.receive.clamp(1, MAX_CAPACITY),
            limit: self.limit.clamp(1, MAX_CAPACITY),
            ..self
        }
    }
}

/// The last offset of a register. What is above it is taken for one below it, as on a bus that decodes three lines.
const LAST_OFFSET: u8 = 7;

/// A live chip that the page and the driver share, and the accesses that the driver made.
#[derive(Clone)]
struct Shared {
    chip: Rc<RefCell<SeenChip>>,
    accesses: Rc<RefCell<String>>,
}

impl Shared {
    // Returns the accesses since this was asked last, as a list of JSON.
    fn accesses(&self) -> String {
        format!("[{}]", self.accesses.take())
    }

    fn note(&self, letter: char, offset: u8, value: u8) {
        let mut accesses = self.accesses.borrow_mut();
        let comma = if accesses.is_empty() { "" } else { "," };
        // A text in memory takes everything.
        let _ = write!(accesses, "{comma}[\"{letter}\",{offset},{value}]");
    }
}

// A tick passes at each access, so that no wait of the driver is in vain.
impl Backend for Shared {
    fn read(&mut self, offset: u8) -> u8 {
        let value = {
            let mut chip = self.chip.borrow_mut();
            chip.ticks(1);
            chip.read(offset & LAST_OFFSET)
        };
        self.note('r', offset, value);
        value
    }

    fn write(&mut self, offset: u8, value: u8) {
        {
            let mut chip = self.chip.borrow_mut();
            chip.ticks(1);
            chip.write(offset & LAST_OFFSET, value);
        }
        self.note('w', offset, value);
    }
}

// Sets the chip up, whose FIFOs have this size; without one the chip is asked for its 64. Returns nothing if that fails: the page sees the
// accesses.
fn driver_of(
    shared: Shared,
    size: Option<FifoSize>,
    rings: &RingSettings,
) -> Option<Uart16550Ring<Shared>> {
    let mut uart = Uart16550::new_with_backend(shared);
    let interrupts = IER::DATA_READY
        .union(IER::THR_EMPTY)
        .union(IER::RECEIVER_LINE_STATUS);
    uart.init(Config {
        interrupts,
        ..Config::DEFAULT
    })
    .ok()?;
    let size = match size {
        Some(size) => size,
        None if uart.enable_64_byte_fifos().ok()? => FifoSize::SixtyFour,
        None => FifoSize::Sixteen,
    };
    uart.set_fifo_size(size);
    let heap = geesetrunk_kit_of_rings::alloc::Global::heap();
    Uart16550Ring::new(heap, uart, rings.transmit, rings.receive).ok()
}

/// A live chip, what has left it since it was told last, and its driver.
pub struct Live {
    shared: Shared,
    // The size of its FIFOs, if it has no switch.
    size: Option<FifoSize>,
    // What the page has set, and the rings with the rooms that they were made with.
    rings: RingSettings,
    driver: Option<(Uart16550Ring<Shared>, RingSettings)>,
    sent: Vec<u8>,
}

impl Live {
    /// Returns a chip by its place in the page, whose wire is taken as it is sent. `None` if there is none there, or out of memory.
    pub fn new(place: usize, ticks: u16) -> Option<Self> {
        let ticks = ticks.clamp(*TICKS.start(), *TICKS.end());
        let (chip, size) = match CHIPS.get(place) {
            Some(name) => {
                let kind = chip_in(name.as_bytes()).ok()?;
                (SeenChip::new(kind, ticks, WIRE, false), Some(kind.size))
            }
            None if place == SWITCHED => (SeenChip::new_16750(ticks, WIRE), None),
            None => return None,
        };
        Some(Live {
            shared: Shared {
                chip: Rc::new(RefCell::new(chip.ok()?)),
                accesses: Rc::default(),
            },
            size,
            rings: RingSettings::default(),
            driver: None,
            sent: Vec::new(),
        })
    }

    // Takes what was sent.
    fn take(&mut self) {
        self.sent.extend(self.shared.chip.borrow_mut().take_wire());
    }

    /// Reads a register.
    pub fn read(&mut self, offset: u8) -> u8 {
        self.shared.chip.borrow_mut().read(offset & LAST_OFFSET)
    }

    /// Writes a register.
    pub fn write(&mut self, offset: u8, value: u8) {
        let offset = offset & LAST_OFFSET;
        self.shared.chip.borrow_mut().write(offset, value);
    }

    /// Lets time pass.
    pub fn ticks(&mut self, count: u16) {
        self.shared.chip.borrow_mut().ticks(count);
        self.take();
    }

    /// Lets a character arrive.
    pub fn arrive(&mut self, byte: u8, errors: u8) {
        let errors = LSR::from_bits_retain(errors);
        self.shared.chip.borrow_mut().arrive(byte, errors);
    }

    /// Sets the modem inputs.
    pub fn lines(&mut self, inputs: u8) {
        let inputs = MSR::from_bits_retain(inputs);
        self.shared.chip.borrow_mut().set_lines(inputs);
    }

    /// Returns how the chip is, with what it sent and what the driver did since it was told last, as an object of JSON.
    pub fn told(&mut self) -> String {
        let sent: Vec<_> = self.sent.drain(..).map(|byte| byte.to_string()).collect();
        let (sent, accesses) = (sent.join(","), self.shared.accesses());
        let state = self.shared.chip.borrow_mut().state();
        let rings = match &self.driver {
            None => "null".into(),
            Some((ring, made)) => format!(
                "{{\"transmit\":[{},{}],\"receive\":[{},{}],\"paused\":{}}}",
                ring.transmit_len(),
                made.transmit,
                ring.receive_len(),
                made.receive,
                ring.is_paused()
            ),
        };
        format!("{{\"sent\":[{sent}],\"accesses\":{accesses},\"rings\":{rings},\"state\":{state}}}")
    }

    /// Sets what the driver does with its rings. Their rooms count once it sets the chip up again.
    pub fn set_rings(&mut self, rings: RingSettings) {
        self.rings = rings.bounded();
        self.adjust();
    }

    /// Lets the driver set the chip up.
    pub fn start(&mut self) {
        let driver = driver_of(self.shared.clone(), self.size, &self.rings);
        self.driver = driver.map(|ring| (ring, self.rings));
        self.take();
    }

    /// Lets the driver handle an interrupt, and send back what it took, if it echoes.
    pub fn handle(&mut self) {
        if let Some((ring, _)) = &mut self.driver {
            ring.handle(self.rings.limit);
        }
        if self.rings.echoes {
            self.echo();
        }
        self.adjust();
        self.take();
    }

    /// Sends back what is in the receive ring, as far as the transmit ring has room.
    pub fn send_back(&mut self) {
        self.echo();
        self.adjust();
        self.take();
    }

    fn echo(&mut self) {
        if let Some((ring, _)) = &mut self.driver {
            let mut slots = vec![0; ring.transmit_room()];
            let count = ring.take(&mut slots);
            ring.queue(&slots[..count]);
        }
    }

    // Holds the other end back, or lets it go on, as the rings need it.
    fn adjust(&mut self) {
        if let Some((ring, _)) = &mut self.driver {
            let marks = self.rings.marks;
            match self.rings.held_by {
                HeldBy::Nothing => {}
                HeldBy::Rts => ring.adjust_rts(marks),
                HeldBy::Xoff => {
                    ring.adjust_xoff(marks);
                }
            }
        }
    }
}

#[cfg(test)]
mod tests {
    use super::*;

    #[test]
    fn each_chip_is_there() {
        for place in 0..=SWITCHED {
            assert!(Live::new(place, 4).is_some(), "{place}");
        }
        assert!(Live::new(SWITCHED + 1, 4).is_none());
    }

    // The switch is bit 5 of FCR under DLAB, and ISR shows it by bit 5.
    #[test]
    fn a_16750_is_switched_to_64() {
        let mut live = Live::new(SWITCHED, 4).unwrap();
        live.write(2, 0x01);
        assert!(live.told().contains("\"size\":16,"));
        live.write(3, 0x80);
        live.write(2, 0x21);
        live.write(3, 0x03);
        let told = live.told();
        assert!(
            told.contains("\"isr\":225,") && told.contains("\"size\":64,"),
            "{told}"
        );
    }

    // The driver switches it, too.
    #[test]
    fn the_driver_asks_for_64() {
        let mut live = Live::new(SWITCHED, 4).unwrap();
        live.start();
        assert!(live.driver.is_some());
        assert!(live.told().contains("\"size\":64,"));
    }

    // A modem line that has changed is shown until MSR is read, and stays so however often the page looks.
    #[test]
    fn to_look_changes_nothing() {
        let mut live = Live::new(0, 4).unwrap();
        live.write(2, 0x01);
        live.write(1, 0x0f);
        live.lines(MSR::CTS.bits());
        live.arrive(0x41, LSR::PARITY_ERROR.bits());
        live.arrive(0x42, LSR::FRAMING_ERROR.bits());
        let told = live.told();
        assert_eq!(told, live.told());
        assert!(
            told.contains("\"lsr\":229,") && told.contains("\"msr\":17,"),
            "{told}"
        );
        // The read shows the errors of the front, and those behind stay.
        assert_eq!(live.read(5), 0xe5);
        let told = live.told();
        assert_eq!(told, live.told());
        assert!(told.contains("\"lsr\":225,"), "{told}");
        assert_eq!((live.read(0), live.read(5)), (0x41, 0xe9));
        assert_eq!(live.read(6), 0x11);
        assert!(live.told().contains("\"msr\":16,"));
    }

    #[test]
    fn the_driver_echoes_what_arrives() {
        let mut live = Live::new(0, 4).unwrap();
        live.start();
        assert!(live.driver.is_some());
        live.told();
        for byte in *b"Hello" {
            live.arrive(byte, 0);
        }
        let mut told = String::new();
        for _ in 0..20 {
            live.handle();
            live.ticks(20);
            told += &live.told();
        }
        let sent: Vec<_> = told
            .split("\"sent\":[")
            .skip(1)
            .filter_map(|part| part.split(']').next())
            .filter(|part| !part.is_empty())
            .collect();
        assert_eq!(sent.join(","), "72,101,108,108,111");
    }

    #[test]
    fn lines_are_those_that_are_set() {
        let mut live = Live::new(0, 4).unwrap();
        live.lines(MSR::CTS.bits());
        assert_eq!(live.read(6), MSR::CTS.bits() | 1);
        live.lines(0);
        assert_eq!(live.read(6), 1);
    }

    // Lets characters arrive with time between them, as their sender has it, and the handler come.
    fn receive(live: &mut Live, bytes: &[u8]) {
        for &byte in bytes {
            live.arrive(byte, 0);
            live.ticks(4);
            live.handle();
        }
        live.ticks(40);
        live.handle();
    }

    const SMALL: ReceiveMarks = ReceiveMarks {
        hold: 4,
        release: 8,
    };

    #[test]
    fn rings_have_the_room_that_is_set() {
        let mut live = Live::new(0, 4).unwrap();
        assert!(live.told().contains("\"rings\":null"));
        live.set_rings(RingSettings {
            receive: 8,
            transmit: 0,
            echoes: false,
            ..RingSettings::default()
        });
        live.start();
        assert!(
            live.told()
                .contains("\"rings\":{\"transmit\":[0,1],\"receive\":[0,8],")
        );
        receive(&mut live, b"abcdefghij");
        // The two behind them wait in the chip, whose interrupt is off until there is room.
        let told = live.told();
        assert!(told.contains("\"receive\":[8,8],\"paused\":true"), "{told}");
        assert!(told.contains("\"waiting\":[[105,0],[106,0]]"), "{told}");
        // The transmit ring has room for one byte, and so one is taken at a time.
        live.send_back();
        assert!(live.told().contains("\"receive\":[7,8]"));
    }

    #[test]
    fn the_other_end_is_held_back() {
        let mut live = Live::new(0, 4).unwrap();
        live.set_rings(RingSettings {
            receive: 8,
            held_by: HeldBy::Rts,
            marks: SMALL,
            echoes: false,
            ..RingSettings::default()
        });
        live.start();
        let rts = |live: &mut Live| live.read(4) & 2 != 0;
        receive(&mut live, b"abcd");
        assert!(rts(&mut live));
        receive(&mut live, b"e");
        assert!(!rts(&mut live));
        live.send_back();
        assert!(rts(&mut live));
    }

    #[test]
    fn the_other_end_is_told_to_stop() {
        let mut live = Live::new(0, 4).unwrap();
        live.set_rings(RingSettings {
            receive: 8,
            held_by: HeldBy::Xoff,
            marks: SMALL,
            echoes: false,
            ..RingSettings::default()
        });
        live.start();
        live.told();
        receive(&mut live, b"abcde");
        live.ticks(40);
        assert!(live.told().contains("\"sent\":[19]"));
    }
}
