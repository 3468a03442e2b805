//! What Linux's driver of a 16550A does to its chip, and how often the device triggers the interrupt then.
//!
//! The accesses are those of `drivers/tty/serial/8250/8250_port.c` of Linux 6.1: `serial8250_interrupt`, `serial8250_handle_irq`,
//! `serial8250_rx_chars`, `serial8250_tx_chars` and `serial8250_start_tx`. Its interrupt controller keeps one edge.
//!
//! The host comes when the device says that there is room for input, some accesses of the guest later: so input comes while the handler
//! runs, as in a machine whose monitor has a thread for it. If the guest makes no access the host comes at once.
//! `integration/guest measure` counts the same with Linux itself.

use std::cell::Cell;
use std::rc::Rc;

const DATA: u8 = 0;
const IER: u8 = 1;
const IIR: u8 = 2;
const FCR: u8 = 2;
const LSR: u8 = 5;
const MSR: u8 = 6;

const RDI: u8 = 0x01;
const THRI: u8 = 0x02;
const RLSI: u8 = 0x04;
const NO_INTERRUPT: u8 = 0x01;
const DATA_READY: u8 = 0x01;
const BREAK: u8 = 0x10;
const THR_EMPTY: u8 = 0x20;
const TRANSMITTER_EMPTY: u8 = 0x40;
/// The FIFO is on, with the trigger level 8, as Linux sets it for a 16550A.
const FIFO_AT_8: u8 = 0x81;

/// How many bytes Linux writes at one interrupt, and reads at most.
const BURST: usize = 16;
const MOST_READ: usize = 256;
/// How often the handler looks for a cause at most.
const MOST_PASSES: usize = 512;
/// How many bytes its transmit ring has room for.
const RING: usize = 4096;
/// How many bytes go each way.
const MEGABYTE: usize = 1 << 20;

/// What a device tells: the edges of the interrupt line, and that there is room for input.
#[derive(Clone, Default)]
pub struct Signals {
    is_latched: Rc<Cell<bool>>,
    triggers: Rc<Cell<u64>>,
    has_room: Rc<Cell<bool>>,
    rooms: Rc<Cell<u64>>,
}

impl Signals {
    /// The device triggers.
    pub fn trigger(&self) {
        self.is_latched.set(true);
        self.triggers.set(self.triggers.get() + 1);
    }

    /// The device has room for input.
    pub fn tell_room(&self) {
        self.has_room.set(true);
        self.rooms.set(self.rooms.get() + 1);
    }

    /// Begins to count.
    fn clear(&self) {
        self.triggers.set(0);
        self.rooms.set(0);
        // Nothing waits, so the host may begin.
        self.has_room.set(true);
    }
}

/// A serial device.
pub trait Device {
    fn read(&mut self, offset: u8) -> u8;
    fn write(&mut self, offset: u8, value: u8);
    /// How many characters it has room for.
    fn room(&self) -> usize;
    /// Receives characters, for which there is room.
    fn receive(&mut self, bytes: &[u8]);
    /// The time of a reception timeout passed. Unless it is written, the device has no clock.
    fn pass_time(&mut self) {}
}

/// A host that has input.
struct Host {
    left: usize,
    /// How many characters it has at a time.
    piece: usize,
    /// After how many accesses of the guest it comes, when the device has told of room.
    delay: u32,
    /// It is on its way.
    comes_in: Option<u32>,
    reads: u64,
}

/// A guest with Linux's driver, and its host.
struct Linux<D> {
    /// How many bytes another processor prints between two reads of a character.
    printed: usize,
    device: D,
    signals: Signals,
    host: Host,
    ier: u8,
    /// A write to IER does not trigger: Linux finds this out at startup, and writes the first bytes itself.
    has_txen_bug: bool,
    to_send: usize,
    received: usize,
    runs: u64,
    vain: u64,
}

impl<D: Device> Linux<D> {
    fn new(device: D, signals: Signals, host: Host, printed: usize) -> Self {
        let mut linux = Linux {
            printed,
            device,
            signals,
            host,
            ier: 0,
            has_txen_bug: false,
            to_send: 0,
            received: 0,
            runs: 0,
            vain: 0,
        };
        linux.device.write(FCR, FIFO_AT_8);
        linux.ier = THRI;
        linux.device.write(IER, THRI);
        let status = linux.device.read(LSR);
        let identification = linux.device.read(IIR);
        linux.has_txen_bug = status & TRANSMITTER_EMPTY != 0 && identification & NO_INTERRUPT != 0;
        linux.ier = RLSI | RDI;
        linux.device.write(IER, RLSI | RDI);
        linux.signals.has_room.set(false);
        linux.handle_interrupts();
        linux.signals.clear();
        linux.runs = 0;
        linux.vain = 0;
        linux
    }

    fn read(&mut self, offset: u8) -> u8 {
        let value = self.device.read(offset);
        self.after_access();
        value
    }

    fn write(&mut self, offset: u8, value: u8) {
        self.device.write(offset, value);
        self.after_access();
    }

    /// The host comes, if it was called so many accesses ago.
    fn after_access(&mut self) {
        if self.host.comes_in.is_none() && self.signals.has_room.take() {
            self.host.comes_in = Some(self.host.delay);
        }
        match self.host.comes_in {
            Some(0) => self.offer(),
            Some(left) => self.host.comes_in = Some(left - 1),
            None => {}
        }
    }

    /// The host hands over what it has, as much as there is room for.
    fn offer(&mut self) {
        self.host.comes_in = None;
        let count = self.host.piece.min(self.device.room()).min(self.host.left);
        if count > 0 {
            self.host.left -= count;
            self.host.reads += 1;
            self.device.receive(&[b'y'; MOST_READ][..count]);
        }
    }

    fn enable(&mut self, interrupts: u8) {
        self.ier = interrupts;
        self.write(IER, interrupts);
    }

    /// `serial8250_rx_chars`. Returns LSR as it was read last.
    fn receive(&mut self, mut status: u8) -> u8 {
        for _ in 0..MOST_READ {
            if status & DATA_READY != 0 {
                self.read(DATA);
                self.received += 1;
            }
            status = self.read(LSR);
            if status & (DATA_READY | BREAK) == 0 {
                break;
            }
            // The other processor's accesses do not call the host.
            for _ in 0..self.printed {
                self.device.write(DATA, b'z');
            }
        }
        status
    }

    /// `serial8250_tx_chars`.
    fn send(&mut self) {
        for _ in 0..BURST.min(self.to_send) {
            self.write(DATA, b'x');
            self.to_send -= 1;
        }
        if self.to_send == 0 {
            self.enable(self.ier & !THRI);
        }
    }

    /// `serial8250_start_tx`.
    fn start_to_send(&mut self, count: usize) {
        self.to_send = count;
        if self.ier & THRI == 0 {
            self.enable(self.ier | THRI);
            if self.has_txen_bug && self.read(LSR) & THR_EMPTY != 0 {
                self.send();
            }
        }
    }

    /// `serial8250_interrupt`, as often as an edge is latched.
    fn handle_interrupts(&mut self) {
        while self.signals.is_latched.take() {
            self.runs += 1;
            for pass in 0..MOST_PASSES {
                if self.read(IIR) & NO_INTERRUPT != 0 {
                    self.vain += u64::from(pass == 0);
                    break;
                }
                let mut status = self.read(LSR);
                if status & (DATA_READY | BREAK) != 0 {
                    status = self.receive(status);
                }
                self.read(MSR);
                if status & THR_EMPTY != 0 && self.ier & THRI != 0 {
                    self.send();
                }
            }
        }
    }
}

/// What is sent and received: how many bytes, in pieces of how many the host has its input, and when it comes.
struct Work {
    what: &'static str,
    out: usize,
    input: usize,
    piece: usize,
    delay: u32,
    printed: usize,
}

/// Prints what the device told meanwhile.
fn measure<D: Device>(name: &str, work: &Work, device: D, signals: &Signals) {
    let host = Host {
        left: work.input,
        piece: work.piece,
        delay: work.delay,
        comes_in: None,
        reads: 0,
    };
    let mut linux = Linux::new(device, signals.clone(), host, work.printed);
    let mut left_out = work.out;
    while left_out > 0 || linux.received < work.input {
        // The guest makes no access, so the host comes. It has input again.
        linux.signals.has_room.set(false);
        linux.offer();
        let chunk = RING.min(left_out);
        if chunk > 0 {
            linux.start_to_send(chunk);
            left_out -= chunk;
        }
        linux.handle_interrupts();
        linux.device.pass_time();
        linux.handle_interrupts();
        assert_eq!(linux.to_send, 0, "the guest waits for ever");
        assert_eq!(
            linux.received,
            work.input - linux.host.left,
            "the guest has not read all"
        );
    }
    println!(
        "{name:<17} {:<36} {:>9} triggers {:>9} runs of the handler {:>9} for nothing {:>9} host reads {:>9} times room",
        work.what,
        signals.triggers.get(),
        linux.runs,
        linux.vain,
        linux.host.reads,
        signals.rooms.get()
    );
}

/// Later than any access of a run of the handler.
const NEVER: u32 = u32::MAX;

/// Counts over a device, which `make` makes with these signals.
pub fn run<D: Device>(name: &str, make: impl Fn(Signals) -> D) {
    let other = [
        ("1 MB in, another prints 1 each", 1),
        ("1 MB in, another prints 2 each", 2),
        ("1 MB in, another prints 4 each", 4),
        ("1 MB in, another prints 15 each", 15),
    ];
    let works = [
        ("1 MB out", MEGABYTE, 0, 0, NEVER),
        ("1 MB in, typed byte by byte", 0, MEGABYTE, 1, NEVER),
        ("1 MB in, in pieces of 7", 0, MEGABYTE, 7, NEVER),
        ("1 MB in, the host comes at once", 0, MEGABYTE, MOST_READ, 0),
        ("1 MB in, after 2 accesses", 0, MEGABYTE, MOST_READ, 2),
        ("1 MB in, after 8 accesses", 0, MEGABYTE, MOST_READ, 8),
        ("1 MB in, after 64 accesses", 0, MEGABYTE, MOST_READ, 64),
        (
            "1 MB each way, the host comes at once",
            MEGABYTE,
            MEGABYTE,
            MOST_READ,
            0,
        ),
        (
            "1 MB each way, after 8 accesses",
            MEGABYTE,
            MEGABYTE,
            MOST_READ,
            8,
        ),
        (
            "1 MB each way, after 64 accesses",
            MEGABYTE,
            MEGABYTE,
            MOST_READ,
            64,
        ),
    ]
    .map(|(what, out, input, piece, delay)| Work {
        what,
        out,
        input,
        piece,
        delay,
        printed: 0,
    });
    let printed = other.map(|(what, printed)| Work {
        what,
        out: 0,
        input: MEGABYTE,
        piece: MOST_READ,
        delay: 64,
        printed,
    });
    for work in works.iter().chain(&printed) {
        let signals = Signals::default();
        measure(name, work, make(signals.clone()), &signals);
    }
}
