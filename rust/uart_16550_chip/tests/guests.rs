//! Handlers of guests as real drivers have them, behind a controller that keeps one edge. None of them waits for ever.
//!
//! They decide what counts as a look of the guest: a read of ISR. So a burst of a driver that reads ISR is one signal, and one that never
//! does is signalled each time that the line falls and rises. Input while the line is up is signalled if it fills the FIFO.

#![cfg(feature = "std")]

use std::cell::{Cell, RefCell};
use std::convert::Infallible;
use std::rc::Rc;
use uart_16550_chip::registers::MCR;
use uart_16550_chip::{LineSettings, NoEvents, Serial, SerialEvents, Trigger};

const DATA: u8 = 0;
const IER: u8 = 1;
const ISR: u8 = 2;
const FCR: u8 = 2;
const LCR: u8 = 3;
const MCR_OFFSET: u8 = 4;
const LSR: u8 = 5;

const NONE_PENDING: u8 = 0x01;
const RECEIVED: u8 = 0x01;
const CAN_SEND: u8 = 0x20;

/// An interrupt controller that keeps one edge, and delivers it when the guest is not in its handler.
#[derive(Clone, Default)]
struct Edges {
    is_latched: Rc<Cell<bool>>,
    count: Rc<Cell<u32>>,
}

impl Trigger for Edges {
    type E = Infallible;

    fn trigger(&self) -> Result<(), Infallible> {
        self.is_latched.set(true);
        self.count.set(self.count.get() + 1);
        Ok(())
    }
}

/// A guest: its device, what it still sends, and what it received.
struct Guest {
    serial: Serial<Edges, NoEvents, Vec<u8>>,
    edges: Edges,
    to_send: Vec<u8>,
    received: Vec<u8>,
}

impl Guest {
    fn new(fcr: u8, ier: u8, to_send: &[u8]) -> Self {
        let edges = Edges::default();
        let mut serial = Serial::new(edges.clone(), Vec::new());
        serial.write(FCR, fcr).unwrap();
        serial.write(IER, ier).unwrap();
        let to_send = to_send.iter().rev().copied().collect();
        Guest {
            serial,
            edges,
            to_send,
            received: Vec::new(),
        }
    }

    fn read(&mut self, offset: u8) -> u8 {
        self.serial.read(offset)
    }

    fn receive(&mut self) {
        let byte = self.read(DATA);
        self.received.push(byte);
    }

    /// Sends a byte, if there is one.
    fn send(&mut self) {
        if let Some(byte) = self.to_send.pop() {
            self.serial.write(DATA, byte).unwrap();
        }
    }

    /// Runs a handler as long as an edge is latched.
    fn interrupts(&mut self, handler: fn(&mut Self)) {
        for _ in 0..100_000 {
            if !self.edges.is_latched.take() {
                return;
            }
            handler(self);
        }
        panic!("interrupts without end");
    }
}

/// What a guest does when it is interrupted.
type Handler = fn(&mut Guest);

/// Linux: drains what LSR shows, then sends as many as a FIFO has room for, until ISR shows none.
fn linux(guest: &mut Guest) {
    while guest.read(ISR) & NONE_PENDING == 0 {
        while guest.read(LSR) & RECEIVED != 0 {
            guest.receive();
        }
        if guest.read(LSR) & CAN_SEND != 0 {
            (0..16).for_each(|_| guest.send());
        }
    }
}

/// FreeBSD: asks ISR for a cause at a time, drains all for it by LSR, and fills a FIFO of 16 once.
fn bsd(guest: &mut Guest) {
    loop {
        match guest.read(ISR) & 0x0f {
            0x04 | 0x0c => {
                while guest.read(LSR) & RECEIVED != 0 {
                    guest.receive();
                }
            }
            0x02 => (0..16).for_each(|_| guest.send()),
            _ => return,
        }
    }
}

/// Looks once, takes what it likes, four characters, and returns.
fn leaves_early(guest: &mut Guest) {
    if guest.read(ISR) & NONE_PENDING == 0 {
        for _ in 0..4 {
            if guest.read(LSR) & RECEIVED != 0 {
                guest.receive();
            }
        }
        (0..4).for_each(|_| guest.send());
    }
}

/// xv6: never reads ISR, and goes by LSR.
fn xv6(guest: &mut Guest) {
    while guest.read(LSR) & RECEIVED != 0 {
        guest.receive();
    }
    while guest.read(LSR) & CAN_SEND != 0 && !guest.to_send.is_empty() {
        guest.send();
    }
}

/// Goes by LSR, and does one thing for each interrupt.
fn one_by_lsr(guest: &mut Guest) {
    let status = guest.read(LSR);
    if status & RECEIVED != 0 {
        guest.receive();
    } else if status & CAN_SEND != 0 {
        guest.send();
    }
}

/// Goes by ISR, and does one thing for each interrupt.
fn one_by_isr(guest: &mut Guest) {
    match guest.read(ISR) & 0x0f {
        0x04 | 0x0c => guest.receive(),
        0x02 => guest.send(),
        _ => {}
    }
}

/// Goes by ISR, and reads as many as the trigger level without another look.
fn trigger_level(guest: &mut Guest) {
    match guest.read(ISR) & 0x0f {
        0x04 => (0..8).for_each(|_| guest.receive()),
        0x0c => guest.receive(),
        0x02 => (0..16).for_each(|_| guest.send()),
        _ => {}
    }
}

/// Looks at nothing, and sends a byte.
fn blind_sender(guest: &mut Guest) {
    guest.send();
}

/// Looks at nothing, and reads a byte.
fn blind_reader(guest: &mut Guest) {
    guest.receive();
}

const TEXT: &[u8] = b"The quick brown fox jumps over the lazy dog, and over 41 others.";

/// FIFOs on, with trigger levels 1, 8 and 14.
const LEVELS: [u8; 3] = [0x07, 0x87, 0xc7];

#[test]
fn each_handler_sends_its_text() {
    let handlers = [
        linux,
        xv6,
        one_by_lsr,
        one_by_isr,
        trigger_level,
        blind_sender,
    ];
    for fcr in LEVELS.into_iter().chain([0x00]) {
        for (number, handler) in handlers.into_iter().enumerate() {
            let mut guest = Guest::new(fcr, 0x02, TEXT);
            guest.interrupts(handler);
            assert_eq!(
                guest.serial.writer(),
                TEXT,
                "handler {number}, FCR {fcr:#04x}"
            );
        }
    }
}

/// Input in pieces of so many characters, each of which the handler has read before the next one comes.
fn all_is_read(handler: fn(&mut Guest), fcr: u8, longest: usize) {
    let mut guest = Guest::new(fcr, 0x01, &[]);
    let mut typed = Vec::new();
    for length in (1..=longest).chain((1..=longest).rev()) {
        let piece = vec![length as u8; length];
        assert_eq!(guest.serial.enqueue_raw_bytes(&piece).unwrap(), length);
        typed.extend(piece);
        guest.interrupts(handler);
        assert_eq!(guest.received, typed, "FCR {fcr:#04x}");
    }
}

#[test]
fn each_handler_reads_all_that_is_typed() {
    for fcr in LEVELS {
        all_is_read(linux, fcr, 16);
        all_is_read(xv6, fcr, 16);
    }
    // A timeout calls for what is below the trigger level. With 16 characters the line would stay up: on hardware there is no edge then.
    all_is_read(trigger_level, 0x87, 15);
}

/// Handlers that read one character, and return, with the trigger level at which a real line would call them again: at a lower one the
/// line stays up, and no edge comes on hardware either.
#[test]
fn handlers_of_one_character_come_again() {
    for handler in [one_by_lsr, one_by_isr, blind_reader] {
        let mut guest = Guest::new(0xc7, 0x01, &[]);
        guest.serial.enqueue_raw_bytes(&TEXT[..13]).unwrap();
        guest.interrupts(handler);
        assert_eq!(guest.received, &TEXT[..13]);
    }
}

#[test]
fn linux_is_signalled_as_often_as_it_has_to_be() {
    let mut guest = Guest::new(0x87, 0x02, &[0; 1600]);
    guest.interrupts(linux);
    // One for the interrupt that is enabled, and one for each burst of 16.
    assert_eq!(guest.edges.count.get(), 101);
    let mut guest = Guest::new(0x87, 0x01, &[]);
    for _ in 0..100 {
        guest.serial.enqueue_raw_bytes(&[0; 16]).unwrap();
        guest.interrupts(linux);
    }
    // One for each piece of input, and one when its rest is below the trigger level.
    assert_eq!((guest.received.len(), guest.edges.count.get()), (1600, 200));
}

/// Goes by ISR, and reads as many as the trigger level, as far as LSR shows that there are some.
fn trigger_level_by_lsr(guest: &mut Guest) {
    if guest.read(ISR) & NONE_PENDING == 0 {
        for _ in 0..8 {
            if guest.read(LSR) & RECEIVED != 0 {
                guest.receive();
            }
        }
    }
}

/// Sixteen characters, one by one, while the guest is busy elsewhere: the first is a rise, and the last fills the FIFO.
#[test]
fn input_for_a_busy_guest_is_signalled_twice() {
    let mut guest = Guest::new(0x07, 0x01, &[]);
    for _ in 0..16 {
        guest.serial.enqueue_raw_bytes(b"x").unwrap();
    }
    assert_eq!(guest.edges.count.get(), 2);
    guest.interrupts(linux);
    assert_eq!(guest.received.len(), 16);
}

/// Counts how often the monitor is told that there is room.
#[derive(Clone, Default)]
struct Room(Rc<Cell<usize>>);

impl SerialEvents for Room {
    fn buffer_read(&self) {}
    fn out_byte(&self) {}
    fn tx_lost_byte(&self) {}
    fn in_buffer_empty(&self) {
        self.0.set(self.0.get() + 1);
    }
}

/// A monitor reads its input by pieces, and not byte by byte: it is told of room when nothing waits.
#[test]
fn a_full_fifo_is_drained_before_room_is_told() {
    let room = Room::default();
    let mut serial = Serial::with_events(Edges::default(), room.clone(), std::io::sink());
    serial.write(FCR, 0x81).unwrap();
    serial.write(IER, 0x01).unwrap();
    for _ in 0..100 {
        assert_eq!(serial.enqueue_raw_bytes(&[0; 20]).unwrap(), 16);
        for _ in 0..15 {
            serial.read(DATA);
        }
        assert_eq!(room.0.take(), 0);
        serial.read(DATA);
        assert_eq!(room.0.take(), 1);
    }
}

/// A monitor that goes on with its input as soon as it is told of room, while the guest is in its handler: 16 characters for each event,
/// and at most two signals for them, if the guest looks at ISR for each FIFO.
#[test]
fn a_guest_in_its_handler_is_topped_up_piece_by_piece() {
    let mut guest = Guest::new(0x81, 0x01, &[]);
    guest.serial.enqueue_raw_bytes(&[0; 16]).unwrap();
    let mut left = 1600;
    while guest.edges.is_latched.take() {
        while guest.read(ISR) & NONE_PENDING == 0 {
            for _ in 0..16 {
                if guest.read(LSR) & RECEIVED != 0 {
                    guest.receive();
                }
            }
            if left > 0 && guest.serial.fifo_capacity() == 16 {
                left -= guest.serial.enqueue_raw_bytes(&[0; 16]).unwrap();
            }
        }
    }
    assert_eq!(guest.received.len(), 1616);
    assert!(
        guest.edges.count.get() <= 2 * 101,
        "{}",
        guest.edges.count.get()
    );
}

/// A guest that leaves its handler too early, with a line that is up, is called again once the FIFO is full: on hardware it never would be.
#[test]
fn a_full_fifo_is_signalled() {
    let mut guest = Guest::new(0x07, 0x01, &[]);
    guest.serial.enqueue_raw_bytes(&[0; 12]).unwrap();
    guest.interrupts(trigger_level_by_lsr);
    assert_eq!(guest.received.len(), 8);
    for _ in 0..11 {
        guest.serial.enqueue_raw_bytes(b"x").unwrap();
    }
    assert!(!guest.edges.is_latched.get());
    guest.serial.enqueue_raw_bytes(b"x").unwrap();
    assert!(guest.edges.is_latched.get());
}

/// A guest whose monitor has a clock. Time passes while the guest is in none of its handlers.
fn clocked(fcr: u8, ier: u8, to_send: &[u8]) -> Guest {
    let mut guest = Guest::new(fcr, ier, to_send);
    guest.serial.set_clock(true).unwrap();
    guest
}

impl Guest {
    /// Runs a handler as long as an edge is latched, or one is put off. Returns how often time had to pass.
    fn interrupts_and_time(&mut self, handler: fn(&mut Self)) -> u32 {
        for times in 0..100_000 {
            self.interrupts(handler);
            if !self.serial.is_timeout_to_come() {
                return times;
            }
            self.serial.timeout_passed().unwrap();
            assert!(!self.serial.is_timeout_to_come());
        }
        panic!("time without end");
    }
}

/// What a guest reads that is called for each piece, and whose monitor has a clock: everything.
fn all_is_read_with_a_clock(handler: fn(&mut Guest), fcr: u8, longest: usize) {
    let mut guest = clocked(fcr, 0x01, &[]);
    let mut typed = Vec::new();
    for length in (1..=longest).chain((1..=longest).rev()) {
        let piece = vec![length as u8; length];
        assert_eq!(guest.serial.enqueue_raw_bytes(&piece).unwrap(), length);
        typed.extend(piece);
        guest.interrupts_and_time(handler);
        assert_eq!(guest.received, typed, "FCR {fcr:#04x}");
    }
}

#[test]
fn with_a_clock_each_handler_reads_all_that_is_typed() {
    for fcr in LEVELS {
        all_is_read_with_a_clock(linux, fcr, 16);
        all_is_read_with_a_clock(xv6, fcr, 16);
    }
    all_is_read_with_a_clock(trigger_level, 0x87, 15);
    all_is_read_with_a_clock(trigger_level_by_lsr, 0x87, 15);
    for handler in [one_by_lsr, one_by_isr, blind_reader] {
        all_is_read_with_a_clock(handler, 0xc7, 13);
    }
}

/// A handler that sends as long as ISR shows a cause, or as LSR shows room, needs no time for what it sends. One that sends a piece for
/// each interrupt gets the next interrupt when the time has passed, as on a line that takes that time. In either case the last byte empties
/// the transmitter, and a guest that does not look is interrupted for that.
#[test]
fn with_a_clock_each_handler_sends_its_text() {
    for (handler, times) in [
        (linux as Handler, 0),
        (bsd, 0),
        (xv6, 0),
        (trigger_level, TEXT.len() / 16),
        (leaves_early, TEXT.len() / 4),
        (one_by_lsr, TEXT.len()),
        (one_by_isr, TEXT.len()),
        (blind_sender, TEXT.len()),
    ] {
        for fcr in LEVELS {
            let mut guest = clocked(fcr, 0x02, TEXT);
            assert!(guest.interrupts_and_time(handler) as usize <= times + 1);
            assert_eq!(guest.serial.writer(), TEXT);
        }
    }
}

/// One interrupt for all that is sent, and none for nothing: each byte empties the transmitter while the handler runs.
#[test]
fn with_a_clock_linux_is_signalled_once_for_what_it_sends() {
    let mut guest = clocked(0x87, 0x02, &[0; 1600]);
    let mut runs = 0;
    while guest.edges.is_latched.take() {
        runs += 1;
        linux(&mut guest);
        // Nothing is left to be sent: Linux disables the interrupt.
        guest.serial.write(IER, 0x00).unwrap();
    }
    assert_eq!(guest.serial.writer().len(), 1600);
    assert_eq!((runs, guest.edges.count.get()), (1, 1));
    assert!(!guest.serial.is_timeout_to_come());
}

/// Pseudorandom numbers: xorshift.
struct Random(u64);

impl Random {
    fn below(&mut self, end: usize) -> usize {
        self.0 ^= self.0 << 13;
        self.0 ^= self.0 >> 7;
        self.0 ^= self.0 << 17;
        (self.0 % end as u64) as usize
    }
}

impl Guest {
    /// Input comes, handlers run and time passes in a random order, until all of the input was offered and nothing is left to happen: no
    /// edge is latched, and no interrupt is put off.
    fn live(&mut self, handler: fn(&mut Self), input: &[u8], random: &mut Random) {
        let mut rest = input;
        for _ in 0..100_000 {
            match random.below(4) {
                0 if !rest.is_empty() => {
                    let length = rest.len().min(1 + random.below(16));
                    if let Ok(count) = self.serial.enqueue_raw_bytes(&rest[..length]) {
                        rest = &rest[count..];
                    }
                }
                1 if self.serial.is_timeout_to_come() => self.serial.timeout_passed().unwrap(),
                // Most handlers run at once.
                2 | 3 if self.edges.is_latched.take() => handler(self),
                _ => {}
            }
            let is_at_rest = !self.edges.is_latched.get() && !self.serial.is_timeout_to_come();
            if is_at_rest && (rest.is_empty() || self.serial.fifo_capacity() == 0) {
                assert!(rest.is_empty(), "a full FIFO is no signal");
                return;
            }
        }
        panic!("it goes on for ever");
    }
}

/// None waits for ever: once the time has passed, a guest that is at rest has read all, or it left its handler while the line was up, and
/// that has not fallen since. None is deaf: then the FIFO fills, and it is called.
#[test]
fn with_a_clock_no_handler_waits_for_ever_and_none_is_deaf() {
    let handlers: [(Handler, bool); 8] = [
        // These read until nothing waits.
        (linux, true),
        (bsd, true),
        (xv6, true),
        // These leave while characters wait.
        (one_by_lsr, false),
        (one_by_isr, false),
        (leaves_early, false),
        (trigger_level, false),
        (trigger_level_by_lsr, false),
    ];
    for (number, (handler, reads_all)) in handlers.into_iter().enumerate() {
        for fcr in [0x01, 0x41, 0x81, 0xc1] {
            for seed in 1..=50 {
                let mut random = Random(seed);
                let mut guest = clocked(fcr, 0x01, &[]);
                let typed: Vec<u8> = (0..200).collect();
                guest.live(handler, &typed, &mut random);
                let case = format!("handler {number}, FCR {fcr:#04x}, seed {seed}");
                assert!(!reads_all || guest.received == typed, "{case}");
                // It is called as soon as there is no room, and goes on.
                let before = guest.received.len();
                let room = guest.serial.fifo_capacity();
                assert!(room > 0, "{case}");
                guest.serial.enqueue_raw_bytes(&vec![0; room]).unwrap();
                assert!(guest.edges.is_latched.get(), "{case}");
                guest.interrupts_and_time(handler);
                assert!(guest.received.len() > before, "{case}");
            }
        }
    }
}

/// One signal for each piece, and no interrupt for nothing: the handler has read the rest before the time has passed.
#[test]
fn with_a_clock_linux_is_signalled_once_for_16_characters() {
    let mut guest = clocked(0x81, 0x01, &[]);
    for _ in 0..100 {
        guest.serial.enqueue_raw_bytes(&[0; 16]).unwrap();
        assert_eq!(guest.interrupts_and_time(linux), 0);
    }
    assert_eq!((guest.received.len(), guest.edges.count.get()), (1600, 100));
}

/// What is put off is told, comes when the time has passed, and falls away with the line. A clock that is late loses nothing.
#[test]
fn what_is_put_off_comes_unless_the_line_falls() {
    let mut guest = clocked(0x81, 0x01, &[]);
    for handler in [trigger_level_by_lsr, linux] {
        guest.serial.enqueue_raw_bytes(&[0; 12]).unwrap();
        assert!(guest.edges.is_latched.take());
        trigger_level_by_lsr(&mut guest);
        assert!(guest.serial.is_timeout_to_come() && guest.serial.level());
        assert!(!guest.edges.is_latched.get());
        // More input that does not fill the FIFO is no signal, and what is put off stays so.
        guest.serial.enqueue_raw_bytes(b"x").unwrap();
        assert!(guest.serial.is_timeout_to_come() && !guest.edges.is_latched.get());
        guest.serial.timeout_passed().unwrap();
        assert!(guest.edges.is_latched.get());
        guest.interrupts_and_time(handler);
        assert_eq!(guest.read(LSR) & RECEIVED, 0);
    }
    let before = guest.edges.count.get();
    guest.serial.enqueue_raw_bytes(&[0; 12]).unwrap();
    guest.edges.is_latched.take();
    (0..12).for_each(|_| guest.receive());
    assert!(!guest.serial.level() && !guest.serial.is_timeout_to_come());
    guest.serial.timeout_passed().unwrap();
    assert_eq!(guest.edges.count.get(), before + 1);
}

/// Input that fills the FIFO is signalled at once, and nothing is put off any more.
#[test]
fn a_full_fifo_is_signalled_though_a_timeout_is_to_come() {
    let mut guest = clocked(0x81, 0x01, &[]);
    guest.serial.enqueue_raw_bytes(&[0; 16]).unwrap();
    guest.edges.is_latched.take();
    trigger_level_by_lsr(&mut guest);
    guest.receive();
    assert!(guest.serial.is_timeout_to_come());
    assert_eq!(guest.serial.enqueue_raw_bytes(&[0; 16]).unwrap(), 9);
    assert!(guest.edges.is_latched.get() && !guest.serial.is_timeout_to_come());
}

/// A pin that detects edges, and is driven by levels, as a PC's is by `KVM_IRQ_LINE`.
#[derive(Clone, Default)]
struct Pin {
    level: Rc<Cell<bool>>,
    edges: Edges,
}

impl Trigger for Pin {
    type E = Infallible;

    fn trigger(&self) -> Result<(), Infallible> {
        Ok(())
    }

    fn set_level(&self, level: bool) -> Result<(), Infallible> {
        if level && !self.level.get() {
            self.edges.is_latched.set(true);
            self.edges.count.set(self.edges.count.get() + 1);
        }
        self.level.set(level);
        Ok(())
    }
}

#[test]
fn levels_convey_each_signal_to_a_pin_that_detects_edges() {
    let pin = Pin::default();
    let mut serial = Serial::new(pin.clone(), std::io::sink());
    serial.write(FCR, 0x81).unwrap();
    serial.write(IER, 0x01).unwrap();
    serial.enqueue_raw_bytes(&[0; 12]).unwrap();
    assert_eq!(pin.edges.count.get(), 1);
    assert_eq!(serial.read(ISR), 0xc4);
    // The fifth read takes the line down and, by a timeout that is due at once, up again.
    for _ in 0..8 {
        serial.read(DATA);
    }
    assert_eq!((pin.edges.count.get(), pin.level.get()), (2, true));
    serial.enqueue_raw_bytes(b"y").unwrap();
    assert_eq!((pin.edges.count.get(), pin.level.get()), (2, true));
    serial.resample().unwrap();
    assert_eq!((pin.edges.count.get(), pin.level.get()), (3, true));
    for _ in 0..5 {
        serial.read(DATA);
    }
    assert!(!pin.level.get());
}

/// What was told of breaks.
#[derive(Clone, Default)]
struct Breaks(Rc<Cell<[u8; 2]>>);

impl SerialEvents for Breaks {
    fn buffer_read(&self) {}
    fn out_byte(&self) {}
    fn tx_lost_byte(&self) {}
    fn in_buffer_empty(&self) {}
    fn out_break(&self, begins: bool) {
        let mut counts = self.0.get();
        counts[usize::from(begins)] += 1;
        self.0.set(counts);
    }
}

#[test]
fn a_break_of_the_guest_is_told_once() {
    let breaks = Breaks::default();
    let mut serial = Serial::with_events(Edges::default(), breaks.clone(), Vec::new());
    serial.write(LCR, 0x03).unwrap();
    assert_eq!(breaks.0.get(), [0, 0]);
    serial.write(LCR, 0x43).unwrap();
    serial.write(LCR, 0x47).unwrap();
    serial.write(DATA, b'x').unwrap();
    assert_eq!(breaks.0.get(), [0, 1]);
    serial.write(LCR, 0x07).unwrap();
    assert_eq!(breaks.0.get(), [1, 1]);
    assert_eq!(serial.writer(), b"x");
}

/// What was told of the guest's line.
#[derive(Clone, Default)]
struct Told(Rc<RefCell<Vec<(u8, u8, u16)>>>);

impl SerialEvents for Told {
    fn buffer_read(&self) {}
    fn out_byte(&self) {}
    fn tx_lost_byte(&self) {}
    fn in_buffer_empty(&self) {}
    fn out_lines(&self, outputs: MCR) {
        self.0.borrow_mut().push((outputs.bits(), 0, 0));
    }
    fn out_settings(&self, settings: LineSettings) {
        let frame = settings.frame.bits();
        self.0.borrow_mut().push((0, frame, settings.divisor));
    }
}

#[test]
fn outputs_are_told_when_they_change() {
    let told = Told::default();
    let mut serial = Serial::with_events(Edges::default(), told.clone(), Vec::new());
    // As firmware leaves it, no output, those of a PC, twice, by string I/O, in loopback, and back.
    for (mcr, outputs) in [
        (0x08, None),
        (0x00, Some(0x00)),
        (0x0b, Some(0x0b)),
        (0x0b, None),
        (0xef, Some(0x0f)),
        (0x1f, Some(0x00)),
        (0x10, None),
        (0x01, Some(0x01)),
    ] {
        serial.write_bytes(MCR_OFFSET, &[mcr]).unwrap();
        let outputs: Vec<_> = outputs.map(|outputs| (outputs, 0, 0)).into_iter().collect();
        assert_eq!(told.0.take(), outputs, "{mcr:#04x}");
    }
    assert_eq!(serial.outputs(), MCR::DTR);
}

#[test]
fn frame_and_rate_are_told_once_they_are_set() {
    let told = Told::default();
    let mut serial = Serial::with_events(Edges::default(), told.clone(), Vec::new());
    assert_eq!(
        (serial.settings().frame.bits(), serial.settings().divisor),
        (0x03, 12)
    );
    // What was there, with a break, and without; seven bits with parity; and then another divisor, half by half.
    for (register, value, settings) in [
        (LCR, 0x03, None),
        (LCR, 0x43, None),
        (LCR, 0x03, None),
        (LCR, 0x1a, Some((0x1a, 12))),
        (LCR, 0x9b, None),
        (DATA, 0x01, None),
        (IER, 0x02, None),
        (LCR, 0x1a, Some((0x1a, 0x0201))),
        (LCR, 0x9a, None),
        (DATA, 0x00, None),
        (IER, 0x00, None),
        (LCR, 0x1a, Some((0x1a, 0))),
    ] {
        serial.write(register, value).unwrap();
        let settings: Vec<_> = settings
            .map(|(frame, divisor)| (0, frame, divisor))
            .into_iter()
            .collect();
        assert_eq!(told.0.take(), settings, "{register} {value:#04x}");
    }
    assert_eq!(serial.settings().divisor, 0);
}

/// The process that goes on has another line, and knows nothing of what the one before did with its own.
#[test]
fn a_device_that_continues_tells_of_its_line() {
    let mut serial = Serial::new(Edges::default(), Vec::new());
    serial.write(MCR_OFFSET, 0x03).unwrap();
    serial.write(LCR, 0x9b).unwrap();
    serial.write(DATA, 0x01).unwrap();
    let told = Told::default();
    let Ok(mut moved) =
        Serial::from_state(&serial.state(), Edges::default(), told.clone(), Vec::new())
    else {
        panic!("a state of a device");
    };
    assert_eq!(told.0.take(), [(0x03, 0, 0), (0, 0x1b, 1)]);
    moved.write(LCR, 0x1b).unwrap();
    moved.write(MCR_OFFSET, 0x03).unwrap();
    assert_eq!(told.0.take(), []);
}
