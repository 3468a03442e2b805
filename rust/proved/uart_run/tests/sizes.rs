//! `find_fifo_size` over chips with FIFOs of every size, which are by hand: whatever happens between its accesses, it finds the size or
//! stalls, and what it leaves is as before. And `enable_64_byte_fifos` over such chips, with the switch of a 16750 and without.

use std::collections::VecDeque;
use uart_16550::Uart16550;
use uart_chip::controlling::{self, ChipParts, arrive_live, tick};
use uart_chip::receiving::ReceiverParts;
use uart_chip::transmitting::TransmitterParts;
use uart_chip::{ArrivalMark, Character, Chip, Latches, Modem, Origin, Shifting, Timeout};
use uart_spec::backend::Backend;
use uart_spec::registers::{FifoTriggerLevel, IER, LCR, LSR, MCR, MSR, flag};
use uart_spec::{Config, FifoSize, FifoSizeError};

const SIZES: [FifoSize; 5] = [
    FifoSize::Sixteen,
    FifoSize::ThirtyTwo,
    FifoSize::SixtyFour,
    FifoSize::OneHundredTwentyEight,
    FifoSize::TwoHundredFiftySix,
];

/// The byte that the call writes.
const TEST_BYTE: u8 = 0x42;

/// The byte that arrives.
const ARRIVED: u8 = 0x99;

/// Numbers that look random, the same in each run of the test.
struct Random(u64);

impl Random {
    fn below(&mut self, bound: u64) -> u64 {
        self.0 = self
            .0
            .wrapping_mul(6_364_136_223_846_793_005)
            .wrapping_add(1_442_695_040_888_963_407);
        (self.0 >> 33) % bound
    }
}

struct Sender {
    size: FifoSize,
    queue: VecDeque<u8>,
    shifting: Option<Shifting>,
    wire: Vec<u8>,
    char_ticks: u16,
    is_thr_pending: bool,
}

impl TransmitterParts for Sender {
    fn size(&self) -> FifoSize {
        self.size
    }

    fn queue_len(&self) -> usize {
        self.queue.len()
    }

    fn put(&mut self, byte: u8) {
        assert!(self.queue.len() < self.size.characters());
        self.queue.push_back(byte);
    }

    fn pop(&mut self) -> Option<u8> {
        self.queue.pop_front()
    }

    fn clear_queue(&mut self) {
        self.queue.clear();
    }

    fn count_overflow(&mut self) {}

    fn char_ticks(&self) -> u16 {
        self.char_ticks
    }

    fn shifting(&self) -> Option<Shifting> {
        self.shifting
    }

    fn set_shifting(&mut self, shifting: Option<Shifting>) {
        self.shifting = shifting;
    }

    fn has_room(&self) -> bool {
        true
    }

    fn send(&mut self, byte: u8) {
        self.wire.push(byte);
    }

    fn status(&self) -> LSR {
        let is_free = self.queue.is_empty();
        flag(is_free, LSR::THR_EMPTY).union(flag(
            is_free && self.shifting.is_none(),
            LSR::TRANSMITTER_EMPTY,
        ))
    }

    fn is_thr_pending(&self) -> bool {
        self.is_thr_pending
    }

    fn set_thr_pending(&mut self, on: bool) {
        self.is_thr_pending = on;
    }
}

struct Taker {
    size: FifoSize,
    queue: VecDeque<Character>,
    trigger: FifoTriggerLevel,
    is_overrun: bool,
    last_byte: u8,
    timeout: Timeout,
}

impl ReceiverParts for Taker {
    fn size(&self) -> FifoSize {
        self.size
    }

    fn queue_len(&self) -> usize {
        self.queue.len()
    }

    fn put(&mut self, new: Character) {
        assert!(self.queue.len() < self.size.characters());
        self.queue.push_back(new);
    }

    fn pop(&mut self) -> Option<Character> {
        self.queue.pop_front()
    }

    fn clear_queue(&mut self) {
        self.queue.clear();
    }

    fn set_mark(&mut self, _origin: Origin, _mark: ArrivalMark) {}

    fn discard(&mut self) {}

    fn set_unscheduled_lost(&mut self, _on: bool) {}

    fn set_overrun(&mut self, on: bool) {
        self.is_overrun = on;
    }

    fn set_front_reported(&mut self, _on: bool) {}

    fn status(&self) -> LSR {
        flag(!self.queue.is_empty(), LSR::DATA_READY)
            .union(flag(self.is_overrun, LSR::OVERRUN_ERROR))
    }

    fn has_errors(&self) -> bool {
        false
    }

    fn has_unreported_errors(&self) -> bool {
        false
    }

    fn last_byte(&self) -> u8 {
        self.last_byte
    }

    fn set_last_byte(&mut self, byte: u8) {
        self.last_byte = byte;
    }

    fn timeout(&self) -> Timeout {
        self.timeout
    }

    fn set_timeout_ticks(&mut self, ticks: u16) {
        self.timeout.ticks = ticks;
    }

    fn trigger(&self) -> FifoTriggerLevel {
        self.trigger
    }

    fn set_trigger(&mut self, trigger: FifoTriggerLevel) {
        self.trigger = trigger;
    }
}

/// A chip with FIFOs of some size, between whose accesses ticks pass and characters arrive.
struct SizedChip {
    model: Chip,
    latches: Latches,
    fifo: bool,
    transmitter: Sender,
    receiver: Taker,
    modem: Modem,
    /// Whether FCR switches the size, as on a 16750.
    switches: bool,
    random: Random,
    /// One more than the most ticks before an access.
    density: u64,
}

impl ChipParts for SizedChip {
    type Transmitter = Sender;
    type Receiver = Taker;

    fn model(&self) -> Chip {
        self.model
    }

    fn cuts(&self) -> bool {
        false
    }

    fn has_auto_flow(&self) -> bool {
        false
    }

    fn has_size_switch(&self) -> bool {
        self.switches
    }

    fn transmitter(&self) -> &Sender {
        &self.transmitter
    }

    fn transmitter_mut(&mut self) -> &mut Sender {
        &mut self.transmitter
    }

    fn receiver(&self) -> &Taker {
        &self.receiver
    }

    fn receiver_mut(&mut self) -> &mut Taker {
        &mut self.receiver
    }

    fn fifo(&self) -> bool {
        self.fifo
    }

    fn turn_fifo(&mut self, on: bool) {
        self.fifo = on;
    }

    fn resize(&mut self, size: FifoSize) {
        assert!(self.switches);
        self.transmitter.size = size;
        self.transmitter.queue.clear();
        self.receiver.size = size;
        self.receiver.queue.clear();
    }

    fn renew_modem(&mut self, mcr: MCR) {
        self.modem.renew(mcr);
    }

    fn change_inputs(&mut self, mcr: MCR, inputs: u8) {
        let mut data = self.modem.data();
        data.inputs = MSR::from_bits_retain(inputs);
        self.modem = Modem::from_data(data);
        self.modem.renew(mcr);
    }

    fn read_modem(&mut self) -> u8 {
        let mut data = self.modem.data();
        let shown = data.lines.union(data.deltas).bits();
        data.deltas = MSR::empty();
        self.modem = Modem::from_data(data);
        shown
    }

    fn has_modem_changes(&self) -> bool {
        !self.modem.data().deltas.is_empty()
    }

    fn is_clear_to_send(&self) -> bool {
        self.modem.is_clear_to_send()
    }

    fn ier(&self) -> IER {
        self.latches.ier
    }

    fn lcr(&self) -> LCR {
        self.latches.lcr
    }

    fn mcr(&self) -> MCR {
        self.latches.mcr
    }

    fn latches(&self) -> Latches {
        self.latches
    }

    fn set_latches(&mut self, latches: Latches) {
        self.latches = latches;
    }
}

impl SizedChip {
    fn new(size: FifoSize, model: Chip, char_ticks: u16, density: u64, seed: u64) -> Self {
        Self {
            model,
            latches: Latches {
                ier: IER::empty(),
                lcr: LCR::empty(),
                mcr: MCR::empty(),
                scr: 0,
                dll: 0,
                dlm: 0,
            },
            fifo: false,
            transmitter: Sender {
                size,
                queue: VecDeque::new(),
                shifting: None,
                wire: Vec::new(),
                char_ticks,
                is_thr_pending: false,
            },
            receiver: Taker {
                size,
                queue: VecDeque::new(),
                trigger: FifoTriggerLevel::One,
                is_overrun: false,
                last_byte: 0,
                timeout: Timeout {
                    ticks: 0,
                    limit: 4 * char_ticks,
                },
            },
            modem: Modem::new(),
            switches: false,
            random: Random(seed),
            density,
        }
    }

    fn pass(&mut self) {
        for _ in 0..self.random.below(self.density) {
            tick(self);
        }
        if self.random.below(8) == 0 {
            arrive_live(self, ARRIVED, 0);
        }
    }

    /// What has been sent, and what is still to be sent.
    fn out(&self) -> Vec<u8> {
        let mut out = self.transmitter.wire.clone();
        out.extend(self.transmitter.shifting.map(|shifting| shifting.byte));
        out.extend(&self.transmitter.queue);
        out
    }

    fn kept(&self) -> (u8, u8, u8, bool) {
        let latches = self.latches;
        (
            latches.ier.bits(),
            latches.lcr.bits(),
            latches.mcr.bits(),
            self.fifo,
        )
    }
}

impl Backend for SizedChip {
    fn read(&mut self, register_offset: u8) -> u8 {
        self.pass();
        controlling::read(self, register_offset)
    }

    fn write(&mut self, register_offset: u8, value: u8) {
        self.pass();
        controlling::write(self, register_offset, value);
    }
}

/// A driver over such a chip, which is set up, and has something to send.
fn set_up(chip: SizedChip, limit: u64) -> Uart16550<SizedChip> {
    let mut uart = Uart16550::new_with_backend(chip);
    let config = Config {
        fifo_trigger_level: Some(FifoTriggerLevel::Eight),
        ..Config::DEFAULT
    };
    uart.init(config).unwrap();
    uart.set_spin_limit(limit.try_into().unwrap());
    uart.send_bytes(b"before");
    uart
}

#[test]
fn the_size_of_the_chip_is_found() {
    for (i, size) in SIZES.into_iter().enumerate() {
        for (j, density) in [2, 3, 9, 80].into_iter().enumerate() {
            for char_ticks in [1, 2, 7, 40] {
                let seed = (100 * i + 10 * j) as u64 + u64::from(char_ticks);
                let chip = SizedChip::new(size, Chip::Uart16550A, char_ticks, density, seed);
                let mut uart = set_up(chip, 1_000_000);
                let (out, kept) = (uart.backend().out(), uart.backend().kept());
                assert_eq!(uart.find_fifo_size(), Ok(size));
                let chip = uart.backend();
                assert_eq!(chip.transmitter.wire, out);
                assert_eq!(chip.out(), out);
                assert_eq!(chip.kept(), kept);
                assert_eq!(chip.receiver.trigger, FifoTriggerLevel::Eight);
                assert!(chip.receiver.queue.iter().all(|left| left.byte == ARRIVED));
            }
        }
    }
}

#[test]
fn a_stall_sends_at_most_one_test_byte() {
    let mut stalls = [0; 2];
    for seed in 0..600 {
        let size = SIZES[seed as usize % 5];
        let chip = SizedChip::new(size, Chip::Uart16550A, 40, 2 + seed % 40, seed);
        let mut uart = set_up(chip, 1 + seed * seed % 1000);
        let (out, kept) = (uart.backend().out(), uart.backend().kept());
        let found = uart.find_fifo_size();
        let chip = uart.backend();
        assert_eq!(chip.kept(), kept);
        let more = chip.out()[out.len()..].to_vec();
        assert!(chip.out().starts_with(&out));
        match found {
            Ok(found) => assert_eq!((found, more.as_slice()), (size, &[][..])),
            Err(error) => {
                assert_eq!(error, FifoSizeError::Stalled);
                assert!(more.is_empty() || more == [TEST_BYTE]);
                stalls[more.len()] += 1;
            }
        }
    }
    // Both happen, and often.
    assert!(stalls[0] > 50 && stalls[1] > 50, "{stalls:?}");
}

#[test]
fn fifos_that_are_off_are_turned_on() {
    for size in SIZES {
        // A new driver takes the FIFOs to be on.
        let mut uart = Uart16550::new_with_backend(SizedChip::new(size, Chip::Uart16550A, 4, 9, 1));
        assert_eq!(uart.find_fifo_size(), Ok(size));
        assert!(uart.backend().fifo);
    }
}

#[test]
fn one_byte_comes_back_without_fifos() {
    for size in SIZES {
        for density in [2, 9, 80] {
            let chip = SizedChip::new(size, Chip::Uart16450, 7, density, density);
            let mut uart = Uart16550::new_with_backend(chip);
            let kept = uart.backend().kept();
            let found = uart.find_fifo_size();
            assert_eq!(found, Err(FifoSizeError::TooFew { returned: 1 }));
            assert!(uart.backend().out().is_empty());
            assert_eq!(uart.backend().kept(), kept);
            assert_eq!(uart.find_fifo_size(), Err(FifoSizeError::FifosOff));
        }
    }
}

#[test]
fn without_fifos_nothing_is_done() {
    let chip = SizedChip::new(FifoSize::Sixteen, Chip::Uart16450, 4, 9, 1);
    let mut uart = set_up(chip, 1_000_000);
    let (out, kept) = (uart.backend().out(), uart.backend().kept());
    assert_eq!(uart.find_fifo_size(), Err(FifoSizeError::FifosOff));
    assert_eq!((uart.backend().out(), uart.backend().kept()), (out, kept));
}

/// A 16750, which holds 16 characters until it is told to hold 64.
fn new_16750(char_ticks: u16, density: u64, seed: u64) -> SizedChip {
    let mut chip = SizedChip::new(FifoSize::Sixteen, Chip::Uart16550A, char_ticks, density, seed);
    chip.switches = true;
    chip
}

#[test]
fn a_16750_is_told_to_hold_64() {
    for (i, density) in [2, 3, 9, 80].into_iter().enumerate() {
        for char_ticks in [1, 2, 7, 40] {
            let seed = 10 * i as u64 + u64::from(char_ticks);
            let mut uart = set_up(new_16750(char_ticks, density, seed), 1_000_000);
            let (out, kept) = (uart.backend().out(), uart.backend().kept());
            assert_eq!(uart.enable_64_byte_fifos(), Ok(true));
            let chip = uart.backend();
            assert_eq!(chip.transmitter.wire, out);
            assert_eq!((chip.out(), chip.kept()), (out, kept));
            assert_eq!(chip.receiver.trigger, FifoTriggerLevel::Eight);
            // What other calls write to FCR leaves the size, and `init` does too.
            assert_eq!(uart.find_fifo_size(), Ok(FifoSize::SixtyFour));
            uart.init(Config::DEFAULT).unwrap();
            assert_eq!(uart.find_fifo_size(), Ok(FifoSize::SixtyFour));
        }
    }
}

#[test]
fn a_chip_without_the_switch_keeps_its_size_and_its_bytes() {
    for size in SIZES {
        for density in [2, 9, 80] {
            let chip = SizedChip::new(size, Chip::Uart16550A, 7, density, density);
            let mut uart = set_up(chip, 1_000_000);
            let (out, kept) = (uart.backend().out(), uart.backend().kept());
            let waiting = uart.backend().receiver.queue.len();
            assert_eq!(uart.enable_64_byte_fifos(), Ok(false));
            let chip = uart.backend();
            assert!(chip.receiver.queue.len() >= waiting);
            assert_eq!((chip.out(), chip.kept()), (out, kept));
            assert_eq!(uart.find_fifo_size(), Ok(size));
        }
    }
}

#[test]
fn a_stall_before_the_switch_changes_nothing() {
    let mut stalls = 0;
    for seed in 0..200 {
        let mut uart = set_up(new_16750(40, 2 + seed % 40, seed), 1 + seed % 20);
        let (out, kept) = (uart.backend().out(), uart.backend().kept());
        let told = uart.enable_64_byte_fifos();
        let chip = uart.backend();
        assert_eq!((chip.out(), chip.kept()), (out, kept));
        let size = match told {
            Ok(on) => {
                assert!(on);
                FifoSize::SixtyFour
            }
            Err(error) => {
                assert_eq!(error, FifoSizeError::Stalled);
                stalls += 1;
                FifoSize::Sixteen
            }
        };
        assert_eq!((chip.transmitter.size, chip.receiver.size), (size, size));
    }
    // Both happen, and often.
    assert!(stalls > 50 && stalls < 150, "{stalls}");
}
