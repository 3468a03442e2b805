//! What depends on the size of a FIFO, over parts of a transmitter and of a receiver that are by hand, so that they may have any size.

use proved_uart_chip::receiving::{
    ReceiverParts, arrive_live, characters_of, is_data_pending, receive_room, take_front,
};
use proved_uart_chip::transmitting::{TransmitterParts, held_len, load, tick};
use proved_uart_chip::{ArrivalMark, Character, Origin, Shifting, Timeout, room_of};
use std::collections::VecDeque;
use uart_spec::FifoSize;
use uart_spec::registers::{FifoTriggerLevel, LSR};

const SIZES: [FifoSize; 5] = [
    FifoSize::Sixteen,
    FifoSize::ThirtyTwo,
    FifoSize::SixtyFour,
    FifoSize::OneHundredTwentyEight,
    FifoSize::TwoHundredFiftySix,
];

const LEVELS: [FifoTriggerLevel; 4] = [
    FifoTriggerLevel::One,
    FifoTriggerLevel::Four,
    FifoTriggerLevel::Eight,
    FifoTriggerLevel::Fourteen,
];

struct Sender {
    size: FifoSize,
    queue: VecDeque<u8>,
    shifting: Option<Shifting>,
    wire: Vec<u8>,
    overflows: u64,
    is_thr_pending: bool,
}

impl TransmitterParts for Sender {
    fn size(&self) -> FifoSize {
        self.size
    }

    fn queue_len(&self) -> usize {
        self.queue.len()
    }

    fn put(&mut self, byte: u8) {
        assert!(self.queue.len() < self.size.characters());
        self.queue.push_back(byte);
    }

    fn pop(&mut self) -> Option<u8> {
        self.queue.pop_front()
    }

    fn clear_queue(&mut self) {
        self.queue.clear();
    }

    fn count_overflow(&mut self) {
        self.overflows += 1;
    }

    fn char_ticks(&self) -> u16 {
        1
    }

    fn shifting(&self) -> Option<Shifting> {
        self.shifting
    }

    fn set_shifting(&mut self, shifting: Option<Shifting>) {
        self.shifting = shifting;
    }

    fn has_room(&self) -> bool {
        true
    }

    fn send(&mut self, byte: u8) {
        self.wire.push(byte);
    }

    fn status(&self) -> LSR {
        LSR::empty()
    }

    fn is_thr_pending(&self) -> bool {
        self.is_thr_pending
    }

    fn set_thr_pending(&mut self, on: bool) {
        self.is_thr_pending = on;
    }
}

struct Taker {
    size: FifoSize,
    queue: VecDeque<Character>,
    trigger: FifoTriggerLevel,
    is_overrun: bool,
    is_front_reported: bool,
    last_byte: u8,
    timeout: Timeout,
}

impl ReceiverParts for Taker {
    fn size(&self) -> FifoSize {
        self.size
    }

    fn queue_len(&self) -> usize {
        self.queue.len()
    }

    fn put(&mut self, new: Character) {
        assert!(self.queue.len() < self.size.characters());
        self.queue.push_back(new);
    }

    fn pop(&mut self) -> Option<Character> {
        self.queue.pop_front()
    }

    fn clear_queue(&mut self) {
        self.queue.clear();
    }

    fn set_mark(&mut self, origin: Origin, _mark: ArrivalMark) {
        assert!(matches!(origin, Origin::Live));
    }

    fn discard(&mut self) {}

    fn set_unscheduled_lost(&mut self, on: bool) {
        assert!(!on);
    }

    fn set_overrun(&mut self, on: bool) {
        self.is_overrun = on;
    }

    fn set_front_reported(&mut self, on: bool) {
        self.is_front_reported = on;
    }

    fn status(&self) -> LSR {
        LSR::empty()
    }

    fn has_errors(&self) -> bool {
        false
    }

    fn has_unreported_errors(&self) -> bool {
        false
    }

    fn last_byte(&self) -> u8 {
        self.last_byte
    }

    fn set_last_byte(&mut self, byte: u8) {
        self.last_byte = byte;
    }

    fn timeout(&self) -> Timeout {
        self.timeout
    }

    fn set_timeout_ticks(&mut self, ticks: u16) {
        self.timeout.ticks = ticks;
    }

    fn trigger(&self) -> FifoTriggerLevel {
        self.trigger
    }

    fn set_trigger(&mut self, trigger: FifoTriggerLevel) {
        self.trigger = trigger;
    }
}

fn sender(size: FifoSize) -> Sender {
    Sender {
        size,
        queue: VecDeque::new(),
        shifting: None,
        wire: Vec::new(),
        overflows: 0,
        is_thr_pending: false,
    }
}

fn taker(size: FifoSize, trigger: FifoTriggerLevel) -> Taker {
    Taker {
        size,
        queue: VecDeque::new(),
        trigger,
        is_overrun: false,
        is_front_reported: false,
        last_byte: 0,
        timeout: Timeout { ticks: 0, limit: 4 },
    }
}

#[test]
fn trigger_levels_are_those_of_the_datasheets() {
    let levels = [
        [1, 4, 8, 14],
        [8, 16, 24, 28],
        [1, 16, 32, 56],
        [16, 32, 112, 120],
        [1, 64, 128, 254],
    ];
    for (size, row) in SIZES.into_iter().zip(levels) {
        assert_eq!(LEVELS.map(|level| characters_of(size, level)), row);
    }
}

#[test]
fn without_fifo_there_is_room_for_one() {
    assert_eq!(
        SIZES.map(|size| room_of(true, size)),
        [16, 32, 64, 128, 256]
    );
    assert_eq!(SIZES.map(|size| room_of(false, size)), [1; 5]);
}

#[test]
fn a_transmitter_takes_as_many_as_its_fifo_holds() {
    for size in SIZES {
        let mut parts = sender(size);
        let count = size.characters();
        let bytes: Vec<u8> = (0..count).map(|i| i as u8).collect();
        for byte in &bytes {
            load(&mut parts, true, *byte);
        }
        assert_eq!((held_len(&parts), parts.overflows), (count, 0));
        load(&mut parts, true, 0xee);
        assert_eq!((held_len(&parts), parts.overflows), (count, 1));
        while held_len(&parts) > 0 {
            assert_eq!(tick(&mut parts, false, false), None);
        }
        assert_eq!(parts.wire, bytes);
    }
}

#[test]
fn without_fifo_a_byte_replaces_the_one_that_waits() {
    for size in SIZES {
        let mut parts = sender(size);
        load(&mut parts, false, 1);
        load(&mut parts, false, 2);
        assert_eq!((held_len(&parts), parts.overflows), (1, 1));
        assert_eq!(parts.queue, [2]);
    }
}

#[test]
fn data_is_pending_from_the_trigger_level_on() {
    for size in SIZES {
        for level in LEVELS {
            let mut parts = taker(size, level);
            let least = characters_of(size, level) as usize;
            for waiting in 1..=size.characters() {
                assert_eq!(
                    receive_room(&parts, true),
                    size.characters() - (waiting - 1)
                );
                arrive_live(&mut parts, false, true, waiting as u8, 0);
                assert_eq!(is_data_pending(&parts, true), waiting >= least);
                assert!(is_data_pending(&parts, false));
            }
            assert_eq!(receive_room(&parts, true), 0);
        }
    }
}

#[test]
fn a_full_fifo_loses_what_comes() {
    for size in SIZES {
        let mut parts = taker(size, FifoTriggerLevel::One);
        for i in 0..size.characters() {
            arrive_live(&mut parts, false, true, i as u8, 0);
        }
        assert!(!parts.is_overrun);
        arrive_live(&mut parts, false, true, 0xee, 0);
        assert!(parts.is_overrun);
        for i in 0..size.characters() {
            assert_eq!(take_front(&mut parts), i as u8);
        }
        assert_eq!(parts.queue_len(), 0);
    }
}

#[test]
fn without_fifo_what_comes_replaces_what_waits() {
    for size in SIZES {
        let mut parts = taker(size, FifoTriggerLevel::One);
        arrive_live(&mut parts, false, false, 1, 0);
        assert_eq!(receive_room(&parts, false), 0);
        arrive_live(&mut parts, false, false, 2, 0);
        assert!(parts.is_overrun);
        assert_eq!((parts.queue_len(), take_front(&mut parts)), (1, 2));
    }
}
