//! Chips and ports whose FIFOs hold more than 16 characters.

use std::cell::Cell;
use std::convert::Infallible;
use uart_16550_chip::registers::{FCR, IER, LSR, offsets};
use uart_16550_chip::serial::Error;
use uart_16550_chip::{
    Chip, ChipError, FifoSize, LiveChip, LiveChipWith, NoEvents, Output, Serial, Trigger,
    VirtualPort, VirtualPortWith, WIRE_ROOM, settle,
};

const DATA: u8 = offsets::DATA as u8;
const IER_OFFSET: u8 = offsets::IER as u8;
const ISR_OFFSET: u8 = offsets::ISR as u8;
const FCR_OFFSET: u8 = offsets::FCR as u8;

fn chip<const FIFO: usize>() -> LiveChipWith<FIFO> {
    let mut chip = LiveChipWith::new(Chip::Uart16550A, 4, WIRE_ROOM).unwrap();
    chip.write(FCR_OFFSET, FCR::FIFO_ENABLE.bits());
    chip
}

// Each FIFO of the chip holds as many characters, and loses the one behind them.
fn holds<const FIFO: usize>(size: FifoSize) {
    assert_eq!(size.characters(), FIFO);
    let mut chip = chip::<FIFO>();
    assert_eq!((chip.fifo_size(), chip.receive_room()), (size, FIFO));
    for sent in 0..FIFO {
        assert_eq!((chip.held_len(), chip.overflows()), (sent, 0));
        chip.write(DATA, sent as u8);
        assert_eq!(chip.receive_room(), FIFO - sent);
        chip.arrive(sent as u8, LSR::empty()).unwrap();
    }
    chip.write(DATA, 0xff);
    assert_eq!((chip.held_len(), chip.overflows()), (FIFO, 1));
    assert!(!chip.arrive_in_room(0xff));
    for received in 0..FIFO {
        assert_eq!(chip.waiting_len(), FIFO - received);
        assert_eq!(chip.read(DATA), received as u8);
    }
    // The guest has no interrupt on, and what it wrote goes out in order.
    let mut out = Vec::new();
    while chip.held_len() > 0 {
        assert!(chip.ticks(u16::MAX) <= FIFO + 2);
        out.extend_from_slice(chip.wire());
        chip.take_wire(WIRE_ROOM);
    }
    assert!(out.into_iter().eq((0..FIFO).map(|byte| byte as u8)));
}

#[test]
fn a_chip_of_each_size_holds_as_many() {
    holds::<16>(FifoSize::Sixteen);
    holds::<32>(FifoSize::ThirtyTwo);
    holds::<64>(FifoSize::SixtyFour);
    holds::<128>(FifoSize::OneHundredTwentyEight);
    holds::<256>(FifoSize::TwoHundredFiftySix);
}

#[test]
fn no_fifo_holds_another_number() {
    fn is_refused<const FIFO: usize>() {
        let made = LiveChipWith::<FIFO>::new(Chip::Uart16550A, 1, 64);
        assert!(matches!(made, Err(ChipError::BadFifo)));
        // It is the first reason.
        let made = LiveChipWith::<FIFO>::new(Chip::Uart16550A, 0, 65);
        assert!(matches!(made, Err(ChipError::BadFifo)));
        let made = VirtualPortWith::<FIFO>::try_new(Chip::Uart16550A);
        assert!(matches!(made, Err(ChipError::BadFifo)));
    }
    is_refused::<0>();
    is_refused::<1>();
    is_refused::<15>();
    is_refused::<20>();
    is_refused::<512>();
    let said = ChipError::BadFifo.to_string();
    assert_eq!(said, "a FIFO holds 16, 32, 64, 128 or 256 characters");
}

#[test]
fn ticks_and_wire_are_judged_with_any_fifo() {
    let made = LiveChipWith::<64>::new(Chip::Uart16550A, 0, 65);
    assert!(matches!(made, Err(ChipError::BadTicks)));
    let made = LiveChipWith::<64>::new(Chip::Uart16550A, 1, 65);
    assert!(matches!(made, Err(ChipError::BadWire)));
}

// The guest is told of an empty THR, looks, and fills the FIFO. It is interrupted for the first byte, which
// calls its handler again, and for no other.
fn burst<const FIFO: usize>() -> (usize, usize) {
    let mut port = VirtualPortWith::<FIFO>::try_new(Chip::Uart16550A).unwrap();
    port.write(FCR_OFFSET, FCR::FIFO_ENABLE.bits());
    assert!(port.write(IER_OFFSET, IER::THR_EMPTY.bits()).signal);
    assert_eq!(port.read(ISR_OFFSET).value, 0xc2);
    let mut signals = 0;
    let mut out = Vec::new();
    for byte in 0..FIFO {
        let todo = port.write(DATA, byte as u8);
        signals += usize::from(todo.signal);
        assert_eq!(todo.ready, port.output().len());
        if todo.ready == WIRE_ROOM {
            out.extend_from_slice(port.output());
            port.take_output(WIRE_ROOM);
        }
    }
    out.extend_from_slice(port.output());
    assert!(out.iter().copied().eq((0..FIFO).map(|byte| byte as u8)));
    (out.len(), signals)
}

#[test]
fn a_burst_is_out_after_one_interrupt() {
    assert_eq!(burst::<16>(), (16, 1));
    assert_eq!(burst::<32>(), (32, 1));
    assert_eq!(burst::<64>(), (64, 1));
    assert_eq!(burst::<128>(), (128, 1));
    assert_eq!(burst::<256>(), (256, 1));
}

#[test]
fn a_port_has_room_for_as_many_characters() {
    let mut port = VirtualPortWith::<64>::try_new(Chip::Uart16550A).unwrap();
    // Without FIFO there is room for one.
    assert_eq!(port.receive_room(), 1);
    port.write(FCR_OFFSET, FCR::FIFO_ENABLE.bits());
    port.write(IER_OFFSET, IER::DATA_READY.bits());
    assert_eq!(port.receive_room(), 64);
    let input: Vec<u8> = (0..70).collect();
    let received = port.receive(&input);
    assert_eq!((received.count, received.todo.signal), (64, true));
    assert_eq!(port.receive_room(), 0);
    // The guest reads them in one handler. The last read tells of room, and no read signals again but for what a signal
    // does not cover.
    assert_eq!(port.read(ISR_OFFSET).value, 0xc4);
    let answers: Vec<_> = (0..64).map(|_| port.read(DATA)).collect();
    assert!(answers.iter().map(|answer| answer.value).eq(0..64));
    let told = answers.iter().filter(|answer| answer.todo.has_room);
    assert_eq!((told.count(), answers[63].todo.has_room), (1, true));
    assert_eq!(port.receive(&input[64..]).count, 6);
}

#[test]
fn a_full_output_leaves_the_fifo_to_the_guest() {
    let mut port = VirtualPortWith::<64>::try_new(Chip::Uart16550A).unwrap();
    port.write(FCR_OFFSET, FCR::FIFO_ENABLE.bits());
    // 64 on the output, one in the shift register and 64 in the FIFO.
    for byte in 0..129 {
        port.write(DATA, byte);
    }
    assert_eq!((port.output().len(), port.chip().held_len()), (64, 65));
    assert_eq!(port.chip().overflows(), 0);
    port.write(DATA, 0);
    assert_eq!(port.chip().overflows(), 1);
    assert_eq!(port.take_output(64).ready, 64);
    assert_eq!(port.chip().held_len(), 1);
}

#[test]
fn a_port_of_16_is_the_same_by_each_name() {
    let mut one = VirtualPort::new(Chip::Uart16550A);
    let mut other = VirtualPortWith::<16>::try_new(Chip::Uart16550A).unwrap();
    for step in 0..2000u32 {
        let (offset, value) = ((step * 7 % 8) as u8, (step * 31 % 256) as u8);
        assert_eq!(one.write(offset, value), other.write(offset, value));
        assert_eq!(one.read(offset), other.read(offset));
        assert_eq!(one.receive(&[value]), other.receive(&[value]));
        assert_eq!(one.output(), other.output());
        assert_eq!(one.take_output(3), other.take_output(3));
    }
    let mut chip: LiveChip = LiveChipWith::new(Chip::Uart16450, 1, 64).unwrap();
    assert_eq!(
        (settle(&mut chip), chip.fifo_size()),
        (1, FifoSize::Sixteen)
    );
}

#[test]
fn the_size_of_a_struct_is_that_of_its_fifos() {
    let places = |fifo: usize| fifo * (1 + size_of::<uart_16550_chip::Character>());
    let beside = size_of::<LiveChip>() - places(16);
    assert_eq!(size_of::<LiveChipWith<256>>(), beside + places(256));
}

#[test]
fn each_can_be_shown() {
    let port = VirtualPortWith::<64>::try_new(Chip::Uart16550A).unwrap();
    assert!(format!("{port:?}").starts_with("VirtualPort { level: false"));
    assert!(format!("{:?}", port.chip()).contains("fifo_size: SixtyFour"));
}

/// A line that counts its signals.
#[derive(Default)]
struct Line(Cell<u32>);

impl Trigger for Line {
    type E = Infallible;

    fn trigger(&self) -> Result<(), Infallible> {
        self.0.set(self.0.get() + 1);
        Ok(())
    }
}

/// What a guest printed. A `Vec` is an output only where there is `std`.
#[derive(Default)]
struct Printed(Vec<u8>);

impl Output for Printed {
    type Error = Infallible;

    fn write_bytes(&mut self, bytes: &[u8]) -> Result<usize, Infallible> {
        self.0.extend(bytes);
        Ok(bytes.len())
    }
}

type Device<const FIFO: usize> = Serial<Line, NoEvents, Printed, FIFO>;

// A FIFO of input is one signal for a handler that drains, and what a guest writes at one interrupt one more, whatever the size.
fn is_a_device<const FIFO: usize>() {
    let mut serial: Device<FIFO> =
        Serial::try_with_events(Line::default(), NoEvents, Printed::default()).unwrap();
    assert_eq!((serial.read(3), serial.read(4)), (0x03, 0x08));
    assert_eq!((serial.settings().divisor, serial.fifo_capacity()), (12, 1));
    serial.set_handler_drains(true).unwrap();
    serial.write(FCR_OFFSET, 0x81).unwrap();
    serial.write(IER_OFFSET, 0x01).unwrap();
    assert_eq!(serial.fifo_capacity(), FIFO);
    let input: Vec<u8> = (0..FIFO).map(|byte| byte as u8).collect();
    assert_eq!(serial.enqueue_raw_bytes(&input).unwrap(), FIFO);
    assert!(matches!(
        serial.enqueue_raw_bytes(b"x"),
        Err(Error::FullFifo)
    ));
    let mut read = Vec::new();
    while serial.read(ISR_OFFSET) & 0x01 == 0 {
        read.push(serial.read(DATA));
    }
    assert_eq!((&read, serial.interrupt_evt().0.get()), (&input, 1));

    serial.write(IER_OFFSET, 0x02).unwrap();
    assert_eq!(serial.read(ISR_OFFSET), 0xc2);
    serial.write_bytes(DATA, &input).unwrap();
    assert_eq!((serial.interrupt_evt().0.get(), serial.overflows()), (3, 0));
    assert_eq!(serial.into_parts().2.0, input);
}

#[test]
fn a_device_has_fifos_of_each_size() {
    is_a_device::<16>();
    is_a_device::<32>();
    is_a_device::<64>();
    is_a_device::<128>();
    is_a_device::<256>();
    let none =
        Serial::<_, _, _, 48>::try_with_events(Line::default(), NoEvents, Printed::default());
    assert_eq!(none.err(), Some(ChipError::BadFifo));
}
