//! The state of a device as bytes.

use std::convert::Infallible;
use uart_16550_chip::registers::LSR;
use uart_16550_chip::serial::BadState;
use uart_16550_chip::{Chip, LiveChip, NoEvents, Output, Serial, SerialState, Trigger};

#[derive(Debug)]
struct Line;

impl Trigger for Line {
    type E = Infallible;

    fn trigger(&self) -> Result<(), Infallible> {
        Ok(())
    }
}

/// A host that takes nothing.
#[derive(Debug)]
struct Nobody;

impl Output for Nobody {
    type Error = Infallible;

    fn write_bytes(&mut self, _bytes: &[u8]) -> Result<usize, Infallible> {
        Ok(0)
    }
}

/// Pseudorandom numbers: xorshift.
struct Random(u64);

impl Random {
    fn byte(&mut self) -> u8 {
        self.0 ^= self.0 << 13;
        self.0 ^= self.0 >> 7;
        self.0 ^= self.0 << 17;
        (self.0 >> 32) as u8
    }
}

/// States after random calls.
fn states() -> Vec<SerialState> {
    let mut states = vec![SerialState::default()];
    for seed in 1..=100 {
        let mut random = Random(seed << 20 | seed);
        let mut serial = Serial::new(Line, Nobody);
        for _call in 0..200 {
            match random.byte() % 8 {
                0 | 1 => _ = serial.write(0, random.byte()),
                2 => _ = serial.write(random.byte() % 8, random.byte()),
                3 => _ = serial.read(random.byte() % 8),
                4 => _ = serial.enqueue_raw_bytes(&[random.byte(); 5]),
                5 => _ = serial.enqueue_break(),
                6 => {
                    _ = serial.set_lines(uart_16550_chip::registers::MSR::from_bits_retain(
                        random.byte(),
                    ))
                }
                _ => {}
            }
        }
        states.push(serial.state());
    }
    states
}

#[test]
fn a_state_comes_back_from_its_bytes() {
    for state in states() {
        let bytes = state.to_bytes();
        let again = SerialState::from_bytes(&bytes).unwrap();
        assert_eq!((again, again.to_bytes()), (state, bytes));
        assert!(Serial::from_state(&again, Line, NoEvents, Nobody).is_ok());
    }
}

/// What was stored in each version, by the state that `busy` makes. `travel.rs` has these too.
const STORED_1: &[u8] = include_bytes!("states/version-1.bin");
const STORED_2: &[u8] = include_bytes!("states/version-2.bin");
/// A chip in C with FIFOs of 64, which has what STORED_2 has, and more in its queues.
const LARGER: &[u8] = include_bytes!("states/larger.bin");

/// Where the parts are, and the length of each.
const CHIP_PART: usize = 12;
const OUTPUT_PART: usize = 102;

fn refusal(bytes: &[u8]) -> BadState {
    SerialState::from_bytes(bytes).unwrap_err()
}

/// The bytes with others in them, and with the length that they then have.
fn with(bytes: &[u8], place: std::ops::Range<usize>, others: &[u8]) -> Vec<u8> {
    let mut with = bytes.to_vec();
    with.splice(place, others.iter().copied());
    let len = with.len() as u32;
    with[8..12].copy_from_slice(&len.to_le_bytes());
    with
}

#[test]
fn other_bytes_are_refused() {
    let bytes = SerialState::default().to_bytes();
    assert_eq!(refusal(b""), BadState::NoState);
    assert_eq!(refusal(b"u1655"), BadState::NoState);
    assert_eq!(refusal(&[0; SerialState::LEN]), BadState::NoState);
    assert_eq!(refusal(&[2, 0, 0, 0]), BadState::NoState);
    assert_eq!(refusal(&bytes[..6]), BadState::Length { offset: 6 });
    assert_eq!(refusal(&bytes[..11]), BadState::Length { offset: 8 });
    for length in 12..bytes.len() {
        assert_eq!(refusal(&bytes[..length]), BadState::Length { offset: 8 });
    }
    let longer = [&bytes[..], &[0]].concat();
    assert_eq!(refusal(&longer), BadState::Length { offset: 8 });
    for length in [4, 145, 147] {
        let mut first = vec![0; length];
        first[0] = 1;
        assert_eq!(refusal(&first), BadState::Length { offset: 0 });
    }
    let mut newer = bytes;
    newer[6..8].copy_from_slice(&[0x03, 0x01]);
    assert_eq!(refusal(&newer), BadState::Version(0x103));
    for (offset, value) in [
        (13, 0),
        (13, 2),
        (103, 0),
        (22, 2),
        (34, 17),
        (54, 4),
        (88, 1),
        (93, 2),
        (101, 65),
        (106, 65),
    ] {
        let mut other = bytes;
        other[offset] = value;
        assert_eq!(refusal(&other), BadState::Value { offset }, "{offset}");
    }
}

#[test]
fn parts_are_refused_that_are_cut_short_or_unknown_or_not_there() {
    let bytes = SerialState::default().to_bytes();
    let (chip, output) = (&bytes[CHIP_PART..OUTPUT_PART], &bytes[OUTPUT_PART..]);
    let of = |parts: &[&[u8]]| with(&bytes, CHIP_PART..bytes.len(), &parts.concat());
    let refused = |parts: &[&[u8]]| refusal(&of(parts));
    assert_eq!(of(&[chip, output]), bytes);
    assert_eq!(refused(&[]), BadState::MissingPart { kind: 1 });
    assert_eq!(refused(&[chip]), BadState::MissingPart { kind: 2 });
    assert_eq!(refused(&[output]), BadState::MissingPart { kind: 1 });
    // Each at most once, and in the order of their kinds.
    let twice = BadState::Value {
        offset: OUTPUT_PART,
    };
    assert_eq!(refused(&[chip, chip, output]), twice);
    assert_eq!(
        refused(&[output, chip]),
        BadState::Value { offset: 12 + 69 }
    );
    assert_eq!(
        refused(&[&[0, 0, 0, 0], chip, output]),
        BadState::Value { offset: 12 }
    );
    let needed = [&[3, 1, 1, 0], &[7][..]].concat();
    assert_eq!(
        refused(&[chip, output, &needed]),
        BadState::UnknownPart { kind: 3 }
    );
    // A part that goes beyond the end, one without its length, and one that is shorter than its fields.
    let end = BadState::Length { offset: 173 };
    assert_eq!(refused(&[chip, output, &[3, 0, 1, 0]]), end);
    assert_eq!(refused(&[chip, output, &[3, 0]]), end);
    let mut short = chip[..89].to_vec();
    short[2] = 85;
    assert_eq!(refused(&[&short, output]), BadState::Length { offset: 101 });
}

/// A chip with larger FIFOs is not cut to one with FIFOs of 16.
#[test]
fn larger_fifos_are_refused() {
    assert_eq!(refusal(LARGER), BadState::UnknownPart { kind: 3 });
    // Neither is one that says that its FIFOs are not needed. No writer makes it, and C refuses it with this reason.
    let mut other = LARGER.to_vec();
    other[172] = 0;
    assert_eq!(refusal(&other), BadState::Value { offset: 172 });
}

/// What a later release may add, and an older one skips: a part that is not needed, and fields at the end of a part.
#[test]
fn what_may_be_skipped_is_skipped() {
    let stored = SerialState::from_bytes(STORED_2).unwrap();
    let end = STORED_2.len();
    let more = with(STORED_2, end..end, &[9, 0, 3, 0, 1, 2, 3]);
    assert_eq!(SerialState::from_bytes(&more), Ok(stored));
    let mut longer = with(STORED_2, OUTPUT_PART..OUTPUT_PART, &[1, 2, 3, 4, 5]);
    longer[CHIP_PART + 2] += 5;
    assert_eq!(SerialState::from_bytes(&longer), Ok(stored));
    assert_eq!(stored.to_bytes(), STORED_2);
}

/// The example on the page is what is stored, and the offsets and lengths there are those of the example.
#[test]
fn the_page_has_the_layout() {
    let mut bytes = Vec::new();
    for row in include_str!("../STATE.md").lines() {
        let cells: Vec<&str> = row.split('|').map(str::trim).collect();
        let [_, offset, len, _, _, example, _] = cells[..] else {
            continue;
        };
        let Ok(offset) = offset.parse::<usize>() else {
            continue;
        };
        let of_field = example
            .split(' ')
            .map(|byte| u8::from_str_radix(byte, 16).unwrap());
        assert_eq!(bytes.len(), offset, "{row}");
        bytes.extend(of_field);
        assert_eq!(bytes.len() - offset, len.parse().unwrap(), "{row}");
    }
    assert_eq!(bytes, STORED_2);
    assert_eq!(bytes.len(), SerialState::LEN);
}

/// A state has one form. So nothing is in bytes that are read, but the state: not behind a list, nor beside what is not there.
#[test]
fn no_other_bytes_are_those_of_a_state() {
    let mut random = Random(9);
    for state in states() {
        let mut bytes = state.to_bytes();
        for place in 0..bytes.len() {
            let was = bytes[place];
            for value in [0, 1, 2, 0x10, 0x80, 0xff, random.byte()] {
                bytes[place] = value;
                if let Ok(read) = SerialState::from_bytes(&bytes) {
                    assert_eq!(read.to_bytes(), bytes, "{value} at {place}");
                }
            }
            bytes[place] = was;
        }
    }
}

/// A device that has something in each field.
fn busy() -> Serial<Line, NoEvents, Nobody> {
    let mut serial = Serial::new(Line, Nobody);
    serial.write(2, 0x81).unwrap();
    serial.write(3, 0x83).unwrap();
    serial.write(0, 0x0c).unwrap();
    serial.write(1, 0x0d).unwrap();
    serial.write(3, 0x1b).unwrap();
    serial.write(1, 0x05).unwrap();
    serial.write(7, 0x5a).unwrap();
    serial.write(4, 0x1b).unwrap();
    serial.write(0, 0xaa).unwrap();
    serial.write(4, 0x0b).unwrap();
    assert_eq!(serial.enqueue_raw_bytes(&[0x61]).unwrap(), 1);
    let errors = uart_16550_chip::registers::LSR::PARITY_ERROR;
    serial.enqueue_with_errors(0x62, errors).unwrap();
    let lines = uart_16550_chip::registers::MSR::CTS | uart_16550_chip::registers::MSR::RI;
    serial.set_lines(lines).unwrap();
    for byte in 0..66 + 17 {
        serial.write(0, byte).unwrap();
    }
    serial
}

/// A state that was stored is read by what comes later: each file is of a release that had this version.
#[test]
fn stored_states_are_read() {
    let state = busy().state();
    assert_eq!(state.to_bytes(), STORED_2);
    for stored in [STORED_1, STORED_2] {
        assert_eq!(SerialState::from_bytes(stored), Ok(state));
    }
}

#[test]
fn what_no_device_has_is_refused_when_it_is_restored() {
    // A bit of IER that is not kept, a 16450, and a character that takes two ticks.
    for (offset, value) in [(16, 0x10), (93, 0), (95, 2), (101, 63)] {
        let mut bytes = SerialState::default().to_bytes();
        bytes[offset] = value;
        let state = SerialState::from_bytes(&bytes).unwrap();
        assert_eq!(state.to_bytes(), bytes);
        let refused = Serial::from_state(&state, Line, NoEvents, Nobody).unwrap_err();
        assert!(matches!(refused.reason, BadState::Chip(_)), "{offset}");
    }
}

/// Chips of both models in the course of time: their states are those of no device, and have the same form.
#[test]
fn a_live_chip_comes_back_from_its_bytes() {
    for (model, ticks, room) in [(Chip::Uart16450, 1, 0), (Chip::Uart16550A, 1000, 7)] {
        let mut chip = LiveChip::new(model, ticks, room).unwrap();
        let mut random = Random(u64::from(ticks));
        for _call in 0..200 {
            match random.byte() % 4 {
                0 => chip.write(random.byte() % 8, random.byte()),
                1 => _ = chip.read(random.byte() % 8),
                2 => _ = chip.ticks(random.byte().into()),
                _ => chip.arrive(random.byte(), LSR::empty()).unwrap(),
            }
            let bytes = SerialState::of_chip(&chip).to_bytes();
            let state = SerialState::from_bytes(&bytes).unwrap();
            let again = LiveChip::from_data(&state.chip, &state.output).unwrap();
            assert_eq!((again.data(), again.wire()), (chip.data(), chip.wire()));
        }
    }
}

/// What is known of a reason is said.
#[test]
fn reasons_have_texts() {
    for (reason, text) in [
        (BadState::NoState, "the bytes are those of no state"),
        (BadState::Version(3), "states of version 3 are not known"),
        (
            BadState::Length { offset: 8 },
            "at offset 8 the state has too few bytes, or too many",
        ),
        (
            BadState::UnknownPart { kind: 3 },
            "the state has a part of the kind 3, which is not known",
        ),
        (
            BadState::MissingPart { kind: 2 },
            "the state has no part of the kind 2",
        ),
        (
            BadState::Value { offset: 22 },
            "at offset 22 the state has a byte that cannot be there",
        ),
    ] {
        assert_eq!(reason.to_string(), text);
    }
}

#[test]
fn no_bytes_panic() {
    let mut random = Random(7);
    for state in states() {
        let mut bytes = state.to_bytes();
        for place in 0..bytes.len() {
            let was = bytes[place];
            bytes[place] = random.byte();
            if let Ok(state) = SerialState::from_bytes(&bytes) {
                let _ = Serial::from_state(&state, Line, NoEvents, Nobody);
            }
            bytes[place] = was;
        }
    }
}

#[cfg(feature = "serde")]
mod with_serde {
    use super::*;
    use serde::de::{Error, Expected, SeqAccess, Visitor};
    use serde::ser::SerializeStruct;
    use serde::{Deserialize, Deserializer, Serialize, Serializer};
    use std::fmt;

    /// A format whose text is the numbers.
    #[derive(Debug)]
    struct Numbers<'a>(&'a [u8], bool);

    #[derive(Debug, PartialEq)]
    struct Bad(String);

    impl Error for Bad {
        fn custom<T: fmt::Display>(reason: T) -> Self {
            Bad(reason.to_string())
        }

        fn invalid_length(length: usize, _expected: &dyn Expected) -> Self {
            Bad(format!("{length} bytes"))
        }
    }

    struct ToVec;

    impl Serializer for ToVec {
        type Ok = Vec<u8>;
        type Error = Bad;
        type SerializeStruct = Self;

        fn serialize_bytes(self, bytes: &[u8]) -> Result<Vec<u8>, Bad> {
            Ok(bytes.to_vec())
        }

        fn serialize_u64(self, _number: u64) -> Result<Vec<u8>, Bad> {
            unreachable!("a state is bytes")
        }

        fn serialize_struct(self, _: &'static str, _: usize) -> Result<Self, Bad> {
            unreachable!("a state is bytes")
        }
    }

    impl SerializeStruct for ToVec {
        type Ok = Vec<u8>;
        type Error = Bad;

        fn serialize_field<T: Serialize + ?Sized>(
            &mut self,
            _name: &'static str,
            _field: &T,
        ) -> Result<(), Bad> {
            unreachable!("a state is bytes")
        }

        fn end(self) -> Result<Vec<u8>, Bad> {
            unreachable!("a state is bytes")
        }
    }

    impl<'de> Deserializer<'de> for Numbers<'_> {
        type Error = Bad;

        fn deserialize_bytes<V: Visitor<'de>>(self, visitor: V) -> Result<V::Value, Bad> {
            if self.1 {
                visitor.visit_seq(self)
            } else {
                visitor.visit_bytes(self.0)
            }
        }

        fn deserialize_u8(self) -> Result<u8, Bad> {
            Ok(self.0[0])
        }
    }

    impl<'de> SeqAccess<'de> for Numbers<'_> {
        type Error = Bad;

        fn next_element<T: Deserialize<'de>>(&mut self) -> Result<Option<T>, Bad> {
            let Some((_, rest)) = self.0.split_first() else {
                return Ok(None);
            };
            let next = T::deserialize(Numbers(self.0, false))?;
            self.0 = rest;
            Ok(Some(next))
        }
    }

    #[test]
    fn a_state_comes_back_from_bytes_and_from_numbers() {
        for state in states() {
            let bytes = state.serialize(ToVec).unwrap();
            for is_sequence in [false, true] {
                let again = SerialState::deserialize(Numbers(&bytes, is_sequence));
                assert_eq!(again.unwrap(), state);
            }
        }
        let many = [0; 1025];
        let refused = SerialState::deserialize(Numbers(&many, true));
        assert_eq!(refused, Err(Bad("1025 bytes".into())));
        let refused = SerialState::deserialize(Numbers(&[2, 0, 0, 0], true));
        assert_eq!(refused, Err(Bad("the bytes are those of no state".into())));
    }
}
