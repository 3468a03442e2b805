//! States that go from Rust to C and back: to chips and ports of `c/uart_port.c`, which are restored, saved and written again, and at
//! which a guest looks.
//!
//! `integration/c` builds `states/travel.c`, and runs this test with the path of that program in `UART_TRAVEL`. Without it nothing is
//! tested here.
#![cfg(feature = "std")]

use std::convert::Infallible;
use std::env;
use std::io::Write;
use std::process::{Command, Stdio};
use std::thread;
use uart_16550_chip::registers::{LSR, MSR};
use uart_16550_chip::serial::BadState;
use uart_16550_chip::{Chip, LiveChip, Output, Serial, SerialState, Trigger, VirtualPort};

const STORED: [&[u8]; 2] = [
    include_bytes!("states/version-1.bin"),
    include_bytes!("states/version-2.bin"),
];

/// How often the guest looks for causes of interrupts and for characters, and how much it reads in all.
const LOOKS: u8 = 20;
const READS: usize = 6 + 3 * LOOKS as usize;
/// How many bytes the program answers for each state: four numbers, and the state of a chip and of a port, each with what a guest finds.
const OF_ONE: usize = SerialState::LEN + 2 * READS;
const ANSWER: usize = 4 + 2 * OF_ONE;
/// What `uart_chip_load` and `uart_port_load` return for what they refuse.
const BAD_CHIP: u8 = 5;
const BAD_PORT: u8 = 6;

struct Line;

impl Trigger for Line {
    type E = Infallible;

    fn trigger(&self) -> Result<(), Infallible> {
        Ok(())
    }
}

/// A host that takes as many bytes as it is told.
struct Slow(usize);

impl Output for Slow {
    type Error = Infallible;

    fn write_bytes(&mut self, bytes: &[u8]) -> Result<usize, Infallible> {
        let taken = self.0.min(bytes.len());
        self.0 -= taken;
        Ok(taken)
    }
}

/// Pseudorandom numbers: xorshift.
struct Random(u64);

impl Random {
    fn byte(&mut self) -> u8 {
        self.0 ^= self.0 << 13;
        self.0 ^= self.0 >> 7;
        self.0 ^= self.0 << 17;
        (self.0 >> 32) as u8
    }
}

/// A random call: of the guest, or of the host.
fn call(serial: &mut Serial<Line, uart_16550_chip::NoEvents, Slow>, random: &mut Random) {
    match random.byte() % 8 {
        0 | 1 => _ = serial.write(0, random.byte()),
        2 => _ = serial.write(random.byte() % 8, random.byte()),
        3 => _ = serial.read(random.byte() % 8),
        4 => _ = serial.enqueue_raw_bytes(&[random.byte(); 5]),
        5 => _ = serial.enqueue_with_errors(random.byte(), LSR::from_bits_retain(random.byte())),
        6 => _ = serial.set_lines(MSR::from_bits_retain(random.byte())),
        _ => serial.writer_mut().0 = usize::from(random.byte() % 3),
    }
}

/// States of devices after each of some random calls.
fn states() -> Vec<SerialState> {
    let mut states = vec![SerialState::default()];
    for seed in 1..=40_u64 {
        let mut random = Random(seed << 20 | seed);
        let mut serial = Serial::new(Line, Slow(0));
        for _call in 0..50 {
            call(&mut serial, &mut random);
            states.push(serial.state());
        }
    }
    states.push(SerialState::of_port(&VirtualPort::new(Chip::Uart16450)));
    states
}

/// States of chips in the course of time, which are those of no port.
fn states_of_chips() -> Vec<SerialState> {
    let mut states = Vec::new();
    for (model, ticks, room) in [(Chip::Uart16450, 3, 1), (Chip::Uart16550A, 1000, 64)] {
        let mut random = Random(u64::from(ticks));
        let mut chip = LiveChip::new(model, ticks, room).unwrap();
        for _call in 0..200 {
            match random.byte() % 4 {
                0 => chip.write(random.byte() % 8, random.byte()),
                1 => _ = chip.read(random.byte() % 8),
                2 => _ = chip.ticks(random.byte().into()),
                _ => chip.arrive(random.byte(), LSR::empty()).unwrap(),
            }
            states.push(SerialState::of_chip(&chip));
        }
    }
    states
}

/// The bytes of states, and others: with one byte changed, cut short, or longer.
fn cases() -> Vec<Vec<u8>> {
    let mut random = Random(3);
    let mut cases: Vec<Vec<u8>> = STORED.map(Vec::from).into();
    for state in states().into_iter().chain(states_of_chips()) {
        let bytes = state.to_bytes();
        cases.push(bytes.into());
        let mut changed = bytes;
        let place = usize::from(random.byte()) % bytes.len();
        changed[place] = [random.byte(), 0, 1, 0x10, 0xff][usize::from(random.byte()) % 5];
        cases.push(changed.into());
    }
    for stored in STORED {
        for len in 0..stored.len() {
            cases.push(stored[..len].into());
            // As if the length of all were right.
            let mut short = stored[..len].to_vec();
            if len >= 12 && stored[0] != 1 {
                short[8] = len as u8;
            }
            cases.push(short);
            for value in [0, 1, 2, 3, 0x11, 0x56, 0xff] {
                let mut changed = stored.to_vec();
                changed[len] = value;
                cases.push(changed);
            }
        }
    }
    cases.extend(with_parts());
    cases
}

/// States of later releases: with parts that may be skipped, or must not be, and with longer parts.
fn with_parts() -> Vec<Vec<u8>> {
    let stored = STORED[1];
    let mut cases = Vec::new();
    for part in [
        &[9, 0, 3, 0, 1, 2, 3][..],
        &[9, 1, 3, 0, 1, 2, 3],
        &[9, 2, 3, 0, 1, 2, 3],
        &[2, 0, 0, 0],
        &[9, 0, 4, 0, 1, 2, 3],
        &[9, 0, 0],
        &[9, 0],
        &[9],
    ] {
        let mut longer = [stored, part].concat();
        longer[8] += part.len() as u8;
        cases.push(longer);
    }
    let mut longer = stored.to_vec();
    longer.splice(102..102, [1, 2, 3]);
    longer[8] += 3;
    longer[14] += 3;
    cases.push(longer);
    cases
}

/// What the program for C answers for each of these.
fn answers_of(program: &str, cases: &[Vec<u8>]) -> Vec<u8> {
    let mut child = Command::new(program)
        .stdin(Stdio::piped())
        .stdout(Stdio::piped())
        .spawn()
        .unwrap();
    let mut input = child.stdin.take().unwrap();
    let records: Vec<u8> = cases
        .iter()
        .flat_map(|case| [&(case.len() as u16).to_le_bytes()[..], case].concat())
        .collect();
    let writer = thread::spawn(move || input.write_all(&records).unwrap());
    let output = child.wait_with_output().unwrap();
    writer.join().unwrap();
    assert!(output.status.success());
    output.stdout
}

/// The number of a refusal in C, and its detail.
fn refusal_in_c(reason: BadState) -> (u8, usize) {
    match reason {
        BadState::NoState => (1, 0),
        BadState::Version(version) => (2, version.into()),
        BadState::Length { offset } => (3, offset),
        BadState::UnknownPart { kind } => (4, kind.into()),
        BadState::MissingPart { kind } => (5, kind.into()),
        BadState::Value { offset } => (6, offset),
        other => panic!("{other:?}"),
    }
}

/// What the guest accesses. After each read it looks at the interrupt line.
trait Device {
    fn guest_writes(&mut self, offset: u8, value: u8);
    fn guest_reads(&mut self, offset: u8) -> [u8; 2];
}

/// A tick passes after each access.
impl Device for LiveChip {
    fn guest_writes(&mut self, offset: u8, value: u8) {
        self.write(offset, value);
        self.ticks(1);
    }

    fn guest_reads(&mut self, offset: u8) -> [u8; 2] {
        let value = self.read(offset);
        self.ticks(1);
        [value, self.is_interrupting().into()]
    }
}

impl Device for VirtualPort {
    fn guest_writes(&mut self, offset: u8, value: u8) {
        self.write(offset, value);
    }

    fn guest_reads(&mut self, offset: u8) -> [u8; 2] {
        let value = self.read(offset).value;
        [value, self.level().into()]
    }
}

/// What a guest finds that looks at the registers, and then for causes of interrupts and for characters.
fn guest_looks(device: &mut impl Device) -> Vec<u8> {
    let mut found: Vec<[u8; 2]> = [3, 4, 7].map(|offset| device.guest_reads(offset)).into();
    device.guest_writes(3, 0x80);
    found.extend([0, 1].map(|offset| device.guest_reads(offset)));
    device.guest_writes(3, 0x03);
    found.push(device.guest_reads(1));
    device.guest_writes(1, 0x05);
    for look in 0..LOOKS {
        let status = if look % 2 == 0 { 5 } else { 6 };
        found.extend([2, status, 0].map(|offset| device.guest_reads(offset)));
    }
    found.concat()
}

/// What the program for C answers for these bytes if it does as Rust does.
fn answer_of_rust(bytes: &[u8]) -> Vec<u8> {
    let nothing = vec![0; OF_ONE];
    let (head, chip, port) = match SerialState::from_bytes(bytes) {
        Err(reason) => {
            let (status, detail) = refusal_in_c(reason);
            ([status, detail as u8, 0, 0], Err(()), Err(()))
        }
        Ok(state) => {
            let chip = LiveChip::from_data(&state.chip, &state.output).map(|mut chip| {
                let bytes = SerialState::of_chip(&chip).to_bytes();
                [&bytes[..], &guest_looks(&mut chip)].concat()
            });
            let port = VirtualPort::from_data(&state.chip, &state.output).map(|mut restored| {
                let bytes = SerialState::of_port(&restored.port).to_bytes();
                [&bytes[..], &guest_looks(&mut restored.port)].concat()
            });
            let refused = |is_err: bool, number| if is_err { number } else { 0 };
            let (no_chip, no_port) = (chip.is_err(), port.is_err());
            let head = [0, 0, refused(no_chip, BAD_CHIP), refused(no_port, BAD_PORT)];
            (head, chip.map_err(drop), port.map_err(drop))
        }
    };
    let (chip, port) = (chip.unwrap_or(nothing.clone()), port.unwrap_or(nothing));
    [&head[..], &chip, &port].concat()
}

/// Whether these bytes have a part for larger FIFOs, which C reads and Rust does not.
fn is_for_c(bytes: &[u8]) -> bool {
    let read = SerialState::from_bytes(bytes);
    matches!(read, Err(BadState::UnknownPart { kind: 3 }))
}

/// Each state comes back from C as it went, and what one side refuses the other refuses, with the same reason.
#[test]
fn states_go_to_c_and_back() {
    let Ok(program) = env::var("UART_TRAVEL") else {
        eprintln!("skipped: UART_TRAVEL names no program");
        return;
    };
    let cases = cases();
    let answers = answers_of(&program, &cases);
    assert_eq!(answers.len(), cases.len() * ANSWER);
    let mut counts = [0; 2];
    for (case, answer) in cases.iter().zip(answers.chunks(ANSWER)) {
        if is_for_c(case) {
            continue;
        }
        assert_eq!(answer, answer_of_rust(case), "{case:02x?}");
        counts[usize::from(answer[..4] == [0; 4])] += 1;
    }
    println!("{} states refused, {} travelled", counts[0], counts[1]);
    assert!(counts.iter().all(|count| *count > 1000), "{counts:?}");
}
