//! The port for monitors, each public call once, and what its monitor is told.

use std::panic::{AssertUnwindSafe, catch_unwind};
use uart_16550_chip::registers::{FCR, IER, LSR, MSR, offsets};
use uart_16550_chip::{Answer, Chip, InputError, LiveChip, Received, Todo, VirtualPort, WIRE_ROOM};

const DATA: u8 = offsets::DATA as u8;
const IER_OFFSET: u8 = offsets::IER as u8;
const ISR_OFFSET: u8 = offsets::ISR as u8;
const FCR_OFFSET: u8 = offsets::FCR as u8;
const LSR_OFFSET: u8 = offsets::LSR as u8;
const MSR_OFFSET: u8 = offsets::MSR as u8;

const NOTHING: Todo = Todo {
    signal: false,
    level: false,
    has_moved: false,
    has_room: false,
    ready: 0,
};

fn port() -> VirtualPort {
    VirtualPort::new(Chip::Uart16550A)
}

#[test]
fn after_power_on_nothing_is_to_be_done() {
    for chip in [Chip::Uart16450, Chip::Uart16550A] {
        let mut port = VirtualPort::new(chip);
        assert_eq!((port.output(), port.level()), ([].as_slice(), false));
        let answer = Answer {
            value: 0x60,
            todo: NOTHING,
        };
        assert_eq!(port.read(LSR_OFFSET), answer);
    }
}

#[test]
fn what_the_guest_sends_is_ready_at_once() {
    let mut port = port();
    assert_eq!(
        port.write(DATA, b'a'),
        Todo {
            ready: 1,
            ..NOTHING
        }
    );
    assert_eq!(
        port.write(DATA, b'b'),
        Todo {
            ready: 2,
            ..NOTHING
        }
    );
    assert_eq!(port.output(), b"ab");
    assert_eq!(port.read(LSR_OFFSET).value, 0x60);
    assert_eq!(
        port.take_output(1),
        Todo {
            ready: 1,
            ..NOTHING
        }
    );
    assert_eq!(port.output(), b"b");
    assert_eq!(port.take_output(9), NOTHING);
    assert_eq!(port.output(), b"");
}

#[test]
fn input_interrupts_the_guest() {
    let mut port = port();
    port.write(IER_OFFSET, IER::DATA_READY.bits());
    let pending = Todo {
        signal: true,
        level: true,
        has_moved: true,
        ..NOTHING
    };
    let received = Received {
        count: 1,
        todo: pending,
    };
    assert_eq!(port.receive(b"a"), received);
    assert!(port.level());
    let answer = Answer {
        value: b'a',
        todo: Todo {
            has_moved: true,
            has_room: true,
            ..NOTHING
        },
    };
    assert_eq!(port.read(DATA), answer);
    assert!(!port.level());
    assert_eq!(port.receive_one(b'b', LSR::empty()), Ok(pending));
    assert_eq!(port.read(DATA).value, b'b');
}

#[test]
fn room_is_told_after_there_was_none() {
    let mut port = port();
    assert_eq!(port.receive(b"ab").count, 1);
    assert_eq!(port.receive(b"b").count, 0);
    assert_eq!(port.receive_room(), 0);
    assert!(port.read(DATA).todo.has_room);
    assert!(!port.read(DATA).todo.has_room);
    assert_eq!(port.receive(b"b").count, 1);
    assert!(port.write(FCR_OFFSET, FCR::FIFO_ENABLE.bits()).has_room);
    assert_eq!(port.receive(&[0; 20]).count, 16);
    assert_eq!(port.receive(&[]).count, 0);
}

#[test]
fn a_full_output_holds_the_guest_back() {
    let mut port = port();
    port.write(FCR_OFFSET, FCR::FIFO_ENABLE.bits());
    port.write(IER_OFFSET, IER::THR_EMPTY.bits());
    let mut written = Vec::new();
    while port.read(LSR_OFFSET).value & LSR::THR_EMPTY.bits() != 0 {
        let byte = written.len() as u8;
        port.write(DATA, byte);
        written.push(byte);
    }
    // 64 bytes of output, one in the shift register and one in the FIFO
    assert_eq!((written.len(), port.output().len()), (66, 64));
    let mut sent = port.output().to_vec();
    let todo = port.take_output(64);
    assert_eq!((todo.signal, todo.ready), (true, 2));
    sent.extend(port.output());
    assert_eq!(sent, written);
}

/// A guest with these FIFOs whose output is full: 64 bytes, one in the shift register and one in the queue.
fn held_port(fifos: u8) -> VirtualPort {
    let mut port = port();
    port.write(FCR_OFFSET, fifos);
    port.write(IER_OFFSET, IER::THR_EMPTY.bits());
    for byte in 0..66 {
        port.write(DATA, byte);
    }
    assert!(!port.level());
    assert_eq!(port.read(LSR_OFFSET).value, 0x00);
    port
}

#[test]
fn a_queue_that_fcr_empties_interrupts_the_guest() {
    for (before, written) in [(1, 0x00), (0, 0x01), (1, 0x05), (1, 0x07)] {
        let mut port = held_port(before);
        let todo = Todo {
            signal: true,
            level: true,
            has_moved: true,
            ready: 64,
            ..NOTHING
        };
        assert_eq!(port.write(FCR_OFFSET, written), todo, "{written:02x}");
        assert_eq!(port.read(LSR_OFFSET).value, 0x20);
        assert_eq!(port.read(ISR_OFFSET).value & 0x0f, 0x02);
        assert!(!port.level());
    }
}

#[test]
fn fcr_that_discards_nothing_does_not_interrupt() {
    // The queue keeps its byte, or holds none.
    let mut port = held_port(1);
    assert!(!port.write(FCR_OFFSET, 0xc1).signal);
    port.take_output(64);
    assert_eq!(port.read(ISR_OFFSET).value & 0x0f, 0x02);
    for written in [0x00, 0x01, 0x03] {
        assert!(!port.write(FCR_OFFSET, written).signal, "{written:02x}");
    }
}

#[test]
fn breaks_and_modem_lines() {
    let mut port = port();
    let interrupts = IER::RECEIVER_LINE_STATUS | IER::MODEM_STATUS;
    port.write(IER_OFFSET, interrupts.bits());
    let todo = port.receive_one(0, LSR::BREAK_INTERRUPT).unwrap();
    assert!(todo.signal && todo.level);
    assert_eq!(port.read(ISR_OFFSET).value, 0x06);
    assert_eq!(port.read(LSR_OFFSET).value, 0x71);
    assert!(port.set_lines(MSR::CTS | MSR::DSR).unwrap().signal);
    assert_eq!(port.read(ISR_OFFSET).value, 0x00);
    assert_eq!(port.read(MSR_OFFSET).value, 0x33);
    assert!(!port.level());
}

#[test]
fn what_is_refused() {
    let mut port = port();
    port.write(IER_OFFSET, 0x0f);
    let errors = port.receive_one(0, LSR::OVERRUN_ERROR);
    assert_eq!(errors, Err(InputError::BadErrors));
    assert_eq!(port.set_lines(MSR::DELTA_CTS), Err(InputError::BadLines));
    assert_eq!(port.read(LSR_OFFSET).value, 0x60);
    assert_eq!(port.read(MSR_OFFSET).value, 0x00);
}

#[test]
fn an_offset_above_7_panics_and_changes_nothing() {
    let mut port = port();
    port.write(DATA, b'a');
    let before = format!("{port:?}");
    for call in [
        |port: &mut VirtualPort| _ = port.read(8),
        |port: &mut VirtualPort| _ = port.read(255),
        |port: &mut VirtualPort| _ = port.write(8, 0),
        |port: &mut VirtualPort| _ = port.write(255, 0),
    ] {
        let panic = catch_unwind(AssertUnwindSafe(|| call(&mut port))).unwrap_err();
        let text = panic.downcast_ref::<&str>().unwrap();
        assert_eq!(*text, "no register has this offset");
        assert_eq!(format!("{port:?}"), before);
    }
}

#[test]
fn debug_shows_what_can_be_seen() {
    let mut port = port();
    port.write(DATA, b'a');
    let shown = "VirtualPort { level: false, output: [97], .. }";
    assert_eq!(format!("{port:?}"), shown);
}

/// Pseudorandom numbers: xorshift.
struct Random(u64);

impl Random {
    fn below(&mut self, end: usize) -> usize {
        self.0 ^= self.0 << 13;
        self.0 ^= self.0 >> 7;
        self.0 ^= self.0 << 17;
        (self.0 % end as u64) as usize
    }

    fn byte(&mut self) -> u8 {
        self.below(256) as u8
    }
}

/// A port by its definition, without fast paths: what a call does, and then all the time that it takes.
struct Plain {
    chip: LiveChip,
    is_line_high: bool,
    knows_room: bool,
    has_looked: bool,
    spare: u8,
}

/// What a call is, as far as signals are concerned.
#[derive(Clone, Copy, Default)]
struct Kind {
    brings: bool,
    looks: bool,
    moves_data: bool,
    may_make_room: bool,
    may_dip: bool,
}

const INPUT: Kind = Kind {
    brings: true,
    looks: false,
    moves_data: false,
    may_make_room: false,
    may_dip: false,
};

impl Plain {
    fn new(chip: Chip) -> Self {
        let mut chip = LiveChip::new(chip, 1, WIRE_ROOM).unwrap();
        chip.ticks(22);
        Plain {
            chip,
            is_line_high: false,
            knows_room: true,
            has_looked: false,
            spare: 0,
        }
    }

    /// Lets time pass after what a call did, tick by tick, and returns what is to be done.
    fn end_call(&mut self, kind: Kind) -> Todo {
        let mut was_low = !self.chip.is_interrupting() || kind.may_dip;
        for _tick in 0..22 {
            self.chip.ticks(1);
            was_low |= !self.chip.is_interrupting();
        }
        let level = self.chip.is_interrupting();
        let has_room = self.chip.receive_room() > 0;
        let is_full = kind.brings && !has_room;
        let signal = level && (!self.is_line_high || is_full || was_low && self.spare == 0);
        let is_empty = self.chip.waiting_len() == 0;
        let knows_room = has_room && (self.knows_room || kind.may_make_room || is_empty);
        let todo = Todo {
            signal,
            level,
            has_moved: level != self.is_line_high,
            has_room: knows_room && !self.knows_room,
            ready: self.chip.wire().len(),
        };
        self.spare = match kind {
            Kind { looks: true, .. } => 0,
            _ if signal => {
                15 * u8::from(kind.moves_data && self.has_looked && self.chip.has_fifo_on())
            }
            Kind {
                moves_data: true, ..
            } if self.is_line_high && was_low => self.spare.saturating_sub(1),
            _ => self.spare,
        };
        self.has_looked = kind.looks || self.has_looked && !signal;
        self.is_line_high = level;
        self.knows_room = knows_room;
        todo
    }

    /// Whether the guest has loopback on.
    fn is_loopback(&mut self) -> bool {
        self.chip.read(offsets::MCR as u8) & 0x10 != 0
    }

    fn read(&mut self, offset: u8) -> Answer {
        let value = self.chip.read(offset);
        let todo = self.end_call(Kind {
            looks: offset == ISR_OFFSET,
            moves_data: offset == DATA,
            ..Kind::default()
        });
        Answer { value, todo }
    }

    fn write(&mut self, offset: u8, value: u8) -> Todo {
        let held = self.chip.held_len();
        self.chip.write(offset, value);
        if self.chip.held_len() < held {
            self.chip.raise_thr_empty();
        }
        let may_dip = self.is_loopback();
        self.end_call(Kind {
            moves_data: offset == DATA,
            may_make_room: [FCR_OFFSET, offsets::MCR as u8].contains(&offset),
            may_dip,
            ..Kind::default()
        })
    }

    fn receive(&mut self, input: &[u8]) -> Received {
        let count = input.len().min(self.chip.receive_room());
        for byte in &input[..count] {
            self.chip.arrive(*byte, LSR::empty()).unwrap();
        }
        let todo = self.end_call(Kind {
            brings: count > 0,
            ..INPUT
        });
        Received { count, todo }
    }

    fn receive_one(&mut self, byte: u8, errors: LSR) -> Todo {
        self.chip.arrive(byte, errors).unwrap();
        self.end_call(INPUT)
    }

    fn set_lines(&mut self, inputs: MSR) -> Todo {
        self.chip.set_lines(inputs).unwrap();
        self.end_call(INPUT)
    }

    fn take_output(&mut self, count: usize) -> Todo {
        let brings = self.chip.held_len() > 0;
        self.chip.take_wire(count);
        self.end_call(Kind { brings, ..INPUT })
    }
}

/// Makes one random call of both. Most writes are data, with FIFO, and with interrupts on.
fn compare_call(random: &mut Random, port: &mut VirtualPort, plain: &mut Plain) {
    match random.below(10) {
        0..3 => {
            let offset = random.below(8) as u8;
            assert_eq!(port.read(offset), plain.read(offset));
        }
        3..6 => {
            let value = random.byte();
            assert_eq!(port.write(DATA, value), plain.write(DATA, value));
        }
        6 => {
            let offset = random.below(8) as u8;
            let value = match offset {
                FCR_OFFSET => [0xc1, 0xc0][random.below(8) / 7] | random.byte() & 0x06,
                // DLAB and loopback now and then
                3 | 4 => random.byte() & [0x0f, 0x0f, 0xff][random.below(3)],
                _ => random.byte(),
            };
            assert_eq!(port.write(offset, value), plain.write(offset, value));
        }
        7 => {
            let input = vec![random.byte(); random.below(20)];
            assert_eq!(port.receive(&input), plain.receive(&input));
        }
        8 => {
            let (byte, errors) = (random.byte(), random.byte());
            let errors = LSR::from_bits_retain(errors) & LSR::CHARACTER_ERRORS;
            let todo = plain.receive_one(byte, errors);
            assert_eq!(port.receive_one(byte, errors), Ok(todo));
            let inputs = MSR::from_bits_retain(random.byte()) & MSR::LINES;
            assert_eq!(port.set_lines(inputs), Ok(plain.set_lines(inputs)));
        }
        _ => {
            let count = random.below(70);
            assert_eq!(port.take_output(count), plain.take_output(count));
        }
    }
    assert_eq!(port.output(), plain.chip.wire());
    assert_eq!(port.level(), plain.chip.is_interrupting());
    assert_eq!(port.receive_room(), plain.chip.receive_room());
}

/// Whether nothing has to be done.
fn is_nothing(todo: Todo) -> bool {
    !(todo.signal || todo.has_moved || todo.has_room)
}

/// Makes one of the short calls of the port, and then what it stands for. One that refuses changes nothing, as later calls show.
fn compare_short_call(random: &mut Random, port: &mut VirtualPort, plain: &mut Plain) {
    let byte = random.byte();
    match random.below(7) {
        0 => {
            if let Some(value) = port.read_clear_status() {
                let answer = plain.read(LSR_OFFSET);
                assert!(answer.value == value && is_nothing(answer.todo));
            }
        }
        1 => {
            if let Some(value) = port.read_polled() {
                let answer = plain.read(DATA);
                assert!(answer.value == value && is_nothing(answer.todo));
            }
        }
        2 => {
            if port.receive_polled(byte) {
                let received = plain.receive(&[byte]);
                assert!(received.count == 1 && is_nothing(received.todo));
            }
        }
        3 => {
            if let Some(answer) = port.read_last() {
                assert_eq!(answer, plain.read(DATA));
            }
        }
        4 => {
            if let Some(answer) = port.read_more() {
                assert_eq!(answer, plain.read(DATA));
            }
        }
        5 => {
            if let Some(todo) = port.receive_first(byte) {
                assert_eq!(Received { count: 1, todo }, plain.receive(&[byte]));
            }
        }
        _ => match port.passing(byte) {
            Some(passed) => {
                let todo = plain.write(DATA, byte);
                assert_eq!(plain.chip.wire(), [passed]);
                assert!(is_nothing(plain.take_output(1)));
                assert_eq!(port.pass(), Some(Todo { ready: 0, ..todo }));
            }
            None => assert_eq!(port.pass(), None),
        },
    }
}

/// Lets the guest read ISR until it shows none, and some characters in between, and the host top up its FIFO meanwhile.
fn handle(random: &mut Random, port: &mut VirtualPort, plain: &mut Plain) {
    for _look in 0..4 {
        let answer = port.read(ISR_OFFSET);
        assert_eq!(answer, plain.read(ISR_OFFSET));
        if answer.value & 1 != 0 {
            return;
        }
        for offset in [LSR_OFFSET, MSR_OFFSET] {
            assert_eq!(port.read(offset), plain.read(offset));
        }
        for _character in 0..random.below(20) {
            assert_eq!(port.read(DATA), plain.read(DATA));
            if random.below(8) == 0 {
                let input = [random.byte(); 9];
                let input = &input[..random.below(10)];
                assert_eq!(port.receive(input), plain.receive(input));
            }
        }
    }
}

/// Restores a port now and then. Its monitor is told anew.
fn restore(random: &mut Random, port: &mut VirtualPort, plain: &mut Plain) {
    if random.below(30) > 0 {
        return;
    }
    let restored = VirtualPort::from_data(&port.data(), port.output()).unwrap();
    let level = plain.chip.is_interrupting();
    let has_room = plain.chip.receive_room() > 0;
    let todo = Todo {
        signal: level,
        level,
        has_moved: level,
        has_room,
        ready: plain.chip.wire().len(),
    };
    assert_eq!(restored.todo, todo);
    *port = restored.port;
    *plain = Plain {
        chip: LiveChip::from_data(&plain.chip.data(), plain.chip.wire()).unwrap(),
        is_line_high: level,
        knows_room: has_room,
        has_looked: false,
        spare: 0,
    };
}

#[test]
fn each_call_does_what_its_definition_says() {
    for seed in 1..=200 {
        let mut random = Random(seed);
        let chip = [Chip::Uart16450, Chip::Uart16550A][random.below(2)];
        let (mut port, mut plain) = (VirtualPort::new(chip), Plain::new(chip));
        for _call in 0..500 {
            compare_call(&mut random, &mut port, &mut plain);
            compare_short_call(&mut random, &mut port, &mut plain);
            restore(&mut random, &mut port, &mut plain);
        }
    }
}

#[test]
fn a_guest_with_a_handler_is_told_what_the_definition_says() {
    let mut refusals = 0;
    for seed in 1..=20 {
        let mut random = Random(seed);
        let (mut port, mut plain) = (port(), Plain::new(Chip::Uart16550A));
        for (offset, value) in [(FCR_OFFSET, 0x81), (IER_OFFSET, 0x0f)] {
            assert_eq!(port.write(offset, value), plain.write(offset, value));
        }
        for _call in 0..100 {
            let input = vec![random.byte(); random.below(18)];
            let received = port.receive(&input);
            assert_eq!(received, plain.receive(&input));
            refusals += u32::from(received.count < input.len());
            handle(&mut random, &mut port, &mut plain);
            if random.below(20) == 0 {
                compare_call(&mut random, &mut port, &mut plain);
            }
        }
    }
    assert!(refusals > 100, "{refusals}");
}
