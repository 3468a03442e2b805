//! How late a handler may be: what `geesetrunk budget` says, beside runs of the handler over the chip in software.

mod common;

use common::{EXAMPLES, GEESETRUNK, Random, assert_as_stored, parts, run};
use geesetrunk_kit_of_rings::alloc::Global;
use std::fmt;
use std::fs;
use std::path::Path;
use uart_16550::Uart16550;
use uart_16550::backend::Backend;
use uart_live::{Chip, LiveChipWith, WIRE_ROOM};
use uart_ring::{HandleEnd, Uart16550Ring};
use uart_spec::registers::{FifoTriggerLevel, IER, LSR, offsets};
use uart_spec::{BaudRate, Config, FifoSize};

const LEVELS: [FifoTriggerLevel; 4] = [
    FifoTriggerLevel::One,
    FifoTriggerLevel::Four,
    FifoTriggerLevel::Eight,
    FifoTriggerLevel::Fourteen,
];

const INTERRUPTS: &str = concat!(env!("CARGO_MANIFEST_DIR"), "/../uart_16550/INTERRUPTS.md");

// The clock at which the program counts, in hertz.
const CLOCK: u64 = 14_745_600;

// The clock at which a recording is judged, in hertz, and how many of them a character takes at 115,200 baud.
const USUAL_CLOCK: u64 = 1_843_200;

const CHARACTER: u64 = 160;

// How often the handler is called in a run.
const VISITS: usize = 3;

// A recording. A tick is a clock of the usual chip there.
#[derive(Default)]
struct Log(String);

impl Log {
    fn add(&mut self, what: fmt::Arguments<'_>, level: bool, tick: u64) {
        let nanoseconds = tick * 1_000_000_000 / USUAL_CLOCK;
        self.0 += &format!("{what} {} @{nanoseconds}\n", u8::from(level));
    }
}

// A chip at which characters come one behind the other, and before each access of which some ticks pass.
struct Registers<const FIFO: usize> {
    chip: LiveChipWith<FIFO>,
    character: u64,
    access: u64,
    // The ticks before the next access, if they are others.
    wait: Option<u64>,
    now: u64,
    // When the next character comes: none does before the rings stand.
    next: Option<u64>,
    lost: u64,
    came: u8,
    errors: LSR,
    // Of each access whether it reads DATA.
    made: Vec<bool>,
    // What happens, if it is wanted.
    log: Option<Log>,
}

impl<const FIFO: usize> Registers<FIFO> {
    fn pass(&mut self, ticks: u64) {
        let end = self.now + ticks;
        while let Some(next) = self.next.filter(|next| *next <= end) {
            self.go_to(next);
            self.lost += u64::from(self.chip.receive_room() == 0);
            let byte = b'A' + self.came % 26;
            self.came = self.came.wrapping_add(1);
            assert!(self.chip.arrive(byte, self.errors).is_ok());
            self.take_down(format_args!("a {:02x} {byte:02x}", self.errors.bits()));
            self.next = Some(next + self.character);
        }
        self.go_to(end);
    }

    // Takes down what happens now, with the level of the line behind it.
    fn take_down(&mut self, what: fmt::Arguments<'_>) {
        let level = self.chip.is_interrupting();
        if let Some(log) = &mut self.log {
            log.add(what, level, self.now);
        }
    }

    fn go_to(&mut self, end: u64) {
        while self.now < end {
            let ticks = u16::try_from(end - self.now).unwrap_or(u16::MAX);
            self.chip.ticks(ticks);
            self.chip.take_wire(WIRE_ROOM);
            self.now += u64::from(ticks);
        }
    }
}

impl<const FIFO: usize> Backend for Registers<FIFO> {
    fn read(&mut self, register_offset: u8) -> u8 {
        let ticks = self.wait.take().unwrap_or(self.access);
        self.pass(ticks);
        self.made
            .push(usize::from(register_offset) == offsets::DATA);
        let value = self.chip.read(register_offset);
        self.take_down(format_args!("r {register_offset} {value:02x}"));
        value
    }

    fn write(&mut self, register_offset: u8, value: u8) {
        let ticks = self.wait.take().unwrap_or(self.access);
        self.pass(ticks);
        self.made.push(false);
        self.chip.write(register_offset, value);
        self.take_down(format_args!("w {register_offset} {value:02x}"));
    }
}

// How the characters of a run come, and how they are read.
#[derive(Clone, Copy, Debug)]
struct Run {
    size: usize,
    // The FIFOs are off without one.
    level: Option<FifoTriggerLevel>,
    character: u64,
    access: u64,
    // From the moment at which as many wait as the level to the first access of the handler.
    late: u64,
    is_sending: bool,
    errors: LSR,
    visits: usize,
    is_recorded: bool,
}

// What came of it.
#[derive(Debug)]
struct Outcome {
    lost: u64,
    // The most accesses of a visit that were for no byte.
    others: usize,
    // What happened.
    recording: String,
}

// How many accesses are for no byte: a read of DATA is for one, and so is the look at LSR before it.
fn others(made: &[bool]) -> usize {
    let next = made.iter().skip(1).chain([&false]);
    made.iter()
        .zip(next)
        .filter(|(this, next)| !**this && !**next)
        .count()
}

fn made_over<const FIFO: usize>(run: Run) -> Outcome {
    let size = size_of(FIFO);
    let Run {
        level,
        character,
        access,
        late,
        ..
    } = run;
    // If nothing is sent it matters alone for the reception timeout, for which the handler is late enough.
    let char_ticks = u16::try_from(character.min(1_000)).unwrap();
    let registers = Registers {
        chip: LiveChipWith::<FIFO>::new(Chip::Uart16550A, char_ticks, WIRE_ROOM).unwrap(),
        character,
        access,
        wait: None,
        now: 0,
        next: None,
        lost: 0,
        came: 0,
        errors: run.errors,
        made: Vec::new(),
        log: run.is_recorded.then(Log::default),
    };
    let mut uart = Uart16550::new_with_backend(registers);
    uart.set_fifo_size(size);
    let config = Config {
        interrupts: IER::DATA_READY | IER::RECEIVER_LINE_STATUS,
        fifo_trigger_level: level,
        baud_rate: BaudRate::Baud115200,
        ..Config::DEFAULT
    };
    uart.init(config).unwrap();
    let Ok(mut ring) = Uart16550Ring::new(Global::heap(), uart, 4096, 1024) else {
        panic!("no memory");
    };
    if run.is_sending {
        ring.queue(&[0x55; 4096]);
    }
    let registers = ring.inner_mut().backend_mut();
    registers.next = Some(registers.now + character);
    let mut most = 0;
    for _ in 0..run.visits {
        let registers = ring.inner_mut().backend_mut();
        while registers.chip.waiting_len() < level.map_or(1, |level| level.characters(size)) {
            let ticks = registers.next.map_or(0, |next| next - registers.now);
            registers.pass(ticks);
        }
        registers.wait = Some(late);
        registers.made.clear();
        assert_eq!(ring.handle(64).end, HandleEnd::Idle);
        most = most.max(others(&ring.inner().backend().made));
        let _ = ring.take(&mut [0; 1024]);
    }
    let registers = ring.inner_mut().backend_mut();
    Outcome {
        lost: registers.lost,
        others: most,
        recording: registers.log.take().unwrap_or_default().0,
    }
}

impl Run {
    fn made(self) -> Outcome {
        match self.size {
            16 => made_over::<16>(self),
            64 => made_over::<64>(self),
            128 => made_over::<128>(self),
            size => panic!("{size}"),
        }
    }

    // Fails unless nothing is lost at this lateness, and a character is if the handler comes a tick later.
    #[track_caller]
    fn assert_is_at_the_bound(self) {
        assert_eq!(self.made().lost, 0, "{self:?}");
        let later = Run {
            late: self.late + 1,
            ..self
        };
        assert!(later.made().lost > 0, "{self:?}");
    }
}

fn size_of(characters: usize) -> FifoSize {
    match characters {
        16 => FifoSize::Sixteen,
        64 => FifoSize::SixtyFour,
        128 => FifoSize::OneHundredTwentyEight,
        _ => panic!("{characters}"),
    }
}

// Returns what the program prints.
fn budget(words: &str) -> String {
    let words: Vec<_> = ["budget"]
        .into_iter()
        .chain(words.split_whitespace())
        .collect();
    let (status, text, errors) = parts(&run(GEESETRUNK, &words, b""));
    assert_eq!((status, errors.as_str()), (0, ""), "{words:?}");
    text
}

// Returns the numbers under a name in the table of an output, as level and number.
fn column(text: &str, name: &str) -> Vec<(usize, u64)> {
    let mut rows = text
        .lines()
        .skip_while(|line| !line.trim_start().starts_with("level"))
        .take_while(|line| !line.is_empty());
    let cells = |line: &str| {
        line.split("  ")
            .map(str::trim)
            .filter(|cell| !cell.is_empty())
            .map(String::from)
            .collect::<Vec<_>>()
    };
    let names = cells(rows.next().unwrap());
    let place = names.iter().position(|cell| cell == name).unwrap();
    rows.map(cells)
        .map(|row| (row[0].parse().unwrap(), row[place].parse().unwrap()))
        .collect()
}

fn level_of(size: usize, characters: usize) -> FifoTriggerLevel {
    let is_this = |level: &FifoTriggerLevel| level.characters(size_of(size)) == characters;
    LEVELS.into_iter().find(is_this).unwrap()
}

// Returns the number that is told of a character.
fn character_in(text: &str) -> u64 {
    let (_, told) = text.split_once("a character takes ").unwrap();
    told.split(' ').next().unwrap().parse().unwrap()
}

#[test]
fn at_the_budget_nothing_is_lost_and_a_clock_later_a_character_is() {
    let mut random = Random(0x6275_6467_6574);
    for _ in 0..60 {
        let size = *random.pick(&[16, 64, 128]);
        let rate = random.pick(&[9_600, 38_400, 115_200, 921_600]);
        let frame = random.pick(&["8N1", "7E1", "5N1.5", "8O2"]);
        let access = random.below(1_500);
        let text = budget(&format!(
            "--baud {rate} --fifo {size} --frame {frame} --access {}.{:03}",
            access / 1_000,
            access % 1_000
        ));
        let access = (access * CLOCK).div_ceil(1_000_000_000);
        for (level, late) in column(&text, "clocks") {
            let run = Run {
                size,
                level: Some(level_of(size, level)),
                character: character_in(&text),
                access,
                late,
                is_sending: false,
                errors: LSR::PARITY_ERROR,
                visits: VISITS,
                is_recorded: false,
            };
            run.assert_is_at_the_bound();
        }
    }
}

#[test]
fn in_ticks_it_is_the_same() {
    let mut random = Random(0x7469_636b);
    for _ in 0..60 {
        let size = *random.pick(&[16, 64, 128]);
        let access = 1 + random.below(7);
        let character = 8 * access + 1 + random.below(200);
        let before = random.below(character);
        let text = budget(&format!(
            "--ticks {character} --fifo {size} --access {access} --before {before}"
        ));
        assert_eq!(character_in(&text), character);
        let others = column(&text, "other accesses");
        for ((level, late), (_, others)) in column(&text, "ticks").into_iter().zip(others) {
            let run = Run {
                size,
                level: Some(level_of(size, level)),
                character,
                access,
                late: late + before,
                is_sending: false,
                errors: LSR::PARITY_ERROR,
                visits: VISITS,
                is_recorded: false,
            };
            run.assert_is_at_the_bound();
            assert!(run.made().others <= 12, "{run:?}");
            // What a visit does beside is what the manual says of it.
            let sending = Run {
                is_sending: true,
                ..run
            };
            let Outcome {
                lost, others: made, ..
            } = sending.made();
            assert!(made <= size + 20, "{sending:?}: {made}");
            assert!(lost == 0 || made as u64 > others, "{sending:?}");
        }
    }
}

// Without a FIFO no law says it.
#[test]
fn without_a_fifo_it_is_the_same() {
    for (character, access) in [(87, 1), (87, 8), (24, 2), (1_041, 0)] {
        let text = budget(&format!("--ticks {character} --fifo off --access {access}"));
        let [(1, late)] = column(&text, "ticks")[..] else {
            panic!("{text}");
        };
        let run = Run {
            size: 16,
            level: None,
            character,
            access,
            late,
            is_sending: false,
            errors: LSR::PARITY_ERROR,
            visits: VISITS,
            is_recorded: false,
        };
        run.assert_is_at_the_bound();
    }
}

// The table of the page on interrupts is the one that the program prints, and each of its numbers is that of the handler's runs: so
// late it loses nothing, and a microsecond later it does. So it is at the last clock, and at the next one.
#[test]
fn the_table_of_interrupts() {
    let page = fs::read_to_string(INTERRUPTS).unwrap();
    let table = budget("--table");
    assert!(
        page.contains(&format!("\n\n{table}\n")),
        "{INTERRUPTS}: `geesetrunk budget --table` prints\n{table}"
    );
    let numbers = |row: &str| {
        let cells = row.trim_matches('|').split('|');
        let number = |cell: &str| cell.trim().replace(',', "").parse::<u64>().unwrap();
        cells.map(number).collect::<Vec<_>>()
    };
    let rows: Vec<_> = table.lines().skip(2).map(numbers).collect();
    assert_eq!(rows.len(), 8);
    for row in rows {
        let [rate, cells @ ..] = &row[..] else {
            panic!("an empty row");
        };
        assert_eq!(cells.len(), 12);
        for (size, cells) in [16, 64, 128].into_iter().zip(cells.chunks(4)) {
            let text = budget(&format!("--baud {rate} --fifo {size}"));
            let character = character_in(&text);
            // A microsecond, in whole clocks.
            let access = CLOCK.div_ceil(1_000_000);
            for ((level, late), us) in column(&text, "clocks").into_iter().zip(cells) {
                let run = Run {
                    size,
                    level: Some(level_of(size, level)),
                    character,
                    access,
                    late,
                    is_sending: false,
                    errors: LSR::PARITY_ERROR,
                    visits: VISITS,
                    is_recorded: false,
                };
                run.assert_is_at_the_bound();
                let at_number = Run {
                    late: us * CLOCK / 1_000_000,
                    ..run
                };
                let behind = Run {
                    late: ((us + 1) * CLOCK).div_ceil(1_000_000),
                    ..run
                };
                assert_eq!(at_number.made().lost, 0, "{at_number:?}");
                assert!(behind.made().lost > 0, "{behind:?}");
            }
        }
    }
}

// Two recordings of our own handler at the trigger level 14 of 16, as examples: it reads the first byte at the last clock in which
// nothing is lost, and a clock later. No error is told before, so that is its third access.
#[test]
fn recordings_at_the_last_clock_and_a_clock_later() {
    for (name, clocks) in [("handler-in-time", 479), ("handler-a-clock-late", 480)] {
        let access = 2;
        let run = Run {
            size: 16,
            level: Some(FifoTriggerLevel::Fourteen),
            character: CHARACTER,
            access,
            late: clocks - 2 * access,
            is_sending: false,
            errors: LSR::empty(),
            visits: 1,
            is_recorded: true,
        };
        let Outcome {
            lost, recording, ..
        } = run.made();
        assert_eq!(lost, u64::from(clocks > 479), "{name}");
        let path = Path::new(EXAMPLES).join(format!("recordings/{name}.recording"));
        if std::env::var_os("GEESETRUNK_WRITE_RECORDINGS").is_some() {
            fs::write(&path, &recording).unwrap();
        }
        assert_as_stored(&path, recording.as_bytes(), &fs::read(&path).unwrap());
    }
}

// With a FIFO of 16 at 115,200 baud, worked out by hand. A character takes 1,280 clocks and an access 15, so level 8 leaves 9 times
// 1,280, less 4 times 15 and one: 11,459 clocks, which are 777.1 us.
#[test]
fn an_answer_by_hand() {
    let text = budget("--latency 500");
    assert_eq!(
        column(&text, "us"),
        [(1, 1384), (4, 1124), (8, 777), (14, 256)]
    );
    let advice = "\ntake level 8: it leaves 777 us, of which 277 are to spare. ";
    assert!(text.contains(advice), "{text}");
    let cost = " An interrupt is for 8 characters, at most 1440 in a second\n";
    assert!(text.ends_with(cost), "{text}");
    let text = budget("--latency 1130");
    let advice = "\ntake level 1: it leaves 1384 us, of which 254 are to spare. ";
    assert!(text.contains(advice), "{text}");
    let cost = " Each character is an interrupt, at most 11520 in a second\n";
    assert!(text.ends_with(cost), "{text}");
    let text = budget("--ticks 87 --fifo off --latency 80");
    let advice = "\nwithout a FIFO there are 82 ticks, of which 2 are to spare. Each character is an interrupt\n";
    assert!(text.ends_with(advice), "{text}");
    // Ten bits are ten bits.
    assert_eq!(budget("--table"), budget("--table --frame 7o1"));
    assert_eq!(column(&budget("--fifo off"), "us"), [(1, 82)]);
    assert!(
        budget("--access 0 --level 8")
            .ends_with(" 781   11519                 1440             any\n")
    );
    // What is served before is taken off.
    let text = budget("--before 300");
    assert!(
        text.contains("\n   14     -       -                  823               -\n"),
        "{text}"
    );
    assert_eq!(column(&budget("--before 300 --level 8"), "us"), [(8, 477)]);
}

// The words, the exit status, and what is said.
const REFUSED: &[(&str, i32, &str)] = &[
    (
        "--frame 9N1",
        2,
        "--frame must be data bits, parity and stop bits, as 8N1, 7E2 or 5O1.5",
    ),
    ("--frame 8N1.5", 2, "--frame must be"),
    ("--frame 5N2", 2, "--frame must be"),
    ("--frame 8N", 2, "--frame must be"),
    ("--frame 8n10", 2, "--frame must be"),
    (
        "--baud 0",
        2,
        "--baud must be a baud rate: a number from 1 to 4294967295",
    ),
    ("--baud +9600", 2, "--baud must be"),
    (
        "--clock 4294967296",
        2,
        "--clock must be a number of hertz from 1 to 4294967295",
    ),
    ("--clock 0", 2, "--clock must be"),
    (
        "--clock 1843200 --baud 921600",
        2,
        "921600 baud cannot be had from a clock of 1843200 Hz: ",
    ),
    (
        "--baud 10",
        2,
        "10 baud cannot be had from a clock of 14745600 Hz: divisor 92160 is out of range",
    ),
    ("--fifo 17", 2, "--fifo must be off, 16, 32, 64, 128 or 256"),
    (
        "--level 10",
        2,
        "--level must be a level of a FIFO of 16: 1, 4, 8 or 14",
    ),
    ("--level 08", 2, "--level must be a level"),
    (
        "--fifo off --level 1",
        2,
        "--level must be left out: without a FIFO each character is an interrupt",
    ),
    (
        "--access 1.0005",
        2,
        "--access must be a number of microseconds with at most three decimals, as 1 or 0.25",
    ),
    ("--access 1.", 2, "--access must be"),
    ("--access .5", 2, "--access must be"),
    ("--access -1", 2, "--access must be"),
    ("--access 18446744073709551615", 2, "--access must be"),
    ("--latency 1e3", 2, "--latency must be"),
    ("--before x", 2, "--before must be"),
    (
        "--ticks 0",
        2,
        "--ticks must be how many ticks a character takes: a number from 1 to 65535",
    ),
    ("--ticks 65536", 2, "--ticks must be"),
    (
        "--ticks 87 --access 0.5",
        2,
        "--access must be a number of ticks",
    ),
    (
        "--ticks 87 --frame 8N1",
        2,
        "--ticks says how long a character takes: leave --frame out",
    ),
    (
        "--table --level 8",
        2,
        "--table has rates, FIFOs and levels of its own: leave --level out",
    ),
    (
        "--table --clock 1843200",
        2,
        "230400 baud cannot be had from a clock of 1843200 Hz: ",
    ),
    ("8N1", 2, "error: unexpected argument '8N1' found"),
    // Two accesses take longer than a character of 86.8 us, or only just not.
    (
        "--access 43.5",
        1,
        "a handler falls behind, however early it begins: a byte takes two accesses of 43.5 us, ",
    ),
    (
        "--access 18446744073709551",
        1,
        "a handler falls behind, however early it begins",
    ),
    (
        "--access 42",
        1,
        "a handler is too late, however early it begins",
    ),
    (
        "--level 14 --before 257",
        1,
        "a handler is too late, however early it begins",
    ),
    (
        "--before 18446744073709551",
        1,
        "a handler is too late, however early it begins",
    ),
    (
        "--latency 1385",
        1,
        "1385 us are too long: level 1 leaves most, 1384 us. A FIFO of 32 leaves enough at level 16\n",
    ),
    (
        "--latency 500 --level 14",
        1,
        "500 us are too long: level 14 leaves 256 us. Level 8 leaves enough\n",
    ),
    (
        "--latency 83 --fifo off",
        1,
        "83 us are too long: without a FIFO there are 82 us. A FIFO of 16 leaves enough at level 14\n",
    ),
    (
        "--latency 22300 --fifo 256",
        1,
        "22300 us are too long: level 1 leaves most, 22218 us. No FIFO leaves enough: take flow control, or a lower baud rate\n",
    ),
];

#[test]
fn wrong_words_and_what_cannot_be() {
    for (words, status, cause) in REFUSED {
        let words: Vec<_> = ["budget"]
            .into_iter()
            .chain(words.split_whitespace())
            .collect();
        let (found, text, errors) = parts(&run(GEESETRUNK, &words, b""));
        assert_eq!((found, text.as_str()), (*status, ""), "{words:?}: {errors}");
        assert!(errors.starts_with(cause), "{words:?}: {errors}");
    }
}
