//! The examples: what is printed for each is what is stored.

mod common;

use common::{GEESETRUNK, UART_SCRIPT, assert_as_stored, examples, run, run_in};
use geesetrunk::heap;
use std::fs;
use std::io::Write;
use std::iter::Peekable;
use std::path::Path;
use uart_judges::traces::{Exchange, judge, parse};
use uart_language::byte_in;
use uart_live::{Chip, LiveChip, WIRE_ROOM};
use uart_spec::access::Access;
use uart_spec::registers::{LSR, MSR, offsets};

#[test]
fn scripts() {
    for (path, stored) in examples("", "script", "out") {
        let script = fs::read(&path).unwrap();
        assert_as_stored(&path, &run(UART_SCRIPT, &[], &script).stdout, &stored);
    }
}

// `uart_script` has no rings.
#[test]
fn scripts_with_rings() {
    for (path, stored) in examples("rings", "script", "out") {
        let script = fs::read(&path).unwrap();
        let output = run(GEESETRUNK, &["play", "-"], &script);
        assert_as_stored(&path, &output.stdout, &stored);
    }
}

// Runs a command as a session shows it: the command behind `$`, what is printed, and the exit status if it is not 0.
fn as_in_a_session(folder: &Path, command: &str) -> Vec<u8> {
    let words: Vec<&str> = command.split(' ').collect();
    assert_eq!(words[..2], ["$", "geesetrunk"], "{}", folder.display());
    let output = run_in(folder, GEESETRUNK, &words[2..], b"");
    let mut printed = format!("{command}\n").into_bytes();
    printed.extend([output.stdout, output.stderr].concat());
    match output.status.code() {
        Some(0) => {}
        Some(status) => writeln!(printed, "exit status {status}").unwrap(),
        None => panic!("{command}: {}", output.status),
    }
    printed
}

// A session has one command or more. Those of a recording and of a trace are what the judges say of it.
#[test]
fn sessions() {
    for folder in ["", "recordings", "traces"] {
        for (path, stored) in examples(folder, "session", "session") {
            let text = String::from_utf8(stored).unwrap();
            let commands = text.lines().filter(|line| line.starts_with("$ "));
            let printed: Vec<u8> = commands
                .flat_map(|command| as_in_a_session(path.parent().unwrap(), command))
                .collect();
            assert_as_stored(&path, &printed, text.as_bytes());
        }
    }
}

#[test]
fn the_driver_makes_the_traces_of_scripts() {
    for (path, _) in examples("", "script", "out") {
        let Ok(script) = uart_language::parse(heap(), &fs::read(&path).unwrap()) else {
            continue;
        };
        let output = run(GEESETRUNK, &["trace", path.to_str().unwrap()], b"");
        let trace = parse(heap(), &output.stdout).unwrap();
        let fifo_size = script.driver_fifo_size();
        let stray = judge(heap(), &trace, script.limit(), fifo_size).unwrap();
        assert!(stray.is_none(), "{}", path.display());
    }
}

// Runs geesetrunk in the folder of a file, with these words and the name of the file.
fn run_beside(path: &Path, words: &[&str]) -> Vec<u8> {
    let name = path.file_name().unwrap().to_str().unwrap();
    let words = [words, &[name]].concat();
    let output = run_in(path.parent().unwrap(), GEESETRUNK, &words, b"");
    [output.stdout, output.stderr].concat()
}

#[test]
fn timelines_of_recordings() {
    for (extension, words) in [
        ("timeline", &["timeline", "--recording", "--text"][..]),
        ("svg", &["timeline", "--recording"]),
    ] {
        for (path, stored) in examples("recordings", "recording", extension) {
            assert_as_stored(&path, &run_beside(&path, words), &stored);
        }
    }
}

// The chip in software, as the chips were with which traces were recorded. These send at once, so
// time enough passes before each access for all that is held to go out. They hold CTS, DSR and CD.
// What came in is a comment of the trace, and a character comes in as soon as there is room for it.
struct Machine<I: Iterator<Item = (usize, u8)>> {
    chip: LiveChip,
    coming: Peekable<I>,
}

// A character takes one tick, and at most 17 are held: a full queue, and one that is shifted out.
const CHAR_TICKS: u16 = 1;

const TICKS: u16 = 17;

impl<I: Iterator<Item = (usize, u8)>> Machine<I> {
    fn new(coming: I) -> Self {
        let mut chip = LiveChip::new(Chip::Uart16550A, CHAR_TICKS, WIRE_ROOM).unwrap();
        let lines = MSR::CTS.union(MSR::DSR).union(MSR::CD);
        chip.set_lines(lines).unwrap();
        chip.read(offsets::MSR as u8);
        Machine {
            chip,
            coming: coming.peekable(),
        }
    }

    // Makes an access of a line, and returns it with what a read returned.
    fn make(&mut self, line: usize, access: Access) -> Access {
        self.chip.ticks(TICKS);
        self.chip.take_wire(WIRE_ROOM);
        for _ in 0..self.chip.receive_room() {
            let Some((_, byte)) = self.coming.next_if(|next| next.0 <= line) else {
                break;
            };
            self.chip.arrive(byte, LSR::empty()).unwrap();
        }
        match access {
            Access::Read(offset, _) => Access::Read(offset, self.chip.read(offset as u8)),
            Access::Write(offset, value) => {
                self.chip.write(offset as u8, value);
                access
            }
        }
    }
}

// The characters that came in, each with the number of the line that says so.
fn arrivals_in(text: &[u8]) -> impl Iterator<Item = (usize, u8)> {
    let lines = text.split(|&byte| byte == b'\n').zip(1..);
    let digits =
        lines.filter_map(|(line, number)| Some((line.strip_prefix(b"# arrive ")?, number)));
    digits.flat_map(|(digits, number)| {
        let bytes = digits.chunks(2).map(|pair| byte_in(pair).unwrap());
        bytes.map(move |byte| (number, byte))
    })
}

fn shown(access: Access) -> String {
    match access {
        Access::Read(offset, value) => format!("r {offset} {value:02x}"),
        Access::Write(offset, value) => format!("w {offset} {value:02x}"),
    }
}

#[test]
fn traces_on_the_chip_in_software() {
    for (path, stored) in examples("traces", "trace", "machine") {
        let text = fs::read(&path).unwrap();
        let trace = parse(heap(), &text).unwrap();
        let of_exchange = |exchange: &Exchange| {
            let lines = exchange.access_lines.iter().copied();
            lines
                .zip(exchange.accesses.iter().copied())
                .collect::<Vec<_>>()
        };
        let mut machine = Machine::new(arrivals_in(&text));
        let mut printed = Vec::new();
        for (line, access) in trace.iter().flat_map(of_exchange) {
            let made = machine.make(line, access);
            if made != access {
                let (access, made) = (shown(access), shown(made));
                writeln!(printed, "line {line}: '{access}', on the machine '{made}'").unwrap();
            }
        }
        assert_as_stored(&path, &printed, &stored);
    }
}

#[test]
fn the_last_events_of_a_recording() {
    let words = [
        "timeline",
        "--last",
        "3",
        "--line",
        "26",
        "--text",
        "recordings/wrong-driver.recording",
    ];
    let table = String::from_utf8(run(GEESETRUNK, &words, b"").stdout).unwrap();
    assert_eq!(
        table
            .lines()
            .filter(|line| line.contains("  w DATA"))
            .count(),
        3,
        "{table}"
    );
    // It goes on behind the first warning, which is in line 25.
    assert!(table.contains("\n      26  w DATA"), "{table}");
    let words = [
        "timeline",
        "--last",
        "3",
        "recordings/wrong-driver.recording",
    ];
    let picture = String::from_utf8(run(GEESETRUNK, &words, b"").stdout).unwrap();
    // The title has the name of the file without the folders.
    assert!(
        picture.contains(">wrong-driver.recording: lines "),
        "{picture}"
    );
}

// A character takes four ticks, and one before them into the shift register if that is empty.
#[test]
fn bytes_that_leave_while_ticks_of_the_script_pass() {
    let script = b"chip 16550a 4 64\nsend 4142\nnext\ntick 30\nnext\n";
    let table = String::from_utf8(run(GEESETRUNK, &["timeline", "--text"], script).stdout).unwrap();
    let sent = |byte: &str| {
        let row = table
            .lines()
            .find(|row| row.get(32..34) == Some(byte))
            .unwrap();
        row.trim()
            .split(' ')
            .next()
            .unwrap()
            .parse::<u64>()
            .unwrap()
    };
    // The first is written at tick 2.
    assert_eq!((sent("41"), sent("42")), (7, 11), "{table}");
}
