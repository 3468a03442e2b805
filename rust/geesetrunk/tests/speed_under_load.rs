//! A speed, a frame and a trigger level that change while bytes go out and come in: none is lost,
//! over the chip in software.
//!
//! Each script is one session. So the wire and what the chip still holds are the bytes that were
//! reported as sent, and what was received and what still waits are the bytes that arrived and were
//! not dropped.

mod common;

use common::{Random, UART_SCRIPT, parts, run};
use std::fmt::Write;

const SCRIPTS: u64 = 300;

const LINES: u64 = 40;

fn digits(random: &mut Random, most: u64) -> String {
    let count = 1 + random.below(most);
    (0..count)
        .map(|_| format!("{:02x}", random.below(256)))
        .collect()
}

fn line(random: &mut Random) -> String {
    match random.below(10) {
        0 => format!("tick {}", random.below(60)),
        1 | 2 => format!("arrive {:02x}", random.below(256)),
        3 => format!("send {}", digits(random, 20)),
        4 => format!("send-exact {}", digits(random, 20)),
        5 => format!("receive {}", random.below(20)),
        6 => {
            let call = random.pick(&["set-frame", "set-frame-when-idle"]);
            let rate = random.pick(&["1200", "9600", "38400", "115200", "7211"]);
            format!("{call} {rate} {}", random.pick(&["5", "6", "7", "8"]))
        }
        7 => format!("set-trigger-level {}", random.pick(&["1", "4", "8", "14"])),
        8 => (*random.pick(&["is-idle", "lsr", "flush"])).into(),
        _ => "next".into(),
    }
}

fn script(random: &mut Random) -> String {
    let ticks = random.pick(&[1, 2, 4, 7]);
    let room = random.pick(&[3, 64, 65_536]);
    let mut script =
        format!("chip 16550a {ticks} {room}\nlimit 60\ninit 14 9600 nocts 00 8\nnext\n");
    for _ in 0..LINES {
        let _ = writeln!(script, "{}", line(random));
    }
    script
}

fn bytes_of(digits: &str) -> Vec<u8> {
    if digits == "-" {
        return Vec::new();
    }
    let pairs = digits.as_bytes().chunks(2);
    let bytes = pairs.map(|pair| u8::from_str_radix(str::from_utf8(pair).unwrap(), 16).unwrap());
    bytes.collect()
}

/// What calls reported, and what arrived.
#[derive(Default)]
struct Told {
    sent: Vec<u8>,
    received: Vec<u8>,
    arrived: Vec<u8>,
}

impl Told {
    // Notes what a line of a script says, and what its call answered.
    fn note(&mut self, line: &str, mut answers: impl Iterator<Item = impl AsRef<str>>) {
        let (word, field) = line.split_once(' ').unwrap_or((line, ""));
        if word == "arrive" {
            self.arrived.extend(bytes_of(field));
        }
        if matches!(word, "arrive" | "tick" | "chip" | "limit") {
            return;
        }
        let answer = answers.next().expect("each call has an answer");
        let (outcome, value) = answer
            .as_ref()
            .split_once(' ')
            .unwrap_or((answer.as_ref(), ""));
        match (word, outcome) {
            ("receive", _) => self.received.extend(bytes_of(value)),
            ("send", _) | ("send-exact", "stalled") => {
                let count: usize = value.parse().expect("a count");
                self.sent.extend(&bytes_of(field)[..count]);
            }
            ("send-exact", _) => self.sent.extend(bytes_of(field)),
            _ => {}
        }
    }
}

fn after<'a>(output: &'a str, name: &str) -> &'a str {
    let line = output.lines().find_map(|line| line.strip_prefix(name));
    line.expect("the last lines have each name")
}

#[test]
fn no_byte_is_lost() {
    let mut frames = 0;
    for case in 0..SCRIPTS {
        let script = script(&mut Random((case + 1).wrapping_mul(0x9e37_79b9_7f4a_7c15)));
        let (status, output, _) = parts(&run(UART_SCRIPT, &[], script.as_bytes()));
        assert_eq!(status, 0, "{script}");
        let mut told = Told::default();
        let mut answers = output.lines();
        for line in script.lines() {
            told.note(line, &mut answers);
        }
        frames += script.matches("set-frame").count();
        let mut gone = bytes_of(after(&output, "wire "));
        gone.extend(bytes_of(after(&output, "held ")));
        assert_eq!(gone, told.sent, "{script}");
        told.received.extend(bytes_of(after(&output, "waiting ")));
        let marks = after(&output, "marks ");
        let stood = told.arrived.iter().zip(marks.chars());
        let kept = stood.filter(|(_, mark)| matches!(mark, 'r' | 'w'));
        let kept: Vec<u8> = kept.map(|(byte, _)| *byte).collect();
        assert_eq!(told.received, kept, "{script}");
    }
    assert!(frames > 0);
}
