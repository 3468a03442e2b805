//! Logs of other tools get through to a finding, in the place where the log has it; and the forms in which findings are printed.

mod common;

use common::{EXAMPLES, GEESETRUNK, Random, parts, run};
use std::fs;
use std::iter;
use std::ops::Range;
use std::path::Path;

fn log(name: &str) -> Vec<u8> {
    fs::read(Path::new(EXAMPLES).join("logs").join(name)).unwrap()
}

// One driver with one fault, in each form that people write. The fault is at its twelfth access.
#[test]
fn one_driver_in_each_form_has_the_same_finding() {
    let port = &["--port", "0x3f8"][..];
    for (name, line, words) in [
        ("windows.log", 12, &[][..]),
        ("table.csv", 13, port),
        ("monitor.json", 12, port),
        ("monitor.words", 13, port),
        ("logic2-bus.csv", 13, &[]),
    ] {
        let file = format!("logs/{name}");
        let (status, text, error) = parts(&run(
            GEESETRUNK,
            &[&["audit"][..], words, &[&file]].concat(),
            b"",
        ));
        assert_eq!((status, error.as_str()), (1, ""), "{name}");
        let finding = format!("{file}:{line}: warning: 42 is lost");
        assert!(
            text.contains(&finding) && text.contains("[sent-into-divisor]"),
            "{text}"
        );
    }
}

// What is printed by `import` is a recording in which the same is found.
#[test]
fn an_imported_log_says_the_same() {
    for (name, words) in [
        ("seabios.perf", &["--irq", "4"][..]),
        ("seabios.ftrace", &["--irq", "4"]),
        ("opensbi.memory", &["--base", "0x10000000"]),
        ("table.csv", &["--port", "0x3f8"]),
        ("monitor.words", &["--port", "0x3f8", "--format", "words"]),
    ] {
        let bytes = log(name);
        let names = |output: &str| -> Vec<String> {
            let parts = output.split("\"name\":\"").skip(1);
            parts
                .map(|rest| rest.split('"').next().unwrap().into())
                .collect()
        };
        let (_, imported, error) =
            parts(&run(GEESETRUNK, &[&["import"][..], words].concat(), &bytes));
        assert_eq!(error, "", "{name}");
        assert!(
            imported
                .lines()
                .skip(1)
                .all(|line| line.starts_with(['r', 'w', 'i', 'a', 's', '1'])),
            "{imported}"
        );
        let (_, direct, _) = parts(&run(
            GEESETRUNK,
            &[&["audit", "--json"][..], words].concat(),
            &bytes,
        ));
        let (_, again, _) = parts(&run(GEESETRUNK, &["audit", "--json"], imported.as_bytes()));
        assert!(!direct.is_empty(), "{name}");
        assert_eq!(names(&direct), names(&again), "{name}");
    }
}

#[test]
fn a_log_of_another_chip_has_the_addresses_that_were_accessed() {
    let (status, text, error) = parts(&run(GEESETRUNK, &["audit", "logs/opensbi.memory"], b""));
    assert_eq!((status, text.as_str()), (2, ""));
    assert!(
        error.contains("0x10000000 (60 times)") && error.contains("--base"),
        "{error}"
    );
    let (status, _, error) = parts(&run(
        GEESETRUNK,
        &["audit", "--port", "0x2f8", "logs/seabios.perf"],
        b"",
    ));
    assert_eq!(status, 2);
    assert!(error.contains("0x3f8 ("), "{error}");
}

// Bytes of logs, changed at random: the program ends with a status of its own, and says something.
#[test]
fn a_changed_log_is_read_or_refused() {
    let mut random = Random(11);
    let names = [
        "seabios.perf",
        "seabios.ftrace",
        "opensbi.memory",
        "table.csv",
        "monitor.json",
        "monitor.words",
        "logic2-bus.csv",
        "logic1-serial.csv",
        "uart.sigrok",
        "bus.sigrok",
        "windows.log",
    ];
    for round in 0..44 {
        let name = names[round % names.len()];
        let mut bytes = log(name);
        for _ in 0..=random.below(4) {
            let place = random.below(bytes.len() as u64) as usize;
            bytes[place] = *random.pick(b"\0\n\r ,:{}\"x9f\xff");
        }
        let (status, text, error) = parts(&run(GEESETRUNK, &["audit", "--port", "0x3f8"], &bytes));
        assert!(matches!(status, 0..=2), "{name}: {status}");
        assert_eq!(status == 2, !error.is_empty(), "{name}: {text}{error}");
    }
}

// A value of JSON.
#[derive(Debug, PartialEq)]
enum Value {
    Word(String),
    Text(String),
    List(Vec<Value>),
    Object(Vec<(String, Value)>),
}

impl Value {
    fn get(&self, name: &str) -> &Value {
        let Value::Object(members) = self else {
            panic!("{self:?} is no object")
        };
        let member = members.iter().find(|(known, _)| known == name);
        &member.unwrap_or_else(|| panic!("{name} is missing")).1
    }

    fn items(&self) -> &[Value] {
        let Value::List(items) = self else {
            panic!("{self:?} is no list")
        };
        items
    }

    fn text(&self) -> &str {
        let Value::Text(text) = self else {
            panic!("{self:?} is no text")
        };
        text
    }
}

// Reads JSON, and fails on what is none.
struct Parser<'a>(&'a [u8]);

impl Parser<'_> {
    fn next(&mut self) -> u8 {
        self.0 = self.0.trim_ascii_start();
        self.0[0]
    }

    fn expect(&mut self, byte: u8) {
        assert_eq!(self.next(), byte);
        self.0 = &self.0[1..];
    }

    fn takes(&mut self, byte: u8) -> bool {
        let is_next = self.next() == byte;
        if is_next {
            self.expect(byte);
        }
        is_next
    }

    fn text(&mut self) -> String {
        self.expect(b'"');
        let mut bytes = Vec::new();
        loop {
            let byte = self.0[0];
            self.0 = &self.0[1..];
            match byte {
                b'"' => return String::from_utf8(bytes).unwrap(),
                b'\\' => {
                    bytes.push(self.0[0]);
                    self.0 = &self.0[1..];
                }
                byte => {
                    assert!(byte >= b' ');
                    bytes.push(byte);
                }
            }
        }
    }

    // Reads what is between two brackets.
    fn list<T>(&mut self, [open, close]: [u8; 2], item: impl Fn(&mut Self) -> T) -> Vec<T> {
        let mut items = Vec::new();
        self.expect(open);
        while !self.takes(close) {
            if !items.is_empty() {
                self.expect(b',');
            }
            items.push(item(self));
        }
        items
    }

    fn value(&mut self) -> Value {
        match self.next() {
            b'"' => Value::Text(self.text()),
            b'[' => Value::List(self.list(*b"[]", Parser::value)),
            b'{' => Value::Object(self.list(*b"{}", |parser| {
                let name = parser.text();
                parser.expect(b':');
                (name, parser.value())
            })),
            _ => {
                let end = self
                    .0
                    .iter()
                    .position(|byte| b",]} \n".contains(byte))
                    .unwrap();
                let (word, rest) = self.0.split_at(end);
                self.0 = rest;
                let word = String::from_utf8(word.to_vec()).unwrap();
                assert!(
                    word.parse::<f64>().is_ok()
                        || ["true", "false", "null"].contains(&word.as_str()),
                    "{word}"
                );
                Value::Word(word)
            }
        }
    }
}

fn sarif_of(words: &[&str]) -> (i32, Value, String) {
    let (status, text, error) = parts(&run(GEESETRUNK, words, b""));
    let mut parser = Parser(text.as_bytes());
    let value = parser.value();
    assert!(parser.0.trim_ascii().is_empty());
    (status, value, error)
}

// What the schema of SARIF 2.1.0 requires, and that each result is of a rule.
#[test]
fn findings_as_sarif() {
    let files = [
        "recordings/wrong-driver.recording",
        "recordings/uboot-x86.recording",
    ];
    let (status, log, _) = sarif_of(&["audit", "--sarif", files[0], files[1]]);
    assert_eq!((status, log.get("version").text()), (1, "2.1.0"));
    let [run] = log.get("runs").items() else {
        panic!("one run")
    };
    let driver = run.get("tool").get("driver");
    assert_eq!(driver.get("name").text(), "geesetrunk");
    let rules: Vec<_> = driver
        .get("rules")
        .items()
        .iter()
        .map(|rule| rule.get("id").text())
        .collect();
    assert!(rules.len() > 50);
    let results = run.get("results").items();
    assert!(results.len() >= 5);
    for result in results {
        assert!(rules.contains(&result.get("ruleId").text()));
        assert!(["note", "warning", "error"].contains(&result.get("level").text()));
        assert!(!result.get("message").get("text").text().is_empty());
        let [location] = result.get("locations").items() else {
            panic!("one location")
        };
        let physical = location.get("physicalLocation");
        assert!(files.contains(&physical.get("artifactLocation").get("uri").text()));
        let Value::Word(line) = physical.get("region").get("startLine") else {
            panic!("a line")
        };
        assert!(line.parse::<u64>().unwrap() >= 1);
    }
    let successful = |log: &Value| {
        log.get("runs").items()[0].get("invocations").items()[0].get("executionSuccessful")
            == &Value::Word("true".into())
    };
    assert!(successful(&log));
    let (status, log, error) = sarif_of(&[
        "replay",
        "--sarif",
        "recordings/wrong-latch.recording",
        "no-such-file",
    ]);
    assert_eq!(status, 2);
    assert!(!successful(&log) && error.contains("no-such-file"));
    let (status, log, _) = sarif_of(&["verify", "--sarif", "traces/forgets-an-overrun.trace"]);
    assert_eq!(status, 1);
    assert_eq!(log.get("runs").items()[0].get("results").items().len(), 1);
}

// A chip whose clock is another one: a character takes as long as it does there, and the note has the rate.
#[test]
fn a_clock_says_how_long_a_character_takes() {
    // At divisor 12 a character takes 1.25 ms at 1.8432 MHz, and 0.048 ms at 48 MHz.
    let recording = "w 3 83 0 @0\nw 0 0c\nw 1 00\nw 3 03\nw 4 0b\nr 5 60 0 @1000\nw 0 41 0 @2000\nw 3 1b 0 @200000\n";
    let judged = |words: &[&str]| {
        parts(&run(
            GEESETRUNK,
            &[&["audit"][..], words].concat(),
            recording.as_bytes(),
        ))
    };
    let (status, text, _) = judged(&[]);
    assert_eq!(status, 1);
    assert!(
        text.contains("(9600 baud at 1.8432 MHz)") && text.contains("[frame-changed]"),
        "{text}"
    );
    let (status, text, _) = judged(&["--clock", "48000000"]);
    assert_eq!(status, 0, "{text}");
    assert!(text.contains("(250000 baud at 48000000 Hz)"), "{text}");
}

#[test]
fn what_is_known_of_a_chip_counts() {
    let sends = |count: usize| format!("r 5 60\n{}", "w 0 41\n".repeat(count));
    for (words, count, is_wrong) in [
        (&[][..], 16, false),
        (&[], 17, true),
        (&["--fifo", "off"], 2, true),
        (&["--chip", "16450"], 2, true),
        (&["--fifo", "64"], 64, false),
        (&["--fifo", "64"], 65, true),
        (&["--chip", "16750"], 64, false),
        (&["--chip", "16750"], 65, true),
        (&["--chip", "16550a-256"], 256, false),
        (&["--chip", "16750", "--fifo", "off"], 2, true),
        (&["--chip", "16750", "--fifo", "32"], 33, true),
    ] {
        let output = run(
            GEESETRUNK,
            &[&["audit"][..], words].concat(),
            sends(count).as_bytes(),
        );
        assert_eq!(
            output.status.code(),
            Some(is_wrong.into()),
            "{words:?} {count}"
        );
    }
    for words in [
        ["--clock", "0"],
        ["--divisor", "65536"],
        ["--fifo", "257"],
        ["--chip", "8250"],
        ["--format", "xml"],
        ["--base", "x"],
        ["--stride", "0"],
    ] {
        let (status, _, error) = parts(&run(
            GEESETRUNK,
            &[&["audit"][..], &words].concat(),
            b"r 5 60\n",
        ));
        assert_eq!(status, 2);
        assert!(error.contains(words[0]), "{error}");
    }
}

// The judges follow 16 characters that wait. They do not say that a FIFO with more room has lost the others.
#[test]
fn a_larger_fifo_keeps_what_arrives() {
    let arrives = |bytes: Range<u8>| bytes.map(|byte| format!("a 00 {byte:02x}\n"));
    let is_read = |bytes: Range<u8>| bytes.map(|byte| format!("r 5 61\nr 0 {byte:02x}\n"));
    let recording: String = iter::once("w 2 07\nr 5 60\n".into())
        .chain(arrives(0..20))
        .chain(is_read(0..10))
        .chain(arrives(20..21))
        .chain(is_read(10..21))
        .chain(iter::once("r 5 60\n".into()))
        .collect();
    for (words, status) in [
        (&[][..], 1),
        (&["--fifo", "64"], 0),
        (&["--chip", "16750"], 0),
    ] {
        let words = [&["replay"][..], words].concat();
        let output = run(GEESETRUNK, &words, recording.as_bytes());
        assert_eq!(output.status.code(), Some(status), "{words:?}");
    }
}

#[test]
fn what_cannot_be_drawn_is_told() {
    let words = [
        "timeline",
        "--line",
        "5000",
        "recordings/uboot-x86.recording",
    ];
    let (status, text, error) = parts(&run(GEESETRUNK, &words, b""));
    assert_eq!((status, text.as_str()), (2, ""));
    assert_eq!(
        error,
        "recordings/uboot-x86.recording has 241 lines: line 5000 is behind its end\n"
    );
    let (status, _, error) = parts(&run(
        GEESETRUNK,
        &["timeline", "--line", "3", "send.script"],
        b"",
    ));
    assert_eq!(status, 2);
    assert!(error.contains("it is a script"), "{error}");
    let script = format!(
        "chip 16550a 1 65536\n{}",
        format!("send {}\n", "41".repeat(64)).repeat(400)
    );
    let (status, text, error) = parts(&run(GEESETRUNK, &["timeline"], script.as_bytes()));
    assert_eq!((status, text.as_str()), (2, ""));
    assert!(
        error.contains("at most 5000 are drawn: take --text"),
        "{error}"
    );
}

// An access of a random driver, at a time in microseconds.
struct Made {
    is_read: bool,
    offset: u64,
    value: u64,
    time: u64,
}

fn random_accesses(random: &mut Random) -> Vec<Made> {
    let mut time = random.below(1_000_000);
    (0..20)
        .map(|_| {
            time += random.below(1_000);
            Made {
                is_read: random.is_one_in(2),
                offset: random.below(8),
                value: random.below(256),
                time,
            }
        })
        .collect()
}

// Writes accesses in one form, a line for each, between lines of other devices.
fn written(accesses: &[Made], head: &str, other: &str, line: impl Fn(&Made) -> String) -> String {
    let mut text = String::from(head);
    for access in accesses {
        text += &line(access);
        text.push('\n');
        text += other;
    }
    text
}

// Random accesses, written in each form and imported, are the same accesses at the same times.
#[test]
fn what_is_imported_is_what_was_written() {
    let mut random = Random(7);
    for _ in 0..5 {
        let accesses = random_accesses(&mut random);
        let word = |access: &Made, words: [&'static str; 2]| words[usize::from(!access.is_read)];
        let seconds =
            |access: &Made| format!("{}.{:06}", access.time / 1_000_000, access.time % 1_000_000);
        let kvm = " qemu-system-x86  9 [001]";
        let logs = [
            (
                vec!["--port", "0x2f8"],
                written(
                    &accesses,
                    "# tracer: nop\n",
                    &format!(
                        "{kvm} 1.0: kvm:kvm_pio: pio_write at 0x3f8 size 1 count 1 val 0x1 \n{kvm} 1.0: kvm:kvm_exit: reason\n"
                    ),
                    |made| {
                        format!(
                            "{kvm} {}: kvm:kvm_pio: pio_{} at {:#x} size 1 count 1 val {:#x} ",
                            seconds(made),
                            word(made, ["read", "write"]),
                            0x2f8 + made.offset,
                            made.value
                        )
                    },
                ),
            ),
            (
                vec!["--base", "0xfe000000", "--stride", "4"],
                written(
                    &accesses,
                    "",
                    &format!(
                        "{kvm} 1.0: kvm:kvm_mmio: mmio unsatisfied-read len 4 gpa 0xfe000014 val 0x0\n"
                    ),
                    |made| {
                        format!(
                            "{kvm} {}: kvm:kvm_mmio: mmio {} len 4 gpa {:#x} val {:#x}",
                            seconds(made),
                            word(made, ["read", "write"]),
                            0xfe00_0000 + 4 * made.offset,
                            made.value
                        )
                    },
                ),
            ),
            (
                vec!["--port", "0x3f8"],
                written(
                    &accesses,
                    "time_us,op,port,value\n",
                    "1,read,0x70,0x00\n",
                    |made| {
                        format!(
                            "{},{},{:#x},{}",
                            made.time,
                            word(made, ["r", "w"]),
                            0x3f8 + made.offset,
                            made.value
                        )
                    },
                ),
            ),
            (
                vec![],
                written(&accesses, "[\n", "{\"event\":\"other\"},\n", |made| {
                    format!(
                        "{{\"offset\":{},\"op\":\"{}\",\"value\":\"{:#x}\",\"us\":{}}},",
                        made.offset,
                        word(made, ["in", "out"]),
                        made.value,
                        made.time
                    )
                }),
            ),
            (
                vec!["--base", "0x9000", "--format", "words"],
                written(
                    &accesses,
                    "the machine begins\n",
                    "vcpu 1 halts\n",
                    |made| {
                        format!(
                            "[{}] serial: {}({:#x}, {:x})",
                            seconds(made),
                            word(made, ["inb", "outb"]),
                            0x9000 + made.offset,
                            made.value
                        )
                    },
                ),
            ),
            (
                vec![],
                written(
                    &accesses,
                    "\u{feff}# a log of Windows\r\n",
                    "\r\n",
                    |made| {
                        format!(
                            "{} {} {:02x} @{}\r",
                            word(made, ["r", "w"]),
                            made.offset,
                            made.value,
                            made.time * 1_000
                        )
                    },
                ),
            ),
        ];
        let expected: Vec<_> = accesses
            .iter()
            .map(|made| {
                format!(
                    "{} {} {:02x} @{}",
                    word(made, ["r", "w"]),
                    made.offset,
                    made.value,
                    made.time * 1_000
                )
            })
            .collect();
        for (words, log) in logs {
            let (status, text, error) = parts(&run(
                GEESETRUNK,
                &[&["import"][..], &words].concat(),
                log.as_bytes(),
            ));
            assert_eq!((status, error.as_str()), (0, ""), "{log}");
            let lines: Vec<_> = text.lines().filter(|line| !line.starts_with('#')).collect();
            assert_eq!(lines, expected, "{log}");
        }
    }
}
