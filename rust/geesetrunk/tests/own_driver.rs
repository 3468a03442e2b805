//! A run of our own driver over the software chip has no warning, whatever the schedule.

use geesetrunk::heap;
use geesetrunk::judging::{Audited, Found, Judge, judge_recording};
use geesetrunk::known::{Fifo, Known};
use uart_16550::Uart16550;
use uart_16550::backend::Backend;
use uart_chip::{Chip, Device16550};
use uart_judges::audit::{Finding, Severity};
use uart_judges::recording::{Entry, Happening};
use uart_spec::access::Access;
use uart_spec::{Config, FifoSize};
use uart_trace::{Listener, tell};

// Gives the accesses of a run to the auditor, which was told the size that the driver takes the FIFOs for, and keeps the faults.
#[derive(Default)]
struct Judged {
    audited: Audited,
    known: Known,
    accesses: u64,
    faults: Vec<(u64, Finding)>,
}

impl Listener for Judged {
    fn begin(&mut self) {}

    fn hear(&mut self, access: Access) {
        self.accesses += 1;
        let event = Entry {
            happening: Happening::Access(access),
            times: 1,
            line: self.accesses,
            time: None,
            interrupt: None,
        };
        let (faults, known) = (&mut self.faults, self.known);
        self.audited.step(&event, |findings, _| {
            let found = findings.iter().flatten();
            let told = found.filter_map(|&finding| known.adapted(finding));
            let faulty = told.filter(|finding| finding.severity() != Severity::Note);
            faults.extend(faulty.map(|finding| (event.line, finding)));
        });
    }

    fn end(&mut self) {}
}

// A sequence of numbers that looks random, and is the same each time: the generator of Lehmer.
struct Numbers(u64);

impl Numbers {
    fn below(&mut self, bound: u64) -> u64 {
        self.0 = self.0 * 48271 % 2_147_483_647;
        self.0 % bound
    }

    fn one_of(&mut self, texts: &[&str]) -> String {
        texts[self.below(texts.len() as u64) as usize].into()
    }
}

fn event(numbers: &mut Numbers) -> String {
    match numbers.below(6) {
        0 => format!("tick {}", numbers.below(300)),
        1 => format!(
            "arrive {:02x} {}",
            numbers.below(128),
            numbers.one_of(&["p", "f", "pf"])
        ),
        2 => format!("lines {:x}", numbers.below(16)),
        3 => "access".into(),
        _ => format!("arrive {:02x}", numbers.below(128)),
    }
}

// A call of a session: what a program does between one init and the next. A byte has 7 bits, so
// that each word length has room for it.
fn call(numbers: &mut Numbers) -> String {
    let byte = format!("{:02x}", numbers.below(128));
    let bytes = byte.repeat(1 + numbers.below(64) as usize);
    let count = numbers.below(20);
    match numbers.below(12) {
        0 => format!("send {bytes}"),
        1 => format!("send-exact {bytes}"),
        2 => format!("write {bytes}"),
        3 => format!("try-send {byte}"),
        4 => format!("text {bytes}"),
        5 => format!("receive {count}"),
        6 => format!("receive-exact {count}"),
        7 => format!("read {count}"),
        8 => "try-receive".into(),
        9 => format!("enable {:02x}", numbers.below(16)),
        10 => format!("disable {:02x}", numbers.below(16)),
        _ => numbers.one_of(&[
            "next",
            "flush",
            "lsr",
            "msr",
            "isr",
            "ier",
            "lcr",
            "mcr",
            "spr",
            "dump",
            "present",
            "connected",
            "dll-dlm",
            "fifo",
            "ready-send",
            "ready-receive",
            "read-ready",
            "write-ready",
            "next",
        ]),
    }
}

fn script(numbers: &mut Numbers, size: u16) -> String {
    let mut lines = vec![
        format!(
            "chip {} {} {}",
            numbers.one_of(&["16550a", "16450", "16750", "16550a-256"]),
            1 + numbers.below(40),
            1000 * numbers.below(2)
        ),
        format!("limit {}", 1 + numbers.below(300)),
        format!("fifo-size {size}"),
    ];
    for _ in 0..numbers.below(40) {
        lines.push(event(numbers));
        if numbers.below(3) == 0 {
            lines.push("next".into());
        }
    }
    lines.push(format!(
        "init {} {} {} {:02x} {}",
        numbers.one_of(&["off", "1", "4", "8", "14"]),
        numbers.one_of(&["9600", "115200", "300"]),
        numbers.one_of(&["cts", "nocts"]),
        numbers.below(16),
        numbers.one_of(&["7", "8"])
    ));
    for _ in 0..numbers.below(40) {
        lines.push(call(numbers));
    }
    if numbers.below(2) == 0 {
        lines.extend(["flush".into(), "loopback".into(), "send 41".into()]);
    }
    lines.join("\n")
}

#[test]
fn our_own_driver_has_no_warning() {
    let runs = std::env::var("RUNS").map_or(2000, |runs| runs.parse().unwrap());
    let mut accesses = 0;
    for seed in 1..=runs {
        let mut numbers = Numbers(seed);
        let size = [16, 32, 64, 128, 256][numbers.below(5) as usize];
        let script = script(&mut numbers, size);
        let known = Known {
            fifo: Some(Fifo::Bytes(size)),
            ..Known::default()
        };
        let judged = Judged {
            known,
            ..Judged::default()
        };
        let judged = tell(heap(), script.as_bytes(), judged);
        let Ok(judged) = judged else {
            panic!("{script}");
        };
        accesses += judged.accesses;
        assert_eq!(judged.faults, [], "seed {seed}:\n{script}");
    }
    println!("{runs} runs, {accesses} accesses");
}

// A chip in software, and a recording of the accesses to it.
struct Recorded {
    device: Device16550,
    recording: String,
}

impl Backend for Recorded {
    fn read(&mut self, register_offset: u8) -> u8 {
        let answer = self.device.read(register_offset);
        self.recording += &format!("r {register_offset} {answer:02x}\n");
        answer
    }

    fn write(&mut self, register_offset: u8, value: u8) {
        self.device.write(register_offset, value);
        self.recording += &format!("w {register_offset} {value:02x}\n");
    }
}

// The call floods the chip in loopback with 257 bytes: no fault of the driver, and none of the chip.
#[test]
fn a_measured_fifo_is_a_note() {
    for char_ticks in [1, 4, 300] {
        let schedule = Vec::new().into();
        let device = Device16550::new(heap(), Chip::Uart16550A, char_ticks, 64, schedule).unwrap();
        let mut uart = Uart16550::new_with_backend(Recorded {
            device,
            recording: String::new(),
        });
        uart.init(Config::DEFAULT).unwrap();
        assert_eq!(uart.find_fifo_size(), Ok(FifoSize::Sixteen));
        let recording = uart.backend().recording.as_bytes();
        for (judge, floods) in [(Judge::Audit, 1), (Judge::Replay, 0)] {
            let mut told = Vec::new();
            let tell = |found: &Found| {
                told.push((found.kind.severity(), found.kind.name()));
                Ok(())
            };
            judge_recording(judge, &Known::default(), recording, tell).unwrap();
            let place = format!("with {char_ticks} ticks: {told:?}");
            assert!(
                told.iter().all(|&(severity, _)| severity == "note"),
                "{place}"
            );
            let found = told
                .iter()
                .filter(|&&(_, name)| name == "flood-in-loopback");
            assert_eq!(found.count(), floods, "{place}");
        }
    }
}
