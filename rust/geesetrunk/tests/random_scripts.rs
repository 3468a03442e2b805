//! Random scripts, of which about a third is faulty: the program that is built from the proved crates
//! prints what the proved program prints.
//!
//! The variable `GEESETRUNK_PROVED_SCRIPT` names the proved program, and `GEESETRUNK_SCRIPTS` how
//! many scripts are played: 2,000 unless it is said. `GEESETRUNK_SEED` chooses others.

mod common;

use common::{Random, UART_SCRIPT, parts, run};
use std::env;
use std::fmt::Write;

// How many faulty scripts there are: one in so many.
const FAULTY: u64 = 3;

const CALLS: [&str; 25] = [
    "loopback",
    "present",
    "connected",
    "ready-receive",
    "ready-send",
    "try-receive",
    "flush",
    "read-ready",
    "write-ready",
    "ier",
    "isr",
    "lcr",
    "mcr",
    "lsr",
    "msr",
    "spr",
    "dll-dlm",
    "dump",
    "fifo",
    "next",
    "access",
    "attach",
    "peek-modem",
    "is-idle",
    "retrigger-interrupts",
];

const FAULTS: [&str; 33] = [
    "sing",
    "lsr ",
    " lsr",
    "lsr  msr",
    "tick",
    "tick -1",
    "tick 65536",
    "tick 007",
    "arrive 4",
    "arrive 4g",
    "arrive 41 bp",
    "lines x",
    "init 2 9600 cts 00 8",
    "init 1 0 cts 00 8",
    "init 1 9600 cts 00 9",
    "receive 65",
    "send 4",
    "send",
    "text ff",
    "limit 5",
    "fifo-size 64",
    "fifo-size 48",
    "chip 16450 4 64",
    "lsr\t",
    "receive +1",
    "send zz",
    "init-with 1 9600 cts 00 8 check first",
    "init-with 1 9600 cts 00 8 check later 0b",
    "set-frame 9600 9",
    "set-trigger-level off",
    "set-break 1",
    "quiesce 00 drop",
    "restore 0001020304050607",
];

fn hex(random: &mut Random, most: u64) -> String {
    let count = random.below(most + 1);
    let digits: String = (0..count)
        .map(|_| format!("{:02x}", random.below(256)))
        .collect();
    if digits.is_empty() {
        "-".into()
    } else {
        digits
    }
}

fn text(random: &mut Random) -> String {
    let letters = ["41", "7f", "0a", "c3bc", "20", "e282ac", "0d"];
    let count = random.below(12);
    let digits: String = (0..count).map(|_| *random.pick(&letters)).collect();
    if digits.is_empty() {
        "-".into()
    } else {
        digits
    }
}

fn setup(random: &mut Random) -> String {
    let level = random.pick(&["1", "4", "8", "14", "off"]);
    let rate = random.pick(&["9600", "115200", "1", "75", "4294967295", "38400", "57601"]);
    let cts = if random.is_one_in(4) { "cts" } else { "nocts" };
    let interrupts = random.below(16);
    let bits = random.pick(&["8", "8", "8", "7", "6", "5"]);
    format!("{level} {rate} {cts} {interrupts:02x} {bits}")
}

fn init(random: &mut Random) -> String {
    format!("init {}", setup(random))
}

fn init_with(random: &mut Random) -> String {
    let check = random.pick(&["check", "nocheck"]);
    let wait = random.pick(&["first", "last", "never"]);
    let outputs = random.below(256);
    format!("init-with {} {check} {wait} {outputs:02x}", setup(random))
}

fn frame(random: &mut Random) -> String {
    let call = random.pick(&["set-frame", "set-frame-when-idle"]);
    let rate = random.pick(&["9600", "115200", "1", "75", "38400", "57601"]);
    format!("{call} {rate} {}", random.pick(&["8", "8", "7", "6", "5"]))
}

// A call that changes a port otherwise than by its frame.
fn change(random: &mut Random) -> String {
    match random.below(5) {
        0 => {
            let call = random.pick(&["set-break", "set-rts", "set-dtr"]);
            format!("{call} {}", random.pick(&["on", "off"]))
        }
        1 => format!("set-modem-control {:02x}", random.below(256)),
        2 => format!("set-trigger-level {}", random.pick(&["1", "4", "8", "14"])),
        3 => format!(
            "check-configured {}",
            random.pick(&["0b", "1b", "00", "08"])
        ),
        _ => {
            let fifos = random.pick(&["keep", "reset", "disable"]);
            format!("quiesce {:02x} {fifos}", random.below(256))
        }
    }
}

// The registers of a dump.
fn registers(random: &mut Random) -> String {
    (0..9)
        .map(|_| format!("{:02x}", random.below(256)))
        .collect()
}

fn line(random: &mut Random) -> String {
    match random.below(20) {
        0 => init(random),
        1 | 2 => format!("tick {}", random.below(40)),
        3 | 4 => {
            let errors = random.pick(&["", "", "", " p", " f", " b", " pf", " pb", " fb", " pfb"]);
            format!("arrive {:02x}{errors}", random.below(256))
        }
        5 => format!("lines {:x}", random.below(16)),
        6 => format!("try-send {:02x}", random.below(256)),
        7 => {
            let call = random.pick(&["enable", "disable"]);
            format!("{call} {:02x}", random.below(256))
        }
        8 | 9 => {
            let calls = ["receive", "receive-exact", "read", "receive-with-errors"];
            let call = random.pick(&calls);
            format!("{call} {}", random.below(20))
        }
        10 | 11 => {
            let call = *random.pick(&["send", "send-exact", "write"]);
            format!("{call} {}", hex(random, 20))
        }
        12 => format!("text {}", text(random)),
        13 if random.is_one_in(4) => String::new(),
        14 => frame(random),
        15 => change(random),
        16 if random.is_one_in(2) => init_with(random),
        16 => format!("restore {}", registers(random)),
        _ => (*random.pick(&CALLS)).into(),
    }
}

fn script(random: &mut Random) -> String {
    let chip = random.pick(&["16550a", "16550a", "16450", "16650", "16750", "16950"]);
    let ticks = random.pick(&[1, 1, 2, 4, 7, 1000]);
    let room = random.pick(&[0, 1, 5, 64, 65_536]);
    let cut = random.pick(&["", "", "", " cut"]);
    let mut script = format!(
        "chip {chip} {ticks} {room}{cut}\nlimit {}\n",
        1 + random.below(300)
    );
    if random.is_one_in(3) {
        let size = random.pick(&[16, 32, 64, 128, 256]);
        let _ = writeln!(script, "fifo-size {size}");
    }
    if !random.is_one_in(5) {
        let _ = writeln!(script, "{}", init(random));
    }
    let count = random.below(40);
    let faulty = if random.is_one_in(FAULTY) {
        random.below(count + 1)
    } else {
        u64::MAX
    };
    for index in 0..=count {
        let line = if index == faulty {
            (*random.pick(&FAULTS)).into()
        } else {
            line(random)
        };
        let _ = writeln!(script, "{line}");
    }
    script
}

fn number(variable: &str, otherwise: u64) -> u64 {
    match env::var(variable) {
        Ok(word) => word
            .parse()
            .unwrap_or_else(|_| panic!("{variable} is no number: {word}")),
        Err(_) => otherwise,
    }
}

#[test]
fn random_scripts() {
    let Ok(proved) = env::var("GEESETRUNK_PROVED_SCRIPT") else {
        eprintln!("skipped: GEESETRUNK_PROVED_SCRIPT names no proved program");
        return;
    };
    let count = number("GEESETRUNK_SCRIPTS", 2_000);
    let mut random = Random(number("GEESETRUNK_SEED", 77).max(1));
    let mut refused = 0;
    for number in 0..count {
        let script = script(&mut random);
        let wanted = parts(&run(&proved, &[], script.as_bytes()));
        let found = parts(&run(UART_SCRIPT, &[], script.as_bytes()));
        assert_eq!(found, wanted, "script {number}:\n{script}");
        refused += u64::from(wanted.0 == 1);
    }
    println!("{count} scripts, {refused} of them refused: as the proved program");
}

// About a third of the scripts is refused, so that both kinds are compared.
#[test]
fn a_third_of_the_scripts_is_faulty() {
    let mut random = Random(5);
    let is_faulty =
        |script: &String| uart_language::parse(geesetrunk::heap(), script.as_bytes()).is_err();
    let scripts = (0..3_000).map(|_| script(&mut random));
    let faulty = scripts.filter(is_faulty).count();
    assert!((900..1_100).contains(&faulty), "{faulty}");
}
