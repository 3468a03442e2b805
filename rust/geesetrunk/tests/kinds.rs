//! The judges of recordings: each kind of finding has a recording in which it is found, and nothing
//! else; and what is found in a recording that is right, wherever it is cut.

mod common;

use common::{EXAMPLES, examples};
use geesetrunk::excerpt::{Excerpt, Form, USUAL_EVENTS, timeline_of};
use geesetrunk::explain::explained;
use geesetrunk::judging::{Found, Judge, Stop, judge_recording};
use geesetrunk::known::Known;
use std::collections::BTreeSet;
use std::fs;
use std::path::{Path, PathBuf};

// Returns the names of the faults that are found, and where. Without an access there are none.
fn faults(recording: &[u8]) -> Vec<(u64, &'static str)> {
    let mut faults = Vec::new();
    for judge in [Judge::Audit, Judge::Replay] {
        let tell = |found: &Found| {
            if found.kind.severity() != "note" {
                faults.push((found.line, found.kind.name()));
            }
            Ok(())
        };
        match judge_recording(judge, &Known::default(), recording, tell) {
            Ok(_) | Err(Stop::NoAccess) => {}
            Err(other) => panic!("{other:?}"),
        }
    }
    faults
}

fn recordings_of_kinds() -> Vec<PathBuf> {
    recordings_of(&Path::new(EXAMPLES).join("recordings/kinds"))
}

fn recordings_of(folder: &Path) -> Vec<PathBuf> {
    let mut paths: Vec<_> = fs::read_dir(folder)
        .unwrap()
        .map(|entry| entry.unwrap().path())
        .collect();
    paths.sort();
    paths
}

#[test]
fn each_kind_is_found_alone() {
    for path in recordings_of_kinds() {
        let name = path.file_stem().unwrap().to_str().unwrap();
        let names: BTreeSet<_> = faults(&fs::read(&path).unwrap())
            .into_iter()
            .map(|(_, name)| name)
            .collect();
        assert_eq!(names, BTreeSet::from([name]), "{}", path.display());
    }
}

// Also a warning that is found later is shown at the line that it is about.
#[test]
fn a_timeline_up_to_a_warning_shows_it() {
    for path in recordings_of_kinds() {
        let recording = fs::read(&path).unwrap();
        let mut warnings = Vec::new();
        let tell = |found: &Found| {
            if found.kind.severity() == "warning" {
                warnings.push((found.line, found.kind.to_string()));
            }
            Ok(())
        };
        judge_recording(Judge::Audit, &Known::default(), &recording[..], tell).unwrap();
        for (line, text) in warnings {
            let excerpt = Excerpt {
                form: Form::Table,
                file: "-",
                line: Some(line),
                most: USUAL_EVENTS,
                known: Known::default(),
            };
            let table = timeline_of(&excerpt, &recording[..]).unwrap();
            let place = format!("{}, line {line}:\n{table}", path.display());
            let marked = table.lines().find(|row| {
                let is_at_line = row.split_whitespace().next() == Some(&line.to_string());
                is_at_line && row.ends_with("  warning")
            });
            assert!(marked.is_some(), "{place}");
            let text = format!("line {line}: {text}");
            assert!(table.lines().any(|row| row == text), "{place}");
        }
    }
}

// A text says no more than the recording shows: that ISR or an arrival showed a byte, and not LSR;
// and not that no interrupt is enabled, where one was before.
#[test]
fn a_text_says_what_is_known() {
    for (recording, name, untrue) in [
        ("w 3 03\nr 2 c4\nw 2 07\n", "received-discarded", "was set"),
        (
            "w 3 03\nw 4 0b\na 00 41\nw 2 07\n",
            "received-discarded",
            "was set",
        ),
        (
            "w 3 03\nw 1 05\nw 3 83\nw 0 0c\nw 1 05\n",
            "ier-under-dlab",
            "no interrupt was enabled",
        ),
    ] {
        let mut texts = Vec::new();
        let tell = |found: &Found| {
            if found.kind.severity() == "warning" {
                texts.push((found.kind.name(), found.kind.to_string()));
            }
            Ok(())
        };
        judge_recording(Judge::Audit, &Known::default(), recording.as_bytes(), tell).unwrap();
        let [(found, text)] = &texts[..] else {
            panic!("{texts:?}");
        };
        assert_eq!(*found, name);
        assert!(!text.contains(untrue), "{text}");
    }
}

// Returns the names of the notes of a recording.
fn notes(recording: &[u8]) -> BTreeSet<&'static str> {
    let mut names = BTreeSet::new();
    let tell = |found: &Found| {
        if found.kind.severity() == "note" {
            names.insert(found.kind.name());
        }
        Ok(())
    };
    match judge_recording(Judge::Audit, &Known::default(), recording, tell) {
        Ok(_) | Err(Stop::NoAccess) => names,
        Err(other) => panic!("{other:?}"),
    }
}

// What the proved judge says of any driver.
const FACTS: [&str; 5] = [
    "set-up",
    "errors-read",
    "changes-read",
    "ends-under-dlab",
    "ends-in-loopback",
];

// Each note has a recording in which it is found, and of hints no other. No warning and no difference is found in it.
#[test]
fn each_note_is_found() {
    for path in recordings_of(&Path::new(EXAMPLES).join("recordings/notes")) {
        let name = path.file_stem().unwrap().to_str().unwrap();
        let recording = fs::read(&path).unwrap();
        let found = notes(&recording);
        assert!(found.contains(name), "{}: {found:?}", path.display());
        let other = found
            .iter()
            .find(|found| **found != name && !FACTS.contains(found));
        assert_eq!(other, None, "{}", path.display());
        assert_eq!(faults(&recording), [], "{}", path.display());
    }
}

// What real systems do, and a hint says of it: OpenSBI and OVMF raise neither DTR nor RTS. Of Linux there is none, wherever its
// recordings are cut.
#[test]
fn hints_about_real_systems_are_true() {
    let hints = |recording: &[u8]| {
        let mut names = notes(recording);
        names.retain(|name| !FACTS.contains(name));
        names
    };
    for (path, _) in examples("recordings", "recording", "session") {
        let name = path.file_stem().unwrap().to_str().unwrap();
        if name.starts_with("refused-") {
            continue;
        }
        let wanted: BTreeSet<_> = match name {
            "opensbi-uboot" | "ovmf" => BTreeSet::from(["dtr-rts-never-set"]),
            // A character is lost in each.
            "wrong-driver" | "handler-a-clock-late" => BTreeSet::from(["overrun-cause"]),
            _ => BTreeSet::new(),
        };
        assert_eq!(hints(&fs::read(&path).unwrap()), wanted, "{name}");
    }
    for path in recordings_of(&Path::new(EXAMPLES).join("recordings/linux")) {
        let text = fs::read(&path).unwrap();
        let lines: Vec<_> = text.split_inclusive(|&byte| byte == b'\n').collect();
        for cut in (0..=lines.len()).step_by(7) {
            let (front, back) = lines.split_at(cut);
            for (what, piece) in [("up to", front), ("from", back)] {
                let found = hints(&piece.concat());
                // What such a piece shows: a line without CTS, outputs that are off, a break that goes on, and IER before a change of
                // speed, behind which the piece begins.
                let may_be = [
                    "cts-never-set",
                    "dtr-rts-never-set",
                    "ends-in-break",
                    "ier-before-set-up",
                ];
                let other = found.iter().find(|name| !may_be.contains(name));
                assert_eq!(other, None, "{} {what} line {cut}", path.display());
            }
        }
    }
}

#[test]
fn each_kind_is_explained() {
    for path in recordings_of_kinds() {
        let name = path.file_stem().unwrap().to_str().unwrap();
        assert!(explained(name).is_ok(), "{name}");
    }
}

// The beginnings of recordings of real systems, which are right, cut at each line: what begins or
// ends in the middle is right too, also one that begins with a line that repeats a read.
#[test]
fn no_cut_makes_a_fault() {
    const REAL: [&str; 7] = [
        "grub",
        "isolinux",
        "opensbi-uboot",
        "ovmf",
        "seabios-sercon",
        "uboot-riscv",
        "uboot-x86",
    ];
    let recordings = examples("recordings", "recording", "session");
    for (path, _) in recordings {
        let name = path.file_stem().unwrap().to_str().unwrap();
        if !REAL.contains(&name) {
            continue;
        }
        let text = fs::read(&path).unwrap();
        let lines: Vec<_> = text.split_inclusive(|&byte| byte == b'\n').collect();
        for cut in 0..=lines.len() {
            let (front, back) = lines.split_at(cut);
            assert_eq!(faults(&front.concat()), [], "{name} up to line {cut}");
            assert_eq!(faults(&back.concat()), [], "{name} from line {}", cut + 1);
        }
    }
}

// What Linux's own driver does to its ports, cut at random at either end. CUTS may say how many cuts
// each recording has.
#[test]
fn no_cut_of_linux_makes_a_fault() {
    let folder = Path::new(EXAMPLES).join("recordings/linux");
    let cuts = std::env::var("CUTS").map_or(25, |cuts| cuts.parse().unwrap());
    let mut state = 1u64;
    let mut random = |most: usize| {
        state = state
            .wrapping_mul(6364136223846793005)
            .wrapping_add(1442695040888963407);
        (state >> 33) as usize % (most + 1)
    };
    let mut pieces = 0;
    for path in recordings_of(&folder) {
        let text = fs::read(&path).unwrap();
        let lines: Vec<_> = text.split_inclusive(|&byte| byte == b'\n').collect();
        assert_eq!(faults(&text), [], "{}", path.display());
        for _ in 0..cuts {
            let cut = random(lines.len());
            let (front, back) = lines.split_at(cut);
            let name = path.display();
            assert_eq!(faults(&front.concat()), [], "{name} up to line {cut}");
            assert_eq!(faults(&back.concat()), [], "{name} from line {}", cut + 1);
            pieces += 2;
        }
    }
    println!("{pieces} pieces");
}

// What right drivers do, and a judge that asks for more would blame.
#[test]
fn right_drivers() {
    for recording in [
        // Each interrupt is served at its own register: THR by a byte, data by DATA, line status by
        // LSR, modem status by MSR.
        "w 2 07\nw 1 02\nr 5 60\nw 0 41\n",
        "w 2 07\nw 1 01\nr 5 61\nr 0 41\nr 5 60\n",
        "w 1 04\nr 5 63\nr 0 41\n",
        "w 1 08\nr 6 b1\n",
        // An interrupt is pending at the end.
        "r 5 60\nw 1 01\nr 2 c4\n",
        // A byte that arrived by the recording is read without a look.
        "r 5 60 0 @1000\na 00 41 1 @900000\nr 0 41 0 @901000\nr 5 60 0\n",
        // FCR 01, 07, 00 empty the transmitter once, which holds nothing.
        "r 5 60\nw 0 41\nr 5 60\nw 2 01\nw 2 07\nw 2 00\n",
        // The receiver is emptied while the driver begins.
        "w 4 00\nr 5 60\nr 0 00\n",
        // The kind of parity is changed, and there is none.
        "w 3 03\nr 5 60\nw 0 41\nw 3 13\n",
        // A loopback test reads back what it sends.
        "w 3 03\nw 4 1b\nr 5 60\nw 0 41\nr 5 61\nr 0 41\nr 5 60\nw 0 42\nr 5 61\nr 0 42\nw 4 0b\n",
        // Time enough passes for the byte to go out.
        "w 3 83 0\nw 0 01\nw 1 00\nw 3 03\nr 5 60 0 @1000\nw 0 41 0 @2000\nw 3 02 0 @900000\n",
        // An error stays until LSR is read, though DATA was read.
        "r 5 60\na 04 41\nr 5 65\nr 0 41\nr 5 60\n",
        // Rates at other clocks, of which the high byte of the divisor looks like a value of IER: 9,600 baud at 54 MHz and at
        // 408 MHz, 19,200 at 408 MHz, and 1,200 at 18.432 MHz.
        "w 3 83\nw 0 60\nw 1 01\nw 3 03\n",
        "w 3 83\nw 0 60\nw 1 0a\nw 3 03\n",
        "w 3 83\nw 0 30\nw 1 05\nw 3 03\n",
        "w 3 83\nw 0 c0\nw 1 03\nw 3 03\n",
        // Two bytes that arrived by the recording are read at one interrupt, and MCR is not known.
        "r 5 60\nr 2 c1\na 00 41\na 00 42\nr 2 c4\nr 0 41\nr 0 42\n",
    ] {
        assert_eq!(faults(recording.as_bytes()), [], "{recording}");
    }
}

// What Linux's own driver does on an emulated PC, and a judge that asks for more would blame.
#[test]
fn linux_is_not_blamed() {
    for (what, recording) in [
        (
            "the processor stands still for 20 ms in the middle of a handler, and goes on",
            "w 3 13 0 @0\nw 2 81 0 @1000\nw 4 0b 0 @2000\nr 5 60 0 @3000\n\
             w 1 07 1 @95885466000\na 00 31 1 @95891701000\nr 2 cc 1 @95901464000\n\
             r 5 61 1 @95901470000\nr 0 31 1 @95901512000\nr 5 60 1 @95901563000\n\
             a 00 20 1 @95901753000\na 00 35 1 @95921428000\nr 6 b0 1 @95921580000\n\
             w 0 73 1 @95921601000\nw 1 05 1 @95921737000\nr 2 cc 1 @95921750000\n\
             r 5 61 1 @95921753000\nr 0 20 0 @95921769000\nr 5 61 0 @95921776000\n\
             r 0 35 0 @95921780000\nr 5 60 0 @95921782000\nr 6 b0 0 @95921787000\n\
             r 2 c1 0 @95921790000\n",
        ),
        (
            "a byte comes while the port is closed, and its opening empties the receiver",
            "w 3 13\nw 2 81\nw 4 0b\nr 5 60\nw 0 41\nr 5 60\nw 1 00\nw 4 03\nw 3 13\nw 2 01\n\
             w 2 07\nw 2 00\nr 0 00\na 00 6c\nw 2 01\nw 2 07\nw 2 00\nr 5 60\nr 0 6c\nw 1 05\n",
        ),
        (
            "the console is polled before the port is opened, and IER has modem status alone",
            "w 3 13\nw 2 00\nw 4 03\nr 5 60\nw 1 08\nr 5 60\nw 0 5b\n",
        ),
        (
            "the receiver is emptied while the port is resumed, and IER has modem status alone",
            "w 3 13\nw 2 81\nw 4 00\nw 1 08\nw 2 01\nw 2 07\nw 2 00\nr 5 60\nr 0 00\nw 1 00\n",
        ),
        (
            "a burst in loopback is held up: what it sends is read back behind it",
            "w 3 13 0 @0\nw 2 81 0 @1000\nw 4 1b 0 @2000\nr 5 60 0 @3000\nw 1 07 1 @4000\n\
             r 2 c2 0 @5000\nr 5 60 0 @6000\nw 0 6c 0 @7000\nw 0 6c 0 @8000\ni 1 @90000000\n\
             w 0 6c 1 @90000500\nr 2 cc 1 @90001000\nr 5 61 1 @90002000\nr 0 6c 0 @90003000\n",
        ),
        (
            "CTS is off on a port without flow control: each handler reads MSR",
            "w 3 13\nw 2 81\nw 4 0b\nr 5 60\nr 6 b0\nw 1 07\nr 2 c2\nr 5 60\nr 6 a1\nw 0 41\n",
        ),
    ] {
        assert_eq!(faults(recording.as_bytes()), [], "{what}");
    }
}

// What is right in the middle of use, and would be blamed if what is not known were taken for known.
#[test]
fn what_is_not_known_is_not_counted() {
    for (what, recording) in [
        (
            "DLAB is not known, and the byte that ISR showed is read before FCR empties the receiver",
            "r 2 c4\nr 0 41\nw 2 07\n",
        ),
        (
            "DLAB is not known, and the byte that arrived is read before FCR empties the receiver",
            "w 2 07\nw 4 0b\na 00 41\nr 0 41\nw 2 07\n",
        ),
        (
            "DLAB is not known, and the byte that ISR showed is read before FCR is written",
            "r 2 c4\nr 0 41\nw 2 01\nr 5 60\n",
        ),
        (
            "DLAB is not known, and received data is served at DATA: the next byte interrupts again",
            "r 2 c4\nr 0 41\nr 2 c4\n",
        ),
        (
            "DLAB is not known, and the interrupt is disabled for a time: it comes again",
            "r 2 c4\nw 1 00\nw 1 05\nr 2 c4\n",
        ),
        (
            "DLAB is not known, and the byte of the interrupt is read before LSR",
            "r 2 c4\nr 0 41\nr 5 60\n",
        ),
        (
            "DLAB is not known, and the byte that arrived is read before LSR",
            "w 2 07\na 00 41\nr 0 41\nr 5 60\n",
        ),
        (
            "DLAB is not known, and the byte that arrived is read before the next one",
            "w 2 07\na 00 41\nr 0 41\nr 3 03\na 00 42\nr 0 42\n",
        ),
        (
            "DLAB is not known, and a byte is sent before the interrupt of an empty THR is enabled",
            "r 2 c2\nw 0 41\nr 3 03\nw 1 00\nw 1 02\nr 2 c1\n",
        ),
        (
            "DLAB is not known, and what is sent in loopback comes back before the next byte arrives",
            "w 4 1b\nw 2 07\nw 0 41\nw 4 0b\na 00 42\nr 3 03\nr 0 41\n",
        ),
        (
            "DLAB is not known, and a byte is sent after MSR showed CTS clear",
            "r 6 10\nr 6 00\nw 0 41\nr 3 03\nw 0 42\n",
        ),
        (
            "the FIFOs are not known: without them the second byte takes the place of the first",
            "w 3 03\nw 4 0b\na 00 41\na 00 42\nr 0 42\nw 2 07\n",
        ),
        (
            "the divisor is not known: at 115,200 baud two bytes are gone after 0.3 ms, and FCR empties nothing",
            "r 3 03 @0\nr 5 60 @1000\nw 0 41 @2000\nw 0 42 @3000\nw 2 07 @300000\n",
        ),
        (
            "the divisor is not known, and LCR is written behind bytes that are gone at 115,200 baud",
            "r 3 03 @0\nr 5 60 @1000\nw 0 41 @2000\nw 0 42 @3000\nw 3 13 @300000\n",
        ),
        (
            "the low byte of the divisor is not known",
            "r 3 83 @0\nw 1 00 @1000\nw 3 03 @2000\nr 5 60 @3000\nw 0 41 @4000\nw 2 07 @300000\n",
        ),
        (
            "MCR is not known, and shows loopback: what arrives meanwhile is not received",
            "r 2 c1\na 00 41\nr 4 1b\nw 2 07\n",
        ),
    ] {
        assert_eq!(faults(recording.as_bytes()), [], "{what}");
    }
}
