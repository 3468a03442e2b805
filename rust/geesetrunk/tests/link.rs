//! Two scripts at the two ends of a cable.

mod common;

use common::{EXAMPLES, GEESETRUNK, Random, assert_as_stored, parts, run, run_in};
use geesetrunk::link::{Link, LinkOutput, linked_in_turns};
use std::collections::HashMap;
use std::fs;
use std::path::{Path, PathBuf};

const HELLO: [&str; 2] = ["hello-left.script", "hello-right.script"];

// Runs geesetrunk in the folder with the scripts of links.
fn run_link(words: &[&str], input: &[u8]) -> (i32, String, String) {
    let folder = Path::new(EXAMPLES).join("link");
    let words = [&["link"], words].concat();
    parts(&run_in(&folder, GEESETRUNK, &words, input))
}

#[test]
fn the_picture_is_as_stored() {
    let stored = Path::new(EXAMPLES).join("link/hello.svg");
    let (status, picture, _) = run_link(&[HELLO[0], HELLO[1], "--picture"], b"");
    assert_eq!(status, 0);
    assert_as_stored(&stored, picture.as_bytes(), &fs::read(&stored).unwrap());
}

#[test]
fn a_script_may_come_from_standard_input() {
    let (_, wanted, _) = run_link(&HELLO, b"");
    let folder = Path::new(EXAMPLES).join("link");
    for (files, side) in [(["-", HELLO[1]], 0), ([HELLO[0], "-"], 1)] {
        let script = fs::read(folder.join(HELLO[side])).unwrap();
        assert_eq!(run_link(&files, &script).1, wanted);
    }
}

#[test]
fn wrong_uses_have_one_error() {
    let wrong = |script: &[u8], start: &str, status: i32| {
        let (found, printed, errors) = run_link(&[HELLO[0], "-"], script);
        assert_eq!(found, status, "{errors}");
        assert!(printed.is_empty() && errors.starts_with(start), "{errors}");
    };
    let head = b"chip 16550a 4 64\n".as_slice();
    for (line, start) in [
        (
            "arrive 41",
            "-:3:1: arrive: over a cable the other end brings the characters that arrive\n",
        ),
        (
            "lines b",
            "-:3:1: lines: over a cable the other end brings the modem lines\n",
        ),
        ("sing", "-:3:1: unknown word\n"),
    ] {
        wrong(&[head, b"\n", line.as_bytes()].concat(), start, 1);
    }
    let (status, _, errors) = run_link(&["-", "-"], head);
    assert_eq!(
        (status, errors.as_str()),
        (
            2,
            "standard input is one script: name a file for the other\n"
        )
    );
    let (status, _, errors) = run_link(&[HELLO[0], "nowhere.script"], b"");
    assert_eq!(status, 2);
    assert!(
        errors.starts_with("nowhere.script cannot be read: "),
        "{errors}"
    );
    for delay in ["0", "1000001", "+1", "soon"] {
        let (status, _, errors) = run_link(&["--delay", delay, HELLO[0], HELLO[1]], b"");
        assert_eq!(
            (status, errors.as_str()),
            (2, "the delay must be a number of ticks from 1 to 1000000\n")
        );
    }
}

// An end waits a million polls for characters that never come, at an end whose calls have returned and
// at one that waits as long.
#[test]
fn long_waits_end() {
    let idle = Path::new(EXAMPLES).join("send.script");
    let waits = b"chip 16550a 4 64\nlimit 50000\ninit 14 9600 nocts 00 8\nreceive-exact 9\nlsr\n";
    for words in [
        ["-", HELLO[1]],
        [HELLO[1], "-"],
        ["-", idle.to_str().unwrap()],
    ] {
        let (status, text, errors) = run_link(&words, waits);
        assert_eq!(status, 0, "{errors}");
        let is_wait = |line: &&str| line.contains("receive-exact 9 = stalled");
        assert_eq!(text.lines().filter(is_wait).count(), 1, "{text}");
    }
}

// Returns what a link is without threads, as a page in a browser plays it.
fn in_turns(files: [&str; 2], scripts: [&[u8]; 2], delay: u64, output: LinkOutput) -> String {
    let link = Link {
        files,
        delay,
        output,
    };
    linked_in_turns(&link, scripts).unwrap()
}

#[test]
fn in_turns_it_is_the_same() {
    let folder = Path::new(EXAMPLES).join("link");
    for name in ["hello", "holds-back", "overrun"] {
        for delay in [1, 7, 1_000_000] {
            let files = ["left", "right"].map(|side| format!("{name}-{side}.script"));
            let scripts = files
                .each_ref()
                .map(|file| fs::read(folder.join(file)).unwrap());
            let files = files.each_ref().map(String::as_str);
            for (option, output) in [
                ("", LinkOutput::Text),
                ("--bounds", LinkOutput::TextWithBounds),
                ("--picture", LinkOutput::Picture),
            ] {
                let delayed = delay.to_string();
                let words = ["--delay", &delayed, files[0], files[1], option];
                let count = if option.is_empty() { 4 } else { 5 };
                let (_, text, _) = run_link(&words[..count], b"");
                let scripts = scripts.each_ref().map(Vec::as_slice);
                assert_eq!(
                    in_turns(files, scripts, delay, output),
                    text,
                    "{name} {delay}"
                );
            }
        }
    }
}

// What an end waits for may never come, or only behind the first horizon. And an end that waits long for what the other one sends is
// stopped before it is known, so that no call of it is played up to its limit.
#[test]
fn long_waits_end_in_turns() {
    let head = "chip 16550a 4 64\nlimit 100000\ninit 14 9600 nocts 00 8\n";
    let late = format!("{head}{}send 41\nflush\n", "next\ntick 50000\n".repeat(4));
    let waits = format!("{head}{}receive-exact 1\n", "receive-exact 9\n".repeat(3));
    let folder = PathBuf::from(env!("CARGO_TARGET_TMPDIR"));
    fs::write(folder.join("late.script"), &late).unwrap();
    let words = ["link", "late.script", "-"];
    let (status, text, errors) = parts(&run_in(&folder, GEESETRUNK, &words, waits.as_bytes()));
    assert_eq!(status, 0, "{errors}");
    let turns = in_turns(
        ["late.script", "-"],
        [late.as_bytes(), waits.as_bytes()],
        1,
        LinkOutput::Text,
    );
    assert_eq!(turns, text);
    assert!(text.contains("\nleft 2000"), "{text}");
}

// ---- random scripts

fn hex(random: &mut Random) -> String {
    let count = 1 + random.below(20);
    (0..count)
        .map(|_| format!("{:02x}", random.below(256)))
        .collect()
}

// A script with an `init` and some calls that neither discard what waits nor look into loopback.
fn any_script(random: &mut Random) -> String {
    let chip = random.pick(&["16550a", "16450", "16650", "16850"]);
    let ticks = random.pick(&[1, 4, 9]);
    let level = random.pick(&["off", "1", "14"]);
    let checks = random.pick(&["cts", "nocts"]);
    let mut script =
        format!("chip {chip} {ticks} 300\nlimit 40\ninit {level} 9600 {checks} 00 8\n");
    for _ in 0..random.below(30) {
        script += &match random.below(9) {
            0..=1 => format!("send {}\n", hex(random)),
            2 => format!("send-exact {}\n", hex(random)),
            3..=4 => format!("receive {}\n", random.below(20)),
            5 => format!("next\ntick {}\nnext\n", random.below(100)),
            6 => format!("set-rts {}\n", random.pick(&["on", "off"])),
            7 => format!("access\n{}\n", random.pick(&["lsr", "msr"])),
            _ => "flush\n".into(),
        };
    }
    // What is on its way by then may still come.
    script + "next\ntick 400\nnext\nreceive 64\n"
}

// Returns the bytes that hexadecimal digits are, and none for `-`.
fn bytes_of(digits: &str) -> Vec<u8> {
    let pairs = digits.as_bytes().chunks_exact(2);
    let pairs = pairs.map(|pair| std::str::from_utf8(pair).unwrap());
    pairs
        .map(|pair| u8::from_str_radix(pair, 16).unwrap())
        .collect()
}

// What an end has received, and its last lines by their names.
fn end_of<'a>(text: &'a str, name: &str) -> (Vec<u8>, HashMap<&'a str, &'a str>) {
    let (mut received, mut last) = (Vec::new(), HashMap::new());
    let lines = text
        .lines()
        .filter_map(|line| line.strip_prefix(name)?.strip_prefix(' '));
    for line in lines {
        match line.split_once(" = ") {
            Some((call, answer)) if call.contains(": receive ") => {
                received.extend(bytes_of(answer.strip_prefix("ok ").unwrap()));
            }
            Some(_) => {}
            None => last.extend(line.split_once(' ')),
        }
    }
    (received, last)
}

// What one end sent is what the other one received, less what was dropped: by the marks of the
// characters. A character that has not arrived is on the cable.
fn assert_carried(text: &str, from: &str, to: &str) -> usize {
    let ((_, sender), (received, receiver)) = (end_of(text, from), end_of(text, to));
    let sent = bytes_of(sender["wire"]);
    let marks: Vec<char> = receiver["marks"]
        .chars()
        .filter(|mark| *mark != '-')
        .collect();
    assert_eq!(sent.len(), marks.len(), "{text}");
    let marked = |wanted: char| -> Vec<u8> {
        let chosen = sent.iter().zip(&marks).filter(|(_, mark)| **mark == wanted);
        chosen.map(|(byte, _)| *byte).collect()
    };
    assert_eq!(marked('r'), received, "{text}");
    assert_eq!(marked('w'), bytes_of(receiver["waiting"]), "{text}");
    received.len()
}

#[test]
fn what_is_sent_is_received_less_what_is_dropped() {
    let folder = PathBuf::from(env!("CARGO_TARGET_TMPDIR"));
    let mut random = Random(16550);
    let mut received = 0;
    for _ in 0..60 {
        let left = any_script(&mut random);
        let right = any_script(&mut random);
        fs::write(folder.join("left.script"), &left).unwrap();
        let delay = (1 + random.below(30)).to_string();
        let words = ["link", "--delay", &delay, "left.script", "-"];
        let (status, text, errors) = parts(&run_in(&folder, GEESETRUNK, &words, right.as_bytes()));
        assert_eq!(status, 0, "{left}\n{right}\n{errors}");
        received += assert_carried(&text, "left", "right");
        received += assert_carried(&text, "right", "left");
        // A run has one outcome, whichever thread is faster.
        let again = parts(&run_in(&folder, GEESETRUNK, &words, right.as_bytes()));
        assert_eq!(again.1, text);
        let scripts = [left.as_bytes(), right.as_bytes()];
        let ticks = delay.parse().unwrap();
        assert_eq!(
            in_turns(["left.script", "-"], scripts, ticks, LinkOutput::Text),
            text
        );
        let drawn = [&words[..], &["--picture"]].concat();
        let (status, picture, _) = parts(&run_in(&folder, GEESETRUNK, &drawn, right.as_bytes()));
        assert_eq!(status, 0);
        assert_eq!(
            picture.matches("<g ").count(),
            picture.matches("</g>").count()
        );
    }
    assert!(received > 500, "{received}");
}

#[test]
fn a_delay_moves_what_arrives() {
    let tick_of = |delay: &str, answer: &str| {
        let (_, text, _) = run_link(&["--delay", delay, HELLO[0], HELLO[1]], b"");
        let line = text
            .lines()
            .find(|line| line.ends_with(answer))
            .unwrap()
            .to_owned();
        let tick = line.split([' ', ':']).nth(1).unwrap();
        tick.parse::<u64>().unwrap()
    };
    assert_eq!(
        tick_of("11", "ok 48656c6c6f") - tick_of("1", "ok 48656c6c6f"),
        10
    );
    // It goes there and back.
    assert_eq!(tick_of("21", "ok 4f4b") - tick_of("1", "ok 4f4b"), 40);
}

// ---- what flow control needs

// Plays two scripts over a cable with this delay, and returns the marks of the right end and its bounds.
fn bounded(name: &str, scripts: [&str; 2], delay: u64) -> (String, String) {
    let folder = PathBuf::from(env!("CARGO_TARGET_TMPDIR"));
    let left = format!("{name}.script");
    fs::write(folder.join(&left), scripts[0]).unwrap();
    let delay = delay.to_string();
    let words = ["link", "--bounds", "--delay", &delay, &left, "-"];
    let (status, text, errors) = parts(&run_in(&folder, GEESETRUNK, &words, scripts[1].as_bytes()));
    assert_eq!(status, 0, "{errors}");
    let (calls, bounds) = text.split_once("\nright marks ").unwrap();
    let (marks, bounds) = bounds.split_once('\n').unwrap();
    assert!(!calls.contains(" by "), "{calls}");
    let bounds = bounds.lines().filter(|line| line.contains(" by "));
    (
        marks.to_owned(),
        bounds.map(|line| format!("{line}\n")).collect(),
    )
}

// A receiver that reads nothing: so much is lost as does not fit, and nothing before the bound.
#[test]
fn the_bound_of_the_chips_is_the_least_delay_with_a_loss() {
    for (chip, level, size, held) in [
        ("16750", "14", 64, 56),
        ("16750", "8", 64, 32),
        ("16950", "14", 128, 120),
    ] {
        for ticks in [2, 4, 10] {
            let head = format!(
                "chip {chip} {ticks} 400\nlimit 400\ninit {level} 9600 nocts 00 8\nset-modem-control 22\n"
            );
            let bytes = "41".repeat(64);
            let left = format!(
                "{head}next\ntick 300\nnext\nsend-exact {bytes}\nsend-exact {bytes}\nsend-exact {bytes}\n"
            );
            let right = format!("{head}next\ntick 4000\nnext\n");
            // 2 d / t is then as many as the FIFO has room for beyond the level, one less, and one more.
            let least = (size - held) * ticks / 2;
            let is_lost = |delay: u64| {
                let (marks, bounds) = bounded("auto", [&left, &right], delay);
                let more = 2 * delay / ticks;
                let needed = held + 1 + more;
                let verdict = if needed <= size { "kept" } else { "not kept" };
                let line = format!(
                    "left to right by the chips: {held} + 1 + {more} = {needed}, FIFO {size}: {verdict}\n"
                );
                assert!(bounds.starts_with(&line), "{bounds}");
                assert_eq!(needed > size, marks.contains('x'), "{bounds}{marks}");
                marks.contains('x')
            };
            assert!(!is_lost(least - 1), "{chip} {level} {ticks}");
            assert!(is_lost(least), "{chip} {level} {ticks}");
        }
    }
}

// The right end takes nothing, and tells XOFF with so high a mark. The left one holds its ring once it obeys.
#[test]
fn the_bound_of_xoff_is_by_what_comes_until_it_is_obeyed() {
    let script = |init: &str, calls: &str| {
        let rings = "chip 16550a 4 400\nlimit 200\nrings 64 64\n";
        format!("{rings}init {init} 9600 nocts {calls}")
    };
    let serves = |calls: &str| format!("next\ntick 20\nnext\nhandle 8\n{calls}\n").repeat(30);
    let bytes = "41".repeat(64);
    let left = script(
        "1",
        &format!("0b 8\nqueue {bytes}\n{}", serves("obey-xoff\nhandle 8")),
    );
    for (mark, verdict) in [(40, "kept"), (10, "not kept")] {
        let right = script(
            "1",
            &format!("0b 8\n{}", serves(&format!("adjust-xoff {mark} 64"))),
        );
        let (marks, bounds) = bounded(&format!("xoff-{mark}"), [&left, &right], 3);
        assert!(!marks.contains('x'), "{marks}");
        let (sum, compared) = bounds.split_once(" = ").unwrap();
        let parts = sum.strip_prefix("left to right by XOFF: ").unwrap();
        let parts: Vec<u32> = parts
            .split(" + ")
            .map(|part| part.parse().unwrap())
            .collect();
        let needed: u32 = parts.iter().sum();
        assert_eq!(compared, format!("{needed}, mark {mark}: {verdict}\n"));
        // No urgent byte, and one more in the transmitter than the FIFO holds.
        assert_eq!(parts[2..], [0, 1]);
        assert!(parts[0] > 0 && parts[1] > 0, "{bounds}");
    }
}

#[test]
fn a_picture_has_no_bounds() {
    let (status, _, errors) = run_link(&["--picture", "--bounds", HELLO[0], HELLO[1]], b"");
    let cause = "a picture has no bounds: leave one of the two out\n";
    assert_eq!((status, errors.as_str()), (2, cause));
}

#[test]
fn help_names_the_command() {
    let (_, help, _) = parts(&run(GEESETRUNK, &["--help"], b""));
    assert!(
        help.contains("\n  link         Plays two scripts"),
        "{help}"
    );
}
