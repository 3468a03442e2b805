//! The command `census`: what it says of recordings, and of files in place of the ports of a machine.

mod common;

use common::{EXAMPLES, GEESETRUNK, parts, run, run_in};
use geesetrunk::census::RULES;
use std::fs;
use std::path::{Path, PathBuf};

fn recordings() -> Vec<PathBuf> {
    let folder = Path::new(EXAMPLES).join("census/recordings");
    let mut files: Vec<PathBuf> = fs::read_dir(folder)
        .unwrap()
        .map(|file| file.unwrap().path())
        .collect();
    files.sort();
    files
}

fn judge(file: &Path, words: &[&str]) -> (i32, String, String) {
    let file = file.to_str().unwrap();
    let words: Vec<&str> = ["census", "--judge", file]
        .iter()
        .chain(words)
        .copied()
        .collect();
    parts(&run(GEESETRUNK, &words, b""))
}

// What a program of examples/census wrote in front of its recording: `scratch holds 0f`.
fn rows_of(text: &str) -> Vec<(String, String, String)> {
    let rows = text.lines().filter_map(|line| line.strip_prefix("# "));
    rows.filter(|row| !row.starts_with("end "))
        .map(|row| {
            let words: Vec<&str> = row.split(' ').collect();
            let value = words.get(2).copied().unwrap_or_default();
            (words[0].into(), words[1].into(), value.into())
        })
        .collect()
}

// The rows that `--json` prints. A number of characters may stand before `others`, for which the programs in C add 1000.
fn judged_rows(text: &str) -> Vec<(String, String, String)> {
    let part = |line: &str, name: &str| {
        let begin = format!("\"{name}\":\"");
        let rest = line.split(&begin).nth(1).unwrap_or_default();
        rest.split('"').next().unwrap_or_default().to_owned()
    };
    let rules = text.lines().filter(|line| line.starts_with("{\"rule\""));
    rules
        .map(|line| {
            let value = part(line, "value");
            let value = match value.strip_suffix(", others") {
                Some(count) => (1000 + count.parse::<u32>().unwrap()).to_string(),
                None => value.split(' ').next().unwrap_or_default().into(),
            };
            (part(line, "rule"), part(line, "seen"), value)
        })
        .collect()
}

#[test]
fn the_rows_of_each_recording_are_made_anew() {
    let files = recordings();
    assert!(files.len() >= 10, "{files:?}");
    for file in files {
        let (status, out, errors) = judge(&file, &["--json"]);
        assert_eq!((status, errors.as_str()), (1, ""), "{}", file.display());
        let text = fs::read_to_string(&file).unwrap();
        let rows = rows_of(&text);
        assert_eq!(rows.len(), RULES.len());
        assert_eq!(judged_rows(&out), rows, "{}", file.display());
    }
}

// Whoever sends a recording may write what they like in front of it.
#[test]
fn what_a_recording_says_of_itself_counts_for_nothing() {
    let file = Path::new(EXAMPLES).join("census/recordings/vm-superio.recording");
    let text = fs::read_to_string(&file)
        .unwrap()
        .replace(" differs ", " holds ");
    let claims = std::env::temp_dir().join(format!("census-claims-{}", std::process::id()));
    fs::write(&claims, text).unwrap();
    let (status, out, _) = judge(&claims, &[]);
    fs::remove_file(&claims).unwrap();
    assert_eq!(status, 1);
    assert!(
        out.contains("22 hold, 20 differ, 16 cannot be seen\n"),
        "{out}"
    );
}

#[test]
fn the_last_line_says_what_it_comes_to() {
    let last = |name: &str| {
        let file = Path::new(EXAMPLES).join(format!("census/recordings/{name}.recording"));
        let (_, out, _) = judge(&file, &[]);
        out.lines().last().unwrap().to_owned()
    };
    let holds = "what is proved holds here as far as loopback shows";
    assert_eq!(last("live"), holds);
    assert_eq!(last("device"), holds);
    assert_eq!(
        last("qemu-isa"),
        "what is proved need not hold here: the rings"
    );
}

#[test]
fn what_is_no_census_is_refused_with_its_line() {
    let file = Path::new(EXAMPLES).join("census/recordings/live.recording");
    let text = fs::read_to_string(&file).unwrap();
    let lines: Vec<&str> = text.lines().collect();
    let first = lines
        .iter()
        .position(|line| line.starts_with("r "))
        .unwrap();
    let changed = |index: usize, line: &str| {
        let mut lines = lines.clone();
        lines[index] = line;
        lines.join("\n")
    };
    let rows = [
        (
            lines[..first + 9].join("\n"),
            format!("ends behind line {}", first + 9),
        ),
        (
            changed(first, "r 3 00 2"),
            format!(":{}: the access has no time", first + 1),
        ),
        (
            changed(first + 3, "w 1 0f 2 @999424"),
            format!(
                ":{}: this is no recording of a census: a census has 'w 1 00' here",
                first + 4
            ),
        ),
        (
            format!("{text}r 3 00 2 @99999999999\n"),
            format!(
                ":{}: this is no recording of a census: a census is over here",
                lines.len() + 1
            ),
        ),
    ];
    for (index, (text, wanted)) in rows.into_iter().enumerate() {
        let path = std::env::temp_dir().join(format!("census-{index}-{}", std::process::id()));
        fs::write(&path, text).unwrap();
        let (status, out, errors) = judge(&path, &[]);
        fs::remove_file(&path).unwrap();
        assert_eq!((status, out.as_str()), (2, ""));
        assert!(
            errors.contains(&wanted) && errors.lines().count() == 1,
            "{wanted}: {errors}"
        );
    }
}

fn ports(name: &str, byte: u8) -> PathBuf {
    let folder = std::env::temp_dir().join(format!("census-{name}-{}", std::process::id()));
    fs::create_dir_all(&folder).unwrap();
    fs::write(folder.join("ports"), vec![byte; 0x20]).unwrap();
    folder
}

// No chip: nothing is changed, and one line says why.
#[test]
fn a_file_in_place_of_a_chip_is_told_in_one_line() {
    let cases = [
        (
            "nobody",
            0xff,
            "10",
            2,
            "port 10: nobody is there; nothing was written\n",
        ),
        (
            "stuck",
            0x00,
            "10",
            5,
            "port 10: the port is in use; its divisor latch is open, or it is sending; nothing is changed\n",
        ),
        (
            "served",
            0x01,
            "10",
            5,
            "port 10 is in use: its interrupts are enabled; nothing was written\n",
        ),
        (
            "short",
            0x00,
            "1e",
            2,
            "port 1e: an access failed, and the chip may not be as it was: failed to fill whole buffer\n",
        ),
    ];
    for (name, byte, port, status, line) in cases {
        let folder = ports(name, byte);
        let words = ["census", port, "--device", "ports", "--record", "chip"];
        let (found, out, errors) = parts(&run_in(&folder, GEESETRUNK, &words, b""));
        assert_eq!(
            (found, out.as_str(), errors.as_str()),
            (status, "", line),
            "{name}"
        );
        assert_eq!(
            fs::read(folder.join("ports")).unwrap(),
            vec![byte; 0x20],
            "{name}"
        );
        fs::remove_dir_all(folder).unwrap();
    }
}

#[test]
fn a_device_or_recording_that_cannot_be_opened_is_told() {
    let folder = ports("unopened", 0xff);
    let rows = [
        (
            ["census", "10", "--device", "none"],
            "the device cannot be opened: No such file or directory (os error 2)\n",
        ),
        (
            ["census", "fff9", "--device", "ports"],
            "port fff9 is too high: a chip has eight ports, so its first one is at most fff8\n",
        ),
        (
            ["census", "10", "--judge", "ports"],
            "--judge reads a recording and asks no port: leave the port out\n",
        ),
        (
            ["census", "--judge", "ports", "--even-if-used"],
            "--judge reads a recording and asks no port: leave --even-if-used out\n",
        ),
    ];
    for (words, line) in rows {
        let (status, out, errors) = parts(&run_in(&folder, GEESETRUNK, &words, b""));
        assert_eq!((status, out.as_str(), errors.as_str()), (2, "", line));
    }
    let words = ["census", "10", "--device", "ports", "--record", "none/chip"];
    let (status, _, errors) = parts(&run_in(&folder, GEESETRUNK, &words, b""));
    assert_eq!(
        (status, errors.as_str()),
        (
            2,
            "none/chip cannot be written: No such file or directory (os error 2)\n"
        )
    );
    fs::remove_dir_all(folder).unwrap();
}

#[test]
fn each_rule_has_its_place() {
    for (place, words) in RULES.iter().enumerate() {
        assert_eq!(words.rule as usize, place, "{}", words.name);
    }
}
