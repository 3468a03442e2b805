//! What a log is, is known or named: no other language is read into it, and what is no log is refused by every command.

mod common;

use common::{EXAMPLES, GEESETRUNK, parts, run};
use std::fs;
use std::path::Path;

// The commands that read a log.
const COMMANDS: [&[&str]; 6] = [
    &["audit"],
    &["replay"],
    &["timeline", "--recording"],
    &["show"],
    &["stats"],
    &["import"],
];

fn recordings() -> Vec<Vec<u8>> {
    let folder = Path::new(EXAMPLES).join("recordings/kinds");
    let files = fs::read_dir(folder)
        .unwrap()
        .map(|file| file.unwrap().path());
    files
        .filter(|path| path.extension().is_some_and(|is| is == "recording"))
        .map(|path| fs::read(path).unwrap())
        .collect()
}

fn behind(first: &str, recording: &[u8]) -> Vec<u8> {
    [first.as_bytes(), b"\n", recording].concat()
}

#[test]
fn a_first_line_with_a_fault_is_a_fault() {
    for recording in recordings() {
        for first in [
            "R 5 6",
            "w 0x3 0x83",
            "r 5 60 0 @99999999999999999999",
            "r 5 \x1b[2J\x1b]0;x\x07 60",
        ] {
            let (status, text, error) =
                parts(&run(GEESETRUNK, &["audit"], &behind(first, &recording)));
            assert_eq!((status, text.as_str()), (2, ""), "{first}");
            assert!(error.starts_with("-:1:"), "{error}");
        }
    }
}

#[test]
fn a_comment_is_no_language() {
    for recording in recordings() {
        let (status, plain, _) = parts(&run(GEESETRUNK, &["audit"], &behind("#", &recording)));
        for comment in [
            "# what came in 5 60 times",
            "# write addr=0x3f8 val=0x41",
            "# op,offset,value",
            "# kvm_pio: pio_write at 0x3f8 size 1 count 1 val 0x1b",
        ] {
            let output = run(GEESETRUNK, &["audit"], &behind(comment, &recording));
            let (other, text, error) = parts(&output);
            assert_eq!((other, error.as_str()), (status, ""), "{comment}");
            assert_eq!(text, plain, "{comment}");
        }
    }
}

#[test]
fn what_is_no_log_is_refused_by_every_command() {
    let zeros = vec![0; 3_000_000];
    for (log, said) in [
        (&b""[..], "no line of it is an access"),
        (b"# nothing\n\n", "no line of it is an access"),
        (b"\x1f\x8b\x08\0\0\0\0\0", "compressed by gzip. Write zcat"),
        (b"\x28\xb5\x2f\xfd\x24", "compressed by zstd. Write zstdcat"),
        (b"\xff\xfer\0 \x005\0", "in UTF-16. Write iconv"),
        (b"\x7fELF\x02\x01", "it is a program"),
        (b"r -5 60\n", "-:1:3: "),
        (b"$timescale 1 us $end\n", "-:1:1: unknown word"),
        (&zeros, "-:1:"),
        (
            b"sshd[33]: read error 5 from 60\ncron[44]: write failed 2 07\n",
            "-:1:1: unknown word",
        ),
        (
            b"the guest boots\nit is up\nread addr=5 val=0x60\n",
            "1 of its first 3 lines are accesses in words, which is too few",
        ),
    ] {
        for command in COMMANDS {
            let (status, text, error) = parts(&run(GEESETRUNK, command, log));
            assert_eq!((status, text.as_str()), (2, ""), "{command:?} {error}");
            assert!(error.contains(said), "{command:?} {error}");
        }
    }
}

#[test]
fn a_guess_is_told_by_every_command() {
    let log = fs::read(Path::new(EXAMPLES).join("logs/monitor.words")).unwrap();
    let said = "read as words (a guess, by 12 of its first 13 lines; --format says it), with 12 lines of the chip, 1 left out";
    for command in COMMANDS {
        let words = [command, &["--port", "0x3f8"][..]].concat();
        let (_, text, error) = parts(&run(GEESETRUNK, &words, &log));
        assert!((text + &error).contains(said), "{command:?} {error}");
        let words = [&words[..], &["--format", "words"]].concat();
        let (_, text, error) = parts(&run(GEESETRUNK, &words, &log));
        assert!(!(text + &error).contains("a guess"), "{command:?} {error}");
    }
}

// No comment is printed: a terminal would do what it says.
#[test]
fn what_is_imported_is_what_was_judged() {
    let log = b"# \x1b]0;x\x07\n13@17.000125:serial_read read addr 0x05 val 0x60\nkvm_run_exit cpu_index 0\nr 5 60 # a\nx 3\n";
    let (status, text, error) = parts(&run(GEESETRUNK, &["import"], log));
    assert_eq!((status, error.as_str()), (0, ""));
    assert_eq!(text, "r 5 60 @17000125000\nr 5 60\nx 3\n");
}
