//! What a build needs that judges logs: known findings, colours that can be asked for, and an output that is told of if it is gone.

mod common;

use common::{EXAMPLES, GEESETRUNK, UART_SCRIPT, parts, run};
use std::env::temp_dir;
use std::fs;
use std::process::{Command, Stdio, id};

const WRONG: &str = "recordings/wrong-driver.recording";

#[test]
fn a_baseline_accepts_what_was_there() {
    let (status, baseline, _) = parts(&run(GEESETRUNK, &["audit", "--json", WRONG], b""));
    assert_eq!(status, 1);
    let file = temp_dir().join(format!("geesetrunk-{}.baseline", id()));
    fs::write(&file, &baseline).unwrap();
    let name = file.to_str().unwrap();
    let words = ["audit", "--baseline", name, WRONG];
    let (status, text, error) = parts(&run(GEESETRUNK, &words, b""));
    assert_eq!((status, error.as_str()), (0, ""), "{text}");
    assert_eq!(text.lines().count(), 1, "{text}");
    assert!(
        text.contains("0 warnings, ") && text.ends_with(" accepted\n"),
        "{text}"
    );
    for form in ["--json", "--sarif"] {
        let words = ["audit", "--baseline", name, form, WRONG];
        let (status, text, _) = parts(&run(GEESETRUNK, &words, b""));
        assert_eq!(status, 0);
        assert!(
            !text.contains("\"line\"") && !text.contains("ruleId"),
            "{text}"
        );
    }
    // One finding less in the baseline is one that is new.
    let lines: Vec<_> = baseline
        .lines()
        .filter(|line| !line.contains("sent-into-divisor"))
        .collect();
    fs::write(&file, lines.join("\n")).unwrap();
    let (status, text, _) = parts(&run(GEESETRUNK, &words, b""));
    assert_eq!(status, 1);
    assert!(
        text.contains("[sent-into-divisor]") && text.contains("1 warning, "),
        "{text}"
    );
    fs::write(&file, "{\"file\":\"a\"}\n").unwrap();
    let (status, _, error) = parts(&run(GEESETRUNK, &words, b""));
    fs::remove_file(&file).unwrap();
    assert_eq!(status, 2);
    assert!(error.contains(":1:13: something is missing"), "{error}");
}

#[test]
fn a_name_that_is_allowed_is_no_fault() {
    let names = "sent-beyond-room,received-discarded,sent-into-divisor";
    let (status, text, _) = parts(&run(GEESETRUNK, &["audit", "--allow", names, WRONG], b""));
    assert_eq!(status, 0);
    assert!(
        text.ends_with("32 lines, with accesses alone, 0 warnings, 4 accepted\n"),
        "{text}"
    );
    let words = ["audit", "--allow", "sent-beyond-rom", WRONG];
    let (status, _, error) = parts(&run(GEESETRUNK, &words, b""));
    assert_eq!(status, 2);
    assert!(
        error.contains("A similar one is sent-beyond-room"),
        "{error}"
    );
}

#[test]
fn colours_can_be_asked_for() {
    let coloured = |words: &[&str]| {
        let (_, text, error) = parts(&run(GEESETRUNK, words, b""));
        (text + &error).contains("\x1b[1")
    };
    assert!(coloured(&["audit", "--color", "always", WRONG]));
    assert!(coloured(&["check", "--color=always", "refused-tab.script"]));
    assert!(!coloured(&["audit", WRONG]));
    assert!(!coloured(&["audit", "--color", "never", WRONG]));
    let (status, _, error) = parts(&run(GEESETRUNK, &["audit", "--color", "red", WRONG], b""));
    assert_eq!(status, 2);
    assert!(error.contains("auto, always or never"), "{error}");
}

#[test]
fn several_files_are_shown_one_after_the_other() {
    let files = [WRONG, "recordings/wrong-latch.recording"];
    let (status, both, _) = parts(&run(GEESETRUNK, &["show", files[0], files[1]], b""));
    let alone = files.map(|file| parts(&run(GEESETRUNK, &["show", file], b"")).1);
    let [first, second] = files;
    assert_eq!(status, 0);
    assert_eq!(
        both,
        format!("{first}:\n{}{second}:\n{}", alone[0], alone[1])
    );
    let words = ["explain", "out2-off", "fifo-bits"];
    let (status, text, _) = parts(&run(GEESETRUNK, &words, b""));
    assert_eq!(status, 0);
    assert!(
        text.contains("out2-off (warning)") && text.contains("\nfifo-bits (difference)"),
        "{text}"
    );
    let (status, _, error) = parts(&run(
        GEESETRUNK,
        &["show", "--from", "9", "--to", "3", WRONG],
        b"",
    ));
    assert_eq!(status, 2);
    assert!(error.contains("--to is before --from"), "{error}");
}

// Runs a program in the folder of the examples with a stream that is closed.
fn without(stream: &str, program: &str, words: &[&str]) -> (Option<i32>, String) {
    let output = Command::new("sh")
        .args(["-c", &format!("exec \"$@\" {stream}"), "sh", program])
        .args(words)
        .current_dir(EXAMPLES)
        .stdin(Stdio::null())
        .output()
        .unwrap();
    let error = String::from_utf8_lossy(&output.stderr).into();
    (output.status.code(), error)
}

#[cfg(target_os = "linux")]
#[test]
fn a_closed_output_is_told() {
    for words in [
        &["play", "send.script"][..],
        &["trace", "send.script"],
        &["timeline", "send.script"],
        &["audit", WRONG],
        &["replay", WRONG],
        &["show", WRONG],
        &["stats", WRONG],
        &["import", WRONG],
        &["explain"],
        &["manual"],
        &["budget"],
        &["--help"],
        &["completions", "bash"],
    ] {
        let (status, error) = without(">&-", GEESETRUNK, words);
        let said = "standard output cannot be written: it is closed\n";
        assert_eq!((status, error.as_str()), (Some(2), said), "{words:?}");
        let (status, error) = without(">/dev/null", GEESETRUNK, words);
        assert!(status < Some(2), "{words:?} {error}");
    }
    let (status, error) = without(">&-", UART_SCRIPT, &[]);
    assert_eq!((status, error.as_str()), (Some(2), "write fault\n"));
}

#[cfg(target_os = "linux")]
#[test]
fn a_closed_input_is_told() {
    let (status, error) = without("<&-", GEESETRUNK, &["audit"]);
    assert_eq!(
        (status, error.as_str()),
        (Some(2), "- cannot be read: it is closed\n")
    );
    assert_eq!(without("<&-", UART_SCRIPT, &[]).0, Some(2));
}
