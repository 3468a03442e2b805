//! The program `uart_port`, over a file in place of the ports of a machine.

mod common;

use common::{UART_PORT, parts, run_in};
use std::fs;
use std::path::{Path, PathBuf};

// A folder of this test, with the script and a copy of the ports.
fn folder(name: &str) -> PathBuf {
    let folder = std::env::temp_dir().join(format!("uart_port-{name}-{}", std::process::id()));
    fs::create_dir_all(&folder).unwrap();
    let data = Path::new(env!("CARGO_MANIFEST_DIR")).join("tests/port");
    for file in ["calls.script", "calls.out", "ports"] {
        fs::copy(data.join(file), folder.join(file)).unwrap();
    }
    folder
}

#[test]
fn calls_over_a_file_of_ports() {
    let folder = folder("calls");
    let words = [
        "10",
        "calls.script",
        "--device",
        "ports",
        "--trace",
        "trace",
    ];
    let (status, answers, errors) = parts(&run_in(&folder, UART_PORT, &words, b""));
    assert_eq!((status, errors.as_str()), (0, ""));
    assert_eq!(
        answers,
        fs::read_to_string(folder.join("calls.out")).unwrap()
    );
    let trace = fs::read_to_string(folder.join("trace")).unwrap();
    assert!(trace.starts_with("fresh\n# limit "), "{trace}");
    // Each answer that is printed is one of the trace, but for those of `next`.
    let script = fs::read_to_string(folder.join("calls.script")).unwrap();
    let calls = script
        .lines()
        .skip(1)
        .filter(|line| !line.is_empty() && !line.starts_with("limit"));
    let traced: Vec<_> = calls
        .zip(answers.lines())
        .filter(|(call, _)| *call != "next")
        .flat_map(|(call, answer)| [call.to_string(), format!("= {answer}")])
        .collect();
    let is_access = |line: &&str| line.starts_with("r ") || line.starts_with("w ");
    let lines: Vec<_> = trace
        .lines()
        .skip(2)
        .filter(|line| !is_access(line))
        .collect();
    assert_eq!(lines, traced);
    fs::remove_dir_all(folder).unwrap();
}

#[test]
fn the_ports_of_a_file_that_is_too_short() {
    let folder = folder("short");
    let words = ["4000", "calls.script", "--device", "ports"];
    let (status, answers, errors) = parts(&run_in(&folder, UART_PORT, &words, b""));
    assert_eq!((status, answers.as_str()), (2, ""));
    assert_eq!(errors, "port 4007: failed to fill whole buffer\n");
    fs::remove_dir_all(folder).unwrap();
}

#[test]
fn nothing_is_opened_for_a_script_that_is_refused() {
    let folder = folder("refused");
    for (script, line) in [
        (
            &b"chip 16450 4 64\ntick 1\n"[..],
            "line 2: events cannot be played on a real chip\n",
        ),
        (b"chip 16450 4 64\nsend 4\n", "line 2: bad hex\n"),
    ] {
        let words = ["10", "-", "--device", "nowhere", "--trace", "trace"];
        let output = run_in(&folder, UART_PORT, &words, script);
        assert_eq!(parts(&output), (1, String::new(), line.into()));
        assert!(!folder.join("trace").exists());
    }
    let words = ["10", "calls.script", "--device", "nowhere"];
    let (status, _, errors) = parts(&run_in(&folder, UART_PORT, &words, b""));
    assert_eq!(status, 2);
    assert_eq!(
        errors,
        "the device cannot be opened: No such file or directory (os error 2)\n"
    );
    fs::remove_dir_all(folder).unwrap();
}
