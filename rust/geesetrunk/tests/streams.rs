//! Files and pipes: those that fail, end early, never end, or still grow.

mod common;

use common::{EXAMPLES, GEESETRUNK, UART_SCRIPT, parts, run};
use std::fs::{self, File};
use std::io::{self, BufRead, BufReader, Read, Write};
use std::process::{Child, Command, Stdio};
use std::sync::mpsc;
use std::thread;
use std::time::Duration;

fn started(program: &str, words: &[&str], stdout: Stdio) -> Child {
    Command::new(program)
        .args(words)
        .current_dir(EXAMPLES)
        .stdin(Stdio::piped())
        .stdout(stdout)
        .stderr(Stdio::piped())
        .spawn()
        .unwrap()
}

// A script whose trace is longer than any pipe holds.
const LONG: &[u8] = b"chip 16550a 4 64\nlimit 20000\ninit 14 9600 cts 00 8\nsend-exact 41\n";

// The end of a pipe whose reader is gone. Another test that starts a program meanwhile copies the
// reader, and keeps it until the program begins, which on a busy machine takes a while. So this waits
// until a write finds nobody. The pipe has room for all these bytes.
fn broken_pipe() -> Stdio {
    let (reader, mut writer) = io::pipe().unwrap();
    drop(reader);
    for _ in 0..60_000 {
        match writer.write_all(b"x") {
            Ok(()) => thread::sleep(Duration::from_millis(1)),
            Err(cause) => {
                assert_eq!(cause.kind(), io::ErrorKind::BrokenPipe);
                return writer.into();
            }
        }
    }
    panic!("another process keeps the reader")
}

#[test]
fn a_reader_that_is_gone_ends_the_program_silently() {
    for words in [
        &["trace", "stall.script"][..],
        &["replay", "recordings/wrong-latch.recording"],
        &["replay", "--json", "recordings/wrong-latch.recording"],
        &[
            "timeline",
            "--recording",
            "recordings/wrong-latch.recording",
        ],
        &["--help"],
    ] {
        let output = started(GEESETRUNK, words, broken_pipe())
            .wait_with_output()
            .unwrap();
        // As a shell shows a program that SIGPIPE has ended.
        assert_eq!(
            parts(&output),
            (141, String::new(), String::new()),
            "{words:?}"
        );
    }
}

#[test]
fn a_reader_that_takes_a_part_gets_it() {
    let mut child = started(GEESETRUNK, &["trace"], Stdio::piped());
    child.stdin.take().unwrap().write_all(LONG).unwrap();
    let mut first = [0; 24];
    child.stdout.take().unwrap().read_exact(&mut first).unwrap();
    assert_eq!(&first, b"init 14 9600 cts 00 8\nr ");
    assert_eq!(child.wait().unwrap().code(), Some(141));
}

// The proved program reports a failed write, whatever its cause, and so does this one.
#[test]
fn uart_script_reports_that_its_reader_is_gone() {
    let mut child = started(UART_SCRIPT, &[], broken_pipe());
    child
        .stdin
        .take()
        .unwrap()
        .write_all(b"chip 16450 4 64\n")
        .unwrap();
    let output = child.wait_with_output().unwrap();
    assert_eq!(parts(&output), (2, String::new(), "write fault\n".into()));
}

#[test]
fn a_full_disk_is_an_error() {
    let full = || Stdio::from(File::options().write(true).open("/dev/full").unwrap());
    let cause = "standard output cannot be written: No space left on device (os error 28)\n";
    for words in [
        &["trace", "stall.script"][..],
        &["audit", "recordings/wrong-driver.recording"],
        &["audit", "--json", "recordings/wrong-driver.recording"],
        &[
            "timeline",
            "--recording",
            "recordings/wrong-driver.recording",
        ],
        &["timeline", "--recording", "recordings/uboot-x86.recording"],
        &["manual"],
        &["budget"],
    ] {
        let child = started(GEESETRUNK, words, full());
        let output = child.wait_with_output().unwrap();
        assert_eq!(
            parts(&output),
            (2, String::new(), cause.into()),
            "{words:?}"
        );
    }
}

// A file that is open for reading alone is no standard output. The standard library would be silent.
#[test]
fn an_output_that_cannot_be_written_is_an_error() {
    let output = started(
        GEESETRUNK,
        &["--version"],
        File::open("/dev/null").unwrap().into(),
    )
    .wait_with_output()
    .unwrap();
    let (status, _, errors) = parts(&output);
    assert_eq!(status, 2);
    assert_eq!(
        errors,
        "standard output cannot be written: Bad file descriptor (os error 9)\n"
    );
}

// Each finding is there before the recording goes on.
#[test]
fn findings_of_a_recording_that_still_grows() {
    let mut child = started(GEESETRUNK, &["replay", "--all", "-"], Stdio::piped());
    let mut recording = child.stdin.take().unwrap();
    let lines = BufReader::new(child.stdout.take().unwrap()).lines();
    let (sender, found) = mpsc::channel();
    thread::spawn(move || {
        lines
            .map_while(Result::ok)
            .try_for_each(|line| sender.send(line))
    });
    // A busy machine may take long. The time is only there so that a finding which never comes ends the test.
    let next = || found.recv_timeout(Duration::from_secs(600)).unwrap();
    recording.write_all(b"w 3 03\nr 3 13\n").unwrap();
    assert!(next().starts_with("-:2: difference: LCR reads 13"));
    recording.write_all(b"w 7 5a\nr 7 00\n").unwrap();
    assert!(next().starts_with("-:4: difference: SCR reads 00"));
    drop(recording);
    assert_eq!(next(), "-: 4 lines, with accesses alone, 2 differences");
    assert_eq!(child.wait().unwrap().code(), Some(1));
}

#[test]
fn input_without_end_is_refused() {
    for (words, cause) in [
        (
            &["check", "/dev/zero"][..],
            "/dev/zero: too long: a script has at most 65536 bytes\n",
        ),
        (
            &["audit", "/dev/zero"],
            "/dev/zero:1:65536: too long: expected is a line of at most 65535 bytes\n",
        ),
    ] {
        let (_, text, errors) = parts(&run(GEESETRUNK, words, b""));
        assert_eq!((text.as_str(), errors.as_str()), ("", cause));
    }
}

// The most memory of a run, in kilobytes, as Linux counts it.
fn most_memory(words: &[&str], input: &[u8]) -> Option<u64> {
    let mut child = started(GEESETRUNK, words, Stdio::piped());
    let status = format!("/proc/{}/status", child.id());
    child.stdin.take().unwrap().write_all(input).unwrap();
    let mut out = child.stdout.take().unwrap();
    let (mut most, mut part) = (None, vec![0; 1 << 16]);
    while out.read(&mut part).unwrap() > 0 {
        let text = fs::read_to_string(&status).unwrap_or_default();
        let line = text.lines().find_map(|line| line.strip_prefix("VmHWM:"));
        most = most.max(line.and_then(|line| line.trim().strip_suffix(" kB")?.parse().ok()));
    }
    assert!(child.wait().unwrap().success());
    most
}

// Two waits of 200,000 polls each. If they were kept, they would take more than twice as much.
#[test]
fn long_waits_take_little_memory() {
    let mut script = b"chip 16550a 4 64\nlimit 100000\ninit 14 9600 cts 00 8\n".to_vec();
    script.extend(b"send-exact 41\n".repeat(2));
    for words in [&["trace"][..], &["timeline"], &["timeline", "--text"]] {
        if let Some(kilobytes) = most_memory(words, &script) {
            assert!(kilobytes < 20_000, "{words:?} takes {kilobytes} kB");
        }
    }
}
