//! A reset of the machine cuts a recording: each boot is judged by itself, and neither a driver nor a chip is blamed for what was before.

mod common;

use common::{GEESETRUNK, parts, run};

// A boot as QEMU logs it, with what `-d cpu_reset` writes in front.
const BOOT: &str = "CPU Reset (CPU 0)\nEAX=00000000 EBX=00000000\nCS =f000 000f0000 0000ffff 00009b00\n\
     serial_read read addr 0x02 val 0x02\nserial_write write addr 0x03 val 0x83\nserial_write write addr 0x00 val 0x01\n\
     serial_write write addr 0x01 val 0x00\nserial_write write addr 0x03 val 0x03\nserial_write write addr 0x02 val 0x07\n\
     serial_read read addr 0x02 val 0xc1\nserial_read read addr 0x05 val 0x60\nserial_write write addr 0x00 val 0x41\n";

fn told(command: &[&str], log: &str) -> (i32, String) {
    let (status, text, error) = parts(&run(GEESETRUNK, command, log.as_bytes()));
    assert_eq!(error, "", "{log}");
    (status, text)
}

fn last_of(text: &str) -> &str {
    text.lines().next_back().unwrap_or_default()
}

#[test]
fn a_log_with_resets_has_each_boot_by_itself() {
    let log = BOOT.repeat(4);
    for (command, last) in [
        ("audit", "-: 48 lines, with resets, 0 warnings"),
        ("replay", "-: 48 lines, with resets, 0 differences"),
    ] {
        let (status, text) = told(&[command], &log);
        assert_eq!((status, last_of(&text)), (0, last), "{text}");
    }
    // Without them it is not known whether the chip was reset.
    let cut: Vec<_> = log
        .lines()
        .filter(|line| line.starts_with("serial"))
        .collect();
    let (status, text) = told(&["replay"], &(cut.join("\n") + "\n"));
    let last = "-: 36 lines, with accesses alone, 0 differences, 3 undecided";
    assert_eq!((status, last_of(&text)), (0, last), "{text}");
}

#[test]
fn what_is_open_at_a_reset_is_no_fault() {
    // The latch is open, a frame goes out, an interrupt waits, and a byte was not read.
    let before = "r 2 c1\nw 4 0b\nw 1 05\nw 3 03\na 00 41\nr 2 c4\nw 0 41\nw 3 83\n";
    let after = "r 5 60\nw 0 41\nw 3 02\nr 2 01\nw 2 07\n";
    let (status, text) = told(&["audit"], &format!("{before}z\n{after}"));
    assert_eq!(status, 0, "{text}");
    assert!(!text.contains("warning:"), "{text}");
    let (status, text) = told(&["audit"], &format!("{before}{after}"));
    assert_eq!(status, 1, "{text}");
    let (status, text) = told(&["replay"], &format!("{before}z\n{after}"));
    assert_eq!(status, 0, "{text}");
}

#[test]
fn a_chip_that_forgets_without_a_reset_is_wrong() {
    // A recording that has resets has all of them.
    let (status, text) = told(&["replay"], "z\nw 2 07\nr 2 c1\nr 2 01\n");
    assert_eq!(status, 1, "{text}");
    assert!(text.contains("[fifo-bits]"), "{text}");
}

#[test]
fn a_reset_is_printed_as_a_line_of_a_recording() {
    let (status, text) = told(&["import"], BOOT);
    assert_eq!((status, text.lines().next()), (0, Some("z")), "{text}");
    assert_eq!(told(&["audit"], &text).0, 0);
    let (_, text) = told(&["show"], "r 5 60\nz @17\nr 5 60\n");
    assert_eq!(
        text.lines().nth(1),
        Some("       2  z the chip was reset"),
        "{text}"
    );
    let (status, text) = told(
        &["timeline", "--recording", "--text", "-"],
        "w 3 83\nr 5 60\nz\nw 0 41\n",
    );
    assert_eq!(status, 0, "{text}");
    assert!(!text.contains("sent-into-divisor"), "{text}");
}

#[test]
fn what_only_looks_like_a_reset_is_refused() {
    for line in ["zz", "z 1", "z @", "z @x", "z @18446744073709551616"] {
        let (status, _, error) = parts(&run(
            GEESETRUNK,
            &["audit"],
            format!("r 5 60\n{line}\n").as_bytes(),
        ));
        assert_eq!(status, 2, "{line}: {error}");
        assert!(error.starts_with("-:2:1"), "{error}");
    }
}
