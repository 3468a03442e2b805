//! What a log cannot decide is no warning and no difference: a right driver and a right chip are not blamed for what a log does not have.

mod common;

use common::{GEESETRUNK, parts, run};

fn audited(command: &str, log: &str) -> (i32, String) {
    let (status, text, error) = parts(&run(GEESETRUNK, &[command], log.as_bytes()));
    assert_eq!(error, "", "{log}");
    (status, text)
}

fn last_of(text: &str) -> &str {
    text.lines().next_back().unwrap_or_default()
}

// A driver that enables the interrupt of an empty transmitter, does not set OUT2, and then sends so. QEMU's log has no level of the
// interrupt line.
fn sending(is_with_levels: bool, sends: &str) -> String {
    let log = format!("w 3 83\nw 0 01\nw 1 00\nw 3 03\nw 2 07\nw 4 03\nw 1 02\n{sends}");
    if is_with_levels {
        log.replace('\n', " 0\n")
    } else {
        log
    }
}

// As Xen does it: the interrupt is enabled early, each byte is written after a look that shows room, and OUT2 is set when the handler is
// connected.
#[test]
fn a_driver_that_polls_with_interrupts_enabled_is_not_blamed() {
    let polling = "r 5 20\nr 5 60\nw 0 41\n".repeat(50) + "w 4 0b\n";
    let in_bursts = format!("r 5 60\n{}", "w 0 41\n".repeat(16)).repeat(5);
    for (log, lines) in [(polling, 158), (in_bursts, 92)] {
        let (status, text) = audited("audit", &sending(false, &log));
        let last = format!("-: {lines} lines, with accesses alone, 0 warnings");
        assert_eq!((status, last_of(&text)), (0, last.as_str()), "{text}");
        let (status, text) = audited("audit", &sending(true, &log));
        let last = format!("-: {lines} lines, with levels, 0 warnings");
        assert_eq!((status, last_of(&text)), (0, last.as_str()), "{text}");
    }
}

// It waits for an interrupt that does not come. Only the level shows whether it does.
const BLIND: &str = "w 0 41\n";

#[test]
fn a_driver_that_does_not_look_waits_for_an_interrupt() {
    let (status, text) = audited("audit", &sending(false, BLIND));
    assert_eq!(status, 0, "{text}");
    assert!(
        text.contains("undecided: ") && text.contains("[out2-off]"),
        "{text}"
    );
    let last = "-: 8 lines, with accesses alone, 0 warnings, 1 undecided";
    assert_eq!(last_of(&text), last);
    let (status, text) = audited("audit", &sending(true, BLIND));
    assert_eq!(
        (status, last_of(&text)),
        (1, "-: 8 lines, with levels, 1 warning")
    );
    // A byte that is received says that it was waited for.
    let (status, text) = audited("audit", &sending(true, "w 1 01\nr 5 61\nr 0 41\n"));
    assert_eq!(status, 1, "{text}");
    assert!(text.contains("[out2-off]"), "{text}");
}

#[test]
fn without_times_nobody_knows_what_is_going_out() {
    for (change, name) in [
        ("w 3 02", "frame-changed"),
        ("w 3 83\nw 0 0c\nw 1 00\nw 3 03", "divisor-changed"),
        ("w 2 05", "transmitter-emptied"),
    ] {
        let set_up = "w 3 83\nw 0 01\nw 1 00\nw 3 03\nw 2 07\nr 2 c1\nw 4 0b\nr 5 60\n";
        let (status, text) = audited("audit", &format!("{set_up}w 0 41\n{change}\n"));
        assert_eq!(status, 0, "{text}");
        let said = format!("Only times would decide it, and this log has none [{name}]");
        assert!(text.contains(&said), "{text}");
        let change = change.replace('\n', " @2001\n");
        let timed = format!("{set_up}w 0 41 @1000\n{change} @2001\n");
        let (status, text) = audited("audit", &timed);
        assert_eq!(status, 1, "{text}");
        assert!(text.contains(&format!("[{name}]")), "{text}");
        // With time enough nothing is going out.
        let later = timed.replace("@2001", "@900002000");
        assert_eq!(audited("audit", &later).0, 0, "{later}");
    }
}

// A machine that is reset turns the FIFOs off, and no access says so.
#[test]
fn a_reboot_is_no_fault_of_the_chip() {
    let boot = "r 2 02\nw 2 07\nr 2 c1\nr 5 60\nw 0 41\n";
    let (status, text) = audited("replay", &boot.repeat(4));
    assert_eq!(status, 0, "{text}");
    assert!(
        text.contains("A reset of the machine does the same"),
        "{text}"
    );
    assert_eq!(
        last_of(&text),
        "-: 20 lines, with accesses alone, 0 differences, 3 undecided"
    );
    // A chip that has not shown its FIFOs since they were turned on is none that was reset.
    for wrong in [
        "w 2 07\nr 2 01\n",
        "w 2 07\nr 2 c1\nw 2 07\nr 2 01\n",
        "w 2 07\nr 2 c1\nr 2 41\n",
    ] {
        assert_eq!(audited("replay", wrong).0, 1, "{wrong}");
    }
}

// GRUB turns the FIFOs on and never reads ISR. The firmware of the next boot reads it before it sets anything up.
#[test]
fn a_reboot_behind_a_driver_that_never_read_isr_is_no_fault_of_the_chip() {
    let boot = "w 1 02\nr 1 02\nr 2 02\nw 1 00\nw 3 80\nw 0 0c\nw 1 00\nw 3 03\nw 2 07\nw 4 03\nr 5 60\nw 0 41\n";
    let (status, text) = audited("replay", &boot.repeat(3));
    assert_eq!(status, 0, "{text}");
    assert!(text.contains("-:15: undecided: ISR reads 02"), "{text}");
    assert_eq!(
        last_of(&text),
        "-: 36 lines, with accesses alone, 0 differences, 2 undecided"
    );
    // A set-up that has begun, and one that ends the recording, say as little.
    let in_use = "w 3 03\nw 2 07\nr 5 60\nw 0 41\n";
    for behind in [
        "w 3 80\nw 3 03\nr 2 01\nr 5 60\nw 0 41\n",
        "w 1 02\nr 2 02\n",
    ] {
        let (status, text) = audited("replay", &format!("{in_use}{behind}"));
        assert_eq!(status, 0, "{text}");
        assert!(text.ends_with(", 0 differences, 1 undecided\n"), "{text}");
    }
    // Whoever goes on to move bytes without a set-up has not started anew.
    for behind in [
        "r 2 01\nr 5 60\nw 0 41\n",
        "w 1 01\nr 2 04\nr 5 61\nr 0 41\nw 3 03\n",
    ] {
        let (status, text) = audited("replay", &format!("{in_use}{behind}"));
        assert_eq!(status, 1, "{text}");
        assert!(text.contains(": difference: ISR reads 0"), "{text}");
    }
}

#[test]
fn what_is_undecided_is_said_in_each_form() {
    let log = sending(false, BLIND);
    let (status, text, _) = parts(&run(GEESETRUNK, &["audit", "--json"], log.as_bytes()));
    assert_eq!(status, 0);
    assert!(
        text.contains("\"kind\":\"undecided\",\"name\":\"out2-off\""),
        "{text}"
    );
    let (status, text, _) = parts(&run(GEESETRUNK, &["audit", "--sarif"], log.as_bytes()));
    assert_eq!(status, 0);
    assert!(
        text.contains("\"ruleId\":\"out2-off\",\"level\":\"note\""),
        "{text}"
    );
}
