//! At each limit of a script the last that is accepted, and the first that is not.

use crate::{HEADER, assert_told, told};
use uart_calls::CALL_BYTES;
use uart_language::limits::{MOST_BYTES, MOST_LINES};

/// As many lines as may follow the first.
const LINES_AFTER_HEADER: usize = MOST_LINES as usize - 1;

/// Asserts that in each of these pairs the first is a script after a beginning, and the second is reported so.
#[track_caller]
fn assert_limits(front: &str, pairs: &[(&str, &str)], want: &str) {
    for &(fits, exceeds) in pairs {
        assert_told(front, &[(fits, "a script"), (exceeds, want)]);
    }
}

/// At each end of a range the last number that is accepted, and the first that is not.
const NUMBERS: &[(&str, &str)] = &[
    ("limit 1", "limit 0"),
    ("limit 1000000", "limit 1000001"),
    ("tick 0", "tick -1"),
    ("tick 65535", "tick 65536"),
    ("tick 0000000004", "tick 00000000004"),
    ("init off 1 cts 00 8", "init off 0 cts 00 8"),
    ("init 1 4294967295 cts 00 8", "init 1 4294967296 cts 00 8"),
    ("init off 1 cts 00 5", "init off 1 cts 00 4"),
    ("init off 1 cts 00 8", "init off 1 cts 00 9"),
    ("receive 0", "receive -1"),
    ("receive 64", "receive 65"),
    ("receive-exact 0", "receive-exact -1"),
    ("receive-exact 64", "receive-exact 65"),
    ("read 0", "read -1"),
    ("read 64", "read 65"),
];

/// The same in the first line.
const CHIP_NUMBERS: &[(&str, &str)] = &[
    ("chip 16450 1 64", "chip 16450 0 64"),
    ("chip 16450 1000 64", "chip 16450 1001 64"),
    ("chip 16450 4 0", "chip 16450 4 -1"),
    ("chip 16450 4 65536", "chip 16450 4 65537"),
];

/// Lines of the fewest and of the most words that are accepted, and with a word less or more.
const WORDS: &[(&str, &str)] = &[
    ("limit 5", "limit"),
    ("limit 5", "limit 5 5"),
    ("tick 4", "tick"),
    ("tick 4", "tick 4 4"),
    ("arrive 41", "arrive"),
    ("arrive 41 p", "arrive 41 p p"),
    ("lines 1", "lines"),
    ("lines 1", "lines 1 1"),
    ("access", "access 1"),
    ("next", "next 1"),
    ("init off 9600 cts 00 8", "init off 9600 cts 00"),
    ("init off 9600 cts 00 8", "init off 9600 cts 00 8 8"),
    ("loopback", "loopback 1"),
    ("lsr", "lsr 1"),
    ("enable 02", "enable"),
    ("enable 02", "enable 02 02"),
    ("receive 1", "receive"),
    ("receive 1", "receive 1 1"),
    ("send 41", "send"),
    ("send 41", "send 41 41"),
    ("text 41", "text"),
    ("text 41", "text 41 41"),
];

/// The same of the first line.
const CHIP_WORDS: &[(&str, &str)] = &[
    ("chip 16450 4", "line 1: wrong count"),
    ("chip 16450 4 64 cut cut", "line 1: wrong count"),
    ("chip 16450 4 64 cut", "a script"),
    ("chip 16450 4 64 Cut", "line 1: bad word"),
];

#[test]
fn numbers_and_lines_have_limits() {
    assert_limits(HEADER, NUMBERS, "line 2: bad number");
    assert_limits("", CHIP_NUMBERS, "line 1: bad number");
    assert_limits(HEADER, WORDS, "line 2: wrong count");
    assert_told("", CHIP_WORDS);
}

#[test]
fn calls_have_at_most_64_bytes() {
    for word in ["send ", "send-exact ", "write ", "text "] {
        let most = format!("{word}{}", "41".repeat(CALL_BYTES));
        let more = format!("{most}41");
        let rows = [(&*most, "a script"), (&*more, "line 2: too many bytes")];
        assert_told(HEADER, &rows);
    }
}

#[test]
fn scripts_have_at_most_4096_lines() {
    let lines = format!("{HEADER}{}", "lsr\n".repeat(LINES_AFTER_HEADER));
    assert_eq!(told(&lines), "a script");
    assert_eq!(told(lines + "lsr\n"), "line 4097: too long");

    // A blank line counts, and what follows the last line feed is a line only if there is anything.
    let blank = format!("{HEADER}{}", "\n".repeat(LINES_AFTER_HEADER));
    assert_eq!(told(&blank), "a script");
    assert_eq!(told(blank + "\n"), "line 4097: too long");

    let faulty = format!("{HEADER}x\n{}", "lsr\n".repeat(MOST_LINES as usize));
    assert_eq!(told(faulty), "line 2: unknown word");
}

#[test]
fn scripts_have_at_most_65536_bytes() {
    // Lines of 16 bytes, like the first.
    let text = format!("{HEADER}{}", "send 4141414141\n".repeat(LINES_AFTER_HEADER));
    assert_eq!(text.len(), MOST_BYTES);
    assert_eq!(told(&text), "a script");
    assert_eq!(told(text + "\n"), "line 0: too long");

    // Too many bytes are reported before too many lines.
    let blank = format!("{HEADER}lsr\n{}", "\n".repeat(MOST_BYTES - 20));
    assert_eq!(blank.len(), MOST_BYTES);
    assert_eq!(told(&blank), "line 4097: too long");
    assert_eq!(told(blank + "\n"), "line 0: too long");
}
