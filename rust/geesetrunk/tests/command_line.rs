//! Command lines: what they request, and what is said of wrong ones.

mod common;

use common::{EXAMPLES, GEESETRUNK, UART_PORT, parts, run};
use std::fs;
use std::path::Path;

// Fails unless a program ends with this status, and prints on standard error what begins so.
#[track_caller]
fn assert_ends(program: &str, line: &str, status: i32, errors: &str) {
    let words: Vec<&str> = line.split(' ').filter(|word| !word.is_empty()).collect();
    let (found, _, printed) = parts(&run(program, &words, b""));
    assert_eq!(found, status, "{line}: {printed}");
    assert!(printed.starts_with(errors), "{line}: {printed}");
}

#[test]
fn wrong_command_lines_of_geesetrunk() {
    let rows = [
        ("", "Plays scripts for a serial chip"),
        (
            "sing",
            "error: unrecognized subcommand 'sing'\n\nUsage: geesetrunk <COMMAND>\n",
        ),
        ("help sing", "error: unrecognized subcommand 'sing'\n"),
        (
            "--sing",
            "error: unexpected argument '--sing' found\n\nUsage: geesetrunk <COMMAND>\n",
        ),
        (
            "play a b",
            "error: unexpected argument 'b' found\n\nUsage: geesetrunk play [OPTIONS] [FILE]\n",
        ),
        ("play --sing", "error: unexpected argument '--sing' found\n"),
        ("play -s", "error: unexpected argument '-s' found\n"),
        (
            "verify --limit",
            "error: a value is required for '--limit <N>' but none was supplied\n",
        ),
        (
            "verify --limit 1 --limit 2",
            "error: the argument '--limit <N>' cannot be used multiple",
        ),
        (
            "timeline --text=3",
            "error: unexpected value '3' for '--text' found",
        ),
        (
            "completions",
            "error: the following required arguments were not provided:\n  <SHELL>\n",
        ),
        ("completions sh", "the shell must be bash, fish or zsh\n"),
        (
            "verify --limit 0 a",
            "the limit must be a number from 1 to 18446744073709551615\n",
        ),
        (
            "verify --fifo-size 48 a",
            "the size of the FIFOs must be 16, 32, 64, 128 or 256\n",
        ),
        (
            "timeline --line +1 a",
            "the line must be a number from 1 to 18446744073709551615\n",
        ),
        (
            "timeline --last 10001 a",
            "the number of events must be from 1 to 10000\n",
        ),
    ];
    for (line, errors) in rows {
        assert_ends(GEESETRUNK, line, 2, errors);
    }
}

#[test]
fn wrong_command_lines_of_uart_port() {
    let usage = "\n\nUsage: uart_port [OPTIONS] <PORT> [SCRIPT]\n";
    let missing =
        format!("error: the following required arguments were not provided:\n  <PORT>{usage}");
    assert_ends(UART_PORT, "", 2, &missing);
    assert_ends(
        UART_PORT,
        "3f8 a b",
        2,
        &format!("error: unexpected argument 'b' found{usage}"),
    );
    assert_ends(
        UART_PORT,
        "com1",
        2,
        "PORT must be a hexadecimal number up to fff8, such as 3f8\n",
    );
    assert_ends(
        UART_PORT,
        "fff9",
        2,
        "port fff9 is too high: a chip has eight ports",
    );
}

#[test]
fn the_version_is_that_of_the_package() {
    let (status, text, _) = parts(&run(GEESETRUNK, &["--version"], b""));
    assert_eq!(
        (status, text),
        (0, format!("geesetrunk {}\n", env!("CARGO_PKG_VERSION")))
    );
}

#[test]
fn each_command_has_its_help() {
    let (_, help, _) = parts(&run(GEESETRUNK, &["help"], b""));
    let commands = help
        .split("\nCommands:\n")
        .nth(1)
        .unwrap()
        .split("\n\n")
        .next()
        .unwrap();
    for line in commands.lines() {
        let (command, about) = line.trim().split_once(' ').unwrap();
        if command != "help" {
            let (status, help, _) = parts(&run(GEESETRUNK, &[command, "--help"], b""));
            assert_eq!(status, 0);
            assert!(help.starts_with(about.trim()), "{help}");
            assert_eq!(parts(&run(GEESETRUNK, &["help", command], b"")).1, help);
        }
    }
}

#[test]
fn several_files_are_judged_in_turn() {
    let files = [
        "recordings/wrong-latch.recording",
        "nowhere",
        "recordings/uboot-x86.recording",
    ];
    let one_by_one: String = files
        .iter()
        .map(|file| parts(&run(GEESETRUNK, &["replay", file], b"")).1)
        .collect();
    let words = [&["replay"][..], &files].concat();
    let (status, text, errors) = parts(&run(GEESETRUNK, &words, b""));
    // The status is that of the file with the worst end.
    assert_eq!(status, 2);
    assert_eq!(text, one_by_one);
    assert_eq!(
        errors,
        "nowhere cannot be read: No such file or directory (os error 2)\n"
    );
}

#[test]
fn findings_of_traces_have_their_place() {
    let words = [
        "verify",
        "traces/no-call.trace",
        "traces/forgets-an-overrun.trace",
        "send.script",
    ];
    let (status, text, errors) = parts(&run(GEESETRUNK, &words, b""));
    assert_eq!((status, text.as_str()), (2, ""));
    assert_eq!(
        errors,
        "traces/forgets-an-overrun.trace:7:6: strays\n= ok 60\n     ^ the driver returns '= ok 62'\n\
         send.script:1:1: misplaced\nchip 16450 4 64\n^ a call of the driver, its accesses, its answer behind =, or fresh\n"
    );
}

#[test]
fn scripts_and_traces_are_read_as_logs_are() {
    let read = |name: &str| fs::read_to_string(Path::new(EXAMPLES).join(name)).unwrap();
    for (command, name) in [
        ("play", "overrun.script"),
        ("check", "overrun.script"),
        ("trace", "overrun.script"),
        ("timeline", "overrun.script"),
        ("verify", "traces/forgets-an-overrun.trace"),
    ] {
        let text = read(name);
        let lines = text.replace('\n', "\r\n");
        let plain = parts(&run(GEESETRUNK, &[command], text.as_bytes()));
        for other in [
            lines.clone(),
            format!("\u{feff}{text}"),
            format!("\u{feff}{lines}"),
        ] {
            let found = parts(&run(GEESETRUNK, &[command], other.as_bytes()));
            assert_eq!(found, plain, "{command}");
        }
    }
    let program = [&b"\x7fELF\x02\x01"[..], &[0; 5000]].concat();
    for (bytes, said) in [
        (
            &b"\x1f\x8b\x08\0\0\0\0\0"[..],
            "it is compressed by gzip. Write zcat FILE | geesetrunk COMMAND",
        ),
        (
            b"\xff\xfec\0h\0",
            "its text is in UTF-16. Write iconv -f UTF-16 -t UTF-8 FILE | geesetrunk COMMAND",
        ),
        (&program, "it is a program, and no text"),
    ] {
        for words in [
            &["play"][..],
            &["check"],
            &["trace"],
            &["timeline"],
            &["verify"],
            &["link", "-", "overrun.script"],
        ] {
            let (status, text, error) = parts(&run(GEESETRUNK, words, bytes));
            assert_eq!((status, text.as_str()), (2, ""), "{words:?}");
            assert_eq!(error, format!("-: {said}\n"), "{words:?}");
        }
    }
}

#[test]
fn of_a_long_line_a_part_is_shown() {
    for (word, status) in [("play", 1), ("verify", 2)] {
        let (found, _, error) = parts(&run(GEESETRUNK, &[word], &[b'\x01'; 4000]));
        assert_eq!(found, status);
        assert!(error.lines().all(|line| line.len() <= 200), "{error}");
    }
}

#[test]
fn checks_of_several_scripts() {
    let words = [
        "check",
        "send.script",
        "refused-no-digit.script",
        "refused-tab.script",
    ];
    let (status, text, errors) = parts(&run(GEESETRUNK, &words, b""));
    assert_eq!((status, text.as_str()), (1, ""));
    let places: Vec<&str> = errors
        .lines()
        .filter(|line| line.starts_with("refused-"))
        .collect();
    assert_eq!(places.len(), 2, "{errors}");
}

#[test]
fn findings_as_json() {
    let words = ["replay", "--json", "recordings/wrong-latch.recording"];
    let (status, text, errors) = parts(&run(GEESETRUNK, &words, b""));
    assert_eq!((status, errors.as_str()), (1, ""));
    let wanted: String = [
        (
            5,
            "not-kept",
            "SCR reads 00: the register keeps what is written to it, 5a",
        ),
        (
            6,
            "not-kept",
            "LCR reads 13: the register keeps what is written to it, 03",
        ),
        (
            9,
            "fifo-bits",
            "ISR reads 41: bits 6 and 7 are both set while the FIFOs are on, and else clear",
        ),
    ]
    .iter()
    .map(|(line, name, text)| {
        let file = r#"{"file":"recordings/wrong-latch.recording""#;
        format!(
            "{file},\"line\":{line},\"kind\":\"difference\",\"name\":\"{name}\",\
             \"text\":\"{text}\",\"times\":1}}\n"
        )
    })
    .collect();
    assert_eq!(text, wanted);
    let words = ["verify", "--json", "traces/forgets-an-overrun.trace"];
    let (status, text, errors) = parts(&run(GEESETRUNK, &words, b""));
    assert_eq!((status, errors.as_str()), (1, ""));
    let stray = "'= ok 60' strays: the driver returns '= ok 62'";
    let file = r#"{"file":"traces/forgets-an-overrun.trace""#;
    assert_eq!(
        text,
        format!(
            "{file},\"line\":7,\"kind\":\"stray\",\"name\":\"stray\",\"text\":\"{stray}\",\
             \"times\":1}}\n"
        )
    );
}

// Each line for people is an object, with the same parts.
#[test]
fn json_has_what_the_lines_have() {
    for (command, count) in [("audit", 4), ("replay", 0)] {
        let file = "recordings/wrong-driver.recording";
        let (_, lines, _) = parts(&run(GEESETRUNK, &[command, "--all", file], b""));
        let (_, objects, _) = parts(&run(GEESETRUNK, &[command, "--json", file], b""));
        let mut objects = objects.lines();
        for line in lines.lines().filter(|line| !line.contains(" lines, ")) {
            let object = objects.next().unwrap();
            let (number, text) = line.split_once(": ").unwrap();
            let number = number.rsplit(':').next().unwrap();
            let (kind, text) = text.split_once(": ").unwrap();
            let (text, name) = text.rsplit_once(" [").unwrap();
            for part in [
                format!("\"line\":{number},"),
                format!("\"kind\":\"{kind}\""),
                format!("\"name\":\"{}\"", name.trim_end_matches(']')),
                format!("\"text\":\"{text}\""),
            ] {
                assert!(object.contains(&part), "{part} in {object}");
            }
        }
        assert_eq!(objects.next(), None);
        assert!(lines.matches(": warning: ").count() == count, "{lines}");
    }
}

#[test]
fn equal_findings_in_turn_are_counted() {
    let recording = b"w 3 80\nr 0 00\nr 5 60\nr 0 00\nx 4\n";
    let (_, lines, _) = parts(&run(GEESETRUNK, &["audit", "--all", "-"], recording));
    let (_, objects, _) = parts(&run(GEESETRUNK, &["audit", "--json", "-"], recording));
    assert!(
        lines.contains("-:5: warning: ") && lines.contains(" (4 times) [read-from-divisor]\n"),
        "{lines}"
    );
    assert!(
        objects.contains("\"line\":5,") && objects.contains(",\"times\":4}\n"),
        "{objects}"
    );
    assert!(!objects.contains("times)"), "{objects}");
}

#[test]
fn a_kind_is_printed_once_and_counted() {
    let recording = b"w 3 80\nr 5 60\nr 0 00\nx 4\nr 7 00\nr 0 00\n";
    let (status, lines, _) = parts(&run(GEESETRUNK, &["audit", "-"], recording));
    assert_eq!(status, 1);
    let lines: Vec<_> = lines.lines().collect();
    assert!(lines[0].starts_with("-:3: warning: "), "{lines:?}");
    assert!(lines[1].starts_with("-:6: note: "), "{lines:?}");
    let tally = "-: warning: [read-from-divisor] 6 times, from line 3 to line 6";
    assert_eq!(
        lines[2..],
        [tally, "-: 6 lines, with accesses alone, 6 warnings"]
    );
}

#[test]
fn what_the_datasheet_leaves_open_can_be_left_out() {
    let file = "recordings/kinds/thr-empty-not-raised-again.recording";
    assert_eq!(parts(&run(GEESETRUNK, &["replay", file], b"")).0, 1);
    let (status, lines, _) = parts(&run(GEESETRUNK, &["replay", "--settled", file], b""));
    assert_eq!(
        (status, lines),
        (
            0,
            format!("{file}: 14 lines, with accesses alone, 0 differences\n")
        )
    );
}

#[test]
fn no_colours_go_into_a_pipe() {
    for words in [
        &["audit", "recordings/wrong-driver.recording"][..],
        &["check", "refused-tab.script"],
    ] {
        let output = run(GEESETRUNK, words, b"");
        assert!(![output.stdout, output.stderr].concat().contains(&b'\x1b'));
    }
}

#[test]
fn completions_name_each_command_and_flag() {
    for shell in ["bash", "fish", "zsh"] {
        let (status, text, _) = parts(&run(GEESETRUNK, &["completions", shell], b""));
        assert_eq!(status, 0);
        for word in [
            "play",
            "verify",
            "manual",
            "recording",
            "json",
            "limit",
            "kvm memory",
            "sent-beyond-room",
        ] {
            assert!(text.contains(word), "{word} in {text}");
        }
    }
}

// Lines of what is printed begin with the name of a file, and a terminal does what its bytes say.
#[test]
fn a_word_with_a_control_character_is_refused() {
    for (words, shown) in [
        (&["audit", "a\nb: 0 warnings"][..], "a?b: 0 warnings"),
        (&["show", "\x1b[31ma"], "?[31ma"),
        (&["explain", "a\u{9b}2J"], "a??2J"),
    ] {
        let (status, text, errors) = parts(&run(GEESETRUNK, words, b"r 5 60\n"));
        assert_eq!((status, text.as_str()), (2, ""));
        let wanted = format!(
            "a word of the command line has a control character: {shown}. Read a file of such a name from standard input\n"
        );
        assert_eq!(errors, wanted);
    }
    // A file with this name would have been read.
    let (status, _, errors) = parts(&run(UART_PORT, &["2f8", "a\tb"], b""));
    assert_eq!(status, 2);
    assert!(errors.contains("a control character: a?b"), "{errors}");
}

// Bash itself completes, if it is there.
#[test]
fn bash_completes_words() {
    let (_, script, _) = parts(&run(GEESETRUNK, &["completions", "bash"], b""));
    for (words, place, completed) in [
        ("geesetrunk ver", 1, "verify"),
        ("geesetrunk verify --li", 2, "--limit"),
        ("geesetrunk verify a --j", 3, "--json"),
        ("geesetrunk audit --format kv", 3, "kvm"),
        ("geesetrunk play --color al", 3, "always"),
        ("geesetrunk stats --chip 1675", 3, "16750"),
        ("geesetrunk explain sent-b", 2, "sent-beyond-room"),
        (
            "geesetrunk explain divisor-zero sent-b",
            3,
            "sent-beyond-room",
        ),
        ("geesetrunk completions z", 2, "zsh"),
    ] {
        let test = format!(
            "{script}\nCOMP_WORDS=({words})\nCOMP_CWORD={place}\n_geesetrunk\necho \"${{COMPREPLY[*]}}\"\n"
        );
        let Ok(output) = std::process::Command::new("bash")
            .args(["-c", &test])
            .output()
        else {
            eprintln!("skipped: there is no bash");
            return;
        };
        let (_, text, errors) = parts(&output);
        assert_eq!(
            (text.trim_end(), errors.as_str()),
            (completed, ""),
            "{words}"
        );
    }
}

// Each command that the help lists, and each option of its own help, stands in the manual page.
#[test]
fn the_manual_page_has_each_command_and_option() {
    let printed = |words: &[&str]| {
        let (status, text, errors) = parts(&run(GEESETRUNK, words, b""));
        assert_eq!((status, errors.as_str()), (0, ""), "{words:?}");
        text
    };
    let first_word = |line: &str| {
        line.split_whitespace()
            .next()
            .unwrap_or_default()
            .to_owned()
    };
    // In roff a minus sign is written with a backslash.
    let page = printed(&["manual"]).replace('\\', "");
    let help = printed(&["--help"]);
    let listed = help.split_once("Commands:\n").unwrap().1;
    let commands: Vec<String> = listed
        .lines()
        .map_while(|line| line.strip_prefix("  "))
        .map(first_word)
        .collect();
    assert!(commands.len() > 10, "{help}");
    for command in commands.iter().filter(|command| *command != "help") {
        assert!(
            page.contains(&format!("fBgeesetrunk {command}fR")),
            "{command} is not in the page"
        );
        let of_command = printed(&[command, "--help"]);
        let options = of_command
            .split_whitespace()
            .filter(|word| word.starts_with("--") && *word != "--help");
        for option in options.map(|option| option.trim_end_matches([',', '.', ']', ')'])) {
            assert!(
                page.contains(&format!("fB{option}fR")),
                "{command} {option} is not in the page"
            );
        }
    }
}

// Fails unless each judge ends so with what is on standard input.
#[track_caller]
fn assert_judged(recording: &str, status: i32, output: &str, errors: &str) {
    for judge in ["audit", "replay"] {
        for form in [&[judge][..], &[judge, "--json"], &[judge, "--all"]] {
            let (found, printed, told) = parts(&run(GEESETRUNK, form, recording.as_bytes()));
            assert_eq!(found, status, "{form:?}: {told}");
            assert!(told.starts_with(errors), "{form:?}: {told}");
            let is_for_people = form.len() == 1;
            assert!(
                !is_for_people || printed.contains(output),
                "{form:?}: {printed}"
            );
        }
    }
}

// Nothing is found in it, since nothing was looked at: that is not to look as a recording without faults.
#[test]
fn a_recording_without_an_access_is_not_judged() {
    let none = "-: no line of it is an access of a driver";
    for recording in [
        "",
        "\n",
        "# a comment\n",
        "kvm_pio_write at 0x3f8\n",
        "x 3\n",
        "a 00 41\nm 30\n",
    ] {
        assert_judged(recording, 2, "", none);
    }
    assert_judged("r 5 60\n", 0, "-: 1 line, with accesses alone, 0 ", "");
}

// What was read is not in the piece. Its lines keep their numbers.
#[test]
fn a_piece_may_begin_with_a_repeat() {
    assert_judged(
        "x 3\nr 5 60\nx 2\n",
        0,
        "-: 3 lines, with accesses alone, 0 ",
        "",
    );
    assert_judged("x 3\nX 1\nr 5 60\nq\n", 2, "", "-:4:1: unknown word\nq\n^ ");
    assert_judged("w 0 41\nx 3\n", 2, "", "-:2:1: no read before it");
    let timeline = ["timeline", "--recording", "--text"];
    let (status, printed, told) = parts(&run(GEESETRUNK, &timeline, b"x 3\nr 5 60\n"));
    assert_eq!(status, 0, "{told}");
    assert!(printed.contains("2  r LSR  60"), "{printed}");
}

// Two chips look as one that forgets what is written to it.
#[test]
fn lines_of_two_processes_are_not_judged_as_one_chip() {
    let of = |process: u32| format!("{process}@1.000001:serial_read addr 0x05 val 0x60\n");
    let told =
        "- cannot be read: line 3 is an access of process 14, and those before are of process 13.";
    assert_judged(&[of(13), of(13), of(14)].concat(), 2, "", told);
    assert_judged(
        &[of(13), of(13)].concat(),
        0,
        "-: 2 lines, with times, 0 ",
        "",
    );
}
