//! What the exact judge finds in recordings of chips in software.

use census_models::{DEVIATIONS, Kind, Recording, judge, judge_by_all, model, take};

const SIXTEEN: Kind = Kind { fifo: Some(16), cuts: false };

fn recording_of(text: &str) -> Recording {
    Recording::parse(text).unwrap_or_else(|error| panic!("{error}"))
}

#[test]
fn a_chip_in_software_does_what_it_does() {
    for (name, kind) in [
        ("live", SIXTEEN),
        ("live-64", Kind { fifo: Some(64), ..SIXTEEN }),
        ("live-16450", Kind { fifo: None, ..SIXTEEN }),
        ("device", SIXTEEN),
    ] {
        let recording = recording_of(&take(&mut *model(name).unwrap()).text);
        let (found, verdict) = judge_by_all(&recording);
        assert_eq!((found, verdict.differences, verdict.given_up), (kind, vec![], 0), "{name}");
        assert!(verdict.judged > 350, "{name}: {} reads were judged", verdict.judged);
    }
}

/// It is given up on nothing only because of the recorded times: they say that no character was out while 300 were written.
#[test]
fn recorded_times_bound_what_can_have_happened() {
    let text = take(&mut *model("live").unwrap()).text;
    let without_times: String = text.lines().map(|line| format!("{}\n", line.split('@').next().unwrap())).collect();
    assert_eq!(judge(&recording_of(&text), SIXTEEN).given_up, 0);
    assert_eq!(judge(&recording_of(&without_times), SIXTEEN).given_up, 1);
}

/// What it cannot find. The registers are asked before it knows the chip. That a character takes no time, that a timeout never comes and
/// that the first character stays in the FIFO would need times as bounds from below: here time may always pass later. That a timeout comes
/// too early would need one from above while nothing is sent.
const MISSED: [&str; 10] =
    ["scratch", "ier-upper", "lcr-keeps", "mcr-upper", "latch", "latch-hides-ier", "clock", "send-fifo", "timeout", "timeout-when"];

#[test]
fn deviations_are_found_but_for_those_that_are_listed() {
    let mut missed = Vec::new();
    for deviation in DEVIATIONS.iter() {
        let recording = recording_of(&take(&mut *deviation.chip()).text);
        if judge(&recording, SIXTEEN).differences.is_empty() {
            missed.push(deviation.rule);
        }
    }
    assert_eq!(missed, MISSED);
}

/// An empty 16550A in loopback, with level 14, and interrupts off.
const BEGIN: &str = "w 1 00\nw 4 10\nw 3 03\nr 5 60\nw 2 c7\nr 5 60\nr 2 c1\nr 6 00\n";

/// Recordings that are plainly wrong, each in its last line. Nothing arrives in loopback but what was written, so all is known there.
///
/// Without times the transmitter may be done with a character that is not received yet, until the next one goes out or a look shows it.
/// So two of them have a look more: with one read of DATA the 31 could still be on its way, and so could the 17th character, which has
/// dropped nothing before it is received.
#[test]
fn what_is_plainly_wrong_in_loopback_is_found_where_it_is() {
    let twenty: String = (0..16).map(|value| format!("w 0 {value:02x}\nr 5 61\n")).collect();
    let wrong = [
        ("other bytes come back", "w 0 30\nw 0 31\nr 5 61\nr 0 30\nr 5 61\nr 0 30\n".into()),
        ("FCR does not empty the receiver", "w 0 41\nr 5 61\nw 2 c3\nr 5 61\n".into()),
        ("a 17th character is kept in a FIFO of 16", format!("{twenty}w 0 10\nr 5 61\nw 0 11\nr 5 61\n")),
        ("received data interrupt below the level", "w 1 01\nw 0 41\nr 5 61\nr 2 c4\n".into()),
        ("a change of CTS is not noted", "w 4 12\nr 6 10\n".into()),
    ];
    for (what, rest) in wrong {
        let text = format!("{BEGIN}{rest}");
        let found: Vec<usize> = judge(&recording_of(&text), SIXTEEN).differences.iter().map(|(line, _)| *line).collect();
        assert_eq!(found, [text.lines().count()], "{what}");
    }
}

/// A character is written at 100,000 ns, and LSR shows this at these times: which of the looks differ?
fn looks_that_differ(looks: &[(u64, u8)]) -> Vec<usize> {
    let begin = format!("{BEGIN}w 0 55 @100000\n");
    let lines: String = looks.iter().map(|(time, lsr)| format!("r 5 {lsr:02x} @{time}\n")).collect();
    let verdict = judge(&recording_of(&format!("{begin}{lines}")), SIXTEEN);
    verdict.differences.iter().map(|(line, _)| line - begin.lines().count() - 1).collect()
}

#[test]
fn the_two_moments_at_which_a_character_ends_may_be_a_bit_apart() {
    let a_bit_before = [(900_000, 0x20), (1_100_000, 0x21), (1_180_000, 0x61), (1_190_000, 0x61)];
    assert_eq!(looks_that_differ(&a_bit_before), []);
    let a_bit_later = [(900_000, 0x20), (1_100_000, 0x60), (1_180_000, 0x61), (1_190_000, 0x61)];
    assert_eq!(looks_that_differ(&a_bit_later), []);
    let half_a_character_before = [(400_000, 0x20), (500_000, 0x21), (900_000, 0x21), (1_100_000, 0x61), (1_110_000, 0x61)];
    assert_eq!(looks_that_differ(&half_a_character_before), [2]);
    let half_a_character_later = [(900_000, 0x20), (1_100_000, 0x60), (1_600_000, 0x60)];
    assert_eq!(looks_that_differ(&half_a_character_later), [2]);
}

#[test]
fn a_line_that_is_none_of_a_recording_is_refused_with_its_number() {
    let faulty = [("r 5 60\nr 5", 2), ("w 8 00", 1), ("# a comment\n\nx 3", 3), ("w 1 00\nx 2", 2), ("r 5 6g", 1), ("out 3f8 1", 1)];
    for (text, number) in faulty {
        let error = Recording::parse(text).unwrap_err();
        assert_eq!(error.to_string(), format!("line {number} is no access of a recording"), "{text}");
    }
}
