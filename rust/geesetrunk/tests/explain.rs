//! What is explained: the texts of `src/explain/rows.txt` are by hand, and its lines of recordings are made.

mod common;

use common::{DOCS, EXAMPLES, GEESETRUNK, parts, run};
use geesetrunk::explain::{Explanation, explained, explanations};
use geesetrunk::heap;
use geesetrunk::judging::{Found, Judge, judge_recording};
use geesetrunk::known::Known;
use geesetrunk::meaning::{Latch, words_of};
use std::fmt::Write;
use std::fs;
use std::path::Path;
use uart_judges::recording::Recording;

const ROWS: &str = concat!(env!("CARGO_MANIFEST_DIR"), "/src/explain/rows.txt");

// How many lines of a recording are shown.
const LINES: usize = 5;

// Returns the line at which a finding is in its recording, and where it was found.
fn place_of(name: &str, recording: &[u8]) -> u64 {
    let mut place = None;
    for judge in [Judge::Audit, Judge::Replay] {
        let tell = |found: &Found| {
            if found.kind.name() == name {
                place.get_or_insert(found.line);
            }
            Ok(())
        };
        judge_recording(judge, &Known::default(), recording, tell).unwrap();
    }
    place.unwrap_or_else(|| panic!("{name} is not found in its recording"))
}

// Returns lines of the recording that has a finding, with what they mean. Its own line is marked.
fn seen(name: &str) -> String {
    let folder = Path::new(EXAMPLES).join("recordings");
    let file = format!("{name}.recording");
    let recording = ["kinds", "notes"]
        .into_iter()
        .find_map(|kind| fs::read(folder.join(kind).join(&file)).ok());
    let recording = recording.unwrap_or_else(|| panic!("no recording has {name}"));
    let place = place_of(name, &recording);
    let mut entries = Vec::new();
    let mut reader = Recording::new(heap(), &recording[..]).unwrap();
    let mut latch = Latch::default();
    while let Some(entry) = reader.next_entry().unwrap() {
        let is_dlab_set = latch.is_set();
        latch.action(&entry);
        entries.push((entry, words_of(entry.happening, is_dlab_set)));
    }
    // A line without an entry, as the last one may be, has that before it.
    let index = entries
        .iter()
        .rposition(|(entry, _)| entry.line <= place)
        .unwrap();
    let first = (index + 1).saturating_sub(LINES - 1);
    let first = first.min(entries.len().saturating_sub(LINES));
    let mut text = String::new();
    // Bytes that are written in turn say nothing without the look at LSR before them.
    let shown = entries.iter().enumerate().skip(first).take(LINES);
    let are_bytes = shown
        .clone()
        .all(|(_, (_, (head, _)))| head.starts_with("w DATA"));
    let look = entries[..first]
        .iter()
        .rposition(|(_, (head, _))| head.starts_with("r LSR"));
    let look = look
        .filter(|_| are_bytes)
        .map(|index| (index, &entries[index]));
    for (position, (entry, (head, bits))) in look.into_iter().chain(shown) {
        let mark = if position == index { '>' } else { ' ' };
        let times = if entry.times == 1 {
            String::new()
        } else {
            format!(" x{}", entry.times)
        };
        let line = format!("  {mark} {:>3}  {head}{times:<6} {bits}", entry.line);
        let _ = writeln!(text, "{}", line.trim_end());
        if position + 1 < first {
            text += "       ..\n";
        }
    }
    text
}

// Returns a row with its lines made anew. An error has none.
fn made_anew(row: &str) -> String {
    let row = row.trim_end();
    match row.split_once("\nseen:\n") {
        Some((texts, _)) => {
            let name = texts.lines().next().unwrap();
            format!("{texts}\nseen:\n{}", seen(name))
        }
        None => format!("{row}\n"),
    }
}

#[test]
fn the_lines_that_are_shown_are_those_of_recordings() {
    let stored = fs::read_to_string(ROWS).unwrap();
    let rows: Vec<_> = stored.split("\n\n").map(made_anew).collect();
    let made = rows.join("\n");
    // With this the file is made anew.
    if std::env::var_os("GEESETRUNK_WRITE_ROWS").is_some() {
        fs::write(ROWS, &made).unwrap();
    }
    assert!(
        made == stored,
        "src/explain/rows.txt is not of the recordings: GEESETRUNK_WRITE_ROWS=1 makes it anew"
    );
}

// What a row of each kind has. All differences have one remedy.
#[test]
fn each_row_has_its_parts() {
    let mut remedies = Vec::new();
    for Explanation {
        name,
        kind,
        what,
        cost,
        remedy,
        ..
    } in explanations()
    {
        assert!(!what.is_empty() && !remedy.is_empty(), "{name}");
        match kind {
            "warning" => assert!(!cost.is_empty(), "{name}"),
            "difference" => remedies.push(remedy),
            _ => assert!(["note", "error"].contains(&kind), "{name}: {kind}"),
        }
    }
    remedies.dedup();
    assert_eq!(remedies.len(), 1);
}

// A name of a finding is words in lower case with hyphens between them. So is that of another program, which has no row.
#[test]
fn each_finding_that_the_pages_name_is_explained() {
    for page in ["AUDIT.md", "TROUBLE.md"] {
        let text = fs::read_to_string(Path::new(DOCS).join(page)).unwrap();
        let quoted = text.split('`').skip(1).step_by(2);
        let is_name = |word: &&str| {
            let mut parts = word.split('-');
            let are_words = parts
                .all(|part| !part.is_empty() && part.bytes().all(|byte| byte.is_ascii_lowercase()));
            word.contains('-') && are_words
        };
        let mut count = 0;
        for name in quoted.filter(is_name).filter(|&name| name != "sigrok-cli") {
            assert!(explained(name).is_ok(), "{page}: {name}");
            count += 1;
        }
        assert!(count > 20, "{page}");
    }
}

// Each name that the judges have is in the sources, in quotes.
#[test]
fn each_name_is_explained() {
    let source = |name: &str| {
        fs::read_to_string(Path::new(env!("CARGO_MANIFEST_DIR")).join("src").join(name)).unwrap()
    };
    let arms = source("kinds.rs") + &source("hints.rs");
    let mut names: Vec<_> = arms
        .split("=> \"")
        .skip(1)
        .filter_map(|rest| rest.split('"').next())
        .filter(|name| {
            name.contains('-')
                && name
                    .bytes()
                    .all(|byte| byte.is_ascii_lowercase() || byte == b'-' || byte.is_ascii_digit())
        })
        .collect();
    names.sort_unstable();
    names.dedup();
    assert!(names.len() > 50, "{names:?}");
    for name in names {
        let (status, text, error) = parts(&run(GEESETRUNK, &["explain", name], b""));
        assert_eq!((status, error.as_str()), (0, ""), "{name}");
        assert!(
            text.starts_with(&format!("{name} ("))
                && text.contains("What to do: ")
                && text.contains("\n  > "),
            "{text}"
        );
    }
}

#[test]
fn a_name_that_is_unknown_has_a_near_one() {
    let (status, _, error) = parts(&run(GEESETRUNK, &["explain", "sent-beyond-rom"], b""));
    assert_eq!(status, 2);
    assert!(
        error.contains("A similar name is sent-beyond-room"),
        "{error}"
    );
    let (status, list, _) = parts(&run(GEESETRUNK, &["explain"], b""));
    assert_eq!(status, 0);
    assert!(list.lines().count() > 60, "{list}");
}
