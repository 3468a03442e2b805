//! What a finding or an error means, what it costs, and what to do.
//!
//! `explain/rows.txt` has the texts, which are by hand, and behind each finding lines of the recording in which it is found. A test makes
//! these lines anew, and fails if they are others.

use crate::near::nearest;
use std::fmt;

const ROWS: &str = include_str!("explain/rows.txt");

/// What is known of a name.
#[derive(Clone, Copy, Debug, Default, PartialEq, Eq)]
pub struct Explanation<'a> {
    /// The name.
    pub name: &'a str,
    /// What it is: `note`, `warning` or `difference`, or `error`.
    pub kind: &'a str,
    /// What happens.
    pub what: &'a str,
    /// What it costs. It is empty where nothing is lost.
    pub cost: &'a str,
    /// What to do about it.
    pub remedy: &'a str,
    // The lines of a recording, each behind four spaces.
    seen: &'a str,
}

impl Explanation<'_> {
    /// Returns whether this is a finding of `audit`, `replay` or `verify`, and not an error.
    pub fn is_finding(&self) -> bool {
        self.kind != "error"
    }
}

// Returns what is behind a key at the beginning of a line.
fn value<'a>(row: &'a str, key: &str) -> &'a str {
    row.lines()
        .find_map(|line| line.strip_prefix(key))
        .unwrap_or_default()
        .trim()
}

fn explanation(row: &str) -> Option<Explanation<'_>> {
    let name = row.lines().next()?;
    Some(Explanation {
        name,
        kind: value(row, "kind:"),
        what: value(row, "what:"),
        cost: value(row, "cost:"),
        remedy: value(row, "remedy:"),
        seen: row
            .split_once("\nseen:\n")
            .map_or("", |(_, seen)| seen.trim_end()),
    })
}

/// Returns what is known of each name.
pub fn explanations() -> impl Iterator<Item = Explanation<'static>> {
    ROWS.split("\n\n").filter_map(explanation)
}

/// Returns what is known of a name, or the name that is nearest to it.
///
/// # Errors
///
/// The nearest name, if there is one.
pub fn explained(name: &str) -> Result<Explanation<'static>, Option<&'static str>> {
    // A message has `bad number`, and a finding is in brackets.
    let name = name.trim_matches(['[', ']']).replace(' ', "-");
    explanations()
        .find(|row| row.name.eq_ignore_ascii_case(&name))
        .ok_or_else(|| nearest(&name, explanations().map(|row| row.name)))
}

impl fmt::Display for Explanation<'_> {
    fn fmt(&self, f: &mut fmt::Formatter<'_>) -> fmt::Result {
        writeln!(f, "{} ({})", self.name, self.kind)?;
        for (head, text) in [
            ("What happens", self.what),
            ("What it costs", self.cost),
            ("What to do", self.remedy),
        ] {
            if !text.is_empty() {
                writeln!(f, "\n{head}: {text}")?;
            }
        }
        if !self.seen.is_empty() {
            writeln!(
                f,
                "\nIn a recording, where > is the line that it is about:\n\n{}",
                self.seen
            )?;
        }
        Ok(())
    }
}

#[cfg(test)]
mod tests {
    use super::*;

    #[test]
    fn a_name_is_explained() {
        let row = explained("[sent-beyond-room]").unwrap();
        assert_eq!((row.name, row.kind), ("sent-beyond-room", "warning"));
        assert!(row.to_string().contains("\nWhat to do: wait for LSR bit 5"));
        assert_eq!(explained("sent-beyond-rom"), Err(Some("sent-beyond-room")));
        assert_eq!(explained("nothing-like-it"), Err(None));
    }
}
