//! Findings that are accepted: those of a baseline, which were there before, and those whose name is allowed. A build that judges a log is
//! then red for new findings alone.
//!
//! A baseline is what `--json` has printed. Lines of a log move from run to run, so a finding is that of a baseline by its file and its
//! name, as often as the baseline has it.

use crate::end::End;
use crate::explain::explanations;
use crate::import::{Refusal, Refused, each_member};
use crate::json::Quoted;
use crate::judging::Found;
use crate::near::nearest;
use crate::streams::bytes_of;
use crate::terminal::Style;
use crate::text::lines;
use std::io;

/// The most bytes of a baseline.
const MOST_BYTES: u64 = 64 * 1024 * 1024;

// How often a baseline has a finding of this name in this file. The file is as JSON has it, without its quotes.
#[derive(Clone, Debug, PartialEq, Eq)]
struct Count {
    file: Vec<u8>,
    name: &'static str,
    times: u64,
}

/// What is accepted.
#[derive(Clone, Debug, Default, PartialEq, Eq)]
pub struct Accepted {
    allowed: Vec<&'static str>,
    baseline: Vec<Count>,
}

/// What is accepted of one file, as far as it was not found yet.
#[derive(Clone, Debug, PartialEq, Eq)]
pub struct Left<'a> {
    allowed: &'a [&'static str],
    counts: Vec<(&'static str, u64)>,
    /// How much was accepted so far.
    pub accepted: u64,
}

// Returns the name of a finding, as the program has it.
fn finding_named(name: &str) -> Option<&'static str> {
    let mut rows = explanations();
    rows.find(|row| row.is_finding() && row.name == name)
        .map(|row| row.name)
}

// Returns what a line of a baseline has.
fn count_in(line: &[u8]) -> Result<Count, Refusal> {
    let (mut file, mut name, mut times) = (None, None, None);
    each_member(line, |member, value| {
        match member {
            b"file" => file = Some(value.to_vec()),
            b"name" => {
                let known = std::str::from_utf8(value).ok().and_then(finding_named);
                let wants = "the name of a finding: geesetrunk explain lists them";
                name = Some(known.ok_or_else(|| Refusal::at(line, value, "bad name", wants))?);
            }
            b"times" => {
                let number = std::str::from_utf8(value).ok();
                let number = number.and_then(|text| text.parse().ok());
                let wants = "a number: how often it was found";
                times = Some(number.ok_or_else(|| Refusal::at(line, value, "bad number", wants))?);
            }
            _ => {}
        }
        Ok(())
    })?;
    let wants = "file, name and times, as audit --json prints them";
    let missing = || Refusal::at(line, b"", "something is missing", wants);
    Ok(Count {
        file: file.ok_or_else(missing)?,
        name: name.ok_or_else(missing)?,
        times: times.ok_or_else(missing)?,
    })
}

impl Accepted {
    /// Accepts the findings with these names, between which are commas.
    ///
    /// # Errors
    ///
    /// How a program ends if no finding has such a name.
    ///
    /// # Examples
    ///
    /// ```
    /// use geesetrunk::accepted::Accepted;
    ///
    /// let mut accepted = Accepted::default();
    /// assert!(accepted.allow("out2-off,cts-ignored").is_ok());
    /// let end = accepted.allow("out2-of").unwrap_err();
    /// assert_eq!(end.line(), Some("no finding is called out2-of. A similar one is out2-off"));
    /// ```
    pub fn allow(&mut self, names: &str) -> Result<(), End> {
        for name in names.split(',') {
            let known = finding_named(name).ok_or_else(|| {
                let near = nearest(name, explanations().map(|row| row.name));
                let tip = near.map_or(String::new(), |near| format!(". A similar one is {near}"));
                End::failed(format!("no finding is called {name}{tip}"))
            })?;
            self.allowed.push(known);
        }
        Ok(())
    }

    /// Accepts the findings of a baseline with this text.
    ///
    /// # Errors
    ///
    /// The first line that is no finding.
    pub fn add_baseline(&mut self, text: &[u8]) -> Result<(), Refused> {
        for (number, line) in (1..).zip(lines(text)) {
            if line.is_empty() {
                continue;
            }
            let count = count_in(line).map_err(|refusal| Refused::new(number, line, refusal))?;
            let mut known = self.baseline.iter_mut();
            match known.find(|known| known.file == count.file && known.name == count.name) {
                Some(known) => known.times = known.times.saturating_add(count.times),
                None => self.baseline.push(count),
            }
        }
        Ok(())
    }

    /// Accepts the findings of the baseline in this file.
    ///
    /// # Errors
    ///
    /// How a program ends that cannot read it.
    pub fn read_baseline(&mut self, file: &str) -> Result<(), End> {
        let text = bytes_of(file, MOST_BYTES + 1)?;
        if text.len() as u64 > MOST_BYTES {
            let cause = format!("{file}: a baseline has at most {MOST_BYTES} bytes");
            return Err(End::failed(cause));
        }
        let style = Style::of(&io::stderr());
        self.add_baseline(&text)
            .map_err(|refused| End::failed(refused.text(file, style)))
    }

    /// Returns what is accepted of this file.
    pub fn of_file(&self, file: &str) -> Left<'_> {
        let quoted = Quoted(file).to_string();
        let file = quoted.trim_matches('"').as_bytes();
        let counts = self.baseline.iter().filter(|count| count.file == file);
        Left {
            allowed: &self.allowed,
            counts: counts.map(|count| (count.name, count.times)).collect(),
            accepted: 0,
        }
    }
}

impl Left<'_> {
    /// Accepts a finding as often as is left, and returns what of it is new.
    pub fn new_of(&mut self, found: &Found) -> Option<Found> {
        let name = found.kind.name();
        let taken = if self.allowed.contains(&name) {
            found.times
        } else {
            let count = self.counts.iter_mut().find(|count| count.0 == name);
            count.map_or(0, |count| {
                let taken = count.1.min(found.times);
                count.1 -= taken;
                taken
            })
        };
        self.accepted = self.accepted.saturating_add(taken);
        let times = found.times - taken;
        (times > 0).then_some(Found { times, ..*found })
    }
}

#[cfg(test)]
mod tests {
    use super::*;
    use crate::kinds::Kind;
    use uart_judges::audit::Finding;

    const FOUND: Found = Found {
        line: 3,
        kind: Kind::Finding(Finding::ZeroDivisor),
        times: 2,
    };

    #[test]
    fn a_baseline_accepts_as_often_as_it_has() {
        let mut accepted = Accepted::default();
        let line = r#"{"file":"a\nb","line":9,"kind":"warning","name":"divisor-zero","text":"a \"b\"","times":3}"#;
        accepted
            .add_baseline(format!("{line}\n").as_bytes())
            .unwrap();
        let mut left = accepted.of_file("a\nb");
        assert_eq!(left.new_of(&FOUND), None);
        assert_eq!(left.new_of(&FOUND), Some(Found { times: 1, ..FOUND }));
        assert_eq!((left.new_of(&FOUND), left.accepted), (Some(FOUND), 3));
        assert_eq!(accepted.of_file("a").new_of(&FOUND), Some(FOUND));
    }

    #[test]
    fn a_name_is_accepted_however_often() {
        let mut accepted = Accepted::default();
        accepted.allow("out2-off,divisor-zero").unwrap();
        let mut left = accepted.of_file("a");
        assert_eq!((left.new_of(&FOUND), left.accepted), (None, 2));
    }

    #[test]
    fn what_is_no_baseline_is_refused_with_its_place() {
        for (line, cause) in [
            ("r 5 60", "bad JSON"),
            (r#"{"file":"a","name":"out2-of","times":1}"#, "bad name"),
            (r#"{"file":"a","name":"out2-off","times":-1}"#, "bad number"),
            (r#"{"file":"a","name":"out2-off"}"#, "something is missing"),
        ] {
            let text = format!("\n{line}\n");
            let refused = Accepted::default().add_baseline(text.as_bytes());
            let refused = refused.unwrap_err();
            assert_eq!((refused.number, refused.refusal.cause), (2, cause));
        }
    }
}
