//! What came of a census, for people and for programs.

use super::battery::{Census, Ended, OTHERS, Row, Seen};
use super::rules::{PREMISES, Premise, RULES, Rule, Unit, Words};
use crate::json::Quoted;
use std::fmt::{self, Display, Write};

impl Display for Ended {
    fn fmt(&self, f: &mut fmt::Formatter<'_>) -> fmt::Result {
        f.write_str(match self {
            Ended::Done => "done",
            Ended::Nobody => "nobody is there",
            Ended::InUse => "the port is in use",
            Ended::NoLoopback => "no loopback",
            Ended::Stalled => "stalled: the transmitter did not become empty",
            Ended::NoClock => "the clock stands",
            Ended::Gone => "gone: nobody answers any more",
        })
    }
}

impl Seen {
    // As a table has it, and as a recording does.
    fn words(self) -> (&'static str, &'static str) {
        match self {
            Seen::NotSeen => ("not seen", "not-seen"),
            Seen::Holds => ("holds", "holds"),
            Seen::Differs => ("DIFFERS", "differs"),
        }
    }
}

// Returns the value of a row, as the unit of its rule has it. One that was not seen has none.
fn value_of(words: &Words, row: Row) -> String {
    match (row.seen, words.unit, row.value) {
        (Seen::NotSeen, ..) => String::new(),
        (_, Unit::Hex, value @ 0..=0xff) => format!("{value:02x}"),
        (_, Unit::Hex, value) => format!("{value:04x}"),
        (_, Unit::Hertz, 0) => "none".into(),
        (_, Unit::Hertz, value) => format!("{value} Hz"),
        (_, Unit::Percent, value) => format!("{value}%"),
        (_, Unit::Count, value) if value >= OTHERS => format!("{}, others", value - OTHERS),
        (_, Unit::Count | Unit::Tenths, value) => value.to_string(),
    }
}

impl Premise {
    /// Returns what a census saw of it, and the rules in which the chip differs.
    #[must_use]
    pub fn seen(&self, census: &Census) -> (Seen, Vec<Rule>) {
        let is = |seen: Seen| move |rule: &&Rule| census.row(**rule).seen == seen;
        let differ: Vec<Rule> = self
            .rules
            .iter()
            .filter(is(Seen::Differs))
            .copied()
            .collect();
        let seen = if !differ.is_empty() {
            Seen::Differs
        } else if self.rules.iter().any(|rule| is(Seen::Holds)(&rule)) {
            Seen::Holds
        } else {
            Seen::NotSeen
        };
        (seen, differ)
    }
}

fn names_of(rules: &[Rule]) -> String {
    let names: Vec<&str> = rules
        .iter()
        .map(|rule| RULES[*rule as usize].name)
        .collect();
    names.join(", ")
}

impl Census {
    /// Returns how many rules were seen so.
    #[must_use]
    pub fn count(&self, seen: Seen) -> usize {
        self.rows.iter().filter(|row| row.seen == seen).count()
    }

    /// Returns the rules as a table, then the premises of the theorems, and in the last line what that comes to.
    #[must_use]
    pub fn table(&self) -> String {
        let mut text = String::new();
        for (words, row) in RULES.iter().zip(self.rows) {
            let line = format!(
                "{:<20}{:<10}{:<12}{}\n",
                words.name,
                row.seen.words().0,
                value_of(words, row),
                words.text
            );
            text.push_str(&line);
        }
        text.push_str("\nWhat the theorems need of a chip:\n");
        let mut broken = Vec::new();
        for premise in &PREMISES {
            let (seen, differ) = premise.seen(self);
            let tail = match seen {
                Seen::Differs => format!(" [{}]", names_of(&differ)),
                _ => String::new(),
            };
            text.push_str(&format!("{:<10}{}{tail}\n", seen.words().0, premise.text));
            if seen == Seen::Differs {
                broken.push(premise.text.split(':').next().unwrap_or_default());
            }
        }
        let [hold, differ, not_seen] =
            [Seen::Holds, Seen::Differs, Seen::NotSeen].map(|seen| self.count(seen));
        let sum = format!(
            "\n{}: {hold} hold, {differ} differ, {not_seen} cannot be seen\n",
            self.ended
        );
        text.push_str(&sum);
        text.push_str(&match broken.as_slice() {
            [] => "what is proved holds here as far as loopback shows\n".into(),
            broken => format!("what is proved need not hold here: {}\n", broken.join("; ")),
        });
        text
    }

    /// Returns a line of JSON for each rule, and for each premise.
    #[must_use]
    pub fn json(&self) -> String {
        let mut text = String::new();
        for (words, row) in RULES.iter().zip(self.rows) {
            let line = format!(
                "{{\"rule\":{},\"seen\":{},\"value\":{},\"text\":{}}}\n",
                Quoted(words.name),
                Quoted(row.seen.words().1),
                Quoted(&value_of(words, row)),
                Quoted(words.text)
            );
            text.push_str(&line);
        }
        for premise in &PREMISES {
            let (seen, differ) = premise.seen(self);
            let line = format!(
                "{{\"premise\":{},\"seen\":{},\"differ\":{}}}\n",
                Quoted(premise.text),
                Quoted(seen.words().1),
                Quoted(&names_of(&differ))
            );
            text.push_str(&line);
        }
        text
    }

    /// Returns rows and recording, as the programs in C write them into a file.
    #[must_use]
    pub fn file(&self) -> String {
        let mut text = String::new();
        for (words, row) in RULES.iter().zip(self.rows) {
            let value = match words.unit {
                Unit::Count => row.value.to_string(),
                _ => value_of(words, row),
            };
            let seen = row.seen.words().1;
            let line = match row.seen {
                Seen::NotSeen => format!("# {} {seen}\n", words.name),
                _ => format!("# {} {seen} {value}\n", words.name),
            };
            text.push_str(&line);
        }
        text.push_str(&format!("# end {}\n", self.ended));
        for noted in &self.recording {
            // A write to a string does not fail.
            let _ = write!(text, "{noted}");
        }
        text
    }
}
