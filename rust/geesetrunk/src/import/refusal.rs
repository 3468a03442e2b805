//! Why a line of a log is refused.

use crate::terminal::{Paint, Style};
use crate::text::printable;
use std::error::Error;
use std::fmt;

// The most bytes of a line that are shown beside a caret.
const MOST_SHOWN: usize = 200;

/// Where a line is refused, and why.
#[derive(Clone, Debug, PartialEq, Eq)]
pub struct Refusal {
    /// The column, counted from 1.
    pub column: usize,
    /// What is wrong.
    pub cause: &'static str,
    /// What is expected in that column.
    pub wants: String,
}

impl Refusal {
    /// Returns the refusal of a part of a line.
    pub fn at(line: &[u8], part: &[u8], cause: &'static str, wants: impl Into<String>) -> Self {
        Refusal {
            column: column_of(line, part),
            cause,
            wants: wants.into(),
        }
    }
}

/// Returns the column in which a part of a line begins, counted from 1. What is no part of it begins behind it.
pub fn column_of(line: &[u8], part: &[u8]) -> usize {
    let (whole, part) = (line.as_ptr_range(), part.as_ptr());
    if whole.contains(&part) {
        1 + (part.addr() - whole.start.addr())
    } else {
        1 + line.len()
    }
}

/// A line that is refused.
#[derive(Clone, Debug, PartialEq, Eq)]
pub struct Refused {
    /// The number of the line, counted from 1.
    pub number: u64,
    /// The line, with `?` for what is not printable.
    pub shown: String,
    /// Where, and why.
    pub refusal: Refusal,
}

impl Refused {
    /// Returns the refusal of the line with this number. Of a long line only a part is kept.
    pub fn new(number: u64, line: &[u8], refusal: Refusal) -> Self {
        let shown = line.get(..MOST_SHOWN).unwrap_or(line);
        Refused {
            number,
            shown: printable(shown),
            refusal,
        }
    }

    /// Returns the refusal as it is printed for people: `FILE:LINE:COLUMN: cause`, the line, and a caret with what is expected there.
    /// The last line has no end.
    pub fn text(&self, file: &str, style: Style) -> String {
        let Refusal {
            column,
            cause,
            wants,
        } = &self.refusal;
        let place = format!("{file}:{}:{column}", self.number);
        let place = style.painted(Paint::Place, &place);
        let cause = style.painted(Paint::Fault, cause);
        let caret = style.painted(Paint::Caret, "^");
        if *column > MOST_SHOWN {
            return format!("{place}: {cause}: expected is {wants}");
        }
        let before = " ".repeat(column - 1);
        format!("{place}: {cause}\n{}\n{before}{caret} {wants}", self.shown)
    }
}

impl fmt::Display for Refused {
    fn fmt(&self, f: &mut fmt::Formatter<'_>) -> fmt::Result {
        let Refused {
            number, refusal, ..
        } = self;
        write!(f, "line {number}: {}: {}", refusal.cause, refusal.wants)
    }
}

impl Error for Refused {}

#[cfg(test)]
mod tests {
    use super::*;

    #[test]
    fn a_caret_is_below_the_part_that_is_refused() {
        let line = b"r 9 60";
        let refusal = Refusal::at(line, &line[2..3], "bad offset", "an offset");
        let refused = Refused::new(7, line, refusal);
        assert_eq!(
            refused.text("a.log", Style::PLAIN),
            "a.log:7:3: bad offset\nr 9 60\n  ^ an offset"
        );
    }

    #[test]
    fn what_is_missing_is_behind_the_line() {
        assert_eq!(column_of(b"abc", b""), 4);
        let line = b"abc";
        assert_eq!(column_of(line, &line[2..]), 3);
    }

    #[test]
    fn a_long_line_is_not_shown() {
        let line = [b'a'; 1000];
        let refusal = Refusal::at(&line, &line[900..], "bad word", "a word");
        let text = Refused::new(1, &line, refusal).text("a", Style::PLAIN);
        assert_eq!(text, "a:1:901: bad word: expected is a word");
    }
}
