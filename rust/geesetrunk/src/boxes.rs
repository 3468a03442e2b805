//! What a picture is made of: texts that fit, boxes, bars, and the marks under repeated accesses.

use crate::moments::{Arrival, Happened, Seen, parts};
use crate::repeats::{Place, Shown};
use std::fmt::Display;

/// The width of a moment.
pub const COLUMN: usize = 26;

/// How wide a letter is, in tenths.
pub const LETTER: usize = 61;

// The size of a small letter, and of one that is as wide as `LETTER` says.
const SMALL: usize = 8;

const SIZE: usize = 10;

// The height of a bar for as much as the chip holds.
const FULL: usize = 34;

/// The colours, for a dark screen too, and the sizes of the text.
pub const STYLE: &str = "<style>text{fill:#1f2328}.p{fill:#fff;stroke:#d0d7de}.m{text-anchor:middle}.z{text-anchor:end}.s{font-size:8px}\
.c{fill:#ddf4ff;stroke:#0969da}.r{fill:#dafbe1;stroke:#1a7f37}.w{fill:#ffeff7;stroke:#bf3989}\
.a{fill:#fff8c5;stroke:#9a6700}.e{fill:#ffebe9;stroke:#cf222e}.o{fill:#fbefff;stroke:#8250df}\
.b{fill:#b6e3ff;stroke:#0969da}.h{fill:#eac54f;stroke:#7d4e00}.g{fill:#57606a}\
.n{font-weight:bold}\
@media(prefers-color-scheme:dark){text{fill:#e6edf3}.p{fill:#0d1117;stroke:#30363d}\
.c{fill:#0c2d6b;stroke:#58a6ff}.r{fill:#033a16;stroke:#3fb950}.w{fill:#42062a;stroke:#f778ba}\
.a{fill:#341a00;stroke:#d29922}.e{fill:#490202;stroke:#f85149}.o{fill:#271052;stroke:#bc8cff}\
.b{fill:#0c2d6b;stroke:#58a6ff}.h{fill:#6b4a00;stroke:#d29922}.g{fill:#8b949e}}</style>\n";

/// Returns a text in which XML reserves no letter.
pub fn escaped(words: &str) -> String {
    let mut text = String::new();
    for letter in words.chars() {
        match letter {
            '<' => text.push_str("&lt;"),
            '>' => text.push_str("&gt;"),
            '&' => text.push_str("&amp;"),
            // XML 1.0 has no form for a control character.
            _ if letter < ' ' => text.push('?'),
            _ => text.push(letter),
        }
    }
    text
}

/// Returns as much of a text as this number of letters, the last of them `…` if it is cut.
pub fn cut(words: &str, room: usize) -> String {
    if words.chars().count() <= room {
        return escaped(words);
    }
    let begin: String = words.chars().take(room.saturating_sub(1)).collect();
    format!("{}…", escaped(&begin))
}

/// Returns how many letters there is room for in this width.
pub fn letters_in(width: usize) -> usize {
    width * 10 / LETTER
}

/// Returns a rectangle: where its left and its upper edge are, its width and its height.
pub fn rectangle(class: &str, [x, y, width, height]: [usize; 4]) -> String {
    format!("<rect class=\"{class}\" x=\"{x}\" y=\"{y}\" width=\"{width}\" height=\"{height}\"/>")
}

// Returns words in the middle of a moment, at this height.
fn words(class: &str, y: usize, words: impl Display) -> String {
    format!("<text class=\"{class}\" x=\"13\" y=\"{y}\">{words}</text>")
}

/// Returns a box of one moment, with a text in it.
pub fn boxed(class: &str, text: impl Display) -> String {
    rectangle(class, [1, 0, 24, 15]) + &words("m", 11, text) + "\n"
}

/// Returns a byte that arrived, and under it, in small, the letters of its errors and of its mark.
pub fn arrival(arrival: Arrival, mark: char) -> String {
    let (byte, letters) = (arrival.byte, arrival.letters());
    let class = if letters.is_empty() { "a" } else { "e" };
    rectangle(class, [1, 0, 24, 26])
        + &words("m", 11, format_args!("{byte:02x}"))
        + &words("m s", 22, format_args!("{letters}{mark}"))
        + "\n"
}

/// Returns a bar for this number of characters, of at most so many.
pub fn bar(class: &str, count: usize, most: usize) -> String {
    let height = FULL * count.min(most) / most.max(1);
    rectangle(class, [4, FULL - height, 18, height]) + &words("m s", 43, count) + "\n"
}

// The room between two columns, so that what stands in them does not touch.
const BETWEEN: usize = 1;

// Returns the size of letters that are small, and small enough for a column.
fn size_for(text: &str) -> usize {
    let width = COLUMN - BETWEEN;
    (10 * SIZE * width / (LETTER * text.chars().count().max(1))).min(SMALL)
}

// Returns words in the middle of a moment, at this height, in letters of a size of their own.
fn sized_words(y: usize, words: &str) -> String {
    let size = size_for(words);
    format!("<text class=\"m\" x=\"13\" y=\"{y}\" font-size=\"{size}\">{words}</text>\n")
}

/// Returns the time of a moment. The longer it is, the smaller are its letters: so it does not reach
/// into the columns beside it.
pub fn time(time: u64) -> String {
    let text = time.to_string();
    match size_for(&text) {
        SMALL => words("m s", 10, text) + "\n",
        _ => sized_words(10, &text),
    }
}

// Returns an access: its register over its value, red if the audit warns of it, and yellow if it is the latest read. A letter says
// whether it is a read or a write: not everybody tells the two colours apart.
fn seen(seen: Seen, happened: &Happened) -> String {
    let (letter, _, value) = parts(seen.access);
    let class = match letter {
        _ if happened.is_wrong => "e",
        _ if happened.is_latest => "a",
        'r' => "r",
        _ => "w",
    };
    rectangle(class, [1, 0, 24, 27])
        + &words("m s", 10, seen.register)
        + &words(
            "m",
            22,
            format_args!("<tspan class=\"s\">{letter} </tspan>{value:02x}"),
        )
        + "\n"
}

// Returns how many times an access happened by itself.
fn times(times: u64) -> String {
    sized_words(38, &format!("×{times}"))
}

// Returns a part of the line under a group, and at its end how many times the group happened.
fn mark(shown: &Shown) -> String {
    let line = |x, width| rectangle("g", [x, 29, width, 1]) + "\n";
    match shown.place {
        Place::Alone if shown.times > 1 => times(shown.times),
        Place::Alone => String::new(),
        Place::First => line(3, 23),
        Place::Middle => line(0, 26),
        Place::Last => {
            let times = shown.times;
            line(0, 23) + &format!("<text class=\"z s\" x=\"25\" y=\"38\">×{times}</text>\n")
        }
    }
}

/// Returns the access of a moment, and how many times it happened.
pub fn access(shown: &Shown) -> String {
    let happened = shown.moment.happened;
    match happened.access {
        Some(access) => seen(access, &happened) + &mark(shown),
        None => String::new(),
    }
}

#[cfg(test)]
mod tests {
    use super::*;
    use uart_spec::access::Access;

    // How wide a text is, whose size is that of small letters unless it is said.
    fn width_of(text: &str) -> usize {
        let size = text
            .split("font-size=\"")
            .nth(1)
            .and_then(|rest| rest.split('"').next());
        let size = size.map_or(SMALL, |size| size.parse().unwrap());
        let words = text
            .split('>')
            .nth(1)
            .and_then(|rest| rest.split('<').next())
            .unwrap();
        words.chars().count() * size * LETTER / (10 * SIZE)
    }

    #[test]
    fn an_access_has_its_letter() {
        for (access, letter) in [(Access::Read(5, 0x60), 'r'), (Access::Write(5, 0x60), 'w')] {
            let register = "LSR";
            let wrong = Happened {
                is_wrong: true,
                ..Happened::default()
            };
            let drawn = seen(Seen { access, register }, &wrong);
            assert!(drawn.contains(&format!(">{letter} </tspan>60<")), "{drawn}");
        }
        // A small letter and a small space beside two digits.
        const { assert!((2 * SMALL + 2 * SIZE) * LETTER / (10 * SIZE) <= COLUMN - 2) };
    }

    #[test]
    fn a_time_fits_into_its_column() {
        for number in [1, 99_999, 100_000, 9_999_999, 4_000_000_000, u64::MAX] {
            let text = time(number);
            assert!(width_of(&text) <= COLUMN, "{text}");
        }
        // Short ones are as large as ever.
        assert_eq!(
            time(99_999),
            "<text class=\"m s\" x=\"13\" y=\"10\">99999</text>\n"
        );
    }

    #[test]
    fn a_text_that_is_too_long_is_cut() {
        assert_eq!(cut("abc", 3), "abc");
        assert_eq!(cut("abcd", 3), "ab…");
        assert_eq!(cut("<&>\t", 9), "&lt;&amp;&gt;?");
        assert_eq!(cut("ab", 0), "…");
    }
}
