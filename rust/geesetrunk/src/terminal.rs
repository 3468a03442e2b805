//! What a terminal gets and a pipe does not: colours, and a line that shows how far a long file is
//! read.

use std::env;
use std::ffi::OsStr;
use std::fmt;
use std::io::{self, IsTerminal, Write};
use std::sync::OnceLock;
use std::time::{Duration, Instant};

/// What a text is, which decides its colour.
#[derive(Clone, Copy, Debug, PartialEq, Eq)]
pub enum Paint {
    /// A place: a file, with its line and column.
    Place,
    /// A fault.
    Fault,
    /// A warning.
    Warning,
    /// A note.
    Note,
    /// The caret under a place.
    Caret,
}

impl Paint {
    // Returns the parameters of the sequence that begins the colour.
    fn parameters(self) -> &'static str {
        match self {
            Paint::Place => "1",
            Paint::Fault => "1;31",
            Paint::Warning => "1;33",
            Paint::Note => "1;36",
            Paint::Caret => "1;32",
        }
    }
}

/// When texts have colours.
#[derive(Clone, Copy, Debug, PartialEq, Eq)]
pub enum Colour {
    /// On a terminal.
    Auto,
    /// Always, as for a pager or a log of a build.
    Always,
    /// Never.
    Never,
}

impl Colour {
    /// Returns what a word of the command line asks for.
    pub fn named(name: &str) -> Option<Self> {
        match name {
            "auto" => Some(Colour::Auto),
            "always" => Some(Colour::Always),
            "never" => Some(Colour::Never),
            _ => None,
        }
    }
}

// What the command line asks for. It is one for the process, as its streams are, and is said once, before anything is printed.
static ASKED: OnceLock<Colour> = OnceLock::new();

/// Says when texts have colours. What is said first stays.
pub fn choose_colour(colour: Colour) {
    ASKED.get_or_init(|| colour);
}

/// Whether texts have colours.
#[derive(Clone, Copy, Debug, PartialEq, Eq)]
pub struct Style {
    has_colours: bool,
}

impl Style {
    /// Texts without colours.
    pub const PLAIN: Self = Style { has_colours: false };

    /// Texts with colours.
    pub const COLOURED: Self = Style { has_colours: true };

    /// Returns the style for a stream: what the command line asks for, or else colours if it is a terminal, unless `NO_COLOR` is set to
    /// something or the terminal is a `dumb` one.
    pub fn of(stream: &impl IsTerminal) -> Self {
        let variable = |name| env::var_os(name).unwrap_or_default();
        let has_colours = match ASKED.get().copied().unwrap_or(Colour::Auto) {
            Colour::Always => true,
            Colour::Never => false,
            Colour::Auto => {
                let (no_color, term) = (variable("NO_COLOR"), variable("TERM"));
                stream.is_terminal() && wants_colours(&no_color, &term)
            }
        };
        Style { has_colours }
    }

    /// Returns a text in its colour.
    pub fn painted<T: fmt::Display>(self, paint: Paint, text: T) -> Painted<T> {
        Painted {
            paint: self.has_colours.then_some(paint),
            text,
        }
    }
}

// Returns whether a terminal gets colours, by two variables. One that is not set is empty.
fn wants_colours(no_color: &OsStr, term: &OsStr) -> bool {
    no_color.is_empty() && term != "dumb"
}

/// A text in its colour, if it has one.
#[derive(Clone, Copy, Debug)]
pub struct Painted<T> {
    paint: Option<Paint>,
    text: T,
}

impl<T: fmt::Display> fmt::Display for Painted<T> {
    fn fmt(&self, f: &mut fmt::Formatter<'_>) -> fmt::Result {
        match self.paint {
            Some(paint) => write!(f, "\x1b[{}m{}\x1b[0m", paint.parameters(), self.text),
            None => self.text.fmt(f),
        }
    }
}

// How long a file is read before its progress is shown, and how long that is left unchanged.
const PATIENCE: Duration = Duration::from_millis(500);

const PAUSE: Duration = Duration::from_millis(100);

// Goes to the start of the line of a terminal, and clears it.
const CLEAR: &str = "\r\x1b[K";

/// A line on a terminal that says how much of a file is read.
///
/// Nothing is shown of a file that is read in half a second.
#[derive(Debug)]
pub struct Progress<W: Write> {
    out: Option<W>,
    label: String,
    total: Option<u64>,
    done: u64,
    start: Instant,
    shown: Option<Instant>,
}

impl Progress<io::Stderr> {
    /// Returns the progress in a file of this many bytes, on standard error. Nothing is shown if
    /// that is no terminal.
    pub fn on_terminal(label: String, total: Option<u64>) -> Self {
        let stderr = io::stderr();
        let out = stderr.is_terminal().then_some(stderr);
        Progress::new(out, label, total, Instant::now())
    }
}

impl<W: Write> Progress<W> {
    fn new(out: Option<W>, label: String, total: Option<u64>, start: Instant) -> Self {
        Progress {
            out,
            label,
            total,
            done: 0,
            start,
            shown: None,
        }
    }

    /// Says that this many more bytes are read.
    pub fn advance(&mut self, count: usize) {
        self.done = self.done.saturating_add(count as u64);
        if self.out.is_some() {
            self.show(Instant::now());
        }
    }

    // Shows how much is read, if it is time to.
    fn show(&mut self, now: Instant) {
        let is_due = match self.shown {
            Some(shown) => now.duration_since(shown) >= PAUSE,
            None => now.duration_since(self.start) >= PATIENCE,
        };
        let Some(out) = self.out.as_mut().filter(|_| is_due) else {
            return;
        };
        let (label, done) = (&self.label, self.done);
        // A terminal that cannot be written shows no progress, and the work goes on.
        let _ = match self.total.filter(|&total| total > 0) {
            Some(total) => {
                let percent = (u128::from(done) * 100 / u128::from(total)).min(100);
                write!(out, "{CLEAR}{label}: {percent} %")
            }
            None => write!(out, "{CLEAR}{label}: {} MB", done / 1_000_000),
        };
        let _ = out.flush();
        self.shown = Some(now);
    }

    /// Takes the line away, if it is there. It comes back with more bytes.
    pub fn clear(&mut self) {
        if let (Some(out), Some(_)) = (&mut self.out, self.shown) {
            let _ = write!(out, "{CLEAR}");
            let _ = out.flush();
            self.shown = None;
            self.start = Instant::now();
        }
    }
}

// However the work ends, what is printed next does not stand behind the line.
impl<W: Write> Drop for Progress<W> {
    fn drop(&mut self) {
        self.clear();
    }
}

#[cfg(test)]
mod tests {
    use super::*;

    #[test]
    fn only_coloured_texts_have_sequences() {
        let place = Style::COLOURED.painted(Paint::Place, "a:1");
        assert_eq!(place.to_string(), "\x1b[1ma:1\x1b[0m");
        assert_eq!(Style::PLAIN.painted(Paint::Place, "a:1").to_string(), "a:1");
    }

    #[test]
    fn some_terminals_get_no_colours() {
        for (no_color, term, wanted) in [
            ("", "xterm", true),
            ("", "", true),
            ("1", "xterm", false),
            ("", "dumb", false),
        ] {
            assert_eq!(wants_colours(no_color.as_ref(), term.as_ref()), wanted);
        }
    }

    // The progress after so many bytes of 200, when so many milliseconds have passed.
    fn shown(total: Option<u64>, steps: &[(usize, u64)]) -> String {
        let mut text = Vec::new();
        let start = Instant::now();
        let mut progress = Progress::new(Some(&mut text), "a".into(), total, start);
        for (bytes, milliseconds) in steps {
            progress.done += *bytes as u64;
            progress.show(start + Duration::from_millis(*milliseconds));
        }
        drop(progress);
        String::from_utf8(text).unwrap()
    }

    #[test]
    fn a_file_that_is_read_soon_shows_nothing() {
        assert_eq!(shown(Some(200), &[(100, 10), (100, 499)]), "");
    }

    #[test]
    fn a_long_file_shows_its_progress_in_turn() {
        assert_eq!(
            shown(Some(200), &[(50, 600), (50, 650), (50, 700)]),
            "\r\x1b[Ka: 25 %\r\x1b[Ka: 75 %\r\x1b[K"
        );
    }

    #[test]
    fn a_pipe_shows_how_much_came() {
        assert_eq!(shown(None, &[(3_500_000, 600)]), "\r\x1b[Ka: 3 MB\r\x1b[K");
    }

    #[test]
    fn a_line_that_is_shown_is_taken_away() {
        let mut text = Vec::new();
        let start = Instant::now();
        let mut progress = Progress::new(Some(&mut text), "a".into(), Some(4), start);
        progress.clear();
        progress.show(start + PATIENCE);
        progress.clear();
        drop(progress);
        assert_eq!(String::from_utf8(text).unwrap(), "\r\x1b[Ka: 0 %\r\x1b[K");
    }

    #[test]
    fn a_line_that_is_left_is_taken_away_at_the_end() {
        assert_eq!(shown(Some(4), &[(1, 600)]), "\r\x1b[Ka: 25 %\r\x1b[K");
    }
}
