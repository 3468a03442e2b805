//! A run of a script, step by step: each access, each arrival, each byte that is sent, and how the chip is after it.
//!
//! The steps are those of the timeline: polls that return the same again and again are one step, however many millions they are. The
//! script is played twice for it. The first time says what the steps are, and the second time a live chip goes beside it, and says how the
//! chip is after the last repetition of each. If a read of that chip returns something else, the page says so.

use super::Beside;
use crate::end::Status;
use crate::fault::Explanation;
use crate::heap;
use crate::history::{History, is_call};
use crate::json::Quoted;
use crate::moments::{Moment, parts};
use crate::observing::{Show, observe};
use crate::repeats::{Merging, Place, Shown};
use crate::ring_language::{AnyScript, parse};
use crate::script::{kind_of, name_of, printed_for};
use crate::text::lines;
use std::fmt::Write;
use std::io;
use uart_language::{Cause, ScriptError};
use uart_trace::plain;

// The most steps that are kept. The others are counted.
const MOST: usize = 20_000;

// A step, and which moment of the run its last repetition is, counted from 0.
struct Step {
    call: usize,
    shown: Shown,
    last: u64,
}

// Finds the steps of a run.
#[derive(Default)]
struct Finding {
    merging: Merging,
    call: usize,
    steps: Vec<Step>,
    left_out: u64,
    // The group that is handed on, and how many moments are before it.
    group: Vec<Shown>,
    before: u64,
}

impl Finding {
    fn add(&mut self, shown: Shown) {
        self.group.push(shown);
        if !matches!(shown.place, Place::Alone | Place::Last) {
            return;
        }
        let period = self.group.len() as u64;
        for (index, shown) in (0..).zip(self.group.drain(..)) {
            if self.steps.len() >= MOST {
                self.left_out += 1;
                continue;
            }
            let last = self.before + period * (shown.times - 1) + index;
            self.steps.push(Step {
                call: self.call,
                shown,
                last,
            });
        }
        self.before += period * shown.times;
    }

    // Adds what the merging hands on.
    fn merge(&mut self, moment: Option<Moment>) -> io::Result<()> {
        let mut merging = std::mem::take(&mut self.merging);
        let mut add = |shown| {
            self.add(shown);
            Ok(())
        };
        let outcome = match moment {
            Some(moment) => merging.push(moment, &mut add),
            None => merging.finish(&mut add),
        };
        self.merging = merging;
        outcome
    }
}

impl Show for &mut Finding {
    fn begin(&mut self) -> io::Result<()> {
        self.merge(None)
    }

    fn moment(&mut self, moment: Moment) -> io::Result<()> {
        self.merge(Some(moment))
    }

    fn end(&mut self) -> io::Result<()> {
        self.merge(None)?;
        self.call += 1;
        Ok(())
    }
}

// How the chip is after a step, and when.
struct After {
    time: u64,
    state: String,
}

// Follows a run with a live chip.
struct Following<'a> {
    beside: Beside,
    steps: &'a [Step],
    done: u64,
    after: Vec<After>,
    // When that chip returned something else, for the first time.
    stray: Option<u64>,
}

impl Show for &mut Following<'_> {
    fn begin(&mut self) -> io::Result<()> {
        Ok(())
    }

    fn moment(&mut self, moment: Moment) -> io::Result<()> {
        if !self.beside.reach(&moment) {
            self.stray.get_or_insert(moment.time);
        }
        let next = self.steps.get(self.after.len());
        if next.is_some_and(|step| step.last == self.done) {
            self.after.push(After {
                time: moment.time,
                state: self.beside.state().to_string(),
            });
        }
        self.done += 1;
        Ok(())
    }

    fn end(&mut self) -> io::Result<()> {
        Ok(())
    }
}

fn place_name(place: Place) -> &'static str {
    match place {
        Place::Alone => "alone",
        Place::First => "first",
        Place::Middle => "middle",
        Place::Last => "last",
    }
}

fn step_text(step: &Step, after: &After, history: &History) -> String {
    let Shown {
        moment,
        place,
        times,
    } = &step.shown;
    let mut text = format!(
        "{{\"call\":{},\"from\":{},\"to\":{},\"times\":{times},\"place\":\"{}\"",
        step.call,
        moment.time,
        after.time,
        place_name(*place)
    );
    let happened = &moment.happened;
    // A text in memory takes everything.
    if let Some(byte) = happened.sent {
        let _ = write!(text, ",\"sent\":{byte}");
    }
    if let Some(arrival) = happened.arrival {
        let (byte, letters) = (arrival.byte, arrival.letters());
        let mark = history.mark(arrival.number);
        let _ = write!(text, ",\"arrived\":[{byte},\"{letters}\",\"{mark}\"]");
    }
    if let Some(lines) = happened.lines {
        let _ = write!(text, ",\"lines\":{lines}");
    }
    if let Some(seen) = happened.access {
        let (letter, offset, value) = parts(seen.access);
        let register = seen.register;
        let _ = write!(
            text,
            ",\"access\":[\"{letter}\",{offset},{value},\"{register}\"]"
        );
    }
    let _ = write!(text, ",\"state\":{}}}", after.state);
    text
}

// Returns a list of JSON.
fn list(items: impl Iterator<Item = String>) -> String {
    format!("[{}]", items.collect::<Vec<_>>().join(","))
}

// Returns the numbers of the lines of a script that are calls.
fn call_lines(text: &[u8]) -> String {
    let numbered = (1..).zip(lines(text));
    let calls = numbered.filter(|(_, line)| is_call(line));
    list(calls.map(|(number, _): (u32, _)| number.to_string()))
}

// Returns the run of a script, or `None` if out of memory.
fn run_of(script: &AnyScript, text: &[u8]) -> Option<String> {
    let printed = printed_for(script, text).ok()?;
    let history = History::new(text, &printed);
    let mut finding = Finding::default();
    observe(script, text, &mut finding).ok()?;
    let mut beside = Beside::new(script.plain()).ok()?;
    let first = beside.state();
    let mut following = Following {
        beside,
        steps: &finding.steps,
        done: 0,
        after: Vec::new(),
        stray: None,
    };
    observe(script, text, &mut following).ok()?;
    let steps = finding.steps.iter().zip(&following.after);
    let calls = history
        .calls
        .iter()
        .map(|call| format!("[{},{}]", Quoted(&call.line), Quoted(&call.answer)));
    let name = name_of(kind_of(script.plain()));
    let stray = following
        .stray
        .map_or("null".into(), |time| time.to_string());
    Some(format!(
        "{{\"chip\":\"{name}\",\"ticks\":{},\"first\":{first},\"calls\":{},\"lines\":{},\"last\":{},\"steps\":{},\
         \"moments\":{},\"left\":{},\"stray\":{stray}}}",
        script.plain().ticks(),
        list(calls),
        call_lines(text),
        list(history.last.iter().map(|line| Quoted(line).to_string())),
        list(steps.map(|(step, after)| step_text(step, after, &history))),
        following.done,
        finding.left_out,
    ))
}

fn refused(line: u32, column: usize, cause: &str, wants: &str) -> String {
    let (cause, wants) = (Quoted(cause), Quoted(wants));
    format!("{{\"line\":{line},\"column\":{column},\"cause\":{cause},\"wants\":{wants}}}")
}

fn why_refused(bytes: &[u8], line: u32, cause: Cause) -> String {
    match Explanation::new("", bytes, line, cause).line {
        Some(at) => refused(line, at.refusal.column, cause.text(), &at.refusal.wants),
        None => refused(0, 0, cause.text(), "a script has at most 65536 bytes"),
    }
}

/// Plays a script: returns the exit status of `geesetrunk play`, and what it prints to standard output.
///
/// # Examples
///
/// ```
/// use geesetrunk::page::played;
///
/// assert_eq!(played(b"chip 16550a 4 64\n").0, 0);
/// assert_eq!(played(b"chip 16550a 4 64\nsing\n"), (1, b"line 2: unknown word\n".to_vec()));
/// ```
pub fn played(bytes: &[u8]) -> (u8, Vec<u8>) {
    let out_of_memory = || (Status::OutOfMemory.number(), Vec::new());
    let Ok(text) = plain(heap(), bytes) else {
        return out_of_memory();
    };
    match parse(&text) {
        Ok(script) => match printed_for(&script, &text) {
            Ok(printed) => (0, printed),
            Err(_) => out_of_memory(),
        },
        Err(ScriptError::OutOfMemory) => out_of_memory(),
        Err(error) => (Status::Refused.number(), format!("{error}\n").into_bytes()),
    }
}

/// Returns the run of a script as an object of JSON; or, if it is refused, one with the line, the column, the cause and what is accepted
/// there.
///
/// # Examples
///
/// ```
/// use geesetrunk::page::explored;
///
/// let run = explored(b"chip 16550a 4 64\nlsr\n");
/// assert!(run.contains(r#""calls":[["lsr","ok 60"]],"lines":[2]"#), "{run}");
/// assert!(explored(b"chip 16550a 4 64\nsing\n").starts_with(r#"{"line":2,"column":1,"cause":"unknown word""#));
/// ```
pub fn explored(bytes: &[u8]) -> String {
    let out_of_memory = || refused(0, 0, "out of memory", "");
    let Ok(text) = plain(heap(), bytes) else {
        return out_of_memory();
    };
    match parse(&text) {
        Ok(script) => run_of(&script, &text).unwrap_or_else(out_of_memory),
        Err(ScriptError::OutOfMemory) => out_of_memory(),
        Err(ScriptError::Refused { line, cause }) => why_refused(bytes, line, cause),
    }
}

#[cfg(test)]
mod tests {
    use super::*;

    #[test]
    fn polls_without_number_are_few_steps() {
        let script =
            b"chip 16550a 4 64\nlimit 300000\ninit 14 9600 nocts 00 8\nreceive-exact 1\nlsr\n";
        let run = explored(script);
        assert!(run.contains(",\"times\":300000,"), "{run}");
        assert!(run.contains("\"stray\":null"));
        assert!(run.matches("\"state\":").count() < 60, "{run}");
    }

    #[test]
    fn larger_fifos_are_shown_to_their_last_place() {
        let arrivals = "arrive 41\n".repeat(65);
        let script = format!(
            "chip 16750 4 64\nlimit 200\ninit 14 9600 nocts 00 8\nnext\n{arrivals}isr\nlsr\nreceive 64\n"
        );
        let run = explored(script.as_bytes());
        assert!(run.starts_with(r#"{"chip":"16550A with FIFOs of 64""#));
        assert!(run.contains("\"stray\":null"));
        let full = format!("\"waiting\":[{}]", vec!["[65,0]"; 64].join(","));
        assert!(run.contains(&full));
        assert!(run.contains(",\"size\":64,\"trigger\":56,"));
    }

    // The transmitter holds back while CTS is off, and the receiver asks the other end to stop when it has as many as the level.
    #[test]
    fn flow_control_by_the_chip_is_shown() {
        let run = explored(
            b"chip 16750 4 64\nlimit 200\ninit 1 9600 nocts 00 8\nset-modem-control 22\nsend 41\ntick 100\nlsr\n\
              lines 1\ntick 100\nlsr\narrive 42\nlsr\n",
        );
        assert!(run.contains("\"stray\":null"), "{run}");
        assert!(
            run.contains("\"asks\":true") && run.contains("\"asks\":false"),
            "{run}"
        );
    }

    #[test]
    fn a_group_of_polls_is_shown_as_it_was_left() {
        let mut finding = Finding::default();
        let shown = |place, times| Shown {
            moment: Moment::default(),
            place,
            times,
        };
        finding.add(shown(Place::Alone, 1));
        finding.add(shown(Place::First, 5));
        finding.add(shown(Place::Last, 5));
        finding.add(shown(Place::Alone, 3));
        let last: Vec<_> = finding.steps.iter().map(|step| step.last).collect();
        // The moments are 0; 1 to 10, in turn; and 11 to 13.
        assert_eq!(last, [0, 9, 10, 13]);
    }
}
