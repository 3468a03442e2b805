//! What is found in recordings and traces, and how that is printed: as lines for people, or as lines
//! of JSON for programs.
//!
//! For people a kind of finding is printed in full where it is found first. If it is found again, a
//! line at the end says how often, and from which line to which. The option `--all` prints each.

use crate::accepted::Accepted;
use crate::end::{End, Status};
use crate::heap;
use crate::import::Import;
use crate::json::Quoted;
use crate::judging::{Found, Judge, Judged, Stop, judge_recording};
use crate::known::Known;
use crate::log::Log;
use crate::refused_trace::{refused_in_trace, stray_in_trace};
use crate::sarif::Sarif;
use crate::streams::{Output, print, standard_output, text_of};
use crate::terminal::{Paint, Style};
use crate::text::counted;
use std::cell::RefCell;
use std::io::{self, Write};
use std::num::NonZeroU64;
use uart_judges::findings::{self, MOST_TRACE_BYTES, VerifyError};
use uart_judges::traces::TraceError;
use uart_spec::FifoSize;

/// How findings are printed.
#[derive(Clone, Copy, Debug)]
pub enum Format<'a> {
    /// As lines for people, each kind once.
    Lines(Style),
    /// As lines for people, all of them.
    AllLines(Style),
    /// Each as an object of JSON, which is one line.
    Json,
    /// Each as a result of this document, whose head is printed already.
    Sarif(&'a Sarif),
}

/// How recordings are judged.
#[derive(Clone, Copy, Debug)]
pub struct Judging<'a> {
    /// Who judges them.
    pub judge: Judge,
    /// How what is found is printed.
    pub format: Format<'a>,
    /// Whether what the datasheet leaves open is left out.
    pub is_settled: bool,
    /// What the command line says about the log.
    pub import: Import,
    /// What is known of the chip.
    pub known: Known,
    /// The findings that are accepted: they are counted, and not printed.
    pub accepted: &'a Accepted,
}

impl Judge {
    fn name(self) -> &'static str {
        match self {
            Judge::Audit => "audit",
            Judge::Replay => "replay",
        }
    }

    // Returns what is counted: notes are not.
    fn counted(self) -> &'static str {
        match self {
            Judge::Audit => "warning",
            Judge::Replay => "difference",
        }
    }
}

// How often a kind of finding was found.
#[derive(Clone, Copy)]
struct Tally {
    name: &'static str,
    severity: &'static str,
    times: u64,
    first: u64,
    last: u64,
}

// What was found so far, by its kinds, of which there are some fifty.
#[derive(Default)]
struct Tallies {
    kinds: Vec<Tally>,
}

impl Tallies {
    // Counts a finding. Returns whether it is the first of its kind.
    fn count(&mut self, found: &Found) -> bool {
        let (name, severity) = (found.kind.name(), found.kind.severity());
        // In a log whose times begin late the same may be undecided first, and a warning then.
        let mut kinds = self.kinds.iter_mut();
        let known = kinds.find(|tally| tally.name == name && tally.severity == severity);
        if let Some(tally) = known {
            tally.times = tally.times.saturating_add(found.times);
            tally.last = found.line;
            return false;
        }
        self.kinds.push(Tally {
            name,
            severity,
            times: found.times,
            first: found.line,
            last: found.line,
        });
        true
    }

    fn total(&self, severity: &str) -> u64 {
        let of_this = self.kinds.iter().filter(|tally| tally.severity == severity);
        of_this.fold(0, |total, tally| total.saturating_add(tally.times))
    }
}

fn paint_of(severity: &str) -> Paint {
    match severity {
        "note" | "undecided" => Paint::Note,
        _ => Paint::Warning,
    }
}

fn severity_text(severity: &str, style: Style) -> String {
    style.painted(paint_of(severity), severity).to_string()
}

// Returns a finding of this file as a line in this style, without its end.
fn line_of(file: &str, found: &Found, style: Style) -> String {
    let place = format!("{file}:{}:", found.line);
    let place = style.painted(Paint::Place, &place);
    let (kind, name) = (
        severity_text(found.kind.severity(), style),
        found.kind.name(),
    );
    let times = match found.times {
        1 => String::new(),
        times => format!(" ({times} times)"),
    };
    format!("{place} {kind}: {}{times} [{name}]", found.kind)
}

// Returns how often a kind was found in this file.
fn tally_line(file: &str, tally: &Tally, style: Style) -> String {
    let kind = severity_text(tally.severity, style);
    let place = format!("{file}:");
    let place = style.painted(Paint::Place, &place);
    let (name, times) = (tally.name, tally.times);
    if tally.first == tally.last {
        return format!(
            "{place} {kind}: [{name}] {times} times, line {}",
            tally.first
        );
    }
    let (first, last) = (tally.first, tally.last);
    format!("{place} {kind}: [{name}] {times} times, from line {first} to line {last}")
}

// Returns an object of JSON, of something of this kind that was found so many times.
fn json(file: &str, line: &str, kind: &str, name: &str, text: &str, times: u64) -> String {
    format!(
        "{{\"file\":{},\"line\":{line},\"kind\":{},\"name\":{},\"text\":{},\"times\":{times}}}",
        Quoted(file),
        Quoted(kind),
        Quoted(name),
        Quoted(text),
    )
}

// Prints findings of a file.
struct Listing<'a, W: Write> {
    output: &'a RefCell<Output<W>>,
    file: &'a str,
    format: Format<'a>,
    tallies: Tallies,
}

impl<W: Write> Listing<'_, W> {
    fn print(&mut self, found: &Found) -> io::Result<()> {
        let is_first = self.tallies.count(found);
        let mut output = self.output.borrow_mut();
        match self.format {
            Format::Lines(_) if !is_first => Ok(()),
            Format::Lines(style) | Format::AllLines(style) => {
                writeln!(output, "{}", line_of(self.file, found, style))
            }
            Format::Json | Format::Sarif(_) => {
                let (kind, line) = (&found.kind, found.line.to_string());
                let (text, times) = (kind.to_string(), found.times);
                let (severity, name) = (kind.severity(), kind.name());
                if let Format::Sarif(sarif) = self.format {
                    let result = sarif.result(self.file, &line, severity, name, &text, times);
                    return write!(output, "{result}");
                }
                let object = json(self.file, &line, severity, name, &text, times);
                writeln!(output, "{object}")
            }
        }
    }

    // Prints how often each kind was found, and how much that is.
    fn print_end(
        &mut self,
        judge: Judge,
        judged: Judged,
        accepted: u64,
        read_as: Option<String>,
    ) -> io::Result<()> {
        let mut output = self.output.borrow_mut();
        let (Format::Lines(style) | Format::AllLines(style)) = self.format else {
            // The exit status says whether anything was found.
            return Ok(());
        };
        if let Format::Lines(_) = self.format {
            for tally in self.tallies.kinds.iter().filter(|tally| tally.times > 1) {
                writeln!(output, "{}", tally_line(self.file, tally, style))?;
            }
        }
        let lines = counted(judged.lines, "line");
        let has = judged.has;
        let total = counted(self.tallies.total(judge.counted()), judge.counted());
        let undecided = match self.tallies.total("undecided") {
            0 => String::new(),
            count => format!(", {count} undecided"),
        };
        let read_as = read_as.map_or(String::new(), |read_as| format!(" {read_as}"));
        let accepted = match accepted {
            0 => String::new(),
            count => format!(", {count} accepted"),
        };
        writeln!(
            output,
            "{}: {lines}{read_as}, with {has}, {total}{undecided}{accepted}",
            self.file
        )
    }
}

/// Judges the recording of this name, and prints what is found as soon as it is found. What the
/// datasheet leaves open is left out if only what is settled is wanted.
///
/// # Errors
///
/// How the program ends: something was found that is wrong, the recording cannot be read to its end,
/// or the output cannot be written.
pub fn judged(file: &str, judging: &Judging<'_>) -> Result<(), End> {
    let Judging {
        judge,
        format,
        is_settled,
        import,
        known,
        accepted,
    } = judging;
    let mut left = accepted.of_file(file);
    let output = RefCell::new(Output::new(standard_output().map_err(End::unwritten)?));
    let mut log = Log::open(file, judge.name(), import, &output)?;
    let mut listing = Listing {
        output: &output,
        file,
        format: *format,
        tallies: Tallies::default(),
    };
    let judged = judge_recording(*judge, known, &mut log, |found| {
        if *is_settled && found.kind.is_open() {
            return Ok(());
        }
        left.new_of(found)
            .map_or(Ok(()), |found| listing.print(&found))
    });
    let count = judged.and_then(|judged| {
        let ended = listing.print_end(*judge, judged, left.accepted, log.read_as());
        ended.map_err(Stop::Output)?;
        Ok(listing.tallies.total(judge.counted()))
    });
    let count = count.map_err(|stop| log.ended(stop));
    match format {
        // The last line has what it was read as.
        Format::Lines(_) | Format::AllLines(_) => drop(log),
        Format::Json | Format::Sarif(_) => log.close(),
    }
    // If the output cannot be written, nothing else is worth saying.
    output.into_inner().finish().map_err(End::unwritten)?;
    match count? {
        0 => Ok(()),
        _ => Err(End::told(Status::Refused)),
    }
}

// Returns the line that `verify` prints for a trace that strays, or an empty one.
fn stray_line(trace: &[u8], limit: NonZeroU64, fifo_size: FifoSize) -> Result<String, VerifyError> {
    let line = findings::verify(heap(), trace, limit, fifo_size)?;
    Ok(String::from_utf8_lossy(&line).trim_end_matches('\n').into())
}

// Prints where a trace strays. For people that is an error, on standard error.
fn print_stray(file: &str, trace: &[u8], line: &str, format: Format<'_>) -> Result<(), End> {
    let parts = line
        .strip_prefix("line ")
        .and_then(|line| line.split_once(": "));
    let (line, text) = parts.unwrap_or(("1", line));
    match format {
        Format::Lines(_) | Format::AllLines(_) => {
            let stray = stray_in_trace(trace, line.parse().unwrap_or(1), text);
            let text = stray.text(file, Style::of(&io::stderr()));
            // If standard error cannot be written, the exit status still says that it strays.
            let _ = writeln!(io::stderr(), "{text}");
        }
        Format::Json => print((json(file, line, "stray", "stray", text, 1) + "\n").as_bytes())?,
        Format::Sarif(sarif) => {
            let result = sarif.result(file, line, "stray", "stray", text, 1);
            print(result.as_bytes())?;
        }
    }
    Err(End::told(Status::Refused))
}

/// Verifies the trace of this name, and prints where it strays. It is of a driver with this limit, which takes the FIFOs to be of this
/// size.
///
/// # Errors
///
/// How the program ends: the trace strays, it is none, it cannot be read, or the output cannot be
/// written.
pub fn verified(
    file: &str,
    limit: NonZeroU64,
    fifo_size: FifoSize,
    format: Format<'_>,
) -> Result<(), End> {
    // One byte more than the longest trace has: so input without end is refused.
    let trace = text_of(file, MOST_TRACE_BYTES as u64 + 1)?;
    match stray_line(&trace, limit, fifo_size) {
        Ok(line) if line.is_empty() => Ok(()),
        Ok(line) => print_stray(file, &trace, &line, format),
        Err(VerifyError::NoTrace(TraceError::OutOfMemory)) => Err(End::out_of_memory()),
        Err(VerifyError::NoTrace(TraceError::NoTrace { line, fault })) => {
            let refused = refused_in_trace(&trace, line, fault);
            Err(End::failed(refused.text(file, Style::of(&io::stderr()))))
        }
        Err(error @ VerifyError::TooLong) => Err(End::failed(format!("{file}: {error}"))),
    }
}

#[cfg(test)]
mod tests {
    use super::*;
    use crate::kinds::Kind;
    use uart_judges::audit::Finding;

    const FOUND: Found = Found {
        line: 3,
        kind: Kind::Finding(Finding::ZeroDivisor),
        times: 2,
    };

    const TEXT: &str = "the divisor is 0: nothing is sent or received. Write DLL and DLM";

    #[test]
    fn a_line_has_its_place_its_text_and_its_name() {
        let line = format!("a:3: warning: {TEXT} (2 times) [divisor-zero]");
        assert_eq!(line_of("a", &FOUND, Style::PLAIN), line);
        assert!(line_of("a", &FOUND, Style::COLOURED).starts_with("\x1b[1ma:3:"));
    }

    #[test]
    fn kinds_are_counted() {
        let mut tallies = Tallies::default();
        assert!(tallies.count(&FOUND));
        assert!(!tallies.count(&Found { line: 9, ..FOUND }));
        let line = "a: warning: [divisor-zero] 4 times, from line 3 to line 9";
        assert_eq!(tally_line("a", &tallies.kinds[0], Style::PLAIN), line);
        assert_eq!((tallies.total("warning"), tallies.total("note")), (4, 0));
    }

    #[test]
    fn a_finding_is_an_object() {
        assert_eq!(
            json("a\n.recording", "3", "note", "n", "a \"b\"", 2),
            r#"{"file":"a\n.recording","line":3,"kind":"note","name":"n","text":"a \"b\"","times":2}"#
        );
    }
}
