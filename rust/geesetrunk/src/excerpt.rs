//! The timeline of a recording: its accesses up to a line, and what the audit warns of there.

use crate::judging::{DriverJudge, Stop, is_of_use};
use crate::kinds::Kind;
use crate::known::Known;
use crate::moments::{Arrival, Happened, Moment, Seen, parts, register_of};
use crate::picture::picture_of_recording;
use crate::resets::{Entries, Next, Resets};
use crate::table::table_of_recording;
use crate::text::file_name;
use crate::visits::Lateness;
use std::collections::{BTreeSet, VecDeque};
use std::io::Read;
use uart_judges::recording::{Entry, Happening, RecordingError};
use uart_spec::access::Access;
use uart_spec::registers::{LCR, offsets};

/// How many entries are drawn unless it is said.
pub const USUAL_EVENTS: usize = 100;

/// The most entries that can be drawn.
pub const MOST_EVENTS: usize = 10_000;

/// The form of a timeline.
#[derive(Clone, Copy, Debug, PartialEq, Eq)]
pub enum Form {
    /// An SVG picture.
    Picture,
    /// A table for a terminal.
    Table,
}

/// What to draw of a recording.
#[derive(Clone, Copy, Debug, PartialEq, Eq)]
pub struct Excerpt<'a> {
    /// The form of the timeline.
    pub form: Form,
    /// The file, or `-` for standard input.
    pub file: &'a str,
    /// The last line to draw. Without it, it is that at which the audit finds its first warning, or
    /// the end if there is none.
    pub line: Option<u64>,
    /// How many entries to draw at most: the last ones.
    pub most: usize,
    /// What is known of the chip.
    pub known: Known,
}

// A warning, and the line that it is about, which may be before the one at which it is found.
#[derive(Clone, Copy)]
struct Warning {
    line: u64,
    kind: Kind,
}

// An entry, and what the audit warns of at it.
struct Watched {
    moment: Moment,
    warnings: Vec<Warning>,
    // How late the character is that it reads.
    read: Option<Lateness>,
}

// The last entries of a recording, as far as it is read.
struct Watch {
    driver: DriverJudge,
    is_dlab_set: bool,
    level: Option<bool>,
    has_access: bool,
    most: usize,
    last: VecDeque<Watched>,
    // What the audit warns of in these entries, and finds behind them.
    late: Vec<Warning>,
}

// Returns what is found at a line, if it is a warning.
fn warning(line: u64, kind: Kind) -> Option<Warning> {
    (kind.severity() == "warning").then(|| Warning {
        line: kind.line().unwrap_or(line),
        kind,
    })
}

impl Warning {
    // Returns its line and its kind. A line that is left up is found again at each byte that arrives.
    fn key(&self) -> (u64, &'static str) {
        (self.line, self.kind.name())
    }

    fn text(&self) -> String {
        format!("line {}: {}", self.line, self.kind)
    }
}

// Adds a warning, unless there is one of this kind about its line.
fn add(found: &mut Vec<Warning>, warning: Warning) {
    if found.iter().all(|known| known.key() != warning.key()) {
        found.push(warning);
    }
}

impl Watch {
    fn new(most: usize, known: Known) -> Self {
        Watch {
            driver: DriverJudge::new(known),
            is_dlab_set: false,
            level: None,
            has_access: false,
            most,
            last: VecDeque::new(),
            late: Vec::new(),
        }
    }

    // Begins anew: the chip was reset.
    fn reset(&mut self) {
        self.driver.reset();
        self.is_dlab_set = false;
        self.level = None;
    }

    // Returns an access with the name of its register.
    fn seen(&mut self, access: Access) -> Seen {
        let register = register_of(access, self.is_dlab_set);
        let (_, offset, value) = parts(access);
        if offset == offsets::LCR {
            self.is_dlab_set = LCR::from_bits_retain(value).contains(LCR::DLAB);
        }
        Seen { access, register }
    }

    // Returns the level of the interrupt line after an entry, if it is another than before.
    fn new_level(&mut self, entry: &Entry) -> Option<bool> {
        let level = match entry.happening {
            Happening::Interrupt { is_raised } => Some(is_raised),
            _ => entry.interrupt,
        };
        let is_new = level.is_some() && level != self.level;
        self.level = level.or(self.level);
        level.filter(|_| is_new)
    }

    // Returns what the audit warns of at an entry: of equal reads in turn, each kind at a line once.
    fn found(&mut self, entry: &Entry) -> Vec<Warning> {
        let mut found: Vec<Warning> = Vec::new();
        self.driver.step(entry, |kind, times| {
            if let Some(warning) = warning(entry.line, kind).filter(|_| times > 0) {
                add(&mut found, warning);
            }
        });
        found
    }

    // Keeps an entry. Returns whether the audit warns of it.
    fn step(&mut self, entry: &Entry) -> bool {
        let mut happened = Happened {
            interrupt: self.new_level(entry),
            ..Happened::default()
        };
        let warnings = self.found(entry);
        let is_wrong = !warnings.is_empty();
        self.has_access |= is_of_use(entry.happening);
        match entry.happening {
            Happening::Access(access) => happened.access = Some(self.seen(access)),
            Happening::Arrive { byte, errors } => {
                happened.arrival = Some(Arrival {
                    byte,
                    errors,
                    number: 0,
                });
            }
            Happening::Lines(lines) => happened.lines = Some(lines.bits()),
            Happening::Interrupt { .. } => {}
        }
        let moment = Moment {
            time: entry.line,
            happened,
            ..Moment::default()
        };
        if self.last.len() == self.most {
            self.last.pop_front();
        }
        let read = self.driver.read();
        self.last.push_back(Watched {
            moment,
            warnings,
            read,
        });
        is_wrong
    }

    // Returns what the audit warns of.
    fn warnings(&self) -> impl Iterator<Item = Warning> {
        let found = self.last.iter().flat_map(|watched| &watched.warnings);
        found.chain(&self.late).copied()
    }

    // Returns the latest read of what waits, and its line.
    fn latest(&self) -> Option<(Lateness, u64)> {
        let reads = self.last.iter().map(|watched| {
            let line = watched.moment.time;
            watched.read.map(|lateness| (lateness, line))
        });
        reads.fold(None, Lateness::later)
    }

    // Returns the last entries, of which these lines are wrong, and this one reads latest.
    fn moments(&self, wrong: &BTreeSet<u64>, latest: Option<u64>) -> impl Iterator<Item = Moment> {
        self.last.iter().map(move |watched| {
            let mut moment = watched.moment;
            moment.happened.is_wrong = wrong.contains(&moment.time);
            moment.happened.is_latest = latest == Some(moment.time);
            moment
        })
    }

    // Reads on from this entry while it may be found that a line up to the last one is wrong, and
    // keeps what is found of those that are drawn. What cannot be read there is not drawn, and so it
    // is no error.
    fn read_on<R: Read>(&mut self, entry: Entry, entries: &mut Entries<'_, R>, last: u64) {
        let first = self.last.front().map_or(0, |watched| watched.moment.time);
        let mut next = Some(entry);
        while let Some(entry) = next.filter(|_| self.driver.may_name_up_to(last)) {
            for warning in self.found(&entry) {
                if (first..=last).contains(&warning.line) {
                    add(&mut self.late, warning);
                }
            }
            // Behind a reset nothing is found about a line before it.
            next = match entries.read_next() {
                Ok(Some(Next::Entry(entry))) => Some(entry),
                Ok(Some(Next::Reset(_)) | None) | Err(_) => None,
            };
        }
    }
}

// Reads a recording up to the last line that is drawn. Returns whether that is its end.
fn read_up_to<R: Read>(
    watch: &mut Watch,
    entries: &mut Entries<'_, R>,
    last: Option<u64>,
) -> Result<bool, RecordingError> {
    while let Some(next) = entries.read_next()? {
        let entry = match next {
            Next::Entry(entry) => entry,
            Next::Reset(line) if last.is_some_and(|last| line > last) => return Ok(false),
            Next::Reset(_) => {
                watch.reset();
                continue;
            }
        };
        if let Some(last) = last.filter(|&last| entry.line > last) {
            watch.read_on(entry, entries, last);
            return Ok(false);
        }
        if watch.step(&entry) && last.is_none() {
            return Ok(false);
        }
    }
    Ok(true)
}

// Returns the title: the file by its name, and the lines that are drawn.
fn title(file: &str, moments: &[Moment]) -> String {
    let name = file_name(file);
    match (moments.first(), moments.last()) {
        (Some(first), Some(last)) => format!("{name}: lines {} to {}", first.time, last.time),
        _ => format!("{name}: nothing happens"),
    }
}

/// Reads a recording, and returns the timeline of its last entries up to a line, with what the audit
/// warns of in them.
///
/// # Errors
///
/// Why the recording was not read up to that line.
pub fn timeline_of(excerpt: &Excerpt<'_>, reader: impl Read) -> Result<String, Stop> {
    let mut watch = Watch::new(excerpt.most, excerpt.known);
    let resets = Resets::default();
    let mut entries = Entries::new(reader, &resets)?;
    let is_end = read_up_to(&mut watch, &mut entries, excerpt.line)?;
    if is_end && !watch.has_access {
        return Err(Stop::NoAccess);
    }
    let lines = entries.lines();
    if let Some(line) = excerpt.line.filter(|&line| is_end && line > lines) {
        return Err(Stop::NoLine { line, lines });
    }
    let mut found: Vec<_> = watch.warnings().collect();
    if is_end {
        found.extend(watch.driver.end().filter_map(|kind| warning(lines, kind)));
    }
    let mut known = BTreeSet::new();
    found.retain(|warning| known.insert(warning.key()));
    let wrong: BTreeSet<_> = found.iter().map(|warning| warning.line).collect();
    let latest = watch.latest();
    let moments: Vec<_> = watch
        .moments(&wrong, latest.map(|(_, line)| line))
        .collect();
    let latest = latest.map(|(lateness, line)| format!("line {line}: latest read, {lateness}"));
    let lines: Vec<_> = found.iter().map(Warning::text).chain(latest).collect();
    Ok(match excerpt.form {
        Form::Table => table_of_recording(&moments, &lines),
        Form::Picture => {
            let title = title(excerpt.file, &moments);
            picture_of_recording(&moments, &lines, &title)
        }
    })
}
