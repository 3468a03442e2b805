//! A recording, or a log of another tool: what each line says, and what the judges find.

use crate::explain::explanations;
use crate::import::Import;
use crate::json::Quoted;
use crate::judging::{Found, Judge, Stop, each_entry, judge_recording};
use crate::known::Known;
use crate::log::Log;
use crate::meaning::{Latch, words_of};
use crate::resets::Next;
use std::io;

// The most findings, and the most entries, that are told. The others are counted.
const MOST: usize = 5_000;

// What is told of a log, up to a bound.
#[derive(Default)]
struct Told {
    items: Vec<String>,
    left_out: u64,
}

impl Told {
    fn push(&mut self, item: impl FnOnce() -> String) {
        if self.items.len() < MOST {
            self.items.push(item());
        } else {
            self.left_out += 1;
        }
    }

    fn text(&self, name: &str, log: &Log<'_>, stop: Option<Stop>) -> String {
        let stop = stop.map_or("null".into(), |stop| {
            let end = log.ended(stop);
            Quoted(end.line().unwrap_or("out of memory")).to_string()
        });
        let items = self.items.join(",");
        let (kind, left_out) = (Quoted(log.kind().name()), self.left_out);
        format!("{{\"kind\":{kind},\"stop\":{stop},\"left\":{left_out},\"{name}\":[{items}]}}")
    }
}

// Does something with a log of this name. One that is not opened has nothing in the list of this name, and says why.
fn with_log(
    name: &str,
    bytes: &[u8],
    import: &Import,
    list: &str,
    act: impl FnOnce(&mut Log<'_>) -> String,
) -> String {
    match Log::over(name, bytes, import) {
        Ok(mut log) => act(&mut log),
        Err(end) => {
            let stop = Quoted(end.line().unwrap_or("out of memory")).to_string();
            format!("{{\"kind\":\"unknown\",\"stop\":{stop},\"left\":0,\"{list}\":[]}}")
        }
    }
}

/// Returns what a judge finds in a log, as an object of JSON. In its list `found` each finding is a list: its line, whose fault it is, its
/// name, its text, and how many times in turn it was found.
///
/// # Examples
///
/// ```
/// use geesetrunk::import::Import;
/// use geesetrunk::judging::Judge;
/// use geesetrunk::known::Known;
/// use geesetrunk::page::findings;
///
/// let found = findings("a.log", b"w 5 00\n", Judge::Audit, &Import::default(), &Known::default());
/// assert!(found.contains(r#"[1,"note","lsr-written","#), "{found}");
/// let found = findings("a.gz", b"\x1f\x8b\x08", Judge::Audit, &Import::default(), &Known::default());
/// assert!(found.contains("it is compressed by gzip"), "{found}");
/// ```
pub fn findings(name: &str, bytes: &[u8], judge: Judge, import: &Import, known: &Known) -> String {
    with_log(name, bytes, import, "found", |log| {
        let mut told = Told::default();
        let mut tell = |found: &Found| -> io::Result<()> {
            let (kind, line, times) = (&found.kind, found.line, found.times);
            told.push(|| {
                let (severity, name) = (Quoted(kind.severity()), Quoted(kind.name()));
                let text = kind.to_string();
                format!("[{line},{severity},{name},{},{times}]", Quoted(&text))
            });
            Ok(())
        };
        let stop = judge_recording(judge, known, &mut *log, &mut tell).err();
        told.text("found", log, stop)
    })
}

/// Returns what the lines of a log say, as an object of JSON. In its list `entries` each is a list: its line, its access, and its bits by
/// their names.
pub fn entries(name: &str, bytes: &[u8], import: &Import) -> String {
    with_log(name, bytes, import, "entries", |log| {
        let (mut told, mut latch) = (Told::default(), Latch::default());
        let stop = each_entry(&mut *log, |next| {
            let entry = match next {
                Next::Entry(entry) => entry,
                Next::Reset(line) => {
                    latch = Latch::default();
                    told.push(|| format!("[{line},\"the chip was reset\",\"\"]"));
                    return Ok(());
                }
            };
            let is_dlab_set = latch.is_set();
            latch.action(entry);
            told.push(|| {
                let (access, bits) = words_of(entry.happening, is_dlab_set);
                format!("[{},{},{}]", entry.line, Quoted(&access), Quoted(&bits))
            });
            Ok(())
        });
        told.text("entries", log, stop.err())
    })
}

/// Returns what each name of a finding or an error means, as an object of JSON.
pub fn explanations_of_all() -> String {
    let rows: Vec<_> = explanations()
        .map(|row| {
            let (name, what, cost) = (Quoted(row.name), Quoted(row.what), Quoted(row.cost));
            let remedy = Quoted(row.remedy);
            format!("{name}:{{\"what\":{what},\"cost\":{cost},\"remedy\":{remedy}}}")
        })
        .collect();
    format!("{{{}}}", rows.join(","))
}
