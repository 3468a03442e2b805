//! Timelines as tables, for a terminal.

use crate::end::End;
use crate::history::{History, ToldCall};
use crate::moments::{Arrival, Moment, parts};
use crate::observing::{Show, observe};
use crate::repeats::{Merging, Place, Shown, merged};
use crate::ring_language::AnyScript;
use std::fmt::Write as _;
use std::io::{self, Write};
use std::slice;

const HEAD: &str = "    tick  access              wire  arrives  lines  held  waiting\n";

const RECORDING_HEAD: &str = "    line  access              arrives  lines  irq\n";

// Returns how many times in a row an access happened, or its group, with a bracket at the group.
fn times(shown: &Shown) -> String {
    let times = shown.times;
    match shown.place {
        Place::Alone if times > 1 => format!(" x{times:<7}"),
        Place::Alone => "         ".into(),
        Place::First => " \\       ".into(),
        Place::Middle => " |       ".into(),
        Place::Last => format!(" / x{times:<5}"),
    }
}

fn access(shown: &Shown) -> String {
    match shown.moment.happened.access {
        Some(seen) => {
            let (letter, _, value) = parts(seen.access);
            let (register, times) = (seen.register, times(shown));
            format!("{letter} {register:<4} {value:02x}{times}")
        }
        None => " ".repeat(18),
    }
}

fn arrives(arrival: Option<Arrival>, mark: char) -> String {
    match arrival {
        Some(arrival) => {
            let (byte, letters) = (arrival.byte, arrival.letters());
            match letters {
                "" => format!("     {byte:02x} {mark}"),
                _ => format!(" {byte:02x} {letters:>3} {mark}"),
            }
        }
        None => " ".repeat(9),
    }
}

fn lines(lines: Option<u8>) -> String {
    lines.map_or(" ".repeat(7), |lines| format!("      {:x}", lines / 16))
}

// Returns the row of a moment of a run.
fn row(history: &History, shown: &Shown) -> String {
    let Moment {
        time,
        happened,
        held,
        waiting,
    } = shown.moment;
    let access = access(shown);
    let wire = happened
        .sent
        .map_or("  ".into(), |byte| format!("{byte:02x}"));
    let mark = happened
        .arrival
        .map_or(' ', |arrival| history.mark(arrival.number));
    let (arrives, lines) = (arrives(happened.arrival, mark), lines(happened.lines));
    format!("{time:>8}  {access}    {wire}{arrives}{lines}{held:>6}{waiting:>9}\n")
}

struct Table<'a, W> {
    out: &'a mut W,
    history: &'a History,
    calls: slice::Iter<'a, ToldCall>,
    merging: Merging,
}

impl<W: Write> Show for Table<'_, W> {
    fn begin(&mut self) -> io::Result<()> {
        match self.calls.next() {
            Some(call) => writeln!(self.out, "{} = {}", call.line, call.answer),
            None => Ok(()),
        }
    }

    fn moment(&mut self, moment: Moment) -> io::Result<()> {
        let (out, history) = (&mut *self.out, self.history);
        let mut show = |shown| out.write_all(row(history, &shown).as_bytes());
        self.merging.push(moment, &mut show)
    }

    fn end(&mut self) -> io::Result<()> {
        let (out, history) = (&mut *self.out, self.history);
        let mut show = |shown| out.write_all(row(history, &shown).as_bytes());
        self.merging.finish(&mut show)
    }
}

/// Writes the timeline of a script with this text: a line for each call, and under it a row for each
/// moment.
///
/// # Errors
///
/// How a program ends that is out of memory, or that cannot write the table.
pub fn write_table(
    script: &AnyScript,
    text: &[u8],
    history: &History,
    out: &mut impl Write,
) -> Result<(), End> {
    out.write_all(HEAD.as_bytes()).map_err(End::unwritten)?;
    let table = Table {
        out,
        history,
        calls: history.calls.iter(),
        merging: Merging::default(),
    };
    observe(script, text, table)?;
    for line in &history.last {
        writeln!(out, "{line}").map_err(End::unwritten)?;
    }
    Ok(())
}

// Returns the row of a line of a recording: what it says, and a warning if the audit has one.
fn row_of_recording(shown: &Shown) -> String {
    let (line, happened) = (shown.moment.time, shown.moment.happened);
    let access = access(shown);
    let (arrives, lines) = (arrives(happened.arrival, ' '), lines(happened.lines));
    let level = happened
        .interrupt
        .map_or("   ".into(), |level| format!("{:>3}", u8::from(level)));
    let warning = if happened.is_wrong { "  warning" } else { "" };
    let latest = if happened.is_latest {
        "  latest read"
    } else {
        ""
    };
    let row = format!("{line:>8}  {access}{arrives}{lines}  {level}{latest}{warning}");
    format!("{}\n", row.trim_end())
}

/// Returns the timeline of a recording as a table: a row for each event, and the warnings.
pub fn table_of_recording(moments: &[Moment], warnings: &[String]) -> String {
    let mut text = String::from(RECORDING_HEAD);
    text.extend(merged(moments).iter().map(row_of_recording));
    for warning in warnings {
        let _ = writeln!(text, "{warning}");
    }
    text
}
