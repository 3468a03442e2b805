//! The trace of a run: each call as its line, its accesses and its answer.
//!
//! The lines of the calls come from the proved crates. Here are their comments: which register an
//! access reaches, when, and what else happened then.

use crate::end::End;
use crate::heap;
use crate::history::{History, ToldCall};
use crate::moments::{Moment, parts};
use crate::observing::{Observer, Show, observe};
use crate::ring_language::AnyScript;
use geesetrunk_kit::Vec as List;
use geesetrunk_kit::alloc::AllocError;
use std::fmt::Write as _;
use std::io::{self, Write};
use std::slice;
use uart_language::{Output, Script};
use uart_play::PlayError;
use uart_spec::access::Access;
use uart_trace::{Remarks, trace};

// What happened since it was told last.
struct Happenings<'a> {
    history: &'a History,
    // A line for each event.
    before: String,
    // What stands on the line of an access.
    beside: String,
}

impl Show for Happenings<'_> {
    fn begin(&mut self) -> io::Result<()> {
        Ok(())
    }

    fn moment(&mut self, moment: Moment) -> io::Result<()> {
        let (tick, happened) = (moment.time, moment.happened);
        // A text in memory takes everything.
        let before = &mut self.before;
        if let Some(byte) = happened.sent {
            let _ = writeln!(before, "tick {tick}: {byte:02x} is on the wire");
        }
        if let Some(arrival) = happened.arrival {
            let (byte, mark) = (arrival.byte, self.history.mark(arrival.number));
            let errors = match arrival.letters() {
                "" => String::new(),
                letters => format!(" with errors {letters}"),
            };
            let _ = writeln!(
                before,
                "tick {tick}: {byte:02x} arrives{errors}, mark {mark}"
            );
        }
        if let Some(lines) = happened.lines {
            let digit = lines / 16;
            let _ = writeln!(before, "tick {tick}: the modem lines are {digit:x}");
        }
        if let Some(seen) = happened.access {
            let register = seen.register;
            let _ = write!(self.beside, "{register}, tick {tick}");
        }
        Ok(())
    }

    fn end(&mut self) -> io::Result<()> {
        Ok(())
    }
}

struct Observed<'a>(Observer<'a, Happenings<'a>>);

impl Remarks for Observed<'_> {
    fn call(&mut self) -> Result<(), AllocError> {
        self.0.begin();
        Ok(())
    }

    fn access(
        &mut self,
        access: Access,
        before: &mut List<u8>,
        beside: &mut List<u8>,
    ) -> Result<(), AllocError> {
        self.0.access(access);
        let happenings = self.0.show();
        before.extend_from_slice(happenings.before.as_bytes())?;
        beside.extend_from_slice(happenings.beside.as_bytes())?;
        happenings.before.clear();
        happenings.beside.clear();
        Ok(())
    }

    fn returned(&mut self, after: &mut List<u8>) -> Result<(), AllocError> {
        self.0.end();
        let happenings = self.0.show();
        after.extend_from_slice(happenings.before.as_bytes())?;
        happenings.before.clear();
        Ok(())
    }
}

/// Writes the trace of a script with this text, for which this was printed, and behind it the last
/// state of the machine as comments.
///
/// # Errors
///
/// `WriteFault` if the trace cannot be written, and `OutOfMemory`.
pub fn write_trace(
    script: &Script,
    text: &[u8],
    output: &[u8],
    out: impl Output,
) -> Result<(), PlayError> {
    let history = History::new(text, output);
    let happenings = Happenings {
        history: &history,
        before: String::new(),
        beside: String::new(),
    };
    let comments = Observed(Observer::new(script, happenings)?);
    trace(heap(), text, output, comments, out)?;
    Ok(())
}

// Writes the lines of a trace with rings.
struct Lines<'a, W> {
    out: &'a mut W,
    calls: slice::Iter<'a, ToldCall>,
    happenings: Happenings<'a>,
}

impl<W: Write> Show for Lines<'_, W> {
    fn begin(&mut self) -> io::Result<()> {
        let line = self.calls.as_slice().first().map(|call| call.line.as_str());
        match line {
            Some("next") => writeln!(self.out, "# next"),
            Some(line) => writeln!(self.out, "{line}"),
            None => Ok(()),
        }
    }

    fn moment(&mut self, moment: Moment) -> io::Result<()> {
        self.happenings.moment(moment)?;
        for line in self.happenings.before.lines() {
            writeln!(self.out, "# {line}")?;
        }
        self.happenings.before.clear();
        if let Some(seen) = moment.happened.access {
            let (letter, offset, value) = parts(seen.access);
            let beside = &self.happenings.beside;
            writeln!(self.out, "{letter} {offset} {value:02x} # {beside}")?;
        }
        self.happenings.beside.clear();
        Ok(())
    }

    fn end(&mut self) -> io::Result<()> {
        match self.calls.next() {
            Some(call) if call.line != "next" => writeln!(self.out, "= {}", call.answer),
            _ => Ok(()),
        }
    }
}

/// Writes the trace of a script with rings, and behind it the last state as comments. A line of the
/// rings is that of a call, as one of the driver is.
///
/// # Errors
///
/// How a program ends that is out of memory, or that cannot write the trace.
pub fn write_ring_trace(
    script: &AnyScript,
    text: &[u8],
    history: &History,
    out: &mut impl Write,
) -> Result<(), End> {
    let happenings = Happenings {
        history,
        before: String::new(),
        beside: String::new(),
    };
    let lines = Lines {
        out,
        calls: history.calls.iter(),
        happenings,
    };
    observe(script, text, lines)?;
    for line in &history.last {
        writeln!(out, "# {line}").map_err(End::unwritten)?;
    }
    Ok(())
}
