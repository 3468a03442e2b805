//! A recording for people: each entry with its register and its bits by name, or the bytes as text.

use crate::end::End;
use crate::import::Import;
use crate::judging::{Stop, each_entry};
use crate::log::Log;
use crate::meaning::{Latch, words_of};
use crate::moments::{parts, register_of};
use crate::resets::Next;
use crate::streams::{Output, standard_output};
use std::cell::RefCell;
use std::io::{self, Write};
use uart_judges::audit::Action;
use uart_judges::recording::{Entry, Happening};
use uart_spec::access::Access;

/// The names that a filter may have.
pub const REGISTERS: [&str; 11] = [
    "DATA", "DLL", "DLM", "IER", "ISR", "FCR", "LCR", "MCR", "LSR", "MSR", "SPR",
];

/// What is shown of a recording.
#[derive(Clone, Debug, Default, PartialEq, Eq)]
pub struct Filter {
    /// Only accesses of these registers. None are all, and what is no access too.
    pub registers: Vec<&'static str>,
    /// Only writes.
    pub writes: bool,
    /// Only lines from this one on.
    pub from: u64,
    /// Only lines up to this one.
    pub to: Option<u64>,
    /// The bytes that are sent and received, as text. Of a log of the wire, in which no driver reads, those that came.
    pub bytes: bool,
}

// An entry as it is shown, with how often it was made in turn.
struct Row {
    line: u64,
    time: Option<u64>,
    happening: Happening,
    is_dlab_set: bool,
    level: Option<bool>,
    times: u64,
}

impl Row {
    // Returns whether the entry is the same read again.
    fn is_again(&self, other: &Row) -> bool {
        matches!(self.happening, Happening::Access(Access::Read(..)))
            && self.happening == other.happening
            && self.level == other.level
    }

    fn text(&self, first: Option<u64>) -> String {
        let (head, bits) = words_of(self.happening, self.is_dlab_set);
        let times = match self.times {
            1 => String::new(),
            times => format!(" x{times}"),
        };
        let time = match (self.time, first) {
            (Some(time), Some(first)) => {
                format!("  {:>14.6}", time.saturating_sub(first) as f64 / 1e9)
            }
            _ => String::new(),
        };
        let level = match self.level {
            Some(true) => "  irq 1",
            Some(false) | None => "",
        };
        let line = self.line;
        let text = format!("{line:>8}{time}  {head}{times:<10}  {bits}{level}");
        text.trim_end().into()
    }
}

// Where bytes go.
#[derive(Clone, Copy, Default, PartialEq, Eq)]
enum Way {
    #[default]
    Sent,
    Read,
    Came,
}

impl Way {
    fn name(self) -> &'static str {
        match self {
            Way::Sent => "sent",
            Way::Read => "read",
            Way::Came => "came",
        }
    }
}

// Bytes that go the same way, as far as no other byte came between.
#[derive(Default)]
struct Text {
    line: u64,
    way: Way,
    bytes: Vec<u8>,
}

// The most bytes of a line of text.
const MOST_BYTES: usize = 72;

impl Text {
    fn shown(&self) -> String {
        let way = self.way.name();
        let text: String = self
            .bytes
            .iter()
            .flat_map(|byte| byte.escape_ascii())
            .map(char::from)
            .collect();
        format!("{:>8}  {way}  \"{text}\"", self.line)
    }
}

struct Shower<'a, W: Write> {
    output: &'a RefCell<Output<W>>,
    filter: &'a Filter,
    latch: Latch,
    first_time: Option<u64>,
    last: Option<Row>,
    text: Text,
    // Whether a driver was seen. What comes is then read by it, and is not shown twice.
    has_driver: bool,
}

impl<W: Write> Shower<'_, W> {
    fn is_wanted(&self, entry: &Entry, is_dlab_set: bool) -> bool {
        let filter = self.filter;
        if entry.line < filter.from || filter.to.is_some_and(|to| entry.line > to) {
            return false;
        }
        match entry.happening {
            Happening::Access(access) => {
                let is_write = parts(access).0 == 'w';
                let register = register_of(access, is_dlab_set);
                (is_write || !filter.writes)
                    && (filter.registers.is_empty() || filter.registers.contains(&register))
            }
            _ => filter.registers.is_empty() && !filter.writes,
        }
    }

    fn step(&mut self, entry: &Entry) -> io::Result<()> {
        let is_dlab_set = self.latch.is_set();
        let action = self.latch.action(entry);
        self.has_driver |= matches!(entry.happening, Happening::Access(_));
        if !self.is_wanted(entry, is_dlab_set) {
            return Ok(());
        }
        if self.filter.bytes {
            return match (action, entry.happening) {
                (Action::Sends(byte), _) => self.add_byte(entry, Way::Sent, byte),
                (Action::Receives(byte), _) => self.add_byte(entry, Way::Read, byte),
                (_, Happening::Arrive { byte, .. }) if !self.has_driver => {
                    self.add_byte(entry, Way::Came, byte)
                }
                _ => Ok(()),
            };
        }
        if self.first_time.is_none() {
            self.first_time = entry.time;
        }
        let row = Row {
            line: entry.line,
            time: entry.time,
            happening: entry.happening,
            is_dlab_set,
            level: entry.interrupt,
            times: entry.times,
        };
        if let Some(last) = &mut self.last
            && last.is_again(&row)
        {
            last.times = last.times.saturating_add(row.times);
            return Ok(());
        }
        self.flush_row()?;
        self.last = Some(row);
        Ok(())
    }

    fn add_byte(&mut self, entry: &Entry, way: Way, byte: u8) -> io::Result<()> {
        let text = &self.text;
        let is_other =
            text.way != way || text.bytes.len() >= MOST_BYTES || text.bytes.last() == Some(&b'\n');
        if is_other {
            self.flush_text()?;
        }
        if self.text.bytes.is_empty() {
            self.text.line = entry.line;
            self.text.way = way;
        }
        self.text.bytes.push(byte);
        Ok(())
    }

    // Shows that the chip was reset, unless only some registers or the bytes are shown.
    fn reset(&mut self, line: u64) -> io::Result<()> {
        self.latch = Latch::default();
        let filter = self.filter;
        let is_within = line >= filter.from && filter.to.is_none_or(|to| line <= to);
        if filter.bytes || filter.writes || !filter.registers.is_empty() || !is_within {
            return Ok(());
        }
        self.flush_row()?;
        writeln!(self.output.borrow_mut(), "{line:>8}  z the chip was reset")
    }

    fn flush_row(&mut self) -> io::Result<()> {
        match self.last.take() {
            Some(row) => writeln!(self.output.borrow_mut(), "{}", row.text(self.first_time)),
            None => Ok(()),
        }
    }

    fn flush_text(&mut self) -> io::Result<()> {
        if self.text.bytes.is_empty() {
            return Ok(());
        }
        let text = std::mem::take(&mut self.text);
        writeln!(self.output.borrow_mut(), "{}", text.shown())
    }
}

/// Shows the recording of this name.
///
/// # Errors
///
/// How the program ends: the recording cannot be read to its end, or the output cannot be written.
pub fn show(file: &str, import: &Import, filter: &Filter) -> Result<(), End> {
    let output = RefCell::new(Output::new(standard_output().map_err(End::unwritten)?));
    let mut log = Log::open(file, "show", import, &output)?;
    let mut shower = Shower {
        output: &output,
        filter,
        latch: Latch::default(),
        first_time: None,
        last: None,
        text: Text::default(),
        has_driver: false,
    };
    let outcome = each_entry(&mut log, |next| {
        let shown = match next {
            Next::Entry(entry) => shower.step(entry),
            Next::Reset(line) => shower.reset(*line),
        };
        shown.map_err(Stop::Output)
    });
    let rest = shower.flush_row().and_then(|()| shower.flush_text());
    let outcome = outcome.and_then(|_| rest.map_err(Stop::Output));
    let outcome = outcome.map_err(|stop| log.ended(stop));
    log.close();
    output.into_inner().finish().map_err(End::unwritten)?;
    outcome
}
