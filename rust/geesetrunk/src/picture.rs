//! Timelines as SVG pictures.

mod of_link;

pub use of_link::{DrawnEnd, picture_of_link};

use crate::boxes::{self, COLUMN, LETTER, STYLE, cut, escaped, letters_in, rectangle};
use crate::end::End;
use crate::history::{History, ToldCall};
use crate::known::Known;
use crate::moments::{Arrival, Moment};
use crate::observing::{Show, observe};
use crate::repeats::{Merging, Shown, merged};
use crate::ring_language::AnyScript;
use crate::script::kind_of;
use std::fmt::Write;
use std::io;
use uart_chip::Chip;
use uart_language::fields::ChipKind;

// How many moments are in a band, and the room for names to the left of them.
const COLUMNS: usize = 34;

const LEFT: usize = 74;

const WIDTH: usize = LEFT + COLUMN * COLUMNS + 14;

// The room for a line of text over the whole width, and for the title in its larger letters.
const LINE: usize = WIDTH - 20;

const TITLE: usize = LINE * 10 / 12;

// The most columns that a call gets for its line and its answer; a longer one has its moments'
// columns alone.
const MOST_FOR_TEXTS: usize = 10;

// What is between a text and the ends of its call's columns.
const MARGIN: usize = 8;

// A moment of a call, or a column without one: of a call if its texts need it, else at the end of a
// band.
#[derive(Clone, Copy)]
struct Cell {
    call: Option<usize>,
    shown: Option<Shown>,
}

// What a row of the picture shows of each moment.
#[derive(Clone, Copy, PartialEq, Eq)]
enum Lane {
    Call,
    Access,
    Arrives,
    Waiting,
    Lines,
    Held,
    Wire,
    Interrupt,
    Time,
}

const LANES: [Lane; 9] = [
    Lane::Call,
    Lane::Access,
    Lane::Arrives,
    Lane::Waiting,
    Lane::Lines,
    Lane::Held,
    Lane::Wire,
    Lane::Interrupt,
    Lane::Time,
];

impl Lane {
    fn height(self) -> usize {
        match self {
            Lane::Call => 36,
            Lane::Access => 44,
            Lane::Arrives => 31,
            Lane::Lines | Lane::Wire | Lane::Interrupt => 20,
            Lane::Waiting | Lane::Held => 50,
            Lane::Time => 34,
        }
    }

    // Returns how many characters a full bar of this row is: as many as the chip has room for.
    fn most(self, chip: ChipKind) -> Option<usize> {
        let room = chip.size.characters();
        match (self, chip.model) {
            (Lane::Waiting, Chip::Uart16550A) => Some(room),
            (Lane::Held, Chip::Uart16550A) => Some(room + 1),
            (Lane::Waiting, Chip::Uart16450) => Some(1),
            (Lane::Held, Chip::Uart16450) => Some(2),
            _ => None,
        }
    }

    // Returns whether a moment has anything in this row.
    fn is_used(self, moment: &Moment) -> bool {
        match self {
            Lane::Call | Lane::Access | Lane::Time => true,
            Lane::Arrives => moment.happened.arrival.is_some(),
            Lane::Waiting => moment.waiting > 0,
            Lane::Lines => moment.happened.lines.is_some(),
            Lane::Held => moment.held > 0,
            Lane::Wire => moment.happened.sent.is_some(),
            Lane::Interrupt => moment.happened.interrupt.is_some(),
        }
    }

    // Returns whether this row is among those of a band.
    fn is_shown(self, cells: &[Cell]) -> bool {
        match self {
            Lane::Call => cells.iter().any(|cell| cell.call.is_some()),
            Lane::Access | Lane::Time => true,
            _ => {
                let mut moments = cells.iter().filter_map(|cell| cell.shown);
                moments.any(|shown| self.is_used(&shown.moment))
            }
        }
    }
}

// Returns how many columns a call needs for its line and its answer. So a call of one access shows
// its answer too.
fn columns_for(call: &ToldCall) -> usize {
    let letters = call.line.len().max("= ".len() + call.answer.len());
    (letters * LETTER / 10 + MARGIN)
        .div_ceil(COLUMN)
        .min(MOST_FOR_TEXTS)
}

// Collects the columns of a run.
struct Columns<'a> {
    cells: &'a mut Vec<Cell>,
    merging: Merging,
    history: &'a History,
    // The number of the call, and of the cells before those of the call.
    call: usize,
    start: usize,
}

impl Columns<'_> {
    // Returns how many columns the call needs for its texts.
    fn for_texts(&self) -> usize {
        self.history.calls.get(self.call).map_or(0, columns_for)
    }
}

impl Show for Columns<'_> {
    // Fills the band up, if there is no room for the texts of the call in it.
    fn begin(&mut self) -> io::Result<()> {
        let left = COLUMNS - self.cells.len() % COLUMNS;
        if self.for_texts() > left {
            let empty = Cell {
                call: None,
                shown: None,
            };
            self.cells.extend(std::iter::repeat_n(empty, left));
        }
        self.start = self.cells.len();
        Ok(())
    }

    fn moment(&mut self, moment: Moment) -> io::Result<()> {
        let (cells, call) = (&mut *self.cells, Some(self.call));
        self.merging.push(moment, &mut |shown| {
            cells.push(Cell {
                call,
                shown: Some(shown),
            });
            Ok(())
        })
    }

    fn end(&mut self) -> io::Result<()> {
        let (cells, call) = (&mut *self.cells, Some(self.call));
        self.merging.finish(&mut |shown| -> io::Result<()> {
            cells.push(Cell {
                call,
                shown: Some(shown),
            });
            Ok(())
        })?;
        let least = self.start + self.for_texts();
        let empty = Cell { call, shown: None };
        self.cells.resize(self.cells.len().max(least), empty);
        self.call += 1;
        Ok(())
    }
}

// What is drawn.
struct Drawing<'a> {
    // The name of the last row.
    clock: &'static str,
    chip: ChipKind,
    // The run, and `None` if it is a recording.
    history: Option<&'a History>,
}

impl Drawing<'_> {
    fn name(&self, lane: Lane) -> &'static str {
        match lane {
            Lane::Call => "call",
            Lane::Access => "access",
            Lane::Arrives => "arrives",
            Lane::Waiting => "waiting",
            Lane::Lines => "lines",
            Lane::Held => "held",
            Lane::Wire => "wire",
            Lane::Interrupt => "irq",
            Lane::Time => self.clock,
        }
    }

    // Returns the letter of the mark of a character at the end of the run.
    fn mark(&self, arrival: Arrival) -> char {
        self.history
            .map_or(' ', |history| history.mark(arrival.number))
    }

    // Returns what a row shows of a moment, which has something in it.
    fn content(&self, lane: Lane, shown: &Shown) -> Option<String> {
        let (moment, happened) = (&shown.moment, shown.moment.happened);
        let most = lane.most(self.chip);
        match lane {
            Lane::Call => None,
            Lane::Access => Some(boxes::access(shown)),
            Lane::Arrives => happened
                .arrival
                .map(|arrival| boxes::arrival(arrival, self.mark(arrival))),
            Lane::Waiting => most.map(|most| boxes::bar("b", moment.waiting, most)),
            Lane::Lines => happened
                .lines
                .map(|lines| boxes::boxed("a", format_args!("{:x}", lines / 16))),
            Lane::Held => most.map(|most| boxes::bar("h", moment.held, most)),
            Lane::Wire => happened
                .sent
                .map(|byte| boxes::boxed("o", format_args!("{byte:02x}"))),
            Lane::Interrupt => happened
                .interrupt
                .map(|level| boxes::boxed("a", u8::from(level))),
            Lane::Time => Some(boxes::time(moment.time)),
        }
    }

    fn lane(&self, lane: Lane, cells: &[Cell]) -> String {
        let mut text = String::new();
        for (index, cell) in cells.iter().enumerate() {
            if let Some(shown) = cell.shown.filter(|shown| lane.is_used(&shown.moment)) {
                let (x, content) = (COLUMN * index, self.content(lane, &shown));
                let content = content.unwrap_or_default();
                let _ = write!(text, "<g transform=\"translate({x},0)\">\n{content}</g>\n");
            }
        }
        text
    }

    // Returns a call over its columns: its line, and its answer under it.
    fn call(&self, call: usize, first: usize, columns: usize) -> String {
        let Some(told) = self.history.and_then(|history| history.calls.get(call)) else {
            return String::new();
        };
        let (x, width) = (COLUMN * first + 1, COLUMN * columns - 2);
        // A text is whole in a tooltip.
        let line = |y: usize, words: &str| {
            let (whole, begin) = (escaped(words), cut(words, letters_in(width - (MARGIN - 2))));
            format!(
                "<text x=\"{}\" y=\"{y}\"><title>{whole}</title>{begin}</text>\n",
                x + 3
            )
        };
        let answer = format!("= {}", told.answer);
        rectangle("c", [x, 0, width, 29]) + "\n" + &line(12, &told.line) + &line(24, &answer)
    }

    fn calls(&self, cells: &[Cell]) -> String {
        let mut text = String::new();
        let mut first = 0;
        for of_call in cells.chunk_by(|cell, next| cell.call == next.call) {
            if let Some(call) = of_call[0].call {
                text += &self.call(call, first, of_call.len());
            }
            first += of_call.len();
        }
        text
    }

    // Returns the name of a row, and how many characters a full bar is in it.
    fn head(&self, lane: Lane) -> String {
        let mut text = format!(
            "<text class=\"n\" x=\"-64\" y=\"12\">{}</text>\n",
            self.name(lane)
        );
        if let Some(most) = lane.most(self.chip) {
            let _ = writeln!(
                text,
                "<text class=\"s\" x=\"-64\" y=\"24\">of {most}</text>"
            );
        }
        text
    }

    // Returns a row of some moments at this height, and how high it is.
    fn row(&self, lane: Lane, cells: &[Cell], y: usize) -> (String, usize) {
        let head = self.head(lane);
        let content = match lane {
            Lane::Call => self.calls(cells),
            _ => self.lane(lane, cells),
        };
        let text = format!("<g transform=\"translate({LEFT},{y})\">\n{head}{content}</g>\n");
        (text, lane.height())
    }

    // Returns the rows of some moments that are not empty, and how high they are together.
    fn band(&self, cells: &[Cell]) -> (String, usize) {
        let (mut text, mut y) = (String::new(), 0);
        for lane in LANES.into_iter().filter(|lane| lane.is_shown(cells)) {
            let (row, height) = self.row(lane, cells, y);
            text += &row;
            y += height;
        }
        (text, y)
    }

    // Returns the whole picture: the title, the bands one below the other, and lines of text below
    // them.
    fn picture(&self, title: &str, cells: &[Cell], lines: &[String]) -> String {
        let (mut body, mut y) = (String::new(), 36);
        for cells in cells.chunks(COLUMNS) {
            let (band, height) = self.band(cells);
            let _ = write!(body, "<g transform=\"translate(0,{y})\">\n{band}</g>\n");
            y += height;
        }
        for line in lines {
            let line = cut(line, letters_in(LINE));
            let _ = writeln!(body, "<text x=\"10\" y=\"{y}\">{line}</text>");
            y += 14;
        }
        framed(title, &body, y)
    }
}

// Returns a picture with this title and this body, so many pixels high.
fn framed(title: &str, body: &str, height: usize) -> String {
    let (whole, begin) = (escaped(title), cut(title, letters_in(TITLE)));
    format!(
        "<svg xmlns=\"http://www.w3.org/2000/svg\" width=\"{WIDTH}\" height=\"{height}\" \
         viewBox=\"0 0 {WIDTH} {height}\" font-family=\"monospace\" font-size=\"10\">\
         <title>{whole}</title>\n\
         {STYLE}\
         <rect class=\"p\" width=\"100%\" height=\"100%\" rx=\"6\"/>\n\
         <text class=\"n\" x=\"10\" y=\"20\" font-size=\"12\">{begin}</text>\n\
         {body}</svg>\n"
    )
}

/// The most columns of the picture of a script or of a link: it has some four megabytes then, and no viewer shows more well.
pub const MOST_COLUMNS: usize = 5_000;

// Returns how a program ends whose picture would have so many columns, if they are too many.
fn check_columns(count: usize, instead: &str) -> Result<(), End> {
    if count <= MOST_COLUMNS {
        return Ok(());
    }
    Err(End::failed(format!(
        "the picture would have {count} columns, and at most {MOST_COLUMNS} are drawn: {instead}"
    )))
}

/// Returns the timeline of a script with this text as a picture: for each moment a column, in as many bands of columns
/// as necessary.
///
/// # Errors
///
/// How a program ends that is out of memory, or whose picture would have more than `MOST_COLUMNS` columns.
pub fn picture(
    script: &AnyScript,
    text: &[u8],
    history: &History,
    title: &str,
) -> Result<String, End> {
    let mut cells = Vec::new();
    let columns = Columns {
        cells: &mut cells,
        merging: Merging::default(),
        history,
        call: 0,
        start: 0,
    };
    observe(script, text, columns)?;
    check_columns(cells.len(), "take --text, or a shorter script")?;
    let drawing = Drawing {
        clock: "tick",
        chip: kind_of(script.plain()),
        history: Some(history),
    };
    Ok(drawing.picture(title, &cells, &history.last))
}

// Returns a text in lines that fit the picture, of which those after the first are indented.
fn wrapped(text: &str) -> Vec<String> {
    let mut lines = Vec::new();
    let mut line = String::new();
    for word in text.split(' ') {
        if line.len() + word.len() >= letters_in(LINE) {
            lines.push(line);
            line = "   ".into();
        }
        if !line.is_empty() {
            line.push(' ');
        }
        line.push_str(word);
    }
    lines.push(line);
    lines
}

/// Returns the timeline of a recording as a picture: for each event a column, and the warnings
/// below.
pub fn picture_of_recording(moments: &[Moment], warnings: &[String], title: &str) -> String {
    let cell = |shown| Cell {
        call: None,
        shown: Some(shown),
    };
    let cells: Vec<_> = merged(moments).into_iter().map(cell).collect();
    let lines: Vec<_> = warnings
        .iter()
        .flat_map(|warning| wrapped(warning))
        .collect();
    let drawing = Drawing {
        clock: "line",
        // No bar is drawn of a recording, so any chip will do.
        chip: Known::default().chip,
        history: None,
    };
    drawing.picture(title, &cells, &lines)
}

#[cfg(test)]
mod tests {
    use super::*;

    #[test]
    fn a_call_gets_the_columns_of_its_texts_up_to_ten() {
        for (line, answer, columns) in [("lsr", "ok 60", 2), ("lsr", &"0".repeat(500), 10)] {
            let call = ToldCall {
                line: line.into(),
                answer: answer.into(),
            };
            assert_eq!(columns_for(&call), columns);
        }
    }

    #[test]
    fn a_long_warning_is_broken_between_words() {
        let lines = wrapped(&"word ".repeat(60));
        assert!(lines.len() > 1 && lines.iter().all(|line| line.len() <= letters_in(LINE)));
        assert!(lines[1].starts_with("    word"));
    }
}
