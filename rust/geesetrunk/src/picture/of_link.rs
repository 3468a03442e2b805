//! The timelines of two ends of a cable in one picture: the ends one below the other, over the same
//! ticks.

use super::{COLUMNS, Cell, Drawing, LANES, LEFT, Lane, check_columns, columns_for, framed};
use crate::boxes::{cut, escaped, letters_in};
use crate::end::End;
use crate::history::History;
use crate::link::Span;
use crate::repeats::Shown;
use std::fmt::Write;
use uart_language::fields::ChipKind;

// The room for the name of an end above its rows, and between two bands.
const NAME: usize = 18;

const GAP: usize = 8;

/// What is drawn of an end.
pub struct DrawnEnd<'a> {
    /// What is said above its rows.
    pub title: String,
    /// Its name.
    pub name: &'static str,
    /// Its chip.
    pub chip: ChipKind,
    /// Its calls, and the last state of its chip.
    pub history: &'a History,
    /// What happened at it.
    pub moments: &'a [Shown],
    /// When each call was made.
    pub spans: &'a [Span],
}

// What happens at an end, in order.
#[derive(Clone, Copy)]
enum Step {
    Begin(usize),
    Happen(Shown),
    End(usize),
}

// Returns the steps of an end, each with its tick.
fn steps_of(end: &DrawnEnd<'_>) -> Vec<(u64, Step)> {
    let happened = |moment: &Shown| (moment.moment.time, Step::Happen(*moment));
    let mut steps = Vec::new();
    let mut done = 0;
    for (call, span) in end.spans.iter().enumerate() {
        let (before, behind) = span.moments;
        steps.extend(end.moments[done..before].iter().map(happened));
        steps.push((span.ticks.0, Step::Begin(call)));
        steps.extend(end.moments[before..behind].iter().map(happened));
        steps.push((span.ticks.1, Step::End(call)));
        done = behind;
    }
    steps.extend(end.moments[done..].iter().map(happened));
    steps
}

// A column of the picture: a cell of each end.
type Column = [Cell; 2];

// Collects the columns of both ends.
struct Columns<'a> {
    ends: &'a [DrawnEnd<'a>; 2],
    steps: [Vec<(u64, Step)>; 2],
    // How many of them are in columns.
    done: [usize; 2],
    // The call that is being made at each end, and how many columns it has.
    calls: [Option<usize>; 2],
    widths: [usize; 2],
    columns: Vec<Column>,
}

impl Columns<'_> {
    fn next(&self, side: usize) -> Option<(u64, Step)> {
        self.steps[side].get(self.done[side]).copied()
    }

    fn push(&mut self, shown: [Option<Shown>; 2]) {
        let cell = |side: usize| Cell {
            call: self.calls[side],
            shown: shown[side],
        };
        self.columns.push([cell(0), cell(1)]);
        self.widths[0] += 1;
        self.widths[1] += 1;
    }

    // Puts what happens at this tick into a column. Returns whether anything does.
    fn happen(&mut self, tick: u64) -> bool {
        let mut shown = [None, None];
        for (side, shown) in shown.iter_mut().enumerate() {
            match self.next(side) {
                Some((time, Step::Happen(moment))) if time == tick => {
                    *shown = Some(moment);
                    self.done[side] += 1;
                }
                _ => {}
            }
        }
        let is_any = shown.iter().any(Option::is_some);
        if is_any {
            self.push(shown);
        }
        is_any
    }

    // Ends a call, with as many columns as its texts need.
    fn end(&mut self, side: usize, call: usize) {
        let needed = self.ends[side]
            .history
            .calls
            .get(call)
            .map_or(0, columns_for);
        while self.widths[side] < needed {
            self.push([None, None]);
        }
        self.calls[side] = None;
        self.done[side] += 1;
    }

    // Begins or ends a call at this tick. Returns whether there is one.
    fn turn(&mut self, tick: u64) -> bool {
        let is_end =
            |side: &usize| matches!(self.next(*side), Some((time, Step::End(_))) if time == tick);
        let is_begin =
            |side: &usize| matches!(self.next(*side), Some((time, Step::Begin(_))) if time == tick);
        let sides = [0, 1];
        let side = sides
            .into_iter()
            .find(is_end)
            .or(sides.into_iter().find(is_begin));
        let Some(side) = side else {
            return false;
        };
        match self.next(side) {
            Some((_, Step::Begin(call))) => {
                self.calls[side] = Some(call);
                self.widths[side] = 0;
                self.done[side] += 1;
            }
            Some((_, Step::End(call))) => self.end(side, call),
            _ => {}
        }
        true
    }

    // A moment comes before the end of its call, and that before the call behind it.
    fn collect(&mut self) {
        loop {
            let ticks = [self.next(0), self.next(1)];
            let Some(tick) = ticks.into_iter().flatten().map(|(tick, _)| tick).min() else {
                return;
            };
            if !self.happen(tick) && !self.turn(tick) {
                return;
            }
        }
    }
}

// Returns the rows of an end in a band, and how high they are together.
fn rows(end: &DrawnEnd<'_>, drawing: &Drawing<'_>, cells: &[Cell], y: usize) -> (String, usize) {
    let is_shown = |lane: &Lane| *lane != Lane::Time && lane.is_shown(cells);
    let (name, whole) = (cut(end.name, letters_in(LEFT)), escaped(&end.title));
    let mut text = format!(
        "<text class=\"n\" x=\"10\" y=\"{}\"><title>{whole}</title>{name}</text>\n",
        y + NAME - 6
    );
    let mut y = y + NAME;
    for lane in LANES.into_iter().filter(is_shown) {
        let (row, height) = drawing.row(lane, cells, y);
        text += &row;
        y += height;
    }
    (text, y)
}

/// Returns the timelines of two ends as one picture: for each tick at which anything happens a
/// column, in as many bands of columns as necessary.
///
/// # Errors
///
/// How a program ends whose picture would have more than `MOST_COLUMNS` columns.
pub fn picture_of_link(ends: &[DrawnEnd<'_>; 2]) -> Result<String, End> {
    let mut columns = Columns {
        ends,
        steps: [steps_of(&ends[0]), steps_of(&ends[1])],
        done: [0; 2],
        calls: [None; 2],
        widths: [0; 2],
        columns: Vec::new(),
    };
    columns.collect();
    check_columns(
        columns.columns.len(),
        "leave --picture out, or take shorter scripts",
    )?;
    let drawings = ends.each_ref().map(|end| Drawing {
        clock: "tick",
        chip: end.chip,
        history: Some(end.history),
    });
    let (mut body, mut y) = (String::new(), 34);
    for band in columns.columns.chunks(COLUMNS) {
        for (side, (end, drawing)) in ends.iter().zip(&drawings).enumerate() {
            let cells: Vec<_> = band.iter().map(|column| column[side]).collect();
            let (text, behind) = rows(end, drawing, &cells, y);
            body += &text;
            y = behind;
        }
        // The ticks are those of both ends.
        let either = |[left, right]: &Column| if left.shown.is_some() { *left } else { *right };
        let (row, height) =
            drawings[0].row(Lane::Time, &band.iter().map(either).collect::<Vec<_>>(), y);
        body += &row;
        y += height + GAP;
    }
    for end in ends {
        for line in &end.history.last {
            let line = cut(&format!("{} {line}", end.name), letters_in(super::LINE));
            let _ = writeln!(body, "<text x=\"10\" y=\"{y}\">{line}</text>");
            y += 14;
        }
    }
    let [left, right] = ends;
    Ok(framed(
        &format!("{}; {}", left.title, right.title),
        &body,
        y,
    ))
}
