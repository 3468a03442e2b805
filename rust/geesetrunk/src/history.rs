//! The history of a run: each call with its answer, and the last state of the machine.

use crate::ring_language::call_at;
use crate::text::{lines, printable};
use uart_language::{Item, Place, item_at};

// The number of a line at which neither the first line of a script nor a setting of its driver may be, unless
// its second line sets the limit, and that of a line before it at which its rings may be.
const AFTER_THE_HEAD: u32 = 3;
const OF_RINGS: u32 = 2;

/// A call and its answer.
#[derive(Debug, PartialEq, Eq)]
pub struct ToldCall {
    /// Its line of the script.
    pub line: String,
    /// Its line of the output.
    pub answer: String,
}

/// A run of a script.
#[derive(Debug)]
pub struct History {
    /// The calls.
    pub calls: Vec<ToldCall>,
    /// The lines of the output behind those of the calls: wire, held, waiting and marks, and of a script
    /// with rings transmit and receive.
    pub last: Vec<String>,
}

/// Returns whether a line of a script is a call.
pub fn is_call(line: &[u8]) -> bool {
    let is_of_driver = matches!(item_at(Place::Later, line), Ok(Item::Call(_) | Item::Next));
    is_of_driver || matches!(call_at(OF_RINGS, false, AFTER_THE_HEAD, line), Ok(Some(_)))
}

impl History {
    /// Returns the history of a script with this text, for which this was printed.
    pub fn new(text: &[u8], output: &[u8]) -> Self {
        let mut printed = lines(output).map(printable);
        let calls = lines(text).filter(|line| is_call(line)).map(printable);
        let calls = calls.zip(&mut printed);
        History {
            calls: calls
                .map(|(line, answer)| ToldCall { line, answer })
                .collect(),
            last: printed.filter(|line| !line.is_empty()).collect(),
        }
    }

    /// Returns the letter of an arrival's mark at the end of the run.
    pub fn mark(&self, arrival: usize) -> char {
        let marks = self
            .last
            .iter()
            .find_map(|line| line.strip_prefix("marks "));
        let letter = marks.and_then(|letters| letters.as_bytes().get(arrival));
        letter.copied().map_or('?', char::from)
    }
}
