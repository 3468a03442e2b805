//! Two scripts, played at the two ends of a null-modem cable.

mod bounds;
mod cable;
mod end;
mod turns;

pub use end::{End as LinkEnd, Span};

use crate::end::{End, Status};
use crate::fault::Explanation;
use crate::heap;
use crate::history::History;
use crate::picture::{DrawnEnd, picture_of_link};
use crate::ring_language::{AnyScript, RingScript, parse};
use crate::rings::{Scheduled, ring_lines, rings_over, run_rings};
use crate::script::{kind_of, title};
use crate::streams::{print, script_of};
use crate::terminal::Style;
use crate::text::{STANDARD_INPUT, lines, words};
use bounds::{Bounded, bounds};
use cable::{Cable, Cargo, Line};
use geesetrunk_kit::Vec as List;
use geesetrunk_kit::alloc::AllocError;
use std::fmt::Write as _;
use std::io::{self, Write as _};
use std::thread;
use uart_16550::backend::Backend;
use uart_16550::{Uart16550, Uart16550Tty};
use uart_calls::{Answer, Call, perform};
use uart_chip::Event;
use uart_language::{Script, ScriptError, push_answer, render};
use uart_trace::plain;

/// How many ticks it takes from one end to the other, unless it is said.
pub const USUAL_DELAY: u64 = 1;

/// The most ticks that it can take.
pub const MOST_DELAY: u64 = 1_000_000;

/// The names of the two ends.
const SIDES: [&str; 2] = ["left", "right"];

// What a bus answers on which nothing is. Each wait of the driver takes it for what it waits for.
const NOTHING: u8 = 0xff;

/// What to play.
#[derive(Clone, Copy, Debug)]
pub struct Link<'a> {
    /// The scripts of the left end and of the right one, each as a file, or `-` for standard input.
    pub files: [&'a str; 2],
    /// How many ticks it takes from one end to the other: from 1 to [`MOST_DELAY`].
    pub delay: u64,
    /// What to print.
    pub output: LinkOutput,
}

/// What is printed of a run.
#[derive(Clone, Copy, Debug, PartialEq, Eq)]
pub enum LinkOutput {
    /// What each call returned, and the last state of each chip.
    Text,
    /// The same, and how much room flow control needed.
    TextWithBounds,
    /// A picture.
    Picture,
}

// The driver's backend at an end: the chip under the ticks of its script.
struct Cabled<'a> {
    // `None` once all calls have returned, or it is played no further.
    end: Option<LinkEnd>,
    cable: &'a dyn Line,
    // The events that have not happened yet.
    events: &'a [Event],
}

impl Cabled<'_> {
    // Lets ticks pass.
    fn pass(&mut self, ticks: u16) {
        for _ in 0..ticks {
            let Some(end) = &mut self.end else {
                return;
            };
            if !self.cable.pass(end) {
                self.leave();
            }
        }
    }

    // Hands the end over. What is called from here on meets nothing.
    fn leave(&mut self) {
        if let Some(end) = self.end.take() {
            self.cable.park(end);
        }
    }

    // Returns the next event of the schedule, and moves on.
    fn take(&mut self) -> Option<Event> {
        let (&event, rest) = self.events.split_first()?;
        self.events = rest;
        Some(event)
    }

    // Performs the events before an access, as the machine of a script does: see docs/SCRIPTS.md.
    fn reach_access(&mut self) {
        while self
            .events
            .first()
            .is_some_and(|event| *event != Event::Mark)
        {
            match self.take() {
                Some(Event::Ticks(ticks)) => self.pass(ticks),
                Some(Event::Access) => return,
                _ => {}
            }
        }
        self.pass(1);
    }

    // Gives the other end the outputs of the chip, if an access has changed them.
    fn give_lines(&mut self) {
        let Some(end) = &mut self.end else {
            return;
        };
        if let Some(lines) = end.new_lines() {
            self.cable.send(end, Cargo::Lines(lines));
        }
    }
}

impl Backend for Cabled<'_> {
    fn read(&mut self, register_offset: u8) -> u8 {
        self.reach_access();
        let value = self
            .end
            .as_mut()
            .map_or(NOTHING, |end| end.read(register_offset));
        self.give_lines();
        value
    }

    fn write(&mut self, register_offset: u8, value: u8) {
        self.reach_access();
        if let Some(end) = &mut self.end {
            end.write(register_offset, value);
        }
        self.give_lines();
    }
}

// No more calls are made. The other end waits for this one until it is parked, also if this one fails.
impl Drop for Cabled<'_> {
    fn drop(&mut self) {
        self.leave();
    }
}

impl Scheduled for Cabled<'_> {
    fn begin(&mut self) {
        self.end.iter_mut().for_each(LinkEnd::begin);
    }

    fn next(&mut self) {
        loop {
            match self.take() {
                Some(Event::Ticks(ticks)) => self.pass(ticks),
                Some(Event::Mark) | None => return,
                _ => {}
            }
        }
    }

    fn end(&mut self) {
        self.end.iter_mut().for_each(LinkEnd::end);
    }
}

// What a script prints: the lines of its answers, and those of what is left in its rings, if it has any.
struct Printed {
    answers: Vec<u8>,
    rings: String,
}

// Makes the calls of a script without rings at an end of the cable.
fn play_plain(cabled: Cabled<'_>, script: &Script) -> Result<Printed, AllocError> {
    let mut uart = Uart16550::new_with_backend(cabled);
    uart.set_spin_limit(script.limit());
    uart.set_fifo_size(script.driver_fifo_size());
    let mut terminal = Uart16550Tty::from_inner(uart);
    let mut answers = List::new(heap());
    for call in script.calls() {
        let backend = terminal.inner_mut().backend_mut();
        backend.begin();
        let answer = if *call == Call::Next {
            backend.next();
            Answer::Done
        } else {
            perform(&mut terminal, call)
        };
        push_answer(heap(), &mut answers, &answer)?;
        answers.push(b'\n')?;
        terminal.inner_mut().backend_mut().end();
    }
    let answers = answers.to_vec();
    let rings = String::new();
    Ok(Printed { answers, rings })
}

// Makes the calls of a script with rings at an end of the cable.
fn play_rings(cabled: Cabled<'_>, script: &RingScript) -> Result<Printed, AllocError> {
    let mut ring = rings_over(script, cabled)?;
    let answers = run_rings(&mut ring, script.calls())?.to_vec();
    let rings = ring_lines(&ring);
    Ok(Printed { answers, rings })
}

// Makes the calls of a script at an end of the cable.
fn play_end(cable: &dyn Line, end: LinkEnd, script: &AnyScript) -> Result<Printed, AllocError> {
    let cabled = Cabled {
        end: Some(end),
        cable,
        events: script.plain().events(),
    };
    match script {
        AnyScript::Plain(script) => play_plain(cabled, script),
        AnyScript::Rings(script) => play_rings(cabled, script),
    }
}

// Both ends, and what is printed for each.
type Played = ([LinkEnd; 2], [Printed; 2]);

// Plays both scripts, each in a thread of its own.
fn play_both(scripts: &[AnyScript; 2], delay: u64) -> Result<Played, End> {
    let cable = Cable::new(delay);
    let [left, right] = scripts;
    let left_end = LinkEnd::new(0, left.plain(), right.plain().wire_capacity())?;
    let right_end = LinkEnd::new(1, right.plain(), left.plain().wire_capacity())?;
    let answers = thread::scope(|threads| {
        let there = thread::Builder::new()
            .spawn_scoped(threads, || play_end(&cable, right_end, right))
            .map_err(|cause| End::failed(format!("no thread can be started: {cause}")))?;
        let here = play_end(&cable, left_end, left);
        let there = there
            .join()
            .map_err(|_| End::failed("the right end cannot be played"))?;
        Ok::<_, End>([here?, there?])
    })?;
    let mut ends = cable
        .into_ends()
        .ok_or_else(|| End::failed("the scripts cannot be played"))?;
    ends.iter_mut().for_each(LinkEnd::stop);
    Ok((ends, answers))
}

// Returns what a script prints for its end: its answers, and the last state of its chip. Of the
// characters that the other end sends, those have marks that have left it.
fn printed(end: &LinkEnd, other: &LinkEnd, printed: &Printed) -> Result<Vec<u8>, AllocError> {
    let (transmitter, receiver) = (end.chip().transmitter(), end.chip().receiver());
    let held: Vec<u8> = (0..transmitter.held_len())
        .filter_map(|index| transmitter.held_at(index))
        .collect();
    let waiting: Vec<u8> = (0..receiver.waiting_len())
        .filter_map(|index| receiver.waiting_at(index))
        .collect();
    let left_other = other.chip().transmitter().wire().len();
    let marks: Vec<_> = end.marks(left_other).collect();
    let last = render(heap(), &[], transmitter.wire(), &held, &waiting, &marks)?;
    Ok([&printed.answers, last.as_slice(), printed.rings.as_bytes()].concat())
}

// A script, its text without comments, and the name of its file.
struct Source<'a> {
    file: &'a str,
    text: List<u8>,
}

// Returns what a word of a schedule does that the cable does, if it is such a word.
fn brought_by_cable(word: &[u8]) -> Option<&'static str> {
    match word {
        b"arrive" => Some("the characters that arrive"),
        b"lines" => Some("the modem lines"),
        _ => None,
    }
}

// Returns how the program ends for a script with events that are the cable's.
fn refused_event(file: &str, text: &[u8]) -> Option<End> {
    let mut numbered = (1..).zip(lines(text));
    let (number, word, brought) = numbered.find_map(|(number, line)| {
        let word = words(line).next()?;
        Some((number, word, brought_by_cable(word)?))
    })?;
    let word = String::from_utf8_lossy(word);
    let cause = format!("{file}:{number}:1: {word}: over a cable the other end brings {brought}");
    Some(End::new(Status::Refused, cause))
}

// Prints why a script is refused.
fn refused(file: &str, bytes: &[u8], error: ScriptError) -> End {
    let ScriptError::Refused { line, cause } = error else {
        return End::out_of_memory();
    };
    let mut text = String::new();
    let explanation = Explanation::new(file, bytes, line, cause);
    if explanation
        .write(&mut text, Style::of(&io::stderr()))
        .is_ok()
    {
        // If standard error cannot be written, the exit status still says that there is a fault.
        let _ = io::stderr().write_all(text.as_bytes());
    }
    End::told(Status::Refused)
}

// Reads the script of an end.
fn read<'a>(file: &'a str, bytes: &[u8]) -> Result<(AnyScript, Source<'a>), End> {
    let text = plain(heap(), bytes)?;
    let script = parse(&text).map_err(|error| refused(file, bytes, error))?;
    match refused_event(file, &text) {
        Some(end) => Err(end),
        None => Ok((script, Source { file, text })),
    }
}

// Returns the text of a run: a line for each call in the order in which they returned, and the last
// state of each chip.
fn text_of(ends: &[LinkEnd; 2], histories: &[History; 2]) -> String {
    let mut returned = Vec::new();
    for (side, (end, history)) in ends.iter().zip(histories).enumerate() {
        let (_, spans) = end.history();
        let told = history.calls.iter().zip(spans);
        returned.extend(told.map(|(call, span)| (span.ticks.1, side, call)));
    }
    // Calls of one end stay in order.
    returned.sort_by_key(|(tick, side, _)| (*tick, *side));
    let mut text = String::new();
    for (tick, side, call) in returned {
        let name = SIDES[side];
        // A text in memory takes everything.
        let _ = writeln!(text, "{name} {tick}: {} = {}", call.line, call.answer);
    }
    for (name, history) in SIDES.iter().zip(histories) {
        for line in &history.last {
            let _ = writeln!(text, "{name} {line}");
        }
    }
    text
}

// Returns what comes of two scripts, which are had and played by these functions: as a text, or as a picture. Of the right one nothing is
// read before the left one is accepted.
fn told(
    link: &Link<'_>,
    bytes_at: impl Fn(usize) -> Result<Vec<u8>, End>,
    play: fn(&[AnyScript; 2], u64) -> Result<Played, End>,
) -> Result<String, End> {
    let (left, of_left) = read(link.files[0], &bytes_at(0)?)?;
    let (right, of_right) = read(link.files[1], &bytes_at(1)?)?;
    let scripts = [left, right];
    let (ends, answers) = play(&scripts, link.delay)?;
    let history = |side: usize, source: &Source<'_>| {
        let output = printed(&ends[side], &ends[1 - side], &answers[side])?;
        Ok::<_, AllocError>(History::new(&source.text, &output))
    };
    let histories = [history(0, &of_left)?, history(1, &of_right)?];
    if link.output != LinkOutput::Picture {
        let mut text = text_of(&ends, &histories);
        if link.output == LinkOutput::TextWithBounds {
            let bounded = |side: usize| Bounded {
                name: SIDES[side],
                end: &ends[side],
                history: &histories[side],
            };
            let bounds = bounds([bounded(0), bounded(1)], link.delay);
            text.extend(bounds.map(|bound| format!("{bound}\n")));
        }
        return Ok(text);
    }
    let drawn = |side: usize, file: &str| DrawnEnd {
        title: format!("{}: {}", SIDES[side], title(file, scripts[side].plain())),
        name: SIDES[side],
        chip: kind_of(scripts[side].plain()),
        history: &histories[side],
        moments: ends[side].history().0,
        spans: ends[side].history().1,
    };
    picture_of_link(&[drawn(0, of_left.file), drawn(1, of_right.file)])
}

/// Plays two scripts at the two ends of a cable, and prints what comes of it.
///
/// # Errors
///
/// How the program ends: a file cannot be read, a script is refused, or the output cannot be
/// written.
pub fn link(link: &Link<'_>) -> Result<(), End> {
    if link.files == [STANDARD_INPUT; 2] {
        let cause = "standard input is one script: name a file for the other";
        return Err(End::failed(cause));
    }
    let bytes_at = |side: usize| script_of(link.files[side]);
    print(told(link, bytes_at, play_both)?.as_bytes())
}

/// Returns what [`link`] prints, without a thread. The names of the files are only names here, and the scripts are these.
///
/// # Errors
///
/// How the program would end: a script is refused, or the ends do not come to rest.
///
/// # Examples
///
/// ```
/// use geesetrunk::link::{Link, LinkOutput, USUAL_DELAY, linked_in_turns};
///
/// let link = Link {
///     files: ["left", "right"],
///     delay: USUAL_DELAY,
///     output: LinkOutput::Text,
/// };
/// let left = b"chip 16550a 4 64\ninit 14 9600 nocts 00 8\nsend 41\nflush\n";
/// let right = b"chip 16550a 4 64\ninit 14 9600 nocts 00 8\nreceive-exact 1\n";
/// let text = linked_in_turns(&link, [left, right]).unwrap();
/// assert!(text.contains("receive-exact 1 = ok 41"), "{text}");
/// ```
pub fn linked_in_turns(link: &Link<'_>, scripts: [&[u8]; 2]) -> Result<String, End> {
    told(link, |side| Ok(scripts[side].to_vec()), turns::play_both)
}
