//! How much room flow control needed in a run, in each direction and by each way in which an end holds the other one back: the numbers of
//! the laws on what a cable carries, as they were in the run.
//!
//! The laws let an end find the lines of the other one as they are. Here lines are on the cable too. An end at a tick sees what the other
//! one was so many ticks before, so that what counts as being on the cable is counted from there.

use super::end::{End, Span};
use crate::history::{History, ToldCall};
use std::fmt;
use uart_chip::controlling::ChipParts;
use uart_chip::receiving::{ReceiverParts, characters_of};
use uart_chip::transmitting::TransmitterParts;
use uart_spec::FIFO_SIZE;
use uart_spec::registers::MCR;

// What XOFF is, as an answer tells it.
const TOLD_XOFF: &str = "ok 13";

/// An end after a run.
#[derive(Clone, Copy)]
pub struct Bounded<'a> {
    /// Its name.
    pub name: &'static str,
    /// The end.
    pub end: &'a End,
    /// Its calls.
    pub history: &'a History,
}

impl<'a> Bounded<'a> {
    // Returns the calls of this word, with their fields and when they were made.
    fn calls(self, word: &'a str) -> impl Iterator<Item = (&'a ToldCall, Span)> {
        let (_, spans) = self.end.history();
        let calls = self.history.calls.iter().zip(spans.iter().copied());
        calls.filter(move |(call, _)| call.line.split_whitespace().next() == Some(word))
    }

    // Returns the lowest mark below which its calls of this word hold the other end back. `None` if there is none.
    fn lowest_mark(self, word: &'a str) -> Option<usize> {
        let mark_of = |call: &ToldCall| call.line.split_whitespace().nth(1)?.parse().ok();
        self.calls(word).filter_map(|(call, _)| mark_of(call)).min()
    }

    // Returns the most characters that arrive between two calls of this word.
    fn most_between(self, word: &'a str) -> usize {
        let returned = self.calls(word).map(|(_, span)| span.ticks.1);
        let counts = returned.map(|tick| self.end.arrived_by(tick));
        let mut since = 0;
        let between = counts.chain([self.end.arrived_by(u64::MAX)]);
        let between = between.map(|count| count - std::mem::replace(&mut since, count));
        between.max().unwrap_or(0)
    }

    // Returns the tick at which a call returns that is being made at this tick, or the tick.
    fn behind_its_call(self, tick: u64) -> u64 {
        let (_, spans) = self.end.history();
        let is_made = |span: &&Span| span.ticks.0 < tick && tick < span.ticks.1;
        spans.iter().find(is_made).map_or(tick, |span| span.ticks.1)
    }

    // Returns how many characters its transmitter may hold beyond 16, for which a FIFO always has room.
    fn beyond(self) -> usize {
        self.end.chip().transmitter().size().characters() + 1 - FIFO_SIZE
    }
}

/// What one direction needed, and what there was.
pub struct Bound<'a> {
    from: Bounded<'a>,
    to: Bounded<'a>,
    by: &'static str,
    // The characters that may still come, by where they are.
    parts: Vec<usize>,
    // What there is for them, and how many characters it stands for.
    of: &'static str,
    room: usize,
}

impl fmt::Display for Bound<'_> {
    fn fmt(&self, f: &mut fmt::Formatter<'_>) -> fmt::Result {
        let needed: usize = self.parts.iter().sum();
        let parts: Vec<String> = self.parts.iter().map(usize::to_string).collect();
        let (from, to, by, of, room) = (self.from.name, self.to.name, self.by, self.of, self.room);
        let verdict = if needed <= room { "kept" } else { "not kept" };
        let sum = parts.join(" + ");
        write!(
            f,
            "{from} to {to} by {by}: {sum} = {needed}, {of} {room}: {verdict}"
        )
    }
}

// Both chips hold each other off by themselves. Then come the trigger level, the character that is begun before the lines change, and those
// that leave the sender while the last one of the level, and then RTS, are on the cable.
fn by_the_chips<'a>(from: Bounded<'a>, to: Bounded<'a>, delay: u64) -> Option<Bound<'a>> {
    let is_on = |played: Bounded<'_>| played.end.chip().mcr().contains(MCR::AUTO_FLOW);
    if !(is_on(from) && is_on(to) && to.end.chip().fifo()) {
        return None;
    }
    let receiver = to.end.chip().receiver();
    let level = characters_of(receiver.size(), receiver.trigger());
    let char_ticks = from.end.chip().transmitter().char_ticks();
    let on_cable = usize::try_from(2 * delay / u64::from(char_ticks)).unwrap_or(usize::MAX);
    Some(Bound {
        from,
        to,
        by: "the chips",
        parts: vec![level.into(), 1, on_cable],
        of: "FIFO",
        room: receiver.size().characters(),
    })
}

// The receiver adjusts RTS: those on the cable when it does, by what the sender had done when it saw the lines, those that come between two
// times, and those beyond 16 in the transmitter.
fn by_rts<'a>(from: Bounded<'a>, to: Bounded<'a>, delay: u64) -> Option<Bound<'a>> {
    const ADJUSTS: &str = "adjust-rts";
    let room = to.lowest_mark(ADJUSTS)?;
    let on_cable = to.calls(ADJUSTS).map(|(_, span)| {
        let adjusted = span.ticks.1;
        let seen = from.behind_its_call(adjusted.saturating_add(delay));
        from.end.sent_by(seen) - to.end.arrived_by(adjusted)
    });
    let on_cable = on_cable.max().unwrap_or(0);
    Some(Bound {
        from,
        to,
        by: "RTS",
        parts: vec![on_cable, to.most_between(ADJUSTS), from.beyond()],
        of: "mark",
        room,
    })
}

// The receiver tells XOFF: those that come between two times at which it may, those that are on the cable or leave the sender until that
// holds its ring, the urgent bytes of the sender, and those beyond 16 in the transmitter.
fn by_xoff<'a>(from: Bounded<'a>, to: Bounded<'a>) -> Option<Bound<'a>> {
    const ADJUSTS: &str = "adjust-xoff";
    let room = to.lowest_mark(ADJUSTS)?;
    let held_behind = |told: u64| {
        let obeyed = from.calls("obey-xoff");
        let mut held = obeyed.filter(|(call, _)| call.answer == TOLD_XOFF);
        let held = held.find(|(_, span)| span.ticks.1 > told);
        held.map_or(u64::MAX, |(_, span)| span.ticks.1)
    };
    let until_held = to.calls(ADJUSTS).map(|(call, span)| {
        let told = span.ticks.1;
        let until = if call.answer == TOLD_XOFF {
            held_behind(told)
        } else {
            told
        };
        from.end.sent_by(until) - to.end.arrived_by(told)
    });
    let until_held = until_held.max().unwrap_or(0);
    let told = from
        .calls(ADJUSTS)
        .filter(|(call, _)| call.answer != "ok -");
    let urgent = told.count() + from.calls("queue-urgent").count();
    Some(Bound {
        from,
        to,
        by: "XOFF",
        parts: vec![to.most_between(ADJUSTS), until_held, urgent, from.beyond()],
        of: "mark",
        room,
    })
}

/// Returns the bounds of each direction of a run over a cable with this delay.
pub fn bounds<'a>(ends: [Bounded<'a>; 2], delay: u64) -> impl Iterator<Item = Bound<'a>> {
    let [left, right] = ends;
    [(left, right), (right, left)]
        .into_iter()
        .flat_map(move |(from, to)| {
            [
                by_the_chips(from, to, delay),
                by_rts(from, to, delay),
                by_xoff(from, to),
            ]
        })
        .flatten()
}
