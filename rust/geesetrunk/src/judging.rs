//! Judges a recording, entry by entry, in constant memory.

use crate::has::Has;
use crate::hints::{Hint, Hints};
use crate::kinds::{Kind, Lack};
use crate::known::{Known, Scale};
use crate::resets::{Entries, Next, Resets};
use crate::visits::{Lateness, Unknown, Visits};
use geesetrunk_kit::alloc::AllocError;
use std::io::{self, Read};
use uart_judges::audit::{
    Answers, Auditor, ChipAuditor, Finding, Findings, MOST_UNREAD, Severity, Unread,
};
use uart_judges::recording::{Entry, Happening, RecordingError};
use uart_judges::replay::{Difference, Replayer, Rule, Start};
use uart_spec::access::Access;
use uart_spec::registers::{MCR, offsets};

/// Who judges a recording.
#[derive(Clone, Copy, Debug, PartialEq, Eq)]
pub enum Judge {
    /// The judge of the driver.
    Audit,
    /// The judge of the chip.
    Replay,
}

/// Why a recording was not read to its end.
#[derive(Debug)]
pub enum Stop {
    /// A line is no line of a recording, or the reader failed.
    Recording(RecordingError),
    /// It is read to its end, and has no access to a chip.
    NoAccess,
    /// It is read to its end, and has fewer lines than this one.
    NoLine {
        /// The line.
        line: u64,
        /// How many lines there are.
        lines: u64,
    },
    /// What was found could not be printed.
    Output(io::Error),
    /// Memory could not be allocated.
    OutOfMemory,
}

impl From<RecordingError> for Stop {
    fn from(error: RecordingError) -> Self {
        Stop::Recording(error)
    }
}

impl From<AllocError> for Stop {
    fn from(_: AllocError) -> Self {
        Stop::OutOfMemory
    }
}

/// Something that was found.
#[derive(Clone, Copy, Debug, PartialEq, Eq)]
pub struct Found {
    /// The number of its line, counted from 1.
    pub line: u64,
    /// What was found.
    pub kind: Kind,
    /// How many times in turn it was found at this line.
    pub times: u64,
}

/// What is given the entries of a recording in turn, and finds something at each.
pub trait Steps: Copy + PartialEq {
    /// What is found at an entry, each in its place.
    type Found: AsRef<[Option<Finding>]>;

    /// Returns one that was given nothing.
    fn first() -> Self;

    /// Goes on by an entry, and returns what is found at it.
    fn next(&mut self, entry: &Entry) -> Self::Found;

    /// Returns whether an equal entry at another time would change nothing that this one did not.
    fn is_timeless(&self) -> bool;

    /// Returns the characters that are known to wait.
    fn unread_mut(&mut self) -> &mut Unread;
}

impl Steps for Auditor {
    type Found = Findings;

    fn first() -> Self {
        Auditor::new()
    }

    fn next(&mut self, entry: &Entry) -> Findings {
        self.step(entry)
    }

    // Time changes what is known only while bytes go out, or while the line is up.
    fn is_timeless(&self) -> bool {
        self.going_out == 0 && self.up.is_none()
    }

    fn unread_mut(&mut self) -> &mut Unread {
        &mut self.unread
    }
}

impl Steps for ChipAuditor {
    type Found = Answers;

    fn first() -> Self {
        ChipAuditor::new()
    }

    fn next(&mut self, entry: &Entry) -> Answers {
        self.step(entry)
    }

    // Time changes what is known only while bytes go out.
    fn is_timeless(&self) -> bool {
        self.seen.going_out == 0
    }

    fn unread_mut(&mut self) -> &mut Unread {
        &mut self.seen.unread
    }
}

/// An auditor that makes an entry again and again in the time of a few.
#[derive(Clone, Copy, Debug, PartialEq, Eq)]
pub struct Audited<A = Auditor> {
    auditor: A,
    last: Option<Last>,
}

// What happened last, and the level of the interrupt line then.
#[derive(Clone, Copy, Debug, PartialEq, Eq)]
struct Last {
    happening: Happening,
    level: Option<bool>,
    // Whether it changed nothing and nothing was found, and would not be now.
    is_quiet: bool,
}

impl<A: Steps> Default for Audited<A> {
    fn default() -> Self {
        Audited {
            auditor: A::first(),
            last: None,
        }
    }
}

impl Audited {
    // Returns one over a judge that was given nothing.
    fn over(auditor: Auditor) -> Self {
        Audited {
            auditor,
            last: None,
        }
    }
}

impl<A: Steps> Audited<A> {
    // Forgets the characters that wait, before one more arrives than the judge follows: it would take that one for lost, and a FIFO with
    // more room has it.
    fn make_room(&mut self, known: &Known, entry: &Entry) {
        let is_arrival = matches!(entry.happening, Happening::Arrive { .. });
        let unread = self.auditor.unread_mut();
        if is_arrival && usize::from(known.fifo_room()) > MOST_UNREAD && unread.count == MOST_UNREAD
        {
            *unread = Auditor::new().unread;
        }
    }

    /// Goes on by an entry, which is made so many times as it says, and tells what is found, with
    /// how many times in turn. A judge that an entry leaves as it was finds the same at each that
    /// follows: from the third equal read on it knows no more, but for bytes that wait, of which
    /// there are at most 16.
    pub fn step(&mut self, entry: &Entry, mut tell: impl FnMut(&[Option<Finding>], u64)) {
        let (happening, level) = (entry.happening, entry.interrupt);
        let is_again = self
            .last
            .is_some_and(|last| last.happening == happening && last.level == level);
        if is_again && self.last.is_some_and(|last| last.is_quiet) {
            return;
        }
        let mut is_quiet = false;
        if is_again || entry.times != 1 {
            is_quiet = self.repeat(entry, &mut tell);
        } else {
            self.once(entry, &mut tell);
        }
        self.last = Some(Last {
            happening,
            level,
            is_quiet,
        });
    }

    // Makes an entry once.
    fn once(&mut self, entry: &Entry, tell: &mut impl FnMut(&[Option<Finding>], u64)) {
        let findings = self.auditor.next(entry);
        if findings.as_ref().iter().any(Option::is_some) {
            tell(findings.as_ref(), 1);
        }
    }

    // Makes an entry so many times, up to one that changes nothing: there the findings are those of
    // all that are left. Returns whether there were none, and there would be none later.
    fn repeat(&mut self, entry: &Entry, tell: &mut impl FnMut(&[Option<Finding>], u64)) -> bool {
        let mut left = entry.times;
        while left > 0 {
            let before = self.auditor;
            let findings = self.auditor.next(entry);
            let is_settled = self.auditor == before;
            let is_silent = findings.as_ref().iter().all(Option::is_none);
            let count = if is_settled { left } else { 1 };
            if !is_silent {
                tell(findings.as_ref(), count);
            }
            left -= count;
            if is_settled {
                return is_silent && self.auditor.is_timeless();
            }
        }
        false
    }
}

impl Audited {
    // Returns whether a finding at an entry that follows may be about a line up to this one.
    fn may_name_up_to(&self, line: u64) -> bool {
        let unserved = self.auditor.unserved.map(|identified| identified.line);
        let up = self.auditor.up.map(|mark| mark.line);
        [unserved, up]
            .into_iter()
            .flatten()
            .any(|named| named <= line)
    }

    // Returns the findings after the last entry.
    fn end(&self) -> [Option<Finding>; 2] {
        self.auditor.end()
    }
}

/// The judge of a driver, with what is known of its chip.
///
/// The proved judge takes a divisor at 1.8432 MHz. Where the clock is another one, a second judge is given the time in which a character
/// takes as long at that clock: what it finds counts, but for the finding that is about a time of its own.
#[derive(Clone, Debug)]
pub struct DriverJudge {
    known: Known,
    usual: Audited,
    scaled: Option<(Audited, Scale)>,
    hints: Hints,
    visits: Visits,
    // How late the character is that the last entry reads.
    read: Option<Lateness>,
    has: Has,
}

impl DriverJudge {
    /// Returns a judge that knows this, and was given nothing.
    pub fn new(known: Known) -> Self {
        DriverJudge::beginning(known, known.auditor(), Has::default())
    }

    // Returns a judge that begins with this one of the driver, in a recording that has this.
    fn beginning(known: Known, auditor: Auditor, has: Has) -> Self {
        let scaled = |clock| (Audited::over(auditor), Scale::new(clock));
        DriverJudge {
            usual: Audited::over(auditor),
            scaled: known.clock.map(scaled),
            hints: Hints::default(),
            visits: Visits::new(known),
            read: None,
            has,
            known,
        }
    }

    /// Begins anew: the chip was reset. What an open latch or loopback is at the end is nothing there.
    pub fn reset(&mut self) {
        let has = Has {
            resets: true,
            ..self.has
        };
        *self = DriverJudge::beginning(self.known, self.known.auditor_after_reset(), has);
    }

    /// Goes on by an entry, and tells what is found about the driver, with how many times in turn.
    pub fn step(&mut self, entry: &Entry, mut tell: impl FnMut(Kind, u64)) {
        self.has.step(entry);
        if self.known.counts(entry) {
            self.audit(entry, &mut tell);
        }
        self.hints.step(entry, |hint| tell(Kind::Hint(hint), 1));
        let shown = self.visits.step(entry, &self.usual.auditor.setup, self.has);
        self.read = shown.read;
        if let Some(overrun) = shown.overrun {
            tell(Kind::Hint(Hint::Overrun(overrun)), 1);
        }
    }

    /// Returns how late the character is that the last entry reads, if as many waited as the trigger level.
    pub fn read(&self) -> Option<Lateness> {
        self.read
    }

    /// Returns why it is not told how late characters are read, as far as the recording is read.
    pub fn lack_of_lateness(&self) -> Option<Unknown> {
        self.visits.lack()
    }

    fn audit(&mut self, entry: &Entry, tell: &mut impl FnMut(Kind, u64)) {
        let (known, has) = (self.known, self.has);
        let modem = self.usual.auditor.setup.modem;
        let loops_back = modem.is_some_and(|modem| modem.contains(MCR::LOOP_BACK));
        let mut tell_all = |findings: &[Option<Finding>], times, is_wanted: fn(Finding) -> bool| {
            let found = findings.iter().flatten().copied();
            for finding in found.filter(|finding| is_wanted(*finding)) {
                if let Some(kind) = kind_of(&known, &has, finding, loops_back) {
                    tell(kind, times);
                }
            }
        };
        self.usual.make_room(&known, entry);
        match &mut self.scaled {
            None => self
                .usual
                .step(entry, |findings, times| tell_all(findings, times, |_| true)),
            Some((scaled, scale)) => {
                scaled.make_room(&known, entry);
                scaled.step(&scale.scaled(entry), |findings, times| {
                    tell_all(findings, times, |finding| !is_about_time(finding));
                });
                self.usual.step(entry, |findings, times| {
                    tell_all(findings, times, is_about_time);
                });
            }
        }
    }

    /// Returns whether a finding at an entry that follows may be about a line up to this one.
    pub fn may_name_up_to(&self, line: u64) -> bool {
        self.usual.may_name_up_to(line)
    }

    /// Returns what is found after the last entry.
    pub fn end(&self) -> impl Iterator<Item = Kind> {
        let findings = self.usual.end().into_iter().flatten();
        let hints = self.hints.end().into_iter().flatten();
        findings.map(Kind::Finding).chain(hints.map(Kind::Hint))
    }
}

// Returns whether a finding is about a time that has nothing to do with the clock of the chip.
fn is_about_time(finding: Finding) -> bool {
    matches!(finding, Finding::LeftWithLineUp(_))
}

// Returns what is told of a finding about the driver, with what is known of the chip, and what the log has. Of a flood in loopback, which
// nobody receives but the driver, only the beginning is told, as a note.
fn kind_of(known: &Known, has: &Has, finding: Finding, loops_back: bool) -> Option<Kind> {
    if finding.severity() == Severity::Answer {
        return None;
    }
    let finding = known.adapted(finding)?;
    if let (true, Finding::SentBeyondRoom { sent, room }) = (loops_back, finding) {
        let begins = sent == u64::from(room) + 1;
        return begins.then_some(Kind::Hint(Hint::FloodInLoopback { room }));
    }
    if let Some(lack) = Lack::of(&finding, has) {
        return Some(Kind::Undecided(finding, lack));
    }
    Some(match (finding, known.clock) {
        (Finding::SetUp(setup), Some(_)) => Kind::SetUp(setup, *known),
        _ => Kind::Finding(finding),
    })
}

// Takes down what is found at a line. Equal reads in turn have one finding, with how often.
fn take_down(found: &mut Vec<Found>, entry: &Entry, kind: Kind, times: u64) {
    let line = kind.line().unwrap_or(entry.line);
    match found.last_mut() {
        Some(last) if last.kind == kind && last.line == line => last.times += times,
        _ => found.push(Found { line, kind, times }),
    }
}

// The judge of a chip: what the recording contradicts, and what no chip returns.
struct ChipJudge {
    known: Known,
    audited: Audited<ChipAuditor>,
    // The time at the chip's own clock, if that is not the usual one.
    scale: Option<Scale>,
    replayer: Replayer,
    // Whether the last read of ISR showed both bits of the FIFOs, and FCR was not written since.
    has_fifo_bits: bool,
    // Whether the last access was a write of FCR, and whether LCR was written since the last one.
    is_behind_fcr: bool,
    has_written_lcr: bool,
    // A difference at a read of ISR that a reset explains, if the accesses behind it set the chip up before a byte moves.
    doubt: Option<Found>,
    // Whether the recording has a reset: then it has all of them.
    has_resets: bool,
}

// Whether a reset that the recording does not have explains that ISR shows no FIFOs, which FCR has turned on.
#[derive(Clone, Copy, PartialEq, Eq)]
enum Explains {
    No,
    Yes,
    // What follows says it.
    Later,
}

// The bits of ISR that show whether the FIFOs are on.
const FIFO_BITS: u8 = 0xc0;

impl ChipJudge {
    fn new(known: &Known) -> Self {
        let mut audited: Audited<ChipAuditor> = Audited::default();
        audited.auditor.seen = known.auditor();
        ChipJudge {
            known: *known,
            audited,
            scale: known.clock.map(Scale::new),
            // A reset leaves what the chip's maker chose, and not what the model has at power-on.
            replayer: Replayer::new(known.chip.model, Start::InUse),
            has_fifo_bits: false,
            is_behind_fcr: false,
            has_written_lcr: false,
            doubt: None,
            has_resets: false,
        }
    }

    // Begins anew: the chip was reset. Returns what was not decided before.
    fn reset(&mut self) -> Option<Found> {
        let known = self.known;
        let doubt = self.end();
        *self = ChipJudge::new(&known);
        self.audited.auditor.seen = known.auditor_after_reset();
        self.has_resets = true;
        doubt
    }

    // Returns what is not decided at the end.
    fn end(&mut self) -> Option<Found> {
        self.doubt.take().map(after_reset)
    }

    // Takes down what was in doubt, if this access decides it. After a reset LCR and FCR are written before a byte moves, and before
    // whatever else the driver does.
    fn settle(&mut self, access: Access, found: &mut Vec<Found>) {
        let is_reset = match access {
            Access::Write(offsets::LCR | offsets::FCR, _) => true,
            Access::Read(offsets::DATA, _) | Access::Write(offsets::DATA, _) => false,
            _ => return,
        };
        let doubt = self.doubt.take();
        found.extend(doubt.map(|doubt| if is_reset { after_reset(doubt) } else { doubt }));
    }

    // Returns whether a reset explains what this read of ISR shows, if it breaks the rule on the bits of the FIFOs.
    fn explains(&self, answer: u8, had_fifo_bits: bool) -> Explains {
        if self.has_resets || answer & FIFO_BITS != 0 {
            Explains::No
        } else if had_fifo_bits || self.has_written_lcr {
            // A chip that has shown that its FIFOs are on, and then shows that they are off, was reset with its machine, or is wrong: a
            // log without resets does not say which. A set-up between the two says as little.
            Explains::Yes
        } else if self.is_behind_fcr {
            // No machine begins with a read of ISR.
            Explains::No
        } else {
            Explains::Later
        }
    }

    // Follows an access, and tells what the chip could not have returned.
    fn differences(&mut self, entry: &Entry, found: &mut Vec<Found>) {
        match entry.happening {
            Happening::Access(Access::Read(offset, answer)) => {
                self.read(offset, answer, entry, found);
            }
            Happening::Access(Access::Write(offset, value)) => {
                let is_fcr = offset == offsets::FCR;
                self.has_fifo_bits &= !is_fcr;
                self.is_behind_fcr = is_fcr;
                self.has_written_lcr = !is_fcr && (self.has_written_lcr || offset == offsets::LCR);
                self.replayer.write(offset, value);
            }
            _ => {}
        }
    }

    fn read(&mut self, offset: usize, answer: u8, entry: &Entry, found: &mut Vec<Found>) {
        let (line, times) = (entry.line, entry.times);
        let had_fifo_bits = self.has_fifo_bits;
        if offset == offsets::ISR {
            self.has_fifo_bits = answer & FIFO_BITS == FIFO_BITS;
        }
        let explains = self.explains(answer, had_fifo_bits);
        self.is_behind_fcr = false;
        let doubt = &mut self.doubt;
        let mut tell = |difference: Option<Difference>, times| {
            let (Some(difference), 1..) = (difference, times) else {
                return;
            };
            let kind = Kind::Difference(difference);
            let told = Found { line, kind, times };
            match explains {
                Explains::Yes if difference.rule == Rule::FifoBits => found.push(after_reset(told)),
                Explains::Later if difference.rule == Rule::FifoBits => {
                    found.extend(doubt.replace(told).map(after_reset));
                }
                _ => found.push(told),
            }
        };
        // Most reads are not repeated.
        if times == 1 {
            tell(self.replayer.read(offset, answer), 1);
            return;
        }
        let reported = self.replayer.reads(offset, answer, times);
        if reported.first == reported.others {
            tell(reported.first, times);
        } else {
            tell(reported.first, times.min(1));
            tell(reported.others, times.saturating_sub(1));
        }
    }

    // Returns whether the recording contradicts what the chip answers at an entry, and takes it down.
    fn contradictions(&mut self, entry: &Entry, found: &mut Vec<Found>) -> bool {
        let known = self.known;
        if !known.counts(entry) {
            return false;
        }
        let before = found.len();
        let timed = match &mut self.scale {
            Some(scale) => scale.scaled(entry),
            None => *entry,
        };
        self.audited.make_room(&known, entry);
        self.audited.step(&timed, |findings, times| {
            for &finding in findings.iter().flatten() {
                if let Some(finding) = known.adapted(finding) {
                    take_down(found, entry, Kind::Finding(finding), times);
                }
            }
        });
        found.len() > before
    }

    // Returns what is found at an entry. What the recording contradicts says more than that the
    // chip never returns it, so that comes first, and alone.
    fn step(&mut self, entry: &Entry, found: &mut Vec<Found>) {
        if let Happening::Access(access) = entry.happening {
            self.settle(access, found);
        }
        let is_contradicted = self.contradictions(entry, found);
        let before = found.len();
        self.differences(entry, found);
        if is_contradicted {
            found.truncate(before);
            self.doubt.take_if(|doubt| doubt.line == entry.line);
        }
    }
}

// A difference that a reset explains, which the log would have to have.
fn after_reset(found: Found) -> Found {
    let kind = match found.kind {
        Kind::Difference(difference) => Kind::AfterReset(difference),
        kind => kind,
    };
    Found { kind, ..found }
}

/// One of the judges, by itself.
pub struct OneJudge(Which);

// A judge is as large as what it knows.
enum Which {
    Driver(Box<DriverJudge>),
    Chip(Box<ChipJudge>),
}

impl OneJudge {
    /// Returns a judge that knows this, and was given nothing.
    pub fn new(judge: Judge, known: &Known) -> Self {
        OneJudge(match judge {
            Judge::Audit => Which::Driver(Box::new(DriverJudge::new(*known))),
            Judge::Replay => Which::Chip(Box::new(ChipJudge::new(known))),
        })
    }

    /// Begins anew: the chip was reset.
    pub fn reset(&mut self) {
        match &mut self.0 {
            Which::Driver(driver) => driver.reset(),
            Which::Chip(chip) => {
                // Each entry has left nothing in doubt.
                chip.reset();
            }
        }
    }

    /// Goes on by an entry, and takes down what is found at it.
    pub fn step(&mut self, entry: &Entry, found: &mut Vec<Found>) {
        match &mut self.0 {
            Which::Driver(driver) => {
                driver.step(entry, |kind, times| take_down(found, entry, kind, times));
            }
            Which::Chip(chip) => {
                chip.step(entry, found);
                // Whoever looks for it wants the entry at which it is seen, whatever what follows says of it.
                found.extend(chip.end());
            }
        }
    }
}

/// A recording that was judged to its end.
#[derive(Clone, Copy, Debug, PartialEq, Eq)]
pub struct Judged {
    /// How many lines it has.
    pub lines: u64,
    /// What it has beside accesses.
    pub has: Has,
}

// Reads a recording to its end, and tells what is found at each entry.
// It is one function for both judges, so that what reads a line is part of it. Without an access nothing was judged, which is not to
// look as if nothing was found.
fn judge_entries(
    reader: impl Read,
    tell: &mut impl FnMut(&Found) -> io::Result<()>,
    step: &mut dyn FnMut(&Next, &mut Vec<Found>),
) -> Result<Judged, Stop> {
    let resets = Resets::default();
    let mut entries = Entries::new(reader, &resets)?;
    let mut has_access = false;
    let mut has = Has::default();
    let mut found = Vec::new();
    // More than are found at an entry.
    found.try_reserve(64).map_err(|_| Stop::OutOfMemory)?;
    while let Some(next) = entries.read_next()? {
        match &next {
            Next::Entry(entry) => {
                has_access |= matches!(entry.happening, Happening::Access(_));
                has.step(entry);
            }
            Next::Reset(_) => has.resets = true,
        }
        step(&next, &mut found);
        for found in found.drain(..) {
            tell(&found).map_err(Stop::Output)?;
        }
    }
    if has_access {
        let lines = entries.lines();
        Ok(Judged { lines, has })
    } else {
        Err(Stop::NoAccess)
    }
}

/// Returns whether something is to be said of an entry by itself: it is an access, or a character that arrives. A log without any is
/// refused by each command, since an empty answer looks as if nothing were wrong.
pub fn is_of_use(happening: Happening) -> bool {
    matches!(happening, Happening::Access(_) | Happening::Arrive { .. })
}

/// Reads a recording to its end, and hands on each entry and each reset. Returns how many lines it has.
///
/// # Errors
///
/// Why the recording was not read to its end, or what the entry is handed to returns.
pub fn each_entry(
    reader: impl Read,
    mut act: impl FnMut(&Next) -> Result<(), Stop>,
) -> Result<u64, Stop> {
    let resets = Resets::default();
    let mut entries = Entries::new(reader, &resets)?;
    let mut has_access = false;
    while let Some(next) = entries.read_next()? {
        has_access |= matches!(&next, Next::Entry(entry) if is_of_use(entry.happening));
        act(&next)?;
    }
    if has_access {
        Ok(entries.lines())
    } else {
        Err(Stop::NoAccess)
    }
}

/// Judges a recording, and tells what is found as soon as it is found. Returns how many lines it has, and what is in them.
///
/// # Errors
///
/// Why the recording was not read to its end.
pub fn judge_recording(
    judge: Judge,
    known: &Known,
    reader: impl Read,
    mut tell: impl FnMut(&Found) -> io::Result<()>,
) -> Result<Judged, Stop> {
    if judge == Judge::Replay {
        let mut chip = ChipJudge::new(known);
        let judged = judge_entries(reader, &mut tell, &mut |next, found| match next {
            Next::Entry(entry) => chip.step(entry, found),
            Next::Reset(_) => found.extend(chip.reset()),
        })?;
        if let Some(found) = chip.end() {
            tell(&found).map_err(Stop::Output)?;
        }
        return Ok(judged);
    }
    let mut driver = DriverJudge::new(*known);
    let judged = judge_entries(reader, &mut tell, &mut |next, found| match next {
        Next::Entry(entry) => {
            driver.step(entry, |kind, times| take_down(found, entry, kind, times));
        }
        Next::Reset(_) => driver.reset(),
    })?;
    for kind in driver.end() {
        let line = kind.line().unwrap_or(judged.lines);
        let times = 1;
        tell(&Found { line, kind, times }).map_err(Stop::Output)?;
    }
    Ok(judged)
}
