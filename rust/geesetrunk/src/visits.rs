//! How late the handler of a recording reads what waits, as far as the recording tells.
//!
//! It is counted from the arrival with which as many characters wait as the trigger level. In a recording without arrivals it is counted
//! from the rise of the interrupt line, if ISR shows received data then: the line may have risen for something else before.

use crate::has::Has;
use crate::known::{Known, USUAL_CLOCK};
use crate::lateness::SIZES;
use std::fmt;
use std::num::NonZeroU64;
use uart_judges::audit::{Action, Setup};
use uart_judges::recording::{Entry, Happening};
use uart_spec::registers::{FCR, FifoTriggerLevel, ISR, InterruptType, LCR, LSR, MCR};
use uart_spec::{BaudRate, Config, FifoSize};

const SECOND: u128 = 1_000_000_000;

/// What a time is counted from.
#[derive(Clone, Copy, Debug, PartialEq, Eq)]
pub enum Mark {
    /// As many characters waited as the trigger level.
    Level,
    /// The interrupt line rose.
    Rise,
}

/// Why a recording does not tell how late it was, or how late it might have been.
#[derive(Clone, Copy, Debug, PartialEq, Eq)]
pub enum Unknown {
    /// It has no times.
    Times,
    /// It has neither arrivals nor changes of the interrupt line. A level at an access does not tell since when it is there.
    Marks,
    /// What came before is not in it.
    Beginning,
    /// The divisor was not seen, or it is zero.
    Divisor,
    /// The frame was not seen.
    Frame,
    /// It was not seen whether the FIFOs are on, or at which trigger level.
    Trigger,
    /// The levels of FIFOs of this size are not known.
    Size,
}

/// How late a character was read that waited.
#[derive(Clone, Copy, Debug, PartialEq, Eq)]
pub struct Lateness {
    /// What it is counted from.
    pub mark: Mark,
    /// The line of that.
    pub since: u64,
    /// How many nanoseconds have passed since, less the time of a character for each one that was read.
    pub late: u64,
    /// How many may pass, so that no character is lost.
    pub allowed: Result<u64, Unknown>,
}

/// What an entry shows.
#[derive(Clone, Copy, Debug, Default, PartialEq, Eq)]
pub struct Shown {
    /// How late a character is that it reads.
    pub read: Option<Lateness>,
    /// How late nobody has read, if LSR shows here that a character was lost.
    pub overrun: Option<Result<Lateness, Unknown>>,
}

impl Mark {
    fn text(self) -> &'static str {
        match self {
            Mark::Level => "as many characters waited as the trigger level",
            Mark::Rise => "the interrupt line was up",
        }
    }
}

impl fmt::Display for Unknown {
    fn fmt(&self, f: &mut fmt::Formatter<'_>) -> fmt::Result {
        f.write_str(match self {
            Unknown::Times => "this log has no times",
            Unknown::Marks => "this log has neither arrivals nor changes of the interrupt line",
            Unknown::Beginning => "what came before is not in this log",
            Unknown::Divisor => "the divisor was not seen, which --divisor says",
            Unknown::Frame => "the frame in LCR was not seen",
            Unknown::Trigger => "the trigger level in FCR was not seen",
            Unknown::Size => "the trigger levels of FIFOs of this size are not known",
        })
    }
}

// Writes a time in a unit that fits.
struct Time(u64);

impl fmt::Display for Time {
    fn fmt(&self, f: &mut fmt::Formatter<'_>) -> fmt::Result {
        let (unit, name) = match self.0 {
            nanoseconds @ 0..1_000 => return write!(f, "{nanoseconds} ns"),
            1_000..10_000_000 => (1_000, "us"),
            _ => (1_000_000, "ms"),
        };
        let tenths = self.0.saturating_add(unit / 20) / (unit / 10);
        write!(f, "{}.{} {name}", tenths / 10, tenths % 10)
    }
}

impl Lateness {
    /// Returns how many nanoseconds it is too late, if it is known to be.
    #[must_use]
    pub fn excess(&self) -> Option<u64> {
        self.allowed
            .ok()
            .and_then(|allowed| self.late.checked_sub(allowed))
            .filter(|excess| *excess > 0)
    }

    // Returns the order of several: the one with less time left is later, and one of which that is not known is before these.
    fn key(&self) -> (bool, i128) {
        let allowed = self.allowed.map_or(0, i128::from);
        (self.allowed.is_ok(), i128::from(self.late) - allowed)
    }

    /// Returns the later one of two reads, each with its line; the first, if they are equally late.
    #[must_use]
    pub fn later(first: Option<(Self, u64)>, second: Option<(Self, u64)>) -> Option<(Self, u64)> {
        match (first, second) {
            (Some(first), Some(second)) if second.0.key() > first.0.key() => Some(second),
            (first, second) => first.or(second),
        }
    }

    // Returns how late it is, beside what is allowed.
    fn rest(&self) -> String {
        let late = Time(self.late);
        match (self.allowed, self.excess()) {
            (Ok(allowed), excess) => {
                let rest = Time(excess.unwrap_or(allowed.saturating_sub(self.late)));
                let more = if excess.is_some() { "more" } else { "less" };
                let allowed = Time(allowed);
                format!("{late}, {rest} {more} than the {allowed} in which nothing is lost")
            }
            (Err(cause), _) => {
                format!("{late}, and in how much nothing is lost is not known: {cause}")
            }
        }
    }
}

/// Writes when it began, and what was left.
impl fmt::Display for Lateness {
    fn fmt(&self, f: &mut fmt::Formatter<'_>) -> fmt::Result {
        let (mark, line) = (self.mark.text(), self.since);
        write!(f, "{mark} since line {line}, for {}", self.rest())
    }
}

/// Returns what is to be said of a character that was lost.
#[must_use]
pub fn overrun_text(overrun: &Result<Lateness, Unknown>) -> String {
    let lost = "LSR shows that a character was lost (bit 1): the receiver was full";
    match overrun {
        Err(cause) => format!("{lost}. How late the handler was is not known: {cause}"),
        Ok(lateness) if lateness.excess().is_some() => format!(
            "{lost}, since the handler came too late: {lateness}. Keep interrupts off for less time, or take a lower trigger level: \
             geesetrunk budget says which"
        ),
        Ok(lateness) if lateness.allowed.is_ok() => format!(
            "{lost}, and not since the handler came too late here: {lateness}. It left what waited unread before, or characters came \
             faster than they can at this rate"
        ),
        Ok(lateness) => format!("{lost}: {lateness}"),
    }
}

// How long a character takes, how long the handler may be late, in nanoseconds, and how many characters the level is.
#[derive(Clone, Copy, Debug)]
struct Pace {
    character: u64,
    allowed: u64,
}

// A stretch of time in which as many characters wait as the trigger level, or the line is up.
#[derive(Clone, Copy, Debug)]
struct Stretch {
    mark: Mark,
    line: u64,
    time: u64,
    given_back: u64,
    // Whether it is known to be for received data.
    is_of_data: bool,
}

/// Follows a recording, and tells how late its handler reads. It does not grow.
#[derive(Clone, Copy, Debug)]
pub struct Visits {
    known: Known,
    // The size of its FIFOs, if one has levels that are known.
    size: Option<FifoSize>,
    is_open: Option<bool>,
    has: Has,
    // Whether the interrupt line changed without an access.
    has_changes: bool,
    // Why no trigger level was known so far, and whether it was known how many characters wait.
    lack_of_level: Option<Unknown>,
    has_counted: bool,
    // How many characters wait, if the recording tells.
    waiting: Option<u64>,
    level: Option<bool>,
    stretch: Option<Stretch>,
    // How late it was when a character found no room, until LSR tells it; without arrivals, how late the first read was while the
    // line is up.
    dropped: Option<Lateness>,
}

impl Visits {
    /// Returns one that knows this of the chip, and was given nothing.
    #[must_use]
    pub fn new(known: Known) -> Self {
        let room = usize::from(known.fifo_room());
        Visits {
            known,
            size: SIZES.into_iter().find(|size| size.characters() == room),
            is_open: None,
            has: Has::default(),
            has_changes: false,
            lack_of_level: Some(Unknown::Trigger),
            has_counted: false,
            waiting: None,
            level: None,
            stretch: None,
            dropped: None,
        }
    }

    /// Returns why it cannot be told how late the handler was, as far as the recording is read.
    #[must_use]
    pub fn lack(&self) -> Option<Unknown> {
        match (self.has.times, self.has.arrivals, self.has_changes) {
            (false, _, _) => Some(Unknown::Times),
            (_, false, false) => Some(Unknown::Marks),
            (_, false, true) => None,
            (_, true, _) => {
                let begins_late = (!self.has_counted).then_some(Unknown::Beginning);
                self.lack_of_level.or(begins_late)
            }
        }
    }

    /// Goes on by an entry, and returns what it shows. The set-up is that behind it, and the recording has this up to it.
    pub fn step(&mut self, entry: &Entry, setup: &Setup, has: Has) -> Shown {
        let action = Action::new(self.is_open, entry.happening);
        self.is_open = setup.is_open;
        self.has = has;
        self.has_changes |= matches!(entry.happening, Happening::Interrupt { .. });
        if setup
            .modem
            .is_some_and(|modem| modem.contains(MCR::LOOP_BACK))
        {
            // What is sent comes back, and nothing arrives.
            self.forget();
            return Shown::default();
        }
        let shown = match action {
            Action::Arrives(..) => {
                self.arrive(entry, setup);
                Shown::default()
            }
            Action::Receives(_) => Shown {
                read: self.read(entry, setup),
                overrun: None,
            },
            Action::LooksAtLine(lsr) => Shown {
                read: None,
                overrun: self.look(lsr, entry, setup),
            },
            action => {
                self.follow(action);
                Shown::default()
            }
        };
        if has.arrivals {
            self.at_level(entry, setup);
        } else {
            self.at_line(entry);
        }
        shown
    }

    fn forget(&mut self) {
        (self.waiting, self.stretch, self.dropped) = (None, None, None);
    }

    // Follows what changes how many characters wait, or tells what the line is up for.
    fn follow(&mut self, action: Action) {
        match action {
            Action::MayReceive => self.forget(),
            Action::ControlsFifo(fcr)
                if fcr.contains(FCR::RX_FIFO_RESET) || !fcr.contains(FCR::FIFO_ENABLE) =>
            {
                (self.waiting, self.stretch) = (Some(0), None);
            }
            Action::IdentifiesInterrupt(isr) if !self.has.arrivals => self.identify(isr),
            _ => {}
        }
    }

    // A line error is told before received data. For anything else the line was up for that.
    fn identify(&mut self, isr: ISR) {
        let Some(stretch) = &mut self.stretch else {
            return;
        };
        match isr.interrupt_type() {
            Some(InterruptType::ReceivedDataReady) => stretch.is_of_data = true,
            Some(InterruptType::ReceiverLineStatus) => {}
            _ => self.stretch = None,
        }
    }

    // Returns how many characters the receiver has room for.
    fn room(&self, setup: &Setup) -> Option<u64> {
        match setup.has_fifo? {
            true => Some(self.known.fifo_room().into()),
            false => Some(1),
        }
    }

    fn arrive(&mut self, entry: &Entry, setup: &Setup) {
        // From the first arrival on the line tells nothing that arrivals do not.
        self.stretch = self.stretch.filter(|stretch| stretch.mark == Mark::Level);
        let room = self.room(setup);
        if self.waiting.is_some() && self.waiting == room {
            self.dropped = self.lateness(entry, setup).or(self.dropped);
        } else {
            self.waiting = self.waiting.map(|waiting| waiting + 1);
        }
    }

    fn read(&mut self, entry: &Entry, setup: &Setup) -> Option<Lateness> {
        self.waiting = self
            .waiting
            .map(|waiting| waiting.saturating_sub(entry.times));
        let stretch = self.stretch.filter(|stretch| stretch.is_of_data)?;
        let lateness = self.lateness(entry, setup);
        if stretch.mark == Mark::Rise {
            // What waits behind it is not known.
            self.stretch = None;
            self.dropped = lateness;
        } else if let Ok(pace) = self.pace(setup) {
            let given_back = pace.character.saturating_mul(entry.times);
            let given_back = stretch.given_back.saturating_add(given_back);
            self.stretch = Some(Stretch {
                given_back,
                ..stretch
            });
        }
        lateness
    }

    fn look(
        &mut self,
        lsr: LSR,
        entry: &Entry,
        setup: &Setup,
    ) -> Option<Result<Lateness, Unknown>> {
        let overrun = lsr.contains(LSR::OVERRUN_ERROR).then(|| {
            // It may be told behind a read, which has given back time.
            let found = [self.dropped.take(), self.lateness(entry, setup)];
            let latest = found.into_iter().flatten().max_by_key(Lateness::key);
            latest.ok_or(self.lack().unwrap_or(Unknown::Beginning))
        });
        if !lsr.contains(LSR::DATA_READY) {
            self.waiting = Some(0);
        }
        overrun
    }

    // Returns how late it is at an entry.
    fn lateness(&self, entry: &Entry, setup: &Setup) -> Option<Lateness> {
        let stretch = self.stretch?;
        let passed = entry.time?.saturating_sub(stretch.time);
        Some(Lateness {
            mark: stretch.mark,
            since: stretch.line,
            late: passed.saturating_sub(stretch.given_back),
            allowed: self.pace(setup).map(|pace| pace.allowed),
        })
    }

    // Begins or ends a stretch by how many characters wait.
    fn at_level(&mut self, entry: &Entry, setup: &Setup) {
        let level = self
            .fifo(setup)
            .map(|(level, size)| level.map_or(1, |level| level.characters(size)) as u64);
        self.lack_of_level = self.lack_of_level.and(level.err());
        self.has_counted |= self.waiting.is_some();
        let is_reached = level.is_ok_and(|level| self.waiting >= Some(level));
        if !is_reached {
            self.stretch = None;
        } else if let (None, Some(time)) = (self.stretch, entry.time) {
            self.stretch = Some(Stretch {
                mark: Mark::Level,
                line: entry.line,
                time,
                given_back: 0,
                is_of_data: true,
            });
        }
    }

    // Begins or ends a stretch by the interrupt line. The level behind an access does not tell when it rose.
    fn at_line(&mut self, entry: &Entry) {
        let rises = match entry.happening {
            Happening::Interrupt { is_raised } => Some(is_raised),
            _ => None,
        };
        let level = rises.or(entry.interrupt);
        match (level, rises, entry.time) {
            (Some(false), _, _) => (self.stretch, self.dropped) = (None, None),
            (_, Some(true), Some(time)) if self.level != Some(true) => {
                self.stretch = Some(Stretch {
                    mark: Mark::Rise,
                    line: entry.line,
                    time,
                    given_back: 0,
                    is_of_data: false,
                });
            }
            _ => {}
        }
        self.level = level.or(self.level);
    }

    // Returns the trigger level that is set, if the FIFOs are on, and their size.
    fn fifo(&self, setup: &Setup) -> Result<(Option<FifoTriggerLevel>, FifoSize), Unknown> {
        match (setup.has_fifo, setup.trigger) {
            (Some(false), _) => Ok((None, FifoSize::default())),
            (Some(true), Some(level)) => Ok((Some(level), self.size.ok_or(Unknown::Size)?)),
            _ => Err(Unknown::Trigger),
        }
    }

    // Returns in how much time nothing is lost, in a configuration with the divisor that is seen.
    fn pace(&self, setup: &Setup) -> Result<Pace, Unknown> {
        let (fifo_trigger_level, size) = self.fifo(setup)?;
        let (Some(low), Some(high)) = (setup.divisor.low, setup.divisor.high) else {
            return Err(Unknown::Divisor);
        };
        let lcr = setup.line.ok_or(Unknown::Frame)?;
        let divisor = u32::from(u16::from_le_bytes([low, high]));
        let config = Config {
            // At a baud rate of one the divisor is a sixteenth of the frequency.
            frequency: 16 * divisor,
            baud_rate: BaudRate::from_integer(1),
            data_bits: lcr.word_length(),
            parity: lcr.parity(),
            extra_stop_bits: lcr.contains(LCR::MORE_STOP_BITS),
            fifo_trigger_level,
            ..Config::DEFAULT
        };
        let clock = self.known.clock.map_or(USUAL_CLOCK, NonZeroU64::get);
        let nanoseconds = |clocks: u64| {
            let nanoseconds = u128::from(clocks) * SECOND / u128::from(clock);
            u64::try_from(nanoseconds).unwrap_or(u64::MAX)
        };
        let character = config.character_clocks();
        let allowed = config.handler_clocks(size);
        match (character, allowed) {
            (Ok(character), Ok(allowed)) => Ok(Pace {
                character: nanoseconds(character),
                allowed: nanoseconds(allowed),
            }),
            _ => Err(Unknown::Divisor),
        }
    }
}

#[cfg(test)]
mod tests {
    use super::*;
    use crate::heap;
    use crate::hints::Hint;
    use crate::judging::DriverJudge;
    use crate::kinds::Kind;
    use uart_judges::recording::Recording;

    // A set-up with 115,200 baud, 8 data bits, and the trigger level 14: a character takes 86.8 us. Then the receiver is empty.
    const SET_UP: &str = "w 3 83\nw 0 01\nw 1 00\nw 3 03\nw 2 c7\nr 5 60\n";

    // How late a read is, with its line.
    type Read = (u64, Lateness);
    // What is said of a character that was lost.
    type Lost = Result<Lateness, Unknown>;

    // Returns how late each read of a recording is, and what is said of characters that were lost.
    fn shown(known: Known, recording: &str) -> (Vec<Read>, Vec<Lost>) {
        let mut recording = Recording::new(heap(), recording.as_bytes()).unwrap();
        let mut judge = DriverJudge::new(known);
        let (mut reads, mut overruns) = (Vec::new(), Vec::new());
        while let Some(entry) = recording.next_entry().unwrap() {
            judge.step(&entry, |kind, _| {
                if let Kind::Hint(Hint::Overrun(overrun)) = kind {
                    overruns.push(overrun);
                }
            });
            reads.extend(judge.read().map(|lateness| (entry.line, lateness)));
        }
        (reads, overruns)
    }

    fn lateness(mark: Mark, since: u64, late: u64, allowed: u64) -> Lateness {
        Lateness {
            mark,
            since,
            late,
            allowed: Ok(allowed),
        }
    }

    // 13 characters in lines 7 to 19, and one more a microsecond later.
    fn fourteen() -> String {
        format!("{SET_UP}{}a 00 41 2 @1000\n", "a 00 41 2 @0\n".repeat(13))
    }

    #[test]
    fn lateness_is_counted_from_the_arrival_that_reaches_the_level() {
        let recording =
            fourteen() + "r 2 c4\nr 5 61 2 @200000\nr 0 41 2 @201000\nr 5 61\nr 0 41 2 @203000\n";
        let (reads, overruns) = shown(Known::default(), &recording);
        // Three characters of 160 clocks, less one. The second read is of what is below the level.
        assert_eq!(reads, [(23, lateness(Mark::Level, 20, 200_000, 259_874))]);
        assert_eq!(overruns, []);
        assert_eq!(reads[0].1.excess(), None);
        assert_eq!(
            reads[0].1.to_string(),
            "as many characters waited as the trigger level since line 20, for 200.0 us, 59.9 us less than the 259.9 us in which \
             nothing is lost"
        );
    }

    #[test]
    fn each_read_gives_back_the_time_of_a_character() {
        let recording =
            fourteen() + "a 00 42 2 @2000\nr 5 61\nr 0 41 2 @201000\nr 5 61\nr 0 41 2 @203000\n";
        let (reads, _) = shown(Known::default(), &recording);
        let late: Vec<_> = reads
            .iter()
            .map(|(line, lateness)| (*line, lateness.late))
            .collect();
        assert_eq!(late, [(23, 200_000), (25, 202_000 - 86_805)]);
    }

    #[test]
    fn a_drop_says_how_late_it_was() {
        let full = fourteen() + &"a 00 42 2 @2000\n".repeat(2);
        let recording = format!(
            "{full}a 00 43 2 @270000\nr 2 c6\nr 5 63 2 @300000\nr 5 61\nr 0 41 2 @302000\n"
        );
        let (reads, overruns) = shown(Known::default(), &recording);
        let here = lateness(Mark::Level, 20, 299_000, 259_874);
        assert_eq!(overruns, [Ok(here)]);
        assert_eq!(here.excess(), Some(39_126));
        assert_eq!(reads.len(), 1);
        assert!(overrun_text(&overruns[0]).contains(
            "since the handler came too late: as many characters waited as the trigger level since line 20, for 299.0 us, 39.1 us \
             more than the 259.9 us in which nothing is lost."
        ));
        // It is told at a later look: what is said is how late it was when the character came.
        let recording = format!(
            "{full}a 00 43 2 @270000\n{}r 5 63 2 @500000\n",
            "r 0 41 2 @300000\n".repeat(16)
        );
        let (_, overruns) = shown(Known::default(), &recording);
        assert_eq!(overruns, [Ok(lateness(Mark::Level, 20, 269_000, 259_874))]);
        // It is told behind the first read.
        let recording =
            format!("{full}r 5 61\na 00 43 2 @270000\nr 0 41 2 @270000\nr 5 63 2 @271000\n");
        let (_, overruns) = shown(Known::default(), &recording);
        assert_eq!(overruns, [Ok(lateness(Mark::Level, 20, 269_000, 259_874))]);
        // Characters came faster than they can.
        let recording = format!("{full}a 00 43 2 @3000\nr 2 c6\nr 5 63 2 @4000\n");
        let (_, overruns) = shown(Known::default(), &recording);
        assert!(
            overrun_text(&overruns[0]).contains(", and not since the handler came too late here: ")
        );
    }

    #[test]
    fn without_arrivals_it_is_counted_from_the_rise_of_the_line() {
        let served = |isr: &str| {
            format!(
                "{SET_UP}i 1 @5000\nr 2 {isr} 1 @300000\nr 5 61 1\nr 0 41 1 @301000\nr 5 61 1\nr 0 41 0 @303000\n"
            )
        };
        let (reads, _) = shown(Known::default(), &served("c4"));
        assert_eq!(reads, [(10, lateness(Mark::Rise, 7, 296_000, 259_874))]);
        // A timeout has fewer characters than the level.
        assert_eq!(shown(Known::default(), &served("cc")).0, []);
        let error = format!(
            "{SET_UP}i 1 @5000\nr 2 c6 1 @6000\nr 5 63 1 @7000\nr 2 c4 1\nr 5 61 1\nr 0 41 1 @9000\n"
        );
        let (reads, overruns) = shown(Known::default(), &error);
        assert_eq!(reads, [(12, lateness(Mark::Rise, 7, 4_000, 259_874))]);
        assert_eq!(overruns, [Ok(lateness(Mark::Rise, 7, 2_000, 259_874))]);
        let behind = format!(
            "{SET_UP}i 1 @5000\nr 2 c4 1 @6000\nr 5 61 1 @7000\nr 0 41 1 @400000\nr 5 63 1 @401000\n"
        );
        let (_, overruns) = shown(Known::default(), &behind);
        assert_eq!(overruns, [Ok(lateness(Mark::Rise, 7, 395_000, 259_874))]);
        // The level behind an access does not tell when the line rose.
        let (reads, overruns) = shown(
            Known::default(),
            &error.replace("i 1 @5000\n", "r 6 b0 1 @5000\n"),
        );
        assert_eq!((reads, overruns), (vec![], vec![Err(Unknown::Marks)]));
    }

    #[test]
    fn what_is_not_known_is_said() {
        let late = "r 2 c4\nr 5 63 2 @200000\nr 0 41 2 @201000\n";
        let of = |recording: &str| shown(Known::default(), recording);
        let (reads, overruns) = of(&(fourteen().replace("w 1 00\n", "r 7 00\n") + late));
        assert_eq!(reads[0].1.allowed, Err(Unknown::Divisor));
        assert_eq!(overruns[0].unwrap().allowed, Err(Unknown::Divisor));
        assert!(
            overrun_text(&overruns[0])
                .ends_with("is not known: the divisor was not seen, which --divisor says")
        );
        let (reads, overruns) = of(&(fourteen().replace("w 2 c7\n", "r 7 00\n") + late));
        assert_eq!((reads, overruns), (vec![], vec![Err(Unknown::Trigger)]));
        let (_, overruns) = of(&(fourteen()
            .replace("r 5 60\n", "r 7 00\n")
            .replace("w 2 c7", "w 2 c1")
            + late));
        assert_eq!(overruns, [Err(Unknown::Beginning)]);
        assert_eq!(of("r 5 63\n").1, [Err(Unknown::Times)]);
        assert_eq!(of("r 5 63 2 @5\n").1, [Err(Unknown::Marks)]);
        // In loopback nothing arrives.
        assert_eq!(of("w 4 10\nr 5 63 2 @5\n").1, []);
        let odd = Known {
            fifo: Some(crate::known::Fifo::Bytes(100)),
            ..Known::default()
        };
        assert_eq!(shown(odd, &(fourteen() + late)).1, [Err(Unknown::Size)]);
    }

    #[test]
    fn what_is_known_of_the_chip_counts() {
        let late = "r 2 c4\nr 5 61\nr 0 41 2 @201000\n";
        let of = |known: Known| shown(known, &(fourteen() + late)).0;
        let known = Known {
            clock: NonZeroU64::new(14_745_600),
            ..Known::default()
        };
        assert_eq!(of(known)[0].1.allowed, Ok(259_874 / 8));
        // At a FIFO of 64 the level is 56.
        let known = Known {
            fifo: Some(crate::known::Fifo::Bytes(64)),
            ..Known::default()
        };
        assert_eq!(of(known), []);
        // Without a FIFO each character is an interrupt, and the next one is lost.
        let off = SET_UP.replace("w 2 c7", "w 2 00") + "a 00 41 2 @1000\nr 5 61\nr 0 41 2 @50000\n";
        assert_eq!(
            shown(Known::default(), &off).0,
            [(9, lateness(Mark::Level, 7, 49_000, 86_263))]
        );
    }
}
