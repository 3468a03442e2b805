//! Moments as they are shown: polls that return the same again and again are shown once, with their
//! number.
//!
//! Moments come one after the other, and few of them are kept: so a wait with millions of polls takes
//! no more memory than a short one.

use crate::moments::Moment;
use std::collections::VecDeque;

// The most moments of a group that is shown once. A wait polls at most three registers in turn.
const MOST_OF_A_GROUP: usize = 4;

// The first moments that are kept: as many as two groups have.
const FIRST: usize = 2 * MOST_OF_A_GROUP;

/// The place of a moment in a group that happened several times in a row.
#[derive(Clone, Copy, Debug, PartialEq, Eq)]
pub enum Place {
    /// It is the whole group.
    Alone,
    /// It is the first of several.
    First,
    /// It is neither the first nor the last.
    Middle,
    /// It is the last of several.
    Last,
}

/// A moment, and how many times in a row its group happened.
#[derive(Clone, Copy, Debug, PartialEq)]
pub struct Shown {
    /// The moment, when it happened first.
    pub moment: Moment,
    /// Its place in the group.
    pub place: Place,
    /// How many times in a row the group happened.
    pub times: u64,
}

impl Place {
    // Returns the place of the moment with this index in a group of so many.
    fn of(index: usize, count: usize) -> Self {
        match (index == 0, index + 1 == count) {
            (true, true) => Place::Alone,
            (true, false) => Place::First,
            (false, true) => Place::Last,
            (false, false) => Place::Middle,
        }
    }
}

// Returns whether it is the same read again, with nothing else.
fn is_again(before: &Moment, now: &Moment) -> bool {
    before.happened.is_read_alone()
        && before.happened == now.happened
        && before.held == now.held
        && before.waiting == now.waiting
}

// How far the moments are the first few of them again and again.
#[derive(Clone, Copy, Debug)]
struct Run {
    // How many moments are repeated.
    period: usize,
    // How many moments are among these repetitions, counted from the first of all.
    matched: u64,
    // Whether the next moment may be among them too.
    is_open: bool,
}

impl Run {
    fn times(self) -> u64 {
        self.matched / self.period as u64
    }

    // Returns how many moments its whole repetitions have.
    fn len(self) -> u64 {
        self.times() * self.period as u64
    }
}

/// Merges moments that are repeated, and hands on what is to be shown.
#[derive(Debug)]
pub struct Merging {
    // The first moments that are not handed on so far, and behind them the last ones.
    kept: VecDeque<Moment>,
    // How many there are, and how many of these are not kept, since they are repetitions.
    count: u64,
    left_out: u64,
    runs: [Run; MOST_OF_A_GROUP],
}

const NO_RUNS: [Run; MOST_OF_A_GROUP] = {
    let mut runs = [Run {
        period: 0,
        matched: 0,
        is_open: true,
    }; MOST_OF_A_GROUP];
    let mut index = 0;
    while index < MOST_OF_A_GROUP {
        runs[index].period = index + 1;
        index += 1;
    }
    runs
};

impl Default for Merging {
    fn default() -> Self {
        Merging {
            kept: VecDeque::new(),
            count: 0,
            left_out: 0,
            runs: NO_RUNS,
        }
    }
}

impl Merging {
    /// Adds a moment, and hands on those for which it is clear how they are shown.
    ///
    /// # Errors
    ///
    /// The error of what they are handed to.
    pub fn push<E>(
        &mut self,
        moment: Moment,
        show: &mut impl FnMut(Shown) -> Result<(), E>,
    ) -> Result<(), E> {
        self.keep(moment);
        if self.runs.iter().any(|run| run.is_open) {
            return Ok(());
        }
        self.hand_on(show)
    }

    /// Hands on all that is left.
    ///
    /// # Errors
    ///
    /// The error of what they are handed to.
    pub fn finish<E>(&mut self, show: &mut impl FnMut(Shown) -> Result<(), E>) -> Result<(), E> {
        while self.count > 0 {
            self.hand_on(show)?;
        }
        Ok(())
    }

    fn keep(&mut self, moment: Moment) {
        for run in self.runs.iter_mut().filter(|run| run.is_open) {
            // The first moments of a run are compared with themselves: only reads are repeated.
            let place = (self.count % run.period as u64) as usize;
            let before = if self.count < run.period as u64 {
                &moment
            } else {
                &self.kept[place]
            };
            run.is_open = is_again(before, &moment);
            run.matched += u64::from(run.is_open);
        }
        self.kept.push_back(moment);
        self.count += 1;
        if self.kept.len() > FIRST + MOST_OF_A_GROUP {
            self.kept.remove(FIRST);
            self.left_out += 1;
        }
    }

    // Returns the group at the front that has the most moments, and of these the shortest: how many
    // moments it has, and how many times it happens.
    fn longest(&self) -> (usize, u64) {
        let alone = Run {
            period: 1,
            matched: 1,
            is_open: false,
        };
        let longest = self.runs.iter().fold(alone, |longest, &run| {
            if run.times() > 1 && run.len() > longest.len() {
                run
            } else {
                longest
            }
        });
        (longest.period, longest.times())
    }

    // Hands on the group at the front, and takes the moments behind its repetitions again.
    fn hand_on<E>(&mut self, show: &mut impl FnMut(Shown) -> Result<(), E>) -> Result<(), E> {
        let (count, times) = self.longest();
        for (index, &moment) in self.kept.iter().take(count).enumerate() {
            let place = Place::of(index, count);
            show(Shown {
                moment,
                place,
                times,
            })?;
        }
        // Behind the repetitions of the longest run are less moments than the last ones that are
        // kept. So all that is left out is among these repetitions.
        let done = count as u64 * times - self.left_out;
        let rest: Vec<_> = self.kept.iter().skip(done as usize).copied().collect();
        *self = Merging::default();
        rest.into_iter()
            .try_for_each(|moment| self.push(moment, show))
    }
}

/// Returns moments as they are shown.
pub fn merged(moments: &[Moment]) -> Vec<Shown> {
    let mut all = Vec::new();
    let mut merging = Merging::default();
    let mut show = |shown| -> Result<(), std::convert::Infallible> {
        all.push(shown);
        Ok(())
    };
    for &moment in moments {
        let Ok(()) = merging.push(moment, &mut show);
    }
    let Ok(()) = merging.finish(&mut show);
    all
}

#[cfg(test)]
mod tests {
    use super::*;
    use crate::moments::{Happened, Seen};
    use uart_spec::access::Access;

    // A moment at which a letter is read. For `A` a byte is sent besides, `h` is an `a` while a byte
    // is held, and `w` one while a byte waits.
    fn moment(time: u64, letter: u8) -> Moment {
        let read = match letter {
            b'A' | b'h' | b'w' => b'a',
            _ => letter,
        };
        let access = Access::Read(5, read);
        let register = "LSR";
        Moment {
            time,
            happened: Happened {
                access: Some(Seen { access, register }),
                sent: (letter == b'A').then_some(0),
                ..Happened::default()
            },
            held: usize::from(letter == b'h'),
            waiting: usize::from(letter == b'w'),
        }
    }

    fn moments(letters: &str) -> Vec<Moment> {
        let letters = letters.bytes().enumerate();
        letters
            .map(|(time, letter)| moment(time as u64, letter))
            .collect()
    }

    // The definition: of the groups at the front the one with the most moments, and then the rest.
    fn by_definition(moments: &[Moment]) -> Vec<Shown> {
        if moments.is_empty() {
            return Vec::new();
        }
        let (mut count, mut times) = (1, 1);
        for other in 1..=MOST_OF_A_GROUP.min(moments.len()) {
            let group = &moments[..other];
            let is_repeated = |next: &&[Moment]| {
                next.len() == other && group.iter().zip(*next).all(|(a, b)| is_again(a, b))
            };
            let found = moments.chunks(other).take_while(is_repeated).count();
            if found > 1 && other * found > count * times {
                (count, times) = (other, found);
            }
        }
        let group = moments.iter().take(count).enumerate();
        let shown = group.map(|(index, &moment)| Shown {
            moment,
            place: Place::of(index, count),
            times: times as u64,
        });
        shown
            .chain(by_definition(&moments[count * times..]))
            .collect()
    }

    #[test]
    fn polls_in_turn_are_a_group() {
        let shown = merged(&moments("abababX"));
        let rows: Vec<_> = shown
            .iter()
            .map(|shown| (shown.place, shown.times))
            .collect();
        assert_eq!(
            rows,
            [(Place::First, 3), (Place::Last, 3), (Place::Alone, 1)]
        );
    }

    #[test]
    fn a_poll_while_something_else_moves_is_another() {
        for letters in ["aA", "ah", "aw", "AA"] {
            let shown = merged(&moments(letters));
            assert!(shown.iter().all(|shown| shown.times == 1), "{letters}");
        }
        assert_eq!(merged(&moments("hh"))[0].times, 2);
    }

    #[test]
    fn what_is_shown_is_what_the_definition_says() {
        let mut state = 7u32;
        let mut next = |most: u32| {
            state = state.wrapping_mul(1_664_525).wrapping_add(1_013_904_223);
            (state >> 16) % most
        };
        for _ in 0..3_000 {
            // Parts that are repeated, as waits are.
            let mut letters = String::new();
            for _ in 0..next(5) {
                let count = 1 + next(5) as usize;
                let part: String = (0..count)
                    .map(|_| ["a", "b", "c", "A", "h", "w"][next(6) as usize])
                    .collect();
                letters += &part.repeat(1 + next(9) as usize);
            }
            let moments = moments(&letters);
            assert_eq!(merged(&moments), by_definition(&moments), "{letters}");
        }
    }

    #[test]
    fn a_long_wait_keeps_few_moments() {
        let mut merging = Merging::default();
        let mut show = |_| -> Result<(), ()> { Err(()) };
        for time in 0..1_000_000 {
            merging
                .push(moment(time, b"abc"[(time % 3) as usize]), &mut show)
                .unwrap();
        }
        assert!(merging.kept.len() <= FIRST + MOST_OF_A_GROUP);
        assert_eq!(merging.longest(), (3, 333_333));
    }
}
