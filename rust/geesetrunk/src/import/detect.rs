//! The kind of a log, by its lines.
//!
//! A line that is whole and exact in one form decides, and the project's own form is tried first. Words of a monitor's own have no form, so
//! they are only guessed, and only where most lines at the beginning fit.

use super::{Kind, csv, json, kvm, plain, qemu, sigrok, words};
use crate::text::counted;
use std::fmt;
use uart_judges::recording::{RecordingLine, line_in};

// How many lines are looked at for a guess.
const LOOKED_AT: usize = 20;

/// What a guess rests on.
#[derive(Clone, Copy, Debug, PartialEq, Eq)]
pub struct Guess {
    /// How many lines at the beginning are whole accesses in words.
    pub fitting: usize,
    /// How many lines were looked at.
    pub looked_at: usize,
}

impl fmt::Display for Guess {
    fn fmt(&self, f: &mut fmt::Formatter<'_>) -> fmt::Result {
        let lines = counted(self.looked_at as u64, "line");
        write!(f, "{} of its first {lines}", self.fitting)
    }
}

/// What the lines at the beginning of a log show.
#[derive(Clone, Copy, Debug, PartialEq, Eq)]
pub enum Shown {
    /// A line is exact in the form of this kind.
    Exact(Kind),
    /// No line is, and enough of them are accesses in words.
    Words(Guess),
    /// No line is, and some are accesses in words, but too few.
    Unsure(Guess),
    /// Nothing.
    Nothing,
}

/// Looks at the lines at the beginning of a log, one after the other, for what shows its kind.
#[derive(Debug)]
pub(super) struct Detector {
    guess: Guess,
    // ftrace writes this comment first, and may write much else before the first event of KVM.
    has_tracer: bool,
    exact: Option<Kind>,
}

// Returns whether this line of a recording says something. Another event of QEMU's log does not: any word with an underscore is one.
fn is_recorded(line: &[u8]) -> bool {
    let (_, rest) = plain::without_time(line);
    matches!(
        line_in(1, rest),
        Ok(RecordingLine::Entry(_) | RecordingLine::Again(_))
    )
}

// Returns whether a line is in a form.
type IsLine = fn(&[u8]) -> bool;

// Returns the kind in whose form a line is. The own form comes first: then no other is tried for the lines of a recording.
fn exact_kind_of(line: &[u8]) -> Option<Kind> {
    const OTHERS: [(Kind, IsLine); 5] = [
        (Kind::Kvm, kvm::is_line),
        (Kind::Memory, qemu::is_line),
        (Kind::Json, json::is_line),
        (Kind::Csv, csv::is_line),
        (Kind::Sigrok, sigrok::is_line),
    ];
    if is_recorded(line) {
        return Some(Kind::Recording);
    }
    let mut others = OTHERS.iter();
    others
        .find(|(_, is_line)| is_line(line))
        .map(|(kind, _)| *kind)
}

impl Detector {
    /// Returns one that has seen no line.
    pub(super) fn new() -> Self {
        Detector {
            guess: Guess {
                fitting: 0,
                looked_at: 0,
            },
            has_tracer: false,
            exact: None,
        }
    }

    /// Looks at the next line. Returns whether the kind is decided. A blank line and a comment never decide.
    pub(super) fn look_at(&mut self, line: &[u8]) -> bool {
        let line = line.trim_ascii_end();
        if line.is_empty() || line.starts_with(b"#") {
            self.has_tracer |= kvm::is_tracer(line);
            return false;
        }
        self.exact = exact_kind_of(line);
        if self.guess.looked_at < LOOKED_AT {
            self.guess.looked_at += 1;
            self.guess.fitting += usize::from(words::is_certain(line));
        }
        self.exact.is_some()
    }

    /// Returns what the lines so far show.
    pub(super) fn shown(&self) -> Shown {
        let Guess { fitting, looked_at } = self.guess;
        match self.exact {
            Some(kind) => Shown::Exact(kind),
            None if self.has_tracer => Shown::Exact(Kind::Kvm),
            None if fitting == 0 => Shown::Nothing,
            None if 2 * fitting >= looked_at => Shown::Words(self.guess),
            None => Shown::Unsure(self.guess),
        }
    }
}

#[cfg(test)]
mod tests {
    use super::*;

    fn shown(log: &str) -> Shown {
        let mut detector = Detector::new();
        let _ = log.lines().any(|line| detector.look_at(line.as_bytes()));
        detector.shown()
    }

    #[test]
    fn a_line_shows_its_kind() {
        for (line, kind) in [
            ("r 5 60", Kind::Recording),
            ("x 3", Kind::Recording),
            (
                "13@17.000125:serial_read read addr 0x05 val 0x60",
                Kind::Recording,
            ),
            (
                "2024-05-06T07:08:09Z serial_read addr 0x05 val 0x60",
                Kind::Recording,
            ),
            (
                "memory_region_ops_read cpu 0 mr 0x5 addr 0x3fd value 0x60 size 1",
                Kind::Memory,
            ),
            ("# tracer: nop", Kind::Kvm),
            (
                " qemu_x-13 [001] .. 10.1: kvm_pio: pio_write at 0x3f8 size 1 count 1 val 0x1b",
                Kind::Kvm,
            ),
            ("{\"op\":\"read\"}", Kind::Json),
            ("time,op,offset,value", Kind::Csv),
            ("name,type,start_time,duration,\"data\"", Kind::Csv),
            ("60-140 uart-1: 41", Kind::Sigrok),
        ] {
            assert_eq!(shown(line), Shown::Exact(kind), "{line}");
        }
        for line in [
            "",
            "# a comment",
            "hello",
            "chip 16550a 4 64",
            "kvm_run_exit cpu_index 0, reason 2",
        ] {
            assert_eq!(shown(line), Shown::Nothing, "{line}");
        }
    }

    #[test]
    fn a_comment_decides_nothing() {
        for comment in [
            "# read as it came in 5 60",
            "# write addr=0x3f8 val=0x41",
            "# time,op,offset,value",
            "# 10.1: kvm_pio: pio_write at 0x3f8 size 1 count 1 val 0x1b",
        ] {
            let log = format!("{comment}\nr 5 60\n");
            assert_eq!(shown(&log), Shown::Exact(Kind::Recording), "{log}");
        }
    }

    #[test]
    fn a_first_line_with_a_fault_is_no_other_language() {
        for first in [
            "R 5 6",
            "r 5 60 0 @99999999999999999999",
            "r 5 \x1b[2J\x07 60",
            "w 0x3 0x83",
        ] {
            let log = format!("{first}\nr 5 60\nw 0 41\n");
            assert_eq!(shown(&log), Shown::Exact(Kind::Recording), "{log}");
        }
    }

    #[test]
    fn words_are_guessed_with_a_margin() {
        let guess = |fitting, looked_at| Guess { fitting, looked_at };
        for (log, wanted) in [
            ("r 0x5 0x60", Shown::Words(guess(1, 1))),
            ("write addr=0x3f8 val=0x41", Shown::Words(guess(1, 1))),
            (
                "hello\nread addr=5 val=0x60\nbye\nwrite addr=0 val=41",
                Shown::Words(guess(2, 4)),
            ),
            (
                "hello\nread addr=5 val=0x60\nbye",
                Shown::Unsure(guess(1, 3)),
            ),
            ("sshd[33]: read error 5 from 60", Shown::Nothing),
            ("cron[44]: write failed 2 07", Shown::Nothing),
            ("R 5 6", Shown::Nothing),
        ] {
            assert_eq!(shown(log), wanted, "{log}");
        }
    }
}
