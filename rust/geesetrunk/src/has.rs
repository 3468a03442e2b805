//! What a log has beside accesses. What it does not have decides no finding.

use std::fmt;
use uart_judges::recording::{Entry, Happening};

/// What a log has, as far as it is read.
#[derive(Clone, Copy, Debug, Default, PartialEq, Eq)]
pub struct Has {
    /// Whether an entry has a time.
    pub times: bool,
    /// Whether an entry has a level of the interrupt line.
    pub levels: bool,
    /// Whether a character arrives.
    pub arrivals: bool,
    /// Whether the modem inputs change.
    pub inputs: bool,
    /// Whether the chip is reset.
    pub resets: bool,
}

impl Has {
    /// Goes on by an entry.
    pub fn step(&mut self, entry: &Entry) {
        self.times |= entry.time.is_some();
        self.levels |= entry.interrupt.is_some();
        match entry.happening {
            Happening::Arrive { .. } => self.arrivals = true,
            Happening::Lines(_) => self.inputs = true,
            Happening::Interrupt { .. } => self.levels = true,
            Happening::Access(_) => {}
        }
    }
}

/// Writes what the log has, as the end of `with ..`.
impl fmt::Display for Has {
    fn fmt(&self, f: &mut fmt::Formatter<'_>) -> fmt::Result {
        let names = [
            (self.times, "times"),
            (self.levels, "levels"),
            (self.arrivals, "arrivals"),
            (self.inputs, "modem inputs"),
            (self.resets, "resets"),
        ];
        let had: Vec<_> = names.iter().filter(|(has, _)| *has).collect();
        match &had[..] {
            [] => f.write_str("accesses alone"),
            [(_, only)] => f.write_str(only),
            [before @ .., (_, last)] => {
                let before: Vec<_> = before.iter().map(|(_, name)| *name).collect();
                write!(f, "{} and {last}", before.join(", "))
            }
        }
    }
}

#[cfg(test)]
mod tests {
    use super::*;
    use crate::heap;
    use uart_judges::recording::Recording;

    fn had(recording: &str) -> String {
        let mut has = Has::default();
        let mut reader = Recording::new(heap(), recording.as_bytes()).unwrap();
        while let Some(entry) = reader.next_entry().unwrap() {
            has.step(&entry);
        }
        has.to_string()
    }

    #[test]
    fn what_a_log_has_is_said() {
        assert_eq!(had("r 5 60\n"), "accesses alone");
        assert_eq!(had("r 5 60\nr 5 60 @7\n"), "times");
        assert_eq!(had("r 5 60 0 @7\n"), "times and levels");
        assert_eq!(had("i 1 @7\na 00 41\n"), "times, levels and arrivals");
    }
}
