//! What the user knows of a chip, and a recording does not show.

use std::num::NonZeroU64;
use uart_chip::Chip;
use uart_judges::audit::{Auditor, Finding, Setup};
use uart_judges::recording::{Entry, Happening};
use uart_language::fields::ChipKind;
use uart_spec::access::Access;
use uart_spec::registers::offsets;
use uart_spec::{FIFO_SIZE, FifoSize};

/// The clock at which the judges take a divisor, in hertz.
pub const USUAL_CLOCK: u64 = 1_843_200;

/// How many periods of the clock a bit takes at divisor 1.
const PERIODS: u64 = 16;

/// The most bytes of a FIFO.
pub const MOST_FIFO: u16 = 256;

/// The FIFOs of a chip, where the recording begins.
#[derive(Clone, Copy, Debug, PartialEq, Eq)]
pub enum Fifo {
    /// They are off.
    Off,
    /// They are on, and have room for so many bytes.
    Bytes(u16),
}

/// What is known of a chip.
#[derive(Clone, Copy, Debug, PartialEq, Eq)]
pub struct Known {
    /// The rate of its clock, in hertz.
    pub clock: Option<NonZeroU64>,
    /// The divisor at the beginning.
    pub divisor: Option<u16>,
    /// The FIFOs at the beginning.
    pub fifo: Option<Fifo>,
    /// The chip.
    pub chip: ChipKind,
}

impl Default for Known {
    fn default() -> Self {
        Known {
            clock: None,
            divisor: None,
            fifo: None,
            chip: ChipKind {
                model: Chip::Uart16550A,
                size: FifoSize::Sixteen,
                auto_flow: false,
            },
        }
    }
}

impl Known {
    /// Returns a judge of a driver that knows this of a chip that was reset: not what was set up at the beginning.
    pub fn auditor_after_reset(&self) -> Auditor {
        let mut auditor = Auditor::new();
        let has_none = self.chip.model == Chip::Uart16450 || self.fifo == Some(Fifo::Off);
        auditor.setup.has_fifo = has_none.then_some(false);
        auditor
    }

    /// Returns a judge of a driver that knows this, and was given nothing.
    pub fn auditor(&self) -> Auditor {
        let mut auditor = self.auditor_after_reset();
        if let Some(divisor) = self.divisor {
            let [low, high] = divisor.to_le_bytes();
            auditor.setup.divisor.low = Some(low);
            auditor.setup.divisor.high = Some(high);
        }
        if let (Chip::Uart16550A, Some(Fifo::Bytes(_))) = (self.chip.model, self.fifo) {
            auditor.setup.has_fifo = Some(true);
        }
        auditor
    }

    /// Returns whether an entry says something about the chip. A 16450 has no FCR, and ignores what is written there.
    pub fn counts(&self, entry: &Entry) -> bool {
        let is_fcr = matches!(
            entry.happening,
            Happening::Access(Access::Write(offsets::FCR, _))
        );
        self.chip.model == Chip::Uart16550A || !is_fcr
    }

    /// Returns how many bytes a FIFO that is on has room for.
    pub fn fifo_room(&self) -> u16 {
        match self.fifo {
            Some(Fifo::Bytes(size)) => size,
            // At most `MOST_FIFO`.
            _ => self.chip.size.characters() as u16,
        }
    }

    /// Returns a finding as it is with FIFOs of this size, or `None` if it is none then. The judges take them to have 16 bytes.
    pub fn adapted(&self, finding: Finding) -> Option<Finding> {
        let size = self.fifo_room();
        match finding {
            Finding::SentBeyondRoom { sent, room } if usize::from(room) == FIFO_SIZE => {
                (sent > size.into()).then_some(Finding::SentBeyondRoom {
                    sent,
                    room: size.min(u8::MAX.into()) as u8,
                })
            }
            other => Some(other),
        }
    }

    /// Returns the text of a set-up, with the rate at the known clock.
    pub fn setup_text(&self, setup: &Setup) -> String {
        let text = setup.to_string();
        let (Some(clock), Some(low), Some(high)) =
            (self.clock, setup.divisor.low, setup.divisor.high)
        else {
            return text;
        };
        let divisor = u64::from(u16::from_le_bytes([low, high]));
        let Some((before, after)) = text.split_once(" (").and_then(|(before, rest)| {
            let (_, after) = rest.split_once(')')?;
            Some((before, after))
        }) else {
            return text;
        };
        let rate = clock.get() / (PERIODS * divisor.max(1));
        format!("{before} ({rate} baud at {clock} Hz){after}")
    }
}

/// The time of a recording, in which a character takes as long at the usual clock as it takes at the known one.
#[derive(Clone, Copy, Debug)]
pub struct Scale {
    clock: NonZeroU64,
    first: Option<u64>,
}

impl Scale {
    /// Returns the scale of a clock.
    pub fn new(clock: NonZeroU64) -> Self {
        Scale { clock, first: None }
    }

    /// Returns an entry with its time in that scale.
    pub fn scaled(&mut self, entry: &Entry) -> Entry {
        let time = entry.time.map(|time| {
            let first = *self.first.get_or_insert(time);
            let passed = u128::from(time.saturating_sub(first));
            let scaled = passed * u128::from(self.clock.get()) / u128::from(USUAL_CLOCK);
            u64::try_from(scaled).unwrap_or(u64::MAX)
        });
        Entry { time, ..*entry }
    }
}

#[cfg(test)]
mod tests {
    use super::*;

    #[test]
    fn a_rate_is_that_of_the_clock() {
        let known = Known {
            clock: NonZeroU64::new(48_000_000),
            divisor: Some(26),
            ..Known::default()
        };
        let text = known.setup_text(&known.auditor().setup);
        assert_eq!(
            text,
            "divisor 26 (115384 baud at 48000000 Hz), frame not seen, FIFOs not seen, interrupts not seen"
        );
        let text = Known::default().setup_text(&Auditor::new().setup);
        assert!(text.starts_with("divisor not seen"));
        let zero = Known {
            divisor: Some(0),
            ..known
        };
        assert!(
            zero.setup_text(&zero.auditor().setup)
                .starts_with("divisor 0,")
        );
    }

    #[test]
    fn a_larger_fifo_has_more_room() {
        let known = Known {
            fifo: Some(Fifo::Bytes(64)),
            ..Known::default()
        };
        let beyond = |sent, room| Finding::SentBeyondRoom { sent, room };
        assert_eq!(known.adapted(beyond(64, 16)), None);
        assert_eq!(known.adapted(beyond(65, 16)), Some(beyond(65, 64)));
        assert_eq!(known.adapted(beyond(2, 1)), Some(beyond(2, 1)));
        let named = |size| Known {
            chip: ChipKind {
                model: Chip::Uart16550A,
                size,
                auto_flow: false,
            },
            ..Known::default()
        };
        let known = named(FifoSize::SixtyFour);
        assert_eq!(known.adapted(beyond(64, 16)), None);
        assert_eq!(known.adapted(beyond(65, 16)), Some(beyond(65, 64)));
        let known = named(FifoSize::Sixteen);
        assert_eq!(known.adapted(beyond(17, 16)), Some(beyond(17, 16)));
    }

    #[test]
    fn time_is_scaled_from_the_first_one_on() {
        let mut scale = Scale::new(NonZeroU64::new(2 * USUAL_CLOCK).unwrap());
        let entry = |time| Entry {
            happening: Happening::Interrupt { is_raised: true },
            times: 1,
            line: 1,
            time,
            interrupt: None,
        };
        assert_eq!(scale.scaled(&entry(Some(1_000))).time, Some(0));
        assert_eq!(scale.scaled(&entry(None)).time, None);
        assert_eq!(scale.scaled(&entry(Some(1_500))).time, Some(1_000));
    }
}
