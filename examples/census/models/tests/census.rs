//! What the census tells of chips in software.

use census_models::{Census, Clock, DEVIATIONS, End, Model, RULES, Seen, model, take, take_by};

/// What DIFFERENCES.md says that the software chip leaves out, or does in its own way.
const LISTED: [&str; 3] = ["word-length", "divisor", "timeout-kept"];

fn census_of(name: &str) -> Census {
    take(&mut *model(name).unwrap())
}

#[test]
fn the_software_chip_differs_where_it_is_said_to() {
    for (name, differs) in [
        ("live", &LISTED[..]),
        ("live-64", &["word-length", "divisor", "send-fifo", "receive-fifo", "trigger-4", "trigger-8", "trigger-14", "timeout-kept"]),
        ("live-16450", &["word-length", "divisor"]),
        ("device", &["word-length", "clock", "temt", "thre-before-temt"]),
    ] {
        let census = census_of(name);
        assert_eq!(census.end, End::Done, "{name}");
        assert_eq!(census.names(Seen::Differs), differs, "{name}");
    }
}

#[test]
fn each_deviation_is_told_by_its_name() {
    let mut missed = Vec::new();
    for deviation in DEVIATIONS.iter() {
        let census = take(&mut *deviation.chip());
        let told: Vec<&str> = census.names(Seen::Differs).into_iter().filter(|name| !LISTED.contains(name)).collect();
        let expected: Vec<&str> = RULES.into_iter().filter(|name| deviation.rule == *name || deviation.also.contains(name)).collect();
        if census.end != End::Done || told != expected {
            missed.push(format!("{}: {}: expected {expected:?}, and was told {told:?}", deviation.rule, deviation.what));
        }
    }
    assert!(missed.is_empty(), "{}", missed.join("\n"));
}

#[test]
fn each_rule_has_a_deviation_that_it_tells() {
    let without: Vec<&str> = RULES.into_iter().filter(|rule| DEVIATIONS.iter().all(|one| one.rule != *rule)).collect();
    assert_eq!(without, LISTED, "the chip without a deviation breaks these itself");
}

/// A port where nothing answers: a read returns the same at each offset.
struct Nothing(u8);

impl Model for Nothing {
    fn read(&mut self, _offset: u8) -> u8 {
        self.0
    }

    fn write(&mut self, _offset: u8, value: u8) {
        assert!(self.0 == 0x00 && value == 0x00, "{value:02x} was written");
    }

    fn pass(&mut self, _ns: u64) {}
}

#[test]
fn where_nobody_is_nothing_is_written_but_an_ier_of_0() {
    assert_eq!(take(&mut Nothing(0xff)).end, End::Nobody);
    assert_eq!(take(&mut Nothing(0x00)).end, End::InUse);
}

/// A chip that has no loopback: bit 4 of MCR is not kept.
struct WithoutLoopback {
    chip: Box<dyn Model>,
    outputs: Vec<u8>,
}

impl Model for WithoutLoopback {
    fn read(&mut self, offset: u8) -> u8 {
        self.chip.read(offset)
    }

    fn write(&mut self, offset: u8, value: u8) {
        if offset == 4 {
            self.outputs.push(value & 0x0f);
        }
        self.chip.write(offset, if offset == 4 { value & 0x0f } else { value });
    }

    fn pass(&mut self, ns: u64) {
        self.chip.pass(ns);
    }
}

#[test]
fn a_chip_without_loopback_has_its_outputs_off_and_sends_nothing() {
    // The live chip's owner would see a byte on the line: `pass` panics then.
    let mut chip = WithoutLoopback { chip: model("live").unwrap(), outputs: Vec::new() };
    assert_eq!(take(&mut chip).end, End::NoLoopback);
    assert!(chip.outputs.iter().all(|outputs| *outputs == 0), "{:02x?} at the pins", chip.outputs);
}

/// A transmitter that stops after some characters.
struct Stalling {
    chip: Box<dyn Model>,
    left: u32,
}

impl Model for Stalling {
    fn read(&mut self, offset: u8) -> u8 {
        let value = self.chip.read(offset);
        if offset == 5 && self.left == 0 { value & 0x9f } else { value }
    }

    fn write(&mut self, offset: u8, value: u8) {
        self.left -= u32::from(offset == 0 && self.left > 0);
        self.chip.write(offset, value);
    }

    fn pass(&mut self, ns: u64) {
        self.chip.pass(ns);
    }
}

#[test]
fn a_chip_that_stalls_is_given_up_soon() {
    // 15 characters and divisors are written before the one at which the transmitter stops.
    for left in [4, 15, 100] {
        let census = take(&mut Stalling { chip: model("live").unwrap(), left });
        assert_eq!(census.end, End::Stalled, "{left}");
        let last = census.text.lines().rev().find_map(|line| line.split_once('@')).unwrap().1;
        assert!(last.parse::<u64>().unwrap() < 6_000_000_000, "{left}: it took {last} ns");
    }
}

/// A chip that goes away after some accesses: then nobody answers.
struct Going {
    chip: Box<dyn Model>,
    left: u32,
}

impl Model for Going {
    fn read(&mut self, offset: u8) -> u8 {
        let value = self.chip.read(offset);
        self.left = self.left.saturating_sub(1);
        if self.left == 0 { 0xff } else { value }
    }

    fn write(&mut self, offset: u8, value: u8) {
        if self.left > 0 {
            self.chip.write(offset, value);
        }
    }

    fn pass(&mut self, ns: u64) {
        self.chip.pass(ns);
    }
}

#[test]
fn a_chip_that_goes_away_is_told() {
    for left in [10, 100, 1000, 10_000, 50_000] {
        let census = take(&mut Going { chip: model("live").unwrap(), left });
        assert_eq!(census.end, End::Gone, "{left}");
    }
}

#[test]
fn the_chip_is_as_it_was() {
    for name in ["live", "live-16450", "device"] {
        let mut chip = model(name).unwrap();
        let setup = [(3, 0x83), (0, 0x34), (1, 0x12), (3, 0x1b), (2, 0x81), (4, 0x0b), (7, 0x5a), (1, 0x05)];
        for (offset, value) in setup {
            chip.write(offset, value);
        }
        chip.read(6);
        let before = registers(&mut *chip);
        take(&mut *chip);
        assert_eq!(chip.read(6) & 0x0f, 0, "{name}: a change of the lines is left");
        assert_eq!(registers(&mut *chip), before, "{name}");
    }
}

/// What of a chip can be read, but for data and changes; the divisor is the last.
fn registers(chip: &mut dyn Model) -> Vec<u8> {
    let mut seen = [1, 2, 3, 4, 5, 7].map(|offset| chip.read(offset)).to_vec();
    let lcr = chip.read(3);
    chip.write(3, lcr | 0x80);
    seen.extend([chip.read(0), chip.read(1)]);
    chip.write(3, lcr);
    seen
}

#[test]
fn a_port_in_use_is_left_alone() {
    let mut chip = model("live").unwrap();
    chip.write(3, 0x83);
    assert_eq!(take(&mut *chip).end, End::InUse);
    assert_eq!(chip.read(3), 0x83);
}

/// A chip that shows a timeout until DATA is read, also in place of received data, as real ones and QEMU's do.
struct KeepsTimeout {
    chip: Box<dyn Model>,
    has_timeout: bool,
}

impl Model for KeepsTimeout {
    fn read(&mut self, offset: u8) -> u8 {
        let value = self.chip.read(offset);
        match offset {
            0 => self.has_timeout = false,
            2 => self.has_timeout |= value & 0x0f == 0x0c,
            _ => {}
        }
        if offset == 2 && self.has_timeout { value & 0xf0 | 0x0c } else { value }
    }

    fn write(&mut self, offset: u8, value: u8) {
        self.has_timeout &= offset != 2;
        self.chip.write(offset, value);
    }

    fn pass(&mut self, ns: u64) {
        self.chip.pass(ns);
    }
}

#[test]
fn who_is_held_up_blames_no_chip() {
    let mut blamed = Vec::new();
    for every in (150..3000).step_by(97) {
        for ns in [600_000, 5_000_000] {
            let clock = Clock::HoldsUp { every, ns };
            let mut chip = KeepsTimeout { chip: model("live").unwrap(), has_timeout: false };
            let census = take_by(&mut chip, clock);
            let told: Vec<&str> = census.names(Seen::Differs).into_iter().filter(|name| !LISTED.contains(name)).collect();
            if census.end != End::Done || !told.is_empty() {
                blamed.push(format!("{clock:?}: {:?}, {told:?}", census.end));
            }
        }
    }
    assert!(blamed.is_empty(), "{}", blamed.join("\n"));
}

#[test]
fn a_clock_that_stands_ends_the_census() {
    assert_eq!(take_by(&mut *model("live").unwrap(), Clock::Stands).end, End::NoClock);
}
