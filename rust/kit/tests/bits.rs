//! Sets of named bits, some of which have no name.

use geesetrunk_kit::{Flag, Flags, Names};
use std::fmt;

#[derive(Clone, Copy, Debug, PartialEq, Eq)]
struct Set(u8);

impl Flags for Set {
    type Bits = u8;

    fn flags<'a>() -> &'a [Flag<Self>] {
        // A group of bits, and one of them alone.
        const FLAGS: &[Flag<Set>] = &[
            Flag::new("LOW", Set(1)),
            Flag::new("BOTH", Set(0x81)),
            Flag::new("HIGH", Set(0x80)),
            Flag::new("TWO", Set(2)),
        ];
        FLAGS
    }

    fn bits(&self) -> u8 {
        self.0
    }

    fn from_bits_retain(bits: u8) -> Self {
        Set(bits)
    }
}

const NAMED: u8 = 0x83;

#[test]
fn each_method_is_the_arithmetic_of_bits() {
    assert_eq!((Set::empty(), Set::all()), (Set(0), Set(NAMED)));
    for one in 0..=u8::MAX {
        let set = Set(one);
        assert_eq!(Set::from_bits_truncate(one), Set(one & NAMED));
        assert_eq!(Set::from_bits(one), (one & !NAMED == 0).then_some(set));
        assert_eq!(set.contains_unknown_bits(), one & !NAMED != 0);
        assert_eq!(set.is_empty(), one == 0);
        assert_eq!(set.is_all(), one & NAMED == NAMED);
        assert_eq!(set.complement(), Set(!one & NAMED));
        let mut changed = set;
        changed.truncate();
        assert_eq!(changed, Set(one & NAMED));
        changed.clear();
        assert_eq!(changed, Set(0));
        for other in 0..=u8::MAX {
            let with = Set(other);
            assert_eq!(set.intersects(with), one & other != 0);
            assert_eq!(set.contains(with), one & other == other);
            assert_eq!(set.intersection(with), Set(one & other));
            assert_eq!(set.union(with), Set(one | other));
            assert_eq!(set.difference(with), Set(one & !other));
            assert_eq!(set.symmetric_difference(with), Set(one ^ other));
            let changed = |change: fn(&mut Set, Set)| {
                let mut changed = set;
                change(&mut changed, with);
                changed.0
            };
            assert_eq!(changed(Set::insert), one | other);
            assert_eq!(changed(Set::remove), one & !other);
            assert_eq!(changed(Set::toggle), one ^ other);
            assert_eq!(changed(|set, with| set.set(with, true)), one | other);
            assert_eq!(changed(|set, with| set.set(with, false)), one & !other);
        }
    }
}

#[test]
fn bits_are_named_in_order() {
    assert_eq!(Set::from_name("HIGH"), Some(Set(0x80)));
    assert_eq!(Set::from_name("high"), None);
    let flag = &Set::flags()[1];
    assert_eq!((flag.name(), *flag.value()), ("BOTH", Set(0x81)));
    assert!(
        Set(0xff)
            .iter_names()
            .map(|(name, _)| name)
            .eq(["LOW", "BOTH", "HIGH", "TWO"])
    );
    assert!(Set(0x80).iter_names().eq([("HIGH", Set(0x80))]));
    assert!(Set(0x82).iter().eq([Set(0x80), Set(2)]));
    assert!(Set(0x7c).iter().next().is_none());
    assert_eq!(
        format!("{:?} {:?}", Names(&Set(0x81)), Names(&Set(0))),
        "LOW | BOTH | HIGH 0x0"
    );
}

/// A writer of which one call fails.
struct FailsOnce {
    calls_before: usize,
}

impl fmt::Write for FailsOnce {
    fn write_str(&mut self, _text: &str) -> fmt::Result {
        let fails = self.calls_before == 0;
        self.calls_before = self.calls_before.wrapping_sub(1);
        if fails { Err(fmt::Error) } else { Ok(()) }
    }
}

#[test]
fn a_text_that_is_not_written_to_its_end_is_an_error() {
    // Two names, and what is between them.
    for calls_before in 0..4 {
        let mut writer = FailsOnce { calls_before };
        let written = fmt::write(&mut writer, format_args!("{:?}", Names(&Set(3))));
        assert_eq!(written.is_ok(), calls_before == 3, "{calls_before}");
    }
}
