//! The census in C and that of `geesetrunk census`, which has its steps, are one: the same accesses at the same times, and the same rows.

use census_models::{Clock, DEVIATIONS, MODELS, Model, model, take_by, take_in_rust};

/// Rows and recording, without the word of a row that says where a difference is listed: that is for the documents alone.
fn without_lists(text: &str) -> String {
    let line = |line: &str| match line.split(' ').collect::<Vec<_>>()[..] {
        ["#", name, "differs", value, .., _] if value != "end" => format!("# {name} differs {value}\n"),
        _ => format!("{line}\n"),
    };
    text.lines().map(line).collect()
}

fn compare(name: &str, chip: impl Fn() -> Box<dyn Model>, clock: Clock) {
    let in_c = without_lists(&take_by(&mut *chip(), clock).text);
    let in_rust = without_lists(&take_in_rust(&mut *chip(), clock).file());
    let first = in_c.lines().zip(in_rust.lines()).position(|(one, other)| one != other);
    let shown = first.map(|at| (in_c.lines().nth(at), in_rust.lines().nth(at)));
    assert!(in_c == in_rust, "{name}, {clock:?}: in C and in Rust {shown:?}");
}

#[test]
fn each_chip_is_asked_alike() {
    for name in MODELS {
        for clock in [Clock::Runs, Clock::HoldsUp { every: 197, ns: 5_000_000 }, Clock::HoldsUp { every: 1013, ns: 600_000 }] {
            compare(name, || model(name).unwrap(), clock);
        }
    }
}

#[test]
fn each_chip_that_deviates_is_asked_alike() {
    for deviation in DEVIATIONS.iter() {
        compare(deviation.rule, || deviation.chip(), Clock::Runs);
    }
}

#[test]
fn a_clock_that_stands_is_told_alike() {
    compare("live", || model("live").unwrap(), Clock::Stands);
}
