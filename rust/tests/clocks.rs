//! Prints the rows of the table of clocks in docs/HARDWARE.md. `clocks` compares them.

use uart_16550::native::{BaudRate, Config};

const MEGAHERTZ: [u32; 7] = [24, 25, 48, 50, 100, 200, 408];
const BAUD_RATES: [BaudRate; 2] = [BaudRate::Baud9600, BaudRate::Baud115200];

// What receivers tolerate, in thousandths, of both sides together; and a bound that refuses nothing here.
const TOLERANCE: u32 = 20;
const ANY: u32 = 1_000;

/// The nearest divisor for a rate, and by how much the rate differs then.
fn cell(megahertz: u32, baud_rate: BaudRate) -> String {
    let config = Config {
        frequency: megahertz * 1_000_000,
        baud_rate,
        ..Config::DEFAULT
    };
    let frequency = f64::from(config.frequency);
    let is_refused = config.clone().nearest(TOLERANCE).is_err();
    let Ok(nearest) = config.nearest(ANY) else {
        return "none".to_owned();
    };
    let divisor = nearest.frequency / (16 * baud_rate.to_integer());
    let percent = 100.0 * (frequency / f64::from(nearest.frequency) - 1.0);
    let refused = if is_refused { ", refused" } else { "" };
    format!("{divisor} | {percent:+.2}{refused}")
}

fn main() {
    for megahertz in MEGAHERTZ {
        let cells = BAUD_RATES.map(|baud_rate| cell(megahertz, baud_rate));
        println!("| {megahertz} MHz | {} |", cells.join(" | "));
    }
}
