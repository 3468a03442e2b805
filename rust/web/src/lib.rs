//! What the page in a browser calls: scripts are played and explored step by step, two of them over a cable, recordings are judged; and
//! there is one live chip.
//!
//! A page can pass numbers to WebAssembly, and memory. So a call takes the bytes that were put where [`room`] says, and leaves its result,
//! mostly JSON, where [`told`] says. Nothing here decides anything about the chip or the driver: that is in the proved crates.
//!
//! The names of these functions are those that JavaScript sees. On a host they have no such names: a `read` or a `link` there would be
//! taken for that of the system's library.
#![deny(missing_docs)]

mod live;

use geesetrunk::import::Import;
use geesetrunk::json::Quoted;
use geesetrunk::judging::Judge;
use geesetrunk::known::Known;
use geesetrunk::link::{Link, LinkOutput, linked_in_turns};
use geesetrunk::options::options_in;
use geesetrunk::page::{entries, explanations_of_all, explored, findings, played};
use live::{HeldBy, Live, RingSettings};
use std::cell::RefCell;
use uart_ring::ReceiveMarks;

// The exit status of a program that did what was requested.
const DONE: u32 = 0;

#[derive(Default)]
struct Page {
    given: Vec<u8>,
    told: Vec<u8>,
    live: Option<Live>,
}

thread_local! {
    static PAGE: RefCell<Page> = RefCell::default();
}

fn on_page<R>(act: impl FnOnce(&mut Page) -> R) -> R {
    PAGE.with(|page| act(&mut page.borrow_mut()))
}

/// Returns where so many bytes are to be put, which the next call takes.
#[cfg_attr(target_family = "wasm", unsafe(no_mangle))]
pub extern "C" fn room(count: usize) -> *mut u8 {
    on_page(|page| {
        page.given.clear();
        page.given.resize(count, 0);
        page.given.as_mut_ptr()
    })
}

/// Returns where the result of the last call is.
#[cfg_attr(target_family = "wasm", unsafe(no_mangle))]
pub extern "C" fn told() -> *const u8 {
    on_page(|page| page.told.as_ptr())
}

/// Returns how many bytes the result of the last call has.
#[cfg_attr(target_family = "wasm", unsafe(no_mangle))]
pub extern "C" fn told_len() -> usize {
    on_page(|page| page.told.len())
}

/// Plays a script: tells what `geesetrunk play` prints for it, and returns its exit status.
#[cfg_attr(target_family = "wasm", unsafe(no_mangle))]
pub extern "C" fn play() -> u32 {
    on_page(|page| {
        let (status, told) = played(&page.given);
        page.told = told;
        status.into()
    })
}

/// Plays a script step by step: tells each call, what happened in it, and how the chip was after it.
#[cfg_attr(target_family = "wasm", unsafe(no_mangle))]
pub extern "C" fn explore() {
    on_page(|page| page.told = explored(&page.given).into_bytes());
}

/// Plays two scripts over a cable: the left one has so many of the given bytes, and the right one the rest. Tells the text or the picture
/// of `geesetrunk link`, or why there is none. Returns its exit status.
#[cfg_attr(target_family = "wasm", unsafe(no_mangle))]
pub extern "C" fn link(left: usize, delay: u32, is_drawn: u32) -> u32 {
    on_page(|page| {
        let scripts = page.given.split_at(left.min(page.given.len()));
        let link = Link {
            files: ["left.script", "right.script"],
            delay: delay.into(),
            output: match is_drawn {
                0 => LinkOutput::Text,
                _ => LinkOutput::Picture,
            },
        };
        let (status, told) = match linked_in_turns(&link, scripts.into()) {
            Ok(text) => (DONE, text),
            // A script that is refused has its fault beside its line.
            Err(end) => (
                u32::from(end.status().number()),
                end.line().unwrap_or_default().to_owned(),
            ),
        };
        page.told = told.into_bytes();
        status
    })
}

// Returns the options in front of what is given, and the log behind them; or why the options are refused, as an object of JSON.
fn log_in(given: &[u8], count: usize) -> Result<(Import, Known, &[u8]), String> {
    let (options, log) = given.split_at(count.min(given.len()));
    match options_in(&String::from_utf8_lossy(options)) {
        Ok((import, known)) => Ok((import, known, log)),
        Err(end) => Err(format!(
            "{{\"refused\":{}}}",
            Quoted(end.line().unwrap_or_default())
        )),
    }
}

/// Judges a recording, or a log of another tool: 0 its driver, 1 its chip. So many of the given bytes are options of `geesetrunk audit`,
/// and the rest is the log. Tells each finding.
#[cfg_attr(target_family = "wasm", unsafe(no_mangle))]
pub extern "C" fn judge(of_chip: u32, options: usize) {
    let judge = match of_chip {
        0 => Judge::Audit,
        _ => Judge::Replay,
    };
    on_page(|page| {
        let told = log_in(&page.given, options)
            .map(|(import, known, log)| findings("log", log, judge, &import, &known));
        page.told = told.unwrap_or_else(|refused| refused).into_bytes();
    });
}

/// Tells what the lines of a recording or a log say. So many of the given bytes are options.
#[cfg_attr(target_family = "wasm", unsafe(no_mangle))]
pub extern "C" fn read_log(options: usize) {
    on_page(|page| {
        let told =
            log_in(&page.given, options).map(|(import, _, log)| entries("log", log, &import));
        page.told = told.unwrap_or_else(|refused| refused).into_bytes();
    });
}

/// Tells what each name of a finding means.
#[cfg_attr(target_family = "wasm", unsafe(no_mangle))]
pub extern "C" fn explain() {
    on_page(|page| page.told = explanations_of_all().into_bytes());
}

// Does something with the live chip, and tells how it is then.
fn with_live(act: impl FnOnce(&mut Live)) {
    on_page(|page| {
        if page.live.is_none() {
            page.live = Live::new(0, 16);
        }
        if let Some(live) = &mut page.live {
            act(live);
            page.told = live.told().into_bytes();
        }
    });
}

/// Starts a live chip anew, by its place in the list of the page.
#[cfg_attr(target_family = "wasm", unsafe(no_mangle))]
pub extern "C" fn live_new(place: usize, ticks: u32) {
    on_page(|page| page.live = Live::new(place, ticks as u16));
    with_live(|_| ());
}

/// Reads a register of the live chip.
#[cfg_attr(target_family = "wasm", unsafe(no_mangle))]
pub extern "C" fn live_read(offset: u32) -> u32 {
    let mut value = 0;
    with_live(|live| value = live.read(offset as u8));
    value.into()
}

/// Writes a register of the live chip.
#[cfg_attr(target_family = "wasm", unsafe(no_mangle))]
pub extern "C" fn live_write(offset: u32, value: u32) {
    with_live(|live| live.write(offset as u8, value as u8));
}

/// Lets time pass.
#[cfg_attr(target_family = "wasm", unsafe(no_mangle))]
pub extern "C" fn live_ticks(count: u32) {
    with_live(|live| live.ticks(count as u16));
}

/// Lets a character arrive with these errors, as bits of LSR.
#[cfg_attr(target_family = "wasm", unsafe(no_mangle))]
pub extern "C" fn live_arrive(byte: u32, errors: u32) {
    with_live(|live| live.arrive(byte as u8, errors as u8));
}

/// Sets the modem inputs, as bits of MSR.
#[cfg_attr(target_family = "wasm", unsafe(no_mangle))]
pub extern "C" fn live_lines(inputs: u32) {
    with_live(|live| live.lines(inputs as u8));
}

/// Lets the driver set the live chip up.
#[cfg_attr(target_family = "wasm", unsafe(no_mangle))]
pub extern "C" fn live_start() {
    with_live(Live::start);
}

/// Lets the driver, which has rings, handle an interrupt, and send what it took.
#[cfg_attr(target_family = "wasm", unsafe(no_mangle))]
pub extern "C" fn live_handle() {
    with_live(Live::handle);
}

/// Sets what the driver of the live chip does with its rings: for how many bytes they have room, once it sets the chip up again; how many
/// interrupts a call of its handler serves; by what the other end is held back, 1 RTS and 2 XOFF, and at which marks; and whether it sends
/// back what came.
#[cfg_attr(target_family = "wasm", unsafe(no_mangle))]
pub extern "C" fn live_rings(
    transmit: usize,
    receive: usize,
    limit: usize,
    held_by: u32,
    hold: usize,
    release: usize,
    echoes: u32,
) {
    let held_by = match held_by {
        1 => HeldBy::Rts,
        2 => HeldBy::Xoff,
        _ => HeldBy::Nothing,
    };
    with_live(|live| {
        live.set_rings(RingSettings {
            transmit,
            receive,
            limit,
            held_by,
            marks: ReceiveMarks { hold, release },
            echoes: echoes != 0,
        });
    });
}

/// Lets the driver send back what is in its receive ring.
#[cfg_attr(target_family = "wasm", unsafe(no_mangle))]
pub extern "C" fn live_send_back() {
    with_live(Live::send_back);
}
