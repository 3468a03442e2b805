//! The functions of `census.c` and `text.c`, over a chip in software. Beside `chip_in_c.rs` the file here with
//! `unsafe`.

use std::ffi::{c_char, c_int, c_uint, c_void};

include!(concat!(env!("OUT_DIR"), "/rules.rs"));

/// A chip in software, with its time.
pub trait Model {
    fn read(&mut self, offset: u8) -> u8;
    fn write(&mut self, offset: u8, value: u8);
    /// So many nanoseconds pass.
    fn pass(&mut self, ns: u64);
}

/// What was seen of a rule.
#[derive(Clone, Copy, Debug, PartialEq, Eq)]
pub enum Seen {
    NotSeen,
    Holds,
    Differs,
}

/// A row of the table.
#[derive(Clone, Debug, PartialEq, Eq)]
pub struct Row {
    pub name: &'static str,
    pub seen: Seen,
    pub value: u32,
}

/// How a census ended.
#[derive(Clone, Copy, Debug, PartialEq, Eq)]
pub enum End {
    Done,
    Nobody,
    InUse,
    NoLoopback,
    Stalled,
    NoClock,
    Gone,
}

/// What came of a census.
pub struct Census {
    pub end: End,
    pub rows: Vec<Row>,
    /// The table for a reader.
    pub table: String,
    /// Rows and recording, as the programs write them into a file.
    pub text: String,
}

impl Census {
    /// The names of the rules of which this was seen.
    pub fn names(&self, seen: Seen) -> Vec<&'static str> {
        self.rows.iter().filter(|row| row.seen == seen).map(|row| row.name).collect()
    }
}

// ---- what census.h and text.h declare

#[repr(C)]
struct CensusChip {
    read: unsafe extern "C" fn(*mut c_void, u8) -> u8,
    write: unsafe extern "C" fn(*mut c_void, u8, u8),
    now: unsafe extern "C" fn(*mut c_void) -> u64,
    at: *mut c_void,
    recording: *mut CensusRecording,
    fcr: u8,
}

#[repr(C)]
#[derive(Clone, Copy, Default)]
struct CensusRow {
    seen: u8,
    value: u32,
}

#[repr(C)]
#[derive(Clone, Copy, Default)]
struct CensusAccess {
    time: u32,
    more: u16,
    what: u8,
    value: u8,
}

/// `CENSUS_ENTRIES` of census.h, as build.rs sets it.
const ENTRIES: usize = 12_000;

#[repr(C)]
struct CensusRecording {
    accesses: [CensusAccess; ENTRIES],
    count: c_uint,
    lost: c_uint,
}

#[repr(C)]
struct CensusPrinter {
    print: unsafe extern "C" fn(*mut c_void, c_char),
    at: *mut c_void,
}

unsafe extern "C" {
    fn census_take(chip: *const CensusChip, rows: *mut CensusRow) -> c_int;
    fn census_print_table(to: *const CensusPrinter, end: c_int, rows: *const CensusRow);
    fn census_print_rows(to: *const CensusPrinter, end: c_int, rows: *const CensusRow);
    fn census_print_recording(to: *const CensusPrinter, recording: *const CensusRecording);
}

// ---- the chip's side

/// An access takes as long as at a PC's port, and a look at the clock a fifth of that.
const ACCESS_NS: u64 = 1000;
const LOOK_NS: u64 = 200;

/// What the time does that the census sees.
#[derive(Clone, Copy, Debug)]
pub enum Clock {
    /// It passes with each access and each look.
    Runs,
    /// Who looks is held up for `ns` at each so many accesses, as a program is on a busy machine.
    HoldsUp { every: u32, ns: u64 },
    /// The chip's time passes, and the clock shows none of it.
    Stands,
}

pub(crate) struct Run<'a> {
    model: &'a mut dyn Model,
    clock: Clock,
    accesses: u32,
    time: u64,
}

impl<'a> Run<'a> {
    pub(crate) fn new(model: &'a mut dyn Model, clock: Clock) -> Self {
        Run { model, clock, accesses: 0, time: 0 }
    }

    pub(crate) fn read(&mut self, offset: u8) -> u8 {
        let value = self.model.read(offset);
        self.end_access();
        value
    }

    pub(crate) fn write(&mut self, offset: u8, value: u8) {
        self.model.write(offset, value);
        self.end_access();
    }

    pub(crate) fn now(&mut self) -> u64 {
        self.pass(LOOK_NS);
        self.time
    }

    fn pass(&mut self, ns: u64) {
        if !matches!(self.clock, Clock::Stands) {
            self.time += ns;
        }
        self.model.pass(ns);
    }

    fn end_access(&mut self) {
        self.accesses += 1;
        let delay = match self.clock {
            Clock::HoldsUp { every, ns } if self.accesses.is_multiple_of(every) => ns,
            _ => 0,
        };
        self.pass(ACCESS_NS + delay);
    }
}

// SAFETY of the four: `take` and `printed` hand over `at`, which is what they name, for the length of one call that calls nothing else.

unsafe extern "C" fn read(at: *mut c_void, offset: u8) -> u8 {
    unsafe { &mut *at.cast::<Run>() }.read(offset)
}

unsafe extern "C" fn write(at: *mut c_void, offset: u8, value: u8) {
    unsafe { &mut *at.cast::<Run>() }.write(offset, value);
}

unsafe extern "C" fn now(at: *mut c_void) -> u64 {
    unsafe { &mut *at.cast::<Run>() }.now()
}

unsafe extern "C" fn print(at: *mut c_void, character: c_char) {
    unsafe { &mut *at.cast::<String>() }.push(char::from(character as u8));
}

/// Appends what a function of text.h prints.
fn printed(text: &mut String, function: impl FnOnce(&CensusPrinter)) {
    function(&CensusPrinter { print, at: (&raw mut *text).cast() });
}

fn row(name: &'static str, row: &CensusRow) -> Row {
    let seen = match row.seen {
        0 => Seen::NotSeen,
        1 => Seen::Holds,
        2 => Seen::Differs,
        other => unreachable!("census.h has no such enum census_seen: {other}"),
    };
    Row { name, seen, value: row.value }
}

/// Takes the census of a chip.
pub fn take(model: &mut dyn Model) -> Census {
    take_by(model, Clock::Runs)
}

/// Takes the census of a chip by a clock.
pub fn take_by(model: &mut dyn Model, clock: Clock) -> Census {
    let mut recording = Box::new(CensusRecording { accesses: [CensusAccess::default(); ENTRIES], count: 0, lost: 0 });
    let mut run = Run::new(model, clock);
    let mut rows = [CensusRow::default(); RULES.len()];
    let chip = CensusChip { read, write, now, at: (&raw mut run).cast(), recording: &raw mut *recording, fcr: 0 };
    // SAFETY: there is a row for each rule, since both are made of rules.h, and the chip's functions get what they are for.
    let end = unsafe { census_take(&chip, rows.as_mut_ptr()) };
    let (mut table, mut text) = (String::new(), String::new());
    // SAFETY: the same rows, and a recording of text.h.
    printed(&mut table, |to| unsafe { census_print_table(to, end, rows.as_ptr()) });
    printed(&mut text, |to| unsafe { census_print_rows(to, end, rows.as_ptr()) });
    printed(&mut text, |to| unsafe { census_print_recording(to, &*recording) });
    let end = match end {
        0 => End::Done,
        1 => End::Nobody,
        2 => End::InUse,
        3 => End::NoLoopback,
        4 => End::Stalled,
        5 => End::NoClock,
        6 => End::Gone,
        other => unreachable!("census.h has no such enum census_end: {other}"),
    };
    Census { end, rows: RULES.into_iter().zip(&rows).map(|(name, one)| row(name, one)).collect(), table, text }
}
