//! Runs emitted functions and the proved MIR of them on the same choices, and compares what they do.
//!
//! Whatever a case depends on is a choice: each argument, each field of a value, each answer of the device. Both sides take their choices
//! from one path, so that they get the same values; and a path can be repeated, changed at its end, and printed.

use crate::numbers::NUMBERS;
use std::{
    any::Any, boxed::Box, cell::RefCell, collections::VecDeque, format, panic::AssertUnwindSafe, panic::catch_unwind, panic::resume_unwind,
    print, println, string::String, sync::atomic::AtomicBool, sync::atomic::AtomicU64, sync::atomic::Ordering, vec::Vec,
};

/// How choices are made.
#[derive(Clone, Copy, PartialEq)]
enum Mode {
    /// One after the other, until all have been made.
    All,
    /// The answers of the device one after the other, all else at random.
    Answers,
    Random,
}

/// The choices of a case. Each is a number below a bound.
pub struct Choices {
    path: Vec<(u64, u64)>,
    at: usize,
    random: u64,
    rate: u64,
    mode: Mode,
    answers: usize,
    is_text: bool,
    // Numbers of one function, which are given to it alone, in order.
    own: &'static [u64],
    // Where in the path a `usize` begins. The MIR has a number of 64 bits there, of which it is to take as many bits as a `usize` has.
    words: Vec<usize>,
}

/// Answers of a device that mean something to the driver, or are the bits of a register.
const ANSWERS: [u8; 20] =
    [0, 1, 2, 4, 6, 8, 0x0c, 0x10, 0x1e, 0x20, 0x40, 0x60, 0x61, 0x80, 0x9e, 0xc1, 0xff, 0x55, 0xaa, 0xb0];
const RATES: [u64; 6] = [50, 300, 9600, 115_200, 1, 2];

impl Choices {
    fn new(mode: Mode, seed: u64) -> Self {
        Self { path: Vec::new(), at: 0, random: seed | 1, rate: 0, mode, answers: 0, is_text: false, own: &[], words: Vec::new() }
    }

    fn next_random(&mut self) -> u64 {
        self.random ^= self.random << 13;
        self.random ^= self.random >> 7;
        self.random ^= self.random << 17;
        self.random.wrapping_mul(0x2545_F491_4F6C_DD1D) >> 11
    }

    fn choose(&mut self, bound: u64, is_fixed: bool) -> u64 {
        if let Some((choice, _)) = self.path.get(self.at) {
            self.at += 1;
            return *choice;
        }
        let is_random = is_fixed || self.mode == Mode::Random;
        let choice = if is_random { (u128::from(self.next_random()) * u128::from(bound) >> 53) as u64 } else { 0 };
        self.path.push((choice, if is_fixed { choice + 1 } else { bound }));
        self.at += 1;
        choice
    }

    /// Returns a number below this bound.
    pub fn pick(&mut self, bound: u64) -> u64 {
        self.choose(bound, self.mode == Mode::Answers)
    }

    /// Returns one of these.
    pub fn one_of<T: Copy>(&mut self, values: &[T]) -> T {
        values[self.pick(values.len() as u64) as usize]
    }

    fn answer(&mut self) -> u8 {
        if self.mode == Mode::Random && self.choose(2, false) == 0 {
            return self.choose(256, false) as u8;
        }
        ANSWERS[self.choose(ANSWERS.len() as u64, false) as usize]
    }

    /// Returns a number of so many bits: all of 16 bits, if all choices are made; else one that the text has or that is next to it, a small
    /// one, any one, or a rate or clock that may divide by the last rate, or nearly.
    pub fn number(&mut self, bits: u32) -> u64 {
        let bits = if self.words.contains(&self.at) { usize::BITS } else { bits };
        let most = u64::MAX >> (64 - bits);
        if let Some(own) = self.own_number(most) {
            return own;
        }
        if self.mode == Mode::All {
            return if bits <= 16 { self.pick(1 << bits) } else { self.one_of(&NUMBERS) & most };
        }
        if bits >= 32 && self.pick(2) == 0 {
            return self.of_rate() & most;
        }
        match self.pick(4) {
            0 => self.one_of(&NUMBERS) & most,
            1 => self.pick(24),
            2 => self.pick(300) & most,
            _ => (self.pick(1 << 32) | self.pick(1 << 32) << 32) & most,
        }
    }

    /// Returns one of the function's own numbers, if they are what is given now: each of them, or at random half of the time.
    fn own_number(&mut self, most: u64) -> Option<u64> {
        let own = &self.own[..self.own.partition_point(|one| *one <= most)];
        (!own.is_empty() && (self.mode == Mode::All || self.pick(2) == 0)).then(|| self.one_of(own))
    }

    /// Returns a `usize`.
    pub fn word(&mut self) -> u64 {
        if usize::BITS < 64 && !self.words.contains(&self.at) {
            self.words.push(self.at);
        }
        self.number(64)
    }

    fn of_rate(&mut self) -> u64 {
        if self.rate == 0 || self.pick(2) == 1 {
            self.rate = if self.pick(4) == 0 { self.one_of(&NUMBERS) } else { self.one_of(&RATES) };
        }
        let factor = match self.pick(6) {
            0 => 65_535,
            1 => 65_534,
            2 => 65_536,
            3 => 1,
            _ => 1 + self.pick(40),
        };
        let clock = self.rate.wrapping_mul(16 * factor);
        match self.pick(4) {
            0 => self.rate,
            1 => clock,
            2 => clock.wrapping_mul(1 + self.pick(16)),
            _ => clock.wrapping_mul(1000 + self.pick(20)) / 1000,
        }
    }

    /// Returns how many items a list has.
    fn length(&mut self) -> u64 {
        if self.mode == Mode::All {
            return self.pick(4);
        }
        match self.pick(3) {
            0 => self.pick(4),
            1 => self.pick(24),
            _ => self.pick(300),
        }
    }

    /// Returns values for a slice of at least so many.
    pub fn list<T: Value>(&mut self, least: u64) -> Vec<T> {
        let count = self.length().max(least);
        (0..count).map(|_| T::make(self)).collect()
    }

    /// Returns bytes for a slice of at least so many.
    pub fn bytes(&mut self, least: u64) -> Vec<u8> {
        let (count, is_all) = (self.length().max(least), self.mode == Mode::All);
        (0..count).map(|at| if is_all { (at as u8).wrapping_mul(37) + self.pick(2) as u8 } else { self.pick(256) as u8 }).collect()
    }

    /// Returns the bytes of a text, one of four a line end.
    pub fn text(&mut self) -> Vec<u8> {
        self.bytes(0).into_iter().map(|byte| if byte % 4 == 0 { b'\n' } else { byte & 0x7f }).collect()
    }

    /// Returns an offset of a register.
    pub fn offset(&mut self) -> u64 {
        self.pick(8)
    }

    /// Returns how many combinations there are of the choices of this case.
    fn combinations(&self) -> u128 {
        self.path.iter().fold(1, |product: u128, (_, bound)| product.saturating_mul(u128::from(*bound)))
    }

    /// Goes to the start of the case.
    fn start(&mut self) {
        self.at = 0;
        self.rate = 0;
        self.is_text = false;
    }

    /// Goes to the next case. Returns whether there is one.
    fn advance(&mut self) -> bool {
        self.at = 0;
        if self.mode == Mode::Random {
            self.path.clear();
            return true;
        }
        while let Some((choice, bound)) = self.path.pop() {
            if choice + 1 < bound {
                self.path.push((choice + 1, bound));
                return true;
            }
        }
        false
    }
}

/// A value of the emitted crate or of the MIR, as words. The same value has the same words, and is made of the same choices.
pub trait Value {
    fn show(&self, out: &mut Vec<u64>);

    fn make(_choices: &mut Choices) -> Self
    where
        Self: Sized,
    {
        panic!("a value that is only shown")
    }
}

macro_rules! numbers {
    ($($number:ty: $bits:expr),*) => {
        $(impl Value for $number {
            fn show(&self, out: &mut Vec<u64>) { out.push(*self as u64) }
            fn make(choices: &mut Choices) -> Self { choices.number($bits) as $number }
        })*
    };
}
numbers!(u16: 16, u32: 32, u64: 64);

impl Value for usize {
    fn show(&self, out: &mut Vec<u64>) {
        out.push(*self as u64);
    }
    fn make(choices: &mut Choices) -> Self {
        choices.word() as Self
    }
}

impl Value for u8 {
    fn show(&self, out: &mut Vec<u64>) {
        out.push(u64::from(*self));
    }
    fn make(choices: &mut Choices) -> Self {
        if choices.is_text {
            return b' ' + choices.pick(95) as u8;
        }
        if let Some(own) = choices.own_number(u64::from(u8::MAX)) {
            return own as Self;
        }
        if choices.mode != Mode::All && choices.pick(2) == 0 { choices.one_of(&ANSWERS) } else { choices.pick(256) as u8 }
    }
}

impl Value for u128 {
    fn show(&self, out: &mut Vec<u64>) {
        out.extend([*self as u64, (*self >> 64) as u64]);
    }
    fn make(choices: &mut Choices) -> Self {
        u128::from(choices.number(64))
    }
}

impl Value for bool {
    fn show(&self, out: &mut Vec<u64>) {
        out.push(u64::from(*self));
    }
    fn make(choices: &mut Choices) -> Self {
        choices.pick(2) != 0
    }
}

impl Value for () {
    fn show(&self, _: &mut Vec<u64>) {}
    fn make(_: &mut Choices) -> Self {}
}

/// A reference of the MIR in a struct: who shows the struct shows what it points to.
impl Value for *mut u8 {
    fn show(&self, _: &mut Vec<u64>) {}
}

impl<T: Value + ?Sized> Value for &T {
    fn show(&self, out: &mut Vec<u64>) {
        (**self).show(out);
    }
}

impl<T: Value + ?Sized> Value for &mut T {
    fn show(&self, out: &mut Vec<u64>) {
        (**self).show(out);
    }
}

impl<T: Value> Value for [T] {
    fn show(&self, out: &mut Vec<u64>) {
        out.push(self.len() as u64);
        self.iter().for_each(|one| one.show(out));
    }
}

impl<T: Value> Value for Vec<T> {
    fn show(&self, out: &mut Vec<u64>) {
        self[..].show(out);
    }
}

impl Value for str {
    fn show(&self, out: &mut Vec<u64>) {
        self.as_bytes().show(out);
    }
}

macro_rules! not_zero {
    ($($number:ty: $inner:ty),*) => {
        $(impl Value for $number {
            fn show(&self, out: &mut Vec<u64>) { out.push(self.get() as u64) }
            fn make(choices: &mut Choices) -> Self { Self::new(<$inner>::make(choices).max(1)).unwrap() }
        })*
    };
}
not_zero!(core::num::NonZeroU8: u8, core::num::NonZeroU64: u64, core::num::NonZeroUsize: usize);

impl Value for core::fmt::Error {
    fn show(&self, _: &mut Vec<u64>) {}
    fn make(_: &mut Choices) -> Self {
        Self
    }
}

impl Value for core::cmp::Ordering {
    fn show(&self, out: &mut Vec<u64>) {
        out.push((*self as i8 + 1) as u64);
    }
    fn make(choices: &mut Choices) -> Self {
        choices.one_of(&[Self::Less, Self::Equal, Self::Greater])
    }
}

impl<T: Value> Value for Option<T> {
    fn show(&self, out: &mut Vec<u64>) {
        out.push(u64::from(self.is_some()));
        self.iter().for_each(|one| one.show(out));
    }
    fn make(choices: &mut Choices) -> Self {
        if choices.pick(2) == 0 { None } else { Some(T::make(choices)) }
    }
}

impl<T: Value, E: Value> Value for Result<T, E> {
    fn show(&self, out: &mut Vec<u64>) {
        out.push(u64::from(self.is_err()));
        match self {
            Ok(value) => value.show(out),
            Err(error) => error.show(out),
        }
    }
    fn make(choices: &mut Choices) -> Self {
        if choices.pick(2) == 0 { Ok(T::make(choices)) } else { Err(E::make(choices)) }
    }
}

impl<T: Value, const N: usize> Value for [T; N] {
    fn show(&self, out: &mut Vec<u64>) {
        self.iter().for_each(|one| one.show(out));
    }
    // One of four has bytes that can be printed.
    fn make(choices: &mut Choices) -> Self {
        choices.is_text = choices.mode != Mode::All && choices.pick(4) == 0;
        let made = core::array::from_fn(|_| T::make(choices));
        choices.is_text = false;
        made
    }
}

impl<A: Value, B: Value> Value for (A, B) {
    fn show(&self, out: &mut Vec<u64>) {
        self.0.show(out);
        self.1.show(out);
    }
    fn make(choices: &mut Choices) -> Self {
        (A::make(choices), B::make(choices))
    }
}

impl<A: Value, B: Value, C: Value> Value for (A, B, C) {
    fn show(&self, out: &mut Vec<u64>) {
        self.0.show(out);
        self.1.show(out);
        self.2.show(out);
    }
    fn make(choices: &mut Choices) -> Self {
        (A::make(choices), B::make(choices), C::make(choices))
    }
}

/// Returns a queue: its capacity, which cell is the front, and its bytes.
pub fn queue(choices: &mut Choices) -> (usize, usize, Vec<u8>) {
    let capacity = choices.one_of(&[1usize, 2, 16, 15, 17, 64]);
    let front = choices.pick(capacity as u64) as usize;
    let count = match choices.pick(3) {
        0 => 0,
        1 => choices.pick(capacity as u64 + 1),
        _ => capacity as u64,
    };
    (capacity, front, (0..count).map(|_| choices.pick(256) as u8).collect())
}

/// Returns a text that can be printed, of no more than so many bytes.
pub fn text_for(choices: &mut Choices, room: usize) -> Vec<u8> {
    let most = choices.one_of(&[0, 1, 8, room as u64]).min(room as u64);
    (0..choices.pick(most + 1)).map(|_| b' ' + choices.pick(95) as u8).collect()
}

/// Returns a wire of a live chip: its slots, where it starts, how many bytes it has, and the most.
pub fn wire(choices: &mut Choices) -> ([u8; 128], u64, u64, u64) {
    let limit = choices.one_of(&[0u64, 1, 16, 64]);
    let (count, start) = (choices.pick(limit + 1), choices.pick(64));
    let mut slots = [0; 128];
    for place in (start..start + count).map(|place| place as usize % 64) {
        slots[place] = choices.pick(256) as u8;
        slots[place + 64] = slots[place];
    }
    (slots, start, count, limit)
}

// The device. It answers by choices, and notes each access.

/// A device for drivers: over registers, ports or memory.
#[derive(Clone, Copy, Debug, PartialEq, PartialOrd)]
pub struct Device;

impl Value for Device {
    fn show(&self, _: &mut Vec<u64>) {}
    fn make(_: &mut Choices) -> Self {
        Self
    }
}

/// What is read and written, by the kind of access.
pub const REGISTERS: u64 = 1;
pub const PORTS: u64 = 2;
pub const MEMORY: u64 = 3;
/// The offset of the register that a DesignWare UART has beyond the eight.
pub const USR: u64 = 31;
const WRITES: u64 = 4;
const PATIENCE: u64 = 8;
const MOST_ACCESSES: usize = 4000;

struct Case {
    choices: *mut Choices,
    answers: usize,
    accesses: Vec<u64>,
    kind: Option<u64>,
    queue: VecDeque<u8>,
    kept: [u8; 8],
    printed: Vec<u8>,
    room: usize,
    memory: u64,
}

std::thread_local! {
    static CASE: RefCell<Case> = const { RefCell::new(Case {
        choices: core::ptr::null_mut(), answers: 0, accesses: Vec::new(), kind: None, queue: VecDeque::new(), kept: [0; 8],
        printed: Vec::new(), room: usize::MAX, memory: u64::MAX,
    }) };
}

/// Why a case ends: the device gives no more answers.
struct NoAnswer;

impl Case {
    // Two of five devices at random answer anything. The others answer with what was written, as in loopback; one of them sends nothing,
    // and one has data without an end, and tells without an end that it was busy.
    fn answer(&mut self, offset: u64) -> u8 {
        // SAFETY: `once` puts the choices of the case here, which outlive it.
        let choices = unsafe { &mut *self.choices };
        if choices.mode != Mode::Random {
            return choices.answer();
        }
        let kind = *self.kind.get_or_insert_with(|| choices.pick(5));
        if kind < 2 || choices.pick(40) == 0 {
            return choices.answer();
        }
        // One look of four finds the UART busy.
        if offset == USR {
            return u8::from(choices.pick(4) == 0);
        }
        match offset & 7 {
            0 => self.queue.pop_front().unwrap_or(0),
            5 if kind == 2 => 0,
            5 if kind == 4 => 0x61,
            5 if self.queue.is_empty() && choices.pick(4) > 0 => 0x60,
            5 => 0x61,
            2 if kind == 4 => 0xc7,
            2 => 0xc1,
            6 => choices.one_of(&[0xb0, 0x90, 0x10, 0xbb]),
            other => self.kept[other as usize],
        }
    }
}

pub fn read(offset: u64, kind: u64) -> u8 {
    let answer = CASE.with_borrow_mut(|case| {
        case.answers = case.answers.checked_sub(1)?;
        let value = case.answer(offset);
        case.accesses.push(kind << 60 | offset << 8 | u64::from(value));
        Some(value)
    });
    answer.unwrap_or_else(|| resume_unwind(Box::new(NoAnswer)))
}

/// Returns whether a caller who is asked keeps waiting: half of the time, if the device is at random.
pub fn keep_waiting() -> bool {
    read(6, PATIENCE) & 0x20 != 0
}

pub fn write(offset: u64, value: u8, kind: u64) {
    let count = CASE.with_borrow_mut(|case| {
        case.accesses.push((kind | WRITES) << 60 | offset << 8 | u64::from(value));
        if offset & 7 == 0 {
            case.queue.push_back(value);
        }
        case.kept[(offset & 7) as usize] = value;
        case.accesses.len()
    });
    if count > MOST_ACCESSES {
        resume_unwind(Box::new(NoAnswer));
    }
}

// What is printed.

/// A writer, on both sides. One of four has room for some bytes alone, and then fails.
pub struct Writer;

impl Writer {
    pub fn make(choices: &mut Choices) -> Self {
        let room = if choices.mode != Mode::All && choices.pick(4) == 0 { choices.pick(140) as usize } else { usize::MAX };
        CASE.with_borrow_mut(|case| case.room = room);
        Self
    }

    /// Returns what was written.
    pub fn written(&self) -> Vec<u8> {
        CASE.with_borrow_mut(|case| core::mem::take(&mut case.printed))
    }
}

impl core::fmt::Write for Writer {
    fn write_str(&mut self, text: &str) -> core::fmt::Result {
        if print_bytes(text.as_bytes()) { Ok(()) } else { Err(core::fmt::Error) }
    }
}

fn print_bytes(bytes: &[u8]) -> bool {
    CASE.with_borrow_mut(|case| {
        let count = bytes.len().min(case.room - case.printed.len());
        case.printed.extend_from_slice(&bytes[..count]);
        count == bytes.len()
    })
}

/// Prints for the MIR. Returns whether there was room.
///
/// # Safety
///
/// There are so many bytes at this address.
pub unsafe fn print_at(start: *mut u8, count: u64) -> bool {
    print_bytes(unsafe { core::slice::from_raw_parts(start, count as usize) })
}

// What the MIR needs to run.

const CELLS: usize = 600_000;
static mut MEMORY_OF_CASE: [u64; CELLS] = [0; CELLS];
static USED: AtomicU64 = AtomicU64::new(0);
static TURNS: AtomicU64 = AtomicU64::new(0);
const MOST_TURNS: u64 = 100_000;
const PLACES: usize = 40_000;
static REACHED: [AtomicBool; PLACES] = [const { AtomicBool::new(false) }; PLACES];

/// Returns how many bytes of memory a case has: enough for two rings, or too few.
pub fn memory_of(choices: &mut Choices) -> u64 {
    let count = if choices.pick(4) == 0 { choices.pick(300) } else { 1 << 14 };
    CASE.with_borrow_mut(|case| case.memory = count);
    count
}

/// Returns so many bytes of memory, until the case ends.
pub fn memory(count: u64) -> *mut u8 {
    let start = USED.fetch_add(count / 8 + 1, Ordering::Relaxed);
    assert!(start + count / 8 < CELLS as u64, "no memory for the MIR");
    // SAFETY: the cell is one of the array.
    unsafe { (&raw mut MEMORY_OF_CASE).cast::<u64>().add(start as usize).cast() }
}

/// Returns the memory of a case, as Rust code takes it.
pub fn lent(count: u64) -> &'static mut [u8] {
    // SAFETY: there are so many bytes, which nothing else has in this case.
    unsafe { core::slice::from_raw_parts_mut(memory(count), count as usize) }
}

/// Returns memory for the MIR, or null if the case has no more.
pub fn allocate(count: u64) -> *mut u8 {
    let left = CASE.with_borrow_mut(|case| {
        let left = case.memory.checked_sub(count);
        case.memory = left.unwrap_or(case.memory);
        left
    });
    if left.is_some() { memory(count) } else { core::ptr::null_mut() }
}

/// Ends the MIR if it goes round without an end.
#[inline]
pub fn turn() {
    assert!(TURNS.fetch_add(1, Ordering::Relaxed) < MOST_TURNS, "the MIR does not end");
}

/// Notes that the MIR reached a place.
#[inline(always)]
pub fn reach(place: usize) {
    REACHED[place].store(true, Ordering::Relaxed);
}

// The comparison.

#[derive(PartialEq, Debug)]
enum Outcome {
    Words(Vec<u64>),
    NoAnswer,
    Panic,
}

/// What both sides are: a function of the choices, whose words are its result and what it changed.
type Side<'a> = &'a mut dyn FnMut(&mut Choices) -> Vec<u64>;

/// Makes the arguments of a case, and says what they are.
fn prepared(choices: &mut Choices, of_case: &mut dyn FnMut(&mut Choices) -> Of) -> Of {
    choices.start();
    USED.store(0, Ordering::Relaxed);
    of_case(choices)
}

fn once(choices: &mut Choices, side: Side) -> (Outcome, Vec<u64>) {
    choices.start();
    USED.store(0, Ordering::Relaxed);
    TURNS.store(0, Ordering::Relaxed);
    let (place, answers) = (&raw mut *choices, choices.answers);
    CASE.with_borrow_mut(|case| {
        *case = Case {
            choices: place, answers, accesses: Vec::new(), kind: None, queue: VecDeque::new(), kept: [0; 8], printed: Vec::new(),
            room: usize::MAX, memory: u64::MAX,
        }
    });
    let done = catch_unwind(AssertUnwindSafe(|| side(choices)));
    let accesses = CASE.with_borrow_mut(|case| core::mem::take(&mut case.accesses));
    let is_no_answer = |cause: Box<dyn Any + Send>| if cause.is::<NoAnswer>() { Outcome::NoAnswer } else { Outcome::Panic };
    (done.map_or_else(is_no_answer, Outcome::Words), accesses)
}

/// How much is compared.
pub struct Run {
    pub random: u64,
    pub sequences: u64,
    pub seed: u64,
    pub only: String,
}

/// The most cases of a function whose choices are all made.
const MOST_OF_ALL: u64 = 70_000;
/// The answers of a device that are all made: so many of them, or so many cases.
const ALL_ANSWERS: usize = 3;
const MOST_OF_ANSWERS: u64 = 9_000;

#[derive(Default)]
struct Counts {
    cases: u64,
    no_answer: u64,
    outside: u64,
    refused: u64,
    differ: u64,
    first: String,
}

impl Counts {
    // A case that breaks the contract has to panic in Rust, if the function has a guard. One that makes the MIR overflow, or leave what it
    // is proved for, says nothing: what is private has no guard, and what is made may break an invariant. Neither does one whose numbers
    // have a sum that no `usize` of the target has.
    //
    // The MIR says first whether a call keeps its contract: without tests of overflow, what Rust does outside of one may never end. A
    // sequence has no such call, and its arguments are made on the way, so Rust says there which of them are a `usize`.
    fn case(&mut self, choices: &mut Choices, of_case: Option<&mut dyn FnMut(&mut Choices) -> Of>, rust: Side, mir: Side) {
        self.cases += 1;
        choices.words.clear();
        let is_sequence = of_case.is_none();
        match of_case.map_or(Of::Contract, |of_case| prepared(choices, of_case)) {
            Of::NoWord | Of::Outside => self.outside += 1,
            Of::BrokenContract => self.broken(choices, rust),
            Of::Contract if is_sequence => {
                let emitted = once(choices, rust);
                let made = choices.path.len();
                let proved = once(choices, mir);
                self.both(choices, emitted, proved, made);
            }
            Of::Contract => {
                let proved = once(choices, mir);
                if proved.0 == Outcome::Panic {
                    self.outside += 1;
                    return;
                }
                let made = choices.path.len();
                let emitted = once(choices, rust);
                self.both(choices, emitted, proved, made);
            }
        }
    }

    fn broken(&mut self, choices: &mut Choices, rust: Side) {
        self.refused += 1;
        let (emitted, _) = once(choices, rust);
        if emitted != Outcome::Panic {
            self.note("a broken contract is not refused", choices, &emitted, &Outcome::Panic);
        }
    }

    // Both sides have run, and each has an outcome and accesses. The first one made so many choices.
    fn both(&mut self, choices: &Choices, emitted: (Outcome, Vec<u64>), proved: (Outcome, Vec<u64>), made: usize) {
        let ((emitted, accesses), (proved, accesses_of_mir)) = (emitted, proved);
        if proved == Outcome::Panic {
            self.outside += 1;
            return;
        }
        self.no_answer += u64::from(emitted == Outcome::NoAnswer);
        if emitted == Outcome::Panic {
            self.note("a panic within the contract", choices, &emitted, &proved);
        } else if emitted != proved {
            self.note("another result", choices, &emitted, &proved);
        } else if accesses != accesses_of_mir || choices.path.len() != made || choices.at != made {
            self.note("other accesses", choices, &Outcome::Words(accesses), &Outcome::Words(accesses_of_mir));
        }
    }

    fn note(&mut self, what: &str, choices: &Choices, emitted: &Outcome, proved: &Outcome) {
        self.differ += 1;
        if self.differ == 1 {
            let path: Vec<u64> = choices.path.iter().map(|(choice, _)| *choice).take(200).collect();
            let short = |one: String| one.chars().take(400).collect::<String>();
            let (emitted, proved) = (short(format!("{emitted:x?}")), short(format!("{proved:x?}")));
            self.first = format!("{what}: choices {path:?}; in Rust {emitted}; in the MIR {proved}");
        }
    }
}

/// What the arguments of a case are.
#[derive(Clone, Copy, PartialEq)]
pub enum Of {
    /// They keep the contract.
    Contract,
    /// They break what a guard is for.
    BrokenContract,
    /// They have a sum or a product that no `usize` of this target has, and the function says what it does then, or no caller has them.
    NoWord,
    /// They break the contract of a function that only proved callers reach.
    Outside,
}

impl Of {
    /// Returns what arguments are that no caller gives if the first is true, that break the contract if the second is true, and whose sum
    /// or product is the third.
    pub fn new(is_outside: bool, is_broken: bool, most: u128) -> Self {
        match () {
            () if is_outside => Self::Outside,
            () if usize::BITS < 64 && most > usize::MAX as u128 => Self::NoWord,
            () if is_broken => Self::BrokenContract,
            () => Self::Contract,
        }
    }
}

/// What else than its arguments a function depends on.
#[derive(Clone, Copy, PartialEq)]
pub enum With {
    Nothing,
    Device,
    Writer,
}

impl Run {
    /// Compares a function. `own` are the numbers in its text, in order; `of_case` tells what the arguments of a case are.
    pub fn compare(
        &mut self,
        name: &str,
        with: With,
        own: &'static [u64],
        mut of_case: impl FnMut(&mut Choices) -> Of,
        mut rust: impl FnMut(&mut Choices) -> Vec<u64>,
        mut mir: impl FnMut(&mut Choices) -> Vec<u64>,
    ) {
        if !name.contains(&self.only) {
            return;
        }
        let (mut counts, mut is_whole, has_device) = (Counts::default(), false, with == With::Device);
        let mut choices = Choices::new(if has_device { Mode::Answers } else { Mode::All }, self.seed);
        choices.answers = ALL_ANSWERS;
        let mut most = if has_device { MOST_OF_ANSWERS } else { MOST_OF_ALL };
        let mut random = self.random;
        while counts.cases < most {
            counts.case(&mut choices, Some(&mut of_case), &mut rust, &mut mir);
            if !has_device && choices.combinations() > u128::from(MOST_OF_ALL) {
                (most, random) = (0, self.random * 10);
            }
            if !choices.advance() {
                is_whole = !has_device;
                break;
            }
        }
        if !is_whole || with == With::Writer {
            self.at_random(random, &[], &mut counts, Some(&mut of_case), &mut rust, &mut mir);
        }
        if !is_whole && !own.is_empty() {
            self.of_own(own, has_device, &mut counts, &mut of_case, &mut rust, &mut mir);
        }
        self.report(name, is_whole, &counts);
    }

    // Gives a function the numbers of its own text, all combinations of them if there are not too many. A branch that only several numbers
    // at once take, as a `match` on a tuple, is taken by none at random. What a device answers is at random.
    fn of_own(
        &self,
        own: &'static [u64],
        has_device: bool,
        counts: &mut Counts,
        of_case: &mut dyn FnMut(&mut Choices) -> Of,
        rust: Side,
        mir: Side,
    ) {
        let (mut choices, mut made, most) = (Choices::new(Mode::All, self.seed), 0, self.random);
        choices.own = own;
        while !has_device && made < most {
            counts.case(&mut choices, Some(&mut *of_case), rust, mir);
            made += 1;
            if !choices.advance() {
                return;
            }
        }
        self.at_random(most, own, counts, Some(of_case), rust, mir);
    }

    /// Compares sequences of calls of one value.
    pub fn sequences(
        &mut self,
        name: &str,
        mut rust: impl FnMut(&mut Choices) -> Vec<u64>,
        mut mir: impl FnMut(&mut Choices) -> Vec<u64>,
    ) {
        if !name.contains(&self.only) {
            return;
        }
        let mut counts = Counts::default();
        self.at_random(self.sequences, &[], &mut counts, None, &mut rust, &mut mir);
        self.report(name, false, &counts);
    }

    fn at_random(
        &self,
        count: u64,
        own: &'static [u64],
        counts: &mut Counts,
        mut of_case: Option<&mut dyn FnMut(&mut Choices) -> Of>,
        rust: Side,
        mir: Side,
    ) {
        let mut choices = Choices::new(Mode::Random, self.seed ^ 0xD1B5_4A32_D192_ED03);
        choices.own = own;
        for turn in 0..count {
            choices.answers = 3 + if turn % 8 == 0 { 700 } else { turn as usize % 90 };
            counts.case(&mut choices, of_case.as_mut().map(|of_case| &mut **of_case as _), rust, mir);
            choices.advance();
        }
    }

    fn report(&self, name: &str, is_whole: bool, counts: &Counts) {
        let Counts { cases, no_answer, outside, refused, differ, first } = counts;
        println!("compared\t{name}\t{cases}\t{is_whole}\t{no_answer}\t{outside}\t{refused}\t{differ}\t{first}");
    }
}

/// Runs all comparisons as the command line says, and prints what they found and which places of the MIR were not reached.
pub fn run(all: fn(&mut Run), places: usize) {
    let words: Vec<String> = std::env::args().collect();
    let number = |at: usize| words[at].parse().unwrap();
    std::panic::set_hook(Box::new(|_| {}));
    all(&mut Run { random: number(1), sequences: number(2), seed: number(3), only: words[4].clone() });
    let missed: Vec<String> = (0..places).filter(|at| !REACHED[*at].load(Ordering::Relaxed)).map(|at| format!("{at}")).collect();
    print!("missed\t{}\n", missed.join(" "));
}
