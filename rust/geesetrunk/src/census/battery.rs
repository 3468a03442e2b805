//! What is asked of a chip, and how: the interpreter of the steps that `rules` has. It needs two functions and a clock, and no library.
//!
//! `examples/census/census.c` does the same for machines without Rust. A test there takes the census of each chip by both, and compares
//! rows and recordings.

use super::rules::{DATA_STEPS, FIRST, INTERRUPTS, MODEM, REGISTERS, RESETS, RULES, Rule, Step};
use uart_spec::access::Access;
use uart_spec::registers::offsets::{DATA, DLL, DLM, FCR, IER, ISR, LCR, LSR, MCR, MSR, SPR};

const DATA_READY: u8 = 0x01;
const OVERRUN: u8 = 0x02;
const BREAK: u8 = 0x10;
const ERRORS: u8 = 0x1e;
const THR_EMPTY: u8 = 0x20;
const TRANSMITTER_EMPTY: u8 = 0x40;
const FIFO_ERROR: u8 = 0x80;
const OUT2: u8 = 0x08;
const LOOPBACK: u8 = 0x10;
const DLAB: u8 = 0x80;
// What ISR shows in its low four bits.
const CODE: u8 = 0x0f;
const NONE: u8 = 0x01;
const SENDS: u8 = 0x02;
const RECEIVED: u8 = 0x04;
const TIMEOUT: u8 = 0x0c;

// 9,600 baud at a PC's clock, the nanoseconds that a character takes then, and more characters than any FIFO holds.
const DIVISOR: u16 = 12;
const NOMINAL: u32 = 1_041_667;
const MOST: u32 = 300;
// How often something is measured that fails if who looks is held up.
const TRIES: u32 = 3;
const MILLISECOND: u64 = 1_000_000;
// Nanoseconds of a step in which a recording has the time.
const STEP: u64 = 1024;
// A clock that shows the same for so many looks stands: a look takes some nanoseconds at least, and a clock ticks each few milliseconds.
const MOST_LOOKS: u32 = 10_000_000;
// Is added to a count of characters that are not those that were sent.
pub(super) const OTHERS: u32 = 1000;

/// A chip, and a clock.
pub trait Chip {
    /// Why an access failed.
    type Fault;

    /// Reads a register.
    ///
    /// # Errors
    ///
    /// Why it cannot be read.
    fn read(&mut self, offset: usize) -> Result<u8, Self::Fault>;

    /// Writes a register.
    ///
    /// # Errors
    ///
    /// Why it cannot be written.
    fn write(&mut self, offset: usize, value: u8) -> Result<(), Self::Fault>;

    /// Returns the time in nanoseconds, which passes by itself: each wait ends by it. One that stands ends the census.
    ///
    /// # Errors
    ///
    /// Why the time is not known.
    fn now(&mut self) -> Result<u64, Self::Fault>;
}

/// What was seen of a rule.
#[derive(Clone, Copy, Debug, PartialEq, Eq)]
pub enum Seen {
    /// The chip does not show it.
    NotSeen,
    /// It was seen to hold.
    Holds,
    /// It was seen not to hold.
    Differs,
}

/// What was seen of a rule, and a value: of a rule that differs the one of the first time that it did.
#[derive(Clone, Copy, Debug, PartialEq, Eq)]
pub struct Row {
    /// Whether it holds.
    pub seen: Seen,
    /// What was read, counted or measured.
    pub value: u32,
}

/// How a census ended.
#[derive(Clone, Copy, Debug, PartialEq, Eq)]
pub enum Ended {
    /// All was asked.
    Done,
    /// MCR reads FF, which no chip shows. Nothing was written.
    Nobody,
    /// DLAB is set, or the transmitter is not empty within a second: somebody uses the port. Nothing but IER was written, as it was.
    InUse,
    /// MCR does not keep bit 4, or the first character did not come back, and may be on the line. The chip was restored.
    NoLoopback,
    /// In loopback the transmitter did not become empty. The chip was restored.
    Stalled,
    /// The clock shows the same time for ever. The chip was restored.
    NoClock,
    /// MSR and ISR read FF at the end, as they do where nobody is: the chip went away meanwhile.
    Gone,
}

/// An access and its time. Of equal reads of one wait the first and the last are here, and those between them are counted with the first.
#[derive(Clone, Copy, Debug, PartialEq, Eq)]
pub struct Noted {
    /// The access.
    pub access: Access,
    /// Nanoseconds since the census began.
    pub time: u64,
    /// How many more reads were equal.
    pub more: u64,
}

/// What came of a census.
#[derive(Clone, Debug, PartialEq, Eq)]
pub struct Census {
    /// How it ended.
    pub ended: Ended,
    /// A row for each rule.
    pub rows: [Row; RULES.len()],
    /// All that was read and written.
    pub recording: Vec<Noted>,
}

impl Census {
    /// Returns the row of a rule.
    #[must_use]
    pub fn row(&self, rule: Rule) -> Row {
        self.rows[rule as usize]
    }
}

type Of<T, C> = Result<T, <C as Chip>::Fault>;

struct Run<'a, C: Chip> {
    chip: &'a mut C,
    rows: [Row; RULES.len()],
    recording: Vec<Noted>,
    // Nanoseconds, as measured.
    character: u32,
    // Whether there are FIFOs.
    has_fifos: bool,
    // Whether a look found the transmitter at work.
    has_time: bool,
    // The transmitter did not become empty, or the clock stands: from here on no wait is longer than a look.
    is_stalled: bool,
    is_without_clock: bool,
    // What the clock showed first.
    begin: u64,
    // Of the last access, since then, in steps: what a recording has, and all that is decided by.
    time: u64,
    // When the last wait last saw that it had to go on, or when it began.
    in_vain: u64,
    // Whether the next read is one of a wait, and not its first; and how many of the wait in a row have shown the same.
    is_wait: bool,
    repeats: u64,
    // What the clock showed last, and for how many looks.
    last_look: u64,
    same_looks: u32,
}

impl<C: Chip> Run<'_, C> {
    fn look_at_clock(&mut self) -> Of<u64, C> {
        let look = self.chip.now()?;
        if look == self.last_look {
            self.same_looks += 1;
            if self.same_looks >= MOST_LOOKS {
                self.is_without_clock = true;
                self.is_stalled = true;
            }
        } else {
            self.last_look = look;
            self.same_looks = 0;
        }
        Ok(look.wrapping_sub(self.begin) & !(STEP - 1))
    }

    // Counts a read that shows the same again as an earlier one of its wait, and notes each other access.
    fn record(&mut self, access: Access) {
        let is_same = self
            .recording
            .last()
            .is_some_and(|last| last.access == access);
        self.repeats = if self.is_wait && is_same {
            self.repeats + 1
        } else {
            0
        };
        let time = self.time;
        match self.recording.as_mut_slice() {
            // As many as examples/census can count.
            [.., first, last] if self.repeats > 1 && first.more < 0xffff => {
                first.more += 1;
                last.time = time;
            }
            _ => self.recording.push(Noted {
                access,
                time,
                more: 0,
            }),
        }
    }

    fn get(&mut self, offset: usize) -> Of<u8, C> {
        self.time = self.look_at_clock()?;
        let value = self.chip.read(offset)?;
        self.record(Access::Read(offset, value));
        Ok(value)
    }

    fn put(&mut self, offset: usize, value: u8) -> Of<(), C> {
        self.time = self.look_at_clock()?;
        self.chip.write(offset, value)?;
        self.record(Access::Write(offset, value));
        Ok(())
    }

    // Returns whether so many nanoseconds had passed at the last access. What stalled waits no more, so that the census ends.
    fn has_passed(&self, start: u64, ns: u64) -> bool {
        self.time - start >= ns || self.is_stalled
    }

    // Waits until so many nanoseconds have passed since the last access.
    fn pause(&mut self, ns: u32) -> Of<(), C> {
        while self.look_at_clock()? - self.time < u64::from(ns) && !self.is_stalled {}
        Ok(())
    }

    // Notes what was seen of a rule. One that was seen to differ stays so.
    fn note(&mut self, rule: Rule, holds: bool, value: impl Into<u32>) {
        let row = &mut self.rows[rule as usize];
        if row.seen != Seen::Differs {
            let seen = if holds { Seen::Holds } else { Seen::Differs };
            *row = Row {
                seen,
                value: value.into(),
            };
        }
    }

    fn get_code(&mut self) -> Of<u8, C> {
        Ok(self.get(ISR)? & CODE)
    }

    fn get_lsr(&mut self) -> Of<u8, C> {
        let value = self.get(LSR)?;
        let is_empty = value & TRANSMITTER_EMPTY != 0;
        self.note(Rule::TemtThre, !is_empty || value & THR_EMPTY != 0, value);
        self.has_time |= !is_empty;
        Ok(value)
    }

    // Reads again and again until a value is as wanted or the time is over, and returns the last one.
    fn wait_until(
        &mut self,
        ns: u64,
        read: impl Fn(&mut Self) -> Of<u8, C>,
        mut is_wanted: impl FnMut(u8) -> bool,
    ) -> Of<u8, C> {
        let start = self.time;
        self.in_vain = start;
        loop {
            let value = read(self)?;
            let is_wanted = is_wanted(value);
            if !is_wanted {
                self.in_vain = self.time;
            }
            if is_wanted || self.has_passed(start, ns) {
                self.is_wait = false;
                return Ok(value);
            }
            self.is_wait = true;
        }
    }

    // Waits for these bits of LSR. Errors of each look are in what is returned, since a look clears them.
    fn wait_for(&mut self, bits: u8, ms: u64) -> Of<u8, C> {
        let mut errors = 0;
        let value = self.wait_until(ms * MILLISECOND, Self::get_lsr, |value| {
            errors |= value & ERRORS;
            value & bits == bits
        })?;
        Ok(value | errors)
    }

    fn flush(&mut self) -> Of<u8, C> {
        let value = self.wait_for(TRANSMITTER_EMPTY, 3000)?;
        self.is_stalled |= value & TRANSMITTER_EMPTY == 0;
        Ok(value)
    }

    fn wait_for_room(&mut self) -> Of<u8, C> {
        let value = self.wait_for(THR_EMPTY, 1000)?;
        self.is_stalled |= value & THR_EMPTY == 0;
        Ok(value)
    }

    // Returns LSR as it was when the character had gone out. It may be received some bits later.
    fn send(&mut self, value: u8) -> Of<u8, C> {
        self.put(DATA, value)?;
        let lsr = self.flush()?;
        self.pause(self.character / 4)?;
        Ok(lsr)
    }

    // Waits for this code of ISR, and returns the nanoseconds, if it comes.
    fn wait_for_code(&mut self, wanted: u8, ms: u64) -> Of<Option<u32>, C> {
        let start = self.time;
        let code = self.wait_until(ms * MILLISECOND, Self::get_code, |code| code == wanted)?;
        Ok((code == wanted).then(|| (self.time - start) as u32 + 1))
    }

    // Reads what waits, and returns how many characters that were: OTHERS more, if they are not `from`, `from` + 1 and so on.
    fn take(&mut self, from: u8) -> Of<u32, C> {
        let (mut count, mut are_others) = (0_u32, false);
        while count < 2 * MOST && self.get_lsr()? & DATA_READY != 0 {
            are_others |= self.get(DATA)? != from.wrapping_add(count as u8);
            count += 1;
        }
        Ok(count + if are_others { OTHERS } else { 0 })
    }

    fn set_divisor(&mut self, divisor: u16) -> Of<(), C> {
        let [low, high] = divisor.to_le_bytes();
        self.put(LCR, 0x83)?;
        self.put(DLL, low)?;
        self.put(DLM, high)?;
        self.put(LCR, 0x03)
    }

    // Starts a question: an empty chip, interrupts off, 8N1, and FCR as said.
    fn begin(&mut self, fcr: u8) -> Of<(), C> {
        self.put(IER, 0)?;
        self.put(MCR, LOOPBACK)?;
        self.put(LCR, 0x03)?;
        self.flush()?;
        self.put(FCR, if fcr & 1 != 0 { fcr | 0x06 } else { 0 })?;
        self.take(0)?;
        self.get(ISR)?;
        self.get(MSR)?;
        Ok(())
    }

    // FCR with FIFOs on and level 14, or 0 if there are none.
    fn fcr(&self) -> u8 {
        if self.has_fifos { 0xc1 } else { 0 }
    }

    fn begin_on(&mut self) -> Of<(), C> {
        self.begin(self.fcr())
    }

    // How long a pause takes that is named by characters. On a chip that sends at once a character has its length at 9,600 baud.
    fn usual_character(&self) -> u32 {
        if self.has_time {
            self.character
        } else {
            NOMINAL
        }
    }

    fn keep(&mut self, offset: usize, bits: u8, beside: u8, rule: Rule) -> Of<(), C> {
        for pattern in [0x00, 0x55, 0xaa, 0xff, 0x0f] {
            self.put(offset, pattern & bits | beside)?;
            let value = self.get(offset)?;
            self.note(rule, value & bits == pattern & bits, value);
        }
        Ok(())
    }

    fn do_step(&mut self, step: Step) -> Of<(), C> {
        match step {
            Step::Begin | Step::BeginFifo => self.begin_on()?,
            Step::BeginOff => self.begin(0)?,
            Step::Timed => {}
            Step::Write(offset, value) => self.put(offset, value)?,
            Step::Read(offset, bits, wanted, rule) => {
                let value = if offset == LSR {
                    self.get_lsr()?
                } else {
                    self.get(offset)?
                };
                self.note(rule, value & bits == wanted, value);
            }
            Step::Look(offset) => {
                self.get(offset)?;
            }
            Step::Keep(offset, bits, beside, rule) => self.keep(offset, bits, beside, rule)?,
            Step::Send(value) => {
                self.send(value)?;
            }
            Step::Ready => {
                self.wait_for(DATA_READY, 50)?;
            }
            Step::Room => {
                self.wait_for(THR_EMPTY, 50)?;
            }
            Step::Pause(characters) => {
                self.pause(u32::from(characters) * self.usual_character())?
            }
            Step::Flush => {
                self.flush()?;
            }
        }
        Ok(())
    }

    // What stands behind `BeginFifo` is left out on a chip without FIFOs, and what stands behind `Timed` on one that sends at once.
    fn ask(&mut self, steps: &[Step]) -> Of<(), C> {
        let mut is_left_out = false;
        for &step in steps {
            if self.is_stalled {
                break;
            }
            match step {
                Step::Begin | Step::BeginOff => is_left_out = false,
                Step::BeginFifo => is_left_out = !self.has_fifos,
                Step::Timed => is_left_out |= !self.has_time,
                _ => {}
            }
            if !is_left_out {
                self.do_step(step)?;
            }
        }
        Ok(())
    }

    // Sends this many, each as soon as THR is empty, and returns the time that it took. What comes back is not read.
    fn time_of(&mut self, count: u32) -> Of<u32, C> {
        self.begin_on()?;
        let start = self.time;
        for _ in 0..count {
            self.put(DATA, 0x55)?;
            self.wait_for_room()?;
        }
        self.flush()?;
        Ok((self.time - start) as u32)
    }

    // Returns the time of a character in nanoseconds, or 0 if it takes none. Who looks may be held up, so the least of some tries counts.
    // Without a chip that takes time one try is enough.
    fn time_of_character(&mut self) -> Of<u32, C> {
        let (mut few, mut many) = (self.time_of(2)?, self.time_of(10)?);
        for _ in 1..TRIES {
            if self.has_time {
                few = few.min(self.time_of(2)?);
                many = many.min(self.time_of(10)?);
            }
        }
        Ok(many.saturating_sub(few) / 8)
    }

    // DSR changes, and then CTS. A chip that notes neither shows nothing of this.
    fn ask_changes(&mut self) -> Of<(), C> {
        self.begin_on()?;
        self.put(MCR, LOOPBACK | 0x01)?;
        self.put(MCR, LOOPBACK | 0x03)?;
        let msr = self.get(MSR)?;
        if msr & 0x0f != 0 {
            self.note(Rule::DeltasStay, msr & 0x02 != 0, msr);
        }
        Ok(())
    }

    fn ask_fifos(&mut self) -> Of<(), C> {
        self.put(FCR, 0x00)?;
        let off = self.get(ISR)?;
        self.put(FCR, 0x01)?;
        let on = self.get(ISR)?;
        self.has_fifos = on & 0xc0 == 0xc0;
        if (off | on) & 0xc0 != 0 {
            let holds = self.has_fifos && off & 0xc0 == 0;
            self.note(Rule::FifoBits, holds, u16::from_be_bytes([off, on]));
        }
        Ok(())
    }

    // Sends a character, and looks for half of its time. Returns the last look that another followed within that time's end: who is held up
    // before that other one has looked in time all the same. What was sent before is out by then also where TRANSMITTER_EMPTY comes too
    // early.
    fn look_while_sending(&mut self) -> Of<u8, C> {
        self.begin_on()?;
        self.pause(2 * self.character)?;
        self.put(DATA, 0x55)?;
        let start = self.time;
        let mut next = self.get_lsr()?;
        let mut lsr = next;
        self.is_wait = true;
        while !self.has_passed(start, u64::from(self.character / 2)) {
            lsr = next;
            next = self.get_lsr()?;
        }
        self.is_wait = false;
        Ok(lsr)
    }

    fn ask_transmitter(&mut self) -> Of<(), C> {
        let mut lsr = TRANSMITTER_EMPTY;
        // Who looks may be held up until the character is out, so one try without an empty transmitter counts.
        for _ in 0..TRIES {
            if lsr & TRANSMITTER_EMPTY != 0 {
                lsr = self.look_while_sending()?;
            }
        }
        self.note(Rule::Temt, lsr & TRANSMITTER_EMPTY == 0, lsr);
        self.begin_on()?;
        self.put(DATA, 0x55)?;
        let lsr = self.wait_for_room()?;
        self.note(Rule::ThreFirst, lsr & TRANSMITTER_EMPTY == 0, lsr);
        Ok(())
    }

    fn ask_time(&mut self) -> Of<(), C> {
        self.has_time = false;
        self.character = self.time_of_character()?.max(1);
        let character = u64::from(self.character);
        let hertz = if self.has_time {
            (u64::from(DIVISOR) * 160 * 1000 * MILLISECOND / character) as u32
        } else {
            0
        };
        self.note(Rule::Time, self.has_time, hertz);
        if self.has_time {
            self.set_divisor(2 * DIVISOR)?;
            let twice = (u64::from(self.time_of_character()?) * 100 / character) as u32;
            self.set_divisor(DIVISOR)?;
            self.note(Rule::Divisor, (191..210).contains(&twice), twice);
        }
        self.ask_transmitter()
    }

    fn ask_burst(&mut self) -> Of<(), C> {
        let size = if self.has_fifos { 16 } else { 1 };
        self.begin_on()?;
        for value in (0x30..).take(size) {
            self.put(DATA, value)?;
        }
        self.flush()?;
        self.pause(self.character)?;
        self.wait_for(DATA_READY, 50)?;
        let count = self.take(0x30)?;
        self.note(Rule::Burst, count == size as u32, count);
        Ok(())
    }

    // As a driver meets the chip most often: THR is empty, and the shift register is not. Returns how many come back of a character and a
    // burst behind it, OTHERS more if they are not what was written, and whether the character was still going out.
    fn count_burst_behind(&mut self, size: u8) -> Of<(u32, bool), C> {
        self.begin_on()?;
        self.put(DATA, 0x30)?;
        let was_behind = self.wait_for_room()? & TRANSMITTER_EMPTY == 0;
        for value in 0x31..=0x30 + size {
            self.put(DATA, value)?;
        }
        // Taken as they come, since a receiver does not hold them all, and by the time alone: a chip that lost some may show anything.
        let (start, wait) = (self.time, (u64::from(size) + 8) * u64::from(self.character));
        let (mut count, mut are_others) = (0_u32, false);
        while count < MOST && !self.has_passed(start, wait) {
            let is_ready = self.get_lsr()? & DATA_READY != 0;
            self.is_wait = !is_ready;
            if is_ready {
                are_others |= self.get(DATA)? != 0x30_u8.wrapping_add(count as u8);
                count += 1;
            }
        }
        self.is_wait = false;
        // What is left in a transmitter that never shows room ends here.
        self.put(FCR, if self.has_fifos { self.fcr() | 0x06 } else { 0 })?;
        Ok((count + if are_others { OTHERS } else { 0 }, was_behind))
    }

    // Who looks may be held up until a receiver overruns, so one try in which all come back counts.
    fn ask_burst_behind(&mut self) -> Of<(), C> {
        let size = if self.has_fifos { 16 } else { 1 };
        let all = u32::from(size) + 1;
        let (mut count, mut was_behind) = (0, false);
        for _ in 0..TRIES {
            if !(was_behind && count == all) {
                (count, was_behind) = self.count_burst_behind(size)?;
            }
        }
        if was_behind {
            self.note(Rule::BurstBehind, count == all, count);
        }
        Ok(())
    }

    fn ask_receive_fifo(&mut self) -> Of<(), C> {
        let mut size = 0;
        self.begin_on()?;
        while size < MOST && !self.is_stalled && self.send(size as u8)? & OVERRUN == 0 {
            size += 1;
        }
        self.note(Rule::ReceiveSize, size == 16, size);
        if size == MOST {
            return Ok(());
        }
        let lsr = self.get_lsr()?;
        self.note(Rule::OverrunClears, lsr & OVERRUN == 0, lsr);
        let count = self.take(0)?;
        self.note(Rule::OverrunNewest, count == size, count);
        Ok(())
    }

    // Written within the time of a character, so that nothing leaves meanwhile but the first. Else nothing is seen.
    fn ask_send_fifo(&mut self) -> Of<(), C> {
        self.begin_on()?;
        self.set_divisor(4 * DIVISOR)?;
        let start = self.time;
        for value in 0..MOST {
            self.put(DATA, value as u8)?;
        }
        let mut lsr = self.get_lsr()?;
        let passed = self.time - start;
        let (mut count, mut are_others) = (0_u32, false);
        while lsr & (TRANSMITTER_EMPTY | DATA_READY) != TRANSMITTER_EMPTY
            && count < MOST
            && !self.is_stalled
        {
            if lsr & DATA_READY != 0 {
                are_others |= self.get(DATA)? != count as u8;
                count += 1;
            }
            lsr = self.get_lsr()?;
            self.is_wait = true;
        }
        self.is_wait = false;
        if passed < 3 * u64::from(self.character) && !are_others {
            self.note(Rule::SendSize, count == 17, count.wrapping_sub(1));
        }
        self.begin_on()?;
        self.set_divisor(DIVISOR)
    }

    fn ask_sizes(&mut self) -> Of<(), C> {
        self.ask_burst()?;
        if self.has_time {
            self.ask_burst_behind()?;
        }
        if !self.has_fifos {
            return Ok(());
        }
        self.ask_receive_fifo()?;
        if self.has_time {
            self.ask_send_fifo()?;
        }
        Ok(())
    }

    // Sends until received data interrupt, and returns how many that took, or 0 if they do not, and whether a timeout did before.
    fn count_to_level(&mut self, level: u8) -> Of<(u32, bool), C> {
        let mut had_timeout = false;
        self.begin(0x01 | level << 6)?;
        self.put(IER, 0x01)?;
        for count in 1..=64 {
            if self.is_stalled {
                break;
            }
            self.send((count - 1) as u8)?;
            let code = self.get_code()?;
            if code == RECEIVED {
                return Ok((count, had_timeout));
            }
            had_timeout |= code == TIMEOUT;
        }
        Ok((0, had_timeout))
    }

    // A timeout before the level says that who looks was held up for four characters, or that on this chip no time passes between two of
    // them. It may hide the level. So then it is tried again, and a wrong count counts for nothing.
    fn ask_level(&mut self, level: u8, rule: Rule, expected: u32) -> Of<(), C> {
        let (mut count, mut had_timeout) = (0, true);
        for _ in 0..TRIES {
            if had_timeout && count != expected {
                (count, had_timeout) = self.count_to_level(level)?;
            }
        }
        if had_timeout && count != expected {
            return Ok(());
        }
        self.note(rule, count == expected, count);
        if count > 0 {
            self.get(DATA)?;
            let code = self.get_code()?;
            self.note(Rule::TriggerEnds, code != RECEIVED, code);
        }
        Ok(())
    }

    fn tenths_of_character(ns: u32, character: u32) -> u32 {
        (u64::from(ns) * 10 / u64::from(character)) as u32
    }

    // Whether a timeout that was waited for comes three to six characters behind one that was sent at `sent` and took `least` at least. Who
    // looks may be held up: so it is too early by the look that shows it, and too late by the last one that does not.
    fn note_timeout(&mut self, sent: u64, least: u64) {
        let character = u64::from(self.character);
        let arrived = sent + character;
        let is_early = self.time < sent + 4 * least;
        let is_late = self.in_vain > arrived + 6 * character;
        let tenths = self.time.saturating_sub(arrived) * 10 / character;
        self.note(Rule::TimeoutWhen, !is_early && !is_late, tenths as u32);
    }

    fn ask_timeout(&mut self) -> Of<(), C> {
        self.begin(0xc1)?;
        self.put(IER, 0x01)?;
        self.put(DATA, 0x41)?;
        let sent = self.time;
        self.flush()?;
        let least = self.in_vain - sent;
        let Some(ns) = self.wait_for_code(TIMEOUT, 50)? else {
            self.note(Rule::Timeout, false, 0_u32);
            return Ok(());
        };
        let tenths = Self::tenths_of_character(ns, self.usual_character());
        self.note(Rule::Timeout, true, tenths);
        if self.has_time {
            self.note_timeout(sent, least);
        }
        self.send(0x42)?;
        let code = self.get_code()?;
        self.note(Rule::TimeoutKept, code == TIMEOUT, code);
        self.wait_for_code(TIMEOUT, 50)?;
        self.get(DATA)?;
        // Where no time passes between two accesses, the next timeout is there at once.
        if !self.has_time {
            self.get(DATA)?;
        }
        let code = self.get_code()?;
        self.note(Rule::TimeoutEnds, code == NONE, code);
        Ok(())
    }

    fn ask_levels(&mut self) -> Of<(), C> {
        if !self.has_fifos {
            return Ok(());
        }
        let levels = [
            (0, Rule::Trigger1, 1),
            (1, Rule::Trigger4, 4),
            (2, Rule::Trigger8, 8),
            (3, Rule::Trigger14, 14),
        ];
        for (level, rule, expected) in levels {
            self.ask_level(level, rule, expected)?;
        }
        self.ask_timeout()
    }

    fn ask_thr_empty(&mut self) -> Of<(), C> {
        self.begin_on()?;
        self.put(IER, 0x02)?;
        self.get(ISR)?;
        self.put(DATA, 0x55)?;
        self.wait_for_room()?;
        let ns = self.wait_for_code(SENDS, 50)?;
        let code = if ns.is_some() { SENDS } else { NONE };
        self.note(Rule::ThreSent, ns.is_some(), code);
        if let Some(ns) = ns.filter(|_| self.has_time) {
            let tenths = Self::tenths_of_character(ns, self.character);
            self.note(Rule::ThreLate, ns < self.character / 5, tenths);
        }
        Ok(())
    }

    // Without FIFO: an overrun, a character, an empty THR and a change of CTS at once, of which each has its own end.
    fn ask_priorities(&mut self) -> Of<(), C> {
        let mut seen = 0;
        self.begin(0)?;
        self.send(0x41)?;
        self.put(DATA, 0x42)?;
        self.pause(2 * self.character)?;
        self.put(MCR, LOOPBACK | 0x02)?;
        self.put(IER, 0x0f)?;
        for look in 0..8 {
            seen = seen << 4 | u32::from(self.get_code()?);
            let ends_by = match look {
                1 => Some(LSR),
                3 => Some(DATA),
                6 => Some(MSR),
                _ => None,
            };
            if let Some(offset) = ends_by {
                self.get(offset)?;
            }
        }
        self.note(Rule::Priority, seen == 0x6644_2001, seen);
        Ok(())
    }

    // The data sheet says that a break acts on the pin alone, so a chip need not loop it back: then nothing is seen.
    fn ask_break(&mut self) -> Of<(), C> {
        if !self.has_fifos {
            return Ok(());
        }
        self.begin_on()?;
        self.send(0x41)?;
        self.put(LCR, 0x43)?;
        self.pause(3 * self.usual_character())?;
        self.put(LCR, 0x03)?;
        self.pause(self.usual_character())?;
        let behind = self.get_lsr()?;
        let lsr = if self.get(DATA)? == 0x41 {
            self.get_lsr()?
        } else {
            0
        };
        if (behind | lsr) & BREAK == 0 {
            return Ok(());
        }
        self.note(Rule::Break, behind & BREAK == 0, behind);
        self.note(Rule::BreakBit7, behind & FIFO_ERROR != 0, behind);
        let lsr = self.get_lsr()?;
        self.note(Rule::BreakClears, lsr & BREAK == 0, lsr);
        let byte = self.get(DATA)?;
        let is_alone = byte == 0 && self.get_lsr()? & DATA_READY == 0;
        self.note(Rule::BreakZero, is_alone, byte);
        Ok(())
    }

    // How the questions ended that could be asked.
    fn ended(&self) -> Ended {
        if self.is_without_clock {
            Ended::NoClock
        } else if self.is_stalled {
            Ended::Stalled
        } else {
            Ended::Done
        }
    }

    fn ask_all(&mut self) -> Of<Ended, C> {
        // Before anything else: without loopback the outputs would follow what is written to MCR.
        if self.get(MCR)? & LOOPBACK == 0 {
            return Ok(Ended::NoLoopback);
        }
        self.ask(&REGISTERS)?;
        self.ask(&MODEM)?;
        self.ask_changes()?;
        // If the first character does not come back, it may be on the line, and the others are to stay here.
        self.ask(&FIRST)?;
        if self.rows[Rule::Echo as usize].seen != Seen::Holds {
            return Ok(match self.ended() {
                Ended::Done => Ended::NoLoopback,
                ended => ended,
            });
        }
        self.ask_fifos()?;
        self.ask_time()?;
        self.ask(&DATA_STEPS)?;
        self.ask_sizes()?;
        self.ask_levels()?;
        self.ask(&INTERRUPTS)?;
        self.ask_thr_empty()?;
        self.ask_priorities()?;
        self.ask(&RESETS)?;
        self.ask_break()?;
        Ok(self.ended())
    }

    // As `leave_loopback` does: what comes back is no change that anybody made, and OUT2 and IER stay off until it is read. Returns whether
    // somebody is there.
    fn restore(&mut self, found: &Found) -> Of<bool, C> {
        self.put(IER, 0)?;
        self.put(FCR, 0x07)?;
        // FCR cannot be read: as Linux leaves a 16550A, with level 8.
        self.put(FCR, if found.isr & 0xc0 != 0 { 0x81 } else { 0x00 })?;
        self.set_divisor(u16::from_le_bytes([found.dll, found.dlm]))?;
        self.put(LCR, found.lcr)?;
        self.take(0)?;
        self.put(SPR, found.scr)?;
        self.put(MCR, found.mcr & !OUT2)?;
        let msr = self.get(MSR)?;
        let isr = self.get(ISR)?;
        self.put(MCR, found.mcr)?;
        self.put(IER, found.ier)?;
        Ok(msr != 0xff || isr != 0xff)
    }

    // Asks all, and restores the chip, also behind a fault as far as it answers.
    fn take_census(&mut self) -> Of<Ended, C> {
        let lcr = self.get(LCR)?;
        let mcr = self.get(MCR)?;
        // No chip has MCR FF; a port whose divisor latch is open, or that still sends, is another's.
        if mcr == 0xff {
            return Ok(Ended::Nobody);
        }
        if lcr & DLAB != 0 {
            return Ok(Ended::InUse);
        }
        let ier = self.get(IER)?;
        self.put(IER, 0)?;
        if self.wait_for(TRANSMITTER_EMPTY, 1000)? & TRANSMITTER_EMPTY == 0 {
            self.put(IER, ier)?;
            return Ok(match self.is_without_clock {
                true => Ended::NoClock,
                false => Ended::InUse,
            });
        }
        let isr = self.get(ISR)?;
        let scr = self.get(SPR)?;
        self.put(MCR, LOOPBACK)?;
        self.put(LCR, DLAB)?;
        let dll = self.get(DLL)?;
        let dlm = self.get(DLM)?;
        self.put(LCR, 0x03)?;
        let found = Found {
            scr,
            lcr,
            ier,
            mcr,
            isr,
            dll,
            dlm,
        };
        let asked = self.ask_all();
        self.is_wait = false;
        let is_there = self.restore(&found);
        match (asked?, is_there?) {
            (ended, true) => Ok(ended),
            (_, false) => Ok(Ended::Gone),
        }
    }
}

// What of a chip can be read, and is put back.
struct Found {
    scr: u8,
    lcr: u8,
    ier: u8,
    mcr: u8,
    isr: u8,
    dll: u8,
    dlm: u8,
}

/// Asks the chip in loopback, and restores it. What waited in its receiver is lost, and a reset of its FIFOs is made.
///
/// # Errors
///
/// Why the first access failed that did. Behind it the chip is restored as far as it answers.
pub fn take<C: Chip>(chip: &mut C) -> Result<Census, C::Fault> {
    let begin = chip.now()?;
    let not_seen = Row {
        seen: Seen::NotSeen,
        value: 0,
    };
    let mut run = Run {
        chip,
        rows: [not_seen; RULES.len()],
        recording: Vec::new(),
        character: 1,
        has_fifos: false,
        has_time: false,
        is_stalled: false,
        is_without_clock: false,
        begin,
        time: 0,
        in_vain: 0,
        is_wait: false,
        repeats: 0,
        last_look: 0,
        same_looks: 0,
    };
    let ended = run.take_census()?;
    Ok(Census {
        ended,
        rows: run.rows,
        recording: run.recording,
    })
}
