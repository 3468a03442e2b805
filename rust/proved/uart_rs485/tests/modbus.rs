//! Modbus RTU at a bus of two wires: a master asks and a slave answers, over two chips whose transceivers are at one bus. A character that
//! a transceiver did not pass on whole is lost, and so each byte has to lie between the switch to send and the switch to receive.
//!
//! The master waits for what it needs, as a program without interrupts does; the slave is a table of states that runs beside it. Each
//! access of the master is a tick. `GEESETRUNK_MODBUS_FRAMES` says how many frames there are; the nightly has a million.

use proved_uart_rs485::{Direction, DirectionLine, HalfDuplex};
use std::cell::RefCell;
use std::num::NonZeroU64;
use std::rc::Rc;
use uart_16550::Uart16550;
use uart_16550::backend::Backend;
use uart_live::{Chip, LiveChip, WIRE_ROOM};
use uart_spec::registers::{LSR, MCR, offsets};
use uart_spec::{Config, Setup};

/// So many frames are sent at least, if nothing else is said.
const FRAMES: u64 = if cfg!(debug_assertions) { 8_000 } else { 40_000 };

/// How long a character takes.
const CHAR: u64 = 8;
/// How long the bus is silent before a frame: three and a half characters.
const SILENT: u64 = CHAR * 7 / 2;
/// How far characters of a frame may be apart: one and a half.
const GAP: u64 = CHAR * 3 / 2;
/// How long a transceiver takes to drive the bus.
const TURN: u64 = 3;
/// How long the master waits for the first byte of an answer.
const TIMEOUT: u64 = 60 * CHAR;
/// The master gives up after so many questions in a row without an answer.
const TRIES: u32 = 50;

const DIRECTION: Direction = Direction {
    line: DirectionLine::Rts,
    sends_when_set: true,
};

const ADDRESS: u8 = 0x11;
const READ_REGISTERS: u8 = 3;
const WRITE_REGISTER: u8 = 6;
const WRITE_REGISTERS: u8 = 16;
/// In the function of an answer: the slave refuses, and a code says why.
const EXCEPTION: u8 = 0x80;
const ILLEGAL_ADDRESS: u8 = 2;
const REGISTERS: usize = 32;
const MOST_REGISTERS: usize = 12;

const MASTER: usize = 0;
const SLAVE: usize = 1;

/// Pseudorandom numbers: xorshift.
struct Random(u64);

impl Random {
    fn of(seed: u64) -> Self {
        Random(seed.wrapping_mul(0x9e37_79b9_7f4a_7c15) | 1)
    }

    fn below(&mut self, end: u64) -> u64 {
        self.0 ^= self.0 << 13;
        self.0 ^= self.0 >> 7;
        self.0 ^= self.0 << 17;
        (self.0 >> 11) % end
    }

    fn is_one_in(&mut self, cases: u64) -> bool {
        self.below(cases) == 0
    }
}

/// What a bus is like.
#[derive(Clone, Copy, Debug)]
struct Setting {
    /// The receivers hear what their own end sends.
    echoes: bool,
    /// Characters are disturbed, or do not come.
    has_noise: bool,
    /// The slave answers too late, or not at all, now and then.
    is_late: bool,
}

/// Two chips, their transceivers, and the two wires.
struct Wires {
    setting: Setting,
    now: u64,
    chips: [LiveChip; 2],
    /// Since when each transceiver sends.
    sends_since: [Option<u64>; 2],
    slave_ran: u64,
    random: Random,
    /// How many characters of this frame are disturbed yet: the CRC finds up to three wrong bits.
    disturbed: u64,
    /// How many characters of each end a transceiver did not pass on whole.
    lost: [u64; 2],
    /// How many characters met another end that sent.
    collisions: u64,
}

impl Wires {
    fn new(setting: Setting, seed: u64) -> Self {
        let chip = || LiveChip::new(Chip::Uart16550A, CHAR as u16, WIRE_ROOM).expect("in range");
        Wires {
            setting,
            now: 0,
            chips: [chip(), chip()],
            sends_since: [None; 2],
            slave_ran: 0,
            random: Random::of(seed),
            disturbed: 0,
            lost: [0; 2],
            collisions: 0,
        }
    }

    fn tick(&mut self) {
        self.now += 1;
        for end in [MASTER, SLAVE] {
            self.chips[end].ticks(1);
            for at in 0..self.chips[end].wire().len() {
                let byte = self.chips[end].wire()[at];
                self.pass_on(end, byte);
            }
            let sent = self.chips[end].wire().len();
            self.chips[end].take_wire(sent);
        }
    }

    /// A character of this end is over.
    fn pass_on(&mut self, end: usize, byte: u8) {
        let other = 1 - end;
        if self.sends_since[end].is_none_or(|since| self.now - since < CHAR) {
            self.lost[end] += 1;
            return;
        }
        let mut heard = Some(byte);
        if self.sends_since[other].is_some() {
            self.collisions += 1;
            heard = Some(self.random.below(256) as u8);
        } else if self.setting.has_noise && self.disturbed < 3 && self.random.is_one_in(60) {
            self.disturbed += 1;
            let bit = self.random.below(9);
            heard = (bit < 8).then(|| byte ^ (1 << bit));
        }
        let Some(heard) = heard else { return };
        if self.sends_since[other].is_none() {
            assert_eq!(self.chips[other].arrive(heard, LSR::empty()), Ok(()));
        }
        if self.setting.echoes {
            assert_eq!(self.chips[end].arrive(heard, LSR::empty()), Ok(()));
        }
    }

    /// Whether the slave runs now: at random, and each four ticks at least, since it measures how far characters are apart.
    fn is_slaves_turn(&mut self) -> bool {
        let runs = self.random.is_one_in(2) || self.now - self.slave_ran > 3;
        if runs {
            self.slave_ran = self.now;
        }
        runs
    }

    fn access(&mut self, end: usize, offset: u8, written: Option<u8>) -> u8 {
        let Some(value) = written else {
            return self.chips[end].read(offset);
        };
        self.chips[end].write(offset, value);
        if usize::from(offset) == offsets::MCR {
            let sends = MCR::from_bits_retain(value).contains(MCR::RTS);
            let since = self.sends_since[end];
            self.sends_since[end] = sends.then(|| since.unwrap_or(self.now));
            if sends && since.is_none() {
                self.disturbed = 0;
            }
        }
        0
    }
}

/// One end of the bus: of the master, whose accesses let time pass, or of the slave, which runs meanwhile.
struct End {
    wires: Rc<RefCell<Wires>>,
    beside: Option<Rc<RefCell<Slave>>>,
}

impl End {
    fn access(&mut self, offset: u8, written: Option<u8>) -> u8 {
        let Some(slave) = &self.beside else {
            return self.wires.borrow_mut().access(SLAVE, offset, written);
        };
        self.wires.borrow_mut().tick();
        let value = self.wires.borrow_mut().access(MASTER, offset, written);
        if self.wires.borrow_mut().is_slaves_turn() {
            slave.borrow_mut().run();
        }
        value
    }
}

impl Backend for End {
    fn read(&mut self, register_offset: u8) -> u8 {
        self.access(register_offset, None)
    }

    fn write(&mut self, register_offset: u8, value: u8) {
        self.access(register_offset, Some(value));
    }
}

fn at_bus(end: End) -> HalfDuplex<End> {
    let mut uart = Uart16550::new_with_backend(end);
    let setup = Setup {
        outputs: DIRECTION.receiving(MCR::READY),
        ..Setup::DEFAULT
    };
    assert_eq!(uart.init_with(Config::DEFAULT, &setup), Ok(()));
    // No end waits longer than for an answer: a character of an echo may not come.
    uart.set_spin_limit(NonZeroU64::new(2 * TIMEOUT).expect("no zero"));
    HalfDuplex::new(uart, DIRECTION).unwrap()
}

/// The sum at the end of each frame, its low byte first.
fn crc(bytes: &[u8]) -> u16 {
    bytes.iter().fold(0xffff, |sum, byte| {
        (0..8).fold(sum ^ u16::from(*byte), |sum, _| (sum >> 1) ^ if sum & 1 == 1 { 0xa001 } else { 0 })
    })
}

fn with_crc(mut frame: Vec<u8>) -> Vec<u8> {
    let sum = crc(&frame);
    frame.extend(sum.to_le_bytes());
    frame
}

/// Returns what is in a frame whose sum is right.
fn without_crc(frame: &[u8]) -> Option<&[u8]> {
    let (content, sum) = frame.split_last_chunk()?;
    (u16::from_le_bytes(*sum) == crc(content)).then_some(content)
}

fn words_of(bytes: &[u8]) -> Vec<u16> {
    bytes.chunks_exact(2).map(|pair| u16::from_be_bytes([pair[0], pair[1]])).collect()
}

/// What the slave does.
enum Doing {
    Listens,
    /// It has an answer, and begins with it at this time.
    Thinks(u64),
    /// The transceiver drives the bus from this time on.
    Turns(u64),
    /// So many bytes were sent, and of these so many heard.
    Sends { done: usize, heard: usize },
    /// All was sent, and it gives the bus back at this time at the earliest.
    Finishes(u64),
}

struct Slave {
    bus: HalfDuplex<End>,
    wires: Rc<RefCell<Wires>>,
    doing: Doing,
    registers: [u16; REGISTERS],
    frame: Vec<u8>,
    /// When the last byte came.
    last: u64,
    /// Characters of the frame were too far apart.
    is_torn: bool,
    answer: Vec<u8>,
    answers: u64,
}

impl Slave {
    fn new(wires: &Rc<RefCell<Wires>>) -> Self {
        let end = End {
            wires: Rc::clone(wires),
            beside: None,
        };
        Slave {
            bus: at_bus(end),
            wires: Rc::clone(wires),
            doing: Doing::Listens,
            registers: [0; REGISTERS],
            frame: Vec::new(),
            last: 0,
            is_torn: false,
            answer: Vec::new(),
            answers: 0,
        }
    }

    /// Does what can be done now, and does not wait.
    fn run(&mut self) {
        let (now, setting) = {
            let wires = self.wires.borrow();
            (wires.now, wires.setting)
        };
        match self.doing {
            Doing::Listens => self.listen(now, setting),
            Doing::Thinks(until) if now >= until => {
                self.bus.start_sending();
                self.doing = Doing::Turns(now + TURN);
            }
            Doing::Turns(until) if now >= until => {
                // What came while it was thinking is no question for it.
                while self.bus.try_receive_byte().is_ok() {}
                self.answers += 1;
                self.doing = Doing::Sends { done: 0, heard: 0 };
            }
            Doing::Sends { done, heard } => self.send(now, setting, done, heard),
            Doing::Finishes(until) if now >= until && self.bus.try_finish().is_ok() => {
                // The rest of an echo that met another end.
                while self.bus.try_receive_byte().is_ok() {}
                self.doing = Doing::Listens;
            }
            Doing::Thinks(_) | Doing::Turns(_) | Doing::Finishes(_) => {}
        }
    }

    fn listen(&mut self, now: u64, setting: Setting) {
        while self.bus.ready_to_receive().is_ok() {
            let received = self.bus.try_receive_with_errors().expect("a look has shown it");
            assert_eq!(received.errors, LSR::empty());
            self.is_torn |= !self.frame.is_empty() && now - self.last > CHAR + GAP;
            self.frame.push(received.byte);
            self.last = now;
        }
        if self.frame.is_empty() || now - self.last < SILENT {
            return;
        }
        let answer = if self.is_torn { None } else { self.answer_to_frame() };
        self.frame.clear();
        self.is_torn = false;
        let Some(answer) = answer else { return };
        self.answer = answer;
        let mut wires = self.wires.borrow_mut();
        let late = setting.is_late && wires.random.is_one_in(20);
        if late && wires.random.is_one_in(2) {
            return;
        }
        let thinks = if late { TIMEOUT - SILENT + wires.random.below(4 * CHAR) } else { wires.random.below(2 * CHAR) };
        self.doing = Doing::Thinks(now + thinks);
    }

    /// Returns the answer to a frame that is whole and for this slave, and does what it asks.
    fn answer_to_frame(&mut self) -> Option<Vec<u8>> {
        let content = without_crc(&self.frame)?;
        let [ADDRESS, function, ref rest @ ..] = *content else {
            return None;
        };
        let words = words_of(rest.get(..4)?);
        let (first, second) = (usize::from(words[0]), words[1]);
        let count = if function == WRITE_REGISTER { 1 } else { usize::from(second) };
        let is_there = first + count <= REGISTERS;
        match function {
            READ_REGISTERS | WRITE_REGISTER | WRITE_REGISTERS if !is_there => {
                Some(with_crc(vec![ADDRESS, function | EXCEPTION, ILLEGAL_ADDRESS]))
            }
            READ_REGISTERS => {
                let mut answer = vec![ADDRESS, function, 2 * count as u8];
                answer.extend(self.registers[first..first + count].iter().flat_map(|word| word.to_be_bytes()));
                Some(with_crc(answer))
            }
            WRITE_REGISTER => {
                self.registers[first] = second;
                Some(with_crc(content[..6].to_vec()))
            }
            WRITE_REGISTERS => {
                let values = words_of(rest.get(5..5 + 2 * count)?);
                self.registers[first..first + count].copy_from_slice(&values);
                Some(with_crc(content[..6].to_vec()))
            }
            _ => None,
        }
    }

    fn send(&mut self, now: u64, setting: Setting, mut done: usize, mut heard: usize) {
        // Its own echo is taken out by count, and what was not heard of it is not waited for.
        while setting.echoes && heard < done && self.bus.try_receive_byte().is_ok() {
            heard += 1;
        }
        done += self.bus.send_bytes(&self.answer[done..]).expect("the direction is to send");
        self.doing = Doing::Sends { done, heard };
        if done == self.answer.len() && self.bus.is_idle() {
            self.doing = Doing::Finishes(now + 2);
        }
    }
}

/// Why a question has no answer.
#[derive(Debug, PartialEq, Eq)]
enum Failure {
    /// The echo was not what was sent, or did not come.
    Echo,
    /// Nothing came, or too little.
    Silent,
    /// The sum is wrong, or the answer is another's.
    Wrong,
}

struct Master {
    bus: HalfDuplex<End>,
    wires: Rc<RefCell<Wires>>,
    /// What the slave's registers are to be.
    model: [u16; REGISTERS],
    random: Random,
    questions: u64,
    echoes: u64,
    silent: u64,
    wrong: u64,
    exceptions: u64,
}

impl Master {
    fn new(wires: &Rc<RefCell<Wires>>, slave: &Rc<RefCell<Slave>>, seed: u64) -> Self {
        let end = End {
            wires: Rc::clone(wires),
            beside: Some(Rc::clone(slave)),
        };
        Master {
            bus: at_bus(end),
            wires: Rc::clone(wires),
            model: [0; REGISTERS],
            random: Random::of(!seed),
            questions: 0,
            echoes: 0,
            silent: 0,
            wrong: 0,
            exceptions: 0,
        }
    }

    fn now(&self) -> u64 {
        self.wires.borrow().now
    }

    /// Waits for so many ticks. Each look is one.
    fn wait(&mut self, ticks: u64) {
        for _ in 0..ticks {
            self.bus.is_idle();
        }
    }

    /// Waits until nothing has come for three and a half characters, and drops what comes.
    fn wait_for_silence(&mut self) {
        let mut last = self.now();
        while self.now() - last < SILENT {
            if self.bus.try_receive_byte().is_ok() {
                last = self.now();
            }
        }
    }

    /// Sends a question, and leaves the bus switched to receive.
    fn send(&mut self, question: &[u8]) -> Result<(), Failure> {
        self.bus.start_sending();
        self.wait(TURN);
        let echoes = self.wires.borrow().setting.echoes;
        let mut done = 0;
        let mut heard = Ok(());
        while done < question.len() && heard.is_ok() {
            let count = self.bus.send_bytes(&question[done..]).expect("the direction is to send");
            if echoes {
                heard = self.bus.receive_echo(&question[done..done + count]);
            }
            done += count;
        }
        assert_eq!(self.bus.flush(), Ok(()));
        self.wait(2);
        assert_eq!(self.bus.try_finish(), Ok(()));
        heard.map_err(|_echo| Failure::Echo)
    }

    /// Receives into these slots until a time.
    fn receive_until(&mut self, end: u64, slots: &mut [u8]) -> Result<(), Failure> {
        let wires = Rc::clone(&self.wires);
        let received = self.bus.receive_bytes_while(slots, &mut || wires.borrow().now < end);
        received.map_err(|_stalled| Failure::Silent)
    }

    /// Asks once. Returns what is in the answer, without its sum.
    fn ask_once(&mut self, question: &[u8], len: usize) -> Result<Vec<u8>, Failure> {
        self.wait_for_silence();
        self.questions += 1;
        self.send(question)?;
        // No answer is shorter than one that refuses.
        let mut answer = vec![0; 5];
        let end = self.now() + TIMEOUT;
        self.receive_until(end, &mut answer)?;
        if answer[1] & EXCEPTION == 0 {
            answer.resize(len, 0);
            let end = self.now() + len as u64 * CHAR + GAP;
            self.receive_until(end, &mut answer[5..])?;
        }
        match without_crc(&answer) {
            Some(content) if content[0] == ADDRESS && content[1] & !EXCEPTION == question[1] => Ok(content.to_vec()),
            _ => Err(Failure::Wrong),
        }
    }

    /// Asks until there is an answer. The question stays the same: the answer to an earlier one may come late.
    fn ask(&mut self, question: Vec<u8>, len: usize) -> Vec<u8> {
        let question = with_crc(question);
        for _ in 0..TRIES {
            match self.ask_once(&question, len) {
                Ok(answer) => return answer,
                Err(Failure::Echo) => self.echoes += 1,
                Err(Failure::Silent) => self.silent += 1,
                Err(Failure::Wrong) => self.wrong += 1,
            }
        }
        panic!("no answer to {question:02x?}");
    }

    /// Asks something, and compares the answer with what it is to be.
    fn ask_anything(&mut self) {
        let first = self.random.below(REGISTERS as u64 + 4) as usize;
        let count = 1 + self.random.below(MOST_REGISTERS as u64) as usize;
        let function = [READ_REGISTERS, WRITE_REGISTER, WRITE_REGISTERS][self.random.below(3) as usize];
        let values: Vec<u16> = (0..count).map(|_| self.random.below(0x1_0000) as u16).collect();
        let count = if function == WRITE_REGISTER { 1 } else { count };
        let mut question = vec![ADDRESS, function, 0, first as u8];
        match function {
            WRITE_REGISTER => question.extend(values[0].to_be_bytes()),
            _ => question.extend([0, count as u8]),
        }
        let echo = question.clone();
        let mut len = 8;
        match function {
            READ_REGISTERS => len = 5 + 2 * count,
            WRITE_REGISTERS => {
                question.push(2 * count as u8);
                question.extend(values.iter().flat_map(|word| word.to_be_bytes()));
            }
            _ => {}
        }
        let answer = self.ask(question, len);
        if first + count > REGISTERS {
            assert_eq!(answer, [ADDRESS, function | EXCEPTION, ILLEGAL_ADDRESS]);
            self.exceptions += 1;
        } else if function == READ_REGISTERS {
            assert_eq!(words_of(&answer[3..]), self.model[first..first + count]);
        } else {
            assert_eq!(answer, echo);
            self.model[first..first + count].copy_from_slice(&values[..count]);
        }
    }
}

/// Returns how many frames were sent: at least as many as are asked for.
fn run_bus(setting: Setting, seed: u64, frames: u64) -> u64 {
    let wires = Rc::new(RefCell::new(Wires::new(setting, seed)));
    let slave = Rc::new(RefCell::new(Slave::new(&wires)));
    let mut master = Master::new(&wires, &slave, seed);
    while master.questions + slave.borrow().answers < frames {
        master.ask_anything();
    }
    let slave = slave.borrow();
    let wires = wires.borrow();
    println!(
        "seed {seed}, {setting:?}: {} questions, {} answers, {} of them refuse, {} echoes differed, {} waits in vain, {} answers wrong, \
         {} characters met, {} ticks",
        master.questions, slave.answers, master.exceptions, master.echoes, master.silent, master.wrong, wires.collisions, wires.now
    );
    // Each byte was sent while the transceiver was switched to send, from its first bit to its last.
    assert_eq!(wires.lost, [0, 0]);
    assert!(master.exceptions > 0);
    if !setting.has_noise && !setting.is_late {
        assert_eq!((master.echoes, master.silent, master.wrong, wires.collisions), (0, 0, 0, 0));
        assert_eq!(master.questions, slave.answers);
        assert_eq!([wires.chips[MASTER].overflows(), wires.chips[SLAVE].overflows()], [0, 0]);
    }
    // The runs do what they are for.
    if setting.has_noise {
        assert!(master.silent > 0 && master.wrong > 0);
        assert_eq!(setting.echoes, master.echoes > 0);
    }
    assert!(!setting.is_late || master.silent > 0);
    master.questions + slave.answers
}

#[test]
fn a_master_asks_and_a_slave_answers() {
    // The sum that the standard's own table gives for these digits.
    assert_eq!(crc(b"123456789"), 0x4b37);
    let frames = std::env::var("GEESETRUNK_MODBUS_FRAMES").map_or(FRAMES, |frames| frames.parse().expect("a number"));
    let mut sent = 0;
    for number in 0..8 {
        let setting = Setting {
            echoes: number & 1 != 0,
            has_noise: number & 2 != 0,
            is_late: number & 4 != 0,
        };
        sent += run_bus(setting, 1 + number, frames.div_ceil(8));
    }
    println!("{sent} frames");
    assert!(sent >= frames);
}
