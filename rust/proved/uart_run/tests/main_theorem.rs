//! What the page of what is proved says of sessions, of random runs: chips of each size and kind, whatever happens before each access, and
//! each call of the driver in any order. Where the page has a session begin or end it begins or ends here. Beside the chip runs the port
//! that driver and chip are said to be.

mod port;

use port::{Beside, Port, Step, Wrong};

use geesetrunk_kit::alloc::Global;
use uart_16550::backend::Backend;
use uart_16550::{Patience, Uart16550, Uart16550Tty};
use uart_calls::{Answer, CALL_BYTES, Call, perform};
use uart_chip::{ArrivalMark, Chip, Event, Uart};
use uart_spec::registers::{FifoTriggerLevel, IER, LCR, LSR, MCR, MSR, WordLength, offsets};
use uart_spec::{Config, ConfigRegisterDump, FifoAction, FifoSize, Setup, TransmitterWait};

const SIZES: [FifoSize; 5] = [
    FifoSize::Sixteen,
    FifoSize::ThirtyTwo,
    FifoSize::SixtyFour,
    FifoSize::OneHundredTwentyEight,
    FifoSize::TwoHundredFiftySix,
];

/// How many machines are tried, and how many calls are made over each.
const MACHINES: u64 = 600;
const CALLS: usize = 60;

/// The most characters that come to a machine.
const ARRIVALS: usize = 500;

/// Random numbers that are the same in each run.
struct Random(u64);

impl Random {
    fn below(&mut self, limit: usize) -> usize {
        self.0 ^= self.0 << 13;
        self.0 ^= self.0 >> 7;
        self.0 ^= self.0 << 17;
        ((self.0 >> 11) % limit as u64) as usize
    }

    fn is_one_in(&mut self, cases: usize) -> bool {
        self.below(cases) == 0
    }

    fn pick<T: Copy>(&mut self, among: &[T]) -> T {
        among[self.below(among.len())]
    }

    fn byte(&mut self) -> u8 {
        self.below(256) as u8
    }

    fn bytes<const MOST: usize>(&mut self) -> Vec<u8> {
        (0..self.below(MOST + 1)).map(|_| self.byte()).collect()
    }
}

/// A chip, and what happened to it.
struct World {
    chip: Uart,
    random: Random,
    cuts: bool,
    /// The most characters that come. If none do, no line changes either.
    most: usize,
    /// The characters that arrived, as the receiver takes them.
    arrived: Vec<(u8, LSR)>,
    /// The modem lines, and which have changed since somebody asked: of RI, its trailing edge.
    inputs: MSR,
    changed: MSR,
    /// The port that runs beside the chip in a session, what it does wrong, and how often it was found not to be what the chip is.
    port: Option<Beside>,
    wrong: Option<Wrong>,
    faults: usize,
}

impl World {
    fn new(number: u64, wrong: Option<Wrong>) -> Self {
        let mut random = Random(number.wrapping_mul(0x9e37_79b9_7f4a_7c15) | 1);
        let cuts = random.is_one_in(3);
        let (ticks, wire) = (1 + random.below(6) as u16, random.pick(&[40, 400, 4_000]));
        let heap = Global::heap();
        let chip = match random.below(8) {
            0 => Uart::new_sized(
                heap,
                Chip::Uart16450,
                FifoSize::Sixteen,
                ticks,
                wire,
                ARRIVALS,
                cuts,
            ),
            1 | 2 => Uart::new_16750(heap, ticks, wire, ARRIVALS, cuts),
            _ => {
                let size = random.pick(&SIZES);
                Uart::new_sized(heap, Chip::Uart16550A, size, ticks, wire, ARRIVALS, cuts)
            }
        };
        let chip = chip.expect("memory");
        let chip = match random.below(8) {
            0 | 1 => chip.with_auto_flow(),
            _ => chip,
        };
        Self {
            chip,
            random,
            cuts,
            most: ARRIVALS,
            arrived: Vec::new(),
            inputs: MSR::empty(),
            changed: MSR::empty(),
            port: None,
            wrong,
            faults: 0,
        }
    }

    /// A chip of data that somebody made by hand: its modem lines are not its inputs. It has no journal of arrivals, so nothing comes.
    fn unwired(number: u64, wrong: Option<Wrong>) -> Self {
        let mut world = Self::new(number, wrong);
        let heap = Global::heap();
        let chip = Uart::new(heap, Chip::Uart16550A, 3, 400, 0, false).expect("memory");
        let mut data = chip.data();
        // A new driver takes the FIFOs to be on.
        data.fifo = true;
        data.modem.lines = MSR::from_bits_retain(world.random.byte()).intersection(MSR::LINES);
        world.inputs = data.modem.lines;
        (world.cuts, world.most) = (false, 0);
        world.chip = Uart::from_data(Global::heap(), &data, &[]).expect("memory");
        world
    }

    /// A byte as it is on the wire or in the receiver.
    fn cut(&mut self, byte: u8) -> u8 {
        let frame = LCR::from_bits_retain(self.chip.read(offsets::LCR as u8));
        match frame.word_length() {
            _ if !self.cuts => byte,
            WordLength::FiveBits => byte & 0x1f,
            WordLength::SixBits => byte & 0x3f,
            WordLength::SevenBits => byte & 0x7f,
            WordLength::EightBits => byte,
        }
    }

    fn happens(&mut self) {
        for _ in 0..self.random.below(7) {
            match self.random.below(9) {
                0 if self.arrived.len() < self.most && self.random.is_one_in(2) => {
                    let byte = self.random.byte();
                    let errors = if self.random.is_one_in(4) {
                        let some = self.random.byte();
                        LSR::from_bits_retain(some).intersection(LSR::CHARACTER_ERRORS)
                    } else {
                        LSR::empty()
                    };
                    let kept = self.cut(byte);
                    self.arrived.push((kept, errors));
                    self.step(Step::Comes(self.as_port_has_it(byte, kept)));
                    self.chip.perform(Event::Arrive {
                        byte,
                        errors: errors.bits(),
                    });
                }
                2 if self.most > 0 => {
                    let inputs = MSR::from_bits_retain(self.random.byte()).intersection(MSR::LINES);
                    self.changed |= inputs.changes_since(self.inputs);
                    self.inputs = inputs;
                    self.chip.perform(Event::Lines(inputs.bits()));
                }
                _ => self.chip.tick(),
            }
        }
    }

    /// The port takes a step. One that it may not take is a fault.
    fn step(&mut self, step: Step) {
        let may = self.port.as_mut().is_none_or(|port| port.takes(step));
        self.compares(may);
    }

    /// Counts a fault, which ends the port.
    fn compares(&mut self, is_right: bool) {
        if !is_right {
            self.faults += 1;
            self.port = None;
        }
    }

    /// A byte as the port has it.
    fn as_port_has_it(&self, byte: u8, cut: u8) -> u8 {
        if self.wrong == Some(Wrong::CutsNothing) {
            byte
        } else {
            cut
        }
    }

    /// The overrun flag, where it can be seen without a look that clears it: the data of a chip are those of FIFOs of 16.
    fn is_overrun(&self) -> Option<bool> {
        let few = self.waiting().len() <= 16 && self.chip.transmitter().held_len() <= 16;
        few.then(|| self.chip.data().receiver.is_overrun)
    }

    /// The port that the chip is.
    fn as_port(&self, lost: bool) -> Port {
        Port {
            out: self.out(),
            waiting: self.waiting(),
            lost,
            fifo: self.chip.fifo(),
            room: self.size().unwrap_or(1),
        }
    }

    /// What is on the wire, and then what is still to be sent.
    fn out(&self) -> Vec<u8> {
        let sending = self.chip.transmitter();
        let held = (0..sending.held_len()).filter_map(|i| sending.held_at(i));
        sending.wire().iter().copied().chain(held).collect()
    }

    fn waiting(&self) -> Vec<u8> {
        let receiver = self.chip.receiver();
        (0..receiver.waiting_len())
            .filter_map(|i| receiver.waiting_at(i))
            .collect()
    }

    fn mark(&self, number: usize) -> ArrivalMark {
        self.chip.receiver().mark(number).expect("it has arrived")
    }

    /// The numbers of the characters that have such a mark.
    fn marked(&self, mark: ArrivalMark) -> Vec<usize> {
        (0..self.arrived.len())
            .filter(|&number| self.mark(number) == mark)
            .collect()
    }

    /// How many characters a FIFO of the chip holds, if it is on. In loopback there is no room for any.
    fn size(&self) -> Option<usize> {
        let waiting = self.chip.receiver().waiting_len();
        let is_on = self.chip.fifo() && !self.chip.is_loopback();
        is_on.then(|| self.chip.receive_room() + waiting)
    }

    fn has_break(&mut self) -> bool {
        LCR::from_bits_retain(self.chip.read(offsets::LCR as u8)).contains(LCR::SET_BREAK)
    }
}

impl Backend for World {
    fn read(&mut self, register_offset: u8) -> u8 {
        self.happens();
        let is_data = register_offset == offsets::DATA as u8 && !self.chip.is_dlab_set();
        let value = self.chip.read(register_offset);
        if is_data {
            self.step(Step::Receives(value));
        }
        value
    }

    fn write(&mut self, register_offset: u8, value: u8) {
        self.happens();
        let is_data = register_offset == offsets::DATA as u8 && !self.chip.is_dlab_set();
        let cut = self.cut(value);
        self.chip.write(register_offset, value);
        if is_data {
            self.step(Step::Sends(self.as_port_has_it(value, cut)));
        }
    }
}

/// A caller that waits for so many questions.
struct Questions(usize);

impl Patience for Questions {
    fn keep_waiting(&mut self) -> bool {
        self.0 = self.0.saturating_sub(1);
        self.0 > 0
    }
}

/// A call of the driver: one of a run, or one that is no case of `Call`.
#[derive(Debug)]
enum Made {
    Call(Call),
    ReceiveOne,
    IsGone,
    RawText(Vec<u8>),
    CheckedInit(Config),
    CheckedFrame(Config),
    CheckedFrameWhenIdle(Config),
    Gathered(Option<u8>, Vec<u8>, Vec<u8>),
    Burst(Vec<u8>, FifoSize),
    SendWhile(Vec<u8>, usize),
    ReceiveWhile(usize, usize),
    FlushWhile(usize),
    FindSize,
    Enable64,
}

/// What a call is to a session.
#[derive(Clone, Copy, PartialEq)]
enum Session {
    GoesOn,
    /// It goes on if it began with a wired device.
    WritesControl,
    /// It goes on over a device that does not cut.
    ChangesIdleFrame,
    Ends,
}

impl Made {
    fn to_session(&self) -> Session {
        match self {
            Made::Call(
                Call::Init(_)
                | Call::InitWith(..)
                | Call::Restore(_)
                | Call::TestLoopback
                | Call::SetFrame(_)
                | Call::SetBreak(true)
                | Call::Quiesce(_, FifoAction::Reset | FifoAction::Disable),
            )
            | Made::CheckedInit(_)
            | Made::CheckedFrame(_)
            | Made::FindSize
            | Made::Enable64 => Session::Ends,
            Made::Call(Call::SetFrameWhenIdle(_)) | Made::CheckedFrameWhenIdle(_) => {
                Session::ChangesIdleFrame
            }
            Made::Call(
                Call::SetModemControl(_)
                | Call::SetRts(_)
                | Call::SetDtr(_)
                | Call::Quiesce(_, FifoAction::Keep),
            ) => Session::WritesControl,
            _ => Session::GoesOn,
        }
    }
}

fn config(random: &mut Random) -> Config {
    Config {
        interrupts: IER::from_bits_retain(random.byte())
            .intersection(IER::DATA_READY | IER::THR_EMPTY),
        fifo_trigger_level: random.pick(&[
            None,
            Some(FifoTriggerLevel::One),
            Some(FifoTriggerLevel::Four),
            Some(FifoTriggerLevel::Fourteen),
        ]),
        data_bits: random.pick(&[
            WordLength::EightBits,
            WordLength::EightBits,
            WordLength::SevenBits,
            WordLength::FiveBits,
        ]),
        check_cts_before_sending: random.is_one_in(4),
        ..Config::DEFAULT
    }
}

fn outputs(random: &mut Random) -> MCR {
    MCR::from_bits_retain(random.byte())
}

fn restore(random: &mut Random) -> Call {
    Call::Restore(ConfigRegisterDump {
        lcr: LCR::from_bits_retain(random.byte()),
        mcr: outputs(random).difference(MCR::LOOP_BACK),
        ..ConfigRegisterDump::default()
    })
}

/// A call that changes how the port is set up.
fn change(random: &mut Random) -> Made {
    let call = match random.below(16) {
        0 => Call::Init(config(random)),
        1 => {
            let wait = random.pick(&[
                TransmitterWait::First,
                TransmitterWait::Last,
                TransmitterWait::Never,
            ]);
            let setup = Setup {
                checks_presence: random.is_one_in(2),
                wait,
                outputs: outputs(random),
            };
            Call::InitWith(config(random), setup)
        }
        2 => Call::SetFrame(config(random)),
        3 => Call::SetFrameWhenIdle(config(random)),
        4 => Call::SetTriggerLevel(random.pick(&[FifoTriggerLevel::One, FifoTriggerLevel::Eight])),
        5 => Call::Attach,
        6 => Call::SetBreak(random.is_one_in(2)),
        7 => Call::SetModemControl(outputs(random).difference(MCR::LOOP_BACK)),
        8 => Call::SetRts(random.is_one_in(2)),
        9 => {
            let action = random.pick(&[FifoAction::Keep, FifoAction::Reset, FifoAction::Disable]);
            Call::Quiesce(outputs(random), action)
        }
        10 => Call::TestLoopback,
        11 => return Made::CheckedInit(config(random)),
        12 => return Made::CheckedFrame(config(random)),
        13 => restore(random),
        14 => return Made::FindSize,
        _ => return Made::Enable64,
    };
    Made::Call(call)
}

/// A call that looks at the port, sends or receives.
fn transfer(random: &mut Random) -> Made {
    let bytes = random.bytes::<CALL_BYTES>();
    let many = || bytes.as_slice().try_into().unwrap();
    let call = match random.below(33) {
        0 | 1 => Call::Send(many()),
        2 => Call::SendExact(many()),
        3 => Call::Write(many()),
        4 => Call::Text("two\nlines".try_into().unwrap()),
        5 => Call::TrySend(random.byte()),
        6 | 7 => Call::Receive(random.below(20)),
        8 => Call::ReceiveExact(random.below(4)),
        9 => Call::ReceiveWithErrors(random.below(20)),
        10 => Call::Read(random.below(20)),
        11 => Call::TryReceive,
        12 => Call::Flush,
        13 | 14 => Call::Lsr,
        15 | 16 => Call::Msr,
        17 => random_look(random),
        18 => random_look(random),
        19 => Call::Dump,
        20 => Call::Enable(IER::THR_EMPTY),
        21 => Call::Disable(IER::THR_EMPTY),
        22 => Call::RetriggerInterrupts,
        23 => Call::DllDlm,
        24 => return Made::ReceiveOne,
        25 => return Made::IsGone,
        26 => return Made::RawText(bytes),
        27 => {
            return Made::Gathered(
                random.is_one_in(2).then_some(7),
                bytes,
                random.bytes::<20>(),
            );
        }
        28 => return Made::Burst(bytes, random.pick(&SIZES)),
        29 => return Made::SendWhile(bytes, random.below(200)),
        30 => return Made::ReceiveWhile(random.below(5), random.below(50)),
        31 => return Made::FlushWhile(random.below(200)),
        _ => return Made::CheckedFrameWhenIdle(config(random)),
    };
    Made::Call(call)
}

fn random_look(random: &mut Random) -> Call {
    match random.below(12) {
        0 => Call::CheckPresent,
        1 => Call::CheckConnected,
        2 => Call::ReadyToReceive,
        3 => Call::ReadyToSend,
        4 => Call::ReadReady,
        5 => Call::WriteReady,
        6 => Call::Isr,
        7 => Call::PeekModem,
        8 => Call::IsIdle,
        9 => Call::CheckConfigured(outputs(random)),
        10 => Call::Mcr,
        _ => Call::Spr,
    }
}

/// What a call of a run reported as sent, and what it received.
fn moved_by(call: &Call, answer: &Answer) -> (Vec<u8>, Vec<u8>) {
    let counted = |bytes: &[u8]| match answer {
        Answer::Count(count) | Answer::Stalled(count) => bytes[..*count].to_vec(),
        Answer::Done => bytes.to_vec(),
        _ => Vec::new(),
    };
    let sent = match call {
        Call::Send(bytes) | Call::SendExact(bytes) | Call::Write(bytes) => counted(bytes),
        Call::Text(text) => counted(text.as_str().replace('\n', "\r\n").as_bytes()),
        Call::TrySend(byte) => counted(&[*byte]),
        _ => Vec::new(),
    };
    let received = match (call, answer) {
        (_, Answer::Bytes(bytes) | Answer::ReceiveStalled(bytes)) => bytes.to_vec(),
        (_, Answer::BytesWithErrors(items)) => items.iter().map(|one| one.byte).collect(),
        (Call::TryReceive, Answer::Register(byte)) => vec![*byte],
        _ => Vec::new(),
    };
    (sent, received)
}

type Terminal = Uart16550Tty<World>;

/// What a call reported as sent, what it received, the register that it showed, and whether it is an `init` that returned Ok.
#[derive(Default)]
struct Did {
    sent: Vec<u8>,
    received: Vec<u8>,
    register: Option<u8>,
    has_set_up: bool,
}

fn make(uart: &mut Terminal, made: &Made) -> Did {
    let driver = uart.inner_mut();
    let (mut sent, mut received, mut register) = (Vec::new(), Vec::new(), None);
    let mut has_set_up = false;
    match made {
        Made::Call(call) => {
            let answer = perform(uart, call);
            (sent, received) = moved_by(call, &answer);
            has_set_up =
                matches!(call, Call::Init(_) | Call::InitWith(..)) && answer == Answer::Done;
            register = match answer {
                Answer::Register(value) => Some(value),
                _ => None,
            };
        }
        Made::ReceiveOne => received.extend(driver.try_receive_with_errors().map(|one| one.byte)),
        Made::IsGone => assert!(!driver.is_gone()),
        Made::RawText(text) => {
            let expanded = text.iter().flat_map(|&byte| match byte {
                b'\n' => vec![b'\r', b'\n'],
                0x08 | 0x7f => vec![0x08, b' ', 0x08],
                _ => vec![byte],
            });
            sent = expanded.collect();
            if let Err(stall) = uart.write_raw_text(text) {
                sent.truncate(stall.done);
            }
        }
        Made::CheckedInit(config) => has_set_up = driver.checked_init(config.clone()).is_ok(),
        Made::CheckedFrame(config) => drop(driver.checked_set_frame(config)),
        Made::CheckedFrameWhenIdle(config) => drop(driver.checked_set_frame_when_idle(config)),
        Made::Gathered(urgent, first, second) => {
            let count = driver.send_gathered(*urgent, first, second);
            sent = urgent
                .iter()
                .chain(first)
                .chain(second)
                .copied()
                .take(count)
                .collect();
        }
        Made::Burst(bytes, size) => sent = bytes[..driver.send_burst(bytes, *size)].to_vec(),
        Made::SendWhile(bytes, questions) => {
            let stalled = driver.send_bytes_while(bytes, &mut Questions(*questions));
            let done = stalled.map_or_else(|stall| stall.done, |()| bytes.len());
            sent = bytes[..done].to_vec();
        }
        Made::ReceiveWhile(count, questions) => {
            let mut slots = vec![0; *count];
            let stalled = driver.receive_bytes_while(&mut slots, &mut Questions(*questions));
            slots.truncate(stalled.map_or_else(|stall| stall.done, |()| *count));
            received = slots;
        }
        Made::FlushWhile(questions) => drop(driver.flush_while(&mut Questions(*questions))),
        Made::FindSize => drop(driver.find_fifo_size()),
        Made::Enable64 => drop(driver.enable_64_byte_fifos()),
    }
    Did {
        sent,
        received,
        register,
        has_set_up,
    }
}

/// What was known where a session began, and what its calls have done since.
struct Began {
    is_wired: bool,
    has_break: bool,
    out: Vec<u8>,
    overflows: u64,
    /// The bytes that were in the receiver, with the number of the one that another may replace, as without FIFO; and how many had come.
    waiting: Vec<(u8, Option<usize>)>,
    arrived: usize,
    sent: Vec<u8>,
    received: Vec<u8>,
    /// Where the last `lsr` of the session was, or else where it began: the characters that had been lost or taken, and whether the one
    /// in front had been looked at. Whether there was one.
    looked: Looked,
    has_msr: bool,
    /// How large the FIFOs of the driver and of the chip are.
    sizes: (FifoSize, Option<usize>),
}

struct Looked {
    dropped: usize,
    read: usize,
    has_lsr: bool,
}

impl Looked {
    fn now(world: &World, has_lsr: bool) -> Self {
        let (dropped, read) = (
            world.marked(ArrivalMark::Dropped).len(),
            world.marked(ArrivalMark::Read).len(),
        );
        Self {
            dropped,
            read,
            has_lsr,
        }
    }
}

/// Whether the driver takes the FIFOs for no larger than they are.
fn fits(driver: &Uart16550<World>) -> bool {
    let size = driver.backend().size();
    size.is_none_or(|size| driver.fifo_size().characters() <= size)
}

/// Whether a session may begin: DLAB and loopback are off, the driver knows whether the FIFO is on, and takes it for no larger than it is.
fn may_begin(driver: &Uart16550<World>) -> bool {
    let chip = &driver.backend().chip;
    let is_known = driver.fifo_enabled() == chip.fifo();
    !chip.is_dlab_set() && !chip.is_loopback() && is_known && fits(driver)
}

impl Began {
    fn now(driver: &mut Uart16550<World>, is_wired: bool) -> Self {
        let size = driver.fifo_size();
        let world = driver.backend_mut();
        world.changed = MSR::empty();
        let replaced = world.marked(ArrivalMark::Waiting).first().copied();
        let replaced = replaced.filter(|_| !world.chip.fifo());
        Self {
            is_wired,
            has_break: world.has_break(),
            out: world.out(),
            overflows: world.chip.transmitter().overflows(),
            waiting: world
                .waiting()
                .into_iter()
                .map(|byte| (byte, replaced))
                .collect(),
            arrived: world.arrived.len(),
            sent: Vec::new(),
            received: Vec::new(),
            looked: Looked::now(world, false),
            has_msr: false,
            sizes: (size, world.size()),
        }
    }

    /// What the page says of a session, after each of its calls.
    fn check(&mut self, driver: &mut Uart16550<World>, made: &Made, register: Option<u8>) {
        assert!(
            may_begin(driver),
            "{made:?} leaves no state in which a session may begin"
        );
        assert_eq!(
            self.sizes,
            (driver.fifo_size(), driver.backend().size()),
            "{made:?} changes a size"
        );
        let world = driver.backend_mut();
        assert!(
            self.has_break || !world.has_break(),
            "{made:?} leaves a break"
        );
        let reported = self.sent.clone();
        let reported = reported.into_iter().map(|byte| world.cut(byte));
        let grown: Vec<u8> = self.out.iter().copied().chain(reported).collect();
        assert_eq!(world.out(), grown, "sent, behind {made:?}");
        assert_eq!(
            world.chip.transmitter().overflows(),
            self.overflows,
            "a full transmitter at {made:?}"
        );

        let stood = self.waiting.iter().copied();
        let came = (self.arrived..world.arrived.len())
            .map(|number| (world.arrived[number].0, Some(number)));
        let kept: Vec<u8> = stood
            .chain(came)
            .filter(|(_, number)| {
                number.is_none_or(|number| world.mark(number) != ArrivalMark::Dropped)
            })
            .map(|(byte, _)| byte)
            .collect();
        let had = [self.received.clone(), world.waiting()].concat();
        assert_eq!(had, kept, "received, behind {made:?}");

        match (made, register) {
            (Made::Call(Call::Lsr), Some(value)) => {
                self.check_line(world, LSR::from_bits_retain(value))
            }
            (Made::Call(Call::Msr), Some(value)) => {
                let told = MSR::from_bits_retain(value).intersection(MSR::CHANGES);
                assert!(told.contains(world.changed), "a change is not told");
                assert!(
                    !self.has_msr || told == world.changed,
                    "a change is told that was none"
                );
                self.has_msr = true;
                world.changed = MSR::empty();
            }
            _ => {}
        }
    }

    fn check_line(&mut self, world: &World, line: LSR) {
        let now = Looked::now(world, true);
        let has_lost = now.dropped > self.looked.dropped;
        let tells_loss = line.contains(LSR::OVERRUN_ERROR);
        assert!(tells_loss || !has_lost, "a drop is not told");
        assert!(
            has_lost || !tells_loss || !self.looked.has_lsr,
            "a drop is told that was none"
        );
        // Of the one that was in front an earlier look may have told.
        let taken = world.marked(ArrivalMark::Read);
        let front = world.marked(ArrivalMark::Waiting).into_iter().take(1);
        for number in taken
            .into_iter()
            .skip(self.looked.read + 1)
            .chain(front.filter(|_| now.read > self.looked.read))
        {
            let is_told = line.contains(world.arrived[number].1);
            assert!(
                is_told || (!world.chip.fifo() && tells_loss),
                "errors are not told"
            );
        }
        self.looked = now;
    }
}

/// Compares the port with the one that the state is, behind a call of a session. It begins where none runs: what was not told is known
/// there from the chip, and where the chip does not show it from the port.
fn compare(driver: &mut Uart16550<World>, made: &Made, did: &Did) -> bool {
    let saved = driver.state().saved_lsr.contains(LSR::OVERRUN_ERROR);
    let world = driver.backend_mut();
    if let (Made::Call(Call::Lsr), Some(value)) = (made, did.register) {
        let overrun = LSR::from_bits_retain(value).contains(LSR::OVERRUN_ERROR);
        world.step(Step::Tells(overrun));
    }
    let saved = saved && world.wrong != Some(Wrong::ForgetsWhatIsSaved);
    let shown = world.is_overrun().map(|is_overrun| is_overrun || saved);
    let Some(mut port) = world.port.take() else {
        world.port = shown.map(|lost| Beside::new(world.as_port(lost), world.wrong));
        return false;
    };
    let state = world.as_port(shown.unwrap_or(port.has_lost()));
    let is_right = port.is(&state, &did.received);
    world.port = Some(port);
    world.compares(is_right);
    true
}

/// How often something was tried.
#[derive(Default, Debug)]
struct Tried {
    sessions: usize,
    calls: usize,
    wired: usize,
    lost: usize,
    sent: usize,
    received: usize,
    resized: usize,
    compared: usize,
    faults: usize,
}

/// Leaves a chip as a program before ours may have left it.
fn left_by_others(driver: &mut Uart16550<World>) {
    let world = driver.backend_mut();
    for _ in 0..world.random.below(8) {
        // FCR is what other registers are not: a FIFO that is switched on here is not known to the driver.
        let (offset, value) = (world.random.below(8) as u8, world.random.byte());
        world.write(offset, value);
        world.random.is_one_in(2).then(|| world.read(offset));
    }
}

/// Makes calls over a machine, with a session wherever the page says that one begins.
fn run_machine(number: u64, wrong: Option<Wrong>, tried: &mut Tried) {
    let mut is_wired = !number.is_multiple_of(5);
    let mut world = if is_wired {
        World::new(number, wrong)
    } else {
        World::unwired(number, wrong)
    };
    let is_left = is_wired && world.random.is_one_in(3);
    let size = world
        .random
        .pick(&[FifoSize::Sixteen, FifoSize::Sixteen, FifoSize::SixtyFour]);
    let limit = [30, 300, 3_000][world.random.below(3)];
    let mut driver = Uart16550::new_with_backend(world);
    driver.set_spin_limit(core::num::NonZeroU64::new(limit).unwrap());
    driver.set_fifo_size(size);
    if is_left {
        left_by_others(&mut driver);
    }
    let mut uart = Terminal::from_inner(driver);
    let mut session: Option<Began> = None;
    let mut has_begun = false;
    for at in 0..CALLS {
        let world = uart.inner_mut().backend_mut();
        let made = if !is_wired && at < 4 {
            // What tells a wired device from one that is not.
            let calls = [Call::Msr, Call::Msr, Call::SetRts(true), Call::Msr];
            Made::Call(calls.into_iter().nth(at).unwrap())
        } else if session.is_none() && world.random.is_one_in(2) {
            match world.random.below(3) {
                0 => Made::Call(restore(&mut world.random)),
                _ => Made::Call(Call::Init(config(&mut world.random))),
            }
        } else if world.random.is_one_in(8) {
            change(&mut world.random)
        } else {
            transfer(&mut world.random)
        };
        let goes_on = match made.to_session() {
            Session::GoesOn => true,
            Session::WritesControl => session.as_ref().is_some_and(|began| began.is_wired),
            Session::ChangesIdleFrame => !uart.inner().backend().cuts,
            Session::Ends => false,
        };
        // A burst of more than is set is that of a driver which takes the FIFOs for this size.
        if let Made::Burst(_, size) = made
            && uart
                .inner()
                .backend()
                .size()
                .is_none_or(|most| size.characters() > most)
        {
            continue;
        }
        session = session.filter(|_| goes_on);
        if session.is_none() && wrong != Some(Wrong::OutlivesSessions) {
            uart.inner_mut().backend_mut().port = None;
        }
        let size = uart.inner().backend().size();
        let did = make(&mut uart, &made);
        tried.calls += 1;
        let driver = uart.inner_mut();
        if did.has_set_up {
            is_wired = true;
            assert!(!driver.backend_mut().has_break(), "{made:?} leaves a break");
        }
        // Whatever the chip was before, and from then on behind each call, refused or not.
        has_begun |= did.has_set_up || matches!(made, Made::Call(Call::Restore(_)));
        assert!(
            !has_begun || may_begin(driver) || !fits(driver),
            "no session may begin behind {made:?}"
        );
        if let (false, Some(size), Some(left)) = (
            matches!(made, Made::Enable64),
            size,
            driver.backend().size(),
        ) {
            assert_eq!(size, left, "{made:?} changes the size of the FIFOs");
        }
        if let Some(began) = &mut session {
            tried.sent += did.sent.len();
            tried.received += did.received.len();
            began.sent.extend(&did.sent);
            began.received.extend(&did.received);
            began.check(driver, &made, did.register);
        } else if may_begin(driver) {
            tried.sessions += 1;
            tried.wired += usize::from(is_wired);
            session = Some(Began::now(driver, is_wired));
        }
        if session.is_some() {
            tried.compared += usize::from(compare(driver, &made, &did));
        }
    }
    let world = uart.inner().backend();
    tried.faults += world.faults;
    tried.lost += world.marked(ArrivalMark::Dropped).len();
    tried.resized += usize::from(world.size() == Some(64));
}

#[test]
fn what_is_said_of_sessions_holds_of_random_runs() {
    let mut tried = Tried::default();
    for number in 1..=MACHINES {
        run_machine(number, None, &mut tried);
    }
    println!("{tried:?}");
    assert_eq!(tried.faults, 0, "driver and chip are not the port");
    assert!(tried.sessions > 2_000 && tried.wired < tried.sessions && tried.compared > 20_000);
    assert!(
        tried.sent > 20_000 && tried.received > 5_000 && tried.lost > 2_000 && tried.resized > 20
    );
}

#[test]
fn ports_that_do_something_else_are_found() {
    for wrong in Wrong::ALL {
        let mut tried = Tried::default();
        let found = (1..=MACHINES).find(|&number| {
            run_machine(number, Some(wrong), &mut tried);
            tried.faults > 0
        });
        assert!(found.is_some(), "{wrong:?} is not found");
    }
}
