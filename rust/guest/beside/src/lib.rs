//! The chip of QEMU beside the device over the proved chip: random calls to both, and what differs.
//!
//! Each call is followed by so much time that QEMU's chip has nothing left to do, as the device has. Compared are the value of each read,
//! what is sent, and the level of the interrupt line; and the device is to trigger for each rise of its line from call to call. A sequence
//! ends where the chips differ first. Each difference is of a class, which is listed here with the reason.

#![cfg(all(target_os = "linux", target_arch = "x86_64"))]

use std::collections::BTreeMap;
use std::convert::Infallible;
use std::env;
use std::fmt;
use std::future::poll_fn;
use std::io;
use std::io::Write;
use std::path::PathBuf;
use std::pin::Pin;
use std::sync::Arc;
use std::sync::atomic::{AtomicU64, Ordering};
use std::task::{Context, Poll, Waker};

use guest::chip::QemuChip;
use guest::qemu;
use guest::qemu::{Clock, Machine, Qemu};
use uart_16550_chip::registers::MSR;
use uart_16550_chip::{NoEvents, Serial, Trigger};

const DATA: u8 = 0;
const IER: u8 = 1;
const ISR: u8 = 2;
const FCR: u8 = 2;
const LCR: u8 = 3;
const MCR: u8 = 4;
const LSR: u8 = 5;
const MSR_OFFSET: u8 = 6;
const SCR: u8 = 7;

const DLAB: u8 = 0x80;
const EIGHT_BITS: u8 = 0x03;
const FIFO_ON: u8 = 0x01;
const LOOPBACK: u8 = 0x10;
/// The interrupts in IER, the outputs in MCR, and the trigger level in FCR.
const IER_BITS: u8 = 0x0f;
const OUTPUTS: u8 = 0x0f;
const LEVEL_BITS: u8 = 0xc0;
/// The bits of FCR that clear the queues.
const CLEARS: u8 = 0x06;
/// The interrupt of the modem lines, in IER.
const MODEM_STATUS: u8 = 0x08;
/// That of an empty THR, in IER, and as a cause in ISR.
const THR_EMPTY: u8 = 0x02;
/// What of LSR tells of a break, or of an overrun by its character.
const BREAK_AND_MORE: u8 = 0x93;
const DATA_READY: u8 = 0x01;
/// The cause in ISR, and two of them.
const CAUSE: u8 = 0x0f;
const LEVEL_REACHED: u8 = 0x04;
const TIMED_OUT: u8 = 0x0c;
/// The trigger levels, as the two highest bits of FCR choose them.
const LEVELS: [usize; 4] = [1, 4, 8, 14];
/// What of MSR tells changes.
const DELTAS: u8 = 0x0f;
/// Longer than any character and any timeout takes at the divisors that are written.
const LONG: i64 = 10_000_000;
/// How often a call is drawn, until there is one that is compared.
const DRAWS: usize = 1000;
/// How many calls a sequence has.
const CALLS: usize = 40;
/// How many sequences each scope has, if nothing is said: `GUEST_SEQUENCES`.
const SEQUENCES: u64 = 2000;
/// How many differences of no known class are shown.
const SHOWN: usize = 3;

/// The interrupt line of the device.
#[derive(Clone, Default)]
struct Line(Arc<AtomicU64>);

impl Line {
    fn count(&self) -> u64 {
        self.0.load(Ordering::Relaxed)
    }
}

impl Trigger for Line {
    type E = Infallible;

    fn trigger(&self) -> Result<(), Infallible> {
        self.0.fetch_add(1, Ordering::Relaxed);
        Ok(())
    }
}

/// What the device sends.
#[derive(Default)]
struct Sent(Vec<u8>);

impl Write for Sent {
    fn write(&mut self, bytes: &[u8]) -> io::Result<usize> {
        self.0.extend_from_slice(bytes);
        Ok(bytes.len())
    }

    fn flush(&mut self) -> io::Result<()> {
        Ok(())
    }
}

/// A call of both.
#[derive(Clone, Copy, Debug, PartialEq, Eq)]
enum Call {
    Read(u8),
    Write(u8, u8),
    /// So many characters come, from this one on.
    Receive(u8, u8),
    Break,
}

impl fmt::Display for Call {
    fn fmt(&self, f: &mut fmt::Formatter<'_>) -> fmt::Result {
        match self {
            Call::Read(offset) => write!(f, "R{offset}"),
            Call::Write(offset, value) => write!(f, "W{offset} {value:02x}"),
            Call::Receive(count, first) => write!(f, "in {count} from {first:02x}"),
            Call::Break => f.write_str("break"),
        }
    }
}

/// What a call came to.
#[derive(Clone, Debug, PartialEq, Eq)]
struct Outcome {
    value: u8,
    sent: Vec<u8>,
    level: bool,
}

/// Numbers that look random, and are the same in each run.
struct Random(u64);

impl Random {
    fn next(&mut self) -> u64 {
        self.0 ^= self.0 << 13;
        self.0 ^= self.0 >> 7;
        self.0 ^= self.0 << 17;
        self.0
    }

    fn below(&mut self, count: u64) -> u64 {
        (self.next() >> 11) % count
    }

    fn byte(&mut self) -> u8 {
        (self.next() >> 40) as u8
    }
}

/// Both chips.
struct Both {
    ours: Serial<Line, NoEvents, Sent>,
    line: Line,
    qemu: QemuChip,
}

impl Both {
    fn new(qemu: QemuChip) -> Self {
        let line = Line::default();
        Both {
            ours: Serial::new(line.clone(), Sent::default()),
            line,
            qemu,
        }
    }

    /// Brings both to the same state: a new device, and the same accesses to both.
    async fn begin(&mut self) {
        self.line = Line::default();
        self.ours = Serial::new(self.line.clone(), Sent::default());
        let _ = self.ours.set_lines(MSR::CTS | MSR::DSR | MSR::CD);
        for (offset, value) in [
            (MCR, 0),
            (LCR, DLAB | EIGHT_BITS),
            (DATA, 1),
            (IER, 0),
            (LCR, EIGHT_BITS),
            (FCR, FIFO_ON),
            (FCR, 0),
            (SCR, 0),
            (IER, 0x02),
        ] {
            self.make(Call::Write(offset, value)).await;
        }
        for offset in [ISR, LSR, MSR_OFFSET] {
            self.make(Call::Read(offset)).await;
        }
        self.make(Call::Write(IER, 0)).await;
    }

    fn is_dlab_set(&self) -> bool {
        self.ours.state().chip.latches.lcr.bits() & DLAB != 0
    }

    fn waiting(&self) -> usize {
        self.ours.state().chip.receiver.queue.len()
    }

    /// Makes a call, and returns what it came to: of the device, and of QEMU's chip.
    async fn make(&mut self, call: Call) -> (Outcome, Outcome) {
        let (ours, qemu) = match call {
            Call::Read(offset) => (self.ours.read(offset), self.qemu.read(offset)),
            Call::Write(offset, value) => {
                let _ = self.ours.write(offset, value);
                self.qemu.write(offset, value);
                (0, 0)
            }
            Call::Receive(count, first) => {
                let bytes: Vec<u8> = (0..count).map(|index| first.wrapping_add(index)).collect();
                let _ = self.ours.enqueue_raw_bytes(&bytes);
                self.qemu.receive(&bytes);
                (0, 0)
            }
            Call::Break => {
                let _ = self.ours.enqueue_break();
                self.qemu.receive_break();
                (0, 0)
            }
        };
        settle().await;
        let sent = std::mem::take(&mut self.ours.writer_mut().0);
        (
            Outcome {
                value: ours,
                sent,
                level: self.ours.level(),
            },
            Outcome {
                value: qemu,
                sent: self.qemu.sent().expect("the file can be read"),
                level: self.qemu.level(),
            },
        )
    }
}

/// What a sequence may do.
#[derive(Clone, Copy, Debug, PartialEq, Eq)]
struct Scope {
    name: &'static str,
    /// FCR is written without bit 0 too.
    fifo_off: bool,
    loopback: bool,
    breaks: bool,
}

const SCOPES: [Scope; 4] = [
    Scope {
        name: "FIFO on",
        fifo_off: false,
        loopback: false,
        breaks: false,
    },
    Scope {
        name: "FIFO on and off",
        fifo_off: true,
        loopback: false,
        breaks: false,
    },
    Scope {
        name: "with loopback",
        fifo_off: false,
        loopback: true,
        breaks: false,
    },
    Scope {
        name: "with breaks",
        fifo_off: false,
        loopback: false,
        breaks: true,
    },
];

/// Why the chips differ. No other reason is known, and what has none fails.
#[derive(Clone, Copy, Debug, PartialEq, Eq, PartialOrd, Ord)]
enum Class {
    /// The trigger level is reached, and the timeout too. Both have one priority: the device shows the level, which the datasheet has
    /// first, and QEMU's chip the timeout. What a read does is the same, so a sequence goes on.
    LevelAndTimeout,
    /// FCR bit 0 changes while the transmitter's queue is empty. Then QEMU's chip has a THR_EMPTY interrupt, and the device has none:
    /// nothing was discarded, and THR was empty before.
    FifoSwitched,
    /// FCR is written with bit 0 clear while the FIFO is off. On QEMU's chip its bits 1 and 2 clear what waits all the same. The datasheet
    /// has bit 0 set for the others to count.
    FcrWithoutFifo,
    /// Loopback connects the outputs to MSR. The device shows that they changed, as on hardware, and QEMU's chip does not.
    LoopbackDeltas,
    /// QEMU's chip shows a break at once, and not with its character, and lets it not time out. It has no LSR bit 7.
    Break,
    Unknown,
}

impl fmt::Display for Class {
    fn fmt(&self, f: &mut fmt::Formatter<'_>) -> fmt::Result {
        f.write_str(match self {
            Class::LevelAndTimeout => "ISR names the trigger level, or the timeout",
            Class::FifoSwitched => "FCR bit 0 changed, THR_EMPTY",
            Class::FcrWithoutFifo => "FCR without bit 0 while the FIFO is off",
            Class::LoopbackDeltas => "the deltas of MSR in loopback",
            Class::Break => "a break",
            Class::Unknown => "UNKNOWN",
        })
    }
}

/// What was done before, as far as classes ask for it.
#[derive(Clone, Copy, Debug, Default)]
struct Past {
    has_broken: bool,
    has_looped: bool,
    fifo: bool,
    has_switched: bool,
    has_cleared_without: bool,
    ier: u8,
    /// How many characters reach the trigger level.
    level: usize,
}

impl Past {
    fn note(&mut self, call: Call, is_dlab: bool) {
        match call {
            Call::Write(FCR, value) => {
                let fifo = value & FIFO_ON != 0;
                self.has_switched |= fifo != self.fifo;
                self.has_cleared_without |= !fifo && !self.fifo && value & CLEARS != 0;
                self.fifo = fifo;
                self.level = LEVELS[usize::from(value >> 6)];
            }
            Call::Write(IER, value) if !is_dlab => self.ier = value,
            Call::Write(MCR, value) => self.has_looped |= value & LOOPBACK != 0,
            Call::Break => self.has_broken = true,
            _ => {}
        }
    }

    /// Returns why the chips differ, while so many characters wait.
    fn class(&self, call: Call, waiting: usize, ours: &Outcome, qemu: &Outcome) -> Class {
        let differs = ours.value ^ qemu.value;
        let has_one_level = ours.level == qemu.level;
        // QEMU's chip has THR_EMPTY since the FIFO was switched. Another interrupt of the device can hide that until it is served.
        let is_switched = self.has_switched && self.ier & THR_EMPTY != 0;
        let is_only_qemus = is_switched && qemu.level && !ours.level;
        let is_interrupt = differs == 0 || call == Call::Read(ISR) && differs & !CAUSE == 0;
        let shows = |bits: u8| call == Call::Read(LSR) && differs & !bits == 0;
        if ours.sent != qemu.sent {
            Class::Unknown
        } else if call == Call::Read(ISR)
            && has_one_level
            && waiting >= self.level
            && (ours.value & CAUSE, qemu.value & CAUSE) == (LEVEL_REACHED, TIMED_OUT)
            && differs & !CAUSE == 0
        {
            Class::LevelAndTimeout
        } else if self.has_broken && (is_interrupt || shows(BREAK_AND_MORE)) {
            Class::Break
        } else if self.has_looped
            && (call == Call::Read(MSR_OFFSET)
                && (has_one_level || is_only_qemus)
                && differs & !DELTAS == 0
                || self.ier & MODEM_STATUS != 0 && is_interrupt)
        {
            Class::LoopbackDeltas
        } else if self.has_cleared_without && (is_interrupt || shows(DATA_READY)) {
            Class::FcrWithoutFifo
        } else if is_switched
            && (differs == 0 && qemu.level
                || is_interrupt
                    && qemu.value & CAUSE == THR_EMPTY
                    && ours.value & CAUSE != THR_EMPTY)
        {
            Class::FifoSwitched
        } else {
            Class::Unknown
        }
    }
}

/// Draws a call. There is none if it would not be compared.
fn draw(random: &mut Random, scope: &Scope, both: &Both) -> Option<Call> {
    let is_dlab = both.is_dlab_set();
    let sometimes = |is_in_scope: bool, bit: u8, random: &mut Random| {
        if is_in_scope { random.byte() & bit } else { 0 }
    };
    let call = match random.below(20) {
        0..=2 => Call::Read(DATA),
        3 => Call::Read(IER),
        4..=6 => Call::Read(ISR),
        7 => Call::Read([LCR, MCR, SCR, MSR_OFFSET][random.below(4) as usize]),
        8..=9 => Call::Read(LSR),
        10..=12 => Call::Write(DATA, random.byte()),
        13..=14 => Call::Write(IER, random.byte() & IER_BITS),
        15 => {
            let off = sometimes(scope.fifo_off, FIFO_ON, random);
            Call::Write(FCR, random.byte() & (LEVEL_BITS | CLEARS) | FIFO_ON ^ off)
        }
        16 if is_dlab || random.below(3) > 0 => Call::Write(LCR, EIGHT_BITS),
        16 => Call::Write(LCR, DLAB | EIGHT_BITS),
        17 => {
            let loopback = sometimes(scope.loopback, LOOPBACK, random);
            Call::Write(MCR, random.byte() & OUTPUTS | loopback)
        }
        _ if scope.breaks && random.below(4) == 0 => Call::Break,
        _ => {
            let room = both.ours.fifo_capacity() as u64;
            Call::Receive(1 + random.below(room.max(1)) as u8, random.byte())
        }
    };
    let is_compared = match call {
        // The divisor is to stay, so that time suffices.
        Call::Write(DATA | IER, _) => !is_dlab,
        // What a read gives while nothing waits is not defined.
        Call::Read(DATA) => is_dlab || both.waiting() > 0,
        Call::Receive(..) => both.ours.fifo_capacity() > 0,
        _ => true,
    };
    is_compared.then_some(call)
}

fn next_call(random: &mut Random, scope: &Scope, both: &Both) -> Call {
    (0..DRAWS)
        .find_map(|_| draw(random, scope, both))
        .unwrap_or(Call::Read(LSR))
}

/// Where a sequence differed first.
struct Difference {
    class: Class,
    text: String,
}

/// What the sequences of a scope came to.
#[derive(Default)]
struct Tally {
    calls: u64,
    /// Rises of the device's line from call to call for which it did not trigger.
    untold: u64,
    classes: BTreeMap<Class, (u64, Vec<String>)>,
}

impl Tally {
    fn note(&mut self, found: Difference) {
        let (count, texts) = self.classes.entry(found.class).or_default();
        *count += 1;
        if texts.len() < SHOWN {
            texts.push(found.text);
        }
    }
}

/// Makes a sequence of calls, up to the first difference after which the chips are not in the same state.
async fn sequence(random: &mut Random, scope: &Scope, both: &mut Both, tally: &mut Tally) {
    both.begin().await;
    let mut past = Past::default();
    let mut made: Vec<String> = Vec::new();
    for _ in 0..CALLS {
        let call = next_call(random, scope, both);
        let was_up = both.ours.level();
        let triggers = both.line.count();
        past.note(call, both.is_dlab_set());
        let (ours, qemu) = both.make(call).await;
        tally.calls += 1;
        tally.untold += u64::from(ours.level && !was_up && both.line.count() == triggers);
        made.push(call.to_string());
        if ours != qemu {
            let class = past.class(call, both.waiting(), &ours, &qemu);
            tally.note(Difference {
                class,
                text: format!(
                    "{}\n      ours {ours:02x?}\n      QEMU {qemu:02x?}",
                    made.join(", ")
                ),
            });
            if class != Class::LevelAndTimeout {
                return;
            }
        }
    }
}

/// Compares in each scope, and prints what differs. Returns whether all of it is known.
async fn compare(count: u64, qemu: QemuChip) -> bool {
    let mut both = Both::new(qemu);
    let mut random = Random(0x9e37_79b9_7f4a_7c15);
    let mut is_known = true;
    for scope in &SCOPES {
        let mut tally = Tally::default();
        for _ in 0..count {
            sequence(&mut random, scope, &mut both, &mut tally).await;
        }
        let unknown = tally.classes.get(&Class::Unknown);
        for (class, (times, _)) in &tally.classes {
            println!("  {class}: {times}");
        }
        for text in unknown.iter().flat_map(|(_, texts)| texts) {
            println!("    {text}");
        }
        let is_good = unknown.is_none() && tally.untold == 0;
        println!(
            "QEMU's chip beside ours, {}: {count} sequences, {} calls, {} rises without a signal: {}",
            scope.name,
            tally.calls,
            tally.untold,
            if is_good { "ok" } else { "failed" }
        );
        is_known &= is_good;
    }
    is_known
}

/// Compares, as the environment says.
async fn run() -> bool {
    let output = PathBuf::from(env::var_os("GUEST_OUTPUT").unwrap_or_default());
    let count = env::var("GUEST_SEQUENCES")
        .ok()
        .and_then(|count| count.parse().ok());
    match QemuChip::new(&output) {
        Ok(qemu) => compare(count.unwrap_or(SEQUENCES), qemu).await,
        Err(cause) => {
            println!("failed: QEMU's chip cannot be used: {cause}");
            false
        }
    }
}

/// Waits until so much time has passed that nothing is left to happen.
async fn settle() {
    let mut has_waited = false;
    poll_fn(|_| {
        if has_waited {
            Poll::Ready(())
        } else {
            has_waited = true;
            Poll::Pending
        }
    })
    .await;
}

/// What compares, as QEMU calls it.
struct Beside {
    qemu: Qemu,
    comparison: Option<Pin<Box<dyn Future<Output = bool> + Send>>>,
}

impl Machine for Beside {
    fn guest_time(&mut self) {
        // QEMU's chip is taken when the machine runs.
        let comparison = self.comparison.get_or_insert_with(|| Box::pin(run()));
        match comparison
            .as_mut()
            .poll(&mut Context::from_waker(Waker::noop()))
        {
            Poll::Ready(is_good) => qemu::end(is_good),
            Poll::Pending => self.qemu.wake_in(Clock::Guest, LONG),
        }
    }

    fn changed(&mut self, runs: bool) {
        if runs {
            self.qemu.wake_in(Clock::Guest, LONG);
        }
    }
}

fn begin() {
    qemu::attach(|qemu| Beside {
        qemu,
        comparison: None,
    });
}

guest::when_made!(begin);
