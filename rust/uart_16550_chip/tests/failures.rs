//! What fails, and fails only now and then: interrupts that cannot be raised, outputs that break, that are interrupted, and that lie. After
//! each failure the device is as its documentation says, whatever shortcut a call may take.

use std::cell::{Cell, RefCell};
use uart_16550_chip::serial::Error;
use uart_16550_chip::{Output, Serial, SerialEvents, SerialState, Trigger};

const DATA: u8 = 0;
const IER: u8 = 1;
const FCR: u8 = 2;
const LSR: u8 = 5;
const SPR: u8 = 7;

const DATA_READY: u8 = 0x01;
const THR_EMPTY: u8 = 0x02;
const FIFO_ENABLE: u8 = 0x01;

#[derive(Clone, Copy, Debug, PartialEq)]
struct Broken;

/// An interrupt line that can be broken: the level that was set last, and how often it was triggered.
#[derive(Debug, Default)]
struct Line {
    is_broken: Cell<bool>,
    is_high: Cell<bool>,
    count: Cell<usize>,
}

impl Trigger for &Line {
    type E = Broken;

    fn trigger(&self) -> Result<(), Broken> {
        if self.is_broken.get() {
            return Err(Broken);
        }
        self.count.set(self.count.get() + 1);
        Ok(())
    }

    fn set_level(&self, level: bool) -> Result<(), Broken> {
        if self.is_broken.get() {
            return Err(Broken);
        }
        self.is_high.set(level);
        Ok(())
    }
}

/// What an output does with the next bytes.
#[derive(Clone, Copy, Debug, PartialEq)]
enum Mood {
    TakesUpTo(usize),
    TakesNoneForEver,
    /// It takes all, and says that it took more.
    Lies,
}

/// An output, with what it took, and what was offered when it failed.
#[derive(Debug)]
struct Screen {
    mood: Mood,
    shown: Vec<u8>,
    refused: usize,
}

impl Screen {
    fn new(mood: Mood) -> Self {
        Screen {
            mood,
            shown: Vec::new(),
            refused: 0,
        }
    }
}

impl Output for Screen {
    type Error = Broken;

    fn write_bytes(&mut self, bytes: &[u8]) -> Result<usize, Broken> {
        assert!(!bytes.is_empty());
        match self.mood {
            Mood::TakesNoneForEver => {
                self.refused += bytes.len();
                Err(Broken)
            }
            Mood::TakesUpTo(room) => {
                let count = bytes.len().min(room);
                self.shown.extend(&bytes[..count]);
                Ok(count)
            }
            Mood::Lies => {
                self.shown.extend(bytes);
                Ok(bytes.len() + 1000)
            }
        }
    }
}

/// How often each thing happened.
#[derive(Debug, Default)]
struct Counts(RefCell<[usize; 4]>);

#[derive(Clone, Copy)]
enum Counted {
    Out,
    Lost,
    Triggered,
    Failed,
}

impl Counts {
    fn add(&self, counted: Counted) {
        self.0.borrow_mut()[counted as usize] += 1;
    }

    fn of(&self, counted: Counted) -> usize {
        self.0.borrow()[counted as usize]
    }
}

impl SerialEvents for &Counts {
    fn buffer_read(&self) {}

    fn out_byte(&self) {
        self.add(Counted::Out);
    }

    fn tx_lost_byte(&self) {
        self.add(Counted::Lost);
    }

    fn in_buffer_empty(&self) {}

    fn triggered(&self) {
        self.add(Counted::Triggered);
    }

    fn trigger_failed(&self) {
        self.add(Counted::Failed);
    }
}

type Device<'a> = Serial<&'a Line, &'a Counts, Screen>;

fn device<'a>(line: &'a Line, counts: &'a Counts, mood: Mood) -> Device<'a> {
    let mut serial = Serial::with_events(line, counts, Screen::new(mood));
    serial.write(FCR, FIFO_ENABLE).unwrap();
    serial
}

// ---- outputs

#[test]
fn all_that_a_broken_output_was_offered_is_lost_and_told() {
    let (line, counts) = (Line::default(), Counts::default());
    let mut serial = device(&line, &counts, Mood::TakesUpTo(0));
    for byte in 0..5 {
        serial.write(DATA, byte).unwrap();
    }
    assert_eq!(serial.output(), [0, 1, 2, 3, 4]);
    serial.writer_mut().mood = Mood::TakesNoneForEver;
    assert!(matches!(serial.write_output(), Err(Error::IOError(Broken))));
    assert_eq!((serial.output().len(), serial.read(LSR)), (0, 0x60));
    assert_eq!((counts.of(Counted::Lost), counts.of(Counted::Out)), (5, 0));
    // The same for a byte with nothing before it.
    assert!(matches!(serial.write(DATA, 5), Err(Error::IOError(Broken))));
    assert_eq!((serial.output().len(), serial.read(LSR)), (0, 0x60));
    serial.writer_mut().mood = Mood::TakesUpTo(9);
    serial.write(DATA, 6).unwrap();
    assert_eq!(serial.writer().shown, [6]);
    assert_eq!((counts.of(Counted::Lost), counts.of(Counted::Out)), (6, 1));
}

#[test]
fn a_broken_output_interrupts_the_guest_as_one_that_took_the_bytes() {
    for held in [0, 5] {
        let (line, counts) = (Line::default(), Counts::default());
        let mut serial = device(&line, &counts, Mood::TakesUpTo(0));
        // With the output full, the transmitter holds what is written.
        for byte in 0..64 + held {
            serial.write(DATA, byte).unwrap();
        }
        serial.write(IER, THR_EMPTY).unwrap();
        serial.read(2);
        let before = line.count.get();
        serial.writer_mut().mood = Mood::TakesNoneForEver;
        let failed = if held == 0 {
            assert!(serial.write_output().is_err());
            serial.write(DATA, b'x')
        } else {
            serial.write_output().map(drop)
        };
        assert!(matches!(failed, Err(Error::IOError(Broken))));
        assert_eq!((line.is_high.get(), serial.level()), (true, true));
        assert_eq!(line.count.get(), before + 1, "{held} bytes held");
    }
}

#[test]
fn an_output_that_says_that_it_took_more_is_taken_to_have_taken_all() {
    let (line, counts) = (Line::default(), Counts::default());
    let mut serial = device(&line, &counts, Mood::TakesUpTo(0));
    for byte in 0..70 {
        serial.write(DATA, byte).unwrap();
    }
    serial.writer_mut().mood = Mood::Lies;
    assert_eq!(serial.write_output().unwrap(), 70);
    serial.write(DATA, 70).unwrap();
    assert_eq!(serial.writer().shown, (0..=70).collect::<Vec<u8>>());
    assert_eq!((counts.of(Counted::Out), counts.of(Counted::Lost)), (71, 0));
}

// ---- interrupts

type Call = fn(&mut Device<'_>);

/// The guest disabled its interrupts while the line was broken, so the line is owed its fall. From here on the guest polls, and each
/// of these calls has a shortcut for that.
#[test]
fn what_is_owed_is_told_by_the_next_call_of_a_guest_that_polls() {
    let calls: [(&str, Call); 6] = [
        ("a read of DATA", |serial| assert_eq!(serial.read(DATA), 7)),
        ("a read of LSR", |serial| assert_eq!(serial.read(LSR), 0x61)),
        ("a read of SPR", |serial| assert_eq!(serial.read(SPR), 0)),
        ("a write of DATA", |serial| serial.write(DATA, 1).unwrap()),
        ("a look whether there is output", |serial| {
            assert_eq!(serial.write_output().unwrap(), 0);
        }),
        ("input", |serial| {
            assert_eq!(serial.enqueue_raw_bytes(&[8]).unwrap(), 1);
        }),
    ];
    for (name, call) in calls {
        let (line, counts) = (Line::default(), Counts::default());
        let mut serial = device(&line, &counts, Mood::TakesUpTo(9));
        serial.write(IER, DATA_READY).unwrap();
        serial.enqueue_raw_bytes(&[7]).unwrap();
        assert!(line.is_high.get());
        line.is_broken.set(true);
        let cause = serial.write(IER, 0).unwrap_err();
        assert!(matches!(cause, Error::Trigger(failed) if failed.taken == 0));
        assert_eq!(counts.of(Counted::Failed), 1);
        line.is_broken.set(false);
        assert_eq!((line.is_high.get(), serial.level()), (true, false));
        call(&mut serial);
        assert!(!line.is_high.get(), "{name}");
        // Then nothing is owed any more.
        line.is_broken.set(true);
        serial.read(LSR);
        assert_eq!(counts.of(Counted::Failed), 1, "{name}");
    }
}

/// Pseudorandom numbers: xorshift.
struct Random(u64);

impl Random {
    fn below(&mut self, bound: u8) -> u8 {
        self.0 ^= self.0 << 13;
        self.0 ^= self.0 >> 7;
        self.0 ^= self.0 << 17;
        (self.0 >> 32) as u8 % bound
    }
}

/// A call that is chosen at random. Returns whether it said that the interrupt could not be triggered.
fn any_call(serial: &mut Device<'_>, random: &mut Random) -> bool {
    let ended = match random.below(12) {
        0..=2 => serial.write(DATA, random.below(255)),
        3 => serial.write(IER, random.below(16)),
        4 => serial.write(FCR, random.below(8) | 0x80),
        5 => serial.write(random.below(8), random.below(255)),
        6 | 7 => serial
            .enqueue_raw_bytes(&[1, 2, 3][..usize::from(1 + random.below(3))])
            .map(drop),
        8 => serial.enqueue_break(),
        9 => serial.write_output().map(drop),
        10 => {
            serial.read(DATA);
            Ok(())
        }
        _ => {
            serial.read(random.below(8));
            Ok(())
        }
    };
    matches!(ended, Err(Error::Trigger(_)))
}

/// Whenever the line works in a call, it has the port's level afterwards, and if the line failed before and is up, the guest was
/// interrupted. No byte is lost but those that a broken output was offered.
#[test]
fn after_each_call_the_line_is_right_and_no_byte_is_unaccounted() {
    let mut failures = 0;
    for seed in 1..=300 {
        let (line, counts) = (Line::default(), Counts::default());
        let mut serial = device(&line, &counts, Mood::TakesUpTo(3));
        let mut random = Random(seed << 20 | seed);
        let mut is_owed = false;
        for _call in 0..200 {
            serial.writer_mut().mood = match random.below(8) {
                0 => Mood::TakesNoneForEver,
                1 => Mood::Lies,
                room => Mood::TakesUpTo(usize::from(room) - 2),
            };
            line.is_broken.set(random.below(4) == 0);
            let (triggers, failed) = (line.count.get(), counts.of(Counted::Failed));
            let is_told = any_call(&mut serial, &mut random);
            let has_failed = counts.of(Counted::Failed) > failed;
            assert!(!is_told || has_failed);
            assert!(!has_failed || line.is_broken.get());
            if !line.is_broken.get() {
                assert_eq!(line.is_high.get(), serial.level());
                let is_interrupted = line.count.get() > triggers;
                assert!(!is_owed || !serial.level() || is_interrupted);
            }
            is_owed = if line.is_broken.get() {
                is_owed || has_failed
            } else {
                false
            };
            failures += usize::from(has_failed);
        }
        assert_eq!(counts.of(Counted::Triggered), line.count.get());
        let screen = serial.writer();
        assert_eq!(counts.of(Counted::Out), screen.shown.len());
        assert_eq!(counts.of(Counted::Lost), screen.refused);
    }
    assert!(failures > 1_000);
}

/// A restored device tells what is owed, and all that it tells.
#[test]
fn a_restored_device_owes_an_interrupt_until_it_was_raised() {
    let (line, counts) = (Line::default(), Counts::default());
    let mut serial = device(&line, &counts, Mood::TakesUpTo(9));
    serial.write(IER, DATA_READY).unwrap();
    serial.enqueue_raw_bytes(&[7]).unwrap();
    let state: SerialState = serial.state();
    let (line, counts) = (Line::default(), Counts::default());
    line.is_broken.set(true);
    let screen = Screen::new(Mood::TakesUpTo(9));
    let mut restored = Serial::from_state(&state, &line, &counts, screen).unwrap();
    assert_eq!(counts.of(Counted::Failed), 1);
    line.is_broken.set(false);
    assert_eq!(restored.read(SPR), 0);
    assert_eq!((line.is_high.get(), line.count.get()), (true, 1));
}

/// The line of a restored device may have any level before.
#[test]
fn a_restored_device_tells_the_level_of_its_line() {
    for level in [false, true] {
        let (line, counts) = (Line::default(), Counts::default());
        let mut serial = device(&line, &counts, Mood::TakesUpTo(9));
        serial.write(IER, DATA_READY * u8::from(level)).unwrap();
        serial.enqueue_raw_bytes(&[7]).unwrap();
        for before in [false, true] {
            let (line, counts) = (Line::default(), Counts::default());
            line.is_high.set(before);
            let screen = Screen::new(Mood::TakesUpTo(9));
            let restored = Serial::from_state(&serial.state(), &line, &counts, screen).unwrap();
            assert_eq!((line.is_high.get(), restored.level()), (level, level));
            assert_eq!(line.count.get(), usize::from(level));
        }
    }
}

// ---- streams of std

#[cfg(feature = "std")]
mod streams {
    use super::*;
    use std::io::{self, ErrorKind, Write};

    /// A stream that answers as it is told, and from then on takes all. It is flushed as it is told.
    #[derive(Debug, Default)]
    struct Stream {
        writes: Vec<Result<usize, ErrorKind>>,
        flushes: Vec<Result<(), ErrorKind>>,
        shown: Vec<u8>,
        count_of_flushes: usize,
    }

    impl Write for Stream {
        fn write(&mut self, bytes: &[u8]) -> io::Result<usize> {
            let count = self.writes.pop().unwrap_or(Ok(bytes.len()))?;
            self.shown.extend(&bytes[..count]);
            Ok(count)
        }

        fn flush(&mut self) -> io::Result<()> {
            self.count_of_flushes += 1;
            Ok(self.flushes.pop().unwrap_or(Ok(()))?)
        }
    }

    fn take(stream: &mut Stream) -> Result<usize, ErrorKind> {
        stream.write_bytes(b"abc").map_err(|cause| cause.kind())
    }

    #[test]
    fn a_write_that_a_signal_interrupts_is_made_again() {
        // It is tried 16 times, and then put off: nothing is lost.
        for (interrupts, expected) in [(1, Ok(3)), (15, Ok(3)), (16, Ok(0)), (100, Ok(0))] {
            let mut stream = Stream {
                writes: vec![Err(ErrorKind::Interrupted); interrupts],
                ..Stream::default()
            };
            assert_eq!(take(&mut stream), expected, "{interrupts} interrupts");
            assert_eq!(stream.writes.len(), interrupts.saturating_sub(16));
            let shown: &[u8] = if expected == Ok(3) { b"abc" } else { b"" };
            assert_eq!(stream.shown, shown);
        }
    }

    #[test]
    fn a_stream_that_would_block_takes_nothing_and_one_that_fails_is_broken() {
        let answers = [
            (Err(ErrorKind::WouldBlock), Ok(0)),
            (Ok(0), Err(ErrorKind::WriteZero)),
            (Ok(2), Ok(2)),
            (Err(ErrorKind::BrokenPipe), Err(ErrorKind::BrokenPipe)),
            (Err(ErrorKind::Other), Err(ErrorKind::Other)),
        ];
        for (answer, expected) in answers {
            let mut stream = Stream {
                writes: vec![answer],
                ..Stream::default()
            };
            assert_eq!(take(&mut stream), expected);
        }
    }

    /// What was written is taken, whatever the flush says, unless the stream is broken.
    #[test]
    fn a_stream_is_flushed_after_each_write() {
        let flushes = [
            (Ok(()), Ok(3)),
            (Err(ErrorKind::WouldBlock), Ok(3)),
            (Err(ErrorKind::Interrupted), Ok(3)),
            (Err(ErrorKind::BrokenPipe), Err(ErrorKind::BrokenPipe)),
            (Err(ErrorKind::WriteZero), Err(ErrorKind::WriteZero)),
            (Err(ErrorKind::Other), Err(ErrorKind::Other)),
        ];
        for (flush, expected) in flushes {
            let mut stream = Stream {
                flushes: vec![flush],
                ..Stream::default()
            };
            assert_eq!(take(&mut stream), expected);
            assert_eq!((&*stream.shown, stream.count_of_flushes), (&b"abc"[..], 1));
        }
    }
}
