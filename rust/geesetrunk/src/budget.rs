//! How late a handler may be, for people: what each trigger level leaves, and which one to take.

use crate::command_line::Given;
use crate::end::{End, Status};
use crate::lateness::{Allowance, LEVELS, NoAllowance, SIZES, Service};
use crate::options::{number_in, value_of};
use crate::text::counted;
use std::fmt::Write as _;
use uart_language::fields::size_in;
use uart_spec::registers::{FifoTriggerLevel, Parity, WordLength};
use uart_spec::{BaudRate, Config, FifoSize};

// The clock if none is named: it has a divisor for each usual baud rate up to 921,600, and is eight times that of a PC.
const USUAL_FREQUENCY: u32 = 14_745_600;

const USUAL_RATE: u32 = 115_200;

// How long an access takes if nothing else is said: a microsecond, or a tick, as each access of a script does.
const USUAL_ACCESS: &str = "1";

// How many clocks a character of ten bits takes at divisor 1.
const CLOCKS_OF_TEN_BITS: u64 = 160;

/// The FIFOs of which the table for documents has a column for each level.
pub const TABLE_SIZES: [FifoSize; 3] = [
    FifoSize::Sixteen,
    FifoSize::SixtyFour,
    FifoSize::OneHundredTwentyEight,
];

/// The baud rates of the table for documents.
pub const TABLE_RATES: [u32; 8] = [
    9_600, 19_200, 38_400, 57_600, 115_200, 230_400, 460_800, 921_600,
];

// What times are given and shown in.
#[derive(Clone, Copy, Debug, PartialEq, Eq)]
enum Unit {
    // Given in microseconds, and shown in clocks of the chip too.
    Clocks,
    // In ticks of a script.
    Ticks,
}

// How characters come, and how they are read, at any level.
struct Line {
    unit: Unit,
    frame: String,
    config: Config,
    // The FIFOs, if they are on.
    size: Option<FifoSize>,
    // In nanoseconds or in ticks.
    access: u64,
    before: u64,
}

// What a level leaves.
struct Row {
    level: usize,
    left: Result<Allowance, NoAllowance>,
}

// Reads data bits, parity and stop bits, as 8N1.
fn frame_in(word: &str) -> Option<(WordLength, Parity, bool)> {
    let word = word.to_ascii_uppercase();
    let mut letters = word.chars();
    let data_bits = match letters.next()? {
        '5' => WordLength::FiveBits,
        '6' => WordLength::SixBits,
        '7' => WordLength::SevenBits,
        '8' => WordLength::EightBits,
        _ => return None,
    };
    let parity = match letters.next()? {
        'N' => Parity::Disabled,
        'O' => Parity::Odd,
        'E' => Parity::Even,
        'M' => Parity::Forced1,
        'S' => Parity::Forced0,
        _ => return None,
    };
    // More than one stop bit are one and a half of a character of five bits, and otherwise two.
    match (letters.as_str(), data_bits) {
        ("1", _) => Some((data_bits, parity, false)),
        ("1.5", WordLength::FiveBits) => Some((data_bits, parity, true)),
        ("2", bits) if bits != WordLength::FiveBits => Some((data_bits, parity, true)),
        _ => None,
    }
}

// Reads microseconds, and returns them in nanoseconds.
fn nanoseconds_in(word: &str) -> Option<u64> {
    let (whole, decimals) = word.split_once('.').unwrap_or((word, "0"));
    if !(1..=3).contains(&decimals.len()) {
        return None;
    }
    let decimals = number_in(&format!("{decimals:0<3}"))?;
    number_in(whole)?.checked_mul(1_000)?.checked_add(decimals)
}

// Returns nanoseconds as microseconds.
fn microseconds(nanoseconds: u64) -> String {
    let text = format!("{}.{:03}", nanoseconds / 1_000, nanoseconds % 1_000);
    text.trim_end_matches('0').trim_end_matches('.').into()
}

// Returns a number with a comma between thousands.
fn grouped(number: u64) -> String {
    match number {
        0..1_000 => number.to_string(),
        _ => format!("{},{:03}", grouped(number / 1_000), number % 1_000),
    }
}

// Returns words of which one is to be chosen, as they stand in a sentence.
fn listed(words: &[String]) -> String {
    match words {
        [before @ .., last] if !before.is_empty() => format!("{} or {last}", before.join(", ")),
        _ => words.concat(),
    }
}

impl Unit {
    fn name(self) -> &'static str {
        match self {
            Unit::Clocks => "us",
            Unit::Ticks => "ticks",
        }
    }

    // Reads a time, and returns it in nanoseconds or in ticks.
    fn time_in(self, word: &str) -> Option<u64> {
        match self {
            Unit::Clocks => nanoseconds_in(word),
            Unit::Ticks => number_in(word),
        }
    }

    // Returns the time that a flag has.
    fn time(self, given: &Given, flag: &str) -> Result<Option<u64>, End> {
        let wants = match self {
            Unit::Clocks => "a number of microseconds with at most three decimals, as 1 or 0.25",
            Unit::Ticks => "a number of ticks",
        };
        value_of(given, flag, |word| self.time_in(word), wants)
    }

    // Returns a time with its unit.
    fn text(self, time: u64) -> String {
        match self {
            Unit::Clocks => format!("{} us", microseconds(time)),
            Unit::Ticks => counted(time, "tick"),
        }
    }
}

impl Line {
    // Returns the line that the command line tells.
    fn of(given: &Given) -> Result<Self, End> {
        let ticks = |word: &str| {
            number_in(word)?
                .try_into()
                .ok()
                .filter(|ticks| *ticks > 0u16)
        };
        let wants = format!(
            "how many ticks a character takes: a number from 1 to {}",
            u16::MAX
        );
        let ticks = value_of(given, "ticks", ticks, &wants)?;
        let unit = ticks.map_or(Unit::Clocks, |_| Unit::Ticks);
        let size = |word: &str| match word {
            "off" => Some(None),
            word => size_in(word.as_bytes()).ok().map(Some),
        };
        let size = value_of(given, "fifo", size, "off, 16, 32, 64, 128 or 256")?;
        let (frame, config) = match ticks {
            Some(ticks) => (String::new(), config_of_ticks(given, ticks)?),
            None => config_of(given)?,
        };
        let access = match unit.time(given, "access")? {
            Some(access) => access,
            None => unit.time_in(USUAL_ACCESS).unwrap_or_default(),
        };
        Ok(Line {
            unit,
            frame,
            config,
            size: size.unwrap_or(Some(FifoSize::Sixteen)),
            access,
            before: unit.time(given, "before")?.unwrap_or(0),
        })
    }

    // Returns how many clocks a time is, rounded up. A time that is too long for them is beyond every budget.
    fn clocks(&self, time: u64) -> u64 {
        let clocks = match self.unit {
            Unit::Clocks => self.config.clocks_covering(time),
            Unit::Ticks => time.checked_mul(CLOCKS_OF_TEN_BITS),
        };
        clocks.unwrap_or(u64::MAX)
    }

    // Returns so many clocks as a number of whole microseconds or ticks, rounded down.
    fn whole(&self, clocks: u64) -> u64 {
        match self.unit {
            // A budget is at most that of 256 characters, so it fits.
            Unit::Clocks => self.config.nanoseconds_within(clocks).unwrap_or(0) / 1_000,
            Unit::Ticks => clocks / CLOCKS_OF_TEN_BITS,
        }
    }

    fn service(&self, size: Option<FifoSize>, level: FifoTriggerLevel) -> Service {
        Service {
            config: Config {
                fifo_trigger_level: size.map(|_| level),
                ..self.config.clone()
            },
            size: size.unwrap_or_default(),
            access: self.clocks(self.access),
            before: self.clocks(self.before),
        }
    }

    // Returns what each level of such FIFOs leaves.
    fn rows(&self, size: Option<FifoSize>) -> Vec<Row> {
        let levels = if size.is_some() {
            &LEVELS[..]
        } else {
            &LEVELS[..1]
        };
        let row = |level: &FifoTriggerLevel| {
            let service = self.service(size, *level);
            Row {
                level: service.level(),
                left: service.allowance(),
            }
        };
        levels.iter().map(row).collect()
    }

    // Returns how many interrupts come in a second at most, if each has so many characters.
    fn interrupts(&self, level: usize) -> Option<u64> {
        let clocks = self.config.character_clocks().ok()? * level as u64;
        Some(u64::from(self.config.frequency).div_ceil(clocks))
    }

    // Returns what is told of it before the table.
    fn head(&self) -> String {
        let character = self.config.character_clocks().unwrap_or(0);
        let mut text = match self.unit {
            Unit::Clocks => format!(
                "{} baud, {}: a character takes {character} clocks of {} Hz, or {} us\n",
                self.config.baud_rate.to_integer(),
                self.frame,
                self.config.frequency,
                microseconds(self.config.nanoseconds_within(character).unwrap_or(0)),
            ),
            Unit::Ticks => format!(
                "a character takes {}\n",
                self.unit.text(self.whole(character))
            ),
        };
        let fifo = self.size.map_or("no FIFO".into(), |size| {
            format!("a FIFO of {}", size.characters())
        });
        let _ = write!(
            text,
            "{fifo}, and {} for an access",
            self.unit.text(self.access)
        );
        if self.before > 0 {
            let _ = write!(
                text,
                ", behind {} for other ports",
                self.unit.text(self.before)
            );
        }
        text.push('\n');
        text
    }

    // Returns why no level leaves anything.
    fn cause(&self, cause: &NoAllowance) -> End {
        match cause {
            NoAllowance::Divisor(cause) => {
                let (rate, clock) = (self.config.baud_rate.to_integer(), self.config.frequency);
                End::failed(format!(
                    "{rate} baud cannot be had from a clock of {clock} Hz: {cause}. --clock names the chip's"
                ))
            }
            NoAllowance::SlowReads => End::new(
                Status::Refused,
                format!(
                    "a handler falls behind, however early it begins: a byte takes two accesses of {}, and a character takes less",
                    self.unit.text(self.access)
                ),
            ),
            NoAllowance::NothingLeft => End::new(
                Status::Refused,
                "a handler is too late, however early it begins: the receiver is full before the bytes are read that wait",
            ),
        }
    }
}

// Returns a configuration in which a character takes so many times 160 clocks.
fn config_of_ticks(given: &Given, ticks: u16) -> Result<Config, End> {
    if let Some(flag) = ["baud", "frame", "clock"]
        .into_iter()
        .find(|flag| given.has(flag))
    {
        return Err(End::failed(format!(
            "--ticks says how long a character takes: leave --{flag} out"
        )));
    }
    Ok(Config {
        frequency: 16 * u32::from(ticks),
        baud_rate: BaudRate::from_integer(1),
        ..Config::DEFAULT
    })
}

// Returns the frame as it is shown, and the configuration.
fn config_of(given: &Given) -> Result<(String, Config), End> {
    let number = |word: &str| {
        number_in(word)?
            .try_into()
            .ok()
            .filter(|number| *number > 0u32)
    };
    let frame = given.value("frame").unwrap_or("8N1").to_ascii_uppercase();
    let wants = "data bits, parity and stop bits, as 8N1, 7E2 or 5O1.5";
    let bits = value_of(given, "frame", frame_in, wants)?;
    let (data_bits, parity, extra_stop_bits) =
        bits.unwrap_or((WordLength::EightBits, Parity::Disabled, false));
    let rate = value_of(
        given,
        "baud",
        number,
        "a baud rate: a number from 1 to 4294967295",
    )?;
    let clock = value_of(
        given,
        "clock",
        number,
        "a number of hertz from 1 to 4294967295",
    )?;
    let config = Config {
        frequency: clock.unwrap_or(USUAL_FREQUENCY),
        baud_rate: BaudRate::from_integer(rate.unwrap_or(USUAL_RATE)),
        data_bits,
        parity,
        extra_stop_bits,
        ..Config::DEFAULT
    };
    Ok((frame, config))
}

// Returns the cells of a level, with their names above them.
fn cells(line: &Line, row: &Row) -> Vec<(&'static str, String)> {
    let left = row.left.as_ref().ok();
    let shown = |cell: Option<String>| cell.unwrap_or_else(|| "-".into());
    let late = left.map(|left| left.late);
    let others = left.map(|left| match left.others {
        Some(others) => others.to_string(),
        None => "any".into(),
    });
    let mut cells = vec![
        ("level", row.level.to_string()),
        (
            line.unit.name(),
            shown(late.map(|late| line.whole(late).to_string())),
        ),
    ];
    if line.unit == Unit::Clocks {
        cells.push(("clocks", shown(late.map(|late| late.to_string()))));
        let interrupts = line.interrupts(row.level).map(|count| count.to_string());
        cells.push(("interrupts a second", shown(interrupts)));
    }
    cells.push(("other accesses", shown(others)));
    cells
}

// Returns rows with their cells under their names.
fn table(line: &Line, rows: &[&Row]) -> String {
    let rows: Vec<_> = rows.iter().map(|row| cells(line, row)).collect();
    let names = rows.first().into_iter().flatten().map(|(name, _)| *name);
    let widths: Vec<_> = names
        .enumerate()
        .map(|(column, name)| {
            let cells = rows.iter().map(|row| row[column].1.len());
            cells.chain([name.len()]).max().unwrap_or(0)
        })
        .collect();
    let row = |cells: Vec<&str>| {
        let cells = cells
            .iter()
            .zip(&widths)
            .map(|(cell, width)| format!("{cell:>width$}"));
        cells.collect::<Vec<_>>().join("  ") + "\n"
    };
    let names = rows
        .first()
        .into_iter()
        .flatten()
        .map(|(name, _)| *name)
        .collect();
    let rows = rows
        .iter()
        .map(|cells| row(cells.iter().map(|(_, cell)| cell.as_str()).collect()));
    row(names) + &rows.collect::<String>()
}

// Returns the row that leaves most, with what it leaves.
fn most<'a>(rows: impl IntoIterator<Item = &'a Row>) -> Option<(&'a Row, u64)> {
    let left = rows
        .into_iter()
        .filter_map(|row| Some((row, row.left.as_ref().ok()?.late)));
    left.max_by_key(|(_, late)| *late)
}

// Returns which level to take for a latency, or why none leaves it.
fn advice(line: &Line, rows: &[&Row], latency: u64) -> Result<String, End> {
    let clocks = line.clocks(latency);
    let leaves = |row: &&&Row| row.left.as_ref().is_ok_and(|left| left.late >= clocks);
    let wanted = line.unit.text(latency);
    let Some(row) = rows.iter().filter(leaves).max_by_key(|row| row.level) else {
        return Err(End::new(
            Status::Refused,
            refusal(line, rows, &wanted, clocks),
        ));
    };
    let late = row.left.as_ref().map_or(0, |left| left.late);
    let spare = match line.unit {
        Unit::Clocks => line.whole(late - clocks),
        Unit::Ticks => line.whole(late) - latency,
    };
    let unit = line.unit.name();
    let level = row.level;
    let leaves = match line.size {
        Some(_) => format!("take level {level}: it leaves"),
        None => "without a FIFO there are".into(),
    };
    let interrupts = match level {
        1 => "Each character is an interrupt".into(),
        _ => format!("An interrupt is for {level} characters"),
    };
    let cost = match (line.unit, line.interrupts(level)) {
        (Unit::Clocks, Some(count)) => format!(", at most {count} in a second"),
        _ => String::new(),
    };
    Ok(format!(
        "\n{leaves} {} {unit}, of which {spare} are to spare. {interrupts}{cost}\n",
        line.whole(late),
    ))
}

// Returns that none of these leaves so much time, and what does.
fn refusal(line: &Line, rows: &[&Row], wanted: &str, clocks: u64) -> String {
    let left = most(rows.iter().copied()).map(|(row, late)| {
        let late = format!("{} {}", line.whole(late), line.unit.name());
        match (line.size, rows.len()) {
            (None, _) => format!(": without a FIFO there are {late}"),
            (_, 1) => format!(": level {} leaves {late}", row.level),
            _ => format!(": level {} leaves most, {late}", row.level),
        }
    });
    let is_enough = |row: &Row| row.left.as_ref().is_ok_and(|left| left.late >= clocks);
    let highest = |size| {
        let rows = line.rows(Some(size)).into_iter();
        let level = rows.filter(is_enough).map(|row| row.level).max();
        level.map(|level| (size, level))
    };
    // Another level first, then the smallest of the larger FIFOs.
    let sizes = SIZES.into_iter();
    let others = sizes.filter(|size| line.size.is_none_or(|own| *size >= own));
    let other = match others.into_iter().find_map(highest) {
        Some((size, level)) if Some(size) == line.size => format!("Level {level} leaves enough"),
        Some((size, level)) => {
            let size = size.characters();
            format!("A FIFO of {size} leaves enough at level {level}")
        }
        None => "No FIFO leaves enough: take flow control, or a lower baud rate".into(),
    };
    format!("{wanted} are too long{}. {other}", left.unwrap_or_default())
}

// Returns the table for documents, in Markdown.
fn document(given: &Given) -> Result<String, End> {
    let others = ["baud", "fifo", "level", "latency", "ticks"];
    if let Some(flag) = others.into_iter().find(|flag| given.has(flag)) {
        return Err(End::failed(format!(
            "--table has rates, FIFOs and levels of its own: leave --{flag} out"
        )));
    }
    let mut line = Line::of(given)?;
    let names = TABLE_SIZES.map(|size| {
        let [first, others @ ..] = LEVELS.map(|level| level.characters(size));
        let others = others.map(|level| level.to_string()).join(" | ");
        format!("level {first} of {} | {others}", size.characters())
    });
    let mut text = format!("| baud | {} |\n|---|", names.join(" | "));
    text += &"---|".repeat(TABLE_SIZES.len() * LEVELS.len());
    text.push('\n');
    for rate in TABLE_RATES {
        line.config.baud_rate = BaudRate::from_integer(rate);
        let _ = write!(text, "| {} |", grouped(rate.into()));
        for row in TABLE_SIZES
            .into_iter()
            .flat_map(|size| line.rows(Some(size)))
        {
            let _ = match row.left {
                Ok(left) => write!(text, " {} |", grouped(line.whole(left.late))),
                Err(cause @ NoAllowance::Divisor(_)) => return Err(line.cause(&cause)),
                Err(_) => write!(text, " - |"),
            };
        }
        text.push('\n');
    }
    Ok(text)
}

/// Returns what a command line asks about how late a handler may be.
///
/// # Errors
///
/// How the program ends: a word is wrong, there is no divisor for the baud rate, no handler keeps up, or no level leaves the time
/// that is wanted.
pub fn budget(given: &Given) -> Result<String, End> {
    if given.has("table") {
        return document(given);
    }
    let line = Line::of(given)?;
    let latency = line.unit.time(given, "latency")?;
    let rows = line.rows(line.size);
    let levels: Vec<_> = rows.iter().map(|row| row.level.to_string()).collect();
    let wants = match line.size {
        Some(size) => format!(
            "a level of a FIFO of {}: {}",
            size.characters(),
            listed(&levels)
        ),
        None => "left out: without a FIFO each character is an interrupt".into(),
    };
    let is_level = |word: &str| {
        levels
            .iter()
            .position(|level| line.size.is_some() && level == word)
    };
    let chosen = value_of(given, "level", is_level, &wants)?;
    let shown: Vec<_> = match chosen {
        Some(index) => vec![&rows[index]],
        None => rows.iter().collect(),
    };
    if let Some(cause) = shown.iter().find_map(|row| row.left.as_ref().err())
        && most(shown.iter().copied()).is_none()
    {
        return Err(line.cause(cause));
    }
    let advice = latency
        .map(|latency| advice(&line, &shown, latency))
        .transpose()?;
    Ok(line.head() + "\n" + &table(&line, &shown) + &advice.unwrap_or_default())
}
