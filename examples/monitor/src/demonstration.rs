//! What is shown: each run boots a guest, types to it, and compares what comes back.

use std::fmt;
use std::io;
use std::io::{Read, Write};
use std::os::unix::net::UnixStream;
use std::sync::Arc;
use std::thread;
use std::thread::JoinHandle;
use std::time::Duration;

use uart_16550_vmm::Counters;

use crate::guest;
use crate::guest::Mode;
use crate::linux::catch_interrupts;
use crate::monitor::{Host, Outcome, timed_out};

/// How many characters are typed before the guest has booted.
const TYPED: u32 = 51;
/// How many times a machine is saved while it moves bytes, and goes on as another.
const SNAPSHOTS: usize = 16;
/// How long a terminal waits for a byte.
const PATIENCE: Duration = Duration::from_secs(60);

/// What one run does.
struct Run {
    mode: Mode,
    pace: Pace,
    snapshots: usize,
}

/// How a terminal takes output.
#[derive(Clone, Copy, Debug, PartialEq, Eq)]
enum Pace {
    AtOnce,
    /// None at all until the port has to hold some, and then little at a time.
    Slow,
}

const RUNS: [Run; 7] = [
    Run::new(Mode::Polled, Pace::AtOnce, 0),
    Run::new(Mode::Edges, Pace::AtOnce, 0),
    Run::new(Mode::Levels, Pace::AtOnce, 0),
    Run::new(Mode::Edges, Pace::Slow, 0),
    Run::new(Mode::Polled, Pace::AtOnce, SNAPSHOTS),
    Run::new(Mode::Edges, Pace::Slow, SNAPSHOTS),
    Run::new(Mode::Levels, Pace::Slow, SNAPSHOTS),
];

/// Makes all runs, each with so many bytes each way, and prints what each came to.
pub fn run(count: u32) -> io::Result<()> {
    catch_interrupts();
    for run in &RUNS {
        println!("{run}: {}", run.show(count)?);
    }
    for mode in [Mode::Polled, Mode::Edges, Mode::Levels] {
        println!(
            "{TYPED} characters before boot, {mode}: {}",
            type_before_boot(mode)?
        );
    }
    Ok(())
}

impl fmt::Display for Run {
    fn fmt(&self, f: &mut fmt::Formatter<'_>) -> fmt::Result {
        self.mode.fmt(f)?;
        if self.pace == Pace::Slow {
            f.write_str(", to a slow host")?;
        }
        if self.snapshots != 0 {
            f.write_str(", saved and restored")?;
        }
        Ok(())
    }
}

impl Run {
    const fn new(mode: Mode, pace: Pace, snapshots: usize) -> Self {
        Run {
            mode,
            pace,
            snapshots,
        }
    }

    /// Makes the run, and returns what to print of it.
    fn show(&self, count: u32) -> io::Result<String> {
        let input = input(count);
        let (ours, theirs) = UnixStream::pair()?;
        let mut host = Host::new(ours, self.mode)?;
        let counters = Arc::clone(&host.counters);
        let terminal = start({
            let (input, counters, pace) = (input.clone(), Arc::clone(&counters), self.pace);
            move || use_terminal(theirs, input, pace, &counters)
        });
        let part = input.len() / (self.snapshots + 1);
        let limit = |saved| (saved < self.snapshots).then_some(part);
        let mut saved = 0;
        let mut outcome = host.boot(count, limit(saved))?;
        while let Outcome::Stopped(snapshot) = outcome {
            saved += 1;
            outcome = host.resume(snapshot, limit(saved))?;
        }
        compare(&input, &joined(terminal)?)?;
        let moves = if saved == 0 {
            String::new()
        } else {
            format!(" over {saved} snapshots")
        };
        Ok(format!(
            "{count} bytes each way{moves}, {}",
            report(&counters)?
        ))
    }
}

/// Types before a guest boots, and returns what to print of it.
///
/// A port has room for one character while its FIFO is off, and turning the FIFO on clears that one, as on hardware. All others wait in
/// the host until then, and must come.
fn type_before_boot(mode: Mode) -> io::Result<String> {
    let input = input(TYPED);
    let (ours, mut theirs) = UnixStream::pair()?;
    let mut host = Host::new(ours, mode)?;
    theirs.write_all(&input)?;
    let Outcome::Ended = host.boot(TYPED - 1, None)? else {
        return Err(io::Error::other("the machine was stopped"));
    };
    wait_for_prompt(&mut theirs)?;
    let mut output = vec![0; input.len() - 1];
    theirs.read_exact(&mut output)?;
    compare(&input[1..], &output)?;
    Ok(format!(
        "the first cleared with the FIFO, all others answered, {}",
        report(&host.counters)?
    ))
}

/// Returns bytes of all values, in an order without a short period.
fn input(count: u32) -> Vec<u8> {
    (0..count)
        .map(|index| (index.wrapping_mul(0x9e37_79b1) >> 24) as u8)
        .collect()
}

/// Waits for the prompt, types, and returns what came back for that.
fn use_terminal(
    mut stream: UnixStream,
    input: Vec<u8>,
    pace: Pace,
    counters: &Counters,
) -> io::Result<Vec<u8>> {
    stream.set_read_timeout(Some(PATIENCE))?;
    wait_for_prompt(&mut stream)?;
    let mut output = vec![0; input.len()];
    let mut typed = stream.try_clone()?;
    let typist = start(move || typed.write_all(&input));
    if pace == Pace::Slow {
        wait_until_held(counters)?;
        for part in output.chunks_mut(256) {
            stream.read_exact(part)?;
            thread::sleep(Duration::from_micros(50));
        }
    } else {
        stream.read_exact(&mut output)?;
    }
    joined(typist)?;
    Ok(output)
}

fn wait_for_prompt(stream: &mut UnixStream) -> io::Result<()> {
    let mut prompt = [0];
    stream.read_exact(&mut prompt)?;
    if prompt == [guest::PROMPT] {
        Ok(())
    } else {
        Err(io::Error::other("the guest did not begin with its prompt"))
    }
}

/// Takes nothing until the port holds output back.
fn wait_until_held(counters: &Counters) -> io::Result<()> {
    let step = Duration::from_millis(1);
    for _ in 0..PATIENCE.as_millis() {
        if counters.counts().held != 0 {
            return Ok(());
        }
        thread::sleep(step);
    }
    Err(timed_out(
        "the terminal took nothing, and the port held nothing",
    ))
}

/// Compares what came back with what was typed.
fn compare(input: &[u8], output: &[u8]) -> io::Result<()> {
    match input
        .iter()
        .zip(output)
        .position(|(typed, back)| guest::answer(*typed) != *back)
    {
        None if input.len() == output.len() => Ok(()),
        None => Err(io::Error::other(format!(
            "{} bytes were typed, and {} came back",
            input.len(),
            output.len()
        ))),
        Some(index) => Err(io::Error::other(format!(
            "byte {index} is {:02x}, and {:02x} came back",
            input[index], output[index]
        ))),
    }
}

/// Returns what was counted. A lost byte is an error.
fn report(counters: &Counters) -> io::Result<String> {
    let counts = counters.counts();
    let lost = counts.lost_bytes + counts.overflows;
    if lost != 0 {
        return Err(io::Error::other(format!(
            "{lost} bytes of output were lost"
        )));
    }
    Ok(format!(
        "{} interrupts, output held back {} times",
        counts.triggers, counts.held
    ))
}

fn start<T: Send + 'static>(
    run: impl FnOnce() -> io::Result<T> + Send + 'static,
) -> JoinHandle<io::Result<T>> {
    thread::spawn(run)
}

fn joined<T>(thread: JoinHandle<io::Result<T>>) -> io::Result<T> {
    thread
        .join()
        .map_err(|_| io::Error::other("a thread panicked"))?
}
