//! The monitor: a thread for the processor, and one that waits for the terminal, for room and for the guest's end.

use std::fmt::Display;
use std::io;
use std::os::unix::net::UnixStream;
use std::sync::{Arc, Mutex, MutexGuard};
use std::thread;
use std::thread::JoinHandle;
use std::time::Duration;

use uart_16550_chip::SerialState;
use uart_16550_chip::serial::Error;
use uart_16550_vmm::{Both, Counters, Epoll, EventFd, Input, Room};

use crate::guest;
use crate::guest::Mode;
use crate::kvm::{Exit, Machine, Processor, Saved, Stop};
use crate::linux::interrupt;
use crate::port::{BASE, Events, Interrupt, SerialPort};

/// How much memory a machine has.
const MEMORY: usize = 0x2_0000;
/// How long nothing may happen before that is an error. No part of the example waits for so long.
const PATIENCE: Duration = Duration::from_secs(60);

/// A machine that does not run.
pub struct Snapshot {
    machine: Saved,
    /// The port's state, as it travels.
    port: [u8; SerialState::LEN],
}

/// What a run came to.
pub enum Outcome {
    /// The guest ended, and all that it sent is written.
    Ended,
    /// As much input as was asked for is received, and the machine was stopped there.
    Stopped(Box<Snapshot>),
}

/// The host's side of the port.
pub struct Host {
    /// Where the guest's output goes, and where input comes from. It does not block.
    terminal: UnixStream,
    /// Input from there, and what was read of it that the port has not received.
    input: Input<UnixStream>,
    /// How the guest does its input and output.
    mode: Mode,
    pub counters: Arc<Counters>,
}

impl Host {
    pub fn new(terminal: UnixStream, mode: Mode) -> io::Result<Self> {
        terminal.set_nonblocking(true)?;
        Ok(Host {
            input: Input::new(terminal.try_clone()?),
            terminal,
            mode,
            counters: Arc::default(),
        })
    }

    /// Returns what a port is made of.
    fn parts(&self) -> io::Result<(Interrupt, Events, UnixStream)> {
        let trigger = Interrupt::new(self.mode == Mode::Levels)?;
        let events = Both(Arc::clone(&self.counters), Room(EventFd::new()?));
        Ok((trigger, events, self.terminal.try_clone()?))
    }

    /// Boots a guest that is to answer so many bytes, and lets it run until it ends, or the port received so many bytes.
    pub fn boot(&mut self, count: u32, limit: Option<usize>) -> io::Result<Outcome> {
        let (trigger, events, output) = self.parts()?;
        let mut port = SerialPort::with_events(trigger, events, output);
        let (machine, processor) =
            Machine::new(&guest::memory(MEMORY, self.mode, count), guest::LOAD)?;
        port.interrupt_evt().connect(&machine)?;
        // The host may type before the guest has looked at its port.
        let received = self.input.offer(&mut port)?;
        self.run(machine, processor, port, received, limit)
    }

    /// Makes a machine of a snapshot, and lets it run on.
    pub fn resume(&mut self, snapshot: Box<Snapshot>, limit: Option<usize>) -> io::Result<Outcome> {
        let (trigger, events, output) = self.parts()?;
        let (machine, processor) = Machine::restore(snapshot.machine)?;
        // First the line and then the port: the old machine may have lost an edge on its way, so the port signals one if its line is up.
        trigger.connect(&machine)?;
        let state = SerialState::from_bytes(&snapshot.port).map_err(refused)?;
        let port = SerialPort::from_state(&state, trigger, events, output).map_err(refused)?;
        self.run(machine, processor, port, 0, limit)
    }

    fn run(
        &mut self,
        machine: Machine,
        processor: Processor,
        port: SerialPort,
        mut received: usize,
        limit: Option<usize>,
    ) -> io::Result<Outcome> {
        let room = port.events().1.0.try_clone()?;
        let resample = port.interrupt_evt().resample.clone();
        let port = Arc::new(Mutex::new(port));
        let running = Running::start(processor, Arc::clone(&port))?;
        let epoll = Epoll::new()?;
        epoll.add(&self.terminal)?;
        epoll.add(&room)?;
        epoll.add(&*running.ended)?;
        if let Some(resample) = &resample {
            epoll.add(&**resample)?;
        }
        // Each round follows an event, and looks at everything. So nothing that happened before the first round is overlooked.
        loop {
            let mut port = lock(&port);
            if resample.as_deref().map_or(Ok(false), EventFd::take)? {
                port.resample().map_err(failed)?;
            }
            port.write_output().map_err(failed)?;
            received += self.input.offer(&mut port)?;
            drop(port);
            if limit.is_some_and(|limit| received >= limit) || running.ended.take()? {
                break;
            }
            if !epoll.wait(PATIENCE)? {
                running.stop()?;
                return Err(timed_out("the guest waits, and so does the host"));
            }
            room.take()?;
        }
        let (processor, end) = running.stop()?;
        let mut port = lock(&port);
        if end == End::Stopped {
            let machine = machine.save(&processor)?;
            // Input may come between the two. Its interrupt is lost with this machine, and signalled again in the next one.
            self.input.offer(&mut port)?;
            let port = port.state().to_bytes();
            return Ok(Outcome::Stopped(Box::new(Snapshot { machine, port })));
        }
        // The guest has ended, and what it sent last may still be in the port.
        port.write_output().map_err(failed)?;
        while !port.output().is_empty() {
            if !epoll.wait(PATIENCE)? {
                return Err(timed_out("the terminal takes no output"));
            }
            port.write_output().map_err(failed)?;
        }
        Ok(Outcome::Ended)
    }
}

/// Why the thread of a processor ended.
#[derive(Clone, Copy, Debug, PartialEq, Eq)]
enum End {
    /// The guest wrote to the port that ends it.
    Guest,
    /// The processor was stopped.
    Stopped,
}

/// A processor that runs, in a thread of its own.
struct Running {
    thread: JoinHandle<io::Result<(Processor, End)>>,
    stop: Stop,
    /// Is signalled when the thread makes no more accesses.
    ended: Arc<EventFd>,
}

impl Running {
    fn start(processor: Processor, port: Arc<Mutex<SerialPort>>) -> io::Result<Self> {
        let stop = processor.stop();
        let ended = Arc::new(EventFd::new()?);
        let signal = Arc::clone(&ended);
        let thread = thread::spawn(move || {
            let result = execute(processor, &port);
            signal.signal()?;
            result
        });
        Ok(Running {
            thread,
            stop,
            ended,
        })
    }

    /// Stops the processor between two instructions, unless the guest has ended.
    fn stop(self) -> io::Result<(Processor, End)> {
        self.stop.ask();
        interrupt(&self.thread);
        self.thread
            .join()
            .map_err(|_| io::Error::other("the thread of the processor panicked"))?
    }
}

/// Lets the guest run, and makes its accesses.
fn execute(mut processor: Processor, port: &Mutex<SerialPort>) -> io::Result<(Processor, End)> {
    loop {
        match processor.run()? {
            Exit::Stopped => return Ok((processor, End::Stopped)),
            Exit::Write(access) if access.port == guest::END => return Ok((processor, End::Guest)),
            Exit::Write(access) => {
                if let Some(offset) = offset(access.port) {
                    let mut port = lock(port);
                    processor
                        .written(access)
                        .try_for_each(|value| port.write(offset, value))
                        .map_err(failed)?;
                }
            }
            Exit::Read(access) => match offset(access.port) {
                Some(offset) => {
                    let mut port = lock(port);
                    processor.answer(access, || port.read(offset));
                }
                // Nothing answers, and the lines of the bus stay high.
                None => processor.answer(access, || 0xff),
            },
        }
    }
}

/// Returns the offset of a port of this machine in its serial port.
fn offset(port: u16) -> Option<u8> {
    port.checked_sub(BASE)
        .and_then(|offset| u8::try_from(offset).ok())
        .filter(|offset| *offset < 8)
}

fn lock(port: &Mutex<SerialPort>) -> MutexGuard<'_, SerialPort> {
    port.lock().expect("no thread panics while it has the port")
}

pub fn timed_out(text: &str) -> io::Error {
    io::Error::new(io::ErrorKind::TimedOut, text)
}

fn refused(reason: impl Display) -> io::Error {
    io::Error::other(format!("the port's state is refused: {reason}"))
}

fn failed(cause: Error<io::Error>) -> io::Error {
    io::Error::other(cause)
}
