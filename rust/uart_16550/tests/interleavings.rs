//! Interleavings of three tasks and a handler over shared rings: no wake is lost, and no byte.
//!
//! Each of the four is a thread, and one of them runs at a time. Before each section, and before each wake, a thread stops, and the
//! test chooses who goes on: the one that ran last, if it can, and else the one that has not run for the longest time; or, so many times
//! in a run as [`explore`] is told, the next one in this order. It makes a run for each list of such choices. A task that waits goes on
//! only after it was woken: if all that are not done wait, a wake was lost.
#![cfg(not(miri))]

#[path = "sharing/chip.rs"]
mod chip;

use chip::Cable;
use std::cell::Cell;
use std::collections::BTreeMap;
use std::future::Future;
use std::pin::pin;
use std::sync::{Arc, Condvar, Mutex, MutexGuard};
use std::task::{Context, Poll, Wake, Waker};
use std::thread;
use uart_16550::native::{Config, Uart16550};
use uart_16550::ring::{MAX_INTERRUPTS, Memory};
use uart_16550::shared::{CriticalSection, Shared};
use uart_16550::spec::registers::IER;

/// Who runs: a task, or the processor of the handler.
type Actor = usize;

#[derive(Clone, Copy, PartialEq, Eq)]
enum State {
    Running,
    /// Before a section or a wake.
    Stopped,
    /// A task that returned `Pending`, and was not woken since.
    Waiting,
    Done,
}

struct Actors {
    states: BTreeMap<Actor, State>,
    /// Tasks that were woken while they ran.
    woken: BTreeMap<Actor, bool>,
    is_cut: bool,
}

/// Lets one actor run at a time.
struct Scheduler {
    actors: Mutex<Actors>,
    changed: Condvar,
}

thread_local! {
    static ACTOR: Cell<Option<Actor>> = const { Cell::new(None) };
}

/// What a thread unwinds with when a run is cut.
struct Cut;

impl Scheduler {
    fn new(count: usize) -> Self {
        Self {
            actors: Mutex::new(Actors {
                states: (0..count).map(|actor| (actor, State::Running)).collect(),
                woken: (0..count).map(|actor| (actor, false)).collect(),
                is_cut: false,
            }),
            changed: Condvar::new(),
        }
    }

    fn lock(&self) -> MutexGuard<'_, Actors> {
        self.actors
            .lock()
            .unwrap_or_else(|poisoned| poisoned.into_inner())
    }

    // The actor of this thread is in this state until it may run.
    fn stop(&self, state: State) {
        let Some(actor) = ACTOR.get() else { return };
        let mut actors = self.lock();
        if state == State::Waiting && actors.woken.insert(actor, false) == Some(true) {
            actors.states.insert(actor, State::Stopped);
        } else {
            actors.states.insert(actor, state);
        }
        self.changed.notify_all();
        while actors.states[&actor] != State::Running && !actors.is_cut {
            actors = self.changed.wait(actors).unwrap();
        }
        if actors.is_cut && !thread::panicking() {
            drop(actors);
            std::panic::resume_unwind(Box::new(Cut));
        }
    }

    fn finish(&self) {
        let actor = ACTOR.get().unwrap();
        self.lock().states.insert(actor, State::Done);
        self.changed.notify_all();
    }

    fn wake(&self, task: Actor) {
        let mut actors = self.lock();
        if actors.states[&task] == State::Waiting {
            actors.states.insert(task, State::Stopped);
        } else {
            actors.woken.insert(task, true);
        }
    }

    /// Runs the actors by these choices, each of which says how many are passed over, and then always the first. Returns how many
    /// there were to choose from, each time.
    fn schedule(&self, choices: &[usize], mut passes: usize) -> Vec<usize> {
        let mut widths = Vec::new();
        // Who has not run for the longest time is the first.
        let mut order: Vec<Actor> = self.lock().states.keys().copied().collect();
        loop {
            let mut actors = self.lock();
            while actors.states.values().any(|state| *state == State::Running) {
                actors = self.changed.wait(actors).unwrap();
            }
            let is_able = |actor: &Actor| actors.states[actor] == State::Stopped;
            let last = order.last().copied().filter(is_able);
            let able: Vec<Actor> = last
                .into_iter()
                .chain(order.iter().copied().filter(|actor| is_able(actor) && Some(*actor) != last))
                .collect();
            let Some(most) = able.len().checked_sub(1) else {
                let is_done = actors.states.values().all(|state| *state == State::Done);
                actors.is_cut = true;
                self.changed.notify_all();
                drop(actors);
                assert!(is_done, "a wake is lost after the choices {choices:?}");
                return widths;
            };
            let passed = choices.get(widths.len()).copied().unwrap_or(0);
            widths.push(most.min(passes) + 1);
            passes -= passed;
            order.retain(|actor| *actor != able[passed]);
            order.push(able[passed]);
            actors.states.insert(able[passed], State::Running);
            self.changed.notify_all();
        }
    }
}

/// The kernel's section. Others run before it, and never in it.
struct Section(Arc<Scheduler>);

impl CriticalSection for Section {
    fn run<R>(&self, call: impl FnOnce() -> R) -> R {
        self.0.stop(State::Stopped);
        call()
    }
}

struct TaskWaker {
    scheduler: Arc<Scheduler>,
    task: Actor,
}

impl Wake for TaskWaker {
    fn wake(self: Arc<Self>) {
        self.scheduler.stop(State::Stopped);
        self.scheduler.wake(self.task);
    }
}

/// An executor of one task, which polls it only when it was woken.
fn run_task<F: Future>(scheduler: &Arc<Scheduler>, task: Actor, future: F) -> F::Output {
    let waker = Waker::from(Arc::new(TaskWaker {
        scheduler: scheduler.clone(),
        task,
    }));
    let mut context = Context::from_waker(&waker);
    let mut future = pin!(future);
    loop {
        if let Poll::Ready(output) = future.as_mut().poll(&mut context) {
            return output;
        }
        scheduler.stop(State::Waiting);
    }
}

/// What happens at the chip, each time before the handler runs once.
type News = fn(&Cable);

type Port = Shared<Section, Cable>;
type Task = fn(&Arc<Scheduler>, Actor, &Port);

const TRANSMIT_CAPACITY: usize = 1;
// A byte for each of two readers. With less a reader would have to call the handler for the second one.
const RECEIVE_CAPACITY: usize = 2;

fn port(scheduler: &Arc<Scheduler>, cable: &Cable) -> Port {
    let port = Shared::new(Section(scheduler.clone()));
    let memory = Memory::new(vec![0; TRANSMIT_CAPACITY + RECEIVE_CAPACITY].leak());
    let uart = Uart16550::new_with_backend(cable.clone());
    let started = port.start(memory.global(), uart, TRANSMIT_CAPACITY, RECEIVE_CAPACITY);
    started.unwrap();
    let config = Config {
        interrupts: IER::DATA_READY | IER::RECEIVER_LINE_STATUS,
        ..Config::DEFAULT
    };
    port.with(|ring| ring.inner_mut().init(config))
        .unwrap()
        .unwrap();
    port
}

/// Makes a run by these choices, and returns how many there were to choose from, each time.
fn run(choices: &[usize], passes: usize, tasks: &[Task], news: &[News]) -> Vec<usize> {
    let scheduler = Arc::new(Scheduler::new(tasks.len() + 1));
    let cable = Cable::default();
    let port = port(&scheduler, &cable);
    while port.with(|ring| ring.transmit_len() < TRANSMIT_CAPACITY).unwrap() {
        port.with(|ring| ring.queue(b"x")).unwrap();
    }
    thread::scope(|scope| {
        for (actor, task) in tasks.iter().enumerate() {
            let (scheduler, port) = (&scheduler, &port);
            scope.spawn(move || within(actor, scheduler, || task(scheduler, actor, port)));
        }
        let (scheduler, port, cable) = (&scheduler, &port, &cable);
        scope.spawn(move || {
            within(tasks.len(), scheduler, || {
                for happens in news {
                    scheduler.stop(State::Stopped);
                    happens(cable);
                    port.with(|ring| ring.handle(MAX_INTERRUPTS)).unwrap();
                }
            });
        });
        scheduler.schedule(choices, passes)
    })
}

// Runs an actor to its end, or until the run is cut.
fn within(actor: Actor, scheduler: &Scheduler, call: impl FnOnce()) {
    ACTOR.set(Some(actor));
    let ended = std::panic::catch_unwind(std::panic::AssertUnwindSafe(|| {
        scheduler.stop(State::Stopped);
        call();
    }));
    scheduler.finish();
    if let Err(cause) = ended
        && !cause.is::<Cut>()
    {
        std::panic::resume_unwind(cause);
    }
}

/// Makes a run for each list of choices that pass over so many in all. Returns how many runs.
fn explore(passes: usize, tasks: &[Task], news: &[News]) -> usize {
    let mut runs = 0;
    let mut choices = Vec::new();
    loop {
        let widths = run(&choices, passes, tasks, news);
        runs += 1;
        choices.resize(widths.len(), 0);
        // The next list: the last choice that can be another one is.
        while let Some(last) = choices.pop() {
            if last + 1 < widths[choices.len()] {
                choices.push(last + 1);
                break;
            }
        }
        if choices.is_empty() {
            return runs;
        }
    }
}

fn reads_one(scheduler: &Arc<Scheduler>, task: Actor, port: &Port) {
    let mut slot = [0];
    assert_eq!(run_task(scheduler, task, port.read(&mut slot)), Ok(1));
    assert!(matches!(slot, [b'a' | b'b']));
}

fn writes_one(scheduler: &Arc<Scheduler>, task: Actor, port: &Port) {
    assert_eq!(run_task(scheduler, task, port.write(b"w")), Ok(1));
}

fn a_comes(cable: &Cable) {
    cable.chip().received.push_back(b'a');
}

fn b_comes(cable: &Cable) {
    cable.chip().received.push_back(b'b');
}

fn the_chip_empties(cable: &Cable) {
    cable.chip().send_all();
}

#[test]
fn a_reader_a_writer_and_a_handler_lose_no_wake() {
    let runs = explore(4, &[reads_one, writes_one], &[a_comes, the_chip_empties]);
    assert!(runs > 100, "{runs}");
}

#[test]
fn two_readers_and_a_handler_lose_no_wake() {
    let runs = explore(4, &[reads_one, reads_one], &[a_comes, b_comes]);
    assert!(runs > 100, "{runs}");
}

#[test]
fn three_tasks_and_a_handler_lose_no_wake() {
    let news: [News; 3] = [a_comes, the_chip_empties, b_comes];
    let runs = explore(3, &[reads_one, writes_one, reads_one], &news);
    assert!(runs > 100, "{runs}");
}
