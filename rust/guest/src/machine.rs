//! The machine: the guest's accesses, the host that comes when it is called, and the session at its terminal.

use std::env;
use std::fs;
use std::mem;
use std::path::PathBuf;
use std::task::{Context, Poll, Waker};

use crate::qemu;
use crate::qemu::{Clock, Machine, Ports, Qemu};
use crate::sessions;
use crate::sessions::Session;
use crate::terminal::{Failed, Terminal};
use crate::wire::{Request, Settings, Wire};

/// The interrupt line of a device.
#[derive(Clone, Debug)]
pub struct Interrupt {
    qemu: Qemu,
    has_levels: bool,
    wire: Wire,
}

impl Interrupt {
    /// The device triggers: one edge, as by the eventfd of an irqfd.
    pub fn trigger(&self) {
        self.wire.triggered();
        if !self.has_levels {
            self.qemu.set_level(true);
            self.qemu.set_level(false);
        }
    }

    /// The device sets the level of its line. This counts if the machine takes levels.
    pub fn set_level(&self, level: bool) {
        if self.has_levels {
            self.qemu.set_level(level);
        }
    }
}

/// A serial device.
pub trait Device: Send + Sized + 'static {
    /// Makes one after power-on.
    fn new(interrupt: Interrupt, wire: Wire) -> Self;
    /// The guest reads a register.
    fn read(&mut self, offset: u8) -> u8;
    /// The guest writes a register.
    fn write(&mut self, offset: u8, value: u8);
    /// How many characters it has room for.
    fn room(&self) -> usize;
    /// Receives characters, for which there is room.
    fn receive(&mut self, bytes: &[u8]);

    // What follows is for sessions that need it. A device that has it not is in no such session.

    /// Writes what it holds to the host.
    fn write_output(&mut self) {}
    /// The time of four characters has passed, since it put an interrupt off.
    fn pass_time(&mut self) {}
    /// Receives a break.
    fn receive_break(&mut self) {
        unimplemented!("this device receives no break");
    }
    /// The other end is ready, or it is not.
    fn set_ready(&mut self, _is_ready: bool) {
        unimplemented!("this device has no modem lines");
    }
    /// How the guest has set it.
    fn settings(&self) -> Settings {
        Settings::default()
    }
    /// Returns its state.
    fn save(&self) -> Vec<u8> {
        unimplemented!("this device has no state");
    }
    /// Makes one that goes on from a state.
    fn restore(_state: &[u8], _interrupt: Interrupt, _wire: Wire) -> Result<Self, Failed> {
        unimplemented!("this device has no state");
    }
}

/// What is to be run, as the environment says.
struct Plan {
    /// What is done at the terminal: `GUEST_SESSION`.
    session: String,
    /// After how many accesses of the guest the host comes, when it was called: `GUEST_DELAY`.
    delay: u32,
    /// Whether the interrupt line has levels in place of edges: `GUEST_LEVELS`. The pin detects edges in either case, as that of a PC does.
    has_levels: bool,
    /// Where a machine is saved: `GUEST_FOLDER`.
    folder: PathBuf,
}

impl Plan {
    fn new() -> Self {
        let delay = env::var("GUEST_DELAY").ok();
        Plan {
            session: env::var("GUEST_SESSION").unwrap_or_default(),
            delay: delay.and_then(|delay| delay.parse().ok()).unwrap_or(8),
            has_levels: env::var_os("GUEST_LEVELS").is_some(),
            folder: env::var_os("GUEST_FOLDER").unwrap_or_default().into(),
        }
    }

    /// Whether the machine goes on from what was saved.
    fn resumes(&self) -> bool {
        self.session == "resumed"
    }
}

/// The host comes after so many nanoseconds of the guest if that makes no more accesses.
const LATENCY: i64 = 20_000;
const MILLISECOND: i64 = 1_000_000;
/// Four characters at 115,200 baud.
const FOUR_CHARACTERS: i64 = 350_000;
/// After so many milliseconds of the guest in which nothing moved, nothing ever will.
const PATIENCE: u64 = 120_000;
/// How many milliseconds before a machine is saved the host hands over nothing more. So the guest waits for an interrupt when it is saved.
const QUIET: u64 = 20;
/// How often the host looks whether the machine is saved.
const LOOK: i64 = 10 * MILLISECOND;
/// How many rounds the host makes at most when it comes. Each moves something.
const ROUNDS: usize = 100_000;

const ISR: u8 = 2;
const NO_INTERRUPT: u8 = 0x01;
/// What of the output is shown when a session fails.
const TAIL: usize = 2000;

struct Whole<D> {
    qemu: Qemu,
    plan: Plan,
    wire: Wire,
    /// None until a machine that was saved goes on.
    device: Option<D>,
    session: Session,
    /// The host was called, and comes after so many accesses.
    comes_in: Option<u32>,
    /// When the device is told that time has passed.
    time_passes: Option<i64>,
    /// Whether the last read of ISR showed no cause.
    has_ended: bool,
    /// How many bytes had moved when one moved for the last time, and when that was.
    moved: Option<(u64, u64)>,
    saving: Saving,
}

/// How far a machine is saved.
#[derive(Clone, Copy, Debug, PartialEq, Eq)]
enum Saving {
    /// Nobody wants it.
    No,
    /// It is to be saved at this millisecond of the guest. No input is handed over until then, and the guest reads what came.
    Asked(u64),
    /// It is to stand.
    Stopping,
    /// It stands.
    Stopped,
    /// QEMU writes it.
    Writing,
}

fn fail(wire: &Wire, cause: &str) -> ! {
    let state = wire.lock();
    let tail = &state.shown[state.shown.len().saturating_sub(TAIL)..];
    println!(
        "failed: {cause}\n{:?}\nThe last that was shown:\n{}",
        state.counts,
        String::from_utf8_lossy(tail)
    );
    qemu::end(false);
}

impl<D: Device> Whole<D> {
    fn new(qemu: Qemu, plan: Plan) -> Self {
        let wire = Wire::default();
        let terminal = Terminal::new(wire.clone());
        let Some(session) = sessions::named(&plan.session, terminal, plan.folder.clone()) else {
            fail(&wire, &format!("{:?} is no session", plan.session));
        };
        let mut whole = Whole {
            qemu,
            wire,
            device: None,
            session,
            comes_in: None,
            time_passes: None,
            has_ended: true,
            moved: None,
            saving: Saving::No,
            plan,
        };
        if !whole.plan.resumes() {
            whole.device = Some(D::new(whole.interrupt(), whole.wire.clone()));
        }
        whole
    }

    fn interrupt(&self) -> Interrupt {
        Interrupt {
            qemu: self.qemu,
            has_levels: self.plan.has_levels,
            wire: self.wire.clone(),
        }
    }

    fn device(&mut self) -> &mut D {
        match &mut self.device {
            Some(device) => device,
            None => fail(&self.wire, "the guest runs before its machine is restored"),
        }
    }

    fn saved(&self, what: &str) -> PathBuf {
        self.plan.folder.join(what)
    }

    /// Makes the device of a machine that was saved. Its interrupt controllers are there again.
    fn restore(&mut self) {
        let state = fs::read(self.saved("port"));
        let device = state
            .map_err(|cause| cause.to_string())
            .and_then(|state| D::restore(&state, self.interrupt(), self.wire.clone()));
        match device {
            Ok(device) => self.device = Some(device),
            Err(cause) => fail(&self.wire, &format!("the port is not restored: {cause}")),
        }
    }

    /// After each access: the session sees what came, and the host comes if it was called.
    fn after_access(&mut self, has_news: bool) {
        self.wire.lock().counts.accesses += 1;
        if has_news {
            self.go_on();
        }
        self.comes_in = match self.comes_in {
            Some(0) => {
                self.come();
                None
            }
            Some(left) => Some(left - 1),
            None => None,
        };
        self.be_called();
    }

    /// Notes that the host was called, unless that is known, and that the device waits for time to pass.
    fn be_called(&mut self) {
        if mem::take(&mut self.wire.lock().awaits_time) {
            self.time_passes = Some(Clock::Guest.now() + FOUR_CHARACTERS);
            if self.comes_in.is_none() {
                self.qemu.wake_in(Clock::Guest, FOUR_CHARACTERS);
            }
        }
        if self.comes_in.is_none() && self.wire.lock().is_called {
            self.comes_in = Some(self.plan.delay);
            self.qemu.wake_in(Clock::Guest, LATENCY);
        }
    }

    /// The host does all that can be done.
    fn come(&mut self) {
        for _ in 0..ROUNDS {
            self.wire.lock().is_called = false;
            if self.saving == Saving::No {
                self.offer();
            }
            self.device().write_output();
            self.go_on();
            let state = self.wire.lock();
            let has_more = !state.typed.is_empty();
            drop(state);
            if !has_more || self.saving != Saving::No || self.device().room() == 0 {
                return;
            }
        }
    }

    /// Hands the device what was typed, as much as there is room for.
    fn offer(&mut self) {
        let room = self.device().room();
        let piece: Vec<u8> = {
            let mut state = self.wire.lock();
            let count = room.min(state.typed.len());
            if count == 0 {
                return;
            }
            state.counts.host_reads += 1;
            state.counts.received += count as u64;
            state.typed.drain(..count).collect()
        };
        self.device().receive(&piece);
    }

    /// Lets the session go on, and does what it asks for.
    fn go_on(&mut self) {
        let mut context = Context::from_waker(Waker::noop());
        match self.session.as_mut().poll(&mut context) {
            Poll::Pending => {}
            Poll::Ready(Ok(())) => qemu::end(true),
            Poll::Ready(Err(cause)) => fail(&self.wire, &cause),
        }
        loop {
            let request = self.wire.lock().requests.pop_front();
            match request {
                None => return,
                Some(Request::Break) => self.device().receive_break(),
                Some(Request::Ready(is_ready)) => self.device().set_ready(is_ready),
                Some(Request::Save) => {
                    self.saving = Saving::Asked(self.wire.lock().time + QUIET);
                }
            }
        }
    }

    /// A millisecond of the guest has passed, or the host was called some time ago.
    fn look(&mut self) {
        let time = (Clock::Guest.now() / MILLISECOND).unsigned_abs();
        let (moved, waits_for) = {
            let mut state = self.wire.lock();
            if let Some(pace) = state.pace.filter(|_| state.time != time) {
                state.budget = pace;
                state.is_called = true;
            }
            state.time = time;
            let moved = state.counts.received + state.counts.taken;
            (moved, state.waits_for.clone())
        };
        match self.moved {
            Some((before, since)) if before == moved && time - since >= PATIENCE => fail(
                &self.wire,
                &format!("nothing moves, and what is waited for is {waits_for}"),
            ),
            Some((before, _)) if before == moved => {}
            _ => self.moved = Some((moved, time)),
        }
        let now = Clock::Guest.now();
        if self.time_passes.take_if(|end| *end <= now).is_some() {
            self.device().pass_time();
        }
        let next = self.time_passes.map_or(MILLISECOND, |end| end - now);
        self.qemu.wake_in(Clock::Guest, next.min(MILLISECOND));
        // Who was not called does not come: else nobody would see that the device told nothing.
        if self.comes_in.take().is_some() || self.wire.lock().is_called {
            self.come();
        } else {
            self.go_on();
        }
        self.be_called();
        if matches!(self.saving, Saving::Asked(end) if time >= end) {
            self.saving = Saving::Stopping;
            self.qemu.stop();
        }
    }

    /// The machine stands: its memory and its processor are saved by QEMU, and then its port.
    fn save(&mut self) {
        if self.saving == Saving::Stopped {
            let file = self.saved("machine");
            let told = qemu::command(&format!("migrate -d \"exec:cat > {}\"", file.display()));
            if !told.trim().is_empty() {
                fail(&self.wire, &format!("the machine is not saved: {told}"));
            }
            self.saving = Saving::Writing;
        }
        let told = qemu::command("info migrate");
        if told.contains("completed") {
            // Input comes between the two. Its interrupt is lost with this machine, and to be signalled in the next one.
            self.offer();
            let port = self.device().save();
            let written = {
                let state = self.wire.lock();
                let received = state.counts.since(&state.mark).received;
                fs::write(self.saved("port"), port)
                    .and_then(|()| fs::write(self.saved("shown"), &state.shown))
                    .and_then(|()| fs::write(self.saved("received"), received.to_string()))
            };
            match written {
                Ok(()) => qemu::end(true),
                Err(cause) => fail(&self.wire, &format!("the port is not saved: {cause}")),
            }
        }
        if told.contains("failed") {
            fail(&self.wire, &format!("the machine is not saved: {told}"));
        }
        self.qemu.wake_in(Clock::Host, LOOK);
    }
}

impl<D: Device> Machine for Whole<D> {
    fn installed(&mut self) {
        if self.plan.resumes() {
            self.qemu.wake_in(Clock::Host, LOOK);
        }
    }

    fn guest_time(&mut self) {
        self.look();
    }

    fn host_time(&mut self) -> Option<&'static str> {
        if self.device.is_some() {
            self.save();
            return None;
        }
        // The machine stood when it was saved, and stands when it is restored.
        if qemu::command("info status").contains("paused (inmigrate)") {
            self.qemu.wake_in(Clock::Host, LOOK);
            return None;
        }
        Some("cont")
    }

    fn changed(&mut self, runs: bool) {
        if runs {
            if self.device.is_none() {
                self.restore();
            }
            self.qemu.wake_in(Clock::Guest, MILLISECOND);
        } else if self.saving == Saving::Stopping {
            self.saving = Saving::Stopped;
            self.qemu.wake_in(Clock::Host, LOOK);
        }
    }
}

impl<D: Device> Ports for Whole<D> {
    fn read(&mut self, offset: u8) -> u8 {
        let value = self.device().read(offset);
        if offset == ISR {
            let has_ended = value & NO_INTERRUPT != 0;
            let counts = &mut self.wire.lock().counts;
            counts.causes += u64::from(!has_ended);
            counts.ends += u64::from(has_ended);
            counts.vain += u64::from(has_ended && self.has_ended);
            self.has_ended = has_ended;
        }
        self.after_access(false);
        value
    }

    fn write(&mut self, offset: u8, value: u8) {
        let had_shown = self.wire.lock().counts.taken;
        self.device().write(offset, value);
        let settings = self.device().settings();
        let has_news = {
            let mut state = self.wire.lock();
            let is_set = state.settings != settings;
            state.settings = settings;
            is_set || state.counts.taken != had_shown
        };
        self.after_access(has_news);
    }
}

/// Puts a device into QEMU's machine, with the session that the environment names.
pub fn run<D: Device>() {
    qemu::install(|qemu| Whole::<D>::new(qemu, Plan::new()));
}
