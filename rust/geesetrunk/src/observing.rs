//! Plays a script again, tick by tick, and tells when what happened.
//!
//! A run of the script tells of each access that it makes. Here the access is made at once on a second
//! machine, on which the events of the schedule happen one by one. Nothing of a run is kept: a wait
//! may have millions of polls.

use crate::end::{End, Status};
use crate::heap;
use crate::moments::{Arrival, Happened, Moment, Seen, register_of};
use crate::ring_language::{AnyScript, RingScript, ScriptCall};
use crate::rings::{Scheduled, rings_over, run_rings};
use geesetrunk_kit::Vec as List;
use geesetrunk_kit::alloc::AllocError;
use std::{io, vec};
use uart_16550::backend::Backend;
use uart_calls::Call;
use uart_chip::{Device16550, Event};
use uart_language::{Script, ScriptError};
use uart_play::machine_for as device_of;
use uart_ring_runs::RingCall;
use uart_spec::access::Access;
use uart_spec::registers::{LCR, LSR, offsets};
use uart_trace::{Listener, tell};

/// What shows a run, call by call.
pub trait Show {
    /// Shows that the next call begins.
    ///
    /// # Errors
    ///
    /// The error of a writer.
    fn begin(&mut self) -> io::Result<()>;

    /// Shows a moment of that call.
    ///
    /// # Errors
    ///
    /// The error of a writer.
    fn moment(&mut self, moment: Moment) -> io::Result<()>;

    /// Shows that the call has returned.
    ///
    /// # Errors
    ///
    /// The error of a writer.
    fn end(&mut self) -> io::Result<()>;
}

// Returns a schedule in which each event of the chip is between two marks. So `next` twice performs
// one event, and before it each access has its tick.
fn spread(events: &[Event]) -> Result<List<Event>, AllocError> {
    let mut schedule = List::new(heap());
    for &event in events {
        if !matches!(event, Event::Ticks(_) | Event::Mark) {
            schedule.extend_from_slice(&[Event::Mark, event, Event::Mark])?;
        }
    }
    Ok(schedule)
}

// Returns the machine of a script, under that schedule.
fn machine_for(script: &Script) -> Result<Device16550, AllocError> {
    let machine = Device16550::new_sized(
        heap(),
        script.chip(),
        script.fifo_size(),
        script.ticks(),
        script.wire_capacity(),
        spread(script.events())?,
        script.cut(),
    )
    .map_err(|_| AllocError)?;
    Ok(match script.has_auto_flow() {
        true => machine.with_auto_flow(),
        false => machine,
    })
}

/// The second machine, and what shows what happens to it.
pub struct Observer<'a, S> {
    device: Device16550,
    capacity: usize,
    // The events that have not happened yet, and for each call that has not begun whether it is `next`.
    events: &'a [Event],
    calls: vec::IntoIter<bool>,
    // Whether the call is `next`.
    is_next: bool,
    // How many bytes of the wire, and how many arrivals, have been told.
    sent: usize,
    arrivals: usize,
    is_dlab_set: bool,
    current: Moment,
    show: S,
    // The error at which nothing more is shown. An access cannot report it.
    failure: Option<io::Error>,
}

impl<'a, S: Show> Observer<'a, S> {
    /// Returns an observer of a run of this script, before its first call.
    ///
    /// # Errors
    ///
    /// `AllocError` if out of memory.
    pub fn new(script: &'a Script, show: S) -> Result<Self, AllocError> {
        let calls = script.calls().iter();
        let calls = calls.map(|call| *call == Call::Next).collect();
        Observer::of_calls(script, calls, show)
    }

    // Returns an observer of a run of calls under the events of this script, by which of the calls are
    // `next`.
    fn of_calls(script: &'a Script, calls: Vec<bool>, show: S) -> Result<Self, AllocError> {
        Ok(Observer {
            device: machine_for(script)?,
            capacity: script.wire_capacity(),
            events: script.events(),
            calls: calls.into_iter(),
            is_next: false,
            sent: 0,
            arrivals: 0,
            is_dlab_set: false,
            current: Moment::default(),
            show,
            failure: None,
        })
    }

    /// Returns what shows the run.
    pub fn show(&mut self) -> &mut S {
        &mut self.show
    }

    /// Observes that the next call begins.
    pub fn begin(&mut self) {
        self.is_next = self.calls.next().unwrap_or(false);
        self.try_show(Show::begin);
    }

    /// Observes that the call has returned.
    pub fn end(&mut self) {
        if self.is_next {
            self.reach_mark();
        }
        self.close();
        self.try_show(Show::end);
    }

    // Shows something, unless that has failed before.
    fn try_show(&mut self, show: impl FnOnce(&mut S) -> io::Result<()>) {
        if self.failure.is_none() {
            self.failure = show(&mut self.show).err();
        }
    }

    // Shows the current moment if anything happened in it, and starts another.
    fn close(&mut self) {
        if self.current.happened == Happened::default() {
            return;
        }
        let moment = self.current;
        self.try_show(|show| show.moment(moment));
        self.current.happened = Happened::default();
    }

    fn count(&mut self) {
        self.current.held = self.device.held_len();
        self.current.waiting = self.device.waiting_len();
    }

    fn advance(&mut self, ticks: u64) {
        if ticks > 0 {
            self.close();
            self.current.time = self.current.time.saturating_add(ticks);
        }
    }

    // Notes a byte that was sent.
    fn note_sent(&mut self) {
        if let Some(&byte) = self.device.wire().get(self.sent) {
            self.sent += 1;
            self.current.happened.sent = Some(byte);
        }
        self.count();
    }

    // Returns whether no byte can be sent.
    fn is_still(&self) -> bool {
        self.device.held_len() == 0 || self.device.wire().len() >= self.capacity
    }

    // Lets ticks of the schedule pass, one by one while a byte may move.
    fn pass(&mut self, ticks: u16) {
        let mut left = ticks;
        while left > 0 {
            let step = if self.is_still() { left } else { 1 };
            self.advance(step.into());
            self.device.idle(step);
            self.note_sent();
            left -= step;
        }
    }

    // Performs the next event of the device.
    fn happen(&mut self) {
        self.device.next();
        self.device.next();
        self.count();
    }

    fn arrive(&mut self, byte: u8, errors: LSR) {
        if self.current.happened.arrival.is_some() {
            self.close();
        }
        self.happen();
        let number = self.arrivals;
        self.arrivals += 1;
        self.current.happened.arrival = Some(Arrival {
            byte,
            errors,
            number,
        });
    }

    fn turn(&mut self, lines: u8) {
        if self.current.happened.lines.is_some() {
            self.close();
        }
        self.happen();
        self.current.happened.lines = Some(lines);
    }

    fn perform(&mut self, event: Event) {
        match event {
            Event::Ticks(ticks) => self.pass(ticks),
            Event::Arrive { byte, errors } => self.arrive(byte, LSR::from_bits_retain(errors)),
            Event::Lines(lines) => self.turn(lines),
            Event::Access => self.happen(),
            Event::Mark => {}
        }
    }

    // Returns the next event of the schedule, and moves on.
    fn take(&mut self) -> Option<Event> {
        let (&event, rest) = self.events.split_first()?;
        self.events = rest;
        Some(event)
    }

    // Performs the events before an access. Returns whether the access takes place at an `access` of
    // the schedule.
    fn reach_access(&mut self) -> bool {
        while let Some(&event) = self.events.first() {
            if event == Event::Mark {
                return false;
            }
            self.take();
            if event == Event::Access {
                return true;
            }
            self.perform(event);
        }
        false
    }

    // Performs the events up to the next mark.
    fn reach_mark(&mut self) {
        while let Some(event) = self.take() {
            if event == Event::Mark {
                return;
            }
            self.perform(event);
        }
    }

    // Makes an access on the device.
    fn reach(&mut self, access: Access) {
        match access {
            Access::Read(offset, _) => {
                self.device.read((offset % 8) as u8);
            }
            Access::Write(offset, value) => {
                self.device.write((offset % 8) as u8, value);
                if offset == offsets::LCR {
                    self.is_dlab_set = LCR::from_bits_retain(value).contains(LCR::DLAB);
                }
            }
        }
    }

    /// Observes an access of the call.
    pub fn access(&mut self, access: Access) {
        let register = register_of(access, self.is_dlab_set);
        if self.reach_access() {
            self.device.next();
            self.reach(access);
            self.device.next();
        } else {
            self.advance(1);
            self.reach(access);
        }
        self.note_sent();
        self.current.happened.access = Some(Seen { access, register });
        self.close();
    }
}

impl<S: Show> Listener for Observer<'_, S> {
    fn begin(&mut self) {
        Observer::begin(self);
    }

    fn hear(&mut self, access: Access) {
        self.access(access);
    }

    fn end(&mut self) {
        Observer::end(self);
    }
}

// A device whose accesses an observer is told of.
struct Told<'a, S> {
    device: Device16550,
    observer: Observer<'a, S>,
}

impl<S: Show> Backend for Told<'_, S> {
    fn read(&mut self, register_offset: u8) -> u8 {
        let answer = self.device.read(register_offset);
        let access = Access::Read(register_offset.into(), answer);
        self.observer.access(access);
        answer
    }

    fn write(&mut self, register_offset: u8, value: u8) {
        self.device.write(register_offset, value);
        let access = Access::Write(register_offset.into(), value);
        self.observer.access(access);
    }
}

impl<S: Show> Scheduled for Told<'_, S> {
    fn begin(&mut self) {
        self.observer.begin();
    }

    fn next(&mut self) {
        self.device.next();
    }

    fn end(&mut self) {
        self.observer.end();
    }
}

// Shows a run of a script with rings.
fn observe_rings<S: Show>(script: &RingScript, show: S) -> Result<(), End> {
    let calls = script.calls().iter();
    let next = ScriptCall::OfRun(RingCall::Next);
    let calls = calls.map(|call| *call == next).collect();
    let told = Told {
        device: device_of(heap(), script.plain())?,
        observer: Observer::of_calls(script.plain(), calls, show)?,
    };
    let mut ring = rings_over(script, told)?;
    run_rings(&mut ring, script.calls())?;
    let told = ring.inner_mut().backend_mut().backend_mut();
    let failure = told.observer.failure.take();
    failure.map_or(Ok(()), |cause| Err(End::unwritten(cause)))
}

/// Shows a run of a script with this text.
///
/// # Errors
///
/// How a program ends that is out of memory, or that cannot write what is shown.
pub fn observe<S: Show>(script: &AnyScript, text: &[u8], show: S) -> Result<(), End> {
    let script = match script {
        AnyScript::Plain(script) => script,
        AnyScript::Rings(script) => return observe_rings(script, show),
    };
    let observer = Observer::new(script, show)?;
    let told = tell(heap(), text, observer).map_err(|error| match error {
        ScriptError::OutOfMemory => End::out_of_memory(),
        ScriptError::Refused { .. } => End::new(Status::Refused, error.to_string()),
    })?;
    told.failure
        .map_or(Ok(()), |cause| Err(End::unwritten(cause)))
}
