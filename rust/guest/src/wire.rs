//! What is between the device and its host, and what is counted there.

use std::collections::VecDeque;
use std::io;
use std::io::Write;
use std::sync::{Arc, Mutex, MutexGuard};

/// What the host does to a device, beside moving bytes.
#[derive(Clone, Copy, Debug, PartialEq, Eq)]
pub enum Request {
    /// The other end sends a break.
    Break,
    /// The other end says whether it is ready for what the guest sends: CTS.
    Ready(bool),
    /// The machine is to be saved, and to end.
    Save,
}

/// What is counted.
#[derive(Clone, Copy, Debug, Default, PartialEq, Eq)]
pub struct Counts {
    /// Accesses of the guest. Over KVM each is an exit.
    pub accesses: u64,
    /// How often the device triggered the interrupt.
    pub triggers: u64,
    /// Reads of ISR that show a cause.
    pub causes: u64,
    /// Reads of ISR that show none. Linux ends its handler by one.
    pub ends: u64,
    /// Such reads right after another. Linux was interrupted for nothing.
    pub vain: u64,
    /// How often the host read input and handed it to the device.
    pub host_reads: u64,
    /// How often the device wrote output to the host.
    pub host_writes: u64,
    /// How often the device said that there is room for input.
    pub rooms: u64,
    /// Bytes that the device received.
    pub received: u64,
    /// Bytes that the host took.
    pub taken: u64,
    /// How often the device held output back.
    pub held: u64,
    /// Bytes of output that the device dropped.
    pub lost: u64,
    /// How often a break of the guest began.
    pub breaks: u64,
}

impl Counts {
    /// Returns what was counted since then.
    #[must_use]
    pub fn since(&self, then: &Counts) -> Counts {
        Counts {
            accesses: self.accesses - then.accesses,
            triggers: self.triggers - then.triggers,
            causes: self.causes - then.causes,
            ends: self.ends - then.ends,
            vain: self.vain - then.vain,
            host_reads: self.host_reads - then.host_reads,
            host_writes: self.host_writes - then.host_writes,
            rooms: self.rooms - then.rooms,
            received: self.received - then.received,
            taken: self.taken - then.taken,
            held: self.held - then.held,
            lost: self.lost - then.lost,
            breaks: self.breaks - then.breaks,
        }
    }
}

/// How the guest has set its port, as far as a terminal can know.
#[derive(Clone, Copy, Debug, Default, PartialEq, Eq)]
pub struct Settings {
    pub divisor: u16,
    pub line_control: u8,
    pub modem_control: u8,
}

/// The state of the wire.
#[derive(Debug)]
pub struct State {
    /// What was typed, and the device has not received.
    pub typed: VecDeque<u8>,
    /// What the host took, and nobody has looked at.
    pub shown: Vec<u8>,
    /// How many bytes the host takes.
    pub budget: usize,
    /// How many more it takes in each millisecond of the guest, if it is slow.
    pub pace: Option<usize>,
    /// The host has something to do: the device told of room for input, something was typed, or output is taken again.
    pub is_called: bool,
    /// The device is to be told when the time of four characters has passed.
    pub awaits_time: bool,
    pub requests: VecDeque<Request>,
    pub counts: Counts,
    /// What was counted when that began which may be saved.
    pub mark: Counts,
    pub settings: Settings,
    /// Milliseconds of the guest since the machine runs.
    pub time: u64,
    /// What the session waits for.
    pub waits_for: String,
}

/// A wire, with the device at one end and the host at the other.
#[derive(Clone, Debug)]
pub struct Wire(Arc<Mutex<State>>);

impl Default for Wire {
    fn default() -> Self {
        Wire(Arc::new(Mutex::new(State {
            typed: VecDeque::new(),
            shown: Vec::new(),
            budget: usize::MAX,
            pace: None,
            is_called: false,
            awaits_time: false,
            requests: VecDeque::new(),
            counts: Counts::default(),
            mark: Counts::default(),
            settings: Settings::default(),
            time: 0,
            waits_for: String::new(),
        })))
    }
}

impl Wire {
    /// Locks the wire. QEMU's lock is held too, so this never waits.
    pub fn lock(&self) -> MutexGuard<'_, State> {
        self.0
            .lock()
            .expect("no thread panics while it has the wire")
    }

    /// The device triggered the interrupt.
    pub fn triggered(&self) {
        self.lock().counts.triggers += 1;
    }

    /// The device has room for input.
    pub fn has_room(&self) {
        let mut state = self.lock();
        state.counts.rooms += 1;
        state.is_called = true;
    }

    /// The device holds output. The host comes when it takes some again.
    pub fn is_held(&self) {
        self.lock().counts.held += 1;
    }

    /// The device put an interrupt off.
    pub fn awaits_time(&self) {
        self.lock().awaits_time = true;
    }

    /// The device lost a byte of output.
    pub fn lost(&self) {
        self.lock().counts.lost += 1;
    }

    /// The guest begins a break.
    pub fn breaks(&self) {
        self.lock().counts.breaks += 1;
    }
}

/// The device writes output to its host, which takes no more than it says.
impl Write for Wire {
    fn write(&mut self, bytes: &[u8]) -> io::Result<usize> {
        let mut state = self.lock();
        state.counts.host_writes += 1;
        let count = bytes.len().min(state.budget);
        if count == 0 {
            return Err(io::ErrorKind::WouldBlock.into());
        }
        if state.pace.is_some() {
            state.budget -= count;
        }
        state.counts.taken += count as u64;
        state.shown.extend_from_slice(&bytes[..count]);
        Ok(count)
    }

    fn flush(&mut self) -> io::Result<()> {
        Ok(())
    }
}
