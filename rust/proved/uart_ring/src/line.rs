//! Several ports on one interrupt line.
//!
//! A controller that detects edges sees none while another port keeps the common line high. So all
//! ports are handled under one lock, and all their lines are low at one time before any of them may
//! rise again: [`handle_ports`] for ports in a slice, [`handle_line`] wherever they are.

use crate::ring::{HandleEnd, Handled, Lowered, StuckError, Uart16550Ring};
use bitflags::Flags;
use uart_16550::backend::Backend;
use uart_spec::registers::IER;

/// The ports of one interrupt line, by their numbers from 0 on.
///
/// For ports in a slice there is [`handle_ports`]. Implement this for ports that are elsewhere:
/// behind pointers, or in places of which some are empty.
pub trait LinePorts {
    /// Returns how many ports there are.
    ///
    /// # To be kept by an implementation
    ///
    /// What the proofs take each implementation to do. Nothing checks it of one that is written in Rust.
    ///
    /// - Returns `number self.now`.
    ///
    /// <details><summary>The clauses</summary>
    ///
    /// [How to read them](uart_spec::proved):
    ///
    /// ```text
    /// ensures { result ≡ number self.now }
    /// ```
    ///
    /// </details>
    fn number(&self) -> usize;

    /// Makes a `lower_line` at this port. Returns whether an interrupt was served.
    ///
    /// # To be kept by an implementation
    ///
    /// What the proofs take each implementation to do. Nothing checks it of one that is written in Rust.
    ///
    /// If `port < number self.old`:
    ///
    /// - *did*: `lowers limit rounds port result self.old self.new`.
    /// - *number*: `number self.new ≡ number self.old`.
    ///
    /// <details><summary>The clauses</summary>
    ///
    /// [How to read them](uart_spec::proved):
    ///
    /// ```text
    /// requires { port < number self.old }
    /// ensures did { lowers limit rounds port result self.old self.new }
    /// ensures number { number self.new ≡ number self.old }
    /// ```
    ///
    /// </details>
    fn lower(&mut self, port: usize, limit: usize, rounds: u32) -> bool;

    /// Makes a `raise_line` at this port, as `lower` has left it.
    ///
    /// # To be kept by an implementation
    ///
    /// What the proofs take each implementation to do. Nothing checks it of one that is written in Rust.
    ///
    /// If `port < number self.old`:
    ///
    /// - *did*: `raises port self.old self.new`.
    /// - *number*: `number self.new ≡ number self.old`.
    ///
    /// <details><summary>The clauses</summary>
    ///
    /// [How to read them](uart_spec::proved):
    ///
    /// ```text
    /// requires { port < number self.old }
    /// ensures did { raises port self.old self.new }
    /// ensures number { number self.new ≡ number self.old }
    /// ```
    ///
    /// </details>
    fn raise(&mut self, port: usize);
}

/// Handles the interrupt of a line that several ports share, whether the controller detects levels
/// or edges. Returns whether an interrupt was served at one of them.
///
/// Call it once each time the controller calls the handler, under the lock that all calls at these
/// ports take: one lock for the line. With a lock for each port another processor could let the
/// line of one rise, before that of the next has fallen.
///
/// At each port, in turn, it handles what is pending and disables the chip's interrupts. Then the
/// common line is low, whatever happens to the chips. After that it enables the interrupts again,
/// at each port in turn. So if the line is high afterwards, it has risen since the call began, and
/// a controller that detects edges calls the handler again.
///
/// A chip that is stuck has its interrupts disabled, as after a `try_handle`, and the others are
/// served.
///
/// # Examples
///
/// ```
/// # include!(concat!(env!("CARGO_MANIFEST_DIR"), "/examples.rs"));
/// # fn main() {}
/// # use facade::ring::{self, *};
/// # const MAX_UNFINISHED_ROUNDS: u32 = 100;
/// # fn example(mut ports: impl LinePorts) -> Outcome<()> {
/// let has_served = handle_line(&mut ports, 4 * MAX_INTERRUPTS, MAX_UNFINISHED_ROUNDS);
/// # Ok(()) }
/// ```
///
/// # Proved
///
/// - [`HandlesLine`](crate::proved::line#HandlesLine): first the line of each port is lowered, and from then on that of each is raised. In between is a moment at which all are low.
///
/// <details><summary>The clauses</summary>
///
/// [How to read them](uart_spec::proved):
///
/// ```text
/// ensures { HandlesLine (P.lowers limit rounds) P.raises (P.number ports.old) result ports.old ports.new }
/// ```
///
/// </details>
pub fn handle_line<P: LinePorts>(ports: &mut P, limit: usize, rounds: u32) -> bool {
    let number = ports.number();
    let mut has_served = false;
    for port in 0..number {
        has_served |= ports.lower(port, limit, rounds);
    }
    // All lines are low here, at one time. It is not enough that each was low at some time: another
    // one may have risen before, and the common line has then not fallen.
    for port in 0..number {
        ports.raise(port);
    }
    has_served
}

/// A port of a line: its rings, and what was last handled there.
pub struct LinePort<B> {
    /// The rings. Make no call of them while the line is handled.
    pub ring: Uart16550Ring<B>,
    lowered: Lowered,
}

impl<B: Backend> LinePort<B> {
    /// Returns a port with these rings, at which nothing was handled yet. Makes no access.
    ///
    /// # Examples
    ///
    /// ```
    /// # include!(concat!(env!("CARGO_MANIFEST_DIR"), "/examples.rs"));
    /// # fn main() {}
    /// # use facade::ring::{self, *};
    /// # const MAX_UNFINISHED_ROUNDS: u32 = 100;
    /// # fn example(console: Uart16550Ring<Device>, modem: Uart16550Ring<Device>) -> Outcome<()> {
    /// let mut ports = [LinePort::new(console), LinePort::new(modem)];
    /// # Ok(()) }
    /// ```
    ///
    /// # Proved
    ///
    /// - *ring*: `result.ring` is `ring`.
    /// - *handled*: `result.lowered.handled` is `Ok (record { served = 0; end = HandleEnd.Idle })`.
    /// - *enabled*: `result.lowered.enabled.0` is `0`.
    ///
    /// <details><summary>The clauses</summary>
    ///
    /// [How to read them](uart_spec::proved):
    ///
    /// ```text
    /// ensures ring { result.ring ≡ ring }
    /// ensures handled { result.lowered.handled ≡ Ok (record { served = 0; end = HandleEnd.Idle }) }
    /// ensures enabled { result.lowered.enabled.0 ≡ 0 }
    /// ```
    ///
    /// </details>
    #[must_use]
    pub fn new(ring: Uart16550Ring<B>) -> Self {
        let handled = Handled {
            served: 0,
            end: HandleEnd::Idle,
        };
        LinePort {
            ring,
            lowered: Lowered {
                handled: Ok(handled),
                enabled: IER::from_bits_retain(0),
            },
        }
    }

    /// Returns what the last [`handle_ports`] handled here, or why the chip is stuck. Makes no
    /// access.
    ///
    /// # Examples
    ///
    /// ```
    /// # include!(concat!(env!("CARGO_MANIFEST_DIR"), "/examples.rs"));
    /// # fn main() {}
    /// # use facade::ring::{self, *};
    /// # const MAX_UNFINISHED_ROUNDS: u32 = 100;
    /// # fn example(ports: &[LinePort<Device>]) -> Result<(), StuckError> {
    /// let handled = ports[0].handled()?;
    /// # Ok(()) }
    /// ```
    ///
    /// # Proved
    ///
    /// - Returns `self.now.lowered.handled`.
    ///
    /// <details><summary>The clauses</summary>
    ///
    /// [How to read them](uart_spec::proved):
    ///
    /// ```text
    /// ensures { result ≡ self.now.lowered.handled }
    /// ```
    ///
    /// </details>
    pub fn handled(&self) -> Result<Handled, StuckError> {
        self.lowered.handled
    }

    /// Makes a `lower_line` of the rings, and notes what it did. Returns whether an interrupt was
    /// served.
    ///
    /// # Examples
    ///
    /// ```
    /// # include!(concat!(env!("CARGO_MANIFEST_DIR"), "/examples.rs"));
    /// # fn main() {}
    /// # use facade::ring::{self, *};
    /// # const MAX_UNFINISHED_ROUNDS: u32 = 100;
    /// # fn example(mut port: LinePort<Device>) -> Outcome<()> {
    /// let has_served = port.lower(4 * MAX_INTERRUPTS, MAX_UNFINISHED_ROUNDS);
    /// # Ok(()) }
    /// ```
    ///
    /// # Proved
    ///
    /// - [`LowersPort`](crate::proved::line#LowersPort) `B.step limit rounds result self.old self.new`: the line of the port is lowered, and what was done there is noted; the result is whether an interrupt was served.
    ///
    /// <details><summary>The clauses</summary>
    ///
    /// [How to read them](uart_spec::proved):
    ///
    /// ```text
    /// ensures { LowersPort B.step limit rounds result self.old self.new }
    /// ```
    ///
    /// </details>
    pub fn lower(&mut self, limit: usize, rounds: u32) -> bool {
        self.lowered = self.ring.lower_line(limit, rounds);
        match self.lowered.handled {
            Ok(handled) => handled.served > 0,
            Err(_) => false,
        }
    }

    /// Makes a `raise_line` of the rings, as the last `lower` says.
    ///
    /// # Examples
    ///
    /// ```
    /// # include!(concat!(env!("CARGO_MANIFEST_DIR"), "/examples.rs"));
    /// # fn main() {}
    /// # use facade::ring::{self, *};
    /// # const MAX_UNFINISHED_ROUNDS: u32 = 100;
    /// # fn example(mut port: LinePort<Device>) -> Outcome<()> {
    /// port.raise();
    /// # Ok(()) }
    /// ```
    ///
    /// # Proved
    ///
    /// - [`RaisesPort`](crate::proved::line#RaisesPort) `B.step self.old self.new`: the line of the port is raised, with the interrupts that were enabled when it was lowered.
    ///
    /// <details><summary>The clauses</summary>
    ///
    /// [How to read them](uart_spec::proved):
    ///
    /// ```text
    /// ensures { RaisesPort B.step self.old self.new }
    /// ```
    ///
    /// </details>
    pub fn raise(&mut self) {
        self.ring.raise_line(self.lowered.enabled);
    }
}

// Makes a `lower` at each port, in turn. Returns whether an interrupt was served at one of them.
fn lower_each<B: Backend>(ports: &mut [LinePort<B>], limit: usize, rounds: u32) -> bool {
    let mut has_served = false;
    for port in ports.iter_mut() {
        has_served |= port.lower(limit, rounds);
    }
    has_served
}

// Makes a `raise` at each port, in turn.
fn raise_each<B: Backend>(ports: &mut [LinePort<B>]) {
    for port in ports.iter_mut() {
        port.raise();
    }
}

/// Handles the interrupt of a line that the ports of this slice share, as [`handle_line`] does.
/// Returns whether an interrupt was served at one of them; [`LinePort::handled`] tells what was
/// handled at each, and which chip is stuck.
///
/// Does not wait: makes at most 35 accesses for each interrupt of the limit, which is 6 if it is
/// lower, and 11 more, at each port. With a larger `fifo_size` of the driver it is twice that size
/// and 3 in place of the 35.
///
/// # Examples
///
/// ```
/// # include!(concat!(env!("CARGO_MANIFEST_DIR"), "/examples.rs"));
/// # fn main() {}
/// # use facade::ring::{self, *};
/// # const MAX_UNFINISHED_ROUNDS: u32 = 100;
/// # fn example(mut ports: [LinePort<Device>; 2]) -> Outcome<()> {
/// let has_served = handle_ports(&mut ports, 4 * MAX_INTERRUPTS, MAX_UNFINISHED_ROUNDS);
/// # Ok(()) }
/// ```
///
/// # Proved
///
/// - [`HandlesPorts`](crate::proved::line#HandlesPorts) `B.step limit rounds (length ports.old) result ports.old ports.new`: first the line of each port of a slice is lowered, and from then on that of each is raised. In between is a moment at which all are low.
///
/// <details><summary>The clauses</summary>
///
/// [How to read them](uart_spec::proved):
///
/// ```text
/// ensures { HandlesPorts B.step limit rounds (length ports.old) result ports.old ports.new }
/// ```
///
/// </details>
pub fn handle_ports<B: Backend>(ports: &mut [LinePort<B>], limit: usize, rounds: u32) -> bool {
    let has_served = lower_each(ports, limit, rounds);
    // All lines are low here, as in `handle_line`.
    raise_each(ports);
    has_served
}
