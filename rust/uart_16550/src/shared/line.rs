//! Ports that share one interrupt line, behind one lock.

use super::exclusive::{AllStopped, Exclusive};
use super::owed::Owed;
use super::rings::{self, Rings, Turns};
use super::{BlockingRings, CriticalSection, Refused, SharedError, StartError, Wait};
use crate::native::backend::Backend;
use crate::native::{Received, Uart16550};
use crate::ring::{
    ErrorNotes, Global, Handled, LinePort, LinePorts, StuckError, Uart16550Ring, handle_line,
};
use core::fmt;
use core::future::poll_fn;
use core::task::{Context, Poll, Waker};
use uart_waits::{Due, Seen, Waits};

/// The ports of one interrupt line, which an interrupt handler and threads share: `N` places for them, behind one lock.
///
/// A lock for each port is not enough. While the handler goes from one port to the next, another processor could let the line of the
/// first rise again, so that the common line never falls; and a controller that detects edges then calls the handler no more. So the
/// handler calls [`handle`](Self::handle), which has all ports at once, and all other calls go through
/// [`with_port`](Self::with_port), under the same lock.
///
/// It is made for a `static`, as a [`Shared`](super::Shared) is.
///
/// # Examples
///
/// ```
/// use uart_16550::native::{Config, Uart16550};
/// use uart_16550::ring::{MAX_INTERRUPTS, Memory};
/// use uart_16550::shared::SharedLine;
/// use uart_16550::spec::registers::IER;
/// # use board::Registers;
/// # include!(concat!(env!("CARGO_MANIFEST_DIR"), "/tests/common/board.rs"));
/// # include!(concat!(env!("CARGO_MANIFEST_DIR"), "/tests/common/masked.rs"));
///
/// const COM1: usize = 0;
/// const MAX_UNFINISHED_ROUNDS: u32 = 100;
///
/// // `Masked` is the kernel's section, and `Registers` its backend. COM1 and COM3 share a line; there is no COM3 here.
/// static LINE: SharedLine<Masked, Registers, 2> = SharedLine::new(Masked);
///
/// fn handle_interrupt() {
///     let _has_served = LINE.handle(4 * MAX_INTERRUPTS, MAX_UNFINISHED_ROUNDS);
/// }
///
/// # fn main() -> Result<(), Box<dyn std::error::Error>> {
/// # let registers = unsafe { board::registers() };
/// # let bytes: &'static mut [u8] = Box::leak(Box::new([0; 1024 + 256]));
/// let memory = Memory::new(bytes);
/// let uart = Uart16550::new_with_backend(registers);
/// LINE.start(COM1, memory.global(), uart, 1024, 256)?;
/// let interrupts = IER::DATA_READY | IER::RECEIVER_LINE_STATUS;
/// LINE.with_port(COM1, |ring| ring.inner_mut().init(Config { interrupts, ..Config::DEFAULT }))??;
/// assert_eq!(LINE.with_port(COM1, |ring| ring.queue(b"hello")), Ok(5));
/// # assert_eq!(board::chip().sent, b"hello");
/// # Ok(()) }
/// ```
pub struct SharedLine<S, B, const N: usize> {
    section: S,
    owed: Owed,
    places: Exclusive<Places<B, N>>,
}

// The places of a line. A place without a port has no part in what the handler does.
struct Places<B, const N: usize>([Place<B>; N]);

// A port, and the tasks that wait at it.
struct Place<B> {
    port: Option<LinePort<B>>,
    waits: Waits<Waker>,
}

impl<B: Backend> Place<B> {
    fn take_due(&mut self) -> Due<Waker> {
        let seen = self.port.as_ref().map(|port| Seen::of(&port.ring));
        self.waits.take_due(seen)
    }
}

impl<B: Backend, const N: usize> LinePorts for Places<B, N> {
    fn number(&self) -> usize {
        N
    }

    fn lower(&mut self, port: usize, limit: usize, rounds: u32) -> bool {
        self.port(port).is_ok_and(|port| port.lower(limit, rounds))
    }

    fn raise(&mut self, port: usize) {
        if let Ok(port) = self.port(port) {
            port.raise();
        }
    }
}

impl<B, const N: usize> Places<B, N> {
    fn port(&mut self, port: usize) -> Result<&mut LinePort<B>, SharedError> {
        let place = self.0.get_mut(port).and_then(|place| place.port.as_mut());
        place.ok_or(SharedError::NoRings)
    }
}

// How many bytes wait in the rings of a port.
#[derive(Debug)]
#[expect(dead_code, reason = "it is shown")]
struct Waiting {
    transmit_len: usize,
    receive_len: usize,
}

/// Shows how many bytes wait at each port, or why nothing can be shown: the rings are looked at as by
/// [`with_port`](SharedLine::with_port).
impl<S: CriticalSection, B: Backend, const N: usize> fmt::Debug for SharedLine<S, B, N> {
    fn fmt(&self, f: &mut fmt::Formatter<'_>) -> fmt::Result {
        // What writes the text is not called in the section: it may take long, and may write by these rings.
        let seen = self.in_section(|places| {
            places.0.each_ref().map(|place| {
                place.port.as_ref().map(|port| Waiting {
                    transmit_len: port.ring.transmit_len(),
                    receive_len: port.ring.receive_len(),
                })
            })
        });
        let mut shown = f.debug_struct("SharedLine");
        match seen {
            Ok(ports) => shown.field("ports", &ports),
            Err(refused) => shown.field("ports", &refused),
        };
        shown.finish_non_exhaustive()
    }
}

impl<S, B, const N: usize> SharedLine<S, B, N> {
    /// Returns a line without ports. Makes no access.
    #[must_use]
    pub const fn new(section: S) -> Self {
        Self {
            section,
            owed: Owed::new(),
            places: Exclusive::new(Places(
                [const {
                    Place {
                        port: None,
                        waits: Waits::new(),
                    }
                }; N],
            )),
        }
    }
}

impl<S: CriticalSection, B: Backend, const N: usize> SharedLine<S, B, N> {
    /// Makes rings over this driver, as [`Uart16550Ring::new`] does, and puts them into a place of the line. Makes no access.
    ///
    /// Initialise the driver afterwards, by [`with_port`](Self::with_port) and `inner_mut`: an interrupt that it lets in is then
    /// served.
    ///
    /// # Errors
    ///
    /// - `NoRings`, with the cause, if the rings could not be made.
    /// - `NoPlace` if the line has no such place.
    /// - `Started` if there is a port in it already.
    /// - `InUse` if the call came in the middle of another one.
    ///
    /// The driver is returned with the error, unchanged. Memory that was taken for the rings is not given back then.
    ///
    /// # Examples
    ///
    /// ```
    /// # include!(concat!(env!("CARGO_MANIFEST_DIR"), "/tests/common/line.rs"));
    /// # fn main() {
    /// # let uart = uart_16550::native::Uart16550::new_with_backend(board::Registers);
    /// # let memory = uart_16550::ring::Memory::new(Box::leak(Box::new([0; 1024 + 256])));
    /// if let Err(refused) = LINE.start(0, memory.global(), uart, 1024, 256) {
    ///     panic!("no port: {refused}");
    /// }
    /// # }
    /// ```
    pub fn start(
        &self,
        port: usize,
        global: Global<'_>,
        uart: Uart16550<B>,
        tx_capacity: usize,
        rx_capacity: usize,
    ) -> Result<(), Refused<Uart16550<B>, StartError>> {
        let ring = Uart16550Ring::new(global, uart, tx_capacity, rx_capacity).map_err(|refused| Refused {
            given: refused.given,
            cause: StartError::NoRings(refused.cause),
        })?;
        let mut made = Some(ring);
        let entered = self.in_section(|places| match places.0.get_mut(port) {
            None => Err(StartError::NoPlace),
            Some(place) if place.port.is_some() => Err(StartError::Started),
            Some(place) => {
                place.port = made.take().map(LinePort::new);
                Ok(())
            }
        });
        let Some(ring) = made else { return Ok(()) };
        let cause = entered.ok().and_then(Result::err).unwrap_or(StartError::InUse);
        Err(Refused { given: ring.into_inner(), cause })
    }

    /// Takes the rings of a port out of the line, and returns them. Makes no access.
    ///
    /// Whoever waits for them gets `NoRings`.
    ///
    /// Disable the chip's interrupts before, by [`with_port`](Self::with_port): the handler serves none of this port any more, and
    /// its line would stay high.
    ///
    /// # Errors
    ///
    /// - `NoRings` if there is no such port.
    /// - `InUse` if the call came in the middle of another one.
    ///
    /// # Examples
    ///
    /// ```
    /// # include!(concat!(env!("CARGO_MANIFEST_DIR"), "/tests/common/line.rs"));
    /// # use uart_16550::shared::SharedError;
    /// # use uart_16550::spec::registers::IER;
    /// # fn main() -> Result<(), SharedError> {
    /// # start();
    /// LINE.with_port(0, |ring| ring.inner_mut().disable_interrupts(IER::all()))?;
    /// let uart = LINE.stop(0)?.into_inner();
    /// assert_eq!(LINE.with_port(0, |ring| ring.receive_len()), Err(SharedError::NoRings));
    /// # Ok(()) }
    /// ```
    pub fn stop(&self, port: usize) -> Result<Uart16550Ring<B>, SharedError> {
        self.in_section(|places| {
            let place = places.0.get_mut(port).and_then(|place| place.port.take());
            place.map(|port| port.ring).ok_or(SharedError::NoRings)
        })?
    }

    /// Handles the interrupt of the line, as [`handle_line`] does, in the kernel's section. Returns whether an interrupt was served
    /// at one of the ports.
    ///
    /// Call it once each time the interrupt controller calls the handler, whether it detects levels or edges. What was handled at
    /// each port, and which chip is stuck, [`handled`](Self::handled) tells. The tasks that wait for what is now there are woken.
    ///
    /// # Errors
    ///
    /// `InUse` if the call came in the middle of another one, as it can where the section does not mask the interrupt. It leaves a mark,
    /// and that call handles the interrupt at its end, with this limit and number of rounds: no edge is forgotten, and a storm ends
    /// there too. If that call goes by a panic, the mark stays until the next call. What becomes of marks is proved
    /// (`no_handler_is_forgotten` of the crate `uart_waits`).
    ///
    /// # Examples
    ///
    /// ```
    /// # include!(concat!(env!("CARGO_MANIFEST_DIR"), "/tests/common/line.rs"));
    /// # use uart_16550::shared::SharedError;
    /// # fn main() -> Result<(), SharedError> {
    /// # start();
    /// let has_served = LINE.handle(32, 100)?;
    /// # assert!(!has_served);
    /// # Ok(()) }
    /// ```
    pub fn handle(&self, limit: usize, rounds: u32) -> Result<bool, SharedError> {
        self.owed.comes(limit, rounds);
        self.in_turn(true, |places| handle_line(places, limit, rounds))
    }

    /// Returns what the last [`handle`](Self::handle) handled at a port, or why its chip is stuck. Makes no access.
    ///
    /// # Errors
    ///
    /// - `Stuck` if the chip is stuck: its interrupts are off until a [`restart`](Uart16550Ring::restart), and the other ports are
    ///   served.
    /// - `NoRings` if there is no such port.
    /// - `InUse` if the call came in the middle of another one.
    ///
    /// # Examples
    ///
    /// ```
    /// # include!(concat!(env!("CARGO_MANIFEST_DIR"), "/tests/common/line.rs"));
    /// # use uart_16550::shared::SharedError;
    /// # fn main() -> Result<(), SharedError> {
    /// # start();
    /// LINE.handle(32, 100)?;
    /// assert_eq!(LINE.handled(0)?.served, 0);
    /// # Ok(()) }
    /// ```
    pub fn handled(&self, port: usize) -> Result<Handled, SharedError> {
        let handled: Result<Handled, StuckError> =
            self.in_section(|places| Ok(places.port(port)?.handled()))??;
        handled.map_err(SharedError::Stuck)
    }

    /// Calls the function with the rings of a port, in the kernel's section.
    ///
    /// The function is to be short, as each call of the rings is: nobody else gets in meanwhile, and no interrupt. Do not put other
    /// rings in the place of these.
    ///
    /// # Errors
    ///
    /// - `NoRings` if there is no such port.
    /// - `InUse` if the call came in the middle of another one, also at another port of the line.
    ///
    /// The function was not called then.
    ///
    /// # Examples
    ///
    /// ```
    /// # include!(concat!(env!("CARGO_MANIFEST_DIR"), "/tests/common/line.rs"));
    /// # use uart_16550::shared::SharedError;
    /// # fn main() -> Result<(), SharedError> {
    /// # start();
    /// let waiting = LINE.with_port(0, |ring| ring.transmit_len())?;
    /// // Not in the middle of another call.
    /// let within = LINE.with_port(0, |_ring| LINE.with_port(0, |ring| ring.queue(b"a")));
    /// assert_eq!(within, Ok(Err(SharedError::InUse)));
    /// # Ok(()) }
    /// ```
    pub fn with_port<R>(
        &self,
        port: usize,
        call: impl FnOnce(&mut Uart16550Ring<B>) -> R,
    ) -> Result<R, SharedError> {
        self.in_section(|places| Ok(call(&mut places.port(port)?.ring)))?
    }

    /// Returns a port of the line, for tasks and for threads that wait. Makes no access.
    ///
    /// Its calls are those of [`Shared`](super::Shared). If there is no such port they return `NoRings`.
    ///
    /// # Examples
    ///
    /// ```
    /// # include!(concat!(env!("CARGO_MANIFEST_DIR"), "/tests/common/line.rs"));
    /// # use uart_16550::shared::SharedError;
    /// # fn main() {
    /// # start();
    /// async fn echo() -> Result<(), SharedError> {
    ///     let port = LINE.port(0);
    ///     let mut slots = [0; 64];
    ///     let count = port.read(&mut slots).await?;
    ///     let mut rest = &slots[..count];
    ///     while !rest.is_empty() {
    ///         rest = &rest[port.write(rest).await?..];
    ///     }
    ///     port.flush().await
    /// }
    /// # let _not_run = echo;
    /// # }
    /// ```
    pub const fn port(&self, port: usize) -> PortOfLine<'_, S, B, N> {
        PortOfLine { line: self, port }
    }

    // Calls the function in the section.
    #[inline]
    fn in_section<R>(&self, call: impl FnOnce(&mut Places<B, N>) -> R) -> Result<R, SharedError> {
        self.in_turn(false, call)
    }

    // Calls the function in the section, serves what handlers came for meanwhile, and then wakes the tasks whose turn it is.
    #[inline]
    fn in_turn<R>(&self, is_handler: bool, call: impl FnOnce(&mut Places<B, N>) -> R) -> Result<R, SharedError> {
        let mut turns = [const { Turns::NONE }; N];
        let entered = self.section.run(|| {
            let mut entered = self.places.let_in(is_handler)?;
            let result = call(entered.value());
            entered.value().add_due(&mut turns);
            // It ends as a storm does: each round that is left unfinished counts, also if raising the line makes the next edge.
            while let Err(owed) = entered.leave() {
                entered = owed;
                let (limit, rounds) = self.owed.terms();
                // The chips that are left with an interrupt raise the line again.
                handle_line(entered.value(), limit, rounds);
                entered.value().add_due(&mut turns);
            }
            Some(result)
        });
        drop(turns);
        entered.ok_or(SharedError::InUse)
    }
}

impl<B: Backend, const N: usize> Places<B, N> {
    fn add_due(&mut self, turns: &mut [Turns; N]) {
        for (place, turns) in self.0.iter_mut().zip(turns) {
            turns.add(place.take_due());
        }
    }
}

/// A port of a [`SharedLine`], for tasks and for threads that wait. Returned by [`SharedLine::port`].
///
/// # Errors
///
/// - `NoRings` if there is no such port, or none any more.
/// - `Stuck` if what is awaited is not there, and the chip is stuck, and so does not come to it.
/// - `InUse` if the call comes in the middle of another one, also at another port of the line.
///
/// # Examples
///
/// ```
/// # include!(concat!(env!("CARGO_MANIFEST_DIR"), "/tests/common/line.rs"));
/// # use uart_16550::shared::{SharedError, Wait};
/// use core::fmt::Write as _;
/// # struct Turns(u32);
/// # impl Wait for Turns {
/// #     fn wait(&mut self, _is_there: impl FnMut() -> bool) -> bool {
/// #         self.0 -= 1;
/// #         self.0 > 0
/// #     }
/// # }
///
/// # fn main() -> Result<(), core::fmt::Error> {
/// # start();
/// // `Turns` is how a thread of the kernel waits.
/// let mut log = LINE.port(0).blocking(Turns(1000));
/// writeln!(log, "started")?;
/// # Ok(()) }
/// ```
pub struct PortOfLine<'a, S, B, const N: usize> {
    line: &'a SharedLine<S, B, N>,
    port: usize,
}

impl<S, B, const N: usize> Clone for PortOfLine<'_, S, B, N> {
    fn clone(&self) -> Self {
        *self
    }
}

impl<S, B, const N: usize> Copy for PortOfLine<'_, S, B, N> {}

impl<S: CriticalSection, B: Backend, const N: usize> fmt::Debug for PortOfLine<'_, S, B, N> {
    fn fmt(&self, f: &mut fmt::Formatter<'_>) -> fmt::Result {
        f.debug_struct("PortOfLine")
            .field("line", self.line)
            .field("port", &self.port)
            .finish()
    }
}

impl<S: CriticalSection, B: Backend, const N: usize> Rings for PortOfLine<'_, S, B, N> {
    type Held = Uart16550Ring<B>;

    fn in_section<R>(
        &self,
        call: impl FnOnce(Option<&mut Uart16550Ring<B>>, &mut Waits<Waker>) -> R,
    ) -> Result<R, SharedError> {
        self.line.in_section(|places| {
            let place = places.0.get_mut(self.port).ok_or(SharedError::NoRings)?;
            Ok(call(place.port.as_mut().map(|port| &mut port.ring), &mut place.waits))
        })?
    }

    fn seize(&self, stopped: AllStopped) -> Option<&Uart16550Ring<B>> {
        let port = self.line.places.seize(stopped).0.get(self.port)?.port.as_ref()?;
        Some(&port.ring)
    }
}

impl<S: CriticalSection, B: Backend, const N: usize> PortOfLine<'_, S, B, N> {
    /// Calls the function with the rings, as [`with_port`](SharedLine::with_port) does.
    ///
    /// # Errors
    ///
    /// `NoRings` or `InUse`. The function was not called then.
    pub fn with<R>(&self, call: impl FnOnce(&mut Uart16550Ring<B>) -> R) -> Result<R, SharedError> {
        self.with_rings(call)
    }

    /// Takes received bytes, at least one, as [`read`](super::Shared::read) of [`Shared`](super::Shared) does.
    ///
    /// # Errors
    ///
    /// Those of the type.
    pub async fn read(&self, slots: &mut [u8]) -> Result<usize, SharedError> {
        poll_fn(|context| self.poll_read(context, slots)).await
    }

    /// Queues bytes from the front, at least one, as [`write`](super::Shared::write) of [`Shared`](super::Shared) does.
    ///
    /// # Errors
    ///
    /// Those of the type.
    pub async fn write(&self, bytes: &[u8]) -> Result<usize, SharedError> {
        poll_fn(|context| self.poll_write(context, bytes)).await
    }

    /// Waits until all that was written is on the line, as [`flush`](super::Shared::flush) of [`Shared`](super::Shared) does.
    ///
    /// # Errors
    ///
    /// Those of the type, and `GaveUp` after as many looks at the chip as the driver's spin limit.
    pub async fn flush(&self) -> Result<(), SharedError> {
        rings::flush(self).await
    }

    /// Does what [`read`](Self::read) does, for a future by hand.
    ///
    /// # Errors
    ///
    /// Those of the type.
    pub fn poll_read(&self, context: &mut Context<'_>, slots: &mut [u8]) -> Poll<Result<usize, SharedError>> {
        self.poll_take(context, slots)
    }

    /// Does what [`write`](Self::write) does, for a future by hand.
    ///
    /// # Errors
    ///
    /// Those of the type.
    pub fn poll_write(&self, context: &mut Context<'_>, bytes: &[u8]) -> Poll<Result<usize, SharedError>> {
        self.poll_queue(context, bytes)
    }
}

impl<'a, S: CriticalSection, B: Backend, const N: usize> PortOfLine<'a, S, B, N> {
    /// Returns the port for a thread that waits so, as [`blocking`](super::Shared::blocking) of [`Shared`](super::Shared) does.
    pub const fn blocking<W: Wait>(self, wait: W) -> BlockingRings<PortOfLine<'a, S, B, N>, W> {
        BlockingRings::new(self, wait)
    }
}

/// Rings over notes of errors.
impl<S: CriticalSection, B: Backend, const N: usize> PortOfLine<'_, S, ErrorNotes<B>, N> {
    /// Does what [`read`](Self::read) does, and returns each byte with its errors.
    ///
    /// # Errors
    ///
    /// Those of the type, and `Unnoted` if bytes have no note of their errors. Then nothing is taken.
    pub async fn read_with_errors(&self, slots: &mut [Received]) -> Result<usize, SharedError> {
        poll_fn(|context| rings::poll_take_with_errors(self, context, slots)).await
    }
}
