//! Rings that an interrupt handler and threads share: behind the kernel's lock, with calls that wait, and for tasks.
//!
//! | if a program | it uses |
//! |---|---|
//! | has a handler, and threads that look from time to time | [`Shared::with`] |
//! | has threads that wait | [`Shared::blocking`] |
//! | has tasks of an executor | [`Shared::read`], [`Shared::write`] and [`Shared::flush`] |
//! | has several ports on one interrupt line | [`SharedLine`] |
//! | is at a bus of two wires, as RS-485 | [`SharedBus`], with the calls of a [`Shared`] |
//!
//! [The guide of interrupts](crate::ring#interrupts) has each as a whole. A [`Shared`] is there on each target with an atomic swap
//! of a byte.

mod asynchronous;
mod blocking;
mod exclusive;
mod held;
#[cfg(feature = "embedded-io")]
mod io;
mod line;
mod owed;
mod rings;

pub use blocking::{Blocking, BlockingRings, Wait};
pub use crate::ring::Refused;
pub use line::{PortOfLine, SharedLine};
pub use uart_waits::{SharedError, StartError, Unfinished};

use crate::native::Uart16550;
use crate::native::backend::Backend;
use crate::ring::{Global, Handled, Uart16550Ring};
use core::fmt;
use core::task::Waker;
use crate::rs485::HalfDuplexRing;
pub(crate) use exclusive::AllStopped;
use exclusive::Exclusive;
use held::Held;
use owed::Owed;
pub(crate) use rings::Rings;
use rings::Turns;
use uart_waits::{Due, Seen, Waits};

/// How a kernel keeps everybody else out: its lock that masks interrupts.
///
/// # What an implementation owes
///
/// - **Interrupts are masked** on this processor as long as the call runs, at least that of the port. Afterwards they are as they
///   were before, and not simply unmasked: sections are nested, as if a handler called one.
/// - **With several processors** it takes a lock too, after the mask. When it has returned the lock, the mask goes. With the lock
///   alone, a handler that interrupts the owner on the same processor would wait for it for ever. With the mask alone, two
///   processors would be in at once.
/// - **It does not wait for its own processor.** If this processor is in the section already, as in a call within a call, it calls
///   the function at once. With a mask alone that is so. A lock of several processors knows its owner, for that.
///
/// Memory is safe whatever an implementation does: if it lets two in, the second one is refused with [`SharedError::InUse`].
///
/// # Examples
///
/// For a program with the crate `critical-section`, which has such a section for each kind of processor:
///
/// ```
/// # mod critical_section {
/// #     pub struct CriticalSection;
/// #     pub fn with<R>(call: impl FnOnce(CriticalSection) -> R) -> R { call(CriticalSection) }
/// # }
/// use uart_16550::shared::CriticalSection;
///
/// struct Section;
///
/// impl CriticalSection for Section {
///     fn run<R>(&self, call: impl FnOnce() -> R) -> R {
///         critical_section::with(|_section| call())
///     }
/// }
/// # assert_eq!(Section.run(|| 1), 1);
/// ```
///
/// For a kernel with one processor, and two functions for its mask:
///
/// ```
/// # mod arch {
/// #     pub fn mask_interrupts() -> bool { false }
/// #     pub fn restore_interrupts(_were_masked: bool) {}
/// # }
/// use uart_16550::shared::CriticalSection;
///
/// struct Masked;
///
/// impl CriticalSection for Masked {
///     fn run<R>(&self, call: impl FnOnce() -> R) -> R {
///         let were_masked = arch::mask_interrupts();
///         let result = call();
///         arch::restore_interrupts(were_masked);
///         result
///     }
/// }
/// # assert_eq!(Masked.run(|| 1), 1);
/// ```
pub trait CriticalSection {
    /// Calls the function while nobody else is in the section, and returns what it returns.
    fn run<R>(&self, call: impl FnOnce() -> R) -> R;
}

/// Rings that an interrupt handler and threads share.
///
/// It is made for a `static`: [`new`](Self::new) is `const`, and the rings come in by [`start`](Self::start). From then on each call
/// runs in the kernel's [`CriticalSection`], so the handler cannot come into the middle of one, and a call within a call is refused.
///
/// # Examples
///
/// ```
/// use uart_16550::native::{Config, Uart16550};
/// use uart_16550::ring::{MAX_INTERRUPTS, Memory};
/// use uart_16550::shared::Shared;
/// use uart_16550::spec::registers::IER;
/// # use board::Registers;
/// # include!(concat!(env!("CARGO_MANIFEST_DIR"), "/tests/common/board.rs"));
/// # include!(concat!(env!("CARGO_MANIFEST_DIR"), "/tests/common/masked.rs"));
///
/// // `Masked` is the kernel's section, and `Registers` its backend.
/// static PORT: Shared<Masked, Registers> = Shared::new(Masked);
///
/// fn handle_interrupt() {
///     let _handled = PORT.try_handle(4 * MAX_INTERRUPTS, 100);
/// }
///
/// # fn main() -> Result<(), Box<dyn std::error::Error>> {
/// # let registers = unsafe { board::registers() };
/// # let bytes: &'static mut [u8] = Box::leak(Box::new([0; 1024 + 256]));
/// let memory = Memory::new(bytes);
/// let uart = Uart16550::new_with_backend(registers);
/// PORT.start(memory.global(), uart, 1024, 256)?;
/// let interrupts = IER::DATA_READY | IER::RECEIVER_LINE_STATUS;
/// PORT.with(|ring| ring.inner_mut().init(Config { interrupts, ..Config::DEFAULT }))??;
/// assert_eq!(PORT.with(|ring| ring.queue(b"hello")), Ok(5));
/// # assert_eq!(board::chip().sent, b"hello");
/// # Ok(()) }
/// ```
pub type Shared<S, B> = SharedRings<S, Uart16550Ring<B>>;

/// Rings at a bus of two wires, as RS-485, that an interrupt handler, a timer and threads share.
///
/// It has the calls of a [`Shared`]. [`with`](SharedRings::with) lends a [`HalfDuplexRing`], so no byte is written while the direction
/// is not to send; a write is then refused with [`SharedError::NotSending`].
///
/// If the transmitter never gets empty, [`stop`](SharedRings::stop) returns the rings for a
/// [`give_up`](HalfDuplexRing::give_up).
///
/// # Examples
///
/// ```
/// use uart_16550::native::{Config, Setup, Uart16550, spec::registers::MCR};
/// use uart_16550::ring::{MAX_INTERRUPTS, Memory, Uart16550Ring};
/// use uart_16550::rs485::{Direction, DirectionLine, HalfDuplexRing};
/// use uart_16550::shared::SharedBus;
/// use uart_16550::spec::registers::IER;
/// # use board::Registers;
/// # include!(concat!(env!("CARGO_MANIFEST_DIR"), "/tests/common/board.rs"));
/// # include!(concat!(env!("CARGO_MANIFEST_DIR"), "/tests/common/masked.rs"));
///
/// // `Masked` is the kernel's section, and `Registers` its backend.
/// static BUS: SharedBus<Masked, Registers> = SharedBus::new(Masked);
///
/// fn handle_interrupt() {
///     let _handled = BUS.try_handle(4 * MAX_INTERRUPTS, 100);
/// }
///
/// // A timer calls this once the bytes may have left, and then each character, until it returns true.
/// fn is_over() -> bool {
///     BUS.with(|bus| bus.try_finish().is_ok()).unwrap_or(false)
/// }
///
/// # fn main() -> Result<(), Box<dyn std::error::Error>> {
/// # let registers = unsafe { board::registers() };
/// # let bytes: &'static mut [u8] = Box::leak(Box::new([0; 1024 + 256]));
/// let direction = Direction { line: DirectionLine::Rts, sends_when_set: true };
/// let setup = Setup { outputs: direction.receiving(MCR::READY), ..Setup::DEFAULT };
/// let mut uart = Uart16550::new_with_backend(registers);
/// uart.init_with(Config::DEFAULT, &setup)?;
/// let memory = Memory::new(bytes);
/// let ring = Uart16550Ring::new(memory.global(), uart, 1024, 256).map_err(|refused| refused.cause)?;
/// let bus = HalfDuplexRing::new(ring, direction).map_err(|refused| refused.cause)?;
/// BUS.start_with(bus).map_err(|refused| refused.cause)?;
/// BUS.with(|bus| bus.restart(IER::DATA_READY | IER::RECEIVER_LINE_STATUS))?;
///
/// BUS.with(|bus| bus.start_sending())?;
/// assert_eq!(BUS.with(|bus| bus.queue(b"question"))?, Ok(8));
/// // Later, in the timer's handler:
/// assert!(is_over());
/// # assert_eq!(board::chip().sent, b"question");
/// # Ok(()) }
/// ```
pub type SharedBus<S, B> = SharedRings<S, HalfDuplexRing<B>>;

/// What a [`Shared`] and a [`SharedBus`] are: rings behind a lock, for a handler, threads and tasks.
pub struct SharedRings<S, R> {
    section: S,
    owed: Owed,
    port: Exclusive<Port<R>>,
}

/// Shows how many bytes wait, or why nothing can be shown: the rings are looked at as by [`with`](Shared::with).
impl<S: CriticalSection, R: Held> fmt::Debug for SharedRings<S, R> {
    fn fmt(&self, f: &mut fmt::Formatter<'_>) -> fmt::Result {
        // What writes the text is not called in the section: it may take long, and may write by these rings.
        let seen = self.with(|held| {
            let rings = held.rings();
            (rings.transmit_len(), rings.receive_len(), rings.stuck())
        });
        let mut shown = f.debug_struct("Shared");
        match seen {
            Ok((transmit_len, receive_len, stuck)) => shown
                .field("transmit_len", &transmit_len)
                .field("receive_len", &receive_len)
                .field("stuck", &stuck),
            Err(refused) => shown.field("rings", &refused),
        };
        shown.finish_non_exhaustive()
    }
}

/// What is behind the lock.
struct Port<R> {
    ring: Option<R>,
    waits: Waits<Waker>,
}

impl<S, R> SharedRings<S, R> {
    /// Returns what is to be shared, without rings. Makes no access.
    #[must_use]
    pub const fn new(section: S) -> Self {
        Self {
            section,
            owed: Owed::new(),
            port: Exclusive::new(Port {
                ring: None,
                waits: Waits::new(),
            }),
        }
    }
}

impl<S: CriticalSection, B: Backend> Shared<S, B> {
    /// Makes rings over this driver, as [`Uart16550Ring::new`] does, and shares them. Makes no access.
    ///
    /// Initialise the driver afterwards, by [`with`](Self::with) and `inner_mut`: an interrupt that it lets in is then served.
    ///
    /// # Errors
    ///
    /// - `NoRings`, with the cause, if the rings could not be made.
    /// - `Started` if there are rings already.
    /// - `InUse` if the call came in the middle of another one.
    ///
    /// The driver is returned with the error, unchanged. Memory that was taken for the rings is not given back then.
    ///
    /// # Examples
    ///
    /// ```
    /// # include!(concat!(env!("CARGO_MANIFEST_DIR"), "/tests/common/shared.rs"));
    /// # fn main() {
    /// # let uart = uart_16550::native::Uart16550::new_with_backend(board::Registers);
    /// # let memory = uart_16550::ring::Memory::new(Box::leak(Box::new([0; 1024 + 256])));
    /// if let Err(refused) = PORT.start(memory.global(), uart, 1024, 256) {
    ///     panic!("no port: {refused}");
    /// }
    /// # }
    /// ```
    pub fn start(
        &self,
        global: Global<'_>,
        uart: Uart16550<B>,
        tx_capacity: usize,
        rx_capacity: usize,
    ) -> Result<(), Refused<Uart16550<B>, StartError>> {
        let ring = Uart16550Ring::new(global, uart, tx_capacity, rx_capacity).map_err(|refused| Refused {
            given: refused.given,
            cause: StartError::NoRings(refused.cause),
        })?;
        self.start_with(ring).map_err(|refused| Refused {
            given: refused.given.into_inner(),
            cause: refused.cause,
        })
    }
}

impl<S: CriticalSection, R: Held> SharedRings<S, R> {
    /// Shares these rings. Makes no access.
    ///
    /// # Errors
    ///
    /// - `Started` if there are rings already.
    /// - `InUse` if the call came in the middle of another one.
    ///
    /// The rings are returned with the error.
    ///
    /// # Examples
    ///
    /// Those of [`SharedBus`].
    pub fn start_with(&self, rings: R) -> Result<(), Refused<R, StartError>> {
        let mut made = Some(rings);
        let entered = self.in_turn(false, |port| {
            if port.ring.is_none() {
                port.ring = made.take();
            }
        });
        let Some(given) = made else { return Ok(()) };
        let cause = if entered.is_ok() { StartError::Started } else { StartError::InUse };
        Err(Refused { given, cause })
    }

    /// Returns the rings, which are shared no more. Makes no access.
    ///
    /// Whoever waits for them gets `NoRings`. Disable the chip's interrupts before, by [`with`](Self::with): the handler serves
    /// none any more.
    ///
    /// # Errors
    ///
    /// `NoRings` or `InUse`.
    ///
    /// # Examples
    ///
    /// ```
    /// # include!(concat!(env!("CARGO_MANIFEST_DIR"), "/tests/common/shared.rs"));
    /// # use uart_16550::shared::SharedError;
    /// # use uart_16550::spec::registers::IER;
    /// # fn main() -> Result<(), SharedError> {
    /// # start();
    /// PORT.with(|ring| ring.inner_mut().disable_interrupts(IER::all()))?;
    /// let uart = PORT.stop()?.into_inner();
    /// assert_eq!(PORT.with(|ring| ring.receive_len()), Err(SharedError::NoRings));
    /// # Ok(()) }
    /// ```
    pub fn stop(&self) -> Result<R, SharedError> {
        self.in_turn(false, |port| port.ring.take().ok_or(SharedError::NoRings))?
    }

    /// Calls the function with the rings, in the kernel's section. Then wakes the task that waits for what is now there.
    ///
    /// This is the call for a thread that does not wait, and for what a handler does beside [`try_handle`](Self::try_handle). The
    /// function is to be short, as each call of the rings is: nobody else gets in meanwhile, and no interrupt. Do not put other rings
    /// in the place of these.
    ///
    /// # Errors
    ///
    /// - `NoRings` if there are none.
    /// - `InUse` if the call came in the middle of another one.
    ///
    /// The function was not called then.
    ///
    /// # Examples
    ///
    /// ```
    /// # include!(concat!(env!("CARGO_MANIFEST_DIR"), "/tests/common/shared.rs"));
    /// # use uart_16550::shared::SharedError;
    /// # fn main() -> Result<(), SharedError> {
    /// # start();
    /// let waiting = PORT.with(|ring| ring.transmit_len())?;
    /// // Not in the middle of another call.
    /// assert_eq!(PORT.with(|_ring| PORT.with(|ring| ring.queue(b"a"))), Ok(Err(SharedError::InUse)));
    /// # Ok(()) }
    /// ```
    pub fn with<T>(&self, call: impl FnOnce(&mut R) -> T) -> Result<T, SharedError> {
        self.with_rings(call)
    }

    /// Handles the chip's interrupt, as [`try_handle`](Uart16550Ring::try_handle) of the rings does, in the kernel's section. Then wakes
    /// the task that waits for what is now there.
    ///
    /// This is the call for the handler. If it comes in the middle of another call, as it can where the section does not mask the
    /// interrupt, it is refused and leaves a mark, and that call handles the interrupt at its end, with this limit and number of
    /// rounds. So no edge is forgotten, and a storm ends there too. If that call goes by a panic, the mark stays until the next call.
    /// What becomes of marks is proved (`no_handler_is_forgotten` of the crate `uart_waits`), and when a storm ends (`storms_end` of
    /// `uart_ring`).
    ///
    /// # Errors
    ///
    /// - `Stuck` if the chip is stuck: its interrupts are off until a [`restart`](Uart16550Ring::restart).
    /// - `NoRings` if there are none.
    /// - `InUse` if the call came in the middle of another one, which handles the interrupt.
    ///
    /// # Examples
    ///
    /// ```
    /// # include!(concat!(env!("CARGO_MANIFEST_DIR"), "/tests/common/shared.rs"));
    /// # use uart_16550::ring::MAX_INTERRUPTS;
    /// # use uart_16550::shared::SharedError;
    /// # fn main() -> Result<(), SharedError> {
    /// # start();
    /// // After 100 rounds that came to nothing the chip is stuck.
    /// let handled = PORT.try_handle(4 * MAX_INTERRUPTS, 100)?;
    /// # assert_eq!(handled.served, 0);
    /// # Ok(()) }
    /// ```
    pub fn try_handle(&self, limit: usize, rounds: u32) -> Result<Handled, SharedError> {
        self.owed.comes(limit, rounds);
        self.in_turn(true, |port| port.try_handle(limit, rounds))?
    }

    // Calls the function in the section, serves what handlers came for meanwhile, and then wakes the tasks whose turn it is.
    #[inline]
    fn in_turn<T>(&self, is_handler: bool, call: impl FnOnce(&mut Port<R>) -> T) -> Result<T, SharedError> {
        let mut turns = Turns::NONE;
        let entered = self.section.run(|| {
            let mut entered = self.port.let_in(is_handler)?;
            let result = call(entered.value());
            turns.add(entered.value().take_due());
            // It ends as a storm does: each round that is left unfinished counts, also if serving makes the next edge.
            while let Err(owed) = entered.leave() {
                entered = owed;
                let (limit, rounds) = self.owed.terms();
                // What is left makes the line fall and rise, and so comes again. Why a chip is stuck the rings keep.
                let _handled = entered.value().try_handle(limit, rounds);
                turns.add(entered.value().take_due());
            }
            Some(result)
        });
        drop(turns);
        entered.ok_or(SharedError::InUse)
    }
}

impl<R: Held> Port<R> {
    fn take_due(&mut self) -> Due<Waker> {
        let seen = self.ring.as_ref().map(|held| Seen::of(held.rings()));
        self.waits.take_due(seen)
    }

    fn try_handle(&mut self, limit: usize, rounds: u32) -> Result<Handled, SharedError> {
        let ring = self.ring.as_mut().ok_or(SharedError::NoRings)?;
        ring.try_handle(limit, rounds).map_err(SharedError::Stuck)
    }
}

impl<S: CriticalSection, R: Held> Rings for SharedRings<S, R> {
    type Held = R;

    fn in_section<T>(&self, call: impl FnOnce(Option<&mut R>, &mut Waits<Waker>) -> T) -> Result<T, SharedError> {
        self.in_turn(false, |port| call(port.ring.as_mut(), &mut port.waits))
    }

    fn seize(&self, stopped: AllStopped) -> Option<&Uart16550Ring<R::Backend>> {
        self.port.seize(stopped).ring.as_ref().map(Held::rings)
    }
}
