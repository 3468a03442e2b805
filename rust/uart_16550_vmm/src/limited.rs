//! Output at no more than a rate.

use std::num::{NonZeroU32, NonZeroUsize};
use std::time::{Duration, Instant};
use uart_16550_chip::serial::Output;

/// What a byte costs: so many nanoseconds of a byte a second.
const BYTE: u128 = 1_000_000_000;

/// An output that takes no more than so many bytes in a second.
///
/// A guest that prints without end would else take as much of the host as it can: of a disk that has its log, for example. After a pause as
/// many bytes are taken at once as `burst` says. What is not taken stays in the device, which holds the guest back, and nothing is lost. So
/// a monitor starts a timer for [`wait`](Self::wait) when the device tells that output is held (`SerialEvents::tx_held`), and calls
/// `Serial::write_output` when it ran out. In a [`Lossy`](crate::Lossy) what is above the rate is dropped, and no timer is needed.
///
/// # Examples
///
/// ```
/// use std::cell::Cell;
/// use std::convert::Infallible;
/// use std::time::{Duration, Instant};
/// use uart_16550_vmm::uart_16550_chip::Serial;
/// use uart_16550_vmm::{Limited, TriggerBy};
///
/// let now = Cell::new(Instant::now());
/// let output = Limited::with_clock(Vec::new(), 1000.try_into()?, 4.try_into()?, || now.get());
/// let mut serial = Serial::new(TriggerBy(|| Ok::<(), Infallible>(())), output);
/// for byte in *b"Hello" {
///     serial.write(0, byte)?;
/// }
/// assert_eq!((serial.writer().get_ref().as_slice(), serial.output()), (&b"Hell"[..], &b"o"[..]));
/// assert_eq!(serial.writer().wait(), Duration::from_millis(1));
///
/// // A millisecond later:
/// now.set(now.get() + Duration::from_millis(1));
/// assert_eq!(serial.write_output()?, 1);
/// # Ok::<(), Box<dyn std::error::Error>>(())
/// ```
#[derive(Debug)]
pub struct Limited<W, C = fn() -> Instant> {
    output: W,
    bytes_per_second: NonZeroU32,
    burst: NonZeroUsize,
    clock: C,
    // What may be taken, and when that was so.
    credit: u128,
    since: Instant,
}

impl<W> Limited<W> {
    /// Returns an output that takes at most so many bytes a second, and after a pause so many at once.
    pub fn new(output: W, bytes_per_second: NonZeroU32, burst: NonZeroUsize) -> Self {
        Self::with_clock(output, bytes_per_second, burst, Instant::now)
    }
}

impl<W, C: FnMut() -> Instant> Limited<W, C> {
    /// Returns an output as [`Limited::new`] does, with a clock of the monitor.
    pub fn with_clock(
        output: W,
        bytes_per_second: NonZeroU32,
        burst: NonZeroUsize,
        mut clock: C,
    ) -> Self {
        Limited {
            output,
            bytes_per_second,
            burst,
            since: clock(),
            clock,
            credit: burst.get() as u128 * BYTE,
        }
    }

    // Adds what may be taken for the time that has passed. A clock that goes back adds nothing.
    fn pass_time(&mut self) {
        let now = (self.clock)();
        let passed = now.saturating_duration_since(self.since).as_nanos();
        let earned = passed.saturating_mul(u128::from(self.bytes_per_second.get()));
        let most = self.burst.get() as u128 * BYTE;
        self.credit = self.credit.saturating_add(earned).min(most);
        self.since = now;
    }
}

impl<W, C> Limited<W, C> {
    /// Returns how long it takes from the last write until another byte is taken: no time, if that did not use up the rate.
    pub fn wait(&self) -> Duration {
        let missing = BYTE.saturating_sub(self.credit);
        let nanoseconds = missing.div_ceil(u128::from(self.bytes_per_second.get()));
        // It is at most a second.
        Duration::from_nanos(u64::try_from(nanoseconds).unwrap_or(u64::MAX))
    }

    /// Returns the output in it.
    pub fn get_ref(&self) -> &W {
        &self.output
    }

    /// Returns the output in it, to be changed.
    pub fn get_mut(&mut self) -> &mut W {
        &mut self.output
    }

    /// Returns the output that was in it.
    pub fn into_inner(self) -> W {
        self.output
    }
}

impl<W: Output, C: FnMut() -> Instant> Output for Limited<W, C> {
    type Error = W::Error;

    /// Takes as many of these bytes as the rate allows.
    ///
    /// # Errors
    ///
    /// If the output in it fails.
    fn write_bytes(&mut self, bytes: &[u8]) -> Result<usize, W::Error> {
        self.pass_time();
        let allowed = usize::try_from(self.credit / BYTE).unwrap_or(usize::MAX);
        let allowed = allowed.min(bytes.len());
        if allowed == 0 {
            return Ok(0);
        }
        let taken = self.output.write_bytes(&bytes[..allowed])?.min(allowed);
        self.credit -= taken as u128 * BYTE;
        Ok(taken)
    }
}
