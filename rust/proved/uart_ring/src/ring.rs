//! The rings over a driver: their fields, the constructor, and the calls that read their state.

mod line;
mod noted;
mod receive;
mod service;
mod status;
mod storm;
mod transmit;

use crate::queue::ByteQueue;
use crate::refused::Refused;
use bitflags::Flags;
pub use line::Lowered;
pub use receive::ReceiveMarks;
pub use service::{HandleEnd, Handled, MAX_INTERRUPTS};
use std::alloc::Global;
pub use storm::StuckError;
use uart_16550::Uart16550;
use uart_16550::backend::Backend;
use uart_spec::registers::{LSR, MSR};

/// The largest capacity of a ring, in bytes.
pub const MAX_CAPACITY: usize = 4096;

/// Why no rings were made: the first reason in this order.
#[cfg_attr(not(feature = "exhaustive"), non_exhaustive)]
#[derive(Clone, Copy, Debug, PartialEq, Eq)]
pub enum RingError {
    /// A capacity is 0 or more than [`MAX_CAPACITY`].
    BadCapacity,
    /// Memory for the rings could not be allocated.
    OutOfMemory,
}

#[automatically_derived]
impl std::fmt::Display for RingError {
    fn fmt(&self, f: &mut std::fmt::Formatter<'_>) -> std::fmt::Result {
        match self {
            Self::BadCapacity => {
                ({ (f.write_fmt(format_args!("a ring has room for 1 to 4096 bytes"))) })
            }
            Self::OutOfMemory => { ({ (f.write_fmt(format_args!("out of memory"))) }) }
        }
    }
}

#[automatically_derived]
impl std::error::Error for RingError {}

/// A driver with a ring for bytes that are to be sent, and a ring for received bytes.
///
/// Initialise the driver through `inner_mut`, with `DATA_READY`, `RECEIVER_LINE_STATUS` and
/// `MODEM_STATUS` enabled and without `THR_EMPTY`, which the rings enable as long as there are
/// bytes to send. Call `handle` or `try_handle` in the interrupt handler. Mask the interrupt during
/// all other calls, since the handler must not run in the middle of one.
///
/// For a chip whose FIFOs hold more than 16 characters set their size in the driver, by
/// `set_fifo_size`, before or through `inner_mut`: an interrupt then sends or receives as many.
///
/// No call waits, so none returns a stall.
///
/// # Examples
///
/// ```
/// # include!(concat!(env!("CARGO_MANIFEST_DIR"), "/examples.rs"));
/// # fn main() {}
/// # use facade::ring::*;
/// # fn example(alloc: Global, uart: Uart16550<Device>) -> Result<(), RingError> {
/// let mut ring = Uart16550Ring::new(alloc, uart, 1024, 256)?;
/// # Ok(()) }
/// ```
// There is no model of the rings, as there is none of the driver: clauses speak of the fields
// through `ring_fields` and `driver_of`.
pub struct Uart16550Ring<B> {
    uart: Uart16550<B>,
    transmit: ByteQueue,
    receive: ByteQueue,
    // What was noted of LSR and MSR when interrupts were served, until it is taken. The driver's
    // own saved bits are empty then: serving an interrupt reads LSR by `lsr`, which empties them.
    line: LSR,
    modem: MSR,
    is_paused: bool,
    // It overtakes the transmit ring. A terminal's flow control has at most one to send: a newer
    // XON or XOFF makes an older one that still waits pointless.
    urgent: Option<u8>,
    is_held: bool,
    // What `adjust_xoff` told the other end last: XOFF, or XON or nothing.
    has_told_xoff: bool,
    // At how many bytes at the end of the receive ring `obey_xoff` has not looked: at all of them,
    // if there are fewer. So a call that takes bytes has nothing to do for this.
    unlooked: usize,
    low_mark: usize,
    // The transmit ring fell to the low mark since this was taken.
    is_low: bool,
    // Calls of `try_handle` in a row, up to the last one, that did not end with `Idle`.
    rounds: u32,
    // Why the interrupts are off, until a `restart`.
    stuck: Option<StuckError>,
}

// Returns whether a ring can have this capacity.
pub(crate) fn is_capacity(capacity: usize) -> bool {
    1 <= capacity && capacity <= MAX_CAPACITY
}

impl<B: Backend> Uart16550Ring<B> {
    /// Returns empty rings over this driver, for `tx_capacity` bytes that are to be sent and
    /// `rx_capacity` received bytes.
    ///
    /// Makes no access. Allocates all memory of the rings; no later call allocates.
    ///
    /// # Errors
    ///
    /// - `BadCapacity` if a capacity is 0 or more than [`MAX_CAPACITY`].
    /// - `OutOfMemory` if memory could not be allocated.
    ///
    /// The driver is returned with the error, unchanged.
    ///
    /// # Examples
    ///
    /// ```
    /// # include!(concat!(env!("CARGO_MANIFEST_DIR"), "/examples.rs"));
    /// # fn main() {}
    /// # use facade::ring::*;
    /// # fn example(alloc: Global, uart: Uart16550<Device>) -> Result<(), RingError> {
    /// let mut ring = Uart16550Ring::new(alloc, uart, 1024, 256)?;
    /// # Ok(()) }
    /// ```
    ///
    /// # Proved
    ///
    /// - *made*: if it returns `Ok ring`: [`AreEmpty`](crate::proved::ring#AreEmpty) `ring uart tx_capacity rx_capacity`: empty rings of these capacities over this driver, in which nothing is held, paused or stuck, and XOFF was never told.
    /// - *refused*: unless [`IsCapacity`](crate::proved::ring#IsCapacity) `tx_capacity` and [`IsCapacity`](crate::proved::ring#IsCapacity) `rx_capacity`: returns `Err (record { given = uart; cause = RingError.BadCapacity })`.
    ///   - [`IsCapacity`](crate::proved::ring#IsCapacity): how many bytes a ring can be made for: 1 to 4096.
    /// - *accepted*: if [`IsCapacity`](crate::proved::ring#IsCapacity) `tx_capacity` and [`IsCapacity`](crate::proved::ring#IsCapacity) `rx_capacity`: returns `Ok`, or `Err` of `record { given = uart; cause = RingError.OutOfMemory }`.
    ///
    /// <details><summary>The clauses</summary>
    ///
    /// [How to read them](uart_spec::proved):
    ///
    /// ```text
    /// ensures made { IfOk result (λ ring. AreEmpty ring uart tx_capacity rx_capacity) }
    /// ensures refused { (IsCapacity tx_capacity × IsCapacity rx_capacity → ⊥) → result ≡ Err (record { given = uart; cause = RingError.BadCapacity }) }
    /// ensures accepted { IsCapacity tx_capacity × IsCapacity rx_capacity → IsOkUnless result (record { given = uart; cause = RingError.OutOfMemory }) }
    /// ```
    ///
    /// </details>
    pub fn new(
        alloc: Global,
        uart: Uart16550<B>,
        tx_capacity: usize,
        rx_capacity: usize,
    ) -> Result<Self, Refused<Uart16550<B>, RingError>> {
        // A refusal returns the driver, which may hold a device that cannot be obtained again.
        if !is_capacity(tx_capacity) || !is_capacity(rx_capacity) {
            return Err(Refused {
                given: uart,
                cause: RingError::BadCapacity,
            });
        }
        let Ok(transmit) = ByteQueue::with_capacity(alloc, tx_capacity) else {
            return Err(Refused {
                given: uart,
                cause: RingError::OutOfMemory,
            });
        };
        let Ok(receive) = ByteQueue::with_capacity(alloc, rx_capacity) else {
            return Err(Refused {
                given: uart,
                cause: RingError::OutOfMemory,
            });
        };
        Ok(Uart16550Ring {
            uart,
            transmit,
            receive,
            line: LSR::from_bits_retain(0),
            modem: MSR::from_bits_retain(0),
            is_paused: false,
            urgent: None,
            is_held: false,
            has_told_xoff: false,
            unlooked: 0,
            low_mark: 0,
            is_low: false,
            rounds: 0,
            stuck: None,
        })
    }

    /// Returns the number of bytes in the transmit ring: those that are queued and not yet written
    /// to the chip. Makes no access.
    ///
    /// # Examples
    ///
    /// ```
    /// # include!(concat!(env!("CARGO_MANIFEST_DIR"), "/examples.rs"));
    /// # fn main() {}
    /// # use facade::ring;
    /// # fn example(ring: &mut ring::Uart16550Ring<Device>) -> Outcome<()> {
    /// assert_eq!(ring.transmit_len(), 0);
    /// # Ok(()) }
    /// ```
    ///
    /// # Proved
    ///
    /// - *len*: returns `length (ring_fields self.now).transmit.items`.
    ///   - [`ring_fields`](crate::proved::ring#ring_fields): what these rings hold beside their backend.
    /// - *within*: `result ≤ (ring_fields self.now).transmit.capacity`.
    ///
    /// <details><summary>The clauses</summary>
    ///
    /// [How to read them](uart_spec::proved):
    ///
    /// ```text
    /// ensures len { result ≡ length (ring_fields self.now).transmit.items }
    /// ensures within { result ≤ (ring_fields self.now).transmit.capacity }
    /// ```
    ///
    /// </details>
    #[must_use]
    pub fn transmit_len(&self) -> usize {
        self.transmit.len()
    }

    /// Returns the bytes of the transmit ring, the oldest first, in two parts. An urgent byte is
    /// not among them. Makes no access.
    ///
    /// # Examples
    ///
    /// ```
    /// # include!(concat!(env!("CARGO_MANIFEST_DIR"), "/examples.rs"));
    /// # fn main() {}
    /// # use facade::ring;
    /// # fn example(ring: &mut ring::Uart16550Ring<Device>) -> Outcome<()> {
    /// let (first, second) = ring.queued();
    /// # Ok(()) }
    /// ```
    ///
    /// # Proved
    ///
    /// - `result.0.now ++ result.1.now ≡ (ring_fields self.now).transmit.items`.
    ///   - [`ring_fields`](crate::proved::ring#ring_fields): what these rings hold beside their backend.
    ///
    /// <details><summary>The clauses</summary>
    ///
    /// [How to read them](uart_spec::proved):
    ///
    /// ```text
    /// ensures { result.0.now ++ result.1.now ≡ (ring_fields self.now).transmit.items }
    /// ```
    ///
    /// </details>
    #[must_use]
    pub fn queued(&self) -> (&[u8], &[u8]) {
        self.transmit.as_slices()
    }

    /// Returns how many more bytes the transmit ring has room for. Makes no access.
    ///
    /// # Examples
    ///
    /// ```
    /// # include!(concat!(env!("CARGO_MANIFEST_DIR"), "/examples.rs"));
    /// # fn main() {}
    /// # use facade::ring;
    /// # fn example(ring: &mut ring::Uart16550Ring<Device>) -> Outcome<()> {
    /// assert_eq!(ring.transmit_room(), 1024);
    /// # Ok(()) }
    /// ```
    ///
    /// # Proved
    ///
    /// - Returns [`free`](crate::proved::ring#free) `(ring_fields self.now).transmit`: how many more bytes a ring has room for.
    ///   - [`ring_fields`](crate::proved::ring#ring_fields): what these rings hold beside their backend.
    ///
    /// <details><summary>The clauses</summary>
    ///
    /// [How to read them](uart_spec::proved):
    ///
    /// ```text
    /// ensures { result ≡ free (ring_fields self.now).transmit }
    /// ```
    ///
    /// </details>
    #[must_use]
    pub fn transmit_room(&self) -> usize {
        self.transmit.capacity() - self.transmit.len()
    }

    /// Returns the urgent byte that still waits to be sent. Makes no access.
    ///
    /// # Examples
    ///
    /// ```
    /// # include!(concat!(env!("CARGO_MANIFEST_DIR"), "/examples.rs"));
    /// # fn main() {}
    /// # use facade::ring;
    /// # fn example(ring: &mut ring::Uart16550Ring<Device>) -> Outcome<()> {
    /// assert_eq!(ring.urgent(), None);
    /// # Ok(()) }
    /// ```
    ///
    /// # Proved
    ///
    /// - Returns `(ring_fields self.now).urgent`.
    ///   - [`ring_fields`](crate::proved::ring#ring_fields): what these rings hold beside their backend.
    ///
    /// <details><summary>The clauses</summary>
    ///
    /// [How to read them](uart_spec::proved):
    ///
    /// ```text
    /// ensures { result ≡ (ring_fields self.now).urgent }
    /// ```
    ///
    /// </details>
    #[must_use]
    pub fn urgent(&self) -> Option<u8> {
        self.urgent
    }

    /// Returns whether the transmit ring is held. Makes no access.
    ///
    /// # Examples
    ///
    /// ```
    /// # include!(concat!(env!("CARGO_MANIFEST_DIR"), "/examples.rs"));
    /// # fn main() {}
    /// # use facade::ring;
    /// # fn example(ring: &mut ring::Uart16550Ring<Device>) -> Outcome<()> {
    /// assert!(ring.is_held());
    /// # Ok(()) }
    /// ```
    ///
    /// # Proved
    ///
    /// - Returns `(ring_fields self.now).is_held`.
    ///   - [`ring_fields`](crate::proved::ring#ring_fields): what these rings hold beside their backend.
    ///
    /// <details><summary>The clauses</summary>
    ///
    /// [How to read them](uart_spec::proved):
    ///
    /// ```text
    /// ensures { result ≡ (ring_fields self.now).is_held }
    /// ```
    ///
    /// </details>
    #[must_use]
    pub fn is_held(&self) -> bool {
        self.is_held
    }

    /// Returns why the chip is stuck, or `None` if it is not: `try_handle` has disabled its
    /// interrupts since the last `restart`. Makes no access.
    ///
    /// # Examples
    ///
    /// ```
    /// # include!(concat!(env!("CARGO_MANIFEST_DIR"), "/examples.rs"));
    /// # fn main() {}
    /// # use facade::ring;
    /// # fn example(ring: &mut ring::Uart16550Ring<Device>) -> Outcome<()> {
    /// assert_eq!(ring.stuck(), None);
    /// # Ok(()) }
    /// ```
    ///
    /// # Proved
    ///
    /// - Returns `(ring_fields self.now).stuck`.
    ///   - [`ring_fields`](crate::proved::ring#ring_fields): what these rings hold beside their backend.
    ///
    /// <details><summary>The clauses</summary>
    ///
    /// [How to read them](uart_spec::proved):
    ///
    /// ```text
    /// ensures { result ≡ (ring_fields self.now).stuck }
    /// ```
    ///
    /// </details>
    #[must_use]
    pub fn stuck(&self) -> Option<StuckError> {
        self.stuck
    }

    /// Returns the number of bytes in the receive ring: those that were received and not yet taken.
    /// Makes no access.
    ///
    /// # Examples
    ///
    /// ```
    /// # include!(concat!(env!("CARGO_MANIFEST_DIR"), "/examples.rs"));
    /// # fn main() {}
    /// # use facade::ring;
    /// # fn example(ring: &mut ring::Uart16550Ring<Device>) -> Outcome<()> {
    /// assert_eq!(ring.receive_len(), 2);
    /// # Ok(()) }
    /// ```
    ///
    /// # Proved
    ///
    /// - *len*: returns `length (ring_fields self.now).receive.items`.
    ///   - [`ring_fields`](crate::proved::ring#ring_fields): what these rings hold beside their backend.
    /// - *within*: `result ≤ (ring_fields self.now).receive.capacity`.
    ///
    /// <details><summary>The clauses</summary>
    ///
    /// [How to read them](uart_spec::proved):
    ///
    /// ```text
    /// ensures len { result ≡ length (ring_fields self.now).receive.items }
    /// ensures within { result ≤ (ring_fields self.now).receive.capacity }
    /// ```
    ///
    /// </details>
    #[must_use]
    pub fn receive_len(&self) -> usize {
        self.receive.len()
    }

    /// Returns whether receiving is paused because the receive ring was full. Makes no access.
    ///
    /// During a pause `DATA_READY` is disabled and received bytes stay in the chip, which loses
    /// some if there are more than it has room for. The next `take` of at least one byte ends the
    /// pause.
    ///
    /// # Examples
    ///
    /// ```
    /// # include!(concat!(env!("CARGO_MANIFEST_DIR"), "/examples.rs"));
    /// # fn main() {}
    /// # use facade::ring;
    /// # fn example(ring: &mut ring::Uart16550Ring<Device>) -> Outcome<()> {
    /// assert!(ring.is_paused());
    /// # Ok(()) }
    /// ```
    ///
    /// # Proved
    ///
    /// - Returns `(ring_fields self.now).is_paused`.
    ///   - [`ring_fields`](crate::proved::ring#ring_fields): what these rings hold beside their backend.
    ///
    /// <details><summary>The clauses</summary>
    ///
    /// [How to read them](uart_spec::proved):
    ///
    /// ```text
    /// ensures { result ≡ (ring_fields self.now).is_paused }
    /// ```
    ///
    /// </details>
    #[must_use]
    pub fn is_paused(&self) -> bool {
        self.is_paused
    }

    /// Returns the driver. Makes no access.
    ///
    /// # Examples
    ///
    /// ```
    /// # include!(concat!(env!("CARGO_MANIFEST_DIR"), "/examples.rs"));
    /// # fn main() {}
    /// # use facade::ring;
    /// # trait Mark { fn mark(&self, _: u8) -> u8 { 0 } }
    /// # impl Mark for Device {}
    /// # fn example(ring: &mut ring::Uart16550Ring<Device>, arrival: u8) -> u8 {
    /// ring.inner().backend().mark(arrival)
    /// # }
    /// ```
    ///
    /// # Proved
    ///
    /// - Returns [`driver_of`](crate::proved::ring#driver_of) `self.now`: the driver under the rings.
    ///
    /// <details><summary>The clauses</summary>
    ///
    /// [How to read them](uart_spec::proved):
    ///
    /// ```text
    /// ensures { result.now ≡ driver_of self.now }
    /// ```
    ///
    /// </details>
    #[must_use]
    pub fn inner(&self) -> &Uart16550<B> {
        &self.uart
    }

    /// Returns the driver, for calls that the rings do not have, such as `init` and
    /// `enable_interrupts`. Makes no access itself.
    ///
    /// Bytes that such a call sends or receives bypass the rings. The rings change two bits of IER:
    /// `THR_EMPTY`, and `DATA_READY` while receiving is paused. Do not change these two.
    ///
    /// These calls may take away the interrupt on which bytes in the transmit ring wait, and then
    /// the bytes wait for ever. Call `resume_transmit` after
    ///
    /// - `isr`, `config_register_dump` and `attach`, which read ISR: that acknowledges the
    ///   interrupt. The rings have a `config_register_dump` of their own, which needs nothing;
    /// - `disable_interrupts` of `THR_EMPTY`;
    /// - `init`, `init_with`, `restore`, `quiesce` and `test_loopback`, which set the port up, test
    ///   it or leave it, and `checked_init` and `checked_init_with`, which are an `init` and an
    ///   `init_with`.
    ///
    /// After every other call the interrupt is still to come, if DLAB and loopback are off.
    ///
    /// # Examples
    ///
    /// ```
    /// # include!(concat!(env!("CARGO_MANIFEST_DIR"), "/examples.rs"));
    /// # fn main() {}
    /// # use facade::ring::*;
    /// # enum StartError { NoDevice(InitError) }
    /// # struct Port { ring: Uart16550Ring<Device>, overruns: u32, bad_characters: u32 }
    /// # fn example(mut ring: Uart16550Ring<Device>, config: Config) -> Result<Port, StartError> {
    /// match ring.inner_mut().init(config) {
    ///     Ok(()) => Ok(Port {
    ///         ring,
    ///         overruns: 0,
    ///         bad_characters: 0,
    ///     }),
    ///     Err(cause) => Err(StartError::NoDevice(cause)),
    /// }
    /// # }
    /// ```
    ///
    /// # Proved
    ///
    /// - *writes_back*: lends a part of it: what is changed there is changed here, and nothing else.
    /// - *value*: returns [`driver_of`](crate::proved::ring#driver_of) `self.old`: the driver under the rings.
    ///
    /// <details><summary>The clauses</summary>
    ///
    /// [How to read them](uart_spec::proved):
    ///
    /// ```text
    /// ensures* writes_back { sem 𝓛 (Lends (the_row B.row) (driver_row B.row) self.entry result (λ uart. record self.old { uart = uart })) }
    /// ensures value { result.now ≡ driver_of self.old }
    /// ```
    ///
    /// </details>
    pub fn inner_mut(&mut self) -> &mut Uart16550<B> {
        &mut self.uart
    }

    /// Returns the driver. Drops the rings with their bytes, and what was noted of LSR and MSR.
    /// Makes no access.
    ///
    /// # Examples
    ///
    /// ```
    /// # include!(concat!(env!("CARGO_MANIFEST_DIR"), "/examples.rs"));
    /// # fn main() {}
    /// # use facade::ring;
    /// # fn example(ring: ring::Uart16550Ring<Device>) -> Outcome<()> {
    /// let uart = ring.into_inner();
    /// # Ok(()) }
    /// ```
    ///
    /// # Proved
    ///
    /// - Returns [`driver_of`](crate::proved::ring#driver_of) `self`: the driver under the rings.
    ///
    /// <details><summary>The clauses</summary>
    ///
    /// [How to read them](uart_spec::proved):
    ///
    /// ```text
    /// ensures { result ≡ driver_of self }
    /// ```
    ///
    /// </details>
    #[must_use]
    pub fn into_inner(self) -> Uart16550<B> {
        self.uart
    }
}
