//! Which errors each received byte came with: a backend that notes them beside the rings.

use crate::queue::ByteQueue;
use crate::refused::Refused;
use crate::ring::{RingError, is_capacity};
use bitflags::Flags;
use std::alloc::Global;
use uart_16550::backend::Backend;
use uart_spec::registers::{FCR, LCR, LSR, offsets};

/// Why no bytes were taken with their errors: more bytes are in the receive ring than errors are
/// noted.
///
/// That is so if the notes have room for fewer bytes than the receive ring, or were made later.
#[derive(Clone, Copy, Debug, PartialEq, Eq)]
pub struct UnnotedError {
    /// So many bytes at the front of the receive ring have no note. `take` takes them.
    pub bytes: usize,
}

#[automatically_derived]
impl std::fmt::Display for UnnotedError {
    fn fmt(&self, f: &mut std::fmt::Formatter<'_>) -> std::fmt::Result {
        match self {
            Self { bytes } => {
                ({
                    (f.write_fmt(format_args!(
                        "the first {bytes} bytes of the receive ring have no note of their errors"
                    )))
                })
            }
        }
    }
}

#[automatically_derived]
impl std::error::Error for UnnotedError {}

/// A backend that notes the errors of each received byte, for
/// [`Uart16550Ring::take_with_errors`](crate::Uart16550Ring::take_with_errors).
///
/// It makes each access that it is asked for over the backend under it, and no other. Rings without
/// it cost what they cost before; with it they take one byte of memory more for each byte of the
/// receive ring.
///
/// LSR shows the errors of the character that is the next to be read, once, to whoever looks: to
/// the handler that serves a line status interrupt, to a pump that looks for room, to a
/// `take_line`. So the errors of a byte are all that LSR has shown since the byte before it was
/// read, and this backend sees each look. Only an overrun that the first look shows, since the
/// notes were made or the receiver was reset, is of no byte: it may be of before.
///
/// # Examples
///
/// ```
/// # include!(concat!(env!("CARGO_MANIFEST_DIR"), "/examples.rs"));
/// # fn main() {}
/// # use facade::ring::*;
/// # fn example(alloc: Global, backend: Device) -> Result<(), RingError> {
/// let noting = ErrorNotes::new(alloc, backend, 256)?;
/// let uart = Uart16550::new_with_backend(noting);
/// # Ok(()) }
/// ```
pub struct ErrorNotes<B> {
    pub(crate) backend: B,
    // The errors of the bytes that were read last. Those of the bytes in the receive ring are the
    // last ones of them, so a `take` need not tell this backend what it took.
    pub(crate) noted: ByteQueue,
    // What was shown since the last byte was read.
    pub(crate) shown: LSR,
    // A dump of the registers reads the divisor latch at the offset of DATA, in the middle of what
    // waits.
    pub(crate) is_latch: bool,
    // A chip keeps an overrun of before a reset of the receiver until somebody looks, and one of
    // before the notes were made. It is at no byte that comes after.
    pub(crate) is_overrun_old: bool,
}

impl<B: Backend> ErrorNotes<B> {
    /// Returns a backend over this one, with room for the errors of so many bytes: as many as the
    /// receive ring has room for. Makes no access.
    ///
    /// Allocates its memory; nothing later allocates.
    ///
    /// # Errors
    ///
    /// - `BadCapacity` if the capacity is 0 or more than
    ///   [`MAX_CAPACITY`](crate::MAX_CAPACITY).
    /// - `OutOfMemory` if memory could not be allocated.
    ///
    /// The backend is returned with the error, unchanged.
    ///
    /// # Examples
    ///
    /// ```
    /// # include!(concat!(env!("CARGO_MANIFEST_DIR"), "/examples.rs"));
    /// # fn main() {}
    /// # use facade::ring::*;
    /// # fn example(alloc: Global, backend: Device) -> Result<(), RingError> {
    /// let noting = ErrorNotes::new(alloc, backend, 256)?;
    /// # Ok(()) }
    /// ```
    ///
    /// # Proved
    ///
    /// - *made*: if it returns `Ok notes`: [`AreNew`](crate::proved::notes#AreNew) `notes backend capacity`: notes of nothing over this backend, with room for the errors of so many bytes.
    /// - *refused*: unless [`IsCapacity`](crate::proved::ring#IsCapacity) `capacity`: returns `Err (record { given = backend; cause = RingError.BadCapacity })`.
    ///   - [`IsCapacity`](crate::proved::ring#IsCapacity): how many bytes a ring can be made for: 1 to 4096.
    /// - *accepted*: if [`IsCapacity`](crate::proved::ring#IsCapacity) `capacity`: returns `Ok`, or `Err` of `record { given = backend; cause = RingError.OutOfMemory }`.
    ///
    /// <details><summary>The clauses</summary>
    ///
    /// [How to read them](uart_spec::proved):
    ///
    /// ```text
    /// ensures made { IfOk result (λ notes. AreNew notes backend capacity) }
    /// ensures refused { (IsCapacity capacity → ⊥) → result ≡ Err (record { given = backend; cause = RingError.BadCapacity }) }
    /// ensures accepted { IsCapacity capacity → IsOkUnless result (record { given = backend; cause = RingError.OutOfMemory }) }
    /// ```
    ///
    /// </details>
    pub fn new(alloc: Global, backend: B, capacity: usize) -> Result<Self, Refused<B, RingError>> {
        if !is_capacity(capacity) {
            return Err(Refused {
                given: backend,
                cause: RingError::BadCapacity,
            });
        }
        let Ok(noted) = ByteQueue::with_capacity(alloc, capacity) else {
            return Err(Refused {
                given: backend,
                cause: RingError::OutOfMemory,
            });
        };
        Ok(ErrorNotes {
            backend,
            noted,
            shown: LSR::from_bits_retain(0),
            is_latch: false,
            is_overrun_old: true,
        })
    }

    /// Returns the backend under this one.
    ///
    /// # Examples
    ///
    /// ```
    /// # include!(concat!(env!("CARGO_MANIFEST_DIR"), "/examples.rs"));
    /// # fn main() {}
    /// # use facade::ring;
    /// # trait Mark { fn mark(&self, _: u8) -> u8 { 0 } }
    /// # impl Mark for Device {}
    /// # fn example(ring: &mut ring::Uart16550Ring<ring::ErrorNotes<Device>>, arrival: u8) -> u8 {
    /// ring.inner().backend().backend().mark(arrival)
    /// # }
    /// ```
    ///
    /// # Proved
    ///
    /// - Returns `self.now.backend`.
    ///
    /// <details><summary>The clauses</summary>
    ///
    /// [How to read them](uart_spec::proved):
    ///
    /// ```text
    /// ensures { result.now ≡ self.now.backend }
    /// ```
    ///
    /// </details>
    #[must_use]
    pub fn backend(&self) -> &B {
        &self.backend
    }

    /// Returns the backend under this one, for accesses by the caller. What such accesses show or
    /// read is not noted.
    ///
    /// # Examples
    ///
    /// ```
    /// # include!(concat!(env!("CARGO_MANIFEST_DIR"), "/examples.rs"));
    /// # fn main() {}
    /// # use facade::ring;
    /// # trait Next { fn next(&mut self) {} }
    /// # impl Next for Device {}
    /// # fn example(ring: &mut ring::Uart16550Ring<ring::ErrorNotes<Device>>) -> Outcome<()> {
    /// ring.inner_mut().backend_mut().backend_mut().next();
    /// # Ok(()) }
    /// ```
    ///
    /// # Proved
    ///
    /// - *writes_back*: lends a part of it: what is changed there is changed here, and nothing else.
    /// - *value*: returns `self.old.backend`.
    ///
    /// <details><summary>The clauses</summary>
    ///
    /// [How to read them](uart_spec::proved):
    ///
    /// ```text
    /// ensures* writes_back { sem 𝓛 (Lends (the_row B.row) B.row self.entry result (λ backend. record self.old { backend = backend })) }
    /// ensures value { result.now ≡ self.old.backend }
    /// ```
    ///
    /// </details>
    pub fn backend_mut(&mut self) -> &mut B {
        &mut self.backend
    }

    // Notes what a read showed.
    #[inline]
    fn note_read(&mut self, offset: usize, answer: u8) {
        if offset == offsets::LSR {
            let told = if self.is_overrun_old {
                LSR::CHARACTER_ERRORS
            } else {
                LSR::LINE_ERRORS
            };
            let line = LSR::from_bits_retain(answer);
            self.shown.insert(line.intersection(told));
            self.is_overrun_old = false;
        } else if offset == offsets::DATA && !self.is_latch {
            self.noted.push_last(self.shown.bits());
            self.shown = LSR::from_bits_retain(0);
        }
    }

    // Notes what a write changes.
    #[inline]
    fn note_write(&mut self, offset: usize, value: u8) {
        if offset == offsets::LCR {
            self.is_latch = LCR::from_bits_retain(value).contains(LCR::DLAB);
        } else if offset == offsets::FCR
            && FCR::from_bits_retain(value).contains(FCR::RX_FIFO_RESET)
        {
            self.shown = LSR::from_bits_retain(0);
            self.is_overrun_old = true;
        }
    }
}

impl<B: Backend> Backend for ErrorNotes<B> {
    #[inline]
    fn read(&mut self, register_offset: u8) -> u8 {
        let answer = self.backend.read(register_offset);
        self.note_read(register_offset as usize, answer);
        answer
    }

    #[inline]
    fn write(&mut self, register_offset: u8, value: u8) {
        self.backend.write(register_offset, value);
        self.note_write(register_offset as usize, value);
    }
}
