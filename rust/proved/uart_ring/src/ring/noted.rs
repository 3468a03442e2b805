//! From the receive ring to the caller, each byte with the errors that are noted of it.

use super::Uart16550Ring;
use crate::notes::{ErrorNotes, UnnotedError};
use crate::queue::ByteQueue;
use bitflags::Flags;
use uart_16550::backend::Backend;
use uart_spec::Received;
use uart_spec::registers::LSR;

// Copies the first bytes with the errors that are noted of them to the slots, as many as both have,
// and returns how many. More may be noted before the first byte.
fn copy_with_errors(bytes: &ByteQueue, noted: &ByteQueue, slots: &mut [Received]) -> usize {
    let before = noted.len() - bytes.len();
    for (place, slot) in slots.iter_mut().enumerate() {
        if place == bytes.len() {
            return place;
        }
        let byte = bytes.byte_at(place);
        let errors = LSR::from_bits_retain(noted.byte_at(before + place));
        *slot = Received { byte, errors };
    }
    slots.len()
}

// Copies the first bytes with the errors that are noted of them, as many as there are slots, and
// returns how many, unless fewer errors are noted than there are bytes.
fn copy_noted(
    bytes: &ByteQueue,
    noted: &ByteQueue,
    slots: &mut [Received],
) -> Result<usize, UnnotedError> {
    // Without this, errors would stand at other bytes, and nobody could tell.
    if noted.len() < bytes.len() {
        return Err(UnnotedError {
            bytes: bytes.len() - noted.len(),
        });
    }
    Ok(copy_with_errors(bytes, noted, slots))
}

impl<B: Backend> Uart16550Ring<B> {
    /// Copies received bytes from the front of the receive ring, each with the errors that these
    /// notes have of it, as many as there are slots, and returns how many. Takes none of them, and
    /// leaves the other slots unchanged.
    ///
    /// It is for a backend that reaches the notes somewhere else, as through a pointer. What
    /// [`take_with_errors`](Self::take_with_errors) does, this and a `take` of so many bytes do.
    /// The notes are those that each access of the driver goes through; others tell of other bytes.
    ///
    /// # Errors
    ///
    /// `UnnotedError` if fewer errors are noted than bytes are in the receive ring. Then nothing is
    /// copied.
    ///
    /// # Examples
    ///
    /// ```
    /// # include!(concat!(env!("CARGO_MANIFEST_DIR"), "/examples.rs"));
    /// # fn main() {}
    /// # use facade::{native::Received, ring};
    /// # fn example(ring: &ring::Uart16550Ring<Device>, notes: &ring::ErrorNotes<Device>, mut slots: [Received; 2]) -> Outcome<()> {
    /// let count = ring.copy_with_notes(notes, &mut slots)?;
    /// # Ok(()) }
    /// ```
    ///
    /// # Proved
    ///
    /// - *count*: if it returns `Ok count`: `count` is `min (length slots.old) (length (ring_fields self.now).receive.items)`.
    ///   - [`ring_fields`](crate::proved::ring#ring_fields): what these rings hold beside their backend.
    /// - *bytes*: if it returns `Ok count`: what the clause beneath says.
    ///   - [`bytes_of`](crate::proved::notes#bytes_of): the bytes of what was received.
    /// - *errors*: if it returns `Ok count`: what the clause beneath says.
    ///   - [`errors_of`](crate::proved::notes#errors_of): the errors of what was received.
    ///   - [`errors_among`](crate::proved::notes#errors_among): the errors of the bytes in the receive ring: those that were noted last, as many as there are bytes.
    /// - *rest*: if it returns `Ok count`: `drop count slots.new ≡ drop count slots.old`.
    /// - *noted*: if `unnoted_among notes.now.noted.items self.now ≡ 0`: `is_ok result ≡ true`.
    ///   - [`unnoted_among`](crate::proved::notes#unnoted_among): how many bytes of the receive ring have no note among these: those at its front, if more are there than are noted.
    /// - *all_noted*: if it returns `Ok count`: `unnoted_among notes.now.noted.items self.now ≡ 0`.
    /// - *refused*: if it returns `Err error`: `0 < error.bytes`, and `error.bytes ≡ unnoted_among notes.now.noted.items self.now`, and `slots` stays as it was.
    ///
    /// <details><summary>The clauses</summary>
    ///
    /// [How to read them](uart_spec::proved):
    ///
    /// ```text
    /// ensures count { IfOk result (λ count. count ≡ min (length slots.old) (length (ring_fields self.now).receive.items)) }
    /// ensures bytes { IfOk result (λ count. bytes_of (take count slots.new) ≡ take count (ring_fields self.now).receive.items) }
    /// ensures errors { IfOk result (λ count. errors_of (take count slots.new) ≡ take count (errors_among notes.now.noted.items self.now)) }
    /// ensures rest { IfOk result (λ count. drop count slots.new ≡ drop count slots.old) }
    /// ensures noted { unnoted_among notes.now.noted.items self.now ≡ 0 → is_ok result ≡ true }
    /// ensures all_noted { IfOk result (λ count. unnoted_among notes.now.noted.items self.now ≡ 0) }
    /// ensures refused { IfErr result (λ error. (0 < error.bytes) × (error.bytes ≡ unnoted_among notes.now.noted.items self.now) × (slots.new ≡ slots.old)) }
    /// ```
    ///
    /// </details>
    pub fn copy_with_notes<N>(
        &self,
        notes: &ErrorNotes<N>,
        slots: &mut [Received],
    ) -> Result<usize, UnnotedError> {
        copy_noted(&self.receive, &notes.noted, slots)
    }

    // Drops so many bytes that were taken from the front of the receive ring.
    pub(crate) fn drop_taken(&mut self, count: usize) {
        self.receive.drop_front(count);
        self.end_pause(count);
    }
}

impl<B: Backend> Uart16550Ring<ErrorNotes<B>> {
    /// Takes received bytes from the front of the receive ring, each with its errors, as many as
    /// there are slots, and returns how many. Leaves the other slots unchanged.
    ///
    /// It is a `take`, and makes the accesses of one. `take` and `clear_receive` may be called in
    /// between.
    ///
    /// With the FIFO on, the parity error, the framing error and the break of a byte are exactly
    /// those of its character. An overrun tells that a character was lost, and on which side of the
    /// byte: right behind as many characters from this byte on as the FIFO holds, or one fewer, so
    /// with a FIFO of 16 behind the 15th or the 16th. They are counted through the bytes of the
    /// receive ring and then those in the chip. Without a FIFO, a character that comes between the
    /// look and the read of its byte replaces the one that was shown.
    ///
    /// Over the software chip with its FIFO on this is proved, after any calls of the rings
    /// themselves. It begins with the first look at LSR since the notes were made or the receiver
    /// was reset, as an `init` makes it: an overrun of before is at no byte, and `take_line` alone
    /// tells of it.
    ///
    /// A call of the driver that receives, through `inner_mut`, passes the receive ring by, and its
    /// bytes are the last that were read. So make it only while the receive ring is empty; else
    /// errors stand at the wrong bytes until all bytes of the ring are taken.
    ///
    /// # Errors
    ///
    /// `UnnotedError` if fewer errors are noted than bytes are in the receive ring: the notes have
    /// room for fewer, or were made later. Then nothing is done.
    ///
    /// # Examples
    ///
    /// ```
    /// # include!(concat!(env!("CARGO_MANIFEST_DIR"), "/examples.rs"));
    /// # fn main() {}
    /// # use facade::{native::Received, ring, spec::registers::LSR};
    /// # fn example(ring: &mut ring::Uart16550Ring<ring::ErrorNotes<Device>>, mut slots: [Received; 2], mut breaks: u32) -> Outcome<()> {
    /// let count = ring.take_with_errors(&mut slots)?;
    /// for received in &slots[..count] {
    ///     if received.errors.contains(LSR::BREAK_INTERRUPT) {
    ///         breaks += 1;
    ///     }
    /// }
    /// # Ok(()) }
    /// ```
    ///
    /// # Proved
    ///
    /// - *did*: if it returns `Ok count`: [does as](crate::proved::ring#RingDid) [`TakesBytes`](crate::proved::receive#TakesBytes) `(length slots.old) (bytes_of (take count slots.new))`: the bytes are from the front of the receive ring, as many as there are slots and bytes; if there are any, a pause of receiving ends.
    ///   - [`bytes_of`](crate::proved::notes#bytes_of): the bytes of what was received.
    /// - *count*: if it returns `Ok count`: `count` is `min (length slots.old) (length (ring_fields self.old).receive.items)`.
    ///   - [`ring_fields`](crate::proved::ring#ring_fields): what these rings hold beside their backend.
    /// - *errors*: if it returns `Ok count`: `errors_of (take count slots.new) ≡ take count (errors_in self.old)`.
    ///   - [`errors_of`](crate::proved::notes#errors_of): the errors of what was received.
    ///   - [`errors_in`](crate::proved::notes#errors_in): the errors of the bytes in the receive ring, as the backend has noted them.
    /// - *rest*: if it returns `Ok count`: `drop count slots.new ≡ drop count slots.old`.
    /// - *noted*: if `unnoted_in self.old ≡ 0`: `is_ok result ≡ true`.
    ///   - [`unnoted_in`](crate::proved::notes#unnoted_in): how many bytes of the receive ring have no note in the backend.
    /// - *all_noted*: if it returns `Ok count`: `unnoted_in self.old ≡ 0`.
    /// - *refused*: if it returns `Err error`: `0 < error.bytes`, and `error.bytes ≡ unnoted_in self.old`, and nothing changes, and `slots` stays as it was.
    ///
    /// <details><summary>The clauses</summary>
    ///
    /// [How to read them](uart_spec::proved):
    ///
    /// ```text
    /// ensures did { IfOk result (λ count. RingDid (NotesErrors B.step) (TakesBytes (length slots.old) (bytes_of (take count slots.new))) self.old self.new) }
    /// ensures count { IfOk result (λ count. count ≡ min (length slots.old) (length (ring_fields self.old).receive.items)) }
    /// ensures errors { IfOk result (λ count. errors_of (take count slots.new) ≡ take count (errors_in self.old)) }
    /// ensures rest { IfOk result (λ count. drop count slots.new ≡ drop count slots.old) }
    /// ensures noted { unnoted_in self.old ≡ 0 → is_ok result ≡ true }
    /// ensures all_noted { IfOk result (λ count. unnoted_in self.old ≡ 0) }
    /// ensures refused { IfErr result (λ error. (0 < error.bytes) × (error.bytes ≡ unnoted_in self.old) × (self.new ≡ self.old) × (slots.new ≡ slots.old)) }
    /// ```
    ///
    /// </details>
    pub fn take_with_errors(&mut self, slots: &mut [Received]) -> Result<usize, UnnotedError> {
        let noted = &self.uart.backend().noted;
        let count = copy_noted(&self.receive, noted, slots)?;
        self.drop_taken(count);
        Ok(count)
    }
}
