//! Definitions of `uart_waits`: who waits at shared rings for what, whose turn it is.
//!
//! Each is one that a section "Proved" of a call names. How a section is read is said [here](uart_spec::proved).

/// What is awaited, and when a wait for it ends.
///
/// From `crates/uart_waits/specs/Awaited.antt`.
///
/// <span id="IsSeenOf"></span>
///
/// # `IsSeenOf`
///
/// What is to be seen of these rings: how many bytes can be taken, how many wait to be sent, for how many more there is room, and whether the chip is stuck.
///
/// ```text
/// pub record IsSeenOf {B : Type 0} (ring : Uart16550Ring B) (seen : Seen) : Type 0 where
///   pub received : seen.received ≡ length (ring_fields ring).receive.items
///   pub queued : seen.queued ≡ length (ring_fields ring).transmit.items
///   pub room : seen.room ≡ free (ring_fields ring).transmit
///   pub stuck : seen.is_stuck ≡ is_some (ring_fields ring).stuck
/// ```
///
/// It uses [`ring_fields`](uart_ring::proved::ring#ring_fields), [`free`](uart_ring::proved::ring#free).
///
/// <span id="has"></span>
///
/// # `has`
///
/// Whether this is there.
///
/// ```text
/// abbrev pub has : Seen → Awaited → Bool
/// has seen ReceivedByte = nat_lt 0 seen.received
/// has seen TransmitRoom = nat_lt 0 seen.room
/// has seen EmptyTransmitRing = seen.queued == 0
/// ```
///
/// <span id="ends_wait"></span>
///
/// # `ends_wait`
///
/// Whether to wait for it no longer: it is there, or the chip is stuck.
///
/// ```text
/// abbrev pub ends_wait : Seen → Awaited → Bool
/// ends_wait seen awaited = has seen awaited || seen.is_stuck
/// ```
///
/// It uses [`has`](crate::proved::awaited#has).
#[doc(alias("IsSeenOf", "has", "ends_wait"))]
pub mod awaited {}

/// Tasks in their places, and sections one after another.
///
/// From `crates/uart_waits/specs/Waits.antt`.
///
/// <span id="receive_of"></span>
///
/// # `receive_of`
///
/// Who waits for received bytes.
///
/// ```text
/// abbrev pub receive_of : {W : Type 0} → Waits W → Option (Waiter W)
/// receive_of w = w.receive
/// ```
///
/// <span id="transmit_of"></span>
///
/// # `transmit_of`
///
/// Who waits at the transmit ring.
///
/// ```text
/// abbrev pub transmit_of : {W : Type 0} → Waits W → Option (Waiter W)
/// transmit_of w = w.transmit
/// ```
///
/// <span id="Registers"></span>
///
/// # `Registers`
///
/// A task is registered: it came into the place for what it awaits, and the one that was there is returned.
///
/// ```text
/// abbrev pub Registers : {W : Type 0} → Waiter W → Option (Waiter W) → Waits W → Waits W → Type 0
/// Registers waiter result old new = IsPut waiter.awaited waiter result old new
/// ```
///
/// It uses `IsPut` of this file.
///
/// <span id="Takes"></span>
///
/// # `Takes`
///
/// Those whose turn it is are taken out, and the others stay.
///
/// ```text
/// pub record Takes {W : Type 0} (seen : Option Seen) (result : Due W) (old new : Waits W) : Type 0 where
///   pub receive : result.receive ≡ due_of seen old.receive
///   pub transmit : result.transmit ≡ due_of seen old.transmit
///   pub receive_left : new.receive ≡ left_of seen old.receive
///   pub transmit_left : new.transmit ≡ left_of seen old.transmit
/// ```
///
/// It uses `due_of`, `left_of` of this file.
#[doc(alias("receive_of", "transmit_of", "Registers", "Takes"))]
pub mod waits {}

/// Whether shared rings are in use, and that no handler is forgotten which came meanwhile.
///
/// From `crates/uart_waits/specs/Occupancy.antt`.
///
/// <span id="entered"></span>
///
/// # `entered`
///
/// Somebody came: who comes while the rings are taken is refused, and a handler leaves a mark; a handler that is let in takes the mark.
///
/// ```text
/// abbrev pub entered : (is_handler : Bool) → Occupancy → Occupancy
/// entered is_handler o = record {
///   is_taken = true;
///   is_owed = if o.is_taken then (o.is_owed || is_handler) else (o.is_owed && not is_handler);
/// }
/// ```
///
/// <span id="left"></span>
///
/// # `left`
///
/// Who uses the rings is done: they are free, unless there is a mark, which goes.
///
/// ```text
/// abbrev pub left : Occupancy → Occupancy
/// left o = record { is_taken = o.is_owed; is_owed = false }
/// ```
///
/// <span id="abandoned"></span>
///
/// # `abandoned`
///
/// Who uses the rings went in the middle: they are free, and a mark stays.
///
/// ```text
/// abbrev pub abandoned : Occupancy → Occupancy
/// abandoned o = record { is_taken = false; is_owed = o.is_owed }
/// ```
#[doc(alias("entered", "left", "abandoned"))]
pub mod occupancy {}
