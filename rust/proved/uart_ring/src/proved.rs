//! Definitions of `uart_ring`: transmit rings with receive rings over the driver, to be served by interrupts.
//!
//! Each is one that a section "Proved" of a call names. How a section is read is said [here](uart_spec::proved).

/// A queue of bytes in cells whose number is fixed.
///
/// From `crates/uart_ring/specs/Queue.antt`.
///
/// <span id="queue"></span>
///
/// # `queue`
///
/// A queue of these bytes, in which there may be so many.
///
/// ```text
/// abbrev pub queue : List ℕ → ℕ → Queue
/// queue items capacity = record { items = items; capacity = capacity }
/// ```
///
/// It uses `Queue` of this file.
///
/// <span id="with_latest"></span>
///
/// # `with_latest`
///
/// The queue with one more at its end; if there is no room for it, the first one makes way.
///
/// ```text
/// abbrev pub with_latest : ℕ → Queue → Queue
/// with_latest item ring = queue (latest ring.capacity (ring.items ++ item ∷ [])) ring.capacity
/// ```
///
/// It uses [`queue`](crate::proved::queue#queue); `Queue`, `latest` of this file.
#[doc(alias("with_latest"))]
pub mod queue {}

/// The rings over a driver: their contents, and what a ring call does to them and to the backend.
///
/// From `crates/uart_ring/specs/Ring.antt`.
///
/// <span id="IsCapacity"></span>
///
/// # `IsCapacity`
///
/// How many bytes a ring can be made for: 1 to 4096.
///
/// ```text
/// abbrev pub IsCapacity : ℕ → Type 0
/// IsCapacity capacity = (1 ≤ capacity) × (capacity ≤ MAX_CAPACITY)
/// ```
///
/// <span id="free"></span>
///
/// # `free`
///
/// How many more bytes a ring has room for.
///
/// ```text
/// abbrev pub free : Queue → ℕ
/// free ring = ring.capacity - length ring.items
/// ```
///
/// It uses `Queue` of `crates/uart_ring/specs/Queue.antt`.
///
/// <span id="driver_of"></span>
///
/// # `driver_of`
///
/// The driver under the rings.
///
/// ```text
/// abbrev pub driver_of : {B : Type 0} → Uart16550Ring B → Uart16550 B
/// driver_of r = r.uart
/// ```
///
/// <span id="ring_fields"></span>
///
/// # `ring_fields`
///
/// What these rings hold beside their backend.
///
/// ```text
/// abbrev pub ring_fields : {B : Type 0} → Uart16550Ring B → RingFields
/// ring_fields r = record {
///   driver = fields r.uart;
///   transmit = r.transmit;
///   receive = r.receive;
///   line = r.line.0;
///   modem = r.modem.0;
///   is_paused = r.is_paused;
///   urgent = r.urgent;
///   is_held = r.is_held;
///   has_told_xoff = r.has_told_xoff;
///   unlooked = r.unlooked;
///   low_mark = r.low_mark;
///   is_low = r.is_low;
///   rounds = r.rounds;
///   stuck = r.stuck;
/// }
/// ```
///
/// It uses [`fields`](uart_16550::proved::driver#fields); `RingFields` of this file.
///
/// <span id="AreEmpty"></span>
///
/// # `AreEmpty`
///
/// Empty rings of these capacities over this driver, in which nothing is held, paused or stuck, and XOFF was never told.
///
/// ```text
/// pub record AreEmpty {B : Type 0} (r : Uart16550Ring B) (driver : Uart16550 B) (transmit receive : ℕ) : Type 0 where
///   pub uart : driver_of r ≡ driver
///   pub begins : ring_fields r ≡ record {
///     driver = fields driver;
///     transmit = queue [] transmit;
///     receive = queue [] receive;
///     line = 0;
///     modem = 0;
///     is_paused = false;
///     urgent = None;
///     is_held = false;
///     has_told_xoff = false;
///     unlooked = 0;
///     low_mark = 0;
///     is_low = false;
///     rounds = 0;
///     stuck = None;
///   }
/// ```
///
/// It uses [`driver_of`](crate::proved::ring#driver_of), [`ring_fields`](crate::proved::ring#ring_fields), [`fields`](uart_16550::proved::driver#fields), [`queue`](crate::proved::queue#queue).
///
/// <span id="RingDid"></span>
///
/// # `RingDid`
///
/// The ring call did this, on a path of the backend's steps.
///
/// ```text
/// pub record RingDid {B : Type 0} (step : B → Access → B → Type 0) (G : RingDoing)
///     (old new : Uart16550Ring B) : Type 0 where
///   pub list : List Access
///   pub path : Path step (ring_backend_of old) list (ring_backend_of new)
///   pub does : G (ring_fields old) list (ring_fields new)
/// ```
///
/// It uses [`ring_fields`](crate::proved::ring#ring_fields); `RingDoing`, `ring_backend_of` of this file; `Path` of `crates/uart_spec/specs/Access.antt`.
#[doc(alias("IsCapacity", "free", "driver_of", "ring_fields", "AreEmpty", "RingDid"))]
pub mod ring {}

/// The errors of received bytes, as a backend notes them beside the rings.
///
/// From `crates/uart_ring/specs/Notes.antt`.
///
/// <span id="NotesErrors"></span>
///
/// # `NotesErrors`
///
/// The access is made, and noted.
///
/// ```text
/// pub record NotesErrors {B : Type 0} (step : B → Access → B → Type 0) (old : ErrorNotes B) (access : Access)
///     (new : ErrorNotes B) : Type 0 where
///   pub made : step old.backend access new.backend
///   pub noted : notes_of new ≡ with_access access (notes_of old)
/// ```
///
/// It uses `notes_of`, `with_access` of this file.
///
/// <span id="AreNew"></span>
///
/// # `AreNew`
///
/// Notes of nothing over this backend, with room for the errors of so many bytes.
///
/// ```text
/// abbrev pub AreNew : {B : Type 0} → ErrorNotes B → B → ℕ → Type 0
/// AreNew n backend capacity =
///     (n.backend ≡ backend)
///     × (notes_of n ≡ record { noted = queue [] capacity; shown = 0; is_latch = false; is_overrun_old = true })
/// ```
///
/// It uses [`queue`](crate::proved::queue#queue); `notes_of` of this file.
///
/// <span id="unnoted_among"></span>
///
/// # `unnoted_among`
///
/// How many bytes of the receive ring have no note among these: those at its front, if more are there than are noted.
///
/// ```text
/// abbrev pub unnoted_among : {B : Type 0} → List ℕ → Uart16550Ring B → ℕ
/// unnoted_among noted r = length (ring_fields r).receive.items - length noted
/// ```
///
/// It uses [`ring_fields`](crate::proved::ring#ring_fields).
///
/// <span id="errors_among"></span>
///
/// # `errors_among`
///
/// The errors of the bytes in the receive ring: those that were noted last, as many as there are bytes.
///
/// ```text
/// abbrev pub errors_among : {B : Type 0} → List ℕ → Uart16550Ring B → List ℕ
/// errors_among noted r = latest (length (ring_fields r).receive.items) noted
/// ```
///
/// It uses [`ring_fields`](crate::proved::ring#ring_fields); `latest` of `crates/uart_ring/specs/Queue.antt`.
///
/// <span id="unnoted_in"></span>
///
/// # `unnoted_in`
///
/// How many bytes of the receive ring have no note in the backend.
///
/// ```text
/// abbrev pub unnoted_in : {B : Type 0} → Uart16550Ring (ErrorNotes B) → ℕ
/// unnoted_in r = unnoted_among (noted_in r) r
/// ```
///
/// It uses [`unnoted_among`](crate::proved::notes#unnoted_among); `noted_in` of this file.
///
/// <span id="errors_in"></span>
///
/// # `errors_in`
///
/// The errors of the bytes in the receive ring, as the backend has noted them.
///
/// ```text
/// abbrev pub errors_in : {B : Type 0} → Uart16550Ring (ErrorNotes B) → List ℕ
/// errors_in r = errors_among (noted_in r) r
/// ```
///
/// It uses [`errors_among`](crate::proved::notes#errors_among); `noted_in` of this file.
///
/// <span id="bytes_of"></span>
///
/// # `bytes_of`
///
/// The bytes of what was received.
///
/// ```text
/// abbrev pub bytes_of : List Received → List ℕ
/// bytes_of items = map (λ (received : Received). received.byte) items
/// ```
///
/// <span id="errors_of"></span>
///
/// # `errors_of`
///
/// The errors of what was received.
///
/// ```text
/// abbrev pub errors_of : List Received → List ℕ
/// errors_of items = map (λ (received : Received). received.errors.0) items
/// ```
#[doc(alias("NotesErrors", "AreNew", "unnoted_among", "errors_among", "unnoted_in", "errors_in", "bytes_of", "errors_of"))]
pub mod notes {}

/// From the transmit ring to the chip.
///
/// From `crates/uart_ring/specs/Transmit.antt`.
///
/// <span id="Queues"></span>
///
/// # `Queues`
///
/// `queue`: bytes from the front of the input are added at the end of the transmit ring, as many as it has room for; if there are any, what the chip takes at once is sent.
///
/// ```text
/// abbrev pub Queues : List ℕ → ℕ → RingDoing
/// Queues bytes count f l after =
///     (count ≡ min (length bytes) (free f.transmit)) × IfAny count Pumps (with_queued (take count bytes) f) l after
/// ```
///
/// It uses [`free`](crate::proved::ring#free); `RingDoing`, `IfAny`, `with_queued` of `crates/uart_ring/specs/Ring.antt`; `Pumps` of this file.
///
/// <span id="ResumesTransmit"></span>
///
/// # `ResumesTransmit`
///
/// `resume_transmit`: if bytes wait, what the chip takes at once is sent, and THR\_EMPTY is enabled if some are left, else disabled.
///
/// ```text
/// abbrev pub ResumesTransmit : RingDoing
/// ResumesTransmit f l after = IfAny (length (waiting f)) Pumps f l after
/// ```
///
/// It uses `RingDoing`, `IfAny`, `waiting` of `crates/uart_ring/specs/Ring.antt`; `Pumps` of this file.
///
/// <span id="Holds"></span>
///
/// # `Holds`
///
/// `hold_transmit`: the ring is held, and no access is made.
///
/// ```text
/// abbrev pub Holds : RingDoing
/// Holds = RingSets (with_hold true)
/// ```
///
/// It uses `RingDoing`, `RingSets`, `with_hold` of `crates/uart_ring/specs/Ring.antt`.
///
/// <span id="Releases"></span>
///
/// # `Releases`
///
/// `release_transmit`: the ring is no longer held, and sending resumes.
///
/// ```text
/// abbrev pub Releases : RingDoing
/// Releases f l after = ResumesTransmit (with_hold false f) l after
/// ```
///
/// It uses [`ResumesTransmit`](crate::proved::transmit#ResumesTransmit); `RingDoing`, `with_hold` of `crates/uart_ring/specs/Ring.antt`.
///
/// <span id="QueuesUrgent"></span>
///
/// # `QueuesUrgent`
///
/// `queue_urgent`: the byte is the urgent one, in place of one that waited, which is returned; and what the chip takes at once is sent.
///
/// ```text
/// abbrev pub QueuesUrgent : ℕ → Option ℕ → RingDoing
/// QueuesUrgent byte replaced f l after = (replaced ≡ f.urgent) × Pumps (with_urgent (Some byte) f) l after
/// ```
///
/// It uses `RingDoing`, `with_urgent` of `crates/uart_ring/specs/Ring.antt`; `Pumps` of this file.
///
/// <span id="ClearsTransmit"></span>
///
/// # `ClearsTransmit`
///
/// `clear_transmit`: the transmit ring is emptied without an access, and the result is how many bytes it had.
///
/// ```text
/// abbrev pub ClearsTransmit : ℕ → RingDoing
/// ClearsTransmit count f l after = (count ≡ length f.transmit.items) × RingSets cleared f l after
/// ```
///
/// It uses `RingDoing`, `RingSets`, `cleared` of `crates/uart_ring/specs/Ring.antt`.
///
/// <span id="SetsLowMark"></span>
///
/// # `SetsLowMark`
///
/// `set_low_mark`: the low mark is stored, and no access is made.
///
/// ```text
/// abbrev pub SetsLowMark : ℕ → RingDoing
/// SetsLowMark mark = RingSets (with_low_mark mark)
/// ```
///
/// It uses `RingDoing`, `RingSets`, `with_low_mark` of `crates/uart_ring/specs/Ring.antt`.
///
/// <span id="TakesLow"></span>
///
/// # `TakesLow`
///
/// `take_low`: whether a fall to the low mark was noted, which is then forgotten.
///
/// ```text
/// abbrev pub TakesLow : Bool → RingDoing
/// TakesLow low f l after = (low ≡ f.is_low) × RingSets (with_low false) f l after
/// ```
///
/// It uses `RingDoing`, `RingSets`, `with_low` of `crates/uart_ring/specs/Ring.antt`.
#[doc(alias("Queues", "ResumesTransmit", "Holds", "Releases", "QueuesUrgent", "ClearsTransmit", "SetsLowMark", "TakesLow"))]
pub mod transmit {}

/// From the chip to the receive ring, and from there to the caller.
///
/// From `crates/uart_ring/specs/Receive.antt`.
///
/// <span id="TakesBytes"></span>
///
/// # `TakesBytes`
///
/// `take`: the bytes are from the front of the receive ring, as many as there are slots and bytes; if there are any, a pause of receiving ends.
///
/// ```text
/// abbrev pub TakesBytes : ℕ → List ℕ → RingDoing
/// TakesBytes slots bytes f l after =
///     (bytes ≡ take slots f.receive.items) × IfAny (length bytes) EndsPause (without_taken (length bytes) f) l after
/// ```
///
/// It uses `RingDoing`, `IfAny`, `without_taken` of `crates/uart_ring/specs/Ring.antt`; `EndsPause` of this file.
///
/// <span id="ClearsReceive"></span>
///
/// # `ClearsReceive`
///
/// `clear_receive`: the receive ring is emptied, and the result is how many bytes it had; if it had any, a pause of receiving ends.
///
/// ```text
/// abbrev pub ClearsReceive : ℕ → RingDoing
/// ClearsReceive count f l after =
///     -- the result is how many bytes the receive ring had
///     (count ≡ length f.receive.items) × IfAny count EndsPause (without_taken count f) l after
/// ```
///
/// It uses `RingDoing`, `IfAny`, `without_taken` of `crates/uart_ring/specs/Ring.antt`; `EndsPause` of this file.
///
/// <span id="AdjustsRts"></span>
///
/// # `AdjustsRts`
///
/// `adjust_rts`: RTS is off if the receive ring has room for fewer bytes than `hold`, on if it has room for `release` or more, and else stays. For this MCR is read, and written only if it shows RTS otherwise.
///
/// ```text
/// abbrev pub AdjustsRts : ReceiveMarks → RingDoing
/// AdjustsRts marks f l after = MakesRtsIfAny (rts_at marks (free f.receive)) f l after
/// ```
///
/// It uses [`free`](crate::proved::ring#free); `RingDoing` of `crates/uart_ring/specs/Ring.antt`; `MakesRtsIfAny`, `rts_at` of this file.
///
/// <span id="AdjustsXoff"></span>
///
/// # `AdjustsXoff`
///
/// `adjust_xoff`: the other end is told XOFF if the receive ring has room for fewer bytes than `hold`, and XON if it has room for `release` or more, as a `queue_urgent` sends it. What was told last is not told again, and nothing is told while another urgent byte waits. The result is what was told.
///
/// ```text
/// abbrev pub AdjustsXoff : ReceiveMarks → Option ℕ → RingDoing
/// AdjustsXoff marks told f l after =
///     TellsIfAny (to_tell (rts_at marks (free f.receive)) f.urgent f.has_told_xoff) told f l after
/// ```
///
/// It uses [`free`](crate::proved::ring#free); `RingDoing` of `crates/uart_ring/specs/Ring.antt`; `TellsIfAny`, `to_tell`, `rts_at` of this file.
///
/// <span id="ObeysXoff"></span>
///
/// # `ObeysXoff`
///
/// `obey_xoff`: of the bytes that came into the receive ring since it looked last, and are still there, the last XON or XOFF is obeyed, and is the result. All bytes stay there.
///
/// ```text
/// abbrev pub ObeysXoff : Option ℕ → RingDoing
/// ObeysXoff told f l after = (told ≡ last_told None (latest f.unlooked f.receive.items)) × Obeys told (looked f) l after
/// ```
///
/// It uses `RingDoing`, `looked` of `crates/uart_ring/specs/Ring.antt`; `last_told`, `Obeys` of this file; `latest` of `crates/uart_ring/specs/Queue.antt`.
#[doc(alias("TakesBytes", "ClearsReceive", "AdjustsRts", "AdjustsXoff", "ObeysXoff"))]
pub mod receive {}

/// Line errors and changes of the modem lines: noted when their interrupts are served, and taken by the caller. And all registers at once.
///
/// From `crates/uart_ring/specs/Status.antt`.
///
/// <span id="TakesLine"></span>
///
/// # `TakesLine`
///
/// `take_line`: `lsr`, joined with what was noted, after which nothing is noted.
///
/// ```text
/// abbrev pub TakesLine : ℕ → RingDoing
/// TakesLine result f l after =
///     (status : ℕ) × (result ≡ bit_or status f.line) × OnDriver (TakesLsr status) (with_line 0) f l after
/// ```
///
/// It uses [`TakesLsr`](uart_16550::proved::status#TakesLsr); `RingDoing`, `OnDriver`, `with_line` of `crates/uart_ring/specs/Ring.antt`.
///
/// <span id="TakesModem"></span>
///
/// # `TakesModem`
///
/// `take_modem`: `msr`, joined with what was noted, after which nothing is noted.
///
/// ```text
/// abbrev pub TakesModem : ℕ → RingDoing
/// TakesModem result f l after =
///     (status : ℕ) × (result ≡ bit_or status f.modem) × OnDriver (TakesMsr status) (with_modem 0) f l after
/// ```
///
/// It uses [`TakesMsr`](uart_16550::proved::status#TakesMsr); `RingDoing`, `OnDriver`, `with_modem` of `crates/uart_ring/specs/Ring.antt`.
///
/// <span id="DumpsRegisters"></span>
///
/// # `DumpsRegisters`
///
/// `config_register_dump`: the dump of the driver, whose read of ISR may acknowledge THR\_EMPTY; and then sending resumes.
///
/// ```text
/// abbrev pub DumpsRegisters : ConfigRegisterDump → RingDoing
/// DumpsRegisters dump f l after = RingNext (OnDriver (Dumps dump) unchanged) ResumesTransmit f l after
/// ```
///
/// It uses [`Dumps`](uart_16550::proved::status#Dumps), [`ResumesTransmit`](crate::proved::transmit#ResumesTransmit); `RingDoing`, `RingNext`, `OnDriver`, `unchanged` of `crates/uart_ring/specs/Ring.antt`.
#[doc(alias("TakesLine", "TakesModem", "DumpsRegisters"))]
pub mod status {}

/// Serving interrupts.
///
/// From `crates/uart_ring/specs/Service.antt`.
///
/// <span id="Services"></span>
///
/// # `Services`
///
/// `service`: at most 8 interrupts are served, and bytes are sent at THR-empty alone. It tells how many, and not why it ended.
///
/// ```text
/// abbrev pub Services : ℕ → RingDoing
/// Services count f l after =
///     (end : HandleEnd) × (room : Bool)
///     × ServesUpTo false MAX_INTERRUPTS (record { served = count; end = end }) room f l after
/// ```
///
/// It uses `RingDoing` of `crates/uart_ring/specs/Ring.antt`; `ServesUpTo` of this file.
#[doc(alias("Services"))]
pub mod service {}

/// Handling interrupts so that a controller that detects edges does not miss the next one.
///
/// From `crates/uart_ring/specs/Handle.antt`.
///
/// <span id="Retriggers"></span>
///
/// # `Retriggers`
///
/// `retrigger`: IER is read, and written with 0 and then with what was read.
///
/// ```text
/// abbrev pub Retriggers : RingDoing
/// Retriggers = OnDriver (Saving status.Retriggers) unchanged
/// ```
///
/// It uses [`Saving`](uart_16550::proved::driver#Saving), [`Retriggers`](uart_16550::proved::status#Retriggers); `RingDoing`, `OnDriver`, `unchanged` of `crates/uart_ring/specs/Ring.antt`.
///
/// <span id="Handles"></span>
///
/// # `Handles`
///
/// `handle`: as many interrupts as are pending are served, but no more than the limit; if a line status shows room, bytes that wait are sent behind the data that comes next. Then, unless ISR has shown that none is pending, IER is read, and written with 0 and with what was read: what is left is triggered again.
///
/// ```text
/// abbrev pub Handles : (limit : ℕ) → Handled → RingDoing
/// Handles limit handled f l after =
///     (room : Bool)
///     × RingNext (ServesUpTo true limit handled room) (RetriggersUnlessIdle room handled.end) f l after
/// ```
///
/// It uses `RingDoing`, `RingNext` of `crates/uart_ring/specs/Ring.antt`; `ServesUpTo` of `crates/uart_ring/specs/Service.antt`; `RetriggersUnlessIdle` of this file.
#[doc(alias("Retriggers", "Handles"))]
pub mod handle {}

/// A chip that shows interrupts for ever: it is stuck, and its interrupts are off until a restart.
///
/// From `crates/uart_ring/specs/Storm.antt`.
///
/// <span id="TriesToHandle"></span>
///
/// # `TriesToHandle`
///
/// `try_handle`: a `handle`, whose round is counted, and after which the chip may be found stuck; or, if the chip is stuck already, all interrupts are disabled again. The error is why it is stuck.
///
/// ```text
/// abbrev pub TriesToHandle : (limit rounds : ℕ) → Result Handled StuckError → RingDoing
/// TriesToHandle limit rounds result f l after = MatchOption f.stuck
///     (HandlesRound (round_limit limit) rounds result f l after)
///     (λ error. StaysStuck result error f l after)
/// ```
///
/// It uses `RingDoing` of `crates/uart_ring/specs/Ring.antt`; `HandlesRound`, `round_limit`, `StaysStuck` of this file.
///
/// <span id="Restarts"></span>
///
/// # `Restarts`
///
/// `restart`: these interrupts are enabled, without DATA\_READY while receiving is paused; the chip is not stuck any more, and sending resumes.
///
/// ```text
/// abbrev pub Restarts : ℕ → RingDoing
/// Restarts bits f l after =
///     RingNext (OnDriver (Enables (not_paused f.is_paused bits)) restarted) ResumesTransmit f l after
/// ```
///
/// It uses [`Enables`](uart_16550::proved::status#Enables), [`ResumesTransmit`](crate::proved::transmit#ResumesTransmit); `RingDoing`, `RingNext`, `OnDriver`, `restarted` of `crates/uart_ring/specs/Ring.antt`; `not_paused` of this file.
#[doc(alias("TriesToHandle", "Restarts"))]
pub mod storm {}

/// Several ports on one interrupt line: each is handled and lets its own line fall; once all are low, each may raise its line again.
///
/// From `crates/uart_ring/specs/Line.antt`.
///
/// <span id="LowersLine"></span>
///
/// # `LowersLine`
///
/// `lower_line`: a `try_handle`; then IER is read, and all interrupts are disabled.
///
/// ```text
/// abbrev pub LowersLine : (limit rounds : ℕ) → Lowered → RingDoing
/// LowersLine limit rounds lowered =
///     RingNext (TriesToHandle limit rounds lowered.handled)
///     (RingNext (OnDriver (ShowsEnabled lowered.enabled.0) unchanged) (OnDriver TurnsOff unchanged))
/// ```
///
/// It uses [`TriesToHandle`](crate::proved::storm#TriesToHandle); `RingDoing`, `RingNext`, `OnDriver`, `unchanged` of `crates/uart_ring/specs/Ring.antt`; `ShowsEnabled` of this file; `TurnsOff` of `crates/uart_ring/specs/Storm.antt`.
///
/// <span id="RaisesLine"></span>
///
/// # `RaisesLine`
///
/// `raise_line`: these interrupts are enabled; of a chip that is stuck none.
///
/// ```text
/// abbrev pub RaisesLine : ℕ → RingDoing
/// RaisesLine bits f l after =
///     MatchOption f.stuck (OnDriver (Enables bits) unchanged f l after) (λ error. Stays f l after)
/// ```
///
/// It uses [`Enables`](uart_16550::proved::status#Enables); `RingDoing`, `OnDriver`, `unchanged`, `Stays` of `crates/uart_ring/specs/Ring.antt`.
///
/// <span id="HandlesLine"></span>
///
/// # `HandlesLine`
///
/// `handle_line`: first the line of each port is lowered, and from then on that of each is raised. In between is a moment at which all are low.
///
/// ```text
/// pub record HandlesLine {S : Type 0} (Lowers : ℕ → Bool → S → S → Type 0) (Raises : ℕ → S → S → Type 0)
///     (number : ℕ) (served : Bool) (old new : S) : Type 0 where
///   pub all_low : S
///   pub lowers : ServesInTurn Lowers number served old all_low
///   pub raises : InTurn Raises number all_low new
/// ```
///
/// It uses `ServesInTurn`, `InTurn` of this file.
///
/// <span id="LowersPort"></span>
///
/// # `LowersPort`
///
/// The line of the port is lowered, and what was done there is noted; the result is whether an interrupt was served.
///
/// ```text
/// pub record LowersPort {B : Type 0} (step : B → Access → B → Type 0) (limit rounds : ℕ) (served : Bool)
///     (old new : LinePort B) : Type 0 where
///   pub did : RingDid step (LowersLine limit rounds new.lowered) old.ring new.ring
///   pub tells : served ≡ has_served new.lowered.handled
/// ```
///
/// It uses [`RingDid`](crate::proved::ring#RingDid), [`LowersLine`](crate::proved::line#LowersLine); `has_served` of this file.
///
/// <span id="RaisesPort"></span>
///
/// # `RaisesPort`
///
/// The line of the port is raised, with the interrupts that were enabled when it was lowered.
///
/// ```text
/// pub record RaisesPort {B : Type 0} (step : B → Access → B → Type 0) (old new : LinePort B) : Type 0 where
///   pub did : RingDid step (RaisesLine old.lowered.enabled.0) old.ring new.ring
///   pub keeps : new.lowered ≡ old.lowered
/// ```
///
/// It uses [`RingDid`](crate::proved::ring#RingDid), [`RaisesLine`](crate::proved::line#RaisesLine).
///
/// <span id="HandlesPorts"></span>
///
/// # `HandlesPorts`
///
/// `handle_ports`: first the line of each port of a slice is lowered, and from then on that of each is raised. In between is a moment at which all are low.
///
/// ```text
/// abbrev pub HandlesPorts : {B : Type 0} → (B → Access → B → Type 0) → (limit rounds number : ℕ) → Bool →
///     (old new : List (LinePort B)) → Type 0
/// HandlesPorts step limit rounds = HandlesLine (LowersAt step limit rounds) (RaisesAt step)
/// ```
///
/// It uses [`HandlesLine`](crate::proved::line#HandlesLine); `LowersAt`, `RaisesAt` of this file.
#[doc(alias("LowersLine", "RaisesLine", "HandlesLine", "LowersPort", "RaisesPort", "HandlesPorts"))]
pub mod line {}
