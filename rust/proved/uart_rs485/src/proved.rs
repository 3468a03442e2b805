//! Definitions of `uart_rs485`: the driver at a bus of two wires, as RS-485, whose direction an output of the chip switches.
//!
//! Each is one that a section "Proved" of a call names. How a section is read is said [here](uart_spec::proved).

/// The direction of a transceiver: which output of the chip switches it, and what accesses do to it.
///
/// From `crates/uart_rs485/specs/Directions.antt`.
///
/// <span id="turned"></span>
///
/// # `turned`
///
/// These outputs with the line as it is to be in a direction, and not driven by the chip itself.
///
/// ```text
/// abbrev pub turned : Direction → (sends : Bool) → (outputs : ℕ) → ℕ
/// turned d sends outputs = without 8 (switched (level d sends) (bit_of d.line) outputs) (flow_of d.line)
/// ```
///
/// It uses `switched` of `crates/uart_16550/specs/Frame.antt`; `level`, `bit_of`, `flow_of` of this file.
#[doc(alias("turned"))]
pub mod directions {}

/// A driver at a bus: what it holds, and what each call does.
///
/// From `crates/uart_rs485/specs/Bus.antt`.
///
/// <span id="driver_of"></span>
///
/// # `driver_of`
///
/// The driver at a bus.
///
/// ```text
/// abbrev pub driver_of : {B : Type 0} → HalfDuplex B → Uart16550 B
/// driver_of b = b.uart
/// ```
///
/// <span id="bus_fields"></span>
///
/// # `bus_fields`
///
/// What this one holds beside its backend.
///
/// ```text
/// abbrev pub bus_fields : {B : Type 0} → HalfDuplex B → BusFields
/// bus_fields b = record { driver = fields b.uart; direction = b.direction; sends = b.is_sending }
/// ```
///
/// It uses [`fields`](uart_16550::proved::driver#fields); `BusFields` of this file.
///
/// <span id="BusDid"></span>
///
/// # `BusDid`
///
/// The call did this, on a path of the backend's steps.
///
/// ```text
/// pub record BusDid {B : Type 0} (step : B → Access → B → Type 0) (G : BusDoing) (old new : HalfDuplex B) : Type 0 where
///   pub list : List Access
///   pub path : Path step (bus_backend_of old) list (bus_backend_of new)
///   pub does : G (bus_fields old) list (bus_fields new)
/// ```
///
/// It uses [`bus_fields`](crate::proved::bus#bus_fields); `BusDoing`, `bus_backend_of` of this file; `Path` of `crates/uart_spec/specs/Access.antt`.
///
/// <span id="BusDidWhile"></span>
///
/// # `BusDidWhile`
///
/// The caller was asked and gave some answers, from the first of its states to the second, and the call did what goes with them, as `BusDid` says.
///
/// ```text
/// pub record BusDidWhile {P B : Type 0} (answers : P → Bool → P → Type 0) (step : B → Access → B → Type 0)
///     (G : List Bool → BusDoing) (before after : P) (old new : HalfDuplex B) : Type 0 where
///   pub said : List Bool
///   pub asked : FoldsTo answers before said after
///   pub did : BusDid step (G said) old new
/// ```
///
/// It uses [`BusDid`](crate::proved::bus#BusDid); `BusDoing` of this file.
///
/// <span id="unchanged"></span>
///
/// # `unchanged`
///
/// The fields as they are; with another driver; with this direction.
///
/// ```text
/// abbrev pub unchanged : BusFields → BusFields
/// unchanged f = f
/// ```
///
/// It uses `BusFields` of this file.
///
/// <span id="OnDriver"></span>
///
/// # `OnDriver`
///
/// The driver does this, and of the other fields only this changes.
///
/// ```text
/// abbrev pub OnDriver : Doing → (BusFields → BusFields) → BusDoing
/// OnDriver G change f l after = G f.driver l after.driver × (after ≡ with_driver after.driver (change f))
/// ```
///
/// It uses `Doing` of `crates/uart_16550/specs/Driver.antt`; `BusFields`, `BusDoing`, `with_driver` of this file.
///
/// <span id="Turns"></span>
///
/// # `Turns`
///
/// The transceiver is switched: MCR is read, and written with the line as it is to be in this direction, without loopback, and at RTS without automatic flow control.
///
/// ```text
/// abbrev pub Turns : (sends : Bool) → BusDoing
/// Turns sends f =
///     OnDriver (Saving (Modifies offsets.MCR (λ mcr. unlooped (turned f.direction sends mcr)))) (with_sends sends) f
/// ```
///
/// It uses [`OnDriver`](crate::proved::bus#OnDriver), [`Saving`](uart_16550::proved::driver#Saving), [`turned`](crate::proved::directions#turned); `BusDoing`, `with_sends` of this file; `Modifies` of `crates/uart_16550/specs/Grammar.antt`; `unlooped` of `crates/uart_16550/specs/Frame.antt`.
///
/// <span id="TriesToFinish"></span>
///
/// # `TriesToFinish`
///
/// `try_finish`: a look at LSR shows that the transmitter is empty, and the transceiver is switched to receive; or it shows that it is not, and nothing else is done.
///
/// ```text
/// abbrev pub TriesToFinish : {T : Type 0} → Result T BusyError → BusDoing
/// TriesToFinish (Ok x) = Next (OnDriver (Saving (ShowsIdle true)) unchanged) (Turns false)
/// TriesToFinish (Err e) = OnDriver (Saving (ShowsIdle false)) unchanged
/// ```
///
/// It uses [`OnDriver`](crate::proved::bus#OnDriver), [`Saving`](uart_16550::proved::driver#Saving), [`ShowsIdle`](uart_16550::proved::frame#ShowsIdle), [`unchanged`](crate::proved::bus#unchanged), [`Turns`](crate::proved::bus#Turns); `BusDoing` of this file; `Next` of `crates/uart_16550/specs/Driver.antt`.
///
/// <span id="Begins"></span>
///
/// # `Begins`
///
/// `new`: as `try_finish` of a driver of whose direction nothing is known, so that it is taken to be to send. If the transmitter is not empty, the driver is returned.
///
/// ```text
/// abbrev pub Begins : {B : Type 0} → (B → Access → B → Type 0) → Uart16550 B → Direction →
///     Result (HalfDuplex B) (Refused (Uart16550 B) BusyError) → Type 0
/// Begins step driver direction (Ok bus) =
///     BusDid step (TriesToFinish {T = Unit {0}} (Ok tt)) (unknown driver direction) bus
/// Begins step driver direction (Err refused) =
///     BusDid step (TriesToFinish {T = Unit {0}} (Err refused.cause)) (unknown driver direction)
///     (unknown refused.given direction)
/// ```
///
/// It uses [`BusDid`](crate::proved::bus#BusDid), [`TriesToFinish`](crate::proved::bus#TriesToFinish); `unknown` of this file.
///
/// <span id="receiving"></span>
///
/// # `receiving`
///
/// A driver at a bus that receives.
///
/// ```text
/// abbrev pub receiving : {B : Type 0} → Uart16550 B → Direction → HalfDuplex B
/// receiving driver direction = record { uart = driver; direction = direction; is_sending = false }
/// ```
///
/// <span id="GivesUp"></span>
///
/// # `GivesUp`
///
/// `give_up`: one read of LSR, which is returned joined with the saved bits, and the transceiver is switched to receive, whatever LSR shows.
///
/// ```text
/// abbrev pub GivesUp : (status : ℕ) → BusDoing
/// GivesUp status = Next (OnDriver (TakesLsr status) unchanged) (Turns false)
/// ```
///
/// It uses [`OnDriver`](crate::proved::bus#OnDriver), [`TakesLsr`](uart_16550::proved::status#TakesLsr), [`unchanged`](crate::proved::bus#unchanged), [`Turns`](crate::proved::bus#Turns); `BusDoing` of this file; `Next` of `crates/uart_16550/specs/Driver.antt`.
///
/// <span id="HearsEcho"></span>
///
/// # `HearsEcho`
///
/// `receive_echo`: each byte that was sent is heard, after its own wait; or as many as the error reports, and then another byte than was sent there, or none in the next wait.
///
/// ```text
/// abbrev pub HearsEcho : {T : Type 0} → (sent : List ℕ) → Result T EchoError → Language
/// HearsEcho sent (Ok x) s l = InOrder Awaited sent s l
/// HearsEcho sent (Err (Differs done heard)) s l =
///     (byte : ℕ) × (take (done + 1) sent ≡ take done sent ++ byte ∷ []) × (byte ≢ heard)
///     × InOrder Awaited (take done sent ++ heard ∷ []) s l
/// HearsEcho sent (Err (Silent done)) s l =
///     (done < length sent) × Then (InOrder Awaited (take done sent)) (AllMisses Miss) s l
/// ```
///
/// It uses `Language`, `InOrder`, `Then`, `AllMisses` of `crates/uart_16550/specs/Grammar.antt`; `Awaited`, `Miss` of `crates/uart_16550/specs/Receive.antt`.
///
/// <span id="SendsBytes"></span>
///
/// # `SendsBytes`
///
/// `send_bytes`: while the direction is to send, a `send_bytes` of the driver; else nothing, and the error.
///
/// ```text
/// abbrev pub SendsBytes : List ℕ → Result ℕ NotSendingError → BusDoing
/// SendsBytes bytes (Ok count) f l after = (f.sends ≡ true) × OnDriver (Saving (Sends bytes count)) unchanged f l after
/// SendsBytes bytes (Err e) f l after = (f.sends ≡ false) × Stays f l after
/// ```
///
/// It uses [`OnDriver`](crate::proved::bus#OnDriver), [`Saving`](uart_16550::proved::driver#Saving), [`Sends`](uart_16550::proved::transmit#Sends), [`unchanged`](crate::proved::bus#unchanged); `BusDoing`, `Stays` of this file.
///
/// <span id="SendsBytesExact"></span>
///
/// # `SendsBytesExact`
///
/// `send_bytes_exact`: while the direction is to send, a `send_bytes_exact` of the driver; else nothing, and the error.
///
/// ```text
/// abbrev pub SendsBytesExact : {T : Type 0} → List ℕ → Result T SendError → BusDoing
/// SendsBytesExact bytes (Ok x) f l after =
///     (f.sends ≡ true) × OnDriver (Saving (SendsExact {T = Unit {0}} bytes (Ok tt))) unchanged f l after
/// SendsBytesExact bytes (Err (Stalled e)) f l after =
///     (f.sends ≡ true) × OnDriver (Saving (SendsExact {T = Unit {0}} bytes (Err e))) unchanged f l after
/// SendsBytesExact bytes (Err NotSending) f l after = (f.sends ≡ false) × Stays f l after
/// ```
///
/// It uses [`OnDriver`](crate::proved::bus#OnDriver), [`Saving`](uart_16550::proved::driver#Saving), [`SendsExact`](uart_16550::proved::transmit#SendsExact), [`unchanged`](crate::proved::bus#unchanged); `BusDoing`, `Stays` of this file.
#[doc(alias("driver_of", "bus_fields", "BusDid", "BusDidWhile", "unchanged", "OnDriver", "Turns", "TriesToFinish", "Begins", "receiving", "GivesUp", "HearsEcho", "SendsBytes", "SendsBytesExact"))]
pub mod bus {}

/// Rings at a bus: what they hold, and what each call does.
///
/// From `crates/uart_rs485/specs/Rings.antt`.
///
/// <span id="rings_of"></span>
///
/// # `rings_of`
///
/// The rings at a bus.
///
/// ```text
/// abbrev pub rings_of : {B : Type 0} → HalfDuplexRing B → Uart16550Ring B
/// rings_of b = b.ring
/// ```
///
/// <span id="ring_bus_fields"></span>
///
/// # `ring_bus_fields`
///
/// What these hold beside their backend.
///
/// ```text
/// abbrev pub ring_bus_fields : {B : Type 0} → HalfDuplexRing B → RingBusFields
/// ring_bus_fields b = record { rings = ring_fields b.ring; direction = b.direction; sends = b.is_sending }
/// ```
///
/// It uses [`ring_fields`](uart_ring::proved::ring#ring_fields); `RingBusFields` of this file.
///
/// <span id="RingBusDid"></span>
///
/// # `RingBusDid`
///
/// The call did this, on a path of the backend's steps.
///
/// ```text
/// pub record RingBusDid {B : Type 0} (step : B → Access → B → Type 0) (G : RingBusDoing)
///     (old new : HalfDuplexRing B) : Type 0 where
///   pub list : List Access
///   pub path : Path step (ring_backend_of old.ring) list (ring_backend_of new.ring)
///   pub does : G (ring_bus_fields old) list (ring_bus_fields new)
/// ```
///
/// It uses [`ring_bus_fields`](crate::proved::rings#ring_bus_fields); `RingBusDoing` of this file; `Path` of `crates/uart_spec/specs/Access.antt`; `ring_backend_of` of `crates/uart_ring/specs/Ring.antt`.
///
/// <span id="same"></span>
///
/// # `same`
///
/// The fields as they are; with other rings; with this direction.
///
/// ```text
/// abbrev pub same : RingBusFields → RingBusFields
/// same f = f
/// ```
///
/// It uses `RingBusFields` of this file.
///
/// <span id="OnRings"></span>
///
/// # `OnRings`
///
/// The rings do this, and of the other fields only this changes.
///
/// ```text
/// abbrev pub OnRings : RingDoing → (RingBusFields → RingBusFields) → RingBusDoing
/// OnRings G change f l after = G f.rings l after.rings × (after ≡ with_rings after.rings (change f))
/// ```
///
/// It uses `RingDoing` of `crates/uart_ring/specs/Ring.antt`; `RingBusFields`, `RingBusDoing`, `with_rings` of this file.
///
/// <span id="RingTurns"></span>
///
/// # `RingTurns`
///
/// The transceiver is switched: MCR is read, and written with the line as it is to be in this direction, without loopback, and at RTS without automatic flow control.
///
/// ```text
/// abbrev pub RingTurns : (sends : Bool) → RingBusDoing
/// RingTurns sends f = OnRings (OfDriver (Saving (Modifies offsets.MCR (λ mcr. unlooped (turned f.direction sends mcr)))))
///     (rings_with_sends sends) f
/// ```
///
/// It uses [`OnRings`](crate::proved::rings#OnRings), [`Saving`](uart_16550::proved::driver#Saving), [`turned`](crate::proved::directions#turned); `RingBusDoing`, `OfDriver`, `rings_with_sends` of this file; `Modifies` of `crates/uart_16550/specs/Grammar.antt`; `unlooped` of `crates/uart_16550/specs/Frame.antt`.
///
/// <span id="RingLooks"></span>
///
/// # `RingLooks`
///
/// A look at LSR shows that the transmitter is empty, or that it is not.
///
/// ```text
/// abbrev pub RingLooks : (idle : Bool) → RingBusDoing
/// RingLooks idle = OnRings (OfDriver (Saving (ShowsIdle idle))) same
/// ```
///
/// It uses [`OnRings`](crate::proved::rings#OnRings), [`Saving`](uart_16550::proved::driver#Saving), [`ShowsIdle`](uart_16550::proved::frame#ShowsIdle), [`same`](crate::proved::rings#same); `RingBusDoing`, `OfDriver` of this file.
///
/// <span id="RingTriesToFinish"></span>
///
/// # `RingTriesToFinish`
///
/// `try_finish`: no byte waits, a look at LSR shows that the transmitter is empty, and the transceiver is switched to receive; or a byte waits, and nothing is done; or none does, and the look shows that it is not.
///
/// ```text
/// abbrev pub RingTriesToFinish : {T : Type 0} → Result T BusyError → RingBusDoing
/// RingTriesToFinish (Ok x) f l after = (waiting f.rings ≡ []) × Next (RingLooks true) (RingTurns false) f l after
/// RingTriesToFinish (Err e) f l after =
///     ((waiting f.rings ≢ []) × RingStays f l after) ⊎ ((waiting f.rings ≡ []) × RingLooks false f l after)
/// ```
///
/// It uses [`RingLooks`](crate::proved::rings#RingLooks), [`RingTurns`](crate::proved::rings#RingTurns); `RingBusDoing`, `RingStays` of this file; `waiting` of `crates/uart_ring/specs/Ring.antt`; `Next` of `crates/uart_16550/specs/Driver.antt`.
///
/// <span id="RingBegins"></span>
///
/// # `RingBegins`
///
/// `new`: as `try_finish` of rings of whose direction nothing is known, so that it is taken to be to send. If that fails, the rings are returned.
///
/// ```text
/// abbrev pub RingBegins : {B : Type 0} → (B → Access → B → Type 0) → Uart16550Ring B → Direction →
///     Result (HalfDuplexRing B) (Refused (Uart16550Ring B) BusyError) → Type 0
/// RingBegins step ring direction (Ok bus) =
///     RingBusDid step (RingTriesToFinish {T = Unit {0}} (Ok tt)) (rings_unknown ring direction) bus
/// RingBegins step ring direction (Err refused) =
///     RingBusDid step (RingTriesToFinish {T = Unit {0}} (Err refused.cause)) (rings_unknown ring direction)
///     (rings_unknown refused.given direction)
/// ```
///
/// It uses [`RingBusDid`](crate::proved::rings#RingBusDid), [`RingTriesToFinish`](crate::proved::rings#RingTriesToFinish); `rings_unknown` of this file.
///
/// <span id="RingQueues"></span>
///
/// # `RingQueues`
///
/// `queue`: while the direction is to send, a `queue` of the rings; else nothing, and the error.
///
/// ```text
/// abbrev pub RingQueues : List ℕ → Result ℕ NotSendingError → RingBusDoing
/// RingQueues bytes (Ok count) f l after = (f.sends ≡ true) × OnRings (Queues bytes count) same f l after
/// RingQueues bytes (Err e) f l after = (f.sends ≡ false) × RingStays f l after
/// ```
///
/// It uses [`OnRings`](crate::proved::rings#OnRings), [`Queues`](uart_ring::proved::transmit#Queues), [`same`](crate::proved::rings#same); `RingBusDoing`, `RingStays` of this file.
///
/// <span id="rings_receiving"></span>
///
/// # `rings_receiving`
///
/// Rings at a bus that receives.
///
/// ```text
/// abbrev pub rings_receiving : {B : Type 0} → Uart16550Ring B → Direction → HalfDuplexRing B
/// rings_receiving ring direction = record { ring = ring; direction = direction; is_sending = false }
/// ```
///
/// <span id="RingGivesUp"></span>
///
/// # `RingGivesUp`
///
/// `give_up`: a `take_line` of the rings, the transceiver is switched to receive, whatever LSR shows, and the bytes of the transmit ring are dropped.
///
/// ```text
/// abbrev pub RingGivesUp : (status : ℕ) → RingBusDoing
/// RingGivesUp status f l after = (dropped : ℕ)
///     × Next (Next (OnRings (TakesLine status) same) (RingTurns false)) (OnRings (ClearsTransmit dropped) same) f l after
/// ```
///
/// It uses [`OnRings`](crate::proved::rings#OnRings), [`TakesLine`](uart_ring::proved::status#TakesLine), [`same`](crate::proved::rings#same), [`RingTurns`](crate::proved::rings#RingTurns), [`ClearsTransmit`](uart_ring::proved::transmit#ClearsTransmit); `RingBusDoing` of this file; `Next` of `crates/uart_16550/specs/Driver.antt`.
#[doc(alias("rings_of", "ring_bus_fields", "RingBusDid", "same", "OnRings", "RingTurns", "RingLooks", "RingTriesToFinish", "RingBegins", "RingQueues", "rings_receiving", "RingGivesUp"))]
pub mod rings {}
