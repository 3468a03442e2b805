//! Definitions of `uart_virtual`: a serial port of a virtual machine, which is a live chip that lets time pass by itself.
//!
//! Each is one that a section "Proved" of a call names. How a section is read is said [here](uart_spec::proved).

/// The port: a live chip, what its monitor was told last, and what each call makes of both.
///
/// From `crates/uart_virtual/specs/Port.antt`.
///
/// <span id="settle_ticks"></span>
///
/// # `settle_ticks`
///
/// The ticks that pass in each call, which are 22 with FIFOs of 16: one for each character that a FIFO of this size holds, and 6 more: one for the character in the shift register, 4 until a reception timeout is due, and one.
///
/// ```text
/// unfoldable pub settle_ticks : FifoSize → ℕ
/// settle_ticks size = characters size + 6
/// ```
///
/// It uses [`characters`](uart_spec::proved::fifo_size#characters).
///
/// <span id="settle"></span>
///
/// # `settle`
///
/// So much time passes that nothing is left to happen.
///
/// ```text
/// abbrev pub settle : ChipState → ChipState
/// settle c = ticks (settle_ticks c.transmitter.size) c
/// ```
///
/// It uses [`ticks`](uart_chip::proved::chip#ticks), [`settle_ticks`](crate::proved::port#settle_ticks); `ChipState` of `crates/uart_chip/specs/Chip.antt`.
///
/// <span id="is_up"></span>
///
/// # `is_up`
///
/// The level of the interrupt line.
///
/// ```text
/// abbrev pub is_up : ChipState → Bool
/// is_up c = is_some (interrupt c)
/// ```
///
/// It uses [`interrupt`](uart_chip::proved::chip#interrupt); `ChipState` of `crates/uart_chip/specs/Chip.antt`.
///
/// <span id="accepted"></span>
///
/// # `accepted`
///
/// How many of these characters there is room for.
///
/// ```text
/// abbrev pub accepted : List ℕ → ChipState → ℕ
/// accepted bytes c = min (length bytes) (receive_room c)
/// ```
///
/// It uses [`receive_room`](uart_chip::proved::chip#receive_room); `ChipState` of `crates/uart_chip/specs/Chip.antt`.
///
/// <span id="told_after"></span>
///
/// # `told_after`
///
/// What the monitor was told after a call of which this is seen, and of which it is known whether the line was up all the time.
///
/// ```text
/// abbrev pub told_after : Kind → (was_up : Bool) → Seen → Told → Told
/// told_after kind was_up seen told =
///     let signal = is_signalled kind was_up seen told in
///     record {
///       line = seen.level;
///       has_room = room_after kind seen told;
///       has_looked = kind.looks || (told.has_looked && not signal);
///       spare = spare_after kind was_up signal seen.rest told;
///     }
/// ```
///
/// It uses `is_signalled`, `has_room`, `room_after`, `spare_after` of this file.
///
/// <span id="todo_after"></span>
///
/// # `todo_after`
///
/// What the monitor has to do after it.
///
/// ```text
/// abbrev pub todo_after : Kind → (was_up : Bool) → Seen → Told → Todo
/// todo_after kind was_up seen told =
///     record {
///       signal = is_signalled kind was_up seen told;
///       level = seen.level;
///       has_moved = differ told.line seen.level;
///       has_room = room_after kind seen told && not told.has_room;
///       ready = seen.ready;
///     }
/// ```
///
/// It uses `is_signalled`, `differ`, `has_room`, `room_after` of this file.
///
/// <span id="todo_of"></span>
///
/// # `todo_of`
///
/// What the monitor has to do, with what is seen of the chip when the call ends.
///
/// ```text
/// abbrev pub todo_of : Kind → (was_up : Bool) → (ended : ChipState) → Told → Todo
/// todo_of kind was_up ended told = todo_after kind was_up (seen_of ended) told
/// ```
///
/// It uses [`todo_after`](crate::proved::port#todo_after); `ChipState` of `crates/uart_chip/specs/Chip.antt`; `seen_of` of this file.
///
/// <span id="renewed"></span>
///
/// # `renewed`
///
/// A port that is new, or restored.
///
/// ```text
/// abbrev pub renewed : Kind
/// renewed = record { brings = false; looks = false; moves_data = false; may_make_room = true }
/// ```
///
/// It uses `brings`, `looks`, `moves_data`, `may_make_room` of this file.
///
/// <span id="untold"></span>
///
/// # `untold`
///
/// Nothing was told yet.
///
/// ```text
/// abbrev pub untold : Told
/// untold = record { line = false; has_room = false; has_looked = false; spare = 0 }
/// ```
///
/// It uses `has_room` of this file.
///
/// <span id="begun"></span>
///
/// # `begun`
///
/// A port whose monitor was told of this chip, and of nothing before.
///
/// ```text
/// abbrev pub begun : ChipState → PortState
/// begun c = record { chip = c; told = tell renewed true c untold }
/// ```
///
/// It uses [`renewed`](crate::proved::port#renewed), [`untold`](crate::proved::port#untold); `ChipState` of `crates/uart_chip/specs/Chip.antt`; `PortState`, `tell` of this file.
///
/// <span id="fresh"></span>
///
/// # `fresh`
///
/// A port after power-on, with FIFOs of this size: the time of a call passed.
///
/// ```text
/// abbrev pub fresh : FifoSize → Chip → PortState
/// fresh size model = begun (settle (with_size size (chip.fresh model 1 WIRE_ROOM 0)))
/// ```
///
/// It uses [`begun`](crate::proved::port#begun), [`settle`](crate::proved::port#settle), [`with_size`](uart_chip::proved::chip#with_size), [`fresh`](uart_chip::proved::chip#fresh); `PortState` of this file.
///
/// <span id="after"></span>
///
/// # `after`
///
/// The port after this call: the access or what the host brings, and then the time that passes in each call.
///
/// ```text
/// abbrev pub after : PortCall → PortState → PortState
/// after call p =
///     let c = happen call p.chip in
///     record { chip = settle c; told = tell (kind_of call p.chip) (stays_up call c) (settle c) p.told }
/// ```
///
/// It uses [`settle`](crate::proved::port#settle); `PortCall`, `PortState`, `happen`, `tell`, `kind_of`, `stays_up` of this file.
///
/// <span id="todo"></span>
///
/// # `todo`
///
/// What the monitor has to do after this call: signal the interrupt, take output, bring input.
///
/// ```text
/// abbrev pub todo : PortCall → PortState → Todo
/// todo call p =
///     let c = happen call p.chip in todo_of (kind_of call p.chip) (stays_up call c) (settle c) p.told
/// ```
///
/// It uses [`todo_of`](crate::proved::port#todo_of), [`settle`](crate::proved::port#settle); `PortCall`, `PortState`, `happen`, `kind_of`, `stays_up` of this file.
///
/// <span id="IsTold"></span>
///
/// # `IsTold`
///
/// What the monitor was told is true: the level of the line; if it may take it that there is room, there is, and if nothing waits and there is room, it may.
///
/// ```text
/// pub record IsTold (p : PortState) : Type 0 where
///   pub line : p.told.line ≡ is_up p.chip
///   pub room : p.told.has_room ≡ (has_room p.chip && (p.told.has_room || is_empty p.chip))
/// ```
///
/// It uses [`is_up`](crate::proved::port#is_up); `PortState`, `has_room`, `is_empty` of this file; `room` of `crates/uart_chip/specs/Transmitter.antt`.
///
/// <span id="IsStill"></span>
///
/// # `IsStill`
///
/// Nothing is left to happen, however much time passes: no character can move, and a reception timeout is due if characters wait in the FIFO.
///
/// ```text
/// pub record IsStill (c : ChipState) : Type 0 where
///   pub paced : IsPaced c
///   pub unmoved : IsUnmoved c
///   -- a reception timeout is due, if characters wait in the FIFO
///   pub due : c.receiver.timeout_ticks ≡ c.receiver.timeout_limit
/// ```
///
/// It uses [`characters`](uart_spec::proved::fifo_size#characters); `ChipState` of `crates/uart_chip/specs/Chip.antt`; `IsPaced`, `IsUnmoved` of this file.
///
/// <span id="nothing_new"></span>
///
/// # `nothing_new`
///
/// What the monitor has to do after a call that changes neither the line nor the room: nothing.
///
/// ```text
/// abbrev pub nothing_new : PortState → Todo
/// nothing_new p =
///     record {
///       signal = false;
///       level = p.told.line;
///       has_moved = false;
///       has_room = false;
///       ready = length p.chip.transmitter.wire;
///     }
/// ```
///
/// It uses `PortState`, `has_room` of this file.
///
/// <span id="reads_polled"></span>
///
/// # `reads_polled`
///
/// After a read of DATA the monitor has nothing to do: no interrupt is enabled, and the monitor knows of room.
///
/// ```text
/// abbrev pub reads_polled : PortState → Bool
/// reads_polled p = is_polled p && p.told.has_room
/// ```
///
/// It uses `PortState`, `is_polled` of this file.
///
/// <span id="receives_polled"></span>
///
/// # `receives_polled`
///
/// After a byte of input the monitor has nothing to do: no interrupt is enabled, and the monitor knows of room.
///
/// ```text
/// abbrev pub receives_polled : PortState → Bool
/// receives_polled p = is_polled p && (p.told.has_room && has_room p.chip)
/// ```
///
/// It uses `PortState`, `is_polled`, `has_room` of this file.
///
/// <span id="receives_first"></span>
///
/// # `receives_first`
///
/// A byte of input comes while none waits: there is room for it, of which the monitor knows, and the guest has the interrupt of received characters enabled.
///
/// ```text
/// abbrev pub receives_first : PortState → Bool
/// receives_first p =
///     is_empty p.chip && (p.told.has_room && (has_any p.chip.latches.ier IER.DATA_READY.0 && has_room p.chip))
/// ```
///
/// It uses [`has_any`](uart_spec::proved::bits#has_any); `PortState`, `is_empty`, `has_room` of this file.
///
/// <span id="reads_last"></span>
///
/// # `reads_last`
///
/// A read of DATA takes the last character that waits.
///
/// ```text
/// abbrev pub reads_last : PortState → Bool
/// reads_last p = (length (waiting p.chip.receiver) == 1) && not (is_dlab_set p.chip.latches)
/// ```
///
/// It uses [`waiting`](uart_chip::proved::receiver#waiting), [`is_dlab_set`](uart_chip::proved::chip#is_dlab_set); `PortState` of this file.
///
/// <span id="reads_more"></span>
///
/// # `reads_more`
///
/// A read of DATA leaves a character, and the guest has the interrupt of received characters enabled.
///
/// ```text
/// abbrev pub reads_more : PortState → Bool
/// reads_more p =
///     has_any p.chip.latches.ier IER.DATA_READY.0 &&
///     (nat_lt 1 (length (waiting p.chip.receiver)) && not (is_dlab_set p.chip.latches))
/// ```
///
/// It uses [`has_any`](uart_spec::proved::bits#has_any), [`waiting`](uart_chip::proved::receiver#waiting), [`is_dlab_set`](uart_chip::proved::chip#is_dlab_set); `PortState` of this file.
///
/// <span id="passes"></span>
///
/// # `passes`
///
/// The host can take a byte that the guest writes to DATA before it is on the output: it would be alone there at once.
///
/// ```text
/// abbrev pub passes : PortState → Bool
/// passes p = (length p.chip.transmitter.wire == 0) && sends_at_once p.chip
/// ```
///
/// It uses [`sends_at_once`](uart_chip::proved::sending#sends_at_once); `PortState` of this file.
///
/// <span id="passing"></span>
///
/// # `passing`
///
/// The byte, cut to the word length, if the host can take it before it is on the output.
///
/// ```text
/// abbrev pub passing : (value : ℕ) → PortState → Option ℕ
/// passing value p = if passes p then Some (cut_of p.chip value) else None
/// ```
///
/// It uses [`passes`](crate::proved::port#passes), [`cut_of`](uart_chip::proved::chip#cut_of); `PortState` of this file.
///
/// <span id="IsSaved"></span>
///
/// # `IsSaved`
///
/// These data, and these bytes of output, are those of a port with FIFOs of 16: the chip is live, and nothing is left to happen.
///
/// ```text
/// pub record IsSaved (saved : ChipData) (output : List ℕ) : Type 0 where
///   pub live : IsLive Sixteen (chip_of saved output)
///   pub still : IsStill (chip_of saved output)
/// ```
///
/// It uses [`IsLive`](uart_live::proved::live#IsLive), [`chip_of`](uart_chip::proved::snapshot#chip_of), [`IsStill`](crate::proved::port#IsStill).
#[doc(alias("settle_ticks", "settle", "is_up", "accepted", "told_after", "todo_after", "todo_of", "renewed", "untold", "begun", "fresh", "after", "todo", "IsTold", "IsStill", "nothing_new", "reads_polled", "receives_polled", "receives_first", "reads_last", "reads_more", "passes", "passing", "IsSaved"))]
pub mod port {}

/// A monitor with a clock: which signals it may put off, and that nobody waits for ever.
///
/// From `crates/uart_virtual/specs/Clock.antt`.
///
/// <span id="can_wait"></span>
///
/// # `can_wait`
///
/// The signal that this call asks for can wait: the guest reads DATA, and the line was up before; or it writes DATA.
///
/// ```text
/// abbrev pub can_wait : PortCall → Todo → Bool
/// can_wait (Read offset) t = (offset == offsets.DATA) && (t.signal && not t.has_moved)
/// can_wait (Write offset value) t = (offset == offsets.DATA) && t.signal
/// can_wait _ t = false
/// ```
///
/// It uses `PortCall` of `crates/uart_virtual/specs/Port.antt`.
///
/// <span id="todo_now"></span>
///
/// # `todo_now`
///
/// What is left to be done now: all of it, but for a signal that is put off.
///
/// ```text
/// abbrev pub todo_now : (waits : Bool) → Todo → Todo
/// todo_now waits t = record t { signal = t.signal && not waits }
/// ```
///
/// <span id="owed_after"></span>
///
/// # `owed_after`
///
/// The guest is owed a signal after a call: one is put off now; or none is given, one was put off before, and the line is still up.
///
/// ```text
/// abbrev pub owed_after : (was_owed waits : Bool) → Todo → Bool
/// owed_after was_owed waits t = t.level && (if t.signal then waits else was_owed)
/// ```
#[doc(alias("can_wait", "todo_now", "owed_after"))]
pub mod clock {}
