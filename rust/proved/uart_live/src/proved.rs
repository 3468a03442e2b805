//! Definitions of `uart_live`: the chip in the hands of its owner, without a schedule.
//!
//! Each is one that a section "Proved" of a call names. How a section is read is said [here](uart_spec::proved).

#[doc(inline)]
pub use uart_chip::proved as of_chip;

#[doc(inline)]
pub use uart_events::proved as of_events;

/// The sizes that the FIFOs of a live chip can have.
///
/// From `crates/uart_live/specs/Size.antt`.
///
/// <span id="fifo_size"></span>
///
/// # `fifo_size`
///
/// The size of FIFOs that hold so many characters; a number that is no size counts as 16.
///
/// ```text
/// unfoldable pub fifo_size : (count : ℕ) → FifoSize
/// fifo_size count =
///     if count == characters ThirtyTwo then ThirtyTwo
///     else if count == characters SixtyFour then SixtyFour
///     else if count == characters OneHundredTwentyEight then OneHundredTwentyEight
///     else if count == characters TwoHundredFiftySix then TwoHundredFiftySix
///     else Sixteen
/// ```
///
/// It uses [`characters`](uart_spec::proved::fifo_size#characters).
///
/// <span id="is_size"></span>
///
/// # `is_size`
///
/// FIFOs of some size hold so many characters: 16, 32, 64, 128 or 256.
///
/// ```text
/// abbrev pub is_size : (count : ℕ) → Bool
/// is_size count = characters (fifo_size count) == count
/// ```
///
/// It uses [`characters`](uart_spec::proved::fifo_size#characters), [`fifo_size`](crate::proved::size#fifo_size).
#[doc(alias("fifo_size", "is_size"))]
pub mod size {}

/// What holds of every live chip, whatever its owner and the guest did with it.
///
/// From `crates/uart_live/specs/Live.antt`.
///
/// <span id="IsLive"></span>
///
/// # `IsLive`
///
/// The chip is sound and has nothing of a schedule: no event is to come, no arrival has a mark, none can be lost unnoticed; the wire has room for at most as much as a wire may have, the FIFOs have this size and no switch of it, and flow control is left to the driver.
///
/// ```text
/// pub record IsLive (fifos : FifoSize) (c : ChipState) : Type 0 where
///   pub whole : IsWhole (record { chip = c; ahead = [] })
///   -- no arrival has a mark
///   pub no_marks : length c.receiver.marks ≡ 0
///   -- none can be lost unnoticed
///   pub none_lost : c.receiver.is_unscheduled_lost ≡ false
///   -- the wire has room for at most as much as a wire may have
///   pub room : c.transmitter.capacity ≤ MAX_WIRE_CAPACITY
///   -- the FIFOs have this size
///   pub size : c.transmitter.size ≡ fifos
///   -- flow control is left to the driver
///   pub flow : c.auto_flow ≡ false
///   -- the chip has no switch of the size
///   pub switch : c.has_size_switch ≡ false
/// ```
///
/// It uses `ChipState` of `crates/uart_chip/specs/Chip.antt`; `IsWhole` of `crates/uart_chip/specs/Sound.antt`.
#[doc(alias("IsLive"))]
pub mod live {}

/// An option of the live chip: a reception timeout that is due stays so until the guest reads DATA.
///
/// From `crates/uart_live/specs/Held.antt`.
///
/// <span id="expire"></span>
///
/// # `expire`
///
/// The ticks towards a reception timeout are at their limit.
///
/// ```text
/// abbrev pub expire : ChipState → ChipState
/// expire c = record c { receiver = record c.receiver { timeout_ticks = c.receiver.timeout_limit } }
/// ```
///
/// It uses `ChipState` of `crates/uart_chip/specs/Chip.antt`.
///
/// <span id="arrive_holding"></span>
///
/// # `arrive_holding`
///
/// A character arrives, and a timeout that is due stays due.
///
/// ```text
/// abbrev pub arrive_holding : (byte errors : ℕ) → ChipState → ChipState
/// arrive_holding byte errors c = if is_due c then expire (arrive_live byte errors c) else arrive_live byte errors c
/// ```
///
/// It uses [`expire`](crate::proved::held#expire), [`arrive_live`](uart_chip::proved::chip#arrive_live); `ChipState` of `crates/uart_chip/specs/Chip.antt`; `is_due` of this file.
#[doc(alias("expire", "arrive_holding"))]
pub mod held {}

/// Whether data are those of a live chip with FIFOs of some size.
///
/// From `crates/uart_live/specs/Saved.antt`.
///
/// <span id="is_live_character"></span>
///
/// # `is_live_character`
///
/// A character without a schedule, with only errors of a character.
///
/// ```text
/// abbrev pub is_live_character : Character → Bool
/// is_live_character character = is_unscheduled character.origin && is_within character.errors LSR.CHARACTER_ERRORS.0
/// ```
///
/// It uses `is_unscheduled` of `crates/uart_chip/specs/Receiver.antt`; `is_within` of this file.
///
/// <span id="is_ticking"></span>
///
/// # `is_ticking`
///
/// A character in the shift register has at least one tick left, and at most its whole time.
///
/// ```text
/// abbrev pub is_ticking : ℕ → Option Shifting → Bool
/// is_ticking char_ticks None = true
/// is_ticking char_ticks (Some s) = nat_le 1 s.ticks_left && nat_le s.ticks_left char_ticks
/// ```
///
/// <span id="is_char_time"></span>
///
/// # `is_char_time`
///
/// The ticks of a character are in their range.
///
/// ```text
/// abbrev pub is_char_time : ℕ → Bool
/// is_char_time char_ticks = nat_le 1 char_ticks && nat_le char_ticks MAX_CHAR_TICKS
/// ```
///
/// <span id="is_sound_modem"></span>
///
/// # `is_sound_modem`
///
/// Whether the modem lines and their changes are sound: none has a bit that is not its own.
///
/// ```text
/// abbrev pub is_sound_modem : ModemData → Bool
/// is_sound_modem m =
///     is_within m.inputs.0 MSR.LINES.0 && (is_within m.lines.0 MSR.LINES.0 && is_within m.deltas.0 MSR.CHANGES.0)
/// ```
///
/// It uses `is_within` of this file.
///
/// <span id="is_sound_latches"></span>
///
/// # `is_sound_latches`
///
/// Whether the latches are sound: IER and MCR have no bit that the chip does not keep.
///
/// ```text
/// abbrev pub is_sound_latches : Latches → Bool
/// is_sound_latches l = is_within l.ier.0 ier_bits && is_within l.mcr.0 mcr_bits
/// ```
///
/// It uses `is_within` of this file; `ier_bits`, `mcr_bits` of `crates/uart_chip/specs/Masks.antt`.
///
/// <span id="is_implemented"></span>
///
/// # `is_implemented`
///
/// Only a chip that has a FIFO has it on.
///
/// ```text
/// abbrev pub is_implemented : Chip → Bool → Bool
/// is_implemented Uart16550A fifo = true
/// is_implemented Uart16450 fifo = not fifo
/// ```
#[doc(alias("is_live_character", "is_ticking", "is_char_time", "is_sound_modem", "is_sound_latches", "is_implemented"))]
pub mod saved {}

/// Why no live chip is made.
///
/// From `crates/uart_live/specs/Refused.antt`.
///
/// <span id="refusal"></span>
///
/// # `refusal`
///
/// Why no chip is made, if none is: no FIFO holds so many characters, or else the ticks of a character are not in their range, or else the wire has room for too much.
///
/// ```text
/// abbrev pub refusal : (count char_ticks capacity : ℕ) → Option ChipError
/// refusal count char_ticks capacity =
///     if not (is_size count) then Some BadFifo
///     else if not (nat_le 1 char_ticks && nat_le char_ticks MAX_CHAR_TICKS) then Some BadTicks
///     else if nat_lt WIRE_ROOM capacity then Some BadWire
///     else None
/// ```
///
/// It uses [`is_size`](crate::proved::size#is_size).
#[doc(alias("refusal"))]
pub mod refused {}

/// What a guest does most often, and what a chip then does in few steps: reads of LSR that show no error, and bytes that are taken as soon as they are written.
///
/// From `crates/uart_live/specs/Quick.antt`.
///
/// <span id="clear_status"></span>
///
/// # `clear_status`
///
/// What a read of LSR returns, if it shows no error and no character that waits has one.
///
/// ```text
/// abbrev pub clear_status : ChipState → Option ℕ
/// clear_status c =
///     if list_any has_errors c.receiver.queue || has_any (line_status c) LSR.LINE_ERRORS.0 then None
///     else Some (line_status c)
/// ```
///
/// It uses [`has_any`](uart_spec::proved::bits#has_any); `ChipState`, `line_status` of `crates/uart_chip/specs/Chip.antt`; `has_errors` of `crates/uart_chip/specs/Receiver.antt`.
///
/// <span id="passed"></span>
///
/// # `passed`
///
/// A byte that was written to DATA was taken past the wire: THR became empty, which is an interrupt, and nothing else is new.
///
/// ```text
/// abbrev pub passed : ChipState → ChipState
/// passed c = record c { transmitter = record c.transmitter { is_thr_pending = true } }
/// ```
///
/// It uses `ChipState` of `crates/uart_chip/specs/Chip.antt`.
///
/// <span id="when_due"></span>
///
/// # `when_due`
///
/// A chip whose reception timeout is due, and whose THR-empty interrupt is pending, or is not.
///
/// ```text
/// abbrev pub when_due : (is_thr_pending : Bool) → ChipState → ChipState
/// when_due is_thr_pending c = with_thr_pending is_thr_pending (expire c)
/// ```
///
/// It uses [`with_thr_pending`](uart_chip::proved::chip#with_thr_pending), [`expire`](crate::proved::held#expire); `ChipState` of `crates/uart_chip/specs/Chip.antt`.
#[doc(alias("clear_status", "passed", "when_due"))]
pub mod quick {}

/// What a live chip drives its outputs to.
///
/// From `crates/uart_live/specs/Outputs.antt`.
///
/// <span id="outputs"></span>
///
/// # `outputs`
///
/// The outputs as the lines have them: DTR, RTS, OUT1 and OUT2 as MCR has them; in loopback all are off.
///
/// ```text
/// abbrev pub outputs : LatchesState → ℕ
/// outputs l =
///     if is_loopback l then 0
///     else bit_and l.mcr (MCR.DTR.0 + MCR.RTS.0 + MCR.OUT_1.0 + MCR.OUT_2_INT_ENABLE.0)
/// ```
///
/// It uses [`is_loopback`](uart_chip::proved::chip#is_loopback); `LatchesState` of `crates/uart_chip/specs/Chip.antt`.
pub mod outputs {}
