//! Definitions of `uart_chip`: the chip in software: what each access, tick, arrival or change of lines does to it, alone or under a schedule.
//!
//! Each is one that a section "Proved" of a call names. How a section is read is said [here](uart_spec::proved).

/// The transmitter: a queue, the shift register, and the wire.
///
/// From `crates/uart_chip/specs/Transmitter.antt`.
///
/// <span id="held"></span>
///
/// # `held`
///
/// What is still to be sent, in order.
///
/// ```text
/// abbrev pub held : TransmitterState → List ℕ
/// held t = shift_bytes t.shift_register ++ t.queue
/// ```
///
/// It uses `TransmitterState`, `shift_bytes` of this file.
#[doc(alias("held"))]
pub mod transmitter {}

/// The receiver: a queue of characters, and what became of each arrival.
///
/// From `crates/uart_chip/specs/Receiver.antt`.
///
/// <span id="waiting"></span>
///
/// # `waiting`
///
/// The received bytes that have not been read.
///
/// ```text
/// abbrev pub waiting : ReceiverState → List ℕ
/// waiting r = map (λ character. character.byte) r.queue
/// ```
///
/// It uses `ReceiverState` of this file.
#[doc(alias("waiting"))]
pub mod receiver {}

/// The chip: its registers, what an access does, and what happens between accesses.
///
/// From `crates/uart_chip/specs/Chip.antt`.
///
/// <span id="fresh"></span>
///
/// # `fresh`
///
/// A chip after power-on, whose FIFOs hold 16 characters, for a schedule with this number of arrivals.
///
/// ```text
/// abbrev pub fresh : Chip → ℕ → ℕ → ℕ → ChipState
/// fresh model char_ticks capacity arrivals =
///     record {
///       model = model;
///       latches = record { ier = 0; lcr = 0; mcr = 0; scr = 0; dll = 0; dlm = 0 };
///       fifo = false;
///       transmitter = transmitter.fresh Sixteen char_ticks capacity;
///       receiver = receiver.fresh Sixteen char_ticks arrivals;
///       modem = modem.fresh;
///       cuts = false;
///       auto_flow = false;
///       has_size_switch = false;
///     }
/// ```
///
/// It uses `ChipState` of this file; `fresh` of `crates/uart_chip/specs/Transmitter.antt`; `fresh` of `crates/uart_chip/specs/Receiver.antt`; `fresh` of `crates/uart_chip/specs/Modem.antt`.
///
/// <span id="with_size"></span>
///
/// # `with_size`
///
/// The same chip, with FIFOs of this size; a 16450 has none, and nothing that it does depends on their size.
///
/// ```text
/// abbrev pub with_size : FifoSize → ChipState → ChipState
/// with_size size c =
///     record c { transmitter = record c.transmitter { size = size }; receiver = record c.receiver { size = size } }
/// ```
///
/// It uses `ChipState` of this file.
///
/// <span id="is_dlab_set"></span>
///
/// # `is_dlab_set`
///
/// Whether offsets 0 and 1 are the divisor latch.
///
/// ```text
/// abbrev pub is_dlab_set : LatchesState → Bool
/// is_dlab_set l = has_any l.lcr LCR.DLAB.0
/// ```
///
/// It uses [`has_any`](uart_spec::proved::bits#has_any); `LatchesState` of this file.
///
/// <span id="is_loopback"></span>
///
/// # `is_loopback`
///
/// Whether what leaves the transmitter comes back to the receiver.
///
/// ```text
/// abbrev pub is_loopback : LatchesState → Bool
/// is_loopback l = has_any l.mcr MCR.LOOP_BACK.0
/// ```
///
/// It uses [`has_any`](uart_spec::proved::bits#has_any); `LatchesState` of this file.
///
/// <span id="divisor"></span>
///
/// # `divisor`
///
/// What the divisor latch holds.
///
/// ```text
/// abbrev pub divisor : LatchesState → ℕ
/// divisor l = 256 * l.dlm + l.dll
/// ```
///
/// It uses `LatchesState` of this file.
///
/// <span id="cut_of"></span>
///
/// # `cut_of`
///
/// A byte as the chip sends and receives it now: cut to its word length, if the chip has the option.
///
/// ```text
/// abbrev pub cut_of : ChipState → ℕ → ℕ
/// cut_of c byte = cut_to c.cuts (word_length c.latches.lcr) byte
/// ```
///
/// It uses `ChipState`, `cut_to`, `word_length` of this file.
///
/// <span id="ticks"></span>
///
/// # `ticks`
///
/// The chip after so many ticks.
///
/// ```text
/// abbrev pub ticks : ℕ → ChipState → ChipState
/// ticks zero c = c
/// ticks (suc n) c = tick (ticks n c)
/// ```
///
/// It uses `ChipState`, `tick` of this file.
///
/// <span id="arrive_live"></span>
///
/// # `arrive_live`
///
/// A character arrives without a schedule, cut to the word length.
///
/// ```text
/// abbrev pub arrive_live : ℕ → ℕ → ChipState → ChipState
/// arrive_live byte errors c =
///     record c { receiver = receiver.arrive_live (is_loopback c.latches) c.fifo (cut_of c byte) errors c.receiver }
/// ```
///
/// It uses [`is_loopback`](crate::proved::chip#is_loopback), [`cut_of`](crate::proved::chip#cut_of); `ChipState` of this file; `arrive_live` of `crates/uart_chip/specs/Receiver.antt`.
///
/// <span id="receive_room"></span>
///
/// # `receive_room`
///
/// How many characters can arrive before one is lost; in loopback each one is lost.
///
/// ```text
/// abbrev pub receive_room : ChipState → ℕ
/// receive_room c =
///     if is_loopback c.latches then 0 else transmitter.room c.fifo c.receiver.size - length c.receiver.queue
/// ```
///
/// It uses [`is_loopback`](crate::proved::chip#is_loopback); `ChipState` of this file; `room` of `crates/uart_chip/specs/Transmitter.antt`.
///
/// <span id="take_wire"></span>
///
/// # `take_wire`
///
/// A number of bytes are taken from the front of the wire.
///
/// ```text
/// abbrev pub take_wire : ℕ → ChipState → ChipState
/// take_wire count c = record c { transmitter = transmitter.take_wire count c.transmitter }
/// ```
///
/// It uses `ChipState` of this file; `take_wire` of `crates/uart_chip/specs/Transmitter.antt`.
///
/// <span id="change_lines"></span>
///
/// # `change_lines`
///
/// The modem's inputs change.
///
/// ```text
/// abbrev pub change_lines : ℕ → ChipState → ChipState
/// change_lines inputs c = record c { modem = renew c.latches.mcr (record c.modem { inputs = inputs }) }
/// ```
///
/// It uses `ChipState` of this file; `renew` of `crates/uart_chip/specs/Modem.antt`.
///
/// <span id="interrupt"></span>
///
/// # `interrupt`
///
/// The interrupt of the highest priority among those that are enabled and pending.
///
/// ```text
/// abbrev pub interrupt : ChipState → Option InterruptType
/// interrupt c =
///     if has_any c.latches.ier IER.RECEIVER_LINE_STATUS.0 && has_any (line_status c) LSR.LINE_ERRORS.0
///     then Some ReceiverLineStatus
///     else if has_any c.latches.ier IER.DATA_READY.0 && is_data_pending c.fifo c.receiver then Some ReceivedDataReady
///     else if has_any c.latches.ier IER.DATA_READY.0 && is_timed_out c.fifo c.receiver then Some ReceptionTimeout
///     else if has_any c.latches.ier IER.THR_EMPTY.0 && c.transmitter.is_thr_pending
///     then Some TransmitterHoldingRegisterEmpty
///     else if has_any c.latches.ier IER.MODEM_STATUS.0 && not (c.modem.deltas == 0) then Some ModemStatus
///     else None
/// ```
///
/// It uses [`has_any`](uart_spec::proved::bits#has_any); `ChipState`, `line_status` of this file; `is_data_pending`, `is_timed_out` of `crates/uart_chip/specs/Receiver.antt`.
///
/// <span id="with_thr_pending"></span>
///
/// # `with_thr_pending`
///
/// Whether a THR-empty interrupt is pending.
///
/// ```text
/// abbrev pub with_thr_pending : Bool → ChipState → ChipState
/// with_thr_pending pending c = record c { transmitter = record c.transmitter { is_thr_pending = pending } }
/// ```
///
/// It uses `ChipState` of this file.
///
/// <span id="answer"></span>
///
/// # `answer`
///
/// What a read of the register returns.
///
/// ```text
/// abbrev pub answer : ℕ → ChipState → ℕ
/// answer offset c =
///     if offset == offsets.DATA
///     then (if is_dlab_set c.latches then c.latches.dll else (take_front c.receiver.queue c.receiver).last_byte)
///     else if offset == offsets.IER then (if is_dlab_set c.latches then c.latches.dlm else c.latches.ier)
///     else if offset == offsets.ISR then bit_or (identification (interrupt c)) (fifo_flags c)
///     else if offset == offsets.LCR then c.latches.lcr
///     else if offset == offsets.MCR then c.latches.mcr
///     else if offset == offsets.LSR then line_status c
///     else if offset == offsets.MSR then bit_or c.modem.lines c.modem.deltas
///     else c.latches.scr
/// ```
///
/// It uses [`is_dlab_set`](crate::proved::chip#is_dlab_set), [`interrupt`](crate::proved::chip#interrupt); `ChipState`, `identification`, `fifo_flags`, `line_status` of this file; `take_front` of `crates/uart_chip/specs/Receiver.antt`.
///
/// <span id="after_read"></span>
///
/// # `after_read`
///
/// The chip after a read of the register.
///
/// ```text
/// abbrev pub after_read : ℕ → ChipState → ChipState
/// after_read offset c =
///     if offset == offsets.DATA
///     then (if is_dlab_set c.latches then c else record c { receiver = take_front c.receiver.queue c.receiver })
///     else if offset == offsets.ISR then (if is_thr_empty (interrupt c) then with_thr_pending false c else c)
///     else if offset == offsets.LSR then record c { receiver = report c.receiver }
///     else if offset == offsets.MSR then record c { modem = record c.modem { deltas = 0 } }
///     else c
/// ```
///
/// It uses [`is_dlab_set`](crate::proved::chip#is_dlab_set), [`interrupt`](crate::proved::chip#interrupt), [`with_thr_pending`](crate::proved::chip#with_thr_pending); `ChipState`, `is_thr_empty` of this file; `take_front`, `report` of `crates/uart_chip/specs/Receiver.antt`.
///
/// <span id="after_write"></span>
///
/// # `after_write`
///
/// The chip after a write of a register; a byte for the transmitter is cut to the word length before it is queued.
///
/// ```text
/// abbrev pub after_write : ℕ → ℕ → ChipState → ChipState
/// after_write offset value c =
///     if offset == offsets.DATA then write_data value c
///     else if offset == offsets.IER
///     then (if is_dlab_set c.latches then with_latches (record c.latches { dlm = value }) c else enable value c)
///     else if offset == offsets.FCR then control c.model value c
///     else if offset == offsets.LCR then with_latches (record c.latches { lcr = value }) c
///     else if offset == offsets.MCR then control_modem (kept_mcr c.auto_flow value) c
///     else if offset == offsets.SPR then with_latches (record c.latches { scr = value }) c
///     else c
/// ```
///
/// It uses [`is_dlab_set`](crate::proved::chip#is_dlab_set); `ChipState`, `write_data`, `with_latches`, `enable`, `control`, `control_modem` of this file; `kept_mcr` of `crates/uart_chip/specs/Masks.antt`.
#[doc(alias("fresh", "with_size", "is_dlab_set", "is_loopback", "divisor", "cut_of", "ticks", "arrive_live", "receive_room", "take_wire", "change_lines", "interrupt", "with_thr_pending", "answer", "after_read", "after_write"))]
pub mod chip {}

/// Ticks in jumps: when a character moves next, what happens until then, and how many jumps there are at most. No theorem rests on these definitions but that of `idle`, whose contract gives the effect of the ticks by those of `Chip`.
///
/// From `crates/uart_chip/specs/Jumps.antt`.
///
/// <span id="jumps_in"></span>
///
/// # `jumps_in`
///
/// How many jumps so many ticks are: each ends with a tick in which a character moves, and the last one with the last tick.
///
/// ```text
/// abbrev pub jumps_in : ℕ → ChipState → ℕ
/// jumps_in zero c = 0
/// jumps_in (suc n) c = if is_moving c then suc (jumps_in n (tick c)) else max 1 (jumps_in n (tick c))
/// ```
///
/// It uses `ChipState`, `tick` of `crates/uart_chip/specs/Chip.antt`; `is_moving` of this file.
///
/// <span id="most_jumps"></span>
///
/// # `most_jumps`
///
/// The most jumps that any number of ticks takes with a FIFO of this size, which are 18 with one of 16: one for each character in the queue, and for the one that enters or leaves the shift register, and one for what is left.
///
/// ```text
/// abbrev pub most_jumps : FifoSize → ℕ
/// most_jumps size = characters size + 2
/// ```
///
/// It uses [`characters`](uart_spec::proved::fifo_size#characters).
#[doc(alias("jumps_in", "most_jumps"))]
pub mod jumps {}

/// The whole chip as plain data.
///
/// From `crates/uart_chip/specs/Snapshot.antt`.
///
/// <span id="latches_of"></span>
///
/// # `latches_of`
///
/// The latches as bytes.
///
/// ```text
/// abbrev pub latches_of : Latches → LatchesState
/// latches_of l = record { ier = l.ier.0; lcr = l.lcr.0; mcr = l.mcr.0; scr = l.scr; dll = l.dll; dlm = l.dlm }
/// ```
///
/// It uses `LatchesState` of `crates/uart_chip/specs/Chip.antt`.
///
/// <span id="chip_of"></span>
///
/// # `chip_of`
///
/// The chip that these data describe, with these bytes on its wire and without a schedule; such a chip has no automatic flow control, and no switch of the size.
///
/// ```text
/// abbrev pub chip_of : ChipData → List ℕ → ChipState
/// chip_of c wire =
///     record {
///       model = c.model;
///       latches = latches_of c.latches;
///       fifo = c.fifo;
///       transmitter = transmitter_of c.transmitter wire;
///       receiver = receiver_of c.transmitter.char_ticks c.receiver;
///       modem = modem_of c.modem;
///       cuts = c.cuts;
///       auto_flow = false;
///       has_size_switch = false;
///     }
/// ```
///
/// It uses [`latches_of`](crate::proved::snapshot#latches_of); `ChipState` of `crates/uart_chip/specs/Chip.antt`; `transmitter_of`, `receiver_of`, `modem_of` of `crates/uart_chip/specs/Data.antt`.
#[doc(alias("latches_of", "chip_of"))]
pub mod snapshot {}

/// What holds of every machine that was built, whatever has happened to it since.
///
/// From `crates/uart_chip/specs/Sound.antt`.
///
/// <span id="HoldBytes"></span>
///
/// # `HoldBytes`
///
/// Every latch holds a byte.
///
/// ```text
/// pub record HoldBytes (l : LatchesState) : Type 0 where
///   pub ier : l.ier < 256
///   pub lcr : l.lcr < 256
///   pub mcr : l.mcr < 256
///   pub scr : l.scr < 256
///   pub dll : l.dll < 256
///   pub dlm : l.dlm < 256
/// ```
///
/// It uses `LatchesState` of `crates/uart_chip/specs/Chip.antt`.
#[doc(alias("HoldBytes"))]
pub mod sound {}

/// A byte that goes onto the wire at once, as after a write of DATA and two ticks if a character takes one.
///
/// From `crates/uart_chip/specs/Sending.antt`.
///
/// <span id="sends_at_once"></span>
///
/// # `sends_at_once`
///
/// A byte that is written to DATA would be on the wire at once: DLAB and loopback are off, the transmitter is not held off and holds nothing, and the wire has room.
///
/// ```text
/// abbrev pub sends_at_once : ChipState → Bool
/// sends_at_once c =
///     not (is_dlab_set c.latches) && (not (is_loopback c.latches) && (not (is_held_off c) && is_ready c.transmitter))
/// ```
///
/// It uses [`is_dlab_set`](crate::proved::chip#is_dlab_set), [`is_loopback`](crate::proved::chip#is_loopback); `ChipState`, `is_held_off` of `crates/uart_chip/specs/Chip.antt`; `is_ready` of this file.
///
/// <span id="send_at_once"></span>
///
/// # `send_at_once`
///
/// The byte, cut to the word length, is on the wire, and THR became empty, which is an interrupt; no time passed.
///
/// ```text
/// abbrev pub send_at_once : ℕ → ChipState → ChipState
/// send_at_once value c = record c { transmitter = put_on_wire (cut_of c value) c.transmitter }
/// ```
///
/// It uses [`cut_of`](crate::proved::chip#cut_of); `ChipState` of `crates/uart_chip/specs/Chip.antt`; `put_on_wire` of this file.
#[doc(alias("sends_at_once", "send_at_once"))]
pub mod sending {}
