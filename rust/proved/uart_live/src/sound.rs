//! Whether data are those of a live chip with FIFOs of some size: one test for each part of what
//! holds of it.
//!
//! Data are typed (a trigger level, an optional character in the shift register, registers), so
//! that less of them can be wrong. The wire comes beside the data: its owner has it already.
//!
//! The tests of small parts are public: the port in C uses them for its own structs.

use bitflags::Flags;
use uart_chip::{
    Character, Chip, ChipData, Latches, MAX_CHAR_TICKS, MAX_WIRE_CAPACITY, ModemData, Origin,
    ReceiverData, Shifting, TransmitterData, kept_interrupts, kept_modem_control, room_of,
};
use uart_spec::FifoSize;
use uart_spec::registers::{LSR, MSR};

/// The number of character times after which a reception timeout is due, if no character comes or
/// is read.
pub const TIMEOUT_CHARACTERS: u16 = 4;

/// Returns whether a character may wait in a live chip: it is no arrival of a schedule, and has
/// only errors of a character.
#[must_use]
///
/// # Proved
///
/// - Returns [`is_live_character`](crate::proved::saved#is_live_character) `character.now`: a character without a schedule, with only errors of a character.
///
/// <details><summary>The clauses</summary>
///
/// [How to read them](uart_spec::proved):
///
/// ```text
/// ensures { result ≡ spec.is_live_character character.now }
/// ```
///
/// </details>
pub fn is_live_character(character: &Character) -> bool {
    let errors = LSR::from_bits_retain(character.errors);
    let is_unscheduled = match character.origin {
        Origin::Looped | Origin::Live => true,
        Origin::Arrived(_) => false,
    };
    is_unscheduled && errors.intersection(LSR::CHARACTER_ERRORS) == errors
}

fn are_live(characters: &[Character]) -> bool {
    characters
        .iter()
        .all(|character| is_live_character(character))
}

fn is_sound_receiver(saved: &ReceiverData, size: FifoSize, fifo: bool, char_ticks: u16) -> bool {
    saved.queue.as_slice().len() <= room_of(fifo, size)
        && are_live(saved.queue.as_slice())
        && saved.timeout_ticks as u32 <= TIMEOUT_CHARACTERS as u32 * char_ticks as u32
}

/// Returns whether a character in the shift register has at least one tick left, and at most its
/// whole time.
#[must_use]
///
/// # Proved
///
/// - Returns [`is_ticking`](crate::proved::saved#is_ticking) `char_ticks shift_register`: a character in the shift register has at least one tick left, and at most its whole time.
///
/// <details><summary>The clauses</summary>
///
/// [How to read them](uart_spec::proved):
///
/// ```text
/// ensures { result ≡ spec.is_ticking char_ticks shift_register }
/// ```
///
/// </details>
pub fn is_ticking(char_ticks: u16, shift_register: Option<Shifting>) -> bool {
    match shift_register {
        None => true,
        Some(shifting) => 1 <= shifting.ticks_left && shifting.ticks_left <= char_ticks,
    }
}

/// Returns whether a character may take so many ticks.
#[must_use]
///
/// # Proved
///
/// - Returns [`is_char_time`](crate::proved::saved#is_char_time) `char_ticks`: the ticks of a character are in their range.
///
/// <details><summary>The clauses</summary>
///
/// [How to read them](uart_spec::proved):
///
/// ```text
/// ensures { result ≡ spec.is_char_time char_ticks }
/// ```
///
/// </details>
pub fn is_char_time(char_ticks: u16) -> bool {
    1 <= char_ticks && char_ticks <= MAX_CHAR_TICKS
}

fn is_sound_transmitter(saved: &TransmitterData, size: FifoSize, fifo: bool, wire: &[u8]) -> bool {
    is_char_time(saved.char_ticks)
        && is_ticking(saved.char_ticks, saved.shift_register)
        && saved.queue.as_slice().len() <= room_of(fifo, size)
        && wire.len() <= saved.wire_capacity
        && saved.wire_capacity <= MAX_WIRE_CAPACITY
}

/// Returns whether inputs and lines have bits of lines alone, and changes bits of changes.
#[must_use]
///
/// # Proved
///
/// - Returns [`is_sound_modem`](crate::proved::saved#is_sound_modem) `saved`: whether the modem lines and their changes are sound: none has a bit that is not its own.
///
/// <details><summary>The clauses</summary>
///
/// [How to read them](uart_spec::proved):
///
/// ```text
/// ensures { result ≡ spec.is_sound_modem saved }
/// ```
///
/// </details>
pub fn is_sound_modem(saved: ModemData) -> bool {
    saved.inputs.intersection(MSR::LINES) == saved.inputs
        && saved.lines.intersection(MSR::LINES) == saved.lines
        && saved.deltas.intersection(MSR::CHANGES) == saved.deltas
}

/// Returns whether the two latches that keep only some bits have no others.
#[must_use]
///
/// # Proved
///
/// - *value*: returns [`is_sound_latches`](crate::proved::saved#is_sound_latches) `latches`: whether the latches are sound: IER and MCR have no bit that the chip does not keep.
/// - *bytes*: [`HoldBytes`](uart_chip::proved::sound#HoldBytes) `(latches_of latches)`: every latch holds a byte.
///   - [`latches_of`](uart_chip::proved::snapshot#latches_of): the latches as bytes.
///
/// <details><summary>The clauses</summary>
///
/// [How to read them](uart_spec::proved):
///
/// ```text
/// ensures value { result ≡ spec.is_sound_latches latches }
/// ensures bytes { HoldBytes (latches_of latches) }
/// ```
///
/// </details>
pub fn is_sound_latches(latches: Latches) -> bool {
    kept_interrupts(latches.ier) == latches.ier && kept_modem_control(latches.mcr) == latches.mcr
}

/// Returns whether a chip of this model can have its FIFO as it is: only one that has a FIFO has it
/// on.
#[must_use]
///
/// # Proved
///
/// - Returns [`is_implemented`](crate::proved::saved#is_implemented) `model fifo`: only a chip that has a FIFO has it on.
///
/// <details><summary>The clauses</summary>
///
/// [How to read them](uart_spec::proved):
///
/// ```text
/// ensures { result ≡ spec.is_implemented model fifo }
/// ```
///
/// </details>
pub fn is_implemented(model: Chip, fifo: bool) -> bool {
    match model {
        Chip::Uart16550A => true,
        Chip::Uart16450 => !fifo,
    }
}

// Every part is sound.
fn are_sound(size: FifoSize, saved: &ChipData, wire: &[u8]) -> bool {
    is_sound_latches(saved.latches)
        && is_implemented(saved.model, saved.fifo)
        && is_sound_modem(saved.modem)
        && is_sound_receiver(
            &saved.receiver,
            size,
            saved.fifo,
            saved.transmitter.char_ticks,
        )
        && is_sound_transmitter(&saved.transmitter, size, saved.fifo, wire)
}

/// Returns whether the data, and these bytes on the wire, are those of a live chip with FIFOs of
/// this size.
#[must_use]
///
/// # Proved
///
/// - *sound*: if it returns `true`: [`IsLive`](crate::proved::live#IsLive) `size (with_size size (chip_of saved.now wire.now))`: the chip is sound and has nothing of a schedule: no event is to come, no arrival has a mark, none can be lost unnoticed; the wire has room for at most as much as a wire may have, the FIFOs have this size and no switch of it, and flow control is left to the driver.
///   - [`with_size`](uart_chip::proved::chip#with_size): the same chip, with FIFOs of this size; a 16450 has none, and nothing that it does depends on their size.
///   - [`chip_of`](uart_chip::proved::snapshot#chip_of): the chip that these data describe, with these bytes on its wire and without a schedule; such a chip has no automatic flow control, and no switch of the size.
/// - *unsound*: if it returns `false`: it is not so that [`IsLive`](crate::proved::live#IsLive) `size (with_size size (chip_of saved.now wire.now))`.
///
/// <details><summary>The clauses</summary>
///
/// [How to read them](uart_spec::proved):
///
/// ```text
/// ensures sound { result ≡ true → IsLive size (with_size size (chip_of saved.now wire.now)) }
/// ensures unsound { result ≡ false → IsLive size (with_size size (chip_of saved.now wire.now)) → ⊥ }
/// ```
///
/// </details>
pub fn is_live(size: FifoSize, saved: &ChipData, wire: &[u8]) -> bool {
    are_sound(size, saved, wire)
}
