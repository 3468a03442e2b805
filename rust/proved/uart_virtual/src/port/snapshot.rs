//! A port as plain data, and back.

use super::{CHAR_TICKS, RENEWED, UNTOLD, VirtualPort, VirtualPortWith, decide};
use crate::told::Todo;
use bitflags::Flags;
use uart_live::{ChipData, LiveChip, RestoreError, TransmitterData, WIRE_ROOM};
use uart_spec::FIFO_SIZE;
use uart_spec::registers::MCR;

// The ticks after which a reception timeout is due: four characters, each of one tick.
const TIMEOUT_TICKS: u16 = 4;

/// A port that was restored, and what its monitor has to do.
pub struct Restored {
    /// The port.
    pub port: VirtualPort,
    /// What the monitor has to do.
    pub todo: Todo,
}

// Returns whether no character can move, with this output: the transmitter is empty, or holds bytes
// only because the output is full.
fn is_unmoved(saved: &TransmitterData, loopback: bool, output: &[u8]) -> bool {
    match saved.shift_register {
        None => saved.queue.as_slice().is_empty(),
        Some(_) => !loopback && output.len() >= saved.wire_capacity,
    }
}

// Returns whether nothing is left to happen to a chip with these data and this output.
fn is_settled(saved: &ChipData, output: &[u8]) -> bool {
    let loopback = saved.latches.mcr.intersects(MCR::LOOP_BACK);
    saved.transmitter.char_ticks == CHAR_TICKS
        && saved.transmitter.wire_capacity == WIRE_ROOM
        && saved.receiver.timeout_ticks == TIMEOUT_TICKS
        && is_unmoved(&saved.transmitter, loopback, output)
}

// The arrays of the data hold 16 characters.
impl VirtualPortWith<FIFO_SIZE> {
    /// Returns the port as plain data. The bytes of its output are [`VirtualPortWith::output`].
    ///
    /// What the monitor was told is not part of the data: a monitor that restores a port is told
    /// anew.
    ///
    /// # Examples
    ///
    /// ```
    /// # include!(concat!(env!("CARGO_MANIFEST_DIR"), "/examples.rs"));
    /// # fn main() {}
    /// # fn example(port: &mut VirtualPort, host: &mut Host) -> Outcome<()> {
    /// let saved = port.data();
    /// let restored = VirtualPort::from_data(&saved, port.output())?;
    /// obey_signals(host, restored.todo);
    /// # Ok(()) }
    /// ```
    ///
    /// # Proved
    ///
    /// - *data*: `chip_of result self.now.chip.transmitter.wire ≡ self.now.chip`.
    ///   - [`chip_of`](uart_chip::proved::snapshot#chip_of): the chip that these data describe, with these bytes on its wire and without a schedule; such a chip has no automatic flow control, and no switch of the size.
    /// - *saved*: [`IsSaved`](crate::proved::port#IsSaved) `result self.now.chip.transmitter.wire`: these data, and these bytes of output, are those of a port with FIFOs of 16: the chip is live, and nothing is left to happen.
    ///
    /// <details><summary>The clauses</summary>
    ///
    /// [How to read them](uart_spec::proved):
    ///
    /// ```text
    /// ensures data { chip_of result self.now.chip.transmitter.wire ≡ self.now.chip }
    /// ensures saved { IsSaved result self.now.chip.transmitter.wire }
    /// ```
    ///
    /// </details>
    #[must_use]
    pub fn data(&self) -> ChipData {
        self.chip.data()
    }

    /// Returns the port with these data, and with this output. Its guest goes on as with the port
    /// that was saved.
    ///
    /// What has to be done is said beside it. If the line is up, that is a signal: the last one may
    /// have been lost on the way. If there is room for input, that is told too.
    ///
    /// # Errors
    ///
    /// `BadData` if no port has these data: the chip is not sound, a character does not take one
    /// tick, the output has not room for 64 bytes, or something is left to happen.
    ///
    /// # Examples
    ///
    /// ```
    /// # include!(concat!(env!("CARGO_MANIFEST_DIR"), "/examples.rs"));
    /// # fn main() {}
    /// # fn example(port: &mut VirtualPort, host: &mut Host) -> Outcome<()> {
    /// let saved = port.data();
    /// let restored = VirtualPort::from_data(&saved, port.output())?;
    /// obey_signals(host, restored.todo);
    /// # Ok(()) }
    /// ```
    ///
    /// # Proved
    ///
    /// - *port*: if it returns `Ok r`: `r.port ≡ begun (chip_of saved.now output.now)`.
    ///   - [`begun`](crate::proved::port#begun): a port whose monitor was told of this chip, and of nothing before.
    ///   - [`chip_of`](uart_chip::proved::snapshot#chip_of): the chip that these data describe, with these bytes on its wire and without a schedule; such a chip has no automatic flow control, and no switch of the size.
    /// - *todo*: if it returns `Ok r`: `r.todo ≡ todo_of renewed true (chip_of saved.now output.now) untold`.
    ///   - [`todo_of`](crate::proved::port#todo_of): what the monitor has to do, with what is seen of the chip when the call ends.
    ///   - [`renewed`](crate::proved::port#renewed): a port that is new, or restored.
    ///   - [`untold`](crate::proved::port#untold): nothing was told yet.
    /// - *accepted*: if [`IsSaved`](crate::proved::port#IsSaved) `saved.now output.now`: returns `Ok`.
    ///   - [`IsSaved`](crate::proved::port#IsSaved): these data, and these bytes of output, are those of a port with FIFOs of 16: the chip is live, and nothing is left to happen.
    /// - *refused*: unless [`IsSaved`](crate::proved::port#IsSaved) `saved.now output.now`: returns `Err RestoreError.BadData`.
    ///
    /// <details><summary>The clauses</summary>
    ///
    /// [How to read them](uart_spec::proved):
    ///
    /// ```text
    /// ensures port { IfOk result (λ r. r.port ≡ begun (chip_of saved.now output.now)) }
    /// ensures todo { IfOk result (λ r. r.todo ≡ todo_of renewed true (chip_of saved.now output.now) untold) }
    /// ensures accepted { IsSaved saved.now output.now → IsOk result }
    /// ensures refused { (IsSaved saved.now output.now → ⊥) → result ≡ Err RestoreError.BadData }
    /// ```
    ///
    /// </details>
    pub fn from_data(saved: &ChipData, output: &[u8]) -> Result<Restored, RestoreError> {
        if !is_settled(saved, output) {
            return Err(RestoreError::BadData);
        }
        let chip = LiveChip::from_data(saved, output)?;
        let mut told = UNTOLD;
        let todo = decide(&chip, true, &mut told, RENEWED);
        let port = VirtualPortWith { chip, told };
        Ok(Restored { port, todo })
    }
}
