//! A live chip as plain data, and back.

use super::LiveChipWith;
use crate::errors::RestoreError;
use crate::fixed::{FixedFifo, FixedWire, NoMarks, WIRE_ROOM};
use crate::sound::is_live;
use uart_chip::{Character, ChipData, Uart, send};
use uart_spec::{FIFO_SIZE, FifoSize};

// The arrays of the data hold 16 characters.
impl LiveChipWith<FIFO_SIZE> {
    /// Returns the chip as plain data. The bytes on its wire are [`LiveChipWith::wire`].
    ///
    /// # Examples
    ///
    /// ```
    /// # include!(concat!(env!("CARGO_MANIFEST_DIR"), "/examples.rs"));
    /// # fn main() {}
    /// # fn example(chip: &mut LiveChip) -> Outcome<()> {
    /// let saved = chip.data();
    /// let restored = LiveChip::from_data(&saved, chip.wire())?;
    /// # Ok(()) }
    /// ```
    ///
    /// # Proved
    ///
    /// - *data*: `chip_of result self.now.transmitter.wire ≡ self.now`.
    ///   - [`chip_of`](uart_chip::proved::snapshot#chip_of): the chip that these data describe, with these bytes on its wire and without a schedule; such a chip has no automatic flow control, and no switch of the size.
    /// - *live*: [`IsLive`](crate::proved::live#IsLive) `Sixteen self.now`: the chip is sound and has nothing of a schedule: no event is to come, no arrival has a mark, none can be lost unnoticed; the wire has room for at most as much as a wire may have, the FIFOs have this size and no switch of it, and flow control is left to the driver.
    ///
    /// <details><summary>The clauses</summary>
    ///
    /// [How to read them](uart_spec::proved):
    ///
    /// ```text
    /// ensures data { chip_of result self.now.transmitter.wire ≡ self.now }
    /// ensures live { IsLive Sixteen self.now }
    /// ```
    ///
    /// </details>
    #[must_use]
    pub fn data(&self) -> ChipData {
        self.uart.data()
    }

    /// Returns the chip with these data, and with these bytes on its wire. It continues as the chip
    /// that was saved.
    ///
    /// # Errors
    ///
    /// The first of these:
    ///
    /// - `BadData` if the data are not those of a live chip.
    /// - `BadWire` if its wire has room for more than 64 bytes.
    ///
    /// # Examples
    ///
    /// ```
    /// # include!(concat!(env!("CARGO_MANIFEST_DIR"), "/examples.rs"));
    /// # fn main() {}
    /// # fn example(chip: &mut LiveChip, saved: &ChipData) -> Outcome<()> {
    /// let restored = LiveChip::from_data(&saved, chip.wire())?;
    /// # Ok(()) }
    /// ```
    ///
    /// # Proved
    ///
    /// - *restored*: if it returns `Ok live`: `live` is [`chip_of`](uart_chip::proved::snapshot#chip_of) `saved.now wire.now`: the chip that these data describe, with these bytes on its wire and without a schedule; such a chip has no automatic flow control, and no switch of the size.
    /// - *refused*: unless [`IsLive`](crate::proved::live#IsLive) `Sixteen (chip_of saved.now wire.now)`: returns `Err RestoreError.BadData`.
    ///   - [`IsLive`](crate::proved::live#IsLive): the chip is sound and has nothing of a schedule: no event is to come, no arrival has a mark, none can be lost unnoticed; the wire has room for at most as much as a wire may have, the FIFOs have this size and no switch of it, and flow control is left to the driver.
    /// - *large*: if [`IsLive`](crate::proved::live#IsLive) `Sixteen (chip_of saved.now wire.now)`, and `WIRE_ROOM < saved.now.transmitter.wire_capacity`: returns `Err RestoreError.BadWire`.
    /// - *accepted*: if [`IsLive`](crate::proved::live#IsLive) `Sixteen (chip_of saved.now wire.now)`, and `saved.now.transmitter.wire_capacity ≤ WIRE_ROOM`: returns `Ok`.
    ///
    /// <details><summary>The clauses</summary>
    ///
    /// [How to read them](uart_spec::proved):
    ///
    /// ```text
    /// ensures restored { IfOk result (λ live. live ≡ chip_of saved.now wire.now) }
    /// ensures refused { (IsLive Sixteen (chip_of saved.now wire.now) → ⊥) → result ≡ Err RestoreError.BadData }
    /// ensures large { IsLive Sixteen (chip_of saved.now wire.now) → WIRE_ROOM < saved.now.transmitter.wire_capacity → result ≡ Err RestoreError.BadWire }
    /// ensures accepted { IsLive Sixteen (chip_of saved.now wire.now) → saved.now.transmitter.wire_capacity ≤ WIRE_ROOM → IsOk result }
    /// ```
    ///
    /// </details>
    pub fn from_data(saved: &ChipData, wire: &[u8]) -> Result<Self, RestoreError> {
        if !is_live(FifoSize::Sixteen, saved, wire) {
            return Err(RestoreError::BadData);
        }
        if saved.transmitter.wire_capacity > WIRE_ROOM {
            return Err(RestoreError::BadWire);
        }
        let mut sent = FixedWire::new(saved.transmitter.wire_capacity);
        send(&mut sent, wire);
        let uart = Uart::from_parts(
            FixedFifo::new(0),
            sent,
            FixedFifo::new(Character::default()),
            NoMarks,
            saved,
        );
        Ok(Self { uart })
    }
}
