//! The interrupts that ISR identifies.

/// An interrupt, in the order in which a chip reports interrupts that are pending together.
#[derive(Clone, Copy, Debug, PartialEq, Eq, PartialOrd, Ord, Hash)]
pub enum InterruptType {
    /// An overrun, a parity error, a framing error or a break. A read of LSR acknowledges it.
    ReceiverLineStatus,
    /// Received characters are available, with FIFOs as many as the trigger level. Reads of DATA
    /// acknowledge it.
    ReceivedDataReady,
    /// The receiver FIFO holds fewer characters than the trigger level, and for a while none was
    /// received or read. Reads of DATA acknowledge it.
    ReceptionTimeout,
    /// The transmitter holding register (THR), or the transmitter FIFO, is empty. A read of ISR or
    /// a write of DATA acknowledges it.
    TransmitterHoldingRegisterEmpty,
    /// A modem line changed. A read of MSR acknowledges it.
    ModemStatus,
    /// A DMA reception ended, on chips with DMA signals.
    DmaReceptionEndOfTransfer,
    /// A DMA transmission ended, on chips with DMA signals.
    DmaTransmissionEndOfTransfer,
}

impl InterruptType {
    /// Returns the priority, from 1, the highest, to 6. Two cases share priority 2.
    ///
    /// # Proved
    ///
    /// - Returns [`priority`](crate::proved::fields#priority) `self`: the priority of an interrupt; 1 is the highest.
    ///
    /// <details><summary>The clauses</summary>
    ///
    /// [How to read them](crate::proved):
    ///
    /// ```text
    /// ensures { result ≡ priority self }
    /// ```
    ///
    /// </details>
    #[must_use]
    pub const fn priority(self) -> u8 {
        match self {
            InterruptType::ReceiverLineStatus => 1,
            InterruptType::ReceivedDataReady | InterruptType::ReceptionTimeout => 2,
            InterruptType::TransmitterHoldingRegisterEmpty => 3,
            InterruptType::ModemStatus => 4,
            InterruptType::DmaReceptionEndOfTransfer => 5,
            InterruptType::DmaTransmissionEndOfTransfer => 6,
        }
    }

    /// Returns the interrupt that the low nibble of an ISR value identifies.
    ///
    /// Returns `None` if bit 0 is set, since no interrupt is pending then, and also for the code
    /// 100 in bits 3 to 1, although an interrupt is pending then.
    ///
    /// # Proved
    ///
    /// - [Returns the one value, if there is one, for which](crate::proved::bits#IsOnlyIfAny) [`Identifies`](crate::proved::fields#Identifies) `isr_bits`: bit 0 is clear, so an interrupt is pending, and the code is that of this interrupt.
    ///
    /// <details><summary>The clauses</summary>
    ///
    /// [How to read them](crate::proved):
    ///
    /// ```text
    /// ensures { IsOnlyIfAny (Identifies isr_bits) result }
    /// ```
    ///
    /// </details>
    #[must_use]
    pub const fn from_bits(isr_bits: u8) -> Option<Self> {
        match isr_bits & 0b1111 {
            0b0110 => Some(InterruptType::ReceiverLineStatus),
            0b0100 => Some(InterruptType::ReceivedDataReady),
            0b1100 => Some(InterruptType::ReceptionTimeout),
            0b0010 => Some(InterruptType::TransmitterHoldingRegisterEmpty),
            0b0000 => Some(InterruptType::ModemStatus),
            0b1110 => Some(InterruptType::DmaReceptionEndOfTransfer),
            0b1010 => Some(InterruptType::DmaTransmissionEndOfTransfer),
            _ => None,
        }
    }

    /// Returns the low nibble of an ISR value that identifies this interrupt.
    ///
    /// # Proved
    ///
    /// - *bits*: returns `2 * interrupt_code self`.
    ///   - [`interrupt_code`](crate::proved::fields#interrupt_code): the identification code of an interrupt, bits 1 to 3 of ISR.
    /// - *read_back*: [`Identifies`](crate::proved::fields#Identifies) `result self`: bit 0 is clear, so an interrupt is pending, and the code is that of this interrupt.
    ///
    /// <details><summary>The clauses</summary>
    ///
    /// [How to read them](crate::proved):
    ///
    /// ```text
    /// ensures bits { result ≡ 2 * interrupt_code self }
    /// ensures read_back { Identifies result self }
    /// ```
    ///
    /// </details>
    #[must_use]
    pub const fn to_bits(self) -> u8 {
        match self {
            InterruptType::ReceiverLineStatus => 0b0110,
            InterruptType::ReceivedDataReady => 0b0100,
            InterruptType::ReceptionTimeout => 0b1100,
            InterruptType::TransmitterHoldingRegisterEmpty => 0b0010,
            InterruptType::ModemStatus => 0b0000,
            InterruptType::DmaReceptionEndOfTransfer => 0b1110,
            InterruptType::DmaTransmissionEndOfTransfer => 0b1010,
        }
    }
}
