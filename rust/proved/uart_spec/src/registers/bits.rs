//! The named bits of each register, and the table of them.

use crate::registers::{FCR, IER, ISR, LCR, LSR, MCR, MSR, PSD};
use bitflags::{Flag, Flags};

impl IER {
    /// Received data is available. With FIFOs: as many characters as the trigger level, or a
    /// reception timeout.
    pub const DATA_READY: IER = IER(1 << 0);

    /// The transmitter holding register (THR) is empty. Not every device raises an interrupt if
    /// this bit is set while the transmitter is already empty, so send the first bytes directly,
    /// and the rest on interrupts.
    pub const THR_EMPTY: IER = IER(1 << 1);

    /// An overrun, a parity error, a framing error or a break was detected.
    pub const RECEIVER_LINE_STATUS: IER = IER(1 << 2);

    /// One of the modem lines CTS, DSR, RI and CD changed.
    pub const MODEM_STATUS: IER = IER(1 << 3);

    /// No function on a 16550.
    pub const _RESERVED0: IER = IER(1 << 4);

    /// No function on a 16550.
    pub const _RESERVED1: IER = IER(1 << 5);

    /// A DMA reception ended, on chips with DMA signals.
    pub const DMA_RX_END: IER = IER(1 << 6);

    /// A DMA transmission ended, on chips with DMA signals.
    pub const DMA_TX_END: IER = IER(1 << 7);

    // No interrupt, for constants: they cannot call `empty`.
    pub(crate) const NONE: IER = IER(0);

    const FLAGS: &'static [Flag<IER>] = &[
        Flag {
            name: "DATA_READY",
            value: IER::DATA_READY,
        },
        Flag {
            name: "THR_EMPTY",
            value: IER::THR_EMPTY,
        },
        Flag {
            name: "RECEIVER_LINE_STATUS",
            value: IER::RECEIVER_LINE_STATUS,
        },
        Flag {
            name: "MODEM_STATUS",
            value: IER::MODEM_STATUS,
        },
        Flag {
            name: "_RESERVED0",
            value: IER::_RESERVED0,
        },
        Flag {
            name: "_RESERVED1",
            value: IER::_RESERVED1,
        },
        Flag {
            name: "DMA_RX_END",
            value: IER::DMA_RX_END,
        },
        Flag {
            name: "DMA_TX_END",
            value: IER::DMA_TX_END,
        },
    ];
}

impl Flags for IER {
    type Bits = u8;

    fn flags<'a>() -> &'a [Flag<IER>] {
        IER::FLAGS
    }

    fn bits(&self) -> u8 {
        self.0
    }

    fn from_bits_retain(bits: u8) -> IER {
        IER(bits)
    }
}

impl ISR {
    /// Clear while an interrupt is pending.
    pub const INTERRUPT_STATUS: ISR = ISR(1 << 0);

    /// Bit 0 of the interrupt identification code.
    pub const IIC_0: ISR = ISR(1 << 1);

    /// Bit 1 of the interrupt identification code.
    pub const IIC_1: ISR = ISR(1 << 2);

    /// Bit 2 of the interrupt identification code.
    pub const IIC_2: ISR = ISR(1 << 3);

    /// A DMA reception ended, on chips with DMA signals.
    pub const DMA_RX_END: ISR = ISR(1 << 4);

    /// A DMA transmission ended, on chips with DMA signals.
    pub const DMA_TX_END: ISR = ISR(1 << 5);

    /// The FIFOs are on and hold 64 characters, on chips that have such, as a 16750.
    // The same bit as `DMA_TX_END`, by which the original crate calls it: that name is the one in
    // the list of names, so that texts of ISR are those of the original.
    pub const FIFO_64_ENABLED: ISR = ISR(ISR::DMA_TX_END.0);

    /// The first of two bits that are both set while the FIFOs are on.
    pub const FIFOS_ENABLED0: ISR = ISR(1 << 6);

    /// The second of two bits that are both set while the FIFOs are on. A chip that sets this one
    /// alone has FIFOs that do not work.
    pub const FIFOS_ENABLED1: ISR = ISR(1 << 7);

    /// The two bits that are both set while the FIFOs are on.
    pub const FIFOS_ENABLED: ISR = ISR(ISR::FIFOS_ENABLED0.0 | ISR::FIFOS_ENABLED1.0);

    const FLAGS: &'static [Flag<ISR>] = &[
        Flag {
            name: "INTERRUPT_STATUS",
            value: ISR::INTERRUPT_STATUS,
        },
        Flag {
            name: "IIC_0",
            value: ISR::IIC_0,
        },
        Flag {
            name: "IIC_1",
            value: ISR::IIC_1,
        },
        Flag {
            name: "IIC_2",
            value: ISR::IIC_2,
        },
        Flag {
            name: "DMA_RX_END",
            value: ISR::DMA_RX_END,
        },
        Flag {
            name: "DMA_TX_END",
            value: ISR::DMA_TX_END,
        },
        Flag {
            name: "FIFOS_ENABLED0",
            value: ISR::FIFOS_ENABLED0,
        },
        Flag {
            name: "FIFOS_ENABLED1",
            value: ISR::FIFOS_ENABLED1,
        },
    ];
}

impl Flags for ISR {
    type Bits = u8;

    fn flags<'a>() -> &'a [Flag<ISR>] {
        ISR::FLAGS
    }

    fn bits(&self) -> u8 {
        self.0
    }

    fn from_bits_retain(bits: u8) -> ISR {
        ISR(bits)
    }
}

impl FCR {
    /// Turns both FIFOs on. The other bits of a write have an effect only together with this one.
    pub const FIFO_ENABLE: FCR = FCR(1 << 0);

    /// Empties the receiver FIFO. The chip clears the bit itself.
    pub const RX_FIFO_RESET: FCR = FCR(1 << 1);

    /// Empties the transmitter FIFO, but not the shift register. The chip clears the bit itself.
    pub const TX_FIFO_RESET: FCR = FCR(1 << 2);

    /// Selects DMA mode 1, on chips with DMA signals.
    pub const DMA_MODE: FCR = FCR(1 << 3);

    /// Enables the end-of-DMA signals, on chips that have them.
    pub const ENABLE_DMA_END: FCR = FCR(1 << 4);

    /// No function on a 16550.
    pub const _RESERVED0: FCR = FCR(1 << 5);

    /// FIFOs of 64 characters, on chips that have them, as a 16750: it looks at this bit only while
    /// DLAB is set.
    // The same bit as `_RESERVED0`, by which the original crate calls it: that name is the one in
    // the list of names, so that texts of FCR are those of the original.
    pub const FIFO_64_ENABLE: FCR = FCR(FCR::_RESERVED0.0);

    /// Bit 0 of the receiver trigger level.
    pub const RX_FIFO_TRIGGER_LEVEL0: FCR = FCR(1 << 6);

    /// Bit 1 of the receiver trigger level.
    pub const RX_FIFO_TRIGGER_LEVEL1: FCR = FCR(1 << 7);

    /// The field of the trigger level.
    pub const RX_FIFO_TRIGGER_LEVEL: FCR = FCR(
        FCR::RX_FIFO_TRIGGER_LEVEL0.0 | FCR::RX_FIFO_TRIGGER_LEVEL1.0,
    );

    const FLAGS: &'static [Flag<FCR>] = &[
        Flag {
            name: "FIFO_ENABLE",
            value: FCR::FIFO_ENABLE,
        },
        Flag {
            name: "RX_FIFO_RESET",
            value: FCR::RX_FIFO_RESET,
        },
        Flag {
            name: "TX_FIFO_RESET",
            value: FCR::TX_FIFO_RESET,
        },
        Flag {
            name: "DMA_MODE",
            value: FCR::DMA_MODE,
        },
        Flag {
            name: "ENABLE_DMA_END",
            value: FCR::ENABLE_DMA_END,
        },
        Flag {
            name: "_RESERVED0",
            value: FCR::_RESERVED0,
        },
        Flag {
            name: "RX_FIFO_TRIGGER_LEVEL0",
            value: FCR::RX_FIFO_TRIGGER_LEVEL0,
        },
        Flag {
            name: "RX_FIFO_TRIGGER_LEVEL1",
            value: FCR::RX_FIFO_TRIGGER_LEVEL1,
        },
    ];
}

impl Flags for FCR {
    type Bits = u8;

    fn flags<'a>() -> &'a [Flag<FCR>] {
        FCR::FLAGS
    }

    fn bits(&self) -> u8 {
        self.0
    }

    fn from_bits_retain(bits: u8) -> FCR {
        FCR(bits)
    }
}

impl LCR {
    /// Bit 0 of the word length.
    pub const WORD_LENGTH0: LCR = LCR(1 << 0);

    /// Bit 1 of the word length.
    pub const WORD_LENGTH1: LCR = LCR(1 << 1);

    /// Two stop bits instead of one, or one and a half with words of five bits.
    pub const MORE_STOP_BITS: LCR = LCR(1 << 2);

    /// Bit 0 of the parity field: parity is sent and checked.
    pub const PARITY0: LCR = LCR(1 << 3);

    /// Bit 1 of the parity field: even instead of odd.
    pub const PARITY1: LCR = LCR(1 << 4);

    /// Bit 2 of the parity field: the parity bit is forced to a constant.
    pub const PARITY2: LCR = LCR(1 << 5);

    /// Holds the line in the break condition.
    pub const SET_BREAK: LCR = LCR(1 << 6);

    /// Divisor latch access bit: while it is set, offsets 0 and 1 are DLL and DLM.
    pub const DLAB: LCR = LCR(1 << 7);

    /// The field of the word length.
    pub const WORD_LENGTH: LCR = LCR(LCR::WORD_LENGTH0.0 | LCR::WORD_LENGTH1.0);

    const FLAGS: &'static [Flag<LCR>] = &[
        Flag {
            name: "WORD_LENGTH0",
            value: LCR::WORD_LENGTH0,
        },
        Flag {
            name: "WORD_LENGTH1",
            value: LCR::WORD_LENGTH1,
        },
        Flag {
            name: "MORE_STOP_BITS",
            value: LCR::MORE_STOP_BITS,
        },
        Flag {
            name: "PARITY0",
            value: LCR::PARITY0,
        },
        Flag {
            name: "PARITY1",
            value: LCR::PARITY1,
        },
        Flag {
            name: "PARITY2",
            value: LCR::PARITY2,
        },
        Flag {
            name: "SET_BREAK",
            value: LCR::SET_BREAK,
        },
        Flag {
            name: "DLAB",
            value: LCR::DLAB,
        },
    ];
}

impl Flags for LCR {
    type Bits = u8;

    fn flags<'a>() -> &'a [Flag<LCR>] {
        LCR::FLAGS
    }

    fn bits(&self) -> u8 {
        self.0
    }

    fn from_bits_retain(bits: u8) -> LCR {
        LCR(bits)
    }
}

impl MCR {
    /// Data terminal ready: this side is present.
    pub const DTR: MCR = MCR(1 << 0);

    /// Request to send: this side is ready to receive.
    pub const RTS: MCR = MCR(1 << 1);

    /// Auxiliary output 1, without a fixed use.
    pub const OUT_1: MCR = MCR(1 << 2);

    /// Auxiliary output 2. On a PC it gates the interrupt line, so interrupts need it set.
    pub const OUT_2_INT_ENABLE: MCR = MCR(1 << 3);

    /// Loopback: what is sent returns to the receiver, and the four outputs return as modem inputs.
    /// Nothing goes out on the line.
    pub const LOOP_BACK: MCR = MCR(1 << 4);

    /// This side is there and ready, and its interrupt line is connected: DTR, RTS and OUT2.
    pub const READY: MCR = MCR(MCR::DTR.0 | MCR::RTS.0 | MCR::OUT_2_INT_ENABLE.0);

    /// No function on a 16550.
    pub const _RESERVED0: MCR = MCR(1 << 5);

    /// Automatic flow control, on chips that have it, as a 16750: the transmitter takes no next
    /// character while CTS is off, and the chip turns its output RTS off while its receiver has as
    /// many characters as the trigger level.
    // The same bit as `_RESERVED0`, by which the original crate calls it: that name is the one in
    // the list of names, so that texts of MCR are those of the original.
    pub const AUTO_FLOW: MCR = MCR(MCR::_RESERVED0.0);

    /// No function on a 16550.
    pub const _RESERVED1: MCR = MCR(1 << 6);

    /// No function on a 16550.
    pub const _RESERVED2: MCR = MCR(1 << 7);

    const FLAGS: &'static [Flag<MCR>] = &[
        Flag {
            name: "DTR",
            value: MCR::DTR,
        },
        Flag {
            name: "RTS",
            value: MCR::RTS,
        },
        Flag {
            name: "OUT_1",
            value: MCR::OUT_1,
        },
        Flag {
            name: "OUT_2_INT_ENABLE",
            value: MCR::OUT_2_INT_ENABLE,
        },
        Flag {
            name: "LOOP_BACK",
            value: MCR::LOOP_BACK,
        },
        Flag {
            name: "_RESERVED0",
            value: MCR::_RESERVED0,
        },
        Flag {
            name: "_RESERVED1",
            value: MCR::_RESERVED1,
        },
        Flag {
            name: "_RESERVED2",
            value: MCR::_RESERVED2,
        },
    ];
}

impl Flags for MCR {
    type Bits = u8;

    fn flags<'a>() -> &'a [Flag<MCR>] {
        MCR::FLAGS
    }

    fn bits(&self) -> u8 {
        self.0
    }

    fn from_bits_retain(bits: u8) -> MCR {
        MCR(bits)
    }
}

impl LSR {
    /// A received character is available in the receiver buffer register (RBR) or the receiver
    /// FIFO.
    pub const DATA_READY: LSR = LSR(1 << 0);

    /// A received character was lost because the receiver was full.
    pub const OVERRUN_ERROR: LSR = LSR(1 << 1);

    /// The character at the front has a wrong parity.
    pub const PARITY_ERROR: LSR = LSR(1 << 2);

    /// The character at the front has no valid stop bit.
    pub const FRAMING_ERROR: LSR = LSR(1 << 3);

    /// The line was held in the break condition while the character at the front was received.
    pub const BREAK_INTERRUPT: LSR = LSR(1 << 4);

    /// The transmitter holding register (THR), or with FIFOs the transmitter FIFO, is empty.
    pub const THR_EMPTY: LSR = LSR(1 << 5);

    /// The transmitter is idle: THR or the transmitter FIFO, and the shift register, are empty.
    pub const TRANSMITTER_EMPTY: LSR = LSR(1 << 6);

    /// Some character in the receiver FIFO has a parity error, a framing error or a break. Clear
    /// without FIFOs.
    pub const FIFO_DATA_ERROR: LSR = LSR(1 << 7);

    /// The errors of the character at the front: parity, framing and break.
    pub const CHARACTER_ERRORS: LSR = LSR(
        LSR::PARITY_ERROR.0 | LSR::FRAMING_ERROR.0 | LSR::BREAK_INTERRUPT.0,
    );

    /// The errors that a read clears: an overrun, and those of the character at the front.
    pub const LINE_ERRORS: LSR = LSR(LSR::OVERRUN_ERROR.0 | LSR::CHARACTER_ERRORS.0);

    /// All bits that report an error.
    pub const ERRORS: LSR = LSR(LSR::LINE_ERRORS.0 | LSR::FIFO_DATA_ERROR.0);

    const FLAGS: &'static [Flag<LSR>] = &[
        Flag {
            name: "DATA_READY",
            value: LSR::DATA_READY,
        },
        Flag {
            name: "OVERRUN_ERROR",
            value: LSR::OVERRUN_ERROR,
        },
        Flag {
            name: "PARITY_ERROR",
            value: LSR::PARITY_ERROR,
        },
        Flag {
            name: "FRAMING_ERROR",
            value: LSR::FRAMING_ERROR,
        },
        Flag {
            name: "BREAK_INTERRUPT",
            value: LSR::BREAK_INTERRUPT,
        },
        Flag {
            name: "THR_EMPTY",
            value: LSR::THR_EMPTY,
        },
        Flag {
            name: "TRANSMITTER_EMPTY",
            value: LSR::TRANSMITTER_EMPTY,
        },
        Flag {
            name: "FIFO_DATA_ERROR",
            value: LSR::FIFO_DATA_ERROR,
        },
    ];
}

impl Flags for LSR {
    type Bits = u8;

    fn flags<'a>() -> &'a [Flag<LSR>] {
        LSR::FLAGS
    }

    fn bits(&self) -> u8 {
        self.0
    }

    fn from_bits_retain(bits: u8) -> LSR {
        LSR(bits)
    }
}

impl MSR {
    /// CTS changed since the last read.
    pub const DELTA_CTS: MSR = MSR(1 << 0);

    /// DSR changed since the last read.
    pub const DELTA_DSR: MSR = MSR(1 << 1);

    /// RI went from set to clear since the last read.
    pub const TRAILING_EDGE_RI: MSR = MSR(1 << 2);

    /// CD changed since the last read.
    pub const DELTA_CD: MSR = MSR(1 << 3);

    /// Clear to send: the remote is ready to receive. Many cables do not drive this line.
    pub const CTS: MSR = MSR(1 << 4);

    /// Data set ready: the remote is present. Many cables do not drive this line.
    pub const DSR: MSR = MSR(1 << 5);

    /// Ring indicator.
    pub const RI: MSR = MSR(1 << 6);

    /// Carrier detect. Many cables do not drive this line.
    pub const CD: MSR = MSR(1 << 7);

    /// The four changes, which a read clears.
    pub const CHANGES: MSR = MSR(
        MSR::DELTA_CTS.0 | MSR::DELTA_DSR.0 | MSR::TRAILING_EDGE_RI.0 | MSR::DELTA_CD.0,
    );

    /// The four lines.
    pub const LINES: MSR = MSR(MSR::CTS.0 | MSR::DSR.0 | MSR::RI.0 | MSR::CD.0);

    const FLAGS: &'static [Flag<MSR>] = &[
        Flag {
            name: "DELTA_CTS",
            value: MSR::DELTA_CTS,
        },
        Flag {
            name: "DELTA_DSR",
            value: MSR::DELTA_DSR,
        },
        Flag {
            name: "TRAILING_EDGE_RI",
            value: MSR::TRAILING_EDGE_RI,
        },
        Flag {
            name: "DELTA_CD",
            value: MSR::DELTA_CD,
        },
        Flag {
            name: "CTS",
            value: MSR::CTS,
        },
        Flag {
            name: "DSR",
            value: MSR::DSR,
        },
        Flag {
            name: "RI",
            value: MSR::RI,
        },
        Flag {
            name: "CD",
            value: MSR::CD,
        },
    ];
}

impl Flags for MSR {
    type Bits = u8;

    fn flags<'a>() -> &'a [Flag<MSR>] {
        MSR::FLAGS
    }

    fn bits(&self) -> u8 {
        self.0
    }

    fn from_bits_retain(bits: u8) -> MSR {
        MSR(bits)
    }
}

impl PSD {
    /// Bit 0 of the prescaler division factor.
    pub const PDF0: PSD = PSD(1 << 0);

    /// Bit 1 of the prescaler division factor.
    pub const PDF1: PSD = PSD(1 << 1);

    /// Bit 2 of the prescaler division factor.
    pub const PDF2: PSD = PSD(1 << 2);

    /// Bit 3 of the prescaler division factor.
    pub const PDF3: PSD = PSD(1 << 3);

    /// No function.
    pub const _RESERVED0: PSD = PSD(1 << 4);

    /// No function.
    pub const _RESERVED1: PSD = PSD(1 << 5);

    /// No function.
    pub const _RESERVED2: PSD = PSD(1 << 6);

    /// No function.
    pub const _RESERVED3: PSD = PSD(1 << 7);

    const FLAGS: &'static [Flag<PSD>] = &[
        Flag {
            name: "PDF0",
            value: PSD::PDF0,
        },
        Flag {
            name: "PDF1",
            value: PSD::PDF1,
        },
        Flag {
            name: "PDF2",
            value: PSD::PDF2,
        },
        Flag {
            name: "PDF3",
            value: PSD::PDF3,
        },
        Flag {
            name: "_RESERVED0",
            value: PSD::_RESERVED0,
        },
        Flag {
            name: "_RESERVED1",
            value: PSD::_RESERVED1,
        },
        Flag {
            name: "_RESERVED2",
            value: PSD::_RESERVED2,
        },
        Flag {
            name: "_RESERVED3",
            value: PSD::_RESERVED3,
        },
    ];
}

impl Flags for PSD {
    type Bits = u8;

    fn flags<'a>() -> &'a [Flag<PSD>] {
        PSD::FLAGS
    }

    fn bits(&self) -> u8 {
        self.0
    }

    fn from_bits_retain(bits: u8) -> PSD {
        PSD(bits)
    }
}
