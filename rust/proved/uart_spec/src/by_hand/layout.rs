//! Layouts of registers that depend on the processor, of which a proof knows nothing.

use crate::{ByteOrder, RegisterLayout, RegisterWidth};

impl ByteOrder {
    /// The order that the processor has: no byte is moved.
    pub const NATIVE: Self = if u16::from_ne_bytes([0, 1]) == 1 {
        ByteOrder::Big
    } else {
        ByteOrder::Little
    };
}

impl RegisterLayout {
    /// Registers of 32 bits, one behind the other, in the byte order of the processor.
    pub const WORDS: Self = RegisterLayout {
        stride: 4,
        width: RegisterWidth::Bits32,
        byte_order: ByteOrder::NATIVE,
    };
}
