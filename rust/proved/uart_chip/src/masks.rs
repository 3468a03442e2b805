//! Masks of registers: what the chip keeps of a write. The registers themselves are those of the
//! driver; what a chip keeps is its own.

use bitflags::Flags;
use uart_spec::registers::{IER, MCR};

/// Returns what IER keeps of a write: the interrupts that the chip has.
#[must_use]
pub fn kept_interrupts(written: IER) -> IER {
    let receiver = IER::DATA_READY.union(IER::RECEIVER_LINE_STATUS);
    let others = IER::THR_EMPTY.union(IER::MODEM_STATUS);
    written.intersection(receiver.union(others))
}

/// Returns what MCR keeps of a write: the outputs and loopback.
#[must_use]
pub fn kept_modem_control(written: MCR) -> MCR {
    let outputs = MCR::DTR
        .union(MCR::RTS)
        .union(MCR::OUT_1)
        .union(MCR::OUT_2_INT_ENABLE);
    written.intersection(outputs.union(MCR::LOOP_BACK))
}

/// Returns what MCR keeps of a write on a chip that has automatic flow control, or has not.
#[must_use]
pub fn kept_modem_control_of(auto_flow: bool, written: MCR) -> MCR {
    let outputs = MCR::DTR
        .union(MCR::RTS)
        .union(MCR::OUT_1)
        .union(MCR::OUT_2_INT_ENABLE);
    if auto_flow {
        written.intersection(outputs.union(MCR::LOOP_BACK).union(MCR::AUTO_FLOW))
    } else {
        kept_modem_control(written)
    }
}
