//! What a chip has beyond a 16550A: the automatic flow control and the size switch of a 16750.

/// What a chip has beyond a 16550A.
// A type of its own for chips that have nothing more, as those of monitors: what they do is then
// compiled as if there was none of it.
pub trait Capabilities {
    /// Returns what a 16550A has, which is none of it.
    fn none() -> Self;

    /// Returns whether the chip has automatic flow control: MCR bit 5, by which the transmitter
    /// obeys CTS, and the receiver switches RTS.
    fn has_auto_flow(&self) -> bool;

    /// Returns whether the chip has the size switch: FCR bit 5, which under DLAB switches the FIFOs
    /// between 16 characters and 64.
    fn has_size_switch(&self) -> bool;
}

/// What a chip has beyond a 16550A, each part of it or not.
#[derive(Clone, Copy)]
pub struct ChosenCapabilities {
    /// Whether the chip has automatic flow control.
    pub auto_flow: bool,
    /// Whether the chip has the size switch.
    pub size_switch: bool,
}

impl Capabilities for ChosenCapabilities {
    fn none() -> Self {
        ChosenCapabilities {
            auto_flow: false,
            size_switch: false,
        }
    }

    fn has_auto_flow(&self) -> bool {
        self.auto_flow
    }

    fn has_size_switch(&self) -> bool {
        self.size_switch
    }
}

/// What a 16550A or a 16450 has beyond a 16550A: nothing.
#[derive(Clone, Copy)]
pub struct NoCapabilities;

impl Capabilities for NoCapabilities {
    fn none() -> Self {
        NoCapabilities
    }

    fn has_auto_flow(&self) -> bool {
        false
    }

    fn has_size_switch(&self) -> bool {
        false
    }
}
