//! What is found out about a port.

use uart_spec::RegisterLayout;
use uart_spec::registers::{Parity, WordLength};

/// Which addresses the registers of a port have.
#[derive(Clone, Copy, Debug, PartialEq, Eq, Hash)]
pub enum AddressSpace {
    /// Those of memory.
    Memory,
    /// Those of I/O ports, as x86 has them.
    Ports,
}

/// How a port interrupts, in the words of the firmware that says it.
#[cfg_attr(not(feature = "exhaustive"), non_exhaustive)]
#[derive(Clone, Copy, Debug, PartialEq, Eq, Hash)]
pub enum Interrupt {
    /// A line of the two interrupt controllers 8259 of a PC.
    Isa(u8),
    /// A global system interrupt of ACPI.
    Global(u32),
    /// The first interrupt that a node of a device tree has, by `interrupts-extended` or by
    /// `interrupts`. What its cells mean is said by the binding of the controller.
    Cells {
        /// The phandle of the controller, if the tree names one.
        parent: Option<u32>,
        /// The cells.
        cells: [u32; 4],
        /// How many cells there are: as `#interrupt-cells` of the controller says. Without a
        /// controller they are the first four of the property, or as many as it has.
        count: u8,
    },
    /// A pin of a PCI function: 1 is INTA.
    Pin(u8),
}

/// How the bits of a character are framed. There is one stop bit.
#[derive(Clone, Copy, Debug, PartialEq, Eq, Hash)]
pub struct Frame {
    /// The number of data bits.
    pub data_bits: WordLength,
    /// The parity.
    pub parity: Parity,
}

/// A port: where its registers are, how they lie there, and how it is set up.
///
/// What the source does not say is `None`.
///
/// # Examples
///
/// ```
/// # use facade::{discovery::*, native::backend::ByteOrder, spec::registers::{Parity, WordLength}};
/// let port = read_earlycon(b"uart8250,io,0x3f8,115200n8", ByteOrder::Little)?;
/// assert_eq!(port.base, 0x3f8);
/// assert_eq!(port.baud_rate, Some(115_200));
/// assert_eq!(port.has_flow_control, false);
/// # Ok::<(), OptionError>(())
/// ```
#[derive(Clone, Copy, Debug, PartialEq, Eq, Hash)]
pub struct PortDescription {
    /// Which addresses the registers have.
    pub space: AddressSpace,
    /// The address of the first register.
    pub base: u64,
    /// How the registers lie from there on.
    pub layout: RegisterLayout,
    /// The frequency of the clock of the baud rate generator, in hertz.
    pub clock: Option<u32>,
    /// The baud rate at which the port is, or is to be.
    pub baud_rate: Option<u32>,
    /// The frame of a character.
    pub frame: Option<Frame>,
    /// Whether it is said that RTS and CTS hold a sender back.
    pub has_flow_control: bool,
    /// How the port interrupts.
    pub interrupt: Option<Interrupt>,
}
