//! Why no port is described.

use std::fmt;

/// What is wrong with a table of ACPI.
#[cfg_attr(not(feature = "exhaustive"), non_exhaustive)]
#[derive(Clone, Copy, Debug, PartialEq, Eq, Hash)]
pub enum TableFault {
    /// The bytes end before a field that is needed.
    TooShort,
    /// The table is another one.
    Signature,
    /// The table says that it is shorter than its header, or longer than the bytes that are there.
    Length,
    /// The sum of the bytes of the table is not 0.
    Checksum {
        /// The sum.
        sum: u8,
    },
    /// The port has another interface than a 16550 has.
    Interface {
        /// The interface, in the numbers of the table.
        interface: u16,
    },
    /// The registers are neither in memory nor at I/O ports.
    Space {
        /// The address space, in the numbers of ACPI.
        space: u8,
    },
    /// A register does not begin at the lowest bit of its address.
    BitOffset {
        /// The bit at which it begins.
        bit: u8,
    },
    /// An access has neither 8 nor 16 nor 32 bits.
    AccessSize {
        /// The size, in the numbers of ACPI.
        size: u8,
    },
    /// There is no address: the console is turned off.
    NoAddress,
    /// The last register would be beyond the last I/O port.
    BeyondPorts {
        /// The first I/O port.
        base: u64,
    },
    /// The number for the baud rate has no meaning.
    BaudRate {
        /// The number.
        code: u8,
    },
    /// No device of the table is a serial port with the interface of a 16550.
    NoPort,
}

#[automatically_derived]
impl std::fmt::Display for TableFault {
    fn fmt(&self, f: &mut std::fmt::Formatter<'_>) -> std::fmt::Result {
        match self {
            Self::TooShort => { ({ (f.write_fmt(format_args!("the table ends too early"))) }) }
            Self::Signature => { ({ (f.write_fmt(format_args!("the signature is another one"))) }) }
            Self::Length => { ({ (f.write_fmt(format_args!("the length is wrong"))) }) }
            Self::Checksum { sum } => {
                ({ (f.write_fmt(format_args!("the checksum is wrong: the sum is {sum:#04x}"))) })
            }
            Self::Interface { interface } => {
                ({ (f.write_fmt(format_args!("interface {interface:#x} is not that of a 16550"))) })
            }
            Self::Space { space } => {
                ({
                    (f.write_fmt(format_args!(
                        "address space {space} is neither memory nor I/O ports"
                    )))
                })
            }
            Self::BitOffset { bit } => {
                ({ (f.write_fmt(format_args!("the registers begin at bit {bit}"))) })
            }
            Self::AccessSize { size } => {
                ({ (f.write_fmt(format_args!("access size {size} is none of 8, 16 and 32 bits"))) })
            }
            Self::NoAddress => { ({ (f.write_fmt(format_args!("there is no address"))) }) }
            Self::BeyondPorts { base } => {
                ({
                    (f.write_fmt(format_args!(
                        "the registers at {base:#x} are beyond the last I/O port"
                    )))
                })
            }
            Self::BaudRate { code } => {
                ({ (f.write_fmt(format_args!("baud rate {code} has no meaning"))) })
            }
            Self::NoPort => { ({ (f.write_fmt(format_args!("no device is a 16550"))) }) }
        }
    }
}

#[automatically_derived]
impl std::error::Error for TableFault {}

/// What is wrong with a table of ACPI, and where.
#[derive(Clone, Copy, Debug, PartialEq, Eq, Hash)]
pub struct TableError {
    /// The offset of the field that is wrong. If bytes are missing, how many are there.
    pub offset: usize,
    /// What is wrong.
    pub fault: TableFault,
}

#[automatically_derived]
impl std::fmt::Display for TableError {
    fn fmt(&self, f: &mut std::fmt::Formatter<'_>) -> std::fmt::Result {
        match self {
            Self { offset, fault } => {
                ({ (f.write_fmt(format_args!("{fault}, at offset {offset}"))) })
            }
        }
    }
}

#[automatically_derived]
impl std::error::Error for TableError {}

/// What is wrong with an option of a kernel's command line.
#[cfg_attr(not(feature = "exhaustive"), non_exhaustive)]
#[derive(Clone, Copy, Debug, PartialEq, Eq, Hash)]
pub enum OptionError {
    /// The name is not that of a port with the interface of a 16550.
    Name,
    /// The kind of access is none of `io`, `mmio`, `mmio16`, `mmio32`, `mmio32be` and
    /// `mmio32native`, and no address has its place.
    Access,
    /// The address is not written as `0x` and 1 to 16 hexadecimal digits, or is 0.
    Address,
    /// The last register would be beyond the last I/O port.
    BeyondPorts,
    /// The baud rate is not 1 to 9 decimal digits, or is 0.
    BaudRate,
    /// Behind the baud rate stands no frame: a parity, which is `n`, `o` or `e`, then the number of
    /// data bits, from `5` to `8`, then `r` for flow control. The last two may be left out.
    Frame,
    /// The frequency of the clock is not 1 to 9 decimal digits, or is 0.
    Clock,
    /// There is more than an option has.
    TooMany,
}

#[automatically_derived]
impl std::fmt::Display for OptionError {
    fn fmt(&self, f: &mut std::fmt::Formatter<'_>) -> std::fmt::Result {
        match self {
            Self::Name => { ({ (f.write_fmt(format_args!("the name is not that of a 16550"))) }) }
            Self::Access => {
                ({ (f.write_fmt(format_args!("the kind of access has no meaning"))) })
            }
            Self::Address => { ({ (f.write_fmt(format_args!("the address has a wrong form"))) }) }
            Self::BeyondPorts => {
                ({ (f.write_fmt(format_args!("the registers are beyond the last I/O port"))) })
            }
            Self::BaudRate => {
                ({ (f.write_fmt(format_args!("the baud rate has a wrong form"))) })
            }
            Self::Frame => {
                ({ (f.write_fmt(format_args!("the frame behind the baud rate has no meaning"))) })
            }
            Self::Clock => {
                ({ (f.write_fmt(format_args!("the frequency of the clock has a wrong form"))) })
            }
            Self::TooMany => { ({ (f.write_fmt(format_args!("there are too many parts"))) }) }
        }
    }
}

#[automatically_derived]
impl std::error::Error for OptionError {}

/// Why the configuration of a PCI function describes no port.
#[cfg_attr(not(feature = "exhaustive"), non_exhaustive)]
#[derive(Clone, Copy, Debug, PartialEq, Eq, Hash)]
pub enum PciError {
    /// There are fewer than the 64 bytes of a configuration's header.
    TooShort,
    /// The header is not that of a device, but of a bridge.
    HeaderKind {
        /// The type, of seven bits.
        kind: u8,
    },
    /// The function is not a serial port with the interface of a 16550 or a later one.
    Class {
        /// The class, the subclass and the interface, in the lowest 24 bits.
        class: u32,
    },
    /// The function has fewer ports, or nothing is known of more than its first.
    Port {
        /// The number of the port, from 0 on.
        port: u8,
    },
    /// The first base address register has a kind of which nothing is known.
    BaseKind {
        /// What is in the register.
        bar: u32,
    },
    /// The registers have no address yet.
    NoAddress,
    /// The last register would be beyond the last address.
    BeyondAddresses {
        /// The address of the function's registers.
        base: u64,
    },
}

#[automatically_derived]
impl std::fmt::Display for PciError {
    fn fmt(&self, f: &mut std::fmt::Formatter<'_>) -> std::fmt::Result {
        match self {
            Self::TooShort => { ({ (f.write_fmt(format_args!("the header ends too early"))) }) }
            Self::HeaderKind { kind } => {
                ({ (f.write_fmt(format_args!("the header has type {kind:#04x}"))) })
            }
            Self::Class { class } => {
                ({ (f.write_fmt(format_args!("class {class:#08x} is not that of a 16550"))) })
            }
            Self::Port { port } => {
                ({ (f.write_fmt(format_args!("nothing is known of port {port}"))) })
            }
            Self::BaseKind { bar } => {
                ({ (f.write_fmt(format_args!("base address {bar:#010x} has an unknown kind"))) })
            }
            Self::NoAddress => { ({ (f.write_fmt(format_args!("there is no address"))) }) }
            Self::BeyondAddresses { base } => {
                ({
                    (f.write_fmt(format_args!(
                        "the registers at {base:#x} are beyond the last address"
                    )))
                })
            }
        }
    }
}

#[automatically_derived]
impl std::error::Error for PciError {}

/// Why a device tree describes no port.
#[cfg_attr(not(feature = "exhaustive"), non_exhaustive)]
#[derive(Clone, Copy, Debug, PartialEq, Eq, Hash)]
pub enum TreeError {
    /// The bytes end before the tree does, or a part of the tree is outside of it.
    Truncated,
    /// The bytes are no device tree.
    Magic,
    /// The tree needs a reader of a later version than 17.
    Version,
    /// There is no such node.
    NoNode,
    /// The path has more than 16 nodes.
    Depth,
    /// Neither `stdout-path` nor `linux,stdout-path` is in `/chosen`.
    NoConsole,
    /// What `compatible` says of the node is not that it is a 16550.
    NotCompatible,
    /// The node says that it is not to be used.
    Disabled,
    /// The node has no `reg`.
    NoAddress,
    /// Addresses or sizes have neither one nor two cells, as on a PCI bus. They are not followed.
    Cells,
    /// A bus on the way has no `ranges`, or none of them has the address: the processor has no
    /// address for it.
    Untranslated,
    /// A property has another size than it is to have.
    PropertySize,
    /// `reg-shift` is more than 7.
    Stride,
    /// `reg-io-width` is none of 1, 2 and 4.
    Width,
    /// What stands behind the path of the console has another form than `115200n8`.
    Options(OptionError),
}

#[automatically_derived]
impl std::fmt::Display for TreeError {
    fn fmt(&self, f: &mut std::fmt::Formatter<'_>) -> std::fmt::Result {
        match self {
            Self::Truncated => { ({ (f.write_fmt(format_args!("the tree ends too early"))) }) }
            Self::Magic => { ({ (f.write_fmt(format_args!("the bytes are no device tree"))) }) }
            Self::Version => { ({ (f.write_fmt(format_args!("the tree has a later version"))) }) }
            Self::NoNode => { ({ (f.write_fmt(format_args!("there is no such node"))) }) }
            Self::Depth => { ({ (f.write_fmt(format_args!("the path is too long"))) }) }
            Self::NoConsole => { ({ (f.write_fmt(format_args!("the tree names no console"))) }) }
            Self::NotCompatible => { ({ (f.write_fmt(format_args!("the node is not a 16550"))) }) }
            Self::Disabled => { ({ (f.write_fmt(format_args!("the node is disabled"))) }) }
            Self::NoAddress => { ({ (f.write_fmt(format_args!("the node has no address"))) }) }
            Self::Cells => {
                ({
                    (f.write_fmt(format_args!("addresses of more than two cells are not followed")))
                })
            }
            Self::Untranslated => {
                ({ (f.write_fmt(format_args!("the address is in no range of a bus"))) })
            }
            Self::PropertySize => {
                ({ (f.write_fmt(format_args!("a property has a wrong size"))) })
            }
            Self::Stride => { ({ (f.write_fmt(format_args!("the registers are too far apart"))) }) }
            Self::Width => {
                ({ (f.write_fmt(format_args!("the registers have an unknown width"))) })
            }
            Self::Options(_0) => {
                ({ (f.write_fmt(format_fields!("the options of the console: {0}", _0))) })
            }
        }
    }
}
