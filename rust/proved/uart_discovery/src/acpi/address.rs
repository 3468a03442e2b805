//! Generic Address Structures, of 12 bytes.

use crate::bytes::le64;
use crate::errors::{TableError, TableFault};
use crate::port::AddressSpace;
use uart_spec::{ByteOrder, RegisterLayout, RegisterWidth};

// How many bytes such a structure has.
pub(crate) const ADDRESS_SIZE: usize = 12;

// The last I/O port at which eight registers can begin.
const LAST_PORT: u64 = 0xfff8;

// Where registers are, and how they lie.
#[derive(Clone, Copy, Debug)]
pub(crate) struct Registers {
    pub(crate) space: AddressSpace,
    pub(crate) base: u64,
    pub(crate) layout: RegisterLayout,
}

// Returns the width of an access.
//
// 0 is 'not defined': tables of the first versions of ACPI have it, and mean bytes.
fn access_width(size: u8) -> Option<RegisterWidth> {
    match size {
        0 | 1 => Some(RegisterWidth::Bits8),
        2 => Some(RegisterWidth::Bits16),
        3 => Some(RegisterWidth::Bits32),
        _ => None,
    }
}

// Returns where registers are that have their address at this offset of a table.
//
// The width of a register in the structure is not looked at. Where it is larger than that of an
// access, boards differ: the registers of QEMU's RISC-V board lie side by side, those of others do
// not. Linux takes the width of an access for the distance, and firmware is tried with Linux.
pub(crate) fn registers_at(table: &[u8], at: usize) -> Result<Registers, TableError> {
    let space = match table[at] {
        0 => AddressSpace::Memory,
        1 => AddressSpace::Ports,
        space => {
            return Err(TableError {
                offset: at,
                fault: TableFault::Space { space },
            });
        }
    };
    let bit = table[at + 2];
    if bit != 0 {
        return Err(TableError {
            offset: at + 2,
            fault: TableFault::BitOffset { bit },
        });
    }
    let base = le64(table, at + 4);
    if base == 0 {
        return Err(TableError {
            offset: at + 4,
            fault: TableFault::NoAddress,
        });
    }
    let width = match space {
        // Registers at I/O ports have one byte, whatever the table says of an access.
        AddressSpace::Ports => RegisterWidth::Bits8,
        AddressSpace::Memory => {
            let size = table[at + 3];
            match access_width(size) {
                Some(width) => width,
                None => {
                    return Err(TableError {
                        offset: at + 3,
                        fault: TableFault::AccessSize { size },
                    });
                }
            }
        }
    };
    if space == AddressSpace::Ports && base > LAST_PORT {
        return Err(TableError {
            offset: at + 4,
            fault: TableFault::BeyondPorts { base },
        });
    }
    Ok(Registers {
        space,
        base,
        layout: RegisterLayout {
            stride: width.bytes(),
            width,
            byte_order: ByteOrder::Little,
        },
    })
}
