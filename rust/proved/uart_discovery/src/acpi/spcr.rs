//! The table SPCR: the console of the firmware.

use crate::acpi::address::registers_at;
use crate::acpi::table::checked_table;
use crate::bytes::le32;
use crate::errors::{TableError, TableFault};
use crate::port::{Interrupt, PortDescription};

// Where the fields are.
const REVISION: usize = 8;

const INTERFACE: usize = 36;

const BASE_ADDRESS: usize = 40;

const INTERRUPT_TYPE: usize = 52;

const ISA_INTERRUPT: usize = 53;

const GLOBAL_INTERRUPT: usize = 54;

const BAUD_RATE: usize = 58;

const FLOW_CONTROL: usize = 61;

const CLOCK: usize = 76;

const PRECISE_BAUD_RATE: usize = 80;

// How many bytes a table of revision 1 or 2 has, and up to which a table of revision 4 has the
// precise baud rate.
const SHORTEST: usize = 80;

const WITH_PRECISE_BAUD_RATE: usize = 84;

// The revision from which on there is the frequency of the clock, and that with the precise baud
// rate.
const HAS_CLOCK: u8 = 3;

const HAS_PRECISE_BAUD_RATE: u8 = 4;

// The bit of the interrupt type for the 8259, and those for all other controllers.
const IS_ISA: u8 = 0x01;

const IS_GLOBAL: u8 = 0x1e;

// The bit of the flow control for RTS and CTS.
const BY_RTS: u8 = 0x02;

// Returns whether a port has the interface of a 16550: 0 is a 16550, 1 one that some debuggers
// know, in the first revision a 16450, and 0x12 one whose layout the address says.
pub(crate) fn is_16550(interface: u16) -> bool {
    interface == 0 || interface == 1 || interface == 0x12
}

// Returns the baud rate for a number, where 0 means that the port stays as it is.
fn rate_of_code(code: u8) -> Option<Option<u32>> {
    match code {
        0 => Some(None),
        3 => Some(Some(9_600)),
        4 => Some(Some(19_200)),
        6 => Some(Some(57_600)),
        7 => Some(Some(115_200)),
        _ => None,
    }
}

// Returns the precise baud rate, or 0 if there is none.
fn precise_rate(table: &[u8]) -> u32 {
    if HAS_PRECISE_BAUD_RATE <= table[REVISION] && WITH_PRECISE_BAUD_RATE <= table.len() {
        le32(table, PRECISE_BAUD_RATE)
    } else {
        0
    }
}

// Returns the baud rate, if the number for it has a meaning. A precise one has the place of it.
fn rate_of(table: &[u8]) -> Option<Option<u32>> {
    match precise_rate(table) {
        0 => rate_of_code(table[BAUD_RATE]),
        rate => Some(Some(rate)),
    }
}

// Returns the frequency of the clock, which the first revisions do not say.
fn clock_of(table: &[u8]) -> Option<u32> {
    let clock = le32(table, CLOCK);
    if table[REVISION] < HAS_CLOCK || clock == 0 {
        None
    } else {
        Some(clock)
    }
}

// Returns the interrupt. One that is for a controller of today counts before that of the 8259.
fn interrupt_of(table: &[u8]) -> Option<Interrupt> {
    let kinds = table[INTERRUPT_TYPE];
    if kinds & IS_GLOBAL != 0 {
        Some(Interrupt::Global(le32(table, GLOBAL_INTERRUPT)))
    } else if kinds & IS_ISA != 0 {
        Some(Interrupt::Isa(table[ISA_INTERRUPT]))
    } else {
        None
    }
}

/// Returns the port of an ACPI table SPCR, of any revision: the console that the firmware uses.
///
/// The bytes may go on behind the table. The registers lie as far apart as an access is wide, as
/// Linux takes them: what the table says of the width of a register is not looked at.
///
/// # Errors
///
/// The first fault, with the offset at which it is.
///
/// # Examples
///
/// ```
/// # use facade::{discovery::*, native::backend::ByteOrder, spec::registers::{Parity, WordLength}};
/// let error = TableError { offset: 0, fault: TableFault::TooShort };
/// assert_eq!(read_spcr(&[]), Err(error));
/// ```
///
/// # Proved
///
/// - *table*: if it returns `Ok port`: [`IsTable`](crate::proved::acpi#IsTable) `SPCR bytes.now`: bytes begin with a whole table that has this signature, and whose bytes have the sum 0.
///   - [`SPCR`](crate::proved::spcr#SPCR): the signature of the table.
/// - *port*: if it returns `Ok`, for its value [`SaysPort`](crate::proved::spcr#SaysPort) `(table_of bytes.now)`: the table says that there is this port.
///   - [`table_of`](crate::proved::acpi#table_of): the bytes of a table, as many as its length says.
/// - *err*: if it returns `Err`, for its value [`IsFault`](crate::proved::spcr#IsFault) `bytes.now`: an error about the table, and about the bytes before it was known to be one.
///
/// <details><summary>The clauses</summary>
///
/// [How to read them](uart_spec::proved):
///
/// ```text
/// ensures table { IfOk result (λ port. IsTable SPCR bytes.now) }
/// ensures port { IfOk result (SaysPort (table_of bytes.now)) }
/// ensures err { IfErr result (IsFault bytes.now) }
/// ```
///
/// </details>
pub fn read_spcr(bytes: &[u8]) -> Result<PortDescription, TableError> {
    let table = checked_table(bytes, b"SPCR".as_slice())?;
    if table.len() < SHORTEST {
        return Err(TableError {
            offset: table.len(),
            fault: TableFault::TooShort,
        });
    }
    let interface = u16::from(table[INTERFACE]);
    if !is_16550(interface) {
        return Err(TableError {
            offset: INTERFACE,
            fault: TableFault::Interface { interface },
        });
    }
    let registers = registers_at(table, BASE_ADDRESS)?;
    let Some(baud_rate) = rate_of(table) else {
        return Err(TableError {
            offset: BAUD_RATE,
            fault: TableFault::BaudRate {
                code: table[BAUD_RATE],
            },
        });
    };
    Ok(PortDescription {
        space: registers.space,
        base: registers.base,
        layout: registers.layout,
        clock: clock_of(table),
        baud_rate,
        // The table knows no other parity than none, and says no number of data bits.
        frame: None,
        has_flow_control: table[FLOW_CONTROL] & BY_RTS != 0,
        interrupt: interrupt_of(table),
    })
}
