//! What all tables of ACPI begin with.

use crate::bytes::{checksum, le32};
use crate::errors::{TableError, TableFault};

// How many bytes all tables begin with.
pub(crate) const HEADER: usize = 36;
// Where the length and the checksum of a table are.
const LENGTH: usize = 4;

const CHECKSUM: usize = 9;

// Returns the bytes of a table, if they are all there and right.
pub(crate) fn checked_table<'a>(bytes: &'a [u8], signature: &[u8]) -> Result<&'a [u8], TableError> {
    if bytes.len() < HEADER {
        return Err(TableError {
            offset: bytes.len(),
            fault: TableFault::TooShort,
        });
    }
    if &bytes[..4] != signature {
        return Err(TableError {
            offset: 0,
            fault: TableFault::Signature,
        });
    }
    let length = le32(bytes, LENGTH) as usize;
    if length < HEADER || bytes.len() < length {
        return Err(TableError {
            offset: LENGTH,
            fault: TableFault::Length,
        });
    }
    let table = &bytes[..length];
    let sum = checksum(table);
    if sum != 0 {
        return Err(TableError {
            offset: CHECKSUM,
            fault: TableFault::Checksum { sum },
        });
    }
    Ok(table)
}
