//! Bytes as text, and lines of bytes.

use std::{String};

use std::alloc::{AllocError, Global};

// Returns the byte, or `?` if it is not printable ASCII.
fn printable_byte(byte: u8) -> u8 {
    if 0x20 <= byte && byte <= 0x7e {
        byte
    } else {
        b'?'
    }
}

/// Returns the bytes as text, with `?` in place of each that is not printable ASCII.
pub fn printable(alloc: Global, bytes: &[u8]) -> Result<String, AllocError> {
    let mut text = String::new(alloc);
    for byte in bytes {
        text.push(char::from(printable_byte(*byte)))?;
    }
    Ok(text)
}

/// Returns the line of the bytes with this index.
#[must_use]
pub fn line_at(bytes: &[u8], index: usize) -> &[u8] {
    bytes.split(|b| *b == b'\n').nth(index).unwrap_or(&[])
}
