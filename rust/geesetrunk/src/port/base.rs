//! The first port of a chip, as a word in hexadecimal digits.

use crate::end::End;
use uart_spec::registers::offsets;

// The last port at which a chip can begin.
const LAST_BASE: u16 = u16::MAX - offsets::SPR as u16;

// Returns the port with this number in hexadecimal digits, which have no sign.
fn port_numbered(digits: &str) -> Option<u16> {
    if digits.starts_with('+') {
        None
    } else {
        u16::from_str_radix(digits, 16).ok()
    }
}

/// Returns the first port of a chip, which a word names in hexadecimal digits with or without 0x.
///
/// # Errors
///
/// How the program ends if the word names no port, or if the last register would be beyond the last
/// port.
pub fn base_in(word: &str) -> Result<u16, End> {
    match port_numbered(word.strip_prefix("0x").unwrap_or(word)) {
        Some(port) if port <= LAST_BASE => Ok(port),
        Some(port) => Err(End::failed(format!(
            "port {port:x} is too high: a chip has eight ports, so its first one is at most {LAST_BASE:x}"
        ))),
        None => Err(End::failed(format!(
            "PORT must be a hexadecimal number up to {LAST_BASE:x}, such as 3f8"
        ))),
    }
}

#[cfg(test)]
mod tests {
    use super::*;

    #[test]
    fn a_port_is_hexadecimal() {
        let rows = [
            ("3f8", Some(0x3f8)),
            ("0x2F8", Some(0x2f8)),
            ("0", Some(0)),
            ("fff8", Some(0xfff8)),
            ("fff9", None),
            ("10000", None),
            ("", None),
            ("0x", None),
            ("+3f8", None),
            ("0x+3f8", None),
            ("-1", None),
            ("3g8", None),
            ("com1", None),
        ];
        for (word, port) in rows {
            assert_eq!(base_in(word).ok(), port, "at {word}");
        }
        let too_high = base_in("fff9").unwrap_err();
        let line =
            "port fff9 is too high: a chip has eight ports, so its first one is at most fff8";
        assert_eq!(too_high.line(), Some(line));
    }
}
