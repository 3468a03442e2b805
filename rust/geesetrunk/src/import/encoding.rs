//! What a file is that is no text of one byte a character, by its first bytes; and what programs leave around the lines of a text.

use std::fmt;

/// The mark that some programs write in front of UTF-8.
pub const BYTE_ORDER_MARK: &[u8] = b"\xef\xbb\xbf";

/// What a file is, and neither a log nor a script.
#[derive(Clone, Copy, Debug, PartialEq, Eq)]
pub enum Encoding {
    /// Compressed by gzip.
    Gzip,
    /// Compressed by zstd.
    Zstd,
    /// Compressed by xz.
    Xz,
    /// Compressed by bzip2.
    Bzip2,
    /// Text in UTF-16, which PowerShell writes.
    Utf16,
    /// A program, or its memory.
    Elf,
}

impl Encoding {
    const MARKS: [(&'static [u8], Encoding); 7] = [
        (b"\x1f\x8b", Encoding::Gzip),
        (b"\x28\xb5\x2f\xfd", Encoding::Zstd),
        (b"\xfd7zXZ\0", Encoding::Xz),
        (b"BZh", Encoding::Bzip2),
        (b"\xff\xfe", Encoding::Utf16),
        (b"\xfe\xff", Encoding::Utf16),
        (b"\x7fELF", Encoding::Elf),
    ];

    /// Returns what a file with these first bytes is, or `None` if they are none of it.
    pub fn of(bytes: &[u8]) -> Option<Self> {
        let mut marks = Encoding::MARKS.iter();
        marks
            .find(|(mark, _)| bytes.starts_with(mark))
            .map(|(_, encoding)| *encoding)
    }

    // Returns the program that makes a text of it, if one does.
    fn remedy(self) -> Option<&'static str> {
        match self {
            Encoding::Gzip => Some("zcat"),
            Encoding::Zstd => Some("zstdcat"),
            Encoding::Xz => Some("xzcat"),
            Encoding::Bzip2 => Some("bzcat"),
            Encoding::Utf16 => Some("iconv -f UTF-16 -t UTF-8"),
            Encoding::Elf => None,
        }
    }
}

/// Writes what the file is, and how it is read.
impl fmt::Display for Encoding {
    fn fmt(&self, f: &mut fmt::Formatter<'_>) -> fmt::Result {
        f.write_str(match self {
            Encoding::Gzip => "it is compressed by gzip",
            Encoding::Zstd => "it is compressed by zstd",
            Encoding::Xz => "it is compressed by xz",
            Encoding::Bzip2 => "it is compressed by bzip2",
            Encoding::Utf16 => "its text is in UTF-16",
            Encoding::Elf => "it is a program, and no text",
        })?;
        match self.remedy() {
            Some(program) => write!(f, ". Write {program} FILE | geesetrunk COMMAND"),
            None => Ok(()),
        }
    }
}

/// Returns whether lines end in a carriage return, by the first one.
pub fn has_carriage_returns(bytes: &[u8]) -> bool {
    let mut lines = bytes.split(|&byte| byte == b'\n');
    lines.next().is_some_and(|line| line.ends_with(b"\r"))
}

/// Returns a text without the mark of UTF-8 in front, and without the carriage return in which each line ends if the first one does. Lines
/// and columns stay as they are.
///
/// # Errors
///
/// What the bytes are, if they are no text of one byte a character.
///
/// # Examples
///
/// ```
/// use geesetrunk::import::{Encoding, text_in};
///
/// assert_eq!(text_in(b"\xef\xbb\xbflsr\r\nmsr\r\n".to_vec()), Ok(b"lsr\nmsr\n".to_vec()));
/// assert_eq!(text_in(b"\xff\xfel\0".to_vec()), Err(Encoding::Utf16));
/// ```
pub fn text_in(mut bytes: Vec<u8>) -> Result<Vec<u8>, Encoding> {
    if let Some(encoding) = Encoding::of(&bytes) {
        return Err(encoding);
    }
    if bytes.starts_with(BYTE_ORDER_MARK) {
        bytes.drain(..BYTE_ORDER_MARK.len());
    }
    if has_carriage_returns(&bytes) {
        // In place, since a trace may be long.
        let mut kept = 0;
        for at in 0..bytes.len() {
            let is_of_an_end =
                bytes[at] == b'\r' && matches!(bytes.get(at + 1), None | Some(b'\n'));
            if !is_of_an_end {
                bytes[kept] = bytes[at];
                kept += 1;
            }
        }
        bytes.truncate(kept);
    }
    Ok(bytes)
}

#[cfg(test)]
mod tests {
    use super::*;

    #[test]
    fn first_bytes_say_what_a_file_is() {
        for (bytes, encoding) in [
            (&b"\x1f\x8b\x08"[..], Some(Encoding::Gzip)),
            (b"\xfe\xff\0r", Some(Encoding::Utf16)),
            (b"\x7fELF\x02", Some(Encoding::Elf)),
            (b"r 5 60", None),
            (b"\xef\xbb\xbfr 5 60", None),
            (b"", None),
        ] {
            assert_eq!(Encoding::of(bytes), encoding, "{bytes:?}");
        }
        assert_eq!(text_in(b"a\rb\r\nc\r".to_vec()), Ok(b"a\rb\nc".to_vec()));
        // A carriage return that the first line has not is a byte of its line.
        assert_eq!(text_in(b"a\nb\r\n".to_vec()), Ok(b"a\nb\r\n".to_vec()));
        assert_eq!(
            Encoding::Zstd.to_string(),
            "it is compressed by zstd. Write zstdcat FILE | geesetrunk COMMAND"
        );
    }
}
