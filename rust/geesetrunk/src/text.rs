//! Bytes as text, lines and words.

use std::path::Path;

/// The name of the file that stands for standard input.
pub const STANDARD_INPUT: &str = "-";

/// Returns the bytes as text, with `?` in place of each that is not printable ASCII.
///
/// # Examples
///
/// ```
/// use geesetrunk::text::printable;
///
/// assert_eq!(printable(b"lsr\t"), "lsr?");
/// ```
pub fn printable(bytes: &[u8]) -> String {
    bytes
        .iter()
        .map(|&byte| match byte {
            b' '..=b'~' => char::from(byte),
            _ => '?',
        })
        .collect()
}

/// Returns a count with its noun.
///
/// # Examples
///
/// ```
/// use geesetrunk::text::counted;
///
/// assert_eq!(counted(1, "line"), "1 line");
/// assert_eq!(counted(0, "warning"), "0 warnings");
/// ```
pub fn counted(count: u64, noun: &str) -> String {
    match count {
        1 => format!("1 {noun}"),
        _ => format!("{count} {noun}s"),
    }
}

/// Returns the line of the bytes with this index, or an empty one if there are fewer lines.
pub fn line_at(bytes: &[u8], index: usize) -> &[u8] {
    lines(bytes).nth(index).unwrap_or_default()
}

/// Returns the lines, without their ends.
pub fn lines(bytes: &[u8]) -> impl Iterator<Item = &[u8]> {
    bytes.split(|&byte| byte == b'\n')
}

/// Returns the words of a line. Between two spaces is an empty word.
pub fn words(line: &[u8]) -> impl Iterator<Item = &[u8]> {
    line.split(|&byte| byte == b' ')
}

/// Returns the name of a file without the folders that it lies in. Standard input has words for it.
///
/// # Examples
///
/// ```
/// use geesetrunk::text::file_name;
///
/// assert_eq!(file_name("examples/send.script"), "send.script");
/// assert_eq!(file_name("-"), "standard input");
/// ```
pub fn file_name(file: &str) -> &str {
    if file == STANDARD_INPUT {
        return "standard input";
    }
    let name = Path::new(file).file_name();
    name.and_then(|name| name.to_str()).unwrap_or(file)
}

#[cfg(test)]
mod tests {
    use super::*;

    #[test]
    fn what_is_not_printable_is_a_question_mark() {
        assert_eq!(printable(b"a\tb\x7f\xff ~"), "a?b?? ~");
    }

    #[test]
    fn a_line_that_is_not_there_is_empty() {
        assert_eq!(line_at(b"one\ntwo", 1), b"two");
        assert_eq!(line_at(b"one\ntwo", 2), b"");
    }

    #[test]
    fn names_of_files() {
        assert_eq!(file_name("/folder/a.script"), "a.script");
        assert_eq!(file_name("a.script"), "a.script");
        assert_eq!(file_name("-"), "standard input");
        assert_eq!(file_name(".."), "..");
    }
}
