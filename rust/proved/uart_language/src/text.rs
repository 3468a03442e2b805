//! Cuts a script into lines and words.

/// Returns where the first line ends.
fn line_end(bytes: &[u8]) -> usize {
    bytes
        .iter()
        .position(|b| *b == b'\n')
        .unwrap_or(bytes.len())
}

/// Returns the first line, without its end, and what follows it.
#[must_use]
pub fn first_line(bytes: &[u8]) -> (&[u8], &[u8]) {
    let (line, rest) = bytes.split_at(line_end(bytes));
    match rest {
        [] => (line, rest),
        [_, after @ ..] => (line, after),
    }
}

/// Returns whether a line has a byte that no script may have.
#[must_use]
pub fn has_bad_byte(line: &[u8]) -> bool {
    line.iter().any(|b| *b < 0x20 || 0x7e < *b)
}

/// Returns the number of words of a line.
#[must_use]
pub fn word_count(line: &[u8]) -> usize {
    line.split(|b| *b == b' ').count()
}

/// Returns the word of the line with this index.
#[must_use]
pub fn word_at(line: &[u8], index: usize) -> &[u8] {
    line.split(|b| *b == b' ').nth(index).unwrap_or(&[])
}
