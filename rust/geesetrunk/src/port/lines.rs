//! The lines of a script that are calls, and those that no real chip can play.

use crate::text::{lines, words};

fn first_word(line: &[u8]) -> &[u8] {
    words(line).next().unwrap_or_default()
}

// Returns whether a line is an event of a schedule.
fn is_event(line: &[u8]) -> bool {
    matches!(first_word(line), b"tick" | b"arrive" | b"lines" | b"access")
}

/// Returns the number of the first line that is an event of a schedule, counted from 1.
pub fn event_line(text: &[u8]) -> Option<usize> {
    lines(text).position(is_event).map(|before| before + 1)
}

// Returns whether a line is a setting of the driver.
fn is_setting(line: &[u8]) -> bool {
    matches!(first_word(line), b"limit" | b"fifo-size")
}

/// Returns the lines of a script that are calls, if it has no events.
pub fn call_lines(text: &[u8]) -> impl Iterator<Item = &[u8]> {
    lines(text)
        .skip(1)
        .filter(|line| !line.is_empty() && !is_setting(line))
}

#[cfg(test)]
mod tests {
    use super::*;

    #[test]
    fn the_first_event_is_named() {
        let rows: [(&[u8], Option<usize>); 7] = [
            (b"chip 16550a 4 64\nlimit 3\n\nlsr\nnext\nsend 41", None),
            (b"chip 16550a 4 64\ntick 1", Some(2)),
            (b"chip 16550a 4 64\nlsr\n\narrive 41 p\ntick 1\n", Some(4)),
            (b"chip 16550a 4 64\nnext\nlines b\n", Some(3)),
            (b"chip 16550a 4 64\nlsr\nmsr\naccess\n", Some(4)),
            (b"chip 16550a 4 64\ntext 7469636b\n", None),
            (b"chip 16550a 4 64", None),
        ];
        for (text, line) in rows {
            assert_eq!(event_line(text), line);
        }
    }

    #[test]
    fn calls_are_neither_blank_nor_settings() {
        let text = b"chip 16550a 4 64\nlimit 3\nfifo-size 32\n\nlsr\nnext\n";
        assert_eq!(call_lines(text).collect::<Vec<_>>(), [&b"lsr"[..], b"next"]);
    }
}
